//! Lists of dead wires: their bytes, and their text (docs/FORMATS.md).
//!
//! ```
//! use trackrouter::chip::Wire;
//! use trackrouter::dead::{bytes, parse, read, write};
//!
//! let list = parse("5.1 # cracked\n0.2\n").unwrap();
//! assert_eq!(list, [Wire { channel: 5, track: 1 }, Wire { channel: 0, track: 2 }]);
//! assert_eq!(bytes(&list), [5, 0, 1, 0, 0, 2]);
//! assert_eq!(read(&bytes(&list)).as_ref(), Some(&list));
//! assert_eq!(write(&list), "5.1\n0.2\n");
//! ```

use crate::chip::Wire;
use crate::text::words::{at, lines, wire};
use crate::text::TextError;
use crate::DEAD_ITEM;
use alloc::format;
use alloc::string::String;
use alloc::vec::Vec;

/// The list's bytes. What the library refuses can be built too, so that it can say why.
pub fn bytes(list: &[Wire]) -> Vec<u8> {
    list.iter().flat_map(|wire| wire.bytes()).collect()
}

/// The wires of a list in bytes, in its order; `None` if it is not of whole items.
pub fn read(bytes: &[u8]) -> Option<Vec<Wire>> {
    let item = |item: &[u8]| item.try_into().ok().map(Wire::from_bytes);
    bytes.chunks(DEAD_ITEM).map(item).collect()
}

/// The list's text, in the one layout: a line for each wire. `parse` gives every list back from it.
pub fn write(list: &[Wire]) -> String {
    list.iter().map(|wire| format!("{wire}\n")).collect()
}

/// The list that the text says: `CHANNEL.TRACK` for each wire, one or more in a line.
pub fn parse(text: &str) -> Result<Vec<Wire>, TextError> {
    let said = said(text).map(|(line, word)| wire(word).map_err(at(line)));
    said.collect()
}

/// The number of the line, from 1, that has the item at this place, from 0, in a list's text.
pub fn line_of(text: &str, item: usize) -> Option<usize> {
    said(text).nth(item).map(|(line, _)| line)
}

/// The words that the text says, each with the number of its line.
fn said(text: &str) -> impl Iterator<Item = (usize, &str)> {
    lines(text).flat_map(|(line, first, rest)| {
        let words = core::iter::once(first).chain(rest);
        words.map(move |word| (line, word))
    })
}
