//! A sheet's text form, from its bytes.

use crate::rows::bytes;
use sheets::mark::Places;
use sheets::Mark;
use std::fmt::Write;

/// The text of sheet T, as it is typed.
pub const T: &str = "chip 3 by 2\nkind subset\nwidth 2\nnet 1: 0 1-0\nnet 2: 1 5-1\nnet 3: 0 5-0\n";

/// T's nets in the inner box (1,1) of a 4 by 4 chip: channel 3 on its left, 4 on
/// its right and 17 on its top, for 0, 1 and 5.
pub const INNER: &str =
    "chip 4 by 4\nkind subset\nwidth 2\nnet 1: 3 4-3\nnet 2: 4 17-4\nnet 3: 3 17-3\n";

fn word(bytes: &[u8], at: usize) -> Option<u16> {
    Some(u16::from_le_bytes([*bytes.get(at)?, *bytes.get(at + 1)?]))
}

/// The text that packs to these bytes, if there is one: accepted sheets have it,
/// and refused ones that are laid out as a sheet is.
pub fn of(sheet: &[u8]) -> Option<String> {
    let trailer = sheet.len().checked_sub(12)?;
    let fits = word(sheet, trailer + 8)? as usize == sheet.len();
    let mark = Mark::of(sheet).filter(|_| fits)?;
    let [a, b, kind, w] = [0, 1, 2, 3].map(|place| sheet[trailer + place]);
    let (kind, rows) = match kind {
        0 => ("subset".to_string(), 0),
        1 => ("wilton".to_string(), 0),
        2 => ("universal".to_string(), 0),
        3 => (bytes::words(bytes::of(sheet)?)?, 12),
        other => (other.to_string(), 0),
    };
    let mut text = match mark {
        Mark::Short => String::new(),
        Mark::Long => "mark 57 49\n".to_string(),
    };
    text += &format!("chip {a} by {b}\nkind {kind}\nwidth {w}\n");
    let nets = usize::from(word(sheet, trailer + 4)?);
    let directory = usize::from(word(sheet, trailer + 6)?);
    let mut at = 0;
    for net in 0..nets {
        if usize::from(word(sheet, directory + 2 * net)?) != at {
            return None;
        }
        let (line, end) = record(sheet, mark.places(), at)?;
        text.push_str(&line);
        at = end;
    }
    (at == directory && at + 2 * nets + rows == trailer).then_some(text)
}

/// The line of the record at an offset, and where the record ends.
fn record(sheet: &[u8], places: Places, at: usize) -> Option<(String, usize)> {
    let count = usize::from(word(sheet, at + places.count)?);
    let mut line = format!("net {}:", places.number_in(&sheet[at..]));
    let mut channels: Vec<u16> = Vec::new();
    for place in 0..count {
        let channel = word(sheet, at + places.entry(place))?;
        let parent = word(sheet, at + places.entry(place) + 2)?;
        write!(line, " {channel}").expect("text takes text");
        if parent != 65535 {
            let joined = *channels.get(usize::from(parent))?;
            // A parent is written as a channel, which means its first entry.
            let first = channels.iter().position(|&other| other == joined);
            if first != Some(usize::from(parent)) {
                return None;
            }
            write!(line, "-{joined}").expect("text takes text");
        }
        channels.push(channel);
    }
    line.push('\n');
    Some((line, at + places.record(count)))
}
