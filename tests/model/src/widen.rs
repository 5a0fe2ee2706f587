//! The twin of a sheet under the other mark, 02 M-106: a sheet marked 57 48 is
//! copied byte by byte into one marked 57 49. Whether it is accepted is asked of
//! the reader; where its records stand is taken from its own directory.
//!
//! The twins are relistings with equal orders, so every call but Record and the
//! standard form gives both the same answer and the same bytes, and the printed
//! lines are the same. Record's part at place k starts 2·k bytes later and is 2
//! bytes longer. The twin's standard form is the twin of the standard form.

use crate::mark::Mark;
use crate::sheet::parse;

/// The sheet with each number widened, its records and entries in the same order.
/// `None` if it is not accepted, or not marked 57 48.
pub fn widened(bytes: &[u8]) -> Option<Vec<u8>> {
    parse(bytes).ok().filter(|s| s.mark == Mark::Short)?;
    let trailer = bytes.len() - 12;
    let field = |at: usize| usize::from(u16::from_le_bytes([bytes[at], bytes[at + 1]]));
    let (count, directory) = (field(trailer + 4), field(trailer + 6));
    let start = |place: usize| match place {
        _ if place == count => directory,
        _ => field(directory + 2 * place),
    };

    let mut out = Vec::new();
    for place in 0..count {
        let (number, rest) = bytes[start(place)..start(place + 1)].split_at(2);
        out.extend([number, &[0, 0], rest].concat());
    }
    // A record is moved by the 2 bytes of each one before it, the directory by
    // those of all.
    for place in 0..count {
        out.extend(u16_bytes(start(place) + 2 * place));
    }
    out.extend(&bytes[directory + 2 * count..trailer + 6]);
    out.extend(u16_bytes(directory + 2 * count));
    out.extend(u16_bytes(bytes.len() + 2 * count));
    out.extend([0x57, 0x49]);
    Some(out)
}

fn u16_bytes(number: usize) -> [u8; 2] {
    let number = u16::try_from(number).expect("a longer sheet has 8,728 bytes at most");
    number.to_le_bytes()
}
