//! Numbers 1 to 4: a sheet's length and its trailer.

use super::parts::at_byte;
use super::Fault;
use crate::chip::Chip;
use crate::layout::{self, word, Mark, LENGTH, MARK_AT, NET_COUNT, TRAILER};
use crate::{number, KINDS, MAX_NETS, MAX_SHEET, MAX_WIDTH};
use alloc::format;
use alloc::string::String;
use alloc::vec::Vec;

/// Where the trailer starts, and its mark.
pub fn start(bytes: &[u8]) -> Result<(usize, Mark), Fault> {
    length(bytes)?;
    let trailer = bytes.len() - TRAILER;
    let mark = mark(bytes, trailer)?;
    chip(bytes, trailer)?;
    crowd(bytes, trailer)?;
    Ok((trailer, mark))
}

/// Number 1.
fn length(bytes: &[u8]) -> Result<(), Fault> {
    let has = bytes.len();
    let finding = if has < TRAILER {
        format!("the sheet has {has} bytes, fewer than {TRAILER}")
    } else if has > MAX_SHEET {
        format!("the sheet has {has} bytes, more than {MAX_SHEET}")
    } else {
        return Ok(());
    };
    Err(Fault::of_sheet(number::LENGTH, finding))
}

/// Number 2: the last two bytes, then the length field.
fn mark(bytes: &[u8], trailer: usize) -> Result<Mark, Fault> {
    let at = trailer + MARK_AT;
    let Some(mark) = Mark::of(bytes) else {
        let (one, two, marks) = (bytes[at], bytes[at + 1], Mark::both());
        let what = format!("the last two bytes are {one:02X} {two:02X}, not {marks}");
        return Err(at_byte(number::MARK, at, what));
    };
    let at = trailer + LENGTH;
    let (says, has) = (word(bytes, at), bytes.len());
    if usize::from(says) != has {
        let what = format!("the length field says {says}, and the sheet has {has} bytes");
        return Err(at_byte(number::MARK, at, what));
    }
    Ok(mark)
}

/// Number 3: A, B, kind and W, in the order of their bytes.
fn chip(bytes: &[u8], trailer: usize) -> Result<(), Fault> {
    let size: fn(u8) -> bool = |value| Chip::SIZES.contains(&value);
    let sizes = format!("{} to {}", Chip::SIZES.start(), Chip::SIZES.end());
    let kind = |value| usize::from(value) < KINDS.len();
    let width = |value| (1..=MAX_WIDTH).contains(&value);
    let widths = format!("1 to {MAX_WIDTH}");
    for (field, name, fits, allowed) in [
        (layout::COLUMNS, "A, the number of columns,", size, &sizes),
        (layout::ROWS, "B, the number of rows,", size, &sizes),
        (layout::KIND, "the kind", kind, &kinds()),
        (layout::WIDTH, "the width W", width, &widths),
    ] {
        let at = trailer + field;
        let value = bytes[at];
        if !fits(value) {
            let what = format!("{name} is {value}, not {allowed}");
            return Err(at_byte(number::CHIP, at, what));
        }
    }
    Ok(())
}

/// The numbers of the kinds with their words.
fn kinds() -> String {
    let kind = |(number, word)| format!("{number} ({word})");
    let kinds: Vec<String> = KINDS.iter().enumerate().map(kind).collect();
    let (last, others) = kinds.split_last().expect("there are kinds");
    format!("{} or {last}", others.join(", "))
}

/// Number 4.
fn crowd(bytes: &[u8], trailer: usize) -> Result<(), Fault> {
    let at = trailer + NET_COUNT;
    let nets = word(bytes, at);
    if usize::from(nets) <= MAX_NETS {
        return Ok(());
    }
    let what = format!("the net count is {nets}, more than {MAX_NETS}");
    Err(at_byte(number::CROWD, at, what))
}
