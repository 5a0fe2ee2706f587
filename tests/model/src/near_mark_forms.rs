//! Wrong standard forms under 02 M-106, for tests that must tell them from the right
//! one. All that do not change the mark or the net order are right on sheets marked
//! 57 48.

use crate::mark::Mark;
use crate::near_marks::{low, signed, swap_halves, Order};
use crate::sheet::Sheet;
use crate::standard::{bytes, form, records, Listed};

/// A standard form.
pub type Way = fn(&Sheet) -> Vec<u8>;

pub const WAYS: [(&str, Way); 14] = [
    ("marked 57 48 always", |s| marked(s, Mark::Short)),
    ("marked 57 49 always", |s| marked(s, Mark::Long)),
    ("written short", |s| rewritten(s, Mark::Short)),
    ("written long", |s| rewritten(s, Mark::Long)),
    ("high half dropped", |s| with(s, low)),
    ("high half first", |s| with(s, |n| turned(s.mark, n))),
    ("count before the high half", |s| moved(s, 2)),
    ("count before the number", |s| moved(s, 0)),
    ("offsets of short records", short_offsets),
    ("length of a short sheet", short_length),
    ("nets by the low half", |s| ordered(s, low)),
    ("nets by the high half", |s| ordered(s, |n| n >> 16)),
    ("nets by low half, then high", |s| ordered(s, swap_halves)),
    ("nets as signed numbers", |s| ordered(s, signed)),
];

/// The right form, with the last two bytes of this mark.
fn marked(sheet: &Sheet, mark: Mark) -> Vec<u8> {
    let mut out = form(sheet);
    let at = out.len() - 2;
    out[at..].copy_from_slice(&mark.bytes());
    out
}

/// The form written whole under this mark, with numbers cut where they have to be.
fn rewritten(sheet: &Sheet, mark: Mark) -> Vec<u8> {
    let mut other = sheet.clone();
    other.mark = mark;
    let cut = if mark == Mark::Short { low } else { |n| n };
    bytes(&other, &relabelled(sheet, cut))
}

/// The form with other numbers, nets in the right order.
fn with(sheet: &Sheet, other: impl Fn(u32) -> u32) -> Vec<u8> {
    bytes(sheet, &relabelled(sheet, other))
}

/// The records of the right form with other numbers.
fn relabelled(sheet: &Sheet, other: impl Fn(u32) -> u32) -> Vec<Listed> {
    let mut all = records(sheet);
    for listed in &mut all {
        listed.number = other(listed.number);
    }
    all
}

/// A number whose halves are exchanged if it has two.
fn turned(mark: Mark, number: u32) -> u32 {
    match mark {
        Mark::Short => number,
        Mark::Long => swap_halves(number),
    }
}

/// The form with nets in another order.
fn ordered(sheet: &Sheet, order: Order) -> Vec<u8> {
    let place = |listed: &Listed| sheet.nets.iter().position(|n| n.number == listed.number);
    let mut all = records(sheet);
    all.sort_by_key(|listed| (order(listed.number), place(listed)));
    bytes(sheet, &all)
}

/// Where each record of a long sheet's form starts, and where the last one ends;
/// nothing for a short sheet, whose form stays right.
fn starts(sheet: &Sheet) -> Vec<usize> {
    if sheet.mark == Mark::Short {
        return Vec::new();
    }
    let mut starts = vec![0];
    for listed in records(sheet) {
        let length = sheet.mark.head().record(listed.entries.len());
        starts.push(starts[starts.len() - 1] + length);
    }
    starts
}

/// The form with the count after this many bytes of the number, not after all four.
fn moved(sheet: &Sheet, after: usize) -> Vec<u8> {
    let mut out = form(sheet);
    for pair in starts(sheet).windows(2) {
        out[pair[0] + after..pair[0] + 6].rotate_right(2);
    }
    out
}

/// The form with the offsets that its records would have under the short mark.
fn short_offsets(sheet: &Sheet) -> Vec<u8> {
    let mut out = form(sheet);
    let starts = starts(sheet);
    for (place, pair) in starts.windows(2).enumerate() {
        let at = starts[starts.len() - 1] + 2 * place;
        put(&mut out, at, pair[0] - 2 * place);
    }
    out
}

/// The form with the length that it would have under the short mark.
fn short_length(sheet: &Sheet) -> Vec<u8> {
    let mut out = form(sheet);
    let at = out.len() - 4;
    let length = out.len() - 2 * starts(sheet).len().saturating_sub(1);
    put(&mut out, at, length);
    out
}

fn put(out: &mut [u8], at: usize, number: usize) {
    out[at..at + 2].copy_from_slice(&(number as u16).to_le_bytes());
}
