//! Wrong ways to read 02 M-106, for tests that must tell them from the right one:
//! wrong readings of a sheet, and wrong standard forms, net orders, comparisons of
//! numbers and printed numbers.

pub use crate::near_mark_forms::{Way, WAYS};

use crate::mark::{Head, Mark};
use crate::sheet::{parse, parse_with, Net, Sheet, LONGEST};
use crate::word::{refuse_if, Word};

/// A reading of a sheet's bytes. Three that read short numbers wrong give some of
/// them more than 16 bits; no standard form can be written of such a sheet.
pub type Read = fn(&[u8]) -> Result<Sheet, Word>;

const SHORT: Mark = Mark::Short;
const LONG: Mark = Mark::Long;

pub const READS: [(&str, Read); 21] = [
    ("low halves compared", |b| no_two(b, same_low)),
    ("high halves compared", |b| no_two(b, same_high)),
    ("low half alone", |b| heads(b, LONG, head(2, 4, 6))),
    ("high half first", |b| renumbered(b, LONG, swap_halves)),
    ("high byte first", |b| renumbered(b, LONG, u32::swap_bytes)),
    ("count two bytes early", |b| heads(b, LONG, head(4, 2, 6))),
    ("entries still after 4 bytes", |b| {
        heads(b, LONG, head(4, 4, 4))
    }),
    ("second mark, old records", |b| {
        heads(b, LONG, head(2, 2, 4))
    }),
    ("short mark's record grown too", |b| {
        heads(b, SHORT, head(4, 4, 6))
    }),
    ("short record grown, number not", |b| {
        heads(b, SHORT, head(2, 2, 6))
    }),
    ("short number with the count above it", |b| {
        heads(b, SHORT, head(4, 2, 4))
    }),
    ("short number as high half", |b| {
        renumbered(b, SHORT, |n| n << 16)
    }),
    ("short number as signed", |b| {
        renumbered(b, SHORT, |n| n as i16 as u32)
    }),
    ("part 2 bytes short", part_short),
    ("the old limit", |b| limited(b, 8600)),
    ("the limit without the rows", |b| limited(b, 8716)),
    ("the limit itself refused", |b| limited(b, LONGEST - 1)),
    ("one byte over the limit", |b| limited(b, LONGEST + 1)),
    ("the old limit for the old mark", old_limit_for_old_mark),
    ("the old mark alone", old_mark_alone),
    ("any other mark long", any_other_mark_long),
];

/// The key by which nets are put in order; those with one key stay as they stood.
pub type Order = fn(u32) -> u32;

pub const ORDERS: [(&str, Order); 5] = [
    ("by the low half", low),
    ("by the high half", |n| n >> 16),
    ("by the low half, then the high", swap_halves),
    ("by the low byte first", u32::swap_bytes),
    ("as signed numbers", signed),
];

/// Whether a net's number is taken for one that is asked for (M-100), or for
/// another net's (9).
pub type Same = fn(u32, u32) -> bool;

pub const SAMES: [(&str, Same); 4] = [
    ("low halves alone", same_low),
    ("high halves alone", same_high),
    ("asked number cut", |net, asked| net == low(asked)),
    ("net's number cut", |net, asked| low(net) == asked),
];

/// How a net number is printed.
pub type Print = fn(u32) -> String;

pub const PRINTS: [(&str, Print); 3] = [
    ("the low half", |n| low(n).to_string()),
    ("high half first", |n| swap_halves(n).to_string()),
    ("as signed", |n| (n as i32).to_string()),
];

/// The sheet as an order sees it: each net's number is its rank there. The search,
/// its trials and its tickets are those of the wrong order.
pub fn under(sheet: &Sheet, order: Order) -> Sheet {
    let mut seen = sheet.clone();
    let mut places: Vec<usize> = (0..sheet.nets.len()).collect();
    places.sort_by_key(|&place| order(sheet.nets[place].number));
    for (rank, place) in (0..).zip(places) {
        seen.nets[place].number = rank;
    }
    seen
}

/// The first net that is taken for the one asked for.
pub fn named(sheet: &Sheet, asked: u32, same: Same) -> Option<&Net> {
    sheet.nets.iter().find(|net| same(net.number, asked))
}

/// What the least-width program prints, with its net numbers printed otherwise.
pub fn lines(printed: &str, print: Print) -> String {
    let otherwise = |line: &str| {
        let (first, rest) = line.split_once(' ').expect("every line has a space");
        let first = first.parse().map_or(first.to_string(), print);
        format!("{first} {rest}\n")
    };
    printed.lines().map(otherwise).collect()
}

pub(crate) fn low(number: u32) -> u32 {
    number & 0xFFFF
}

pub(crate) fn swap_halves(number: u32) -> u32 {
    number.rotate_left(16)
}

/// A key that puts numbers in the order they have with their highest bit as sign.
pub(crate) fn signed(number: u32) -> u32 {
    number ^ 0x8000_0000
}

fn same_low(one: u32, other: u32) -> bool {
    low(one) == low(other)
}

fn same_high(one: u32, other: u32) -> bool {
    one >> 16 == other >> 16
}

/// The right reading, and 9 if two numbers of a long sheet are taken for one. No
/// word comes after 9 here.
fn no_two(bytes: &[u8], same: Same) -> Result<Sheet, Word> {
    let sheet = parse(bytes)?;
    let number = |place: usize| sheet.nets[place].number;
    let again = |later: usize| (0..later).any(|earlier| same(number(earlier), number(later)));
    let twice = (0..sheet.nets.len()).any(again);
    refuse_if(sheet.mark == Mark::Long && twice, Word::Name)?;
    Ok(sheet)
}

/// The right reading, with other numbers under one mark; different ones stay so.
fn renumbered(bytes: &[u8], mark: Mark, other: fn(u32) -> u32) -> Result<Sheet, Word> {
    let mut sheet = parse(bytes)?;
    if sheet.mark == mark {
        for net in &mut sheet.nets {
            net.number = other(net.number);
        }
    }
    Ok(sheet)
}

fn head(number: usize, count: usize, entries: usize) -> Head {
    Head {
        number,
        count,
        entries,
    }
}

/// The reading with this head for the records of one mark.
fn heads(bytes: &[u8], mark: Mark, wrong: Head) -> Result<Sheet, Word> {
    let head = |of: Mark| if of == mark { wrong } else { of.head() };
    parse_with(bytes, LONGEST, head)
}

/// The reading with another limit of 1.
fn limited(bytes: &[u8], longest: usize) -> Result<Sheet, Word> {
    parse_with(bytes, longest, Mark::head)
}

fn old_limit_for_old_mark(bytes: &[u8]) -> Result<Sheet, Word> {
    let old = bytes.ends_with(&Mark::Short.bytes());
    refuse_if(old && bytes.len() > 8600, Word::Length)?;
    parse(bytes)
}

fn old_mark_alone(bytes: &[u8]) -> Result<Sheet, Word> {
    match parse(bytes) {
        Err(Word::Length) => Err(Word::Length),
        _ if bytes.ends_with(&Mark::Long.bytes()) => Err(Word::Mark),
        right => right,
    }
}

/// Every sheet that ends in 57 and a byte other than 48 is read as if it ended in
/// 57 49.
fn any_other_mark_long(bytes: &[u8]) -> Result<Sheet, Word> {
    let mut seen = bytes.to_vec();
    if let [.., 0x57, second] = &mut seen[..] {
        if *second != 0x48 {
            *second = 0x49;
        }
    }
    parse(&seen)
}

/// Record's parts are as long as those of a short sheet.
fn part_short(bytes: &[u8]) -> Result<Sheet, Word> {
    let mut sheet = parse(bytes)?;
    for net in &mut sheet.nets {
        net.length = Mark::Short.head().record(net.channels.len());
    }
    Ok(sheet)
}
