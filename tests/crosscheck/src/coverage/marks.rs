//! What a whole run must have seen of the two marks and of long net numbers (02
//! M-106), beside all other kinds under each mark.

#[cfg(test)]
mod tests;

use super::rows::{number, CALLS};
use crate::call::Call;
use crate::outcome::Outcome;
use model::near_marks::{ORDERS, WAYS};
use model::sheet::{parse, Sheet};
use sheets::{Ask, Mark};
use std::collections::BTreeSet;

/// The net numbers at the ends of 16 and of 32 bits.
const ENDS: [u32; 4] = [0, 65_535, 65_536, 4_294_967_295];

// Under the second mark, with success: a net with each of them, and nets that share a
// half. A high half that is shared is not 0.
pub const ANSWERED: [&str; 4] = [
    "answered a sheet with net 0",
    "answered a sheet with net 65535",
    "answered a sheet with net 65536",
    "answered a sheet with net 4294967295",
];
pub const LOW: &str = "answered nets with equal low halves";
pub const HIGH: &str = "answered nets with equal high halves";

/// Under the second mark: 9 for two equal numbers over 16 bits.
pub const NAME: &str = "refused with 9 for equal numbers over 65535";

/// Under either mark: 5 for a sheet that is accepted under the other one.
pub const OTHER: &str = "refused with 5 the records of the other mark";

/// Under the second mark, after trials and with success: nets that a wrong order, by
/// its place in `ORDERS`, puts in another one.
pub const ORDER: [&str; 5] = [
    "routed nets in another order than by the low half",
    "routed nets in another order than by the high half",
    "routed nets in another order than by the low half, then the high",
    "routed nets in another order than by the low byte first",
    "routed nets in another order than as signed numbers",
];

// What Remove shows under the second mark.
pub const TAKEN: [&str; 4] = [
    "took out net 0",
    "took out net 65535",
    "took out net 65536",
    "took out net 4294967295",
];
pub const LOW_HALF: &str = "gave 17 for a number with the low half of a net's";
pub const HIGH_HALF: &str = "gave 17 for a number with the high half of a net's";
pub const CUT: &str = "gave 17 for a net's number cut to 16 bits";
pub const TURNED: &str = "gave 17 for a net's number with its halves exchanged";

/// A small form that no wrong way writes which is not right under the mark.
pub const KEPT: &str = "wrote a form that every wrong way changes";
/// The longest sheet of all.
pub const LONGEST: &str = "wrote a form of 8728 bytes";

// What the judge and `relist` note under the first mark.
pub const TWIN: &str = "answered a sheet and its twin of the second mark alike";
pub const TWIN_DEAD: &str = "answered twins under dead wires alike";
pub const RELISTED: &str = "answered relistings of both marks alike";
pub const RELISTED_DEAD: &str = "answered relistings of both marks under dead wires alike";

/// Lengths with the right mark and length field, from the old limit to the new one and
/// a byte beyond.
pub const LENGTHS: std::ops::RangeInclusive<usize> = 8_600..=8_729;
/// How many calls each length must have seen under each mark.
pub const CALLS_OF_LENGTH: u64 = 8;

/// Call, kind and how often, of all under a mark.
pub fn all(mark: Mark) -> Vec<(&'static str, &'static str, u64)> {
    let mut all = Vec::new();
    for call in CALLS {
        all.push((call, OTHER, 20));
    }
    all.push(("standard", KEPT, 100));
    match mark {
        Mark::Short => of_twins(&mut all),
        Mark::Long => of_numbers(&mut all),
    }
    all
}

fn of_twins(all: &mut Vec<(&'static str, &'static str, u64)>) {
    all.extend(CALLS.map(|call| (call, TWIN, 200)));
    for call in ["check", "route", "least", "refit"] {
        all.push((call, TWIN_DEAD, 50));
        all.push((call, RELISTED_DEAD, 10));
    }
    for call in ["check", "route", "least", "refit", "remove"] {
        all.push((call, RELISTED, 50));
    }
}

fn of_numbers(all: &mut Vec<(&'static str, &'static str, u64)>) {
    for call in CALLS {
        all.extend(ANSWERED.map(|kind| (call, kind, 50)));
        all.extend([LOW, HIGH].map(|kind| (call, kind, 100)));
        all.push((call, NAME, 20));
    }
    for call in ["route", "least", "refit"] {
        all.extend(ORDER.map(|kind| (call, kind, 50)));
    }
    all.extend(TAKEN.map(|kind| ("remove", kind, 20)));
    all.extend([LOW_HALF, HIGH_HALF, CUT, TURNED].map(|kind| ("remove", kind, 20)));
    all.push(("standard", LONGEST, 10));
}

/// Which of them this call shows by itself.
pub fn kinds(bytes: &[u8], call: Call, outcome: &Outcome) -> Vec<&'static str> {
    match number(bytes, outcome) {
        Some(5) => of_other(bytes),
        Some(9) => of_name(bytes),
        Some(17) => parse(bytes).map_or(Vec::new(), |sheet| strangers(&sheet, call)),
        Some(0) => parse(bytes).map_or(Vec::new(), |sheet| {
            let mut kinds = of_form(&sheet, call, outcome);
            if sheet.mark == model::mark::Mark::Long {
                kinds.extend(of_success(&sheet, call, outcome));
            }
            kinds
        }),
        _ => Vec::new(),
    }
}

/// The length of a sheet whose mark and length field are right, if it is one of those
/// to see and 1 is given for one byte too many alone.
pub fn length(bytes: &[u8], outcome: &Outcome) -> Option<usize> {
    let length = bytes.len();
    let fits = LENGTHS.contains(&length) && Mark::of(bytes).is_some();
    let field = |at: usize| usize::from(u16::from_le_bytes([bytes[at], bytes[at + 1]]));
    let given = number(bytes, outcome);
    let over = length > model::sheet::LONGEST;
    (fits && field(length - 4) == length && (given == Some(1)) == over).then_some(length)
}

/// The sheet with the other mark's bytes is accepted.
fn of_other(bytes: &[u8]) -> Vec<&'static str> {
    let Some(mark) = Mark::of(bytes) else {
        return Vec::new();
    };
    let mut other = bytes.to_vec();
    let at = other.len() - 2;
    other[at..].copy_from_slice(&mark.other().bytes());
    let accepted = parse(&other).is_ok_and(|sheet| !sheet.nets.is_empty());
    accepted.then_some(OTHER).into_iter().collect()
}

fn of_name(bytes: &[u8]) -> Vec<&'static str> {
    let raw = sheets::Raw::read(bytes).expect("9 is given for sheets that are laid out");
    let mut seen = BTreeSet::new();
    let again = |number: u32| number > 0xFFFF && !seen.insert(number);
    let twice = raw.records.iter().map(|record| record.number).any(again);
    twice.then_some(NAME).into_iter().collect()
}

fn of_success(sheet: &Sheet, call: Call, outcome: &Outcome) -> Vec<&'static str> {
    let numbers: Vec<u32> = sheet.nets.iter().map(|net| net.number).collect();
    let has = |number: u32| numbers.contains(&number);
    let mut kinds = Vec::new();
    kinds.extend(named(ANSWERED, has));
    let share = |half: &dyn Fn(u32) -> Option<u32>| {
        let mut seen = BTreeSet::new();
        let mut halves = numbers.iter().filter_map(|number| half(*number));
        halves.any(|half| !seen.insert(half))
    };
    kinds.extend(share(&|n| Some(n & 0xFFFF)).then_some(LOW));
    kinds.extend(share(&|n| Some(n >> 16).filter(|half| *half > 0)).then_some(HIGH));
    if let Outcome::Answer { answer, .. } = outcome {
        if answer.trials > 0 {
            let orders = ORDER.into_iter().zip(ORDERS);
            let other = |order: fn(u32) -> u32| places(&numbers, order) != places(&numbers, |n| n);
            kinds.extend(orders.filter_map(|(kind, (_, order))| other(order).then_some(kind)));
        }
    }
    if let Call::Listed(Ask::Remove { net, .. }) = call {
        kinds.extend(named(TAKEN, |number| number == *net));
    }
    if let (Call::Standard { .. }, true) = (call, sheet.nets.len() == 64) {
        let full = sheet.nets.iter().all(|net| net.channels.len() == 32);
        let by_rows = sheet.kind.byte() == 3;
        kinds.extend((full && by_rows).then_some(LONGEST));
    }
    kinds
}

/// The kinds of those of `ENDS` for which this holds.
fn named(kinds: [&'static str; 4], has: impl Fn(u32) -> bool) -> Vec<&'static str> {
    let all = kinds.into_iter().zip(ENDS);
    all.filter_map(|(kind, end)| has(end).then_some(kind))
        .collect()
}

/// The places of these numbers in an order; those with one key stay as they stood.
fn places(numbers: &[u32], order: fn(u32) -> u32) -> Vec<usize> {
    let mut places: Vec<usize> = (0..numbers.len()).collect();
    places.sort_by_key(|&place| order(numbers[place]));
    places
}

fn strangers(sheet: &Sheet, call: Call) -> Vec<&'static str> {
    let Call::Listed(Ask::Remove { net, .. }) = call else {
        return Vec::new();
    };
    let any = |test: &dyn Fn(u32) -> bool| sheet.nets.iter().any(|other| test(other.number));
    let over = |number: u32| number > 0xFFFF;
    let shown = [
        (LOW_HALF, any(&|n| over(n) && n & 0xFFFF == net & 0xFFFF)),
        (HIGH_HALF, any(&|n| over(n) && n >> 16 == net >> 16)),
        (CUT, any(&|n| over(n) && n & 0xFFFF == *net)),
        (TURNED, any(&|n| over(n) && n.rotate_left(16) == *net)),
    ];
    let shown = shown.into_iter();
    shown.filter_map(|(kind, is)| is.then_some(kind)).collect()
}

/// The ways that are right under the second mark. Under the first one they are wrong, and
/// the others but for the net order are right.
const LONG: [&str; 2] = ["marked 57 49 always", "written long"];

/// Whether a small form differs from what these write under the first mark, or from what
/// all others write under the second.
fn of_form(sheet: &Sheet, call: Call, outcome: &Outcome) -> Vec<&'static str> {
    let Call::Standard { .. } = call else {
        return Vec::new();
    };
    let long = sheet.mark == model::mark::Mark::Long;
    let length = sheet.nets.iter().map(|net| net.length).sum::<usize>();
    if length > 500 {
        return Vec::new();
    }
    let (_, output) = outcome.written();
    let mut ways = WAYS.iter().filter(|(name, _)| LONG.contains(name) != long);
    let other = ways.all(|(_, way)| !output.starts_with(&way(sheet)));
    other.then_some(KEPT).into_iter().collect()
}
