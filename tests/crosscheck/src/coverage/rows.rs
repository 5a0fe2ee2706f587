//! What a whole run must have seen of kind 3.

#[cfg(test)]
mod tests;

use super::rims::turns_inside;
use crate::call::Call;
use crate::outcome::Outcome;
use model::near_rows;
use model::sheet::parse;
use sheets::rows::{bytes, PUBLISHED};

pub const CALLS: [&str; 8] = [
    "read", "record", "check", "route", "least", "refit", "remove", "standard",
];

/// With success; the rows are not a published kind's.
pub const ANSWERED: &str = "answered a sheet of kind 3";
pub const AFTER_5: &str = "refused with 5 beside a bad row";
pub const BEFORE_6: &str = "refused with 18 beside 6";

// What the checks of `rows` and `relist` note, where a net turns in an inner box,
// and those of `forms`.
pub const TWIN: &str = "answered turns of kind 3 with a published kind's rows as that kind";
pub const RELISTED: &str = "answered relistings of kind 3 alike";
pub const KEPT: &str = "kept rows that every wrong way changes";
pub const ROW: &str = "told sheets by a row";
pub const PAIR: &str = "gave sheets of kind 3 that are the same by chance one form";

/// Call and kind of all of them.
pub fn all() -> Vec<(&'static str, &'static str)> {
    let each = [ANSWERED, AFTER_5, BEFORE_6, TWIN];
    let mut all = Vec::new();
    for call in CALLS {
        all.extend(each.map(|kind| (call, kind)));
    }
    // Read and Record show no tracks.
    all.extend(CALLS[2..].iter().map(|call| (*call, RELISTED)));
    all.extend([KEPT, ROW, PAIR].map(|kind| ("standard", kind)));
    all
}

/// The 12 bytes before the trailer, if the kind there is 3.
fn row_bytes(sheet: &[u8]) -> Option<&[u8]> {
    let end = sheet.len().checked_sub(12)?;
    let rows = sheet[..end].len().checked_sub(12)?;
    (sheet[end + 2] == 3).then_some(&sheet[rows..end])
}

/// Whether it is of kind 3 with rows that are not a published kind's.
pub fn has_own_rows(sheet: &[u8]) -> bool {
    let published = |rows: &[u8]| PUBLISHED.iter().any(|own| bytes(own) == rows);
    row_bytes(sheet).is_some_and(|rows| !published(rows))
}

/// Which of the first ones this call shows.
pub fn kinds(sheet: &[u8], call: Call, outcome: &Outcome) -> Vec<&'static str> {
    let Some(rows) = row_bytes(sheet) else {
        return Vec::new();
    };
    match number(sheet, outcome) {
        Some(0) if has_own_rows(sheet) => {
            let mut kinds = vec![ANSWERED];
            kinds.extend(kept(sheet, call, outcome).then_some(KEPT));
            kinds
        }
        Some(5) if model::rows::read(rows).is_none() => vec![AFTER_5],
        Some(18) if model::read(&mended(sheet)).number == 6 => vec![BEFORE_6],
        _ => Vec::new(),
    }
}

/// Whether a call gave 0, or Record a part.
pub fn succeeded(outcome: &Outcome) -> bool {
    match outcome {
        Outcome::Part { length, .. } => *length > 0,
        _ => outcome.number() == Some(0),
    }
}

/// The number; that of Read where a part is empty. `None` for a place that an
/// accepted sheet lacks.
pub fn number(sheet: &[u8], outcome: &Outcome) -> Option<u32> {
    match outcome {
        _ if succeeded(outcome) => Some(0),
        Outcome::Part { .. } => Some(model::read(sheet).number).filter(|n| *n != 0),
        _ => outcome.number(),
    }
}

/// The sheet with subset's rows.
fn mended(sheet: &[u8]) -> Vec<u8> {
    let end = sheet.len() - 12;
    let mut mended = sheet.to_vec();
    mended[end - 12..end].fill(0);
    mended
}

/// Whether a form differs from what all wrong ways write; of small sheets alone.
fn kept(bytes: &[u8], call: Call, outcome: &Outcome) -> bool {
    let (Call::Standard { .. }, true) = (call, bytes.len() < 500) else {
        return false;
    };
    let (_, output) = outcome.written();
    let sheet = parse(bytes).expect("an accepted sheet");
    let mut ways = near_rows::WAYS.iter();
    ways.all(|(_, way)| way(&sheet) != output[..bytes.len()])
}

/// The width at which a call searched a sheet of kind 3 with rows of its own and a
/// net that turns by them. Of the widths that Least tries it is the one found.
pub fn width(sheet: &[u8], call: Call, outcome: &Outcome) -> Option<u32> {
    let Outcome::Answer { answer, .. } = outcome else {
        return None;
    };
    if answer.trials == 0 || !has_own_rows(sheet) || !turns_inside(sheet) {
        return None;
    }
    match (call.name(), answer.number) {
        ("least", 0) => Some(answer.width),
        ("least", _) => None,
        _ => Some(sheet[sheet.len() - 9].into()),
    }
}
