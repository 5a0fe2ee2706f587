//! What a whole run must have seen of Standard beside its numbers.

#[cfg(test)]
mod tests;

use crate::call::Call;
use crate::outcome::Outcome;
use model::near_forms;
use model::sheet::{parse, Sheet};
use sheets::damage::ORDER;
use sheets::Ask;

pub const CHANGED: &str = "wrote another listing than its sheet";
pub const SAME: &str = "found its sheet in standard form";
pub const ORDERS: &str = "wrote a tree neither breadth nor depth first, where these differ";
pub const NONE: &str = "wrote a sheet with no nets";
pub const FULL: &str = "wrote 64 nets of 32 entries";
pub const LONGER: &str = "had a longer output";
pub const ONE_LESS: &str = "gave 14 with one byte missing";
pub const ENTRIES: &str = "gave 14 with room for the entry count";

/// A refusal of the sheet, in the order of the table, where 14 would apply as well.
pub const SHORT: [&str; 10] = [
    "gave 1 beside a short output",
    "gave 2 beside a short output",
    "gave 3 beside a short output",
    "gave 4 beside a short output",
    "gave 5 beside a short output",
    "gave 18 beside a short output",
    "gave 6 beside a short output",
    "gave 7 beside a short output",
    "gave 8 beside a short output",
    "gave 9 beside a short output",
];

// What the checks of `forms` note.
pub const RELISTED: &str = "gave relistings one form";
pub const PAIR: &str = "gave designs that are the same by chance one form";
pub const JOINT: &str = "told nets by a joint";
pub const CHANNEL: &str = "told nets by a channel";
pub const NUMBER: &str = "told nets by a number";
pub const AGAIN: &str = "gave a form itself";
pub const COUNTED: &str = "wrote what Read counts alike";
pub const FORCE: &str = "wrote what brute force settles";
pub const ROUTED: &str = "wrote what Route routes alike";
pub const LEAST: &str = "wrote what Least routes alike";
pub const REFITTED: &str = "wrote what Refit routes alike";
pub const CHECKED: &str = "wrote what Check passes alike";
pub const REMOVED: &str = "wrote what Remove answers alike";

pub const KINDS: [&str; 21] = [
    CHANGED, SAME, ORDERS, NONE, FULL, LONGER, ONE_LESS, ENTRIES, RELISTED, PAIR, JOINT, CHANNEL,
    NUMBER, AGAIN, COUNTED, FORCE, ROUTED, LEAST, REFITTED, CHECKED, REMOVED,
];

/// Which of the first ones this call shows.
pub fn kinds(bytes: &[u8], call: Call, outcome: &Outcome) -> Vec<&'static str> {
    let Call::Standard { room } = call else {
        return Vec::new();
    };
    let (number, output) = outcome.written();
    let length = bytes.len();
    match (number, parse(bytes)) {
        (0, Ok(sheet)) => {
            let mut kinds = of_form(&sheet, bytes, &output[..length]);
            if room > length {
                kinds.push(LONGER);
            }
            kinds
        }
        (14, Ok(sheet)) => {
            let one_less = (room + 1 == length).then_some(ONE_LESS);
            let entries = (room >= sheet.entry_count()).then_some(ENTRIES);
            one_less.into_iter().chain(entries).collect()
        }
        (_, Err(_)) if room < length => {
            let place = ORDER.iter().position(|given| *given == number);
            vec![SHORT[place.expect("a refusal of the sheet")]]
        }
        _ => Vec::new(),
    }
}

fn of_form(sheet: &Sheet, bytes: &[u8], form: &[u8]) -> Vec<&'static str> {
    let mut kinds = vec![if form == bytes { SAME } else { CHANGED }];
    if sheet.nets.is_empty() {
        kinds.push(NONE);
    }
    if sheet.nets.len() == 64 && sheet.entry_count() == 64 * 32 {
        kinds.push(FULL);
    }
    if orders_differ(sheet, form) {
        kinds.push(ORDERS);
    }
    kinds
}

/// Whether breadth first, depth first and the form are three listings.
fn orders_differ(sheet: &Sheet, form: &[u8]) -> bool {
    let way = |name: &str| {
        let mut ways = near_forms::WAYS.iter();
        let way = ways.find(|way| way.0 == name).expect("a way");
        way.1(sheet)
    };
    let (breadth, depth) = (way("breadth first"), way("depth first"));
    breadth != depth && breadth != form && depth != form
}

/// What a call shows that answers a sheet and its form alike, with success.
pub fn answered(ask: &Ask) -> &'static str {
    match ask {
        Ask::Route { .. } => ROUTED,
        Ask::Least { .. } => LEAST,
        Ask::Refit { .. } => REFITTED,
        Ask::Check { .. } => CHECKED,
        Ask::Remove { .. } => REMOVED,
        Ask::Read | Ask::Record { .. } => unreachable!("these have no tracks"),
    }
}
