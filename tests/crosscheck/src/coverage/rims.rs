//! What a whole run must have seen of corner, rim and inner boxes.

#[cfg(test)]
mod tests;

use super::rows::{number, CALLS};
use crate::call::Call;
use crate::outcome::Outcome;
use model::chip::Side;
use model::sheet::{parse, Joint, Net, Sheet};
use model::switch::{are_partners, runs_straight};
use model::ticket::{bytes_of, is_unplaced};
use sheets::Ask;

/// By kind, 1 to 3, and box, with success: a joint at which the table, or the rows,
/// and equal tracks would not agree.
pub const PASSED: [[&str; 3]; 3] = [
    [
        "turned a corner of kind 1 with equal tracks",
        "passed the rim of kind 1 with equal tracks",
        "passed an inner box of kind 1 by its table",
    ],
    [
        "turned a corner of kind 2 with equal tracks",
        "passed the rim of kind 2 with equal tracks",
        "passed an inner box of kind 2 by its table",
    ],
    [
        "turned a corner of kind 3 with equal tracks",
        "passed the rim of kind 3 with equal tracks",
        "passed an inner box of kind 3 by its rows",
    ],
];

/// By kind, 1 to 3. The ticket has no other joint whose tracks are no partners.
pub const ON_RIM: [&str; 3] = [
    "gave 12 on the rim for tracks that the table of kind 1 joins",
    "gave 12 on the rim for tracks that the table of kind 2 joins",
    "gave 12 on the rim for tracks that the rows of kind 3 join",
];
pub const INSIDE: [&str; 3] = [
    "gave 12 inside for equal tracks of kind 1",
    "gave 12 inside for equal tracks of kind 2",
    "gave 12 inside for equal tracks of kind 3",
];

/// Kind 3 on a chip without an inner box.
pub const UNUSED: &str = "answered rows that no box uses";
pub const UNUSED_18: &str = "refused rows that no box uses with 18";

/// The calls that look at tracks.
const TRACKS: [&str; 5] = ["check", "route", "least", "refit", "remove"];

/// Call and kind of all of them.
pub fn all() -> Vec<(&'static str, &'static str)> {
    let mut all = Vec::new();
    for call in TRACKS {
        all.extend(PASSED.concat().iter().map(|kind| (call, *kind)));
    }
    all.extend(ON_RIM.iter().chain(&INSIDE).map(|kind| ("check", *kind)));
    for call in CALLS {
        all.extend([UNUSED, UNUSED_18].map(|kind| (call, kind)));
    }
    all
}

/// Which of them this call shows.
pub fn kinds(bytes: &[u8], call: Call, outcome: &Outcome) -> Vec<&'static str> {
    let mut kinds = Vec::new();
    if is_3_without_inner(bytes) {
        kinds.extend(match number(bytes, outcome) {
            Some(0) => Some(UNUSED),
            Some(18) => Some(UNUSED_18),
            _ => None,
        });
    }
    let looked_at = TRACKS.contains(&call.name()) && matches!(outcome.number(), Some(0 | 12));
    if let (true, Ok(sheet)) = (looked_at, parse(bytes)) {
        kinds.extend(of_tracks(&sheet, call, outcome));
    }
    kinds
}

/// Whether a sheet of kind 3 has two columns or two rows.
fn is_3_without_inner(sheet: &[u8]) -> bool {
    let Some(at) = sheet.len().checked_sub(12) else {
        return false;
    };
    sheet[at + 2] == 3 && sheet[at..at + 2].contains(&2)
}

/// Whether a net turns in an inner box: there the kind decides, by its table or its
/// rows. On other sheets all kinds are alike, or nearly.
pub fn turns_inside(bytes: &[u8]) -> bool {
    let level = |side| matches!(side, Side::Left | Side::Right);
    let turns = |joint: &Joint| level(joint.sides.0) != level(joint.sides.1);
    let inside = |joint: &Joint| !runs_straight(joint.around) && turns(joint);
    parse(bytes).is_ok_and(|sheet| {
        let mut joints = sheet.nets.iter().flat_map(|net| &net.joints);
        joints.any(inside)
    })
}

/// What the tracks show that a call wrote, or those it was lent.
fn of_tracks(sheet: &Sheet, call: Call, outcome: &Outcome) -> Vec<&'static str> {
    let Some(kind) = usize::from(sheet.kind.byte()).checked_sub(1) else {
        return Vec::new();
    };
    match (outcome, call) {
        (Outcome::Answer { answer, output }, _) if answer.number == 0 => {
            passed(&Laid(sheet, answer.width, output), kind)
        }
        (Outcome::Written { number: 0, .. }, Call::Listed(Ask::Remove { ticket, .. })) => {
            passed(&Laid(sheet, sheet.width, ticket), kind)
        }
        (Outcome::Number(number), Call::Listed(Ask::Check { ticket })) => {
            let laid = Laid(sheet, sheet.width, ticket);
            match number {
                0 => passed(&laid, kind),
                _ => refused(&laid, kind),
            }
        }
        _ => Vec::new(),
    }
}

/// A sheet, a width and a ticket.
struct Laid<'a>(&'a Sheet, u32, &'a [u8]);

/// A joint of a placed net: its box, whether its tracks are equal, and whether the
/// table joins them.
struct Seen {
    around: usize,
    equal: bool,
    table: bool,
}

impl Laid<'_> {
    fn joints(&self) -> impl Iterator<Item = Seen> + '_ {
        let &Laid(sheet, width, ticket) = self;
        let placed = |net: &&Net| !is_unplaced(net, ticket);
        let seen = move |net: &Net, joint: &Joint| {
            let tracks = bytes_of(net, ticket);
            let end = |side, place: usize| (side, u32::from(tracks[place]));
            let one = end(joint.sides.0, joint.places.0);
            let other = end(joint.sides.1, joint.places.1);
            Seen {
                around: joint.around,
                equal: one.1 == other.1,
                table: are_partners(sheet.kind, width, one, other),
            }
        };
        let nets = sheet.nets.iter().filter(placed);
        nets.flat_map(move |net| net.joints.iter().map(move |joint| seen(net, joint)))
    }
}

/// The boxes of a right ticket at which the table and equal tracks do not agree.
fn passed(laid: &Laid, kind: usize) -> Vec<&'static str> {
    let mut seen = [false; 3];
    for joint in laid.joints().filter(|joint| joint.equal != joint.table) {
        seen[joint.around - 2] = true;
    }
    let kinds = PASSED[kind].into_iter().zip(seen);
    kinds
        .filter_map(|(kind, seen)| seen.then_some(kind))
        .collect()
}

/// Whether all joints that are wrong are right by the other rule.
fn refused(laid: &Laid, kind: usize) -> Vec<&'static str> {
    let straight = |joint: &Seen| runs_straight(joint.around);
    let wrong = |joint: &Seen| {
        !(if straight(joint) {
            joint.equal
        } else {
            joint.table
        })
    };
    let wrong: Vec<Seen> = laid.joints().filter(wrong).collect();
    let mut kinds = Vec::new();
    if wrong.is_empty() {
        return kinds; // 12 without a wrong joint shows nothing
    }
    if wrong.iter().all(|joint| straight(joint) && joint.table) {
        kinds.push(ON_RIM[kind]);
    }
    if wrong.iter().all(|joint| !straight(joint) && joint.equal) {
        kinds.push(INSIDE[kind]);
    }
    kinds
}
