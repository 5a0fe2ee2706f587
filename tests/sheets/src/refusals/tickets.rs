//! Numbers 10 to 13 on sheet T, W 3. Net 1 has channels 0 and 1, net 2 has 1 and 5,
//! net 3 has 0 and 5; partners have equal tracks, with every kind, as no box of its
//! chip has four channels (02 M-104). `inside` has boxes that turn tracks.

use crate::case::{Answer, Ask, Case, Told};
use crate::paper::t_raw;
use crate::raw::Raw;

const UP: u8 = 255;

/// A number, a name and a ticket.
pub type Wrong = (u32, &'static str, &'static [u8]);

/// Tickets that Check and Refit refuse alike.
pub const WRONG: [Wrong; 31] = [
    (10, "no bytes", &[]),
    (10, "one byte", &[0]),
    (10, "5 bytes", &[0, 0, 1, 1, 2]),
    (10, "7 bytes", &[0, 0, 1, 1, 2, 2, 0]),
    (10, "12 bytes", &[0, 0, 1, 1, 2, 2, 0, 0, 1, 1, 2, 2]),
    (11, "first byte W", &[3, 3, 1, 1, 2, 2]),
    (11, "second byte W", &[0, 3, 1, 1, 2, 2]),
    (11, "last byte W", &[0, 0, 1, 1, 2, 3]),
    (11, "last byte 32", &[0, 0, 1, 1, 2, 32]),
    (11, "last byte 254", &[0, 0, 1, 1, 2, 254]),
    (11, "a net of 254", &[0, 0, 254, 254, 2, 2]),
    (11, "half a net 255, first", &[UP, 0, 1, 1, 2, 2]),
    (11, "half a net 255, last", &[0, 0, 1, 1, 2, UP]),
    (11, "halves of two nets 255", &[0, UP, UP, 1, 2, 2]),
    (12, "net 1 apart", &[0, 1, 1, 1, 2, 2]),
    (12, "net 2 apart", &[0, 0, 2, 1, 2, 2]),
    (12, "net 3 apart", &[0, 0, 1, 1, 2, 0]),
    (13, "nets 1 and 2 on 1.0", &[0, 0, 0, 0, 2, 2]),
    (13, "nets 1 and 3 on 0.2", &[2, 2, 1, 1, 2, 2]),
    (13, "nets 2 and 3 on 5.1", &[0, 0, 1, 1, 1, 1]),
    (13, "all on 0", &[0, 0, 0, 0, 0, 0]),
    (10, "10 and 11", &[0, 0, 1, 1, 3]),
    (10, "10 and 11, longer", &[UP, 0, 1, 1, 2, 2, 2]),
    (11, "11 and 12, apart first", &[0, 1, 1, 1, 2, 3]),
    (11, "11 and 12, track first", &[3, 0, 1, 1, 2, 0]),
    (11, "11 and 12 in one net", &[0, 0, 1, 3, 2, 2]),
    (11, "11 and 13", &[0, 0, 0, 0, 2, 3]),
    (12, "12 and 13, clash first", &[0, 0, 0, 0, 2, 1]),
    (12, "12 and 13, apart first", &[1, 0, 2, 2, 2, 2]),
    (12, "12 and 13 in one wire", &[0, 0, 1, 2, 2, 2]),
    (10, "10, 12 and 13", &[0, 1, 1, 1, 1]),
];

/// Tickets with unplaced nets that Refit refuses, Check with 11.
pub const UNPLACED_WRONG: [Wrong; 5] = [
    (12, "net 3 apart, net 1 unplaced", &[UP, UP, 1, 1, 2, 0]),
    (12, "net 1 apart, net 3 unplaced", &[0, 2, 1, 1, UP, UP]),
    (13, "nets 1 and 3, net 2 unplaced", &[1, 1, UP, UP, 1, 1]),
    (13, "nets 1 and 2, net 3 unplaced", &[1, 1, 1, 1, UP, UP]),
    (11, "net 1 unplaced, net 2 half", &[UP, UP, UP, 1, 2, 2]),
];

/// Old tickets that Refit accepts: old, first result, moved, trials.
///
/// Three nets that pairwise share a channel, three tracks: a right ticket is a
/// permutation. Trials are those of round 0, worked out by hand.
type Refitted = (&'static [u8], [u8; 6], u32, u32);
const REFITTED: [Refitted; 4] = [
    (&[0, 0, 1, 1, 2, 2], [0, 0, 1, 1, 2, 2], 0, 6),
    (&[UP, UP, UP, UP, UP, UP], [0, 0, 1, 1, 2, 2], 0, 6),
    (&[0, 0, UP, UP, 1, 1], [0, 0, 2, 2, 1, 1], 0, 9),
    (&[UP, UP, UP, UP, 0, 0], [1, 1, 2, 2, 0, 0], 0, 18),
];

pub fn cases() -> Vec<Case> {
    let mut all = Vec::new();
    for kind in 0..3 {
        let sheet = t_raw(kind, 3).bytes();
        all.extend(refused(&sheet, &WRONG, &UNPLACED_WRONG));
        all.extend(accepted(kind));
    }
    all.extend(no_nets());
    all.extend(bad_sheet_and_ticket());
    all
}

fn check(ticket: &[u8]) -> Ask {
    Ask::Check {
        ticket: ticket.to_vec(),
    }
}

pub fn refit(old: &[u8], budget: u32, room: usize) -> Ask {
    Ask::Refit {
        old: old.to_vec(),
        budget,
        room,
    }
}

pub fn route(budget: u32, room: usize) -> Ask {
    Ask::Route { budget, room }
}

pub fn least(budget: u32, room: usize) -> Ask {
    Ask::Least { budget, room }
}

/// Wrong tickets through Check and Refit, and such as are wrong where nets are
/// placed.
pub fn refused(sheet: &[u8], wrong: &[Wrong], unplaced_wrong: &[Wrong]) -> Vec<Case> {
    let t = || sheet.to_vec();
    let mut all = Vec::new();
    for &(number, name, ticket) in wrong {
        all.push(Case::refused(name, t(), check(ticket), number));
        all.push(Case::refused(name, t(), refit(ticket, 100, 6), number));
        // Numbers 14 and 16 would apply too.
        all.push(Case::refused(name, t(), refit(ticket, 0, 5), number));
        all.push(Case::refused(name, t(), refit(ticket, 0, 0), number));
    }
    for &(number, name, ticket) in unplaced_wrong {
        all.push(Case::refused(name, t(), check(ticket), 11));
        all.push(Case::refused(name, t(), refit(ticket, 100, 6), number));
        all.push(Case::refused(name, t(), refit(ticket, 100, 5), number));
    }
    all
}

fn accepted(kind: u8) -> Vec<Case> {
    let t = || t_raw(kind, 3).bytes();
    let mut all = Vec::new();
    for ticket in [
        [0, 0, 1, 1, 2, 2],
        [0, 0, 2, 2, 1, 1],
        [1, 1, 0, 0, 2, 2],
        [1, 1, 2, 2, 0, 0],
        [2, 2, 0, 0, 1, 1],
        [2, 2, 1, 1, 0, 0],
    ] {
        all.push(Case::new("right", t(), check(&ticket), Told::Number(0)));
    }
    for (old, written, moved, trials) in REFITTED {
        let answer = Answer {
            number: 0,
            width: 3,
            trials,
            moved,
        };
        let told = Told::Answer {
            answer,
            written: written.to_vec(),
        };
        let name = format!("refit of {old:?}");
        all.push(Case::new(&*name, t(), refit(old, trials, 6), told));
        let spent = Told::refusal(&Ask::Route { budget: 0, room: 0 }, 16, trials - 1);
        all.push(Case::new(name, t(), refit(old, trials - 1, 6), spent));
    }
    all
}

/// Without nets the right ticket is empty.
fn no_nets() -> Vec<Case> {
    let empty = || Raw::new(3, 2, 1, 7, Vec::new()).bytes();
    let done = |width| Told::Answer {
        answer: Answer {
            width,
            ..Answer::default()
        },
        written: Vec::new(),
    };
    vec![
        Case::new("empty ticket", empty(), check(&[]), Told::Number(0)),
        Case::refused("one byte too many", empty(), check(&[0]), 10),
        Case::refused("one byte too many", empty(), refit(&[255], 0, 0), 10),
        Case::new("no nets", empty(), refit(&[], 0, 0), done(7)),
        Case::new("no nets", empty(), refit(&[], 5, 4), done(7)),
        Case::new("no nets", empty(), route(0, 0), done(7)),
        Case::new("no nets", empty(), route(u32::MAX, 4), done(7)),
        Case::new("no nets", empty(), least(0, 0), done(1)),
    ]
}

/// 9 and 10 at once.
fn bad_sheet_and_ticket() -> Vec<Case> {
    let mut raw = t_raw(0, 3);
    raw.records[2].number = 1;
    let sheet = raw.bytes();
    vec![
        Case::refused("9 and 10", sheet.clone(), check(&[0, 0]), 9),
        Case::refused("9 and 10", sheet.clone(), check(&[0; 7]), 9),
        Case::refused("9 and 10", sheet.clone(), refit(&[0, 0], 100, 6), 9),
        Case::refused("9 and 14", sheet.clone(), route(100, 5), 9),
        Case::refused("9 and 14", sheet, least(100, 0), 9),
    ]
}
