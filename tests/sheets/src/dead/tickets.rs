//! Tickets on dead wires: 21 alone and beside the numbers before and after it. Sheet
//! T, W 3, is that of the refusals: net 1 has channels 0 and 1, net 2 has 1 and 5,
//! net 3 has 0 and 5, and partners have equal tracks.

use super::{check, list, refit, Wire};
use crate::case::{Ask, Case, Told};
use crate::paper::{t_inside_raw, t_raw};

const UP: u8 = 255;
const RIGHT: [u8; 6] = [0, 0, 1, 1, 2, 2];

pub fn cases() -> Vec<Case> {
    let mut all = every_wire();
    all.extend(beside());
    all.extend(unplaced());
    all.extend(freed());
    all.extend(inside());
    all
}

fn t() -> Vec<u8> {
    t_raw(0, 3).bytes()
}

/// Each wire below W and some above as the only dead one: the ticket holds six.
fn every_wire() -> Vec<Case> {
    let held = [(0, 0), (1, 0), (1, 1), (5, 1), (0, 2), (5, 2)];
    let mut all = Vec::new();
    for channel in 0..7 {
        for track in [0, 1, 2, 3, 31] {
            let wire = (channel, track);
            let dead = list(&[wire]);
            let name = format!("{wire:?} dead");
            if held.contains(&wire) {
                for ask in [
                    check(&RIGHT),
                    refit(&RIGHT, 99, 6),
                    refit(&RIGHT, 0, 6),
                    refit(&RIGHT, 0, 5),
                    refit(&RIGHT, 99, 0),
                ] {
                    all.push(Case::refused(&*name, t(), ask, 21).under(&dead));
                }
            } else {
                let right = Case::new(&*name, t(), check(&RIGHT), Told::Number(0));
                all.push(right.under(&dead));
                // Every net may stay, one after the other: 1 + 2 + 3 trials.
                let found = Told::found(3, 6, 0, &RIGHT);
                let stay = Case::new(name, t(), refit(&RIGHT, 6, 6), found);
                all.push(stay.under(&dead));
            }
        }
    }
    all
}

/// A number, a ticket and dead wires; Check and Refit give the number, whatever the
/// output and the budget.
const BESIDE: [(u32, &str, &[u8], &[Wire]); 18] = [
    (10, "10 and 21", &[0, 0, 1, 1, 2], &[(0, 0)]),
    (10, "10 and 21, longer", &[0, 0, 1, 1, 2, 2, 0], &[(0, 0)]),
    (11, "11 and 21", &[0, 0, 1, 1, 2, 3], &[(0, 0)]),
    (11, "11 and 21, track first", &[3, 0, 1, 1, 2, 2], &[(5, 2)]),
    (
        11,
        "11 and 21, track as the item's",
        &[0, 0, 1, 1, 5, 5],
        &[(0, 5), (0, 0)],
    ),
    (
        11,
        "11 on a dead wire at W",
        &[0, 0, 1, 1, 3, 3],
        &[(0, 3), (5, 3)],
    ),
    (11, "half a net 255", &[0, UP, 1, 1, 2, 2], &[(0, 0)]),
    (12, "12 and 21 in one net", &[0, 1, 1, 1, 2, 2], &[(0, 0)]),
    (12, "12 and 21, apart first", &[0, 1, 1, 1, 2, 2], &[(5, 2)]),
    (12, "12 and 21, dead first", &[0, 0, 1, 1, 2, 0], &[(0, 0)]),
    (12, "12, 21 and 13", &[0, 0, 0, 0, 2, 1], &[(1, 0)]),
    (21, "21 and 13 on one wire", &[0, 0, 0, 0, 2, 2], &[(1, 0)]),
    (21, "21 and 13, in one net", &[0, 0, 0, 0, 2, 2], &[(0, 0)]),
    (21, "21 and 13, clash first", &[0, 0, 0, 0, 2, 2], &[(5, 2)]),
    (21, "21 and 13, all on 0", &[0; 6], &[(5, 0)]),
    (
        13,
        "13, another wire dead",
        &[0, 0, 0, 0, 2, 2],
        &[(0, 1), (1, 2), (5, 1)],
    ),
    (
        13,
        "13, dead at W",
        &[0, 0, 0, 0, 2, 2],
        &[(0, 3), (1, 3), (5, 31)],
    ),
    (
        21,
        "several",
        &[0, 0, 1, 1, 2, 2],
        &[(6, 0), (0, 1), (5, 2), (1, 0)],
    ),
];

fn beside() -> Vec<Case> {
    let mut all = Vec::new();
    for (number, name, ticket, wires) in BESIDE {
        let dead = list(wires);
        for ask in [
            check(ticket),
            refit(ticket, 99, 6),
            refit(ticket, 0, 6),
            refit(ticket, 99, 5),
            refit(ticket, 0, 0),
        ] {
            all.push(Case::refused(name, t(), ask, number).under(&dead));
        }
    }
    // 19 and 20 come before all of a ticket's numbers.
    let half = [&list(&[(0, 0)])[..], &[1]].concat();
    let twice = list(&[(0, 0), (1, 1), (0, 0)]);
    for ticket in [&RIGHT[..], &[0; 6], &[0; 5]] {
        for ask in [check(ticket), refit(ticket, 9, 6), refit(ticket, 9, 5)] {
            all.push(Case::refused("19 and 21", t(), ask.clone(), 19).under(&half));
            all.push(Case::refused("20 and 21", t(), ask, 20).under(&twice));
        }
    }
    all
}

/// Refit does not look at unplaced nets; Check gives 11 for them.
///
/// Net 3 unplaced, 0.2 dead. Round 0: net 1 takes 0 (trial 1), net 2 may not take 0
/// and takes 1 (3), net 3 finds 0.0 and 5.1 held and 0.2 dead (6), nets 2 and 1 may
/// not change (7, 9). Round 1: net 1 takes 0 (10), net 2 finds 1.0 held and takes 1
/// (12), net 3 fails as before (15), net 2 moves to 2 (16), net 3 finds 0.0 held (17)
/// and takes 1 (18).
fn unplaced() -> Vec<Case> {
    let old = [0, 0, 1, 1, UP, UP];
    let dead = list(&[(0, 2)]);
    let spent = Told::refusal(&refit(&old, 17, 6), 16, 17);
    let found = Told::found(3, 18, 1, &[0, 0, 2, 2, 1, 1]);
    let name = "net 3 unplaced, 0.2 dead";
    let clash = [0, 0, 0, 0, UP, UP];
    let all = [
        Case::new(name, t(), refit(&old, 18, 6), found),
        Case::new(name, t(), refit(&old, 17, 6), spent),
        Case::refused(name, t(), check(&old), 11),
        Case::refused(name, t(), refit(&old, 18, 5), 14),
        Case::refused(name, t(), refit(&clash, 18, 5), 13),
    ];
    all.map(|case| case.under(&dead)).to_vec()
}

/// Net 1 is on the dead wire 0.0. Remove takes no list and takes the net out. Then
/// Refit's round 0: net 1 finds 0.0 dead and takes 1 (2), net 2 may not take 0, finds
/// 1.1 held and may not take 2 (5); net 1 takes 2 (6), net 2 may not take 0 and takes
/// 1 (8), net 3 may not take 0 and 1 and finds 0.2 held (11), net 2 may not take 2
/// (12). Round 1: net 1 takes 1 (14), net 2 moves to 0 (15), net 3 may not take 0 and
/// 1 and takes 2 (18).
fn freed() -> Vec<Case> {
    let dead = list(&[(0, 0)]);
    let left = [UP, UP, 1, 1, 2, 2];
    let remove = Ask::Remove {
        ticket: RIGHT.to_vec(),
        net: 1,
        room: 6,
    };
    let out = Told::Ticket {
        number: 0,
        written: left.to_vec(),
    };
    let found = Told::found(3, 18, 1, &[1, 1, 0, 0, 2, 2]);
    let name = "net 1 on a dead wire";
    vec![
        Case::refused(name, t(), check(&RIGHT), 21).under(&dead),
        Case::refused(name, t(), refit(&RIGHT, 99, 6), 21).under(&dead),
        Case::new(name, t(), remove, out),
        Case::new(name, t(), refit(&left, 18, 6), found).under(&dead),
    ]
}

/// T at an inner box, kind 2, W 3: net 3 is on track 2 left of it, channel 3, and so
/// on track 0 on top, channel 17. The wire that it holds there is 17.0.
fn inside() -> Vec<Case> {
    let ticket = [0, 0, 1, 1, 2, 0];
    let sheet = || t_inside_raw(2, 3).bytes();
    let name = "net 3 turned";
    vec![
        Case::refused(name, sheet(), check(&ticket), 21).under(&list(&[(17, 0)])),
        Case::refused(name, sheet(), refit(&ticket, 9, 6), 21).under(&list(&[(17, 0)])),
        Case::new(name, sheet(), check(&ticket), Told::Number(0)).under(&list(&[(17, 2)])),
        Case::refused(name, sheet(), check(&ticket), 21).under(&list(&[(3, 2)])),
    ]
}
