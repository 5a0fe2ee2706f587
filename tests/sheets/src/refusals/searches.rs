//! Numbers 14 to 16 on sheet T, kind 0, and on an overloaded channel.

use super::tickets::{least, refit, route};
use crate::case::{Case, Told};
use crate::paper::{same_channel, t_raw, T};

pub fn cases() -> Vec<Case> {
    let mut all = space();
    all.extend(unroutable_and_spent());
    all
}

fn t() -> Vec<u8> {
    t_raw(0, 3).bytes()
}

fn space() -> Vec<Case> {
    let old = [0, 0, 1, 1, 255, 255];
    let mut all = Vec::new();
    for room in [0, 1, 5] {
        for budget in [0, 9, 10, 100] {
            // On T itself 15 (Route, from budget 10) or 16 would apply too.
            for sheet in [T.to_vec(), t()] {
                all.push(Case::refused(
                    "space",
                    sheet.clone(),
                    route(budget, room),
                    14,
                ));
                all.push(Case::refused("space", sheet, least(budget, room), 14));
            }
            all.push(Case::refused("space", t(), refit(&old, budget, room), 14));
        }
    }
    let overloaded = same_channel(33, 0, 32).bytes();
    all.push(Case::refused(
        "14 and 15",
        overloaded.clone(),
        route(0, 32),
        14,
    ));
    all.push(Case::refused(
        "14 and 15",
        overloaded.clone(),
        least(0, 32),
        14,
    ));
    let old = [255; 33];
    all.push(Case::refused(
        "14 and 15",
        overloaded,
        refit(&old, 0, 32),
        14,
    ));
    all
}

fn unroutable_and_spent() -> Vec<Case> {
    let told = |number, trials| Told::refusal(&route(0, 0), number, trials);
    let overloaded = || same_channel(33, 0, 32).bytes();
    let t2 = || T.to_vec();
    let up = [255; 6];
    vec![
        Case::new("15", t2(), route(10, 6), told(15, 10)),
        Case::new("15", t2(), route(u32::MAX, 6), told(15, 10)),
        Case::new("16", t2(), route(9, 6), told(16, 9)),
        Case::new("16", t2(), route(0, 6), told(16, 0)),
        Case::new("16", t2(), least(15, 6), told(16, 15)),
        Case::new("16", t2(), least(10, 6), told(16, 10)),
        Case::new("16", t2(), least(0, 6), told(16, 0)),
        // No placed nets: round 0 is the only one and is the plain search.
        Case::new("15", t2(), refit(&up, 10, 6), told(15, 10)),
        Case::new("16", t2(), refit(&up, 9, 6), told(16, 9)),
        Case::new("15", overloaded(), route(0, 33), told(15, 0)),
        Case::new("15", overloaded(), least(0, 33), told(15, 0)),
        Case::new("15", overloaded(), refit(&[255; 33], 0, 33), told(15, 0)),
    ]
}
