//! Calls on nets that pass corner, rim and inner boxes, worked out by hand. Kind 3
//! has the rows `ROWS`: left i is right i + 1 and top i − 1, right i is bottom
//! i + 31, top i is right −32 − i.

use super::asks::{check, least, left, refit, remove, route, sheet};
use super::paths;
use crate::case::{Ask, Case, Told};
use crate::design::Net;
use crate::grid::Grid;

const UP: u8 = 255;

/// Route, Least, Refit, Remove and Check on nets that pass several boxes.
pub fn calls() -> Vec<Case> {
    let mut all = through();
    all.extend(taken_out());
    all.extend(two_threes());
    all.extend(two_threes_refitted());
    all.extend(paths::cases());
    all
}

/// On 3 by 3, net 2 goes from channel 0 round the corner (0, 0) to 6, over the rim
/// box (0, 1) to 2, through the middle, left to top, to 10 and over the rim box
/// (1, 2) to 4. Tracks change in the middle alone.
fn through_nets() -> [Net; 2] {
    [Net::chain(1, &[0]), Net::chain(2, &[0, 6, 2, 10, 4])]
}

/// Net 1 takes 0.0 (trial 1), net 2 finds it held (2) and takes 0.1 (3). Left 1 is
/// top 1, 3 − 1, W − 2 and 0 with the four kinds; at width 2, the least as two nets
/// are in channel 0, it is 1, 2 − 1, 0 and 0.
fn through() -> Vec<Case> {
    let at = |kind, width| sheet(Grid::new(3, 3), kind, width, &through_nets());
    let told = |width: u32, turned: u8| Told::found(width, 3, 0, &[0, 1, 1, 1, turned, turned]);
    let mut all = Vec::new();
    for (kind, width, turned) in [(0, 3, 1), (1, 3, 2), (2, 3, 1), (2, 4, 2), (3, 3, 0)] {
        let name = format!("through, kind {kind}, W {width}");
        let told = told(width.into(), turned);
        all.push(Case::new(name, at(kind, width), route(3), told));
    }
    for (kind, turned) in [(0, 1), (1, 1), (2, 0), (3, 0)] {
        let name = format!("through, kind {kind}, least");
        all.push(Case::new(name, at(kind, 3), least(3), told(2, turned)));
    }
    all
}

/// Kind 1, W 3. The last two tickets are refused: in one the middle box runs
/// straight, in the other the table holds in all boxes.
fn taken_out() -> Vec<Case> {
    let sheet = || sheet(Grid::new(3, 3), 1, 3, &through_nets());
    let name = "through, taken out";
    let ticket = [0, 1, 1, 1, 2, 2];
    let no_1 = [UP, 1, 1, 1, 2, 2];
    let no_2 = [0, UP, UP, UP, UP, UP];
    let equal = [0, 1, 1, 1, 1, 1];
    let table = [0, 1, 0, 1, 2, 0];
    vec![
        Case::new(name, sheet(), remove(&ticket, 1), left(&no_1)),
        Case::new(name, sheet(), remove(&ticket, 2), left(&no_2)),
        Case::refused(name, sheet(), remove(&ticket, 3), 17),
        Case::refused(name, sheet(), remove(&equal, 1), 12),
        Case::refused(name, sheet(), remove(&table, 1), 12),
        Case::refused(name, sheet(), refit(&equal, 99), 12),
        Case::refused(name, sheet(), refit(&table, 99), 12),
    ]
}

/// T twice on a 4 by 4 chip: nets 1 to 3 at the inner box (1, 1) with 3, 4 and 17
/// for 0, 1 and 5, nets 4 to 6 at the rim box (1, 0) with 0, 1 and 13.
fn two_threes_at(kind: u8, width: u8) -> Vec<u8> {
    let channels = [[3, 4], [4, 17], [3, 17], [0, 1], [1, 13], [0, 13]];
    let net = |place: usize| Net::chain(place as u32 + 1, &channels[place]);
    sheet(Grid::new(4, 4), kind, width, &[0, 1, 2, 3, 4, 5].map(net))
}

/// W 2. Kind 0: the first three have m1's 10 trials and no ticket. Kinds 1 and 2:
/// they have two, m4's or m5's and the other track everywhere, in 10 trials, and
/// after each the last three make 10 in vain. Kind 3, where left is turned to right
/// and top: net 1 takes 3.0 and 4.1 (1), net 2 4.0 and 17.0 (2), net 3 finds 3.0 and
/// 17.0 held (4), net 2 4.1 (5), net 1 takes 3.1 and 4.0 (6), net 2 finds 4.0 held
/// (7) and takes 4.1 and 17.1 (8), net 3 finds 17.1 and 3.1 held (10).
///
/// W 3. The last three make m3's 6 trials. Kind 0: so do the first. Kind 1: nets 1
/// and 2 make 3, net 3 finds 3.0 held and takes 3.1 and 17.2, as 17.0 is net 2's
/// (5). Kind 2: net 2 is on 17.1, net 3 finds 3.0 held and 17.1 with 3.1, and takes
/// 3.2 and 17.0 (6). Kind 3: net 1 takes 3.0 and 4.1 (1), net 2 4.0 and 17.1 (2),
/// net 3 finds 3.0 held and takes 3.1 and 17.0 (4).
///
/// Least makes no trial at width 1, where channels have two nets, then both.
fn two_threes() -> Vec<Case> {
    let rim = [0, 0, 1, 1, 2, 2];
    let mut all = Vec::new();
    for (kind, narrow, wide, first) in [
        (0, 10, 12, [0, 0, 1, 1, 2, 2]),
        (1, 30, 11, [0, 0, 1, 0, 1, 2]),
        (2, 30, 12, [0, 0, 1, 1, 2, 0]),
        (3, 10, 10, [0, 1, 0, 1, 1, 0]),
    ] {
        let ticket = [first, rim].concat();
        let name = format!("two threes, kind {kind}");
        let mut add = |width: u8, ask: Ask, told: Told| {
            all.push(Case::new(&*name, two_threes_at(kind, width), ask, told));
        };
        let given_up = |number, trials| Told::refusal(&route(0), number, trials);
        let both = narrow + wide;
        add(2, route(narrow), given_up(15, narrow));
        add(2, route(narrow - 1), given_up(16, narrow - 1));
        add(3, route(wide), Told::found(3, wide, 0, &ticket));
        add(3, least(both), Told::found(3, both, 0, &ticket));
        add(3, least(both - 1), given_up(16, both - 1));
        add(3, check(&ticket), Told::Number(0));
    }
    all
}

/// Kind 2, W 3, net 6 not placed yet. Placed nets try the tracks up to their old
/// one: 1, 2, 3, 1 and 2 trials, then net 6 finds 0.0 and 13.1 held and takes 2 (12).
/// Tickets with equal tracks inside, or turned ones on the rim, are refused.
fn two_threes_refitted() -> Vec<Case> {
    let sheet = || two_threes_at(2, 3);
    let old = [0, 0, 1, 1, 2, 0, 0, 0, 1, 1, UP, UP];
    let full = [0, 0, 1, 1, 2, 0, 0, 0, 1, 1, 2, 2];
    let equal = [UP, UP, UP, UP, 2, 2, 0, 0, 1, 1, 2, 2];
    let turned = [0, 0, 1, 1, 2, 0, UP, UP, UP, UP, 2, 0];
    let name = "two threes refitted";
    let told = Told::found(3, 12, 0, &full);
    vec![
        Case::new(name, sheet(), refit(&old, 12), told),
        Case::refused(name, sheet(), refit(&equal, 99), 12),
        Case::refused(name, sheet(), refit(&turned, 99), 12),
        Case::new(name, sheet(), remove(&full, 6), left(&old)),
        Case::refused(name, sheet(), remove(&turned, 1), 12),
    ]
}
