//! Route, Least and Refit under a list, worked out by hand.

use super::{list, Wire};
use crate::case::{Ask, Case, Told};
use crate::design::{Design, Net};
use crate::grid::Grid;
use crate::paper::{same_channel, t_inside_raw, t_raw};

const UP: u8 = 255;

pub fn cases() -> Vec<Case> {
    let mut all = one_channel();
    all.extend(least_widths());
    all.extend(away_from_home());
    all.extend(least_of_t());
    all.extend(refits());
    all.extend(inside());
    all
}

fn route(budget: u32) -> Ask {
    Ask::Route { budget, room: 6 }
}

fn least(budget: u32) -> Ask {
    Ask::Least { budget, room: 6 }
}

fn refit(old: &[u8], budget: u32) -> Ask {
    Ask::Refit {
        old: old.to_vec(),
        budget,
        room: 6,
    }
}

fn given_up(number: u32, trials: u32) -> Told {
    Told::refusal(&route(0), number, trials)
}

/// The answer with the trials that it needs as budget, and 16 with one less. What
/// needs none is not spent with any budget.
fn needs(
    name: &str,
    sheet: &[u8],
    ask: impl Fn(u32) -> Ask,
    dead: &[Wire],
    trials: u32,
    told: Told,
) -> Vec<Case> {
    let sheet = || sheet.to_vec();
    let mut all = vec![
        Case::new(name, sheet(), ask(trials), told.clone()),
        Case::new(name, sheet(), ask(u32::MAX), told),
    ];
    if let Some(less) = trials.checked_sub(1) {
        all.push(Case::new(name, sheet(), ask(less), given_up(16, less)));
    }
    let dead = list(dead);
    all.into_iter().map(|case| case.under(&dead)).collect()
}

/// Nets in channel 0, W 2. A dead home track is tried, counted and does not fit. Two
/// nets and one whole track are overloaded; 0.2 is above W and lost to nobody.
fn one_channel() -> Vec<Case> {
    let nets = |count| same_channel(count, 0, 2).bytes();
    let found = |trials, ticket: &[u8]| Told::found(2, trials, 0, ticket);
    let one = nets(1);
    let two = nets(2);
    let old = |old: &'static [u8]| move |budget| refit(old, budget);
    let mut all = Vec::new();
    let mut add = |more: Vec<Case>| all.extend(more);
    add(needs("0.0 dead", &one, route, &[(0, 0)], 2, found(2, &[1])));
    add(needs("0.1 dead", &one, route, &[(0, 1)], 1, found(1, &[0])));
    add(needs("0.2 dead", &one, route, &[(0, 2)], 1, found(1, &[0])));
    let both = [(0, 0), (0, 1)];
    add(needs("both dead", &one, route, &both, 0, given_up(15, 0)));
    add(needs(
        "0.1 dead",
        &two,
        route,
        &[(0, 1)],
        0,
        given_up(15, 0),
    ));
    add(needs(
        "0.0 dead",
        &two,
        route,
        &[(0, 0)],
        0,
        given_up(15, 0),
    ));
    add(needs(
        "0.2 dead",
        &two,
        route,
        &[(0, 2)],
        3,
        found(3, &[0, 1]),
    ));
    let above: Vec<Wire> = (2..32).map(|track| (0, track)).collect();
    add(needs(
        "all above",
        &two,
        route,
        &above,
        3,
        found(3, &[0, 1]),
    ));
    add(needs(
        "1.0 dead",
        &two,
        route,
        &[(1, 0), (1, 1)],
        3,
        found(3, &[0, 1]),
    ));
    // One round, as no net is placed; then two placed nets that stay, or one.
    add(needs(
        "unplaced",
        &one,
        old(&[UP]),
        &[(0, 0)],
        2,
        found(2, &[1]),
    ));
    add(needs(
        "unplaced",
        &two,
        old(&[UP, UP]),
        &[(0, 1)],
        0,
        given_up(15, 0),
    ));
    add(needs(
        "0.2 dead",
        &two,
        old(&[1, 0]),
        &[(0, 2)],
        3,
        found(3, &[1, 0]),
    ));
    add(needs("on 1", &one, old(&[1]), &[(0, 0)], 2, found(2, &[1])));
    // The overload comes after 13, 21 and 14, before the first trial.
    let lost = list(&[(0, 1)]);
    all.push(Case::refused("21 and 15", two.clone(), refit(&[0, 1], 9), 21).under(&lost));
    all.push(Case::new("15", two.clone(), refit(&[0, UP], 9), given_up(15, 0)).under(&lost));
    let short = Ask::Route { budget: 9, room: 1 };
    all.push(Case::refused("14 and 15", two, short, 14).under(&lost));
    all
}

/// Nets in channel 0: no trial is made at a width with fewer whole tracks than nets.
/// The sheet's W is only checked; dead tracks at or above it count where a width has
/// them.
fn least_widths() -> Vec<Case> {
    let mut all = Vec::new();
    let every = |left_out: &[u8]| -> Vec<Wire> {
        let dead = (0..32).filter(|track| !left_out.contains(track));
        dead.map(|track| (0, track)).collect()
    };
    let found = |width: u8, trials, ticket: &[u8]| Told::found(width.into(), trials, 0, ticket);
    for width in [1, 2, 3, 32] {
        let one = same_channel(1, 0, width).bytes();
        let two = same_channel(2, 0, width).bytes();
        let mut add = |name, sheet: &[u8], dead: &[Wire], trials, told| {
            all.extend(needs(name, sheet, least, dead, trials, told));
        };
        let low = [(0, 0), (0, 1)];
        add("0.0 and 0.1", &one, &low, 3, found(3, 3, &[2]));
        add("0.1", &one, &[(0, 1)], 1, found(1, 1, &[0]));
        add("0.5", &one, &[(0, 5)], 1, found(1, 1, &[0]));
        add("all", &one, &every(&[]), 0, given_up(15, 0));
        add(
            "all but 0.31",
            &one,
            &every(&[31]),
            32,
            found(32, 32, &[31]),
        );
        add("all but 0.5", &one, &every(&[5]), 6, found(6, 6, &[5]));
        // Net 1 takes 0, net 2 finds it held and 1 dead.
        add("0.1", &two, &[(0, 1)], 4, found(3, 4, &[0, 2]));
        // Net 1 finds 0 dead and takes 1, net 2 finds 0 dead, 1 held, takes 2.
        add("0.0", &two, &[(0, 0)], 5, found(3, 5, &[1, 2]));
        add("0.2", &two, &[(0, 2)], 3, found(2, 3, &[0, 1]));
        add("all but 0.31", &two, &every(&[31]), 0, given_up(15, 0));
        // Width 32: net 1 makes 1 trial and net 2 makes 32.
        add(
            "all between",
            &two,
            &every(&[0, 31]),
            33,
            found(32, 33, &[0, 31]),
        );
    }
    all
}

/// Dead wires in channels that are no net's home, or not every net's.
///
/// Net {0,1}, W 2, 1.0 dead: home track 0 does not fit.
///
/// T, W 3, 5.1 dead: net 1 takes 0 (1), net 2 finds 1.0 held, 5.1 dead, takes 2 (4),
/// net 3 finds 0.0 held, 5.1 dead, 5.2 held (7); net 1 takes 1 (8), net 2 takes 0 (9),
/// net 3 finds 5.0 held, 0.1 held, takes 2 (12).
///
/// T, W 3, 1.2 and 5.2 dead, so that all three nets are left with tracks 0 and 1: net
/// 1 takes 0 (1), net 2 finds 0 held, takes 1 (3), net 3 finds 0.0 and 5.1 held, 5.2
/// dead (6), net 2 finds 1.2 dead (7); net 1 takes 1 (8), net 2 takes 0 (9), net 3
/// finds 5.0 and 0.1 held, 5.2 dead (12), net 2 finds 1.1 held, 1.2 dead (14); net 1
/// finds 1.2 dead (15).
fn away_from_home() -> Vec<Case> {
    let grid = Grid::new(3, 2);
    let net = Design::new(grid, 0, 2, vec![Net::chain(1, &[0, 1])]);
    let net = net.list().bytes();
    let t = t_raw(0, 3).bytes();
    let two = |trials, track| Told::found(2, trials, 0, &[track, track]);
    let moved_on = Told::found(3, 12, 0, &[1, 1, 0, 0, 2, 2]);
    let narrow = [(1, 2), (5, 2)];
    let lost = [(0, 0), (0, 1)];
    [
        needs("1.0 dead", &net, route, &[(1, 0)], 2, two(2, 1)),
        needs("1.1 dead", &net, route, &[(1, 1)], 1, two(1, 0)),
        // Each channel has a whole track, but no track is whole in both.
        needs(
            "0.0, 1.1",
            &net,
            route,
            &[(0, 0), (1, 1)],
            2,
            given_up(15, 2),
        ),
        needs("5.1 dead", &t, route, &[(5, 1)], 12, moved_on),
        needs("1.2, 5.2", &t, route, &narrow, 15, given_up(15, 15)),
        needs("0.0, 0.1", &t, route, &lost, 0, given_up(15, 0)),
    ]
    .concat()
}

/// Least on T, at any W.
///
/// 0.0 dead: channel 0 is overloaded at widths 1 and 2. Width 3: net 1 finds 0 dead,
/// takes 1 (2), net 2 takes 0 (3), net 3 finds 0.0 dead, 0.1 held, takes 2 (6).
///
/// 0.2 dead: at width 2 it is not there, m1's 10 trials. Width 3: net 1 takes 0 (11),
/// net 2 finds 0 held, takes 1 (13), net 3 finds 0.0 and 5.1 held, 0.2 dead (16), net
/// 2 takes 2 (17), net 3 finds 0.0 held, takes 1 (19).
fn least_of_t() -> Vec<Case> {
    let mut all = Vec::new();
    for width in [1, 2, 3, 32] {
        let t = t_raw(0, width).bytes();
        let mut add = |name, dead: &[Wire], trials, ticket: [u8; 6]| {
            let told = Told::found(3, trials, 0, &ticket);
            all.extend(needs(name, &t, least, dead, trials, told));
        };
        add("least, 0.0 dead", &[(0, 0)], 6, [1, 1, 0, 0, 2, 2]);
        add("least, 0.2 dead", &[(0, 2)], 19, [0, 0, 2, 2, 1, 1]);
        add("least, 0.3 dead", &[(0, 3)], 16, [0, 0, 1, 1, 2, 2]);
        add("least, 6.0 dead", &[(6, 0)], 16, [0, 0, 1, 1, 2, 2]);
    }
    all
}

/// m7's nets, 1 {0}, 2 {1} and 3 {0,1}, net 3 unplaced.
///
/// W 2, 0.1 dead: channel 0 is overloaded.
///
/// W 3, 0.2 dead, old 0 1. Round 0: net 1 takes 0 (1), net 2 may not take 0, takes 1
/// (3), net 3 finds 0.0 and 1.1 held, 0.2 dead (6), nets 2 and 1 may not change (9).
/// Round 1: net 1 takes 0 (10), net 2 moves to 0 (11), net 3 finds 0.0 held, takes 1
/// (13).
fn refits() -> Vec<Case> {
    let nets = || {
        let chains: [(u32, &[u16]); 3] = [(1, &[0]), (2, &[1]), (3, &[0, 1])];
        chains.map(|(number, channels)| Net::chain(number, channels))
    };
    let at = |width| {
        let design = Design::new(Grid::new(3, 2), 0, width, nets().to_vec());
        design.list().bytes()
    };
    let old = |budget| refit(&[0, 1, UP, UP], budget);
    let moved = Told::found(3, 13, 1, &[0, 0, 1, 1]);
    [
        needs("m7, 0.1 dead", &at(2), old, &[(0, 1)], 0, given_up(15, 0)),
        needs("m7, W 3, 0.2 dead", &at(3), old, &[(0, 2)], 13, moved),
        // m7 itself: 0.2 is above W 2.
        needs(
            "m7, 0.2 dead",
            &at(2),
            old,
            &[(0, 2), (1, 2)],
            10,
            Told::found(2, 10, 1, &[0, 0, 1, 1]),
        ),
    ]
    .concat()
}

/// T at an inner box, kind 2, W 3: left i is top 2 − i. 17.0, on top, is dead: net 1
/// takes 0 (1), net 2 finds 4.0 held, takes 1 (3), net 3 finds 3.0 and 17.1 held and
/// 17.0 dead (6), net 2 takes 2 (7), net 3 finds 3.0 held, takes 3.1 and 17.1 (9).
///
/// At W 2 two nets are on top and one track is whole.
fn inside() -> Vec<Case> {
    let at = |width| t_inside_raw(2, width).bytes();
    let dead = [(17, 0)];
    let told = Told::found(3, 9, 0, &[0, 0, 2, 2, 1, 1]);
    [
        needs("17.0 dead", &at(3), route, &dead, 9, told.clone()),
        needs("17.0 dead, least", &at(2), least, &dead, 9, told),
        needs("17.0 dead, W 2", &at(2), route, &dead, 0, given_up(15, 0)),
    ]
    .concat()
}
