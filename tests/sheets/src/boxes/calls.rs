//! Calls on sheets of kind 3, worked out by hand. Sheet T on the 4 by 4 chip:
//! channel 3 is left of the inner box at (1, 1), 4 right of it and 17 on top; net 1
//! is {3,4}, net 2 {4,17}, net 3 {3,17}.

use crate::case::{Ask, Case, Told};
use crate::design::{Design, Net};
use crate::grid::Grid;
use crate::paper::t_inside_design;
use crate::rows::{minus, plus, Row, Rows, SUBSET};

const LEFT_RIGHT: usize = 0;
const LEFT_TOP: usize = 2;
const TOP_RIGHT: usize = 3;

const UP: u8 = 255;

/// Subset's rows but for one column.
fn but(column: usize, row: Row) -> Rows {
    let mut rows = SUBSET;
    rows[column] = row;
    rows
}

fn t(width: u8, column: usize, row: Row) -> Vec<u8> {
    let design = t_inside_design(0, width).with_rows(but(column, row));
    design.list().bytes()
}

fn route(budget: u32) -> Ask {
    Ask::Route { budget, room: 8 }
}

fn least(budget: u32) -> Ask {
    Ask::Least { budget, room: 8 }
}

fn refit(old: &[u8], budget: u32) -> Ask {
    Ask::Refit {
        old: old.to_vec(),
        budget,
        room: 8,
    }
}

fn remove(ticket: &[u8], net: u32) -> Ask {
    Ask::Remove {
        ticket: ticket.to_vec(),
        net,
        room: 6,
    }
}

fn left(written: &[u8]) -> Told {
    Told::Ticket {
        number: 0,
        written: written.to_vec(),
    }
}

/// Route, Least, Refit and Remove by rows.
pub fn row_calls() -> Vec<Case> {
    let mut all = straight();
    all.extend(other_end());
    all.extend(turned());
    all.extend(moved());
    all
}

/// Left–right plus a shift, all else equal tracks. W 3, shift −1 or 2: net 1 takes
/// 3.0 and 4.2 (trial 1), net 2 takes 4.0 and 17.0 (2), net 3 finds 3.0 held (3)
/// and takes 3.1 and 17.1 (4).
///
/// Least makes no trial at width 1, where a channel has two nets. At width 2, −1
/// is 1: net 1 takes 3.0 and 4.1, and the rest is as above, 4 trials. But 2 is 0
/// there, which is subset: m1's 10 trials, and the 4 at width 3. Shift 3 is 1 at
/// width 2, and 0 at width 3, where Route makes m3's 6 trials. Shift −2 is 0 at
/// width 2 and 1 at width 3: net 1 takes 3.0 and 4.1 (11), the rest is as above.
fn straight() -> Vec<Case> {
    let at = |shift| t(3, LEFT_RIGHT, plus(shift));
    let routed = || Told::found(3, 4, 0, &[0, 2, 0, 0, 1, 1]);
    let narrow = || Told::found(2, 4, 0, &[0, 1, 0, 0, 1, 1]);
    let equal = || Told::found(3, 6, 0, &[0, 0, 1, 1, 2, 2]);
    let spent = |trials| Told::refusal(&route(0), 16, trials);
    vec![
        Case::new("left–right −1", at(-1), route(4), routed()),
        Case::new("left–right 2", at(2), route(4), routed()),
        Case::new("left–right 3", at(3), route(6), equal()),
        Case::new("left–right −1, short", at(-1), route(3), spent(3)),
        Case::new("left–right −1", at(-1), least(4), narrow()),
        Case::new("left–right −1, short", at(-1), least(3), spent(3)),
        Case::new(
            "left–right 2",
            at(2),
            least(14),
            Told::found(3, 14, 0, &[0, 2, 0, 0, 1, 1]),
        ),
        Case::new("left–right 2, short", at(2), least(13), spent(13)),
        Case::new("left–right 3", at(3), least(4), narrow()),
        Case::new(
            "left–right −2",
            at(-2),
            least(14),
            Told::found(3, 14, 0, &[0, 1, 0, 0, 1, 1]),
        ),
    ]
}

/// Top–right plus 1, all else equal tracks: top i is right i+1, so net 2, whose
/// home is channel 4 on the right, has one less in channel 17 on top. W 3: net 1
/// takes 3.0 and 4.0 (1), net 2 finds 4.0 held (2) and takes 4.1 and 17.0 (3), net
/// 3 finds 3.0 held (4) and takes 3.1 and 17.1 (5). At width 2 it is the same.
///
/// In Refit's round 0 the placed nets try the tracks up to their old one.
fn other_end() -> Vec<Case> {
    let sheet = || t(3, TOP_RIGHT, plus(1));
    let ticket = [0, 0, 1, 0, 1, 1];
    let name = "top–right 1";
    let told = |width| Told::found(width, 5, 0, &ticket);
    let old = [0, 0, 1, 0, UP, UP];
    let wrong = [0, 0, 1, 2, UP, UP];
    // Net 2 on 4.0 and 17.2, net 1 on 3.1 and 4.1: net 1 tries 0, 1; net 2 takes 0;
    // net 3 takes 3.0 and 17.0.
    let others = [1, 1, 0, 2, UP, UP];
    vec![
        Case::new(name, sheet(), route(5), told(3)),
        Case::new(name, sheet(), least(5), told(2)),
        Case::new(name, sheet(), refit(&old, 5), told(3)),
        Case::new(
            name,
            sheet(),
            refit(&others, 9),
            Told::found(3, 4, 0, &[1, 1, 0, 2, 0, 0]),
        ),
        Case::refused(name, sheet(), refit(&wrong, 5), 12),
        Case::new(
            name,
            sheet(),
            remove(&ticket, 2),
            left(&[0, 0, UP, UP, 1, 1]),
        ),
        Case::new(name, sheet(), remove(&ticket, 3), left(&old)),
        Case::refused(name, sheet(), remove(&wrong, 3), 12),
        Case::refused(name, sheet(), remove(&ticket, 4), 17),
    ]
}

/// Left–top minus −32, all else equal tracks. W 4: left i is top (−32−i) mod 4,
/// that is 0 3 2 1. Net 1 takes 3.0 and 4.0 (1), net 2 finds 4.0 held (2) and
/// takes 4.1 and 17.1 (3), net 3 finds 3.0 held (4) and takes 3.1 and 17.3 (5).
///
/// Least: at width 2, −32 and −33 are 0 and 1, which is subset: 10 trials. At
/// width 3, −32 is 1, −33 is 0 and −34 is 2: net 1 takes 0 (11), net 2 finds 4.0
/// held (12) and takes 1 (13), net 3 finds 3.0 held (14) and takes 3.1 and 17.0
/// (15).
fn turned() -> Vec<Case> {
    let sheet = || t(4, LEFT_TOP, minus(-32));
    let name = "left–top minus −32";
    let ticket = [0, 0, 1, 1, 1, 3];
    vec![
        Case::new(name, sheet(), route(5), Told::found(4, 5, 0, &ticket)),
        Case::new(
            name,
            sheet(),
            least(15),
            Told::found(3, 15, 0, &[0, 0, 1, 1, 1, 0]),
        ),
        Case::new(
            name,
            sheet(),
            refit(&ticket, 5),
            Told::found(4, 5, 0, &ticket),
        ),
        Case::new(
            name,
            sheet(),
            remove(&ticket, 1),
            left(&[UP, UP, 1, 1, 1, 3]),
        ),
    ]
}

/// m7's nets, here 1 {3}, 2 {4} and 3 {3,4}, W 2, left–right plus −1: net 3 has 3.0
/// and 4.1, or 3.1 and 4.0. Old 0 0: net 3 finds 3.0 held, then 4.0. Round 0: nets
/// 1 and 2 fit on 0 (2 trials), net 3 on neither (4), then 1 is a change for net 2
/// (5) and for net 1 (6). Round 1: the same 4 (10), net 2 moves to 1 (11), net 3
/// finds 3.0 held (12) and takes 3.1 and 4.0 (13).
fn moved() -> Vec<Case> {
    let nets = vec![
        Net::chain(1, &[3]),
        Net::chain(2, &[4]),
        Net::chain(3, &[3, 4]),
    ];
    let design = Design::new(Grid::new(4, 4), 3, 2, nets);
    let sheet = design.with_rows(but(LEFT_RIGHT, plus(-1))).list().bytes();
    let told = Told::found(2, 13, 1, &[0, 1, 1, 0]);
    let spent = Told::refusal(&route(0), 16, 12);
    let old = [0, 0, UP, UP];
    vec![
        Case::new("a move by rows", sheet.clone(), refit(&old, 13), told),
        Case::new("a move by rows, short", sheet, refit(&old, 12), spent),
    ]
}
