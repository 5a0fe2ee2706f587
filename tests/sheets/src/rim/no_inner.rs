//! Chips without an inner box: kind 3 answers as subset does, whatever its good
//! rows say, and so do kinds 1 and 2. A bad row is 18 all the same.

use super::partners::ROWS;
use crate::case::{Ask, Case, Told};
use crate::design::{Design, Net};
use crate::grid::Grid;
use crate::refusals::Fault;
use crate::rows::{bytes, ENDS, WILTON};

/// The design as kinds 0, 1 and 2, and as kind 3 with several rows.
fn all_kinds(design: &Design) -> Vec<(String, Vec<u8>)> {
    let mut all = Vec::new();
    for kind in 0..3 {
        let sheet = design.clone().with_kind(kind).list().bytes();
        all.push((format!("kind {kind}"), sheet));
    }
    for (name, rows) in [("unlike", ROWS), ("at the ends", ENDS), ("Wilton", WILTON)] {
        let sheet = design.clone().with_rows(rows).list().bytes();
        all.push((format!("rows {name}"), sheet));
    }
    all
}

/// Three nets round one box, as T's: each two share a channel.
fn three(grid: Grid, width: u8, [a, b, c]: [u16; 3]) -> Design {
    let nets = vec![
        Net::chain(1, &[a, b]),
        Net::chain(2, &[b, c]),
        Net::chain(3, &[a, c]),
    ];
    Design::new(grid, 0, width, nets)
}

/// On 2 by 16 the box at (0, 1) has channel 1 on its right, 16 below and 18 above;
/// on 16 by 2 the box at (1, 0) has 0 on its left, 1 on its right and 31 above; on
/// 3 by 2, T's chip, it has 0, 1 and 5. In rising order they stand for T's 0, 1 and
/// 5: m1, m2, m3 and m6.
fn threes() -> Vec<Case> {
    let mut all = Vec::new();
    for (columns, rows, channels) in [(2, 16, [1, 16, 18]), (16, 2, [0, 1, 31]), (3, 2, [0, 1, 5])]
    {
        let at = |width| three(Grid::new(columns, rows), width, channels);
        let route = |budget| Ask::Route { budget, room: 6 };
        let least = |budget| Ask::Least { budget, room: 6 };
        let given_up = |number, trials| Told::refusal(&route(0), number, trials);
        let ticket = [0, 0, 1, 1, 2, 2];
        let check = |ticket: [u8; 6]| Ask::Check {
            ticket: ticket.to_vec(),
        };
        for (name, sheet) in all_kinds(&at(2)) {
            let name = format!("{columns} by {rows}, {name}");
            let mut add = |ask, told| all.push(Case::new(&*name, sheet.clone(), ask, told));
            add(route(10), given_up(15, 10));
            add(route(9), given_up(16, 9));
            add(least(16), Told::found(3, 16, 0, &ticket));
            add(least(15), given_up(16, 15));
        }
        for (name, sheet) in all_kinds(&at(3)) {
            let name = format!("{columns} by {rows}, {name}");
            let mut add = |ask, told| all.push(Case::new(&*name, sheet.clone(), ask, told));
            add(route(6), Told::found(3, 6, 0, &ticket));
            add(check(ticket), Told::Number(0));
            add(check([0, 0, 1, 0, 2, 2]), Told::Number(12));
            add(check([0, 0, 1, 1, 2, 0]), Told::Number(12));
        }
    }
    all
}

/// A ring of nets round the four boxes of 2 by 2, where channel 0 is below, 1 above,
/// 2 left and 3 right. W 2: net 1 takes 0.0 and 2.0 (trial 1), net 2, whose home is
/// 1, finds 2.0 held (2) and takes 1.1 and 2.1 (3), net 3 takes 1.0 and 3.0 (4), net
/// 4 finds 0.0 held (5) and takes 0.1 and 3.1 (6).
fn ring() -> Vec<Case> {
    let nets = vec![
        Net::chain(1, &[0, 2]),
        Net::chain(2, &[2, 1]),
        Net::chain(3, &[1, 3]),
        Net::chain(4, &[3, 0]),
    ];
    let design = Design::new(Grid::new(2, 2), 0, 2, nets);
    let told = || Told::found(2, 6, 0, &[0, 0, 1, 1, 0, 0, 1, 1]);
    let mut all = Vec::new();
    for (name, sheet) in all_kinds(&design) {
        let name = format!("ring, {name}");
        let (budget, room) = (6, 8);
        for ask in [Ask::Route { budget, room }, Ask::Least { budget, room }] {
            all.push(Case::new(&*name, sheet.clone(), ask, told()));
        }
    }
    all
}

/// Sheets without an inner box, of every kind.
pub fn no_inner() -> Vec<Case> {
    let mut all = threes();
    all.extend(ring());
    all
}

/// A bad sign or shift in each column, on chips without an inner box: with a joint,
/// with one channel, and with no net.
pub fn faults() -> Vec<Fault> {
    let mut all = Vec::new();
    for (columns, rows, a, b) in [(2, 2, 0, 2), (2, 16, 1, 16), (16, 2, 0, 31)] {
        for channels in [&[a, b][..], &[a], &[]] {
            let nets = match channels {
                [] => Vec::new(),
                _ => vec![Net::chain(1, channels)],
            };
            let design = Design::new(Grid::new(columns, rows), 0, 3, nets);
            let good = design.with_rows(ROWS).list();
            for column in 0..6 {
                for (place, bad) in [(2 * column, 2), (2 * column + 1, 32)] {
                    let mut row_bytes = bytes(&ROWS);
                    row_bytes[place] = bad;
                    let sheet = good.clone().with_row_bytes(&row_bytes).bytes();
                    let entries = channels.len();
                    let name =
                        format!("{columns} by {rows}, {entries} entries, bad row byte {place}");
                    all.push(Fault::new(18, name, sheet));
                }
            }
        }
    }
    all
}
