//! Boxes by rows, worked out by hand, asked through Check from both ends.

use super::{BOTTOM, LEFT, RIGHT, TOP};
use crate::case::{Ask, Case, Told};
use crate::design::{Design, Net};
use crate::grid::Grid;
use crate::rows::{minus, plus, Row, Rows};

/// The columns of the box table, left to right: each pair's first side first.
const COLUMNS: [(u16, u16); 6] = [
    (LEFT, RIGHT),
    (TOP, BOTTOM),
    (LEFT, TOP),
    (TOP, RIGHT),
    (RIGHT, BOTTOM),
    (BOTTOM, LEFT),
];

/// At widths 1 to 3: a row, and the partner of each track of the first side.
/// −32 is 0 at width 2 and 1 at width 3, where −33 is 0; 31 is 1 at both.
#[rustfmt::skip]
const NARROW: [(Row, &[u8]); 34] = [
    (plus(0), &[0]), (plus(-32), &[0]), (minus(-32), &[0]),
    (plus(-1), &[0]), (minus(-1), &[0]), (plus(31), &[0]), (minus(31), &[0]),
    (plus(0), &[0, 1]), (minus(0), &[0, 1]),
    (plus(-32), &[0, 1]), (minus(-32), &[0, 1]),
    (plus(-31), &[1, 0]), (minus(-31), &[1, 0]),
    (plus(-1), &[1, 0]), (minus(-1), &[1, 0]),
    (plus(1), &[1, 0]), (minus(1), &[1, 0]),
    (plus(31), &[1, 0]), (minus(31), &[1, 0]),
    (plus(0), &[0, 1, 2]), (minus(0), &[0, 2, 1]),
    (plus(-32), &[1, 2, 0]), (minus(-32), &[1, 0, 2]),
    (plus(-31), &[2, 0, 1]), (minus(-31), &[2, 1, 0]),
    (plus(-2), &[1, 2, 0]), (minus(-2), &[1, 0, 2]),
    (plus(-1), &[2, 0, 1]), (minus(-1), &[2, 1, 0]),
    (plus(1), &[1, 2, 0]), (plus(2), &[2, 0, 1]), (minus(2), &[2, 1, 0]),
    (plus(31), &[1, 2, 0]), (minus(31), &[1, 0, 2]),
];

/// Runs of tracks, from one to another, rising or falling.
type Runs = &'static [(u8, u8)];

/// At widths 31 and 32: a row, and the partners as runs, both ends included.
/// −32 is 30 at width 31 and 0 at width 32; 31 is 0 at width 31.
#[rustfmt::skip]
const WIDE: [(u8, Row, Runs); 20] = [
    (31, plus(0), &[(0, 30)]), (31, minus(0), &[(0, 0), (30, 1)]),
    (31, plus(-32), &[(30, 30), (0, 29)]), (31, minus(-32), &[(30, 0)]),
    (31, plus(-1), &[(30, 30), (0, 29)]), (31, minus(-1), &[(30, 0)]),
    (31, plus(30), &[(30, 30), (0, 29)]), (31, minus(30), &[(30, 0)]),
    (31, plus(31), &[(0, 30)]), (31, minus(31), &[(0, 0), (30, 1)]),
    (32, plus(0), &[(0, 31)]), (32, minus(0), &[(0, 0), (31, 1)]),
    (32, plus(-32), &[(0, 31)]), (32, minus(-32), &[(0, 0), (31, 1)]),
    (32, plus(-1), &[(31, 31), (0, 30)]), (32, minus(-1), &[(31, 0)]),
    (32, plus(31), &[(31, 31), (0, 30)]), (32, minus(31), &[(31, 0)]),
    (32, plus(30), &[(30, 31), (0, 29)]), (32, minus(30), &[(30, 0), (31, 31)]),
];

/// At width 7: rows that differ in each column, from it and from its other end.
#[rustfmt::skip]
const UNLIKE: [[(Row, [u8; 7]); 6]; 2] = [
    [
        (plus(1), [1, 2, 3, 4, 5, 6, 0]),
        (minus(2), [2, 1, 0, 6, 5, 4, 3]),
        (plus(3), [3, 4, 5, 6, 0, 1, 2]),
        (minus(4), [4, 3, 2, 1, 0, 6, 5]),
        (plus(5), [5, 6, 0, 1, 2, 3, 4]),
        (minus(6), [6, 5, 4, 3, 2, 1, 0]),
    ],
    [
        (minus(-1), [6, 5, 4, 3, 2, 1, 0]),
        (plus(-2), [5, 6, 0, 1, 2, 3, 4]),
        (minus(-3), [4, 3, 2, 1, 0, 6, 5]),
        (plus(-4), [3, 4, 5, 6, 0, 1, 2]),
        (minus(-5), [2, 1, 0, 6, 5, 4, 3]),
        (plus(-6), [1, 2, 3, 4, 5, 6, 0]),
    ],
];

/// Boxes by rows: every column, from both ends.
pub fn row_cases() -> Vec<Case> {
    let mut all = Vec::new();
    for (row, partners) in NARROW {
        for column in 0..6 {
            all.extend(asked(&alone(row, column), column, partners));
        }
    }
    for (width, row, runs) in WIDE {
        let partners: Vec<u8> = runs.iter().flat_map(|&run| tracks(run)).collect();
        assert_eq!(partners.len(), usize::from(width));
        for column in 0..6 {
            all.extend(asked(&alone(row, column), column, &partners));
        }
    }
    for columns in UNLIKE {
        let rows = columns.map(|column| column.0);
        for (column, (_, partners)) in columns.iter().enumerate() {
            all.extend(asked(&rows, column, partners));
        }
    }
    all
}

/// A run of tracks, rising or falling.
fn tracks((from, to): (u8, u8)) -> Vec<u8> {
    if from <= to {
        (from..=to).collect()
    } else {
        (to..=from).rev().collect()
    }
}

/// Rows with this one in a column, and another in all others: the other sign and a
/// shift that is one off.
fn alone(row: Row, column: usize) -> Rows {
    let shift = if row.shift < 31 { row.shift + 1 } else { 30 };
    let minus = !row.minus;
    let mut rows = [Row { minus, shift }; 6];
    rows[column] = row;
    rows
}

/// Both orders of listing. With few tracks every pair, else the tracks at the ends
/// with their partner and those beside it.
fn asked(rows: &Rows, column: usize, partners: &[u8]) -> Vec<Case> {
    let width = partners.len() as u8;
    let (first, second) = COLUMNS[column];
    let [there, back] = [[first, second], [second, first]].map(|pair| {
        let net = Net::chain(1, &pair);
        let design = Design::new(Grid::new(3, 3), 3, width, vec![net]);
        design.with_rows(*rows).list().bytes()
    });
    let mut all = Vec::new();
    for i in 0..width {
        let partner = partners[usize::from(i)];
        for j in 0..width {
            let near = (j + width - partner + 1) % width <= 2;
            let end = i < 2 || i + 2 >= width;
            if width > 7 && !(near && end) {
                continue;
            }
            let told = Told::Number(if j == partner { 0 } else { 12 });
            let name = format!(
                "rows {:?}, W {width}, {first}.{i} {second}.{j}",
                rows[column]
            );
            let check = |ticket: [u8; 2]| Ask::Check {
                ticket: ticket.to_vec(),
            };
            all.push(Case::new(
                &*name,
                there.clone(),
                check([i, j]),
                told.clone(),
            ));
            let name = format!("{name}, listed backwards");
            all.push(Case::new(name, back.clone(), check([j, i]), told));
        }
    }
    all
}
