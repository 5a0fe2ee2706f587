//! Partners in an inner box at widths 3 and 5, worked out by hand from the box table
//! and, for kind 3, from rows that are unlike equal tracks in every column.

use super::chips::Side::{self, Bottom, Left, Right, Top};
use crate::rows::{minus, plus, Rows};

/// The rows of kind 3 here. −32 is 1 at width 3 and 3 at width 5; 31 is 1 at both.
pub const ROWS: Rows = [plus(1), minus(2), plus(-1), minus(-32), plus(31), minus(0)];

/// The columns of the box table, left to right: each pair's first side first.
const COLUMNS: [(Side, Side); 6] = [
    (Left, Right),
    (Top, Bottom),
    (Left, Top),
    (Top, Right),
    (Right, Bottom),
    (Bottom, Left),
];

/// By kind and column: for each track of the first side its partner, at width 3.
#[rustfmt::skip]
const AT_3: [[[u8; 3]; 6]; 4] = [
    [[0, 1, 2], [0, 1, 2], [0, 1, 2], [0, 1, 2], [0, 1, 2], [0, 1, 2]],
    [[0, 1, 2], [0, 1, 2], [0, 2, 1], [1, 2, 0], [1, 0, 2], [1, 2, 0]],
    [[0, 1, 2], [0, 1, 2], [2, 1, 0], [0, 1, 2], [2, 1, 0], [0, 1, 2]],
    [[1, 2, 0], [2, 1, 0], [2, 0, 1], [1, 0, 2], [1, 2, 0], [0, 2, 1]],
];

/// The same at width 5.
#[rustfmt::skip]
const AT_5: [[[u8; 5]; 6]; 4] = [
    [[0, 1, 2, 3, 4], [0, 1, 2, 3, 4], [0, 1, 2, 3, 4],
     [0, 1, 2, 3, 4], [0, 1, 2, 3, 4], [0, 1, 2, 3, 4]],
    [[0, 1, 2, 3, 4], [0, 1, 2, 3, 4], [0, 4, 3, 2, 1],
     [1, 2, 3, 4, 0], [3, 2, 1, 0, 4], [1, 2, 3, 4, 0]],
    [[0, 1, 2, 3, 4], [0, 1, 2, 3, 4], [4, 3, 2, 1, 0],
     [0, 1, 2, 3, 4], [4, 3, 2, 1, 0], [0, 1, 2, 3, 4]],
    [[1, 2, 3, 4, 0], [2, 1, 0, 4, 3], [4, 0, 1, 2, 3],
     [3, 2, 1, 0, 4], [1, 2, 3, 4, 0], [0, 4, 3, 2, 1]],
];

/// For each track of the first side, at width 3 or 5, its partner in an inner box.
fn column(kind: u8, width: u8, column: usize) -> &'static [u8] {
    match width {
        3 => &AT_3[usize::from(kind)][column],
        5 => &AT_5[usize::from(kind)][column],
        _ => unreachable!("no table for width {width}"),
    }
}

/// Whether two tracks on two sides are partners in an inner box.
pub fn inner(kind: u8, width: u8, a: (Side, u8), b: (Side, u8)) -> bool {
    let at = |pair| COLUMNS.iter().position(|c| *c == pair);
    match at((a.0, b.0)) {
        Some(there) => column(kind, width, there)[usize::from(a.1)] == b.1,
        None => {
            let back = at((b.0, a.0)).expect("two different sides");
            column(kind, width, back)[usize::from(b.1)] == a.1
        }
    }
}

#[cfg(test)]
mod tests {
    use super::{inner, COLUMNS};

    #[test]
    fn every_track_has_one_partner() {
        for kind in 0..4 {
            for width in [3, 5] {
                for (a, b) in COLUMNS {
                    for i in 0..width {
                        let there = (0..width).filter(|&j| inner(kind, width, (a, i), (b, j)));
                        assert_eq!(there.count(), 1);
                        let back = (0..width).filter(|&j| inner(kind, width, (b, i), (a, j)));
                        assert_eq!(back.count(), 1);
                    }
                }
            }
        }
    }

    /// No column of kind 3 joins equal tracks.
    #[test]
    fn rows_are_unlike_equal() {
        for width in [3, 5] {
            for (a, b) in COLUMNS {
                assert!((0..width).any(|i| !inner(3, width, (a, i), (b, i))));
            }
        }
    }
}
