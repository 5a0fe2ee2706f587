//! The kinds of inner boxes, and the table that says how each connects the tracks of two sides.

use super::row::{Column, Row, Rows, COLUMNS};
use super::Side;
use crate::{KINDS, KIND_ROWS, KIND_SUBSET, KIND_UNIVERSAL, KIND_WILTON};
use core::fmt;

/// How the inner boxes of a chip connect tracks; those on its rim join equal tracks, whatever the kind (`Fabric::partner`).
#[derive(Clone, Copy, Debug, PartialEq, Eq)]
pub enum Kind {
    Subset,
    Wilton,
    Universal,
    /// Kind 3: the sheet has the rows of its inner boxes.
    Rows(Rows),
    /// A number that none of the others has, or 3 without its rows; the library refuses it.
    Other(u8),
}

impl From<u8> for Kind {
    fn from(number: u8) -> Kind {
        match number {
            KIND_SUBSET => Kind::Subset,
            KIND_WILTON => Kind::Wilton,
            KIND_UNIVERSAL => Kind::Universal,
            other => Kind::Other(other),
        }
    }
}

impl From<Rows> for Kind {
    fn from(rows: Rows) -> Kind {
        Kind::Rows(rows)
    }
}

impl fmt::Display for Kind {
    /// The kind as a sheet's text has it: its word, behind it the rows if it is by rows; or its number if it has no word.
    fn fmt(&self, f: &mut fmt::Formatter<'_>) -> fmt::Result {
        if let Kind::Other(number) = self {
            return number.fmt(f);
        }
        f.write_str(KINDS[usize::from(self.number())])?;
        match self {
            Kind::Rows(rows) => rows.iter().try_for_each(|row| write!(f, " {row}")),
            _ => Ok(()),
        }
    }
}

/// The rows of the published kinds. A multiple of W in the paper's cell changes nothing and is left out.
const SUBSET: Rows = [Row::plus_i(0); 6];
const WILTON: Rows = [
    Row::plus_i(0),
    Row::plus_i(0),
    Row::minus_i(0),
    Row::plus_i(1),
    Row::minus_i(-2),
    Row::plus_i(1),
];
const UNIVERSAL: Rows = [
    Row::plus_i(0),
    Row::plus_i(0),
    Row::minus_i(-1),
    Row::plus_i(0),
    Row::minus_i(-1),
    Row::plus_i(0),
];

impl Kind {
    /// The kind's number in a sheet's bytes.
    pub fn number(self) -> u8 {
        match self {
            Kind::Subset => KIND_SUBSET,
            Kind::Wilton => KIND_WILTON,
            Kind::Universal => KIND_UNIVERSAL,
            Kind::Rows(_) => KIND_ROWS,
            Kind::Other(number) => number,
        }
    }

    /// The kind's row of the box table, column by column: its own rows, or those that a published kind is written with; `None` for a
    /// number that is no kind's.
    pub fn rows(self) -> Option<Rows> {
        match self {
            Kind::Subset => Some(SUBSET),
            Kind::Wilton => Some(WILTON),
            Kind::Universal => Some(UNIVERSAL),
            Kind::Rows(rows) => Some(rows),
            Kind::Other(_) => None,
        }
    }

    /// The partner, on another side of an inner box, of a track below the width; `None` for a number that is no kind's, one side twice, or
    /// a track that is not below the width.
    pub(super) fn partner(self, width: u8, from: Side, to: Side, track: u8) -> Option<u8> {
        if track >= width {
            return None;
        }
        match self.row(from, to) {
            Some(row) => Some(row.partner(width, track)),
            None => {
                let row = self.row(to, from)?;
                (0..width).find(|&other| row.partner(width, other) == track)
            }
        }
    }

    /// The row for two sides, if the table names them in this order.
    fn row(self, from: Side, to: Side) -> Option<Row> {
        let sides = Column(from, to);
        let place = COLUMNS.iter().position(|&column| column == sides)?;
        Some(self.rows()?[place])
    }
}

#[cfg(test)]
mod tests {
    use super::Kind::{Other, Subset, Universal, Wilton};
    use super::*;

    #[test]
    fn numbers() {
        assert_eq!([0, 1, 2].map(Kind::from), [Subset, Wilton, Universal]);
        for number in 0..=255 {
            assert_eq!(Kind::from(number).number(), number);
            assert_eq!(Kind::from(number) == Other(number), number > 2);
        }
    }

    /// The box table of the paper at W 3 and W 4, first sides on the left.
    #[test]
    fn partners() {
        use Side::{Bottom, Left, Right, Top};
        let row = |kind: Kind, width, from, to| -> [u8; 3] {
            [0, 1, 2].map(|track| kind.partner(width, from, to, track).expect("a partner"))
        };
        assert_eq!(row(Wilton, 3, Left, Top), [0, 2, 1]);
        assert_eq!(row(Wilton, 3, Top, Right), [1, 2, 0]);
        assert_eq!(row(Wilton, 3, Right, Top), [2, 0, 1]);
        assert_eq!(row(Wilton, 3, Right, Bottom), [1, 0, 2]);
        assert_eq!(row(Wilton, 4, Right, Bottom), [2, 1, 0]);
        assert_eq!(row(Wilton, 3, Left, Bottom), [2, 0, 1]);
        assert_eq!(row(Universal, 3, Top, Left), [2, 1, 0]);
        assert_eq!(row(Universal, 3, Left, Bottom), [0, 1, 2]);
        assert_eq!(row(Subset, 3, Bottom, Right), [0, 1, 2]);
        assert_eq!(Other(9).partner(3, Left, Right, 0), None);
        assert_eq!(Other(3).partner(3, Left, Right, 0), None);
        assert_eq!(Subset.partner(3, Left, Left, 0), None);
        assert_eq!(Subset.partner(3, Left, Right, 3), None);
    }
    /// Rows that differ in every column: 1+i 3-i 2-i -1+i -32-i 31+i at W 3 and 5, each from both ends.
    #[test]
    fn partners_by_rows() {
        use Side::{Bottom, Left, Right, Top};
        let signs = [false, true, true, false, true, false];
        let shifts = [1, 3, 2, -1, -32, 31];
        let rows: Rows = [0, 1, 2, 3, 4, 5].map(|k| Row::new(signs[k], shifts[k]).expect("a row"));
        let row = |width, from, to| -> [u8; 3] {
            let kind = Kind::from(rows);
            [0, 1, 2].map(|track| kind.partner(width, from, to, track).expect("a partner"))
        };
        for (width, from, to, there, back) in [
            (3, Left, Right, [1, 2, 0], [2, 0, 1]),
            (3, Top, Bottom, [0, 2, 1], [0, 2, 1]),
            (3, Left, Top, [2, 1, 0], [2, 1, 0]),
            (3, Top, Right, [2, 0, 1], [1, 2, 0]),
            (3, Right, Bottom, [1, 0, 2], [1, 0, 2]),
            (3, Bottom, Left, [1, 2, 0], [2, 0, 1]),
            (5, Left, Right, [1, 2, 3], [4, 0, 1]),
            (5, Top, Bottom, [3, 2, 1], [3, 2, 1]),
            (5, Left, Top, [2, 1, 0], [2, 1, 0]),
            (5, Top, Right, [4, 0, 1], [1, 2, 3]),
            (5, Right, Bottom, [3, 2, 1], [3, 2, 1]),
            (5, Bottom, Left, [1, 2, 3], [4, 0, 1]),
        ] {
            assert_eq!(row(width, from, to), there, "{from:?} to {to:?}");
            assert_eq!(row(width, to, from), back, "{to:?} to {from:?}");
        }
    }

    /// A kind by the rows of a published one has its partners.
    #[test]
    fn published_kinds_by_rows() {
        let sides = [Side::Left, Side::Top, Side::Right, Side::Bottom];
        for kind in [Subset, Wilton, Universal] {
            let by_rows = Kind::from(kind.rows().expect("a published kind"));
            assert_eq!(by_rows.number(), 3);
            for width in 1..=32 {
                for (from, to) in sides.iter().flat_map(|&a| sides.map(|b| (a, b))) {
                    for track in 0..width {
                        let partner = |kind: Kind| kind.partner(width, from, to, track);
                        assert_eq!(partner(kind), partner(by_rows));
                    }
                }
            }
        }
    }
}
