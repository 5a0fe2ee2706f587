//! The rows of boxes by parameters: a sign and a shift for each column of the box table.

use super::Side;
use core::fmt;
use core::ops::RangeInclusive;

/// A column of the box table: the side that its head names first, and the other.
#[derive(Clone, Copy, Debug, PartialEq, Eq)]
pub struct Column(pub Side, pub Side);

/// The columns of the box table, left to right.
pub const COLUMNS: [Column; 6] = [
    Column(Side::Left, Side::Right),
    Column(Side::Top, Side::Bottom),
    Column(Side::Left, Side::Top),
    Column(Side::Top, Side::Right),
    Column(Side::Right, Side::Bottom),
    Column(Side::Bottom, Side::Left),
];

impl fmt::Display for Column {
    fn fmt(&self, f: &mut fmt::Formatter<'_>) -> fmt::Result {
        write!(f, "{}-{}", self.0, self.1)
    }
}

/// A row for each column of the box table, in the order of `COLUMNS`.
pub type Rows = [Row; 6];

/// How an inner box connects the tracks of two sides: the partner of track i on a column's first side is (shift + i) mod W, or
/// (shift − i) mod W with a minus.
#[derive(Clone, Copy, Debug, PartialEq, Eq)]
pub struct Row {
    minus: bool,
    shift: i8,
}

impl Row {
    /// The shifts that the library accepts.
    pub const SHIFTS: RangeInclusive<i8> = -32..=31;

    /// The row with this sign and shift; `None` for a shift that the library refuses.
    ///
    /// ```
    /// use trackrouter::chip::Row;
    ///
    /// assert_eq!(Row::new(true, -2).unwrap().to_string(), "-2-i");
    /// assert_eq!(Row::new(false, 32), None);
    /// ```
    pub fn new(minus: bool, shift: i8) -> Option<Row> {
        let fits = Row::SHIFTS.contains(&shift);
        fits.then_some(Row { minus, shift })
    }

    // The rows of the published kinds.
    pub(super) const fn plus_i(shift: i8) -> Row {
        Row {
            minus: false,
            shift,
        }
    }

    pub(super) const fn minus_i(shift: i8) -> Row {
        Row { minus: true, shift }
    }

    /// Whether the track is taken from the shift.
    pub fn minus(self) -> bool {
        self.minus
    }

    pub fn shift(self) -> i8 {
        self.shift
    }

    /// The row that a sheet's sign byte and shift byte say; `None` for a sign or a shift that the library refuses.
    pub fn from_bytes([sign, shift]: [u8; 2]) -> Option<Row> {
        match sign {
            0 | 1 => Row::new(sign == 1, shift as i8),
            _ => None,
        }
    }

    /// The sign byte and the shift byte.
    pub fn bytes(self) -> [u8; 2] {
        [self.minus.into(), self.shift as u8]
    }

    /// The partner, on a column's second side, of a track on its first.
    pub(super) fn partner(self, width: u8, track: u8) -> u8 {
        let (shift, track) = (i16::from(self.shift), i16::from(track));
        let sum = if self.minus {
            shift - track
        } else {
            shift + track
        };
        sum.rem_euclid(i16::from(width)) as u8
    }
}

impl fmt::Display for Row {
    /// The row as a sheet's text has it: `1+i`, `-2-i`.
    fn fmt(&self, f: &mut fmt::Formatter<'_>) -> fmt::Result {
        let sign = if self.minus { '-' } else { '+' };
        write!(f, "{}{sign}i", self.shift)
    }
}

#[cfg(all(test, feature = "alloc"))]
mod tests {
    use super::*;
    use alloc::string::ToString;

    /// The only shifts are −32 to 31, two's complement in the byte; the only signs 0 and 1.
    #[test]
    fn bytes() {
        let mut rows = 0;
        for sign in 0..=255 {
            for shift in 0..=255 {
                let Some(row) = Row::from_bytes([sign, shift]) else {
                    assert!(sign > 1 || (32..224).contains(&shift));
                    continue;
                };
                assert_eq!(row.bytes(), [sign, shift]);
                assert_eq!(Row::new(row.minus(), row.shift()), Some(row));
                rows += 1;
            }
        }
        assert_eq!(rows, 2 * 64);
        for (bytes, text) in [
            ([0, 0], "0+i"),
            ([1, 0], "0-i"),
            ([0, 31], "31+i"),
            ([1, 255], "-1-i"),
            ([0, 224], "-32+i"),
        ] {
            let row = Row::from_bytes(bytes).expect("a row");
            assert_eq!(row.to_string(), text);
        }
    }

    /// The remainder is from 0 on, also of a negative sum.
    #[test]
    fn partners() {
        let tracks = |minus, shift, width| {
            let row = Row::new(minus, shift).expect("a row");
            [0, 1, 2].map(|track| row.partner(width, track))
        };
        assert_eq!(tracks(false, -1, 3), [2, 0, 1]);
        assert_eq!(tracks(false, 2, 3), [2, 0, 1]);
        assert_eq!(tracks(true, 2, 3), [2, 1, 0]);
        assert_eq!(tracks(true, -32, 5), [3, 2, 1]);
        assert_eq!(tracks(false, -32, 32), [0, 1, 2]);
        assert_eq!(tracks(false, 31, 32), [31, 0, 1]);
        assert_eq!(tracks(true, 31, 32), [31, 30, 29]);
    }
}
