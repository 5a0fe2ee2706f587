//! The chip: its boxes, the numbers of its channels, and how a box connects tracks.

mod fabric;
mod kind;
mod row;
mod wire;

pub use fabric::Fabric;
pub use kind::Kind;
pub use row::{Column, Row, Rows, COLUMNS};
pub use wire::Wire;

use core::fmt;
use core::ops::RangeInclusive;

/// A chip of `columns` by `rows` boxes.
#[derive(Clone, Copy, Debug, PartialEq, Eq)]
pub struct Chip {
    pub columns: u8,
    pub rows: u8,
}

/// A side of a box.
#[derive(Clone, Copy, Debug, PartialEq, Eq)]
pub enum Side {
    Left,
    Top,
    Right,
    Bottom,
}

impl fmt::Display for Side {
    fn fmt(&self, f: &mut fmt::Formatter<'_>) -> fmt::Result {
        f.write_str(match self {
            Side::Left => "left",
            Side::Top => "top",
            Side::Right => "right",
            Side::Bottom => "bottom",
        })
    }
}

/// Where a channel ends: at this side of the box at (column, row).
#[derive(Clone, Copy, Debug, PartialEq, Eq)]
pub struct End {
    pub column: u8,
    pub row: u8,
    pub side: Side,
}

impl Chip {
    /// How many columns, and how many rows, a sheet's chip can have.
    pub const SIZES: RangeInclusive<u8> = 2..=16;

    pub fn new(columns: u8, rows: u8) -> Chip {
        Chip { columns, rows }
    }

    /// How many channels run from left to right; they have the lowest numbers.
    fn level(self) -> u32 {
        u32::from(self.rows) * u32::from(self.columns.saturating_sub(1))
    }

    /// How many channels there are; those of a chip far larger than a sheet's may have no number of 16 bits.
    pub fn channels(self) -> u32 {
        self.level() + u32::from(self.columns) * u32::from(self.rows.saturating_sub(1))
    }

    /// The channel from the box at (column, row) to its neighbour on the right, if both boxes are there.
    pub fn channel_right(self, column: u8, row: u8) -> Option<u16> {
        let there = column < self.columns.saturating_sub(1) && row < self.rows;
        let length = u32::from(self.columns.saturating_sub(1));
        let number = u32::from(row) * length + u32::from(column);
        u16::try_from(number).ok().filter(|_| there)
    }

    /// The channel from the box at (column, row) to the one above, if both boxes are there.
    pub fn channel_up(self, column: u8, row: u8) -> Option<u16> {
        let there = column < self.columns && row < self.rows.saturating_sub(1);
        let number = self.level() + u32::from(row) * u32::from(self.columns) + u32::from(column);
        u16::try_from(number).ok().filter(|_| there)
    }

    /// How many channels the box at (column, row) has, one for each of its neighbours; none if there is no such box.
    pub fn channels_at(self, column: u8, row: u8) -> usize {
        let sides = [
            column > 0,
            column < self.columns.saturating_sub(1),
            row > 0,
            row < self.rows.saturating_sub(1),
        ];
        let there = column < self.columns && row < self.rows;
        sides.iter().filter(|&&side| side && there).count()
    }

    /// Whether the box at (column, row) has fewer than four channels, as those in the first or the last column or row have; true too
    /// if there is no such box. Such a box joins equal track numbers, whatever the kind.
    pub fn is_rim(self, column: u8, row: u8) -> bool {
        self.channels_at(column, row) < 4
    }

    /// The two ends of a channel: left and right, or lower and upper.
    pub fn ends(self, channel: u16) -> Option<[End; 2]> {
        let channel = u32::from(channel);
        if channel >= self.channels() {
            return None;
        }
        let end = |column: u32, row: u32, side| End {
            column: column as u8,
            row: row as u8,
            side,
        };
        Some(if channel < self.level() {
            let length = u32::from(self.columns) - 1;
            let (row, column) = (channel / length, channel % length);
            [
                end(column, row, Side::Right),
                end(column + 1, row, Side::Left),
            ]
        } else {
            let length = u32::from(self.columns);
            let place = channel - self.level();
            let (row, column) = (place / length, place % length);
            [
                end(column, row, Side::Top),
                end(column, row + 1, Side::Bottom),
            ]
        })
    }

    /// The ends of two different channels in the box where they meet; two channels meet in at most one box.
    pub fn meet(self, first: u16, second: u16) -> Option<[End; 2]> {
        if first == second {
            return None;
        }
        for one in self.ends(first)? {
            for other in self.ends(second)? {
                if (one.column, one.row) == (other.column, other.row) {
                    return Some([one, other]);
                }
            }
        }
        None
    }
}

#[cfg(test)]
mod tests {
    use super::*;

    #[test]
    fn channels_of_three_by_two() {
        let chip = Chip::new(3, 2);
        assert_eq!(chip.channels(), 7);
        assert_eq!(chip.channel_right(1, 1), Some(3));
        assert_eq!(chip.channel_right(2, 0), None);
        assert_eq!(chip.channel_up(1, 0), Some(5));
        assert_eq!(chip.channel_up(1, 1), None);
        assert_eq!(chip.ends(7), None);
        let sides = |a, b| chip.meet(a, b).map(|ends| ends.map(|end| end.side));
        assert_eq!(sides(0, 1), Some([Side::Left, Side::Right]));
        assert_eq!(sides(1, 5), Some([Side::Right, Side::Top]));
        assert_eq!(sides(3, 5), Some([Side::Right, Side::Bottom]));
        assert_eq!(sides(1, 2), None);
        assert_eq!(sides(0, 0), None);
    }

    /// A box has as many channels as end there, and fewer than four exactly in the first or last column or row.
    #[test]
    fn channels_of_a_box() {
        for (columns, rows) in [(2, 2), (3, 2), (2, 16), (3, 3), (16, 16), (17, 40)] {
            let chip = Chip::new(columns, rows);
            for (column, row) in (0..columns).flat_map(|c| (0..rows).map(move |r| (c, r))) {
                let ends = (0..).map_while(|channel| chip.ends(channel)).flatten();
                let here = ends.filter(|end| (end.column, end.row) == (column, row));
                assert_eq!(chip.channels_at(column, row), here.count());
                let inner = (1..columns - 1).contains(&column) && (1..rows - 1).contains(&row);
                assert_eq!(chip.is_rim(column, row), !inner);
            }
        }
        let chip = Chip::new(4, 4);
        let counts = |row| [0, 1, 2, 3, 4].map(|column| chip.channels_at(column, row));
        assert_eq!(counts(0), [2, 3, 3, 2, 0]);
        assert_eq!(counts(1), [3, 4, 4, 3, 0]);
        assert_eq!(counts(3), [2, 3, 3, 2, 0]);
        assert_eq!(counts(4), [0; 5]);
        // The largest chip has channels without a number, and they count.
        assert_eq!(Chip::new(255, 255).channels_at(253, 253), 4);
    }

    /// The channel has its number; the last ones of a large chip have none.
    #[test]
    fn every_channel_has_its_number() {
        for (columns, rows) in [(2, 2), (3, 2), (2, 16), (16, 16), (255, 255), (255, 2)] {
            let chip = Chip::new(columns, rows);
            let last = (chip.channels() - 1).min(65_535) as u16;
            for channel in 0..=last {
                let [first, second] = chip.ends(channel).expect("a channel");
                let right = chip.channel_right(first.column, first.row);
                let up = chip.channel_up(first.column, first.row);
                match second.side {
                    Side::Left => assert_eq!(right, Some(channel)),
                    _ => assert_eq!(up, Some(channel)),
                }
            }
        }
    }

    /// 255 rows of 254 channels, then 254 rows of 255, of which 65,536 - 64,770 = 766 have a number: 3 rows and one more.
    #[test]
    fn a_chip_with_more_channels_than_numbers() {
        let chip = Chip::new(255, 255);
        assert_eq!(chip.channels(), 129_540);
        assert_eq!(chip.channel_right(253, 254), Some(64_769));
        assert_eq!(chip.channel_up(0, 0), Some(64_770));
        assert_eq!(chip.channel_up(0, 3), Some(65_535));
        assert_eq!(chip.channel_up(1, 3), None);
        assert_eq!(chip.channel_up(254, 253), None);
        let [lower, upper] = chip.ends(65_535).expect("a channel");
        assert_eq!((lower.column, lower.row, lower.side), (0, 3, Side::Top));
        assert_eq!((upper.column, upper.row, upper.side), (0, 4, Side::Bottom));
    }

    #[test]
    fn chips_without_channels() {
        for (columns, rows) in [(0, 0), (0, 9), (9, 0), (1, 1), (0, 255), (255, 0)] {
            let chip = Chip::new(columns, rows);
            assert_eq!((chip.channels(), chip.ends(0)), (0, None));
            assert_eq!(
                (chip.channel_right(0, 0), chip.channel_up(0, 0)),
                (None, None)
            );
        }
    }
}
