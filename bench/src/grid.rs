//! The chip: its channels, the boxes where they meet, and the box table as sign
//! and shift (the paper's "Chip and boxes"; on the rim equal tracks, M-104).
#![forbid(unsafe_code)]

/// No chip has more channels.
pub const CHANNELS: usize = 480;

#[derive(Clone, Copy, PartialEq, Eq)]
pub enum Side {
    Left,
    Top,
    Right,
    Bottom,
}

use Side::{Bottom, Left, Right, Top};

/// A box: its column and row.
type Place = (usize, usize);

#[derive(Clone, Copy)]
pub struct Grid {
    pub cols: usize,
    pub rows: usize,
}

impl Grid {
    /// The channel from (col, row) to (col + 1, row).
    pub fn right_of(self, col: usize, row: usize) -> usize {
        row * (self.cols - 1) + col
    }

    /// The channel from (col, row) to (col, row + 1).
    pub fn above(self, col: usize, row: usize) -> usize {
        self.rows * (self.cols - 1) + row * self.cols + col
    }

    pub fn channels(self) -> usize {
        self.above(0, self.rows - 1)
    }

    /// The two boxes at a channel's ends, and the side it is on.
    pub fn ends(self, channel: usize) -> [(Place, Side); 2] {
        let across = self.above(0, 0);
        if channel < across {
            let (col, row) = (channel % (self.cols - 1), channel / (self.cols - 1));
            [((col, row), Right), ((col + 1, row), Left)]
        } else {
            let (col, row) = (
                (channel - across) % self.cols,
                (channel - across) / self.cols,
            );
            [((col, row), Top), ((col, row + 1), Bottom)]
        }
    }

    /// Where two different channels meet: the box, and the sides they are on of it.
    pub fn meeting(self, one: usize, other: usize) -> Option<(Place, Side, Side)> {
        for (place, side) in self.ends(one) {
            for (other_place, other_side) in self.ends(other) {
                if place == other_place {
                    return Some((place, side, other_side));
                }
            }
        }
        None
    }

    /// Whether a box has fewer than four channels, as those in the first and the
    /// last column and row have.
    fn is_rim(self, (col, row): Place) -> bool {
        col == 0 || col + 1 == self.cols || row == 0 || row + 1 == self.rows
    }

    /// How tracks turn from one channel to another where they meet. On the rim
    /// they stay; the box table is for the other boxes.
    pub fn turn(self, kind: u8, from: usize, to: usize) -> Option<Turn> {
        let (place, from, to) = self.meeting(from, to)?;
        if self.is_rim(place) {
            return Some(Turn::STAY);
        }
        Some(by_table(kind, from, to))
    }
}

/// Track i goes to shift + i, or shift - i if it flips, modulo the width.
#[derive(Clone, Copy)]
pub struct Turn {
    pub flips: bool,
    pub shift: i32,
}

impl Turn {
    pub const STAY: Turn = Turn {
        flips: false,
        shift: 0,
    };

    /// This turn, then the next.
    pub fn then(self, next: Turn) -> Turn {
        let shift = if next.flips { -self.shift } else { self.shift };
        Turn {
            flips: self.flips != next.flips,
            shift: next.shift + shift,
        }
    }

    /// The turn that undoes this one.
    pub fn back(self) -> Turn {
        let shift = if self.flips { self.shift } else { -self.shift };
        Turn {
            flips: self.flips,
            shift,
        }
    }
}

/// The box table: how tracks turn from one side of an inner box to another.
fn by_table(kind: u8, from: Side, to: Side) -> Turn {
    let (flips, shift) = match (kind, from, to) {
        (1, Left, Top) | (1, Top, Left) => (true, 0),
        (1, Top, Right) | (1, Bottom, Left) => (false, 1),
        (1, Right, Top) | (1, Left, Bottom) => (false, -1),
        (1, Right, Bottom) | (1, Bottom, Right) => (true, -2),
        (2, Left, Top) | (2, Top, Left) => (true, -1),
        (2, Right, Bottom) | (2, Bottom, Right) => (true, -1),
        _ => (false, 0),
    };
    Turn { flips, shift }
}
