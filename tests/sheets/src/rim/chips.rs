//! Chips as drawings: each box shows the sides on which it has a channel.

use crate::grid::Grid;

#[derive(Clone, Copy, Debug, PartialEq, Eq)]
pub enum Side {
    Left,
    Right,
    Top,
    Bottom,
}

use Side::{Bottom, Left, Right, Top};

/// A chip, its top row first, and the boxes to ask about.
pub struct Drawn {
    pub grid: Grid,
    rows: &'static [&'static str],
    pub places: &'static [(u8, u8)],
}

impl Drawn {
    /// The box as it is drawn.
    pub fn shape(&self, (c, r): (u8, u8)) -> char {
        let row = self.rows[usize::from(self.grid.rows - 1 - r)];
        row.chars().nth(usize::from(c)).expect("a drawn box")
    }

    /// The sides on which the box has a channel.
    pub fn sides(&self, place: (u8, u8)) -> &'static [Side] {
        match self.shape(place) {
            '┌' => &[Right, Bottom],
            '┐' => &[Left, Bottom],
            '└' => &[Right, Top],
            '┘' => &[Left, Top],
            '┬' => &[Left, Right, Bottom],
            '┴' => &[Left, Right, Top],
            '├' => &[Right, Top, Bottom],
            '┤' => &[Left, Top, Bottom],
            '┼' => &[Left, Right, Top, Bottom],
            other => unreachable!("no box looks like {other}"),
        }
    }

    /// Every ordered pair of these sides.
    pub fn pairs(&self, place: (u8, u8)) -> Vec<(Side, Side)> {
        let sides = self.sides(place);
        let pair = |&a| sides.iter().filter(move |b| **b != a).map(move |&b| (a, b));
        sides.iter().flat_map(pair).collect()
    }

    /// Whether the box has a channel on all four sides.
    pub fn is_inner(&self, place: (u8, u8)) -> bool {
        self.shape(place) == '┼'
    }

    /// The channel on a side of a box that has one there.
    pub fn channel(&self, (c, r): (u8, u8), side: Side) -> u16 {
        match side {
            Left => self.grid.right_of(c - 1, r),
            Right => self.grid.right_of(c, r),
            Top => self.grid.top_of(c, r),
            Bottom => self.grid.top_of(c, r - 1),
        }
    }
}

/// All boxes of the small chips; of the long ones the corners, the boxes beside
/// them and some in the middle; of the largest the corners, those beside them on
/// both rims, the middles of the rims, the inner box next to each corner and one in
/// the centre.
pub fn chips() -> Vec<Drawn> {
    vec![
        Drawn {
            grid: Grid::new(2, 2),
            rows: &["┌┐", "└┘"],
            places: &[(0, 0), (1, 0), (0, 1), (1, 1)],
        },
        Drawn {
            grid: Grid::new(2, 16),
            rows: &[
                "┌┐", "├┤", "├┤", "├┤", "├┤", "├┤", "├┤", "├┤", "├┤", "├┤", "├┤", "├┤", "├┤", "├┤",
                "├┤", "└┘",
            ],
            places: &TALL,
        },
        Drawn {
            grid: Grid::new(16, 2),
            rows: &["┌┬┬┬┬┬┬┬┬┬┬┬┬┬┬┐", "└┴┴┴┴┴┴┴┴┴┴┴┴┴┴┘"],
            places: &LONG,
        },
        Drawn {
            grid: Grid::new(3, 3),
            rows: &["┌┬┐", "├┼┤", "└┴┘"],
            places: &THREE,
        },
        Drawn {
            grid: Grid::new(5, 3),
            rows: &["┌┬┬┬┐", "├┼┼┼┤", "└┴┴┴┘"],
            places: &FIVE,
        },
        Drawn {
            grid: Grid::new(16, 16),
            rows: &LARGEST,
            places: &CHOSEN,
        },
    ]
}

#[rustfmt::skip]
const TALL: [(u8, u8); 10] = [
    (0, 0), (1, 0), (0, 15), (1, 15),
    (0, 1), (1, 1), (0, 7), (1, 8), (0, 14), (1, 14),
];

#[rustfmt::skip]
const LONG: [(u8, u8); 10] = [
    (0, 0), (0, 1), (15, 0), (15, 1),
    (1, 0), (1, 1), (7, 0), (8, 1), (14, 0), (14, 1),
];

#[rustfmt::skip]
const THREE: [(u8, u8); 9] = [
    (0, 0), (1, 0), (2, 0),
    (0, 1), (1, 1), (2, 1),
    (0, 2), (1, 2), (2, 2),
];

#[rustfmt::skip]
const FIVE: [(u8, u8); 15] = [
    (0, 0), (1, 0), (2, 0), (3, 0), (4, 0),
    (0, 1), (1, 1), (2, 1), (3, 1), (4, 1),
    (0, 2), (1, 2), (2, 2), (3, 2), (4, 2),
];

#[rustfmt::skip]
const CHOSEN: [(u8, u8); 21] = [
    (0, 0), (15, 0), (0, 15), (15, 15),
    (1, 0), (0, 1), (14, 0), (15, 1), (0, 14), (1, 15), (14, 15), (15, 14),
    (8, 0), (8, 15), (0, 7), (15, 7),
    (1, 1), (14, 1), (1, 14), (14, 14),
    (8, 7),
];

const LARGEST: [&str; 16] = [
    "┌┬┬┬┬┬┬┬┬┬┬┬┬┬┬┐",
    "├┼┼┼┼┼┼┼┼┼┼┼┼┼┼┤",
    "├┼┼┼┼┼┼┼┼┼┼┼┼┼┼┤",
    "├┼┼┼┼┼┼┼┼┼┼┼┼┼┼┤",
    "├┼┼┼┼┼┼┼┼┼┼┼┼┼┼┤",
    "├┼┼┼┼┼┼┼┼┼┼┼┼┼┼┤",
    "├┼┼┼┼┼┼┼┼┼┼┼┼┼┼┤",
    "├┼┼┼┼┼┼┼┼┼┼┼┼┼┼┤",
    "├┼┼┼┼┼┼┼┼┼┼┼┼┼┼┤",
    "├┼┼┼┼┼┼┼┼┼┼┼┼┼┼┤",
    "├┼┼┼┼┼┼┼┼┼┼┼┼┼┼┤",
    "├┼┼┼┼┼┼┼┼┼┼┼┼┼┼┤",
    "├┼┼┼┼┼┼┼┼┼┼┼┼┼┼┤",
    "├┼┼┼┼┼┼┼┼┼┼┼┼┼┼┤",
    "├┼┼┼┼┼┼┼┼┼┼┼┼┼┼┤",
    "└┴┴┴┴┴┴┴┴┴┴┴┴┴┴┘",
];

#[cfg(test)]
mod tests {
    use super::{chips, Side};

    #[test]
    fn drawings_have_the_chip_s_size() {
        for chip in chips() {
            assert_eq!(chip.rows.len(), usize::from(chip.grid.rows));
            for row in chip.rows {
                assert_eq!(row.chars().count(), usize::from(chip.grid.columns));
            }
        }
    }

    /// Every channel is drawn from both its boxes, and nothing else is drawn.
    #[test]
    fn drawn_channels_are_the_chip_s() {
        for chip in chips() {
            let mut seen = vec![0; usize::from(chip.grid.channel_count())];
            for r in 0..chip.grid.rows {
                for c in 0..chip.grid.columns {
                    for &side in chip.sides((c, r)) {
                        seen[usize::from(chip.channel((c, r), side))] += 1;
                    }
                }
            }
            assert!(seen.iter().all(|&ends| ends == 2));
        }
    }

    #[test]
    fn channels_of_the_4_by_4_box() {
        let grid = crate::Grid::new(4, 4);
        let chip = super::Drawn {
            grid,
            rows: &["┌┬┬┐", "├┼┼┤", "├┼┼┤", "└┴┴┘"],
            places: &[],
        };
        let around = [Side::Left, Side::Right, Side::Top, Side::Bottom];
        assert_eq!(chip.sides((1, 1)), around);
        let channels = around.map(|side| chip.channel((1, 1), side));
        assert_eq!(channels, [3, 4, 17, 13]);
    }
}
