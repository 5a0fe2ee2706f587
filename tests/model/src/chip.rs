//! The chip: boxes at (column, row) and the channels between them.

#[derive(Clone, Copy, Debug, PartialEq, Eq)]
pub enum Side {
    Left,
    Right,
    Top,
    Bottom,
}

/// Where a channel ends: on this side of the box at (column, row).
#[derive(Clone, Copy, Debug, PartialEq, Eq)]
pub struct End {
    pub place: (u32, u32),
    pub side: Side,
}

#[derive(Clone, Copy, Debug, PartialEq, Eq)]
pub struct Chip {
    pub columns: u32,
    pub rows: u32,
}

impl Chip {
    /// The number of channels that run from left to right; they come first.
    fn level_channels(&self) -> u32 {
        self.rows * (self.columns - 1)
    }

    pub fn channel_count(&self) -> u32 {
        self.level_channels() + self.columns * (self.rows - 1)
    }

    /// The two ends of a channel that exists.
    pub fn ends(&self, channel: u32) -> [End; 2] {
        let end = |c, r, side| End {
            place: (c, r),
            side,
        };
        if channel < self.level_channels() {
            let (r, c) = divide(channel, self.columns - 1);
            [end(c, r, Side::Right), end(c + 1, r, Side::Left)]
        } else {
            let (r, c) = divide(channel - self.level_channels(), self.columns);
            [end(c, r, Side::Top), end(c, r + 1, Side::Bottom)]
        }
    }

    /// The sides on which two different channels stand in the box where they meet.
    pub fn meeting(&self, a: u32, b: u32) -> Option<(Side, Side)> {
        self.meeting_ends(a, b).map(|(x, y)| (x.side, y.side))
    }

    /// The ends of two different channels in the box where they meet.
    pub fn meeting_ends(&self, a: u32, b: u32) -> Option<(End, End)> {
        if a == b {
            return None;
        }
        for x in self.ends(a) {
            for y in self.ends(b) {
                if x.place == y.place {
                    return Some((x, y));
                }
            }
        }
        None
    }

    /// The channels that end at a box, rising.
    pub fn channels_at(&self, place: (u32, u32)) -> Vec<u32> {
        let ends_there = |channel: &u32| self.ends(*channel).iter().any(|e| e.place == place);
        (0..self.channel_count()).filter(ends_there).collect()
    }

    /// The number of channels at every box, all in one pass over the channels.
    pub fn boxes(&self) -> Boxes {
        let mut boxes = Boxes {
            columns: self.columns,
            counts: vec![0; (self.columns * self.rows) as usize],
        };
        for channel in 0..self.channel_count() {
            for end in self.ends(channel) {
                let at = boxes.index(end.place);
                boxes.counts[at] += 1;
            }
        }
        boxes
    }
}

/// How many channels each box of a chip has. Made once for a sheet, since every
/// joint asks for its box.
#[derive(Clone, Debug, PartialEq, Eq)]
pub struct Boxes {
    columns: u32,
    /// Row after row.
    counts: Vec<usize>,
}

impl Boxes {
    fn index(&self, (c, r): (u32, u32)) -> usize {
        (r * self.columns + c) as usize
    }

    /// The number of channels that end at a box.
    pub fn around(&self, place: (u32, u32)) -> usize {
        self.counts[self.index(place)]
    }
}

fn divide(number: u32, by: u32) -> (u32, u32) {
    (number / by, number % by)
}

#[cfg(test)]
mod tests {
    use super::{Chip, Side};

    #[test]
    fn channels_of_t() {
        let chip = Chip {
            columns: 3,
            rows: 2,
        };
        assert_eq!(chip.channel_count(), 7);
        assert_eq!(chip.meeting(0, 1), Some((Side::Left, Side::Right)));
        assert_eq!(chip.meeting(1, 5), Some((Side::Right, Side::Top)));
        assert_eq!(chip.meeting(0, 5), Some((Side::Left, Side::Top)));
        assert_eq!(chip.meeting(3, 5), Some((Side::Right, Side::Bottom)));
        assert_eq!(chip.meeting(1, 2), None);
        assert_eq!(chip.meeting(0, 0), None);
    }

    #[test]
    fn two_channels_meet_in_at_most_one_box() {
        for (columns, rows) in [(2, 2), (3, 2), (2, 3), (16, 16)] {
            let chip = Chip { columns, rows };
            for a in 0..chip.channel_count() {
                for b in 0..a {
                    let shared = |x: &super::End| chip.ends(b).iter().any(|y| x.place == y.place);
                    assert!(chip.ends(a).iter().filter(|x| shared(x)).count() <= 1);
                }
            }
        }
    }

    #[test]
    fn channels_of_boxes() {
        let chip = Chip {
            columns: 4,
            rows: 4,
        };
        assert_eq!(chip.channels_at((0, 0)), [0, 12]);
        assert_eq!(chip.channels_at((3, 3)), [11, 23]);
        assert_eq!(chip.channels_at((1, 0)), [0, 1, 13]);
        assert_eq!(chip.channels_at((0, 2)), [6, 16, 20]);
        assert_eq!(chip.channels_at((1, 1)), [3, 4, 13, 17]);
        assert_eq!(chip.channels_at((2, 2)), [7, 8, 18, 22]);
    }

    #[test]
    fn counts_are_of_the_lists() {
        for (columns, rows) in [(2, 2), (3, 2), (2, 16), (16, 2), (5, 3), (16, 16)] {
            let chip = Chip { columns, rows };
            let boxes = chip.boxes();
            for place in (0..columns).flat_map(|c| (0..rows).map(move |r| (c, r))) {
                assert_eq!(boxes.around(place), chip.channels_at(place).len());
            }
        }
    }
}
