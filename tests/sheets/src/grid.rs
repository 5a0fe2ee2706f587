//! Channels as pairs of boxes.

use std::collections::BTreeMap;

/// The boxes of a chip.
#[derive(Clone, Copy, Debug, PartialEq, Eq)]
pub struct Grid {
    pub columns: u8,
    pub rows: u8,
}

impl Grid {
    pub fn new(columns: u8, rows: u8) -> Self {
        Grid { columns, rows }
    }

    /// The channel from (c, r) to (c+1, r).
    pub fn right_of(&self, c: u8, r: u8) -> u16 {
        u16::from(r) * (u16::from(self.columns) - 1) + u16::from(c)
    }

    /// The channel from (c, r) to (c, r+1).
    pub fn top_of(&self, c: u8, r: u8) -> u16 {
        u16::from(self.rows) * (u16::from(self.columns) - 1)
            + u16::from(r) * u16::from(self.columns)
            + u16::from(c)
    }

    pub fn channel_count(&self) -> u16 {
        self.channels().len() as u16
    }

    /// Every channel with its two boxes, by number.
    fn channels(&self) -> Vec<[(u8, u8); 2]> {
        let mut all = Vec::new();
        for r in 0..self.rows {
            for c in 0..self.columns - 1 {
                all.push([(c, r), (c + 1, r)]);
            }
        }
        for r in 0..self.rows - 1 {
            for c in 0..self.columns {
                all.push([(c, r), (c, r + 1)]);
            }
        }
        all
    }

    /// For each channel, the other channels that share a box with it.
    pub fn neighbours(&self) -> Vec<Vec<u16>> {
        let all = self.channels();
        let mut at_box: BTreeMap<(u8, u8), Vec<u16>> = BTreeMap::new();
        for (channel, boxes) in all.iter().enumerate() {
            for place in boxes {
                at_box.entry(*place).or_default().push(channel as u16);
            }
        }
        let others = |channel: usize| {
            let met = all[channel].iter().flat_map(|place| &at_box[place]);
            met.copied()
                .filter(move |&other| usize::from(other) != channel)
        };
        (0..all.len()).map(|c| others(c).collect()).collect()
    }
}

#[cfg(test)]
mod tests {
    use super::Grid;

    #[test]
    fn numbers_follow_the_paper() {
        let grid = Grid::new(3, 2);
        assert_eq!(grid.channel_count(), 7);
        assert_eq!(grid.right_of(1, 0), 1);
        assert_eq!(grid.top_of(1, 0), 5);
        assert_eq!(Grid::new(16, 16).channel_count(), 480);
        assert_eq!(Grid::new(16, 16).top_of(15, 14), 479);
    }

    #[test]
    fn meeting_is_mutual() {
        let near = Grid::new(4, 3).neighbours();
        for (a, others) in near.iter().enumerate() {
            for &b in others {
                assert!(near[b as usize].contains(&(a as u16)));
            }
        }
    }
}
