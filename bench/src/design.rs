//! Builds sheets.
#![forbid(unsafe_code)]

use crate::grid::{Grid, CHANNELS};
use std::ops::Range;

/// A net's entries: channel, and the place of the parent.
type Tree = Vec<(usize, usize)>;

/// The parent of a first entry.
const NONE: usize = 65535;

/// A sheet to be. Nets are added in rising net number.
pub struct Design {
    pub grid: Grid,
    kind: u8,
    width: usize,
    nets: Vec<Tree>,
    loads: [usize; CHANNELS],
    chance: Chance,
}

impl Design {
    pub fn new(side: usize, kind: u8, width: usize, seed: u64) -> Design {
        Design {
            grid: Grid {
                cols: side,
                rows: side,
            },
            kind,
            width,
            nets: Vec::new(),
            loads: [0; CHANNELS],
            chance: Chance(seed),
        }
    }

    /// A net through channels of which each meets the one before.
    pub fn path(&mut self, channels: &[usize]) {
        let parents = [NONE].into_iter().chain(0..);
        self.add(channels.iter().copied().zip(parents).collect());
    }

    /// One net more than there are tracks, each through two of a box's left, top
    /// and right: any two meet in a channel, though none carries over 2/3 of them.
    pub fn clique(&mut self, col: usize, row: usize) {
        let left = self.grid.right_of(col - 1, row);
        let top = self.grid.above(col, row);
        let right = self.grid.right_of(col, row);
        let pairs = [[left, top], [top, right], [right, left]];
        for pair in pairs.iter().cycle().take(self.width + 1) {
            self.path(pair);
        }
    }

    /// Nets by chance in a window of boxes, with so many channels each. No
    /// channel gets more nets than there are tracks.
    pub fn crowd(
        &mut self,
        nets: usize,
        sizes: Range<usize>,
        cols: Range<usize>,
        rows: Range<usize>,
    ) {
        let inside = |&((col, row), _): &_| cols.contains(&col) && rows.contains(&row);
        let window: Vec<usize> = (0..self.grid.channels())
            .filter(|&channel| self.grid.ends(channel).iter().all(inside))
            .collect();
        let full = self.nets.len() + nets;
        while self.nets.len() < full {
            let size = self.chance.within(sizes.clone());
            if let Some(tree) = self.grow(&window, size) {
                self.add(tree);
            }
        }
    }

    /// A tree by chance, if there is room for it.
    fn grow(&mut self, window: &[usize], size: usize) -> Option<Tree> {
        let mut tree = Tree::new();
        while tree.len() < size {
            let mut next = Tree::new();
            for &channel in window {
                let twice = tree.iter().any(|entry| entry.0 == channel);
                if twice || self.loads[channel] == self.width {
                    continue;
                }
                if tree.is_empty() {
                    next.push((channel, NONE));
                }
                for (place, entry) in tree.iter().enumerate() {
                    if self.grid.meeting(entry.0, channel).is_some() {
                        next.push((channel, place));
                    }
                }
            }
            if next.is_empty() {
                return None;
            }
            tree.push(next[self.chance.within(0..next.len())]);
        }
        Some(tree)
    }

    fn add(&mut self, tree: Tree) {
        for &(channel, _) in &tree {
            self.loads[channel] += 1;
            assert!(self.loads[channel] <= self.width, "a channel is overloaded");
        }
        self.nets.push(tree);
    }

    /// The sheet, with its records in rising net number.
    pub fn bytes(&self) -> Vec<u8> {
        let order: Vec<usize> = (0..self.nets.len()).collect();
        self.listed(&order)
    }

    /// The sheet, with its records in an order by chance.
    pub fn shuffled(mut self) -> Vec<u8> {
        let mut order: Vec<usize> = (0..self.nets.len()).collect();
        for last in (1..order.len()).rev() {
            order.swap(last, self.chance.within(0..last + 1));
        }
        self.listed(&order)
    }

    fn listed(&self, order: &[usize]) -> Vec<u8> {
        let mut words = Vec::new();
        let mut offsets = Vec::new();
        for &net in order {
            offsets.push(2 * words.len());
            words.extend([7 * net + 1, self.nets[net].len()]);
            for &(channel, parent) in &self.nets[net] {
                words.extend([channel, parent]);
            }
        }
        let directory = 2 * words.len();
        words.append(&mut offsets);
        words.push(self.grid.cols + 256 * self.grid.rows);
        words.push(usize::from(self.kind) + 256 * self.width);
        words.extend([self.nets.len(), directory]);
        words.extend([2 * words.len() + 4, 0x4857]);
        words
            .iter()
            .flat_map(|&word| (word as u16).to_le_bytes())
            .collect()
    }
}

/// Numbers by chance, the same ones for the same seed (splitmix64).
struct Chance(u64);

impl Chance {
    fn within(&mut self, range: Range<usize>) -> usize {
        self.0 = self.0.wrapping_add(0x9E37_79B9_7F4A_7C15);
        let mut z = self.0;
        z = (z ^ (z >> 30)).wrapping_mul(0xBF58_476D_1CE4_E5B9);
        z = (z ^ (z >> 27)).wrapping_mul(0x94D0_49BB_1331_11EB);
        z ^= z >> 31;
        range.start + (z % range.len() as u64) as usize
    }
}
