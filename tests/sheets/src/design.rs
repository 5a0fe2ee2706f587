//! A sheet without an order: what all its relistings have in common.

use crate::grid::Grid;
use crate::mark::Mark;
use crate::numbers::Spread;
use crate::rows::{Rows, PUBLISHED, SUBSET};

#[derive(Clone, Debug)]
pub struct Net {
    pub number: u32,
    pub channels: Vec<u16>,
    /// Pairs of channels, a tree over `channels`.
    pub joints: Vec<(u16, u16)>,
}

impl Net {
    /// A net whose channels are each joined to the one before.
    pub fn chain(number: u32, channels: &[u16]) -> Self {
        Net {
            number,
            channels: channels.to_vec(),
            joints: channels.windows(2).map(|two| (two[0], two[1])).collect(),
        }
    }

    /// A net whose later channels are all joined to the first.
    pub fn star(number: u32, channels: &[u16]) -> Self {
        Net {
            number,
            channels: channels.to_vec(),
            joints: channels[1..].iter().map(|&c| (channels[0], c)).collect(),
        }
    }
}

#[derive(Clone, Debug)]
pub struct Design {
    pub grid: Grid,
    pub kind: u8,
    pub width: u8,
    pub nets: Vec<Net>,
    /// The rows if the kind is 3. Other kinds have none, whatever stands here.
    pub rows: Rows,
    /// The mark of its listings. Under the first one numbers have 16 bits.
    pub mark: Mark,
}

impl Design {
    /// With kind 3 the rows are those of subset, unless others are given; the mark is
    /// the first.
    pub fn new(grid: Grid, kind: u8, width: u8, nets: Vec<Net>) -> Self {
        Design {
            grid,
            kind,
            width,
            nets,
            rows: SUBSET,
            mark: Mark::Short,
        }
    }

    pub fn entry_count(&self) -> usize {
        self.nets.iter().map(|net| net.channels.len()).sum()
    }

    pub fn with_width(mut self, width: u8) -> Self {
        self.width = width;
        self
    }

    pub fn with_kind(mut self, kind: u8) -> Self {
        self.kind = kind;
        self
    }

    pub fn with_mark(mut self, mark: Mark) -> Self {
        self.mark = mark;
        self
    }

    /// The design under the second mark, its numbers spread.
    pub fn spread(mut self, spread: Spread) -> Self {
        for net in &mut self.nets {
            net.number = spread.long(net.number);
        }
        self.with_mark(Mark::Long)
    }

    /// Whether its numbers have 16 bits, so that it can be listed under both marks.
    pub fn is_short(&self) -> bool {
        self.nets.iter().all(|net| net.number <= 0xFFFF)
    }

    /// Kind 3 with these rows.
    pub fn with_rows(mut self, rows: Rows) -> Self {
        self.kind = 3;
        self.rows = rows;
        self
    }

    /// Kind 3 with the same boxes as the kind it has, 0, 1 or 2.
    pub fn by_rows(self) -> Self {
        let rows = PUBLISHED[usize::from(self.kind)];
        self.with_rows(rows)
    }
}
