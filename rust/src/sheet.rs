//! Sheets by name: a builder that gives a sheet's bytes, and a reader that takes an accepted one apart.
//!
//! ```
//! use trackrouter::sheet::{Net, Sheet};
//! use trackrouter::{least, KIND_SUBSET, MAX_ENTRIES};
//!
//! let mut sheet = Sheet::new(3, 2, KIND_SUBSET, 2);
//! let right = sheet.chip().channel_right(0, 0).unwrap();
//! let up = sheet.chip().channel_up(1, 0).unwrap();
//! sheet.push(Net::new(1, &[right, up], &[(right, up)]).unwrap());
//! let bytes = sheet.bytes().unwrap();
//! let mut out = [0; MAX_ENTRIES];
//! assert_eq!(least(&bytes, &[], 1_000, &mut out).unwrap().width, 1);
//! assert_eq!(Sheet::read(&bytes), Ok(sheet));
//! ```

use crate::chip::{Chip, Fabric, Kind};
use alloc::vec::Vec;
use core::error::Error;
use core::fmt;
use core::ops::Range;

mod bytes;
mod tree;

pub use crate::layout::{Mark, TRAILER};
pub use tree::NotATree;

/// A channel of a net.
#[derive(Clone, Copy, Debug, PartialEq, Eq)]
pub struct Entry {
    pub channel: u16,
    /// The place, in its net, of the earlier entry that it is joined to.
    pub parent: Option<u16>,
}

/// A net: its number and its tree. A parent is always the place of an earlier entry.
#[derive(Clone, Debug, PartialEq, Eq)]
pub struct Net {
    number: u32,
    entries: Vec<Entry>,
}

/// A sheet by name. What the library refuses can be built too, so that it can say why; only mark and rows are always good ones.
#[derive(Clone, Debug, PartialEq, Eq)]
pub struct Sheet {
    mark: Mark,
    fabric: Fabric,
    nets: Vec<Net>,
}

/// A number that is too large for its field in the bytes.
#[derive(Clone, Copy, Debug, PartialEq, Eq)]
pub enum TooLarge {
    /// A net number over 65,535, in a sheet of the short mark.
    Number(u32),
    /// A sheet of so many bytes, over 65,535.
    Sheet(usize),
}

impl Net {
    /// The net of these channels and joints; a joint is a pair of channels, in either order. The first channel is the first entry; the
    /// others follow in the order given, each as soon as an entry before it is joined to it.
    pub fn new(number: u32, channels: &[u16], joints: &[(u16, u16)]) -> Result<Net, NotATree> {
        let entries = tree::entries(channels, joints)?;
        Ok(Net { number, entries })
    }

    /// A net whose channels are each joined to the one before.
    pub fn chain(number: u32, channels: &[u16]) -> Result<Net, NotATree> {
        let joints: Vec<_> = channels.windows(2).map(|two| (two[0], two[1])).collect();
        Net::new(number, channels, &joints)
    }

    /// A net from its entries in order, each with its parent's place: `None` if a parent is not an earlier entry.
    pub fn from_entries(number: u32, entries: Vec<Entry>) -> Option<Net> {
        let mut places = entries.iter().enumerate();
        let earlier = places.all(|(place, entry)| {
            let parent = entry.parent;
            parent.is_none_or(|parent| usize::from(parent) < place)
        });
        earlier.then_some(Net { number, entries })
    }

    pub fn number(&self) -> u32 {
        self.number
    }

    pub fn entries(&self) -> &[Entry] {
        &self.entries
    }

    pub fn channels(&self) -> impl Iterator<Item = u16> + '_ {
        self.entries.iter().map(|entry| entry.channel)
    }

    /// The joints, each as the channel of the later entry and that of its parent.
    pub fn joints(&self) -> impl Iterator<Item = (u16, u16)> + '_ {
        let pair = |entry: &Entry| {
            let parent = usize::from(entry.parent?);
            Some((entry.channel, self.entries[parent].channel))
        };
        self.entries.iter().filter_map(pair)
    }
}

impl Sheet {
    /// A sheet with no nets yet, of the short mark. The kind is a `Kind`, a number or the rows of its inner boxes:
    ///
    /// ```
    /// use trackrouter::chip::{Kind, Row};
    /// use trackrouter::sheet::Sheet;
    ///
    /// // Wilton boxes, but for a shift of 3 from top to right.
    /// let mut rows = Kind::Wilton.rows().unwrap();
    /// rows[3] = Row::new(false, 3).unwrap();
    /// let sheet = Sheet::new(3, 2, rows, 8);
    /// assert_eq!(sheet.kind().to_string(), "rows 0+i 0+i 0-i 3+i -2-i 1+i");
    /// assert_eq!(sheet.bytes().unwrap()[..12], [0, 0, 0, 0, 1, 0, 0, 3, 1, 254, 0, 1]);
    /// ```
    pub fn new(columns: u8, rows: u8, kind: impl Into<Kind>, width: u8) -> Sheet {
        Sheet {
            mark: Mark::default(),
            fabric: Fabric {
                chip: Chip::new(columns, rows),
                kind: kind.into(),
                width,
            },
            nets: Vec::new(),
        }
    }

    /// The sheet with this mark in place of its own. Net numbers over 65,535 need the long one.
    ///
    /// ```
    /// use trackrouter::sheet::{Mark, Net, Sheet};
    ///
    /// let mut sheet = Sheet::new(3, 2, 0, 2).with_mark(Mark::Long);
    /// sheet.push(Net::chain(65_537, &[0]).unwrap());
    /// assert_eq!(sheet.bytes().unwrap()[..6], [1, 0, 1, 0, 1, 0]);
    /// assert!(sheet.with_mark(Mark::Short).bytes().is_err());
    /// ```
    pub fn with_mark(self, mark: Mark) -> Sheet {
        Sheet { mark, ..self }
    }

    /// Adds a net behind the others.
    pub fn push(&mut self, net: Net) {
        self.nets.push(net);
    }

    pub fn mark(&self) -> Mark {
        self.mark
    }

    pub fn chip(&self) -> Chip {
        self.fabric.chip
    }

    pub fn kind(&self) -> Kind {
        self.fabric.kind
    }

    pub fn width(&self) -> u8 {
        self.fabric.width
    }

    /// Chip, kind and width together.
    pub fn fabric(&self) -> Fabric {
        self.fabric
    }

    pub fn nets(&self) -> &[Net] {
        &self.nets
    }

    /// The entries of all nets together: the length of a ticket.
    pub fn entry_count(&self) -> usize {
        self.nets.iter().map(|net| net.entries.len()).sum()
    }

    /// Each net with the places of its bytes in a ticket.
    pub fn parts(&self) -> impl Iterator<Item = (&Net, Range<usize>)> + '_ {
        let mut start = 0;
        self.nets.iter().map(move |net| {
            let part = start..start + net.entries.len();
            start = part.end;
            (net, part)
        })
    }
}

impl fmt::Display for TooLarge {
    fn fmt(&self, f: &mut fmt::Formatter<'_>) -> fmt::Result {
        match self {
            TooLarge::Number(number) => {
                let (short, long) = (Mark::Short, Mark::Long);
                let largest = short.largest_number();
                write!(
                    f,
                    "net number {number} is over {largest}, the largest with mark {short}; with mark {long} it fits"
                )
            }
            TooLarge::Sheet(bytes) => {
                write!(
                    f,
                    "the sheet has {bytes} bytes, and its length field holds 65535"
                )
            }
        }
    }
}

impl Error for TooLarge {}
