//! A wire: one track of one channel.

use crate::DEAD_ITEM;
use core::fmt;

/// A track of a channel, shown as `channel.track`.
#[derive(Clone, Copy, Debug, PartialEq, Eq, PartialOrd, Ord)]
pub struct Wire {
    pub channel: u16,
    pub track: u8,
}

impl Wire {
    /// The wire that an item of a list of dead wires says.
    pub fn from_bytes([low, high, track]: [u8; DEAD_ITEM]) -> Wire {
        Wire {
            channel: u16::from_le_bytes([low, high]),
            track,
        }
    }

    /// Its item in a list of dead wires: the channel, low byte first, and the track.
    ///
    /// ```
    /// use trackrouter::chip::Wire;
    ///
    /// let wire = Wire { channel: 258, track: 31 };
    /// assert_eq!(wire.bytes(), [2, 1, 31]);
    /// assert_eq!(Wire::from_bytes([2, 1, 31]), wire);
    /// ```
    pub fn bytes(self) -> [u8; DEAD_ITEM] {
        let [low, high] = self.channel.to_le_bytes();
        [low, high, self.track]
    }
}

impl fmt::Display for Wire {
    fn fmt(&self, f: &mut fmt::Formatter<'_>) -> fmt::Result {
        write!(f, "{}.{}", self.channel, self.track)
    }
}
