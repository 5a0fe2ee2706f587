//! The wires of a chip and how its boxes connect them.

use super::{Chip, Kind};

/// A chip with the kind of its inner boxes and the width of its channels, in tracks.
#[derive(Clone, Copy, Debug, PartialEq, Eq)]
pub struct Fabric {
    pub chip: Chip,
    pub kind: Kind,
    pub width: u8,
}

impl Fabric {
    /// The track of channel `to` that a track of channel `from` is connected with, across the box where the two meet: the same track on
    /// the rim of the chip, where a box has fewer than four channels, and by the kind in an inner box. `None` if they do not meet, for a
    /// number that is no kind's, and for a track that is not below the width.
    ///
    /// ```
    /// use trackrouter::chip::{Chip, Fabric, Kind};
    ///
    /// let fabric = Fabric { chip: Chip::new(4, 4), kind: Kind::Wilton, width: 3 };
    /// // Channels 1 and 13 meet in the box at (1, 0), and channels 4 and 17 in the one above it.
    /// assert_eq!(fabric.partner(1, 13, 0), Some(0));
    /// assert_eq!(fabric.partner(4, 17, 0), Some(2));
    /// ```
    pub fn partner(self, from: u16, to: u16, track: u8) -> Option<u8> {
        let [here, there] = self.chip.meet(from, to)?;
        let by_kind = self
            .kind
            .partner(self.width, here.side, there.side, track)?;
        let rim = self.chip.is_rim(here.column, here.row);
        Some(if rim { track } else { by_kind })
    }
}

#[cfg(test)]
mod tests {
    use super::*;
    use crate::chip::{End, Row};

    const EQUAL: [Option<u8>; 3] = [Some(0), Some(1), Some(2)];

    fn fabric(columns: u8, rows: u8, kind: Kind) -> Fabric {
        Fabric {
            chip: Chip::new(columns, rows),
            kind,
            width: 3,
        }
    }

    fn tracks(fabric: Fabric, from: u16, to: u16) -> [Option<u8>; 3] {
        [0, 1, 2].map(|track| fabric.partner(from, to, track))
    }

    /// No column of which keeps the track at W 3.
    fn bent() -> Kind {
        [Row::new(false, 1).expect("a row"); 6].into()
    }

    /// Channels 3, 4, 13 and 17 of four by four boxes meet in the inner box at (1, 1): on its left, right, bottom and top.
    #[test]
    fn by_the_kind_in_an_inner_box() {
        let tracks = |kind, from, to| tracks(fabric(4, 4, kind), from, to);
        assert_eq!(tracks(Kind::Wilton, 3, 17), [Some(0), Some(2), Some(1)]);
        assert_eq!(tracks(Kind::Wilton, 17, 4), [Some(1), Some(2), Some(0)]);
        assert_eq!(tracks(Kind::Wilton, 4, 17), [Some(2), Some(0), Some(1)]);
        assert_eq!(tracks(Kind::Wilton, 4, 13), [Some(1), Some(0), Some(2)]);
        assert_eq!(tracks(Kind::Wilton, 4, 3), EQUAL);
        assert_eq!(tracks(Kind::Universal, 17, 3), [Some(2), Some(1), Some(0)]);
        assert_eq!(tracks(bent(), 3, 4), [Some(1), Some(2), Some(0)]);
        assert_eq!(tracks(bent(), 13, 17), [Some(2), Some(0), Some(1)]);
        assert_eq!(tracks(Kind::Subset, 3, 17), EQUAL);
    }

    /// Two channels that meet: on the rim every kind keeps the track, and rows that bend every column do so in no inner box.
    #[test]
    fn equal_tracks_on_the_rim() {
        for (columns, rows) in [(2, 2), (3, 2), (2, 16), (3, 3), (4, 4)] {
            let chip = Chip::new(columns, rows);
            let channels = chip.channels() as u16;
            for (from, to) in (0..channels).flat_map(|a| (0..channels).map(move |b| (a, b))) {
                let Some([End { column, row, .. }, _]) = chip.meet(from, to) else {
                    continue;
                };
                let rim = [0, columns - 1].contains(&column) || [0, rows - 1].contains(&row);
                for kind in [Kind::Subset, Kind::Wilton, Kind::Universal, bent()] {
                    let equal = tracks(fabric(columns, rows, kind), from, to) == EQUAL;
                    assert!(equal || !rim, "{from} {to}");
                    assert!(!equal || rim || kind != bent(), "{from} {to}");
                }
            }
        }
    }

    #[test]
    fn no_partner() {
        let tracks = |kind, from, to| tracks(fabric(3, 2, kind), from, to);
        assert_eq!(tracks(Kind::Subset, 1, 2), [None; 3]);
        assert_eq!(tracks(Kind::Subset, 1, 1), [None; 3]);
        assert_eq!(tracks(Kind::Subset, 1, 7), [None; 3]);
        assert_eq!(tracks(Kind::Other(3), 0, 1), [None; 3]);
        assert_eq!(fabric(4, 4, Kind::Other(3)).partner(3, 4, 0), None);
        assert_eq!(fabric(3, 2, Kind::Subset).partner(0, 1, 3), None);
    }
}
