//! Dead wires, 02 M-105: the list, its refusals 19 and 20, and what is left whole.

use crate::chip::Chip;
use crate::sheet::{Net, Sheet};
use crate::word::{refuse_if, Word};
use std::collections::BTreeSet;

/// The bytes of an item: channel u16, low byte first, and track u8.
const ITEM: usize = 3;
/// The last track that an item may name, whatever the width.
const LAST_TRACK: u32 = 31;

/// The wires of an accepted list, as channel and track. A set, since the order of
/// the items says nothing.
#[derive(Clone, Debug, Default, PartialEq, Eq)]
pub struct Dead {
    wires: BTreeSet<(u32, u32)>,
}

impl Dead {
    /// The list beside a sheet of this chip. Both refusals look at every item, also
    /// at those above the width.
    pub fn read(chip: Chip, list: &[u8]) -> Result<Dead, Word> {
        let items = list.chunks_exact(ITEM);
        let torn = !items.remainder().is_empty();
        let wires: Vec<(u32, u32)> = items.map(wire).collect();
        let unknown = |&(c, track): &(u32, u32)| c >= chip.channel_count() || track > LAST_TRACK;
        refuse_if(torn || wires.iter().any(unknown), Word::List)?;

        let different: BTreeSet<_> = wires.iter().copied().collect();
        refuse_if(different.len() < wires.len(), Word::Repeat)?;
        Ok(Dead { wires: different })
    }

    /// Whether a net with these tracks, all below the width in use, is on a broken
    /// wire. Items at or above the width have no such track and are not met.
    pub fn breaks(&self, net: &Net, tracks: &[u8]) -> bool {
        let mut wires = net.channels.iter().zip(tracks);
        wires.any(|(&channel, &track)| self.wires.contains(&(channel, track.into())))
    }

    /// The overload test: whether some channel carries more nets than it has whole
    /// tracks below the width. One without nets never does, even with none whole.
    pub fn overloads(&self, sheet: &Sheet, width: u32) -> bool {
        let mut loads = (0..).zip(sheet.loads());
        loads.any(|(channel, load)| load > self.whole_tracks(channel, width))
    }

    /// How many tracks of a channel, of those below the width, are whole.
    pub fn whole_tracks(&self, channel: u32, width: u32) -> u32 {
        let broken = self.wires.range((channel, 0)..(channel, width));
        width - broken.count() as u32
    }
}

fn wire(item: &[u8]) -> (u32, u32) {
    let channel = u16::from_le_bytes([item[0], item[1]]);
    (channel.into(), item[2].into())
}

#[cfg(test)]
mod tests {
    use super::Dead;
    use crate::chip::Chip;
    use crate::word::Word;

    fn read(list: &[u8]) -> Result<Dead, Word> {
        let (columns, rows) = (16, 16);
        Dead::read(Chip { columns, rows }, list)
    }

    /// 479 is 1·256 + 223, the last channel of the largest chip.
    #[test]
    fn bytes_of_items() {
        let dead = read(&[223, 1, 31, 0, 0, 0]).expect("a good list");
        assert!(dead.wires.into_iter().eq([(0, 0), (479, 31)]));
        assert_eq!(read(&[]), Ok(Dead::default()));
    }

    #[test]
    fn list_before_repeat() {
        let repeat = [1, 0, 2, 1, 0, 2];
        assert_eq!(read(&repeat), Err(Word::Repeat));
        for more in [&[0][..], &[0, 0], &[224, 1, 0], &[0, 0, 32]] {
            assert_eq!(read(more), Err(Word::List));
            assert_eq!(read(&[&repeat[..], more].concat()), Err(Word::List));
        }
    }

    #[test]
    fn whole_tracks_below_a_width() {
        let dead = read(&[5, 0, 1, 5, 0, 3, 6, 0, 0]).expect("a good list");
        let whole = |width| dead.whole_tracks(5, width);
        assert_eq!([1, 2, 3, 4, 5, 32].map(whole), [1, 1, 2, 2, 3, 30]);
        assert_eq!([4, 6].map(|c| dead.whole_tracks(c, 1)), [1, 0]);
    }
}
