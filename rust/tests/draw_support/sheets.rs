//! Sheets to draw: the paper's, and pseudo-random ones.

use super::grid::{boxes_of, meeting};
use crate::chance::Chance;
use trackrouter::chip::Kind;
use trackrouter::sheet::{Entry, Net, Sheet};
use trackrouter::{route, MAX_ENTRIES};

/// A net of channels, each with the place of its parent.
pub fn net(number: u32, entries: &[(u16, Option<u16>)]) -> Net {
    let entry = |&(channel, parent): &(u16, Option<u16>)| Entry { channel, parent };
    Net::from_entries(number, entries.iter().map(entry).collect()).expect("parents stand before")
}

/// The paper's sheet T. Its channels 0, 1 and 5 meet on the rim of the chip.
pub fn sheet_t(kind: impl Into<Kind>, width: u8) -> Sheet {
    three_nets(Sheet::new(3, 2, kind, width), [0, 1, 5])
}

/// T moved to the inner box (1, 1) of a 4 by 4 chip: channels 3 on its left, 4 on its right and 17 on its top.
pub fn inner_t(kind: impl Into<Kind>, width: u8) -> Sheet {
    three_nets(Sheet::new(4, 4, kind, width), [3, 4, 17])
}

/// T's nets in these channels.
fn three_nets(mut sheet: Sheet, [left, right, top]: [u16; 3]) -> Sheet {
    sheet.push(net(1, &[(left, None), (right, Some(0))]));
    sheet.push(net(2, &[(right, None), (top, Some(0))]));
    sheet.push(net(3, &[(left, None), (top, Some(0))]));
    sheet
}

/// The sheet of the paper's case m7.
pub fn sheet_m7() -> Sheet {
    let mut sheet = Sheet::new(3, 2, 0, 2);
    sheet.push(net(1, &[(0, None)]));
    sheet.push(net(2, &[(1, None)]));
    sheet.push(net(3, &[(0, None), (1, Some(0))]));
    sheet
}

/// The first right ticket of a sheet, if the library finds one in reasonable time.
pub fn routed(sheet: &Sheet) -> Option<Vec<u8>> {
    let bytes = sheet.bytes().expect("numbers that its mark has room for");
    let mut out = [0; MAX_ENTRIES];
    Some(route(&bytes, &[], 200_000, &mut out).ok()?.ticket.to_vec())
}

impl Chance {
    /// A sheet of so many nets of at most so many entries, with net numbers up to a largest one.
    pub fn sheet(&mut self, mut sheet: Sheet, nets: usize, entries: usize, largest: u32) -> Sheet {
        let numbers = (1..=nets as u32).map(|place| largest - nets as u32 + place);
        for number in numbers {
            let tree = self.tree(&sheet, entries);
            sheet.push(Net::from_entries(number, tree).expect("parents stand before"));
        }
        sheet
    }

    /// A tree of at most so many entries that mostly goes on from its last one.
    fn tree(&mut self, sheet: &Sheet, most: usize) -> Vec<Entry> {
        let chip = sheet.chip();
        let (columns, rows) = (i64::from(chip.columns), i64::from(chip.rows));
        let boxes: Vec<_> = (0..)
            .map_while(|channel| boxes_of(columns, rows, channel))
            .collect();
        let mut free: Vec<u16> = (0..boxes.len() as u16).collect();
        let channel = free.remove(self.below(free.len()));
        let parent = None;
        let mut entries = vec![Entry { channel, parent }];
        for _ in 0..20 * most {
            if entries.len() == most {
                break;
            }
            let last = entries.len() - 1;
            let parent = match self.below(4) {
                0 => self.below(last + 1),
                _ => last,
            };
            let from = boxes[usize::from(entries[parent].channel)];
            let meets = |&channel: &u16| meeting(from, boxes[usize::from(channel)]).is_some();
            let near: Vec<u16> = free.iter().copied().filter(meets).collect();
            if near.is_empty() {
                continue;
            }
            let channel = near[self.below(near.len())];
            free.retain(|&other| other != channel);
            let parent = Some(parent as u16);
            entries.push(Entry { channel, parent });
        }
        entries
    }
}
