//! Sheets in standard form, 02 M-101.
//!
//! A net is first taken apart into a set of channels and a set of joints, so
//! that nothing of its old order can show in what is written. All bytes are
//! written from these sets, the chip, kind 3's rows (02 M-102) and the mark, which
//! is kept (02 M-106); none is copied from the old sheet.

use crate::sheet::{Net, Sheet, ROOT};
use std::collections::{BTreeMap, BTreeSet};

/// Channel and parent of each entry, in order.
pub type Entries = Vec<(u16, u16)>;

/// Joints as pairs of channels, the lower one first.
type Joints = BTreeSet<(u16, u16)>;

/// A record as it is to be written.
#[derive(Clone, Debug, PartialEq, Eq)]
pub struct Listed {
    pub number: u32,
    pub entries: Entries,
}

/// The standard form of an accepted sheet.
pub fn form(sheet: &Sheet) -> Vec<u8> {
    bytes(sheet, &records(sheet))
}

/// "Nets stand in rising number": a map from numbers to trees is in this order,
/// and no two nets have one number.
pub fn records(sheet: &Sheet) -> Vec<Listed> {
    let nets = sheet.nets.iter();
    let trees: BTreeMap<u32, Entries> = nets.map(|net| (net.number, tree(net))).collect();
    let listed = |(number, entries)| Listed { number, entries };
    trees.into_iter().map(listed).collect()
}

/// A net's tree from its home on. A joint is used up when the first of its
/// channels is written: the other one then has a joint to a written one, which
/// is its parent. Of these others the set gives the lowest-numbered first,
/// whichever written one it hangs on.
pub fn tree(net: &Net) -> Entries {
    let channels: BTreeSet<u16> = net.channels.iter().map(|&c| c as u16).collect();
    let home = *channels.first().expect("every net has an entry");
    let mut joints = joints(net);
    let mut open = BTreeSet::from([(home, ROOT)]);
    let mut entries = Entries::new();
    while let Some((channel, parent)) = open.pop_first() {
        let place = entries.len() as u16;
        entries.push((channel, parent));
        let of_it = |joint: &(u16, u16)| joint.0 == channel || joint.1 == channel;
        let (used, unused): (Joints, Joints) = joints.into_iter().partition(of_it);
        let other = |(a, b): (u16, u16)| if a == channel { b } else { a };
        open.extend(used.into_iter().map(|joint| (other(joint), place)));
        joints = unused;
    }
    assert_eq!(entries.len(), channels.len(), "joints hold a net together");
    entries
}

fn joints(net: &Net) -> Joints {
    let pair = |(a, b): (usize, usize)| {
        let (a, b) = (net.channels[a] as u16, net.channels[b] as u16);
        (a.min(b), a.max(b))
    };
    net.joints.iter().map(|joint| pair(joint.places)).collect()
}

/// The records, the directory, kind 3's rows and the trailer, 01 "The sheet", all
/// under the sheet's mark.
pub fn bytes(sheet: &Sheet, records: &[Listed]) -> Vec<u8> {
    let mut out = Vec::new();
    let mut offsets = Vec::new();
    for record in records {
        offsets.push(out.len());
        out.extend(sheet.mark.written(record.number));
        put(&mut out, record.entries.len());
        for &(channel, parent) in &record.entries {
            put(&mut out, channel.into());
            put(&mut out, parent.into());
        }
    }
    let directory = out.len();
    for offset in offsets {
        put(&mut out, offset);
    }
    out.extend(sheet.kind.row_bytes());
    out.extend([sheet.chip.columns as u8, sheet.chip.rows as u8]);
    out.extend([sheet.kind.byte(), sheet.width as u8]);
    put(&mut out, records.len());
    put(&mut out, directory);
    // The length field and the mark are still to come.
    let length = out.len() + 4;
    put(&mut out, length);
    out.extend(sheet.mark.bytes());
    out
}

/// A u16, low byte first.
fn put(out: &mut Vec<u8>, number: usize) {
    let word = u16::try_from(number).expect("no other field passes 16 bits");
    out.extend(word.to_le_bytes());
}
