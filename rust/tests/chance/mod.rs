//! Chance numbers, chance sheets and lists of dead wires that keep every rule, and rubbish.
#![allow(dead_code)] // each test uses its part

use std::collections::BTreeSet;
use trackrouter::chip::{Chip, Kind, Row, Rows, Wire};
use trackrouter::sheet::{Entry, Mark, Net, Sheet};

pub struct Chance(pub u64);

impl Chance {
    /// A number below the bound.
    pub fn below(&mut self, bound: usize) -> usize {
        self.0 = self.0.wrapping_mul(6_364_136_223_846_793_005);
        self.0 = self.0.wrapping_add(1_442_695_040_888_963_407);
        (self.0 >> 33) as usize % bound
    }

    pub fn shuffle<T>(&mut self, list: &mut [T]) {
        for end in (1..list.len()).rev() {
            list.swap(end, self.below(end + 1));
        }
    }
}

/// A sheet of any mark, size and kind; one in eight has no nets, and one in eight 64.
pub fn sheet(chance: &mut Chance) -> Sheet {
    let mark = Mark::ALL[chance.below(2)];
    let mut side = || 2 + chance.below(15) as u8;
    let (columns, rows) = (side(), side());
    let (kind, width) = (kind(chance), 1 + chance.below(32) as u8);
    let mut sheet = Sheet::new(columns, rows, kind, width).with_mark(mark);
    let nets = match chance.below(8) {
        0 => 0,
        1 => 64,
        _ => 1 + chance.below(12),
    };
    for number in numbers(chance, mark, nets) {
        let entries = tree(chance, sheet.chip());
        sheet.push(Net::from_entries(number, entries).expect("a tree"));
    }
    sheet
}

/// The ends of the halves of a number, and what is beside them.
const ENDS: [u32; 6] = [u32::MAX, 0, 65_536, 65_535, 65_537, 1];

/// So many different net numbers that the mark has room for. Long ones may be equal in their low or in their high halves.
pub fn numbers(chance: &mut Chance, mark: Mark, nets: usize) -> Vec<u32> {
    // An odd step gives different halves.
    let (start, step) = (chance.below(65_536), 1 + 2 * chance.below(32_768));
    let half = |place: usize| ((start + place * step) % 65_536) as u32;
    let (other, way) = (chance.below(65_536) as u32, chance.below(4));
    let number = |place: usize| match (mark, way) {
        (Mark::Short, _) | (Mark::Long, 0) => half(place),
        (Mark::Long, 1) => half(place) << 16 | other,
        (Mark::Long, 2) => other << 16 | half(place),
        (Mark::Long, _) => half(place) << 16 | half(nets - place),
    };
    let ends = match chance.below(4) {
        0 => &ENDS[..],
        _ => &[],
    };
    let all = ends.iter().copied().chain((0..nets).map(number));
    let mut numbers = Vec::new();
    for number in all.filter(|&number| number <= mark.largest_number()) {
        if !numbers.contains(&number) {
            numbers.push(number);
        }
    }
    numbers.truncate(nets);
    chance.shuffle(&mut numbers);
    numbers
}

/// A published kind or, one in two, chance rows.
fn kind(chance: &mut Chance) -> Kind {
    match chance.below(6) {
        number @ 0..3 => Kind::from(number as u8),
        _ => rows(chance).into(),
    }
}

/// Rows of any sign and any shift.
pub fn rows(chance: &mut Chance) -> Rows {
    let row = |_| Row::new(chance.below(2) == 1, chance.below(64) as i8 - 32);
    [(); 6].map(row).map(|row| row.expect("a good shift"))
}

/// Up to so many dead wires of the sheet's chip, in any order; some may be at or above its width.
pub fn dead(chance: &mut Chance, sheet: &Sheet, most: usize) -> Vec<Wire> {
    let channels = sheet.chip().channels() as usize;
    let tracks = usize::from(sheet.width()) + 1;
    let wire = |_| Wire {
        channel: chance.below(channels) as u16,
        track: chance.below(tracks.min(32)) as u8,
    };
    let wires: BTreeSet<Wire> = (0..most).map(wire).collect();
    let mut wires: Vec<Wire> = wires.into_iter().collect();
    chance.shuffle(&mut wires);
    wires
}

/// A tree of at most 32 channels, each new one joined to any before it that it meets.
fn tree(chance: &mut Chance, chip: Chip) -> Vec<Entry> {
    let channels = chip.channels() as u16;
    let mut tree = vec![Entry {
        channel: chance.below(channels.into()) as u16,
        parent: None,
    }];
    for _ in 0..chance.below(32) {
        let parent = chance.below(tree.len());
        let fresh = |&channel: &u16| {
            let meets = chip.meet(channel, tree[parent].channel).is_some();
            meets && tree.iter().all(|entry| entry.channel != channel)
        };
        let free: Vec<u16> = (0..channels).filter(fresh).collect();
        if !free.is_empty() {
            tree.push(Entry {
                channel: free[chance.below(free.len())],
                parent: Some(parent as u16),
            });
        }
    }
    tree
}

/// What is no text or almost one: chance bytes, and the text with one to four bytes replaced, put in or taken out.
pub fn rubbish(chance: &mut Chance, text: &str) -> Vec<String> {
    let lossy = |bytes: Vec<u8>| String::from_utf8_lossy(&bytes).into_owned();
    let mut rubbish = Vec::new();
    for _ in 0..2_000 {
        let length = chance.below(100);
        let bytes = (0..length).map(|_| chance.below(256) as u8).collect();
        rubbish.push(lossy(bytes));
    }
    let others = b"0123456789 \t\r\n#:-.+,aw\x00\x7F\xC3\xA4\xFF";
    for _ in 0..20_000 {
        let mut bytes = text.as_bytes().to_vec();
        for _ in 0..1 + chance.below(4) {
            let place = chance.below(bytes.len());
            let other = others[chance.below(others.len())];
            match chance.below(3) {
                0 => bytes[place] = other,
                1 => bytes.insert(place, other),
                _ => drop(bytes.remove(place)),
            }
        }
        rubbish.push(lossy(bytes));
    }
    rubbish
}
