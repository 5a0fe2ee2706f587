//! Chance damage aimed at chosen numbers of the table, 1 to 9 and 18.

mod directory;

use crate::raw::{Raw, Record, ROOT};
use crate::rng::Rng;

/// The numbers in the order of the table: 18 stands between 5 and 6.
pub const ORDER: [u32; 10] = [1, 2, 3, 4, 5, 18, 6, 7, 8, 9];

/// The sheet with a fault for each of these numbers, as far as it can have one.
pub fn damaged(mut raw: Raw, numbers: &[u32], rng: &mut Rng) -> Vec<u8> {
    // Faults that change the layout come first: they make the trailer fit again.
    for number in [9, 8, 7, 6, 18, 4, 5, 3, 2] {
        if numbers.contains(&number) {
            harm(&mut raw, number, rng);
        }
    }
    let sheet = raw.bytes();
    if numbers.contains(&1) {
        wrong_length(sheet, rng)
    } else {
        sheet
    }
}

/// One number alone, two adjacent ones, or any.
pub fn aims(rng: &mut Rng) -> Vec<u32> {
    let from = &ORDER[rng.below(ORDER.len())..];
    match rng.below(5) {
        0 | 1 => from[..1].to_vec(),
        2 | 3 => from[..from.len().min(2)].to_vec(),
        _ => {
            let some = from.iter().filter(|_| rng.chance(1, 2));
            some.copied().collect()
        }
    }
}

fn harm(raw: &mut Raw, number: u32, rng: &mut Rng) {
    match number {
        2 => mark(raw, rng),
        3 => chip(raw, rng),
        4 => crowd(raw, rng),
        5 => directory::harm(raw, rng),
        18 => parameter(raw, rng),
        _ if raw.records.is_empty() => {}
        6 => channel(raw, rng),
        7 => twice(raw, rng),
        8 => joint(raw, rng),
        9 => name(raw, rng),
        _ => unreachable!("no damage for number {number}"),
    }
}

fn wrong_length(sheet: Vec<u8>, rng: &mut Rng) -> Vec<u8> {
    if rng.chance(1, 2) {
        let kept = rng.below(12);
        return sheet[sheet.len() - kept..].to_vec();
    }
    let length = *rng.pick(&[8729, 8730, 8740, 65536, 65536 + sheet.len()]);
    let mut longer = vec![0; length - sheet.len()];
    longer.extend(sheet);
    longer
}

fn mark(raw: &mut Raw, rng: &mut Rng) {
    match rng.below(4) {
        0 => raw.mark[0] ^= 1 << rng.below(8),
        // The lowest bit leads to the other mark: that is 5.
        1 => raw.mark[1] ^= 1 << rng.between(1, 7),
        2 => raw.length ^= 1 << rng.below(16),
        _ => raw.length = raw.length.wrapping_add(1),
    }
}

fn chip(raw: &mut Raw, rng: &mut Rng) {
    let beyond = |rng: &mut Rng, first: usize| rng.between(first, 255) as u8;
    match rng.below(8) {
        0 => raw.columns = rng.below(2) as u8,
        1 => raw.rows = rng.below(2) as u8,
        2 => raw.width = 0,
        3 => raw.columns = beyond(rng, 17),
        4 => raw.rows = beyond(rng, 17),
        5 => raw.kind = beyond(rng, 4),
        6 => raw.width = beyond(rng, 33),
        _ => raw.width = 33,
    }
}

fn crowd(raw: &mut Raw, rng: &mut Rng) {
    if rng.chance(1, 3) {
        raw.net_count = *rng.pick(&[65, 66, 256, 320, 32768, 65535]);
        return;
    }
    let mut number = 30_000;
    while raw.records.len() < 65 {
        raw.records.push(Record::new(number, &[(0, ROOT)]));
        number += 1;
    }
    raw.settle();
}

/// A bad sign byte or shift, if the sheet has such bytes.
fn parameter(raw: &mut Raw, rng: &mut Rng) {
    for _ in 0..rng.between(1, 2) {
        let column = rng.below(6);
        let Some(row) = raw.row_bytes.get_mut(2 * column..2 * column + 2) else {
            return;
        };
        if rng.chance(1, 2) {
            row[0] = rng.between(2, 255) as u8;
        } else {
            row[1] = rng.between(32, 223) as u8;
        }
    }
}

fn channel_count(raw: &Raw) -> u16 {
    let (a, b) = (u16::from(raw.columns), u16::from(raw.rows));
    b * (a - 1) + a * (b - 1)
}

/// A chance entry: its net and its place there.
fn entry(raw: &Raw, rng: &mut Rng) -> (usize, usize) {
    let net = rng.below(raw.records.len());
    (net, rng.below(raw.records[net].entries.len()))
}

fn channel(raw: &mut Raw, rng: &mut Rng) {
    let (net, place) = entry(raw, rng);
    let wrong = [channel_count(raw), channel_count(raw) + 1, 480, 65535];
    raw.records[net].entries[place].0 = *rng.pick(&wrong);
}

fn twice(raw: &mut Raw, rng: &mut Rng) {
    let (net, place) = entry(raw, rng);
    let record = &mut raw.records[net];
    let again = record.entries[place].0;
    let child = record
        .entries
        .iter()
        .position(|e| usize::from(e.1) == place);
    if record.entries.len() < 32 && rng.chance(2, 3) {
        // Joined to a neighbour if there is one, so that 8 does not apply.
        let parent = child.unwrap_or(place) as u16;
        record.entries.push((again, parent));
        record.count += 1;
        raw.settle();
    } else {
        let other = rng.below(record.entries.len());
        record.entries[other].0 = again;
    }
}

fn joint(raw: &mut Raw, rng: &mut Rng) {
    let (net, place) = entry(raw, rng);
    let count = raw.records[net].entries.len();
    let wrong = match rng.below(5) {
        0 => ROOT,
        1 => place as u16,
        2 => rng.below(count) as u16,
        3 => count as u16,
        _ => rng.word(),
    };
    raw.records[net].entries[place].1 = wrong;
}

fn name(raw: &mut Raw, rng: &mut Rng) {
    let a = rng.below(raw.records.len());
    let b = rng.below(raw.records.len());
    raw.records[a].number = raw.records[b].number;
}
