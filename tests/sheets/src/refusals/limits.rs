//! Sheets of either mark just inside the limits, which pass.

use super::alone::{two_channels, MEETINGS};
use super::{lengths, under};
use crate::case::{self, Ask, Case, Told};
use crate::extremes::alike;
use crate::mark::Mark;
use crate::numbers::EDGES;
use crate::paper::{long_net, same_channel, t_design};
use crate::raw::{Raw, Record, ROOT};
use crate::rows::{minus, plus, SUBSET};

pub fn cases() -> Vec<Case> {
    let mut all = Vec::new();
    for mark in Mark::BOTH {
        all.extend(sizes(mark));
        for (name, sheet, entries) in lengths::accepted(mark) {
            let nets = if entries == 0 { 0 } else { 64 };
            all.push(passes(&name, sheet, nets, entries));
        }
        all.extend(meetings(mark));
    }
    all.extend(names());
    let mut short = row_ends();
    short.extend(chips());
    short.extend(parts());
    all.extend(case::long(&short));
    all.extend(short);
    all.extend(long_parts());
    all
}

fn passes(name: &str, sheet: Vec<u8>, nets: u32, entries: u32) -> Case {
    let told = Told::Counts {
        number: 0,
        nets,
        entries,
    };
    Case::new(name, sheet, Ask::Read, told)
}

fn sizes(mark: Mark) -> Vec<Case> {
    let none = under(mark, Raw::new(2, 2, 0, 1, Vec::new())).bytes();
    assert_eq!(none.len(), 12);
    let full = under(mark, alike(64, 32, 0, 32).list()).bytes();
    let length = match mark {
        Mark::Short => 8588,
        Mark::Long => 8716,
    };
    assert_eq!(full.len(), length);
    let many = under(mark, same_channel(64, 0, 1)).bytes();
    vec![
        passes("length 12", none, 0, 0),
        passes("64 nets of 32 entries", full, 64, 2048),
        passes("64 nets", many, 64, 64),
        passes("32 entries", under(mark, long_net(32)).bytes(), 1, 32),
    ]
}

/// Two nets with these numbers.
fn named(mark: Mark, one: u32, other: u32) -> Case {
    let mut names = same_channel(2, 0, 1);
    names.records[0].number = one;
    names.records[1].number = other;
    let name = format!("numbers {one} and {other}{}", mark.tag());
    passes(&name, names.marked(mark).bytes(), 2, 2)
}

/// Numbers that differ, if only in one half or in one bit.
fn names() -> Vec<Case> {
    let mut all = vec![named(Mark::Short, 65_535, 0)];
    for (place, one) in EDGES.into_iter().enumerate() {
        for other in &EDGES[..place] {
            all.push(named(Mark::Long, one, *other));
            all.push(named(Mark::Long, *other, one));
        }
    }
    for bit in 0..32 {
        all.push(named(Mark::Long, 0, 1 << bit));
        all.push(named(Mark::Long, u32::MAX, u32::MAX ^ 1 << bit));
    }
    for bit in 0..16 {
        all.push(named(Mark::Short, 0, 1 << bit));
    }
    all
}

/// Both signs with the shifts at both ends and 0, in each column.
fn row_ends() -> Vec<Case> {
    let mut all = Vec::new();
    for column in 0..6 {
        for shift in [-32, -1, 0, 31] {
            for row in [plus(shift), minus(shift)] {
                let mut rows = SUBSET;
                rows[column] = row;
                let sheet = t_design(0, 3).with_rows(rows).list().bytes();
                all.push(passes(&format!("{row:?} in column {column}"), sheet, 3, 6));
            }
        }
    }
    all
}

/// One net of one channel on a chip.
fn single(columns: u8, rows: u8, kind: u8, width: u8, channel: u16) -> Vec<u8> {
    let record = Record::new(1, &[(channel, ROOT)]);
    Raw::new(columns, rows, kind, width, vec![record]).bytes()
}

fn chips() -> Vec<Case> {
    vec![
        passes("2 by 2, channel 3", single(2, 2, 0, 2, 3), 1, 1),
        passes("16 by 2, channel 45", single(16, 2, 0, 2, 45), 1, 1),
        passes("2 by 16, channel 45", single(2, 16, 0, 2, 45), 1, 1),
        passes("16 by 16, channel 479", single(16, 16, 0, 2, 479), 1, 1),
        passes("kind 1", single(3, 2, 1, 2, 6), 1, 1),
        passes("kind 2", single(3, 2, 2, 2, 6), 1, 1),
        passes("W 1", single(3, 2, 0, 1, 6), 1, 1),
        passes("W 32", single(3, 2, 0, 32, 6), 1, 1),
    ]
}

/// Every pair of T's channels that meets, in either order.
fn meetings(mark: Mark) -> Vec<Case> {
    let mut all = Vec::new();
    for (a, b) in MEETINGS {
        for (one, other) in [(a, b), (b, a)] {
            let sheet = two_channels(mark, one, other);
            all.push(passes("channels that meet", sheet, 1, 2));
        }
    }
    all
}

/// Three nets of two, one and three entries.
fn three_nets(mark: Mark) -> Vec<u8> {
    let records = vec![
        Record::new(3, &[(0, ROOT), (1, 0)]),
        Record::new(1, &[(6, ROOT)]),
        Record::new(2, &[(5, ROOT), (1, 0), (0, 0)]),
    ];
    under(mark, Raw::new(3, 2, 0, 2, records)).bytes()
}

fn part(mark: Mark, place: usize, offset: usize, length: usize) -> Case {
    let told = Told::Part { offset, length };
    let name = format!("part{}", mark.tag());
    Case::new(name, three_nets(mark), Ask::Record { place }, told)
}

/// The parts under the second mark, by hand: 14, 10 and 18 bytes.
fn long_parts() -> Vec<Case> {
    let case = |place, offset, length| part(Mark::Long, place, offset, length);
    vec![
        case(0, 0, 14),
        case(1, 14, 10),
        case(2, 24, 18),
        case(3, 0, 0),
        case(usize::MAX, 0, 0),
    ]
}

/// The parts Record shows, and the places it does not know.
fn parts() -> Vec<Case> {
    let case = |place, offset, length| part(Mark::Short, place, offset, length);
    let none = Raw::new(3, 2, 0, 2, Vec::new()).bytes();
    vec![
        case(0, 0, 12),
        case(1, 12, 8),
        case(2, 20, 16),
        case(3, 0, 0),
        case(64, 0, 0),
        case(65536, 0, 0),
        case(usize::MAX, 0, 0),
        case(1 << 32, 0, 0),
        Case::new(
            "part of no nets",
            none,
            Ask::Record { place: 0 },
            Told::Part {
                offset: 0,
                length: 0,
            },
        ),
    ]
}
