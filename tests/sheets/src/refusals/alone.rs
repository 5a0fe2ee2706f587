//! Sheets of either mark with one fault each.

use super::{layout, under, Fault};
use crate::extremes::alike;
use crate::mark::Mark;
use crate::paper::{long_net, same_channel, t_raw};
use crate::raw::{Raw, Record, ROOT};

pub fn faults(mark: Mark) -> Vec<Fault> {
    let mut all = length(mark);
    all.extend(marks(mark));
    all.extend(chip(mark));
    all.extend(crowd(mark));
    all.extend(layout::faults(mark));
    all.extend(channel(mark));
    all.extend(twice(mark));
    all.extend(joint(mark));
    all.extend(meetings(mark));
    all.extend(name(mark));
    all
}

/// Sheet T, kind 0, W 3.
pub fn good(mark: Mark) -> Raw {
    under(mark, t_raw(0, 3))
}

/// Sheet T changed.
pub fn t(mark: Mark, change: impl FnOnce(&mut Raw)) -> Vec<u8> {
    let mut raw = good(mark);
    change(&mut raw);
    raw.bytes()
}

/// A sheet of T's chip with no nets.
pub fn empty(mark: Mark) -> Raw {
    under(mark, Raw::new(3, 2, 0, 3, Vec::new()))
}

/// One net of these entries.
fn one(mark: Mark, columns: u8, rows: u8, entries: &[(u16, u16)]) -> Vec<u8> {
    let record = Record::new(1, entries);
    under(mark, Raw::new(columns, rows, 0, 3, vec![record])).bytes()
}

/// Sheet T changed, then its directory and trailer made to fit.
pub fn t_settled(mark: Mark, change: impl FnOnce(&mut Raw)) -> Vec<u8> {
    let mut raw = good(mark);
    change(&mut raw);
    raw.settle();
    raw.bytes()
}

fn length(mark: Mark) -> Vec<Fault> {
    let whole = good(mark).bytes();
    let mut over = under(mark, alike(64, 32, 0, 32).list());
    over.gap = vec![0; 8729 - usize::from(over.length)];
    over.settle();
    let mut wrapped = vec![0; 65536];
    wrapped.extend(empty(mark).bytes());
    let mut short: Vec<Fault> = (0..12)
        .map(|n| Fault::new(1, format!("length {n}"), whole[whole.len() - n..].to_vec()))
        .collect();
    short.extend([
        Fault::new(1, "length 8729", over.bytes()),
        Fault::new(1, "length 65548, trailer says 12", wrapped),
        Fault::new(1, "length 70000", vec![0; 70000]),
    ]);
    short
}

fn marks(mark: Mark) -> Vec<Fault> {
    let mut longer = good(mark).bytes();
    longer.push(0);
    let mut shorter = good(mark).bytes();
    shorter.pop();
    let mut front = good(mark).bytes();
    front.insert(0, 0);
    let wrong = [
        [0x56, 0x48],
        [0x48, 0x57],
        [0x57, 0x47],
        [0x57, 0x4A],
        [0x57, 0x00],
        [0x57, 0xFF],
        [0x56, 0x49],
        [0x58, 0x49],
        [0x49, 0x57],
        [0x49, 0x48],
        [0x00, 0x49],
    ];
    let marked = |wrong: [u8; 2]| {
        let name = format!("mark {:02X} {:02X}", wrong[0], wrong[1]);
        Fault::new(2, name, t(mark, |raw| raw.mark = wrong))
    };
    let mut all: Vec<Fault> = wrong.map(marked).into();
    let other = mark.other();
    let records = |raw: &mut Raw| raw.mark = other.bytes();
    all.extend([
        Fault::new(5, "records of the other mark", t(mark, records)),
        Fault::new(
            2,
            "length field of the other mark",
            t(mark, |raw| raw.length = under(other, t_raw(0, 3)).length),
        ),
        Fault::new(2, "length field + 1", t(mark, |raw| raw.length += 1)),
        Fault::new(2, "length field - 1", t(mark, |raw| raw.length -= 1)),
        Fault::new(2, "length field 0", t(mark, |raw| raw.length = 0)),
        Fault::new(2, "length field + 256", t(mark, |raw| raw.length += 256)),
        Fault::new(2, "a byte after the mark", longer),
        Fault::new(2, "last byte missing", shorter),
        Fault::new(2, "a byte before the first record", front),
        Fault::new(2, "12 zeros", vec![0; 12]),
    ]);
    all
}

fn chip(mark: Mark) -> Vec<Fault> {
    let mut all = Vec::new();
    for wrong in [0, 1, 17, 255] {
        all.push(Fault::new(
            3,
            format!("A {wrong}"),
            t(mark, |raw| raw.columns = wrong),
        ));
        all.push(Fault::new(
            3,
            format!("B {wrong}"),
            t(mark, |raw| raw.rows = wrong),
        ));
    }
    for wrong in [4, 5, 128, 255] {
        all.push(Fault::new(
            3,
            format!("kind {wrong}"),
            t(mark, |raw| raw.kind = wrong),
        ));
    }
    for wrong in [0, 33, 64, 255] {
        all.push(Fault::new(
            3,
            format!("W {wrong}"),
            t(mark, |raw| raw.width = wrong),
        ));
    }
    let mut empty = empty(mark);
    empty.kind = 4;
    all.push(Fault::new(3, "no nets, kind 4", empty.bytes()));
    empty.kind = 0;
    empty.rows = 1;
    all.push(Fault::new(3, "no nets, B 1", empty.bytes()));
    all
}

fn crowd(mark: Mark) -> Vec<Fault> {
    let nets = |count, width| under(mark, same_channel(count, 0, width)).bytes();
    vec![
        Fault::new(4, "65 nets", nets(65, 3)),
        Fault::new(4, "66 nets", nets(66, 32)),
        Fault::new(4, "320 nets", nets(320, 32)),
    ]
}

fn channel(mark: Mark) -> Vec<Fault> {
    let mut all = Vec::new();
    for net in 0..3 {
        for entry in 0..2 {
            for wrong in [7, 480, 65535] {
                let sheet = t(mark, |raw| raw.records[net].entries[entry].0 = wrong);
                let name = format!("channel {wrong} in net {net}, entry {entry}");
                all.push(Fault::new(6, name, sheet));
            }
        }
    }
    let big = one(mark, 16, 16, &[(480, ROOT)]);
    all.push(Fault::new(6, "channel 480 of 16 by 16", big));
    let small = one(mark, 2, 2, &[(4, ROOT)]);
    all.push(Fault::new(6, "channel 4 of 2 by 2", small));
    all
}

fn twice(mark: Mark) -> Vec<Fault> {
    let mut all = Vec::new();
    for net in 0..3 {
        let sheet = t_settled(mark, |raw| {
            let first = raw.records[net].entries[0].0;
            let entries = &mut raw.records[net].entries;
            entries.push((first, 1));
            raw.records[net].count = 3;
        });
        all.push(Fault::new(7, format!("twice in net {net}"), sheet));
    }
    let mut long = under(mark, long_net(32));
    let second_last = long.records[0].entries[30].0;
    let third_last = long.records[0].entries[29].0;
    assert_ne!(second_last, third_last);
    long.records[0].entries[31] = (third_last, 30);
    all.push(Fault::new(7, "twice at the end of 32", long.bytes()));
    let round = one(mark, 3, 2, &[(0, ROOT), (1, 0), (5, 1), (0, 2)]);
    all.push(Fault::new(7, "round a box and back", round));
    all
}

fn joint(mark: Mark) -> Vec<Fault> {
    let mut all = Vec::new();
    for net in 0..3 {
        for wrong in [0, 1, 2, 65534] {
            let sheet = t(mark, |raw| raw.records[net].entries[0].1 = wrong);
            let name = format!("first parent {wrong} in net {net}");
            all.push(Fault::new(8, name, sheet));
        }
        for wrong in [1, 2, 256, 65534, 65535] {
            let sheet = t(mark, |raw| raw.records[net].entries[1].1 = wrong);
            let name = format!("second parent {wrong} in net {net}");
            all.push(Fault::new(8, name, sheet));
        }
    }
    let later = one(mark, 3, 2, &[(0, ROOT), (1, 2), (5, 0)]);
    all.push(Fault::new(8, "a later entry as parent", later));
    let far = one(mark, 3, 2, &[(0, ROOT), (1, 0), (4, 1)]);
    all.push(Fault::new(8, "meets another entry only", far));
    all
}

/// The pairs of T's chip that meet, box by box.
pub const MEETINGS: [(u16, u16); 10] = [
    (0, 4),
    (0, 1),
    (0, 5),
    (1, 5),
    (1, 6),
    (2, 4),
    (2, 3),
    (2, 5),
    (3, 5),
    (3, 6),
];

/// One net of two channels of T's chip.
pub fn two_channels(mark: Mark, a: u16, b: u16) -> Vec<u8> {
    one(mark, 3, 2, &[(a, ROOT), (b, 0)])
}

/// Every pair of T's channels that does not meet.
fn meetings(mark: Mark) -> Vec<Fault> {
    let mut all = Vec::new();
    for a in 0..7 {
        for b in 0..7 {
            if a != b && !MEETINGS.contains(&(a, b)) && !MEETINGS.contains(&(b, a)) {
                let name = format!("{a} and {b} do not meet");
                all.push(Fault::new(8, name, two_channels(mark, a, b)));
            }
        }
    }
    all
}

fn name(mark: Mark) -> Vec<Fault> {
    let names = |names: [u32; 3]| {
        t(mark, |raw| {
            for (record, name) in raw.records.iter_mut().zip(names) {
                record.number = name;
            }
        })
    };
    let short = [
        [1, 1, 3],
        [1, 2, 1],
        [1, 2, 2],
        [0, 0, 1],
        [65_535, 1, 65_535],
        [5, 5, 5],
    ];
    // The other number has one half of those that are alike.
    let long = [
        [65_536, 65_536, 0],
        [65_537, 1, 65_537],
        [65_536, 65_537, 65_537],
        [4_294_967_295, 65_535, 4_294_967_295],
        [4_294_967_295, 4_294_967_295, 4_294_901_760],
        [2_147_483_648, 0, 2_147_483_648],
    ];
    let mut all = short.to_vec();
    if mark == Mark::Long {
        all.extend(long);
    }
    let fault = |wrong: [u32; 3]| Fault::new(9, format!("names {wrong:?}"), names(wrong));
    let mut all: Vec<Fault> = all.into_iter().map(fault).collect();
    let mut many = under(mark, same_channel(64, 0, 3));
    many.records[63].number = many.records[0].number;
    let name = "first and last of 64 nets alike";
    all.push(Fault::new(9, name, many.bytes()));
    all
}
