//! Sheets of either mark with two faults of adjacent numbers: the lower one is given,
//! whichever stands first in the sheet.

use super::{under, Fault};
use crate::extremes::alike;
use crate::mark::Mark;
use crate::paper::{long_net, same_channel, t_raw};
use crate::raw::{Raw, Record};

pub fn faults(mark: Mark) -> Vec<Fault> {
    let wrong_mark = long(mark, |raw| raw.mark[1] = 0);
    let wrong_length = long(mark, |raw| raw.length = 8728);
    let mut all = vec![
        Fault::new(1, "1 and 2: 11 zeros", vec![0; 11]),
        Fault::new(1, "1 and 2: long, mark wrong", wrong_mark),
        Fault::new(1, "1 and 2: long, length wrong", wrong_length),
    ];
    all.extend(trailer_pairs(mark));
    all.extend(crowd_and_directory(mark));
    all.extend(directory_and_channel(mark));
    all.extend(channel_and_twice(mark));
    all.extend(twice_and_joint(mark));
    all.extend(joint_and_name(mark));
    all.push(Fault::new(5, "5 to 9 at once", t(mark, every_fault_from_5)));
    all.push(Fault::new(2, "2 to 9 at once", t(mark, every_fault_from_2)));
    all
}

fn t(mark: Mark, change: impl FnOnce(&mut Raw)) -> Vec<u8> {
    let mut raw = under(mark, t_raw(0, 3));
    change(&mut raw);
    raw.bytes()
}

/// A sheet of 8,729 bytes with a further fault.
fn long(mark: Mark, change: impl FnOnce(&mut Raw)) -> Vec<u8> {
    let mut raw = under(mark, alike(64, 32, 0, 32).list());
    raw.gap = vec![0; 8729 - usize::from(raw.length)];
    raw.settle();
    change(&mut raw);
    raw.bytes()
}

/// Gives the net a last entry with the channel of its first.
fn repeat(raw: &mut Raw, net: usize) {
    let first = raw.records[net].entries[0].0;
    raw.records[net].entries.push((first, 1));
    raw.records[net].count += 1;
    raw.settle();
}

/// 65 nets.
fn many(mark: Mark) -> Raw {
    under(mark, same_channel(65, 0, 3))
}

fn trailer_pairs(mark: Mark) -> Vec<Fault> {
    let crowd = |change: fn(&mut Raw)| {
        let mut raw = many(mark);
        change(&mut raw);
        raw.bytes()
    };
    let mark_and_kind = |raw: &mut Raw| {
        raw.mark[0] = 0;
        raw.kind = 4;
    };
    let length_and_columns = |raw: &mut Raw| {
        raw.length += 1;
        raw.columns = 1;
    };
    let width_and_field = |raw: &mut Raw| {
        raw.width = 33;
        raw.net_count = 65535;
    };
    vec![
        Fault::new(2, "2 and 3: mark, kind", t(mark, mark_and_kind)),
        Fault::new(2, "2 and 3: length, A", t(mark, length_and_columns)),
        Fault::new(2, "2 and 3: 255s", vec![255; 12]),
        Fault::new(3, "3 and 4: kind, 65 nets", crowd(|raw| raw.kind = 4)),
        Fault::new(3, "3 and 4: W 0, 65 nets", crowd(|raw| raw.width = 0)),
        Fault::new(3, "3 and 4: W 33, 65535 nets", t(mark, width_and_field)),
    ]
}

fn crowd_and_directory(mark: Mark) -> Vec<Fault> {
    let mut no_entries = many(mark);
    no_entries.records[0] = Record::new(1, &[]);
    no_entries.settle();
    let mut offset = many(mark);
    offset.directory[64] = 0;
    let mut sum = many(mark);
    sum.directory_at += 2;
    let mut wrapped = under(mark, Raw::new(3, 2, 0, 3, Vec::new()));
    wrapped.net_count = 32768;
    vec![
        Fault::new(4, "4 and 5: n 0", no_entries.bytes()),
        Fault::new(4, "4 and 5: last offset", offset.bytes()),
        Fault::new(4, "4 and 5: directory offset", sum.bytes()),
        Fault::new(4, "4 and 5: field 65", t(mark, |raw| raw.net_count = 65)),
        Fault::new(
            4,
            "4 and 5: field 65535",
            t(mark, |raw| raw.net_count = 65535),
        ),
        Fault::new(4, "4 and 5: field 259", t(mark, |raw| raw.net_count = 259)),
        Fault::new(4, "4 and 5: 32768 nets of no bytes", wrapped.bytes()),
    ]
}

fn directory_and_channel(mark: Mark) -> Vec<Fault> {
    let mut many = under(mark, long_net(33));
    many.records[0].entries[0].0 = 480;
    let permuted = |raw: &mut Raw| {
        raw.records[0].entries[0].0 = 7;
        raw.directory.swap(1, 2);
    };
    let gap = |raw: &mut Raw| {
        raw.gap = vec![0; 4];
        raw.settle();
        raw.records[2].entries[1].0 = 65535;
    };
    let into_directory = |raw: &mut Raw| {
        raw.records[0].entries[1].0 = 65535;
        raw.records[2].count = 3;
    };
    vec![
        Fault::new(5, "5 and 6: 33 entries", many.bytes()),
        Fault::new(5, "5 and 6: permuted directory", t(mark, permuted)),
        Fault::new(5, "5 and 6: gap", t(mark, gap)),
        Fault::new(
            5,
            "5 and 6: record in the directory",
            t(mark, into_directory),
        ),
    ]
}

fn channel_and_twice(mark: Mark) -> Vec<Fault> {
    let twice_first = |raw: &mut Raw| {
        repeat(raw, 0);
        raw.records[2].entries[1].0 = 7;
    };
    let channel_first = |raw: &mut Raw| {
        repeat(raw, 2);
        raw.records[0].entries[0].0 = 7;
    };
    let both = |raw: &mut Raw| {
        raw.records[1].entries[0].0 = 65535;
        raw.records[1].entries[1].0 = 65535;
    };
    vec![
        Fault::new(6, "6 and 7: twice first", t(mark, twice_first)),
        Fault::new(6, "6 and 7: channel first", t(mark, channel_first)),
        Fault::new(6, "6 and 7: one no-channel twice", t(mark, both)),
    ]
}

fn twice_and_joint(mark: Mark) -> Vec<Fault> {
    let joint_first = |raw: &mut Raw| {
        repeat(raw, 2);
        raw.records[0].entries[1].1 = 1;
    };
    let twice_first = |raw: &mut Raw| {
        repeat(raw, 0);
        raw.records[2].entries[0].1 = 0;
    };
    let own_parent = |raw: &mut Raw| raw.records[1].entries[1].0 = raw.records[1].entries[0].0;
    vec![
        Fault::new(7, "7 and 8: joint first", t(mark, joint_first)),
        Fault::new(7, "7 and 8: twice first", t(mark, twice_first)),
        Fault::new(7, "7 and 8: joined to itself", t(mark, own_parent)),
    ]
}

fn joint_and_name(mark: Mark) -> Vec<Fault> {
    let name_first = |raw: &mut Raw| {
        raw.records[1].number = raw.records[0].number;
        raw.records[2].entries[1].1 = 65535;
    };
    let joint_first = |raw: &mut Raw| {
        raw.records[2].number = raw.records[1].number;
        raw.records[0].entries[0].1 = 0;
    };
    vec![
        Fault::new(8, "8 and 9: name first", t(mark, name_first)),
        Fault::new(8, "8 and 9: joint first", t(mark, joint_first)),
    ]
}

fn every_fault_from_5(raw: &mut Raw) {
    raw.records[0].number = raw.records[1].number;
    raw.records[0].entries[0].1 = 3;
    repeat(raw, 1);
    raw.records[2].entries[0].0 = 7;
    raw.directory[2] += 1;
}

fn every_fault_from_2(raw: &mut Raw) {
    every_fault_from_5(raw);
    raw.net_count = 65;
    raw.width = 33;
    raw.mark = [0, 0];
}
