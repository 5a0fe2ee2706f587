//! Sheets of either mark that number 5 is for: directories, entry counts and records
//! that do not fit one another.

use super::alone::{empty, good, t, t_settled};
use super::{under, Fault};
use crate::mark::Mark;
use crate::paper::long_net;
use crate::raw::{Raw, Record};

pub fn faults(mark: Mark) -> Vec<Fault> {
    let mut all = directory(mark);
    all.extend(record_ends(mark));
    all
}

fn directory(mark: Mark) -> Vec<Fault> {
    let offsets = |offsets: [u16; 3]| t(mark, |raw| raw.directory = offsets.to_vec());
    let at = |at: u16| t(mark, |raw| raw.directory_at = at);
    // A record of T, and all three.
    let (one, three) = match mark {
        Mark::Short => (12, 36),
        Mark::Long => (14, 42),
    };
    let two = 2 * one;
    let mut all = Vec::new();
    for wrong in [0, two, three - 1, three + 1, three + 6, 65535, 65518] {
        all.push(Fault::new(
            5,
            format!("directory offset {wrong}"),
            at(wrong),
        ));
    }
    let of_other = 26 - one;
    for wrong in [
        [0, two, one],
        [one, 0, two],
        [two, one, 0],
        [one, two, 0],
        [0, 0, 0],
        [0, one, one],
        [1, one, two],
        [0, one - 1, two],
        [0, one + 1, two],
        [0, one, two + 1],
        [0, one, three],
        [0, one, three + 18],
        [0, one, 65535],
        [0, 65535, two],
        [65535, one, two],
        [0, of_other, 2 * of_other],
    ] {
        all.push(Fault::new(5, format!("offsets {wrong:?}"), offsets(wrong)));
    }
    all.extend(wrapped_sums(mark));
    all
}

/// Directory offsets that fit the length only if their sum is cut to 16 bits.
fn wrapped_sums(mark: Mark) -> Vec<Fault> {
    let wrap = |raw: &mut Raw| {
        raw.net_count = 64;
        raw.directory_at = (65536 + usize::from(raw.length) - 140) as u16;
    };
    let mut empty = empty(mark);
    wrap(&mut empty);
    vec![
        Fault::new(5, "sum passes 65535, no nets", empty.bytes()),
        Fault::new(5, "sum passes 65535, T", t(mark, wrap)),
    ]
}

/// Records that do not end where they should, and counts outside 1 to 32.
fn record_ends(mark: Mark) -> Vec<Fault> {
    let count = |net: usize, count: u16| t(mark, |raw| raw.records[net].count = count);
    let gap = |length: usize| t_settled(mark, |raw| raw.gap = vec![0; length]);
    let mut all = Vec::new();
    for net in 0..3 {
        for wrong in [0, 1, 3, 33, 16384, 16386, 65535] {
            let name = format!("net {net} says {wrong} entries");
            all.push(Fault::new(5, name, count(net, wrong)));
        }
    }
    for length in [1, 2, 4, 8] {
        all.push(Fault::new(5, format!("gap of {length}"), gap(length)));
    }
    for net in 0..3 {
        let none = t_settled(mark, |raw| raw.records[net] = Record::new(9, &[]));
        all.push(Fault::new(5, format!("net {net} has no entries"), none));
    }
    for count in [33, 34] {
        let sheet = under(mark, long_net(count)).bytes();
        all.push(Fault::new(5, format!("{count} entries"), sheet));
    }
    let fewer = t(mark, |raw| {
        raw.net_count = 2;
        raw.directory_at += 2;
    });
    all.push(Fault::new(5, "one net fewer", fewer));
    let none = t(mark, |raw| {
        raw.net_count = 0;
        raw.directory_at += 6;
    });
    all.push(Fault::new(5, "no nets over three records", none));
    let mut extra = good(mark);
    extra.directory.push(extra.directory_at);
    extra.net_count = 4;
    extra.settle_length();
    all.push(Fault::new(5, "a fourth record of no bytes", extra.bytes()));
    all.extend(empty_sheets(mark));
    all.extend(cut_records(mark));
    all
}

/// Sheets of no nets whose directory is not at 0.
fn empty_sheets(mark: Mark) -> Vec<Fault> {
    let mut all = Vec::new();
    for at in [1, 12, 65535] {
        let mut raw = empty(mark);
        raw.directory_at = at;
        let name = format!("no nets, directory offset {at}");
        all.push(Fault::new(5, name, raw.bytes()));
    }
    for gap in [1, 2, 8] {
        let mut raw = empty(mark);
        raw.gap = vec![0; gap];
        raw.settle();
        all.push(Fault::new(5, format!("no nets, gap of {gap}"), raw.bytes()));
    }
    all
}

/// One record, cut after its first bytes.
fn cut_records(mark: Mark) -> Vec<Fault> {
    let whole: &[u8] = match mark {
        Mark::Short => &[1, 0, 1, 0, 0, 0, 255, 255],
        Mark::Long => &[1, 0, 0, 0, 1, 0, 0, 0, 255, 255],
    };
    (0..whole.len())
        .map(|kept| {
            let mut raw = empty(mark);
            raw.gap = whole[..kept].to_vec();
            raw.directory = vec![0];
            raw.net_count = 1;
            raw.directory_at = kept as u16;
            raw.settle_length();
            Fault::new(5, format!("record of {kept} bytes"), raw.bytes())
        })
        .collect()
}
