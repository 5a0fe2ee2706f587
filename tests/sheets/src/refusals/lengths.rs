//! Lengths near the limit of number 1, which is 8,728 for both marks and all kinds
//! since 02 M-106. 64 nets of 32 entries take 8,588 bytes, and 8,600 as kind 3; under
//! the second mark both have 128 more.

use super::{under, Fault};
use crate::extremes::alike;
use crate::mark::Mark;
use crate::raw::{Raw, Record, ROOT};
use crate::rows::{bytes, ENDS};

/// The length of 64 nets of 32 entries without rows.
fn full(mark: Mark) -> usize {
    match mark {
        Mark::Short => 8588,
        Mark::Long => 8716,
    }
}

/// A sheet of this length that fits but for a gap before its directory, if there
/// is one.
fn long(mark: Mark, kind: u8, length: usize) -> Raw {
    let mut raw = if kind == 3 {
        kind_3(mark, 2048)
    } else {
        under(mark, alike(64, 32, kind, 32).list())
    };
    raw.gap = vec![0; length - usize::from(raw.length)];
    raw.settle();
    assert_eq!(raw.bytes().len(), length);
    raw
}

/// 64 nets with this many entries, the last with fewer than 32, as kind 3.
fn kind_3(mark: Mark, entries: usize) -> Raw {
    let mut raw = under(mark, alike(64, 32, 0, 32).with_rows(ENDS).list());
    let last = 32 + entries - 2048;
    raw.records[63].entries.truncate(last);
    raw.records[63].count = last as u16;
    raw.settle();
    raw
}

/// The lengths to try over that of a full sheet: at the old limits and the new ones.
fn lengths(mark: Mark) -> impl Iterator<Item = usize> {
    let all = [
        8589, 8590, 8599, 8600, 8601, 8602, 8612, 8664, 8716, 8717, 8718, 8724, 8727, 8728,
    ];
    all.into_iter().filter(move |length| *length > full(mark))
}

pub fn faults(mark: Mark) -> Vec<Fault> {
    let mut all = over(mark);
    for length in lengths(mark) {
        all.extend(passes_1(mark, length));
        // 2,045 entries take as many bytes as kind 3 as 2,048 without rows.
        let mut raw = kind_3(mark, 2045);
        raw.gap = vec![0; length - full(mark)];
        raw.settle();
        let name = format!("length {length}, kind 3, gap");
        all.push(Fault::new(5, name, raw.bytes()));
    }
    all.extend(full_of_another_kind(mark));
    all
}

/// Over the limit, whatever else is wrong.
fn over(mark: Mark) -> Vec<Fault> {
    let mut all = Vec::new();
    for kind in 0..4 {
        for length in [8729, 8730, 8740, 9000] {
            let name = format!("length {length}, kind {kind}");
            all.push(Fault::new(1, name, long(mark, kind, length).bytes()));
        }
        let mut marked = long(mark, kind, 8729);
        marked.mark[1] = 0;
        let name = format!("1 and 2: length 8729, kind {kind}");
        all.push(Fault::new(1, name, marked.bytes()));
    }
    let mut rows = long(mark, 3, 8729);
    rows.row_bytes[0] = 2;
    all.push(Fault::new(1, "1 and 18: length 8729", rows.bytes()));
    all
}

/// Kinds 0 to 2 have no sheet of these lengths that is accepted, but it passes 1
/// and gets its own number.
fn passes_1(mark: Mark, length: usize) -> Vec<Fault> {
    let mut all = Vec::new();
    for kind in 0..3 {
        let mut add = |number: u32, what: &str, raw: &Raw| {
            let name = format!("length {length}, kind {kind}, {what}");
            all.push(Fault::new(number, name, raw.bytes()));
        };
        let good = long(mark, kind, length);
        add(5, "gap", &good);
        let mut raw = good.clone();
        raw.mark[0] ^= 1;
        add(2, "mark", &raw);
        let mut raw = good.clone();
        raw.length = full(mark) as u16;
        add(2, "length field", &raw);
        let mut raw = good.clone();
        raw.width = 33;
        add(3, "W 33", &raw);
        let mut raw = good.clone();
        raw.net_count = 65;
        add(4, "65 nets", &raw);
        let mut raw = good;
        let gap = std::mem::take(&mut raw.gap);
        raw.settle();
        add(5, "row bytes", &raw.with_row_bytes(&gap));
    }
    all
}

/// Full sheets whose kind or mark has been changed; 64 full nets and one more.
fn full_of_another_kind(mark: Mark) -> Vec<Fault> {
    let mut all = Vec::new();
    for kind in 0..3 {
        let mut raw = long(mark, 3, full(mark) + 12);
        raw.kind = kind;
        let name = format!("full with rows, kind {kind}");
        all.push(Fault::new(5, name, raw.bytes()));
    }
    let mut other = long(mark, 3, full(mark) + 12);
    other.mark = mark.other().bytes();
    all.push(Fault::new(5, "full, the other mark", other.bytes()));
    let mut bare = long(mark, 0, full(mark));
    bare.kind = 3;
    all.push(Fault::new(5, "full without rows, kind 3", bare.bytes()));
    let padded = bare.with_row_bytes(&[2; 12]);
    all.push(Fault::new(18, "full, bad rows", padded.bytes()));
    let mut more = long(mark, 0, full(mark));
    more.records.push(Record::new(65, &[(0, ROOT)]));
    more.settle();
    // One record and its place in the directory.
    let (length, by_rows) = match mark {
        Mark::Short => (8598, 4),
        Mark::Long => (8728, 1),
    };
    assert_eq!(more.length, length);
    all.push(Fault::new(4, "65 nets, one of one entry", more.bytes()));
    let more = more.by_rows();
    all.push(Fault::new(by_rows, "65 nets by rows", more.bytes()));
    all
}

/// Sheets of kind 3 that are accepted, with their entry counts.
pub fn accepted(mark: Mark) -> Vec<(String, Vec<u8>, u32)> {
    let mut all = Vec::new();
    let lengths = match mark {
        Mark::Short => [8600, 8596, 8592, 8588],
        Mark::Long => [8728, 8724, 8720, 8716],
    };
    for (entries, length) in [2048, 2047, 2046, 2045].into_iter().zip(lengths) {
        let sheet = kind_3(mark, entries).bytes();
        assert_eq!(sheet.len(), length);
        let name = format!("length {length}, kind 3");
        all.push((name, sheet, entries as u32));
    }
    let none = under(mark, Raw::new(2, 2, 3, 1, Vec::new()));
    let none = none.with_row_bytes(&bytes(&ENDS)).bytes();
    assert_eq!(none.len(), 24);
    all.push(("length 24, kind 3".into(), none, 0));
    all
}
