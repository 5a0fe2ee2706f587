//! 02 M-102, under either mark: number 18 alone, beside the numbers before and after it, and what
//! the other numbers say of kind 3.

use super::{under, Fault};
use crate::mark::Mark;
use crate::paper::{long_net, same_channel, t_design, t_inside_design};
use crate::raw::{Raw, Record, ROOT};
use crate::rows::{bytes, Rows, ENDS, SUBSET, WILTON};

/// Sheet T as kind 3, W 3.
fn t(mark: Mark, rows: &Rows) -> Raw {
    under(mark, t_design(0, 3).with_rows(*rows).list())
}

/// Sheet T as kind 3, changed.
fn changed(mark: Mark, change: impl FnOnce(&mut Raw)) -> Vec<u8> {
    let mut raw = t(mark, &WILTON);
    change(&mut raw);
    raw.bytes()
}

pub fn faults(mark: Mark) -> Vec<Fault> {
    let mut all = some_bad_bytes(mark);
    all.extend(alone(mark));
    all.extend(before(mark));
    all.extend(after(mark));
    all.extend(kinds(mark));
    all
}

/// Each of these sign bytes and shifts in each column, in good rows: on T's chip,
/// no box of which uses the rows (02 M-104), and on one with inner boxes. Each of the
/// two has its mark.
fn bad_bytes([rim, inner]: [Mark; 2], signs: &[u8], shifts: &[i8]) -> Vec<Fault> {
    let inside = t_inside_design(0, 3).with_rows(ENDS).list();
    let mut all = Vec::new();
    for good in [t(rim, &SUBSET), under(inner, inside)] {
        for column in 0..6 {
            for &sign in signs {
                let mut raw = good.clone();
                raw.row_bytes[2 * column] = sign;
                let name = format!("sign {sign} in column {column}");
                all.push(Fault::new(18, name, raw.bytes()));
            }
            for &shift in shifts {
                let mut raw = good.clone();
                raw.row_bytes[2 * column + 1] = shift.to_le_bytes()[0];
                let name = format!("shift {shift} in column {column}");
                all.push(Fault::new(18, name, raw.bytes()));
            }
        }
    }
    all
}

fn some_bad_bytes(mark: Mark) -> Vec<Fault> {
    let signs = [2, 3, 127, 128, 254, 255];
    bad_bytes(
        [mark; 2],
        &signs,
        &[-128, -127, -64, -33, 32, 33, 63, 64, 127],
    )
}

/// Every bad sign byte and every bad shift, in each column, under both marks: the
/// odd ones on the first chip under the first mark, the even ones the other way round.
pub fn every_bad_byte() -> Vec<Fault> {
    let signs: Vec<u8> = (2..=255).collect();
    let shifts: Vec<i8> = (-128..=-33).chain(32..=127).collect();
    assert_eq!((signs.len(), shifts.len()), (254, 192));
    let (mut all, [short, long]) = (Vec::new(), Mark::BOTH);
    for (odd, marks) in [(true, [short, long]), (false, [long, short])] {
        let signs: Vec<u8> = signs
            .iter()
            .copied()
            .filter(|s| (s % 2 == 1) == odd)
            .collect();
        let shifts: Vec<i8> = shifts
            .iter()
            .copied()
            .filter(|s| (s % 2 != 0) == odd)
            .collect();
        all.extend(bad_bytes(marks, &signs, &shifts));
    }
    all
}

fn alone(mark: Mark) -> Vec<Fault> {
    let rows = |bytes: [u8; 12]| changed(mark, |raw| raw.row_bytes = bytes.to_vec());
    let mut swapped = bytes(&ENDS);
    swapped.chunks_mut(2).for_each(|row| row.swap(0, 1));
    let none = under(mark, Raw::new(2, 2, 3, 1, Vec::new())).with_row_bytes(&[2; 12]);
    vec![
        Fault::new(18, "row bytes all 255", rows([255; 12])),
        Fault::new(18, "row bytes all 32", rows([32; 12])),
        Fault::new(18, "shifts before signs", rows(swapped)),
        Fault::new(18, "no nets, bad rows", none.bytes()),
    ]
}

/// A bad sign in the first column and a bad shift in the last.
fn spoil(raw: &mut Raw) {
    raw.row_bytes[0] = 2;
    raw.row_bytes[11] = 32;
}

/// 18 beside a number that comes first.
fn before(mark: Mark) -> Vec<Fault> {
    let with = |change: fn(&mut Raw)| {
        changed(mark, |raw| {
            spoil(raw);
            change(raw);
        })
    };
    let gap = |raw: &mut Raw| {
        raw.gap = vec![0; 4];
        raw.settle();
    };
    let longer = |raw: &mut Raw| {
        raw.row_bytes.push(2);
        raw.settle_length();
    };
    let spoilt = |raw: Raw| {
        let mut raw = under(mark, raw).by_rows();
        spoil(&mut raw);
        raw.bytes()
    };
    vec![
        Fault::new(2, "2 and 18: mark", with(|raw| raw.mark[0] = 0)),
        Fault::new(2, "2 and 18: length", with(|raw| raw.length -= 12)),
        Fault::new(3, "3 and 18: W", with(|raw| raw.width = 33)),
        Fault::new(3, "3 and 18: A", with(|raw| raw.columns = 17)),
        Fault::new(3, "3 and 18: kind", with(|raw| raw.kind = 4)),
        Fault::new(4, "4 and 18: 65 nets", spoilt(same_channel(65, 0, 3))),
        Fault::new(4, "4 and 18: field 65", with(|raw| raw.net_count = 65)),
        Fault::new(5, "5 and 18: offset", with(|raw| raw.directory_at += 2)),
        Fault::new(5, "5 and 18: sum of kind 0", with(|r| r.directory_at += 12)),
        Fault::new(5, "5 and 18: first", with(|raw| raw.directory[0] = 1)),
        Fault::new(
            5,
            "5 and 18: last",
            with(|raw| raw.directory[2] = raw.directory[1]),
        ),
        Fault::new(5, "5 and 18: n 0", with(|raw| raw.records[0].count = 0)),
        Fault::new(5, "5 and 18: n 3", with(|raw| raw.records[2].count = 3)),
        Fault::new(5, "5 and 18: n 33", spoilt(long_net(33))),
        Fault::new(5, "5 and 18: gap", with(gap)),
        Fault::new(5, "5 and 18: 13 row bytes", with(longer)),
    ]
}

/// Gives the first net a last entry with the channel of its first.
fn repeat(raw: &mut Raw) {
    raw.records[0].entries.push((0, 1));
    raw.records[0].count = 3;
    raw.settle();
}

/// 18 beside a number that comes after it, whichever row is bad.
fn after(mark: Mark) -> Vec<Fault> {
    type Change = fn(&mut Raw);
    let changes: [(&str, Change); 6] = [
        ("6", |raw| raw.records[0].entries[0].0 = 7),
        ("6 at the end", |raw| raw.records[2].entries[1].0 = 65535),
        ("7", repeat),
        ("8", |raw| raw.records[1].entries[1].1 = 1),
        ("9", |raw| raw.records[2].number = raw.records[0].number),
        ("6 to 9", |raw| {
            repeat(raw);
            raw.records[1].entries[0] = (7, 3);
            raw.records[2].number = raw.records[0].number;
        }),
    ];
    let mut all = Vec::new();
    for (name, change) in changes {
        for place in 0..12 {
            let sheet = changed(mark, |raw| {
                raw.row_bytes[place] = 32;
                change(raw);
            });
            let name = format!("18 and {name}: row byte {place}");
            all.push(Fault::new(18, name, sheet));
        }
    }
    all
}

/// Kind 3 has passed 3, kind 4 has not. The length rule of 5 with 12 bytes more,
/// for kind 3 alone; bytes that would be bad rows are none in other kinds.
fn kinds(mark: Mark) -> Vec<Fault> {
    let mut all = Vec::new();
    for kind in [4, 5, 128, 255] {
        let sheet = changed(mark, |raw| raw.kind = kind);
        all.push(Fault::new(3, format!("kind {kind} with rows"), sheet));
        let mut bare = under(mark, t_design(0, 3).list());
        bare.kind = kind;
        all.push(Fault::new(3, format!("kind {kind}, bare"), bare.bytes()));
    }
    for kind in 0..3 {
        for row_bytes in [bytes(&ENDS), [0; 12], [2; 12], [32; 12], [255; 12]] {
            let raw = under(mark, t_design(kind, 3).list()).with_row_bytes(&row_bytes);
            let name = format!("kind {kind} with rows {row_bytes:?}");
            all.push(Fault::new(5, name, raw.bytes()));
        }
    }
    for count in (0..12).chain([13, 14, 18, 23, 24, 36]) {
        for filled in [0, 2] {
            let raw = t(mark, &SUBSET).with_row_bytes(&vec![filled; count]);
            let name = format!("kind 3 with {count} row bytes {filled}");
            all.push(Fault::new(5, name, raw.bytes()));
            let raw = under(mark, Raw::new(3, 2, 3, 3, Vec::new()));
            let raw = raw.with_row_bytes(&vec![filled; count]);
            let name = format!("no nets, kind 3 with {count} row bytes {filled}");
            all.push(Fault::new(5, name, raw.bytes()));
        }
    }
    all.extend(misplaced(mark));
    all
}

/// Rows that stand in another place, and a trailer that fits kind 0.
fn misplaced(mark: Mark) -> Vec<Fault> {
    let rows = bytes(&WILTON).to_vec();
    let mut before = t(mark, &SUBSET).with_row_bytes(&[]);
    before.gap = rows.clone();
    before.settle();
    let mut named = before.clone();
    named.directory_at -= 12;
    let one = vec![Record::new(1, &[(0, ROOT)])];
    let mut first = under(mark, Raw::new(3, 2, 3, 3, one));
    first.gap = rows;
    first.settle();
    let sum = changed(mark, |raw| raw.directory_at += 12);
    vec![
        Fault::new(5, "rows before the directory", before.bytes()),
        Fault::new(5, "the directory where the rows are", named.bytes()),
        Fault::new(5, "rows before the directory, one net", first.bytes()),
        Fault::new(5, "directory offset as without rows", sum),
    ]
}
