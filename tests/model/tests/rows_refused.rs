//! 02 M-102: refusals with kind 3, through every call.

mod common;

use common::hold;
use sheets::paper::{t_inside_raw, t_raw, T, T_LINES, T_WILTON_ROWS};
use sheets::{damage, random, refusals, Ask, Case, Rng};
use std::collections::BTreeSet;

/// Every call, the standard form too, gives this number and writes nothing.
fn refused(number: u32, sheet: &[u8], name: &str) {
    let ticket = vec![0, 0, 1, 1, 2, 2];
    for (ticket, room, net) in [(ticket, 9000, 1), (Vec::new(), 0, 65536)] {
        let (budget, old) = (100, ticket.clone());
        let asks = [
            Ask::Read,
            Ask::Record { place: 0 },
            Ask::Check {
                ticket: ticket.clone(),
            },
            Ask::Route { budget, room },
            Ask::Least { budget, room },
            Ask::Refit { old, budget, room },
            Ask::Remove { ticket, net, room },
        ];
        hold(&asks.map(|ask| Case::refused(name, sheet.to_vec(), ask, number)));
        let mut out = vec![0x5A; room];
        assert_eq!(model::standard(sheet, &mut out), number, "{name}");
        assert!(out.iter().all(|&byte| byte == 0x5A), "{name}");
    }
}

#[test]
fn every_bad_byte() {
    let faults = refusals::every_bad_byte();
    assert_eq!(faults.len(), 2 * 6 * (254 + 192));
    for fault in faults {
        refused(18, &fault.sheet, &fault.name);
    }
}

#[test]
fn every_fault() {
    let mut seen = BTreeSet::new();
    for fault in refusals::faults() {
        refused(fault.number, &fault.sheet, &fault.name);
        seen.insert(fault.number);
    }
    assert!(seen.into_iter().eq((1..=9).chain([18])));
}

/// What the least-width program prints: T's lines, as no box of its chip uses the
/// rows (02 M-104), m5's ticket inside, and the first line alone.
#[test]
fn the_printed_line() {
    let mut sheet = T_WILTON_ROWS;
    assert_eq!(model::lines::least_lines(&sheet), T_LINES);
    let inside = t_inside_raw(1, 3).by_rows().bytes();
    let lines = "answer 0 width 2 trials 5\n1 3.0 4.0\n2 4.1 17.0\n3 3.1 17.1\n";
    assert_eq!(model::lines::least_lines(&inside), lines);
    sheet[42] = 2;
    let lines = model::lines::least_lines(&sheet);
    assert_eq!(lines, "answer 18 width 0 trials 0\n");
}

/// A sheet of another kind has no rows: the bytes before its trailer may be any.
#[test]
fn no_rows_in_other_kinds() {
    assert_eq!(model::read(&T).number, 0);
    let before_trailer = &T[30..42];
    let as_rows = t_raw(3, 2).with_row_bytes(before_trailer);
    assert_eq!(model::read(&as_rows.bytes()).number, 18);
}

/// Kind 3 with the rows, any other kind without: the whole table of kinds.
#[test]
fn every_kind_byte() {
    for kind in 0..=255 {
        let number = |count: usize| {
            let mut raw = t_raw(0, 2).with_row_bytes(&vec![0; count]);
            raw.kind = kind;
            model::read(&raw.bytes()).number
        };
        let told = match kind {
            0..=2 => [0, 5, 5],
            3 => [5, 5, 0],
            _ => [3, 3, 3],
        };
        assert_eq!([number(0), number(11), number(12)], told, "kind {kind}");
    }
}

/// Sheets with chance faults: the number that comes first of those aimed at, or
/// another where the fault did not come about.
#[test]
fn chance_faults() {
    let mut rng = Rng::new(40);
    let mut seen = [[0; 19]; 2];
    for _ in 0..20_000 {
        let raw = random::small(&mut rng).relist(&mut rng);
        let by_rows = raw.kind == 3;
        let sheet = damage::damaged(raw, &damage::aims(&mut rng), &mut rng);
        let number = model::read(&sheet).number;
        seen[usize::from(by_rows)][number as usize] += 1;
    }
    for number in damage::ORDER.map(|number| number as usize) {
        assert!(seen[1][number] > 50, "{seen:?}");
        assert!(number == 18 || seen[0][number] > 50, "{seen:?}");
    }
    assert!(seen[0][18] == 0, "{seen:?}");
}

/// 18 with a fault of each other number: those up to 5 come first, the others do
/// not.
#[test]
fn order_by_chance() {
    let mut rng = Rng::new(41);
    for place in 0..damage::ORDER.len() {
        let other = damage::ORDER[place];
        let mut seen = 0;
        for _ in 0..400 {
            let raw = random::small(&mut rng).with_rows(sheets::rows::ENDS);
            let raw = raw.relist(&mut rng);
            if raw.records.is_empty() {
                continue;
            }
            let sheet = damage::damaged(raw, &[other, 18], &mut rng);
            let number = model::read(&sheet).number;
            let told = if place < 5 { other } else { 18 };
            // Damage at 5 can leave the sheet as it was.
            assert!(number == told || (other == 5 && number == 18), "{other}");
            seen += u32::from(number == told);
        }
        assert!(seen > 200, "{other}: {seen}");
    }
}
