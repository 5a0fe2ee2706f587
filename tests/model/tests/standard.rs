//! 02 M-101, sheets in standard form, against what follows by hand: the bytes, the
//! room they need, and the refusals.

mod form;

use form::{designs, form};
use model::Counts;
use sheets::paper::{same_channel, T};
use sheets::{damage, extremes, forms, random, refusals, Raw, Record, Rng};
use std::collections::BTreeSet;

const ROOT: u16 = 65535;

/// The number, and the whole output afterwards, of which each byte was `fill`.
fn formed(sheet: &[u8], room: usize, fill: u8) -> (u32, Vec<u8>) {
    let mut out = vec![fill; room];
    let number = model::standard(sheet, &mut out);
    (number, out)
}

/// Success, with just enough output and with longer ones, of which the later
/// bytes keep their values; 14 with shorter ones, which are left as they were.
fn gives(sheet: &[u8], told: &[u8]) {
    let enough = sheet.len();
    for fill in [0x5A, 0xA5] {
        for more in [0, 1, 2, 57] {
            let mut out = vec![fill; enough + more];
            out[..told.len()].copy_from_slice(told);
            assert_eq!(formed(sheet, enough + more, fill), (0, out), "{more} more");
        }
        // 14 looks at the length: the entry count is not enough.
        let entries = model::read(sheet).entries as usize;
        for room in [0, entries, entries + 1, enough - 12, enough - 1] {
            let kept = vec![fill; room];
            assert_eq!(formed(sheet, room, fill), (14, kept), "room {room}");
        }
    }
}

/// `forms::example` by hand, from the text. Nets 7, 300, 512. Net 7: home 1, then
/// 8. Net 300: home 0; open 6 7, so 6 on place 0; open 7 9, so 7 on 0; open 3 9,
/// so 3 on 7's place 2; open 9 11, so 9 on 6's place 1; open 2 4 11, so 2 and 4
/// on 9's place 4, then 11 on 3's place 3. Records at 0, 12 and 48, directory at
/// 56, length 74.
#[rustfmt::skip]
const EXAMPLE: [u8; 74] = [
    0x07, 0x00, 0x02, 0x00, 0x01, 0x00, 0xFF, 0xFF, 0x08, 0x00, 0x00, 0x00,
    0x2C, 0x01, 0x08, 0x00, 0x00, 0x00, 0xFF, 0xFF, 0x06, 0x00, 0x00, 0x00,
    0x07, 0x00, 0x00, 0x00, 0x03, 0x00, 0x02, 0x00, 0x09, 0x00, 0x01, 0x00,
    0x02, 0x00, 0x04, 0x00, 0x04, 0x00, 0x04, 0x00, 0x0B, 0x00, 0x03, 0x00,
    0x00, 0x02, 0x01, 0x00, 0x05, 0x00, 0xFF, 0xFF,
    0x00, 0x00, 0x0C, 0x00, 0x30, 0x00,
    0x03, 0x03, 0x01, 0x04, 0x03, 0x00, 0x38, 0x00, 0x4A, 0x00, 0x57, 0x48,
];

#[test]
fn the_example() {
    gives(&forms::example().bytes(), &EXAMPLE);
    gives(&EXAMPLE, &EXAMPLE);
}

/// T has its nets in rising number, each from its home; turned round it has not.
#[test]
fn t_is_its_own() {
    gives(&T, &T);
    let turned = vec![
        Record::new(3, &[(5, ROOT), (0, 0)]),
        Record::new(1, &[(0, ROOT), (1, 0)]),
        Record::new(2, &[(5, ROOT), (1, 0)]),
    ];
    gives(&Raw::new(3, 2, 0, 2, turned).bytes(), &T);
}

/// With no nets, and with one net of one channel, there is but one listing. The
/// first and the last number are numbers as others.
#[test]
fn the_smallest_sheets() {
    for (columns, rows, kind, width) in [(2, 2, 0, 1), (16, 2, 1, 31), (16, 16, 2, 32)] {
        let none = Raw::new(columns, rows, kind, width, Vec::new()).bytes();
        assert_eq!(none.len(), 12);
        gives(&none, &none);
        let one = vec![Record::new(65535, &[(3, ROOT)])];
        let one = Raw::new(columns, rows, kind, width, one).bytes();
        gives(&one, &one);
    }
    let mut ends = same_channel(2, 0, 2);
    ends.records[0].number = 65535;
    ends.records[1].number = 0;
    let given = ends.bytes();
    ends.records.reverse();
    gives(&given, &ends.bytes());
}

/// 64 nets of 32 channels in a row, the last of which is the lowest: from there
/// only one channel is open at a time.
#[test]
fn the_longest_sheet() {
    let mut rng = Rng::new(20);
    let design = extremes::alike(64, 32, 2, 32);
    let row: Vec<u16> = design.nets[0].channels.iter().rev().copied().collect();
    assert_eq!(row.iter().min(), Some(&1));
    assert_eq!(row[0], 1);
    let mut entries = vec![(1, ROOT)];
    entries.extend((1..32).map(|place| (row[place], place as u16 - 1)));
    let records = (1..=64).map(|number| Record::new(number, &entries));
    let told = Raw::new(16, 16, 2, 32, records.collect()).bytes();
    assert_eq!(told.len(), 8588);
    gives(&design.list().bytes(), &told);
    gives(&design.relist(&mut rng).bytes(), &told);
}

#[test]
fn refusals_come_first() {
    let mut seen = BTreeSet::new();
    for fault in refusals::faults() {
        for room in [0, 6, 11, 12, fault.sheet.len(), 9000] {
            let told = (fault.number, vec![0x5A; room]);
            assert_eq!(formed(&fault.sheet, room, 0x5A), told, "{}", fault.name);
        }
        seen.insert(fault.number);
    }
    assert!(seen.into_iter().eq((1..=9).chain([18])));
}

#[test]
fn refused_as_read_refuses() {
    let mut rng = Rng::new(21);
    let mut seen = [0; 19];
    for _ in 0..6000 {
        let raw = random::small(&mut rng).relist(&mut rng);
        let sheet = damage::damaged(raw, &damage::aims(&mut rng), &mut rng);
        let number = model::read(&sheet).number;
        seen[number as usize] += 1;
        for room in [0, sheet.len()] {
            let (given, out) = formed(&sheet, room, 0x5A);
            let told = if number == 0 && room == 0 { 14 } else { number };
            assert_eq!(given, told);
            assert!(given == 0 || out == vec![0x5A; room]);
        }
    }
    let given = damage::ORDER.map(|number| seen[number as usize]);
    assert!(
        seen[0] > 20 && given.iter().all(|&count| count > 20),
        "{seen:?}"
    );
}

/// The forms of a design's listings are equal, accepted, and their own forms.
#[test]
fn relistings_have_one_form() {
    let mut rng = Rng::new(22);
    for design in designs(23, 600) {
        let told = form(&design.list().bytes());
        let counts = Counts {
            number: 0,
            nets: design.nets.len() as u32,
            entries: design.entry_count() as u32,
        };
        assert_eq!(model::read(&told), counts);
        gives(&told, &told);
        for _ in 0..4 {
            gives(&design.relist(&mut rng).bytes(), &told);
        }
    }
}
