//! Where sheets, lists of dead wires and tickets break their rules: the paper's sheet T with one fault and another, the places by hand.
//!
//! T's records start at 0, 12 and 24 (net number, entry count, then entries of channel and parent), its directory at 36 and its trailer
//! at 42: A 42, B 43, kind 44, W 45, net count 46, directory offset 48, length 50, mark 52.
#![cfg(feature = "alloc")]

#[path = "explain/lists.rs"]
mod lists;
#[path = "explain/marks.rs"]
mod marks;
#[path = "explain/rows.rs"]
mod rows;
#[path = "explain/sheets.rs"]
mod sheets;
#[path = "explain/tickets.rs"]
mod tickets;

use trackrouter::explain::{self, By, Fault, Subject};
use trackrouter::{check, check_old, read, Refusal, UNPLACED};

const T: [u8; 54] = *include_bytes!("../../sheets/t.sheet");

/// T moved to the inner box (1, 1) of a 4 by 4 chip, with channels 3, 4 and 17 for 0, 1 and 5; kind 1, W 2.
const INNER: [u8; 54] = *include_bytes!("../../sheets/t_wilton.sheet");

/// The sheet with these bytes in place of its own.
fn changed(sheet: &[u8], changes: &[(usize, u8)]) -> Vec<u8> {
    let mut sheet = sheet.to_vec();
    for &(at, byte) in changes {
        sheet[at] = byte;
    }
    sheet
}

fn t(changes: &[(usize, u8)]) -> Vec<u8> {
    changed(&T, changes)
}

fn inner(changes: &[(usize, u8)]) -> Vec<u8> {
    changed(&INNER, changes)
}

/// A sheet of no nets whose directory offset is this, behind so many bytes.
fn empty(gap: usize, offset: u16) -> Vec<u8> {
    let mut sheet = vec![0; gap];
    sheet.extend([3, 2, 0, 2, 0, 0]);
    sheet.extend(offset.to_le_bytes());
    sheet.extend((gap as u16 + 12).to_le_bytes());
    sheet.extend([0x57, 0x48]);
    sheet
}

type Place = (Option<usize>, Option<usize>, Option<usize>);

const NOWHERE: Place = (None, None, None);

/// A field outside the records.
fn field(offset: usize) -> Place {
    (None, None, Some(offset))
}

fn in_record(record: usize, offset: usize) -> Place {
    (Some(record), None, Some(offset))
}

fn in_entry(record: usize, entry: usize, offset: usize) -> Place {
    (Some(record), Some(entry), Some(offset))
}

/// The number, what has the fault, the place and the whole finding; the rule is there. Only 19 to 21 speak of an item.
fn holds(fault: Option<Fault>, number: u32, of: Subject, place: Place, finding: &str) {
    let fault = fault.unwrap_or_else(|| panic!("no fault, and not {number}: {finding}"));
    assert_eq!((fault.number, &*fault.finding), (number, finding));
    assert_eq!(fault.of, of, "{finding}");
    assert_eq!(
        (fault.record, fault.entry, fault.offset),
        place,
        "{finding}"
    );
    let listed = matches!(number, 19..=21);
    assert_eq!(fault.item.is_some(), listed, "{finding}");
    assert!(fault.rule.ends_with('.'), "{}", fault.rule);
    assert!(!fault.finding.ends_with('.'), "{finding}");
}

#[test]
fn accepted() {
    assert_eq!(explain::sheet(&T), None);
    assert_eq!(explain::sheet(&empty(0, 0)), None);
    assert_eq!(explain::ticket(&empty(0, 0), &[], &[], By::Check), None);
    let wide = t(&[(45, 3)]);
    assert_eq!(
        explain::ticket(&wide, &[], &[0, 0, 1, 1, 2, 2], By::Check),
        None
    );
    assert_eq!(explain::ticket(&T, &[], &[UNPLACED; 6], By::Refit), None);
    let universal = inner(&[(44, 2)]);
    assert_eq!(
        explain::ticket(&universal, &[], &[0, 0, 1, 1, 1, 0], By::Check),
        None
    );
    assert_eq!(
        explain::ticket(&INNER, &[], &[0, 0, 1, 0, 1, 1], By::Check),
        None
    );
    // On the rim equal tracks are right for every kind.
    for sheet in [t(&[(44, 1), (45, 3)]), t(&[(44, 2), (45, 3)]), rows::rim()] {
        for by in [By::Check, By::Refit] {
            assert_eq!(explain::ticket(&sheet, &[], &[0, 0, 1, 1, 2, 2], by), None);
        }
    }
}

#[test]
fn each_number_has_its_rule() {
    let sheets = [
        t(&[(52, 0)]),
        t(&[(42, 0)]),
        t(&[(46, 65)]),
        t(&[(48, 0)]),
        rows::changed(&[(42, 2)]),
        t(&[(20, 7)]),
        t(&[(32, 0)]),
        t(&[(22, 1)]),
        t(&[(24, 1)]),
    ];
    let mut rules: Vec<&str> = vec![explain::sheet(&[]).unwrap().rule];
    rules.extend(sheets.map(|sheet| explain::sheet(&sheet).unwrap().rule));
    let lists: [&[u8]; 2] = [&[0], &[0; 6]];
    rules.extend(lists.map(|list| explain::list(&T, list).unwrap().rule));
    // Dead is 5.1.
    let tickets: [&[u8]; 5] = [&[], &[9; 6], &[0, 1, 0, 0, 0, 0], &[1; 6], &[0; 6]];
    let ticket = |ticket| explain::ticket(&T, &[5, 0, 1], ticket, By::Check);
    rules.extend(tickets.map(|bytes| ticket(bytes).unwrap().rule));
    let said = [
        "12 to 8728",
        "57 48 or 57 49",
        "2 to 16",
        "64",
        "back to back",
        "from -32 to 31",
        "channels",
        "twice",
        "parent",
        "number",
        "0 to 31",
        "stands twice in a list",
        "one byte",
        "below",
        "partners",
        "on a dead wire",
        "two nets",
    ];
    assert_eq!(rules.len(), said.len());
    for (rule, said) in rules.iter().zip(said) {
        assert!(rule.contains(said), "{rule}");
    }
}

/// The number of a fault, and of the library's refusal; 0 for none.
fn numbers<T>(fault: Option<Fault>, answer: Result<T, Refusal>) -> [u32; 2] {
    let answered = answer.err().map_or(0, |refusal| refusal.number);
    [fault.map_or(0, |fault| fault.number), answered]
}

/// Every sheet that differs from T in one byte, every part of T, and two bytes at once in the numbers: the library's number.
#[test]
fn every_byte_of_t() {
    let agrees = |sheet: &[u8]| {
        let [found, answered] = numbers(explain::sheet(sheet), read(sheet));
        assert_eq!(found, answered, "{sheet:02X?}");
    };
    for at in 0..T.len() {
        agrees(&T[at..]);
        agrees(&T[..at]);
        for byte in 0..=255 {
            agrees(&t(&[(at, byte)]));
            agrees(&t(&[(at, byte), (45, 0)]));
            agrees(&t(&[(at, byte), (24, 1)]));
        }
    }
}

/// Every ticket of T with bytes 0 to 2 and 255, under each kind and by rows, on the rim and in an inner box: Check's number, and Refit's.
#[test]
fn every_ticket_of_t() {
    let rim = [0, 1, 2].map(|kind| t(&[(44, kind)]));
    let inside = [0, 1, 2].map(|kind| inner(&[(44, kind)]));
    let by_rows = [rows::rim(), rows::changed(&[])];
    for sheet in rim.into_iter().chain(inside).chain(by_rows) {
        for code in 0..4_usize.pow(6) {
            let ticket: Vec<u8> = (0..6)
                .map(|place| [0, 1, 2, UNPLACED][code / 4_usize.pow(place) % 4])
                .collect();
            let fault = |by| explain::ticket(&sheet, &[], &ticket, by);
            let [found, answered] = numbers(fault(By::Check), check(&sheet, &[], &ticket));
            assert_eq!(found, answered, "{ticket:?}");
            let [found, answered] = numbers(fault(By::Refit), check_old(&sheet, &[], &ticket));
            assert_eq!(found, answered, "{ticket:?}");
        }
    }
}
