//! Sheets of kind 3: number 18, and what else speaks of the rows. sheets/t_rows.sheet is T in an inner box of a 4 by 4 chip, at W 3 with the
//! rows 1+i 3-i 2-i -1+i -32-i 31+i at bytes 42 to 53, sign and shift by turns, so that its trailer starts at 54: A 54, B 55, kind 56, W 57,
//! net count 58, directory offset 60, length 62, mark 64.

use super::sheets::sheet;
use super::{field, holds, in_entry, numbers, t, T};
use trackrouter::explain::{self, By, Subject};
use trackrouter::read;

const T_ROWS: [u8; 66] = *include_bytes!("../../../sheets/t_rows.sheet");

const COLUMNS: [&str; 6] = [
    "left-right",
    "top-bottom",
    "left-top",
    "top-right",
    "right-bottom",
    "bottom-left",
];

/// T by rows with these bytes in place of its own.
pub fn changed(changes: &[(usize, u8)]) -> Vec<u8> {
    super::changed(&T_ROWS, changes)
}

/// T itself, on the rim, with these rows and W 3: its records and directory, then the rows and the trailer.
pub fn rim() -> Vec<u8> {
    let sheet = [&T[..42], &T_ROWS[42..]].concat();
    super::changed(&sheet, &[(54, 3), (55, 2)])
}

#[test]
fn accepted() {
    assert_eq!(explain::sheet(&T_ROWS), None);
    assert_eq!(
        explain::ticket(&T_ROWS, &[], &[0, 1, 0, 1, 2, 0], By::Check),
        None
    );
}

/// Every bad sign and every bad shift in every column.
#[test]
fn parameter() {
    for (place, column) in COLUMNS.iter().enumerate() {
        let at = 42 + 2 * place;
        for sign in 2..=255 {
            let finding = format!(
                "byte {at}: the sign of column {column} is {sign}, not 0 (plus) or 1 (minus)"
            );
            sheet(&changed(&[(at, sign)]), 18, field(at), &finding);
        }
        let at = at + 1;
        for shift in (-128..=-33).chain(32..=127) {
            let finding =
                format!("byte {at}: the shift of column {column} is {shift}, not -32 to 31");
            let bad = changed(&[(at, shift as i8 as u8)]);
            sheet(&bad, 18, field(at), &finding);
        }
        for shift in -32..=31_i8 {
            assert_eq!(explain::sheet(&changed(&[(at, shift as u8)])), None);
            assert_eq!(
                explain::sheet(&changed(&[(at - 1, 0), (at, shift as u8)])),
                None
            );
            assert_eq!(
                explain::sheet(&changed(&[(at - 1, 1), (at, shift as u8)])),
                None
            );
        }
    }
}

/// Of several bad bytes the first is told.
#[test]
fn the_first_byte() {
    let finding = "byte 47: the shift of column left-top is 100, not -32 to 31";
    let bad = changed(&[(47, 100), (48, 9), (53, 200)]);
    sheet(&bad, 18, field(47), finding);
    let finding = "byte 46: the sign of column left-top is 2, not 0 (plus) or 1 (minus)";
    let bad = changed(&[(46, 2), (47, 100), (53, 200)]);
    sheet(&bad, 18, field(46), finding);
}

/// 18 stands between 5 and 6, and kinds 0 to 2 have no rows.
#[test]
fn between_5_and_6() {
    let finding = "byte 53: the shift of column bottom-left is 32, not -32 to 31";
    let bad = changed(&[(20, 24), (24, 1), (53, 32)]);
    sheet(&bad, 18, field(53), finding);
    let finding =
        "net 2 (record 1), entry 1 at byte 20: channel 24, and a chip of 4 by 4 has channels 0 to 23";
    sheet(&changed(&[(20, 24)]), 6, in_entry(1, 1, 20), finding);
    let finding = "byte 2: net 1 (record 0) has entry count 0, not 1 to 32";
    let bad = changed(&[(2, 0), (53, 32)]);
    sheet(&bad, 5, super::in_record(0, 2), finding);
    // The same bytes behind the directory of a sheet of kind 1 do not belong there.
    let finding = "byte 60: directory offset 36, 2 bytes for each of 3 nets and 12 for the trailer make 54, and the sheet has 66 bytes";
    sheet(&changed(&[(56, 1), (42, 9)]), 5, field(60), finding);
}

/// The length rule of 5, and kind 3 without rows.
#[test]
fn directory_offset() {
    let finding = "byte 60: directory offset 40, 2 bytes for each of 3 nets, 12 for the rows of kind 3 and 12 for the trailer make 70, and the sheet has 66 bytes";
    sheet(&changed(&[(60, 40), (42, 9)]), 5, field(60), finding);
    let finding = "byte 48: directory offset 36, 2 bytes for each of 3 nets, 12 for the rows of kind 3 and 12 for the trailer make 66, and the sheet has 54 bytes";
    sheet(&t(&[(44, 3)]), 5, field(48), finding);
    // Where the sum fits, the rows lie in what was the directory and the records.
    let finding = "byte 24: directory entry 0 says 3, and record 0 starts at 0";
    sheet(
        &t(&[(44, 3), (48, 24)]),
        5,
        super::in_record(0, 24),
        finding,
    );
}

/// The kind is named with its rows. Left to right 0 goes to 1 in an inner box, and to 0 on the rim.
#[test]
fn switch() {
    let inner = "net 1 (record 0), entry 1 (ticket byte 1): channel 4 has track 0, and its parent's channel 3 has track 0, whose partner \
                 in channel 4 is 1 (kind rows 1+i 3-i 2-i -1+i -32-i 31+i, W 3, box column 1 row 1)";
    let rim_finding = "net 1 (record 0), entry 1 (ticket byte 1): channel 1 has track 1, and its parent's channel 0 has track 0, whose \
                       partner in channel 1 is 0 (kind rows 1+i 3-i 2-i -1+i -32-i 31+i, W 3, box column 1 row 0, on the rim: equal tracks)";
    for by in [By::Check, By::Refit] {
        let fault = explain::ticket(&T_ROWS, &[], &[0, 0, 0, 1, 2, 0], by);
        holds(fault, 12, Subject::Ticket, in_entry(0, 1, 1), inner);
        let fault = explain::ticket(&rim(), &[], &[0, 1, 0, 1, 2, 0], by);
        holds(fault, 12, Subject::Ticket, in_entry(0, 1, 1), rim_finding);
    }
}

/// Bad rows are 18 on a chip whose boxes are all on its rim too, where no box uses them.
#[test]
fn parameter_on_the_rim() {
    assert_eq!(explain::sheet(&rim()), None);
    let bad = super::changed(&rim(), &[(53, 32)]);
    let finding = "byte 53: the shift of column bottom-left is 32, not -32 to 31";
    sheet(&bad, 18, field(53), finding);
    assert_eq!(numbers(explain::sheet(&bad), read(&bad)), [18, 18]);
}

/// Every sheet that differs in one byte, and every part: the library's number.
#[test]
fn every_byte() {
    let agrees = |sheet: &[u8]| {
        let [found, answered] = numbers(explain::sheet(sheet), read(sheet));
        assert_eq!(found, answered, "{sheet:02X?}");
    };
    for at in 0..T_ROWS.len() {
        agrees(&T_ROWS[at..]);
        agrees(&T_ROWS[..at]);
        for byte in 0..=255 {
            agrees(&changed(&[(at, byte)]));
            agrees(&changed(&[(at, byte), (44, 2)]));
            agrees(&changed(&[(at, byte), (24, 1)]));
        }
    }
}
