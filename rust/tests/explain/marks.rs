//! Sheets of the long mark. In sheets/t_long.sheet, T with net numbers of four bytes, the records start at 0, 14 and 28 (net number, entry
//! count behind four bytes, entries from the sixth on), the directory at 42 and the trailer at 48: A 48, B 49, kind 50, W 51, net count 52,
//! directory offset 54, length 56, mark 58.

use super::sheets::sheet;
use super::{field, holds, in_entry, in_record, numbers, t};
use trackrouter::explain::{self, By, Subject};
use trackrouter::read;

const T_LONG: [u8; 60] = *include_bytes!("../../../sheets/t_long.sheet");

/// T by rows with net numbers of four bytes: its rows stand from 48 on, its trailer from 60 on.
fn by_rows(changes: &[(usize, u8)]) -> Vec<u8> {
    let short = include_bytes!("../../../sheets/t_rows.sheet");
    let mut long = Vec::new();
    for record in short[..36].chunks(12) {
        long.extend([record[0], record[1], 0, 0]);
        long.extend(&record[2..]);
    }
    long.extend([0, 0, 14, 0, 28, 0]);
    long.extend(&short[42..60]);
    long.extend([42, 0, 72, 0, 0x57, 0x49]);
    super::changed(&long, changes)
}

/// T of the long mark with these bytes in place of its own.
fn long(changes: &[(usize, u8)]) -> Vec<u8> {
    super::changed(&T_LONG, changes)
}

#[test]
fn accepted() {
    assert_eq!(explain::sheet(&T_LONG), None);
    assert_eq!(explain::sheet(&by_rows(&[])), None);
    // Equal in the low halves of their numbers, or in the high ones.
    for changes in [
        &[(28, 1), (30, 1)][..],
        &[(28, 1), (31, 1)],
        &[(2, 1), (16, 1), (30, 1)],
        &[(0, 0), (30, 1), (28, 0)],
    ] {
        assert_eq!(explain::sheet(&long(changes)), None);
    }
    let wide = long(&[(51, 3)]);
    for by in [By::Check, By::Refit] {
        let fault = explain::ticket(&wide, &[], &[0, 0, 1, 1, 2, 2], by);
        assert_eq!(fault, None);
    }
}

#[test]
fn mark() {
    let finding = "byte 58: the last two bytes are 57 4A, not 57 48 or 57 49";
    sheet(&long(&[(59, 0x4A), (56, 0)]), 2, field(58), finding);
    let finding = "byte 58: the last two bytes are 49 49, not 57 48 or 57 49";
    sheet(&long(&[(58, 0x49)]), 2, field(58), finding);
    let finding = "byte 56: the length field says 54, and the sheet has 60 bytes";
    sheet(&long(&[(56, 54), (51, 33)]), 2, field(56), finding);
}

/// The mark of the other length: the entry count is looked for in the wrong place.
#[test]
fn the_other_mark() {
    let finding = "byte 2: net 1 (record 0) has entry count 0, not 1 to 32";
    sheet(&long(&[(59, 0x48)]), 5, in_record(0, 2), finding);
    let finding = "byte 4: net 131073 (record 0) has entry count 0, not 1 to 32";
    sheet(&t(&[(53, 0x49)]), 5, in_record(0, 4), finding);
}

#[test]
fn chip_and_crowd() {
    let finding = "byte 48: A, the number of columns, is 1, not 2 to 16";
    sheet(&long(&[(48, 1)]), 3, field(48), finding);
    let finding = "byte 51: the width W is 33, not 1 to 32";
    sheet(&long(&[(51, 33)]), 3, field(51), finding);
    let finding = "byte 52: the net count is 65, more than 64";
    sheet(&long(&[(52, 65)]), 4, field(52), finding);
}

#[test]
fn directory() {
    let finding = "byte 54: directory offset 36, 2 bytes for each of 3 nets and 12 for the trailer make 54, and the sheet has 60 bytes";
    sheet(&long(&[(54, 36)]), 5, field(54), finding);
    // The offsets of records that are two bytes shorter.
    let finding = "byte 44: directory entry 1 says 12, and record 1 starts at 14";
    sheet(&long(&[(44, 12), (46, 24)]), 5, in_record(1, 44), finding);
    let finding = "byte 44: directory entry 1 says 14, and record 1 starts at 10";
    sheet(&long(&[(4, 1)]), 5, in_record(1, 44), finding);
}

#[test]
fn records() {
    let finding = "byte 18: net 2 (record 1) has entry count 33, not 1 to 32";
    sheet(&long(&[(18, 33)]), 5, in_record(1, 18), finding);
    let finding = "byte 4: net 1 (record 0) has entry count 0, not 1 to 32";
    sheet(&long(&[(4, 0), (18, 33)]), 5, in_record(0, 4), finding);
    let finding =
        "byte 32: net 3 (record 2) has entry count 3 and ends at 46, beyond the directory at 42";
    sheet(&long(&[(32, 3)]), 5, in_record(2, 32), finding);
    let finding = "byte 54: the directory offset is 42, and the last record ends at 38";
    sheet(&long(&[(32, 1)]), 5, field(54), finding);
    // A fourth record of no bytes, and of as many as the head of a short one has.
    for gap in [0, 4, 5] {
        let mut four = long(&[(52, 4), (54, 42 + gap), (56, 62 + gap)]);
        four.splice(48..48, [42, 0]);
        four.splice(42..42, [4, 0, 1, 0, 1].into_iter().take(gap.into()));
        let directory = 42 + gap;
        let finding = format!("byte 42: record 3 does not end before the directory at {directory}");
        sheet(&four, 5, in_record(3, 42), &finding);
    }
}

/// The rows of kind 3 stand behind a directory that starts later.
#[test]
fn parameter() {
    let finding = "byte 52: the sign of column left-top is 2, not 0 (plus) or 1 (minus)";
    sheet(&by_rows(&[(52, 2), (24, 99)]), 18, field(52), finding);
    let finding = "byte 59: the shift of column bottom-left is 32, not -32 to 31";
    sheet(&by_rows(&[(59, 32)]), 18, field(59), finding);
}

#[test]
fn entries() {
    let finding =
        "net 2 (record 1), entry 1 at byte 24: channel 7, and a chip of 3 by 2 has channels 0 to 6";
    sheet(&long(&[(24, 7)]), 6, in_entry(1, 1, 24), finding);
    let finding = "net 3 (record 2), entry 1 at byte 38: channel 0, which entry 0 has already";
    sheet(&long(&[(38, 0)]), 7, in_entry(2, 1, 38), finding);
    // m11.
    let finding = "net 2 (record 1), entry 1 at byte 24: channel 5 has parent 1, which is not an earlier entry (parent at byte 26)";
    sheet(&long(&[(26, 1)]), 8, in_entry(1, 1, 26), finding);
    let finding = "net 1 (record 0), entry 0 at byte 6: channel 0 has parent 65280, and the first entry's parent is 65535 (parent at byte 8)";
    sheet(&long(&[(8, 0)]), 8, in_entry(0, 0, 8), finding);
    // The number is told whole: its third byte is 2.
    let finding = "net 131074 (record 1), entry 1 at byte 24: channel 7, and a chip of 3 by 2 has channels 0 to 6";
    sheet(&long(&[(16, 2), (24, 7)]), 6, in_entry(1, 1, 24), finding);
}

#[test]
fn name() {
    let finding = "net 1 (record 2) at byte 28: record 0 at byte 0 has the number 1 already";
    sheet(&long(&[(28, 1)]), 9, in_record(2, 28), finding);
    let finding =
        "net 65537 (record 2) at byte 28: record 0 at byte 0 has the number 65537 already";
    let both = long(&[(2, 1), (28, 1), (30, 1)]);
    sheet(&both, 9, in_record(2, 28), finding);
    let largest = |at: usize| [0, 1, 2, 3].map(|byte| (at + byte, 255));
    let both = long(&[largest(0), largest(14)].concat());
    let finding =
        "net 4294967295 (record 1) at byte 14: record 0 at byte 0 has the number 4294967295 already";
    sheet(&both, 9, in_record(1, 14), finding);
}

/// A ticket's bytes stand as for T; the net is named by its long number.
#[test]
fn tickets() {
    let sheet = long(&[(30, 1)]);
    let finding =
        "net 65539 (record 2), entry 0 (ticket byte 4): channel 0 has track 2, not below W 2";
    let fault = explain::ticket(&sheet, &[], &[0, 0, 1, 1, 2, 2], By::Check);
    holds(fault, 11, Subject::Ticket, in_entry(2, 0, 4), finding);
    let finding = "net 65539 (record 2), entry 1 (ticket byte 5) and net 2 (record 1), entry 1 (ticket byte 3) both hold channel 5, track 1";
    let fault = explain::ticket(&sheet, &[], &[255, 255, 1, 1, 1, 1], By::Refit);
    holds(fault, 13, Subject::Ticket, in_entry(2, 1, 5), finding);
}

/// Every sheet that differs in one byte, and in a second one in mark, entry count, net number or rows, and every part: the library's number.
#[test]
fn every_byte() {
    let agrees = |sheet: &[u8]| {
        let [found, answered] = numbers(explain::sheet(sheet), read(sheet));
        assert_eq!(found, answered, "{sheet:02X?}");
    };
    let other = t(&[(53, 0x49)]);
    for (sheet, seconds) in [
        (&T_LONG[..], &[(59, 0x48), (28, 1), (18, 1), (51, 0)][..]),
        (&by_rows(&[]), &[(50, 2), (28, 1), (62, 2)]),
        (&other, &[(4, 1), (4, 2)]),
    ] {
        for at in 0..sheet.len() {
            agrees(&sheet[at..]);
            agrees(&sheet[..at]);
            for byte in 0..=255 {
                agrees(&super::changed(sheet, &[(at, byte)]));
                for &second in seconds {
                    agrees(&super::changed(sheet, &[(at, byte), second]));
                }
            }
        }
    }
}
