//! Numbers 1 to 9 on sheet T; 18 and what kind 3 changes: rows.rs; what the long mark changes: marks.rs.

use super::{empty, field, holds, in_entry, in_record, t, Place, NOWHERE, T};
use trackrouter::explain::{self, By, Subject};
use trackrouter::MAX_SHEET;

/// The fault of a sheet, and of any ticket and any list for it.
pub fn sheet(sheet: &[u8], number: u32, place: Place, finding: &str) {
    let holds = |fault| holds(fault, number, Subject::Sheet, place, finding);
    holds(explain::sheet(sheet));
    // The second is not of whole items, the third has a wire twice.
    for list in [&[][..], &[1], &[0; 6]] {
        holds(explain::list(sheet, list));
        for by in [By::Check, By::Refit] {
            holds(explain::ticket(sheet, list, &[0; 6], by));
        }
    }
}

#[test]
fn length() {
    sheet(&[], 1, NOWHERE, "the sheet has 0 bytes, fewer than 12");
    sheet(
        &T[43..],
        1,
        NOWHERE,
        "the sheet has 11 bytes, fewer than 12",
    );
    let longer = vec![0; MAX_SHEET + 1];
    sheet(
        &longer,
        1,
        NOWHERE,
        "the sheet has 8729 bytes, more than 8728",
    );
    let longer = vec![0; 65_536 + 54];
    sheet(
        &longer,
        1,
        NOWHERE,
        "the sheet has 65590 bytes, more than 8728",
    );
}

#[test]
fn mark() {
    let finding = "byte 52: the last two bytes are 56 48, not 57 48 or 57 49";
    sheet(&t(&[(52, 0x56)]), 2, field(52), finding);
    let finding = "byte 52: the last two bytes are 57 0A, not 57 48 or 57 49";
    sheet(&t(&[(53, 10), (50, 0)]), 2, field(52), finding);
    let finding = "byte 50: the length field says 55, and the sheet has 54 bytes";
    sheet(&t(&[(50, 55)]), 2, field(50), finding);
    let finding = "byte 50: the length field says 310, and the sheet has 54 bytes";
    sheet(&t(&[(51, 1)]), 2, field(50), finding);
}

#[test]
fn chip() {
    let finding = "byte 42: A, the number of columns, is 1, not 2 to 16";
    sheet(&t(&[(42, 1), (45, 33)]), 3, field(42), finding);
    let finding = "byte 43: B, the number of rows, is 17, not 2 to 16";
    sheet(&t(&[(43, 17)]), 3, field(43), finding);
    let finding = "byte 44: the kind is 4, not 0 (subset), 1 (wilton), 2 (universal) or 3 (rows)";
    sheet(&t(&[(44, 4)]), 3, field(44), finding);
    let finding = "byte 44: the kind is 255, not 0 (subset), 1 (wilton), 2 (universal) or 3 (rows)";
    sheet(&t(&[(44, 255)]), 3, field(44), finding);
    let finding = "byte 45: the width W is 33, not 1 to 32";
    sheet(&t(&[(45, 33)]), 3, field(45), finding);
    let finding = "byte 45: the width W is 0, not 1 to 32";
    sheet(&t(&[(45, 0)]), 3, field(45), finding);
}

#[test]
fn crowd() {
    let finding = "byte 46: the net count is 65, more than 64";
    sheet(&t(&[(46, 65)]), 4, field(46), finding);
    let finding = "byte 46: the net count is 259, more than 64";
    sheet(&t(&[(47, 1)]), 4, field(46), finding);
}

#[test]
fn directory_offset() {
    let finding = "byte 48: directory offset 40, 2 bytes for each of 3 nets and 12 for the trailer make 58, and the sheet has 54 bytes";
    sheet(&t(&[(48, 40)]), 5, field(48), finding);
    // 65,534 + 2 + 12 is 12 in 16 bits.
    let mut wrapped = empty(0, 65_534);
    wrapped[4] = 1;
    let finding = "byte 6: directory offset 65534, 2 bytes for each of 1 nets and 12 for the trailer make 65548, and the sheet has 12 bytes";
    sheet(&wrapped, 5, field(6), finding);
    let finding = "byte 14: the directory offset is 8, and with no nets it is 0";
    sheet(&empty(8, 8), 5, field(14), finding);
}

#[test]
fn directory_entries() {
    let finding = "byte 36: directory entry 0 says 1, and record 0 starts at 0";
    sheet(&t(&[(36, 1)]), 5, in_record(0, 36), finding);
    let finding = "byte 38: directory entry 1 says 24, and record 1 starts at 12";
    sheet(&t(&[(38, 24), (40, 12)]), 5, in_record(1, 38), finding);
    // Net 1 says one entry, so record 1 would start at 8.
    let finding = "byte 38: directory entry 1 says 12, and record 1 starts at 8";
    sheet(&t(&[(2, 1)]), 5, in_record(1, 38), finding);
}

#[test]
fn records() {
    let finding = "byte 14: net 2 (record 1) has entry count 33, not 1 to 32";
    sheet(&t(&[(14, 33)]), 5, in_record(1, 14), finding);
    let finding = "byte 2: net 1 (record 0) has entry count 0, not 1 to 32";
    sheet(&t(&[(2, 0), (14, 33)]), 5, in_record(0, 2), finding);
    let finding = "byte 26: net 3 (record 2) has entry count 16386, not 1 to 32";
    sheet(&t(&[(27, 64)]), 5, in_record(2, 26), finding);
    let finding =
        "byte 26: net 3 (record 2) has entry count 3 and ends at 40, beyond the directory at 36";
    sheet(&t(&[(26, 3)]), 5, in_record(2, 26), finding);
    let finding = "byte 48: the directory offset is 36, and the last record ends at 32";
    sheet(&t(&[(26, 1)]), 5, field(48), finding);
    // A fourth record of no bytes: the directory says 36 for it.
    let mut four = t(&[(46, 4), (50, 56)]);
    four.splice(42..42, [36, 0]);
    let finding = "byte 36: record 3 does not end before the directory at 36";
    sheet(&four, 5, in_record(3, 36), finding);
}

#[test]
fn channel() {
    let finding =
        "net 2 (record 1), entry 1 at byte 20: channel 7, and a chip of 3 by 2 has channels 0 to 6";
    sheet(&t(&[(20, 7)]), 6, in_entry(1, 1, 20), finding);
    // 7 and 8 in the first net, 6 in the last.
    let finding = "net 3 (record 2), entry 0 at byte 28: channel 65280, and a chip of 3 by 2 has channels 0 to 6";
    let wrong = t(&[(8, 0), (10, 1), (29, 255)]);
    sheet(&wrong, 6, in_entry(2, 0, 28), finding);
}

#[test]
fn twice() {
    // The parent's channel again: 7 is before 8.
    let finding = "net 3 (record 2), entry 1 at byte 32: channel 0, which entry 0 has already";
    sheet(&t(&[(32, 0)]), 7, in_entry(2, 1, 32), finding);
    let finding = "net 2 (record 1), entry 1 at byte 20: channel 1, which entry 0 has already";
    sheet(&t(&[(6, 0), (20, 1)]), 7, in_entry(1, 1, 20), finding);
}

#[test]
fn joint() {
    // m11.
    let finding = "net 2 (record 1), entry 1 at byte 20: channel 5 has parent 1, which is not an earlier entry (parent at byte 22)";
    sheet(&t(&[(22, 1)]), 8, in_entry(1, 1, 22), finding);
    let finding = "net 1 (record 0), entry 1 at byte 8: channel 1 has no parent (65535), and only the first entry may have none (parent at byte 10)";
    sheet(&t(&[(10, 255), (11, 255)]), 8, in_entry(0, 1, 10), finding);
    let finding = "net 1 (record 0), entry 0 at byte 4: channel 0 has parent 65280, and the first entry's parent is 65535 (parent at byte 6)";
    sheet(&t(&[(6, 0), (22, 1)]), 8, in_entry(0, 0, 6), finding);
    let finding = "net 2 (record 1), entry 1 at byte 20: channel 2 and channel 1 of its parent 0 do not meet (parent at byte 22)";
    sheet(&t(&[(20, 2)]), 8, in_entry(1, 1, 22), finding);
}

#[test]
fn name() {
    let finding = "net 1 (record 2) at byte 24: record 0 at byte 0 has the number 1 already";
    sheet(&t(&[(24, 1)]), 9, in_record(2, 24), finding);
    let finding = "net 3 (record 1) at byte 12: record 0 at byte 0 has the number 3 already";
    sheet(&t(&[(0, 3), (12, 3)]), 9, in_record(1, 12), finding);
}
