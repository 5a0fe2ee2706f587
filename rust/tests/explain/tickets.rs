//! Numbers 10 to 13 on sheet T. Net 1 has channels 0 and 1, net 2 has 1 and 5, net 3 has 0 and 5; in the inner box these are channels 3, 4
//! and 17.

use super::{holds, in_entry, inner, t, Place, NOWHERE, T};
use trackrouter::explain::{self, By, Subject};
use trackrouter::UNPLACED;

/// The same fault in Check's ticket and in Refit's old one.
fn ticket(sheet: &[u8], ticket: &[u8], number: u32, place: Place, finding: &str) {
    for by in [By::Check, By::Refit] {
        let fault = explain::ticket(sheet, &[], ticket, by);
        holds(fault, number, Subject::Ticket, place, finding);
    }
}

#[test]
fn size() {
    // m12.
    let finding = "the ticket has 5 bytes, and the sheet has 6 entries";
    ticket(&T, &[0, 0, 1, 1, 1], 10, NOWHERE, finding);
    let finding = "the ticket has 7 bytes, and the sheet has 6 entries";
    ticket(&T, &[UNPLACED; 7], 10, NOWHERE, finding);
}

#[test]
fn track() {
    let finding = "net 3 (record 2), entry 0 (ticket byte 4): channel 0 has track 2, not below W 2";
    ticket(&T, &[0, 0, 1, 1, 2, 2], 11, in_entry(2, 0, 4), finding);
    // 12 in the first net.
    let finding =
        "net 2 (record 1), entry 1 (ticket byte 3): channel 5 has track 254, not below W 2";
    ticket(&T, &[0, 1, 1, 254, 0, 0], 11, in_entry(1, 1, 3), finding);
}

#[test]
fn unplaced() {
    let finding = "net 1 (record 0), entry 0 (ticket byte 0): channel 0 has 255 (unplaced), not a track below W 2";
    let fault = explain::ticket(&T, &[], &[UNPLACED, UNPLACED, 1, 1, UNPLACED, 1], By::Check);
    holds(fault, 11, Subject::Ticket, in_entry(0, 0, 0), finding);
    let finding = "net 3 (record 2), entry 0 (ticket byte 4): channel 0 has 255, and the net is unplaced only if all its bytes are 255";
    let fault = explain::ticket(&T, &[], &[UNPLACED, UNPLACED, 1, 1, UNPLACED, 1], By::Refit);
    holds(fault, 11, Subject::Ticket, in_entry(2, 0, 4), finding);
}

#[test]
fn switch() {
    // m10: on the 4 by 4 chip, under kind 2.
    let finding = "net 2 (record 1), entry 1 (ticket byte 3): channel 17 has track 0, and its parent's channel 4 has track 1, whose partner \
                   in channel 17 is 1 (kind universal, W 2, box column 1 row 1)";
    let m10 = inner(&[(44, 2)]);
    ticket(&m10, &[0, 0, 1, 0, 1, 1], 12, in_entry(1, 1, 3), finding);
    // Kind 1, W 3, net {4,17}, home track 0: the right tracks are 0 2.
    let finding = "net 2 (record 1), entry 1 (ticket byte 3): channel 17 has track 1, and its parent's channel 4 has track 0, whose partner \
                   in channel 17 is 2 (kind wilton, W 3, box column 1 row 1)";
    let wilton = inner(&[(45, 3)]);
    ticket(&wilton, &[1, 1, 0, 1, 0, 0], 12, in_entry(1, 1, 3), finding);
    // 13 too: nets 1 and 2 on 1.0.
    let finding = "net 3 (record 2), entry 1 (ticket byte 5): channel 5 has track 1, and its parent's channel 0 has track 0, whose partner \
                   in channel 5 is 0 (kind subset, W 2, box column 1 row 0, on the rim: equal tracks)";
    ticket(&T, &[0, 0, 0, 0, 0, 1], 12, in_entry(2, 1, 5), finding);
    let fault = explain::ticket(
        &T,
        &[],
        &[UNPLACED, UNPLACED, UNPLACED, UNPLACED, 0, 1],
        By::Refit,
    );
    holds(fault, 12, Subject::Ticket, in_entry(2, 1, 5), finding);
}

/// What is right in an inner box is 12 on the rim, for every kind. Of net 3, universal takes left 1 to top 0 at W 2; of net 2, Wilton takes
/// right 1 to top 0.
#[test]
fn switch_on_the_rim() {
    let universal = t(&[(44, 2)]);
    let finding = "net 3 (record 2), entry 1 (ticket byte 5): channel 5 has track 0, and its parent's channel 0 has track 1, whose partner \
                   in channel 5 is 1 (kind universal, W 2, box column 1 row 0, on the rim: equal tracks)";
    ticket(
        &universal,
        &[0, 0, 1, 1, 1, 0],
        12,
        in_entry(2, 1, 5),
        finding,
    );
    let wilton = t(&[(44, 1)]);
    let finding = "net 2 (record 1), entry 1 (ticket byte 3): channel 5 has track 0, and its parent's channel 1 has track 1, whose partner \
                   in channel 5 is 1 (kind wilton, W 2, box column 1 row 0, on the rim: equal tracks)";
    ticket(&wilton, &[0, 0, 1, 0, 1, 1], 12, in_entry(1, 1, 3), finding);
}

#[test]
fn clash() {
    let finding = "net 3 (record 2), entry 0 (ticket byte 4) and net 1 (record 0), entry 0 (ticket byte 0) both hold channel 0, track 1";
    ticket(&T, &[1, 1, 0, 0, 1, 1], 13, in_entry(2, 0, 4), finding);
    let finding = "net 2 (record 1), entry 0 (ticket byte 2) and net 1 (record 0), entry 1 (ticket byte 1) both hold channel 1, track 0";
    ticket(&T, &[0; 6], 13, in_entry(1, 0, 2), finding);
    let finding = "net 3 (record 2), entry 1 (ticket byte 5) and net 2 (record 1), entry 1 (ticket byte 3) both hold channel 5, track 1";
    let fault = explain::ticket(&T, &[], &[UNPLACED, UNPLACED, 1, 1, 1, 1], By::Refit);
    holds(fault, 13, Subject::Ticket, in_entry(2, 1, 5), finding);
}
