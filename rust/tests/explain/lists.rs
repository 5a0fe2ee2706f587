//! Numbers 19 to 21 on sheet T: lists of dead wires, and tickets on them. The chip has channels 0 to 6, W is 2; net 1 has channels 0 and 1,
//! net 2 has 1 and 5, net 3 has 0 and 5.

use super::{field, holds, in_entry, numbers, t, Place, NOWHERE, T};
use trackrouter::explain::{self, By, Subject};
use trackrouter::{check, check_dead, check_old, UNPLACED};

const UP: u8 = UNPLACED;

/// The fault of a list, at this item, and of any ticket under it.
fn list(list: &[u8], number: u32, item: usize, place: Place, finding: &str) {
    let tickets: [&[u8]; 4] = [&[], &[9; 6], &[1; 6], &[0; 6]];
    let by_tickets = tickets.map(|ticket| explain::ticket(&T, list, ticket, By::Check));
    let by_old = explain::ticket(&T, list, &[UP; 6], By::Refit);
    let alone = explain::list(&T, list);
    for fault in by_tickets.into_iter().chain([by_old, alone]) {
        assert_eq!(fault.as_ref().and_then(|fault| fault.item), Some(item));
        holds(fault, number, Subject::List, place, finding);
    }
    let [found, answered] = numbers(explain::list(&T, list), check_dead(&T, list));
    assert_eq!([found, answered], [number; 2], "{list:?}");
}

#[test]
fn accepted() {
    let all: Vec<u8> = (0..7)
        .flat_map(|channel| (0..32).flat_map(move |track| [channel, 0, track]))
        .collect();
    // No wire, the last of the chip, two that share a channel or a track, all of them.
    for list in [&[][..], &[6, 0, 31], &[5, 0, 1, 5, 0, 0, 0, 0, 1], &all] {
        assert_eq!(explain::list(&T, list), None);
        assert_eq!(check_dead(&T, list), Ok(()));
        assert_eq!(explain::ticket(&T, list, &[UP; 6], By::Refit), None);
    }
}

#[test]
fn half_an_item() {
    let finding =
        "item 0 at byte 0 of the list: the list ends at byte 1, after 1 of the item's 3 bytes";
    list(&[9], 19, 0, field(0), finding);
    let finding =
        "item 0 at byte 0 of the list: the list ends at byte 2, after 2 of the item's 3 bytes";
    list(&[0, 0], 19, 0, field(0), finding);
    // Before it an unknown channel, and a wire twice.
    let finding =
        "item 2 at byte 6 of the list: the list ends at byte 7, after 1 of the item's 3 bytes";
    list(&[7, 0, 0, 7, 0, 0, 1], 19, 2, field(6), finding);
}

#[test]
fn unknown_channel() {
    let finding =
        "item 0 at byte 0 of the list: channel 7, and a chip of 3 by 2 has channels 0 to 6";
    list(&[7, 0, 0], 19, 0, field(0), finding);
    // Both bytes of the channel count; its track is bad too.
    let finding =
        "item 1 at byte 3 of the list: channel 256, and a chip of 3 by 2 has channels 0 to 6";
    list(&[0, 0, 0, 0, 1, 99], 19, 1, field(3), finding);
    let finding =
        "item 0 at byte 0 of the list: channel 65535, and a chip of 3 by 2 has channels 0 to 6";
    list(&[255, 255, 0, 0, 0, 32], 19, 0, field(0), finding);
}

/// 31 is the last track, whatever W is.
#[test]
fn unknown_track() {
    let finding = "item 0 at byte 0 of the list: track 32, not 0 to 31";
    list(&[0, 0, 32], 19, 0, field(2), finding);
    // Behind a wire that stands twice, and before an unknown channel.
    let finding = "item 2 at byte 6 of the list: track 255, not 0 to 31";
    let bad = [5, 0, 1, 5, 0, 1, 6, 0, 255, 7, 0, 0];
    list(&bad, 19, 2, field(8), finding);
}

#[test]
fn repeated() {
    let finding = "item 1 at byte 3 of the list: channel 5, track 1, which item 0 has already";
    list(&[5, 0, 1, 5, 0, 1], 20, 1, field(3), finding);
    // At or above W; the first of two that stand twice.
    let finding = "item 3 at byte 9 of the list: channel 0, track 31, which item 1 has already";
    let bad = [5, 0, 1, 0, 0, 31, 0, 0, 30, 0, 0, 31, 5, 0, 1];
    list(&bad, 20, 3, field(9), finding);
}

/// A ticket with this fault under the list, in Check and as Refit's old one.
fn ticket(
    list: &[u8],
    ticket: &[u8],
    number: u32,
    item: Option<usize>,
    place: Place,
    finding: &str,
) {
    for by in [By::Check, By::Refit] {
        let fault = explain::ticket(&T, list, ticket, by);
        assert_eq!(fault.as_ref().and_then(|fault| fault.item), item);
        holds(fault, number, Subject::Ticket, place, finding);
    }
}

#[test]
fn broken() {
    let finding = "net 2 (record 1), entry 1 (ticket byte 3): channel 5 has track 1, a dead wire (item 0 of the list)";
    let place = in_entry(1, 1, 3);
    ticket(&[5, 0, 1], &[0, 0, 1, 1, 0, 0], 21, Some(0), place, finding);
    // The first entry on a dead wire, wherever its item stands; nets 1 and 3 clash.
    let finding = "net 1 (record 0), entry 1 (ticket byte 1): channel 1 has track 0, a dead wire (item 2 of the list)";
    let dead = [5, 0, 1, 5, 0, 0, 1, 0, 0];
    ticket(
        &dead,
        &[0, 0, 1, 1, 0, 0],
        21,
        Some(2),
        in_entry(0, 1, 1),
        finding,
    );
    // Of an unplaced net nothing is asked.
    let finding = "net 3 (record 2), entry 1 (ticket byte 5): channel 5 has track 1, a dead wire (item 0 of the list)";
    let fault = explain::ticket(&T, &[5, 0, 1], &[0, 0, UP, UP, 1, 1], By::Refit);
    holds(fault, 21, Subject::Ticket, in_entry(2, 1, 5), finding);
}

/// 21 stands after 12 and before 13.
#[test]
fn between_12_and_13() {
    let dead = [5, 0, 1];
    let finding = "the ticket has 5 bytes, and the sheet has 6 entries";
    ticket(&dead, &[1; 5], 10, None, NOWHERE, finding);
    let finding = "net 3 (record 2), entry 0 (ticket byte 4): channel 0 has track 2, not below W 2";
    ticket(
        &dead,
        &[0, 0, 1, 1, 2, 2],
        11,
        None,
        in_entry(2, 0, 4),
        finding,
    );
    let finding = "net 3 (record 2), entry 1 (ticket byte 5): channel 5 has track 1, and its parent's channel 0 has track 0, whose partner \
                   in channel 5 is 0 (kind subset, W 2, box column 1 row 0, on the rim: equal tracks)";
    ticket(
        &dead,
        &[0, 0, 1, 1, 0, 1],
        12,
        None,
        in_entry(2, 1, 5),
        finding,
    );
    let finding = "net 3 (record 2), entry 0 (ticket byte 4) and net 1 (record 0), entry 0 (ticket byte 0) both hold channel 0, track 1";
    ticket(
        &[5, 0, 2],
        &[1, 1, 0, 0, 1, 1],
        13,
        None,
        in_entry(2, 0, 4),
        finding,
    );
}

/// Every ticket of T with bytes 0 to 2 and 255, under lists of one wire and of three: Check's number, and Refit's.
#[test]
fn every_ticket_of_t() {
    for sheet in [T.to_vec(), t(&[(45, 3)])] {
        for list in [
            &[5, 0, 1][..],
            &[0, 0, 2],
            &[1, 0, 0, 5, 0, 2, 0, 0, 31],
            &[2, 0, 0],
        ] {
            for code in 0..4_usize.pow(6) {
                let ticket: Vec<u8> = (0..6)
                    .map(|place| [0, 1, 2, UP][code / 4_usize.pow(place) % 4])
                    .collect();
                let fault = |by| explain::ticket(&sheet, list, &ticket, by);
                let [found, answered] = numbers(fault(By::Check), check(&sheet, list, &ticket));
                assert_eq!(found, answered, "{list:?} {ticket:?}");
                let old = check_old(&sheet, list, &ticket);
                let [found, answered] = numbers(fault(By::Refit), old);
                assert_eq!(found, answered, "{list:?} {ticket:?}");
            }
        }
    }
}

/// Every list of one item, but for most high channels, and every length up to two items: the library's number.
#[test]
fn every_item() {
    let agrees = |list: &[u8]| {
        let [found, answered] = numbers(explain::list(&T, list), check_dead(&T, list));
        assert_eq!(found, answered, "{list:?}");
    };
    for (low, high) in (0..=255).flat_map(|low| [(low, 0), (low, 1), (low, 255)]) {
        for track in 0..=255 {
            agrees(&[low, high, track]);
        }
    }
    for length in 0..=6 {
        agrees(&[6; 6][..length]);
        agrees(&[6, 0, 3, 6, 0, 4][..length]);
    }
}
