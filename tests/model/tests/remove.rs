//! M-100, taking a net out, against what follows by hand.

use model::word::Word;
use model::Answer;
use sheets::extremes::alike;
use sheets::paper::{same_channel, t_inside_raw, t_raw, T};
use sheets::{random, refusals, Ask, Design, Grid, Net, Raw, Rng, Told};
use std::ops::Range;

const UP: u8 = 255;
const RIGHT: [u8; 6] = [0, 0, 1, 1, 2, 2];

/// The output before a call: bytes that are no track and not 255, each unlike
/// those near it.
fn before(room: usize) -> Vec<u8> {
    (0..room).map(|place| 100 + (place % 100) as u8).collect()
}

/// The number, and the whole output afterwards.
fn removed(sheet: &[u8], ticket: &[u8], net: u32, room: usize) -> (u32, Vec<u8>) {
    let mut out = before(room);
    let number = model::remove(sheet, ticket, net, &mut out);
    (number, out)
}

/// Success, with just enough output and with a longer one, of which the later
/// bytes keep their values.
fn leaves(sheet: &[u8], ticket: &[u8], net: u32, left: &[u8]) {
    for room in [0, 1, 2, 57].map(|more| left.len() + more) {
        let mut out = before(room);
        out[..left.len()].copy_from_slice(left);
        let got = removed(sheet, ticket, net, room);
        assert_eq!(got, (0, out), "net {net} of {ticket:?}, room {room}");
    }
}

/// A refusal with each of these outputs, which are left as they were.
fn refused(number: u32, sheet: &[u8], ticket: &[u8], net: u32, rooms: &[usize]) {
    for &room in rooms {
        let got = removed(sheet, ticket, net, room);
        let told = (number, before(room));
        assert_eq!(got, told, "net {net} of {ticket:?}, room {room}");
    }
}

/// Outputs that are too short for T, long enough and longer.
const ROOMS: [usize; 6] = [0, 1, 5, 6, 7, 40];

/// Sheet T, kind 0, W 3.
fn t() -> Vec<u8> {
    t_raw(0, 3).bytes()
}

/// A sheet on T's chip, kind 0, with the nets in this order.
fn listed(width: u8, nets: &[(u32, &[u16])]) -> Vec<u8> {
    let net = |&(number, channels): &(u32, &[u16])| Net::chain(number, channels);
    let nets = nets.iter().map(net).collect();
    Design::new(Grid::new(3, 2), 0, width, nets).list().bytes()
}

#[test]
fn each_net_of_t() {
    leaves(&t(), &RIGHT, 1, &[UP, UP, 1, 1, 2, 2]);
    leaves(&t(), &RIGHT, 2, &[0, 0, UP, UP, 2, 2]);
    leaves(&t(), &RIGHT, 3, &[0, 0, 1, 1, UP, UP]);
}

#[test]
fn one_net_after_another() {
    leaves(&t(), &[UP, UP, 1, 1, 2, 2], 3, &[UP, UP, 1, 1, UP, UP]);
    leaves(&t(), &[UP, UP, 1, 1, UP, UP], 2, &[UP; 6]);
    leaves(&t(), &[0, 0, UP, UP, UP, UP], 1, &[UP; 6]);
}

#[test]
fn an_unplaced_net_changes_nothing() {
    for (net, ticket) in [
        (1, [UP, UP, 1, 1, 2, 2]),
        (2, [0, 0, UP, UP, 2, 2]),
        (3, [0, 0, 1, 1, UP, UP]),
        (3, [UP, UP, 0, 0, UP, UP]),
        (2, [UP; 6]),
    ] {
        leaves(&t(), &ticket, net, &ticket);
    }
}

/// The tickets of m5 and m4 inside, whose tracks differ within a net; on T's own
/// chip they are wrong.
#[test]
fn other_boxes() {
    let wilton = t_inside_raw(1, 2).bytes();
    leaves(&wilton, &[0, 0, 1, 0, 1, 1], 2, &[0, 0, UP, UP, 1, 1]);
    leaves(&wilton, &[0, 0, 1, 0, 1, 1], 3, &[0, 0, 1, 0, UP, UP]);
    let universal = t_inside_raw(2, 2).bytes();
    leaves(&universal, &[0, 0, 1, 1, 1, 0], 1, &[UP, UP, 1, 1, 1, 0]);
    leaves(&universal, &[0, 0, 1, 1, 1, 0], 3, &[0, 0, 1, 1, UP, UP]);
    refused(12, &universal, &[0, 0, 1, 0, 1, 1], 2, &ROOMS);
    refused(12, &t_raw(1, 2).bytes(), &[0, 0, 1, 0, 1, 1], 2, &ROOMS);
    refused(12, &t_raw(2, 2).bytes(), &[0, 0, 1, 1, 1, 0], 1, &ROOMS);
    for kind in 0..3 {
        leaves(&t_raw(kind, 3).bytes(), &RIGHT, 2, &[0, 0, UP, UP, 2, 2]);
    }
}

/// Nothing is routed: neither 15 nor 16 is given.
#[test]
fn unroutable_sheets() {
    leaves(&T, &[0, 0, 1, 1, UP, UP], 1, &[UP, UP, 1, 1, UP, UP]);
    leaves(&T, &[UP; 6], 1, &[UP; 6]);
    let overloaded = same_channel(3, 0, 2).bytes();
    leaves(&overloaded, &[1, UP, 0], 3, &[1, UP, UP]);
}

#[test]
fn a_net_number_is_no_list_place() {
    let turned = listed(3, &[(3, &[0, 5]), (1, &[0, 1]), (2, &[1, 5])]);
    let ticket = [2, 2, 0, 0, 1, 1];
    leaves(&turned, &ticket, 1, &[2, 2, UP, UP, 1, 1]);
    leaves(&turned, &ticket, 2, &[2, 2, 0, 0, UP, UP]);
    leaves(&turned, &ticket, 3, &[UP, UP, 0, 0, 1, 1]);
    refused(17, &turned, &ticket, 0, &ROOMS);
}

#[test]
fn nets_of_other_lengths() {
    let sheet = listed(3, &[(500, &[6]), (2, &[0, 1, 5]), (1, &[3])]);
    let ticket = [2, 1, 1, 1, 0];
    leaves(&sheet, &ticket, 500, &[UP, 1, 1, 1, 0]);
    leaves(&sheet, &ticket, 2, &[2, UP, UP, UP, 0]);
    leaves(&sheet, &ticket, 1, &[2, 1, 1, 1, UP]);
    for net in [0, 3, 244, 499, 501] {
        refused(17, &sheet, &ticket, net, &ROOMS);
    }
}

/// Nets on the same channels, each on a track of its own while there are any:
/// 32 tracks, 32 entries a net. Partners have equal tracks.
#[test]
fn the_longest_sheet() {
    let sheet = alike(64, 32, 0, 32).list().bytes();
    let track = |net: u8| if net <= 32 { net - 1 } else { UP };
    let ticket: Vec<u8> = (1..=64).flat_map(|net| [track(net); 32]).collect();
    for net in [1, 2, 31, 32, 33, 64] {
        let track = |other: u8| if other == net { UP } else { track(other) };
        let left: Vec<u8> = (1..=64).flat_map(|other| [track(other); 32]).collect();
        leaves(&sheet, &ticket, net.into(), &left);
    }
    refused(17, &sheet, &ticket, 65, &[0, 2047, 2048]);
    refused(14, &sheet, &ticket, 64, &[0, 2047]);
}

#[test]
fn strangers_to_t() {
    let long = [1, 2, 3].map(|number| 65536 + number);
    let all = [0, 4, 6, 255, 256 + 1, 65535, 65536, 1 << 24, (1 << 31) + 1];
    for net in all.into_iter().chain(long).chain([u32::MAX]) {
        refused(17, &t(), &RIGHT, net, &ROOMS);
        refused(17, &t(), &[UP; 6], net, &ROOMS);
    }
}

#[test]
fn the_first_and_last_number() {
    let mut raw = same_channel(2, 0, 2);
    raw.records[0].number = 65535;
    raw.records[1].number = 0;
    let sheet = raw.bytes();
    leaves(&sheet, &[1, 0], 65535, &[UP, 0]);
    leaves(&sheet, &[1, 0], 0, &[1, UP]);
    for net in [1, 2, 65534, 65536, 65536 + 65535, u32::MAX] {
        refused(17, &sheet, &[1, 0], net, &[0, 1, 2, 3]);
    }
}

#[test]
fn no_nets() {
    let empty = Raw::new(3, 2, 1, 7, Vec::new()).bytes();
    for net in [0, 1, 65535, u32::MAX] {
        refused(17, &empty, &[], net, &[0, 1]);
        refused(10, &empty, &[UP], net, &[0, 1]);
    }
}

#[test]
fn space_alone() {
    for net in [1, 2, 3] {
        refused(14, &t(), &RIGHT, net, &[0, 1, 2, 3, 4, 5]);
        refused(14, &t(), &[UP; 6], net, &[0, 1, 2, 3, 4, 5]);
    }
}

/// Any net, or none, beside a wrong ticket: the ticket's number comes first,
/// also where the fault would go with the net.
#[test]
fn wrong_tickets() {
    let wrong: [(u32, &[u8]); 12] = [
        (10, &[0, 0, 1, 1, 2]),
        (10, &[UP, 0, 1, 1, 2, 2, 2]),
        (11, &[0, 0, 1, 3, 2, 2]),
        (11, &[UP, 0, 1, 1, 2, 2]),
        (11, &[0, UP, 1, 1, 2, 2]),
        (11, &[0, 0, 1, 1, 2, UP]),
        (11, &[UP, UP, UP, 1, 2, 2]),
        (12, &[0, 1, 1, 1, 2, 2]),
        (12, &[UP, UP, 1, 1, 2, 0]),
        (13, &[0, 0, 0, 0, 2, 2]),
        (13, &[2, 2, 1, 1, 2, 2]),
        (13, &[1, 1, UP, UP, 1, 1]),
    ];
    for (number, ticket) in wrong {
        for net in [0, 1, 2, 3, 4, 65536 + 1, u32::MAX] {
            refused(number, &t(), ticket, net, &ROOMS);
        }
    }
}

/// The tickets that Refit refuses are refused with the same number.
#[test]
fn tickets_as_refit_reads_them() {
    let mut seen = 0;
    for case in refusals::cases() {
        let Ask::Refit { old, .. } = &case.ask else {
            continue;
        };
        let Told::Answer { answer, .. } = case.told else {
            unreachable!("Refit gives an answer");
        };
        if (1..=13).contains(&answer.number) || answer.number == 18 {
            refused(answer.number, &case.sheet, old, 1, &ROOMS);
            refused(answer.number, &case.sheet, old, 4, &ROOMS);
            seen += 1;
        }
    }
    assert!(seen > 100, "{seen}");
}

#[test]
fn refused_sheets() {
    for fault in refusals::faults() {
        for ticket in [&RIGHT[..], &[0, 0, 0, 0, 2, 2], &[]] {
            for net in [1, 4, u32::MAX] {
                refused(fault.number, &fault.sheet, ticket, net, &ROOMS);
            }
        }
    }
}

#[test]
fn the_order_of_the_table() {
    let numbers = [
        1, 2, 3, 4, 5, 18, 6, 7, 8, 9, 19, 20, 10, 11, 12, 21, 13, 17, 14, 15, 16,
    ];
    assert_eq!(Word::ORDER.map(Word::number), numbers);
}

/// Refit's answer with any budget, without the trials, and its ticket.
fn refitted(sheet: &[u8], old: &[u8]) -> (Answer, Vec<u8>) {
    let mut out = vec![0; old.len()];
    let answer = model::refit(sheet, &[], old, u32::MAX, &mut out);
    (
        Answer {
            trials: 0,
            ..answer
        },
        out,
    )
}

/// The same where Refit succeeds.
fn success(width: u32, moved: u32) -> Answer {
    Answer {
        width,
        moved,
        ..Answer::default()
    }
}

/// Any two nets share a channel, so two placed ones leave one track for the last.
#[test]
fn the_way_back_on_t() {
    for (net, old, full) in [
        (1, [UP, UP, 1, 1, 2, 2], RIGHT),
        (2, [0, 0, UP, UP, 2, 2], RIGHT),
        (3, [0, 0, 1, 1, UP, UP], RIGHT),
        (2, [0, 0, UP, UP, 1, 1], [0, 0, 2, 2, 1, 1]),
        (1, [UP, UP, 0, 0, 1, 1], [2, 2, 0, 0, 1, 1]),
    ] {
        assert_eq!(refitted(&t(), &old), (success(3, 0), full.to_vec()));
        leaves(&t(), &full, net, &old);
    }
}

/// In m7 a net has moved: taking the new one out does not move it back.
#[test]
fn no_way_back_after_a_move() {
    let sheet = listed(2, &[(1, &[0]), (2, &[1]), (3, &[0, 1])]);
    let told = (success(2, 1), vec![0, 0, 1, 1]);
    assert_eq!(refitted(&sheet, &[0, 1, UP, UP]), told);
    leaves(&sheet, &[0, 0, 1, 1], 3, &[0, 0, UP, UP]);
}

/// Where a record's bytes stand in a ticket.
fn own_bytes(raw: &Raw, place: usize) -> Range<usize> {
    let count = |records: usize| {
        let records = raw.records[..records].iter();
        records.map(|record| record.entries.len()).sum()
    };
    count(place)..count(place + 1)
}

/// Route's ticket without one net: the others can stay, so none is moved.
#[test]
fn the_way_back_on_any_sheet() {
    let mut rng = Rng::new(8);
    let mut seen = 0;
    for _ in 0..600 {
        let design = random::any(&mut rng);
        let raw = design.relist(&mut rng);
        let sheet = raw.bytes();
        let mut old = vec![0; design.entry_count()];
        let routed = model::route(&sheet, &[], 20_000, &mut old);
        if routed.number != 0 || raw.records.is_empty() {
            continue;
        }
        let place = rng.below(raw.records.len());
        old[own_bytes(&raw, place)].fill(UP);
        let (answer, full) = refitted(&sheet, &old);
        assert_eq!(answer, success(raw.width.into(), 0));
        leaves(&sheet, &full, raw.records[place].number, &old);
        seen += 1;
    }
    assert!(seen > 200, "{seen}");
}
