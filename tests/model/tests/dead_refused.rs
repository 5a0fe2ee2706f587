//! 02 M-105: 19 (list), 20 (repeat) and 21 (broken), alone and beside the numbers
//! that stand around them: 9, 19, 20, 10, 11, 12, 21, 13, 14.

mod lists;

use lists::{block, list};
use model::Answer;
use sheets::paper::{t_inside_raw, t_raw};
use sheets::{refusals, Raw};

const UP: u8 = 255;
const RIGHT: [u8; 6] = [0, 0, 1, 1, 2, 2];

/// Sheet T, kind 0, W 3.
fn t() -> Vec<u8> {
    t_raw(0, 3).bytes()
}

/// What a refused search gives: every other result is 0.
fn refused(number: u32) -> Answer {
    Answer {
        number,
        ..Answer::default()
    }
}

/// A search that is refused, whatever the budget and the room, and writes nothing.
fn search(number: u32, rooms: &[usize], call: impl Fn(u32, &mut [u8]) -> Answer) {
    for &room in rooms {
        for budget in [0, 1, 1000, u32::MAX] {
            let mut out = vec![77; room];
            assert_eq!(call(budget, &mut out), refused(number), "room {room}");
            assert!(out.iter().all(|&byte| byte == 77));
        }
    }
}

/// Outputs that are too short for T, and long enough.
const ROOMS: [usize; 5] = [0, 1, 5, 6, 40];

/// All four calls give this number, whatever the ticket.
fn all_calls(number: u32, sheet: &[u8], dead: &[u8], tickets: &[&[u8]]) {
    search(number, &ROOMS, |b, out| model::route(sheet, dead, b, out));
    search(number, &ROOMS, |b, out| model::least(sheet, dead, b, out));
    for ticket in tickets {
        with_ticket(number, sheet, dead, ticket);
    }
}

/// Check and Refit give this number.
fn with_ticket(number: u32, sheet: &[u8], dead: &[u8], ticket: &[u8]) {
    let given = model::check(sheet, dead, ticket);
    assert_eq!(given, number, "{dead:?} {ticket:?}");
    old(number, sheet, dead, ticket);
}

/// Refit gives this number.
fn old(number: u32, sheet: &[u8], dead: &[u8], old: &[u8]) {
    search(number, &ROOMS, |b, out| {
        model::refit(sheet, dead, old, b, out)
    });
}

/// A right ticket, and one of each of 10, 11, 12 and 13.
const TICKETS: [&[u8]; 6] = [
    &RIGHT,
    &[],
    &[0, 0, 1, 1, 2, 2, 2],
    &[0, 0, 1, 1, 2, 3],
    &[0, 1, 1, 1, 2, 2],
    &[0, 0, 0, 0, 2, 2],
];

/// Lists that get 19 on T's chip, which has channels 0 to 6. 263 is 7 + 256: both
/// bytes of a channel count.
fn bad_lists() -> Vec<Vec<u8>> {
    let good = list(&[(0, 2), (6, 31)]);
    let mut all = vec![
        vec![0],
        vec![0, 0],
        vec![0, 0, 0, 0],
        vec![255; 5],
        list(&[(7, 0)]),
        list(&[(256, 0)]),
        list(&[(263, 0)]),
        list(&[(65535, 0)]),
        list(&[(0, 32)]),
        list(&[(6, 255)]),
        list(&[(7, 32)]),
        list(&[(480, 31)]),
    ];
    let alone = all.clone();
    all.extend(alone.iter().map(|bad| [&good[..], bad].concat()));
    // Before good items a torn list is still torn, the others have their fault.
    all.extend(alone.iter().map(|bad| [&bad[..], &good].concat()));
    all.push(good[..5].to_vec());
    all.push(good[..4].to_vec());
    all
}

/// Lists that get 20: side by side, apart, at the width, above it, all thrice.
fn repeats() -> Vec<Vec<u8>> {
    let two = list(&block(0, 6, 0..32));
    vec![
        list(&[(0, 0), (0, 0)]),
        list(&[(6, 2), (0, 0), (3, 1), (6, 2)]),
        list(&[(0, 3), (1, 0), (0, 3)]),
        list(&[(4, 31), (4, 31)]),
        [&two[..], &two, &two].concat(),
        [&two[..], &two[..3]].concat(),
    ]
}

#[test]
fn list_alone_and_before_the_ticket() {
    for dead in bad_lists() {
        all_calls(19, &t(), &dead, &TICKETS);
    }
}

#[test]
fn repeat_alone_and_before_the_ticket() {
    for dead in repeats() {
        all_calls(20, &t(), &dead, &TICKETS);
    }
}

/// Both faults in one list.
#[test]
fn list_before_repeat() {
    let repeat = list(&[(2, 1), (2, 1)]);
    for bad in bad_lists() {
        all_calls(19, &t(), &[&repeat[..], &bad].concat(), &TICKETS);
        if bad.len() % 3 == 0 {
            all_calls(19, &t(), &[&bad[..], &repeat].concat(), &TICKETS);
            // A bad item that stands twice is 19 all the same.
            all_calls(19, &t(), &[&bad[..], &bad].concat(), &TICKETS);
        }
    }
}

/// Wires that differ in one of the three bytes are no repeat, and 31 is the last
/// track at every width.
#[test]
fn good_lists() {
    for width in [1, 3, 32] {
        let sheet = t_raw(0, width).bytes();
        for dead in [
            list(&[(6, 31)]),
            list(&[(2, 0), (2, 1), (3, 0), (3, 1)]),
            list(&block(6, 6, 0..32)),
        ] {
            assert_eq!(model::check(&sheet, &dead, &[]), 10);
        }
    }
    // Channels 2 and 258 differ in the high byte alone.
    let large = Raw::new(16, 16, 0, 1, Vec::new()).bytes();
    assert_eq!(model::check(&large, &list(&[(2, 0), (258, 0)]), &[]), 0);
    assert_eq!(model::check(&large, &list(&[(479, 31)]), &[]), 0);
    assert_eq!(model::check(&large, &list(&[(480, 31)]), &[]), 19);
}

/// The last channel of chips of all sizes, B·(A−1)+A·(B−1) − 1.
#[test]
fn the_last_channel() {
    for (a, b) in (2..=16).flat_map(|a| (2..=16).map(move |b| (a, b))) {
        let sheet = Raw::new(a, b, 0, 1, Vec::new()).bytes();
        let (a, b) = (u16::from(a), u16::from(b));
        let count = b * (a - 1) + a * (b - 1);
        assert_eq!(model::check(&sheet, &list(&[(count - 1, 0)]), &[]), 0);
        assert_eq!(model::check(&sheet, &list(&[(count, 0)]), &[]), 19);
    }
}

/// Any fault of a sheet, 1 to 9 and 18, comes before 19, 20 and 21.
#[test]
fn sheets_come_first() {
    let lists = [vec![0], list(&[(0, 40)]), list(&[(0, 0), (0, 0)])];
    for fault in refusals::faults() {
        for dead in lists.iter().chain([&vec![], &list(&block(0, 1, 0..32))]) {
            all_calls(fault.number, &fault.sheet, dead, &[&RIGHT, &[]]);
        }
    }
}

/// Wires of `RIGHT` on T: each makes it broken, others do not.
#[test]
fn broken_alone() {
    let held = [(0, 0), (1, 0), (1, 1), (5, 1), (0, 2), (5, 2)];
    for wire in block(0, 6, 0..32) {
        let dead = list(&[wire]);
        if held.contains(&wire) {
            with_ticket(21, &t(), &dead, &RIGHT);
        } else {
            assert_eq!(model::check(&t(), &dead, &RIGHT), 0, "{wire:?}");
        }
    }
    // In a box of four channels, 01 m5 inside: 3.0 4.0, 4.1 17.0, 3.1 17.1.
    let sheet = t_inside_raw(1, 2).bytes();
    for wire in block(0, 23, 0..32) {
        let number = if [3, 4, 17].contains(&wire.0) && wire.1 < 2 {
            21
        } else {
            0
        };
        let ticket = [0, 0, 1, 0, 1, 1];
        assert_eq!(model::check(&sheet, &list(&[wire]), &ticket), number);
    }
}

/// All wires are dead, so every ticket is on a broken one: 10, 11 and 12 come first,
/// 13, 14, 15 and 16 after. T is overloaded then.
#[test]
fn broken_beside_others() {
    let dead = list(&block(0, 6, 0..32));
    with_ticket(10, &t(), &dead, &[0, 0, 1, 1, 2]);
    with_ticket(10, &t(), &dead, &[]);
    with_ticket(11, &t(), &dead, &[0, 0, 1, 1, 2, 3]);
    with_ticket(11, &t(), &dead, &[0, 0, 31, 31, 2, 2]);
    with_ticket(11, &t(), &dead, &[0, 0, UP, 1, 2, 2]);
    with_ticket(12, &t(), &dead, &[0, 0, 1, 1, 2, 1]);
    with_ticket(21, &t(), &dead, &RIGHT);
    with_ticket(21, &t(), &dead, &[0, 0, 0, 0, 0, 0]);
    // 12 in a net that is on no broken wire, 21 in an earlier one; 13 between two
    // that are not, 21 in the third.
    let dead = list(&[(0, 0)]);
    with_ticket(12, &t(), &dead, &[0, 0, 1, 1, 2, 1]);
    with_ticket(21, &t(), &list(&[(0, 2)]), &[1, 1, 1, 1, 2, 2]);
    with_ticket(21, &t(), &list(&[(5, 2)]), &[1, 1, 1, 1, 2, 2]);
    with_ticket(13, &t(), &list(&[(0, 0)]), &[1, 1, 1, 1, 2, 2]);
}

/// Refit's 21 looks at placed nets.
#[test]
fn broken_where_placed() {
    let dead = list(&[(0, 0)]);
    old(21, &t(), &dead, &[0, 0, UP, UP, UP, UP]);
    old(21, &t(), &dead, &[UP, UP, UP, UP, 0, 0]);
    old(21, &t(), &dead, &[0, 0, 1, 1, UP, UP]);
    let fine = [UP, UP, 0, 0, UP, UP];
    let mut out = [77; 6];
    let answer = model::refit(&t(), &dead, &fine, 1000, &mut out);
    // Net 1: 0 broken, 1 (2). Net 2 keeps 0 (3). Net 3: 0 broken, 1 held, 2 (6).
    assert_eq!((answer.number, answer.trials, answer.moved), (0, 6, 0));
    assert_eq!(out, [1, 1, 0, 0, 2, 2]);
    // Check has no unplaced nets.
    assert_eq!(model::check(&t(), &dead, &fine), 11);
}

/// 14 comes after the list and, in Refit, after 21, and before 15 and 16.
#[test]
fn space_beside_lists() {
    let dead = list(&block(0, 6, 0..32));
    let short = [0, 1, 5];
    search(14, &short, |b, out| model::route(&t(), &dead, b, out));
    search(14, &short, |b, out| model::least(&t(), &dead, b, out));
    search(14, &short, |b, out| {
        model::refit(&t(), &dead, &[UP; 6], b, out)
    });
    search(15, &[6, 9], |b, out| model::route(&t(), &dead, b, out));
    search(15, &[6, 9], |b, out| model::least(&t(), &dead, b, out));
    search(15, &[6, 9], |b, out| {
        model::refit(&t(), &dead, &[UP; 6], b, out)
    });
}
