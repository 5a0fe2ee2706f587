//! That what calls show of dead wires is told apart, on sheet T and by hand.

use super::*;
use sheets::dead::list;
use sheets::paper::{same_channel, t_inside_raw, t_raw};
use sheets::Answer;

const NONE: [&str; 0] = [];

fn shown(sheet: &[u8], dead: &[u8], ask: &Ask, outcome: Outcome) -> Vec<&'static str> {
    kinds(Board::new(sheet, dead), Call::Listed(ask), &outcome)
}

fn check(dead: &[u8], ticket: &[u8], number: u32) -> Vec<&'static str> {
    let ask = Ask::Check {
        ticket: ticket.to_vec(),
    };
    shown(&t_raw(0, 3).bytes(), dead, &ask, Outcome::Number(number))
}

fn answer(number: u32, width: u32, trials: u32, output: &[u8]) -> Outcome {
    Outcome::Answer {
        answer: Answer {
            number,
            width,
            trials,
            moved: 0,
        },
        output: output.to_vec(),
    }
}

/// T has channels 0, 1 and 5 of 0 to 6.
#[test]
fn lists_are_told_apart() {
    let right = [0, 0, 1, 1, 2, 2];
    let passed = |wires: &[Wire]| check(&list(wires), &right, 0);
    assert_eq!(passed(&[]), NONE);
    assert_eq!(passed(&[(0, 1)]), [ONE]);
    assert_eq!(passed(&[(0, 1), (1, 3)]), [ONE]);
    assert_eq!(passed(&[(0, 1), (1, 2)]), NONE);
    assert_eq!(passed(&[(2, 1)]), NONE);
    assert_eq!(passed(&[(0, 3), (5, 31)]), [ABOVE]);
    assert_eq!(passed(&[(6, 31)]), NONE);
    assert_eq!(passed(&[(6, 0), (6, 1), (6, 2)]), [CHANNEL]);
    assert_eq!(passed(&[(6, 0), (6, 1), (6, 3)]), NONE);
    // Two of three wires.
    let one = same_channel(1, 0, 3).bytes();
    let ask = Ask::Check { ticket: vec![2] };
    let dead = list(&[(0, 0), (0, 1)]);
    assert_eq!(shown(&one, &dead, &ask, Outcome::Number(0)), [MOST]);
}

#[test]
fn bad_lists_are_told_apart() {
    let right = [0, 0, 1, 1, 2, 2];
    let refused = |number, wires: &[Wire]| check(&list(wires), &right, number);
    assert_eq!(check(&[0], &right, 19), [HALF]);
    assert_eq!(check(&[7, 0, 0, 0], &right, 19), NONE);
    assert_eq!(refused(19, &[(7, 0)]), [CHIP]);
    assert_eq!(refused(19, &[(480, 0)]), NONE);
    assert_eq!(refused(19, &[(6, 32)]), [TRACK]);
    assert_eq!(refused(19, &[(6, 32), (7, 0)]), NONE);
    assert_eq!(refused(19, &[(6, 32), (6, 32)]), [TRACK, BOTH]);
    assert_eq!(refused(20, &[(6, 2), (6, 2)]), NONE);
    assert_eq!(refused(20, &[(6, 2), (0, 2), (6, 2)]), [APART]);
    assert_eq!(refused(20, &[(6, 3), (6, 3)]), [HIGH]);
    let both = [(6, 3), (6, 3), (0, 0), (1, 0), (0, 0)];
    assert_eq!(refused(20, &both), NONE);
    assert_eq!(check(&[0], &right[1..], 19), [HALF, SIZE[0]]);
    let short = Ask::Route { budget: 0, room: 5 };
    let t = t_raw(0, 3).bytes();
    let twice = list(&[(6, 2), (6, 2)]);
    let given = |number| answer(number, 0, 0, &[]);
    assert_eq!(shown(&t, &twice, &short, given(20)), [SPACE[1]]);
    let mut named = t_raw(0, 3);
    named.records[0].number = 2;
    let named = named.bytes();
    assert_eq!(shown(&named, &twice, &short, given(9)), [NAME[1]]);
    assert_eq!(shown(&named, &[1], &short, given(9)), [NAME[0]]);
    assert_eq!(shown(&named, &list(&[(6, 2)]), &short, given(9)), NONE);
}

#[test]
fn tickets_are_told_apart() {
    let dead = list(&[(0, 0), (5, 3)]);
    assert_eq!(check(&dead, &[0, 0, 1, 1, 2, 3], 11), [TICKET[0]]);
    assert_eq!(check(&dead, &[1, 1, 0, 0, 2, 3], 11), NONE);
    assert_eq!(check(&dead, &[0, 1, 1, 1, 2, 2], 12), [TICKET[1]]);
    assert_eq!(check(&dead, &[1, 2, 1, 1, 2, 2], 12), NONE);
    assert_eq!(check(&dead, &[0, 0, 0, 0, 2, 2], 21), [TICKET[2]]);
    assert_eq!(check(&dead, &[0, 0, 1, 1, 2, 2], 21), NONE);
    let refit = |old: &[u8], room| {
        let ask = Ask::Refit {
            old: old.to_vec(),
            budget: 9,
            room,
        };
        shown(&t_raw(0, 3).bytes(), &dead, &ask, answer(21, 0, 0, &[]))
    };
    assert_eq!(refit(&[0, 0, 1, 1, 255, 255], 6), NONE);
    assert_eq!(refit(&[0, 0, 1, 1, 255, 255], 5), [BROKEN_SPACE]);
}

#[test]
fn searches_are_told_apart() {
    let two = same_channel(2, 0, 2).bytes();
    let route = Ask::Route { budget: 9, room: 2 };
    let least = Ask::Least { budget: 9, room: 2 };
    let none = |trials| answer(15, 0, trials, &[7, 7]);
    let dead = list(&[(0, 1)]);
    assert_eq!(shown(&two, &dead, &route, none(0)), [LOST]);
    assert_eq!(shown(&two, &dead, &route, none(4)), NONE);
    let three = same_channel(3, 0, 2).bytes();
    assert_eq!(shown(&three, &dead, &route, none(0)), NONE);
    assert_eq!(shown(&three, &dead, &least, none(0)), [LOST]);
    // Width 3, as 0.1 is dead; then with W 1, below it.
    let found = || answer(0, 3, 4, &[0, 2]);
    assert_eq!(shown(&two, &dead, &least, found()), [ONE, HOME]);
    let narrow = same_channel(2, 0, 1).bytes();
    assert_eq!(shown(&narrow, &dead, &least, found()), [ONE, HOME, WIDER]);
    // T inside, kind 2: left 2 is top 0, right i is top i. 17.0 is dead, so that net
    // 2 passed over its track 0; net 3 would be there on track 2.
    let inside = t_inside_raw(2, 3).bytes();
    let route = Ask::Route { budget: 9, room: 6 };
    let passed = |ticket: &[u8]| {
        let found = answer(0, 3, 9, ticket);
        shown(&inside, &list(&[(17, 0)]), &route, found)
    };
    assert_eq!(passed(&[0, 0, 2, 2, 1, 1]), [ONE, AWAY]);
    assert_eq!(passed(&[2, 2, 0, 0, 1, 1]), [ONE]);
}
