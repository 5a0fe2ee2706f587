//! That what calls show of the rim is told apart, with tickets by hand.

use super::*;
use sheets::paper::{t_design, t_inside_design};
use sheets::rows::ENDS;
use sheets::{Answer, Design, Grid, Net, Raw};

const NONE: [&str; 0] = [];

fn check(sheet: &Raw, ticket: &[u8], number: u32) -> Vec<&'static str> {
    let ask = Ask::Check {
        ticket: ticket.to_vec(),
    };
    kinds(&sheet.bytes(), Call::Listed(&ask), &Outcome::Number(number))
}

/// T at W 2 on the rim, and T inside with m4's ticket.
#[test]
fn boxes_are_told_apart() {
    let equal = [0, 0, 1, 1, 1, 1];
    let turned = [0, 0, 1, 1, 1, 0];
    let rim = |kind| t_design(kind, 2).list();
    let inside = |kind| t_inside_design(kind, 2).list();
    assert_eq!(check(&rim(2), &equal, 0), [PASSED[1][1]]);
    assert_eq!(check(&inside(2), &turned, 0), [PASSED[1][2]]);
    assert_eq!(check(&rim(0), &equal, 0), NONE);
    // A 12 that no joint explains shows nothing.
    assert_eq!(check(&rim(2), &equal, 12), NONE);
    assert_eq!(check(&inside(2), &turned, 12), NONE);
    assert_eq!(check(&inside(0), &equal, 0), NONE);
    // Net 1 runs from left to right, where tables have equal tracks.
    let first = |kind| {
        let net = vec![Net::chain(1, &[3, 4])];
        Design::new(Grid::new(4, 4), kind, 2, net).list()
    };
    assert_eq!(check(&first(1), &[1, 1], 0), NONE);
    let corner = Design::new(Grid::new(4, 4), 1, 2, vec![Net::chain(1, &[0, 12])]);
    assert_eq!(check(&corner.clone().list(), &[1, 1], 0), [PASSED[0][0]]);
    // At width 1 all tracks are equal.
    assert_eq!(check(&corner.with_width(1).list(), &[0, 0], 0), NONE);
}

/// Right 1 is top 1 and left 1 is top 0 with kind 2 at W 2.
#[test]
fn twelves_are_told_apart() {
    let rim = t_design(2, 2).list();
    let inside = t_inside_design(2, 2).list();
    assert_eq!(check(&rim, &[0, 0, 1, 1, 1, 0], 12), [ON_RIM[1]]);
    assert_eq!(check(&inside, &[0, 0, 1, 1, 1, 1], 12), [INSIDE[1]]);
    // Net 2 is wrong by both.
    assert_eq!(check(&rim, &[0, 0, 1, 0, 1, 0], 12), NONE);
    assert_eq!(check(&inside, &[0, 0, 1, 0, 1, 1], 12), NONE);
    assert_eq!(check(&inside, &[0, 0, 0, 0, 1, 0], 13), NONE);
}

#[test]
fn written_and_lent_tracks() {
    let inside = t_inside_design(2, 2).list().bytes();
    let ticket = vec![0, 0, 1, 1, 1, 0];
    let answer = |number, width| Answer {
        number,
        width,
        trials: 5,
        moved: 0,
    };
    let (budget, room) = (9, 7);
    let least = Ask::Least { budget, room };
    let found = |number, width| Outcome::Answer {
        answer: answer(number, width),
        output: [&ticket[..], &[9]].concat(),
    };
    let shown = |ask: &Ask, outcome: &Outcome| kinds(&inside, Call::Listed(ask), outcome);
    assert_eq!(shown(&least, &found(0, 2)), [PASSED[1][2]]);
    assert_eq!(shown(&least, &found(15, 0)), NONE);
    let remove = |ticket: &[u8]| Ask::Remove {
        ticket: ticket.to_vec(),
        net: 1,
        room: 6,
    };
    let left = |number| Outcome::Written {
        number,
        output: vec![0; 6],
    };
    assert_eq!(shown(&remove(&ticket), &left(0)), [PASSED[1][2]]);
    assert_eq!(shown(&remove(&ticket), &left(17)), NONE);
    // Net 3, the one that turns, is unplaced.
    let partly = [0, 0, 1, 1, 255, 255];
    assert_eq!(shown(&remove(&partly), &left(0)), NONE);
}

#[test]
fn turns_are_told_apart() {
    let on_4_by_4 = |channels: &[u16]| {
        let net = vec![Net::chain(1, channels)];
        Design::new(Grid::new(4, 4), 1, 2, net).list().bytes()
    };
    assert!(turns_inside(&on_4_by_4(&[3, 4, 17])));
    assert!(!turns_inside(&on_4_by_4(&[3, 4, 5])));
    assert!(!turns_inside(&on_4_by_4(&[13, 17])));
    assert!(!turns_inside(&on_4_by_4(&[0, 13])));
    assert!(!turns_inside(&t_design(1, 2).list().bytes()));
    assert!(!turns_inside(&[]));
}

#[test]
fn unused_rows() {
    let read = |number| Outcome::Counts {
        number,
        nets: 0,
        entries: 0,
    };
    let part = |length| Outcome::Part { offset: 0, length };
    let record = Ask::Record { place: 9 };
    let shown = |sheet: &Raw, ask, outcome| kinds(&sheet.bytes(), Call::Listed(ask), &outcome);
    let mut rim = t_design(0, 3).with_rows(ENDS).list();
    let inside = t_inside_design(0, 3).with_rows(ENDS).list();
    assert_eq!(shown(&rim, &Ask::Read, read(0)), [UNUSED]);
    assert_eq!(shown(&rim, &record, part(12)), [UNUSED]);
    assert_eq!(shown(&rim, &record, part(0)), NONE);
    assert_eq!(shown(&inside, &Ask::Read, read(0)), NONE);
    assert_eq!(shown(&t_design(1, 3).list(), &Ask::Read, read(0)), NONE);
    rim.row_bytes[3] = 32;
    assert_eq!(shown(&rim, &Ask::Read, read(18)), [UNUSED_18]);
    assert_eq!(shown(&rim, &record, part(0)), [UNUSED_18]);
    assert_eq!(shown(&rim, &Ask::Read, read(5)), NONE);
}
