//! Lists that pass: wires just inside the limits, wires that no net can hold, and
//! wires that only look alike. Sheet T, W 3, is answered as without them.

use super::{list, Wire};
use crate::case::{Ask, Case, Told};
use crate::paper::{same_channel, t_raw};
use crate::raw::{Raw, Record, ROOT};

const RIGHT: [u8; 6] = [0, 0, 1, 1, 2, 2];

pub fn cases() -> Vec<Case> {
    let mut all = Vec::new();
    for (name, wires) in unused() {
        all.extend(as_without(name, &wires));
    }
    all.extend(last_wire());
    all.extend(large_chip());
    all.extend(no_nets());
    all
}

/// Every track of these, in each of these channels.
fn block(channels: &[u16], tracks: std::ops::Range<u8>) -> Vec<Wire> {
    let of_channel = |&channel: &u16| tracks.clone().map(move |track| (channel, track));
    channels.iter().flat_map(of_channel).collect()
}

/// T has channels 0, 1 and 5 of the chip's 0 to 6, and W is 3.
fn unused() -> Vec<(&'static str, Vec<Wire>)> {
    vec![
        ("no dead wire", vec![]),
        ("6.31", vec![(6, 31)]),
        ("0.31", vec![(0, 31)]),
        ("0.3, the first at W", vec![(0, 3)]),
        ("6.0", vec![(6, 0)]),
        (
            "channel and track exchanged",
            vec![(2, 0), (0, 5), (5, 6), (6, 5)],
        ),
        (
            "one channel, other tracks",
            vec![(6, 0), (6, 1), (6, 2), (6, 3)],
        ),
        (
            "one track, other channels",
            vec![(2, 0), (3, 0), (4, 0), (6, 0)],
        ),
        ("all at or above W", block(&[0, 1, 2, 3, 4, 5, 6], 3..32)),
        ("all of other channels", block(&[2, 3, 4, 6], 0..32)),
    ]
}

/// The wires touch no net of T: m3's and m6's answers, and REFIT's of one that is
/// unplaced: net 1 takes 0 (trial 1), net 2 may not take 0 and takes 1 (3), net 3
/// finds 0 and 1 held and takes 2 (6).
fn as_without(name: &str, wires: &[Wire]) -> Vec<Case> {
    let dead = list(wires);
    let t = || t_raw(0, 3).bytes();
    let ticket = RIGHT.to_vec();
    let refit = Ask::Refit {
        old: vec![0, 0, 1, 1, 255, 255],
        budget: 6,
        room: 6,
    };
    let least = |budget| Ask::Least { budget, room: 6 };
    let found = |trials| Told::found(3, trials, 0, &RIGHT);
    let route = Ask::Route { budget: 6, room: 7 };
    let mut all = vec![
        Case::new(name, t(), Ask::Check { ticket }, Told::Number(0)),
        Case::new(name, t(), route, found(6)),
        Case::new(name, t(), refit, found(6)),
    ];
    // Of 0.3 and the like Least sees nothing below width 4.
    all.push(Case::new(name, t(), least(16), found(16)));
    let under = |case: Case| case.under(&dead);
    all.into_iter().map(under).collect()
}

/// 6.31 is good at every W; at W 32 it is the last wire of all, and dead.
fn last_wire() -> Vec<Case> {
    let dead = list(&[(6, 31)]);
    let mut all = Vec::new();
    for width in [1, 2, 3, 31, 32] {
        let sheet = || same_channel(1, 6, width).bytes();
        let check = |track| Ask::Check {
            ticket: vec![track],
        };
        let name = format!("6.31, W {width}");
        all.push(Case::new(&*name, sheet(), check(0), Told::Number(0)));
        let number = if width == 32 { 21 } else { 11 };
        all.push(Case::refused(&*name, sheet(), check(31), number));
        let found = Told::found(width.into(), 1, 0, &[0]);
        let route = Ask::Route { budget: 1, room: 1 };
        all.push(Case::new(name, sheet(), route, found));
    }
    all.into_iter().map(|case| case.under(&dead)).collect()
}

/// Channels of the 16 by 16 chip with one low byte are two: 1 and 257 are no repeat,
/// and the net in 257 does not hold a wire of 1. All 15,360 wires are a good list.
fn large_chip() -> Vec<Case> {
    let sheet = |channel| {
        let net = Record::new(1, &[(channel, ROOT)]);
        Raw::new(16, 16, 0, 2, vec![net]).bytes()
    };
    let check = || Ask::Check { ticket: vec![0] };
    let route = || Ask::Route { budget: 9, room: 1 };
    let two = list(&[(1, 0), (257, 0)]);
    let one = list(&[(1, 0)]);
    let last = list(&[(479, 31), (479, 0)]);
    let every: Vec<u16> = (0..480).collect();
    let all_wires = list(&block(&every, 0..32));
    let passed = |case: Case, dead: &[u8]| case.under(dead);
    let moved_on = || Told::found(2, 2, 0, &[1]);
    let none = || Told::refusal(&route(), 15, 0);
    vec![
        passed(Case::refused("1 and 257", sheet(257), check(), 21), &two),
        passed(
            Case::new("1 and 257", sheet(257), route(), moved_on()),
            &two,
        ),
        passed(
            Case::new("1 for 257", sheet(257), check(), Told::Number(0)),
            &one,
        ),
        passed(Case::refused("479", sheet(479), check(), 21), &last),
        passed(Case::new("479", sheet(479), route(), moved_on()), &last),
        passed(
            Case::new("all 15,360 wires", sheet(479), route(), none()),
            &all_wires,
        ),
        passed(
            Case::refused("all 15,360 wires", sheet(0), check(), 21),
            &all_wires,
        ),
    ]
}

/// Without nets no wire is missed: no trial, and width 1.
fn no_nets() -> Vec<Case> {
    let sheet = || Raw::new(3, 2, 0, 4, Vec::new()).bytes();
    let dead = list(&block(&[0, 1, 2, 3, 4, 5, 6], 0..32));
    let refit = Ask::Refit {
        old: Vec::new(),
        budget: 0,
        room: 0,
    };
    let check = Ask::Check { ticket: Vec::new() };
    let (route, least) = (
        Ask::Route { budget: 0, room: 0 },
        Ask::Least { budget: 0, room: 0 },
    );
    let name = "no nets, all wires dead";
    let all = [
        Case::new(name, sheet(), check, Told::Number(0)),
        Case::new(name, sheet(), route, Told::found(4, 0, 0, &[])),
        Case::new(name, sheet(), least, Told::found(1, 0, 0, &[])),
        Case::new(name, sheet(), refit, Told::found(4, 0, 0, &[])),
    ];
    all.map(|case| case.under(&dead)).to_vec()
}
