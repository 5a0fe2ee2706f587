//! More calls by hand: nets from the rim to an inner box, nets with three channels
//! at one box, and long ones.

use super::asks::{check, least, refit, remove, route, sheet};
use crate::case::{Case, Told};
use crate::design::Net;
use crate::grid::Grid;

const UP: u8 = 255;

pub fn cases() -> Vec<Case> {
    let mut all = up_from_the_rim();
    all.extend(moved());
    all.extend(stars());
    all.extend(along());
    all
}

/// On 4 by 4, net 3 goes from channel 0 over the rim box (1, 0), left to top, to 13
/// and through the inner box (1, 1), bottom to right, to 4. Nets 1 and 2 are in its
/// first and last channel.
fn up_at(kind: u8, width: u8) -> Vec<u8> {
    let nets = [
        Net::chain(1, &[0]),
        Net::chain(2, &[4]),
        Net::chain(3, &[0, 13, 4]),
    ];
    sheet(Grid::new(4, 4), kind, width, &nets)
}

/// W 3. Nets 1 and 2 take 0 (2), net 3 finds 0.0 held (3). With 0.1 it has 4.1 by
/// kinds 0 and 2 (4). By kind 1 right 0 is bottom 4 mod 3, by kind 3 31 mod 3, both
/// 1: it finds 4.0 held (4) and takes 0.2, which is right 2 by kind 1, as 4 − 2 is
/// 2, and right 1 by kind 3 (5). Least: at width 2, kinds 0 and 1 have 4.1 with 0.1
/// (4); kinds 2 and 3 have 4.0, so that net 2 has to take 1: net 3 fails (4), net 2
/// takes 4.1 (5), net 3 finds 0.0 held (6) and takes 0.1 (7).
fn up_from_the_rim() -> Vec<Case> {
    let mut all = Vec::new();
    for (kind, trials, ticket) in [
        (0, 4, [0, 0, 1, 1, 1]),
        (1, 5, [0, 0, 2, 2, 2]),
        (2, 4, [0, 0, 1, 1, 1]),
        (3, 5, [0, 0, 2, 2, 1]),
    ] {
        let name = format!("up from the rim, kind {kind}");
        let told = Told::found(3, trials, 0, &ticket);
        all.push(Case::new(name, up_at(kind, 3), route(trials), told));
    }
    for (kind, trials, ticket) in [
        (0, 4, [0, 0, 1, 1, 1]),
        (1, 4, [0, 0, 1, 1, 1]),
        (2, 7, [0, 1, 1, 1, 0]),
        (3, 7, [0, 1, 1, 1, 0]),
    ] {
        let name = format!("up from the rim, kind {kind}, least");
        let told = Told::found(2, trials, 0, &ticket);
        all.push(Case::new(name, up_at(kind, 3), least(trials), told));
    }
    all
}

/// W 2, nets 1 and 2 on 0, net 3 not placed. Kinds 0 and 1: it finds 0.0 held (3)
/// and takes 0.1 and 4.1 (4). Kinds 2 and 3: it finds 4.0 held with 0.1 too (4),
/// and 1 is a change for net 2 (5) and for net 1 (6). Round 1: the same 4 (10), net
/// 2 moves to 1 (11), net 3 finds 0.0 held (12) and takes 0.1, 13.1 and 4.0 (13).
///
/// An old net 3 with equal tracks is right by kinds 0 and 1 alone.
fn moved() -> Vec<Case> {
    let old = [0, 0, UP, UP, UP];
    let equal = [UP, UP, 1, 1, 1];
    let mut all = Vec::new();
    for kind in 0..4 {
        let name = format!("moved, kind {kind}");
        let sheet = || up_at(kind, 2);
        let mut add = |case: Case| all.push(case);
        if kind < 2 {
            let told = Told::found(2, 4, 0, &[0, 0, 1, 1, 1]);
            add(Case::new(&*name, sheet(), refit(&old, 4), told));
            let told = Told::Ticket {
                number: 0,
                written: equal.to_vec(),
            };
            add(Case::new(name, sheet(), remove(&equal, 1), told));
        } else {
            let told = Told::found(2, 13, 1, &[0, 1, 1, 1, 0]);
            add(Case::new(&*name, sheet(), refit(&old, 13), told));
            let spent = Told::refusal(&route(0), 16, 12);
            add(Case::new(&*name, sheet(), refit(&old, 12), spent));
            add(Case::refused(&*name, sheet(), refit(&equal, 99), 12));
            add(Case::refused(name, sheet(), remove(&equal, 1), 12));
        }
    }
    all
}

/// Three channels of one box, joined to the first, on 3 by 3: of the middle box, left
/// 2 with right 3 and top 10, and of the rim box (1, 0), left 0 with right 1 and top
/// 7. Another net has track 0 of the first, so they take track 1 of it in trial 3.
/// Those of the net are three in both, those of the chip are not.
fn stars() -> Vec<Case> {
    let at = |kind, width, channels: [u16; 3]| {
        let nets = [Net::chain(1, &channels[..1]), Net::star(2, &channels)];
        sheet(Grid::new(3, 3), kind, width, &nets)
    };
    let told = |width: u8, ticket: [u8; 4]| Told::found(width.into(), 3, 0, &ticket);
    let mut all = Vec::new();
    for (kind, width, ticket) in [
        (0, 3, [0, 1, 1, 1]),
        (1, 3, [0, 1, 1, 2]),
        (2, 4, [0, 1, 1, 2]),
        (3, 3, [0, 1, 2, 0]),
    ] {
        let inner = at(kind, width, [2, 3, 10]);
        let name = format!("star inside, kind {kind}");
        all.push(Case::new(name, inner, route(3), told(width, ticket)));
        let rim = at(kind, width, [0, 1, 7]);
        let name = format!("star on the rim, kind {kind}");
        let equal = told(width, [0, 1, 1, 1]);
        all.push(Case::new(name, rim, route(3), equal));
    }
    all
}

/// On 5 by 3, W 5: channels 4 to 7 run through the three inner boxes, then 21 goes up
/// at the rim box (4, 1), 11 back from the corner and 10 on over the rim box (3, 2).
/// Left and right are equal but for kind 3, which adds 1 three times. Channels 0 to 3
/// run along the rim.
fn along() -> Vec<Case> {
    let at = |kind, channels: &[u16]| sheet(Grid::new(5, 3), kind, 5, &[Net::chain(1, channels)]);
    let mut all = Vec::new();
    for kind in 0..4 {
        let name = format!("along, kind {kind}");
        let inside = || at(kind, &[4, 5, 6, 7, 21, 11, 10]);
        let mut add = |sheet, ask, told| all.push(Case::new(&*name, sheet, ask, told));
        let added = [0, 1, 2, 3, 3, 3, 3];
        let equal = [0; 7];
        let (right, wrong) = match kind {
            3 => (added, equal),
            _ => (equal, added),
        };
        add(inside(), route(1), Told::found(5, 1, 0, &right));
        add(inside(), least(1), Told::found(1, 1, 0, &equal));
        let more = right.map(|track| (track + 2) % 5);
        add(inside(), check(&more), Told::Number(0));
        add(inside(), check(&wrong), Told::Number(12));
        let rim = || at(kind, &[0, 1, 2, 3]);
        add(rim(), route(1), Told::found(5, 1, 0, &[0; 4]));
        add(rim(), check(&[2; 4]), Told::Number(0));
        add(rim(), check(&[0, 1, 2, 3]), Told::Number(12));
    }
    all
}
