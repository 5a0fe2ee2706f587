//! Numbers 10 to 13 where boxes turn tracks: sheet T on the 4 by 4 chip, W 3. Net 1
//! has channels 3 and 4, left and right of an inner box, net 2 has 4 and 17, the
//! top, net 3 has 3 and 17. On T's own chip no box turns tracks, 02 M-104.

use super::tickets::{refused, Wrong};
use crate::case::{Ask, Case, Told};
use crate::paper::{t_inside_raw, t_raw};

const UP: u8 = 255;

/// Kind 1: left and right are equal, right i is top i − 1, left 0 1 2 are top 0 2 1.
const WILTON: [Wrong; 13] = [
    (12, "net 1 apart", &[0, 2, 1, 0, 1, 2]),
    (12, "net 2 equal", &[0, 0, 1, 1, 1, 2]),
    (12, "net 2 from its other end", &[0, 0, 1, 2, 2, 1]),
    (12, "net 3 equal", &[0, 0, 1, 0, 1, 1]),
    (12, "all equal", &[0, 0, 1, 1, 2, 2]),
    (13, "nets 1 and 2 on 4.0", &[0, 0, 0, 2, 2, 1]),
    (13, "nets 1 and 3 on 3.1", &[1, 1, 2, 1, 1, 2]),
    (13, "nets 2 and 3 on 17.0", &[2, 2, 1, 0, 0, 0]),
    (10, "10 and 12", &[0, 0, 1, 1, 1]),
    (11, "11 and 12", &[0, 0, 1, 1, 1, 3]),
    (11, "11 and 13", &[0, 0, 0, 2, 3, 1]),
    (12, "12 and 13", &[0, 0, 0, 0, 1, 2]),
    (12, "12 and 13, all on 1", &[1, 1, 1, 1, 1, 1]),
];

const WILTON_UNPLACED: [Wrong; 3] = [
    (12, "net 2 equal, net 1 unplaced", &[UP, UP, 1, 1, 1, 2]),
    (13, "nets 2 and 3, net 1 unplaced", &[UP, UP, 1, 0, 0, 0]),
    (11, "net 2 half unplaced", &[0, 0, 1, UP, 1, 2]),
];

/// Kind 2: left and right are equal, so are right and top, left 0 1 2 are top 2 1 0.
const UNIVERSAL: [Wrong; 12] = [
    (12, "net 1 apart", &[0, 2, 1, 1, 2, 0]),
    (12, "net 2 apart", &[0, 0, 1, 2, 2, 0]),
    (12, "net 3 equal", &[0, 0, 1, 1, 2, 2]),
    (13, "nets 1 and 2 on 4.2", &[2, 2, 2, 2, 1, 1]),
    (13, "nets 1 and 3 on 3.0", &[0, 0, 1, 1, 0, 2]),
    (13, "nets 2 and 3 on 17.0", &[1, 1, 0, 0, 2, 0]),
    (10, "10 and 12", &[0, 2, 1, 1, 2, 0, 0]),
    (11, "11 and 12, track first", &[0, 3, 1, 1, 2, 2]),
    (11, "11 and 12, apart first", &[0, 2, 1, 1, 3, 0]),
    (11, "11 and 13", &[1, 1, 0, 0, 2, 3]),
    (12, "12 and 13, clash first", &[0, 0, 0, 0, 2, 2]),
    (12, "12 and 13 in one wire", &[0, 0, 2, 2, 2, 2]),
];

const UNIVERSAL_UNPLACED: [Wrong; 3] = [
    (12, "net 3 equal, net 1 unplaced", &[UP, UP, 1, 1, 2, 2]),
    (13, "nets 2 and 3, net 1 unplaced", &[UP, UP, 0, 0, 2, 0]),
    (11, "net 3 half unplaced", &[0, 0, 1, 1, UP, 0]),
];

/// A kind and a right ticket inside, which is wrong where tracks are equal.
const RIGHT: [(u8, [u8; 6]); 4] = [
    (1, [0, 0, 1, 0, 1, 2]),
    (1, [2, 2, 0, 2, 0, 0]),
    (2, [0, 0, 1, 1, 2, 0]),
    (2, [2, 2, 1, 1, 0, 2]),
];

pub fn cases() -> Vec<Case> {
    let at = |kind| t_inside_raw(kind, 3).bytes();
    let mut all = refused(&at(1), &WILTON, &WILTON_UNPLACED);
    all.extend(refused(&at(2), &UNIVERSAL, &UNIVERSAL_UNPLACED));
    for (kind, ticket) in RIGHT {
        let check = || Ask::Check {
            ticket: ticket.to_vec(),
        };
        let right = Told::Number(0);
        all.push(Case::new("right inside", at(kind), check(), right));
        let rim = t_raw(kind, 3).bytes();
        all.push(Case::refused("right inside, on T", rim, check(), 12));
        let other = at(3 - kind);
        all.push(Case::refused("right with another kind", other, check(), 12));
    }
    all
}
