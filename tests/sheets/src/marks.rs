//! Long net numbers, 02 M-106, by hand: the paper's cases under the second mark, and
//! calls in which the whole number decides.

use crate::case::{by_rows, Ask, Case, Told};
use crate::mark::Mark;
use crate::numbers::{Spread, EDGES};
use crate::paper::{marked, others, t_raw};
use crate::raw::Raw;

const UP: u8 = 255;

/// Numbers of which every two that share a half are told apart by the other one.
pub const NUMBERS: [u32; 9] = [
    0,
    1,
    65_535,
    65_536,
    65_537,
    131_073,
    2_147_483_648,
    4_294_901_760,
    4_294_967_295,
];

/// Nets 65,537, 1 and 65,536 of one channel each on a chip of 2 by 2. Neither their
/// low halves nor their high ones alone have the order of the numbers.
#[rustfmt::skip]
pub const HALVES: [u8; 48] = [
    0x01, 0x00, 0x01, 0x00, 0x01, 0x00, 0x00, 0x00, 0xFF, 0xFF,
    0x01, 0x00, 0x00, 0x00, 0x01, 0x00, 0x01, 0x00, 0xFF, 0xFF,
    0x00, 0x00, 0x01, 0x00, 0x01, 0x00, 0x02, 0x00, 0xFF, 0xFF,
    0x00, 0x00, 0x0A, 0x00, 0x14, 0x00,
    0x02, 0x02, 0x00, 0x01, 0x03, 0x00, 0x1E, 0x00, 0x30, 0x00, 0x57, 0x49,
];

/// Its standard form: nets 1, 65,536 and 65,537.
#[rustfmt::skip]
pub const HALVES_FORM: [u8; 48] = [
    0x01, 0x00, 0x00, 0x00, 0x01, 0x00, 0x01, 0x00, 0xFF, 0xFF,
    0x00, 0x00, 0x01, 0x00, 0x01, 0x00, 0x02, 0x00, 0xFF, 0xFF,
    0x01, 0x00, 0x01, 0x00, 0x01, 0x00, 0x00, 0x00, 0xFF, 0xFF,
    0x00, 0x00, 0x0A, 0x00, 0x14, 0x00,
    0x02, 0x02, 0x00, 0x01, 0x03, 0x00, 0x1E, 0x00, 0x30, 0x00, 0x57, 0x49,
];

pub fn cases() -> Vec<Case> {
    let mut all = paper();
    all.extend(ranks());
    all.extend(taken_out());
    all.extend(by_rows(&all));
    all
}

/// m1 to m12 and "Others", widened alone and spread in each way.
fn paper() -> Vec<Case> {
    let mut short = marked();
    short.extend(others());
    let spreads = [Spread::Same].into_iter().chain(Spread::FAR);
    let each = |spread| short.iter().filter_map(move |case| case.long(spread));
    spreads.flat_map(each).collect()
}

/// Sheet T under the second mark with these numbers.
pub fn t(width: u8, numbers: [u32; 3]) -> Raw {
    let mut raw = t_raw(0, width);
    for (record, number) in raw.records.iter_mut().zip(numbers) {
        record.number = number;
    }
    raw.marked(Mark::Long)
}

/// Every ordered three of the numbers.
pub fn threes() -> Vec<[u32; 3]> {
    let mut all = Vec::new();
    for one in NUMBERS {
        for two in NUMBERS {
            let last = |three: &u32| one != two && ![one, two].contains(three);
            let last = NUMBERS.into_iter().filter(last);
            all.extend(last.map(|three| [one, two, three]));
        }
    }
    all
}

/// Any two nets of T share a channel, so the trials are those of m3 and m6 in every
/// order, and at W 3 a net has the track that is its rank.
fn ranks() -> Vec<Case> {
    let mut all = Vec::new();
    for numbers in threes() {
        let name = format!("T with the numbers {numbers:?}");
        let rank = |number: u32| numbers.iter().filter(|n| **n < number).count() as u8;
        let ticket: Vec<u8> = numbers.iter().flat_map(|n| [rank(*n); 2]).collect();
        let found = |trials| Told::found(3, trials, 0, &ticket);
        let (budget, room) = (16, 6);
        let old = vec![UP; 6];
        let mut add = |width, ask, told| {
            let sheet = t(width, numbers).bytes();
            all.push(Case::new(&*name, sheet, ask, told));
        };
        add(3, Ask::Route { budget, room }, found(6));
        add(2, Ask::Least { budget, room }, found(16));
        add(3, Ask::Refit { old, budget, room }, found(6));
    }
    all
}

/// The net with just this number is taken out; one that shares a half with a net's is
/// a stranger, and so is one with the halves of a net's exchanged.
fn taken_out() -> Vec<Case> {
    let ticket = [0, 0, 1, 1, 2, 2];
    let mut all = Vec::new();
    for three in EDGES.windows(3) {
        let numbers = [three[1], three[2], three[0]];
        let mut asked = EDGES.to_vec();
        asked.extend(three.iter().flat_map(|n| [n & 0xFFFF, n >> 16]));
        asked.extend(three.iter().flat_map(|n| [n.rotate_left(16), n ^ 0x2_0000]));
        for net in asked {
            let ask = |room| Ask::Remove {
                ticket: ticket.to_vec(),
                net,
                room,
            };
            let sheet = || t(3, numbers).bytes();
            let name = format!("net {net} out of {numbers:?}");
            let Some(place) = numbers.iter().position(|number| *number == net) else {
                all.push(Case::refused(&*name, sheet(), ask(6), 17));
                all.push(Case::refused(name, sheet(), ask(5), 17));
                continue;
            };
            let mut left = ticket;
            left[2 * place..2 * place + 2].fill(UP);
            let told = Told::Ticket {
                number: 0,
                written: left.to_vec(),
            };
            all.push(Case::new(&*name, sheet(), ask(7), told));
            all.push(Case::refused(name, sheet(), ask(5), 14));
        }
    }
    all
}

#[cfg(test)]
mod tests {
    use super::*;

    #[test]
    fn every_order_and_every_half() {
        assert_eq!(threes().len(), 9 * 8 * 7);
        let same = |half: fn(u32) -> u32| {
            let two = |one: &u32| NUMBERS.iter().filter(|n| half(**n) == half(*one)).count();
            NUMBERS.iter().filter(|one| two(one) > 1).count()
        };
        assert!(same(|n| n & 0xFFFF) > 5 && same(|n| n >> 16) > 5);
    }
}
