//! Dead wires, 02 M-105: lists of 3-byte items, channel u16 and track u8, and calls
//! under them worked out by hand.

mod lists;
mod random;
mod refused;
mod searched;
mod tickets;

pub use random::{harm, Chances};

use crate::case::{by_rows, long, Ask, Case};
use crate::rng::Rng;

/// A wire: channel and track.
pub type Wire = (u16, u8);

/// The list of these wires, in this order.
pub fn list(wires: &[Wire]) -> Vec<u8> {
    let item = |&(channel, track): &Wire| {
        let [low, high] = channel.to_le_bytes();
        [low, high, track]
    };
    wires.iter().flat_map(item).collect()
}

fn check(ticket: &[u8]) -> Ask {
    Ask::Check {
        ticket: ticket.to_vec(),
    }
}

fn refit(old: &[u8], budget: u32, room: usize) -> Ask {
    Ask::Refit {
        old: old.to_vec(),
        budget,
        room,
    }
}

/// The wires of a list's whole items.
pub fn wires(list: &[u8]) -> Vec<Wire> {
    let wire = |item: &[u8]| (u16::from_le_bytes([item[0], item[1]]), item[2]);
    list.chunks_exact(3).map(wire).collect()
}

/// The list's whole items in a chance order; what is left over stays last.
pub fn shuffled(dead: &[u8], rng: &mut Rng) -> Vec<u8> {
    let mut items = wires(dead);
    rng.shuffle(&mut items);
    let mut other = list(&items);
    other.extend(&dead[other.len()..]);
    other
}

/// All cases: lists that are refused, lists that pass, tickets on dead wires, and
/// searches, each also with its list from back to front, as kind 3 and under the
/// second mark.
pub fn cases() -> Vec<Case> {
    let mut all = refused::cases();
    all.extend(lists::cases());
    all.extend(calls());
    let backward: Vec<Case> = all.iter().filter_map(backward).collect();
    all.extend(backward);
    all.extend(by_rows(&all));
    all.extend(long(&all));
    all
}

/// Tickets on dead wires, and searches.
pub fn calls() -> Vec<Case> {
    let mut all = tickets::cases();
    all.extend(searched::cases());
    all
}

/// The case with the items from back to front, where that is another list of whole
/// items: the order does not matter.
fn backward(case: &Case) -> Option<Case> {
    let mut items = wires(&case.dead);
    items.reverse();
    let other = list(&items);
    if other.len() != case.dead.len() || other == case.dead {
        return None;
    }
    let mut case = case.clone().under(&other);
    case.name += ", backward";
    Some(case)
}

#[cfg(test)]
mod tests {
    use super::*;

    #[test]
    fn items_are_laid_out_low_byte_first() {
        assert_eq!(list(&[(1, 2), (479, 31)]), [1, 0, 2, 0xDF, 1, 31]);
        assert_eq!(wires(&[1, 0, 2, 0xDF, 1, 31, 9, 9]), [(1, 2), (479, 31)]);
        let mut rng = Rng::new(1);
        let other = shuffled(&[1, 0, 2, 3, 0, 4, 9, 9], &mut rng);
        assert!([[1, 0, 2, 3, 0, 4], [3, 0, 4, 1, 0, 2]].contains(&other[..6].try_into().unwrap()));
        assert_eq!(other[6..], [9, 9]);
    }

    #[test]
    fn every_number_is_told() {
        let told = |number: u32| {
            cases().iter().any(|case| match &case.told {
                crate::Told::Number(given) => *given == number,
                crate::Told::Answer { answer, .. } => answer.number == number,
                _ => false,
            })
        };
        for number in (9..=16).chain([18, 19, 20, 21]) {
            assert!(told(number), "{number}");
        }
    }
}
