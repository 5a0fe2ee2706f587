//! Brute force for the refusals of a list of dead wires and of a ticket beside it,
//! 02 M-105: each word has its own condition, and the first in the table that
//! applies is given.

use crate::brute_dead::broken;
use crate::brute_remove::{held, no_way, placed, Held};
use crate::brute_ways::few;
use crate::sheet::{Net, Sheet};
use crate::word::Word;

/// What Check must give on an accepted sheet. `None` if the sheet is too large.
pub fn check(sheet: &Sheet, dead: &[u8], ticket: &[u8]) -> Option<u32> {
    first(sheet, dead, ticket, &|_, _| true)
}

/// What Refit must give for its list and its old ticket, 0 if it takes both.
/// `None` if the sheet is too large.
pub fn old(sheet: &Sheet, dead: &[u8], old: &[u8]) -> Option<u32> {
    first(sheet, dead, old, &placed)
}

/// The number of the first word that applies, of those from 19 to 13. Which nets
/// have to have tracks is told by the bytes and the net number.
fn first(
    sheet: &Sheet,
    dead: &[u8],
    ticket: &[u8],
    counts: &dyn Fn(&[Held], u32) -> bool,
) -> Option<u32> {
    let large = |net: &Net| !few(sheet.width, net.channels.len());
    if sheet.nets.iter().any(large) {
        return None;
    }
    let held = held(sheet, ticket);
    let beyond = |h: &Held| u32::from(h.byte) >= sheet.width && counts(&held, h.net);
    let applies = |word: &Word| match word {
        Word::List => bad_list(sheet, dead),
        Word::Repeat => repeated(dead),
        Word::Size => ticket.len() != sheet.entry_count(),
        Word::Track => held.iter().any(beyond),
        Word::Switch => sheet.nets.iter().any(|net| no_way(sheet, net, ticket)),
        Word::Broken => held.iter().any(|h| broken(dead, h.channel, h.byte)),
        Word::Clash => held.iter().any(|a| held.iter().any(|b| a.clashes(b))),
        _ => false,
    };
    let refusal = Word::ORDER.into_iter().find(applies);
    Some(refusal.map_or(0, Word::number))
}

/// A channel exists if its number is below B·(A−1)+A·(B−1).
fn bad_list(sheet: &Sheet, dead: &[u8]) -> bool {
    let (a, b) = (sheet.chip.columns, sheet.chip.rows);
    let channels = b * (a - 1) + a * (b - 1);
    let bad = |item: &[u8]| match *item {
        [low, high, track] => u32::from(low) + 256 * u32::from(high) >= channels || track >= 32,
        _ => true,
    };
    dead.chunks(3).any(bad)
}

/// Whether an item stands again after itself.
fn repeated(dead: &[u8]) -> bool {
    let items: Vec<&[u8]> = dead.chunks(3).collect();
    let again = |place: usize| items[place + 1..].contains(&items[place]);
    (0..items.len()).any(again)
}
