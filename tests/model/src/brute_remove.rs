//! Brute force for 02 M-100: taking a net out is read entry by entry, and its
//! refusal from the table, as the first word there that applies.

use crate::brute_ways::{few, ways};
use crate::sheet::{Net, Sheet};
use crate::ticket::{bytes_of, UNPLACED};
use crate::word::Word;

/// What M-100 must give: the number, and the whole output afterwards. `None` if
/// the sheet is too large.
pub fn remove(sheet: &Sheet, ticket: &[u8], net: u32, out: &[u8]) -> Option<(u32, Vec<u8>)> {
    let large = |net: &Net| !few(sheet.width, net.channels.len());
    if sheet.nets.iter().any(large) {
        return None;
    }
    let held = held(sheet, ticket);
    let beyond = |h: &Held| u32::from(h.byte) >= sheet.width && placed(&held, h.net);
    let applies = |word: &Word| match word {
        Word::Size => ticket.len() != sheet.entry_count(),
        Word::Track => held.iter().any(beyond),
        Word::Switch => sheet.nets.iter().any(|net| no_way(sheet, net, ticket)),
        Word::Clash => held.iter().any(|a| held.iter().any(|b| a.clashes(b))),
        Word::Stranger => held.iter().all(|h| h.net != net),
        Word::Space => out.len() < sheet.entry_count(),
        _ => false,
    };
    let mut after = out.to_vec();
    let refusal = Word::ORDER.into_iter().find(applies);
    if refusal.is_none() {
        for (byte, h) in after.iter_mut().zip(&held) {
            *byte = if h.net == net { UNPLACED } else { h.byte };
        }
    }
    Some((refusal.map_or(0, Word::number), after))
}

/// A byte of a ticket, with its net number and channel.
pub struct Held {
    pub net: u32,
    pub channel: u32,
    pub byte: u8,
}

impl Held {
    /// Whether two bytes, each a track or 255, give one wire to two nets.
    pub fn clashes(&self, other: &Held) -> bool {
        let wire = |h: &Held| (h.channel, h.byte);
        self.net != other.net && self.byte != UNPLACED && wire(self) == wire(other)
    }
}

/// A ticket byte by byte, as far as the sheet has entries for it.
pub fn held(sheet: &Sheet, ticket: &[u8]) -> Vec<Held> {
    let mut all = Vec::new();
    for net in &sheet.nets {
        all.extend(net.channels.iter().map(|&channel| (net.number, channel)));
    }
    let bytes = all.into_iter().zip(ticket);
    bytes
        .map(|((net, channel), &byte)| Held { net, channel, byte })
        .collect()
}

/// Whether some byte of this net is not 255.
pub fn placed(held: &[Held], net: u32) -> bool {
    held.iter().any(|h| h.net == net && h.byte != UNPLACED)
}

/// Whether a net's bytes, tracks or all 255, are tracks in none of its ways.
pub fn no_way(sheet: &Sheet, net: &Net, ticket: &[u8]) -> bool {
    let own = bytes_of(net, ticket);
    let ways = ways(sheet, sheet.width, net);
    own[0] != UNPLACED && !ways.iter().any(|way| way == own)
}
