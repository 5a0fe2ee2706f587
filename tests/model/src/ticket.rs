//! When a ticket is right: refusals 10 to 13, and 21 between 12 and 13.

use crate::dead::Dead;
use crate::sheet::{Net, Sheet};
use crate::switch::are_partners_in;
use crate::word::{refuse_if, Word};

pub const UNPLACED: u8 = 255;

/// A net's own bytes in a ticket of the right size.
pub fn bytes_of<'a>(net: &Net, ticket: &'a [u8]) -> &'a [u8] {
    &ticket[net.first..net.first + net.channels.len()]
}

/// Whether an old ticket has this net unplaced.
pub fn is_unplaced(net: &Net, old: &[u8]) -> bool {
    bytes_of(net, old).iter().all(|&byte| byte == UNPLACED)
}

/// The ticket with this net's bytes 255 and all others as before.
pub fn without(net: &Net, ticket: &[u8]) -> Vec<u8> {
    let mut left = ticket.to_vec();
    left[net.first..net.first + net.channels.len()].fill(UNPLACED);
    left
}

/// Whether a ticket is right at a width, without the dead wires.
pub fn right(sheet: &Sheet, dead: &Dead, width: u32, ticket: &[u8]) -> Result<(), Word> {
    judge(sheet, dead, width, ticket, |_| true)
}

/// Whether a ticket will do for Refit and M-100: its placed nets are looked at.
pub fn right_where_placed(sheet: &Sheet, dead: &Dead, old: &[u8]) -> Result<(), Word> {
    judge(sheet, dead, sheet.width, old, |net| !is_unplaced(net, old))
}

/// The five tests, over the nets that count.
fn judge(
    sheet: &Sheet,
    dead: &Dead,
    width: u32,
    ticket: &[u8],
    counts: impl Fn(&Net) -> bool,
) -> Result<(), Word> {
    refuse_if(ticket.len() != sheet.entry_count(), Word::Size)?;
    let nets: Vec<&Net> = sheet.nets.iter().filter(|net| counts(net)).collect();
    let tracks = |net: &Net| bytes_of(net, ticket);

    let beyond = |net: &&Net| tracks(net).iter().any(|&t| u32::from(t) >= width);
    refuse_if(nets.iter().any(beyond), Word::Track)?;

    let apart = |net: &&Net| !joined(sheet, width, net, tracks(net));
    refuse_if(nets.iter().any(apart), Word::Switch)?;

    let broken = |net: &&Net| dead.breaks(net, tracks(net));
    refuse_if(nets.iter().any(broken), Word::Broken)?;

    let laid = |place: usize| (nets[place], tracks(nets[place]));
    let clash = |later: usize| (0..later).any(|earlier| clashes(laid(earlier), laid(later)));
    refuse_if((0..nets.len()).any(clash), Word::Clash)
}

/// Whether two nets, with their tracks, have the same track in a channel that
/// both have.
pub fn clashes(a: (&Net, &[u8]), b: (&Net, &[u8])) -> bool {
    let mut wires = a.0.channels.iter().zip(a.1);
    wires.any(|(channel, track)| {
        let shared = b.0.channels.iter().position(|c| c == channel);
        shared.is_some_and(|place| b.1[place] == *track)
    })
}

/// Whether every joint's two tracks, all below the width, are partners.
pub fn joined(sheet: &Sheet, width: u32, net: &Net, tracks: &[u8]) -> bool {
    net.joints.iter().all(|joint| {
        let end = |side, place: usize| (side, u32::from(tracks[place]));
        let a = end(joint.sides.0, joint.places.0);
        let b = end(joint.sides.1, joint.places.1);
        are_partners_in(joint.around, sheet.kind, width, a, b)
    })
}
