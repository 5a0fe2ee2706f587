//! Brute force for the ways of one net: every byte is tried for every entry. A
//! box's channels are counted by who meets whom.

use crate::sheet::{Joint, Net, Sheet};
use crate::switch::are_partners;

/// The most tickets, or ways of one net, that are listed.
const LIMIT: usize = 20_000;

/// A net's ways by home track: of all its byte strings those that every joint
/// allows.
pub fn ways(sheet: &Sheet, width: u32, net: &Net) -> Vec<Vec<u8>> {
    let mut ways = strings(width, net.channels.len());
    for joint in &net.joints {
        let straight = straight(sheet, net, joint);
        ways.retain(|tracks| {
            let end = |side, place: usize| (side, u32::from(tracks[place]));
            let a = end(joint.sides.0, joint.places.0);
            let b = end(joint.sides.1, joint.places.1);
            match straight {
                true => a.1 == b.1,
                false => are_partners(sheet.kind, width, a, b),
            }
        });
    }
    ways.sort_by_key(|tracks| tracks[net.home()]);
    let homes = ways.iter().map(|tracks| u32::from(tracks[net.home()]));
    assert!(homes.eq(0..width), "the home track fixes all tracks");
    ways
}

/// Whether a joint's box has fewer than four channels, 02 M-104. Channels form no
/// triangle, so that besides the joint's own two the box has just those that meet
/// both.
fn straight(sheet: &Sheet, net: &Net, joint: &Joint) -> bool {
    let (a, b) = joint.places;
    let meets = |c: u32, place: usize| sheet.chip.meeting(c, net.channels[place]).is_some();
    let others = (0..sheet.chip.channel_count()).filter(|&c| meets(c, a) && meets(c, b));
    2 + others.count() < 4
}

/// Whether there are few strings of this length with bytes below the width.
pub fn few(width: u32, length: usize) -> bool {
    let count = (width as usize).checked_pow(length as u32);
    count.is_some_and(|count| count <= LIMIT)
}

/// All strings of this length with bytes below the width, first ones first.
pub fn strings(width: u32, length: usize) -> Vec<Vec<u8>> {
    let mut all = vec![Vec::new()];
    for _ in 0..length {
        let longer = |head: Vec<u8>| {
            (0..width as u8).map(move |byte| {
                let mut string = head.clone();
                string.push(byte);
                string
            })
        };
        all = all.into_iter().flat_map(longer).collect();
    }
    all
}
