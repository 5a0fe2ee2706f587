//! The tree of a net, from its channels and joints.

use super::Entry;
use alloc::collections::BTreeMap;
use alloc::vec;
use alloc::vec::Vec;
use core::error::Error;
use core::fmt;

/// Why channels and joints are no tree. The first case that applies is given, and in it the first channel or joint.
#[derive(Clone, Copy, Debug, PartialEq, Eq)]
pub enum NotATree {
    /// The net has no channel.
    Empty,
    /// The channel stands twice among the channels.
    Twice(u16),
    /// A joint names a channel that the net does not have.
    Stranger(u16),
    /// The joint closes a ring, or stands twice, or joins a channel to itself.
    Ring(u16, u16),
    /// No joints lead from the first channel to this one.
    Apart(u16),
}

/// The entries in the order that `Net::new` describes. Below, a place is a channel's place among the channels given.
pub(super) fn entries(channels: &[u16], joints: &[(u16, u16)]) -> Result<Vec<Entry>, NotATree> {
    let neighbours = neighbours(channels, joints)?;
    let mut entries: Vec<Entry> = Vec::new();
    let mut taken = vec![false; channels.len()];
    // The channels with a joint to an entry, each with that entry's place in the net. Without a ring there is one such entry.
    let mut ready = BTreeMap::from([(0, None)]);
    while let Some((place, parent)) = ready.pop_first() {
        // The channels differ, so there are at most 65,536 of them and the place in the net fits.
        let here = Some(entries.len() as u16);
        let channel = channels[place];
        entries.push(Entry { channel, parent });
        taken[place] = true;
        let next = neighbours[place].iter().filter(|&&next| !taken[next]);
        ready.extend(next.map(|&next| (next, here)));
    }
    match taken.iter().position(|taken| !taken) {
        Some(place) => Err(NotATree::Apart(channels[place])),
        None => Ok(entries),
    }
}

/// The places that each place has a joint to, if the joints close no ring.
fn neighbours(channels: &[u16], joints: &[(u16, u16)]) -> Result<Vec<Vec<usize>>, NotATree> {
    let places = places(channels)?;
    let place = |channel: u16| match places.get(&channel) {
        Some(&place) => Ok(place),
        None => Err(NotATree::Stranger(channel)),
    };
    let ends = |&(one, other): &(u16, u16)| Ok((place(one)?, place(other)?));
    let joints: Vec<(usize, usize)> = joints.iter().map(ends).collect::<Result<_, _>>()?;
    let mut neighbours = vec![Vec::new(); channels.len()];
    let mut groups: Vec<usize> = (0..channels.len()).collect();
    for (one, other) in joints {
        let (first, second) = (group_of(&mut groups, one), group_of(&mut groups, other));
        if first == second {
            return Err(NotATree::Ring(channels[one], channels[other]));
        }
        groups[second] = first;
        neighbours[one].push(other);
        neighbours[other].push(one);
    }
    Ok(neighbours)
}

/// Each channel with its place.
fn places(channels: &[u16]) -> Result<BTreeMap<u16, usize>, NotATree> {
    if channels.is_empty() {
        return Err(NotATree::Empty);
    }
    let mut places = BTreeMap::new();
    for (place, &channel) in channels.iter().enumerate() {
        if places.insert(channel, place).is_some() {
            return Err(NotATree::Twice(channel));
        }
    }
    Ok(places)
}

/// The place that stands for all that joints connect with this one. `groups` leads there in steps, and each walk halves its steps, so
/// that long chains stay cheap.
fn group_of(groups: &mut [usize], mut place: usize) -> usize {
    while groups[place] != place {
        groups[place] = groups[groups[place]];
        place = groups[place];
    }
    place
}

impl fmt::Display for NotATree {
    fn fmt(&self, f: &mut fmt::Formatter<'_>) -> fmt::Result {
        match self {
            NotATree::Empty => write!(f, "the net has no channel"),
            NotATree::Twice(channel) => write!(f, "channel {channel} stands twice"),
            NotATree::Stranger(channel) => write!(
                f,
                "a joint names channel {channel}, which the net does not have"
            ),
            NotATree::Ring(one, other) => write!(f, "the joint of {one} and {other} closes a ring"),
            NotATree::Apart(channel) => write!(f, "no joints lead to channel {channel}"),
        }
    }
}

impl Error for NotATree {}
