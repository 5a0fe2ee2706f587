//! Wrong ways to read 02 M-101, for tests that must tell them from the standard
//! form.

use crate::sheet::{Net, Sheet, ROOT};
use crate::standard::{bytes, form, records, tree, Entries, Listed};

type Way = fn(&Sheet) -> Vec<u8>;

pub const WAYS: [(&str, Way); 12] = [
    ("breadth first", |s| rising(s, breadth_first)),
    ("depth first", |s| rising(s, depth_first)),
    ("parent by old place", |s| rising(s, parent_by_old_place)),
    ("lowest, joined or not", |s| rising(s, lowest)),
    ("lowest that meets", |s| rising(s, |net| meeting(s, net))),
    ("from the old first entry", |s| rising(s, from_old_first)),
    ("first parent 0", |s| rising(s, first_parent_0)),
    ("trees as they were", |s| rising(s, as_it_was)),
    ("nets as they stood", |s| by(s, |_| 0)),
    ("nets by first channel", |s| {
        by(s, |l| l.entries[0].0.into())
    }),
    ("nets by low byte", |s| by(s, |l| l.number.swap_bytes())),
    ("old offsets kept", old_offsets),
];

/// Nets in rising number, each listed in this way.
fn rising(sheet: &Sheet, list: impl Fn(&Net) -> Entries) -> Vec<u8> {
    let mut all: Vec<Listed> = sheet
        .nets
        .iter()
        .map(|net| listed(net, list(net)))
        .collect();
    all.sort_by_key(|listed| listed.number);
    bytes(sheet, &all)
}

/// Standard trees, nets ordered by another key, else as they stood.
fn by(sheet: &Sheet, key: fn(&Listed) -> u32) -> Vec<u8> {
    let mut all: Vec<Listed> = sheet
        .nets
        .iter()
        .map(|net| listed(net, tree(net)))
        .collect();
    all.sort_by_key(key);
    bytes(sheet, &all)
}

fn listed(net: &Net, entries: Entries) -> Listed {
    Listed {
        number: net.number,
        entries,
    }
}

/// The channels that have a joint to this one, rising.
fn joined_to(net: &Net, channel: u16) -> Vec<u16> {
    let end = |place: usize| net.channels[place] as u16;
    let ends = net
        .joints
        .iter()
        .map(|joint| (end(joint.places.0), end(joint.places.1)));
    let both = ends.flat_map(|(a, b)| [(a, b), (b, a)]);
    let mut others: Vec<u16> = both.filter(|e| e.0 == channel).map(|e| e.1).collect();
    others.sort_unstable();
    others
}

/// A tree from this channel on. Which open entry is next is picked by place in
/// the order in which they were opened.
fn grow(net: &Net, first: u16, pick: impl Fn(&[(u16, u16)]) -> usize) -> Entries {
    let mut open = vec![(first, ROOT)];
    let mut entries = Entries::new();
    while !open.is_empty() {
        let next = open.remove(pick(&open));
        let place = entries.len() as u16;
        entries.push(next);
        let mut others = joined_to(net, next.0);
        others.retain(|other| entries.iter().all(|entry| entry.0 != *other));
        open.extend(others.into_iter().map(|other| (other, place)));
    }
    entries
}

fn home(net: &Net) -> u16 {
    net.channels[net.home()] as u16
}

fn breadth_first(net: &Net) -> Entries {
    grow(net, home(net), |_| 0)
}

/// The first of those opened last.
fn depth_first(net: &Net) -> Entries {
    grow(net, home(net), |open| {
        let latest = open[open.len() - 1].1;
        let first = open.iter().position(|entry| entry.1 == latest);
        first.expect("the last is there")
    })
}

fn from_old_first(net: &Net) -> Entries {
    grow(net, net.channels[0] as u16, |open| {
        let lowest = open.iter().enumerate().min_by_key(|(_, entry)| entry.0);
        lowest.map_or(0, |(place, _)| place)
    })
}

fn parent_by_old_place(net: &Net) -> Entries {
    let mut entries = tree(net);
    for place in 1..entries.len() {
        let parent = u32::from(entries[usize::from(entries[place].1)].0);
        let old = net.channels.iter().position(|c| *c == parent);
        entries[place].1 = old.expect("a channel of the net") as u16;
    }
    entries
}

/// All channels rising, each on the first written one it has a joint to, else
/// on the home.
fn lowest(net: &Net) -> Entries {
    let mut channels: Vec<u16> = net.channels.iter().map(|&c| c as u16).collect();
    channels.sort_unstable();
    let parent = |place: usize| {
        let others = joined_to(net, channels[place]);
        let first = channels[..place].iter().position(|c| others.contains(c));
        first.unwrap_or(0) as u16
    };
    let entry = |place: usize| match place {
        0 => (channels[0], ROOT),
        _ => (channels[place], parent(place)),
    };
    (0..channels.len()).map(entry).collect()
}

/// A meeting is taken for a joint; the parent is the first written one met.
fn meeting(sheet: &Sheet, net: &Net) -> Entries {
    let mut left: Vec<u16> = net.channels.iter().map(|&c| c as u16).collect();
    left.sort_unstable();
    let mut entries = vec![(left.remove(0), ROOT)];
    while !left.is_empty() {
        let meets = |a: u16, b: u16| sheet.chip.meeting(a.into(), b.into()).is_some();
        let parent = |c: u16| entries.iter().position(|entry| meets(entry.0, c));
        let next = left.iter().position(|&c| parent(c).is_some());
        let next = next.expect("joined channels meet");
        let parent = parent(left[next]).expect("it meets one") as u16;
        entries.push((left.remove(next), parent));
    }
    entries
}

fn first_parent_0(net: &Net) -> Entries {
    let mut entries = tree(net);
    entries[0].1 = 0;
    entries
}

fn as_it_was(net: &Net) -> Entries {
    let parents = net.joints.iter().map(|joint| joint.places.1 as u16);
    let channels = net.channels.iter().map(|&c| c as u16);
    channels.zip([ROOT].into_iter().chain(parents)).collect()
}

fn old_offsets(sheet: &Sheet) -> Vec<u8> {
    let mut out = form(sheet);
    let records = records(sheet);
    let length = |l: &Listed| sheet.mark.head().record(l.entries.len());
    let mut at: usize = records.iter().map(length).sum();
    for net in &sheet.nets {
        out[at..at + 2].copy_from_slice(&(net.offset as u16).to_le_bytes());
        at += 2;
    }
    out
}
