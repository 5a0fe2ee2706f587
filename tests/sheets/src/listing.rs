//! From a design to one of its listings.

use crate::design::{Design, Net};
use crate::raw::{Raw, Record, ROOT};
use crate::rng::Rng;
use crate::rows::bytes;
use std::collections::BTreeMap;

/// The track of each net number and channel.
pub type Tracks = BTreeMap<(u32, u16), u8>;

impl Design {
    /// The listing in the design's own order, each net from its first channel.
    pub fn list(&self) -> Raw {
        let records = self.nets.iter().map(|net| list_net(net, None)).collect();
        self.raw(records)
    }

    /// A listing in a chance order, each net from a chance channel.
    pub fn relist(&self, rng: &mut Rng) -> Raw {
        let mut records: Vec<Record> = Vec::new();
        for net in &self.nets {
            records.push(list_net(net, Some(&mut *rng)));
        }
        rng.shuffle(&mut records);
        self.raw(records)
    }

    fn raw(&self, records: Vec<Record>) -> Raw {
        let grid = self.grid;
        let raw = Raw::new(grid.columns, grid.rows, self.kind, self.width, records);
        let raw = raw.marked(self.mark);
        if self.kind == 3 {
            raw.with_row_bytes(&bytes(&self.rows))
        } else {
            raw
        }
    }
}

/// Lists a net's tree: at each step one channel that is joined to a listed one.
fn list_net(net: &Net, mut rng: Option<&mut Rng>) -> Record {
    let mut choose = |bound: usize| rng.as_mut().map_or(0, |rng| rng.below(bound));
    let root = net.channels[choose(net.channels.len())];
    let mut entries = vec![(root, ROOT)];
    while entries.len() < net.channels.len() {
        let open = open_ends(net, &entries);
        entries.push(open[choose(open.len())]);
    }
    Record::new(net.number, &entries)
}

/// The channels not listed yet that a joint ties to a listed one, with its place.
fn open_ends(net: &Net, entries: &[(u16, u16)]) -> Vec<(u16, u16)> {
    let place = |channel: u16| entries.iter().position(|entry| entry.0 == channel);
    let mut open = Vec::new();
    for &(a, b) in &net.joints {
        match (place(a), place(b)) {
            (Some(parent), None) => open.push((b, parent as u16)),
            (None, Some(parent)) => open.push((a, parent as u16)),
            _ => {}
        }
    }
    open
}

/// The ticket for a listing that has these tracks.
pub fn ticket_of(raw: &Raw, tracks: &Tracks) -> Vec<u8> {
    places(raw).map(|place| tracks[&place]).collect()
}

/// The tracks of a listing's ticket.
pub fn tracks_of(raw: &Raw, ticket: &[u8]) -> Tracks {
    places(raw).zip(ticket.iter().copied()).collect()
}

/// Net number and channel of each entry, in the ticket's order.
fn places(raw: &Raw) -> impl Iterator<Item = (u32, u16)> + '_ {
    raw.records.iter().flat_map(|record| {
        let number = record.number;
        record.entries.iter().map(move |entry| (number, entry.0))
    })
}

#[cfg(test)]
mod tests {
    use crate::design::{Design, Net};
    use crate::grid::Grid;
    use crate::rng::Rng;

    #[test]
    fn a_relisting_keeps_channels_and_joints() {
        let net = Net {
            number: 9,
            channels: vec![2, 3, 7, 10, 4],
            joints: vec![(2, 3), (7, 3), (10, 2), (10, 4)],
        };
        let design = Design::new(Grid::new(3, 3), 1, 3, vec![net.clone()]);
        let sorted = |mut pairs: Vec<(u16, u16)>| {
            pairs
                .iter_mut()
                .for_each(|p| *p = (p.0.min(p.1), p.0.max(p.1)));
            pairs.sort_unstable();
            pairs
        };
        let mut rng = Rng::new(1);
        for _ in 0..50 {
            let raw = design.relist(&mut rng);
            let entries = &raw.records[0].entries;
            let joints = entries[1..].iter();
            let joints = joints.map(|e| (e.0, entries[e.1 as usize].0)).collect();
            assert_eq!(sorted(joints), sorted(net.joints.clone()));
        }
    }
}
