//! A net whose tree turns every way: from its home on it passes an inner box from
//! each side to each other side. It passes rim boxes too, which the rows leave alone.

use model::chip::{Chip, Side};
use model::switch::runs_straight;
use sheets::random::{grow_nets, Growth};
use sheets::{Grid, Net, Rng};

const SIDE: u8 = 6;

/// The chip of the tour.
pub fn grid() -> Grid {
    Grid::new(SIDE, SIDE)
}

/// The first of the chance trees that turns all 12 ways inside and is on the rim too.
pub fn tour(number: u32) -> Net {
    let growth = Growth {
        nets: 1,
        fewest: 24,
        most: 24,
        limit: 1,
    };
    let mut rng = Rng::new(12);
    loop {
        let mut nets = grow_nets(&mut rng, grid(), &growth);
        let every_way = |net: &Net| {
            let (inside, rim) = turns(net);
            inside.len() == 12 && !rim.is_empty()
        };
        if let Some(mut net) = nets.pop().filter(every_way) {
            net.number = number;
            return net;
        }
    }
}

type Turns = Vec<(Side, Side)>;

/// The pairs of sides at which the tree passes a box, seen from its home: in inner
/// boxes, and in those of the rim.
fn turns(net: &Net) -> (Turns, Turns) {
    let side = u32::from(SIDE);
    let chip = Chip {
        columns: side,
        rows: side,
    };
    let home = *net.channels.iter().min().expect("a channel");
    let mut reached = vec![home];
    let (mut inside, mut rim) = (Vec::new(), Vec::new());
    while reached.len() < net.channels.len() {
        for &(a, b) in &net.joints {
            let (from, to) = match (reached.contains(&a), reached.contains(&b)) {
                (true, false) => (a, b),
                (false, true) => (b, a),
                _ => continue,
            };
            reached.push(to);
            let ends = chip.meeting_ends(from.into(), to.into());
            let (own, other) = ends.expect("a joint meets");
            let straight = runs_straight(chip.channels_at(own.place).len());
            let turns = if straight { &mut rim } else { &mut inside };
            if !turns.contains(&(own.side, other.side)) {
                turns.push((own.side, other.side));
            }
        }
    }
    (inside, rim)
}

#[cfg(test)]
mod tests {
    use super::{tour, turns};

    #[test]
    fn every_way() {
        let (turns, rim) = turns(&tour(7));
        assert_eq!(turns.len(), 12);
        assert!(turns.iter().all(|&(from, to)| from != to));
        assert!(turns.iter().all(|&(from, to)| turns.contains(&(to, from))));
        assert!(!rim.is_empty());
    }
}
