//! The search with its marks changed in place and undone, as one loop.
#![forbid(unsafe_code)]

use crate::grid::CHANNELS;
use crate::tables::{Ended, Entry, Row, Tables, NETS};

/// For each channel a bit per track: held.
type Taken = [u32; CHANNELS];

pub fn search(tables: &Tables, budget: u32) -> Ended {
    let mut taken = [0; CHANNELS];
    let mut homes = [0; NETS];
    let (mut placed, mut home, mut trials) = (0, 0, 0);
    while placed < tables.nets {
        let net = tables.net(placed);
        let mut found = false;
        while home < tables.width {
            if trials == budget {
                return Ended::Spent;
            }
            trials += 1;
            if fits(&taken, net, tables.row(home)) {
                found = true;
                break;
            }
            home += 1;
        }
        if found {
            toggle(&mut taken, net, tables.row(home));
            homes[placed] = home as u8;
            placed += 1;
            home = 0;
        } else if placed > 0 {
            placed -= 1;
            home = u32::from(homes[placed]);
            toggle(&mut taken, tables.net(placed), tables.row(home));
            home += 1;
        } else {
            return Ended::Exhausted { trials };
        }
    }
    Ended::Found { trials, homes }
}

#[inline(always)]
fn fits(taken: &Taken, net: &[Entry], row: &Row) -> bool {
    net.iter()
        .all(|entry| taken[usize::from(entry.channel)] >> entry.track(row) & 1 == 0)
}

/// Lays a net, or takes it away again.
#[inline(always)]
fn toggle(taken: &mut Taken, net: &[Entry], row: &Row) {
    for entry in net {
        taken[usize::from(entry.channel)] ^= 1 << entry.track(row);
    }
}
