//! The search with its state by value: two functions call each other.
#![forbid(unsafe_code)]

use crate::grid::CHANNELS;
use crate::tables::{Ended, Entry, Row, Tables, NETS};

struct State {
    /// For each channel a bit per track: held.
    taken: [u32; CHANNELS],
    homes: [u8; NETS],
    placed: usize,
}

impl State {
    #[inline(always)]
    fn fits(&self, net: &[Entry], row: &Row) -> bool {
        net.iter()
            .all(|entry| self.taken[usize::from(entry.channel)] >> entry.track(row) & 1 == 0)
    }

    /// The state with one net more. Its loop stands here, not in a function that
    /// is lent the marks: then the compiler copies the state once, else twice.
    #[inline(always)]
    fn with(&self, net: &[Entry], home: u32, row: &Row) -> State {
        let mut next = State {
            taken: self.taken,
            homes: self.homes,
            placed: self.placed + 1,
        };
        for entry in net {
            next.taken[usize::from(entry.channel)] |= 1 << entry.track(row);
        }
        next.homes[self.placed] = home as u8;
        next
    }
}

pub fn search(tables: &Tables, budget: u32) -> Ended {
    let state = State {
        taken: [0; CHANNELS],
        homes: [0; NETS],
        placed: 0,
    };
    next_net(state, tables, budget, 0)
}

fn next_net(state: State, tables: &Tables, budget: u32, trials: u32) -> Ended {
    if state.placed == tables.nets {
        let homes = state.homes;
        return Ended::Found { trials, homes };
    }
    next_track(state, tables, budget, trials)
}

fn next_track(state: State, tables: &Tables, budget: u32, mut trials: u32) -> Ended {
    let net = tables.net(state.placed);
    for home in 0..tables.width {
        if trials == budget {
            return Ended::Spent;
        }
        trials += 1;
        let row = tables.row(home);
        if state.fits(net, row) {
            match next_net(state.with(net, home, row), tables, budget, trials) {
                Ended::Exhausted { trials: made } => trials = made,
                ended => return ended,
            }
        }
    }
    Ended::Exhausted { trials }
}
