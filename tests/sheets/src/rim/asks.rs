//! What the cases of calls share.

use super::partners::ROWS;
use crate::case::{Ask, Told};
use crate::design::{Design, Net};
use crate::grid::Grid;

const ROOM: usize = 12;

/// The nets on a chip, of this kind and width.
pub fn sheet(grid: Grid, kind: u8, width: u8, nets: &[Net]) -> Vec<u8> {
    let design = Design::new(grid, kind, width, nets.to_vec());
    let design = match kind {
        3 => design.with_rows(ROWS),
        _ => design,
    };
    design.list().bytes()
}

pub fn route(budget: u32) -> Ask {
    Ask::Route { budget, room: ROOM }
}

pub fn least(budget: u32) -> Ask {
    Ask::Least { budget, room: ROOM }
}

pub fn refit(old: &[u8], budget: u32) -> Ask {
    Ask::Refit {
        old: old.to_vec(),
        budget,
        room: ROOM,
    }
}

pub fn remove(ticket: &[u8], net: u32) -> Ask {
    Ask::Remove {
        ticket: ticket.to_vec(),
        net,
        room: ROOM,
    }
}

pub fn check(ticket: &[u8]) -> Ask {
    Ask::Check {
        ticket: ticket.to_vec(),
    }
}

pub fn left(written: &[u8]) -> Told {
    Told::Ticket {
        number: 0,
        written: written.to_vec(),
    }
}
