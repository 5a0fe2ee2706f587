//! Taking a net out, M-100: 17 alone and beside its neighbours in the order 13,
//! 17, 14, and what is left on success. Sheet T, kind 0, W 3, is that of
//! `tickets`.

use super::tickets::{UNPLACED_WRONG, WRONG};
use crate::case::{Ask, Case, Told};
use crate::design::{Design, Net};
use crate::grid::Grid;
use crate::paper::{same_channel, t_inside_raw, t_raw, T};
use crate::raw::Raw;

const UP: u8 = 255;

/// Numbers that T lacks: near its own and its counts, and those that are one of
/// its own if cut to 8, 16 or 24 bits.
#[rustfmt::skip]
const STRANGERS: [u32; 14] = [
    0, 4, 5, 6, 256 + 1, 65535, 65536, 65536 + 1, 65536 + 2, 65536 + 3,
    (1 << 24) + 2, (1 << 31) + 3, u32::MAX - 2, u32::MAX,
];

/// A ticket that Refit accepts, what is left of it without a net, and numbers
/// that the sheet lacks.
struct Taken {
    sheet: Vec<u8>,
    ticket: &'static [u8],
    left: &'static [(u32, &'static [u8])],
    strangers: &'static [u32],
}

impl Taken {
    /// Each net in an output of the ticket's length, a longer one and shorter ones;
    /// each stranger likewise.
    fn cases(&self) -> Vec<Case> {
        let entries = self.ticket.len();
        let mut all = Vec::new();
        for &(net, left) in self.left {
            all.extend([0, 3].map(|more| self.leaves(net, left, entries + more)));
            all.extend([0, entries - 1].map(|room| self.refused("14", net, room, 14)));
        }
        for &net in self.strangers {
            all.extend([0, 34].map(|more| self.refused("17", net, entries + more, 17)));
            all.extend([0, entries - 1].map(|room| self.refused("17 and 14", net, room, 17)));
        }
        all
    }

    fn leaves(&self, net: u32, left: &[u8], room: usize) -> Case {
        let name = format!("net {net} out of {:?}", self.ticket);
        let told = Told::Ticket {
            number: 0,
            written: left.to_vec(),
        };
        let ask = remove(self.ticket, net, room);
        Case::new(name, self.sheet.clone(), ask, told)
    }

    fn refused(&self, name: &str, net: u32, room: usize, number: u32) -> Case {
        let ask = remove(self.ticket, net, room);
        Case::refused(name, self.sheet.clone(), ask, number)
    }
}

pub fn cases() -> Vec<Case> {
    let mut all = wrong_tickets();
    for taken in [of_t(), by_number(), of_others()].iter().flatten() {
        all.extend(taken.cases());
    }
    all.extend(bad_sheet());
    all.extend(no_nets());
    all
}

fn t() -> Vec<u8> {
    t_raw(0, 3).bytes()
}

fn remove(ticket: &[u8], net: u32, room: usize) -> Ask {
    Ask::Remove {
        ticket: ticket.to_vec(),
        net,
        room,
    }
}

/// The tickets that Refit refuses, with the same number: alone, with a short
/// output, with a stranger, and with both.
fn wrong_tickets() -> Vec<Case> {
    let mut all = Vec::new();
    for kind in 0..3 {
        let sheet = t_raw(kind, 3).bytes();
        for (number, name, ticket) in WRONG.iter().chain(&UNPLACED_WRONG) {
            for (net, room) in [(1, 6), (3, 5), (4, 6), (65536 + 2, 0)] {
                let ask = remove(ticket, net, room);
                all.push(Case::refused(*name, sheet.clone(), ask, *number));
            }
        }
    }
    all
}

/// All nets placed; one unplaced; two; all. An unplaced net changes nothing.
fn of_t() -> Vec<Taken> {
    vec![
        Taken {
            sheet: t(),
            ticket: &[0, 0, 1, 1, 2, 2],
            left: &[
                (1, &[UP, UP, 1, 1, 2, 2]),
                (2, &[0, 0, UP, UP, 2, 2]),
                (3, &[0, 0, 1, 1, UP, UP]),
            ],
            strangers: &STRANGERS,
        },
        Taken {
            sheet: t(),
            ticket: &[2, 2, UP, UP, 1, 1],
            left: &[
                (1, &[UP, UP, UP, UP, 1, 1]),
                (2, &[2, 2, UP, UP, 1, 1]),
                (3, &[2, 2, UP, UP, UP, UP]),
            ],
            strangers: &[0, 4, 65536 + 1, 65536 + 2, u32::MAX],
        },
        Taken {
            sheet: t(),
            ticket: &[UP, UP, UP, UP, 0, 0],
            left: &[
                (1, &[UP, UP, UP, UP, 0, 0]),
                (2, &[UP, UP, UP, UP, 0, 0]),
                (3, &[UP; 6]),
            ],
            strangers: &[4],
        },
        Taken {
            sheet: t(),
            ticket: &[UP; 6],
            left: &[(1, &[UP; 6]), (2, &[UP; 6]), (3, &[UP; 6])],
            strangers: &[0, 4, 65536 + 3],
        },
    ]
}

/// A net's number is not its list place, from 0 or from 1, nor its rank; the
/// first and the last number are numbers as others.
fn by_number() -> Vec<Taken> {
    let mut ends = same_channel(2, 0, 2);
    ends.records[0].number = 65535;
    ends.records[1].number = 0;
    vec![
        Taken {
            sheet: listed(&[(3, &[0, 5]), (1, &[0, 1]), (2, &[1, 5])]),
            ticket: &[2, 2, 0, 0, 1, 1],
            left: &[
                (3, &[UP, UP, 0, 0, 1, 1]),
                (1, &[2, 2, UP, UP, 1, 1]),
                (2, &[2, 2, 0, 0, UP, UP]),
            ],
            strangers: &[0, 4],
        },
        Taken {
            sheet: listed(&[(500, &[6]), (2, &[0, 1, 5]), (1, &[3])]),
            ticket: &[2, 1, 1, 1, 0],
            left: &[
                (500, &[UP, 1, 1, 1, 0]),
                (2, &[2, UP, UP, UP, 0]),
                (1, &[2, 1, 1, 1, UP]),
            ],
            strangers: &[0, 3, 500 - 256, 499, 501, 65536 + 500],
        },
        Taken {
            sheet: ends.bytes(),
            ticket: &[1, 0],
            left: &[(65535, &[UP, 0]), (0, &[1, UP])],
            strangers: &[1, 2, 65534, 65536, 65536 + 65535, u32::MAX],
        },
    ]
}

/// Nets on T's chip in this order, kind 0, W 3: partners have equal tracks.
fn listed(nets: &[(u32, &[u16])]) -> Vec<u8> {
    let net = |&(number, channels): &(u32, &[u16])| Net::chain(number, channels);
    let nets = nets.iter().map(net).collect();
    Design::new(Grid::new(3, 2), 0, 3, nets).list().bytes()
}

/// The tickets of m4 and m5 inside, in which a net's tracks differ; sheets that are
/// unroutable and overloaded, as nothing is searched.
fn of_others() -> Vec<Taken> {
    vec![
        Taken {
            sheet: t_inside_raw(2, 2).bytes(),
            ticket: &[0, 0, 1, 1, 1, 0],
            left: &[(1, &[UP, UP, 1, 1, 1, 0]), (3, &[0, 0, 1, 1, UP, UP])],
            strangers: &[4],
        },
        Taken {
            sheet: t_inside_raw(1, 2).bytes(),
            ticket: &[0, 0, 1, 0, 1, 1],
            left: &[(2, &[0, 0, UP, UP, 1, 1]), (3, &[0, 0, 1, 0, UP, UP])],
            strangers: &[4],
        },
        Taken {
            sheet: T.to_vec(),
            ticket: &[0, 0, 1, 1, UP, UP],
            left: &[(1, &[UP, UP, 1, 1, UP, UP]), (3, &[0, 0, 1, 1, UP, UP])],
            strangers: &[4],
        },
        Taken {
            sheet: same_channel(3, 0, 2).bytes(),
            ticket: &[1, UP, 0],
            left: &[(1, &[UP, UP, 0]), (2, &[1, UP, 0]), (3, &[1, UP, UP])],
            strangers: &[4],
        },
    ]
}

/// 9 and 17 at once, and two nets of the number.
fn bad_sheet() -> Vec<Case> {
    let mut raw = t_raw(0, 3);
    raw.records[2].number = 1;
    let sheet = || raw.bytes();
    let ticket = [0, 0, 1, 1, 2, 2];
    vec![
        Case::refused("9 and 17", sheet(), remove(&ticket, 3, 6), 9),
        Case::refused("9 and 10 to 17", sheet(), remove(&[0, 0], 3, 0), 9),
        Case::refused("9", sheet(), remove(&ticket, 1, 6), 9),
    ]
}

/// Without nets every number is a stranger, and no output is too short.
fn no_nets() -> Vec<Case> {
    let empty = || Raw::new(3, 2, 1, 7, Vec::new()).bytes();
    let mut all = Vec::new();
    for net in [0, 1, 65535, 65536, u32::MAX] {
        all.push(Case::refused("17", empty(), remove(&[], net, 0), 17));
        all.push(Case::refused("17", empty(), remove(&[], net, 4), 17));
        let one = remove(&[UP], net, 0);
        all.push(Case::refused("10 and 17", empty(), one, 10));
    }
    all
}
