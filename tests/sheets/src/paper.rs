//! The paper's own cases: m1 to m12, as 02 M-104 has them, and "Others".

use crate::case::{Ask, Case, Told};
use crate::design::{Design, Net};
use crate::grid::Grid;
use crate::raw::{Raw, Record, ROOT};

/// Sheet T, byte for byte as printed.
pub const T: [u8; 54] = [
    0x01, 0x00, 0x02, 0x00, 0x00, 0x00, 0xFF, 0xFF, 0x01, 0x00, 0x00, 0x00, 0x02, 0x00, 0x02, 0x00,
    0x01, 0x00, 0xFF, 0xFF, 0x05, 0x00, 0x00, 0x00, 0x03, 0x00, 0x02, 0x00, 0x00, 0x00, 0xFF, 0xFF,
    0x05, 0x00, 0x00, 0x00, 0x00, 0x00, 0x0C, 0x00, 0x18, 0x00, 0x03, 0x02, 0x00, 0x02, 0x03, 0x00,
    0x24, 0x00, 0x36, 0x00, 0x57, 0x48,
];

/// Sheet T under the second mark, by hand: each record has two bytes more behind its
/// net number, the directory stands at 42, and the length is 60.
pub const T_LONG: [u8; 60] = [
    0x01, 0x00, 0x00, 0x00, 0x02, 0x00, 0x00, 0x00, 0xFF, 0xFF, 0x01, 0x00, 0x00, 0x00, 0x02, 0x00,
    0x00, 0x00, 0x02, 0x00, 0x01, 0x00, 0xFF, 0xFF, 0x05, 0x00, 0x00, 0x00, 0x03, 0x00, 0x00, 0x00,
    0x02, 0x00, 0x00, 0x00, 0xFF, 0xFF, 0x05, 0x00, 0x00, 0x00, 0x00, 0x00, 0x0E, 0x00, 0x1C, 0x00,
    0x03, 0x02, 0x00, 0x02, 0x03, 0x00, 0x2A, 0x00, 0x3C, 0x00, 0x57, 0x49,
];

/// Sheet T, W 2, as kind 3 with Wilton's rows, by hand: the rows stand before the
/// trailer, and the length is 66.
pub const T_WILTON_ROWS: [u8; 66] = [
    0x01, 0x00, 0x02, 0x00, 0x00, 0x00, 0xFF, 0xFF, 0x01, 0x00, 0x00, 0x00, 0x02, 0x00, 0x02, 0x00,
    0x01, 0x00, 0xFF, 0xFF, 0x05, 0x00, 0x00, 0x00, 0x03, 0x00, 0x02, 0x00, 0x00, 0x00, 0xFF, 0xFF,
    0x05, 0x00, 0x00, 0x00, 0x00, 0x00, 0x0C, 0x00, 0x18, 0x00, 0x00, 0x00, 0x00, 0x00, 0x01, 0x00,
    0x00, 0x01, 0x01, 0xFE, 0x00, 0x01, 0x03, 0x02, 0x03, 0x02, 0x03, 0x00, 0x24, 0x00, 0x42, 0x00,
    0x57, 0x48,
];

/// What the least-width program prints for T.
pub const T_LINES: &str = "answer 0 width 3 trials 16\n1 0.0 1.0\n2 1.1 5.1\n3 0.2 5.2\n";

/// Sheet T as a design, with another kind and width.
pub fn t_design(kind: u8, width: u8) -> Design {
    let nets = vec![
        Net::chain(1, &[0, 1]),
        Net::chain(2, &[1, 5]),
        Net::chain(3, &[0, 5]),
    ];
    Design::new(Grid::new(3, 2), kind, width, nets)
}

pub fn t_raw(kind: u8, width: u8) -> Raw {
    t_design(kind, width).list()
}

/// Sheet T on a 4 by 4 chip, channels 3, 4, 17 for 0, 1, 5: they are left of, right
/// of and on top of the box at (1, 1), which has four channels.
pub fn t_inside_design(kind: u8, width: u8) -> Design {
    let nets = vec![
        Net::chain(1, &[3, 4]),
        Net::chain(2, &[4, 17]),
        Net::chain(3, &[3, 17]),
    ];
    Design::new(Grid::new(4, 4), kind, width, nets)
}

pub fn t_inside_raw(kind: u8, width: u8) -> Raw {
    t_inside_design(kind, width).list()
}

/// `count` nets, numbered from 1, that each have one channel of a 3 by 2 chip.
pub fn same_channel(count: u32, channel: u16, width: u8) -> Raw {
    let record = |number| Record::new(number, &[(channel, ROOT)]);
    Raw::new(3, 2, 0, width, (1..=count).map(record).collect())
}

/// Any budget that is more than enough.
const PLENTY: u32 = 1_000_000;

fn route(budget: u32) -> Ask {
    Ask::Route { budget, room: 8 }
}

fn least(budget: u32) -> Ask {
    Ask::Least { budget, room: 8 }
}

fn given_up(number: u32, trials: u32) -> Told {
    Told::refusal(&route(0), number, trials)
}

/// The marked cases, and m4 and m5 inside.
pub fn marked() -> Vec<Case> {
    let mut all = printed();
    all.extend(inside());
    all
}

/// m4 and m5 on the 4 by 4 chip. Net 1 takes 3.0 and 4.0 (trial 1), net 2 finds 4.0
/// held (2) and takes 4.1 (3), net 3 finds 3.0 held (4) and takes 3.1 (5). Channel
/// 17 is on top: with kind 2, right 1 is top 1 and left 1 is top 0; with kind 1,
/// right 1 is top 0, of which it is one more, and left 1 is top 2 − 1.
pub fn inside() -> Vec<Case> {
    let at = |kind| t_inside_raw(kind, 2).bytes();
    let told = |ticket: [u8; 6]| Told::found(2, 5, 0, &ticket);
    vec![
        Case::new("m4 inside", at(2), route(5), told([0, 0, 1, 1, 1, 0])),
        Case::new("m5 inside", at(1), route(5), told([0, 0, 1, 0, 1, 1])),
    ]
}

fn printed() -> Vec<Case> {
    let t = |kind, width| t_raw(kind, width).bytes();
    let inside = |kind| t_inside_raw(kind, 2).bytes();
    let empty = || Raw::new(3, 2, 0, 2, Vec::new()).bytes();
    let m7 = Design::new(
        Grid::new(3, 2),
        0,
        2,
        vec![
            Net::chain(1, &[0]),
            Net::chain(2, &[1]),
            Net::chain(3, &[0, 1]),
        ],
    );
    let m7_ask = Ask::Refit {
        old: vec![0, 1, 255, 255],
        budget: PLENTY,
        room: 8,
    };
    let mut m11 = t_raw(0, 2);
    m11.records[1].entries[1].1 = 1;
    let check = |ticket: &[u8]| Ask::Check {
        ticket: ticket.to_vec(),
    };
    vec![
        Case::new("m1", T.to_vec(), route(10), given_up(15, 10)),
        Case::new("m2", T.to_vec(), route(9), given_up(16, 9)),
        Case::new(
            "m3",
            t(0, 3),
            route(PLENTY),
            Told::found(3, 6, 0, &[0, 0, 1, 1, 2, 2]),
        ),
        // All boxes of T's chip have fewer than four channels.
        Case::new("m4", t(2, 2), route(10), given_up(15, 10)),
        Case::new("m5", t(1, 2), route(10), given_up(15, 10)),
        Case::new(
            "m6",
            T.to_vec(),
            least(PLENTY),
            Told::found(3, 16, 0, &[0, 0, 1, 1, 2, 2]),
        ),
        Case::new(
            "m7",
            m7.list().bytes(),
            m7_ask,
            Told::found(2, 10, 1, &[0, 0, 1, 1]),
        ),
        Case::new("m8 Route", empty(), route(0), Told::found(2, 0, 0, &[])),
        Case::new("m8 Least", empty(), least(0), Told::found(1, 0, 0, &[])),
        Case::new(
            "m9",
            same_channel(3, 0, 2).bytes(),
            route(0),
            given_up(15, 0),
        ),
        Case::refused("m10", inside(2), check(&[0, 0, 1, 0, 1, 1]), 12),
        Case::refused("m11", m11.bytes(), Ask::Read, 8),
        Case::refused("m12", T.to_vec(), check(&[0, 0, 1, 1, 1]), 10),
    ]
}

/// "Others": W 32 and 33, A 1 and 17, 65 nets, 33 entries.
pub fn others() -> Vec<Case> {
    let chip = |columns: u8, width: u8| {
        let mut raw = t_raw(0, width);
        raw.columns = columns;
        raw.bytes()
    };
    let good = Told::Counts {
        number: 0,
        nets: 3,
        entries: 6,
    };
    vec![
        Case::new("W 32", chip(3, 32), Ask::Read, good),
        Case::refused("W 33", chip(3, 33), Ask::Read, 3),
        Case::refused("A 1", chip(1, 2), Ask::Read, 3),
        Case::refused("A 17", chip(17, 2), Ask::Read, 3),
        Case::refused("65 nets", same_channel(65, 0, 2).bytes(), Ask::Read, 4),
        Case::refused("33 entries", long_net(33).bytes(), Ask::Read, 5),
    ]
}

/// One net of `count` channels in a row, up and down the columns of a 16 by 16 chip.
pub fn long_net(count: usize) -> Raw {
    let grid = Grid::new(16, 16);
    let mut channels = Vec::new();
    for c in 0..15 {
        let column: Vec<u16> = (0..15).map(|r| grid.top_of(c, r)).collect();
        if c % 2 == 0 {
            channels.extend(column);
            channels.push(grid.right_of(c, 15));
        } else {
            channels.extend(column.iter().rev());
            channels.push(grid.right_of(c, 0));
        }
    }
    let net = Net::chain(7, &channels[..count]);
    Design::new(grid, 0, 2, vec![net]).list()
}

#[cfg(test)]
mod tests {
    use super::{t_raw, T, T_LONG};
    use crate::mark::Mark;

    #[test]
    fn t_is_laid_out_as_printed() {
        assert_eq!(t_raw(0, 2).bytes(), T);
        assert_eq!(t_raw(0, 2).marked(Mark::Long).bytes(), T_LONG);
    }
}
