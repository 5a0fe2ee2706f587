//! Lists that are refused with 19 or 20: each alone, both at once, and beside the
//! numbers before and after them. The chip is T's, 3 by 2, with channels 0 to 6, or
//! 16 by 16.

use super::{check, list, refit, Wire};
use crate::case::{Ask, Case};
use crate::paper::t_raw;
use crate::raw::{Raw, Record, ROOT};
use crate::refusals;

/// A list that every call on T refuses with this number, at any W.
struct Bad {
    number: u32,
    name: String,
    dead: Vec<u8>,
}

impl Bad {
    fn new(number: u32, name: impl Into<String>, dead: Vec<u8>) -> Self {
        Bad {
            number,
            name: name.into(),
            dead,
        }
    }
}

pub fn cases() -> Vec<Case> {
    let mut all = Vec::new();
    let mut bad = left_over();
    bad.extend(unknown());
    bad.extend(repeated());
    bad.extend(both());
    for bad in &bad {
        all.extend(asked(bad));
    }
    all.extend(large_chip());
    all.extend(no_nets());
    all.extend(after_the_sheet());
    all
}

/// The list through every call that takes one, at some widths: with a right ticket,
/// with 10, 11, 12 or 13 for the ticket, with 14 and with 16.
fn asked(bad: &Bad) -> Vec<Case> {
    let mut all = Vec::new();
    for width in [3, 32] {
        let asks = [
            check(&[0, 0, 1, 1, 2, 2]),
            check(&[0, 0, 1, 1, 2]),
            check(&[0, 0, 1, 1, 2, 32]),
            check(&[0, 1, 1, 1, 2, 2]),
            check(&[0; 6]),
            check(&[]),
            Ask::Route { budget: 9, room: 6 },
            Ask::Route { budget: 0, room: 5 },
            Ask::Least {
                budget: 99,
                room: 6,
            },
            Ask::Least { budget: 0, room: 0 },
            refit(&[0, 0, 1, 1, 2, 2], 9, 6),
            refit(&[255; 6], 9, 5),
            refit(&[255; 5], 0, 6),
            refit(&[0; 6], 0, 0),
        ];
        let sheet = || t_raw(0, width).bytes();
        let case = |ask| Case::refused(&*bad.name, sheet(), ask, bad.number).under(&bad.dead);
        all.extend(asks.map(case));
    }
    all
}

/// One or two bytes left over, after no item, one and two. Cut off, they would leave
/// a good list; as an item filled up with zeros they would be one more.
fn left_over() -> Vec<Bad> {
    let mut all = Vec::new();
    for items in [&[][..], &[(6, 31)], &[(2, 1), (3, 0)]] {
        for left in [&[0][..], &[4], &[255], &[0, 0], &[6, 0], &[255, 255]] {
            let name = format!("{} items and {left:?}", items.len());
            all.push(Bad::new(19, name, [&list(items), left].concat()));
        }
    }
    all
}

/// A channel over 6 or a track over 31: alone, and first, between and last among
/// good items. 256 is 0 in its low byte; 1,792 is 7 in its high byte.
fn unknown() -> Vec<Bad> {
    let channels = [7, 8, 31, 32, 255, 256, 263, 479, 480, 1792, 65535];
    let tracks = [32, 33, 63, 64, 128, 254, 255];
    let channels = channels.map(|channel| (channel, 0));
    let tracks = tracks.map(|track| (6, track));
    let also = [(7, 31), (7, 32), (0, 32), (65535, 255)];
    let mut all = Vec::new();
    for &wire in channels.iter().chain(&tracks).chain(&also) {
        let name = format!("{wire:?}");
        all.push(Bad::new(19, &*name, list(&[wire])));
        let good = [(4, 0), (3, 31)];
        for place in 0..3 {
            let mut items = good.to_vec();
            items.insert(place, wire);
            let name = format!("{name} at place {place}");
            all.push(Bad::new(19, name, list(&items)));
        }
    }
    all
}

/// A wire twice: beside each other and apart, below W and above.
fn repeated() -> Vec<Bad> {
    let every = |tracks: std::ops::Range<u8>| {
        let of = |channel: u16| tracks.clone().map(move |track| (channel, track));
        (0..7).flat_map(of).collect::<Vec<Wire>>()
    };
    let again = |mut wires: Vec<Wire>, place: usize| {
        wires.push(wires[place]);
        list(&wires)
    };
    let (a, b, c) = ((2, 5), (3, 5), (2, 6));
    vec![
        Bad::new(20, "a a", list(&[a, a])),
        Bad::new(20, "a b a", list(&[a, b, a])),
        Bad::new(20, "a c a", list(&[a, c, a])),
        Bad::new(20, "b a c a", list(&[b, a, c, a])),
        Bad::new(20, "a b c b", list(&[a, b, c, b])),
        Bad::new(20, "a b c a", list(&[a, b, c, a])),
        Bad::new(20, "a a a", list(&[a, a, a])),
        Bad::new(20, "0.0 twice", list(&[(0, 0), (0, 0)])),
        Bad::new(20, "0.0 twice, apart", list(&[(0, 0), (6, 31), (0, 0)])),
        Bad::new(20, "6.31 twice", list(&[(6, 31), (6, 31)])),
        Bad::new(20, "6.31 twice, apart", list(&[(6, 31), (0, 0), (6, 31)])),
        Bad::new(20, "all, first again", again(every(0..32), 0)),
        Bad::new(20, "all, last again", again(every(0..32), 223)),
        Bad::new(20, "all above 3, one again", again(every(4..32), 100)),
        Bad::new(
            20,
            "all twice",
            list(&[every(0..32), every(0..32)].concat()),
        ),
    ]
}

/// 19 and 20 at once: what is repeated is bad itself, or something else is.
fn both() -> Vec<Bad> {
    let (a, b) = ((2, 5), (3, 5));
    let twice = list(&[a, b, a]);
    vec![
        Bad::new(19, "an unknown channel twice", list(&[(7, 0), (7, 0)])),
        Bad::new(19, "a track over 31 twice", list(&[(0, 32), b, (0, 32)])),
        Bad::new(19, "repeat, then channel", list(&[a, a, (7, 0)])),
        Bad::new(19, "repeat, then track", list(&[a, b, a, (6, 32)])),
        Bad::new(19, "channel, then repeat", list(&[(480, 1), a, a])),
        Bad::new(19, "track, then repeat", list(&[(0, 255), a, b, a])),
        Bad::new(19, "repeat and one byte", [&twice[..], &[2]].concat()),
        Bad::new(19, "repeat and two bytes", [&twice[..], &[2, 0]].concat()),
        // Two thirds of a repeated item.
        Bad::new(19, "an item and its start", list(&[a, a])[..5].to_vec()),
    ]
}

/// On 16 by 16 the last channel is 479. Lists of more than 65,535 bytes repeat
/// something, as there are 15,360 wires; their length is not cut to 16 bits.
fn large_chip() -> Vec<Case> {
    let net = Record::new(1, &[(0, ROOT)]);
    let sheet = Raw::new(16, 16, 0, 2, vec![net]).bytes();
    let every: Vec<Wire> = (0..480)
        .flat_map(|channel| (0..32).map(move |track| (channel, track)))
        .collect();
    let cut = |length: usize| list(&every.repeat(2))[..length].to_vec();
    let mut once_more = every.clone();
    once_more.push((479, 31));
    let lists = [
        Bad::new(19, "480.0", list(&[(480, 0)])),
        Bad::new(19, "479.32", list(&[(479, 32)])),
        Bad::new(20, "257.3 twice", list(&[(257, 3), (1, 3), (257, 3)])),
        Bad::new(20, "all wires, 479.31 again", list(&once_more)),
        Bad::new(20, "65,538 bytes", cut(65538)),
        Bad::new(19, "65,537 bytes", cut(65537)),
        Bad::new(19, "65,539 bytes", cut(65539)),
        Bad::new(20, "all wires twice", cut(92160)),
    ];
    let mut all = Vec::new();
    for bad in &lists {
        let asks = [
            check(&[0]),
            Ask::Route { budget: 9, room: 1 },
            Ask::Least { budget: 9, room: 0 },
            refit(&[255], 9, 1),
        ];
        let case = |ask| Case::refused(&*bad.name, sheet.clone(), ask, bad.number);
        all.extend(asks.map(|ask| case(ask).under(&bad.dead)));
    }
    all
}

/// The list is tested though no net can miss a wire.
fn no_nets() -> Vec<Case> {
    let sheet = || Raw::new(2, 2, 1, 7, Vec::new()).bytes();
    let mut all = Vec::new();
    for (number, dead) in [
        (19, vec![0]),
        (19, list(&[(4, 0)])),
        (19, list(&[(3, 32)])),
        (20, list(&[(3, 31), (3, 31)])),
    ] {
        let asks = [
            check(&[]),
            check(&[0]),
            Ask::Route { budget: 0, room: 0 },
            Ask::Least { budget: 0, room: 0 },
            refit(&[], 0, 0),
        ];
        let case = |ask| Case::refused("no nets", sheet(), ask, number).under(&dead);
        all.extend(asks.map(case));
    }
    all
}

/// Every sheet that is refused, with a list that is bad too: the sheet's number comes
/// first, 9 and 18 among them.
fn after_the_sheet() -> Vec<Case> {
    let lists = [
        list(&[(480, 0)]),
        list(&[(0, 32)]),
        vec![1],
        list(&[(0, 0), (0, 0)]),
        list(&[(7, 0), (7, 0), (0, 33)])[..8].to_vec(),
    ];
    let mut all = Vec::new();
    for (place, fault) in refusals::faults().iter().enumerate() {
        let dead = &lists[place % lists.len()];
        let asks = [
            check(&[0, 0, 1, 1, 2, 255]),
            Ask::Route { budget: 9, room: 0 },
            Ask::Least { budget: 9, room: 6 },
            refit(&[], 0, 0),
        ];
        let often = matches!(fault.number, 9 | 18);
        for (turn, ask) in asks.into_iter().enumerate() {
            if often || turn == place % 4 {
                let name = format!("{}, beside a bad list", fault.name);
                let case = Case::refused(name, fault.sheet.clone(), ask, fault.number);
                all.push(case.under(dead));
            }
        }
    }
    all
}
