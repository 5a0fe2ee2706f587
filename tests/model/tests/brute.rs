//! The model's search, and taking a net out, against brute force on small sheets
//! by chance.

use model::brute::{self, strings, Settled};
use model::dead::Dead;
use model::sheet::{parse, Sheet};
use model::{ticket, Answer};
use sheets::paper::{t_inside_raw, t_raw};
use sheets::{random, Raw, Rng};

const PLENTY: u32 = u32::MAX;

fn settled(room: usize, call: impl FnOnce(&mut [u8]) -> Answer) -> Settled {
    let mut out = vec![0; room];
    let answer = call(&mut out);
    if answer.number != 0 {
        out.clear();
    }
    Settled {
        answer,
        ticket: out,
    }
}

/// Chance sheets with their bytes.
fn sheets_by_chance(seed: u64, count: usize) -> impl Iterator<Item = (Vec<u8>, Sheet)> {
    let mut rng = Rng::new(seed);
    (0..count).map(move |_| {
        let bytes = random::small(&mut rng).relist(&mut rng).bytes();
        let sheet = parse(&bytes).expect("a good sheet");
        (bytes, sheet)
    })
}

#[test]
fn route_is_first_or_none() {
    let mut seen = [0, 0];
    for (bytes, sheet) in sheets_by_chance(1, 1500) {
        let by_search = settled(sheet.entry_count(), |out| {
            model::route(&bytes, &[], PLENTY, out)
        });
        if let Some(by_force) = brute::route(&sheet, &[]) {
            assert_eq!(by_search, by_force, "{sheet:?}");
            seen[usize::from(by_force.answer.number == 0)] += 1;
        }
    }
    assert!(seen[0] > 100 && seen[1] > 100, "{seen:?}");
}

#[test]
fn least_is_least() {
    let mut seen = 0;
    for (bytes, sheet) in sheets_by_chance(2, 1000) {
        let by_search = settled(sheet.entry_count(), |out| {
            model::least(&bytes, &[], PLENTY, out)
        });
        if let Some(by_force) = brute::least(&sheet, &[]) {
            assert_eq!(by_search, by_force, "{sheet:?}");
            seen += 1;
        }
    }
    assert!(seen > 500, "{seen}");
}

#[test]
fn refit_moves_the_fewest() {
    let mut rng = Rng::new(3);
    let mut moved = [0; 8];
    for (bytes, sheet) in sheets_by_chance(4, 3000) {
        let old = old_ticket(&sheet, &mut rng);
        let refit = |out: &mut [u8]| model::refit(&bytes, &[], &old, PLENTY, out);
        let by_search = settled(sheet.entry_count(), refit);
        if let Some(by_force) = brute::refit(&sheet, &[], &old) {
            assert_eq!(by_search, by_force, "{sheet:?} {old:?}");
            moved[by_force.answer.moved as usize] += 1;
        }
    }
    assert!(moved[0] > 100 && moved[1] > 20 && moved[2] > 2, "{moved:?}");
}

/// An old ticket that is accepted: nets with chance home tracks as far as they
/// do not clash, the others unplaced.
fn old_ticket(sheet: &Sheet, rng: &mut Rng) -> Vec<u8> {
    let homes: Vec<u32> = sheet
        .nets
        .iter()
        .map(|_| rng.below(sheet.width as usize) as u32)
        .collect();
    let full = model::lay::ticket(sheet, sheet.width, &homes);
    let mut old = vec![255; full.len()];
    for net in &sheet.nets {
        let own = net.first..net.first + net.channels.len();
        old[own.clone()].copy_from_slice(&full[own.clone()]);
        let accepted = ticket::right_where_placed(sheet, &Dead::default(), &old).is_ok();
        if !accepted || rng.chance(1, 10) {
            old[own].fill(255);
        }
    }
    old
}

/// Whatever bytes are chosen: a sheet has a right ticket among all of them
/// exactly if Route finds one.
#[test]
fn no_bytes_beat_unroutable() {
    let mut tried = 0;
    for (bytes, sheet) in sheets_by_chance(5, 1500) {
        let count = sheet.entry_count();
        let most = u64::from(sheet.width + 1).pow(count.min(20) as u32);
        if most > 5000 {
            continue;
        }
        let all = strings(sheet.width + 1, count);
        let some = all
            .iter()
            .any(|ticket| model::check(&bytes, &[], ticket) == 0);
        let answer = model::route(&bytes, &[], PLENTY, &mut vec![0; count]);
        assert_eq!(some, answer.number == 0, "{sheet:?}");
        tried += 1;
    }
    assert!(tried > 300, "{tried}");
}

/// M-100 beside brute force, which is given back.
fn remove_both(
    bytes: &[u8],
    sheet: &Sheet,
    ticket: &[u8],
    net: u32,
    room: usize,
) -> (u32, Vec<u8>) {
    let before: Vec<u8> = (0..room).map(|place| 100 + place as u8).collect();
    let mut out = before.clone();
    let number = model::remove(bytes, ticket, net, &mut out);
    let by_force = brute::remove(sheet, ticket, net, &before).expect("a small sheet");
    assert_eq!((number, out), by_force, "{sheet:?} {ticket:?} {net} {room}");
    by_force
}

#[test]
fn remove_is_what_the_table_tells() {
    let mut rng = Rng::new(9);
    let mut seen = [0; 18];
    for (bytes, sheet) in sheets_by_chance(10, 10_000) {
        let ticket = any_ticket(&sheet, &mut rng);
        let net = any_number(&sheet, &mut rng);
        let room = (sheet.entry_count() + rng.below(8)).saturating_sub(2);
        let (number, _) = remove_both(&bytes, &sheet, &ticket, net, room);
        seen[number as usize] += 1;
    }
    let all = [0, 10, 11, 12, 13, 14, 17];
    assert!(all.iter().all(|&number| seen[number] > 100), "{seen:?}");
}

/// An accepted ticket, or one with a chance fault or two.
fn any_ticket(sheet: &Sheet, rng: &mut Rng) -> Vec<u8> {
    let mut ticket = old_ticket(sheet, rng);
    let width = sheet.width as u8;
    while !ticket.is_empty() && rng.chance(1, 2) {
        let place = rng.below(ticket.len());
        let net = rng.pick(&sheet.nets);
        match rng.below(6) {
            0 => ticket[place] = *rng.pick(&[width, 254, 255]),
            1 => ticket[place] = rng.below(sheet.width as usize) as u8,
            2 => ticket.push(rng.byte()),
            3 => ticket.truncate(place),
            _ => {
                let home = rng.below(sheet.width as usize);
                let lay = &model::lay::lays(sheet, sheet.width, net)[home];
                let own = ticket.iter_mut().skip(net.first);
                own.zip(lay).for_each(|(byte, track)| *byte = *track);
            }
        }
    }
    ticket
}

/// A number of the sheet, one near it, or one with the same low 16 bits.
fn any_number(sheet: &Sheet, rng: &mut Rng) -> u32 {
    let number = match sheet.nets.len() {
        0 => 0,
        count => sheet.nets[rng.below(count)].number,
    };
    match rng.below(8) {
        0 => number.wrapping_add(1),
        1 => number.wrapping_sub(1),
        2 => number.wrapping_add(65536 * rng.between(1, 65535) as u32),
        3 => rng.below(sheet.nets.len() + 1) as u32,
        _ => number,
    }
}

/// Every ticket of a T at W 2 with bytes 0, 1, 2 and 255, for all kinds, with three
/// nets and three strangers, one output too short and two long enough.
///
/// By hand: of a net's 16 pairs of bytes 4 are below W and one is unplaced; 2 of
/// the 4 are its ways. Any two nets share one channel, so 2 of their 4 choices do
/// not clash: with at most two nets placed 1 + 3·2 + 3·2 tickets are accepted. With
/// three placed, `full` tickets are, over all kinds together.
fn remove_on_every_ticket(t: fn(u8, u8) -> Raw, full: usize) {
    let mut seen = [0; 18];
    for kind in 0..3 {
        let bytes = t(kind, 2).bytes();
        let sheet = parse(&bytes).expect("a good sheet");
        for string in strings(4, 6) {
            let ticket: Vec<u8> = string.iter().map(|&b| [0, 1, 2, 255][b as usize]).collect();
            for net in [0, 1, 2, 3, 4, 65536 + 1] {
                for room in [5, 6, 7] {
                    let (number, _) = remove_both(&bytes, &sheet, &ticket, net, room);
                    seen[number as usize] += 1;
                }
            }
        }
    }
    let accepted = 3 * 13 + full;
    let mut told = [0; 18];
    told[0] = accepted * 3 * 2;
    told[11] = 3 * (16 * 16 * 16 - 5 * 5 * 5) * 18;
    told[12] = 3 * (5 * 5 * 5 - 3 * 3 * 3) * 18;
    told[13] = (3 * 3 * 3 * 3 - accepted) * 18;
    told[14] = accepted * 3;
    told[17] = accepted * 3 * 3;
    assert_eq!(seen, told);
}

/// T is unroutable at W 2 with every kind, 02 M-104.
#[test]
fn remove_on_every_ticket_of_t() {
    remove_on_every_ticket(t_raw, 0);
}

/// Inside, kinds 1 and 2 have m5's and m4's tickets, and each of these with the
/// other track everywhere.
#[test]
fn remove_on_every_ticket_inside() {
    remove_on_every_ticket(t_inside_raw, 2 + 2);
}

/// Where Refit placed just one new net and moved none, M-100 gives back the old
/// ticket.
#[test]
fn remove_is_the_way_back() {
    let mut rng = Rng::new(11);
    let mut seen = 0;
    for (bytes, sheet) in sheets_by_chance(12, 3000) {
        let old = old_ticket(&sheet, &mut rng);
        let unplaced = |net: &&model::sheet::Net| ticket::is_unplaced(net, &old);
        let new: Vec<_> = sheet.nets.iter().filter(unplaced).collect();
        let mut full = vec![0; old.len()];
        let answer = model::refit(&bytes, &[], &old, PLENTY, &mut full);
        if new.len() == 1 && (answer.number, answer.moved) == (0, 0) {
            let mut out = vec![0; old.len()];
            let number = model::remove(&bytes, &full, new[0].number, &mut out);
            assert_eq!((number, &out), (0, &old), "{sheet:?}");
            seen += 1;
        }
    }
    assert!(seen > 100, "{seen}");
}
