//! 02 M-105: searches and checks beside lists of dead wires, against brute force on
//! small sheets by chance.

mod lists;

use lists::{list, old_ticket, own, place, small, Wire, STYLES};
use model::brute::{self, strings, Settled};
use model::sheet::Sheet;
use model::{brute_table, Answer};
use sheets::Rng;

const PLENTY: u32 = u32::MAX;

/// The call's answer with plenty of budget, and what it wrote. With just enough it is
/// the same, with one trial less it is spent.
fn settled(room: usize, call: impl Fn(u32, &mut [u8]) -> Answer) -> Settled {
    let run = |budget| {
        let mut out = vec![0; room];
        let answer = call(budget, &mut out);
        if answer.number != 0 {
            out.clear();
        }
        Settled {
            answer,
            ticket: out,
        }
    };
    let all = run(PLENTY);
    let trials = all.answer.trials;
    assert_eq!(run(trials), all);
    if trials > 0 {
        let spent = run(trials - 1).answer;
        assert_eq!((spent.number, spent.trials), (16, trials - 1));
    }
    all
}

/// What was seen, for each style of list.
#[derive(Default)]
struct Seen {
    found: [u32; STYLES.len()],
    searched: [u32; STYLES.len()],
    overloaded: [u32; STYLES.len()],
    changed: [u32; STYLES.len()],
}

impl Seen {
    fn note(&mut self, style: usize, told: &Answer, without: &Answer) {
        match (told.number, told.trials) {
            (0, _) => self.found[style] += 1,
            (_, 0) => self.overloaded[style] += 1,
            _ => self.searched[style] += 1,
        }
        self.changed[style] += u32::from(told != without);
    }

    /// Every style was seen this often, a search in vain too, and the list mattered
    /// except where it has no item below the width.
    fn hold(&self, [least, vain, least_changed]: [u32; 3], inert: &[&str]) {
        for (style, name) in STYLES.iter().enumerate() {
            let row = [self.found, self.searched, self.overloaded, self.changed].map(|s| s[style]);
            assert!(row[..3].iter().sum::<u32>() > least, "{name}: {row:?}");
            match inert.contains(name) {
                true => assert_eq!(row[3], 0, "{name}"),
                false => assert!(row[3] > least_changed, "{name}: {row:?}"),
            }
        }
        let sum = |of: [u32; STYLES.len()]| of.iter().sum::<u32>();
        let sums = [self.found, self.searched, self.overloaded].map(sum);
        let enough = sums[0] > 200 && sums[1] > vain && sums[2] > 200;
        assert!(enough, "{sums:?}");
    }
}

#[test]
fn route_is_first_or_none() {
    let mut seen = Seen::default();
    for (style, bytes, sheet, dead) in small(100, 10_500) {
        let count = sheet.entry_count();
        let Some(by_force) = brute::route(&sheet, &dead) else {
            continue;
        };
        let by_search = settled(count, |b, out| model::route(&bytes, &dead, b, out));
        assert_eq!(by_search, by_force, "{sheet:?} {dead:?}");
        let without = model::route(&bytes, &[], PLENTY, &mut vec![0; count]);
        seen.note(style, &by_force.answer, &without);
    }
    seen.hold([1000, 200, 200], &["empty", "at and above W"]);
}

#[test]
fn least_is_least() {
    let mut seen = Seen::default();
    let mut wide = 0;
    for (style, bytes, sheet, dead) in small(107, 7000) {
        let count = sheet.entry_count();
        let Some(by_force) = brute::least(&sheet, &dead) else {
            continue;
        };
        let by_search = settled(count, |b, out| model::least(&bytes, &dead, b, out));
        assert_eq!(by_search, by_force, "{sheet:?} {dead:?}");
        let without = model::least(&bytes, &[], PLENTY, &mut vec![0; count]);
        seen.note(style, &by_force.answer, &without);
        wide += u32::from(by_force.answer.width > sheet.width);
    }
    assert!(wide > 100, "{wide}");
    // In vain up to 32: that is small enough for one or two nets only.
    seen.hold([250, 5, 10], &["empty"]);
}

#[test]
fn refit_moves_the_fewest() {
    let mut rng = Rng::new(102);
    let mut seen = Seen::default();
    let mut moved = [0; 8];
    for (style, bytes, sheet, dead) in small(103, 10_500) {
        let old = old_ticket(&sheet, &dead, &mut rng);
        let count = sheet.entry_count();
        let Some(by_force) = brute::refit(&sheet, &dead, &old) else {
            continue;
        };
        let by_search = settled(count, |b, out| model::refit(&bytes, &dead, &old, b, out));
        assert_eq!(by_search, by_force, "{sheet:?} {dead:?} {old:?}");
        let without = model::refit(&bytes, &[], &old, PLENTY, &mut vec![0; count]);
        seen.note(style, &by_force.answer, &without);
        moved[by_force.answer.moved as usize] += 1;
    }
    assert!(
        moved[0] > 1000 && moved[1] > 100 && moved[2] > 20,
        "{moved:?}"
    );
    seen.hold([1000, 200, 100], &["empty", "at and above W"]);
}

/// Whatever bytes are chosen: a sheet has a right ticket among all of them exactly if
/// Route finds one, without these wires.
#[test]
fn no_bytes_beat_unroutable() {
    let mut seen = [0, 0];
    for (_, bytes, sheet, dead) in small(107, 7000) {
        let count = sheet.entry_count();
        let most = u64::from(sheet.width + 1).pow(count.min(20) as u32);
        if most > 5000 {
            continue;
        }
        let all = strings(sheet.width + 1, count);
        let right = |ticket: &Vec<u8>| model::check(&bytes, &dead, ticket) == 0;
        let some = all.iter().any(right);
        let answer = model::route(&bytes, &dead, PLENTY, &mut vec![0; count]);
        assert_eq!(some, answer.number == 0, "{sheet:?} {dead:?}");
        seen[usize::from(some)] += 1;
    }
    assert!(seen.iter().all(|&count| count > 500), "{seen:?}");
}

/// A list with a chance fault or two, or none.
fn any_list(mut dead: Vec<u8>, channels: u16, rng: &mut Rng) -> Vec<u8> {
    let bad = |rng: &mut Rng| -> Wire {
        let channel = rng.below(channels.into()) as u16;
        *rng.pick(&[
            (channels, 0),
            (channel + 256, 1),
            (channel, 32),
            (channel, 255),
        ])
    };
    if !dead.is_empty() && rng.chance(1, 6) {
        let at = 3 * rng.below(dead.len() / 3);
        let item = dead[at..at + 3].to_vec();
        let to = 3 * rng.below(dead.len() / 3 + 1);
        dead.splice(to..to, item);
    }
    if rng.chance(1, 12) {
        let to = 3 * rng.below(dead.len() / 3 + 1);
        let item = list(&[bad(rng)]);
        dead.splice(to..to, item);
    }
    if rng.chance(1, 12) {
        dead.push(rng.below(4) as u8);
    }
    dead
}

/// A ticket that is accepted, or full, or has a chance fault or two.
fn any_ticket(sheet: &Sheet, dead: &[u8], rng: &mut Rng) -> Vec<u8> {
    let mut ticket = old_ticket(sheet, dead, rng);
    let width = sheet.width as usize;
    let full = rng.chance(1, 2);
    for net in &sheet.nets {
        if full && own(net, &mut ticket)[0] == 255 {
            place(sheet, net, rng.below(width), &mut ticket);
        }
    }
    while !ticket.is_empty() && rng.chance(1, 3) {
        let at = rng.below(ticket.len());
        match rng.below(4) {
            0 => ticket[at] = *rng.pick(&[width as u8, 31, 255]),
            1 => ticket[at] = rng.below(width) as u8,
            2 if rng.chance(1, 3) => ticket.truncate(at),
            _ if ticket.len() == sheet.entry_count() => {
                place(sheet, rng.pick(&sheet.nets), rng.below(width), &mut ticket)
            }
            _ => {}
        }
    }
    ticket
}

/// Check gives the first word of the table that applies; so does Refit for its list
/// and old ticket, and goes on if there is none.
#[test]
fn refused_as_the_table_tells() {
    let mut rng = Rng::new(105);
    let mut seen = [[0; 22]; 2];
    for (_, bytes, sheet, dead) in small(106, 21_000) {
        let ticket = any_ticket(&sheet, &dead, &mut rng);
        let dead = any_list(dead, sheet.chip.channel_count() as u16, &mut rng);
        let told = brute_table::check(&sheet, &dead, &ticket).expect("a small sheet");
        let given = model::check(&bytes, &dead, &ticket);
        assert_eq!(given, told, "{sheet:?} {dead:?} {ticket:?}");
        seen[0][told as usize] += 1;

        let told = brute_table::old(&sheet, &dead, &ticket).expect("a small sheet");
        let mut out = vec![77; sheet.entry_count()];
        let given = model::refit(&bytes, &dead, &ticket, 0, &mut out);
        match told {
            0 => assert!([0, 15, 16].contains(&given.number)),
            number => assert_eq!(given.number, number, "{sheet:?} {dead:?} {ticket:?}"),
        }
        if told != 0 {
            assert_eq!((given.width, given.trials, given.moved), (0, 0, 0));
            assert!(out.iter().all(|&byte| byte == 77));
        }
        seen[1][told as usize] += 1;
    }
    for number in [0, 10, 11, 12, 13, 19, 20, 21] {
        assert!(seen.iter().all(|seen| seen[number] > 100), "{seen:?}");
    }
}
