//! Dead wires, 02 M-105: calls under lists.

mod bad;
mod broken;
mod orders;

use crate::battery::{self, bound, Kind};
use crate::board::Board;
use crate::chance::planted;
use crate::extremes::whole_under;
use crate::failure::Failure;
use crate::forms::{alike, formed};
use crate::judge::Judge;
use crate::listing::Listing;
use crate::{olds, relist, rows, small};
use model::sheet::parse;
use sheets::dead::{list, shuffled, Chances, Wire};
use sheets::{extremes, random, Ask, Design, Rng};
use std::collections::BTreeSet;

/// The kinds of rounds, and how often a run makes each beside those by chance.
const KINDS: usize = 9;
const ROUNDS: usize = 25;

/// The extremes under a list each, then rounds: how many of each.
pub fn run(judge: &mut Judge, seed: u64) -> Result<(usize, usize), Failure> {
    let mut rng = Rng::new(seed ^ 105);
    let designs = extremes::both();
    for (place, pair) in designs.iter().enumerate() {
        // The other mark than in the run without dead wires.
        let (name, design) = &pair[1 - whole_under(place)];
        let asked = extreme(judge, design, &mut rng);
        asked.map_err(|failure| failure.with("extreme", name))?;
    }
    for turn in 0..KINDS * ROUNDS {
        of_kind(judge, turn % KINDS, &mut rng)?;
    }
    Ok((designs.len(), KINDS * ROUNDS))
}

/// A round of any kind.
pub fn round(judge: &mut Judge, rng: &mut Rng) -> Result<(), Failure> {
    of_kind(judge, rng.below(KINDS), rng)
}

fn of_kind(judge: &mut Judge, kind: usize, rng: &mut Rng) -> Result<(), Failure> {
    match kind {
        0 => bad::round(judge, rng),
        1 => broken::round(judge, rng),
        2 => orders::round(judge, rng),
        3 => relisted(judge, rng),
        4 => small::settle_under(judge, rng),
        5 => rows::twins::under(judge, rng),
        6 => crowded(judge, rng),
        7 => nearly_all(judge, rng),
        _ => whole(judge, rng),
    }
}

/// A chance design and a good list for it.
fn by_chance(rng: &mut Rng) -> (Design, Vec<u8>) {
    let design = match rng.below(4) {
        0 => random::crowded(rng),
        1 => random::small(rng),
        _ => random::any(rng),
    };
    let dead = Chances::new(&design).any(rng);
    (design, dead)
}

/// All calls.
fn whole(judge: &mut Judge, rng: &mut Rng) -> Result<(), Failure> {
    let (design, dead) = by_chance(rng);
    let bytes = design.relist(rng).bytes();
    battery::whole(judge, Board::new(&bytes, &dead), rng)
}

/// Refit where unplaced nets find no track left.
fn crowded(judge: &mut Judge, rng: &mut Rng) -> Result<(), Failure> {
    let design = random::crowded(rng);
    let dead = Chances::new(&design).few(rng);
    let bytes = design.relist(rng).bytes();
    battery::crowded(judge, Board::new(&bytes, &dead), rng)
}

/// All calls where nearly all wires are dead but those of a right ticket.
fn nearly_all(judge: &mut Judge, rng: &mut Rng) -> Result<(), Failure> {
    let design = match rng.chance(1, 2) {
        true => random::crowded(rng),
        false => random::any(rng),
    };
    let width = design.width;
    let (design, held) = planted(design, rng);
    let used: BTreeSet<u16> = held.iter().map(|wire| wire.0).collect();
    let tracks = |channel: u16| (0..width).map(move |track| (channel, track));
    let wires = used.into_iter().flat_map(tracks);
    let mut dead: Vec<Wire> = wires.filter(|wire| !held.contains(wire)).collect();
    let kept = rng.below(3);
    dead.retain(|_| !rng.chance(kept, 16));
    rng.shuffle(&mut dead);
    let bytes = design.relist(rng).bytes();
    battery::whole(judge, Board::new(&bytes, &list(&dead)), rng)
}

/// Two listings, of one mark and of both, and a listing and its standard form, under one
/// list in two orders.
fn relisted(judge: &mut Judge, rng: &mut Rng) -> Result<(), Failure> {
    let (design, dead) = by_chance(rng);
    if design.is_short() {
        relist::of_both_marks(judge, &design, &dead, rng)?;
    }
    let raw = design.relist(rng);
    let other = Listing::new(design.relist(rng)).under(&shuffled(&dead, rng));
    let one = Listing::new(raw.clone()).under(&dead);
    relist::answered_alike(judge, rng, [&one, &other])?;
    let form = formed(judge, &one.bytes, rng)?;
    alike::answers(judge, raw, &form, &dead, rng)
}

/// The calls that take a list, on one of the largest, smallest and fullest sheets.
fn extreme(judge: &mut Judge, design: &Design, rng: &mut Rng) -> Result<(), Failure> {
    let bytes = design.list().bytes();
    let dead = Chances::new(design).any(rng);
    let board = Board::new(&bytes, &dead);
    let sheet = parse(&bytes).expect("a good sheet");
    let entries = sheet.entry_count();
    let old = olds::placed_by_chance(&sheet, &dead, rng);
    for kind in [Kind::Route, Kind::Least, Kind::Refit(&old)] {
        judge.ask(board, &kind.ask(bound(rng), entries))?;
    }
    let mut ticket = olds::in_turn(&sheet);
    judge.ask(board, &Kind::Refit(&ticket).ask(bound(rng), entries))?;
    olds::alter(&mut ticket, &sheet, rng);
    judge.ask(board, &Ask::Check { ticket })?;
    Ok(())
}
