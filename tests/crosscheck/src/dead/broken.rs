//! Tickets on dead wires: 21 alone and beside 11, 12, 13 and 14, and nets on dead
//! wires that Remove takes out and Refit places again.

use super::by_chance;
use crate::battery::{Kind, MOST};
use crate::board::Board;
use crate::coverage::dead::FREED;
use crate::failure::{describe, Failure};
use crate::judge::Judge;
use crate::{olds, removing};
use model::sheet::{parse, Net, Sheet};
use sheets::dead::{list, wires, Wire};
use sheets::{random, Ask, Rng};

pub fn round(judge: &mut Judge, rng: &mut Rng) -> Result<(), Failure> {
    let design = match rng.chance(1, 3) {
        true => by_chance(rng).0,
        false => random::crowded(rng),
    };
    let bytes = design.relist(rng).bytes();
    let sheet = parse(&bytes).expect("a good sheet");
    let routed = judge.ask(&bytes, &Kind::Route.ask(MOST, sheet.entry_count()))?;
    let full = match routed.answer() {
        (answer, ticket) if answer.number == 0 => ticket.to_vec(),
        _ => olds::all_first(&sheet),
    };
    for ticket in [full, olds::placed_to_the_last(&sheet, &[], rng)] {
        let dead = hit(&sheet, &ticket, rng);
        let board = Board::new(&bytes, &dead);
        faults(judge, board, &sheet, &ticket, rng)?;
        if model::remove(&bytes, &ticket, u32::MAX, &mut []) == 17 {
            freed(judge, board, &sheet, &ticket)?;
        }
    }
    Ok(())
}

/// The wires of a net with its own bytes of a ticket.
fn held(net: &Net, ticket: &[u8]) -> Vec<Wire> {
    let channels = net.channels.iter().map(|&channel| channel as u16);
    let tracks = ticket[olds::own(net)].iter().copied();
    let wires = channels.zip(tracks);
    wires.filter(|wire| wire.1 != 255).collect()
}

/// Dead wires of which a ticket's nets hold one or two; others, mostly free ones.
fn hit(sheet: &Sheet, ticket: &[u8], rng: &mut Rng) -> Vec<u8> {
    let nets = sheet.nets.iter();
    let held: Vec<Wire> = nets.flat_map(|net| held(net, ticket)).collect();
    let channels = sheet.chip.channel_count() as usize;
    let mut dead = Vec::new();
    for _ in 0..rng.between(1, 2) {
        if !held.is_empty() {
            dead.push(*rng.pick(&held));
        }
    }
    for _ in 0..rng.below(3) {
        dead.push((rng.below(channels) as u16, rng.below(32) as u8));
    }
    dead.sort_unstable();
    dead.dedup();
    rng.shuffle(&mut dead);
    list(&dead)
}

/// The ticket as it is, with one more fault of 11, 12 or 13, and with another size;
/// Refit with an output that fits and one that does not.
fn faults(
    judge: &mut Judge,
    board: Board,
    sheet: &Sheet,
    ticket: &[u8],
    rng: &mut Rng,
) -> Result<(), Failure> {
    let mut tickets = vec![ticket.to_vec()];
    tickets.extend(olds::clashing(ticket, sheet, rng));
    for _ in 0..4 {
        let mut other = ticket.to_vec();
        olds::alter(&mut other, sheet, rng);
        tickets.push(other);
    }
    let mut other = ticket.to_vec();
    olds::resize(&mut other, rng);
    tickets.push(other);
    let entries = sheet.entry_count();
    for ticket in tickets {
        for room in [entries, rng.below(entries + 1)] {
            judge.ask(board, &Kind::Refit(&ticket).ask(MOST, room))?;
        }
        judge.ask(board, &Ask::Check { ticket })?;
    }
    Ok(())
}

/// From a ticket that Remove accepts: the nets on dead wires are taken out, one by
/// one, and then Refit accepts what is left.
fn freed(judge: &mut Judge, board: Board, sheet: &Sheet, ticket: &[u8]) -> Result<(), Failure> {
    let dead = wires(board.dead);
    let lost = |net: &&Net| held(net, ticket).iter().any(|wire| dead.contains(wire));
    let lost: Vec<&Net> = sheet.nets.iter().filter(lost).collect();
    if lost.is_empty() {
        return Ok(());
    }
    let refit = Kind::Refit(ticket).ask(MOST, ticket.len());
    expect(judge, board, &refit, &[21])?;
    let mut left = ticket.to_vec();
    for net in lost {
        let remove = removing::ask(&left, net.number, left.len());
        left = expect(judge, board, &remove, &[0])?.1;
    }
    let refit = Kind::Refit(&left).ask(MOST, ticket.len());
    if expect(judge, board, &refit, &[0, 15, 16])?.0 == 0 {
        judge.coverage.see(board.sheet, "remove", FREED);
    }
    Ok(())
}

/// The number and the output of a call that gives one of these numbers.
fn expect(
    judge: &mut Judge,
    board: Board,
    ask: &Ask,
    numbers: &[u32],
) -> Result<(u32, Vec<u8>), Failure> {
    let before = judge.output_before(ask);
    let outcome = judge.compare(board, ask, &before)?;
    let number = outcome.number().expect("a number");
    if numbers.contains(&number) {
        let (_, output) = match ask {
            Ask::Remove { .. } => outcome.written(),
            _ => (number, outcome.answer().1),
        };
        return Ok((number, output.to_vec()));
    }
    let what = format!("a net on a dead wire: {numbers:?} is due here");
    let call = describe(board, ask, &before);
    Err(Failure::new(what, &call).with("both", outcome))
}
