//! Nets with numbers that share halves, through all calls: crowded sheets in which the
//! order of the nets decides what a search finds, and each net is taken out by its
//! number; sheets with the bytes of the other mark.

use crate::battery::whole;
use crate::board::Board;
use crate::failure::Failure;
use crate::hurt::every_call;
use crate::judge::Judge;
use crate::{relist, removing};
use model::sheet::parse;
use sheets::numbers::EDGES;
use sheets::{random, Ask, Design, Mark, Rng};

/// The rounds of a run.
const ROUNDS: usize = 120;

/// How many sheets there were.
pub fn run(judge: &mut Judge, rng: &mut Rng) -> Result<usize, Failure> {
    for round in 0..ROUNDS {
        let design = numbered(round, rng);
        let bytes = design.relist(rng).bytes();
        whole(judge, Board::from(&bytes), rng)?;
        asked_for(judge, &bytes, rng)?;
        other_mark(judge, rng)?;
        if design.is_short() {
            relist::of_both_marks(judge, &design, &[], rng)?;
        }
    }
    Ok(ROUNDS)
}

/// A crowded design with the numbers at the ends, with equal low halves, with equal
/// high ones, or with those of 16 bits.
fn numbered(round: usize, rng: &mut Rng) -> Design {
    let mut design = random::crowded(rng).with_mark(Mark::Long);
    let half: u32 = rng.word().into();
    let mut places: Vec<u32> = (0..design.nets.len() as u32).collect();
    rng.shuffle(&mut places);
    let mut edges = EDGES;
    rng.shuffle(&mut edges);
    for (net, place) in design.nets.iter_mut().zip(places) {
        net.number = match round % 4 {
            0 => edges[place as usize],
            1 => place << 16 | half,
            2 => (65_535 - half) << 16 | place,
            _ => 4_681 * place,
        };
    }
    design
}

/// A chance sheet with the bytes of the other mark, through every call: its records are
/// not laid out so, which is 5.
fn other_mark(judge: &mut Judge, rng: &mut Rng) -> Result<(), Failure> {
    let mut raw = random::crowded(rng).relist(rng);
    raw.mark = raw.form.other().bytes();
    every_call(judge, Board::from(&raw.bytes()), rng)
}

/// Remove of all numbers at the ends, and of numbers that share a half with a net's.
fn asked_for(judge: &mut Judge, bytes: &[u8], rng: &mut Rng) -> Result<(), Failure> {
    let sheet = parse(bytes).expect("a good sheet");
    let ticket = vec![255; sheet.entry_count()];
    let mut asked = EDGES.to_vec();
    for net in &sheet.nets {
        let (low, high) = (net.number & 0xFFFF, net.number >> 16);
        let any: u32 = rng.word().into();
        asked.extend([low, high, high << 16 | any, any << 16 | low]);
        asked.push(net.number.rotate_left(16));
    }
    for net in asked {
        judge.ask(bytes, &removing::ask(&ticket, net, ticket.len()))?;
    }
    judge.ask(
        bytes,
        &Ask::Record {
            place: rng.below(16),
        },
    )?;
    Ok(())
}
