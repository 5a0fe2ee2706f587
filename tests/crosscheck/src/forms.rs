//! Standard, 02 M-101: sheets and their standard forms.

pub mod alike;
pub mod force;
pub mod list;
pub mod pairs;
pub mod rooms;
pub mod same;

use crate::call::Call;
use crate::failure::{describe, Failure};
use crate::judge::Judge;
use crate::outcome::hex;
use sheets::{forms, random, Design, Rng};

/// The rounds of a run beside those by chance.
const ROUNDS: usize = 60;

/// Pairs of tiny designs, then rounds of all kinds: how many of each.
pub fn run(judge: &mut Judge, seed: u64) -> Result<(usize, usize), Failure> {
    let mut rng = Rng::new(seed ^ 101);
    let pairs = pairs::run(judge, &mut rng)?;
    for _ in 0..ROUNDS {
        round(judge, &mut rng)?;
    }
    Ok((pairs, ROUNDS))
}

/// A chance design: its form, and what the form must have in common with it.
pub fn round(judge: &mut Judge, rng: &mut Rng) -> Result<(), Failure> {
    let design = by_chance(rng);
    let raw = design.relist(rng);
    let bytes = raw.bytes();
    let form = same::relistings(judge, &design, &bytes, rng)?;
    same::other_nets(judge, &design, &form, rng)?;
    rooms::some(judge, &bytes, rng)?;
    force::settled(judge, &raw, rng)?;
    alike::own_form(judge, &form, rng)?;
    alike::counts(judge, &bytes, &form)?;
    alike::answers(judge, raw, &form, &[], rng)
}

fn by_chance(rng: &mut Rng) -> Design {
    match rng.below(6) {
        0 => random::any(rng),
        1 => random::crowded(rng),
        2 => random::small(rng),
        3 => forms::tiny(rng),
        _ => forms::trees(rng, 4, 7),
    }
}

/// An accepted sheet's form, from an output as long as the sheet or longer.
pub fn formed(judge: &mut Judge, bytes: &[u8], rng: &mut Rng) -> Result<Vec<u8>, Failure> {
    let room = bytes.len() + *rng.pick(&[0, 0, 1, 7]);
    let outcome = judge.ask(bytes, Call::Standard { room })?;
    let (number, output) = outcome.written();
    if number == 0 {
        return Ok(output[..bytes.len()].to_vec());
    }
    let call = describe(bytes, Call::Standard { room }, &[]);
    Err(Failure::new("an accepted sheet has no form", &call).with("both", outcome))
}

/// Two sheets whose forms are not as they must be beside each other.
fn apart(what: &str, one: (&[u8], &[u8]), other: (&[u8], &[u8])) -> Failure {
    let call = describe(one.0, Call::Standard { room: one.0.len() }, &[]);
    Failure::new(what, &call)
        .with("form", hex(one.1))
        .with("the other sheet", hex(other.0))
        .with("form", hex(other.1))
}
