//! Every bad sign byte and shift in every column, through every call: 18.

use crate::call::Call;
use crate::failure::{describe, Failure};
use crate::hurt::of_each;
use crate::judge::Judge;
use crate::outcome::Outcome;
use sheets::refusals::{every_bad_byte, Fault};
use sheets::Told;

/// How many sheets were refused.
pub fn run(judge: &mut Judge) -> Result<usize, Failure> {
    let faults = every_bad_byte();
    for (place, fault) in faults.iter().enumerate() {
        refused(judge, fault, place).map_err(|failure| failure.with("case", &fault.name))?;
    }
    Ok(faults.len())
}

fn refused(judge: &mut Judge, fault: &Fault, place: usize) -> Result<(), Failure> {
    let ticket = vec![0, 0, 1, 1, 2, 2];
    let (budget, room) = (9, [6, 0][place % 2]);
    for ask in &of_each(ticket, place % 3, 1, budget, room) {
        told(judge, fault, ask.into(), &Told::refusal(ask, 18, 0))?;
    }
    let room = [fault.sheet.len(), 6][place % 2];
    let written = Vec::new();
    let form = Told::Ticket {
        number: 18,
        written,
    };
    told(judge, fault, Call::Standard { room }, &form)
}

/// Asks both, and compares with what is told.
fn told(judge: &mut Judge, fault: &Fault, call: Call, told: &Told) -> Result<(), Failure> {
    let before = judge.output_before(call);
    let outcome = judge.compare(&fault.sheet, call, &before)?;
    let mut told = Outcome::told(told, &before);
    if let Some(wrong) = judge.wrong() {
        wrong.spoil_bad(&mut told);
    }
    if outcome == told {
        return Ok(());
    }
    let call = describe(&fault.sheet, call, &before);
    let failure = Failure::new("a bad row is not refused with 18", &call);
    Err(failure.with("list", told).with("both", outcome))
}
