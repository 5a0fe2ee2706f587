//! Route, Least and Refit.

use crate::options::Options;
use crate::refusal::{refused, Asked};
use crate::{forecast, input, print, Outcome, Problem, Status};
use trackrouter::lines::{write, Missing};
use trackrouter::sheet::Sheet;
use trackrouter::{Refusal, Routed, MAX_ENTRIES};

/// The budget if none is given: that of the least-width program.
const BUDGET: u32 = 1_000_000;

/// A call that routes.
pub enum Call {
    Route,
    Least,
    /// With the old ticket.
    Refit(Vec<u8>),
}

impl Call {
    pub fn run<'a>(
        &self,
        sheet: &[u8],
        dead: &[u8],
        budget: u32,
        out: &'a mut [u8],
    ) -> Result<Routed<'a>, Refusal> {
        match self {
            Call::Route => trackrouter::route(sheet, dead, budget, out),
            Call::Least => trackrouter::least(sheet, dead, budget, out),
            Call::Refit(old) => trackrouter::refit(sheet, dead, old, budget, out),
        }
    }

    fn asked(&self) -> Asked {
        match self {
            Call::Route => Asked::Plain,
            Call::Least => Asked::Least,
            Call::Refit(_) => Asked::Old,
        }
    }

    /// The first line.
    fn line(&self, answer: &Result<Routed, Refusal>) -> String {
        let (number, width, trials, moved) = match answer {
            Ok(routed) => (0, routed.width, routed.trials, routed.moved),
            Err(refusal) => (refusal.number, 0, refusal.trials, 0),
        };
        let line = format!("answer {number} width {width} trials {trials}");
        match self {
            Call::Refit(_) => format!("{line} moved {moved}\n"),
            Call::Route | Call::Least => format!("{line}\n"),
        }
    }
}

pub fn route(options: &Options) -> Outcome {
    let (sheet, dead) = board(options)?;
    perform(options, &sheet, &dead, &Call::Route)
}

pub fn least(options: &Options) -> Outcome {
    let (sheet, dead) = board(options)?;
    perform(options, &sheet, &dead, &Call::Least)
}

pub fn refit(options: &Options) -> Outcome {
    let (sheet, dead) = board(options)?;
    let old = input::ticket(options)?.for_call(&sheet, Missing::Unplaced)?;
    perform(options, &sheet, &dead, &Call::Refit(old))
}

/// The sheet and the list of dead wires, in bytes.
fn board(options: &Options) -> Result<(Vec<u8>, Vec<u8>), Problem> {
    let sheet = input::sheet(options)?.bytes;
    Ok((sheet, input::dead(options)?))
}

fn perform(options: &Options, sheet: &[u8], dead: &[u8], call: &Call) -> Outcome {
    let budget = options.budget.unwrap_or(BUDGET);
    forecast::tell(call, sheet, dead, budget);
    let mut out = [0; MAX_ENTRIES];
    let answer = call.run(sheet, dead, budget, &mut out);
    let line = call.line(&answer);
    match answer {
        Ok(routed) => deliver(options, line, sheet, routed.ticket, write),
        Err(refusal) => {
            print::to_stdout(line.as_bytes())?;
            Ok(refused(refusal.number, call.asked()))
        }
    }
}

/// Prints the first line and a ticket that the library wrote, in these lines; its bytes go to the file that `--out` names.
pub fn deliver(
    options: &Options,
    first: String,
    sheet: &[u8],
    ticket: &[u8],
    lines: fn(&Sheet, &[u8]) -> Option<String>,
) -> Outcome {
    let sheet = Sheet::read(sheet).ok();
    let Some(lines) = sheet.and_then(|sheet| lines(&sheet, ticket)) else {
        return Err(Problem::new("the library's ticket does not fit its sheet"));
    };
    print::to_stdout((first + &lines).as_bytes())?;
    print::to_out_file(options, ticket)?;
    Ok(Status::Success)
}
