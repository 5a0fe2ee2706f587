//! Compares the track router library with the model, call by call.

mod back;
mod battery;
mod board;
mod by_library;
mod by_model;
mod call;
mod chance;
mod coverage;
mod dead;
mod digest;
mod explained;
mod extremes;
mod failure;
mod ffi;
mod fixed;
mod forms;
mod hurt;
mod inside;
mod item;
mod judge;
mod knot;
mod lent;
mod listing;
mod long;
mod marks;
mod olds;
mod options;
mod outcome;
mod places;
mod relist;
mod removing;
mod rows;
mod small;
mod threads;
mod wrong;

use failure::Failure;
use judge::Judge;
use options::{Options, CALLS, USAGE};
use std::process::ExitCode;
use wrong::Wrong;

fn main() -> ExitCode {
    let options = match Options::parse(std::env::args().skip(1)) {
        Ok(options) => options,
        Err(message) => {
            eprintln!("crosscheck: {message}\n{USAGE}");
            return ExitCode::from(2);
        }
    };
    match run(&options) {
        Ok(()) => ExitCode::SUCCESS,
        Err(failure) => {
            println!("{failure}");
            println!("crosscheck: failed (seed {})", options.seed);
            ExitCode::FAILURE
        }
    }
}

fn run(options: &Options) -> Result<(), Failure> {
    if options.programs {
        for program in Wrong::programs() {
            println!("{program}");
        }
        return Ok(());
    }
    let mut judge = Judge::new(options);
    if options.fixed {
        let right = fixed::refusals(&mut judge)?;
        println!("refusals: {right} cases right");
        return Ok(());
    }
    println!("paper: {} cases right", fixed::paper(&mut judge)?);
    println!("marks: {} cases right", fixed::marks(&mut judge)?);
    println!("forms: {} cases right", fixed::forms(&mut judge)?);
    println!("boxes: {} cases right", fixed::boxes(&mut judge)?);
    println!("refusals: {} cases right", fixed::refusals(&mut judge)?);
    println!("rim: {} cases right", fixed::rim(&mut judge)?);
    let (pairs, sheets) = forms::run(&mut judge, options.seed)?;
    println!("forms: {pairs} pairs and {sheets} sheets with their relistings right");
    rows::run(&mut judge, options.seed)?;
    marks::run(&mut judge, options.seed)?;
    let (extremes, rounds) = dead::run(&mut judge, options.seed)?;
    println!("dead wires: {extremes} extremes and {rounds} rounds right");
    let calls = threads::run(options)?;
    println!("two threads at once: {calls} calls right");
    let (runs, fewest, most) = long::run(&mut judge)?;
    println!("long runs: {runs} right, of {fewest} to {most} trials");
    rows::all(&mut judge, options.seed)?;
    println!("extremes: {} sheets right", extremes::run(&mut judge)?);
    chance::run(&mut judge, options.seed, options.calls)?;
    coverage(&mut judge, options)?;
    if options.digest {
        judge.digest.print();
    }
    println!("crosscheck: {} calls agree", judge.calls);
    Ok(())
}

/// Prints what the calls gave; a whole run must have seen all that they can give.
fn coverage(judge: &mut Judge, options: &Options) -> Result<(), Failure> {
    let coverage = &mut judge.coverage;
    if let Some(what) = options.wrong.as_ref().and_then(Wrong::forgotten) {
        coverage.forget(what);
    }
    coverage.print();
    let missing = coverage.missing();
    if missing.is_empty() || options.calls < CALLS {
        return Ok(());
    }
    Err(Failure::missing(&missing))
}
