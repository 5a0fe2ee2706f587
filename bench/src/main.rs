//! Measures the library's Standard beside the same work in plain Rust, its Route
//! beside two plain Rust searches that make the same trials, then the deepest
//! stack of the library's calls.

mod by_value;
mod clock;
mod depth;
mod design;
mod forms;
mod grid;
mod in_place;
mod reader;
mod sheets;
mod speed;
mod stack;
mod standard;
mod tables;

use std::process::ExitCode;

fn main() -> ExitCode {
    let mut rounds = 5;
    let mut wrong = false;
    let mut wrong_byte = false;
    for word in std::env::args().skip(1) {
        match word.parse() {
            Ok(number) if number > 0 => rounds = number,
            _ if word == "--wrong" => wrong = true,
            _ if word == "--wrong-byte" => wrong_byte = true,
            _ => {
                eprintln!("usage: bench [ROUNDS] [--wrong] [--wrong-byte]");
                return ExitCode::from(2);
            }
        }
    }
    if let Err(difference) = speeds(rounds, wrong, wrong_byte) {
        println!("{difference}");
        return ExitCode::FAILURE;
    }
    depth::report();
    ExitCode::SUCCESS
}

fn speeds(rounds: usize, wrong: bool, wrong_byte: bool) -> Result<(), String> {
    forms::report(rounds, wrong_byte)?;
    println!();
    speed::report(rounds, wrong)?;
    println!();
    Ok(())
}
