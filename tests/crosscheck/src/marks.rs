//! The two marks, 02 M-106: sheets beside their twins of the second mark, numbers that
//! share halves, and lengths near the limits.

mod lengths;
mod numbers;
pub mod twins;

use crate::failure::Failure;
use crate::judge::Judge;
use sheets::Rng;

/// Lengths, and nets with numbers that share halves.
pub fn run(judge: &mut Judge, seed: u64) -> Result<(), Failure> {
    let mut rng = Rng::new(seed ^ 106);
    let lengths = lengths::run(judge, &mut rng)?;
    println!("marks: {lengths} sheets of 8588 to 8729 bytes right");
    let sheets = numbers::run(judge, &mut rng)?;
    println!("marks: {sheets} sheets of long net numbers right");
    Ok(())
}
