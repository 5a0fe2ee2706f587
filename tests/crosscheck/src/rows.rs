//! Boxes by parameters, 02 M-102: sheets of kind 3.

mod bad;
mod shifts;
mod tour;
pub mod twins;
mod widths;

use crate::failure::Failure;
use crate::judge::Judge;
use sheets::Rng;

/// Bad rows, and sheets beside those of a published kind.
pub fn run(judge: &mut Judge, seed: u64) -> Result<(), Failure> {
    let mut rng = Rng::new(seed ^ 102);
    println!("rows: {} bad bytes refused", bad::run(judge)?);
    let twins = twins::run(judge, &mut rng)?;
    println!("rows: {twins} sheets as those of a published kind");
    Ok(())
}

/// All rows at some widths, and some rows at all widths.
pub fn all(judge: &mut Judge, seed: u64) -> Result<(), Failure> {
    let mut rng = Rng::new(seed ^ 103);
    let shifts = shifts::run(judge, &mut rng)?;
    println!("rows: {shifts} with their column and width right");
    let widths = widths::run(judge, &mut rng)?;
    println!("rows: {widths} sheets of all widths right");
    Ok(())
}
