//! Outputs for Standard: long enough, longer, and too short.

use crate::call::Call;
use crate::failure::Failure;
use crate::judge::Judge;
use sheets::Rng;

/// An output's length for any sheet: as long as it, longer, shorter by little or
/// by much, or as long as the entry count.
pub fn room(bytes: &[u8], rng: &mut Rng) -> usize {
    let length = bytes.len();
    match rng.below(10) {
        0 => 0,
        1 | 2 => length.saturating_sub(1),
        3 => entries(bytes),
        4 => rng.below(length + 1),
        5 => length + 1,
        6 => length + 7,
        _ => length,
    }
}

fn entries(bytes: &[u8]) -> usize {
    model::read(bytes).entries as usize
}

/// Any two outputs.
pub fn some(judge: &mut Judge, bytes: &[u8], rng: &mut Rng) -> Result<(), Failure> {
    for _ in 0..2 {
        let room = room(bytes, rng);
        judge.ask(bytes, Call::Standard { room })?;
    }
    Ok(())
}

/// All outputs that may tell one test of the space from another: by the sheet's
/// length, by its entries, by its records, and by a length cut to 16 bits.
pub fn every(judge: &mut Judge, bytes: &[u8]) -> Result<(), Failure> {
    let (length, entries) = (bytes.len(), entries(bytes));
    let short = [0, 1, entries, entries + 1, length - 12, length - 1];
    let enough = [length, length + 1, length + 300, 65536];
    for room in short.into_iter().chain(enough) {
        judge.ask(bytes, Call::Standard { room })?;
    }
    Ok(())
}
