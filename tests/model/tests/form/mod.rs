//! What the tests of the standard form share.

use sheets::{extremes, random, Design, Rng};

/// The standard form of an accepted sheet.
pub fn form(sheet: &[u8]) -> Vec<u8> {
    let mut out = vec![0x5A; sheet.len()];
    assert_eq!(model::standard(sheet, &mut out), 0);
    out
}

/// Designs of all sizes by chance, and the extreme ones.
pub fn designs(seed: u64, count: usize) -> impl Iterator<Item = Design> {
    let mut rng = Rng::new(seed);
    let by_chance = (0..count).map(move |_| random::any(&mut rng));
    by_chance.chain(extremes::designs().into_iter().map(|named| named.1))
}
