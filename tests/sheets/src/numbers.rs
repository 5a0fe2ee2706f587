//! Net numbers of 32 bits, 02 M-106: at the ends of both lengths, and with halves
//! that other numbers have too.

use crate::rng::Rng;
use std::collections::BTreeSet;

/// Numbers at the ends of 16 and of 32 bits, and beside them.
pub const EDGES: [u32; 16] = [
    0,
    1,
    65_534,
    65_535,
    65_536,
    65_537,
    131_071,
    131_072,
    2_147_418_112,
    2_147_483_647,
    2_147_483_648,
    2_147_483_649,
    4_294_901_760,
    4_294_901_761,
    4_294_967_294,
    4_294_967_295,
];

/// Halves that are often met.
const HALVES: [u32; 10] = [0, 1, 2, 3, 255, 256, 0x7FFF, 0x8000, 0xFFFE, 0xFFFF];

/// A way from 16 bits to 32 that keeps the order: the sheet with numbers so spread is
/// answered as the one with the old ones.
#[derive(Clone, Copy, Debug, PartialEq, Eq)]
pub enum Spread {
    /// In the high half, all low halves alike.
    High,
    /// In the high half, and falling in the low one: an order by low halves is the
    /// wrong way round.
    Crossed,
    /// In the low half, all high halves alike and the largest.
    Low,
    /// Widened alone.
    Same,
}

impl Spread {
    /// The spreads that leave no number but 0 in 16 bits.
    pub const FAR: [Spread; 3] = [Spread::High, Spread::Crossed, Spread::Low];

    /// The long number for one of 16 bits. `High` and `Crossed` leave 0 alone in 16 bits.
    pub fn long(self, short: u32) -> u32 {
        assert!(short <= 0xFFFF, "{short} is long already");
        match self {
            Spread::High => short << 16 | 7,
            Spread::Crossed => short << 16 | (0xFFFF - short),
            Spread::Low => 0xFFFF_0000 | short,
            Spread::Same => short,
        }
    }

    /// What to ask for instead of this number, where a sheet has these long ones: a
    /// net's own if it had it, else a number that no net has.
    pub fn asked(self, asked: u32, nets: &[u32]) -> u32 {
        let own = self.long(asked & 0xFFFF);
        if asked <= 0xFFFF {
            return own;
        }
        // One half is still that of a number that was asked for.
        let near = [own & 0xFFFF, own >> 16, own ^ 0x8000, own ^ 0x8000_0000];
        let near = near.into_iter().chain([asked, own ^ 0x4000_4000]);
        let mut free = near.filter(|number| !nets.contains(number));
        free.next().expect("a number that no net has")
    }
}

/// As many different numbers as these, in the same order of places but not of size:
/// these, any of 32 bits, such as share halves, or those at the ends.
pub fn scattered(numbers: &[u32], rng: &mut Rng) -> Vec<u32> {
    let style = rng.below(5);
    if style == 0 {
        return numbers.to_vec();
    }
    let mut edges = EDGES;
    rng.shuffle(&mut edges);
    let mut edges = edges.into_iter();
    let mut chosen = BTreeSet::new();
    let mut all = Vec::new();
    while all.len() < numbers.len() {
        let shared = *rng.pick(&HALVES) << 16 | *rng.pick(&HALVES);
        let number = match style {
            1 => rng.draw() as u32,
            2 | 3 => shared,
            _ => edges.next().unwrap_or(shared),
        };
        if chosen.insert(number) {
            all.push(number);
        }
    }
    all
}

#[cfg(test)]
mod tests {
    use super::*;

    #[test]
    fn spreads_keep_the_order() {
        for spread in [Spread::High, Spread::Crossed, Spread::Low, Spread::Same] {
            let numbers: Vec<u32> = (0..=0xFFFF).map(|n| spread.long(n)).collect();
            assert!(numbers.windows(2).all(|two| two[0] < two[1]), "{spread:?}");
        }
        for spread in Spread::FAR {
            assert!((1..=0xFFFF).all(|n| spread.long(n) > 0xFFFF));
        }
        let halves = |spread: Spread| [1, 2].map(|n| spread.long(n) & 0xFFFF);
        assert_eq!(halves(Spread::High), [7, 7]);
        assert_eq!(halves(Spread::Crossed), [65_534, 65_533]);
        assert_eq!(Spread::Low.long(65_535), u32::MAX);
    }

    #[test]
    fn strangers_stay_so() {
        for spread in Spread::FAR {
            let nets = [1, 2, 3].map(|n| spread.long(n));
            for asked in [0, 4, 65_535, 65_536, 65_537, 65_538, 131_075, u32::MAX] {
                assert!(!nets.contains(&spread.asked(asked, &nets)), "{asked}");
            }
            assert_eq!([1, 2, 3].map(|n| spread.asked(n, &nets)), nets);
        }
    }

    #[test]
    fn scattered_numbers_differ() {
        let mut rng = Rng::new(106);
        let old: Vec<u32> = (1..=64).collect();
        for _ in 0..200 {
            let new = scattered(&old, &mut rng);
            let different: BTreeSet<u32> = new.iter().copied().collect();
            assert_eq!(different.len(), 64);
        }
    }
}
