//! Pairs of nets: which home tracks of the one bar which of the other. And nets by
//! themselves: which home tracks dead wires bar.

use crate::dead::Dead;
use crate::lay::lays;
use crate::sheet::Sheet;

/// The nets in rising net number, and for each two what they cannot both have.
pub struct Rivals {
    pub width: u32,
    /// For each net: the home tracks that give it whole wires alone, as bits.
    whole: Vec<u32>,
    /// For each net: the earlier nets that share a channel with it.
    before: Vec<Vec<Rival>>,
}

/// An earlier net that shares channels with a later one.
struct Rival {
    /// Its place in rising order.
    net: usize,
    /// For each of its home tracks, the later net's home tracks that would hold
    /// one of its wires, as bits.
    bars: Vec<u32>,
}

impl Rivals {
    pub fn new(sheet: &Sheet, dead: &Dead, width: u32) -> Self {
        let nets: Vec<_> = sheet.rising().iter().map(|&p| &sheet.nets[p]).collect();
        let laid: Vec<_> = nets.iter().map(|net| lays(sheet, width, net)).collect();
        let whole = |net: usize| {
            let homes = laid[net].iter().enumerate();
            let whole = homes.filter(|(_, tracks)| !dead.breaks(nets[net], tracks));
            whole.fold(0, |bits, (home, _)| bits | 1 << home)
        };
        let rivals = |later: usize, earlier: usize| {
            let shared = shared_places(&nets[earlier].channels, &nets[later].channels);
            if shared.is_empty() {
                return None;
            }
            let mut bars = vec![0; width as usize];
            for (bar, theirs) in bars.iter_mut().zip(&laid[earlier]) {
                for (home, ours) in laid[later].iter().enumerate() {
                    if shared.iter().any(|&(a, b)| theirs[a] == ours[b]) {
                        *bar |= 1 << home;
                    }
                }
            }
            Some(Rival { net: earlier, bars })
        };
        let before = |later: usize| (0..later).filter_map(|e| rivals(later, e)).collect();
        Rivals {
            width,
            whole: (0..nets.len()).map(whole).collect(),
            before: (0..nets.len()).map(before).collect(),
        }
    }

    pub fn net_count(&self) -> usize {
        self.before.len()
    }

    /// Whether a home track fits the next net after those placed: its wires are
    /// whole, and none of them is held.
    pub fn fits(&self, placed: &[u32], track: u32) -> bool {
        let net = placed.len();
        let has = |bits: u32| bits >> track & 1 == 1;
        let barred = |rival: &Rival| has(rival.bars[placed[rival.net] as usize]);
        has(self.whole[net]) && !self.before[net].iter().any(barred)
    }
}

/// The places of each channel that stands in both lists.
fn shared_places(a: &[u32], b: &[u32]) -> Vec<(usize, usize)> {
    let mut shared = Vec::new();
    for (i, x) in a.iter().enumerate() {
        for (j, y) in b.iter().enumerate() {
            if x == y {
                shared.push((i, j));
            }
        }
    }
    shared
}
