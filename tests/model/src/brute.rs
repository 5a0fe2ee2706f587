//! Brute force for small sheets: everything is listed, nothing is searched.
//!
//! Tickets are found by trying every choice of the nets' ways. Trials are counted
//! by what they are: the plain search tries a track for the next net after exactly
//! those right choices for the nets before that do not come after the first
//! ticket. A choice on a dead wire is not right, so nothing is tried after it, but
//! it is itself a trial like any other.
//!
//! Every list of dead wires here is one that is accepted.

pub use crate::brute_remove::remove;
pub use crate::brute_ways::strings;

use crate::brute_dead::{overloaded, whole};
use crate::brute_ways::{few, ways};
use crate::calls::Answer;
use crate::sheet::{Net, Sheet};
use crate::ticket::{bytes_of, clashes, UNPLACED};
use crate::word::Word;

/// What a call must answer with a budget that is large enough, and write.
#[derive(Debug, PartialEq, Eq)]
pub struct Settled {
    pub answer: Answer,
    pub ticket: Vec<u8>,
}

/// `None` if the sheet is too large to be settled.
pub fn route(sheet: &Sheet, dead: &[u8]) -> Option<Settled> {
    let all = Listed::new(sheet, dead, sheet.width)?;
    let first = all.first(&|_| true);
    let trials = all.trials(&|_| true);
    Some(match first {
        Some(homes) => all.success(&homes, trials, 0),
        None => unroutable(trials),
    })
}

/// `None` if the sheet is too large to be settled.
pub fn least(sheet: &Sheet, dead: &[u8]) -> Option<Settled> {
    let mut trials = 0;
    for width in 1..=32 {
        if overloaded(sheet, dead, width) {
            continue;
        }
        let all = Listed::new(sheet, dead, width)?;
        trials += all.trials(&|_| true);
        if let Some(homes) = all.first(&|_| true) {
            return Some(all.success(&homes, trials, 0));
        }
    }
    Some(unroutable(trials))
}

/// For an old ticket that is accepted. `None` if the sheet is too large.
pub fn refit(sheet: &Sheet, dead: &[u8], old: &[u8]) -> Option<Settled> {
    let all = Listed::new(sheet, dead, sheet.width)?;
    let old_home = |net: &&Net| Some(bytes_of(net, old)[net.home()]).filter(|t| *t != UNPLACED);
    let old: Vec<Option<u8>> = all.nets.iter().map(old_home).collect();
    let moved = |homes: &[u8]| {
        let changed = |(new, old): (&u8, &Option<u8>)| old.is_some_and(|old| old != *new);
        homes.iter().zip(&old).filter(|pair| changed(*pair)).count()
    };
    let best = all
        .right(all.nets.len())
        .into_iter()
        .min_by_key(|homes| (moved(homes), homes.clone()));
    let last = match &best {
        Some(homes) => moved(homes),
        None => old.iter().flatten().count(),
    };
    let round = |changes: usize| all.trials(&|homes| moved(homes) <= changes);
    let trials = (0..=last).map(round).sum();
    Some(match best {
        Some(homes) => all.success(&homes, trials, last as u32),
        None => unroutable(trials),
    })
}

fn unroutable(trials: u32) -> Settled {
    Settled {
        answer: Answer {
            number: Word::Unroutable.number(),
            trials,
            ..Answer::default()
        },
        ticket: Vec::new(),
    }
}

/// Which home tracks, of the first nets in rising net number, are let through.
type Filter<'a> = &'a dyn Fn(&[u8]) -> bool;

/// The nets of a sheet in rising net number, with all their ways at a width.
struct Listed<'a> {
    sheet: &'a Sheet,
    width: u32,
    nets: Vec<&'a Net>,
    /// For each net, by home track: the tracks of its entries.
    ways: Vec<Vec<Vec<u8>>>,
    /// For each net, by home track: whether its wires are whole.
    whole: Vec<Vec<bool>>,
    overloaded: bool,
}

impl<'a> Listed<'a> {
    fn new(sheet: &'a Sheet, dead: &[u8], width: u32) -> Option<Self> {
        let mut nets: Vec<&Net> = sheet.nets.iter().collect();
        nets.sort_by_key(|net| net.number);
        if !few(width, nets.len()) || nets.iter().any(|net| !few(width, net.channels.len())) {
            return None;
        }
        let ways: Vec<_> = nets.iter().map(|net| ways(sheet, width, net)).collect();
        let each = |(net, ways): (&&Net, &Vec<Vec<u8>>)| {
            let tracks = ways.iter();
            tracks.map(|tracks| whole(dead, net, tracks)).collect()
        };
        Some(Listed {
            sheet,
            width,
            whole: nets.iter().zip(&ways).map(each).collect(),
            nets,
            ways,
            overloaded: overloaded(sheet, dead, width),
        })
    }

    /// The home tracks of the first `count` nets that give no wire to two nets and
    /// no dead wire to any.
    fn right(&self, count: usize) -> Vec<Vec<u8>> {
        let mut all = strings(self.width, count);
        all.retain(|homes| self.unbroken(homes) && self.clear(homes));
        all
    }

    fn unbroken(&self, homes: &[u8]) -> bool {
        let mut nets = homes.iter().zip(&self.whole);
        nets.all(|(&home, whole)| whole[usize::from(home)])
    }

    fn clear(&self, homes: &[u8]) -> bool {
        let tracks = |net: usize| &self.ways[net][usize::from(homes[net])];
        let laid = |net: usize| (self.nets[net], &tracks(net)[..]);
        let clash = |later: usize| (0..later).any(|earlier| clashes(laid(earlier), laid(later)));
        !(0..homes.len()).any(clash)
    }

    /// The first home tracks of all nets that are right and let through.
    fn first(&self, filter: Filter) -> Option<Vec<u8>> {
        let all = self.right(self.nets.len());
        all.into_iter().filter(|homes| filter(homes)).min()
    }

    /// The trials of a search over what is let through.
    fn trials(&self, filter: Filter) -> u32 {
        if self.nets.is_empty() || self.overloaded {
            return 0;
        }
        let first = self.first(filter);
        let mut trials = 0;
        for count in 0..self.nets.len() {
            for mut homes in self.right(count) {
                if !filter(&homes) {
                    continue;
                }
                for track in 0..self.width as u8 {
                    homes.push(track);
                    let made = first.as_ref().is_none_or(|end| homes[..] <= end[..=count]);
                    trials += u32::from(made);
                    homes.pop();
                }
            }
        }
        trials
    }

    fn success(&self, homes: &[u8], trials: u32, moved: u32) -> Settled {
        let mut ticket = vec![0; self.sheet.entry_count()];
        for (net, &home) in homes.iter().enumerate() {
            let tracks = &self.ways[net][usize::from(home)];
            let first = self.nets[net].first;
            ticket[first..first + tracks.len()].copy_from_slice(tracks);
        }
        Settled {
            answer: Answer {
                number: 0,
                width: self.width,
                trials,
                moved,
            },
            ticket,
        }
    }
}
