//! The plain search.

use crate::rivals::Rivals;

/// What is left of the budget, and what is used.
pub struct Account {
    budget: u32,
    trials: u32,
}

impl Account {
    pub fn new(budget: u32) -> Self {
        Account { budget, trials: 0 }
    }

    pub fn trials(&self) -> u32 {
        self.trials
    }

    /// Makes one trial if the budget allows another.
    fn take(&mut self) -> bool {
        let allowed = self.trials < self.budget;
        if allowed {
            self.trials += 1;
        }
        allowed
    }
}

#[derive(Debug, PartialEq, Eq)]
pub enum Outcome {
    /// The home tracks, nets in rising net number.
    Found(Vec<u32>),
    None,
    Spent,
}

/// Refit's round: old home tracks of placed nets, in rising net number, and how
/// many of them may change.
pub struct Round<'a> {
    pub old: &'a [Option<u32>],
    pub changes: usize,
}

impl Round<'_> {
    fn changed(&self, net: usize, track: u32) -> bool {
        self.old[net].is_some_and(|old| old != track)
    }

    /// Whether the next net may take a track without one change too many.
    fn allows(&self, placed: &[u32], track: u32) -> bool {
        let tracks = placed.iter().chain([&track]).enumerate();
        let changes = tracks.filter(|&(net, &track)| self.changed(net, track));
        changes.count() <= self.changes
    }
}

/// One run over all nets: from the first net's track 0 to the first full
/// ticket, or until the first net has no track left.
pub fn run(rivals: &Rivals, round: Option<&Round>, account: &mut Account) -> Outcome {
    let mut placed: Vec<u32> = Vec::new();
    let mut track = 0;
    while placed.len() < rivals.net_count() {
        if track == rivals.width {
            match placed.pop() {
                Some(last) => track = last + 1,
                None => return Outcome::None,
            }
            continue;
        }
        if !account.take() {
            return Outcome::Spent;
        }
        let allowed = round.is_none_or(|round| round.allows(&placed, track));
        if allowed && rivals.fits(&placed, track) {
            placed.push(track);
            track = 0;
        } else {
            track += 1;
        }
    }
    Outcome::Found(placed)
}
