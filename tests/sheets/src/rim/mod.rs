//! Rim boxes run straight, 02 M-104: boxes at corners, on the rim and inside, with
//! every kind, worked out by hand.

mod asks;
mod calls;
mod checks;
mod chips;
mod no_inner;
mod partners;
mod paths;

pub use calls::calls;
pub use checks::checks;
pub use no_inner::{faults, no_inner};

use crate::case::{long, Case};
use crate::refusals::Fault;

/// All cases: two channels of one box asked through Check, searches and removals on
/// nets that pass several boxes, and chips without an inner box, where kind 3
/// answers as subset does but for 18; all of them also under the second mark.
pub fn cases() -> Vec<Case> {
    let mut all = checks();
    all.extend(calls());
    all.extend(no_inner());
    all.extend(faults().iter().flat_map(Fault::cases));
    all.extend(long(&all));
    all
}
