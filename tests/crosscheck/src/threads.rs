//! The paper's cases, boxes by rows and on the rim, the fixed refusals, dead wires and
//! the standard forms by hand on two threads at once. Each thread has its own buffers,
//! so a wrong answer shows state that the calls share.

use crate::by_library;
use crate::digest::is_old;
use crate::failure::{describe, Failure};
use crate::forms::list;
use crate::item::Item;
use crate::lent::Manner;
use crate::options::Options;
use crate::outcome::Outcome;
use crate::wrong::Wrong;
use sheets::case::{by_rows, long};
use sheets::{boxes, dead, marks, paper, refusals, rim, Rng};
use std::sync::atomic::{AtomicBool, Ordering::Relaxed};
use std::sync::Barrier;
use std::thread;

/// How often each thread goes through the list.
const ROUNDS: usize = 40;

/// How many calls were right, on both threads together.
pub fn run(options: &Options) -> Result<usize, Failure> {
    let wrong = options.wrong.as_ref();
    let mut cases = paper::marked();
    cases.extend(paper::others());
    cases.extend(by_rows(&cases));
    cases.extend(boxes::row_calls());
    cases.extend(rim::calls());
    cases.extend(dead::calls());
    cases.extend(long(&cases));
    cases.extend(marks::cases());
    cases.extend(refusals::cases());
    cases.retain(|case| !options.old || is_old(&case.sheet));
    let mut lines = list::refused();
    lines.extend(list::formed());
    lines.retain(|line| !options.old || is_old(line.item().board.sheet));
    // Standard in the middle: there the two orders meet.
    let (first, last) = cases.split_at(cases.len() / 2);
    let mut forward: Vec<Item> = first.iter().map(Item::from).collect();
    forward.extend(lines.iter().map(list::Line::item));
    forward.extend(last.iter().map(Item::from));
    let backward: Vec<Item> = forward.iter().rev().copied().collect();
    let (start, failed) = (Barrier::new(2), AtomicBool::new(false));
    let calls = |items: &[Item], seed: u64, wrong: Option<&Wrong>| {
        start.wait();
        rounds(items, Rng::new(seed), wrong, &failed)
    };
    thread::scope(|scope| {
        let other = scope.spawn(|| calls(&backward, 2, wrong));
        let right = calls(&forward, 1, None);
        Ok(right? + other.join().expect("the other thread ends")?)
    })
}

/// How many calls there were; where the other thread has failed, fewer.
fn rounds(
    items: &[Item],
    mut rng: Rng,
    wrong: Option<&Wrong>,
    failed: &AtomicBool,
) -> Result<usize, Failure> {
    for round in 0..ROUNDS {
        if failed.load(Relaxed) {
            return Ok(round * items.len());
        }
        for item in items {
            one(item, &mut rng, wrong).inspect_err(|_| failed.store(true, Relaxed))?;
        }
    }
    Ok(ROUNDS * items.len())
}

/// One call by the library, compared with what the list tells.
fn one(item: &Item, rng: &mut Rng, wrong: Option<&Wrong>) -> Result<(), Failure> {
    let room = item.call.room().unwrap_or(0);
    let before: Vec<u8> = (0..room).map(|_| rng.byte()).collect();
    let manner = Manner {
        guard: rng.byte(),
        margin: rng.between(32, 47),
        null: false,
        null_list: rng.chance(1, 2),
    };
    let mut told = Outcome::told(item.told, &before);
    if let Some(wrong) = wrong {
        wrong.spoil_told(item.board, item.call, &mut told);
    }
    let (got, changed) = by_library::ask(item.board, item.call, &before, manner);
    if changed.is_none() && got == told {
        return Ok(());
    }
    let call = describe(item.board, item.call, &before);
    let failure = Failure::new("wrong while another thread calls", &call);
    Err(failure
        .with("case", item.name)
        .with("list", told)
        .with("library", got)
        .with("changed", changed.unwrap_or("nothing else")))
}
