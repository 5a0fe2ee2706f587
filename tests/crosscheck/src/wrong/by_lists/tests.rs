//! That the cases by hand, and lists by chance, tell every wrong program from the
//! right one.

use super::*;
use crate::olds;
use sheets::dead::{self, harm, Chances};
use sheets::{random, Case, Rng};

/// The fields that change the model's answer.
fn programs() -> Vec<&'static str> {
    let told = ["list", "order", "above"];
    let fields = FIELDS.into_iter();
    fields.filter(|field| !told.contains(field)).collect()
}

fn given(field: &str, case: &Case, before: &[u8]) -> Outcome {
    let wrong = Wrong::parse(&format!("dead.{field}")).expect("a field");
    let (board, call) = (Board::new(&case.sheet, &case.dead), Call::from(&case.ask));
    wrong.by_list(board, call, before).unwrap_or_else(|| {
        let dead = wrong.misread_list(call, board);
        let dead = dead.as_deref().unwrap_or(board.dead);
        by_model::ask(Board { dead, ..board }, call, before)
    })
}

fn before(case: &Case) -> Vec<u8> {
    vec![7; case.ask.room().unwrap_or(0)]
}

#[test]
fn told_by_hand() {
    let mut cases = dead::cases();
    cases.retain(|case| case.dead.len() < 1000);
    for field in programs() {
        let differs = |case: &&Case| {
            let told = Outcome::told(&case.told, &before(case));
            given(field, case, &before(case)) != told
        };
        let wrong = cases.iter().filter(differs).count();
        assert!(wrong > 3, "{field}: {wrong}");
    }
}

/// Calls on a small crowded sheet, with a list that is good or bad.
fn by_chance(rng: &mut Rng) -> Vec<Case> {
    let design = random::crowded(rng);
    let chances = Chances::new(&design);
    let mut dead = chances.any(rng);
    if rng.chance(1, 3) {
        let numbers = *rng.pick(&[&[19][..], &[20], &[19, 20]]);
        dead = harm(&chances, dead, numbers, rng);
    }
    let bytes = design.relist(rng).bytes();
    let sheet = parse(&bytes).expect("a good sheet");
    let (budget, room) = (2000, sheet.entry_count());
    let old = olds::placed_by_chance(&sheet, &[], rng);
    let clashing = olds::clashing(&old, &sheet, rng).unwrap_or_default();
    let asks = [
        Ask::Route { budget, room },
        Ask::Least { budget, room },
        Ask::Refit { old, budget, room },
        Ask::Check {
            ticket: olds::all_first(&sheet),
        },
        Ask::Refit {
            old: clashing,
            budget,
            room,
        },
    ];
    let case = |ask| Case::refused("by chance", bytes.clone(), ask, 0).under(&dead);
    asks.map(case).to_vec()
}

#[test]
fn told_by_chance() {
    let mut rng = Rng::new(105);
    let cases: Vec<Case> = (0..400).flat_map(|_| by_chance(&mut rng)).collect();
    for field in programs() {
        let differs = |case: &&Case| {
            let (before, call) = (before(case), Call::from(&case.ask));
            let board = Board::new(&case.sheet, &case.dead);
            given(field, case, &before) != by_model::ask(board, call, &before)
        };
        let wrong = cases.iter().filter(differs).count();
        assert!(wrong > 0, "{field}");
    }
}

/// Without dead wires every one of them is right.
#[test]
fn right_without_dead_wires() {
    let mut rng = Rng::new(106);
    for case in (0..50).flat_map(|_| by_chance(&mut rng)) {
        let case = case.under(&[]);
        let (before, call) = (before(&case), Call::from(&case.ask));
        let right = by_model::ask(Board::from(&case.sheet), call, &before);
        for field in programs() {
            assert_eq!(given(field, &case, &before), right, "{field}");
        }
    }
}
