//! That the lists by hand, and sheets by chance, tell every wrong program from the
//! right one.

use super::*;
use crate::forms::list;
use crate::item::Item;
use crate::olds;
use sheets::{forms, marks, random, refusals, Case, Rng};

fn given(wrong: &Wrong, board: Board, call: Call, before: &[u8]) -> Outcome {
    let given = wrong.by_mark(board, call, before);
    given.unwrap_or_else(|| by_model::ask(board, call, before))
}

fn programs() -> Vec<(String, Wrong)> {
    let program = |(call, field): (&str, String)| {
        let name = format!("{call}.{field}");
        let wrong = Wrong::parse(&name).expect("a field");
        (name, wrong)
    };
    fields().into_iter().map(program).collect()
}

#[test]
fn every_program_has_a_field() {
    let fields = fields();
    assert_eq!(fields.len(), 21 + 14 + 5 + 4);
    let plain = |c: char| c.is_ascii_lowercase() || c.is_ascii_digit() || c == '-';
    assert!(fields.iter().all(|(_, field)| field.chars().all(plain)));
    assert!(known("reads", "short-marks-record-grown-too"));
    assert!(known("orders", "by-the-low-half-then-the-high"));
    assert!(!known("reads", "written-short") && !known("mark", "list"));
}

#[test]
fn told_by_hand() {
    let mut cases = marks::cases();
    cases.extend(refusals::cases().into_iter().step_by(3));
    let mut lines = list::formed();
    lines.extend(list::refused().into_iter().step_by(3));
    let mut items: Vec<Item> = cases.iter().map(Item::from).collect();
    items.extend(lines.iter().map(list::Line::item));
    for (name, wrong) in programs() {
        let differs = |item: &&Item| {
            let before = vec![7; item.call.room().unwrap_or(0)];
            let told = Outcome::told(item.told, &before);
            given(&wrong, item.board, item.call, &before) != told
        };
        let told = items.iter().filter(differs).count();
        assert!(told > 3, "{name}: {told}");
    }
}

/// Calls on a crowded sheet of either mark.
fn by_chance(rng: &mut Rng) -> Vec<(Vec<u8>, Ask)> {
    let design = match rng.chance(1, 2) {
        true => random::crowded(rng),
        false => forms::trees(rng, 2, 5),
    };
    let bytes = design.relist(rng).bytes();
    let sheet = parse(&bytes).expect("a good sheet");
    let (budget, room) = (2000, sheet.entry_count());
    let old = olds::placed_by_chance(&sheet, &[], rng);
    let mut asks = vec![
        Ask::Read,
        Ask::Record { place: 1 },
        Ask::Route { budget, room },
        Ask::Least { budget, room },
        Ask::Refit {
            old: old.clone(),
            budget,
            room,
        },
    ];
    for _ in 0..4 {
        let net = crate::removing::number(&sheet, rng);
        asks.push(crate::removing::ask(&old, net, room));
    }
    asks.into_iter().map(|ask| (bytes.clone(), ask)).collect()
}

/// Those that need no long sheet and no wrong mark.
#[test]
fn told_by_chance() {
    let mut rng = Rng::new(106);
    let asked: Vec<(Vec<u8>, Ask)> = (0..400).flat_map(|_| by_chance(&mut rng)).collect();
    let of_sizes = |name: &str| name.contains("limit") || name.contains("any-other-mark");
    for (name, wrong) in programs().iter().filter(|(name, _)| !of_sizes(name)) {
        let differs = |board: Board, call: Call| {
            let before = vec![7; call.room().unwrap_or(0)];
            given(wrong, board, call, &before) != by_model::ask(board, call, &before)
        };
        let calls = asked
            .iter()
            .filter(|(sheet, ask)| differs(sheet.into(), ask.into()));
        let forms = asked.iter().step_by(9).filter(|(sheet, _)| {
            let room = sheet.len();
            differs(sheet.into(), Call::Standard { room })
        });
        let told = calls.count() + forms.count();
        assert!(told > 10, "{name}: {told}");
    }
}

/// All are right on cases that they do not touch: Check on one net.
#[test]
fn right_where_numbers_are_no_matter() {
    let mut same = 0;
    for case in sheets::boxes::cases().into_iter().step_by(9) {
        let right = Outcome::told(&case.told, &[]);
        let short: &Case = &case;
        for (name, wrong) in programs() {
            let of_short = name.contains("short");
            let board = Board::from(&short.sheet);
            if !of_short {
                let got = given(&wrong, board, Call::from(&short.ask), &[]);
                assert_eq!(got, right, "{name}");
                same += 1;
            }
        }
    }
    assert!(same > 500, "{same}");
}
