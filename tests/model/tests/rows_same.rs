//! 02 M-102: the sheet of kind 3 with a published kind's rows gets what the sheet
//! of that kind gets.

mod common;

use common::{ask, hold};
use sheets::{boxes, case, extremes, paper, random, rim, rows, tracks_of};
use sheets::{Ask, Design, Raw, Rng, Told};

const MOST: u32 = 20_000;

/// A design of kind 0, 1 or 2.
fn published(rng: &mut Rng, design: Design) -> Design {
    let kind = rng.below(3) as u8;
    design.with_kind(kind)
}

/// The calls to compare, with outputs that are long enough and one that is not.
fn asks(rng: &mut Rng, raw: &Raw, ticket: &[u8]) -> Vec<Ask> {
    let room = ticket.len() + rng.below(3);
    let mut old = ticket.to_vec();
    let mut first = 0;
    for record in &raw.records {
        let own = first..first + record.entries.len();
        first = own.end;
        if rng.chance(1, 3) {
            old[own].fill(255);
        }
    }
    let mut wrong = old.clone();
    if !wrong.is_empty() {
        let place = rng.below(wrong.len());
        wrong[place] = rng.below(usize::from(raw.width) + 1) as u8;
    }
    let net = raw.records.last().map_or(1, |record| record.number);
    let mut all = vec![Ask::Read];
    all.extend((0..=raw.records.len()).map(|place| Ask::Record { place }));
    for budget in [MOST, 7] {
        all.push(Ask::Route { budget, room });
        all.push(Ask::Least { budget, room });
    }
    for old in [old, wrong, ticket.to_vec()] {
        let ticket = old.clone();
        all.push(Ask::Check {
            ticket: ticket.clone(),
        });
        all.push(Ask::Remove { ticket, net, room });
        let budget = MOST;
        all.push(Ask::Refit { old, budget, room });
    }
    let short = ticket.len().saturating_sub(1);
    all.push(Ask::Route {
        budget: MOST,
        room: short,
    });
    all
}

/// The same from every call; gives back Route's number.
fn same(rng: &mut Rng, raw: &Raw) -> u32 {
    let (sheet, by_rows) = (raw.bytes(), raw.clone().by_rows().bytes());
    assert_eq!(rows::by_rows(&sheet).as_ref(), Some(&by_rows));
    let entries = raw.records.iter().map(|record| record.entries.len());
    let mut ticket = vec![0; entries.sum()];
    let answer = model::route(&sheet, &[], MOST, &mut ticket);
    for one in asks(rng, raw, &ticket) {
        assert_eq!(ask(&by_rows, &one), ask(&sheet, &one), "{raw:?} {one:?}");
    }
    let form = |sheet: &[u8]| {
        let mut out = vec![0; sheet.len()];
        assert_eq!(model::standard(sheet, &mut out), 0);
        out
    };
    assert_eq!(rows::by_rows(&form(&sheet)), Some(form(&by_rows)));
    answer.number
}

#[test]
fn sheets_by_chance() {
    let mut rng = Rng::new(50);
    let mut seen = [0; 17];
    for place in 0..1200 {
        let design = match place % 3 {
            0 => random::small(&mut rng),
            1 => random::crowded(&mut rng),
            _ => random::any(&mut rng),
        };
        let design = published(&mut rng, design);
        let raw = design.relist(&mut rng);
        seen[same(&mut rng, &raw) as usize] += 1;
    }
    assert!(seen[0] > 300 && seen[15] > 100, "{seen:?}");
}

#[test]
fn extreme_sheets() {
    let mut rng = Rng::new(51);
    for (_, design) in extremes::designs() {
        if design.kind < 3 {
            let raw = design.relist(&mut rng);
            same(&mut rng, &raw);
        }
    }
}

/// The paper's cases, and the published boxes, by rows.
#[test]
fn told_cases() {
    let mut all = paper::marked();
    all.extend(boxes::cases());
    all.extend(boxes::other_end());
    let twins = case::by_rows(&all);
    assert_eq!(twins.len(), all.len());
    hold(&twins);
}

/// So are boxes on the rim and inside, those of kinds 0, 1 and 2.
#[test]
fn told_rims() {
    let twins = case::by_rows(&rim::cases());
    assert!(twins.len() > 10_000, "{}", twins.len());
    hold(&twins);
}

/// With other rows the answers differ on many sheets: the rows are read.
#[test]
fn other_rows_are_read() {
    let mut rng = Rng::new(52);
    let mut seen = 0;
    for _ in 0..300 {
        let design = random::crowded(&mut rng);
        let raw = published(&mut rng, design.clone()).list();
        let rows = rows::any(&mut rng);
        let other = design.clone().with_rows(rows).list();
        let route = Ask::Route {
            budget: MOST,
            room: design.entry_count(),
        };
        seen += u32::from(ask(&raw.bytes(), &route) != ask(&other.bytes(), &route));
    }
    assert!(seen > 100, "{seen}");
}

/// Sheets of kind 3 with any rows: relistings are answered alike.
#[test]
fn relistings_by_rows() {
    let mut rng = Rng::new(53);
    let mut found = 0;
    for _ in 0..400 {
        let design = random::any(&mut rng).with_rows(rows::any(&mut rng));
        let [one, other] = [0, 1].map(|_| design.relist(&mut rng));
        let room = design.entry_count();
        let budget = MOST;
        for call in [Ask::Route { budget, room }, Ask::Least { budget, room }] {
            let told = [&one, &other].map(|raw| match ask(&raw.bytes(), &call) {
                Told::Answer { answer, written } => (answer, tracks_of(raw, &written)),
                told => unreachable!("{told:?}"),
            });
            assert_eq!(told[0], told[1]);
            found += u32::from(told[0].0.number == 0);
        }
    }
    assert!(found > 200, "{found}");
}
