//! 02 M-104: rim boxes run straight. The cases by hand, and near wrong rules, which
//! the sheets here must tell from the right one.

mod common;

use common::hold;
use model::chip::Chip;
use model::dead::Dead;
use model::near_rims::{one_along, right, under, Rule, RULES};
use model::rivals::Rivals;
use model::search::{run, Account, Outcome};
use model::sheet::{parse, Sheet};
use model::{brute, ticket};
use sheets::{extremes, random, rim, Ask, Case, Design, Rng, Told};

#[test]
fn by_hand() {
    hold(&rim::cases());
}

/// A box has fewer than four channels exactly if it is in the first or last column
/// or row, on chips of all sizes.
#[test]
fn the_rim_of_every_chip() {
    for (columns, rows) in (2..=16).flat_map(|a| (2..=16).map(move |b| (a, b))) {
        let boxes = Chip { columns, rows }.boxes();
        for c in 0..columns {
            for r in 0..rows {
                let [level, upright] =
                    [(c, columns), (r, rows)]
                        .map(|(at, count)| if at == 0 || at == count - 1 { 1 } else { 2 });
                assert_eq!(boxes.around((c, r)), level + upright);
            }
        }
    }
}

/// What Check gives under a rule.
fn checked(sheet: &Sheet, rule: Rule, ticket: &[u8]) -> u32 {
    let seen = under(sheet, rule);
    ticket::right(&seen, &Dead::default(), seen.width, ticket)
        .map_or_else(|word| word.number(), |()| 0)
}

/// The sheet, ticket and number of a case that is asked through Check.
fn check_of(case: &Case) -> Option<(Sheet, &[u8], u32)> {
    let (Ask::Check { ticket }, Told::Number(number)) = (&case.ask, &case.told) else {
        return None;
    };
    Some((parse(&case.sheet).ok()?, ticket, *number))
}

/// Each wrong rule gives another number than the one by hand in some of the cases;
/// the right ones in none.
#[test]
fn wrong_rules_are_told_by_hand() {
    let cases = rim::cases();
    let checks: Vec<_> = cases.iter().filter_map(check_of).collect();
    assert!(checks.len() > 10_000, "{}", checks.len());
    let told = |rule: Rule| {
        let wrong = |(sheet, ticket, number): &&(Sheet, &[u8], u32)| {
            checked(sheet, rule, ticket) != *number
        };
        checks.iter().filter(wrong).count()
    };
    assert_eq!((told(right), told(one_along)), (0, 0));
    for (name, rule) in RULES {
        let count = told(rule);
        assert!(count > 100, "{name}: {count}");
    }
}

/// The plain search under a rule.
fn searched(sheet: &Sheet, rule: Rule) -> (Outcome, u32, Vec<u8>) {
    let seen = under(sheet, rule);
    let mut account = Account::new(5000);
    let rivals = Rivals::new(&seen, &Dead::default(), seen.width);
    let outcome = run(&rivals, None, &mut account);
    let ticket = match &outcome {
        Outcome::Found(homes) => {
            let mut by_place = vec![0; homes.len()];
            for (&place, &home) in seen.rising().iter().zip(homes) {
                by_place[place] = home;
            }
            model::lay::ticket(&seen, seen.width, &by_place)
        }
        _ => Vec::new(),
    };
    (outcome, account.trials(), ticket)
}

fn parsed(design: &Design, rng: &mut Rng) -> Sheet {
    parse(&design.relist(rng).bytes()).expect("a good sheet")
}

/// So do sheets by chance, each wrong rule many times.
#[test]
fn wrong_rules_are_told_by_chance() {
    type Make = fn(&mut Rng) -> Design;
    let mut rng = Rng::new(80);
    let makers: [(&str, Make); 3] = [
        ("small", random::small),
        ("crowded", random::crowded),
        ("any", random::any),
    ];
    for (name, make) in makers {
        let sheets: Vec<Sheet> = (0..500)
            .map(|_| {
                let design = make(&mut rng);
                parsed(&design, &mut rng)
            })
            .filter(|sheet| sheet.load() <= sheet.width)
            .collect();
        let told: Vec<_> = sheets.iter().map(|sheet| searched(sheet, right)).collect();
        for (wrong, rule) in RULES {
            let differs = |(sheet, told): &(&Sheet, &(Outcome, u32, Vec<u8>))| {
                searched(sheet, rule) != **told
            };
            let count = sheets.iter().zip(&told).filter(differs).count();
            assert!(count > 15, "{name}, {wrong}: {count}");
        }
    }
}

/// A box is told by a channel along the rim just as well, on sheets of all sizes.
#[test]
fn another_right_rule() {
    let mut rng = Rng::new(81);
    let mut seen = [0, 0];
    let by_chance: Vec<Design> = (0..300).map(|_| random::any(&mut rng)).collect();
    let extreme = extremes::designs().into_iter().map(|named| named.1);
    for design in by_chance.into_iter().chain(extreme) {
        let sheet = parsed(&design, &mut rng);
        for net in &sheet.nets {
            for joint in &net.joints {
                let straight = right(&sheet, net, joint);
                assert_eq!(one_along(&sheet, net, joint), straight);
                seen[usize::from(straight)] += 1;
            }
        }
    }
    assert!(seen.iter().all(|&count| count > 1000), "{seen:?}");
}

/// Brute force, which counts a box's channels in its own way, tells them too.
#[test]
fn wrong_rules_are_told_by_force() {
    let mut rng = Rng::new(82);
    let mut seen = [0; RULES.len()];
    for _ in 0..2000 {
        let design = random::small(&mut rng);
        let sheet = parsed(&design, &mut rng);
        let Some(by_force) = brute::route(&sheet, &[]) else {
            continue;
        };
        if sheet.load() > sheet.width {
            continue;
        }
        assert_eq!(searched(&sheet, right).2, by_force.ticket);
        for (count, (_, rule)) in seen.iter_mut().zip(RULES) {
            *count += u32::from(searched(&sheet, rule).2 != by_force.ticket);
        }
    }
    assert!(seen.iter().all(|&count| count > 5), "{seen:?}");
}
