//! The model itself keeps what demand 3 asks of relistings and budgets.

use model::Answer;
use sheets::{random, ticket_of, tracks_of, Raw, Rng, Tracks};

const MOST: u32 = 20_000;

fn routed(raw: &Raw, budget: u32) -> (Answer, Tracks) {
    let mut out = vec![0; raw.records.iter().map(|r| r.entries.len()).sum()];
    let answer = model::route(&raw.bytes(), &[], budget, &mut out);
    (answer, tracks_of(raw, &out))
}

#[test]
fn relistings_are_routed_alike() {
    let mut rng = Rng::new(6);
    for _ in 0..300 {
        let design = random::any(&mut rng);
        let one = routed(&design.relist(&mut rng), MOST);
        let other = routed(&design.relist(&mut rng), MOST);
        assert_eq!(one, other);
    }
}

#[test]
fn larger_budgets_change_nothing() {
    let mut rng = Rng::new(7);
    for _ in 0..300 {
        let raw = random::any(&mut rng).list();
        let (answer, tracks) = routed(&raw, MOST);
        if answer.number == 16 {
            continue;
        }
        assert_eq!(routed(&raw, answer.trials), (answer, tracks.clone()));
        assert_eq!(routed(&raw, u32::MAX), (answer, tracks));
        if answer.trials > 0 {
            let (spent, _) = routed(&raw, answer.trials - 1);
            assert_eq!((spent.number, spent.trials), (16, answer.trials - 1));
        }
    }
}

#[test]
fn relistings_lose_a_net_alike() {
    let mut rng = Rng::new(13);
    for _ in 0..300 {
        let design = random::any(&mut rng);
        let (one, other) = (design.relist(&mut rng), design.relist(&mut rng));
        let (answer, tracks) = routed(&one, MOST);
        if answer.number != 0 || design.nets.is_empty() {
            continue;
        }
        let net = rng.pick(&design.nets).number;
        let left = |raw: &Raw| {
            let mut out = vec![0; design.entry_count()];
            let number = model::remove(&raw.bytes(), &ticket_of(raw, &tracks), net, &mut out);
            (number, tracks_of(raw, &out))
        };
        let mut told = tracks.clone();
        let own = told.iter_mut().filter(|(place, _)| place.0 == net);
        own.for_each(|(_, track)| *track = 255);
        assert_eq!(left(&one), (0, told.clone()));
        assert_eq!(left(&other), (0, told));
    }
}
