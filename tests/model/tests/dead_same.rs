//! 02 M-105: what lists of dead wires must not change: their order, items that are
//! ignored, relistings, and every answer if a list is empty.

mod lists;

use lists::{chance_for, list, old_ticket, small, Wire, STYLES};
use model::sheet::Sheet;
use model::Answer;
use sheets::{random, ticket_of, tracks_of, Design, Raw, Rng, Tracks};

const MOST: u32 = 20_000;

/// What all four calls give: Check's number, and each search's answer and output.
type Given = (u32, Vec<(Answer, Vec<u8>)>);

fn given(bytes: &[u8], dead: &[u8], old: &[u8], budget: u32) -> Given {
    let searched = |call: &dyn Fn(&mut [u8]) -> Answer| {
        let mut out = vec![77; old.len() + 2];
        (call(&mut out), out)
    };
    let searches = vec![
        searched(&|out| model::route(bytes, dead, budget, out)),
        searched(&|out| model::least(bytes, dead, budget, out)),
        searched(&|out| model::refit(bytes, dead, old, budget, out)),
    ];
    (model::check(bytes, dead, old), searches)
}

fn wires(dead: &[u8]) -> Vec<Wire> {
    let wire = |item: &[u8]| (u16::from_le_bytes([item[0], item[1]]), item[2]);
    dead.chunks(3).map(wire).collect()
}

/// A full ticket by chance as well, since a partly filled one tells Check little.
fn olds(sheet: &Sheet, dead: &[u8], rng: &mut Rng) -> [Vec<u8>; 2] {
    let homes = sheet.nets.iter().map(|_| rng.below(sheet.width as usize));
    let homes: Vec<u32> = homes.map(|home| home as u32).collect();
    let full = model::lay::ticket(sheet, sheet.width, &homes);
    [old_ticket(sheet, dead, rng), full]
}

#[test]
fn in_another_order() {
    let mut rng = Rng::new(110);
    for (_, bytes, sheet, dead) in small(111, 3500) {
        for old in olds(&sheet, &dead, &mut rng) {
            let told = given(&bytes, &dead, &old, MOST);
            let mut other = wires(&dead);
            for turn in 0..3 {
                match turn {
                    0 => other.reverse(),
                    1 => other.sort_unstable(),
                    _ => rng.shuffle(&mut other),
                }
                assert_eq!(given(&bytes, &list(&other), &old, MOST), told);
            }
        }
    }
}

/// Items at or above W are dropped: Check, Route and Refit give the same. Least does
/// not look at W, and gives the same without items at or above the width found.
#[test]
fn above_the_width() {
    let mut rng = Rng::new(112);
    let mut seen = [0, 0];
    for (_, bytes, sheet, dead) in small(113, 7000) {
        let below = |width: u32| {
            let mut kept = wires(&dead);
            kept.retain(|wire| u32::from(wire.1) < width);
            list(&kept)
        };
        let kept = below(sheet.width);
        for old in olds(&sheet, &dead, &mut rng) {
            let one = given(&bytes, &dead, &old, MOST);
            let other = given(&bytes, &kept, &old, MOST);
            assert_eq!(one.0, other.0);
            assert_eq!(one.1[0], other.1[0]);
            assert_eq!(one.1[2], other.1[2]);
            seen[0] += u32::from(kept != dead);
            if one.1[1].0.number == 0 {
                let width = one.1[1].0.width;
                let again = given(&bytes, &below(width), &old, MOST);
                assert_eq!(again.1[1], one.1[1]);
                seen[1] += u32::from(below(width) != dead);
            }
        }
    }
    assert!(seen.iter().all(|&count| count > 2000), "{seen:?}");
}

/// Wires in channels that no net has are never met.
#[test]
fn in_other_channels() {
    let mut rng = Rng::new(114);
    let mut seen = 0;
    for (_, bytes, sheet, dead) in small(115, 3500) {
        let loads = sheet.loads();
        let mut kept = wires(&dead);
        kept.retain(|wire| loads[usize::from(wire.0)] > 0);
        seen += u32::from(list(&kept) != dead);
        for old in olds(&sheet, &dead, &mut rng) {
            let told = given(&bytes, &dead, &old, MOST);
            assert_eq!(given(&bytes, &list(&kept), &old, MOST), told);
        }
    }
    assert!(seen > 500, "{seen}");
}

/// Any design by chance with a list of any style.
fn any(rng: &mut Rng, turn: usize) -> (Design, Vec<u8>) {
    let design = match turn % 2 {
        0 => random::any(rng),
        _ => random::crowded(rng),
    };
    let style = [0, 1, 1, 2, 2, 2, 4, 5, 6, 3][turn / 2 % 10];
    assert!(style < STYLES.len());
    let wires = chance_for(&design, style, rng);
    (design, list(&wires))
}

/// Least is Route at width 1, 2 and so on beside the same list: each compares with
/// the items below its own width.
#[test]
fn least_is_route_at_each_width() {
    let mut rng = Rng::new(116);
    let mut seen = [0; 33];
    for turn in 0..1500 {
        let (design, dead) = any(&mut rng, turn);
        let room = design.entry_count();
        let mut ticket = vec![0; room];
        let answer = model::least(&design.list().bytes(), &dead, MOST, &mut ticket);
        if answer.number == 16 {
            continue;
        }
        let mut trials = 0;
        let last = if answer.number == 0 { answer.width } else { 32 };
        for width in 1..=last {
            let sheet = design.clone().with_width(width as u8).list().bytes();
            let mut out = vec![0; room];
            let routed = model::route(&sheet, &dead, MOST, &mut out);
            trials += routed.trials;
            let found = routed.number == 0;
            assert_eq!(found, (answer.number, answer.width) == (0, width));
            assert!(!found || out == ticket);
        }
        assert_eq!(answer.trials, trials);
        seen[answer.width as usize] += 1;
    }
    let many: u32 = seen[8..].iter().sum();
    let few = &seen[..8];
    assert!(many > 20 && few.iter().all(|&count| count > 20), "{seen:?}");
}

/// Relistings under the same list, with equal old tracks: equal answers and tracks.
#[test]
fn relistings() {
    let mut rng = Rng::new(117);
    let mut found = 0;
    for turn in 0..600 {
        let (design, dead) = any(&mut rng, turn);
        let [one, other] = [0, 1].map(|_| design.relist(&mut rng));
        let mut old = vec![255; design.entry_count()];
        model::route(&one.bytes(), &dead, MOST, &mut old);
        let mut tracks = tracks_of(&one, &old);
        let placed: Vec<u32> = design.nets.iter().map(|net| net.number).collect();
        for (key, track) in &mut tracks {
            // Of each second net the old tracks are kept.
            let rank = placed.iter().position(|&number| number == key.0);
            if rank.is_some_and(|rank| rank % 2 == 1) {
                *track = 255;
            }
        }
        for budget in [MOST, 30] {
            let told = answers(&one, &dead, &tracks, budget);
            assert_eq!(answers(&other, &dead, &tracks, budget), told);
            found += told.1.iter().filter(|told| told.0.number == 0).count();
        }
    }
    assert!(found > 500, "{found}");
}

/// What the calls give, the outputs as tracks.
fn answers(raw: &Raw, dead: &[u8], old: &Tracks, budget: u32) -> (u32, Vec<(Answer, Tracks)>) {
    let old = ticket_of(raw, old);
    let (number, searches) = given(&raw.bytes(), dead, &old, budget);
    let tracks = |(answer, out): (Answer, Vec<u8>)| (answer, tracks_of(raw, &out[..old.len()]));
    (number, searches.into_iter().map(tracks).collect())
}

/// Where a list does not touch the first ticket's wires, the ticket is the same; the
/// trials may be fewer.
#[test]
fn a_whole_first_ticket_stays_first() {
    let mut rng = Rng::new(118);
    let mut seen = [0, 0];
    for turn in 0..2000 {
        let (design, dead) = any(&mut rng, turn);
        let bytes = design.relist(&mut rng).bytes();
        let mut first = vec![0; design.entry_count()];
        let answer = model::route(&bytes, &[], MOST, &mut first);
        if answer.number != 0 || model::check(&bytes, &dead, &first) != 0 {
            continue;
        }
        let mut out = vec![0; first.len()];
        let other = model::route(&bytes, &dead, MOST, &mut out);
        assert!(other.number == 0 && other.trials <= answer.trials);
        assert_eq!(out, first);
        seen[0] += u32::from(!dead.is_empty());
        seen[1] += u32::from(other.trials < answer.trials);
    }
    assert!(seen[0] > 300 && seen[1] > 0, "{seen:?}");
}
