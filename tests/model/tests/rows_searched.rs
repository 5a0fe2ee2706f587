//! 02 M-102: searches on sheets of kind 3, against brute force and against each
//! other.

use model::brute::{self, Settled};
use model::sheet::{parse, Sheet};
use model::Answer;
use sheets::rows::{self, Row};
use sheets::{random, Design, Rng};

const MOST: u32 = 20_000;

type Search = fn(&[u8], &[u8], u32, &mut [u8]) -> Answer;
type Force = fn(&Sheet, &[u8]) -> Option<Settled>;

/// A search's answer and ticket.
fn searched(search: Search, design: &Design) -> (Answer, Vec<u8>) {
    let mut out = vec![0; design.entry_count()];
    let answer = search(&design.list().bytes(), &[], MOST, &mut out);
    (answer, out)
}

/// A small design of kind 3.
fn small(rng: &mut Rng) -> Design {
    random::small(rng).with_rows(rows::any(rng))
}

/// What is settled by force, if the sheet is small enough, is what is found.
fn by_force(search: Search, force: Force) {
    let mut rng = Rng::new(70);
    let mut seen = [0, 0];
    for _ in 0..1000 {
        let design = small(&mut rng);
        let sheet = parse(&design.list().bytes()).expect("a good sheet");
        let Some(told) = force(&sheet, &[]) else {
            continue;
        };
        let (answer, out) = searched(search, &design);
        assert_eq!(answer, told.answer, "{design:?}");
        assert!(answer.number != 0 || out == told.ticket, "{design:?}");
        seen[usize::from(answer.number == 0)] += 1;
    }
    assert!(seen[1] > 200, "{seen:?}");
}

#[test]
fn route_by_force() {
    by_force(model::route, brute::route);
}

#[test]
fn least_by_force() {
    by_force(model::least, brute::least);
}

/// Least is Route at width 1, 2 and so on with the same rows, each with that width
/// for W; the sheet's own width is not used.
#[test]
fn least_is_route_at_each_width() {
    let mut rng = Rng::new(71);
    let mut seen = [0; 6];
    for _ in 0..1500 {
        let design = random::crowded(&mut rng).with_rows(rows::any(&mut rng));
        let (answer, ticket) = searched(model::least, &design);
        if answer.number != 0 {
            continue;
        }
        let mut trials = 0;
        for width in 1..=answer.width {
            let (routed, out) = searched(model::route, &design.clone().with_width(width as u8));
            trials += routed.trials;
            let found = routed.number == 0;
            assert_eq!(found, width == answer.width);
            assert!(!found || out == ticket);
        }
        assert_eq!(answer.trials, trials);
        seen[answer.width.min(5) as usize] += 1;
    }
    assert!(seen[2..].iter().all(|&count| count > 50), "{seen:?}");
}

/// The design with shift −1 in all columns, and with W−1: alike at W.
fn alike(design: Design, minus: bool) -> [Design; 2] {
    let shifts = [-1, design.width as i8 - 1];
    shifts.map(|shift| design.clone().with_rows([Row { minus, shift }; 6]))
}

/// Route gives the same on both, Least often does not: at other widths they differ.
#[test]
fn least_where_shifts_act_alike() {
    let mut rng = Rng::new(72);
    let mut seen = [0, 0];
    for _ in 0..600 {
        let design = random::crowded(&mut rng);
        let [one, other] = alike(design, rng.chance(1, 2));
        assert_eq!(
            searched(model::route, &one),
            searched(model::route, &other),
            "{one:?}"
        );
        let [one, other] = [one, other].map(|design| searched(model::least, &design));
        seen[usize::from(one == other)] += 1;
    }
    assert!(seen.iter().all(|&count| count > 20), "{seen:?}");
}

/// Both ends of the range act as a shift within the width: −32 at each width as its
/// remainder, in Route's answers.
#[test]
fn the_lowest_shift() {
    let mut rng = Rng::new(73);
    for _ in 0..600 {
        let design = random::crowded(&mut rng);
        let width = i32::from(design.width);
        let minus = rng.chance(1, 2);
        for shift in [-32i8, -31, 31] {
            let near = i32::from(shift).rem_euclid(width) as i8;
            let [one, other] =
                [shift, near].map(|shift| design.clone().with_rows([Row { minus, shift }; 6]));
            assert_eq!(searched(model::route, &one), searched(model::route, &other));
        }
    }
}
