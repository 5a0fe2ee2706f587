//! That what calls show of the marks and of long numbers is told apart.

use super::*;
use sheets::marks::{t, HALVES, HALVES_FORM};
use sheets::paper::{t_raw, T, T_LONG};
use sheets::{extremes, Answer, Raw, Spread};

const NONE: [&str; 0] = [];

fn read(number: u32) -> Outcome {
    Outcome::Counts {
        number,
        nets: 0,
        entries: 0,
    }
}

fn shown(sheet: &[u8], ask: &Ask, outcome: &Outcome) -> Vec<&'static str> {
    kinds(sheet, Call::Listed(ask), outcome)
}

#[test]
fn numbers_are_told_apart() {
    let of = |numbers| shown(&t(3, numbers).bytes(), &Ask::Read, &read(0));
    assert_eq!(of([1, 65_538, 131_075]), NONE);
    assert_eq!(of([0, 65_538, 131_075]), [ANSWERED[0]]);
    assert_eq!(of([65_535, 65_538, 131_075]), [ANSWERED[1]]);
    assert_eq!(of([65_536, 131_073, 2]), [ANSWERED[2]]);
    assert_eq!(of([4_294_967_295, 131_073, 2]), [ANSWERED[3]]);
    assert_eq!(of([1, 65_537, 131_075]), [LOW]);
    assert_eq!(of([1, 65_538, 65_539]), [HIGH]);
    // Halves of 0 are shared by all short numbers.
    assert_eq!(of([1, 2, 3]), NONE);
    assert_eq!(shown(&T, &Ask::Read, &read(0)), NONE);
}

#[test]
fn refusals_are_told_apart() {
    let of = |numbers| shown(&t(3, numbers).bytes(), &Ask::Read, &read(9));
    assert_eq!(of([65_537, 65_537, 1]), [NAME]);
    assert_eq!(of([1, 65_537, 1]), NONE);
    let mut other = T;
    other[53] = 0x49;
    assert_eq!(shown(&other, &Ask::Read, &read(5)), [OTHER]);
    other[0] = 2;
    assert_eq!(shown(&other, &Ask::Read, &read(5)), NONE, "9 otherwise");
    let mut other = T_LONG;
    other[59] = 0x48;
    assert_eq!(shown(&other, &Ask::Read, &read(5)), [OTHER]);
    let record = Ask::Record { place: 0 };
    let part = Outcome::Part {
        offset: 0,
        length: 0,
    };
    assert_eq!(shown(&other, &record, &part), [OTHER]);
    other[59] = 0x47;
    assert_eq!(shown(&other, &Ask::Read, &read(5)), NONE);
}

#[test]
fn orders_are_told_apart() {
    let answer = |trials| Outcome::Answer {
        answer: Answer {
            number: 0,
            width: 3,
            trials,
            moved: 0,
        },
        output: vec![0; 6],
    };
    let route = Ask::Route { budget: 9, room: 6 };
    let of = |numbers, trials| shown(&t(3, numbers).bytes(), &route, &answer(trials));
    // By low halves 2 and 1; by the low byte first too.
    let low = [ORDER[0], ORDER[2], ORDER[3]];
    assert_eq!(of([2, 65_537, 131_075], 6), low);
    assert_eq!(of([2, 65_537, 131_075], 0), NONE);
    // In one high half the first two stay as they stood.
    let high = of([65_538, 65_537, 131_075], 6);
    assert_eq!(high, [HIGH, ORDER[1]]);
    let signed = of([1, 65_538, 2_147_483_651], 6);
    assert_eq!(signed, [ORDER[4]]);
}

#[test]
fn removals_are_told_apart() {
    let of = |numbers, net, number| {
        let ask = Ask::Remove {
            ticket: vec![255; 6],
            net,
            room: 6,
        };
        let output = vec![255; 6];
        let outcome = Outcome::Written { number, output };
        shown(&t(3, numbers).bytes(), &ask, &outcome)
    };
    let numbers = [65_538, 131_075, 262_148];
    assert_eq!(of([0, 65_538, 131_075], 0, 0), [ANSWERED[0], TAKEN[0]]);
    assert_eq!(of(numbers, 65_538, 0), NONE);
    assert_eq!(of(numbers, 327_682, 17), [LOW_HALF]);
    assert_eq!(of(numbers, 131_090, 17), [HIGH_HALF]);
    assert_eq!(of(numbers, 3, 17), [LOW_HALF, CUT]);
    assert_eq!(of(numbers, 3 << 16 | 2, 17), [LOW_HALF, TURNED]);
    assert_eq!(of(numbers, 9, 17), NONE);
    assert_eq!(of([1, 2, 3], 65_537, 17), NONE);
}

fn formed(sheet: &[u8], form: &[u8]) -> Vec<&'static str> {
    let room = sheet.len();
    let outcome = Outcome::Written {
        number: 0,
        output: form.to_vec(),
    };
    kinds(sheet, Call::Standard { room }, &outcome)
}

#[test]
fn forms_are_told_apart() {
    // These numbers rise as signed ones too: one way is right.
    assert_eq!(formed(&HALVES, &HALVES_FORM), [ANSWERED[2], LOW, HIGH]);
    let mut raw = Raw::read(&HALVES).expect("a sheet");
    raw.records[1].number = 2_147_483_648;
    raw.records[2].number = 65_536;
    let sheet = parse(&raw.bytes()).expect("a good sheet");
    let form = model::standard::form(&sheet);
    assert!(formed(&raw.bytes(), &form).contains(&KEPT));
    for (name, way) in WAYS {
        let mut other = way(&sheet);
        other.resize(form.len().max(other.len()), 0);
        let right = LONG.contains(&name);
        assert_eq!(
            formed(&raw.bytes(), &other).contains(&KEPT),
            right,
            "{name}"
        );
    }
    assert_eq!(formed(&T, &T), [KEPT]);
    assert_eq!(formed(&T, &T_LONG), NONE);
}

#[test]
fn longest_form() {
    let longest = |nets| {
        let design = extremes::alike(nets, 32, 2, 32).by_rows();
        design.spread(Spread::Crossed).list().bytes()
    };
    let full = longest(64);
    assert_eq!(full.len(), 8728);
    assert!(formed(&full, &full).contains(&LONGEST));
    let fewer = longest(63);
    assert!(!formed(&fewer, &fewer).contains(&LONGEST));
}

#[test]
fn lengths_are_told_apart() {
    let of = |mark: Mark, length: usize, field: usize, number| {
        let mut raw = t_raw(0, 3).marked(mark);
        raw.gap = vec![0; length - usize::from(raw.length)];
        raw.settle();
        raw.length = field as u16;
        super::length(&raw.bytes(), &read(number))
    };
    for mark in Mark::BOTH {
        assert_eq!(of(mark, 8600, 8600, 5), Some(8600));
        assert_eq!(of(mark, 8728, 8728, 5), Some(8728));
        assert_eq!(of(mark, 8728, 8728, 1), None);
        assert_eq!(of(mark, 8729, 8729, 1), Some(8729));
        assert_eq!(of(mark, 8729, 8729, 5), None);
        assert_eq!(of(mark, 8728, 8727, 2), None);
        assert_eq!(of(mark, 8599, 8599, 5), None);
    }
}
