//! That what calls show of kind 3 is told apart.

use super::*;
use sheets::paper::{t_design, t_inside_design, t_raw};
use sheets::rows::ENDS;
use sheets::{Answer, Ask, Raw};

/// Sheet T with the rows `ENDS`, at this width.
fn t(width: u8) -> Raw {
    t_design(0, width).with_rows(ENDS).list()
}

fn shown(sheet: &Raw, ask: &Ask, outcome: &Outcome) -> Vec<&'static str> {
    kinds(&sheet.bytes(), Call::Listed(ask), outcome)
}

fn read(number: u32) -> Outcome {
    Outcome::Counts {
        number,
        nets: 0,
        entries: 0,
    }
}

const NONE: [&str; 0] = [];

#[test]
fn answers_are_told_apart() {
    assert_eq!(shown(&t(3), &Ask::Read, &read(0)), [ANSWERED]);
    assert_eq!(shown(&t_raw(1, 3).by_rows(), &Ask::Read, &read(0)), NONE);
    assert_eq!(shown(&t_raw(1, 3), &Ask::Read, &read(0)), NONE);
    let part = |length| Outcome::Part { offset: 0, length };
    let record = Ask::Record { place: 9 };
    assert_eq!(shown(&t(3), &record, &part(12)), [ANSWERED]);
    assert_eq!(shown(&t(3), &record, &part(0)), NONE);
}

#[test]
fn refusals_are_told_apart() {
    let mut both = t(3);
    both.row_bytes[3] = 32;
    assert_eq!(shown(&both, &Ask::Read, &read(18)), NONE);
    both.records[0].entries[0].0 = 7;
    assert_eq!(shown(&both, &Ask::Read, &read(18)), [BEFORE_6]);
    let part = Outcome::Part {
        offset: 0,
        length: 0,
    };
    let record = Ask::Record { place: 0 };
    assert_eq!(shown(&both, &record, &part), [BEFORE_6]);
    both.directory[0] = 1;
    assert_eq!(shown(&both, &record, &part), [AFTER_5]);
    assert_eq!(shown(&both, &Ask::Read, &read(5)), [AFTER_5]);
    both.row_bytes[3] = 31;
    assert_eq!(shown(&both, &Ask::Read, &read(5)), NONE);
}

/// A form with the sheet's own rows is none of the wrong ways.
#[test]
fn forms_are_told_apart() {
    let sheet = t(3);
    let room = sheet.bytes().len();
    let shown = |form: Vec<u8>| {
        let outcome = Outcome::Written {
            number: 0,
            output: form,
        };
        kinds(&sheet.bytes(), Call::Standard { room }, &outcome)
    };
    let parsed = parse(&sheet.bytes()).expect("a good sheet");
    let form = model::standard::form(&parsed);
    assert_eq!(shown(form), [ANSWERED, KEPT]);
    for (name, way) in near_rows::WAYS {
        let mut form = way(&parsed);
        form.resize(room, 0);
        assert!(
            name == "rows dropped" || shown(form) == [ANSWERED],
            "{name}"
        );
    }
}

#[test]
fn widths_are_told_apart() {
    let answer = |number, width, trials| Outcome::Answer {
        answer: Answer {
            number,
            width,
            trials,
            moved: 0,
        },
        output: Vec::new(),
    };
    let route = Ask::Route { budget: 9, room: 6 };
    let least = Ask::Least { budget: 9, room: 6 };
    let inside = |width| t_inside_design(0, width).with_rows(ENDS).list();
    let at = |sheet: &Raw, ask, outcome| width(&sheet.bytes(), Call::Listed(ask), &outcome);
    assert_eq!(at(&inside(3), &route, answer(0, 3, 6)), Some(3));
    assert_eq!(at(&inside(3), &route, answer(16, 0, 6)), Some(3));
    assert_eq!(at(&inside(3), &route, answer(15, 0, 0)), None);
    assert_eq!(at(&inside(3), &least, answer(0, 2, 6)), Some(2));
    assert_eq!(at(&inside(3), &least, answer(16, 0, 6)), None);
    assert_eq!(at(&t(3), &route, answer(0, 3, 6)), None);
    assert_eq!(at(&t_raw(0, 3), &route, answer(0, 3, 6)), None);
    assert_eq!(
        at(
            &t_inside_design(1, 3).by_rows().list(),
            &route,
            answer(0, 3, 6)
        ),
        None
    );
}
