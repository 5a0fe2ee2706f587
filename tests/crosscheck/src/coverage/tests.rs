//! That whatever is left out is said to be missing.

use super::*;
use sheets::{Answer, Ask};

fn answer(number: u32, trials: u32, moved: u32) -> Outcome {
    let answer = Answer {
        number,
        width: 0,
        trials,
        moved,
    };
    Outcome::Answer {
        answer,
        output: Vec::new(),
    }
}

/// What a whole run sees under a mark: an outcome of a call, what a call shows, a
/// search of kind 3, or a length.
enum Seen {
    Outcome(&'static str, Outcome),
    Kind(&'static str, &'static str),
    Search(&'static str, u32),
    Length(usize),
}

impl Seen {
    fn note(&self, coverage: &mut super::Seen) {
        match self {
            Seen::Outcome(call, outcome) => coverage.note(call, outcome),
            Seen::Kind(call, kind) => coverage.see(call, kind),
            Seen::Search(call, width) => coverage.search(call, *width),
            Seen::Length(length) => *coverage.lengths.entry(*length).or_default() += 1,
        }
    }
}

/// One of the things that a whole run must see so often, and its line if it is missing.
struct Due {
    seen: Seen,
    fewest: u64,
    line: String,
}

/// Everything that a whole run must see under a mark.
fn all(mark: Mark) -> Vec<Due> {
    let mut all = outcomes();
    let of_remove = (0..=14).chain([17, 18]).map(|number| ("remove", number));
    let of_standard = (0..=9).chain([14, 18]).map(|number| ("standard", number));
    for (call, number) in of_remove.chain(of_standard) {
        let output = Vec::new();
        let line = gave(call, number);
        all.push((call, Outcome::Written { number, output }, line));
    }
    let outcome = |(call, outcome, line): (&'static str, Outcome, String)| Due {
        seen: Seen::Outcome(call, outcome),
        fewest: if line.starts_with("fewer") { FEWEST } else { 1 },
        line,
    };
    let mut all: Vec<Due> = all.into_iter().map(outcome).collect();
    for (call, kind, fewest) in kinds(mark) {
        all.push(Due {
            seen: Seen::Kind(call, kind),
            fewest,
            line: lacks(call, kind, fewest),
        });
    }
    for call in ["route", "least", "refit"] {
        for width in 1..=32 {
            let line = format!("no {call} searched kind 3 at width {width}");
            let seen = Seen::Search(call, width);
            let fewest = 1;
            all.push(Due { seen, fewest, line });
        }
    }
    for length in 8600..=8729 {
        all.push(Due {
            seen: Seen::Length(length),
            fewest: 8,
            line: format!("fewer than 8 calls on sheets of {length} bytes"),
        });
    }
    all
}

fn gave(call: &str, number: u32) -> String {
    format!("fewer than 20 of {call} gave {number}")
}

/// The outcomes of all calls but Remove and Standard.
fn outcomes() -> Vec<(&'static str, Outcome, String)> {
    let mut all = Vec::new();
    for number in (0..=9).chain([18]) {
        let (nets, entries) = (0, 0);
        let counts = Outcome::Counts {
            number,
            nets,
            entries,
        };
        all.push(("read", counts, gave("read", number)));
    }
    let part = |length| Outcome::Part { offset: 0, length };
    all.push((
        "record",
        part(8),
        "fewer than 20 records showed a part".into(),
    ));
    all.push(("record", part(0), "fewer than 20 records were empty".into()));
    for number in (0..=13).chain([18, 19, 20, 21]) {
        let line = gave("check", number);
        all.push(("check", Outcome::Number(number), line));
    }
    for call in ["route", "least", "refit"] {
        let numbers = (0..=16).chain([18, 19, 20, 21]);
        let of_tickets = [10, 11, 12, 13, 21];
        let numbers = numbers.filter(|number| call == "refit" || !of_tickets.contains(number));
        for number in numbers {
            let line = gave(call, number);
            all.push((call, answer(number, 0, 0), line));
        }
        let line = format!("no {call} was unroutable after trials");
        all.push((call, answer(15, 7, 0), line));
    }
    for moved in 1..=3 {
        all.push((
            "refit",
            answer(0, 9, moved),
            format!("no refit moved {moved}"),
        ));
    }
    all
}

/// What is missing where one thing is seen once too seldom.
fn missing_without(mark: Mark, left_out: Option<usize>) -> Vec<String> {
    let mut coverage = super::Seen::default();
    for (place, due) in all(mark).iter().enumerate() {
        let less = u64::from(left_out == Some(place));
        (0..due.fewest - less).for_each(|_| due.seen.note(&mut coverage));
    }
    coverage.missing(mark)
}

#[test]
fn nothing_is_missing_from_all() {
    for mark in Mark::BOTH {
        assert_eq!(missing_without(mark, None), Vec::<String>::new());
    }
}

#[test]
fn what_is_left_out_is_missing() {
    for mark in Mark::BOTH {
        for (place, due) in all(mark).into_iter().enumerate() {
            // These are among the answers that another line asks for.
            let again = match due.seen {
                Seen::Outcome("refit", outcome) => matches!(outcome.number(), Some(0 | 15)),
                Seen::Outcome(_, outcome) => outcome.number() == Some(15),
                _ => false,
            };
            let missing = missing_without(mark, Some(place));
            if again && due.line.contains("gave") {
                assert!(missing.is_empty(), "{missing:?}");
            } else {
                assert_eq!(missing, [due.line]);
            }
        }
    }
}

#[test]
fn all_is_missing_from_nothing() {
    for mark in Mark::BOTH {
        let lines: Vec<String> = all(mark).into_iter().map(|due| due.line).collect();
        let missing = super::Seen::default().missing(mark);
        assert_eq!(missing.len(), lines.len());
        assert!(missing.iter().all(|line| lines.contains(line)));
    }
}

fn whole() -> Coverage {
    let mut coverage = Coverage::default();
    let marks = [
        (Mark::Short, &mut coverage.short),
        (Mark::Long, &mut coverage.long),
    ];
    for (mark, seen) in marks {
        for due in all(mark) {
            (0..due.fewest).for_each(|_| due.seen.note(seen));
        }
    }
    coverage
}

/// What is seen under one mark is no matter under the other.
#[test]
fn each_mark_by_itself() {
    let mut coverage = whole();
    assert!(coverage.missing().is_empty());
    coverage.long = super::Seen::default();
    let missing = coverage.missing();
    assert_eq!(missing.len(), all(Mark::Long).len());
    assert!(missing.iter().all(|line| line.ends_with(", second mark")));
    let counts = Outcome::Counts {
        number: 0,
        nets: 0,
        entries: 0,
    };
    let sheets: [(&[u8], [usize; 3]); 3] = [
        (&[0x57, 0x48], [1, 0, 0]),
        (&[0x57, 0x49], [0, 1, 0]),
        (&[0x57, 0x4A], [0, 0, 1]),
    ];
    for (sheet, told) in sheets {
        let mut coverage = Coverage::default();
        coverage.note(sheet, "read", &counts);
        let Coverage {
            short,
            long,
            neither,
        } = coverage;
        assert_eq!([short, long, neither].map(|seen| seen.numbers.len()), told);
    }
}

#[test]
fn forgotten_is_missing() {
    let whats = [
        "number",
        "moved",
        "unroutable",
        "removed",
        "form",
        "rows",
        "width",
        "rim",
        "dead",
        "list",
        "mark",
        "edge",
        "halves",
        "twin",
        "length",
    ];
    for what in whats {
        let mut coverage = whole();
        coverage.forget(what);
        assert_eq!(coverage.missing().len(), 1, "{what}");
    }
}

/// The kinds of Remove, by calls on sheet T with nets 1 to 3.
#[test]
fn removes_are_told_apart() {
    let sheet = sheets::paper::t_raw(0, 3).bytes();
    let (right, partly) = ([0, 0, 1, 1, 2, 2], [255, 255, 1, 1, 2, 2]);
    let kinds = |ticket: &[u8], net, room, number, output: &[u8]| {
        let ask = Ask::Remove {
            ticket: ticket.to_vec(),
            net,
            room,
        };
        let output = output.to_vec();
        let outcome = Outcome::Written { number, output };
        removes::kinds(&sheet, Call::Listed(&ask), &outcome)
    };
    let clashing = [0, 0, 0, 0, 2, 2];
    assert_eq!(kinds(&right, 1, 6, 0, &partly), [removes::PLACED]);
    assert_eq!(kinds(&partly, 1, 6, 0, &partly), [removes::UNPLACED]);
    let longer = [255, 255, 1, 1, 2, 2, 9];
    let both = [removes::PLACED, removes::LONGER];
    assert_eq!(kinds(&right, 1, 7, 0, &longer), both);
    assert_eq!(kinds(&clashing, 4, 6, 13, &right), [removes::CLASH]);
    assert_eq!(kinds(&right, 4, 5, 17, &right[1..]), [removes::SHORT]);
    assert_eq!(kinds(&right, 65537, 6, 17, &right), [removes::WIDE]);
    assert_eq!(kinds(&right, 0, 6, 17, &right), [removes::PLACE]);
    let none: [&str; 0] = [];
    assert_eq!(kinds(&clashing, 3, 6, 13, &right), none);
    assert_eq!(kinds(&right, 4, 6, 17, &right), none);
    assert_eq!(kinds(&right, 65536, 6, 17, &right), none);
    assert_eq!(kinds(&right, 3, 5, 14, &right[1..]), none);
}
