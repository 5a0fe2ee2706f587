//! The deepest stack of the library's calls.
#![forbid(unsafe_code)]

use crate::sheets::{deep, largest, rounds, Old};
use crate::tables::{Answer, Found};
use crate::{by_value, in_place, stack, standard, tables};
use trackrouter::MAX_SHEET;

const BUDGET: u32 = 1_000_000;

/// A stack that must be enough.
const SMALL: usize = 512 << 10;

/// An output of this length is enough for every ticket and every standard form.
const ROOM: usize = MAX_SHEET;

/// What a call gives that has no width, trials or moves.
const NOTHING: Found = Found {
    width: 0,
    trials: 0,
    moved: 0,
};

type Call = fn(&Old, &mut [u8]) -> Answer;
type Gives = Result<[u32; 2], u32>;

struct Case {
    name: &'static str,
    call: Call,
    old: Old,
    /// The width and moves that the call must give, or the number.
    gives: Gives,
}

impl Case {
    fn new(name: &'static str, call: Call, old: Old, gives: Gives) -> Case {
        Case {
            name,
            call,
            old,
            gives,
        }
    }

    fn depth(&self) -> String {
        let mut out = [0; ROOM];
        let (answer, bytes) = stack::depth(|| (self.call)(&self.old, &mut out));
        self.check(answer);
        let most = if bytes == stack::SKIPPED {
            "at most "
        } else {
            ""
        };
        format!("{most}{bytes} bytes ({})", self.name)
    }

    fn run_small(&self) {
        let answer = stack::on_a_stack_of(SMALL, || (self.call)(&self.old, &mut [0; ROOM]));
        self.check(answer);
    }

    fn check(&self, answer: Answer) {
        let gives = match answer {
            Ok(routed) => Ok([routed.width, routed.moved]),
            Err(refusal) => Err(refusal.number),
        };
        assert!(gives == self.gives, "{}: {answer:?}", self.name);
    }
}

pub fn report() {
    let route: Call = |old, out| tables::answer(trackrouter::route(&old.sheet, &[], BUDGET, out));
    let least: Call = |old, out| tables::answer(trackrouter::least(&old.sheet, &[], BUDGET, out));
    let refit: Call = |old, out| {
        tables::answer(trackrouter::refit(
            &old.sheet,
            &[],
            &old.ticket,
            BUDGET,
            out,
        ))
    };
    // The first net of the sheet goes out.
    let remove: Call = |old, out| {
        let record = trackrouter::record(&old.sheet, 0);
        let net = u16::from_le_bytes([record[0], record[1]]).into();
        trackrouter::remove(&old.sheet, &old.ticket, net, out).map(|_| NOTHING)
    };
    let standard: Call = |old, out| trackrouter::standard(&old.sheet, out).map(|_| NOTHING);
    let cases = [
        Case::new("Route", route, deep(), Ok([32, 0])),
        Case::new("Least", least, deep(), Ok([32, 0])),
        Case::new("Refit", refit, deep(), Ok([32, 1])),
        Case::new("Refit, 59 rounds", refit, rounds(), Err(15)),
        Case::new("Remove", remove, deep(), Ok([0, 0])),
        Case::new("Standard", standard, longest(), Ok([0, 0])),
    ];
    let depths = cases.each_ref().map(Case::depth);
    println!("deepest stack: {}", depths.join(", "));

    let by_value: Call = |old, out| tables::route(by_value::search, &old.sheet, BUDGET, out);
    let in_place: Call = |old, out| tables::route(in_place::search, &old.sheet, BUDGET, out);
    let plain: Call = |old, out| standard::standard(&old.sheet, out).map(|_| NOTHING);
    let beside = [
        Case::new("Route by value", by_value, deep(), Ok([32, 0])),
        Case::new("Route in place", in_place, deep(), Ok([32, 0])),
        Case::new("Standard", plain, longest(), Ok([0, 0])),
    ];
    let depths = beside.each_ref().map(Case::depth);
    println!("plain Rust: {}", depths.join(", "));

    cases.iter().for_each(Case::run_small);
    println!("a stack of {SMALL} bytes was enough for each of the library's calls");
}

/// A sheet for Standard, which needs no ticket.
fn longest() -> Old {
    let [sheet, ..] = largest();
    Old {
        sheet,
        ticket: Vec::new(),
    }
}
