//! Explanations: the number is the right one, and the place is named.

mod typed;

use crate::expected::{word, Expected, Text};
use crate::failure::Failure;
use crate::run::{ask, Tool};
use crate::text;
use sheets::paper::{self, t_raw};
use sheets::{dead, refusals, Ask, Told};

pub fn run(tool: &Tool) -> Result<(), Failure> {
    tool.put("t.sheet", paper::T)?;
    tool.put("t3.sheet", t_raw(0, 3).bytes())?;
    tool.put("t3.text", text::of(&t_raw(0, 3).bytes()).expect("a text"))?;
    tool.put("lines", "1 0.0 1.0\n2 1.1 5.1\n3 0.2 5.2\n")?;
    accepted(tool)?;
    places(tool)?;
    typed::run(tool)?;
    tickets(tool)?;
    faults(tool)
}

/// What explain prints for a number that is not 0: these pieces besides.
pub fn found(number: u32, pieces: &[&str]) -> Expected {
    let begin = format!("answer {number}\n{number} {}: ", word(number));
    let mut all = vec![&*begin, "\nrule: "];
    all.extend(pieces);
    Expected {
        status: 1,
        stdout: Text::has(&all),
        stderr: Text::Is(Vec::new()),
    }
}

fn accepted(tool: &Tool) -> Result<(), Failure> {
    let counts = "answer 0\nthe sheet is accepted: 3 nets, 6 entries\n";
    tool.right(&ask("explain t.sheet"), counts)?;
    tool.right(&ask("explain t3.text"), counts)?;
    tool.right(&ask("explain -").fed(paper::T), counts)?;
    let right = "answer 0\nthe ticket is right\n";
    tool.right(&ask("explain t3.sheet lines"), right)?;
    tool.right(&ask("explain t3.text -").fed([0, 0, 1, 1, 2, 2]), right)?;
    let old =
        |unplaced| format!("answer 0\nthe old ticket is accepted: {unplaced} of 3 nets unplaced\n");
    let partly = [255, 255, 1, 1, 2, 2];
    tool.right(&ask("explain --old t3.sheet -").fed(partly), old(1))?;
    tool.right(&ask("explain t3.sheet - --old").fed("2 1.1 5.1"), old(2))?;
    tool.right(&ask("explain --old t3.sheet lines"), old(0))?;
    tool.expect(
        &ask("explain t3.sheet -").fed(partly),
        found(11, &["byte 0"]),
    )
}

/// Record, entry and byte, by hand on T: a record has 12 bytes, its entries
/// stand from its byte 4 on, the trailer from byte 42 on.
fn places(tool: &Tool) -> Result<(), Failure> {
    let broken = |at: usize, value: u8| {
        let mut sheet = paper::T.to_vec();
        sheet[at] = value;
        ask("explain -").fed(sheet)
    };
    let cases: [(usize, u8, u32, &[&str]); 10] = [
        (53, 0x4A, 2, &["byte 52"]),
        (50, 0x37, 2, &["byte 50", "55", "54"]),
        (42, 17, 3, &["byte 42", "17"]),
        (45, 33, 3, &["byte 45", "33"]),
        (46, 65, 4, &["byte 46", "65"]),
        (38, 13, 5, &["record 1", "byte 38", "13", "12"]),
        (26, 33, 5, &["record 2", "byte 26", "33"]),
        (
            20,
            7,
            6,
            &["net 2", "record 1", "entry 1", "byte 20", "channel 7"],
        ),
        (
            20,
            1,
            7,
            &["net 2", "record 1", "entry 1", "byte 20", "channel 1"],
        ),
        (
            22,
            1,
            8,
            &["net 2", "record 1", "entry 1", "byte 22", "parent 1"],
        ),
    ];
    for (at, value, number, pieces) in cases {
        tool.expect(&broken(at, value), found(number, pieces))?;
    }
    let twice = found(9, &["record 2", "byte 24", "record 0"]);
    tool.expect(&broken(24, 1), twice)?;
    tool.expect(&ask("explain -").fed([0; 11]), found(1, &["11"]))
}

/// Tickets of T at W 3, and the sheet's own fault where lines cannot be matched.
fn tickets(tool: &Tool) -> Result<(), Failure> {
    let cases: [(&[u8], u32, &[&str]); 5] = [
        (&[0, 0, 1, 1, 2], 10, &["5", "6"]),
        (
            &[0, 0, 1, 3, 2, 2],
            11,
            &["net 2", "record 1", "entry 1", "byte 3", "track 3"],
        ),
        (
            &[0, 0, 1, 255, 2, 2],
            11,
            &["net 2", "record 1", "entry 1", "byte 3", "255"],
        ),
        (
            &[0, 0, 1, 2, 2, 2],
            12,
            &["net 2", "record 1", "entry 1", "byte 3"],
        ),
        (
            &[0, 0, 1, 1, 1, 1],
            13,
            &[
                "net 2 (record 1), entry 1 (ticket byte 3)",
                "net 3 (record 2), entry 1 (ticket byte 5)",
                "channel 5, track 1\n",
            ],
        ),
    ];
    for (ticket, number, pieces) in cases {
        for sheet in ["t3.sheet", "t3.text"] {
            for old in ["", "--old"] {
                let asked = ask(&format!("explain {sheet} - {old}")).fed(ticket);
                tool.expect(&asked, found(number, pieces))?;
            }
        }
    }
    let mut broken = t_raw(0, 3);
    broken.records[1].number = 3;
    tool.put("broken", broken.bytes())?;
    for line in [
        "explain broken lines",
        "explain broken lines --old",
        "explain broken",
    ] {
        tool.expect(&ask(line), found(9, &["record 2"]))?;
    }
    Ok(())
}

/// A part of the fixed list of refusals, and of the calls under dead wires: only the
/// numbers, which are by hand.
fn faults(tool: &Tool) -> Result<(), Failure> {
    for fault in refusals::faults().into_iter().step_by(5) {
        let asked = ask("explain --bytes -").fed(&fault.sheet);
        tool.expect(&asked, found(fault.number, &[]))?;
        if let Some(typed) = text::of(&fault.sheet) {
            tool.expect(&ask("explain -").fed(typed), found(fault.number, &[]))?;
        }
    }
    let under_lists = dead::cases().into_iter().step_by(47);
    for case in refusals::cases().into_iter().step_by(13).chain(under_lists) {
        let (ticket, number, old) = match (&case.ask, &case.told) {
            (Ask::Check { ticket }, Told::Number(number)) => (ticket, *number, ""),
            (Ask::Refit { old, .. }, Told::Answer { answer, .. }) => (old, answer.number, "--old"),
            _ => continue,
        };
        // 14 to 16 speak of the output and the search.
        if ![0, 14, 15, 16].contains(&number) {
            tool.put("case.sheet", &case.sheet)?;
            tool.put("case.dead", &case.dead)?;
            let list = match case.dead.is_empty() {
                true => "",
                false => "--dead case.dead --dead-bytes",
            };
            let line = format!("explain --bytes case.sheet - --ticket-bytes {old} {list}");
            tool.expect(&ask(&line).fed(ticket), found(number, &[]))?;
        }
    }
    Ok(())
}
