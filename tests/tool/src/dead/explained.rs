//! What explain says of lists, and of tickets on dead wires.

use crate::cases::Board;
use crate::expected::{Expected, Text};
use crate::explain::found;
use crate::failure::Failure;
use crate::run::{ask, Tool};
use sheets::Ask;

const LIST_RULE: &str = "\nrule: A list of dead wires has 3 bytes for each of its items: ";

pub fn run(tool: &Tool) -> Result<(), Failure> {
    accepted(tool)?;
    lists(tool)?;
    broken(tool)?;
    first(tool)
}

fn accepted(tool: &Tool) -> Result<(), Failure> {
    let asked = |line: &str, list: &str| ask(&format!("explain {line} --dead -")).fed(list);
    let counts = |count: &str, width: u8| {
        format!("answer 0\nthe list is accepted: {count} dead wires below W {width}\n")
    };
    for (list, count) in [
        ("", "0 of 0"),
        ("5.1", "1 of 1"),
        ("5.3 0.2 6.31", "1 of 3"),
    ] {
        tool.right(&asked("t3.sheet", list), counts(count, 3))?;
    }
    tool.right(&asked("t.sheet", "5.1 0.2"), counts("1 of 2", 2))?;
    let right = "answer 0\nthe ticket is right\n";
    tool.right(&asked("t3.sheet right", "0.1 5.3"), right)?;
    let old = "answer 0\nthe old ticket is accepted: 1 of 3 nets unplaced\n";
    tool.right(&asked("t3.sheet left --old", "5.1"), old)
}

/// Item and byte, by hand, and the line of a typed list.
fn lists(tool: &Tool) -> Result<(), Failure> {
    let half =
        "item 1 at byte 3 of the list: the list ends at byte 5, after 2 of the item's 3 bytes";
    let channel =
        "item 1 at byte 3 of the list: channel 7, and a chip of 3 by 2 has channels 0 to 6";
    let track = "item 2 at byte 6 of the list: track 32, not 0 to 31";
    let twice = "item 2 at byte 6 of the list: channel 0, track 31, which item 0 has already";
    let again = "\nrule: No wire stands twice in a list of dead wires";
    let cases: [(&[u8], u32, &str, &str, &str); 7] = [
        (&[7, 0, 0, 7, 0], 19, half, "", LIST_RULE),
        (&[5, 0, 1, 7, 0, 0], 19, channel, "", LIST_RULE),
        (
            b"# typed\n5.1\n7.0 # none\n",
            19,
            channel,
            "\nline 3 of the list: 7.0 # none",
            LIST_RULE,
        ),
        (
            &[0, 0, 0, 0, 0, 1, 0, 0, 32, 7, 0, 0],
            19,
            track,
            "",
            LIST_RULE,
        ),
        (
            "\u{feff}0.0 0.1 0.32\n0.0".as_bytes(),
            19,
            track,
            "\nline 1 of the list: 0.0 0.1 0.32",
            LIST_RULE,
        ),
        (&[0, 0, 31, 0, 0, 1, 0, 0, 31], 20, twice, "", again),
        (
            b"0.31\n0.1\n 0.31\n",
            20,
            twice,
            "\nline 3 of the list:  0.31",
            again,
        ),
    ];
    for (list, number, finding, line, rule) in cases {
        let said = format!(": {finding}{line}{rule}");
        for asked in [
            "explain t3.sheet",
            "explain t3.text",
            "explain t3.sheet right",
            "explain t3.text left --old",
        ] {
            let asked = ask(&format!("{asked} --dead -")).fed(list);
            tool.expect(&asked, found(number, &[&said]))?;
        }
    }
    Ok(())
}

/// Net, entry and byte of the ticket, the item of the list, and the ticket's line.
fn broken(tool: &Tool) -> Result<(), Failure> {
    let finding = "net 2 (record 1), entry 1 (ticket byte 3): channel 5 has track 1, a dead wire (item 1 of the list)";
    let rule = "\nrule: No net is on a dead wire; in a ticket for Refit, no net that is placed.\n";
    tool.put("list", "0.31\n5.1\n")?;
    tool.put("lines", "3 0.2 5.2\n2 5.1 1.1 # vent\n1 0.0 1.0\n")?;
    for old in ["", "--old"] {
        // The line of a net on a ticket in bytes is that of the typed sheet.
        for (inputs, line) in [
            ("t3.sheet right", ""),
            ("t3.text right", "\nline 5 of the sheet: net 2: 1 5-1"),
            ("t3.text lines", "\nline 2 of the ticket: 2 5.1 1.1 # vent"),
        ] {
            let said = format!(": {finding}{line}{rule}");
            let asked = ask(&format!("explain {inputs} --dead list {old}"));
            tool.expect(&asked, found(21, &[&said]))?;
        }
    }
    // Without the list the ticket is right, and Remove takes it.
    let right = "answer 0\nthe ticket is right\n";
    tool.right(&ask("explain t3.sheet right"), right)
}

/// The number that comes first.
fn first(tool: &Tool) -> Result<(), Failure> {
    tool.put("list", "5.1\n")?;
    for (ticket, number, piece) in [
        (&[0, 0, 1, 1, 2][..], 10, "5 bytes"),
        (&[0, 0, 1, 1, 3, 3], 11, "track 3"),
        (&[0, 0, 1, 1, 2, 0], 12, "whose partner"),
        (&[0, 0, 1, 1, 1, 1], 21, "net 2"),
        (&[0, 0, 0, 0, 0, 0], 13, "both hold"),
    ] {
        for old in ["", "--old"] {
            let asked = ask(&format!("explain t3.sheet - --dead list {old}")).fed(ticket);
            tool.expect(&asked, found(number, &[piece]))?;
        }
    }
    let asked = ask("explain name right --dead -").fed("7.0");
    tool.expect(&asked, found(9, &["record 2"]))
}

/// The model's number of a call's list and ticket.
pub fn by_model(tool: &Tool, board: Board, asked: &Ask) -> Result<(), Failure> {
    let Board { sheet, dead } = board;
    let refit = |old: &[u8]| model::refit(sheet, dead, old, 0, &mut [0; 2048]).number;
    let (number, rest) = match asked {
        Ask::Check { ticket } => (model::check(sheet, dead, ticket), "case.ticket"),
        Ask::Refit { old, .. } => (refit(old), "case.ticket --old"),
        _ => (model::route(sheet, dead, 0, &mut [0; 2048]).number, ""),
    };
    tool.put("case.sheet", sheet)?;
    tool.put("case.dead", dead)?;
    tool.put("case.ticket", asked.ticket().unwrap_or(&[]))?;
    let bytes = match rest {
        "" => "--bytes --dead-bytes",
        _ => "--bytes --dead-bytes --ticket-bytes",
    };
    let asked = ask(&format!(
        "explain case.sheet {rest} --dead case.dead {bytes}"
    ));
    let expected = match number {
        // 14 to 16 speak of the output and the search.
        0 | 14 | 15 | 16 => Expected {
            status: 0,
            stdout: Text::has(&["answer 0\nthe "]),
            stderr: Text::Is(Vec::new()),
        },
        number => found(number, &[]),
    };
    tool.expect(&asked, expected)
}
