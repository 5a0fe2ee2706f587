//! 19, 20 and 21: what every verb prints, and which number comes first.

use crate::failure::Failure;
use crate::run::{ask, Tool};
use sheets::paper::t_raw;

pub fn run(tool: &Tool) -> Result<(), Failure> {
    let mut name = t_raw(0, 3);
    name.records[2].number = 1;
    tool.put("name", name.bytes())?;
    tool.put("short", [0, 0, 1, 1, 2])?;
    lists(tool)?;
    words(tool)?;
    tickets(tool)
}

/// The lists of T, with channels 0 to 6, that are refused, and the number.
fn lists(tool: &Tool) -> Result<(), Failure> {
    let lists: [(&[u8], u32); 12] = [
        (&[0], 19),
        (&[5, 0, 1, 0], 19),
        (&[5, 0, 1, 5, 0, 1, 0, 0], 19),
        (&[7, 0, 0], 19),
        (b"7.0", 19),
        (&[0, 1, 0], 19),
        (&[0, 0, 32], 19),
        (b"0.32", 19),
        (b"5.1 5.1 0.255", 19),
        (&[5, 0, 1, 5, 0, 1], 20),
        (b"5.1\n0.0\n5.1\n", 20),
        (b"5.31 5.31", 20),
    ];
    for (list, number) in lists {
        tool.put("bad", list)?;
        for (line, rest) in [
            ("check t3.sheet right", ""),
            ("check t3.sheet short", ""),
            ("check t.sheet right", ""),
            ("route t3.sheet", " width 0 trials 0"),
            ("route t3.sheet --budget 0", " width 0 trials 0"),
            ("least t.sheet", " width 0 trials 0"),
            ("refit t3.sheet left", " width 0 trials 0 moved 0"),
            ("refit t3.sheet short", " width 0 trials 0 moved 0"),
        ] {
            let asked = ask(&format!("{line} --dead bad"));
            tool.refused(&asked, &format!("answer {number}{rest}\n"), number)?;
        }
        for line in ["draw t3.sheet", "draw t3.sheet right"] {
            tool.refused(&ask(&format!("{line} --dead bad")), "", number)?;
        }
        // The sheet comes first.
        let asked = ask("check name right --dead bad");
        tool.refused(&asked, "answer 9\n", 9)?;
        let asked = ask("route name --dead bad");
        tool.refused(&asked, "answer 9 width 0 trials 0\n", 9)?;
    }
    // The last wire of the chip is good, at any W.
    tool.right(
        &ask("check t3.sheet right --dead -").fed("6.31"),
        "answer 0\n",
    )
}

/// The lines on standard error, word for word.
fn words(tool: &Tool) -> Result<(), Failure> {
    for (line, input, said) in [
        (
            "check t3.sheet right --dead -",
            "7.0",
            "19 list: the list of dead wires is not of whole items, or has an unknown channel or a track over 31; \
             trackrouter explain --dead says where",
        ),
        (
            "route t3.sheet --dead -",
            "5.1 5.1",
            "20 repeat: a wire stands twice in the list of dead wires; trackrouter explain --dead says where",
        ),
        (
            "check t3.sheet right --dead -",
            "5.1",
            "21 broken: a net is on a dead wire; trackrouter explain --dead says where",
        ),
        (
            "refit t3.sheet right --dead -",
            "5.1",
            "21 broken: a net is on a dead wire; trackrouter explain --old --dead says where",
        ),
    ] {
        let output = tool.output(&ask(line).fed(input))?;
        if output.stderr != format!("trackrouter: {said}\n").as_bytes() {
            return Err(Failure::new(crate::run::told(&output)));
        }
    }
    Ok(())
}

/// 21 after 12 and before 13, with 5.1 and 0.2 dead; 0.3 is not below W.
fn tickets(tool: &Tool) -> Result<(), Failure> {
    tool.put("list", "0.3 0.2 5.1\n")?;
    for (ticket, by_check, by_refit) in [
        (&b"1 0.0 1.0\n2 1.1 5.1\n3 0.3 5.3"[..], 11, 11),
        (b"1 0.0 1.0\n2 1.1 5.1\n3 0.2 5.0", 12, 12),
        (b"1 0.0 1.0\n2 1.1 5.1\n3 0.1 5.1", 21, 21),
        (b"1 0.0 1.0\n2 1.0 5.0\n3 0.0 5.0", 13, 13),
        (b"1 0.0 1.0\n2 unplaced\n3 0.2 5.2", 11, 21),
        (&[0, 0, 1, 1, 2], 10, 10),
        (&[255, 255, 1, 1, 255, 255], 11, 21),
    ] {
        let check = ask("check t3.sheet - --dead list").fed(ticket);
        tool.refused(&check, &format!("answer {by_check}\n"), by_check)?;
        let refit = ask("refit t3.sheet - --dead list").fed(ticket);
        let answer = format!("answer {by_refit} width 0 trials 0 moved 0\n");
        tool.refused(&refit, &answer, by_refit)?;
    }
    // Remove takes no list, and no net is on a dead wire to it.
    let removed = ask("remove t3.sheet right 3");
    tool.right(&removed, "answer 0\n1 0.0 1.0\n2 1.1 5.1\n")
}
