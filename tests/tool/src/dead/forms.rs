//! Lists in both forms: which is which, pack and unpack, and text that is no list.

use crate::cases::Board;
use crate::failure::Failure;
use crate::run::{ask, Tool};

/// Commands that take a list.
const TAKE_A_LIST: [&str; 9] = [
    "check t3.sheet right",
    "route t3.sheet",
    "least t3.sheet",
    "refit t3.sheet right",
    "pack t3.sheet",
    "unpack t3.sheet",
    "explain t3.sheet",
    "explain t3.sheet right",
    "draw t3.sheet",
];

pub fn run(tool: &Tool) -> Result<(), Failure> {
    by_content(tool)?;
    overruled(tool)?;
    empty(tool)?;
    packing(tool)?;
    bad_text(tool)?;
    files(tool)
}

/// A byte 0 or 1 makes it bytes; digits do not make it text.
fn by_content(tool: &Tool) -> Result<(), Failure> {
    let nets = "net 1: 48\nnet 2: 304\n";
    tool.put(
        "large",
        format!("chip 16 by 16\nkind subset\nwidth 32\n{nets}"),
    )?;
    // Channel 48 is 30 00 in hexadecimal, the digit 0; 304 is 30 01, and has no 0.
    for (dead, ticket) in [
        (&[0x30, 0, 31][..], "1 48.31\n2 304.0"),
        (b"48.31", "1 48.31\n2 304.0"),
        (&[0x30, 1, 2], "1 48.0\n2 304.2"),
        (b"304.2", "1 48.0\n2 304.2"),
        (&[0x31, 1, 0x1F, 0x30, 1, 0x1E], "1 48.0\n2 304.30"),
        (
            "\u{feff}# two\r\n305.31 304.30".as_bytes(),
            "1 48.0\n2 304.30",
        ),
    ] {
        tool.put("list", dead)?;
        let broken = ask("check large - --dead list").fed(ticket);
        tool.refused(&broken, "answer 21\n", 21)?;
        let whole = ask("check large - --dead list").fed("1 48.1\n2 304.1");
        tool.right(&whole, "answer 0\n")?;
    }
    Ok(())
}

/// `--dead-bytes` on text and `--dead-text` on bytes.
fn overruled(tool: &Tool) -> Result<(), Failure> {
    for option in ["", "--dead-bytes"] {
        let line = format!("check t3.sheet right --dead dead {option}");
        tool.refused(&ask(&line), "answer 21\n", 21)?;
    }
    for option in ["", "--dead-text"] {
        let line = format!("check t3.sheet right --dead dead.text {option}");
        tool.refused(&ask(&line), "answer 21\n", 21)?;
    }
    // Four bytes are no whole items; three are channel 2E35 in hexadecimal.
    for text in ["5.1\n", "5.1"] {
        let asked = ask("check t3.sheet right --dead - --dead-bytes").fed(text);
        tool.refused(&asked, "answer 19\n", 19)?;
    }
    let as_bytes = [
        "trackrouter: dead: line 1: ",
        "(--dead-bytes reads it as bytes)\n",
    ];
    tool.wrong(&ask("route t3.sheet --dead dead --dead-text"), &as_bytes)?;
    // Bytes without a 0 or 1.
    tool.put("high", [255, 255, 255])?;
    let not_utf8 = [
        "trackrouter: high: byte 0 is no text in UTF-8",
        "(--dead-bytes reads it as bytes)\n",
    ];
    tool.wrong(&ask("least t3.sheet --dead high"), &not_utf8)?;
    tool.put("half", [5, 5])?;
    let half = [
        "trackrouter: half: line 1: ",
        "(--dead-bytes reads it as bytes)\n",
    ];
    tool.wrong(&ask("least t3.sheet --dead half"), &half)?;
    for list in ["high", "half"] {
        let line = format!("least t3.sheet --dead {list} --dead-bytes");
        tool.refused(&ask(&line), "answer 19 width 0 trials 0\n", 19)?;
    }
    Ok(())
}

/// The empty list in both forms: m1, m3 and m6.
fn empty(tool: &Tool) -> Result<(), Failure> {
    let lines = "1 0.0 1.0\n2 1.1 5.1\n3 0.2 5.2\n";
    for (list, option) in [
        ("", ""),
        ("", "--dead-bytes"),
        ("", "--dead-text"),
        ("# none\n\n", ""),
    ] {
        let line = |line: &str| ask(&format!("{line} --dead - {option}")).fed(list);
        tool.right(&line("check t3.sheet right"), "answer 0\n")?;
        let none = "answer 15 width 0 trials 10\n";
        tool.refused(&line("route t.sheet"), none, 15)?;
        let routed = format!("answer 0 width 3 trials 6\n{lines}");
        tool.right(&line("route t3.sheet"), routed)?;
        let least = format!("answer 0 width 3 trials 16\n{lines}");
        tool.right(&line("least t.sheet"), least)?;
        tool.right(&line("pack t.sheet"), "")?;
        tool.right(&line("unpack t.sheet"), "")?;
    }
    Ok(())
}

/// From one form to the other, whatever the library says of the list.
fn packing(tool: &Tool) -> Result<(), Failure> {
    let typed = "# board\n 05.001 0.2\r\n\n65535.255 # none such\n5.1";
    let bytes = [5, 0, 1, 0, 0, 2, 255, 255, 255, 5, 0, 1];
    let layout = "5.1\n0.2\n65535.255\n5.1\n";
    for sheet in ["t.sheet", "t3.text"] {
        let line = |verb: &str| ask(&format!("{verb} {sheet} --dead -"));
        tool.right(&line("pack").fed(typed), bytes)?;
        tool.right(&line("pack").fed(bytes), bytes)?;
        tool.right(&line("unpack").fed(typed), layout)?;
        tool.right(&line("unpack").fed(bytes), layout)?;
        tool.right(&line("pack").fed([5, 0]), [5, 0])?;
        tool.refused(&line("unpack").fed([5, 0]), "", 19)?;
    }
    tool.right(&ask("unpack t.sheet --dead dead --out typed"), "")?;
    if tool.get("typed")? != b"5.1\n" {
        return Err(Failure::new("unpack --out has another list"));
    }
    // The sheet is read, and for unpack it has to be accepted.
    tool.put("zeros", [0; 40])?;
    tool.right(&ask("pack zeros --dead dead.text"), [5, 0, 1])?;
    tool.refused(&ask("unpack zeros --dead dead"), "", 2)
}

/// The list of a board by chance in both forms.
pub fn by_model(tool: &Tool, board: Board) -> Result<(), Failure> {
    let Board { sheet, dead } = board;
    let Some(typed) = super::text(dead) else {
        return Ok(());
    };
    tool.put("case.sheet", sheet)?;
    tool.put("case.dead", dead)?;
    tool.right(&ask("pack case.sheet --dead -").fed(&typed), dead)?;
    let line = "unpack case.sheet --dead case.dead --dead-bytes";
    tool.right(&ask(line), typed)
}

fn bad_text(tool: &Tool) -> Result<(), Failure> {
    let texts = [
        ("5", "line 1: \"5\" is no CHANNEL.TRACK"),
        ("5.1\n\n# more\n5.", "line 4: \"5.\" is no CHANNEL.TRACK"),
        ("5.1 6.-1", "line 1: \"6.-1\" is no CHANNEL.TRACK"),
        ("5.1\nchannel 3", "line 2: \"channel\" is no CHANNEL.TRACK"),
        ("1 0.0 1.0", "line 1: \"1\" is no CHANNEL.TRACK"),
        ("65536.0", "line 1: channel 65536 is over 65535"),
        ("0.0\n0.256", "line 2: track 256 is over 255"),
    ];
    for (text, reason) in texts {
        tool.put("bad", text)?;
        for line in TAKE_A_LIST {
            let line = format!("{line} --dead bad");
            let said = format!("trackrouter: bad: {reason}\n");
            tool.wrong(&ask(&line), &[&said])?;
        }
        let said = format!("standard input: {reason}");
        tool.wrong(&ask("route t3.sheet --dead -").fed(text), &[&said])?;
    }
    Ok(())
}

/// Lists that cannot be read.
fn files(tool: &Tool) -> Result<(), Failure> {
    for line in TAKE_A_LIST {
        let missing = ask(&format!("{line} --dead missing"));
        tool.wrong(&missing, &["trackrouter: missing: ", "No such file"])?;
        let endless = ask(&format!("{line} --dead /dev/zero"));
        tool.wrong(&endless, &["trackrouter: /dev/zero: ", "over 16 MB"])?;
    }
    Ok(())
}
