//! Sheets in both forms: read, record, pack and unpack.

use crate::expected::{Expected, Text};
use crate::failure::Failure;
use crate::run::{ask, Tool};
use crate::text;
use sheets::paper::{self, t_raw};
use sheets::{extremes, Raw, Record};

/// T as someone may type it.
const TYPED: &str =
    "# probe, vent and lamp\r\n\r\n chip\t3 by 2  # columns by rows\r\nkind 0\n\nwidth 02\n\
                     net 1:  0 1-0\nnet 2: 1 5-1 # up\nnet 3: 0 5-0";

pub fn run(tool: &Tool) -> Result<(), Failure> {
    tool.put("t.sheet", paper::T)?;
    tool.put("t.text", text::T)?;
    tool.put("typed", TYPED)?;
    reading(tool)?;
    places(tool)?;
    overruled(tool)?;
    packing(tool)?;
    refused(tool)?;
    large(tool)
}

fn reading(tool: &Tool) -> Result<(), Failure> {
    let counts = "answer 0 nets 3 entries 6\n";
    for name in [
        "t.sheet",
        "t.text",
        "typed",
        "--bytes t.sheet",
        "t.text --text",
    ] {
        tool.right(&ask(&format!("read {name}")), counts)?;
    }
    tool.right(&ask("read -").fed(paper::T), counts)?;
    tool.right(&ask("read -").fed(text::T), counts)?;
    tool.right(&ask("read - --text").fed(TYPED), counts)?;
    let none = Raw::new(2, 2, 2, 32, Vec::new()).bytes();
    tool.right(&ask("read -").fed(none), "answer 0 nets 0 entries 0\n")
}

fn places(tool: &Tool) -> Result<(), Failure> {
    for sheet in ["t.sheet", "typed"] {
        let at = |place: &str| ask(&format!("record {sheet} {place}"));
        tool.right(&at("0"), "offset 0 length 12\n")?;
        tool.right(&at("1"), "offset 12 length 12\n")?;
        tool.right(&at("2"), "offset 24 length 12\n")?;
        for beyond in ["3", "4", "65535", "18446744073709551615"] {
            let why = format!("no record at place {beyond}");
            let expected = Expected {
                status: 1,
                stdout: Text::Is(b"offset 0 length 0\n".to_vec()),
                stderr: Text::line(&["trackrouter: ", &why, "3 nets"]),
            };
            tool.expect(&at(beyond), expected)?;
        }
    }
    let input = ask("record - 2").fed(text::T);
    tool.right(&input, "offset 24 length 12\n")
}

/// `--bytes` on a text and `--text` on bytes.
fn overruled(tool: &Tool) -> Result<(), Failure> {
    tool.refused(
        &ask("read --bytes t.text"),
        "answer 2 nets 0 entries 0\n",
        2,
    )?;
    tool.right(&ask("pack --bytes t.text"), text::T)?;
    let as_bytes = ["trackrouter: t.sheet: ", "UTF-8", "--bytes reads"];
    tool.wrong(&ask("read --text t.sheet"), &as_bytes)?;
    let no_nets = Raw::new(3, 2, 0, 2, Vec::new()).bytes();
    let input = ask("read --text -").fed(no_nets);
    tool.wrong(&input, &["standard input: ", "--bytes reads it as bytes"])?;
    tool.put("empty", [])?;
    tool.wrong(&ask("read --text empty"), &["trackrouter: empty: "])
}

fn packing(tool: &Tool) -> Result<(), Failure> {
    for name in ["t.sheet", "t.text", "typed"] {
        tool.right(&ask(&format!("pack {name}")), paper::T)?;
        tool.right(&ask(&format!("unpack {name}")), text::T)?;
    }
    tool.right(&ask("pack -").fed(TYPED), paper::T)?;
    tool.right(&ask("unpack -").fed(paper::T), text::T)?;
    tool.right(&ask("pack empty"), "")?;
    tool.right(&ask("pack -").fed([0; 40]), [0; 40])?;
    for kind in 0..3 {
        let sheet = t_raw(kind, 7).bytes();
        let typed = text::of(&sheet).expect("an accepted sheet has a text");
        tool.right(&ask("pack -").fed(&typed), &sheet)?;
        tool.right(&ask("unpack -").fed(&sheet), &typed)?;
    }
    Ok(())
}

/// Text that packs to a sheet which the library refuses.
fn refused(tool: &Tool) -> Result<(), Failure> {
    let mut no_entries = t_raw(0, 2);
    no_entries.records.push(Record::new(4, &[]));
    no_entries.settle();
    let mut kind = t_raw(0, 2);
    kind.kind = 255;
    let mut four = t_raw(0, 2);
    four.kind = 4;
    let sheets = [
        (t_raw(0, 33).bytes(), 3),
        (kind.bytes(), 3),
        (four.bytes(), 3),
        (paper::same_channel(65, 0, 2).bytes(), 4),
        (no_entries.bytes(), 5),
        (paper::long_net(33).bytes(), 5),
        (paper::same_channel(2, 7, 2).bytes(), 6),
    ];
    for (sheet, number) in sheets {
        let typed = text::of(&sheet).expect("a text");
        let counts = format!("answer {number} nets 0 entries 0\n");
        tool.right(&ask("pack -").fed(&typed), &sheet)?;
        tool.refused(&ask("read -").fed(&typed), &counts, number)?;
        tool.refused(&ask("unpack -").fed(&typed), "", number)?;
        tool.refused(&ask("unpack -").fed(&sheet), "", number)?;
    }
    Ok(())
}

/// The longest sheet in both forms, and a text that has no bytes.
fn large(tool: &Tool) -> Result<(), Failure> {
    let longest = extremes::alike(64, 32, 2, 32).list().bytes();
    let typed = text::of(&longest).expect("a text");
    tool.right(&ask("pack -").fed(&typed), &longest)?;
    tool.right(&ask("unpack -").fed(&longest), &typed)?;
    let counts = "answer 0 nets 64 entries 2048\n";
    tool.right(&ask("read -").fed(&typed), counts)?;
    let lines = "net 1: 0\n".repeat(8_000);
    let typed = format!("chip 3 by 2\nkind subset\nwidth 2\n{lines}");
    tool.wrong(&ask("read -").fed(typed), &["standard input: ", "65535"])
}
