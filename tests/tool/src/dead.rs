//! Lists of dead wires: `--dead` on every verb that takes it, with the list in both
//! forms. Answers and trials are by hand, on sheet T at W 3: net 1 has channels 0 and
//! 1, net 2 has 1 and 5, net 3 has 0 and 5, all on the rim; each two nets share a
//! channel, so the three have different tracks.

mod died;
mod drawn;
mod explained;
mod forms;
mod refused;

pub use explained::by_model as explained;
pub use forms::by_model as both_forms;

use crate::failure::Failure;
use crate::run::{ask, Tool};
use crate::text;
use sheets::paper::{self, t_raw};

/// With 5.1 dead, net 1 on 0 leaves net 2 only 2, and net 3 none: 7 trials. On 1, net
/// 2 takes 0, and net 3 takes 2 after two more: 5.
const MENDED: &str = "1 0.1 1.1\n2 1.0 5.0\n3 0.2 5.2\n";

/// The ticket of m3, on 5.1, and without net 2.
const RIGHT: [u8; 6] = [0, 0, 1, 1, 2, 2];
const LEFT: &str = "1 0.0 1.0\n3 0.2 5.2\n";

pub fn run(tool: &Tool) -> Result<(), Failure> {
    tool.put("t.sheet", paper::T)?;
    tool.put("t3.sheet", t_raw(0, 3).bytes())?;
    tool.put("t3.text", text::of(&t_raw(0, 3).bytes()).expect("a text"))?;
    tool.put("right", RIGHT)?;
    tool.put("left", LEFT)?;
    tool.put("dead", [5, 0, 1])?;
    tool.put("dead.text", "5.1\n")?;
    calls(tool)?;
    widths(tool)?;
    forms::run(tool)?;
    refused::run(tool)?;
    explained::run(tool)?;
    drawn::run(tool)?;
    died::run(tool)
}

/// The text of a list of whole items, a line for each.
pub fn text(dead: &[u8]) -> Option<String> {
    let line = |item: &[u8]| match item {
        [low, high, track] => Some(format!("{}.{track}\n", u16::from_le_bytes([*low, *high]))),
        _ => None,
    };
    dead.chunks(3).map(line).collect()
}

/// Whether a list in bytes can be told from a text: the high byte of a channel that
/// a chip can have is 0 or 1.
pub fn is_plain(dead: &[u8]) -> bool {
    dead.iter().any(|byte| [0, 1].contains(byte))
}

/// Round 0 of the refit makes the first 7 trials of the route, and then tracks 1 and
/// 2 of net 1 are changes: 9. Round 1 makes all 12.
fn calls(tool: &Tool) -> Result<(), Failure> {
    // In any order, and with wires that no net can hold; 5.3 is not below W.
    tool.put("more", [5, 0, 3, 6, 0, 0, 5, 0, 1, 0, 0, 31])?;
    tool.put("more.text", "0.31 5.1 # by hand\n\n6.0\t5.3\n")?;
    let routed = format!("answer 0 width 3 trials 12\n{MENDED}");
    let refitted = format!("answer 0 width 3 trials 21 moved 1\n{MENDED}");
    for sheet in ["t3.sheet", "t3.text"] {
        for dead in ["dead", "dead.text", "more", "more.text"] {
            let line =
                |verb: &str, rest: &str| ask(&format!("{verb} {sheet} {rest} --dead {dead}"));
            tool.refused(&line("check", "right"), "answer 21\n", 21)?;
            tool.right(&line("check", "-").fed(MENDED), "answer 0\n")?;
            tool.right(&line("route", ""), &routed)?;
            tool.right(&line("route", "--budget 12"), &routed)?;
            let spent = "answer 16 width 0 trials 11\n";
            tool.refused(&line("route", "--budget 11"), spent, 16)?;
            tool.right(&line("least", "--budget 12"), &routed)?;
            tool.refused(&line("least", "--budget 11"), spent, 16)?;
            tool.right(&line("refit", "left --budget 21"), &refitted)?;
            let spent = "answer 16 width 0 trials 20 moved 0\n";
            tool.refused(&line("refit", "left --budget 20"), spent, 16)?;
            let broken = "answer 21 width 0 trials 0 moved 0\n";
            tool.refused(&line("refit", "right"), broken, 21)?;
        }
        // On standard input, in both forms, and joined to the option.
        for input in [&[5, 0, 1][..], b"5.1"] {
            let line = |line: &str| ask(&format!("{line} {sheet}")).fed(input);
            tool.right(&line("route --dead -"), &routed)?;
            tool.right(&line("least --dead=-"), &routed)?;
        }
    }
    tool.right(&ask("route --dead=dead t3.sheet --out out"), &routed)?;
    match tool.get("out")? == [1, 1, 0, 0, 2, 2] {
        true => Ok(()),
        false => Err(Failure::new("--out has another ticket")),
    }
}

/// Whole tracks count at each width that is tried, and an item from the width on at
/// which its track is below.
fn widths(tool: &Tool) -> Result<(), Failure> {
    let cases = [
        // Width 2 is m1, where 5.2 is no wire: 10 trials. At width 3 net 1 has to take
        // 2: 7 trials with it on 0, 7 on 1, 4 on 2.
        ("5.2", "3 trials 28", "1 0.2 1.2\n2 1.0 5.0\n3 0.1 5.1\n"),
        // Channel 0 has two whole tracks from width 4 on: net 1 takes 2 (3 trials), net
        // 2 takes 0 (1), net 3 takes 3 (4).
        ("0.1 0.0", "4 trials 8", "1 0.2 1.2\n2 1.0 5.0\n3 0.3 5.3\n"),
    ];
    for (dead, first, lines) in cases {
        let asked = ask("least t.sheet --dead -").fed(dead);
        tool.right(&asked, format!("answer 0 width {first}\n{lines}"))?;
    }
    let overloaded = "answer 15 width 0 trials 0\n";
    for line in [
        "route t.sheet --dead -",
        "route t3.sheet --dead - --budget 0",
    ] {
        tool.refused(&ask(line).fed("0.0\n0.1\n"), overloaded, 15)?;
    }
    let none: String = (0..32).map(|track| format!("5.{track} ")).collect();
    tool.refused(&ask("least t.sheet --dead -").fed(none), overloaded, 15)?;
    // No channel is overloaded, and no net can have track 1: net 1 on 0 takes 7
    // trials, 1 is dead, and 2 takes 7.
    let fifteen = "answer 15 width 0 trials 15\n";
    let asked = ask("route t3.sheet --dead -").fed("1.1 5.1");
    tool.refused(&asked, fifteen, 15)
}
