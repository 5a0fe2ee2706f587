//! Verbs, options, help: what is usage, and what is bad usage.

mod options;

use crate::expected::{Expected, Text};
use crate::failure::Failure;
use crate::run::{ask, Ask, Tool};
use crate::text;
use sheets::paper;

/// Each verb, its inputs as the usage line has them, inputs that are enough, and
/// its own options.
const VERBS: [(&str, &str, &str, &[&str]); 12] = [
    ("read", "SHEET", "t.sheet", &[]),
    ("record", "SHEET PLACE", "t.sheet 0", &[]),
    ("check", "SHEET TICKET", "t.sheet right", &[DEAD, TICKET]),
    ("route", "SHEET", "t.sheet", &[DEAD, BUDGET, OUT]),
    ("least", "SHEET", "t.sheet", &[DEAD, BUDGET, OUT]),
    (
        "refit",
        "SHEET OLD",
        "t.sheet right",
        &[DEAD, BUDGET, OUT, TICKET],
    ),
    (
        "remove",
        "SHEET TICKET NET",
        "t.sheet right 1",
        &[OUT, TICKET],
    ),
    ("standard", "SHEET", "t.sheet", &[OUT]),
    ("pack", "SHEET [TICKET]", "t.sheet", &[DEAD, OUT, TICKET]),
    ("unpack", "SHEET [TICKET]", "t.sheet", &[DEAD, OUT, TICKET]),
    (
        "explain",
        "SHEET [TICKET]",
        "t.sheet",
        &[DEAD, "--old", TICKET],
    ),
    ("draw", "SHEET [TICKET]", "t.sheet", &[DEAD, OUT, TICKET]),
];

const BUDGET: &str = "--budget";
const DEAD: &str = "--dead";
const OUT: &str = "--out";
const TICKET: &str = "--ticket-bytes";

pub fn run(tool: &Tool) -> Result<(), Failure> {
    tool.put("t.sheet", paper::T)?;
    tool.put("t.text", text::T)?;
    tool.put("right", [0, 0, 1, 1, 2, 2])?;
    help(tool)?;
    verbs(tool)?;
    options::run(tool)
}

fn help(tool: &Tool) -> Result<(), Failure> {
    let printed = |pieces: &[&str]| Expected {
        status: 0,
        stdout: Text::has(pieces),
        stderr: Text::Is(Vec::new()),
    };
    let mut pieces = vec!["usage: trackrouter VERB", "Exit status: 0", "--version"];
    let usages = VERBS.map(|(name, inputs, ..)| format!("\n  {name} {inputs}  "));
    pieces.extend(usages.iter().map(String::as_str));
    tool.expect(&ask("--help"), printed(&pieces))?;
    for (name, inputs, enough, own) in VERBS {
        let usage = format!("usage: trackrouter {name} [options] {inputs}\n");
        let mut pieces = vec![&*usage, "Exit status: 0 success; 1 ", "; 2 bad usage"];
        pieces.extend([
            "\n  --bytes ",
            "\n  --text ",
            "\n  --help ",
            "standard input",
        ]);
        let own: Vec<String> = own.iter().map(|option| format!("\n  {option} ")).collect();
        pieces.extend(own.iter().map(String::as_str));
        if own.contains(&"\n  --dead ".to_string()) {
            pieces.extend(["\n  --dead-bytes ", "\n  --dead-text ", "CHANNEL.TRACK"]);
        }
        tool.expect(&ask(&format!("{name} --help")), printed(&pieces))?;
        let behind = ask(&format!("{name} {enough} --help"));
        tool.expect(&behind, printed(&pieces))?;
    }
    let none = printed(&[""]);
    let stdout = Text::line(&["trackrouter 0.", " (library "]);
    tool.expect(&ask("--version"), Expected { stdout, ..none })?;
    for short in ["-h", "help"] {
        tool.expect(&ask(short), printed(&["usage: trackrouter VERB"]))?;
    }
    tool.expect(&ask("route -h"), printed(&["usage: trackrouter route"]))?;
    tool.expect(&ask("-V"), printed(&["trackrouter 0."]))?;
    for (name, inputs, ..) in VERBS {
        let usage = format!("usage: trackrouter {name} [options] {inputs}\n");
        tool.expect(&ask(&format!("help {name}")), printed(&[&usage]))?;
    }
    tool.wrong(&ask("help rout"), &["no such verb: rout"])?;
    for line in ["help route least", "--version least", "-V least"] {
        tool.wrong(&ask(line), &["trackrouter: least is one word too many"])?;
    }
    version(tool)
}

/// The package's version has the library's number in its middle.
fn version(tool: &Tool) -> Result<(), Failure> {
    let stdout = tool.output(&ask("--version"))?.stdout;
    let text = String::from_utf8_lossy(&stdout);
    let fits = |number: u32| text == format!("trackrouter 0.{number}.0 (library {number})\n");
    match (2..100).any(fits) {
        true => Ok(()),
        false => Err(Failure::new(format!("--version prints {text}"))),
    }
}

fn verbs(tool: &Tool) -> Result<(), Failure> {
    tool.wrong(
        &ask(""),
        &["trackrouter: no verb; try trackrouter --help\n"],
    )?;
    let line = "trackrouter: no such verb: rout; try trackrouter --help\n";
    tool.wrong(&ask("rout t.sheet"), &[line])?;
    tool.wrong(
        &ask("--budget 5 route t.sheet"),
        &["no such verb: --budget"],
    )?;
    tool.wrong(&ask("- t.sheet"), &["no such verb: -"])?;
    let odd = Ask {
        words: vec!["a\nb".into()],
        input: Vec::new(),
    };
    tool.wrong(&odd, &["no such verb: a\\nb"])?;
    let empty = Ask {
        words: vec![String::new()],
        input: Vec::new(),
    };
    tool.wrong(&empty, &["no such verb: ;"])?;
    let long = "x".repeat(50_000);
    tool.wrong(&ask(&long), &["no such verb: xxx"])?;
    for (name, inputs, enough, _) in VERBS {
        let try_help = format!("try trackrouter {name} --help");
        tool.wrong(&ask(name), &[inputs, &try_help])?;
        let more = format!("{name} {enough} right right");
        tool.wrong(&ask(&more), &[inputs, &try_help])?;
        let unknown = format!("{name} {enough} --bogus");
        tool.wrong(&ask(&unknown), &["no such option: --bogus", &try_help])?;
        let short = format!("{name} -x {enough}");
        tool.wrong(&ask(&short), &["no such option: -x", &try_help])?;
    }
    for few in [
        "record t.sheet",
        "check t.sheet",
        "refit t.sheet",
        "remove t.sheet",
        "remove t.sheet right",
    ] {
        tool.wrong(&ask(few), &["try trackrouter"])?;
    }
    Ok(())
}
