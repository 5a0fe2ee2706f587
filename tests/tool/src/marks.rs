//! The second mark (02 M-106): sheets with net numbers of 32 bits, in both forms and
//! through every verb. Bytes, tickets and places are by hand.

mod explained;
mod typed;

use crate::expected::{Expected, Text};
use crate::explain::found;
use crate::failure::Failure;
use crate::output::holds;
use crate::rows::bytes::with;
use crate::rows::{BENT, KIND};
use crate::run::{ask, told, Tool};
use crate::text;
use model::widen::widened;
use sheets::paper::{self, T_LONG};
use sheets::{extremes, random, Mark, Raw, Rng, Spread};

/// T at W 3 with other numbers. Any two of its nets share a channel, so that the track
/// is the rank: 2, 1 and 0.
const TYPED: &str = "mark 57 49\nchip 3 by 2\nkind subset\nwidth 3\n\
                     net 4294967295: 0 1-0\nnet 65536: 1 5-1\nnet 65535: 0 5-0\n";

/// A record has 14 bytes, its entries stand from its byte 6 on; the directory stands at
/// 42, the trailer at 48.
#[rustfmt::skip]
const BYTES: [u8; 60] = [
    0xFF, 0xFF, 0xFF, 0xFF, 0x02, 0x00, 0x00, 0x00, 0xFF, 0xFF, 0x01, 0x00, 0x00, 0x00,
    0x00, 0x00, 0x01, 0x00, 0x02, 0x00, 0x01, 0x00, 0xFF, 0xFF, 0x05, 0x00, 0x00, 0x00,
    0xFF, 0xFF, 0x00, 0x00, 0x02, 0x00, 0x00, 0x00, 0xFF, 0xFF, 0x05, 0x00, 0x00, 0x00,
    0x00, 0x00, 0x0E, 0x00, 0x1C, 0x00,
    0x03, 0x02, 0x00, 0x03, 0x03, 0x00, 0x2A, 0x00, 0x3C, 0x00, 0x57, 0x49,
];

const LINES: [&str; 3] = ["4294967295 0.2 1.2\n", "65536 1.1 5.1\n", "65535 0.0 5.0\n"];

const TICKET: [u8; 6] = [2, 2, 1, 1, 0, 0];

pub fn run(tool: &Tool) -> Result<(), Failure> {
    tool.put("long.sheet", BYTES)?;
    tool.put("long.text", TYPED)?;
    tool.put("long.ticket", TICKET)?;
    tool.put("long.lines", LINES.concat())?;
    forms(tool)?;
    typed::run(tool)?;
    calls(tool)?;
    removed(tool)?;
    explained::run(tool)?;
    drawn(tool)?;
    standard(tool)?;
    largest(tool)?;
    twins(tool)
}

/// Both ways, and the mark is kept.
fn forms(tool: &Tool) -> Result<(), Failure> {
    for name in ["long.sheet", "long.text", "--bytes long.sheet"] {
        tool.right(&ask(&format!("pack {name}")), BYTES)?;
        tool.right(&ask(&format!("unpack {name}")), TYPED)?;
        tool.right(&ask(&format!("read {name}")), "answer 0 nets 3 entries 6\n")?;
        for (place, offset) in [(0, 0), (1, 14), (2, 28)] {
            let part = format!("offset {offset} length 14\n");
            tool.right(&ask(&format!("record {name} {place}")), part)?;
        }
    }
    let t = format!("mark 57 49\n{}", text::T);
    tool.right(&ask("pack -").fed(&t), T_LONG)?;
    tool.right(&ask("unpack -").fed(T_LONG), &t)?;
    // Without nets the marks differ in one byte.
    let none = [2, 16, 3, 32, 0, 0, 0, 0, 24, 0, 0x57, 0x49];
    let none = [&BENT[..], &none].concat();
    let line = format!("mark 57 49\nchip 2 by 16\n{KIND}width 32\n");
    tool.right(&ask("pack -").fed(&line), &none)?;
    tool.right(&ask("unpack -").fed(&none), &line)?;
    tool.right(&ask("standard -").fed(&none), &line)?;
    let by_rows = with(&BYTES, BENT);
    let typed = TYPED.replace("kind subset\n", KIND);
    tool.right(&ask("pack -").fed(&typed), &by_rows)?;
    tool.right(&ask("unpack -").fed(&by_rows), &typed)
}

/// Net 65535 takes track 0 (trial 1), 65536 finds it held and takes 1 (3), 4294967295
/// finds both held and takes 2 (6). Least makes 10 trials at width 2 before.
fn calls(tool: &Tool) -> Result<(), Failure> {
    let lines = LINES.concat();
    for sheet in ["long.sheet", "long.text"] {
        let line = |verb: &str, more: &str| ask(&format!("{verb} {sheet} {more}"));
        let routed = format!("answer 0 width 3 trials 6\n{lines}");
        tool.right(&line("route", "--budget 6 --out out"), &routed)?;
        holds(tool, "out", &TICKET)?;
        let spent = "answer 16 width 0 trials 5\n";
        tool.refused(&line("route", "--budget 5"), spent, 16)?;
        let least = format!("answer 0 width 3 trials 16\n{lines}");
        tool.right(&line("least", "--budget 16"), least)?;
        for ticket in ["long.ticket", "long.lines"] {
            tool.right(&line("check", ticket), "answer 0\n")?;
            tool.right(&line("unpack", ticket), &lines)?;
            tool.right(&line("pack", ticket), TICKET)?;
        }
        tool.right(&line("check", "-").fed(&routed), "answer 0\n")?;
        let cut = lines.replace("4294967295", "65535");
        tool.wrong(&line("check", "-").fed(cut), &["standard input: "])?;
        let unknown = lines.replace("65536", "0");
        tool.wrong(&line("check", "-").fed(unknown), &["standard input: ", "0"])?;
        let refitted = format!("answer 0 width 3 trials 6 moved 0\n{lines}");
        tool.right(&line("refit", "-").fed(LINES[2]), refitted)?;
        // 5.1 is dead: net 65536 takes 2 with its third trial, 4294967295 takes 1.
        let dead = "answer 0 width 3 trials 6\n\
                    4294967295 0.1 1.1\n65536 1.2 5.2\n65535 0.0 5.0\n";
        tool.right(&line("route", "--dead -").fed("5.1"), dead)?;
    }
    // Two nets of one number; two that are alike in one half alone.
    let named = |name: &str| TYPED.replace("net 65535", &format!("net {name}"));
    let counts = "answer 9 nets 0 entries 0\n";
    tool.refused(&ask("read -").fed(named("65536")), counts, 9)?;
    for name in ["0", "131072", "4294901760", "4294967294"] {
        let counts = "answer 0 nets 3 entries 6\n";
        tool.right(&ask("read -").fed(named(name)), counts)?;
    }
    Ok(())
}

fn removed(tool: &Tool) -> Result<(), Failure> {
    let [one, two, three] = LINES;
    for sheet in ["long.sheet", "long.text"] {
        for (net, left) in [
            ("4294967295", [two, three]),
            ("65536", [one, three]),
            ("65535", [one, two]),
        ] {
            for ticket in ["long.ticket", "long.lines"] {
                let asked = ask(&format!("remove {sheet} {ticket} {net} --out left"));
                tool.right(&asked, format!("answer 0\n{}", left.concat()))?;
            }
        }
        holds(tool, "left", &[2, 2, 1, 1, 255, 255])?;
        // Halves of the numbers, and numbers beside them.
        for net in ["0", "1", "65537", "131071", "4294901760", "4294967294"] {
            let asked = ask(&format!("remove {sheet} long.ticket {net}"));
            tool.refused(&asked, "answer 17\n", 17)?;
        }
    }
    Ok(())
}

/// Each number stands in the picture; both forms give the same one.
fn drawn(tool: &Tool) -> Result<(), Failure> {
    let mut pictures = Vec::new();
    for line in [
        "draw long.sheet long.ticket",
        "draw long.text long.lines",
        "draw long.text long.ticket",
    ] {
        let title = "<title>chip 3 by 2, kind subset, width 3</title>";
        let pieces = ["<svg ", title, "4294967295", "65536", "65535", "</svg>\n"];
        let expected = Expected {
            status: 0,
            stdout: Text::has(&pieces),
            stderr: Text::Is(Vec::new()),
        };
        tool.expect(&ask(line), expected)?;
        pictures.push(tool.output(&ask(line))?.stdout);
    }
    match pictures.iter().all(|picture| *picture == pictures[0]) {
        true => Ok(()),
        false => Err(Failure::new("one sheet and ticket have two pictures")),
    }
}

/// Nets rise by the whole number, and the mark is kept: two sheets of different marks
/// have different forms.
fn standard(tool: &Tool) -> Result<(), Failure> {
    let head = "mark 57 49\nchip 3 by 2\nkind subset\nwidth 3\n";
    let form = format!("{head}net 65535: 0 5-0\nnet 65536: 1 5-1\nnet 4294967295: 0 1-0\n");
    let turned = [&BYTES[28..42], &BYTES[14..28], &BYTES[..14], &BYTES[42..]].concat();
    for sheet in ["long.sheet", "long.text"] {
        let asked = ask(&format!("standard {sheet} --out form"));
        tool.right(&asked, &form)?;
        holds(tool, "form", &turned)?;
        tool.right(&ask("standard form"), &form)?;
    }
    let long = format!("mark 57 49\n{}", text::T);
    for (typed, sheet) in [(text::T, &paper::T[..]), (&long, &T_LONG)] {
        tool.right(&ask("standard - --out form").fed(typed), typed)?;
        holds(tool, "form", sheet)?;
    }
    Ok(())
}

/// 64 nets of 32 entries with rows have 8,728 bytes; a byte more is 1, under both marks.
fn largest(tool: &Tool) -> Result<(), Failure> {
    let design = extremes::alike(64, 32, 2, 32).spread(Spread::Crossed);
    let longest = with(&design.list().bytes(), BENT);
    if longest.len() != 8728 {
        return Err(Failure::new("this is not the longest sheet"));
    }
    let typed = text::of(&longest).expect("a text");
    tool.right(&ask("pack -").fed(&typed), &longest)?;
    tool.right(&ask("unpack -").fed(&longest), &typed)?;
    let counts = "answer 0 nets 64 entries 2048\n";
    tool.right(&ask("read -").fed(&longest), counts)?;
    let last = "offset 8442 length 134\n";
    tool.right(&ask("record - 63").fed(&longest), last)?;
    let overloaded = "answer 15 width 0 trials 0\n";
    tool.refused(&ask("least -").fed(&longest), overloaded, 15)?;
    for mark in Mark::BOTH {
        let mut raw = Raw::new(2, 2, 0, 1, Vec::new()).marked(mark);
        for (length, number) in [(8600, 5), (8601, 5), (8728, 5), (8729, 1)] {
            raw.gap = vec![0; length - 12];
            raw.settle();
            let counts = format!("answer {number} nets 0 entries 0\n");
            tool.refused(&ask("read --bytes -").fed(raw.bytes()), &counts, number)?;
        }
        let pieces = [
            "the sheet has 8729 bytes, more than 8728",
            "12 to 8728 bytes",
        ];
        tool.expect(
            &ask("explain --bytes -").fed(raw.bytes()),
            found(1, &pieces),
        )?;
    }
    Ok(())
}

/// A sheet of the first mark and its twin: every verb prints the same, but for the line
/// of the mark and for Record.
fn twins(tool: &Tool) -> Result<(), Failure> {
    let mut rng = Rng::new(106);
    let mut pairs = 0;
    while pairs < 40 {
        let design = random::any(&mut rng);
        if !design.is_short() {
            continue;
        }
        pairs += 1;
        let sheet = design.with_mark(Mark::Short).relist(&mut rng).bytes();
        let twin = widened(&sheet).expect("an accepted sheet");
        tool.put("short", &sheet)?;
        tool.put("twin", &twin)?;
        let entries = model::read(&sheet).entries as usize;
        let tracks: Vec<u8> = (0..entries).map(|_| rng.below(3) as u8).collect();
        tool.put("ticket", tracks)?;
        tool.put("old", vec![255; entries])?;
        for line in [
            "read SHEET",
            "route SHEET --budget 2000",
            "least SHEET --budget 2000",
            "check SHEET ticket --ticket-bytes",
            "refit SHEET old --budget 2000 --ticket-bytes",
            "remove SHEET old 1 --ticket-bytes",
            "draw SHEET old --ticket-bytes",
            "standard SHEET",
            "unpack SHEET",
        ] {
            let [one, other] =
                ["short", "twin"].map(|name| tool.output(&ask(&line.replace("SHEET", name))));
            let (one, other) = (one?, other?);
            let typed = line.starts_with("standard") || line.starts_with("unpack");
            let stdout = match typed {
                true => [&b"mark 57 49\n"[..], &one.stdout].concat(),
                false => one.stdout.clone(),
            };
            let same = other.stdout == stdout
                && (one.status.code(), &one.stderr) == (other.status.code(), &other.stderr);
            if !same {
                let text = format!("{line}\n{}\nthe twin\n{}", told(&one), told(&other));
                return Err(Failure::new(text));
            }
        }
    }
    Ok(())
}
