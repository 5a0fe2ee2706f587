//! Mutated inputs: whatever the tool reads, it ends with 0, 1 or 2, and says why.

use crate::expected::is_line;
use crate::failure::Failure;
use crate::rows::bytes;
use crate::run::{ask, described, told, Ask, Tool};
use crate::text;
use sheets::{random, Rng};
use std::process::Output;

const RUNS: usize = 600;

const VERBS: [&str; 15] = [
    "read sheet",
    "record sheet 1",
    "check sheet ticket",
    "route sheet --budget 1000",
    "least sheet --budget 1000",
    "refit sheet ticket --budget 1000",
    "remove sheet ticket 1",
    "standard sheet",
    "pack sheet",
    "pack sheet ticket",
    "unpack sheet ticket",
    "explain sheet",
    "explain sheet ticket",
    "explain --old sheet ticket",
    "draw sheet ticket",
];

const FORMS: [&str; 5] = ["", "", "--bytes", "--text", "--ticket-text"];

pub fn run(tool: &Tool) -> Result<(), Failure> {
    let mut rng = Rng::new(17);
    for _ in 0..RUNS {
        let design = random::small(&mut rng);
        let sheet = design.relist(&mut rng).bytes();
        let sheet = match rng.chance(1, 3) {
            true => bytes::with(&sheet, bytes::chance(&mut rng)),
            false => sheet,
        };
        let lines = model::lines::least_lines(&sheet).into_bytes();
        let tracks = vec![rng.below(3) as u8; design.entry_count()];
        let typed = text::of(&sheet).expect("a text").into_bytes();
        let sheet = if rng.chance(1, 2) { sheet } else { typed };
        let ticket = if rng.chance(2, 3) { lines } else { tracks };
        tool.put("sheet", mutated(sheet, 2, &mut rng))?;
        tool.put("ticket", mutated(ticket, 2, &mut rng))?;
        let verb = rng.pick(&VERBS);
        let ticket = verb.contains("ticket");
        let form = rng.pick(if ticket { &FORMS } else { &FORMS[..4] });
        let asked = ask(&format!("{verb} {form}"));
        let output = tool.output(&asked)?;
        if !proper(&asked, &output) {
            return Err(broken(tool, &asked, &output)?);
        }
    }
    Ok(())
}

/// Changes up to so many places, sometimes none.
fn mutated(mut bytes: Vec<u8>, most: usize, rng: &mut Rng) -> Vec<u8> {
    for _ in 0..rng.below(most + 1) {
        if bytes.is_empty() {
            return bytes;
        }
        let place = rng.below(bytes.len());
        match rng.below(9) {
            0 => bytes.insert(place, rng.byte()),
            1 => drop(bytes.remove(place)),
            2 => bytes[place] = rng.byte(),
            3 => bytes[place] ^= 1 << rng.below(8),
            4 => bytes[place] = b"0123456789-.:# \n\tn"[rng.below(18)],
            5 => bytes.insert(place, b"0123456789-.:# \n\tn"[rng.below(18)]),
            6 => bytes.truncate(place),
            7 => bytes.extend_from_within(place..),
            _ => {
                let end = (place + rng.below(12)).min(bytes.len());
                bytes.drain(place..end);
            }
        }
    }
    bytes
}

/// Whether status and streams go together.
fn proper(asked: &Ask, output: &Output) -> bool {
    let says_itself = asked.words[0] == "explain";
    match output.status.code() {
        Some(0) => output.stderr.is_empty(),
        Some(1) if says_itself => output.stderr.is_empty() && !output.stdout.is_empty(),
        Some(1) => is_line(&output.stderr),
        Some(2) => is_line(&output.stderr) && output.stdout.is_empty(),
        _ => false,
    }
}

fn broken(tool: &Tool, asked: &Ask, output: &Output) -> Result<Failure, Failure> {
    Ok(Failure::new(format!(
        "{}\nsheet {}\nticket {}\n{}",
        described(asked),
        tool.get("sheet")?.escape_ascii(),
        tool.get("ticket")?.escape_ascii(),
        told(output)
    )))
}
