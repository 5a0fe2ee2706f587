//! Chance designs and damaged sheets in both forms, with dead wires and without,
//! against the model.

use crate::cases::{in_bytes, in_text, Board};
use crate::dead;
use crate::explain::found;
use crate::failure::Failure;
use crate::lines;
use crate::remove;
use crate::rows::bytes;
use crate::run::{ask, Tool};
use crate::standard::{self, grown};
use crate::text;
use sheets::damage::{aims, damaged};
use sheets::dead::{harm, Chances};
use sheets::{random, Answer, Ask, Rng, Told};

/// The most trials of a run.
const MOST: u32 = 5_000;

const ROOM: usize = 2048;

pub fn run(tool: &Tool) -> Result<(), Failure> {
    let mut rng = Rng::new(9);
    for _ in 0..100 {
        let design = random::any(&mut rng);
        let sheet = design.relist(&mut rng).bytes();
        let chances = Chances::new(&design);
        good(tool, &sheet, &chances, &mut rng)?;
        let rows = bytes::chance(&mut rng);
        good(tool, &bytes::with(&sheet, rows), &chances, &mut rng)?;
        grown::listed(tool, &design, &mut rng)?;
        let raw = random::small(&mut rng).relist(&mut rng);
        let numbers = aims(&mut rng);
        let sheet = damaged(raw, &numbers, &mut rng);
        hurt(tool, &sheet, &mut rng)?;
        if sheet.len() >= 12 {
            hurt(tool, &spoiled(&sheet, &mut rng), &mut rng)?;
        }
    }
    Ok(())
}

/// The sheet by chance rows, which may have a bad byte.
fn spoiled(sheet: &[u8], rng: &mut Rng) -> Vec<u8> {
    let mut rows = bytes::chance(rng);
    if rng.chance(1, 2) {
        rows[rng.below(12)] = rng.byte();
    }
    bytes::with(sheet, rows)
}

/// The model's outcome.
fn by_model(board: Board, ask: &Ask) -> Told {
    let Board { sheet, dead } = board;
    let mut out = [0; ROOM];
    let answer = match ask {
        Ask::Read => {
            let counts = model::read(sheet);
            return Told::Counts {
                number: counts.number,
                nets: counts.nets,
                entries: counts.entries,
            };
        }
        Ask::Record { place } => {
            let part = model::record(sheet, *place);
            return Told::Part {
                offset: part.offset,
                length: part.length,
            };
        }
        Ask::Check { ticket } => return Told::Number(model::check(sheet, dead, ticket)),
        Ask::Route { budget, .. } => model::route(sheet, dead, *budget, &mut out),
        Ask::Least { budget, .. } => model::least(sheet, dead, *budget, &mut out),
        Ask::Refit { old, budget, .. } => model::refit(sheet, dead, old, *budget, &mut out),
        Ask::Remove { .. } => unreachable!("`remove::by_model` asks for it"),
    };
    let written = match answer.number {
        0 => out[..model::read(sheet).entries as usize].to_vec(),
        _ => Vec::new(),
    };
    Told::Answer {
        answer: Answer {
            number: answer.number,
            width: answer.width,
            trials: answer.trials,
            moved: answer.moved,
        },
        written,
    }
}

/// A call in one form or the other: the model's outcome.
fn either(tool: &Tool, board: Board, ask: &Ask, rng: &mut Rng) -> Result<Told, Failure> {
    let told = by_model(board, ask);
    let typed = rng.chance(1, 2) && in_text(tool, board, ask, &told)?;
    if !typed {
        in_bytes(tool, board, ask, &told)?;
    }
    Ok(told)
}

/// An accepted sheet: without dead wires, with some, and now and then with a bad
/// list.
fn good(tool: &Tool, sheet: &[u8], chances: &Chances, rng: &mut Rng) -> Result<(), Failure> {
    let typed = text::of(sheet).expect("an accepted sheet has a text");
    tool.right(&ask("pack -").fed(&typed), sheet)?;
    tool.right(&ask("unpack -").fed(sheet), &typed)?;
    standard::by_model(tool, sheet)?;
    let budget = rng.below(MOST as usize) as u32;
    let room = ROOM;
    let bare = Board { sheet, dead: &[] };
    let routed = either(tool, bare, &Ask::Route { budget, room }, rng)?;
    let entries = model::read(sheet).entries as usize;
    let ticket = match routed {
        Told::Answer { written, .. } if !written.is_empty() => written,
        _ => vec![255; entries],
    };
    let old = holed(sheet, &ticket, rng);
    removed(tool, sheet, &old, rng)?;
    let place = rng.below(8);
    let asks = [
        Ask::Read,
        Ask::Record { place },
        Ask::Least { budget, room },
        Ask::Check { ticket },
        Ask::Check {
            ticket: old.clone(),
        },
        Ask::Refit { old, budget, room },
    ];
    for asked in &asks {
        either(tool, bare, asked, rng)?;
    }
    let dead = chances.any(rng);
    let dead = match rng.chance(1, 4) {
        true => harm(chances, dead, &[*rng.pick(&[19, 20])], rng),
        false => dead,
    };
    let board = Board { sheet, dead: &dead };
    either(tool, board, &Ask::Route { budget, room }, rng)?;
    for asked in asks.iter().filter(|asked| asked.takes_list()) {
        either(tool, board, asked, rng)?;
        dead::explained(tool, board, asked)?;
    }
    dead::both_forms(tool, board)
}

/// The ticket with some nets unplaced, and now and then with another byte.
fn holed(bytes: &[u8], ticket: &[u8], rng: &mut Rng) -> Vec<u8> {
    let sheet = lines::sheet(bytes).expect("an accepted sheet");
    let mut old = ticket.to_vec();
    for net in &sheet.nets {
        if rng.chance(1, 3) {
            old[net.first..net.first + net.channels.len()].fill(255);
        }
    }
    if !old.is_empty() && rng.chance(1, 3) {
        let place = rng.below(old.len());
        old[place] = rng.below(40) as u8;
    }
    old
}

/// A net of the sheet, or now and then a stranger, is taken out.
fn removed(tool: &Tool, bytes: &[u8], ticket: &[u8], rng: &mut Rng) -> Result<(), Failure> {
    let sheet = lines::sheet(bytes).expect("an accepted sheet");
    let numbers: Vec<u32> = sheet.nets.iter().map(|net| net.number).collect();
    let net = match numbers.is_empty() || rng.chance(1, 5) {
        true => rng.draw() as u32,
        false => *rng.pick(&numbers),
    };
    remove::by_model(tool, bytes, ticket, net, rng.chance(1, 2))
}

/// A damaged sheet: every call, and the explanation's number.
fn hurt(tool: &Tool, sheet: &[u8], rng: &mut Rng) -> Result<(), Failure> {
    let entries = model::read(sheet).entries as usize;
    let ticket: Vec<u8> = vec![0; entries + rng.below(2)];
    let old = ticket.clone();
    let budget = rng.below(200) as u32;
    let room = ROOM;
    let asks = [
        Ask::Read,
        Ask::Record { place: 0 },
        Ask::Check { ticket },
        Ask::Route { budget, room },
        Ask::Least { budget, room },
        Ask::Refit { old, budget, room },
    ];
    let asked = rng.pick(&asks);
    // The sheet's number comes before that of any list.
    let lists: [&[u8]; 3] = [&[], &[1], &[0; 6]];
    let dead = match asked.takes_list() {
        true => *rng.pick(&lists),
        false => &[],
    };
    either(tool, Board { sheet, dead }, asked, rng)?;
    remove::by_model(tool, sheet, &vec![255; entries], 1, rng.chance(1, 2))?;
    standard::by_model(tool, sheet)?;
    let number = model::read(sheet).number;
    if number == 0 {
        return Ok(());
    }
    let asked = ask("explain --bytes -").fed(sheet);
    tool.expect(&asked, found(number, &[]))?;
    match text::of(sheet) {
        Some(typed) => tool.expect(&ask("explain -").fed(typed), found(number, &[])),
        None => Ok(()),
    }
}
