//! The runs of Route, Least and Refit, from the input to the ticket found.

use crate::dead::Dead;
use crate::lay;
use crate::rivals::Rivals;
use crate::search::{run, Account, Outcome, Round};
use crate::sheet::{parse, Sheet};
use crate::ticket;
use crate::word::{refuse_if, Word};

/// What a successful run found.
pub struct Found {
    pub width: u32,
    pub moved: usize,
    pub ticket: Vec<u8>,
}

/// The sheet and its dead wires: 19 and 20 are tested after 9 and before 10.
pub fn accept(sheet: &[u8], dead: &[u8]) -> Result<(Sheet, Dead), Word> {
    let sheet = parse(sheet)?;
    let dead = Dead::read(sheet.chip, dead)?;
    Ok((sheet, dead))
}

pub fn route(sheet: &[u8], dead: &[u8], account: &mut Account, room: usize) -> Result<Found, Word> {
    let (sheet, dead) = accept(sheet, dead)?;
    refuse_if(room < sheet.entry_count(), Word::Space)?;
    match at_width(&sheet, &dead, sheet.width, account) {
        Outcome::Found(homes) => Ok(found(&sheet, sheet.width, 0, &homes)),
        Outcome::None => Err(Word::Unroutable),
        Outcome::Spent => Err(Word::Spent),
    }
}

pub fn least(sheet: &[u8], dead: &[u8], account: &mut Account, room: usize) -> Result<Found, Word> {
    let (sheet, dead) = accept(sheet, dead)?;
    refuse_if(room < sheet.entry_count(), Word::Space)?;
    for width in 1..=32 {
        match at_width(&sheet, &dead, width, account) {
            Outcome::Found(homes) => return Ok(found(&sheet, width, 0, &homes)),
            Outcome::None => {}
            Outcome::Spent => return Err(Word::Spent),
        }
    }
    Err(Word::Unroutable)
}

pub fn refit(
    sheet: &[u8],
    dead: &[u8],
    old: &[u8],
    account: &mut Account,
    room: usize,
) -> Result<Found, Word> {
    let (sheet, dead) = accept(sheet, dead)?;
    ticket::right_where_placed(&sheet, &dead, old)?;
    refuse_if(room < sheet.entry_count(), Word::Space)?;
    refuse_if(dead.overloads(&sheet, sheet.width), Word::Unroutable)?;
    let rivals = Rivals::new(&sheet, &dead, sheet.width);
    let old = old_homes(&sheet, old);
    for changes in 0..=old.iter().flatten().count() {
        let round = Round { old: &old, changes };
        match run(&rivals, Some(&round), account) {
            Outcome::Found(homes) => return Ok(found(&sheet, sheet.width, changes, &homes)),
            Outcome::None => {}
            Outcome::Spent => return Err(Word::Spent),
        }
    }
    Err(Word::Unroutable)
}

/// The plain search at a width.
fn at_width(sheet: &Sheet, dead: &Dead, width: u32, account: &mut Account) -> Outcome {
    if dead.overloads(sheet, width) {
        return Outcome::None;
    }
    run(&Rivals::new(sheet, dead, width), None, account)
}

/// The home tracks of placed nets, in rising net number.
fn old_homes(sheet: &Sheet, old: &[u8]) -> Vec<Option<u32>> {
    let home = |place: &usize| {
        let net = &sheet.nets[*place];
        let track = ticket::bytes_of(net, old)[net.home()];
        (track != ticket::UNPLACED).then_some(track.into())
    };
    sheet.rising().iter().map(home).collect()
}

/// The ticket of home tracks that stand in rising net number.
fn found(sheet: &Sheet, width: u32, moved: usize, homes: &[u32]) -> Found {
    let mut by_place = vec![0; homes.len()];
    for (&place, &home) in sheet.rising().iter().zip(homes) {
        by_place[place] = home;
    }
    Found {
        width,
        moved,
        ticket: lay::ticket(sheet, width, &by_place),
    }
}
