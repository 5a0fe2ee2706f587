//! The six calls, M-100's for taking a net out and M-101's for the standard form.
//! Check, Route, Least and Refit take M-105's list of dead wires, the others none.

use crate::dead::Dead;
use crate::runs::{self, Found};
use crate::search::Account;
use crate::sheet::parse;
use crate::standard::form;
use crate::ticket;
use crate::word::{refuse_if, Word};

#[derive(Clone, Copy, Debug, Default, PartialEq, Eq)]
pub struct Counts {
    pub number: u32,
    pub nets: u32,
    pub entries: u32,
}

#[derive(Clone, Copy, Debug, Default, PartialEq, Eq)]
pub struct Part {
    pub offset: usize,
    pub length: usize,
}

#[derive(Clone, Copy, Debug, Default, PartialEq, Eq)]
pub struct Answer {
    pub number: u32,
    pub width: u32,
    pub trials: u32,
    pub moved: u32,
}

pub fn read(sheet: &[u8]) -> Counts {
    match parse(sheet) {
        Ok(sheet) => Counts {
            number: 0,
            nets: sheet.nets.len() as u32,
            entries: sheet.entry_count() as u32,
        },
        Err(word) => Counts {
            number: word.number(),
            ..Counts::default()
        },
    }
}

pub fn record(sheet: &[u8], place: usize) -> Part {
    let sheet = parse(sheet).ok();
    let net = sheet.as_ref().and_then(|sheet| sheet.nets.get(place));
    net.map_or(Part::default(), |net| Part {
        offset: net.offset,
        length: net.length,
    })
}

pub fn check(sheet: &[u8], dead: &[u8], ticket: &[u8]) -> u32 {
    let verdict = runs::accept(sheet, dead)
        .and_then(|(sheet, dead)| ticket::right(&sheet, &dead, sheet.width, ticket));
    verdict.map_or_else(Word::number, |()| 0)
}

pub fn route(sheet: &[u8], dead: &[u8], budget: u32, out: &mut [u8]) -> Answer {
    let mut account = Account::new(budget);
    let verdict = runs::route(sheet, dead, &mut account, out.len());
    finish(verdict, &account, out)
}

pub fn least(sheet: &[u8], dead: &[u8], budget: u32, out: &mut [u8]) -> Answer {
    let mut account = Account::new(budget);
    let verdict = runs::least(sheet, dead, &mut account, out.len());
    finish(verdict, &account, out)
}

pub fn refit(sheet: &[u8], dead: &[u8], old: &[u8], budget: u32, out: &mut [u8]) -> Answer {
    let mut account = Account::new(budget);
    let verdict = runs::refit(sheet, dead, old, &mut account, out.len());
    finish(verdict, &account, out)
}

/// M-100: writes the ticket with that net's bytes 255 and gives the number alone.
pub fn remove(sheet: &[u8], ticket: &[u8], net: u32, out: &mut [u8]) -> u32 {
    write_all(try_remove(sheet, ticket, net, out.len()), out)
}

/// M-101: writes the sheet in standard form and gives the number alone.
pub fn standard(sheet: &[u8], out: &mut [u8]) -> u32 {
    write_all(try_standard(sheet, out.len()), out)
}

/// The number alone, and on success the bytes from the start of the output.
fn write_all(verdict: Result<Vec<u8>, Word>, out: &mut [u8]) -> u32 {
    match verdict {
        Ok(bytes) => {
            out[..bytes.len()].copy_from_slice(&bytes);
            0
        }
        Err(word) => word.number(),
    }
}

/// The answer, and on success the ticket's bytes in the output.
fn finish(verdict: Result<Found, Word>, account: &Account, out: &mut [u8]) -> Answer {
    match verdict {
        Ok(found) => {
            out[..found.ticket.len()].copy_from_slice(&found.ticket);
            Answer {
                number: 0,
                width: found.width,
                trials: account.trials(),
                moved: found.moved as u32,
            }
        }
        Err(word) => Answer {
            number: word.number(),
            trials: account.trials(),
            ..Answer::default()
        },
    }
}

/// The ticket that is left; stranger, 17, is tested after 13 and before 14. M-100
/// takes no list, so that no wire is broken for it.
fn try_remove(sheet: &[u8], ticket: &[u8], net: u32, room: usize) -> Result<Vec<u8>, Word> {
    let sheet = parse(sheet)?;
    ticket::right_where_placed(&sheet, &Dead::default(), ticket)?;
    let net = sheet.numbered(net).ok_or(Word::Stranger)?;
    refuse_if(room < sheet.entry_count(), Word::Space)?;
    Ok(ticket::without(net, ticket))
}

/// The standard form; 14 looks at the sheet's own length, not at its entries.
fn try_standard(bytes: &[u8], room: usize) -> Result<Vec<u8>, Word> {
    let sheet = parse(bytes)?;
    refuse_if(room < bytes.len(), Word::Space)?;
    let form = form(&sheet);
    assert_eq!(form.len(), bytes.len(), "an order takes no room");
    Ok(form)
}
