//! What a whole run must have seen of Remove beside its numbers.

use crate::call::Call;
use crate::outcome::Outcome;
use model::sheet::{parse, Sheet};
use sheets::Ask;

pub const PLACED: &str = "took a placed net out";
pub const UNPLACED: &str = "found its net unplaced";
pub const LONGER: &str = "had a longer output";
pub const CLASH: &str = "gave 13 beside a stranger";
pub const SHORT: &str = "gave 17 beside a short output";
pub const WIDE: &str = "gave 17 for a net's number in the low 16 bits alone";
pub const PLACE: &str = "gave 17 for the list place of a net";
pub const BACK: &str = "led back to the ticket before Refit";

pub const KINDS: [&str; 8] = [PLACED, UNPLACED, LONGER, CLASH, SHORT, WIDE, PLACE, BACK];

/// Which of them this call shows; the judge notes the way back.
pub fn kinds(sheet: &[u8], call: Call, outcome: &Outcome) -> Vec<&'static str> {
    let Call::Listed(Ask::Remove { ticket, net, room }) = call else {
        return Vec::new();
    };
    let Ok(sheet) = parse(sheet) else {
        return Vec::new();
    };
    let (number, output) = outcome.written();
    let mut kinds = Vec::new();
    match number {
        0 if output.starts_with(ticket) => kinds.push(UNPLACED),
        0 => kinds.push(PLACED),
        13 if sheet.numbered(*net).is_none() => kinds.push(CLASH),
        17 => kinds.extend(strangers(&sheet, *net)),
        _ => {}
    }
    if number == 0 && *room > ticket.len() {
        kinds.push(LONGER);
    }
    if number == 17 && *room < ticket.len() {
        kinds.push(SHORT);
    }
    kinds
}

fn strangers(sheet: &Sheet, net: u32) -> Option<&'static str> {
    if (net as usize) < sheet.nets.len() {
        Some(PLACE)
    } else if net > 0xFFFF && sheet.numbered(net & 0xFFFF).is_some() {
        Some(WIDE)
    } else {
        None
    }
}
