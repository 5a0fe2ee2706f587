//! The model made wrong in 02 M-106 alone: wrong programs that a reader of the request
//! might write. Their list, `model::near_marks`, was made from the paper.

use super::Wrong;
use crate::board::Board;
use crate::by_model;
use crate::call::Call;
use crate::listing::laid_out;
use crate::outcome::Outcome;
use model::near_marks::{named, under, Order, Read, Same, Way, ORDERS, READS, SAMES, WAYS};
use model::sheet::{parse, Sheet};
use model::standard::form;
use sheets::{Ask, Mark, Told};

/// A name of the list as a field: words joined by hyphens.
fn slug(name: &str) -> String {
    let letters = name.chars().filter(|c| !",'".contains(*c));
    letters.map(|c| if c == ' ' { '-' } else { c }).collect()
}

/// Call and field of every wrong program.
pub fn fields() -> Vec<(&'static str, String)> {
    let reads = READS.iter().map(|(name, _)| ("reads", slug(name)));
    let ways = WAYS.iter().map(|(name, _)| ("ways", slug(name)));
    let orders = ORDERS.iter().map(|(name, _)| ("orders", slug(name)));
    let sames = SAMES.iter().map(|(name, _)| ("sames", slug(name)));
    reads.chain(ways).chain(orders).chain(sames).collect()
}

pub fn known(call: &str, field: &str) -> bool {
    let mut all = fields().into_iter();
    all.any(|(name, known)| name == call && known == field)
}

/// The program of a list that the field names.
fn find<T: Copy>(list: &[(&str, T)], field: &str) -> T {
    let found = list.iter().find(|(name, _)| slug(name) == field);
    found.expect("a field of this list").1
}

impl Wrong {
    /// What a wrong program gives; nothing where `--wrong` names none, or where it is
    /// right.
    pub fn by_mark(&self, board: Board, call: Call, before: &[u8]) -> Option<Outcome> {
        let field = &*self.field;
        match (&*self.call, call) {
            ("reads", _) => misread(find(&READS, field), board, call, before),
            ("ways", Call::Standard { .. }) => misformed(find(&WAYS, field), board, call, before),
            ("orders", Call::Listed(Ask::Route { .. } | Ask::Least { .. } | Ask::Refit { .. })) => {
                misordered(find(&ORDERS, field), board, call, before)
            }
            ("sames", Call::Listed(Ask::Remove { ticket, net, room })) => {
                let same = find(&SAMES, field);
                let ask = mistaken(same, board, *net).map(|net| Ask::Remove {
                    ticket: ticket.clone(),
                    net,
                    room: *room,
                })?;
                Some(by_model::ask(board, Call::from(&ask), before))
            }
            _ => None,
        }
    }

    /// Changes what a call gave on the twin of the second mark.
    pub fn spoil_wide(&self, call: Call, outcome: &mut Outcome) {
        self.spoil_beside("wide", call, outcome);
    }

    /// Changes what a call gave on a relisting of the other mark.
    pub fn spoil_relisted(&self, outcome: &mut Outcome) {
        if self.is("mark", "relisted") {
            self.spoil_field(outcome);
        }
    }
}

/// The calls on the sheet as it is read. The model is shown a sheet that it reads so;
/// Record's part and the form are those of the sheet itself. A sheet of the first mark
/// with numbers over 16 bits has no form, and is left out there.
fn misread(read: Read, board: Board, call: Call, before: &[u8]) -> Option<Outcome> {
    let sheet = match read(board.sheet) {
        Ok(sheet) => sheet,
        Err(word) => return Some(refused(call, word.number(), before)),
    };
    Some(match call {
        Call::Listed(Ask::Record { place }) => {
            let part = sheet.nets.get(*place).map(|net| (net.offset, net.length));
            let (offset, length) = part.unwrap_or((0, 0));
            Outcome::Part { offset, length }
        }
        Call::Standard { room } if room < board.sheet.len() => refused(call, 14, before),
        Call::Standard { .. } => {
            let fits = |number: u32| number <= 0xFFFF || sheet.mark == model::mark::Mark::Long;
            let fits = sheet.nets.iter().all(|net| fits(net.number));
            written(&fits.then(|| form(&sheet))?, before)
        }
        Call::Listed(_) => {
            let seen = laid_out(&sheet, Mark::Long).bytes();
            by_model::ask(Board::new(&seen, board.dead), call, before)
        }
    })
}

fn misformed(way: Way, board: Board, call: Call, before: &[u8]) -> Option<Outcome> {
    let right = by_model::ask(board, call, before);
    let sheet = parse(board.sheet).ok()?;
    (right.number() == Some(0)).then(|| written(&way(&sheet), before))
}

fn misordered(order: Order, board: Board, call: Call, before: &[u8]) -> Option<Outcome> {
    let sheet: Sheet = parse(board.sheet).ok()?;
    let seen = laid_out(&under(&sheet, order), Mark::Long).bytes();
    Some(by_model::ask(Board::new(&seen, board.dead), call, before))
}

/// The number of the net that is taken for the one asked for, or one that no net has.
fn mistaken(same: Same, board: Board, asked: u32) -> Option<u32> {
    let sheet = parse(board.sheet).ok()?;
    let stranger = || (0..).find(|number| sheet.numbered(*number).is_none());
    named(&sheet, asked, same).map_or_else(stranger, |net| Some(net.number))
}

fn refused(call: Call, number: u32, before: &[u8]) -> Outcome {
    let told = match call {
        Call::Listed(ask) => Told::refusal(ask, number, 0),
        Call::Standard { .. } => Told::Ticket {
            number,
            written: Vec::new(),
        },
    };
    Outcome::told(&told, before)
}

/// Success with these bytes, as far as the output goes.
fn written(bytes: &[u8], before: &[u8]) -> Outcome {
    let mut output = before.to_vec();
    let written = output.iter_mut().zip(bytes);
    written.for_each(|(to, from)| *to = *from);
    Outcome::Written { number: 0, output }
}

#[cfg(test)]
mod tests;
