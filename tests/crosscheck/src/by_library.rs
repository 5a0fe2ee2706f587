//! A call answered by the library under test.

use crate::board::Board;
use crate::call::Call;
use crate::ffi;
use crate::lent::{Lent, Manner};
use crate::outcome::Outcome;
use sheets::{Answer, Ask};

/// A call that takes the list of dead wires after the sheet.
macro_rules! under_list {
    ($call:ident, $sheet:ident, $dead:ident, $($more:expr),*) => {
        ffi::$call($sheet.pointer(), $sheet.len(), $dead.pointer(), $dead.len(), $($more),*)
    };
}

/// `before` is what the output holds before the call. Beside the outcome stand
/// the bytes, if any, that the library changed and must not change.
pub fn ask(
    board: Board,
    call: Call,
    before: &[u8],
    manner: Manner,
) -> (Outcome, Option<&'static str>) {
    let sheet = Lent::new(board.sheet, manner);
    let dead = Lent::new(board.dead, manner.of_list());
    let ticket = Lent::new(call.ticket().unwrap_or(&[]), manner);
    let mut out = Lent::new(before, manner);
    let outcome = match call {
        Call::Listed(ask) => listed(ask, [&sheet, &dead, &ticket], &mut out),
        Call::Standard { .. } => standard(&sheet, &mut out),
    };
    let changed = if !sheet.unchanged() {
        Some("the sheet or the bytes beside it")
    } else if !dead.unchanged() {
        Some("the list or the bytes beside it")
    } else if !ticket.unchanged() {
        Some("the ticket or the bytes beside it")
    } else if !out.guards_unchanged() {
        Some("the bytes beside the output")
    } else {
        None
    };
    (outcome, changed)
}

fn listed(ask: &Ask, [sheet, dead, ticket]: [&Lent; 3], out: &mut Lent) -> Outcome {
    match ask {
        Ask::Read => read(sheet),
        Ask::Record { place } => record(sheet, *place),
        Ask::Check { .. } => check(sheet, dead, ticket),
        Ask::Route { budget, .. } => route(sheet, dead, *budget, out),
        Ask::Least { budget, .. } => least(sheet, dead, *budget, out),
        Ask::Refit { budget, .. } => refit(sheet, dead, ticket, *budget, out),
        Ask::Remove { net, .. } => remove(sheet, ticket, *net, out),
    }
}

fn read(sheet: &Lent) -> Outcome {
    // SAFETY: pointer and length are those of a live buffer.
    let counts = unsafe { ffi::trackrouter_read(sheet.pointer(), sheet.len()) };
    Outcome::Counts {
        number: counts.number,
        nets: counts.nets,
        entries: counts.entries,
    }
}

fn record(sheet: &Lent, place: usize) -> Outcome {
    // SAFETY: pointer and length are those of a live buffer.
    let part = unsafe { ffi::trackrouter_record(sheet.pointer(), sheet.len(), place) };
    Outcome::Part {
        offset: part.offset,
        length: part.length,
    }
}

fn check(sheet: &Lent, dead: &Lent, ticket: &Lent) -> Outcome {
    let (pointer, length) = (ticket.pointer(), ticket.len());
    // SAFETY: pointers and lengths are those of live buffers.
    let number = unsafe { under_list!(trackrouter_check, sheet, dead, pointer, length) };
    Outcome::Number(number)
}

fn route(sheet: &Lent, dead: &Lent, budget: u32, out: &mut Lent) -> Outcome {
    let (pointer, length) = (out.pointer_mut(), out.len());
    // SAFETY: pointers and lengths are those of live buffers, and only the
    // output is lent for writing.
    let given = unsafe { under_list!(trackrouter_route, sheet, dead, budget, pointer, length) };
    answer(given, out)
}

fn least(sheet: &Lent, dead: &Lent, budget: u32, out: &mut Lent) -> Outcome {
    let (pointer, length) = (out.pointer_mut(), out.len());
    // SAFETY: as in `route`.
    let given = unsafe { under_list!(trackrouter_least, sheet, dead, budget, pointer, length) };
    answer(given, out)
}

fn refit(sheet: &Lent, dead: &Lent, old: &Lent, budget: u32, out: &mut Lent) -> Outcome {
    let (pointer, length) = (out.pointer_mut(), out.len());
    let (old, old_length) = (old.pointer(), old.len());
    // SAFETY: as in `route`.
    let given = unsafe {
        under_list!(
            trackrouter_refit,
            sheet,
            dead,
            old,
            old_length,
            budget,
            pointer,
            length
        )
    };
    answer(given, out)
}

fn remove(sheet: &Lent, ticket: &Lent, net: u32, out: &mut Lent) -> Outcome {
    let (pointer, length) = (out.pointer_mut(), out.len());
    // SAFETY: as in `route`.
    let number = unsafe {
        ffi::trackrouter_remove(
            sheet.pointer(),
            sheet.len(),
            ticket.pointer(),
            ticket.len(),
            net,
            pointer,
            length,
        )
    };
    written(number, out)
}

fn standard(sheet: &Lent, out: &mut Lent) -> Outcome {
    let (pointer, length) = (out.pointer_mut(), out.len());
    // SAFETY: as in `route`.
    let number =
        unsafe { ffi::trackrouter_standard(sheet.pointer(), sheet.len(), pointer, length) };
    written(number, out)
}

fn written(number: u32, out: &Lent) -> Outcome {
    Outcome::Written {
        number,
        output: out.bytes().to_vec(),
    }
}

fn answer(given: ffi::Answer, out: &Lent) -> Outcome {
    Outcome::Answer {
        answer: Answer {
            number: given.number,
            width: given.width,
            trials: given.trials,
            moved: given.moved,
        },
        output: out.bytes().to_vec(),
    }
}
