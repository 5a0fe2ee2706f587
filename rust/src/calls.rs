//! Safe calls of the library.
//!
//! A slice is never null and an output borrowed mutably overlaps no input, so nothing here can break the library's rules.
//! Every result is fixed by the paper and its change requests; see the header for the numbers.

use crate::refusal::Refusal;
use crate::{number, MAX_ENTRIES};

/// Read's two counts.
#[derive(Clone, Copy, Debug, PartialEq, Eq)]
pub struct Counts {
    pub nets: u32,
    pub entries: u32,
}

/// What Route, Least and Refit answer on success.
#[derive(Clone, Copy, Debug, PartialEq, Eq)]
pub struct Routed<'a> {
    pub width: u32,
    pub trials: u32,
    pub moved: u32,
    /// The written part of the output: one byte for each entry.
    pub ticket: &'a [u8],
}

mod sys {
    #[repr(C)]
    pub struct Counts {
        pub number: u32,
        pub nets: u32,
        pub entries: u32,
    }

    #[repr(C)]
    pub struct Part {
        pub offset: usize,
        pub length: usize,
    }

    #[repr(C)]
    pub struct Answer {
        pub number: u32,
        pub width: u32,
        pub trials: u32,
        pub moved: u32,
    }

    extern "C" {
        pub fn trackrouter_version() -> u32;
        pub fn trackrouter_read(sheet: *const u8, sheet_len: usize) -> Counts;
        pub fn trackrouter_record(sheet: *const u8, sheet_len: usize, place: usize) -> Part;
        pub fn trackrouter_standard(
            sheet: *const u8,
            sheet_len: usize,
            out: *mut u8,
            out_len: usize,
        ) -> u32;
        pub fn trackrouter_check(
            sheet: *const u8,
            sheet_len: usize,
            dead: *const u8,
            dead_len: usize,
            ticket: *const u8,
            ticket_len: usize,
        ) -> u32;
        pub fn trackrouter_route(
            sheet: *const u8,
            sheet_len: usize,
            dead: *const u8,
            dead_len: usize,
            budget: u32,
            out: *mut u8,
            out_len: usize,
        ) -> Answer;
        pub fn trackrouter_least(
            sheet: *const u8,
            sheet_len: usize,
            dead: *const u8,
            dead_len: usize,
            budget: u32,
            out: *mut u8,
            out_len: usize,
        ) -> Answer;
        pub fn trackrouter_refit(
            sheet: *const u8,
            sheet_len: usize,
            dead: *const u8,
            dead_len: usize,
            old: *const u8,
            old_len: usize,
            budget: u32,
            out: *mut u8,
            out_len: usize,
        ) -> Answer;
        pub fn trackrouter_remove(
            sheet: *const u8,
            sheet_len: usize,
            ticket: *const u8,
            ticket_len: usize,
            net: u32,
            out: *mut u8,
            out_len: usize,
        ) -> u32;
    }
}

/// The answer with the written part of the output. A sheet that was routed is accepted, so Read has its entry count.
fn routed<'a>(answer: sys::Answer, sheet: &[u8], out: &'a [u8]) -> Result<Routed<'a>, Refusal> {
    if answer.number != 0 {
        return Err(Refusal {
            number: answer.number,
            trials: answer.trials,
        });
    }
    let written = read(sheet)?.entries as usize;
    Ok(Routed {
        width: answer.width,
        trials: answer.trials,
        moved: answer.moved,
        ticket: &out[..written],
    })
}

fn refused(number: u32) -> Refusal {
    Refusal { number, trials: 0 }
}

/// The version of the library that is linked; this package fits `VERSION`.
pub fn version() -> u32 {
    // SAFETY: it takes nothing.
    unsafe { sys::trackrouter_version() }
}

// In every call below: the pointers and lengths are those of live slices, and `out` is borrowed mutably, so it overlaps no other slice.

/// The sheet's net count and entry count.
pub fn read(sheet: &[u8]) -> Result<Counts, Refusal> {
    let counts = unsafe { sys::trackrouter_read(sheet.as_ptr(), sheet.len()) };
    match counts.number {
        0 => Ok(Counts {
            nets: counts.nets,
            entries: counts.entries,
        }),
        number => Err(refused(number)),
    }
}

/// The record at a list place, from its net number to its last entry; empty for a refused sheet or a place not below the net count. The
/// sheet's mark says how long the number is (`sheet::Mark`).
pub fn record(sheet: &[u8], place: usize) -> &[u8] {
    let part = unsafe { sys::trackrouter_record(sheet.as_ptr(), sheet.len(), place) };
    &sheet[part.offset..part.offset + part.length]
}

/// The sheet in standard form: the written part of the output, as long as the sheet. Nets stand in rising number, and each tree starts at
/// the net's home; the mark and the rows of kind 3 are kept. Two accepted sheets of the same mark, chip, kind (with its rows) and W have the
/// same nets, channels and joints exactly if their standard forms are equal bytes.
///
/// ```
/// use trackrouter::{standard, MAX_SHEET};
///
/// // Net 9 through channel 0, then net 4 through channel 5 and channel 1, which is joined to it.
/// let sheet = [
///     9, 0, 1, 0, 0, 0, 255, 255, // net 9 at byte 0
///     4, 0, 2, 0, 5, 0, 255, 255, 1, 0, 0, 0, // net 4 at byte 8
///     0, 0, 8, 0, // the directory
///     3, 2, 0, 2, 2, 0, 20, 0, 36, 0, 0x57, 0x48,
/// ];
/// let mut out = [0; MAX_SHEET];
/// let form = standard(&sheet, &mut out).unwrap();
/// assert_eq!(form[..20], [4, 0, 2, 0, 1, 0, 255, 255, 5, 0, 0, 0, 9, 0, 1, 0, 0, 0, 255, 255]);
/// assert_eq!(form[20..24], [0, 0, 12, 0]);
/// assert_eq!(form[24..], sheet[24..]);
/// ```
pub fn standard<'a>(sheet: &[u8], out: &'a mut [u8]) -> Result<&'a [u8], Refusal> {
    let number = unsafe {
        sys::trackrouter_standard(sheet.as_ptr(), sheet.len(), out.as_mut_ptr(), out.len())
    };
    match number {
        0 => Ok(&out[..sheet.len()]),
        number => Err(refused(number)),
    }
}

/// Whether the ticket is right for the sheet, with no net on a dead wire.
pub fn check(sheet: &[u8], dead: &[u8], ticket: &[u8]) -> Result<(), Refusal> {
    match unsafe {
        sys::trackrouter_check(
            sheet.as_ptr(),
            sheet.len(),
            dead.as_ptr(),
            dead.len(),
            ticket.as_ptr(),
            ticket.len(),
        )
    } {
        0 => Ok(()),
        number => Err(refused(number)),
    }
}

/// Route's and Least's boundary: the sheet, the dead wires, the budget, the output.
type Search =
    unsafe extern "C" fn(*const u8, usize, *const u8, usize, u32, *mut u8, usize) -> sys::Answer;

fn search<'a>(
    call: Search,
    sheet: &[u8],
    dead: &[u8],
    budget: u32,
    out: &'a mut [u8],
) -> Result<Routed<'a>, Refusal> {
    let answer = unsafe {
        call(
            sheet.as_ptr(),
            sheet.len(),
            dead.as_ptr(),
            dead.len(),
            budget,
            out.as_mut_ptr(),
            out.len(),
        )
    };
    routed(answer, sheet, out)
}

/// The first right ticket at the sheet's width W, with no net on a dead wire.
pub fn route<'a>(
    sheet: &[u8],
    dead: &[u8],
    budget: u32,
    out: &'a mut [u8],
) -> Result<Routed<'a>, Refusal> {
    search(sys::trackrouter_route, sheet, dead, budget, out)
}

/// The smallest width from 1 to 32 that has a right ticket, and the first ticket there, with no net on a dead wire.
pub fn least<'a>(
    sheet: &[u8],
    dead: &[u8],
    budget: u32,
    out: &'a mut [u8],
) -> Result<Routed<'a>, Refusal> {
    search(sys::trackrouter_least, sheet, dead, budget, out)
}

/// A full ticket from a partly filled old one, moving the fewest placed nets, with no net on a dead wire. A placed net of the old ticket on
/// a dead wire is refused; `remove` takes it out.
///
/// ```
/// use trackrouter::chip::Wire;
/// use trackrouter::{check, number, refit, remove};
///
/// // Nets 1 and 2, both through channel 0, with W 3, and their ticket.
/// let sheet = [
///     1, 0, 1, 0, 0, 0, 255, 255, // net 1 at byte 0
///     2, 0, 1, 0, 0, 0, 255, 255, // net 2 at byte 8
///     0, 0, 8, 0, // the directory
///     3, 2, 0, 3, 2, 0, 16, 0, 32, 0, 0x57, 0x48,
/// ];
/// let ticket = [0, 1];
/// // Track 1 of channel 0 has died.
/// let dead = Wire { channel: 0, track: 1 }.bytes();
/// assert_eq!(check(&sheet, &dead, &ticket).unwrap_err().number, number::BROKEN);
/// let mut without = [0; 2];
/// remove(&sheet, &ticket, 2, &mut without).unwrap();
/// let mut out = [0; 2];
/// let new = refit(&sheet, &dead, &without, 100, &mut out).unwrap();
/// assert_eq!((new.ticket, new.moved), (&[0, 2][..], 0));
/// ```
pub fn refit<'a>(
    sheet: &[u8],
    dead: &[u8],
    old: &[u8],
    budget: u32,
    out: &'a mut [u8],
) -> Result<Routed<'a>, Refusal> {
    let answer = unsafe {
        sys::trackrouter_refit(
            sheet.as_ptr(),
            sheet.len(),
            dead.as_ptr(),
            dead.len(),
            old.as_ptr(),
            old.len(),
            budget,
            out.as_mut_ptr(),
            out.len(),
        )
    };
    routed(answer, sheet, out)
}

/// The ticket with the net of this number taken out, all others as before: the written part of the output. The ticket is read as Refit
/// reads its old one, with no list of dead wires: a net on such a wire is taken out like any other.
pub fn remove<'a>(
    sheet: &[u8],
    ticket: &[u8],
    net: u32,
    out: &'a mut [u8],
) -> Result<&'a [u8], Refusal> {
    let number = unsafe {
        sys::trackrouter_remove(
            sheet.as_ptr(),
            sheet.len(),
            ticket.as_ptr(),
            ticket.len(),
            net,
            out.as_mut_ptr(),
            out.len(),
        )
    };
    match number {
        // The ticket has one byte for each entry, and as many are written.
        0 => Ok(&out[..ticket.len()]),
        number => Err(refused(number)),
    }
}

/// Whether Refit takes the ticket as its old one: its nets are each right or unplaced, and none is on a dead wire. Whether the unplaced nets
/// find room is not asked. With no dead wires, Remove takes the same tickets.
pub fn check_old(sheet: &[u8], dead: &[u8], ticket: &[u8]) -> Result<(), Refusal> {
    // Without a budget no trial is made, and only what is said of the sheet, the list and the old ticket is looked at.
    accepted(refit(sheet, dead, ticket, 0, &mut [0; MAX_ENTRIES]))
}

/// Whether Check, Route, Least and Refit take the list of dead wires for the sheet: neither is refused.
pub fn check_dead(sheet: &[u8], dead: &[u8]) -> Result<(), Refusal> {
    accepted(route(sheet, dead, 0, &mut []))
}

/// An answer as far as it speaks of the inputs: not of the output, nor of the search.
fn accepted(answer: Result<Routed, Refusal>) -> Result<(), Refusal> {
    match answer {
        Ok(_) => Ok(()),
        Err(refusal) => match refusal.number {
            number::SPACE | number::UNROUTABLE | number::SPENT => Ok(()),
            _ => Err(refusal),
        },
    }
}
