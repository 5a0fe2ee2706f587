//! Lengths from the longest sheet of the first mark without rows to one byte over the
//! limit of number 1, under each mark and with each kind in turn, through every call.
//! Mark and length field are right.

use crate::board::Board;
use crate::failure::{describe, Failure};
use crate::hurt::every_call;
use crate::judge::Judge;
use sheets::extremes::winding;
use sheets::rows::ENDS;
use sheets::{Ask, Mark, Raw, Rng, Spread};

/// How many sheets there were.
pub fn run(judge: &mut Judge, rng: &mut Rng) -> Result<usize, Failure> {
    let mut count = 0;
    for mark in Mark::BOTH {
        for length in 8588..=8729 {
            // Near the limits all kinds, else kind 3 and another one.
            let near = matches!(length, 8588 | 8599..=8601 | 8715..=8717 | 8727..=8729);
            let all =
                (0..4u8).filter(|kind| near || *kind == 3 || usize::from(*kind) == length % 3);
            for kind in all {
                let bytes = of_length(mark, kind, length).bytes();
                numbered(judge, &bytes, number(mark, kind, length))?;
                every_call(judge, Board::from(&bytes), rng)?;
                count += 1;
            }
        }
    }
    Ok(count)
}

/// 64 nets of 32 entries have 8,588 bytes, with rows 8,600, and 128 more under the
/// second mark; an entry less is 4 bytes less. A length that no entries make has a gap.
fn number(mark: Mark, kind: u8, length: usize) -> u32 {
    let rows = if kind == 3 { 12 } else { 0 };
    let full = rows
        + match mark {
            Mark::Short => 8588,
            Mark::Long => 8716,
        };
    match length {
        8729 => 1,
        _ if length <= full && (full - length) % 4 == 0 => 0,
        _ => 5,
    }
}

/// A sheet of this length: as many entries as fit, then the gap that is left.
fn of_length(mark: Mark, kind: u8, length: usize) -> Raw {
    let design = match kind {
        3 => winding(64, 32, 0, 32).with_rows(ENDS),
        _ => winding(64, 32, kind, 32),
    };
    let mut raw = match mark {
        Mark::Short => design.list(),
        Mark::Long => design.spread(Spread::FAR[length % 3]).list(),
    };
    let mut over = usize::from(raw.length).saturating_sub(length).div_ceil(4);
    for record in raw.records.iter_mut().rev() {
        let fewer = over.min(31);
        record.entries.truncate(32 - fewer);
        record.count -= fewer as u16;
        over -= fewer;
    }
    raw.settle();
    raw.gap = vec![0; length - usize::from(raw.length)];
    raw.settle();
    raw
}

fn numbered(judge: &mut Judge, bytes: &[u8], number: u32) -> Result<(), Failure> {
    let outcome = judge.ask(bytes, &Ask::Read)?;
    if outcome.number() == Some(number) {
        return Ok(());
    }
    let call = describe(bytes, &Ask::Read, &[]);
    let what = format!("a sheet of {} bytes does not get {number}", bytes.len());
    Err(Failure::new(what, &call).with("both", outcome))
}
