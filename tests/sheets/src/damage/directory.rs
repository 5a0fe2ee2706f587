//! Damage aimed at number 5: the directory, entry counts, and the length rule with
//! its row bytes.

use crate::mark::Mark;
use crate::raw::Raw;
use crate::rng::Rng;

pub fn harm(raw: &mut Raw, rng: &mut Rng) {
    if !raw.records.is_empty() && rng.chance(1, 10) {
        other_mark(raw, rng);
    } else if rng.chance(1, 5) {
        row_bytes(raw, rng);
    } else if raw.directory.is_empty() || rng.chance(1, 4) {
        directory_fields(raw, rng);
    } else if raw.records.is_empty() || rng.chance(1, 2) {
        directory_offsets(raw, rng);
    } else {
        entry_counts(raw, rng);
    }
}

/// The records of one mark under the other: with the bytes of that, or with offsets
/// and lengths as it would have them.
fn other_mark(raw: &mut Raw, rng: &mut Rng) {
    if rng.chance(1, 2) {
        raw.mark = raw.form.other().bytes();
        return;
    }
    let more = |place: usize| match raw.form {
        Mark::Short => 2 * place as u16,
        Mark::Long => (2 * place as u16).wrapping_neg(),
    };
    let last = raw.directory.len();
    for (place, offset) in raw.directory.iter_mut().enumerate() {
        *offset = offset.wrapping_add(more(place));
    }
    if last < 2 || rng.chance(1, 2) {
        raw.directory_at = raw.directory_at.wrapping_add(more(last));
    }
}

fn directory_fields(raw: &mut Raw, rng: &mut Rng) {
    match rng.below(6) {
        0 => raw.directory_at = raw.directory_at.wrapping_add(1),
        1 => raw.directory_at = raw.directory_at.wrapping_sub(1),
        2 => raw.directory_at = rng.word(),
        3 => raw.net_count = rng.below(65) as u16,
        4 => {
            // Fits if the sum is cut to 16 bits.
            raw.net_count = 64;
            let after = 140 + raw.row_bytes.len() as u16;
            raw.directory_at = raw.length.wrapping_sub(after);
        }
        _ => {
            raw.gap = (0..rng.between(1, 8)).map(|_| rng.byte()).collect();
            raw.directory_at = raw.directory_at.wrapping_add(raw.gap.len() as u16);
            raw.settle_length();
        }
    }
}

/// Row bytes that the kind does not have, or too few or too many.
fn row_bytes(raw: &mut Raw, rng: &mut Rng) {
    let good = if raw.kind == 3 { 12 } else { 0 };
    match rng.below(3) {
        0 => raw.kind = if raw.kind == 3 { rng.below(3) as u8 } else { 3 },
        1 => raw.row_bytes.resize(12 - good, 0),
        _ => {
            let other = rng.below(25);
            let length = if other == good { 13 } else { other };
            raw.row_bytes.resize(length, rng.byte());
        }
    }
    raw.settle_length();
}

fn directory_offsets(raw: &mut Raw, rng: &mut Rng) {
    let place = rng.below(raw.directory.len());
    match rng.below(4) {
        0 => raw.directory[place] = rng.word(),
        1 => raw.directory[place] = raw.directory[place].wrapping_add(1),
        2 => raw.directory[place] = raw.directory_at,
        _ => {
            let other = rng.below(raw.directory.len());
            raw.directory.swap(place, other);
        }
    }
}

fn entry_counts(raw: &mut Raw, rng: &mut Rng) {
    let place = rng.below(raw.records.len());
    let last = raw.records.len() - 1;
    let count = raw.records[place].count;
    match rng.below(6) {
        0 => raw.records[place].count = 0,
        1 => raw.records[place].count = count + 1,
        2 => raw.records[place].count = count - 1,
        3 => raw.records[last].count += 1,
        4 => raw.records[place].count = *rng.pick(&[33, 16384, 65535, count + 16384]),
        _ => {
            let size = *rng.pick(&[0, 33, 34]);
            raw.records[place].entries.resize(size, (0, 0));
            raw.records[place].count = size as u16;
            raw.settle();
        }
    }
}
