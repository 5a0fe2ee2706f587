//! The rows of kind 3, 02 M-102: a sign and a shift for each column of the box
//! table, left to right.

use crate::rng::Rng;

/// One column's row.
#[derive(Clone, Copy, Debug, PartialEq, Eq)]
pub struct Row {
    pub minus: bool,
    /// From −32 to 31 in a good sheet.
    pub shift: i8,
}

/// The rows of left–right, top–bottom, left–top, top–right, right–bottom and
/// bottom–left.
pub type Rows = [Row; 6];

pub const fn plus(shift: i8) -> Row {
    let minus = false;
    Row { minus, shift }
}

pub const fn minus(shift: i8) -> Row {
    let minus = true;
    Row { minus, shift }
}

/// Kind 0: i everywhere.
pub const SUBSET: Rows = [plus(0); 6];

/// Kind 1: i, i, (W−i) mod W, (i+1) mod W, (2W−2−i) mod W, (i+1) mod W.
pub const WILTON: Rows = [plus(0), plus(0), minus(0), plus(1), minus(-2), plus(1)];

/// Kind 2: i, i, W−1−i, i, W−1−i, i.
pub const UNIVERSAL: Rows = [plus(0), plus(0), minus(-1), plus(0), minus(-1), plus(0)];

/// The rows of kinds 0, 1 and 2.
pub const PUBLISHED: [Rows; 3] = [SUBSET, WILTON, UNIVERSAL];

/// Rows that are all unlike, with the shifts at both ends.
pub const ENDS: Rows = [
    plus(-32),
    minus(31),
    minus(-32),
    plus(31),
    minus(-1),
    plus(-2),
];

/// Each row's sign byte and shift.
pub fn bytes(rows: &Rows) -> [u8; 12] {
    let mut out = [0; 12];
    for (pair, row) in out.chunks_mut(2).zip(rows) {
        pair[0] = u8::from(row.minus);
        pair[1] = row.shift.to_le_bytes()[0];
    }
    out
}

/// A sheet of kind 0, 1 or 2 as the sheet of kind 3 with the same boxes: its rows
/// before the trailer, and a length field of 12 more. All other bytes stay, right
/// or wrong. `None` if the sheet has no trailer, another kind or no room for the
/// rows.
pub fn by_rows(sheet: &[u8]) -> Option<Vec<u8>> {
    let (front, trailer) = sheet.split_at(sheet.len().checked_sub(12)?);
    let rows = PUBLISHED.get(usize::from(trailer[2]))?;
    let length = u16::from_le_bytes([trailer[8], trailer[9]]).wrapping_add(12);
    let mut trailer = trailer.to_vec();
    trailer[2] = 3;
    trailer[8..10].copy_from_slice(&length.to_le_bytes());
    let out = [front, &bytes(rows), &trailer].concat();
    (out.len() <= 8728).then_some(out)
}

/// Rows by chance: at times those of a published kind.
pub fn any(rng: &mut Rng) -> Rows {
    if rng.chance(1, 6) {
        return *rng.pick(&PUBLISHED);
    }
    SUBSET.map(|_| any_row(rng))
}

/// A row by chance: a shift near 0, at an end, or any.
pub fn any_row(rng: &mut Rng) -> Row {
    let shift = match rng.below(4) {
        0 => rng.between(0, 6) as i8 - 3,
        1 => *rng.pick(&[-32, -31, 30, 31]),
        _ => rng.below(64) as i8 - 32,
    };
    let minus = rng.chance(1, 2);
    Row { minus, shift }
}

#[cfg(test)]
mod tests {
    use super::{by_rows, bytes, ENDS, WILTON};
    use crate::paper::{t_raw, T_WILTON_ROWS};

    #[test]
    fn bytes_by_hand() {
        assert_eq!(bytes(&WILTON), [0, 0, 0, 0, 1, 0, 0, 1, 1, 254, 0, 1]);
        let told = [0, 224, 1, 31, 1, 224, 0, 31, 1, 255, 0, 254];
        assert_eq!(bytes(&ENDS), told);
    }

    #[test]
    fn t_as_kind_3() {
        let sheet = t_raw(1, 2);
        assert_eq!(by_rows(&sheet.bytes()), Some(T_WILTON_ROWS.to_vec()));
        assert_eq!(sheet.by_rows().bytes(), T_WILTON_ROWS);
        assert_eq!(by_rows(&T_WILTON_ROWS), None);
        assert_eq!(by_rows(&[0; 11]), None);
    }
}
