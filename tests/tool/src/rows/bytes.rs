//! The 12 bytes of a sheet of kind 3, between its directory and its trailer.

use sheets::Rng;

/// A sign byte and a shift byte for each column of the box table.
pub type Rows = [u8; 12];

/// The paper's cells as sign and shift: (W-i) mod W is 0-i, (2W-2-i) mod W is
/// -2-i, W-1-i is -1-i.
pub fn published(kind: u8) -> Rows {
    match kind {
        0 => [0; 12],
        1 => [0, 0, 0, 0, 1, 0, 0, 1, 1, 0xFE, 0, 1],
        _ => [0, 0, 0, 0, 1, 0xFF, 0, 0, 1, 0xFF, 0, 0],
    }
}

/// Rows by chance.
pub fn chance(rng: &mut Rng) -> Rows {
    let mut rows = [0; 12];
    for row in rows.chunks_mut(2) {
        row[0] = rng.below(2) as u8;
        row[1] = (rng.below(64) as i8 - 32) as u8;
    }
    rows
}

/// Whether these bytes end with a trailer of kind 3 that has rows before it.
fn has_rows(sheet: &[u8]) -> bool {
    sheet.len() >= 24 && sheet[sheet.len() - 10] == 3
}

/// The rows of a sheet of kind 3.
pub fn of(sheet: &[u8]) -> Option<Rows> {
    let start = sheet.len().checked_sub(24)?;
    let rows = sheet[start..start + 12].try_into().ok();
    rows.filter(|_| has_rows(sheet))
}

/// The sheet with these rows instead of its kind.
pub fn with(sheet: &[u8], rows: Rows) -> Vec<u8> {
    let mut sheet = sheet.to_vec();
    let trailer = sheet.len() - 12;
    let start = if has_rows(&sheet) {
        trailer - 12
    } else {
        trailer
    };
    sheet.splice(start..trailer, rows);
    let end = sheet.len();
    sheet[end - 10] = 3;
    sheet[end - 4..end - 2].copy_from_slice(&(end as u16).to_le_bytes());
    sheet
}

/// The kind with these rows in words, as a text has it; there are none for a bad
/// sign or shift.
pub fn words(rows: Rows) -> Option<String> {
    let mut words = "rows".to_string();
    for row in rows.chunks(2) {
        let sign = ["+", "-"].get(usize::from(row[0]))?;
        let shift = row[1] as i8;
        if !(-32..=31).contains(&shift) {
            return None;
        }
        words += &format!(" {shift}{sign}i");
    }
    Some(words)
}
