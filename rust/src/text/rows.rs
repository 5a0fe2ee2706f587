//! The rows of boxes by parameters: `SHIFT+i` or `SHIFT-i` for each column of the box table.

use super::words::{cut, is_number, quoted, Words};
use crate::chip::{Column, Row, Rows, COLUMNS};
use alloc::format;
use alloc::string::String;

/// The six rows.
pub fn rows(words: &mut Words) -> Result<Rows, String> {
    let [a, b, c, d, e, f] = COLUMNS.map(|column| row(column, words));
    Ok([a?, b?, c?, d?, e?, f?])
}

fn row(column: Column, words: &mut Words) -> Result<Row, String> {
    let word = words.take(&format!("row of {column}"))?;
    let signed = |sign| word.strip_suffix(sign).map(|shift| (shift, sign == "-i"));
    let said = signed("+i").or_else(|| signed("-i"));
    let said = said.filter(|(shift, _)| is_number(shift.strip_prefix('-').unwrap_or(shift)));
    let (shift, minus) = said.ok_or_else(|| {
        format!(
            "row {} of {column} is neither SHIFT+i nor SHIFT-i",
            quoted(word)
        )
    })?;
    // What is too long for a number is out of range too.
    let row = shift.parse().ok().and_then(|shift| Row::new(minus, shift));
    row.ok_or_else(|| {
        let (first, last) = (Row::SHIFTS.start(), Row::SHIFTS.end());
        format!(
            "the shift {} of {column} is not {first} to {last}",
            cut(shift)
        )
    })
}
