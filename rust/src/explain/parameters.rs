//! Number 18: the rows of inner boxes, which only a sheet of kind 3 has.

use super::parts::at_byte;
use super::Fault;
use crate::chip::{Column, Kind, Row, COLUMNS};
use crate::layout::{self, KIND, ROW};
use crate::number;
use alloc::format;

/// The kind, with its rows if it has any. They end at the trailer.
pub fn kind(bytes: &[u8], trailer: usize) -> Result<Kind, Fault> {
    let number = bytes[trailer + KIND];
    let start = trailer - layout::parameters(number);
    let parameters = &bytes[start..trailer];
    for (place, row) in parameters.chunks_exact(ROW).enumerate() {
        row_of(COLUMNS[place], start + ROW * place, [row[0], row[1]])?;
    }
    Ok(layout::rows(parameters).map_or(number.into(), Kind::Rows))
}

/// The sign of a column's row at this byte, then its shift.
fn row_of(column: Column, at: usize, [sign, shift]: [u8; 2]) -> Result<(), Fault> {
    if sign > 1 {
        let what = format!("the sign of column {column} is {sign}, not 0 (plus) or 1 (minus)");
        return Err(at_byte(number::PARAMETER, at, what));
    }
    let (first, last) = (Row::SHIFTS.start(), Row::SHIFTS.end());
    let shift = shift as i8;
    if !Row::SHIFTS.contains(&shift) {
        let what = format!("the shift of column {column} is {shift}, not {first} to {last}");
        return Err(at_byte(number::PARAMETER, at + 1, what));
    }
    Ok(())
}
