//! Wrong ways to keep the rows of kind 3 in a standard form, for tests that must
//! tell them from the right one. On other kinds they are right.

use crate::rows::{Row, Rows, Sign, ROW_BYTES};
use crate::sheet::Sheet;
use crate::standard::form;
use crate::switch::Kind;

type Way = fn(&Sheet) -> Vec<u8>;

pub const WAYS: [(&str, Way); 9] = [
    ("rows dropped", dropped),
    ("rows of subset", |s| with(s, |_| [SUBSET; 6])),
    ("rows turned round", |s| with(s, reversed)),
    ("first row for all", |s| with(s, |rows| [rows[0]; 6])),
    ("signs dropped", |s| each(s, |row, _| plus(row))),
    ("shifts at W", |s| each(s, at_width)),
    ("shifts without sign", |s| each(s, positive)),
    ("shift before sign", shift_first),
    ("rows before the directory", before_directory),
];

const SUBSET: Row = Row {
    sign: Sign::Plus,
    shift: 0,
};

/// The form of the sheet with other rows.
fn with(sheet: &Sheet, change: impl Fn(Rows) -> Rows) -> Vec<u8> {
    let mut other = sheet.clone();
    if let Kind::Parameters(rows) = sheet.kind {
        other.kind = Kind::Parameters(change(rows));
    }
    form(&other)
}

/// The form of the sheet with each row changed, given the width.
fn each(sheet: &Sheet, change: impl Fn(Row, i32) -> Row) -> Vec<u8> {
    let width = sheet.width as i32;
    with(sheet, |rows| rows.map(|row| change(row, width)))
}

fn reversed(mut rows: Rows) -> Rows {
    rows.reverse();
    rows
}

fn plus(row: Row) -> Row {
    Row {
        sign: Sign::Plus,
        ..row
    }
}

/// The shift that acts alike at the sheet's width, from 0 to W−1.
fn at_width(row: Row, width: i32) -> Row {
    let shift = row.shift.rem_euclid(width);
    Row { shift, ..row }
}

fn positive(row: Row, _: i32) -> Row {
    let shift = row.shift.abs();
    Row { shift, ..row }
}

/// Where the rows stand in a form, none with other kinds.
fn place(sheet: &Sheet, form: &[u8]) -> std::ops::Range<usize> {
    let end = form.len() - 12;
    let has_rows = matches!(sheet.kind, Kind::Parameters(_));
    end - if has_rows { ROW_BYTES } else { 0 }..end
}

fn dropped(sheet: &Sheet) -> Vec<u8> {
    let mut out = form(sheet);
    out.drain(place(sheet, &out));
    let length = (out.len() as u16).to_le_bytes();
    let at = out.len() - 4;
    out[at..at + 2].copy_from_slice(&length);
    out
}

fn shift_first(sheet: &Sheet) -> Vec<u8> {
    let mut out = form(sheet);
    let place = place(sheet, &out);
    out[place].chunks_mut(2).for_each(|row| row.swap(0, 1));
    out
}

fn before_directory(sheet: &Sheet) -> Vec<u8> {
    let mut out = form(sheet);
    let place = place(sheet, &out);
    let directory = place.start - 2 * sheet.nets.len();
    out[directory..place.end].rotate_right(place.len());
    out
}
