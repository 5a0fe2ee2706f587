//! The words around the chip: the title, the numbers of columns and rows, and notes on how to read the picture.

use super::layout::{Layout, MARGIN};
use super::page::{text_width, Anchor, Page, Point};
use crate::refusal::Refusal;
use crate::sheet::Sheet;
use crate::{check_dead, check_old};
use alloc::format;
use alloc::string::String;

const NOTES: [&str; 2] = [
    "Track 0 is the lowest or leftmost of its channel.",
    "Lines are joined only at dots.",
];

/// The title, in the words of a sheet's text; behind it number and word of what is wrong.
pub fn title(sheet: &Sheet, dead: &[u8], ticket: Option<&[u8]>) -> String {
    let chip = sheet.chip();
    let (columns, rows) = (chip.columns, chip.rows);
    let (kind, width) = (sheet.kind(), sheet.width());
    let title = format!("chip {columns} by {rows}, kind {kind}, width {width}");
    match refused(sheet, dead, ticket) {
        Some(refusal) => format!("{title}: {} {}", refusal.number, refusal.word()),
        None => title,
    }
}

/// The library's answer to the sheet and the list, or to the ticket as Refit's old one.
fn refused(sheet: &Sheet, dead: &[u8], ticket: Option<&[u8]>) -> Option<Refusal> {
    let bytes = sheet.bytes().ok()?;
    match ticket {
        Some(ticket) => check_old(&bytes, dead, ticket).err(),
        None => check_dead(&bytes, dead).err(),
    }
}

pub fn channel_words(channel: u32) -> String {
    format!("channel {channel}")
}

/// The right edge of the page as far as title and notes need it.
pub fn right(layout: &Layout, title: &str) -> i64 {
    let title = text_width(title.len(), layout.title_text());
    let note = |note: &&str| text_width(note.len(), layout.note_text());
    let longest = NOTES.iter().map(note).fold(title, i64::max);
    layout.left + longest + MARGIN
}

/// The lower edge of the page, below the notes.
pub fn bottom(layout: &Layout) -> i64 {
    note_at(layout, NOTES.len() - 1) + layout.note_text() + MARGIN
}

/// The middle of a line of notes.
fn note_at(layout: &Layout, line: usize) -> i64 {
    let below = layout.top + layout.chip_height() + 2 * layout.axis_text();
    below + layout.note_text() * (2 + 3 * line as i64) / 2
}

pub fn draw(page: &mut Page, layout: &Layout, title: &str) {
    page.open(format_args!("fill=\"#4a5563\""));
    columns_and_rows(page, layout);
    let x = layout.left;
    for (line, note) in NOTES.iter().enumerate() {
        let y = note_at(layout, line);
        let about = format_args!("class=\"note\" font-size=\"{}\"", layout.note_text());
        page.text(about, Point { x, y }, Anchor::Start, note);
    }
    let size = layout.title_text();
    let y = MARGIN + size / 2;
    let about = format_args!("class=\"title\" font-size=\"{size}\" fill=\"#1c2430\"");
    page.text(about, Point { x, y }, Anchor::Start, title);
    page.close();
}

/// Below the lowest row and to the left of the first column.
fn columns_and_rows(page: &mut Page, layout: &Layout) {
    let size = layout.axis_text();
    for column in 0..layout.chip.columns {
        let square = layout.square(column, 0);
        let x = square.left + square.width / 2;
        let y = square.top + square.height + size;
        let about = format_args!("class=\"column\" font-size=\"{size}\"");
        let words = format!("column {column}");
        page.text(about, Point { x, y }, Anchor::Middle, &words);
    }
    for row in 0..layout.chip.rows {
        let square = layout.square(0, row);
        let (x, y) = (square.left - 10, square.top + square.height / 2);
        let about = format_args!("class=\"row\" font-size=\"{size}\"");
        page.text(about, Point { x, y }, Anchor::End, &format!("row {row}"));
    }
}
