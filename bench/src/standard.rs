//! A sheet in standard form, in plain Rust and in the library's steps.
#![forbid(unsafe_code)]

use crate::reader::{read, Record, Sheet, ENTRIES, ENTRY, HEAD};
use crate::tables::NETS;
use trackrouter::{number, Refusal, NO_PARENT};

/// For each entry of a record `WRITTEN`, or the place of the written entry that
/// it has a joint to, or `NO_PARENT`.
type Marks = [u16; ENTRIES];

const WRITTEN: u16 = 65534;

/// The written part of the output, as the library gives it.
pub fn standard<'a>(bytes: &[u8], out: &'a mut [u8]) -> Result<&'a [u8], Refusal> {
    let refused = |number| Refusal { number, trials: 0 };
    let sheet = read(bytes).map_err(refused)?;
    let room = out.get_mut(..bytes.len());
    let form = room.ok_or(refused(number::SPACE))?;
    write_form(&sheet, form);
    Ok(form)
}

fn write_form(sheet: &Sheet, form: &mut [u8]) {
    let order = rising_order(sheet);
    let (mut records, behind) = form.split_at_mut(sheet.directory);
    let (directory, rest) = behind.split_at_mut(2 * sheet.nets);
    let mut at = 0;
    for (&place, offset) in order.iter().zip(directory.chunks_exact_mut(2)) {
        let record = sheet.record(place.into());
        let (part, later) = records.split_at_mut(record.0.len());
        write_record(record, part);
        put(offset, at);
        at += part.len();
        records = later;
    }
    rest.copy_from_slice(&sheet.bytes[sheet.rest()..]);
}

/// The places of the nets in the sheet, in rising net number.
fn rising_order(sheet: &Sheet) -> [u8; NETS] {
    let mut order = [0; NETS];
    for (place, record) in sheet.records().enumerate() {
        let lower = |other: &Record| other.number() < record.number();
        let rank = sheet.records().filter(lower).count();
        order[rank] = place as u8;
    }
    order
}

fn write_record(record: Record, part: &mut [u8]) {
    let (head, entries) = part.split_at_mut(HEAD);
    head.copy_from_slice(&record.0[..HEAD]);
    let mut marks = [NO_PARENT; ENTRIES];
    for (place, bytes) in entries.chunks_exact_mut(ENTRY).enumerate() {
        let next = next_entry(record, &marks, place == 0);
        put(&mut bytes[..2], record.channel(next));
        put(&mut bytes[2..], marks[next].into());
        mark_from(record, &mut marks, place as u16, next);
    }
}

/// The entry of the lowest channel: at first of all, then of those with a joint to a written one.
fn next_entry(record: Record, marks: &Marks, first: bool) -> usize {
    (0..record.entries())
        .filter(|&entry| first || usize::from(marks[entry]) < ENTRIES)
        .min_by_key(|&entry| record.channel(entry))
        .expect("a net holds together")
}

/// Marks the entry that is written at the place, and those that have a joint to it and to none before.
fn mark_from(record: Record, marks: &mut Marks, place: u16, written: usize) {
    let parent = record.parent(written);
    for (entry, mark) in (0..record.entries()).zip(marks) {
        if entry == written {
            *mark = WRITTEN;
        } else if *mark == NO_PARENT && (entry == parent || record.parent(entry) == written) {
            *mark = place;
        }
    }
}

/// Fills two bytes with the number, low byte first.
fn put(bytes: &mut [u8], number: usize) {
    bytes.copy_from_slice(&(number as u16).to_le_bytes());
}
