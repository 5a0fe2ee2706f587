//! A sheet as its fields, each of which may be wrong.

use crate::mark::Mark;
use crate::numbers::Spread;
use crate::rows::{self, PUBLISHED};

/// The parent of a first entry.
pub const ROOT: u16 = 65535;

#[derive(Clone, Debug)]
pub struct Record {
    pub number: u32,
    /// The entry count as written; `entries` are those really there.
    pub count: u16,
    /// Channel and parent.
    pub entries: Vec<(u16, u16)>,
}

impl Record {
    pub fn new(number: u32, entries: &[(u16, u16)]) -> Self {
        Record {
            number,
            count: entries.len() as u16,
            entries: entries.to_vec(),
        }
    }
}

#[derive(Clone, Debug)]
pub struct Raw {
    /// How the records are laid out, whatever `mark` says.
    pub form: Mark,
    pub records: Vec<Record>,
    /// Bytes between the last record and the directory: none in a good sheet.
    pub gap: Vec<u8>,
    pub directory: Vec<u16>,
    /// Bytes between the directory and the trailer: 12 in a good sheet of kind 3,
    /// none in others.
    pub row_bytes: Vec<u8>,
    pub columns: u8,
    pub rows: u8,
    pub kind: u8,
    pub width: u8,
    pub net_count: u16,
    pub directory_at: u16,
    pub length: u16,
    /// The last two bytes, right or wrong.
    pub mark: [u8; 2],
}

impl Raw {
    /// A sheet of the first mark whose directory and trailer fit its records, without
    /// row bytes.
    pub fn new(columns: u8, rows: u8, kind: u8, width: u8, records: Vec<Record>) -> Self {
        let mut raw = Raw {
            form: Mark::Short,
            records,
            gap: Vec::new(),
            directory: Vec::new(),
            row_bytes: Vec::new(),
            columns,
            rows,
            kind,
            width,
            net_count: 0,
            directory_at: 0,
            length: 0,
            mark: Mark::Short.bytes(),
        };
        // With long numbers it has no bytes until it is marked.
        if raw.records.iter().all(|record| record.number <= 0xFFFF) {
            raw.settle();
        }
        raw
    }

    /// The sheet under this mark; directory and trailer fit.
    pub fn marked(mut self, mark: Mark) -> Self {
        self.form = mark;
        self.mark = mark.bytes();
        self.settle();
        self
    }

    /// The sheet under the second mark, its numbers spread.
    pub fn spread(mut self, spread: Spread) -> Self {
        for record in &mut self.records {
            record.number = spread.long(record.number);
        }
        self.marked(Mark::Long)
    }

    /// The sheet with these bytes between directory and trailer; its kind stays.
    pub fn with_row_bytes(mut self, row_bytes: &[u8]) -> Self {
        self.row_bytes = row_bytes.to_vec();
        self.settle_length();
        self
    }

    /// Kind 3 with the same boxes as the kind it has, 0, 1 or 2.
    pub fn by_rows(mut self) -> Self {
        let rows = PUBLISHED[usize::from(self.kind)];
        self.kind = 3;
        self.with_row_bytes(&rows::bytes(&rows))
    }

    /// Makes the directory and the trailer's last fields fit the records.
    pub fn settle(&mut self) {
        let mut at = 0;
        self.directory.clear();
        for record in &self.records {
            self.directory.push(at as u16);
            at += self.form.places().record(record.entries.len());
        }
        self.net_count = self.records.len() as u16;
        self.directory_at = (at + self.gap.len()) as u16;
        self.settle_length();
    }

    /// Makes the length field fit the bytes as they are.
    pub fn settle_length(&mut self) {
        self.length = self.bytes().len() as u16;
    }

    pub fn bytes(&self) -> Vec<u8> {
        let mut out = Vec::new();
        let put = |out: &mut Vec<u8>, word: u16| out.extend(word.to_le_bytes());
        for record in &self.records {
            out.extend(self.form.places().number(record.number));
            put(&mut out, record.count);
            for &(channel, parent) in &record.entries {
                put(&mut out, channel);
                put(&mut out, parent);
            }
        }
        out.extend(&self.gap);
        for &offset in &self.directory {
            put(&mut out, offset);
        }
        out.extend(&self.row_bytes);
        out.extend([self.columns, self.rows, self.kind, self.width]);
        put(&mut out, self.net_count);
        put(&mut out, self.directory_at);
        put(&mut out, self.length);
        out.extend(self.mark);
        out
    }

    /// The fields of a sheet that is laid out as its mark, kind and counts say,
    /// accepted or not.
    pub fn read(sheet: &[u8]) -> Option<Raw> {
        let mark = Mark::of(sheet)?;
        let places = mark.places();
        let end = sheet.len().checked_sub(12)?;
        let word = |at: usize| Some(u16::from_le_bytes([*sheet.get(at)?, *sheet.get(at + 1)?]));
        let (nets, directory) = (usize::from(word(end + 4)?), usize::from(word(end + 6)?));
        let mut records = Vec::new();
        let mut at = 0;
        for _ in 0..nets {
            let count = word(at + places.count)?;
            let entry = |place: usize| {
                let at = at + places.entry(place);
                Some((word(at)?, word(at + 2)?))
            };
            let entries: Option<Vec<(u16, u16)>> = (0..count.into()).map(entry).collect();
            let number = places.number_in(sheet.get(at..at + places.count)?);
            records.push(Record::new(number, &entries?));
            at += places.record(count.into());
        }
        let rows = if sheet[end + 2] == 3 { 12 } else { 0 };
        if at != directory || at + 2 * nets + rows != end {
            return None;
        }
        let [columns, height, kind, width] = [0, 1, 2, 3].map(|place| sheet[end + place]);
        let raw = Raw::new(columns, height, kind, width, records).marked(mark);
        let raw = raw.with_row_bytes(&sheet[end - rows..end]);
        (raw.bytes() == sheet).then_some(raw)
    }
}

#[cfg(test)]
mod tests {
    use super::Raw;
    use crate::mark::Mark;
    use crate::numbers::Spread;
    use crate::paper::{t_raw, T, T_LONG, T_WILTON_ROWS};

    #[test]
    fn what_is_laid_out_is_read() {
        for sheet in [&T[..], &T_LONG, &T_WILTON_ROWS] {
            assert_eq!(Raw::read(sheet).expect("a sheet").bytes(), sheet);
        }
        let long = Raw::read(&T).expect("a sheet").spread(Spread::Same);
        assert_eq!(long.bytes(), T_LONG);
        let spread = t_raw(0, 2).spread(Spread::Low).bytes();
        assert_eq!(spread[14..20], [2, 0, 0xFF, 0xFF, 2, 0]);
        let mut other = T;
        other[53] = Mark::Long.bytes()[1];
        assert!(Raw::read(&other).is_none(), "the other mark's records");
        other[53] = 0;
        assert!(Raw::read(&other).is_none(), "no mark");
        assert!(Raw::read(&T[1..]).is_none(), "a byte too few");
    }
}
