//! The two marks of a sheet and where the parts of a record stand under each, 02
//! M-106. Entry counts, channels, parents and offsets have 16 bits under both.

/// What a sheet's last two bytes say of its net numbers.
#[derive(Clone, Copy, Debug, Default, PartialEq, Eq, PartialOrd, Ord, Hash)]
pub enum Mark {
    /// 57 48: net numbers of 16 bits.
    #[default]
    Short,
    /// 57 49: net numbers of 32 bits.
    Long,
}

/// A record's places, from its start: the number is first.
#[derive(Clone, Copy, Debug, PartialEq, Eq)]
pub struct Places {
    /// Where the entry count stands, behind the number.
    pub count: usize,
    /// Where the entries begin.
    pub entries: usize,
}

impl Mark {
    pub const BOTH: [Mark; 2] = [Mark::Short, Mark::Long];

    pub fn bytes(self) -> [u8; 2] {
        match self {
            Mark::Short => [0x57, 0x48],
            Mark::Long => [0x57, 0x49],
        }
    }

    /// The mark that a sheet ends in, whatever else is wrong with it.
    pub fn of(sheet: &[u8]) -> Option<Mark> {
        let ends = |mark: &Mark| sheet.ends_with(&mark.bytes());
        Mark::BOTH.into_iter().find(ends)
    }

    pub fn other(self) -> Mark {
        match self {
            Mark::Short => Mark::Long,
            Mark::Long => Mark::Short,
        }
    }

    /// The record's places under this mark.
    pub fn places(self) -> Places {
        let count = match self {
            Mark::Short => 2,
            Mark::Long => 4,
        };
        Places {
            count,
            entries: count + 2,
        }
    }

    /// For names of cases: nothing of the first mark.
    pub fn tag(self) -> &'static str {
        match self {
            Mark::Short => "",
            Mark::Long => ", second mark",
        }
    }
}

impl Places {
    /// Where an entry stands.
    pub fn entry(self, place: usize) -> usize {
        self.entries + 4 * place
    }

    /// The length of a record with so many entries.
    pub fn record(self, entries: usize) -> usize {
        self.entry(entries)
    }

    /// The bytes of a net number that fits, low byte first.
    pub fn number(self, number: u32) -> Vec<u8> {
        let bytes = number.to_le_bytes();
        let (own, beyond) = bytes.split_at(self.count);
        assert!(beyond.iter().all(|byte| *byte == 0), "{number} is too long");
        own.to_vec()
    }

    /// The net number of the record at the start of these bytes.
    pub fn number_in(self, record: &[u8]) -> u32 {
        let mut bytes = [0; 4];
        bytes[..self.count].copy_from_slice(&record[..self.count]);
        u32::from_le_bytes(bytes)
    }
}

#[cfg(test)]
mod tests {
    use super::Mark;

    #[test]
    fn places_by_hand() {
        let [short, long] = Mark::BOTH.map(Mark::places);
        assert_eq!((short.count, short.entry(0), short.entry(2)), (2, 4, 12));
        assert_eq!((long.count, long.entry(0), long.entry(2)), (4, 6, 14));
        assert_eq!([short.record(32), long.record(32)], [132, 134]);
        assert_eq!(short.number(0x0102), [2, 1]);
        assert_eq!(long.number(0x0102_0304), [4, 3, 2, 1]);
        assert_eq!(short.number_in(&[2, 1, 9, 9]), 0x0102);
        assert_eq!(long.number_in(&[4, 3, 2, 1, 9]), 0x0102_0304);
        assert_eq!(Mark::of(&[0x57, 0x49]), Some(Mark::Long));
        assert_eq!(Mark::of(&[0x57, 0x4A]), None);
        assert_eq!(Mark::of(&[0x48]), None);
    }
}
