//! The marks of a sheet, and the head of a record under each: 01 "The sheet" and
//! 02 M-106. Entry counts, channels, parents and offsets have 16 bits under both.

/// A sheet's mark, its last two bytes. It tells how long the net numbers are.
#[derive(Clone, Copy, Debug, PartialEq, Eq)]
pub enum Mark {
    /// 57 48 hexadecimal: net numbers of 16 bits, widened when they are read.
    Short,
    /// 57 49 hexadecimal: net numbers of 32 bits.
    Long,
}

/// Where the parts of a record stand, counted from its own start.
#[derive(Clone, Copy, Debug, PartialEq, Eq)]
pub struct Head {
    /// How many bytes the net number has; it stands first.
    pub number: usize,
    /// Where the entry count stands.
    pub count: usize,
    /// Where the first entry stands.
    pub entries: usize,
}

impl Mark {
    pub const ALL: [Mark; 2] = [Mark::Short, Mark::Long];

    /// The mark that has these bytes, or `None` with refusal 2.
    pub fn from_bytes(bytes: [u8; 2]) -> Option<Mark> {
        Mark::ALL.into_iter().find(|mark| mark.bytes() == bytes)
    }

    /// The two bytes of a mark.
    pub fn bytes(self) -> [u8; 2] {
        match self {
            Mark::Short => [0x57, 0x48],
            Mark::Long => [0x57, 0x49],
        }
    }

    /// How many bytes a net number has.
    pub fn number_bytes(self) -> usize {
        match self {
            Mark::Short => 2,
            Mark::Long => 4,
        }
    }

    /// A record's head: the number, then the count, then the entries.
    pub fn head(self) -> Head {
        let number = self.number_bytes();
        Head {
            number,
            count: number,
            entries: number + 2,
        }
    }

    /// A net number as a record has it, low byte first.
    pub fn written(self, number: u32) -> Vec<u8> {
        let bytes = number.to_le_bytes();
        let (own, beyond) = bytes.split_at(self.number_bytes());
        assert!(beyond.iter().all(|b| *b == 0), "{number} under {self:?}");
        own.to_vec()
    }
}

impl Head {
    /// The bytes of a record with this many entries.
    pub fn record(self, entries: usize) -> usize {
        self.entries + 4 * entries
    }

    /// The net number at the start of a record, low byte first.
    pub fn number_in(self, record: &[u8]) -> u32 {
        let from_high = record[..self.number].iter().rev();
        from_high.fold(0, |number, &byte| number << 8 | u32::from(byte))
    }
}

#[cfg(test)]
mod tests {
    use super::Mark;

    #[test]
    fn two_marks() {
        let marked = |high, low| Mark::from_bytes([high, low]);
        assert_eq!(marked(0x57, 0x48), Some(Mark::Short));
        assert_eq!(marked(0x57, 0x49), Some(Mark::Long));
        let all = (0..=255).flat_map(|high| (0..=255).filter_map(move |low| marked(high, low)));
        assert_eq!(all.count(), 2);
    }

    #[test]
    fn numbers_there_and_back() {
        assert_eq!(Mark::Short.written(0x0102), [2, 1]);
        assert_eq!(Mark::Long.written(0x0102), [2, 1, 0, 0]);
        assert_eq!(Mark::Long.written(0x0102_0304), [4, 3, 2, 1]);
        for mark in Mark::ALL {
            let last = u32::MAX >> (32 - 8 * mark.number_bytes());
            for number in [0, 1, 255, 256, 65535, last - 1, last] {
                let record = [&mark.written(number)[..], &[9; 6]].concat();
                assert_eq!(mark.head().number_in(&record), number);
            }
        }
    }

    #[test]
    fn each_record_is_2_bytes_longer() {
        for n in 1..=32 {
            let [short, long] = Mark::ALL.map(|mark| mark.head().record(n));
            assert_eq!((short, long), (4 + 4 * n, 6 + 4 * n));
        }
    }
}
