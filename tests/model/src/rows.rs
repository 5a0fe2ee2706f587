//! Boxes by parameters, 02 M-102: a row of sign and shift for each column of the
//! box table.

/// How many bytes the rows take.
pub const ROW_BYTES: usize = 12;

#[derive(Clone, Copy, Debug, PartialEq, Eq)]
pub enum Sign {
    Plus,
    Minus,
}

#[derive(Clone, Copy, Debug, PartialEq, Eq)]
pub struct Row {
    pub sign: Sign,
    /// From −32 to 31.
    pub shift: i32,
}

/// A row for each column, left to right.
pub type Rows = [Row; 6];

impl Row {
    /// "A sign byte (0 plus, 1 minus) and a shift, a signed byte from −32 to 31";
    /// `None` with refusal 18.
    pub fn from_bytes(sign: u8, shift: u8) -> Option<Row> {
        let sign = match sign {
            0 => Sign::Plus,
            1 => Sign::Minus,
            _ => return None,
        };
        let shift = i32::from(i8::from_le_bytes([shift]));
        (-32..=31).contains(&shift).then_some(Row { sign, shift })
    }

    /// The two bytes of a row.
    pub fn bytes(self) -> [u8; 2] {
        let sign = match self.sign {
            Sign::Plus => 0,
            Sign::Minus => 1,
        };
        let shift = i8::try_from(self.shift).expect("a shift fits a signed byte");
        [sign, shift.to_le_bytes()[0]]
    }

    /// "(shift plus or minus i) mod W, from 0 to W−1".
    pub fn partner(self, w: u32, i: u32) -> u32 {
        let (w, i) = (i64::from(w), i64::from(i));
        let shift = i64::from(self.shift);
        let sum = match self.sign {
            Sign::Plus => shift + i,
            Sign::Minus => shift - i,
        };
        sum.rem_euclid(w) as u32
    }
}

/// The rows in 12 bytes, or `None` with refusal 18.
pub fn read(bytes: &[u8]) -> Option<Rows> {
    let row = |column: usize| Row::from_bytes(bytes[2 * column], bytes[2 * column + 1]);
    Some([row(0)?, row(1)?, row(2)?, row(3)?, row(4)?, row(5)?])
}

#[cfg(test)]
mod tests {
    use super::{read, Row, Sign};

    #[test]
    fn bytes_there_and_back() {
        let mut good = 0;
        for sign in 0..=255 {
            for shift in 0..=255 {
                if let Some(row) = Row::from_bytes(sign, shift) {
                    assert_eq!(row.bytes(), [sign, shift]);
                    good += 1;
                }
            }
        }
        assert_eq!(good, 2 * 64);
    }

    #[test]
    fn the_ends() {
        let shift = |byte| Row::from_bytes(1, byte).map(|row| row.shift);
        let ends = [0, 31, 32, 127, 128, 223, 224, 255].map(shift);
        let told = [Some(0), Some(31), None, None];
        assert_eq!(ends[..4], told);
        assert_eq!(ends[4..], [None, None, Some(-32), Some(-1)]);
        assert_eq!(Row::from_bytes(2, 0), None);
    }

    #[test]
    fn negative_sums() {
        let row = |sign, shift| Row { sign, shift };
        assert_eq!(row(Sign::Plus, -32).partner(3, 0), 1);
        assert_eq!(row(Sign::Minus, -32).partner(3, 2), 2);
        assert_eq!(row(Sign::Minus, 0).partner(5, 1), 4);
        assert_eq!(row(Sign::Plus, 31).partner(32, 31), 30);
    }

    #[test]
    fn one_bad_row_is_enough() {
        for column in 0..6 {
            let mut bytes = [0; 12];
            assert!(read(&bytes).is_some());
            bytes[2 * column] = 2;
            assert!(read(&bytes).is_none());
            bytes[2 * column..2 * column + 2].copy_from_slice(&[1, 32]);
            assert!(read(&bytes).is_none());
        }
    }
}
