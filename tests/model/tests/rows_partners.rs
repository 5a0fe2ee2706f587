//! 02 M-102: partners by rows, at every width, sign and shift, in inner boxes and,
//! 02 M-104, in others.

use model::chip::Side::{self, Bottom, Left, Right, Top};
use model::rows::{Row, Rows, Sign};
use model::sheet::parse;
use model::switch::{are_partners, partner, partner_in, Kind};
use sheets::paper::t_design;

const SIDES: [Side; 4] = [Left, Right, Top, Bottom];

/// The columns as the paper prints them, left to right, first side first.
const COLUMNS: [(Side, Side); 6] = [
    (Left, Right),
    (Top, Bottom),
    (Left, Top),
    (Top, Right),
    (Right, Bottom),
    (Bottom, Left),
];

/// Both signs and all shifts.
fn all_rows() -> impl Iterator<Item = Row> {
    let signs = [Sign::Plus, Sign::Minus].into_iter();
    signs.flat_map(|sign| (-32..=31).map(move |shift| Row { sign, shift }))
}

/// Kind 3 with this row in all columns.
fn kind(row: Row) -> Kind {
    Kind::Parameters([row; 6])
}

/// The rows as the model reads them from a sheet of the other crate.
fn read(rows: sheets::Rows) -> Kind {
    let sheet = t_design(0, 1).with_rows(rows).list().bytes();
    parse(&sheet).expect("a good sheet").kind
}

#[test]
fn single_and_mutual() {
    for row in all_rows() {
        for w in 1..=32 {
            for a in SIDES {
                for b in SIDES.into_iter().filter(|b| *b != a) {
                    let partners = |i, j: &u32| are_partners(kind(row), w, (a, i), (b, *j));
                    for i in 0..w {
                        assert_eq!((0..w).filter(|j| partners(i, j)).count(), 1);
                        let j = partner(kind(row), w, a, i, b);
                        assert_eq!(partner(kind(row), w, b, j, a), i);
                    }
                }
            }
        }
    }
}

/// "The partner of track i on a pair's first side is (shift plus or minus i) mod
/// W": W divides the difference, whichever way it is counted.
#[test]
fn by_the_sentence() {
    for row in all_rows() {
        for w in 1..=32 {
            for (from, to) in COLUMNS {
                for i in 0..w {
                    let j = partner(kind(row), w, from, i, to);
                    let (i, j) = (i as i32, j as i32);
                    let sum = match row.sign {
                        Sign::Plus => row.shift + i,
                        Sign::Minus => row.shift - i,
                    };
                    assert!((0..w as i32).contains(&j));
                    assert_eq!((sum - j) % w as i32, 0, "{row:?} {w} {i}");
                }
            }
        }
    }
}

/// The rows of the published kinds give their printed partners, between all sides
/// and in both directions.
#[test]
fn published_kinds() {
    let kinds = [Kind::Subset, Kind::Wilton, Kind::Universal];
    for (published, rows) in kinds.into_iter().zip(sheets::rows::PUBLISHED) {
        let by_rows = read(rows);
        for w in 1..=32 {
            for a in SIDES {
                for b in SIDES.into_iter().filter(|b| *b != a) {
                    for i in 0..w {
                        let told = partner(published, w, a, i, b);
                        assert_eq!(partner(by_rows, w, a, i, b), told);
                    }
                }
            }
        }
    }
}

/// Each column has its own two bytes: a row in one column is seen between its two
/// sides alone.
#[test]
fn one_column_at_a_time() {
    let equal = Row {
        sign: Sign::Plus,
        shift: 0,
    };
    for row in all_rows() {
        for (column, (from, to)) in COLUMNS.into_iter().enumerate() {
            let mut rows: Rows = [equal; 6];
            rows[column] = row;
            let mut bytes = [0; 12];
            bytes[2 * column..2 * column + 2].copy_from_slice(&row.bytes());
            let raw = t_design(3, 5).list().with_row_bytes(&bytes);
            let kind = parse(&raw.bytes()).expect("a good sheet").kind;
            assert_eq!(kind, Kind::Parameters(rows));
            for (a, b) in COLUMNS {
                let row = if (a, b) == (from, to) { row } else { equal };
                for i in 0..5 {
                    assert_eq!(partner(kind, 5, a, i, b), row.partner(5, i));
                }
            }
        }
    }
}

/// From the other side a plus row is undone by the opposite shift, a minus row by
/// itself.
#[test]
fn from_the_other_side() {
    for row in all_rows() {
        for w in 1..=32 {
            let back = match row.sign {
                Sign::Plus => Row {
                    shift: -row.shift,
                    ..row
                },
                Sign::Minus => row,
            };
            for (from, to) in COLUMNS {
                for j in 0..w {
                    assert_eq!(partner(kind(row), w, to, j, from), back.partner(w, j));
                }
            }
        }
    }
}

/// Shifts that differ by the width act alike there, and not at the next width.
#[test]
fn shifts_that_act_alike() {
    let minus_one = |sign| Row { sign, shift: -1 };
    for sign in [Sign::Plus, Sign::Minus] {
        for w in 2..=31 {
            let other = Row {
                sign,
                shift: w as i32 - 1,
            };
            for (from, to) in COLUMNS {
                let same = |w| {
                    let track = |row, i| partner(kind(row), w, from, i, to);
                    (0..w).all(|i| track(minus_one(sign), i) == track(other, i))
                };
                assert!(same(w) && !same(w + 1));
            }
        }
    }
}

/// In a box of two or three channels the rows are not used.
#[test]
fn few_channels_run_straight() {
    for row in all_rows() {
        for w in 1..=32 {
            for (a, b) in COLUMNS {
                for i in 0..w {
                    let by_rows = partner(kind(row), w, a, i, b);
                    assert_eq!(partner_in(4, kind(row), w, a, i, b), by_rows);
                    for around in [2, 3] {
                        assert_eq!(partner_in(around, kind(row), w, a, i, b), i);
                        assert_eq!(partner_in(around, kind(row), w, b, i, a), i);
                    }
                }
            }
        }
    }
}
