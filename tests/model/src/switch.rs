//! The box table, its columns by parameters, 02 M-102, and boxes that run straight,
//! 02 M-104.

use crate::chip::Side::{self, Bottom, Left, Right, Top};
use crate::rows::Rows;

#[derive(Clone, Copy, Debug, PartialEq, Eq)]
pub enum Kind {
    Subset,
    Wilton,
    Universal,
    /// Kind 3. Two sheets are of one kind 3 only if their rows agree.
    Parameters(Rows),
}

impl Kind {
    /// The kind that the trailer's byte alone tells: 0, 1 or 2.
    pub fn from_byte(byte: u8) -> Option<Kind> {
        [Kind::Subset, Kind::Wilton, Kind::Universal]
            .get(usize::from(byte))
            .copied()
    }

    /// The trailer's byte for this kind.
    pub fn byte(self) -> u8 {
        match self {
            Kind::Subset => 0,
            Kind::Wilton => 1,
            Kind::Universal => 2,
            Kind::Parameters(_) => 3,
        }
    }

    /// The bytes between directory and trailer: 12 with kind 3, else none.
    pub fn row_bytes(self) -> Vec<u8> {
        match self {
            Kind::Parameters(rows) => rows.into_iter().flat_map(|row| row.bytes()).collect(),
            _ => Vec::new(),
        }
    }
}

/// The columns of the table, left to right: each pair's first side first.
pub const COLUMNS: [(Side, Side); 6] = [
    (Left, Right),
    (Top, Bottom),
    (Left, Top),
    (Top, Right),
    (Right, Bottom),
    (Bottom, Left),
];

/// The paper's table as printed, and kind 3's rows: the partner on side `to` of
/// track `i` on side `from`. `None` where the pair's first side is `to`.
fn printed(kind: Kind, w: u32, from: Side, to: Side, i: u32) -> Option<u32> {
    let partner = match (from, to, kind) {
        (_, _, Kind::Parameters(rows)) => {
            let column = COLUMNS.iter().position(|pair| *pair == (from, to))?;
            rows[column].partner(w, i)
        }
        (Left, Right, _) | (Top, Bottom, _) => i,
        (Left, Top, Kind::Subset) => i,
        (Left, Top, Kind::Wilton) => (w - i) % w,
        (Left, Top, Kind::Universal) => w - 1 - i,
        (Top, Right, Kind::Subset) => i,
        (Top, Right, Kind::Wilton) => (i + 1) % w,
        (Top, Right, Kind::Universal) => i,
        (Right, Bottom, Kind::Subset) => i,
        (Right, Bottom, Kind::Wilton) => (2 * w - 2 - i) % w,
        (Right, Bottom, Kind::Universal) => w - 1 - i,
        (Bottom, Left, Kind::Subset) => i,
        (Bottom, Left, Kind::Wilton) => (i + 1) % w,
        (Bottom, Left, Kind::Universal) => i,
        _ => return None,
    };
    Some(partner)
}

/// Whether two tracks below `w`, on two different sides, are partners by the table,
/// which holds for inner boxes.
pub fn are_partners(kind: Kind, w: u32, (a, i): (Side, u32), (b, j): (Side, u32)) -> bool {
    match printed(kind, w, a, b, i) {
        Some(partner) => partner == j,
        None => printed(kind, w, b, a, j) == Some(i),
    }
}

/// The one track on side `to` that is the partner of track `i` on side `from` by
/// the table, which holds for inner boxes.
pub fn partner(kind: Kind, w: u32, from: Side, i: u32, to: Side) -> u32 {
    let fits = |j: &u32| are_partners(kind, w, (from, i), (to, *j));
    (0..w).find(fits).expect("every track has a partner")
}

/// "A box with fewer than four channels joins equal track numbers, for every kind
/// including 3": whether a box with this many channels around it does.
pub fn runs_straight(around: usize) -> bool {
    around < 4
}

/// Whether two tracks are partners in a box with `around` channels.
pub fn are_partners_in(around: usize, kind: Kind, w: u32, a: (Side, u32), b: (Side, u32)) -> bool {
    if runs_straight(around) {
        a.1 == b.1
    } else {
        are_partners(kind, w, a, b)
    }
}

/// The partner of track `i` in a box with `around` channels.
pub fn partner_in(around: usize, kind: Kind, w: u32, from: Side, i: u32, to: Side) -> u32 {
    if runs_straight(around) {
        i
    } else {
        partner(kind, w, from, i, to)
    }
}

#[cfg(test)]
mod tests {
    use super::*;

    const SIDES: [Side; 4] = [Left, Right, Top, Bottom];
    const KINDS: [Kind; 3] = [Kind::Subset, Kind::Wilton, Kind::Universal];

    #[test]
    fn partners_are_single_and_mutual() {
        for kind in KINDS {
            for w in 1..=32 {
                for a in SIDES {
                    for b in SIDES.into_iter().filter(|b| *b != a) {
                        for i in 0..w {
                            let others = (0..w).filter(|j| are_partners(kind, w, (a, i), (b, *j)));
                            assert_eq!(others.count(), 1);
                            let j = partner(kind, w, a, i, b);
                            assert_eq!(partner(kind, w, b, j, a), i);
                        }
                    }
                }
            }
        }
    }

    #[test]
    fn wilton_turns_need_not_add_up() {
        let up = partner(Kind::Wilton, 3, Left, 0, Top);
        let on = partner(Kind::Wilton, 3, Top, up, Right);
        assert_ne!(on, partner(Kind::Wilton, 3, Left, 0, Right));
    }

    #[test]
    fn wilton_from_its_other_end() {
        assert_eq!(partner(Kind::Wilton, 3, Right, 0, Top), 2);
        assert_eq!(partner(Kind::Wilton, 3, Left, 0, Bottom), 2);
        assert_eq!(partner(Kind::Wilton, 3, Top, 1, Left), 2);
        assert_eq!(partner(Kind::Wilton, 3, Bottom, 1, Right), 0);
    }
    #[test]
    fn few_channels_run_straight() {
        for kind in KINDS {
            for a in SIDES {
                for b in SIDES.into_iter().filter(|b| *b != a) {
                    for i in 0..5 {
                        for around in [2, 3] {
                            assert_eq!(partner_in(around, kind, 5, a, i, b), i);
                            let alone = |j| are_partners_in(around, kind, 5, (a, i), (b, j));
                            assert!((0..5).all(|j| alone(j) == (j == i)));
                        }
                        let told = partner(kind, 5, a, i, b);
                        assert_eq!(partner_in(4, kind, 5, a, i, b), told);
                        assert!(are_partners_in(4, kind, 5, (a, i), (b, told)));
                    }
                }
            }
        }
    }
}
