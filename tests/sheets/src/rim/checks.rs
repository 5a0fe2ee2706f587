//! One net of two channels in each box that is asked about, through Check.

use super::asks;
use super::chips::{chips, Drawn, Side};
use super::partners::inner;
use crate::case::{Case, Told};
use crate::design::Net;

/// Two sides of a box, in this order, at a kind and a width.
struct Asked<'a> {
    chip: &'a Drawn,
    place: (u8, u8),
    sides: (Side, Side),
    kind: u8,
    width: u8,
}

/// Every ordered pair of sides of each box, of every kind, at widths 3 and 5, with
/// every pair of tracks: in a box of four channels the table or the rows hold, in
/// all others partners are equal.
pub fn checks() -> Vec<Case> {
    asked(&chips()).iter().flat_map(Asked::cases).collect()
}

fn asked(chips: &[Drawn]) -> Vec<Asked<'_>> {
    let mut all = Vec::new();
    for chip in chips {
        for &place in chip.places {
            for sides in chip.pairs(place) {
                for (kind, width) in (0..4).flat_map(|kind| [(kind, 3), (kind, 5)]) {
                    all.push(Asked {
                        chip,
                        place,
                        sides,
                        kind,
                        width,
                    });
                }
            }
        }
    }
    all
}

impl Asked<'_> {
    /// Every pair of tracks of the two channels.
    fn cases(&self) -> Vec<Case> {
        let &Asked {
            chip,
            place,
            sides: (a, b),
            kind,
            width,
        } = self;
        let channels = [chip.channel(place, a), chip.channel(place, b)];
        let sheet = asks::sheet(chip.grid, kind, width, &[Net::chain(1, &channels)]);
        let (columns, rows) = (chip.grid.columns, chip.grid.rows);
        let name =
            format!("{columns} by {rows}, kind {kind}, W {width}, {a:?} to {b:?} of {place:?}");
        let mut all = Vec::new();
        for i in 0..width {
            for j in 0..width {
                let right = if chip.is_inner(place) {
                    inner(kind, width, (a, i), (b, j))
                } else {
                    i == j
                };
                let told = Told::Number(if right { 0 } else { 12 });
                let name = format!("{name}, {i} {j}");
                all.push(Case::new(name, sheet.clone(), asks::check(&[i, j]), told));
            }
        }
        all
    }
}

#[cfg(test)]
mod tests {
    use super::{asked, checks, chips};

    /// The boxes that look different on each chip that must be asked about.
    const SHAPES: [((u8, u8), &str); 4] = [
        ((2, 2), "┌┐└┘"),
        ((2, 16), "┌┐├┤└┘"),
        ((3, 3), "┌┬┐├┼┤└┴┘"),
        ((16, 16), "┌┬┐├┼┤└┴┘"),
    ];

    /// On each of these chips, each box that looks different is asked about with
    /// every ordered pair of its sides, of every kind.
    #[test]
    fn every_pair_of_every_shape() {
        let chips = chips();
        let asked = asked(&chips);
        for (size, shapes) in SHAPES {
            let chip = chips
                .iter()
                .find(|chip| (chip.grid.columns, chip.grid.rows) == size)
                .expect("a drawing of the chip");
            for shape in shapes.chars() {
                let &place = chip
                    .places
                    .iter()
                    .find(|place| chip.shape(**place) == shape)
                    .expect("a box of this shape");
                let count = chip.sides(place).len();
                assert_eq!(chip.pairs(place).len(), count * (count - 1));
                for sides in chip.pairs(place) {
                    for kind in 0..4 {
                        assert!(asked.iter().any(|asked| {
                            (asked.chip.grid.columns, asked.chip.grid.rows) == size
                                && (asked.place, asked.sides, asked.kind) == (place, sides, kind)
                        }));
                    }
                }
            }
        }
    }

    /// Every pair of tracks is asked: 9 at width 3 and 25 at width 5.
    #[test]
    fn every_pair_of_tracks() {
        let chips = chips();
        let tracks = |width: u8| usize::from(width) * usize::from(width);
        let count: usize = asked(&chips).iter().map(|one| tracks(one.width)).sum();
        assert_eq!(checks().len(), count);
    }
}
