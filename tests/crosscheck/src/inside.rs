//! Designs placed at inner boxes, where the box table and the rows hold (02 M-104).

use model::chip::{Chip, Side};
use sheets::{Design, Grid};

/// The design on a chip with one box more on each side, so that none of its joints
/// is on the rim. Channels keep their order: the nets keep their homes, and a
/// search makes the trials that it would make if the table held in all boxes.
pub fn inside(mut design: Design) -> Design {
    let (columns, rows) = (design.grid.columns, design.grid.rows);
    let chip = Chip {
        columns: columns.into(),
        rows: rows.into(),
    };
    let grid = Grid::new(columns + 2, rows + 2);
    let shifted = |channel: &mut u16| {
        let [end, _] = chip.ends((*channel).into());
        let (c, r) = (end.place.0 as u8 + 1, end.place.1 as u8 + 1);
        *channel = match end.side {
            Side::Right => grid.right_of(c, r),
            _ => grid.top_of(c, r),
        };
    };
    for net in &mut design.nets {
        net.channels.iter_mut().for_each(shifted);
        let joints = net.joints.iter_mut();
        joints.for_each(|(a, b)| [a, b].into_iter().for_each(shifted));
    }
    design.grid = grid;
    design
}

#[cfg(test)]
mod tests {
    use super::inside;
    use model::sheet::parse;
    use sheets::paper::t_design;
    use sheets::{random, Design, Rng};

    /// T's channels 0, 1 and 5 on a 5 by 4 chip: 4 channels run along row 0, and 16
    /// along all rows.
    #[test]
    fn t_by_hand() {
        let moved = inside(t_design(1, 2));
        let channels: Vec<&[u16]> = moved.nets.iter().map(|net| &net.channels[..]).collect();
        assert_eq!(channels, [[5, 6], [6, 23], [5, 23]]);
        assert_eq!(moved.nets[1].joints, [(6, 23)]);
    }

    #[test]
    fn all_boxes_are_inner() {
        let mut rng = Rng::new(7);
        let small = |rng: &mut Rng| random::small(rng);
        let designs: Vec<Design> = (0..200).map(|_| small(&mut rng)).collect();
        for design in designs {
            let before = parse(&design.list().bytes()).expect("a good sheet");
            let after = parse(&inside(design).list().bytes()).expect("a good sheet");
            for (net, moved) in before.nets.iter().zip(&after.nets) {
                assert_eq!(net.home(), moved.home());
                let order = |channels: &[u32]| {
                    let mut places: Vec<usize> = (0..channels.len()).collect();
                    places.sort_by_key(|&place| channels[place]);
                    places
                };
                assert_eq!(order(&net.channels), order(&moved.channels));
                for (joint, moved) in net.joints.iter().zip(&moved.joints) {
                    assert_eq!((joint.places, joint.sides), (moved.places, moved.sides));
                    assert_eq!(moved.around, 4);
                }
            }
        }
    }
}
