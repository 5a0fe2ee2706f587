//! A net's tracks from its home track.

use crate::sheet::{Net, Sheet};
use crate::switch::partner_in;

/// All ways to lay one net at a width: for each home track, every entry's track.
pub type Lays = Vec<Vec<u8>>;

pub fn lays(sheet: &Sheet, width: u32, net: &Net) -> Lays {
    (0..width)
        .map(|home| lay(sheet, width, net, home))
        .collect()
}

/// The tracks that the home track fixes, spread over the joints.
fn lay(sheet: &Sheet, width: u32, net: &Net, home: u32) -> Vec<u8> {
    let mut tracks: Vec<Option<u32>> = vec![None; net.channels.len()];
    tracks[net.home()] = Some(home);
    while tracks.contains(&None) {
        for joint in &net.joints {
            let (a, b) = joint.places;
            let (side_a, side_b) = joint.sides;
            let other = |from, i, to| partner_in(joint.around, sheet.kind, width, from, i, to);
            match (tracks[a], tracks[b]) {
                (Some(i), None) => tracks[b] = Some(other(side_a, i, side_b)),
                (None, Some(i)) => tracks[a] = Some(other(side_b, i, side_a)),
                _ => {}
            }
        }
    }
    tracks.into_iter().flatten().map(|t| t as u8).collect()
}

/// The ticket in which each net, by its place in the sheet, has this home track.
pub fn ticket(sheet: &Sheet, width: u32, homes: &[u32]) -> Vec<u8> {
    let nets = sheet.nets.iter().zip(homes);
    nets.flat_map(|(net, &home)| lay(sheet, width, net, home))
        .collect()
}
