//! Brute force for 02 M-105: a list of dead wires is read item by item as it
//! stands, each time that a wire is asked for.

use crate::sheet::{Net, Sheet};

/// Whether an item of an accepted list names this wire.
pub fn broken(dead: &[u8], channel: u32, track: u8) -> bool {
    let [low, high, ..] = channel.to_le_bytes();
    dead.chunks(3).any(|item| item == [low, high, track])
}

/// Whether every wire of a net with these tracks is whole.
pub fn whole(dead: &[u8], net: &Net, tracks: &[u8]) -> bool {
    let places = 0..net.channels.len();
    let bad = places.filter(|&place| broken(dead, net.channels[place], tracks[place]));
    bad.count() == 0
}

/// Whether some channel carries more nets than it has whole tracks. Only tracks
/// below the width are asked for, so that other items are ignored.
pub fn overloaded(sheet: &Sheet, dead: &[u8], width: u32) -> bool {
    let carried = |channel: u32| {
        let nets = sheet.nets.iter();
        nets.filter(|net| net.channels.contains(&channel)).count()
    };
    let whole = |channel: u32| {
        let tracks = 0..width as u8;
        tracks.filter(|&t| !broken(dead, channel, t)).count()
    };
    let mut channels = 0..sheet.chip.channel_count();
    channels.any(|channel| carried(channel) > whole(channel))
}
