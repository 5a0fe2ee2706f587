//! Checks the bands of the channels, and the tracks in them.

use super::frame::Frame;
use super::picture::Picture;
use super::shape::Shape;

/// The band of a channel, and that of its lanes, lies between its two boxes.
pub fn bands(picture: &Picture, frame: &Frame) -> Result<(), String> {
    let bands = picture.of_class("band").count();
    ensure!(bands == frame.channels.len(), "{bands} bands");
    for (place, shape) in picture.of_classes(&["band", "lanes"]).enumerate() {
        let number = shape.number("data-channel")?;
        ensure!(
            place >= bands || number == place as i64,
            "the band of channel {number}"
        );
        let channel = frame
            .channels
            .get(number as usize)
            .ok_or("no such channel")?;
        let [one, other] = channel.boxes.map(|place| frame.boxes[&place]);
        let area = shape.rect()?;
        let between = if channel.level {
            area.left == one.right
                && area.right == other.left
                && one.top <= area.top
                && area.bottom <= one.bottom
        } else {
            area.bottom == one.top
                && area.top == other.bottom
                && one.left <= area.left
                && area.right <= one.right
        };
        ensure!(
            between,
            "the band of channel {number} is not between its boxes"
        );
    }
    Ok(())
}

/// The tracks of a channel: as many as the width, in even steps from the lowest or leftmost, the same in all channels.
pub fn tracks(picture: &Picture, frame: &mut Frame, width: i64) -> Result<(), String> {
    let guides: Vec<&Shape> = picture.of_class("guide").collect();
    ensure!(
        guides.len() == frame.channels.len(),
        "{} guides",
        guides.len()
    );
    let mut offsets: Option<Vec<i64>> = None;
    for (number, guide) in guides.into_iter().enumerate() {
        ensure!(
            guide.number("data-channel")? == number as i64,
            "the guides of channel {number}"
        );
        let channel = &frame.channels[number];
        let [one, other] = channel.boxes.map(|place| frame.boxes[&place]);
        let mut tracks = Vec::new();
        let mut here = Vec::new();
        for stroke in guide.strokes()? {
            let [from, to] = stroke[..] else {
                return Err("a curved guide".into());
            };
            let (right, offset) = if channel.level {
                (
                    from.y == to.y && from.x == one.right && to.x == other.left,
                    one.bottom - from.y,
                )
            } else {
                (
                    from.x == to.x && from.y == one.top && to.y == other.bottom,
                    from.x - one.left,
                )
            };
            ensure!(
                right,
                "a guide of channel {number} does not end on its boxes"
            );
            tracks.push([from, to]);
            here.push(offset);
        }
        let known = offsets.get_or_insert_with(|| here.clone());
        ensure!(*known == here, "channel {number} has other tracks");
        frame.channels[number].tracks = tracks;
    }
    let offsets = offsets.unwrap_or_default();
    ensure!(offsets.len() as i64 == width, "{} tracks", offsets.len());
    let steps: Vec<i64> = offsets.windows(2).map(|pair| pair[1] - pair[0]).collect();
    let even = steps.iter().all(|&step| step == steps[0] && step >= 3);
    ensure!(
        even && offsets[0] > 0,
        "the tracks are not in even steps of 3 or more: {offsets:?}"
    );
    Ok(())
}
