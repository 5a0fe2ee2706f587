//! Reads a picture back, without a renderer, and compares it with its sheet, its dead wires and its ticket.

/// Ends the check with a sentence unless the condition holds.
macro_rules! ensure {
    ($condition:expr, $($words:tt)*) => {
        if !$condition {
            return Err(format!($($words)*));
        }
    };
}

mod channels;
mod colours;
mod dead;
mod frame;
mod grid;
mod joints;
mod labels;
mod legend;
mod nets;
mod picture;
mod shape;
pub mod sheets;
mod spoiled;
mod xml;

pub use picture::Picture;
pub use shape::Shape;

use trackrouter::sheet::Sheet;

/// The picture, if it is that of the sheet, the list of dead wires and the ticket; else the first thing that is wrong.
pub fn check(
    sheet: &Sheet,
    dead: &[u8],
    ticket: Option<&[u8]>,
    svg: &str,
) -> Result<Picture, String> {
    let picture = Picture::read(svg)?;
    let frame = frame::check(&picture, sheet, dead, ticket)?;
    dead::check(&picture, &frame, sheet, dead)?;
    let nets = nets::expected(sheet, ticket);
    let lines = nets::check(&picture, &frame, &nets)?;
    joints::check(&picture, &frame, &nets, &lines)?;
    legend::check(&picture, &nets)?;
    labels::check(&picture, &frame, &lines)?;
    Ok(picture)
}
