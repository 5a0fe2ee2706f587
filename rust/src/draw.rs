//! The picture of a sheet and its ticket, as SVG.
//!
//! Boxes stand at (column, row), row 0 at the bottom. In every channel track 0 is the lowest or the leftmost. A net is drawn in one
//! colour: a wire along its track from box to box, and each joint inside the box where its channels meet, from the end of the one wire
//! to the end of the other. An unplaced net is dashed and runs in a lane beside the tracks, the same lane in all its channels. A dead wire
//! has a stripe under its track and a cross at each of its ends, over the nets.
//! Wires, joints, lanes, stripes, crosses and texts carry `data-` attributes that name their net, channel and track.

mod colours;
mod dead;
mod frame;
mod label;
mod layout;
mod legend;
mod nets;
mod page;
mod wiring;
mod words;

use crate::sheet::Sheet;
use alloc::string::String;
use layout::Layout;
use legend::Legend;
use page::Page;
use wiring::Wiring;

/// The picture. `dead` is a list of dead wires, in bytes; those below the width are drawn. Without a ticket every net is unplaced. `None` if
/// the ticket has not one byte for each entry, or if a net is neither unplaced nor on tracks below the width; for a list that the library
/// refuses; and for a sheet that cannot be drawn: a chip or a width out of range, a channel that the chip does not have or a net has twice,
/// or a joint of channels that do not meet. The ticket need not be right: two nets that hold one wire are drawn on it one over the other, a
/// net on a dead wire is drawn there, and the title has the number and the word.
pub fn svg(sheet: &Sheet, dead: &[u8], ticket: Option<&[u8]>) -> Option<String> {
    let wiring = Wiring::new(sheet, dead, ticket)?;
    let layout = Layout::new(sheet, wiring.lanes);
    let legend = Legend::new(&layout, &wiring);
    let title = words::title(sheet, dead, ticket);
    let width = words::right(&layout, &title).max(legend.right());
    let mut page = Page::new(width, words::bottom(&layout), &title);
    frame::draw(&mut page, &layout, &wiring);
    words::draw(&mut page, &layout, &title);
    for net in &wiring.nets {
        nets::draw(&mut page, &layout, net);
    }
    dead::crosses(&mut page, &layout, &wiring.dead);
    for net in &wiring.nets {
        label::draw(&mut page, &layout, net);
    }
    legend.draw(&mut page, &wiring);
    Some(page.finish())
}
