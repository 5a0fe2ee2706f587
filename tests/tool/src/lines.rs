//! A ticket in lines, from its bytes.

use model::sheet::{parse, Net, Sheet};
use model::ticket::{bytes_of, is_unplaced};
use std::fmt::Write;

/// The accepted sheet of these bytes.
pub fn sheet(bytes: &[u8]) -> Option<Sheet> {
    parse(bytes).ok()
}

/// The line of each net, in the sheet's order; `None` if the sheet is refused or
/// the ticket has another size.
pub fn of(bytes: &[u8], ticket: &[u8]) -> Option<Vec<String>> {
    let sheet = sheet(bytes)?;
    let fits = ticket.len() == sheet.entry_count();
    fits.then(|| sheet.nets.iter().map(|net| line(net, ticket)).collect())
}

fn line(net: &Net, ticket: &[u8]) -> String {
    let mut line = net.number.to_string();
    if is_unplaced(net, ticket) {
        line.push_str(" unplaced");
    } else {
        for (channel, track) in net.channels.iter().zip(bytes_of(net, ticket)) {
            write!(line, " {channel}.{track}").expect("text takes text");
        }
    }
    line.push('\n');
    line
}
