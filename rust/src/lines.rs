//! Tickets as lines: net number, then channel.track for each entry.
//!
//! ```
//! use trackrouter::lines::{parse, write, Missing};
//!
//! let sheet = trackrouter::text::parse("chip 3 by 2\nkind 0\nwidth 2\nnet 7: 0 1-0\nnet 8: 1").unwrap();
//! let ticket = parse(&sheet, "7 1.1 0.1", Missing::Unplaced).unwrap();
//! assert_eq!(ticket, [1, 1, 255]);
//! assert_eq!(write(&sheet, &ticket).unwrap(), "7 0.1 1.1\n8 unplaced\n");
//! ```

use crate::chip::Wire;
use crate::sheet::{Net, Sheet};
use crate::text::words::{at, lines, number, wire, Words};
use crate::text::TextError;
use crate::{word, UNPLACED};
use alloc::collections::{BTreeMap, BTreeSet};
use alloc::format;
use alloc::string::{String, ToString};
use alloc::vec;
use alloc::vec::Vec;
use core::ops::Range;

/// What a net without a line means.
#[derive(Clone, Copy, Debug, PartialEq, Eq)]
pub enum Missing {
    /// The net is unplaced, as in a ticket for Refit or Remove.
    Unplaced,
    /// The text is wrong.
    Wrong,
}

/// A line for each net in the sheet's order, as the least-width program prints them; `NUMBER unplaced` for a net whose bytes are all
/// 255. `None` if the ticket has not one byte for each entry.
pub fn write(sheet: &Sheet, ticket: &[u8]) -> Option<String> {
    written(sheet, ticket, |_| true)
}

/// As `write`, but a net that is unplaced has no line: `Missing::Unplaced` reads the same ticket, on this sheet and on one without such
/// nets.
pub fn write_placed(sheet: &Sheet, ticket: &[u8]) -> Option<String> {
    written(sheet, ticket, |tracks| !unplaced(tracks))
}

/// The lines of the nets whose tracks pass.
fn written(sheet: &Sheet, ticket: &[u8], passes: fn(&[u8]) -> bool) -> Option<String> {
    let fits = ticket.len() == sheet.entry_count();
    fits.then(|| {
        let nets = sheet.parts().map(|(net, part)| (net, &ticket[part]));
        let shown = nets.filter(|(_, tracks)| passes(tracks));
        shown.map(|(net, tracks)| line(net, tracks)).collect()
    })
}

fn unplaced(tracks: &[u8]) -> bool {
    tracks.iter().all(|&track| track == UNPLACED)
}

fn line(net: &Net, tracks: &[u8]) -> String {
    let mut line = net.number().to_string();
    if unplaced(tracks) {
        line += " unplaced";
    } else {
        for (channel, &track) in net.channels().zip(tracks) {
            line += &format!(" {}", Wire { channel, track });
        }
    }
    line + "\n"
}

/// The ticket that the lines say, matched by net number and channel, in any order. The sheet's nets have different numbers, as the
/// library demands.
pub fn parse(sheet: &Sheet, text: &str, missing: Missing) -> Result<Vec<u8>, TextError> {
    let mut ticket = vec![UNPLACED; sheet.entry_count()];
    let mut open = by_number(sheet).map_err(at(0))?;
    let mut first = true;
    for (line, word, mut words) in lines(text) {
        if word == "answer" && first {
            answer(&mut words).map_err(at(line))?;
        } else {
            let (net, part) = net_of(sheet, &mut open, word).map_err(at(line))?;
            let named = |reason| at(line)(format!("net {}: {reason}", net.number()));
            let tracks = tracks(net, words).map_err(named)?;
            ticket[part].copy_from_slice(&tracks);
        }
        first = false;
    }
    match open.first_key_value() {
        Some((number, _)) if missing == Missing::Wrong => {
            Err(at(0)(format!("net {number} has no line")))
        }
        _ => Ok(ticket),
    }
}

/// The number of a net's line in a ticket's text, from 1.
pub fn line_of(text: &str, net: u32) -> Option<usize> {
    let of_net = |word: &str| number("net number", word, u32::MAX) == Ok(net);
    let mut found = lines(text).filter(|(_, word, _)| of_net(word));
    found.next().map(|(line, _, _)| line)
}

/// The nets that have no line yet, by number, with the places of their bytes in the ticket.
type Open<'a> = BTreeMap<u32, (&'a Net, Range<usize>)>;

fn by_number(sheet: &Sheet) -> Result<Open<'_>, String> {
    let mut open = Open::new();
    for (net, part) in sheet.parts() {
        if open.insert(net.number(), (net, part)).is_some() {
            return Err(format!(
                "two nets of the sheet have the number {}",
                net.number()
            ));
        }
    }
    Ok(open)
}

/// The net of this number, which has a line from now on.
fn net_of<'a>(
    sheet: &Sheet,
    open: &mut Open<'a>,
    word: &str,
) -> Result<(&'a Net, Range<usize>), String> {
    let number = number("net number", word, u32::MAX)?;
    let known = || sheet.nets().iter().any(|net| net.number() == number);
    open.remove(&number).ok_or_else(|| match known() {
        true => format!("net {number} stands twice"),
        false => format!("the sheet has no net {number}"),
    })
}

/// An answer before the lines has the number 0, else there is no ticket. Its other words are not looked at.
fn answer(words: &mut Words) -> Result<(), String> {
    match words.number("answer", u32::MAX)? {
        0 => Ok(()),
        number => match word(number) {
            "" => Err(format!("answer {number} has no ticket")),
            word => Err(format!("answer {number} ({word}) has no ticket")),
        },
    }
}

/// The tracks of a net, in the order of its entries.
fn tracks(net: &Net, words: Words) -> Result<Vec<u8>, String> {
    let mut ahead = Words::of(words.rest);
    if ahead.next() == Some("unplaced") {
        ahead.end()?;
        return Ok(vec![UNPLACED; net.entries().len()]);
    }
    let said = said(net, words)?;
    let track = |channel: u16| said.get(&channel).copied();
    net.channels()
        .map(|channel| track(channel).ok_or_else(|| format!("channel {channel} is missing")))
        .collect()
}

/// The track that the words say for each channel.
fn said(net: &Net, words: Words) -> Result<BTreeMap<u16, u8>, String> {
    let channels: BTreeSet<u16> = net.channels().collect();
    let mut said = BTreeMap::new();
    for word in words {
        let Wire { channel, track } = wire(word)?;
        if !channels.contains(&channel) {
            return Err(format!("the net has no channel {channel}"));
        }
        if said.insert(channel, track).is_some() {
            return Err(format!("channel {channel} stands twice"));
        }
    }
    Ok(said)
}
