//! The line of a net.

use super::words::{is_number, number, quoted, Words};
use crate::sheet::{Entry, Mark, Net, TooLarge};
use alloc::collections::BTreeMap;
use alloc::format;
use alloc::string::{String, ToString};
use alloc::vec::Vec;

/// The largest number of a field of two bytes. A record's entry count has two.
const TWO_BYTES: u32 = 65_535;

/// What a net line says: `NUMBER:`, for which the mark has room, and the entries. It takes all words.
pub fn net(words: &mut Words, mark: Mark) -> Result<Net, String> {
    let (head, tail) = match words.rest.split_once(':') {
        Some((head, tail)) => (head, Some(tail)),
        None => (words.rest, None),
    };
    *words = Words::of("");
    let mut head = Words::of(head);
    let number = head.number("net number", u32::MAX)?;
    if number > mark.largest_number() {
        return Err(TooLarge::Number(number).to_string());
    }
    let tail = tail.ok_or_else(|| format!("the colon after net {number} is missing"))?;
    head.end()?;
    let entries = entries(tail).map_err(|reason| format!("net {number}: {reason}"))?;
    Ok(Net::from_entries(number, entries).expect("every parent is an earlier entry"))
}

fn entries(text: &str) -> Result<Vec<Entry>, String> {
    let mut entries = Vec::new();
    // Each channel so far with the place of its first entry.
    let mut places = BTreeMap::new();
    for word in Words::of(text) {
        if entries.len() == TWO_BYTES as usize {
            return Err(format!("more than {TWO_BYTES} entries"));
        }
        let entry = entry(word, &places)?;
        places.entry(entry.channel).or_insert(entries.len() as u16);
        entries.push(entry);
    }
    Ok(entries)
}

/// An entry: `CHANNEL`, or `CHANNEL-PARENT` where an earlier entry has the channel PARENT.
fn entry(word: &str, places: &BTreeMap<u16, u16>) -> Result<Entry, String> {
    let (channel, parent) = match word.split_once('-') {
        Some((channel, parent)) => (channel, Some(parent)),
        None => (word, None),
    };
    if !is_number(channel) || !parent.is_none_or(is_number) {
        return Err(format!(
            "{} is neither CHANNEL nor CHANNEL-PARENT",
            quoted(word)
        ));
    }
    let number = |word| number("channel", word, TWO_BYTES).map(|number| number as u16);
    let channel = number(channel)?;
    let parent = match parent.map(number).transpose()? {
        Some(parent) => Some(*places.get(&parent).ok_or_else(|| {
            format!(
                "channel {channel} is joined to {parent}, which is no earlier channel of this net"
            )
        })?),
        None => None,
    };
    Ok(Entry { channel, parent })
}
