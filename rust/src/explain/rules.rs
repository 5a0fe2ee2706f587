//! The table's conditions as rules, a sentence for each number.

use crate::number;

/// The rule that a number says is broken; empty for a number that is no fault of a sheet, list or ticket.
pub fn rule(number: u32) -> &'static str {
    match number {
        number::LENGTH => "A sheet has 12 to 8728 bytes.",
        number::MARK => {
            "A sheet ends with its own length, two bytes with the low byte first, and its mark, the bytes 57 48 or 57 49 (hexadecimal)."
        }
        number::CHIP => {
            "A chip has 2 to 16 columns and 2 to 16 rows of boxes, its kind is 0, 1, 2 or 3, and its width W is 1 to 32."
        }
        number::CROWD => "A sheet has at most 64 nets.",
        number::DIRECTORY => {
            "The records stand back to back from byte 0 to the directory, at the offsets that the directory lists in order, each with \
             1 to 32 entries; the directory has two bytes for each net, and behind it stand only the 12 bytes of the trailer and, before \
             these, for kind 3 the 12 bytes of its rows."
        }
        number::PARAMETER => {
            "A sheet of kind 3 has, before its trailer, a sign byte of 0 (plus) or 1 (minus) and a shift, a signed byte from -32 to 31, for \
             each column of the box table: left-right, top-bottom, left-top, top-right, right-bottom, bottom-left."
        }
        number::CHANNEL => {
            "Every channel is one of the chip: a chip of A by B boxes has the channels from 0 to B*(A-1) + A*(B-1) - 1."
        }
        number::TWICE => "No channel stands twice in one net.",
        number::JOINT => {
            "The first entry's parent is 65535; every other parent is the place, from 0, of an earlier entry of its net whose channel \
             meets this one in a box."
        }
        number::NAME => "No two nets have the same number.",
        number::LIST => {
            "A list of dead wires has 3 bytes for each of its items: a channel of the chip, two bytes with the low byte first, and a track from \
             0 to 31, whatever the width W is."
        }
        number::REPEAT => "No wire stands twice in a list of dead wires, not even one at or above the width W.",
        number::SIZE => "A ticket has one byte for each entry of the sheet.",
        number::TRACK => {
            "Every byte of a ticket is below the width W; only in a ticket for Refit or Remove may a net be unplaced, with 255 in all its bytes."
        }
        number::SWITCH => {
            "The tracks of a joint's two channels are partners in the box where the channels meet: equal tracks in a box with fewer than \
             four channels, on the rim of the chip, and those of the kind in any other."
        }
        number::BROKEN => "No net is on a dead wire; in a ticket for Refit, no net that is placed.",
        number::CLASH => "No wire, that is, no track of a channel, is held by two nets.",
        _ => "",
    }
}

#[cfg(test)]
mod tests {
    use super::*;
    use crate::chip::{Chip, Row, COLUMNS};
    use crate::layout::{Mark, MAX_NET_ENTRIES, PARAMETERS, TRAILER};
    use crate::{DEAD_ITEM, KINDS, MAX_NETS, MAX_SHEET, MAX_WIDTH, NO_PARENT, UNPLACED};
    use alloc::format;
    use alloc::string::ToString;

    #[test]
    fn limits_are_the_constants() {
        let shifts = format!("{} to {}", Row::SHIFTS.start(), Row::SHIFTS.end());
        let columns = COLUMNS.map(|column| column.to_string()).join(", ");
        let sizes = format!("{} to {}", Chip::SIZES.start(), Chip::SIZES.end());
        for (number, said) in [
            (number::LENGTH, format!(" {TRAILER} to {MAX_SHEET} bytes")),
            (number::MARK, format!(" {} ", Mark::both())),
            (number::CHIP, format!(" {sizes} columns and {sizes} rows")),
            (number::CHIP, format!(" or {}, and", KINDS.len() - 1)),
            (number::CHIP, format!(" 1 to {MAX_WIDTH}.")),
            (number::CROWD, format!(" at most {MAX_NETS} nets")),
            (
                number::DIRECTORY,
                format!(" 1 to {MAX_NET_ENTRIES} entries"),
            ),
            (
                number::DIRECTORY,
                format!(" the {TRAILER} bytes of the trailer"),
            ),
            (
                number::DIRECTORY,
                format!(" the {PARAMETERS} bytes of its rows"),
            ),
            (number::PARAMETER, format!(" from {shifts}, for")),
            (number::PARAMETER, format!(": {columns}.")),
            (number::JOINT, format!(" {NO_PARENT};")),
            (number::LIST, format!(" {DEAD_ITEM} bytes for each")),
            (number::LIST, format!(" 0 to {}, whatever", MAX_WIDTH - 1)),
            (number::TRACK, format!(" {UNPLACED} in all")),
        ] {
            assert!(rule(number).contains(&said), "{}", rule(number));
        }
    }
}
