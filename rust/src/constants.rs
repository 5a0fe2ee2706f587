//! The header's constants and words.

/// What a library that fits this package answers to `version()`.
pub const VERSION: u32 = 8;

/// The longest sheet, one of kind 3 and of the mark 57 49, in bytes: an output of this length is enough for every standard form.
pub const MAX_SHEET: usize = 8_728;
/// The most nets of a sheet.
pub const MAX_NETS: usize = 64;
/// The most entries of a sheet, over all its nets: an output of this length is enough for every ticket.
pub const MAX_ENTRIES: usize = 2_048;
/// The largest width.
pub const MAX_WIDTH: u8 = 32;
/// The bytes of an item in a list of dead wires.
pub const DEAD_ITEM: usize = 3;
/// The longest list of dead wires that is not refused, in bytes: all 32 tracks of 480 channels.
pub const MAX_DEAD: usize = 46_080;

/// In a ticket for Refit or Remove: every byte of a net that is unplaced.
pub const UNPLACED: u8 = 255;
/// The parent of a net's first entry.
pub const NO_PARENT: u16 = 65_535;

pub const KIND_SUBSET: u8 = 0;
pub const KIND_WILTON: u8 = 1;
pub const KIND_UNIVERSAL: u8 = 2;
/// The sheet has the rows of its inner boxes, 12 bytes between its directory and its trailer.
pub const KIND_ROWS: u8 = 3;

/// The word of each kind, in texts: `KINDS[kind]`.
pub const KINDS: [&str; 4] = ["subset", "wilton", "universal", "rows"];

/// The numbers, in the order of the table: of those that apply, the first in this order is given.
pub mod number {
    pub const OK: u32 = 0;
    pub const LENGTH: u32 = 1;
    pub const MARK: u32 = 2;
    pub const CHIP: u32 = 3;
    pub const CROWD: u32 = 4;
    pub const DIRECTORY: u32 = 5;
    pub const PARAMETER: u32 = 18;
    pub const CHANNEL: u32 = 6;
    pub const TWICE: u32 = 7;
    pub const JOINT: u32 = 8;
    pub const NAME: u32 = 9;
    pub const LIST: u32 = 19;
    pub const REPEAT: u32 = 20;
    pub const SIZE: u32 = 10;
    pub const TRACK: u32 = 11;
    pub const SWITCH: u32 = 12;
    pub const BROKEN: u32 = 21;
    pub const CLASH: u32 = 13;
    pub const STRANGER: u32 = 17;
    pub const SPACE: u32 = 14;
    pub const UNROUTABLE: u32 = 15;
    pub const SPENT: u32 = 16;
}

/// The word for each number from 1 on: `WORDS[number - 1]`. They rise by the number, which is not the order of the table.
pub const WORDS: [&str; 21] = [
    "length",
    "mark",
    "chip",
    "crowd",
    "directory",
    "channel",
    "twice",
    "joint",
    "name",
    "size",
    "track",
    "switch",
    "clash",
    "space",
    "unroutable",
    "spent",
    "stranger",
    "parameter",
    "list",
    "repeat",
    "broken",
];

/// The word for a number; empty for 0 and for a number that is not in the table.
pub fn word(number: u32) -> &'static str {
    let place = (number as usize).wrapping_sub(1);
    WORDS.get(place).copied().unwrap_or("")
}
