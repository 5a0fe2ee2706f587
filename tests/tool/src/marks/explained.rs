//! What explain says of a sheet of the second mark: record, entry and byte.

use super::BYTES;
use crate::explain::found;
use crate::failure::Failure;
use crate::run::{ask, Tool};

/// The bytes with one changed.
fn broken(at: usize, value: u8) -> Vec<u8> {
    let mut sheet = BYTES.to_vec();
    sheet[at] = value;
    sheet
}

pub fn run(tool: &Tool) -> Result<(), Failure> {
    let counts = "answer 0\nthe sheet is accepted: 3 nets, 6 entries\n";
    for name in ["long.sheet", "long.text"] {
        tool.right(&ask(&format!("explain {name}")), counts)?;
    }
    let entry = ["net 65536", "record 1", "entry 1", "byte 24"];
    let channel = [&entry[..], &["channel 7"]].concat();
    let twice = [&entry[..], &["channel 1"]].concat();
    let cases: [(usize, u8, u32, &[&str]); 12] = [
        (59, 0x4A, 2, &["byte 58", "57 4A", "57 48", "57 49"]),
        (58, 0x56, 2, &["byte 58"]),
        (56, 0x3D, 2, &["byte 56", "61", "60"]),
        (48, 17, 3, &["byte 48", "17"]),
        (51, 33, 3, &["byte 51", "33"]),
        (52, 65, 4, &["byte 52", "65"]),
        (44, 13, 5, &["record 1", "byte 44", "13", "14"]),
        (32, 33, 5, &["record 2", "byte 32", "33"]),
        // The count of a record of the first mark stands at byte 2.
        (59, 0x48, 5, &["record 0", "byte 2", "65535"]),
        (24, 7, 6, &channel),
        (24, 1, 7, &twice),
        (
            26,
            1,
            8,
            &["net 65536", "record 1", "entry 1", "byte 26", "parent 1"],
        ),
    ];
    for (at, value, number, pieces) in cases {
        let asked = ask("explain -").fed(broken(at, value));
        tool.expect(&asked, found(number, pieces))?;
    }
    let mut same = BYTES;
    same.copy_within(14..18, 28);
    let pieces = ["65536", "record 2", "byte 28", "record 1"];
    tool.expect(&ask("explain -").fed(same), found(9, &pieces))?;
    let clash = [
        "net 65536 (record 1), entry 1 (ticket byte 3)",
        "net 65535 (record 2), entry 1 (ticket byte 5)",
        "channel 5, track 1\n",
    ];
    for old in ["", "--old"] {
        let asked = ask(&format!("explain long.sheet - {old}")).fed([2, 2, 1, 1, 1, 1]);
        tool.expect(&asked, found(13, &clash))?;
    }
    Ok(())
}
