//! Sheets of kind 3, boxes by parameters, with what the program prints for them:
//! by hand, or what it prints for the published kind whose rows they have.

use sheets::{extremes, paper, Design, Net, Rng};

/// A sign byte and a shift byte for each column of the box table.
type Rows = [u8; 12];

/// The paper's cells as sign and shift: (W-i) mod W is 0-i, (2W-2-i) mod W is
/// -2-i, W-1-i is -1-i.
const PUBLISHED: [Rows; 3] = [
    [0; 12],
    [0, 0, 0, 0, 1, 0, 0, 1, 1, 0xFE, 0, 1],
    [0, 0, 0, 0, 1, 0xFF, 0, 0, 1, 0xFF, 0, 0],
];

/// The sheet of another kind with these rows before its trailer.
fn with(sheet: &[u8], rows: Rows) -> Vec<u8> {
    let (before, trailer) = sheet.split_at(sheet.len() - 12);
    let mut sheet = [before, &rows, trailer].concat();
    let end = sheet.len();
    sheet[end - 10] = 3;
    sheet[end - 4..end - 2].copy_from_slice(&(end as u16).to_le_bytes());
    sheet
}

/// 64 nets of 32 channels: half of them run up and down two columns and turn on the
/// rim, half turn in inner boxes, elsewhere. At width 32 each half takes the tracks
/// in turn: 2·(1 + … + 32) trials.
pub fn two_halves() -> Design {
    let mut design = extremes::alike(32, 32, 2, 32);
    let inner = extremes::winding(32, 32, 2, 32).nets.into_iter();
    design.nets.extend(inner.map(|net| Net {
        number: net.number + 32,
        ..net
    }));
    design
}

/// Names, sheets and what is printed.
pub fn inputs() -> Vec<(String, Vec<u8>, String)> {
    let mut list = Vec::new();
    let mut put = |name: &str, sheet: Vec<u8>, lines: &str| {
        list.push((name.to_string(), sheet, lines.to_string()));
    };
    // 1+i, 3-i, 2-i, -1+i, -32-i, 31+i. At W 2, from left to right and from right to
    // top the track changes, from left to top it stays: 10 trials as for T. At W 3
    // tracks 0, 1, 2 go to 1, 2, 0 from left to right and from right to top, and to
    // 2, 1, 0 from left to top: nets 1 and 2 fit on 0 at once, net 3 on 2 at last.
    // That is T in an inner box; on its own chip no box uses the rows.
    let bent = [0, 1, 1, 3, 1, 2, 0, 0xFF, 1, 0xE0, 0, 31];
    let lines = "answer 0 width 3 trials 15\n1 3.0 4.1\n2 4.0 17.1\n3 3.2 17.0\n";
    let inside = paper::t_inside_raw(0, 2).bytes();
    put("T inside by rows", with(&inside, bent), lines);
    put("T by rows", with(&paper::T, bent), paper::T_LINES);
    let mut bad = bent;
    bad[1] = 32;
    let refused = |number| format!("answer {number} width 0 trials 0\n");
    put("a shift of 32", with(&paper::T, bad), &refused(18));
    bad = bent;
    bad[10] = 2;
    put("a sign of 2", with(&paper::T, bad), &refused(18));
    let mut without = paper::T;
    without[44] = 3;
    put("no rows", without.to_vec(), &refused(5));

    // The longest sheets of the first mark; a byte more has its own number, as the limit
    // of 1 is that of the second mark, though what stands before it is a sheet.
    for (name, longest, first) in [
        (
            "overloaded",
            extremes::alike(64, 32, 2, 32),
            "answer 15 width 0 trials 0",
        ),
        ("routed", two_halves(), "answer 0 width 32 trials 1056"),
    ] {
        let longest = longest.list().bytes();
        let lines = model::lines::least_lines(&longest);
        assert_eq!(lines.lines().next(), Some(first));
        let by_rows = with(&longest, PUBLISHED[2]);
        assert_eq!(by_rows.len(), 8600);
        let longer = [&by_rows[..], &[0]].concat();
        put("8601 bytes", longer, &refused(2));
        let longer = [&[0], &by_rows[..]].concat();
        put("8601 bytes that end as a sheet", longer, &refused(2));
        put(&format!("8600 bytes, {name}"), by_rows, &lines);
    }

    let mut rng = Rng::new(102);
    for round in 0..30 {
        let kind = round % 3;
        let design = sheets::random::any(&mut rng).with_kind(kind as u8);
        let sheet = design.list().bytes();
        let lines = model::lines::least_lines(&sheet);
        let name = format!("chance {round} by the rows of kind {kind}");
        put(&name, with(&sheet, PUBLISHED[kind]), &lines);
    }
    list
}
