//! Boxes by parameters: sheets of kind 3, in both forms and through every verb.
//! Partners, tickets and places are by hand. What is on the rim: rim.rs.

pub mod bytes;

use crate::expected::{Expected, Text};
use crate::explain::found;
use crate::failure::Failure;
use crate::output::holds;
use crate::rim::inner_t;
use crate::run::{ask, told, Tool};
use crate::text;
use bytes::{published, with, words, Rows};
use sheets::paper::t_raw;
use sheets::{extremes, Rng};

/// A row for each column that no other column has: 1+i, 3-i, 2-i, -1+i, -32-i
/// and 31+i. A row is a sign byte and a shift byte.
pub const BENT: Rows = [0, 1, 1, 3, 1, 2, 0, 0xFF, 1, 0xE0, 0, 31];
pub const KIND: &str = "kind rows 1+i 3-i 2-i -1+i -32-i 31+i\n";

/// In the order of the bytes.
const COLUMNS: [&str; 6] = [
    "left-right",
    "top-bottom",
    "left-top",
    "top-right",
    "right-bottom",
    "bottom-left",
];

/// T in an inner box at W 3 with these rows: its records have 36 bytes, its
/// directory 6, so that the rows stand from byte 42 and the trailer from byte 54 on.
fn bent() -> Vec<u8> {
    with(&inner_t(0, 3), BENT)
}

fn typed() -> String {
    text::INNER
        .replace("kind subset\n", KIND)
        .replace("width 2", "width 3")
}

pub fn run(tool: &Tool) -> Result<(), Failure> {
    tool.put("rows.sheet", bent())?;
    tool.put("rows.text", typed())?;
    forms(tool)?;
    typing(tool)?;
    bad_typing(tool)?;
    each_row(tool)?;
    calls(tool)?;
    other_ends(tool)?;
    parameter(tool)?;
    beside(tool)?;
    explained(tool)?;
    drawn(tool)?;
    standard(tool)?;
    largest(tool)?;
    alike(tool)
}

/// The 12 bytes by hand, and both ways.
fn forms(tool: &Tool) -> Result<(), Failure> {
    let sheet = bent();
    let trailer = [4, 4, 3, 3, 3, 0, 36, 0, 66, 0, 0x57, 0x48];
    let said = words(BENT).expect("good rows");
    if sheet[42..] != [&BENT[..], &trailer].concat() || format!("kind {said}\n") != KIND {
        return Err(Failure::new("these are not the bytes of the rows"));
    }
    for name in ["rows.sheet", "rows.text", "--bytes rows.sheet"] {
        tool.right(&ask(&format!("pack {name}")), &sheet)?;
        tool.right(&ask(&format!("unpack {name}")), typed())?;
        tool.right(&ask(&format!("read {name}")), "answer 0 nets 3 entries 6\n")?;
        tool.right(&ask(&format!("record {name} 2")), "offset 24 length 12\n")?;
    }
    // No nets: the rows are the first bytes.
    let none = [&BENT[..], &[16, 2, 3, 32, 0, 0, 0, 0, 24, 0, 0x57, 0x48]].concat();
    let line = format!("chip 16 by 2\n{KIND}width 32\n");
    tool.right(&ask("pack -").fed(&line), &none)?;
    tool.right(&ask("unpack -").fed(&none), &line)?;
    tool.right(&ask("standard -").fed(&none), &line)?;
    tool.right(&ask("read -").fed(&none), "answer 0 nets 0 entries 0\n")
}

/// Other ways to type the same.
fn typing(tool: &Tool) -> Result<(), Failure> {
    for kind in [
        "kind 3 1+i 3-i 2-i -1+i -32-i 31+i",
        "kind\t003 01+i  03-i 2-i\t-001+i -032-i 31+i # supplier two\r",
        " kind rows 0000001+i 3-i 2-i -1+i -32-i 000031+i#",
    ] {
        let text = typed().replace(KIND.trim_end(), kind);
        tool.right(&ask("pack -").fed(&text), bent())?;
        tool.right(&ask("unpack -").fed(&text), typed())?;
    }
    let zeros = typed().replace(KIND, "kind rows -0+i 0-i -00-i 0+i 00+i 0-i\n");
    let shown = typed().replace(KIND, "kind rows 0+i 0-i 0-i 0+i 0+i 0-i\n");
    tool.right(&ask("unpack -").fed(zeros), shown)
}

/// What does not parse: the line, and what is wrong there.
fn bad_typing(tool: &Tool) -> Result<(), Failure> {
    let neither = "is neither SHIFT+i nor SHIFT-i\n";
    let cases = [
        ("kind rows", "the row of left-right is missing\n"),
        ("kind 3", "the row of left-right is missing\n"),
        (
            "kind rows 1+i 3-i 2-i -1+i -32-i",
            "the row of bottom-left is missing\n",
        ),
        (
            "kind rows 1+i 3-i 2-i -1+i -32-i 31+i 0+i",
            "\"0+i\" is one word too many\n",
        ),
        ("kind subset 1+i", "\"1+i\" is one word too many\n"),
        ("kind rows 1 3 2 -1 -32 31", neither),
        ("kind rows +1 -3 -2 +1 -32 +31", neither),
        ("kind rows 1+i 3-j 2-i -1+i -32-i 31+i", neither),
        ("kind rows 1+i 3-i 2 - i -1+i -32-i 31+i", neither),
        ("kind rows 1+i 3-i 2-i --1+i -32-i 31+i", neither),
        (
            "kind rows 1+i 3-i 2-i -1+i -33-i 31+i",
            "the shift -33 of right-bottom is not -32 to 31\n",
        ),
        (
            "kind rows 1+i 3-i 2-i -1+i -32-i 32+i",
            "the shift 32 of bottom-left is not -32 to 31\n",
        ),
        (
            "kind rows 1+i 3-i 99999999999999999999-i -1+i -32-i 31+i",
            "of left-top is not -32 to 31\n",
        ),
    ];
    for (kind, why) in cases {
        let text = typed().replace(KIND.trim_end(), kind);
        for line in ["read -", "pack -", "explain -", "standard -", "draw -"] {
            let asked = ask(line).fed(&text);
            tool.wrong(&asked, &["trackrouter: standard input: line 2: ", why])?;
        }
    }
    Ok(())
}

/// Both signs and the outermost shifts in each column, both ways.
fn each_row(tool: &Tool) -> Result<(), Failure> {
    let plain = inner_t(0, 3);
    for column in 0..6 {
        for shift in [-32, -31, -1, 1, 30, 31_i8] {
            for (byte, sign) in [(0, '+'), (1, '-')] {
                let mut rows = [0; 12];
                rows[2 * column] = byte;
                rows[2 * column + 1] = shift as u8;
                let mut said = ["0+i".to_string(), "0+i".into(), "0+i".into()].to_vec();
                said.extend(said.clone());
                said[column] = format!("{shift}{sign}i");
                let kind = format!("kind rows {}\n", said.join(" "));
                let text = typed().replace(KIND, &kind);
                let sheet = with(&plain, rows);
                tool.right(&ask("pack -").fed(&text), &sheet)?;
                tool.right(&ask("unpack -").fed(&sheet), &text)?;
            }
        }
    }
    Ok(())
}

/// By hand at W 3: left to right 0, 1, 2 go to 1, 2, 0; right to top to 1, 2, 0;
/// left to top to 2, 1, 0. Net 1 takes 3.0 and 4.1, net 2 takes 4.0 and 17.1; net 3
/// finds 3.0 and then 17.1 held and takes 3.2 and 17.0: 5 trials. At W 2 left to
/// right and right to top change the track and left to top does not: 10 trials, no
/// ticket.
fn calls(tool: &Tool) -> Result<(), Failure> {
    let ticket = "1 3.0 4.1\n2 4.0 17.1\n3 3.2 17.0\n";
    let bytes = [0, 1, 0, 1, 2, 0];
    let narrow = typed().replace("width 3", "width 2");
    for sheet in ["rows.sheet", "rows.text"] {
        let routed = format!("answer 0 width 3 trials 5\n{ticket}");
        let asked = ask(&format!("route {sheet} --budget 5 --out ticket"));
        tool.right(&asked, &routed)?;
        holds(tool, "ticket", &bytes)?;
        let spent = ask(&format!("route {sheet} --budget 4"));
        tool.refused(&spent, "answer 16 width 0 trials 4\n", 16)?;
        let least = format!("answer 0 width 3 trials 15\n{ticket}");
        tool.right(&ask(&format!("least {sheet} --budget 15")), &least)?;
        tool.right(&ask(&format!("check {sheet} ticket")), "answer 0\n")?;
        tool.right(&ask(&format!("check {sheet} -")).fed(ticket), "answer 0\n")?;
        let straight = ask(&format!("check {sheet} -")).fed([0, 0, 1, 1, 2, 2]);
        tool.refused(&straight, "answer 12\n", 12)?;
        // Round 0 makes the five trials again.
        let refitted = format!("answer 0 width 3 trials 5 moved 0\n{ticket}");
        let old = ask(&format!("refit {sheet} -")).fed("1 3.0 4.1\n2 4.0 17.1\n");
        tool.right(&old, &refitted)?;
        let left = "answer 0\n1 3.0 4.1\n3 3.2 17.0\n";
        tool.right(&ask(&format!("remove {sheet} ticket 2")), left)?;
        tool.refused(&ask(&format!("remove {sheet} ticket 4")), "answer 17\n", 17)?;
    }
    let unroutable = "answer 15 width 0 trials 10\n";
    tool.refused(&ask("route -").fed(narrow), unroutable, 15)
}

/// Every column from both ends, by hand at W 5: a net of two channels of the box
/// (1,1) of a 3 by 3 chip, where 2 is left, 3 right, 10 top and 7 bottom. Its home
/// is the lower channel; on track 0 it takes the partner of that.
fn other_ends(tool: &Tool) -> Result<(), Failure> {
    // -32 mod 5 is 3, and 31 mod 5 is 1. The home is the first side of left-right
    // and left-top, and the second of the others: bottom of top-bottom, right of
    // top-right; of right-bottom right is the lower; of bottom-left left is.
    let cases = [
        (2, 3, [1, 2, 3, 4, 0]),
        (7, 10, [3, 2, 1, 0, 4]),
        (2, 10, [2, 1, 0, 4, 3]),
        (3, 10, [1, 2, 3, 4, 0]),
        (3, 7, [3, 2, 1, 0, 4]),
        (2, 7, [4, 0, 1, 2, 3]),
    ];
    for (home, other, partners) in cases {
        for listed in [
            format!("net 9: {home} {other}-{home}"),
            format!("net 9: {other} {home}-{other}"),
        ] {
            let sheet = format!("chip 3 by 3\n{KIND}width 5\n{listed}\n");
            tool.put("pair", sheet)?;
            for (track, partner) in partners.iter().enumerate() {
                let lines = format!("9 {home}.{track} {other}.{partner}");
                let right = ask("check pair -").fed(&lines);
                tool.right(&right, "answer 0\n")?;
                let next = (partner + 1) % 5;
                let lines = format!("9 {home}.{track} {other}.{next}");
                tool.refused(&ask("check pair -").fed(&lines), "answer 12\n", 12)?;
            }
        }
    }
    Ok(())
}

/// T with a byte of its rows changed.
fn spoiled(at: usize, byte: u8) -> Vec<u8> {
    let mut sheet = bent();
    sheet[at] = byte;
    sheet
}

/// 18 from every verb; nothing is written. `explain` names the byte, the column
/// and the value.
fn parameter(tool: &Tool) -> Result<(), Failure> {
    let exact = "trackrouter: 18 parameter: a sign or a shift of kind 3 is outside its values; \
                 trackrouter explain says where\n";
    tool.put("kept", "kept")?;
    tool.put("right", [0, 1, 0, 1, 2, 0])?;
    for (at, byte) in (42..54).map(|at| (at, if at % 2 == 0 { 2 } else { 32 })) {
        tool.put("bad", spoiled(at, byte))?;
        for (line, stdout) in [
            ("read bad", "answer 18 nets 0 entries 0\n"),
            ("record bad 0", "offset 0 length 0\n"),
            ("check bad right", "answer 18\n"),
            ("route bad --out kept", "answer 18 width 0 trials 0\n"),
            ("least bad --out kept", "answer 18 width 0 trials 0\n"),
            (
                "refit bad right --out kept",
                "answer 18 width 0 trials 0 moved 0\n",
            ),
            ("remove bad right 9 --out kept", "answer 18\n"),
            ("standard bad --out kept", ""),
            ("unpack bad", ""),
            ("unpack bad right", ""),
            ("draw bad", ""),
            ("draw bad right", ""),
        ] {
            let expected = Expected {
                status: 1,
                stdout: Text::Is(stdout.into()),
                stderr: Text::Is(exact.into()),
            };
            tool.expect(&ask(line), expected)?;
        }
        tool.right(&ask("pack bad"), spoiled(at, byte))?;
    }
    holds(tool, "kept", b"kept")?;
    for (place, column) in COLUMNS.iter().enumerate() {
        let at = 42 + 2 * place;
        for sign in [2, 3, 127, 128, 255] {
            let finding = format!(
                "byte {at}: the sign of column {column} is {sign}, not 0 (plus) or 1 (minus)\nrule: "
            );
            let asked = ask("explain -").fed(spoiled(at, sign));
            tool.expect(&asked, found(18, &[&finding]))?;
        }
        let at = at + 1;
        for shift in [-128, -64, -34, -33, 32, 33, 64, 127_i8] {
            let finding = format!(
                "byte {at}: the shift of column {column} is {shift}, not -32 to 31\nrule: "
            );
            let asked = ask("explain -").fed(spoiled(at, shift as u8));
            tool.expect(&asked, found(18, &[&finding]))?;
        }
    }
    Ok(())
}

/// 18 beside the numbers before and behind it, the length rule of 5, and the same
/// bytes in a sheet of another kind.
fn beside(tool: &Tool) -> Result<(), Failure> {
    let changed = |changes: &[(usize, u8)]| {
        let mut sheet = bent();
        for &(at, byte) in changes {
            sheet[at] = byte;
        }
        sheet
    };
    let mut without = t_raw(0, 3).bytes();
    without[44] = 3;
    let cases: [(Vec<u8>, u32, &[&str]); 9] = [
        // Two bad bytes: the first.
        (
            changed(&[(47, 99), (52, 7)]),
            18,
            &["byte 47", "shift", "99"],
        ),
        // No such channel in net 2, and two nets 1.
        (
            changed(&[(20, 24), (24, 1), (53, 200)]),
            18,
            &["byte 53", "-56"],
        ),
        (changed(&[(20, 24)]), 6, &["byte 20"]),
        (changed(&[(38, 13), (42, 2)]), 5, &["record 1", "byte 38"]),
        (changed(&[(58, 65), (42, 2)]), 4, &["byte 58"]),
        (
            changed(&[(56, 4), (42, 2)]),
            3,
            &["byte 56", "4", "2 (universal) or 3 (rows)"],
        ),
        // 36 + 2*3 + 12 is 54: a sheet of kind 2 has no rows.
        (
            changed(&[(56, 2)]),
            5,
            &["byte 60", "and 12 for the trailer make 54", "66 bytes"],
        ),
        // 40 + 2*3 + 12 + 12 is 70.
        (
            changed(&[(60, 40)]),
            5,
            &["byte 60", "12 for the rows of kind 3", "70", "66"],
        ),
        // Kind 3 without rows: 36 + 2*3 + 12 + 12 is 66.
        (without, 5, &["byte 48", "66", "54 bytes"]),
    ];
    for (sheet, number, pieces) in cases {
        tool.expect(&ask("explain -").fed(&sheet), found(number, pieces))?;
        let counts = format!("answer {number} nets 0 entries 0\n");
        tool.refused(&ask("read -").fed(&sheet), &counts, number)?;
    }
    Ok(())
}

/// A ticket's fault names the rows; a typed sheet has its line.
fn explained(tool: &Tool) -> Result<(), Failure> {
    let counts = "answer 0\nthe sheet is accepted: 3 nets, 6 entries\n";
    tool.right(&ask("explain rows.sheet"), counts)?;
    tool.right(&ask("explain rows.text"), counts)?;
    let finding = "net 1 (record 0), entry 1 (ticket byte 1): channel 4 has track 0, and its parent's \
                   channel 3 has track 0, whose partner in channel 4 is 1 (kind rows 1+i 3-i 2-i -1+i \
                   -32-i 31+i, W 3, box column 1 row 1)\n";
    for sheet in ["rows.sheet", "rows.text"] {
        for old in ["", "--old"] {
            let asked = ask(&format!("explain {sheet} - {old}")).fed([0, 0, 0, 1, 2, 0]);
            tool.expect(&asked, found(12, &[finding]))?;
        }
    }
    let text = typed().replace("width 3", "width 33");
    let line = "\nline 3 of the sheet: width 33\n";
    tool.expect(&ask("explain -").fed(text), found(3, &[line]))
}

/// The title has the rows, and what is wrong with the ticket by them.
fn drawn(tool: &Tool) -> Result<(), Failure> {
    let kind = KIND.trim_end();
    let picture = |fault: &str| {
        let title = format!("<title>chip 4 by 4, {kind}, width 3{fault}</title>");
        Text::has(&["<svg ", &title, "</svg>\n"])
    };
    for sheet in ["rows.sheet", "rows.text"] {
        for ticket in [&[0, 1, 0, 1, 2, 0][..], &[255; 6]] {
            let expected = Expected {
                status: 0,
                stdout: picture(""),
                stderr: Text::Is(Vec::new()),
            };
            let asked = ask(&format!("draw {sheet} -")).fed(ticket);
            tool.expect(&asked, expected)?;
        }
        let expected = Expected {
            status: 1,
            stdout: picture(": 12 switch"),
            stderr: Text::line(&["trackrouter: 12 switch: "]),
        };
        let asked = ask(&format!("draw {sheet} -")).fed([0, 0, 1, 1, 2, 2]);
        tool.expect(&asked, expected)?;
    }
    Ok(())
}

/// The rows are kept; sheets with other rows have other standard forms, though
/// they act alike at their width.
fn standard(tool: &Tool) -> Result<(), Failure> {
    let listed = "net 3: 17 3-17\nnet 1: 4 3-4\nnet 2: 17 4-17\n";
    let head = format!("chip 4 by 4\n{KIND}width 3\n");
    let asked = ask("standard - --out form").fed(format!("{head}{listed}"));
    tool.right(&asked, typed())?;
    holds(tool, "form", &bent())?;
    for sheet in ["rows.sheet", "rows.text"] {
        tool.right(&ask(&format!("standard {sheet}")), typed())?;
    }
    let mut forms = std::collections::BTreeSet::new();
    for row in ["-1+i", "2+i", "-1-i", "5+i"] {
        let text = typed().replace("-1+i", row);
        let output = tool.output(&ask("standard - --out form").fed(&text))?;
        if output.stdout != text.as_bytes() {
            return Err(Failure::new(told(&output)));
        }
        forms.insert(tool.get("form")?);
    }
    match forms.len() {
        4 => Ok(()),
        _ => Err(Failure::new("different rows have one standard form")),
    }
}

/// 64 nets of 32 entries with rows have 8,600 bytes under the first mark.
fn largest(tool: &Tool) -> Result<(), Failure> {
    let longest = with(&extremes::alike(64, 32, 2, 32).list().bytes(), BENT);
    if longest.len() != 8600 {
        return Err(Failure::new("this is not the longest sheet"));
    }
    let typed = text::of(&longest).expect("a text");
    tool.right(&ask("pack -").fed(&typed), &longest)?;
    tool.right(&ask("unpack -").fed(&longest), &typed)?;
    let counts = "answer 0 nets 64 entries 2048\n";
    tool.right(&ask("read -").fed(&longest), counts)?;
    // A byte more: what ends the sheet is no mark.
    let longer = [&longest[..], &[0]].concat();
    let asked = ask("read --bytes -").fed(&longer);
    tool.refused(&asked, "answer 2 nets 0 entries 0\n", 2)?;
    let pieces = ["byte 8599", "48 00"];
    tool.expect(&ask("explain --bytes -").fed(longer), found(2, &pieces))
}

/// By the rows of a published kind every verb prints what it prints for that kind,
/// but for the kind itself.
fn alike(tool: &Tool) -> Result<(), Failure> {
    let mut rng = Rng::new(102);
    for round in 0..60 {
        let kind = (round % 3) as u8;
        let design = sheets::random::any(&mut rng).with_kind(kind);
        let sheet = design.relist(&mut rng).bytes();
        tool.put("published", &sheet)?;
        tool.put("by_rows", with(&sheet, published(kind)))?;
        let entries = design.entry_count();
        let width = usize::from(design.width);
        let chance: Vec<u8> = (0..entries).map(|_| rng.below(width) as u8).collect();
        tool.put("ticket", chance)?;
        tool.put("old", vec![255; entries])?;
        for line in [
            "read SHEET",
            "record SHEET 1",
            "route SHEET --budget 2000 --out ROUTED",
            "least SHEET --budget 2000",
            "check SHEET ticket --ticket-bytes",
            "refit SHEET old --budget 2000 --ticket-bytes",
            "remove SHEET old 1 --ticket-bytes",
            "standard SHEET",
            "unpack SHEET",
        ] {
            let [one, other] = ["published", "by_rows"].map(|name| {
                let line = line
                    .replace("SHEET", name)
                    .replace("ROUTED", &format!("{name}.out"));
                tool.output(&ask(&line))
            });
            let (one, other) = (one?, other?);
            let word = ["subset", "wilton", "universal"][usize::from(kind)];
            let rows = words(published(kind)).expect("good rows");
            let stdout = String::from_utf8_lossy(&one.stdout)
                .replace(&format!("\nkind {word}\n"), &format!("\nkind {rows}\n"));
            let same = other.stdout == stdout.as_bytes()
                && (one.status.code(), &one.stderr) == (other.status.code(), &other.stderr);
            if !same {
                let text = format!("{line}\n{}\nby rows\n{}", told(&one), told(&other));
                return Err(Failure::new(text));
            }
        }
        let [one, other] = ["published.out", "by_rows.out"].map(|name| tool.get(name).ok());
        if one != other {
            return Err(Failure::new(
                "another ticket by the rows of a published kind",
            ));
        }
    }
    Ok(())
}
