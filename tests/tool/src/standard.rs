//! Sheets in standard form, by hand from the request's sentence, and against the
//! model.

pub mod grown;

use crate::failure::Failure;
use crate::output::holds;
use crate::rows::bytes::with;
use crate::run::{ask, told, Tool};
use crate::text;
use sheets::paper::{self, t_raw};
use sheets::raw::ROOT;
use sheets::{Raw, Record};
use std::collections::BTreeSet;

/// T's nets in another order, each from its other end.
const RELISTED: &str = "# T, typed by someone else\r\n\nchip 3 by 2\nkind 0\nwidth 02\n\
                        net 3: 5 0-5 # lamp\nnet 1: 1 0-1\nnet 2: 5 1-5";

/// On the 3 by 2 chip net 7 runs from 2 over 4, 0 and 1 to 6. Of 1 and 4, which
/// have a joint to the home 0, 1 is next; of 4 and 6, 4; of 2 and 6, 2. Breadth
/// first is 0 1 4 6 2, depth first 0 1 6 4 2.
const CHAIN: &str = "chip 3 by 2\nkind subset\nwidth 2\nnet 7: 2 4-2 0-4 1-0 6-1\nnet 3: 5 0-5\n";
const GROWN: &str = "chip 3 by 2\nkind subset\nwidth 2\nnet 3: 0 5-0\nnet 7: 0 1-0 4-0 2-4 6-1\n";
const GROWN_BYTES: [u8; 52] = [
    0x03, 0x00, 0x02, 0x00, 0x00, 0x00, 0xFF, 0xFF, 0x05, 0x00, 0x00, 0x00, 0x07, 0x00, 0x05, 0x00,
    0x00, 0x00, 0xFF, 0xFF, 0x01, 0x00, 0x00, 0x00, 0x04, 0x00, 0x00, 0x00, 0x02, 0x00, 0x02, 0x00,
    0x06, 0x00, 0x01, 0x00, 0x00, 0x00, 0x0C, 0x00, 0x03, 0x02, 0x00, 0x02, 0x02, 0x00, 0x24, 0x00,
    0x34, 0x00, 0x57, 0x48,
];

pub fn run(tool: &Tool) -> Result<(), Failure> {
    tool.put("t.sheet", paper::T)?;
    tool.put("t.text", text::T)?;
    tool.put("relisted", RELISTED)?;
    tool.put("chain", CHAIN)?;
    sheet_t(tool)?;
    trees(tool)?;
    numbers(tool)?;
    largest(tool)?;
    different(tool)?;
    again(tool)?;
    files(tool)?;
    refused(tool)
}

/// The sheet's standard form is this one, from bytes and text, files and standard
/// input; that is its own. `--out` has its bytes besides.
fn made(tool: &Tool, sheet: &[u8], form: &[u8]) -> Result<(), Failure> {
    let typed = text::of(form).expect("a text");
    let listed = text::of(sheet).expect("a text");
    tool.put("case.sheet", sheet)?;
    tool.put("case.text", &listed)?;
    for input in [sheet, listed.as_bytes(), form, typed.as_bytes()] {
        tool.right(&ask("standard -").fed(input), &typed)?;
    }
    for name in ["case.sheet", "case.text", "--bytes case.sheet"] {
        let asked = ask(&format!("standard {name} --out form"));
        tool.right(&asked, &typed)?;
        holds(tool, "form", form)?;
        std::fs::remove_file(tool.file("form"))?;
    }
    Ok(())
}

/// T is its own standard form, and that of every order of its nets and entries.
fn sheet_t(tool: &Tool) -> Result<(), Failure> {
    for name in ["t.sheet", "t.text", "relisted", "--text relisted"] {
        tool.right(&ask(&format!("standard {name}")), text::T)?;
    }
    tool.right(&ask("standard -").fed(RELISTED), text::T)?;
    tool.right(&ask("standard chain --out form"), GROWN)?;
    holds(tool, "form", &GROWN_BYTES)?;
    for (kind, width) in [(0, 2), (1, 1), (2, 32)] {
        let t = t_raw(kind, width);
        for turned in 0..8 {
            let mut other = t.clone();
            for (net, record) in other.records.iter_mut().enumerate() {
                if turned >> net & 1 == 1 {
                    let [(first, _), (second, _)] = record.entries[..] else {
                        return Err(Failure::new("a net of T has two entries"));
                    };
                    record.entries = vec![(second, ROOT), (first, 0)];
                }
            }
            other.records.rotate_left(turned % 3);
            made(tool, &other.bytes(), &t.bytes())?;
        }
    }
    let none = Raw::new(2, 16, 2, 5, Vec::new()).bytes();
    made(tool, &none, &none)
}

/// Nets of a 4 by 4 chip. The box (1,1) has the channels 3 (left), 4 (right), 17
/// (top) and 13 (bottom); 4 and 18 meet in (2,1), 17, 6 and 21 in (1,2), 18 and 8
/// in (2,2).
fn trees(tool: &Tool) -> Result<(), Failure> {
    let one = |entries: &[(u16, u16)]| {
        let record = Record::new(2, entries);
        Raw::new(4, 4, 1, 3, vec![record]).bytes()
    };
    type Entries = &'static [(u16, u16)];
    let cases: [(Entries, Entries); 6] = [
        (&[(9, ROOT)], &[(9, ROOT)]),
        // 17 and 18; 6, 18 and 21; 18 and 21; 8 and 21. Breadth first begins
        // 4 17 18, depth first 4 17 6 21.
        (
            &[(8, ROOT), (18, 0), (4, 1), (17, 2), (21, 3), (6, 3)],
            &[(4, ROOT), (17, 0), (6, 1), (18, 0), (8, 3), (21, 1)],
        ),
        // All joined to 13, which is not the home.
        (
            &[(13, ROOT), (17, 0), (4, 0), (3, 0)],
            &[(3, ROOT), (13, 0), (4, 1), (17, 1)],
        ),
        // The same channels in a row.
        (
            &[(17, ROOT), (4, 0), (13, 1), (3, 2)],
            &[(3, ROOT), (13, 0), (4, 1), (17, 2)],
        ),
        // The same channels again: 4 and 13 have a joint to 3, 17 to 4.
        (
            &[(4, ROOT), (17, 0), (3, 0), (13, 2)],
            &[(3, ROOT), (4, 0), (13, 0), (17, 1)],
        ),
        // And all joined to 3.
        (
            &[(17, ROOT), (3, 0), (13, 1), (4, 1)],
            &[(3, ROOT), (4, 0), (13, 0), (17, 0)],
        ),
    ];
    for (listed, grown) in cases {
        made(tool, &one(listed), &one(grown))?;
    }
    Ok(())
}

/// Nets rise by the whole number, not by their places or channels; on 16 by 16
/// the home is the lowest of two bytes: 15 meets 256, which meets 240.
fn numbers(tool: &Tool) -> Result<(), Failure> {
    let sheet = |numbers: [u32; 6]| {
        let record = |number: u32| match number {
            255 => Record::new(255, &[(0, ROOT), (1, 0)]),
            number => Record::new(number, &[((number % 7) as u16, ROOT)]),
        };
        Raw::new(3, 2, 0, 6, numbers.map(record).into()).bytes()
    };
    let rising = [0, 1, 255, 256, 257, 65535];
    made(tool, &sheet([256, 65535, 1, 255, 0, 257]), &sheet(rising))?;
    made(tool, &sheet([65535, 257, 256, 255, 1, 0]), &sheet(rising))?;
    let wide = |entries: [(u16, u16); 3]| {
        let record = Record::new(1, &entries);
        Raw::new(16, 16, 0, 1, vec![record]).bytes()
    };
    let listed = wide([(256, ROOT), (240, 0), (15, 0)]);
    made(tool, &listed, &wide([(15, ROOT), (256, 0), (240, 1)]))
}

/// 64 nets of 32 entries in a row whose last channel, 1, is the lowest: each is
/// turned around. With rows it has 12 bytes more.
fn largest(tool: &Tool) -> Result<(), Failure> {
    let row = paper::long_net(32).records[0].entries.clone();
    let turned: Vec<(u16, u16)> = row
        .iter()
        .rev()
        .zip([ROOT].into_iter().chain(0..))
        .map(|(&(channel, _), parent)| (channel, parent))
        .collect();
    if turned[0].0 != 1 || row.iter().any(|entry| entry.0 < 1) {
        return Err(Failure::new("the row does not end at its lowest channel"));
    }
    let of = |entries: &[(u16, u16)], numbers: &mut dyn Iterator<Item = u32>| {
        let records = numbers.map(|number| Record::new(number, entries));
        Raw::new(16, 16, 2, 32, records.collect()).bytes()
    };
    let (sheet, form) = (of(&row, &mut (0..64).rev()), of(&turned, &mut (0..64)));
    let rows = [0, 31, 1, 0xE0, 0, 0xFF, 1, 5, 1, 0, 0, 1];
    let (longest, longest_form) = (with(&sheet, rows), with(&form, rows));
    if (sheet.len(), longest.len()) != (8588, 8600) {
        return Err(Failure::new("this is not the longest sheet"));
    }
    made(tool, &sheet, &form)?;
    made(tool, &longest, &longest_form)
}

/// Sheets that differ in one thing have different forms.
fn different(tool: &Tool) -> Result<(), Failure> {
    let texts = [
        text::T.to_string(),
        text::T
            .replace("chip 3 by 2", "chip 3 by 3")
            .replace('5', "7"),
        text::T.replace("subset", "universal"),
        // The rows of subset, and others that act like them at W 2.
        text::T.replace("subset", "rows 0+i 0+i 0+i 0+i 0+i 0+i"),
        text::T.replace("subset", "rows 0+i 0+i 0+i 0+i 0+i 2+i"),
        text::T.replace("subset", "rows 0-i 0+i 0+i 0+i 0+i 0+i"),
        text::T.replace("width 2", "width 3"),
        text::T.replace("net 3", "net 4"),
        text::T.replace("net 1: 0 1-0", "net 1: 0"),
        text::T.replace("net 1: 0 1-0", "net 1: 0 4-0"),
        text::T.replace("net 1: 0 1-0", "net 1: 1 0-1 5-0"),
        text::T.replace("net 1: 0 1-0", "net 1: 1 0-1 5-1"),
        text::T.replace("net 1: 0 1-0", "net 1: 5 0-5 1-5"),
        text::T.replace("net 3: 0 5-0\n", ""),
    ];
    let mut forms = BTreeSet::new();
    for typed in &texts {
        let output = tool.output(&ask("standard - --out form").fed(typed))?;
        if !output.status.success() {
            return Err(Failure::new(told(&output)));
        }
        forms.insert(output.stdout);
        forms.insert(tool.get("form")?);
    }
    match forms.len() == 2 * texts.len() {
        true => Ok(()),
        false => Err(Failure::new("different nets have one standard form")),
    }
}

/// What is printed is a sheet for every verb, and its bytes are what `pack`
/// makes of it. Route gives each net the same tracks; its ticket in lines fits
/// both sheets, in bytes only its own.
fn again(tool: &Tool) -> Result<(), Failure> {
    tool.put("grown", GROWN)?;
    tool.right(&ask("standard grown"), GROWN)?;
    tool.right(&ask("unpack grown"), GROWN)?;
    tool.right(&ask("pack grown"), GROWN_BYTES)?;
    tool.right(&ask("read grown"), "answer 0 nets 2 entries 7\n")?;

    // Net 3 takes track 0, and net 7 tries 0 and 1.
    let first = "answer 0 width 2 trials 3\n";
    let listed = format!("{first}7 2.1 4.1 0.1 1.1 6.1\n3 5.0 0.0\n");
    let grown = format!("{first}3 0.0 5.0\n7 0.1 1.1 4.1 2.1 6.1\n");
    tool.right(&ask("route chain --out ticket"), &listed)?;
    holds(tool, "ticket", &[1, 1, 1, 1, 1, 0, 0])?;
    // For the other sheet 4 and 2 of net 7 have the tracks 1 and 0 there.
    tool.refused(&ask("check grown ticket"), "answer 12\n", 12)?;
    tool.right(&ask("route grown --out ticket"), &grown)?;
    holds(tool, "ticket", &[0, 0, 1, 1, 1, 1, 1])?;
    for sheet in ["chain", "grown"] {
        for lines in [&listed, &grown] {
            let asked = ask(&format!("check {sheet} -")).fed(lines);
            tool.right(&asked, "answer 0\n")?;
        }
    }
    Ok(())
}

/// A file that is there is replaced, the sheet's own too.
fn files(tool: &Tool) -> Result<(), Failure> {
    tool.put("there", vec![7; 10_000])?;
    tool.right(&ask("standard relisted --out there"), text::T)?;
    holds(tool, "there", &paper::T)?;
    tool.put("own", CHAIN)?;
    tool.right(&ask("standard --out=own own"), GROWN)?;
    holds(tool, "own", &GROWN_BYTES)?;
    tool.right(&ask("standard own"), GROWN)?;
    // An option may stand before the sheet, and - is no file to write to.
    tool.right(&ask("standard --out there -").fed(CHAIN), GROWN)?;
    holds(tool, "there", &GROWN_BYTES)?;
    tool.wrong(&ask("standard own --out -"), &["--out needs a FILE, not -"])?;
    tool.wrong(&ask("standard --bytes --text own"), &["exclude each other"])?;
    tool.wrong(&ask("standard own there"), &["it takes SHEET;"])?;
    let as_bytes = ["trackrouter: t.sheet: ", "--bytes reads"];
    tool.wrong(&ask("standard t.sheet --text"), &as_bytes)
}

/// A refused sheet has no standard form: nothing is printed or written, and the
/// line on standard error has its number.
fn refused(tool: &Tool) -> Result<(), Failure> {
    let one = |entries: &[(u16, u16)]| {
        let record = Record::new(1, entries);
        Raw::new(3, 2, 0, 2, vec![record]).bytes()
    };
    let mut two = t_raw(0, 2);
    two.records[2].number = 1;
    let mut offset = t_raw(0, 2);
    offset.directory.swap(1, 2);
    let sheets = [
        (Vec::new(), 1),
        (vec![0; 8729], 1),
        (vec![0; 40], 2),
        (t_raw(0, 33).bytes(), 3),
        (t_raw(4, 2).bytes(), 3),
        (paper::same_channel(65, 0, 2).bytes(), 4),
        (paper::long_net(33).bytes(), 5),
        (offset.bytes(), 5),
        (with(&paper::T, [0, 32, 0, 0, 0, 0, 0, 0, 0, 0, 0, 0]), 18),
        (one(&[(7, ROOT)]), 6),
        (one(&[(0, ROOT), (0, 0)]), 7),
        // 0 and 2 do not meet; a first entry has no parent; a later one has.
        (one(&[(0, ROOT), (2, 0)]), 8),
        (one(&[(0, 0)]), 8),
        (one(&[(0, ROOT), (1, ROOT)]), 8),
        (two.bytes(), 9),
    ];
    tool.put("kept", "kept")?;
    for (sheet, number) in &sheets {
        for line in ["standard -", "standard - --out kept", "standard - --bytes"] {
            tool.refused(&ask(line).fed(sheet), "", *number)?;
        }
        if let Some(typed) = text::of(sheet) {
            tool.refused(&ask("standard -").fed(typed), "", *number)?;
        }
    }
    holds(tool, "kept", b"kept")?;
    let exact = "trackrouter: 9 name: two nets have one number; trackrouter explain says where\n";
    let output = tool.output(&ask("standard -").fed(two.bytes()))?;
    match output.stderr == exact.as_bytes() {
        true => Ok(()),
        false => Err(Failure::new(told(&output))),
    }
}

/// The model's standard form, or its refusal.
pub fn by_model(tool: &Tool, sheet: &[u8]) -> Result<(), Failure> {
    let asked = ask("standard --bytes -").fed(sheet);
    let mut out = [0; 8728];
    match model::standard(sheet, &mut out) {
        0 => {
            let form = text::of(&out[..sheet.len()]).expect("a text");
            tool.right(&asked, form)
        }
        number => tool.refused(&asked, "", number),
    }
}
