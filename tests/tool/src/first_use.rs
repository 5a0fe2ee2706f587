//! The first use as the README tells it: a sheet is typed, routed, widened,
//! drawn, gets one net more, loses another, is brought to its standard form, gets
//! another kind and is broken; another one has an inner box by rows. The sheets,
//! the commands and all that they print are read from the README.

use crate::failure::Failure;
use crate::readme::{lines_of, Section};
use crate::run::{ask, Tool};
use std::fs;

const BY_ROWS: &str = concat!(env!("CARGO_MANIFEST_DIR"), "/../../sheets/t_rows.txt");

pub fn run(tool: &Tool) -> Result<(), Failure> {
    let section = Section::read("First use")?;
    let blocks = section.blocks();
    let [sheet, _numbers, narrow, refitted, left, other, form, inner, by_rows, broken] =
        blocks.as_slice()
    else {
        let count = blocks.len();
        return Err(Failure::new(format!(
            "First use has {count} blocks, not 10"
        )));
    };
    tool.put("my.txt", sheet)?;
    section.shown(tool, narrow, &["route my.txt", "least my.txt"])?;

    let wider = section.edited(sheet, "width 2", "width 3")?;
    tool.put("my.txt", &wider)?;
    section.quoted("trackrouter route my.txt > my.ticket")?;
    let ticket = lines_of(narrow, "least my.txt");
    // The trials at width 3 alone are those of m3.
    let routed = format!("answer 0 width 3 trials 6\n{ticket}");
    tool.right(&ask("route my.txt"), &routed)?;
    tool.put("my.ticket", &routed)?;
    let draw = "draw my.txt my.ticket --out my.svg";
    section.quoted(&format!("trackrouter {draw}"))?;
    tool.right(&ask(draw), "")?;
    if !tool.get("my.svg")?.starts_with(b"<svg ") {
        return Err(Failure::new("my.svg is no picture"));
    }

    section.quoted("net 4: 5")?;
    let more = format!("{wider}net 4: 5\n");
    tool.put("my.txt", &more)?;
    section.shown(tool, refitted, &["refit my.txt my.ticket"])?;
    tool.wrong(&ask("check my.txt my.ticket"), &["my.ticket: ", "net 4"])?;

    section.quoted("trackrouter refit my.txt my.ticket > new.ticket")?;
    let full = tool.output(&ask("refit my.txt my.ticket"))?.stdout;
    tool.put("new.ticket", &full)?;
    section.shown(tool, left, &["remove my.txt new.ticket 3"])?;
    let partly = tool.output(&ask("remove my.txt new.ticket 3"))?.stdout;
    // Net 3 takes the trials 4 to 6 and net 4 the last, as before.
    tool.right(&ask("refit my.txt -").fed(&partly), full)?;
    let fewer = section.edited(&more, "net 3: 0 5-0", "")?;
    tool.put("my.txt", fewer)?;
    tool.right(&ask("check my.txt -").fed(partly), "answer 0\n")?;

    tool.put("other.txt", other)?;
    section.shown(tool, form, &["standard other.txt"])?;
    section.quoted("trackrouter standard other.txt > other.std")?;
    let standard = tool.output(&ask("standard other.txt"))?.stdout;
    tool.put("my.txt", sheet)?;
    tool.right(&ask("standard my.txt"), standard)?;

    // All boxes are on the rim: the same answers, at both widths.
    let turned = section.edited(sheet, "kind subset", "kind wilton")?;
    tool.put("my.txt", &turned)?;
    section.shown(tool, narrow, &["route my.txt", "least my.txt"])?;
    tool.put("my.txt", turned.replace("width 2", "width 3"))?;
    tool.right(&ask("route my.txt"), &routed)?;

    tool.put("inner.txt", inner)?;
    section.shown(tool, by_rows, &["route inner.txt"])?;
    section.quoted("sheets/t_rows.txt")?;
    if !fs::read_to_string(BY_ROWS)?.ends_with(&format!("\n{inner}")) {
        return Err(Failure::new("inner.txt is not the sheet in the folder"));
    }

    let wrong = section.edited(&wider, "net 2: 1 5-1", "net 2: 1 2-1")?;
    tool.put("my.txt", wrong)?;
    section.shown(tool, broken, &["explain my.txt"])
}
