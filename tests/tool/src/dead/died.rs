//! The README's "A wire has died": its list, its commands and all that they print,
//! which is also written out here by hand.

use super::MENDED;
use crate::failure::Failure;
use crate::readme::Section;
use crate::run::{ask, Tool};
use crate::text;

/// The ticket of m3: net 2 holds 1.1 and 5.1.
const ROUTED: &str = "answer 0 width 3 trials 6\n1 0.0 1.0\n2 1.1 5.1\n3 0.2 5.2\n";

pub fn run(tool: &Tool) -> Result<(), Failure> {
    let section = Section::read("A wire has died")?;
    let blocks = section.blocks();
    let [list, broken, left, refitted, anew] = blocks.as_slice() else {
        let count = blocks.len();
        return Err(Failure::new(format!(
            "A wire has died has {count} blocks, not 5"
        )));
    };
    section.quoted("dead.txt")?;
    section.quoted("width 3")?;
    tool.put("dead.txt", list)?;
    tool.put("my.txt", text::T.replace("width 2", "width 3"))?;
    section.quoted("trackrouter route my.txt > my.ticket")?;
    tool.right(&ask("route my.txt"), ROUTED)?;
    tool.put("my.ticket", ROUTED)?;
    let check = "check my.txt my.ticket --dead dead.txt";
    let explain = "explain my.txt my.ticket --dead dead.txt";
    section.shown(tool, broken, &[check, explain])?;
    let remove = "remove my.txt my.ticket 2";
    section.shown(tool, left, &[remove])?;
    section.quoted(&format!("trackrouter {remove} > left.ticket"))?;
    let kept = tool.output(&ask(remove))?.stdout;
    tool.put("left.ticket", kept)?;
    let refit = "refit my.txt left.ticket --dead dead.txt";
    section.shown(tool, refitted, &[refit])?;
    let [route, least] = [
        "route my.txt --dead dead.txt",
        "least my.txt --dead dead.txt",
    ];
    section.shown(tool, anew, &[route, least])?;

    // The same by hand.
    tool.refused(&ask(check), "answer 21\n", 21)?;
    tool.right(&ask(remove), "answer 0\n1 0.0 1.0\n3 0.2 5.2\n")?;
    let moved = format!("answer 0 width 3 trials 21 moved 1\n{MENDED}");
    tool.right(&ask(refit), &moved)?;
    let routed = format!("answer 0 width 3 trials 12\n{MENDED}");
    tool.right(&ask(route), &routed)?;
    tool.right(&ask(least), &routed)?;
    tool.right(
        &ask("check my.txt - --dead dead.txt").fed(moved),
        "answer 0\n",
    )?;

    let draw = "draw my.txt my.ticket --dead dead.txt --out dead.svg";
    section.quoted(&format!("trackrouter {draw}"))?;
    tool.refused(&ask(draw), "", 21)?;
    let pack = "pack my.txt --dead dead.txt --out dead.list";
    section.quoted(&format!("trackrouter {pack}"))?;
    tool.right(&ask(pack), "")?;
    let drawn = tool.get("dead.svg")?.starts_with(b"<svg ");
    match drawn && tool.get("dead.list")? == [5, 0, 1] {
        true => Ok(()),
        false => Err(Failure::new("dead.svg or dead.list is another")),
    }
}
