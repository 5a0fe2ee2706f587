//! The standard form of a design, grown as the request's sentence says it.

use crate::failure::Failure;
use crate::output::holds;
use crate::rows::bytes;
use crate::run::{ask, Tool};
use crate::text;
use sheets::raw::ROOT;
use sheets::{Design, Grid, Net, Raw, Record, Rng};

/// Two chance listings of a design have the form that its nets, channels and
/// joints alone give.
pub fn listed(tool: &Tool, design: &Design, rng: &mut Rng) -> Result<(), Failure> {
    for _ in 0..2 {
        let sheet = design.relist(rng).bytes();
        let form = of(design).bytes();
        // Both get chance rows, or keep those of the design, if it has any.
        let rows = match rng.chance(1, 2) {
            true => Some(bytes::chance(rng)),
            false => bytes::of(&sheet),
        };
        let (sheet, form) = match rows {
            Some(rows) => (bytes::with(&sheet, rows), bytes::with(&form, rows)),
            None => (sheet, form),
        };
        let typed = text::of(&form).expect("a text");
        let input = match rng.chance(1, 2) {
            true => sheet,
            false => text::of(&sheet).expect("a text").into_bytes(),
        };
        tool.right(&ask("standard - --out form").fed(input), &typed)?;
        holds(tool, "form", &form)?;
    }
    Ok(())
}

/// "Nets stand in rising number and each tree starts at the net's home."
fn of(design: &Design) -> Raw {
    let mut nets: Vec<&Net> = design.nets.iter().collect();
    nets.sort_by_key(|net| net.number);
    let records = nets.iter().map(|net| Record::new(net.number, &tree(net)));
    let Grid { columns, rows } = design.grid;
    // Rows are put in later, and make it kind 3.
    let kind = design.kind % 3;
    let raw = Raw::new(columns, rows, kind, design.width, records.collect());
    raw.marked(design.mark)
}

/// "Each next entry is the lowest-numbered channel not yet written that has a
/// joint to a written one, and that one is its parent."
fn tree(net: &Net) -> Vec<(u16, u16)> {
    let home = net.channels.iter().min().expect("a net has a channel");
    let mut written = vec![(*home, ROOT)];
    while written.len() < net.channels.len() {
        let place = |channel: u16| written.iter().position(|entry| entry.0 == channel);
        let ends = net.joints.iter().flat_map(|&(a, b)| [(a, b), (b, a)]);
        let open = ends.filter_map(|(new, old)| match (place(new), place(old)) {
            (None, Some(parent)) => Some((new, parent as u16)),
            _ => None,
        });
        let next = open.min().expect("joints lead to every channel");
        written.push(next);
    }
    written
}
