//! The texts of `--help`.

use crate::verb::{Role, Verb, VERBS};

const SHEETS: &str = "\
A sheet is a file in bytes or as text (docs/FORMATS.md), or - for standard input. It is in bytes if it
holds a zero byte or is empty. Files may have up to 16 MB.
";

const TICKETS: &str = "\
A ticket is a file in bytes or in lines (NUMBER CHANNEL.TRACK ..., as route prints it), or - for standard
input. It is in lines if it holds a decimal digit.
";

const LISTS: &str = "\
A list of dead wires is a file in bytes or as text (CHANNEL.TRACK for each wire), or - for standard input.
It is in bytes if it holds a byte 0 or 1.
";

const STDIN: &str = "\
At most one input is -.
";

const STATUSES: &str = "\
Exit status: 0 success; 1 a refusal by the library; 2 bad usage, a file that cannot be read or written, or
text that does not parse. With 1 and 2 one line on standard error says why; explain tells a refusal on
standard output.
";

/// What `trackrouter --help` prints.
pub fn overview() -> String {
    let mut rows: Vec<Row> = VERBS
        .iter()
        .map(|verb| (format!("{} {}", verb.name, verb.usage()), verb.phrase))
        .collect();
    rows.push((String::new(), ""));
    rows.push((
        "VERB --help, help VERB".to_string(),
        "what the verb reads and prints, and its options",
    ));
    rows.push((
        "--version".to_string(),
        "the versions of the tool and of the library",
    ));
    let rows = table(&rows);
    format!(
        "usage: trackrouter VERB [options] INPUTS\n\n{rows}\n{SHEETS}{TICKETS}{LISTS}{STDIN}\n{STATUSES}"
    )
}

/// What `trackrouter VERB --help` prints.
pub fn of(verb: &Verb) -> String {
    let (name, inputs, about) = (verb.name, verb.usage(), verb.about);
    let part = |role, text| match verb.reads(role) {
        true => text,
        false => "",
    };
    let tickets = part(Role::Ticket, TICKETS);
    let lists = part(Role::Dead, LISTS);
    let stdin = match (tickets, lists) {
        ("", "") => "",
        _ => STDIN,
    };
    let rows: Vec<Row> = verb
        .flags()
        .map(|flag| match flag.value {
            "" => (flag.name.to_string(), flag.help),
            value => (format!("{} {value}", flag.name), flag.help),
        })
        .collect();
    let rows = table(&rows);
    format!(
        "usage: trackrouter {name} [options] {inputs}\n\n{about}\n\n{SHEETS}{tickets}{lists}{stdin}\n\
         Options, before or behind the inputs; -- ends them:\n{rows}\n{STATUSES}"
    )
}

/// What is typed, and what it is for; both are empty for a blank line.
type Row = (String, &'static str);

/// The rows with the second column behind the longest of the first.
fn table(rows: &[Row]) -> String {
    let longest = rows.iter().map(|(typed, _)| typed.len()).max();
    let column = longest.unwrap_or(0) + 2;
    let line = |(typed, meaning): &Row| format!("  {typed:<column$}{meaning}");
    let lines = rows
        .iter()
        .map(|row| line(row).trim_end().to_string() + "\n");
    lines.collect()
}
