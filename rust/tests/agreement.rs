//! Constants, numbers and words are the same in the header as a C compiler reads it, in this package, in docs/FORMATS.md and in the
//! README, and the numbers stand in the same order in all their tables.

use std::collections::BTreeMap;
use std::fs;
use std::path::{Path, PathBuf};
use std::process::Command;
use trackrouter::{number, word, VERSION, WORDS};

/// Names or numbers, each with what stands beside it.
type Table = BTreeMap<String, String>;

/// Numbers past the end of the table are looked at too.
const LAST: u32 = 40;

fn root() -> PathBuf {
    Path::new(env!("CARGO_MANIFEST_DIR")).join("..")
}

fn file(name: &str) -> String {
    fs::read_to_string(root().join(name)).unwrap_or_else(|error| panic!("{name}: {error}"))
}

fn table<'a>(rows: impl IntoIterator<Item = (&'a str, String)>) -> Table {
    rows.into_iter()
        .map(|(name, value)| (name.to_string(), value))
        .collect()
}

/// The constants of this package by their names.
fn constants() -> Table {
    use trackrouter::*;
    table([
        ("VERSION", VERSION.to_string()),
        ("MAX_SHEET", MAX_SHEET.to_string()),
        ("MAX_NETS", MAX_NETS.to_string()),
        ("MAX_ENTRIES", MAX_ENTRIES.to_string()),
        ("MAX_WIDTH", MAX_WIDTH.to_string()),
        ("DEAD_ITEM", DEAD_ITEM.to_string()),
        ("MAX_DEAD", MAX_DEAD.to_string()),
        ("UNPLACED", UNPLACED.to_string()),
        ("NO_PARENT", NO_PARENT.to_string()),
        ("KIND_SUBSET", KIND_SUBSET.to_string()),
        ("KIND_WILTON", KIND_WILTON.to_string()),
        ("KIND_UNIVERSAL", KIND_UNIVERSAL.to_string()),
        ("KIND_ROWS", KIND_ROWS.to_string()),
    ])
}

/// The numbers of this package by their names, in the order of the table.
fn named() -> [(&'static str, u32); 22] {
    use number::*;
    [
        ("OK", OK),
        ("LENGTH", LENGTH),
        ("MARK", MARK),
        ("CHIP", CHIP),
        ("CROWD", CROWD),
        ("DIRECTORY", DIRECTORY),
        ("PARAMETER", PARAMETER),
        ("CHANNEL", CHANNEL),
        ("TWICE", TWICE),
        ("JOINT", JOINT),
        ("NAME", NAME),
        ("LIST", LIST),
        ("REPEAT", REPEAT),
        ("SIZE", SIZE),
        ("TRACK", TRACK),
        ("SWITCH", SWITCH),
        ("BROKEN", BROKEN),
        ("CLASH", CLASH),
        ("STRANGER", STRANGER),
        ("SPACE", SPACE),
        ("UNROUTABLE", UNROUTABLE),
        ("SPENT", SPENT),
    ]
}

fn numbers() -> Table {
    table(named().map(|(name, number)| (name, number.to_string())))
}

/// The words of this package by their numbers.
fn words() -> Table {
    let row = |number: u32| (number.to_string(), word(number).to_string());
    (0..=LAST).map(row).collect()
}

/// The names that the header defines with a value, without their prefix.
fn names_defined(header: &str) -> Vec<String> {
    let value = |line: &str| {
        let mut parts = line
            .strip_prefix("#define TRACKROUTER_")?
            .split_whitespace();
        let name = parts.next()?;
        parts.next().map(|_| name.to_string())
    };
    header.lines().filter_map(value).collect()
}

/// The names of the header's enum, without their prefix.
fn names_numbered(header: &str) -> Vec<String> {
    let (_, rest) = header.split_once("enum {").expect("an enum");
    let (body, _) = rest.split_once("};").expect("its end");
    let name = |line: &str| {
        let line = line.trim().strip_prefix("TRACKROUTER_")?;
        line.split_whitespace().next().map(str::to_string)
    };
    body.lines().filter_map(name).collect()
}

/// What a C program that is made of these lines prints, a line for each.
fn printed_by_c(name: &str, lines: &[String]) -> Vec<String> {
    let folder = Path::new(env!("CARGO_TARGET_TMPDIR"));
    let source = folder.join(format!("{name}.c"));
    let program = folder.join(name);
    let head = "#include <stdio.h>\n#include \"trackrouter.h\"\nint main(void)\n{\n";
    let body = lines.join("\n");
    fs::write(&source, format!("{head}{body}\nreturn 0;\n}}\n")).expect("a file");
    let built = Command::new("cc")
        .args(["-std=c99", "-Wall", "-Wextra", "-Werror", "-I"])
        .arg(root().join("include"))
        .arg(&source)
        .arg("-o")
        .arg(&program)
        .status()
        .expect("a C compiler");
    assert!(built.success(), "the header compiles");
    let output = Command::new(&program).output().expect("the program runs");
    let text = String::from_utf8(output.stdout).expect("text");
    text.lines().map(str::to_string).collect()
}

/// The header's names with the values that C gives them.
fn by_c(program: &str, names: Vec<String>) -> Table {
    let print = |name: &String| format!("printf(\"%ld\\n\", (long)TRACKROUTER_{name});");
    let lines: Vec<String> = names.iter().map(print).collect();
    let values = printed_by_c(program, &lines);
    assert_eq!(names.len(), values.len());
    names.into_iter().zip(values).collect()
}

/// The first two columns of the table with this head, row by row.
fn rows(document: &str, head: &str) -> Vec<(String, String)> {
    let text = file(document);
    let (_, rest) = text
        .split_once(&format!("{head}\n"))
        .unwrap_or_else(|| panic!("{document} has no table {head}"));
    let rows = rest
        .lines()
        .skip(1)
        .take_while(|line| line.starts_with('|'));
    let row = |line: &str| {
        let mut cells = line
            .split('|')
            .skip(1)
            .map(|cell| cell.trim().replace('`', ""));
        (cells.next().expect("a cell"), cells.next().expect("two"))
    };
    rows.map(row).collect()
}

fn columns(document: &str, head: &str) -> Table {
    rows(document, head).into_iter().collect()
}

#[test]
fn constants_agree() {
    let header = file("include/trackrouter.h");
    assert_eq!(by_c("constants", names_defined(&header)), constants());
    let listed = columns("docs/FORMATS.md", "| constant | value | what |");
    let prefixed = |(name, value): (String, String)| (format!("TRACKROUTER_{name}"), value);
    assert_eq!(listed, constants().into_iter().map(prefixed).collect());
}

#[test]
fn numbers_agree() {
    let header = file("include/trackrouter.h");
    assert_eq!(by_c("numbers", names_numbered(&header)), numbers());
    for (name, number) in numbers() {
        let shown = word(number.parse().expect("a number")).to_uppercase();
        let expected = if number == "0" { "" } else { &name };
        assert_eq!(shown, expected);
    }
    assert_eq!(WORDS.len() + 1, numbers().len());
}

#[test]
fn words_agree() {
    let print = |number| format!("printf(\"%s\\n\", trackrouter_word({number}u));");
    let lines: Vec<String> = (0..=LAST).map(print).collect();
    let by_c: Vec<String> = printed_by_c("words", &lines);
    let keys = (0..=LAST).map(|number| number.to_string());
    assert_eq!(keys.zip(by_c).collect::<Table>(), words());

    let given: Table = words()
        .into_iter()
        .filter(|(number, word)| number == "0" || !word.is_empty())
        .collect();
    for document in ["docs/FORMATS.md", "README.md"] {
        let listed = columns(document, "| number | word | condition |");
        assert_eq!(listed, given, "{document}");
    }
}

/// The first number in this order that applies is given.
#[test]
fn orders_agree() {
    let names = named().map(|(name, _)| name.to_string());
    assert_eq!(names_numbered(&file("include/trackrouter.h")), names);
    let numbers = named().map(|(_, number)| number.to_string());
    for document in ["docs/FORMATS.md", "README.md"] {
        let rows = rows(document, "| number | word | condition |");
        let listed: Vec<String> = rows.into_iter().map(|(number, _)| number).collect();
        assert_eq!(listed, numbers, "{document}");
    }
}

/// The package's version has the library's version in its middle.
#[test]
fn the_package_has_the_version() {
    assert_eq!(env!("CARGO_PKG_VERSION"), format!("0.{VERSION}.0"));
}
