//! Labels, the legend, and texts that are not well-formed.

use super::{attribute, m7, raised, rows, t, value};

/// The point of a text or a rectangle.
fn place(line: &str) -> String {
    ["x", "y"]
        .map(|name| attribute(line, name).expect(name))
        .join(" ")
}

#[test]
fn labels_on_others() {
    let case = t();
    let [one, other] = ["data-net=\"1\"", "data-net=\"3\""]
        .map(|net| case.line("label", &[net, "data-channel=\"0\""]));
    case.line_refused(&one, &place(&one), &place(&other), "' lies on '");
    case.refused(&one, "", "6 plates for 5 labels");
    let plate = case
        .text
        .lines()
        .find(|line| line.contains("class=\"plate\""));
    let plate = format!("{}\n", plate.expect("a plate"));
    let without = case.text.replace(&plate, "").replace(&one, "");
    case.text_refused(&without, "no label for net 1 in channel 0");
    let x = attribute(&plate, "x").expect("x");
    case.line_refused(&plate, &x, &raised(&x, 0, 10), "passes its plate");
    case.line_refused(&one, ">1<", ">7<", "is '7'");
}

#[test]
fn channel_numbers_out_of_place() {
    let case = t();
    let [four, five] = ["data-channel=\"4\"", "data-channel=\"5\""]
        .map(|channel| case.line("channel", &[channel]));
    case.line_refused(&four, &place(&four), &place(&five), "' lies on 'channel ");
    let square = case.line("box", &["data-column=\"1\"", "data-row=\"1\""]);
    case.line_refused(&four, &place(&four), &place(&square), "lies on the box");
    case.line_refused(&four, ">channel 4<", ">channel 5<", "channel 4 has");
    case.refused(
        &format!("{four}{five}"),
        &format!("{five}{four}"),
        "channel 4 has",
    );
    let x: i64 = value(&four, "x").parse().expect("a number");
    case.line_refused(
        &four,
        &format!(" x=\"{x}\""),
        &format!(" x=\"{}\"", x + 40),
        "not beside its band",
    );
}

#[test]
fn a_wrong_legend() {
    let case = t();
    let swatch = case.line("swatch", &["data-net=\"2\""]);
    let key = case.line("key", &["data-net=\"2\""]);
    let colour = value(&swatch, "stroke");
    case.line_refused(&swatch, &colour, "#123456", "another colour for net 2");
    case.refused(&swatch, "", "not each net once");
    case.line_refused(&key, "net 2<", "net 4<", "the legend says");
    case.line_refused(
        &key,
        &attribute(&key, "y").expect("y"),
        "y=\"200\"",
        "not beside its colour",
    );
    case.line_refused(
        &swatch,
        "class",
        "stroke-dasharray=\"4 4\" class",
        "the dashes of net 2",
    );
    let first = value(&case.line("swatch", &["data-net=\"1\""]), "stroke");
    case.refused(&colour, &first, "two nets with one colour");
    m7().refused("net 3 unplaced", "net 3", "the legend says");
}

#[test]
fn not_well_formed() {
    let case = t();
    let wire = case.line("wire", &["data-net=\"1\"", "data-channel=\"0\""]);
    case.line_refused(&wire, "/>", ">", "is closed by");
    case.line_refused(&wire, "class=\"wire\"", "class=wire", "is not quoted");
    case.line_refused(&wire, "data-net=\"1\"", "data-net=\"&1\"", "a bare sign");
    case.line_refused(
        &wire,
        "data-net=\"1\"",
        "data-net=\"1\" data-net=\"1\"",
        "attribute data-net twice",
    );
    case.refused("</svg>\n", "", "ends too early");
    case.refused("</svg>\n", "</svg>\n<g>", "text after");
    case.refused("</title>", " & more</title>", "a bare sign");
    case.refused("</title>", "></title>", "a bare sign");
    case.refused(" role=\"img\"", "", "no image");
    case.refused("kind subset", "kind wilton", "the title");
    let by_rows = rows();
    by_rows.refused("kind rows 1+i", "kind rows 1-i", "the title");
    by_rows.refused(" -1+i", " 1+i", "the title");
    by_rows.refused(" 31+i", "", "the title");
}
