//! Checks what stands behind the nets: page, boxes, bands, tracks and the numbers of channels, columns and rows.

use super::channels;
use super::grid::{boxes_of, Place};
use super::picture::Picture;
use super::shape::{Area, Point, Shape};
use std::collections::BTreeMap;
use trackrouter::chip::Kind;
use trackrouter::sheet::Sheet;
use trackrouter::{check_dead, check_old, Refusal};

pub struct Frame {
    pub boxes: BTreeMap<Place, Area>,
    pub channels: Vec<Channel>,
}

pub struct Channel {
    pub boxes: [Place; 2],
    pub level: bool,
    /// The ends of each track: at the left and right box, or at the lower and upper one.
    pub tracks: Vec<[Point; 2]>,
}

impl Frame {
    /// The ends of a line in a channel, at its first and its second box, whichever way the line is drawn.
    pub fn ends_in(&self, channel: usize, line: &Shape) -> Result<[Point; 2], String> {
        let [one, other] = line.ends()?;
        let Channel { boxes, level, .. } = &self.channels[channel];
        let [first, second] = boxes.map(|place| self.boxes[&place]);
        let (from, to) = if (*level && one.x > other.x) || (!level && one.y < other.y) {
            (other, one)
        } else {
            (one, other)
        };
        let on_edges = if *level {
            from.y == to.y && from.x == first.right && to.x == second.left
        } else {
            from.x == to.x && from.y == first.top && to.y == second.bottom
        };
        ensure!(
            on_edges,
            "a line of channel {channel} does not end on its boxes"
        );
        let across = if *level {
            first.top < from.y && from.y < first.bottom
        } else {
            first.left < from.x && from.x < first.right
        };
        ensure!(across, "a line of channel {channel} passes its boxes");
        Ok([from, to])
    }
}

/// The library's answer to the sheet and the list, or to the ticket as Refit's old one.
fn refused(sheet: &Sheet, dead: &[u8], ticket: Option<&[u8]>) -> Option<Refusal> {
    let bytes = sheet.bytes().ok()?;
    match ticket {
        Some(ticket) => check_old(&bytes, dead, ticket).err(),
        None => check_dead(&bytes, dead).err(),
    }
}

/// The kind by its word, with its rows if it has any, or by its number.
fn kind(kind: Kind) -> String {
    match kind {
        Kind::Rows(rows) => rows.iter().fold("rows".to_string(), |words, row| {
            let sign = if row.minus() { '-' } else { '+' };
            format!("{words} {}{sign}i", row.shift())
        }),
        Kind::Other(number) => number.to_string(),
        published => ["subset", "wilton", "universal"][usize::from(published.number())].to_string(),
    }
}

pub fn check(
    picture: &Picture,
    sheet: &Sheet,
    dead: &[u8],
    ticket: Option<&[u8]>,
) -> Result<Frame, String> {
    let kind = kind(sheet.kind());
    let (columns, rows) = (sheet.chip().columns, sheet.chip().rows);
    let width = sheet.width();
    let mut title = format!("chip {columns} by {rows}, kind {kind}, width {width}");
    if let Some(refusal) = refused(sheet, dead, ticket) {
        title += &format!(": {} {}", refusal.number, refusal.word());
    }
    let shown: Vec<&str> = picture
        .of_class("title")
        .map(|text| text.text.as_str())
        .collect();
    ensure!(
        picture.title == title && shown == [title.as_str()],
        "the title {shown:?}"
    );
    page(picture)?;
    let (columns, rows) = (i64::from(columns), i64::from(rows));
    let boxes = boxes(picture, columns, rows)?;
    axes(picture, &boxes, columns, rows)?;
    let channels = (0..).map_while(|channel| boxes_of(columns, rows, channel));
    let mut frame = Frame {
        boxes,
        channels: Vec::new(),
    };
    for boxes in channels {
        frame.channels.push(Channel {
            boxes,
            level: boxes[0].1 == boxes[1].1,
            tracks: Vec::new(),
        });
    }
    channels::bands(picture, &frame)?;
    channels::tracks(picture, &mut frame, i64::from(sheet.width()))?;
    Ok(frame)
}

fn page(picture: &Picture) -> Result<(), String> {
    let first = picture.shapes.first().ok_or("no shapes")?;
    let area = first.rect()?;
    let whole = (area.left, area.top) == (0, 0)
        && (area.right, area.bottom) == (picture.width, picture.height);
    ensure!(
        whole && first.get("fill") == Some("#ffffff"),
        "no white ground"
    );
    Ok(())
}

/// Squares of one size in even steps, row 0 at the bottom.
fn boxes(picture: &Picture, columns: i64, rows: i64) -> Result<BTreeMap<Place, Area>, String> {
    let mut boxes = BTreeMap::new();
    for shape in picture.of_class("box") {
        let place = (shape.number("data-column")?, shape.number("data-row")?);
        let twice = boxes.insert(place, shape.rect()?);
        ensure!(twice.is_none(), "the box at {place:?} twice");
    }
    let all = (0..columns).all(|column| (0..rows).all(|row| boxes.contains_key(&(column, row))));
    ensure!(
        all && boxes.len() as i64 == columns * rows,
        "the boxes are not those of the chip"
    );
    let origin = boxes[&(0, 0)];
    let side = origin.right - origin.left;
    let step = boxes[&(1, 0)].left - origin.left;
    ensure!(step > side, "boxes without a channel between them");
    for (&(column, row), area) in &boxes {
        let left = origin.left + column * step;
        let bottom = origin.bottom - row * step;
        let right_place = *area
            == Area {
                left,
                top: bottom - side,
                right: left + side,
                bottom,
            };
        ensure!(right_place, "the box at ({column}, {row}) is out of place");
    }
    Ok(boxes)
}

/// Each column and each row has its number beside it.
fn axes(
    picture: &Picture,
    boxes: &BTreeMap<Place, Area>,
    columns: i64,
    rows: i64,
) -> Result<(), String> {
    for (class, count) in [("column", columns), ("row", rows)] {
        let texts: Vec<&Shape> = picture.of_class(class).collect();
        ensure!(
            texts.len() as i64 == count,
            "{} numbers of a {class}",
            texts.len()
        );
        for (place, text) in (0..).zip(texts) {
            let Point { x, y } = text.text_point()?;
            let beside = if class == "column" {
                let area = boxes[&(place, 0)];
                area.left < x && x < area.right && y > area.bottom
            } else {
                let area = boxes[&(0, place)];
                area.top < y && y < area.bottom && x < area.left
            };
            let named = text.text == format!("{class} {place}");
            ensure!(named && beside, "the number of {class} {place}");
        }
    }
    Ok(())
}
