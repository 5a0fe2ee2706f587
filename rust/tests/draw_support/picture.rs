//! The shapes of a picture, with what they inherit from their groups.

use super::shape::{Area, Shape};
use super::xml::{parse, Element};
use std::collections::BTreeMap;

pub struct Picture {
    pub width: i64,
    pub height: i64,
    pub title: String,
    pub shapes: Vec<Shape>,
}

impl Picture {
    /// Well-formed, with every shape inside the view box.
    pub fn read(svg: &str) -> Result<Picture, String> {
        let mut root = parse(svg)?;
        let attribute = |name: &str| root.attributes.get(name).cloned().unwrap_or_default();
        let number = |name: &str| {
            attribute(name)
                .parse::<i64>()
                .map_err(|_| format!("no {name}"))
        };
        let (width, height) = (number("width")?, number("height")?);
        ensure!(root.name == "svg" && attribute("role") == "img", "no image");
        ensure!(
            attribute("viewBox") == format!("0 0 {width} {height}"),
            "the view box"
        );
        ensure!(attribute("font-family") == "sans-serif", "the font");
        ensure!(!root.children.is_empty(), "nothing within");
        let title = root.children.remove(0);
        ensure!(title.name == "title" && !title.text.is_empty(), "no title");
        let mut shapes = Vec::new();
        for child in root.children {
            gather(child, &BTreeMap::new(), &mut shapes)?;
        }
        let page = Area {
            left: 0,
            top: 0,
            right: width,
            bottom: height,
        };
        for shape in &shapes {
            let inside = page.hundredfold().contains(shape.extent()?);
            ensure!(
                inside,
                "{} outside the view box: {:?}",
                shape.class,
                shape.attributes
            );
        }
        let mut above = 0;
        for shape in &shapes {
            let layer = layer(&shape.class).ok_or(format!("a shape of class {}", shape.class))?;
            ensure!(layer >= above, "{} is drawn too late", shape.class);
            above = layer;
        }
        Ok(Picture {
            width,
            height,
            title: title.text,
            shapes,
        })
    }

    pub fn of_classes<'a>(&'a self, classes: &'a [&str]) -> impl Iterator<Item = &'a Shape> {
        let has = |shape: &&Shape| classes.contains(&shape.class.as_str());
        self.shapes.iter().filter(has)
    }

    pub fn of_class<'a>(&'a self, class: &'a str) -> impl Iterator<Item = &'a Shape> {
        self.shapes.iter().filter(move |shape| shape.class == class)
    }
}

/// Which shapes are drawn after which, so that none is hidden.
fn layer(class: &str) -> Option<usize> {
    let layers = [
        &["page", "band", "lanes"][..],
        &["dead"],
        &["guide"],
        &["box"],
        &["channel", "column", "row", "note", "title"],
        &[
            "stripe",
            "joint",
            "unplaced-joint",
            "wire",
            "unplaced",
            "dot",
        ],
        &["cross"],
        &["plate", "label"],
        &["swatch", "key", "dead-swatch", "dead-key"],
    ];
    layers.iter().position(|layer| layer.contains(&class))
}

/// What a group hands on to its shapes.
const INHERITED: [&str; 5] = [
    "fill",
    "stroke",
    "stroke-width",
    "stroke-dasharray",
    "font-size",
];

fn gather(
    element: Element,
    above: &BTreeMap<String, String>,
    shapes: &mut Vec<Shape>,
) -> Result<(), String> {
    if element.name == "g" {
        let mut within = above.clone();
        for (name, value) in element.attributes {
            let known = INHERITED.contains(&name.as_str());
            ensure!(
                known || name == "class" || name == "data-net",
                "a group with {name}"
            );
            if known {
                within.insert(name, value);
            }
        }
        ensure!(element.text.is_empty(), "text in a group");
        return element
            .children
            .into_iter()
            .try_for_each(|child| gather(child, &within, shapes));
    }
    ensure!(element.children.is_empty(), "a shape within a shape");
    ensure!(
        element.name == "text" || element.text.is_empty(),
        "text in a shape"
    );
    let mut attributes = above.clone();
    attributes.extend(element.attributes);
    let class = attributes
        .remove("class")
        .ok_or("a shape without a class")?;
    shapes.push(Shape {
        tag: element.name,
        class,
        attributes,
        text: element.text,
    });
    Ok(())
}
