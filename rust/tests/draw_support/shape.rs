//! One shape of a picture: its attributes, its points, and the space that it takes.

use std::collections::BTreeMap;

#[derive(Clone, Copy, Debug, PartialEq, Eq, PartialOrd, Ord)]
pub struct Point {
    pub x: i64,
    pub y: i64,
}

/// Edges, in hundredths of a unit where it is the space of a text.
#[derive(Clone, Copy, Debug, PartialEq, Eq)]
pub struct Area {
    pub left: i64,
    pub top: i64,
    pub right: i64,
    pub bottom: i64,
}

impl Area {
    /// The least that holds these points, of which there are some.
    pub fn around(points: &[Point]) -> Area {
        Area {
            left: points.iter().map(|point| point.x).min().unwrap_or(0),
            top: points.iter().map(|point| point.y).min().unwrap_or(0),
            right: points.iter().map(|point| point.x).max().unwrap_or(0),
            bottom: points.iter().map(|point| point.y).max().unwrap_or(0),
        }
    }

    /// Whether they share more than an edge.
    pub fn overlaps(self, other: Area) -> bool {
        self.left < other.right
            && other.left < self.right
            && self.top < other.bottom
            && other.top < self.bottom
    }

    pub fn contains(self, other: Area) -> bool {
        self.left <= other.left
            && other.right <= self.right
            && self.top <= other.top
            && other.bottom <= self.bottom
    }

    pub fn hundredfold(self) -> Area {
        Area {
            left: self.left * 100,
            top: self.top * 100,
            right: self.right * 100,
            bottom: self.bottom * 100,
        }
    }
}

#[derive(Debug)]
pub struct Shape {
    pub tag: String,
    pub class: String,
    /// Its own attributes and those that it inherits.
    pub attributes: BTreeMap<String, String>,
    pub text: String,
}

impl Shape {
    pub fn get(&self, name: &str) -> Option<&str> {
        self.attributes.get(name).map(String::as_str)
    }

    pub fn number(&self, name: &str) -> Result<i64, String> {
        let value = self
            .get(name)
            .ok_or(format!("{} has no {name}", self.class))?;
        value
            .parse()
            .map_err(|_| format!("{} has {name} '{value}'", self.class))
    }

    fn point(&self, x: &str, y: &str) -> Result<Point, String> {
        Ok(Point {
            x: self.number(x)?,
            y: self.number(y)?,
        })
    }

    /// The two ends of a line.
    pub fn ends(&self) -> Result<[Point; 2], String> {
        Ok([self.point("x1", "y1")?, self.point("x2", "y2")?])
    }

    pub fn centre(&self) -> Result<Point, String> {
        self.point("cx", "cy")
    }

    pub fn rect(&self) -> Result<Area, String> {
        let corner = self.point("x", "y")?;
        let (width, height) = (self.number("width")?, self.number("height")?);
        ensure!(width > 0 && height > 0, "an empty {}", self.class);
        Ok(Area {
            left: corner.x,
            top: corner.y,
            right: corner.x + width,
            bottom: corner.y + height,
        })
    }

    /// The strokes of a path, each with all its points: M and L for a straight one, M and C for a curve.
    pub fn strokes(&self) -> Result<Vec<Vec<Point>>, String> {
        let course = self.get("d").ok_or("a path without a course")?;
        let odd = || format!("the course '{course}'");
        let pieces = course.strip_prefix('M').ok_or_else(odd)?.split('M');
        let stroke = |piece: &str| {
            let curved = piece.contains('C');
            let mut numbers = Vec::new();
            for word in piece.split([' ', 'L', 'C']) {
                numbers.push(word.parse::<i64>().map_err(|_| odd())?);
            }
            ensure!(numbers.len() == if curved { 8 } else { 4 }, "{}", odd());
            let pairs = numbers.chunks(2);
            Ok(pairs
                .map(|pair| Point {
                    x: pair[0],
                    y: pair[1],
                })
                .collect())
        };
        pieces.map(stroke).collect()
    }

    /// The middle of a text: its point, moved by its anchor, lies there.
    pub fn text_point(&self) -> Result<Point, String> {
        self.point("x", "y")
    }

    /// The space of a text, in hundredths: 0.62 of the size for each character, and as high as its size.
    pub fn space(&self) -> Result<Area, String> {
        let Point { x, y } = self.text_point()?;
        let size = self.number("font-size")?;
        ensure!(
            self.get("dy") == Some("0.36em"),
            "a text not at its middle height"
        );
        let width = 62 * size * self.text.chars().count() as i64;
        let before = match self.get("text-anchor") {
            Some("start") => 0,
            Some("middle") => width / 2,
            Some("end") => width,
            other => return Err(format!("the anchor {other:?}")),
        };
        let (left, half) = (100 * x - before, 50 * size);
        let turned = format!("rotate(-90 {x} {y})");
        match self.get("transform") {
            None => Ok(Area {
                left,
                top: 100 * y - half,
                right: left + width,
                bottom: 100 * y + half,
            }),
            Some(turn) if turn == turned && before == width / 2 => Ok(Area {
                left: 100 * x - half,
                top: 100 * y - before,
                right: 100 * x + half,
                bottom: 100 * y - before + width,
            }),
            Some(turn) => Err(format!("the transform '{turn}'")),
        }
    }

    /// Everything that it covers, in hundredths, without the thickness of its lines.
    pub fn extent(&self) -> Result<Area, String> {
        let whole = match self.tag.as_str() {
            "rect" => self.rect()?,
            "line" => Area::around(&self.ends()?),
            "path" => Area::around(&self.strokes()?.concat()),
            "circle" => {
                let (Point { x, y }, radius) = (self.centre()?, self.number("r")?);
                let corner = |by| Point {
                    x: x + by,
                    y: y + by,
                };
                Area::around(&[corner(-radius), corner(radius)])
            }
            "text" => return self.space(),
            other => return Err(format!("a shape {other}")),
        };
        Ok(whole.hundredfold())
    }
}
