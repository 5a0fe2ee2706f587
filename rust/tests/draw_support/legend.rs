//! Checks the legend: each net once, beside the colour of its lines.

use super::nets::{colours, Expected};
use super::picture::Picture;
use super::shape::Shape;

pub fn check(picture: &Picture, nets: &[Expected]) -> Result<(), String> {
    let colours = colours(picture, nets)?;
    let swatches: Vec<&Shape> = picture.of_class("swatch").collect();
    let keys: Vec<&Shape> = picture.of_class("key").collect();
    ensure!(
        swatches.len() == nets.len() && keys.len() == nets.len(),
        "the legend has not each net once"
    );
    for ((net, swatch), key) in nets.iter().zip(swatches).zip(keys) {
        let number = net.number;
        let words = match net.placed {
            true => format!("net {number}"),
            false => format!("net {number} unplaced"),
        };
        ensure!(
            key.text == words && key.number("data-net")? == number,
            "the legend says '{}'",
            key.text
        );
        ensure!(
            swatch.number("data-net")? == number,
            "the swatch of net {number}"
        );
        let colour = swatch.get("stroke");
        ensure!(
            colour == colours.get(&number).map(String::as_str),
            "the legend has another colour for net {number}"
        );
        let dashed = swatch.get("stroke-dasharray").is_some();
        ensure!(
            dashed != net.placed,
            "the dashes of net {number} in the legend"
        );
        let ([from, to], at) = (swatch.ends()?, key.text_point()?);
        let beside = from.y == at.y && to.y == at.y && from.x < to.x && to.x < at.x;
        ensure!(
            beside,
            "the words of net {number} are not beside its colour"
        );
    }
    Ok(())
}
