//! The colours of 64 nets.

use super::picture::Picture;
use super::sheets::net;
use trackrouter::draw::svg;
use trackrouter::sheet::Sheet;

/// As the eye sees colours (CIE 1976): all 64 differ clearly, and white numbers can be read on them.
#[test]
fn colours_differ() {
    let mut sheet = Sheet::new(2, 2, 0, 1);
    (0..64).for_each(|number| sheet.push(net(number, &[(0, None)])));
    let text = svg(&sheet, &[], None).expect("a picture");
    let picture = Picture::read(&text).expect("a picture");
    let colours: Vec<[f64; 4]> = picture
        .of_class("swatch")
        .map(|shape| seen(shape.get("stroke").expect("a colour")))
        .collect();
    for (place, one) in colours.iter().enumerate() {
        assert!(1.05 / (one[3] + 0.05) >= 3.0, "colour {place} is too light");
        for other in &colours[..place] {
            let squares = (0..3).map(|axis| (one[axis] - other[axis]).powi(2));
            assert!(
                squares.sum::<f64>().sqrt() > 10.0,
                "colour {place} is too near"
            );
        }
    }
}

/// Lightness, the two colour axes, and the luminance of an sRGB colour.
fn seen(colour: &str) -> [f64; 4] {
    let part = |at: usize| {
        let byte = u8::from_str_radix(&colour[at..at + 2], 16).expect("two digits");
        let value = f64::from(byte) / 255.0;
        match value <= 0.04045 {
            true => value / 12.92,
            false => ((value + 0.055) / 1.055).powf(2.4),
        }
    };
    let (r, g, b) = (part(1), part(3), part(5));
    let x = (0.4124 * r + 0.3576 * g + 0.1805 * b) / 0.9505;
    let y = 0.2126 * r + 0.7152 * g + 0.0722 * b;
    let z = (0.0193 * r + 0.1192 * g + 0.9505 * b) / 1.089;
    let f = |t: f64| match t > 0.008856 {
        true => t.cbrt(),
        false => 7.787 * t + 16.0 / 116.0,
    };
    [
        116.0 * f(y) - 16.0,
        500.0 * (f(x) - f(y)),
        200.0 * (f(y) - f(z)),
        y,
    ]
}
