//! Bounds and what was found, against S, as an SVG: both axes are logarithmic.

use crate::count::Shape;
use std::fmt::Write;

/// The least bytes an erase that were found with blocks of this size.
#[derive(Clone, Copy, Debug)]
pub struct Least {
    pub shape: Shape,
    /// With each C at a transfer at most S/2, and with any.
    pub half: f64,
    pub any: f64,
}

const WIDTH: f64 = 900.0;
const HEIGHT: f64 = 560.0;
const LEFT: f64 = 84.0;
const RIGHT: f64 = 620.0;
const TOP: f64 = 52.0;
const BOTTOM: f64 = 490.0;
/// The axes' ends.
const SIZES: [f64; 2] = [224.0, 4700.0];
const BYTES: [f64; 2] = [4.0, 3000.0];

const COLOURS: [&str; 2] = ["#1f5fa8", "#c4501b"];

fn x(size: f64) -> f64 {
    LEFT + (RIGHT - LEFT) * (size / SIZES[0]).ln() / (SIZES[1] / SIZES[0]).ln()
}

fn y(bytes: f64) -> f64 {
    BOTTOM - (BOTTOM - TOP) * (bytes / BYTES[0]).ln() / (BYTES[1] / BYTES[0]).ln()
}

fn colour(edition: u8) -> &'static str {
    COLOURS[usize::from(edition) - 1]
}

struct Svg(String);

impl Svg {
    fn add(&mut self, element: std::fmt::Arguments) {
        writeln!(self.0, "{element}").expect("a string takes all");
    }

    fn text(&mut self, at: (f64, f64), anchor: &str, style: &str, text: &str) {
        let (x, y) = at;
        self.add(format_args!(r#"<text x="{x:.1}" y="{y:.1}" text-anchor="{anchor}"{style}>{text}</text>"#));
    }

    fn line(&mut self, points: &[(f64, f64)], colour: &str, dashes: &str, width: f64) {
        let points: Vec<String> = points.iter().map(|(x, y)| format!("{x:.1},{y:.1}")).collect();
        let (points, dashes) = (points.join(" "), format_args!("stroke-dasharray=\"{dashes}\""));
        self.add(format_args!(
            r#"<polyline points="{points}" fill="none" stroke="{colour}" stroke-width="{width}" {dashes}/>"#
        ));
    }

    /// Edition 1 is filled, edition 2 is an outline around it; round with C at most S/2, square with any.
    fn mark(&mut self, (x, y): (f64, f64), edition: u8, half: bool) {
        let (radius, paint) = match edition {
            1 => (4.0, format!(r#"fill="{}""#, colour(1))),
            _ => (7.0, format!(r#"fill="none" stroke="{}" stroke-width="1.8""#, colour(2))),
        };
        if half {
            self.add(format_args!(r#"<circle cx="{x:.1}" cy="{y:.1}" r="{radius}" {paint}/>"#));
        } else {
            let (x, y, side) = (x - radius, y - radius, 2.0 * radius);
            self.add(format_args!(r#"<rect x="{x:.1}" y="{y:.1}" width="{side}" height="{side}" {paint}/>"#));
        }
    }
}

pub fn draw(found: &[Least]) -> String {
    let mut svg = Svg(String::new());
    let font = r#"font-family="DejaVu Sans, Arial, sans-serif" font-size="13""#;
    let frame = format_args!(r#"viewBox="0 0 {WIDTH} {HEIGHT}" width="{WIDTH}" height="{HEIGHT}""#);
    svg.add(format_args!(r#"<svg xmlns="http://www.w3.org/2000/svg" {frame} {font} fill="black">"#));
    svg.add(format_args!(r#"<rect width="{WIDTH}" height="{HEIGHT}" fill="white" stroke="none"/>"#));
    axes(&mut svg);
    bounds(&mut svg);
    for least in found {
        for (bytes, half) in [(least.half, true), (least.any, false)] {
            svg.mark((x(least.shape.size as f64), y(bytes)), least.shape.edition, half);
        }
    }
    legend(&mut svg);
    svg.add(format_args!("</svg>"));
    svg.0
}

fn axes(svg: &mut Svg) {
    for size in [256, 384, 512, 768, 1024, 1536, 2048, 3072, 4096] {
        let at = x(f64::from(size));
        svg.line(&[(at, TOP), (at, BOTTOM)], "#dddddd", "none", 1.0);
        svg.text((at, BOTTOM + 20.0), "middle", "", &size.to_string());
    }
    for bytes in [5, 10, 20, 50, 100, 200, 500, 1000, 2000] {
        let at = y(f64::from(bytes));
        svg.line(&[(LEFT, at), (RIGHT, at)], "#dddddd", "none", 1.0);
        svg.text((LEFT - 8.0, at + 4.5), "end", "", &bytes.to_string());
    }
    svg.line(&[(LEFT, TOP), (LEFT, BOTTOM), (RIGHT, BOTTOM)], "black", "none", 1.2);
    svg.text(
        (LEFT, 30.0),
        "start",
        r#" font-size="16""#,
        "Bytes of frames for each erase: what is proved and the least found",
    );
    svg.text(((LEFT + RIGHT) / 2.0, BOTTOM + 50.0), "middle", "", "S, bytes of a block");
    let (at, middle) = (26.0, (TOP + BOTTOM) / 2.0);
    let turned = format!(r#" transform="rotate(-90 {at} {middle})""#);
    svg.text((at, middle), "middle", &turned, "bytes an erase, B / (E − 1)");
}

/// The shape of a store in blocks of this size.
fn shape(size: usize, edition: u8) -> Shape {
    Shape { blocks: 2, size, edition }
}

fn bounds(svg: &mut Svg) {
    let sizes: Vec<usize> = (256..=4096).step_by(16).collect();
    let doubled: Vec<_> = sizes.iter().map(|size| (x(*size as f64), y((size / 2 + 1) as f64 / 2.0))).collect();
    svg.line(&doubled, "#444444", DASHES[0], 1.6);
    for edition in [2, 1] {
        let asked = |size: &usize| Some((x(*size as f64), y(shape(*size, edition).asked()? as f64)));
        let points: Vec<_> = sizes.iter().filter(|size| **size >= 512).filter_map(asked).collect();
        svg.line(&points, colour(edition), DASHES[1], 1.6);
        let always = y(shape(256, edition).shortest() as f64);
        svg.line(&[(x(256.0), always), (x(4096.0), always)], colour(edition), DASHES[2], 1.6);
    }
}

const DASHES: [&str; 3] = ["none", "8 4", "2 4"];

fn legend(svg: &mut Svg) {
    let (from, text) = (RIGHT + 24.0, RIGHT + 68.0);
    let mut at = TOP + 10.0;
    let mut next = || {
        at += 24.0;
        at - 24.0
    };
    svg.text((from, next()), "start", r#" font-weight="bold""#, "Proved: at least");
    for (colour, dashes, name) in [
        ("#444444", DASHES[0], "2: (S/2 + 1) / 2, C ≤ S/2"),
        (COLOURS[0], DASHES[1], "3: S/2 − 248 + 1, C ≤ S/2"),
        (COLOURS[1], DASHES[1], "3: S/2 − 252 + 1, C ≤ S/2"),
        (COLOURS[0], DASHES[2], "4: 6, any C"),
        (COLOURS[1], DASHES[2], "4: 10, any C"),
    ] {
        let at = next();
        svg.line(&[(from, at - 4.5), (from + 36.0, at - 4.5)], colour, dashes, 1.6);
        svg.text((text, at), "start", "", name);
    }
    next();
    svg.text((from, next()), "start", r#" font-weight="bold""#, "Least found");
    for (edition, half, name) in [
        (1, true, "edition 1, C ≤ S/2"),
        (2, true, "edition 2, C ≤ S/2"),
        (1, false, "edition 1, any C"),
        (2, false, "edition 2, any C"),
    ] {
        let at = next();
        svg.mark((from + 18.0, at - 4.5), edition, half);
        svg.text((text, at), "start", "", name);
    }
    next();
    for (edition, name) in [(1, "blue: edition 1"), (2, "orange: edition 2")] {
        let style = format!(r#" style="fill:{}""#, colour(edition));
        svg.text((from, next()), "start", &style, name);
    }
}
