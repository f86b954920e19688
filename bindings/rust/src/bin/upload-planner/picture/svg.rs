//! The text of an SVG picture. Lengths are whole numbers of tenths of a pixel, so that the same
//! picture is the same text on every machine.

use std::fmt::Write;

/// Tenths of a pixel.
pub type Tenths = i64;

/// How wide every picture is.
pub const WIDTH: Tenths = 10_000;

/// Where a text stands by its place.
#[derive(Clone, Copy)]
pub enum Anchor {
    Start,
    Middle,
    End,
}

/// A picture that is being written, an element in each line.
pub struct Svg {
    text: String,
}

impl Svg {
    /// A white sheet with this title.
    pub fn new(height: Tenths, title: &str) -> Svg {
        let (width, height) = (length(WIDTH), length(height));
        let mut text = String::from("<?xml version=\"1.0\" encoding=\"UTF-8\"?>\n");
        text += "<svg xmlns=\"http://www.w3.org/2000/svg\" version=\"1.1\"";
        text += &format!(" width=\"{width}\" height=\"{height}\"");
        text += &format!(" viewBox=\"0 0 {width} {height}\"");
        text += " font-family=\"sans-serif\" font-size=\"13\">\n";
        text += &format!("<title>{}</title>\n", escaped(title));
        text += &format!("<rect width=\"{width}\" height=\"{height}\" fill=\"#fff\"/>\n");
        Svg { text }
    }

    /// The whole text.
    pub fn finish(mut self) -> String {
        self.text += "</svg>\n";
        self.text
    }

    /// Begins a group; what is drawn until it is closed takes these attributes.
    pub fn open(&mut self, attributes: &str) {
        self.put(format_args!("<g {attributes}>"));
    }

    /// Ends the group that was begun last.
    pub fn close(&mut self) {
        self.put(format_args!("</g>"));
    }

    /// A line from one place to another.
    pub fn line(&mut self, from: (Tenths, Tenths), to: (Tenths, Tenths), attributes: &str) {
        let [x1, y1, x2, y2] = [from.0, from.1, to.0, to.1].map(length);
        let places = format!("x1=\"{x1}\" y1=\"{y1}\" x2=\"{x2}\" y2=\"{y2}\"");
        self.put(format_args!("<line {places} {attributes}/>"));
    }

    /// A rectangle by its upper left corner and its lower right one.
    pub fn rectangle(&mut self, from: (Tenths, Tenths), to: (Tenths, Tenths), attributes: &str) {
        let [x, y, width, height] = [from.0, from.1, to.0 - from.0, to.1 - from.1].map(length);
        let places = format!("x=\"{x}\" y=\"{y}\" width=\"{width}\" height=\"{height}\"");
        self.put(format_args!("<rect {places} {attributes}/>"));
    }

    /// A path.
    pub fn path(&mut self, path: &Path, attributes: &str) {
        self.put(format_args!("<path d=\"{}\" {attributes}/>", path.steps));
    }

    /// A text whose base line is at this place.
    pub fn text(&mut self, at: (Tenths, Tenths), anchor: Anchor, attributes: &str, text: &str) {
        let anchor = match anchor {
            Anchor::Start => "start",
            Anchor::Middle => "middle",
            Anchor::End => "end",
        };
        let places =
            format!("x=\"{}\" y=\"{}\" text-anchor=\"{anchor}\"", length(at.0), length(at.1));
        self.put(format_args!("<text {places} {attributes}>{}</text>", escaped(text)));
    }

    fn put(&mut self, element: std::fmt::Arguments) {
        writeln!(self.text, "{element}").expect("a string takes all that is written");
    }
}

/// The outline of a shape, from place to place.
#[derive(Default)]
pub struct Path {
    steps: String,
}

impl Path {
    /// Begins at a place.
    pub fn start(&mut self, x: Tenths, y: Tenths) {
        self.add(&format!("M{} {}", length(x), length(y)));
    }

    /// Goes straight to a place.
    pub fn to(&mut self, x: Tenths, y: Tenths) {
        self.add(&format!("L{} {}", length(x), length(y)));
    }

    /// Goes across.
    pub fn across(&mut self, x: Tenths) {
        self.add(&format!("H{}", length(x)));
    }

    /// Goes up or down.
    pub fn upright(&mut self, y: Tenths) {
        self.add(&format!("V{}", length(y)));
    }

    /// Goes back to where it began.
    pub fn back(&mut self) {
        self.add("Z");
    }

    fn add(&mut self, step: &str) {
        if !self.steps.is_empty() {
            self.steps.push(' ');
        }
        self.steps += step;
    }
}

/// Pixels with one decimal, or with none where it would be 0.
fn length(tenths: Tenths) -> String {
    let sign = if tenths < 0 { "-" } else { "" };
    let (whole, rest) = (tenths.abs() / 10, tenths.abs() % 10);
    match rest {
        0 => format!("{sign}{whole}"),
        _ => format!("{sign}{whole}.{rest}"),
    }
}

/// The text with names for the characters that have a meaning in XML, and a mark in place of
/// those that XML does not allow.
fn escaped(text: &str) -> String {
    let name = |character: char| match character {
        '&' => "&amp;".into(),
        '<' => "&lt;".into(),
        '>' => "&gt;".into(),
        '"' => "&quot;".into(),
        '\'' => "&apos;".into(),
        '\u{FFFE}' | '\u{FFFF}' => "\u{FFFD}".into(),
        _ if character.is_control() => "\u{FFFD}".into(),
        _ => character.to_string(),
    };
    text.chars().map(name).collect()
}

/// A number with a comma before each three digits.
pub fn grouped(number: u64) -> String {
    match number / 1000 {
        0 => number.to_string(),
        thousands => format!("{},{:03}", grouped(thousands), number % 1000),
    }
}
