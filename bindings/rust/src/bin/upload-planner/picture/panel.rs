//! One panel of a picture: its frame with the lines of its scale, and what is drawn in it.

use super::course::Series;
use super::scale::{Across, Scale};
use super::svg::{grouped, Anchor, Path, Svg, Tenths};

/// Where frames begin and end.
pub const LEFT: Tenths = 850;
pub const RIGHT: Tenths = 9_050;

/// The part of a frame before the first interval, in which a starting level is drawn.
pub const LEAD: Tenths = 100;

/// The height of a line of text.
pub const ROW: Tenths = 180;

/// The height of the title, over the lines of the head.
pub const HEAD: Tenths = 380;

/// Of a longer title so many characters are shown of its beginning, and as many of its end. They
/// fit in the width of a picture even where all are capital W.
const TITLE_PART: usize = 27;

/// A character is taken to be this wide, which is more than most are.
const CHARACTER: Tenths = 70;

const FRAME: &str = "fill=\"none\" stroke=\"#000\" stroke-width=\"0.8\"";
const GRID: &str = "stroke=\"#ccc\" stroke-width=\"0.6\"";
const SHADE: &str = "fill=\"#e4e4e4\"";
const LIMIT: &str = "class=\"limit\" stroke=\"#000\" stroke-width=\"1\" stroke-dasharray=\"7 3\"";
const DOTS: &str = "fill=\"none\" stroke=\"#000\" stroke-width=\"1.4\" stroke-dasharray=\"2 2\"";
const WANTED: &str = "stroke=\"#000\" stroke-width=\"3\"";
const BOLD: &str = "font-weight=\"bold\"";

/// How one plan is drawn.
pub struct Ink {
    /// `plan`, or `before` and `after` where there are two.
    pub name: &'static str,
    /// Bars and areas, and how they are drawn where intervals are narrow.
    pub area: &'static str,
    pub narrow_area: &'static str,
    /// Lines, and how they are drawn where intervals are narrow.
    pub line: &'static str,
    pub narrow_line: &'static str,
    /// Pins, and half of their width.
    pub pin: (&'static str, Tenths),
}

/// A plan by itself.
pub const ALONE: Ink = Ink {
    name: "plan",
    area: "fill=\"#bbb\" stroke=\"none\"",
    narrow_area: "fill=\"#bbb\" stroke=\"#888\" stroke-width=\"0.5\"",
    line: "fill=\"none\" stroke=\"#000\" stroke-width=\"1.5\"",
    narrow_line: "fill=\"none\" stroke=\"#000\" stroke-width=\"0.9\"",
    pin: ("fill=\"#000\" stroke=\"#fff\" stroke-width=\"0.8\"", 55),
};

/// The plan before a change.
pub const BEFORE: Ink = Ink {
    name: "before",
    area: "fill=\"#d4d4d4\" stroke=\"none\"",
    narrow_area: "fill=\"#d4d4d4\" stroke=\"none\"",
    line: "fill=\"none\" stroke=\"#aaa\" stroke-width=\"3.4\"",
    narrow_line: "fill=\"none\" stroke=\"#aaa\" stroke-width=\"2.4\"",
    pin: ("fill=\"#fff\" stroke=\"#777\" stroke-width=\"1.6\"", 80),
};

/// The plan after it, drawn over the other.
pub const AFTER: Ink = Ink {
    name: "after",
    area: "fill=\"none\" stroke=\"#000\" stroke-width=\"0.7\"",
    narrow_area: "fill=\"none\" stroke=\"#000\" stroke-width=\"0.4\"",
    line: "fill=\"none\" stroke=\"#000\" stroke-width=\"1.3\"",
    narrow_line: "fill=\"none\" stroke=\"#000\" stroke-width=\"0.8\"",
    pin: ("fill=\"#000\" stroke=\"#fff\" stroke-width=\"0.8\"", 50),
};

/// What stands before the words of a legend.
pub enum Sample {
    Area(&'static Ink),
    Line(&'static Ink),
    Limit,
    Pin(&'static Ink),
    Tick,
    Shade,
    Wanted,
}

/// A panel: a frame across the picture, in which values stand by a scale.
pub struct Panel<'a> {
    pub svg: &'a mut Svg,
    pub across: Across,
    pub scale: Scale,
}

impl Panel<'_> {
    /// A shade over the first intervals, lines at some intervals, the lines of the scale and the
    /// frame.
    pub fn frame(&mut self, shaded: usize, intervals: &[usize]) {
        let (top, bottom) = (self.scale.top(), self.scale.bottom());
        if shaded > 0 {
            let (from, to) = (self.across.end(0), self.across.end(shaded));
            self.svg.rectangle((from, top), (to, bottom), &format!("class=\"shade\" {SHADE}"));
        }
        for t in intervals {
            let x = self.across.middle(*t);
            self.svg.line((x, top), (x, bottom), GRID);
        }
        for value in self.scale.lines() {
            self.scale_line(value);
        }
        self.svg.rectangle((LEFT, top), (RIGHT, bottom), FRAME);
    }

    /// A line of the scale and its number.
    fn scale_line(&mut self, value: u32) {
        let y = self.scale.place(value);
        self.svg.line((LEFT - 40, y), (RIGHT, y), &format!("class=\"scale\" {GRID}"));
        let number = grouped(value.into());
        self.svg.text((LEFT - 70, y + 45), Anchor::End, "class=\"scale\"", &number);
    }

    /// The panel's name over the frame, and behind it what the signs in it are.
    pub fn legend(&mut self, name: &str, signs: &[(Sample, String)]) {
        let y = self.scale.top() - 80;
        self.svg.open("class=\"legend\"");
        self.svg.text((LEFT, y), Anchor::Start, BOLD, name);
        // Bold characters are wider.
        let mut x = LEFT + CHARACTER * 5 / 4 * name.len() as Tenths;
        for (sample, words) in signs {
            x += 110;
            sign(self.svg, (x, y), sample);
            x += 280;
            self.svg.text((x, y), Anchor::Start, "font-size=\"12\"", words);
            x += CHARACTER * words.chars().count() as Tenths;
        }
        self.svg.close();
    }

    /// Lines at sizes or drains, with their names at the right. One that is off the scale is only
    /// named.
    pub fn limits(&mut self, limits: &[(&str, u32)]) {
        let mut row = self.scale.top() - ROW;
        let mut falling: Vec<_> = limits.iter().collect();
        falling.sort_by_key(|limit| std::cmp::Reverse(limit.1));
        for (name, value) in falling {
            let y = self.scale.place(*value);
            let mut words = format!("{name} {}", grouped((*value).into()));
            if self.scale.holds(*value) {
                self.svg.line((LEFT, y), (RIGHT, y), LIMIT);
            } else {
                words.insert_str(0, "\u{2191} ");
            }
            // Names that would stand in each other's way stand under each other.
            row = (row + 140).max(y + 45);
            let attributes = "class=\"limit\" font-size=\"12\"";
            self.svg.text((RIGHT + 60, row), Anchor::Start, attributes, &words);
        }
    }

    /// A bar for each number, or one area where bars would be too narrow.
    pub fn bars(&mut self, what: &str, series: &Series, ink: &Ink) {
        if !self.across.is_wide() {
            return self.area(what, series, ink);
        }
        self.svg.open(&format!("class=\"{what} {}\" {}", ink.name, ink.area));
        for (t, value) in series.by_interval() {
            let (from, to) = (self.across.end(t - 1), self.across.end(t));
            let gap = ((to - from) / 8).min(40);
            let y = self.scale.place(value);
            self.svg.rectangle((from + gap, y), (to - gap, self.scale.base()), "");
        }
        self.svg.close();
    }

    /// The numbers as one area.
    pub fn area(&mut self, what: &str, series: &Series, ink: &Ink) {
        let (mut path, base) = (Path::default(), self.scale.base());
        path.start(self.across.end(series.skipped), base);
        for (t, value) in series.by_interval() {
            path.upright(self.scale.place(value));
            path.across(self.across.end(t));
        }
        path.upright(base);
        path.back();
        let area = if self.across.is_wide() { ink.area } else { ink.narrow_area };
        self.svg.path(&path, &format!("class=\"{what} {}\" {area}", ink.name));
    }

    /// The numbers as a line of steps, from the starting level on where there is one.
    pub fn steps(&mut self, what: &str, series: &Series, ink: &Ink) {
        let Some(first) = series.start.or(series.values.first().copied()) else { return };
        let lead = if series.start.is_some() { LEAD } else { 0 };
        let mut path = Path::default();
        path.start(self.across.end(series.skipped) - lead, self.scale.place(first));
        path.across(self.across.end(series.skipped));
        for (t, value) in series.by_interval() {
            path.upright(self.scale.place(value));
            path.across(self.across.end(t));
        }
        let line = if self.across.is_wide() { ink.line } else { ink.narrow_line };
        self.svg.path(&path, &format!("class=\"{what} {}\" {line}", ink.name));
    }

    /// Marks at the choices of pinned units.
    pub fn pins(&mut self, pins: &[(u16, u16)], delay: u16, ink: &Ink) {
        for (unit, choice) in pins {
            let x = self.across.middle(usize::from(unit + delay));
            diamond(self.svg, (x, self.scale.place((*choice).into())), ink);
        }
    }

    /// Short lines at the top of the frame.
    pub fn ticks(&mut self, intervals: &[usize]) {
        self.svg.open("class=\"differs\" stroke=\"#000\" stroke-width=\"1.2\"");
        for t in intervals {
            let (x, top) = (self.across.middle(*t), self.scale.top());
            self.svg.line((x, top), (x, top + 80), "");
        }
        self.svg.close();
    }

    /// The interval of a violation.
    pub fn violated(&mut self, t: usize) {
        let (from, to) = (self.across.end(t - 1), self.across.end(t));
        let (top, bottom) = (self.scale.top(), self.scale.bottom());
        self.svg.rectangle((from, top), (to, bottom), &format!("class=\"violated\" {DOTS}"));
    }

    /// A short thick line: what would be needed, or would be reached, in the interval of a
    /// violation.
    pub fn wanted(&mut self, t: usize, value: u32) {
        let (x, y) = (self.across.middle(t), self.scale.place(value));
        let half = (self.across.end(t) - x).max(50);
        self.svg.line((x - half, y), (x + half, y), &format!("class=\"wanted\" {WANTED}"));
    }
}

/// The title of a picture and the lines under it.
pub fn head(svg: &mut Svg, title: &str, lines: &[String]) {
    svg.open("id=\"head\"");
    let attributes = "font-size=\"16\" font-weight=\"bold\"";
    svg.text((200, 340), Anchor::Start, attributes, &shortened(title));
    for (row, line) in (1..).zip(lines) {
        svg.text((200, HEAD + ROW * row), Anchor::Start, "", line);
    }
    svg.close();
}

/// A title, or of a long one its two ends: the beginning says what it is about, and the end of a
/// path is the name of the file.
fn shortened(title: &str) -> String {
    let characters: Vec<char> = title.chars().collect();
    if characters.len() <= 2 * TITLE_PART + 1 {
        return title.to_string();
    }
    let (first, last) = (&characters[..TITLE_PART], &characters[characters.len() - TITLE_PART..]);
    first.iter().chain(&['\u{2026}']).chain(last).collect()
}

/// The sample of a legend, at the left of its words.
fn sign(svg: &mut Svg, at: (Tenths, Tenths), sample: &Sample) {
    let (x, y) = (at.0, at.1 - 45);
    match sample {
        Sample::Area(ink) => svg.rectangle((x, y - 45), (x + 220, y + 45), ink.area),
        Sample::Shade => svg.rectangle((x, y - 45), (x + 220, y + 45), SHADE),
        Sample::Line(ink) => svg.line((x, y), (x + 220, y), ink.line),
        Sample::Wanted => svg.line((x + 40, y), (x + 180, y), WANTED),
        Sample::Limit => svg.line((x, y), (x + 220, y), LIMIT),
        Sample::Pin(ink) => diamond(svg, (x + 110, y), ink),
        Sample::Tick => {
            svg.line((x + 110, y - 40), (x + 110, y + 40), "stroke=\"#000\" stroke-width=\"1.2\"")
        }
    }
}

/// The mark of a pin.
fn diamond(svg: &mut Svg, (x, y): (Tenths, Tenths), ink: &Ink) {
    let (attributes, half) = ink.pin;
    let mut path = Path::default();
    path.start(x - half, y);
    path.to(x, y - half);
    path.to(x + half, y);
    path.to(x, y + half);
    path.back();
    svg.path(&path, &format!("class=\"pin\" {attributes}"));
}
