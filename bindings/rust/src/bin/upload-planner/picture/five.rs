//! Five panels over the intervals: decoder, buckets, what is sent, choices and distortion.

use super::course::{Course, Series};
use super::panel::{head, Ink, Panel, Sample, HEAD, LEAD, LEFT, RIGHT, ROW};
use super::scale::{Across, Scale};
use super::svg::{Anchor, Path, Svg, Tenths};
use super::Shown;
use upload_planner::{Header, Replayed, Violation};

/// The height of each frame, from the decoder's down.
const HEIGHTS: [Tenths; 5] = [1_700, 1_300, 1_100, 1_500, 1_500];

/// From the end of a frame to the beginning of the next.
const GAP: Tenths = 360;

/// The height of a violation's name.
const NAME: Tenths = 220;

/// Under the last frame: the axes.
const FOOT: Tenths = 500;

/// A plan that is shown and how it is drawn.
pub struct Layer<'a> {
    pub shown: &'a Shown<'a>,
    pub course: Course,
    pub ink: &'static Ink,
}

impl<'a> Layer<'a> {
    pub fn of(shown: &'a Shown<'a>, ink: &'static Ink) -> Layer<'a> {
        Layer { shown, course: Course::of(shown), ink }
    }

    /// The violation and its interval.
    fn violated(&self) -> Option<(Violation, usize)> {
        match *self.shown.found {
            Replayed::Clean(_) => None,
            Replayed::Violated { violation, interval } => Some((violation, interval)),
        }
    }
}

/// A picture of plans of one job, with lines of text at its head.
pub fn five_panels(title: &str, lines: &[String], layers: &[Layer]) -> String {
    let header = &layers[0].shown.contents.header;
    let count = usize::from(header.units + header.delay);
    let sheet = Sheet { across: Across { left: LEFT + LEAD, right: RIGHT, count }, header, layers };
    let violated = layers.iter().filter(|layer| layer.violated().is_some()).count() as Tenths;
    let names = HEAD + ROW * lines.len() as Tenths;
    let first = names + NAME * violated + GAP + 60;
    let height = first + HEIGHTS.iter().sum::<Tenths>() + GAP * 4 + FOOT;

    let mut svg = Svg::new(height, title);
    head(&mut svg, title, lines);
    sheet.violations(&mut svg, names + 60);
    let draws = [Sheet::decoder, Sheet::buckets, Sheet::sent, Sheet::choices, Sheet::distortion];
    let mut top = first;
    for (draw, height) in draws.into_iter().zip(HEIGHTS) {
        draw(&sheet, &mut svg, (top, top + height));
        top += height + GAP;
    }
    sheet.axes(&mut svg, top - GAP);
    svg.finish()
}

/// What the five panels have in common.
struct Sheet<'a> {
    across: Across,
    header: &'a Header,
    layers: &'a [Layer<'a>],
}

impl Sheet<'_> {
    fn decoder(&self, svg: &mut Svg, (top, bottom): (Tenths, Tenths)) {
        let size = u32::from(self.header.decoder);
        let marks = self.layers.iter().filter_map(decoder_mark);
        let marked = marks.map(|(_, value, _)| value).max().unwrap_or(0);
        let reached = self.greatest(|course| &course.peaks).max(marked);
        let scale = Scale::from_zero(top, bottom, within_sight(size, reached));
        let mut panel = self.panel(svg, "decoder", scale);
        for layer in self.layers {
            panel.bars("peaks", &layer.course.peaks, layer.ink);
        }
        for layer in self.layers {
            panel.steps("level", &layer.course.decoder, layer.ink);
        }
        panel.limits(&[("size", size)]);
        let mut signs = self.signs("peak", " before the unit leaves", Sample::Area);
        signs.extend(self.signs("level", " after it", Sample::Line));
        if self.header.delay > 0 {
            signs.push((Sample::Shade, "delay".into()));
        }
        for layer in self.layers {
            let Some((t, value, words)) = decoder_mark(layer) else { continue };
            panel.wanted(t, value);
            signs.push((Sample::Wanted, words.into()));
        }
        self.end(panel, "Decoder (grains)", &signs);
    }

    fn buckets(&self, svg: &mut Svg, (top, bottom): (Tenths, Tenths)) {
        let sizes =
            self.by_bucket("size", self.header.bucket, self.header.second.map(|of| of.size));
        let size = sizes.iter().map(|of| of.1).max().unwrap_or(0);
        let over = self.layers.iter().filter_map(|layer| layer.course.left(layer.shown));
        let reached = over.map(|(_, left)| left).max().unwrap_or(0);
        let scale = Scale::from_zero(top, bottom, within_sight(size, reached));
        let mut panel = self.panel(svg, "buckets", scale);
        for layer in self.layers {
            if let Some(second) = &layer.course.second {
                panel.area("second", second, layer.ink);
            }
        }
        for layer in self.layers {
            panel.steps("first", &layer.course.bucket, layer.ink);
        }
        panel.limits(&sizes);
        let (name, mut signs) = self.bucket_signs();
        for layer in self.layers {
            let Some((t, left)) = layer.course.left(layer.shown) else { continue };
            panel.wanted(t, left);
            signs.push((Sample::Wanted, "would be left".into()));
        }
        self.end(panel, name, &signs);
    }

    /// The name of the second panel and its legend.
    fn bucket_signs(&self) -> (&'static str, Vec<(Sample, String)>) {
        if self.header.second.is_none() {
            return ("Bucket (grains)", self.signs("level", "", Sample::Line));
        }
        let mut signs = self.signs("first", " bucket's level", Sample::Line);
        signs.extend(self.signs("second", " bucket's level", Sample::Area));
        ("Buckets (grains)", signs)
    }

    fn sent(&self, svg: &mut Svg, (top, bottom): (Tenths, Tenths)) {
        let drains =
            self.by_bucket("drain", self.header.drain, self.header.second.map(|of| of.drain));
        let sent = self.greatest(|course| &course.sent);
        // A drain far over all that is sent would leave no height for the bars.
        let near = drains.iter().map(|of| of.1).filter(|drain| *drain <= 3 * sent.max(5));
        let scale = Scale::from_zero(top, bottom, near.max().unwrap_or(0).max(sent));
        let mut panel = self.panel(svg, "sent", scale);
        for layer in self.layers {
            panel.bars("sent", &layer.course.sent, layer.ink);
        }
        panel.limits(&drains);
        let mut signs = self.signs("sent", " in the interval", Sample::Area);
        let words = if drains.len() == 1 { "drain of the bucket" } else { "drains of the buckets" };
        signs.push((Sample::Limit, words.into()));
        self.end(panel, "Sent (grains)", &signs);
    }

    fn choices(&self, svg: &mut Svg, (top, bottom): (Tenths, Tenths)) {
        let pins = self.layers.iter().flat_map(|layer| layer.shown.pins);
        let pinned = pins.map(|(_, choice)| u32::from(*choice)).max().unwrap_or(0);
        let last = self.greatest(|course| &course.choices).max(pinned);
        let mut panel = self.panel(svg, "choices", Scale::from_zero(top, bottom, last));
        for layer in self.layers {
            panel.steps("choice", &layer.course.choices, layer.ink);
        }
        for layer in self.layers {
            panel.pins(layer.shown.pins, self.header.delay, layer.ink);
        }
        let mut signs = self.signs("choice", " of the unit", Sample::Line);
        let pins = self.signs("pin", "", Sample::Pin).into_iter().zip(self.layers);
        signs.extend(pins.filter(|(_, of)| !of.shown.pins.is_empty()).map(|(sign, _)| sign));
        if let [before, after] = self.layers {
            let differing = self.differing(before, after);
            panel.ticks(&differing);
            signs.push((Sample::Tick, format!("units that differ: {}", differing.len())));
        }
        self.end(panel, "Choices", &signs);
    }

    fn distortion(&self, svg: &mut Svg, (top, bottom): (Tenths, Tenths)) {
        let each = self.layers.iter().map(|layer| &layer.course.distortions.values[..]);
        let all: Vec<u32> = each.collect::<Vec<_>>().concat();
        let scale = Scale::logarithmic(top, bottom, &all);
        let name = format!("Distortion{}", scale.remark());
        let mut panel = self.panel(svg, "distortion", scale);
        for layer in self.layers {
            panel.steps("distortion", &layer.course.distortions, layer.ink);
        }
        let signs = self.signs("distortion", " of the unit", Sample::Line);
        self.end(panel, &name, &signs);
    }

    /// Begins a panel.
    fn panel<'b>(&self, svg: &'b mut Svg, name: &str, scale: Scale) -> Panel<'b> {
        svg.open(&format!("id=\"{name}\""));
        let mut panel = Panel { svg, across: self.across, scale };
        panel.frame(self.header.delay.into(), &self.numbered());
        panel
    }

    /// Ends a panel: the intervals of violations, its name and its legend.
    fn end(&self, mut panel: Panel, name: &str, signs: &[(Sample, String)]) {
        for (_, t) in self.layers.iter().filter_map(Layer::violated) {
            panel.violated(t);
        }
        panel.legend(name, signs);
        panel.svg.close();
    }

    /// The words of a legend for each plan: a word and what it means, or where there are two plans
    /// the word and whose it is.
    fn signs(
        &self,
        word: &str,
        meaning: &str,
        sample: impl Fn(&'static Ink) -> Sample,
    ) -> Vec<(Sample, String)> {
        let words = |layer: &Layer| match self.layers {
            [_] => format!("{word}{meaning}"),
            _ => format!("{word} {}", layer.ink.name),
        };
        self.layers.iter().map(|layer| (sample(layer.ink), words(layer))).collect()
    }

    /// The name and the value of a limit, of two buckets those of both.
    fn by_bucket<'b>(&self, name: &'b str, first: u16, second: Option<u16>) -> Vec<(&'b str, u32)> {
        match second {
            None => vec![(name, first.into())],
            Some(second) => vec![("first", first.into()), ("second", second.into())],
        }
    }

    /// The intervals that are numbered.
    fn numbered(&self) -> Vec<usize> {
        self.across.numbers(1, self.across.count)
    }

    /// The greatest of a series in any of the plans.
    fn greatest(&self, series: impl Fn(&Course) -> &Series) -> u32 {
        self.layers.iter().map(|layer| series(&layer.course).greatest()).max().unwrap_or(0)
    }

    /// The intervals whose units have another choice.
    fn differing(&self, before: &Layer, after: &Layer) -> Vec<usize> {
        let [before, after] = [before, after].map(|layer| layer.course.choices.by_interval());
        before.zip(after).filter(|(before, after)| before != after).map(|(of, _)| of.0).collect()
    }

    /// The numbers of intervals and units under the last frame.
    fn axes(&self, svg: &mut Svg, bottom: Tenths) {
        svg.open("id=\"axes\"");
        svg.text((LEFT - 70, bottom + 190), Anchor::End, "", "interval");
        for t in self.numbered() {
            let x = self.across.middle(t);
            svg.line((x, bottom), (x, bottom + 50), "stroke=\"#000\" stroke-width=\"0.8\"");
            svg.text((x, bottom + 190), Anchor::Middle, "", &t.to_string());
        }
        svg.text((LEFT - 70, bottom + 370), Anchor::End, "", "unit");
        for unit in self.across.numbers(1, self.header.units.into()) {
            let x = self.across.middle(unit + usize::from(self.header.delay));
            svg.text((x, bottom + 370), Anchor::Middle, "", &unit.to_string());
        }
        svg.close();
    }

    /// The names of violations, each over its interval and in a row of its own.
    fn violations(&self, svg: &mut Svg, top: Tenths) {
        let mut row = top;
        for layer in self.layers {
            if let Some((violation, t)) = layer.violated() {
                row += NAME;
                let words = format!("{}{violation} in interval {t}", self.whose(layer));
                self.violation(svg, row, t, &words);
            }
        }
    }

    /// Whose violation it is, where there are two plans.
    fn whose(&self, layer: &Layer) -> String {
        match self.layers {
            [_] => String::new(),
            _ => format!("{}: ", layer.ink.name),
        }
    }

    fn violation(&self, svg: &mut Svg, row: Tenths, t: usize, words: &str) {
        let x = self.across.middle(t);
        let mut arrow = Path::default();
        arrow.start(x - 50, row - 90);
        arrow.to(x + 50, row - 90);
        arrow.to(x, row);
        arrow.back();
        svg.open("class=\"violation\"");
        svg.path(&arrow, "fill=\"#000\"");
        let left = x < (LEFT + RIGHT) / 2;
        let (at, anchor) = if left { (x + 90, Anchor::Start) } else { (x - 90, Anchor::End) };
        svg.text((at, row), anchor, "font-weight=\"bold\"", words);
        svg.close();
    }
}

/// What the decoder would have had to hold or to give in the interval of a violation of it.
fn decoder_mark(layer: &Layer) -> Option<(usize, u32, &'static str)> {
    let (violation, t) = layer.violated()?;
    match violation {
        Violation::DecoderOver => Some((t, layer.course.peaks.at(t)?, "peak over the size")),
        Violation::DecoderShort => {
            Some((t, layer.course.taken(layer.shown, t), "what the unit takes"))
        }
        _ => None,
    }
}

/// The greatest value of a scale that is to show a size and what was reached. A violation may pass
/// the size many times, and would leave no height for the rest; it is then cut.
fn within_sight(size: u32, reached: u32) -> u32 {
    size.max(reached.min(2 * size.max(1)))
}
