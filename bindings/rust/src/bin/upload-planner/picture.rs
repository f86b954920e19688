//! Pictures of plans as SVG: black and grey on white, for the screen and for print.

mod course;
mod five;
mod panel;
mod scale;
mod sizes;
mod svg;

use five::{five_panels, Layer};
use panel::{AFTER, ALONE, BEFORE};
use svg::grouped;
use upload_planner::{Contents, Levels, Replayed, Totals};

/// What is shown: a plan of a job with pins, and what replay says of it.
pub struct Shown<'a> {
    /// The job.
    pub contents: &'a Contents,
    /// The units that are pinned, and their choices.
    pub pins: &'a [(u16, u16)],
    /// The plan, as replay takes it.
    pub entries: &'a [u8],
    /// The levels of the intervals before the violation, or of all.
    pub levels: &'a [Levels],
    /// What replay found.
    pub found: &'a Replayed,
}

/// A plan in five panels over the intervals.
pub fn of_plan(title: &str, shown: &Shown) -> String {
    let layer = Layer::of(shown, &ALONE);
    let found = result(&layer);
    five_panels(title, &[facts(shown), found], &[layer])
}

/// Two plans of a job over each other, before and after a change of the pins.
pub fn of_two(title: &str, before: &Shown, after: &Shown) -> String {
    let layers = [Layer::of(before, &BEFORE), Layer::of(after, &AFTER)];
    let [first, second] =
        [&layers[0], &layers[1]].map(|of| format!("{}: {}", of.ink.name, result(of)));
    let mut head = vec![facts(after), first, second];
    if let (Replayed::Clean(before), Replayed::Clean(after)) = (before.found, after.found) {
        head.push(format!("difference: {}", difference(before, after)));
    }
    five_panels(title, &head, &layers)
}

/// The least total against the size of the first bucket; `None` where there is no plan.
pub fn of_sizes(title: &str, totals: &[(u16, Option<u32>)]) -> String {
    sizes::curve(title, totals)
}

/// The job in a line.
fn facts(shown: &Shown) -> String {
    let header = &shown.contents.header;
    let bucket = |name, size, drain| format!("{name} {size}, drain {}", grouped(u64::from(drain)));
    let mut parts = vec![
        format!("{}, delay {}", counted(header.units, "unit"), header.delay),
        counted(header.units + header.delay, "interval"),
        format!("decoder {}", header.decoder),
        bucket("bucket", header.bucket, header.drain),
    ];
    parts.extend(header.second.map(|of| bucket("second bucket", of.size, of.drain)));
    parts.push(counted(header.rates, "rate"));
    parts.push(counted(header.choices, "choice"));
    parts.join("; ")
}

/// A count of things.
fn counted(count: u16, thing: &str) -> String {
    let ending = if count == 1 { "" } else { "s" };
    format!("{} {thing}{ending}", grouped(count.into()))
}

/// The totals of a plan, or its violation.
fn result(layer: &Layer) -> String {
    match layer.shown.found {
        Replayed::Clean(totals) => totals_line(totals),
        Replayed::Violated { .. } => layer.course.of_violation(layer.shown).unwrap_or_default(),
    }
}

fn totals_line(totals: &Totals) -> String {
    let [distortion, source, channel, unused] =
        [totals.distortion, totals.source_grains, totals.channel_grains, totals.unused_grains]
            .map(grouped);
    let line = format!(
        "distortion {distortion}; grains: source {source}, channel {channel}, unused {unused}"
    );
    match totals.second_unused {
        Some(second) => line + &format!(", of the second bucket {}", grouped(second)),
        None => line,
    }
}

/// What the totals gained or lost.
fn difference(before: &Totals, after: &Totals) -> String {
    let [distortion, source, channel, unused] = [
        (before.distortion, after.distortion),
        (before.source_grains, after.source_grains),
        (before.channel_grains, after.channel_grains),
        (before.unused_grains, after.unused_grains),
    ]
    .map(signed);
    let line = format!(
        "distortion {distortion}; grains: source {source}, channel {channel}, unused {unused}"
    );
    match (before.second_unused, after.second_unused) {
        (Some(before), Some(after)) => {
            line + &format!(", of the second bucket {}", signed((before, after)))
        }
        _ => line,
    }
}

/// A difference with its sign.
fn signed((before, after): (u64, u64)) -> String {
    match after.checked_sub(before) {
        Some(0) => "0".into(),
        Some(more) => format!("+{}", grouped(more)),
        None => format!("\u{2212}{}", grouped(before - after)),
    }
}
