//! The least total against the size of the first bucket.

use super::course::Series;
use super::panel::{head, Panel, Sample, ALONE, HEAD, LEFT, RIGHT, ROW};
use super::scale::{Across, Scale};
use super::svg::{grouped, Anchor, Svg, Tenths};

/// The height of the frame.
const HEIGHT: Tenths = 4_000;

/// One panel over the sizes. A size for which there is a plan has only such behind it.
pub fn curve(title: &str, totals: &[(u16, Option<u32>)]) -> String {
    let lines = lines(totals);
    let top = HEAD + ROW * lines.len() as Tenths + 420;
    let bottom = top + HEIGHT;
    let mut svg = Svg::new(bottom + 450, title);
    head(&mut svg, title, &lines);

    let first = totals.first().map_or(0, |of| usize::from(of.0));
    let across = Across { left: LEFT, right: RIGHT, count: totals.len().max(1) };
    let numbers = across.numbers(first, first + across.count - 1);
    let places: Vec<usize> = numbers.iter().map(|size| size - first + 1).collect();
    svg.open("id=\"sizes\"");
    draw_totals(&mut svg, (top, bottom), across, totals, &places);
    svg.close();

    svg.open("id=\"axes\"");
    for (size, place) in numbers.iter().zip(&places) {
        let x = across.middle(*place);
        svg.line((x, bottom), (x, bottom + 50), "stroke=\"#000\" stroke-width=\"0.8\"");
        svg.text((x, bottom + 190), Anchor::Middle, "", &size.to_string());
    }
    let middle = ((LEFT + RIGHT) / 2, bottom + 370);
    svg.text(middle, Anchor::Middle, "", "size of the first bucket (grains)");
    svg.close();
    svg.finish()
}

/// The totals as a line of steps, and a shade where there is no plan.
fn draw_totals(
    svg: &mut Svg,
    (top, bottom): (Tenths, Tenths),
    across: Across,
    totals: &[(u16, Option<u32>)],
    places: &[usize],
) {
    let values: Vec<u32> = totals.iter().filter_map(|of| of.1).collect();
    let skipped = totals.len() - values.len();
    let mut panel = Panel { svg, across, scale: Scale::from_least(top, bottom, &values) };
    panel.frame(skipped, places);
    panel.steps("total", &Series { skipped, start: None, values }, &ALONE);
    let mut signs = vec![(Sample::Line(&ALONE), "least total".to_string())];
    if skipped > 0 {
        signs.push((Sample::Shade, "no plan".into()));
    }
    let name = format!("Distortion{}", panel.scale.remark());
    panel.legend(&name, &signs);
}

/// What the list says in words: its first total, and from where on nothing is gained, in one line
/// where that is from the first on.
fn lines(totals: &[(u16, Option<u32>)]) -> Vec<String> {
    let mut planned = totals.iter().filter_map(|(size, total)| Some((*size, (*total)?)));
    let Some((first, total)) = planned.next() else {
        return vec!["no plan with a bucket of any of these sizes".into()];
    };
    let least = totals.iter().filter_map(|of| of.1).min().unwrap_or(total);
    let enough = totals.iter().find(|of| of.1 == Some(least)).map_or(first, |of| of.0);
    let [total, least] = [total, least].map(|total| grouped(total.into()));
    let largest = totals.last().map_or(first, |of| of.0);
    let on = if enough < largest { " and larger" } else { "" };
    let last = format!("size {enough}{on}: total {least}");
    if enough > first {
        vec![format!("size {first}: total {total}"), last]
    } else {
        vec![last]
    }
}
