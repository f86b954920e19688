//! What commands print: tables with aligned columns, and totals.

use upload_planner::{Contents, Entry, Levels, Totals};

/// What a table says where there is nothing to say.
pub const NONE: &str = "-";

/// A number, or the mark for none.
pub fn cell(number: Option<impl ToString>) -> String {
    number.map_or_else(|| NONE.to_string(), |number| number.to_string())
}

/// The lines of a table, columns aligned to the right. No cell is empty and none has a blank, so
/// that a program can split them again.
pub fn aligned(head: &[&str], rows: &[Vec<String>]) -> Vec<String> {
    let head: Vec<String> = head.iter().map(|name| name.to_string()).collect();
    let widths: Vec<usize> = (0..head.len()).map(|column| width(&head, rows, column)).collect();
    let lines = [head].into_iter().chain(rows.iter().cloned());
    lines.map(|cells| line(&cells, &widths)).collect()
}

fn width(head: &[String], rows: &[Vec<String>], column: usize) -> usize {
    let cells = rows.iter().map(|row| row[column].len());
    cells.fold(head[column].len(), usize::max)
}

fn line(cells: &[String], widths: &[usize]) -> String {
    let cells = cells.iter().zip(widths).map(|(cell, width)| format!("{cell:>width$}"));
    cells.collect::<Vec<String>>().join("  ")
}

/// The lines of a table as a text.
pub fn text(lines: &[String]) -> String {
    lines.iter().map(|line| format!("{line}\n")).collect()
}

/// The totals of a plan, a line each: its name, then the number.
pub fn totals(totals: &Totals) -> String {
    let mut named = vec![
        ("total distortion", totals.distortion),
        ("source grains", totals.source_grains),
        ("channel grains", totals.channel_grains),
        ("unused grains", totals.unused_grains),
    ];
    named.extend(totals.second_unused.map(|unused| ("second unused grains", unused)));
    named.iter().map(|(name, number)| format!("{name:<20}  {number}\n")).collect()
}

/// A plan with what it leads to.
pub struct Listed<'a> {
    pub contents: &'a Contents,
    pub pins: &'a [(u16, u16)],
    pub entries: &'a [u8],
    /// The grains that each interval sends.
    pub sent: &'a [u16],
    /// The levels after each interval before the first violation, or after all.
    pub levels: &'a [Levels],
}

/// The grains that entries send at these rates.
pub fn sent(entries: &[u8], rates: &[u16]) -> Vec<u16> {
    Entry::each(entries).map(|entry| rates[usize::from(entry.rate)]).collect()
}

impl Listed<'_> {
    /// A line for each interval, up to that of the first violation, which has no levels.
    pub fn table(&self) -> String {
        let mut head = vec!["interval", "rate", "sent", "unit", "choice", "pin", "grains"];
        head.extend(["distortion", "peak", "decoder", "bucket"]);
        head.extend(self.contents.header.second.map(|_| "second"));
        let entries = Entry::each(self.entries).enumerate().take(self.levels.len() + 1);
        let rows: Vec<Vec<String>> = entries.map(|(place, entry)| self.row(place, entry)).collect();
        text(&aligned(&head, &rows))
    }

    /// The cells of the interval behind so many others.
    fn row(&self, place: usize, entry: Entry) -> Vec<String> {
        let sent = self.sent[place];
        let mut row = vec![(place + 1).to_string(), entry.rate.to_string(), sent.to_string()];
        row.extend(self.unit_cells(place, entry));
        row.push((u32::from(self.held_before(place)) + u32::from(sent)).to_string());
        let levels = self.levels.get(place);
        row.push(cell(levels.map(|levels| levels.decoder)));
        row.push(cell(levels.map(|levels| levels.bucket)));
        if self.contents.header.second.is_some() {
            row.push(cell(levels.and_then(|levels| levels.second)));
        }
        row
    }

    /// The unit that an interval decodes, its choice, whether it is pinned, and what it takes and
    /// loses.
    fn unit_cells(&self, place: usize, entry: Entry) -> [String; 5] {
        let Some(choice) = entry.choice else { return [NONE; 5].map(str::to_string) };
        let unit = (place + 1) as u16 - self.contents.header.delay;
        let pinned = self.pins.iter().any(|(pinned, _)| *pinned == unit);
        let pin = if pinned { "*" } else { NONE };
        let coding = self.contents.coding(unit, choice);
        let (grains, distortion) = (coding.map(|of| of.0), coding.map(|of| of.1));
        [unit.to_string(), choice.to_string(), pin.to_string(), cell(grains), cell(distortion)]
    }

    /// What the decoder holds before an interval.
    fn held_before(&self, place: usize) -> u16 {
        match place {
            0 => self.contents.header.level,
            _ => self.levels[place - 1].decoder,
        }
    }
}
