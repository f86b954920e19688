//! A job as text: `show` and `make`.

use upload_planner::{written, Bucket, Contents, Header};

use crate::arguments::{Command, Given};
use crate::fields::{self, Field, Fields, FIELDS, RATES};
use crate::files;
use crate::jobs::Job;
use crate::trouble::{Failure, Trouble};
use crate::words::{quoted, small, there, whole, NOT_WHOLE};

pub const SHOW: Command = Command {
    name: "show",
    summary: "prints a job as text",
    usage: "JOB",
    files: &["JOB"],
    many: false,
    writes: false,
    options: &[],
    help: "\
Prints a job as text, in the form that make reads: lines of a name and its
value, the rates, then a table of unit, choice, grains and distortion.

JOB is a file with the bytes of a job, or - for standard input. Bytes behind
the job are not looked at. A stored job whose line never drains is shown too;
make refuses its text until the drain is corrected.

Example: correct a distortion in an editor of text.
    upload-planner show job.bin > job.txt
    upload-planner make job.txt corrected.bin
",
    run: show,
};

pub const MAKE: Command = Command {
    name: "make",
    summary: "makes a job from text",
    usage: "TEXT JOB",
    files: &["TEXT", "JOB"],
    many: false,
    writes: true,
    options: &[],
    help: "\
Makes a job from text and writes its bytes to the file JOB. TEXT is a file, or
- for standard input; with - for JOB the bytes go to standard output.

    # Job A
    units 2
    delay 1
    decoder 4
    bucket 3
    drain 2
    choices 2
    rates 0 2 4
    unit choice grains distortion
    1 0 4 10
    1 1 2 30
    2 0 5 12
    2 1 2 40

Above the table each name stands once, in any order, in small letters or in
capitals. decoder-level and bucket-level may be left out and are then 0. Where
the carrier has two buckets, second-bucket and second-drain stand there too,
and second-level may. In the table each choice of each unit stands once, in any
order.

Columns are parted by blanks, or by a comma or semicolon, as in the CSV of a
spreadsheet. What follows # is a comment. An error names the line, the unit,
the choice and the limit; then nothing is written.

Example:
    upload-planner make job.csv job.bin
",
    run: make,
};

/// The head of the table.
const HEAD: [&str; 4] = ["unit", "choice", "grains", "distortion"];

/// Over three times what `show` prints of the largest job: there is room for comments.
const LONGEST_TEXT: usize = 64_000_000;

const MOST_RATE: u16 = 4095;
const MOST_GRAINS: u16 = 4095;
const MOST_DISTORTION: u32 = 1_000_000;

fn show(given: &Given, output: &mut Vec<u8>) -> Result<(), Failure> {
    let job = Job::stored_without_pins(&given.files()[0])?;
    output.extend(shown(&job.contents).into_bytes());
    Ok(())
}

fn make(given: &Given, output: &mut Vec<u8>) -> Result<(), Failure> {
    let [text, job] = given.files() else { unreachable!("make takes two files") };
    let bytes = files::read(text, LONGEST_TEXT)?;
    if bytes.len() > LONGEST_TEXT {
        let words = format!("the text is longer than {LONGEST_TEXT} bytes");
        return Err(Trouble::Text(words).about(files::name(text)));
    }
    // Names and numbers are plain letters and digits; in a comment any bytes may stand.
    let read = job_of(&String::from_utf8_lossy(&bytes));
    let made = read.map_err(|failure| failure.within(&files::name(text)))?;
    Ok(files::put(job, &made, output)?)
}

/// The text of a job.
fn shown(contents: &Contents) -> String {
    let numbers = header_numbers(&contents.header);
    let header: String =
        numbers.iter().map(|(name, number)| format!("{name:<14} {number}\n")).collect();
    let rates: Vec<String> = contents.rates.iter().map(u16::to_string).collect();
    let [unit, choice, grains, distortion] = HEAD;
    let head = format!("{unit}  {choice}  {grains}  {distortion}\n");
    format!("{header}{RATES:<14} {}\n\n{head}{}", rates.join(" "), shown_table(contents))
}

fn header_numbers(header: &Header) -> Vec<(&'static str, u16)> {
    let mut numbers = vec![
        ("units", header.units),
        ("delay", header.delay),
        ("decoder", header.decoder),
        ("bucket", header.bucket),
        ("drain", header.drain),
        ("decoder-level", header.level),
        ("bucket-level", header.fill),
    ];
    if let Some(Bucket { size, drain, level }) = header.second {
        numbers.extend([("second-bucket", size), ("second-drain", drain), ("second-level", level)]);
    }
    numbers.push(("choices", header.choices));
    numbers
}

/// The lines of the table; the words of its head are wider than every number below them.
fn shown_table(contents: &Contents) -> String {
    let choices = usize::from(contents.header.choices);
    let codings = contents.sizes.iter().zip(&contents.distortions);
    let lines = codings.enumerate().map(|(place, (grains, distortion))| {
        let (unit, choice) = (place / choices + 1, place % choices);
        format!("{unit:>4}  {choice:>6}  {grains:>6}  {distortion:>10}\n")
    });
    lines.collect()
}

/// A line of a text that is not blank.
struct Line<'a> {
    /// Counted from 1.
    number: usize,
    cells: Vec<&'a str>,
}

fn lines_of(text: &str) -> impl Iterator<Item = Line<'_>> {
    // Spreadsheets may put this mark at the beginning of a file.
    let text = text.strip_prefix('\u{feff}').unwrap_or(text);
    let lines = text.lines().enumerate();
    let lines = lines.map(|(before, line)| Line { number: before + 1, cells: cells_of(line) });
    lines.filter(|line| !line.cells.is_empty())
}

/// The cells of a line. A spreadsheet fills each line up to the longest one, so that empty cells at
/// the end are left out.
fn cells_of(line: &str) -> Vec<&str> {
    let line = line.split('#').next().unwrap_or_default();
    let mut cells: Vec<&str> = line.split([',', ';']).flat_map(words_of).collect();
    let filled = cells.iter().rposition(|cell| !cell.is_empty());
    cells.truncate(filled.map_or(0, |last| last + 1));
    cells
}

/// The words between two separators, without quotes; nothing there is an empty one.
fn words_of(part: &str) -> Vec<&str> {
    let words: Vec<&str> = part.split_whitespace().map(|word| word.trim_matches('"')).collect();
    if words.is_empty() {
        return vec![""];
    }
    words
}

/// The bytes of the job of a text.
fn job_of(text: &str) -> Result<Vec<u8>, Failure> {
    let mut lines = lines_of(text);
    let above = Above::read(&mut lines)?;
    let header = above.fields.header();
    let table = Table::read(&header, &mut lines)?;
    let made = written(&header, &above.rates, &table.sizes, &table.distortions);
    made.map_err(|refusal| above.fields.refused(refusal))
}

fn wrong(line: usize, words: String) -> Trouble {
    Trouble::Text(format!("line {line}: {words}"))
}

/// What stands above the table.
#[derive(Default)]
struct Above {
    fields: Fields,
    rates: Vec<u16>,
}

impl Above {
    /// Reads the lines up to the head of the table.
    fn read<'a>(lines: &mut impl Iterator<Item = Line<'a>>) -> Result<Above, Trouble> {
        let mut above = Above::default();
        for line in lines {
            if is_head(&line.cells) {
                above.check(line.number)?;
                return Ok(above);
            }
            above.take(&line)?;
        }
        Err(Trouble::Text(format!("the table is missing; its head is: {}", HEAD.join(" "))))
    }

    fn take(&mut self, line: &Line) -> Result<(), Trouble> {
        let (name, values) = (line.cells[0], &line.cells[1..]);
        let Some(field) = fields::named(name) else {
            return Err(wrong(line.number, unknown(name)));
        };
        if let Some(place) = self.fields.place(field.name) {
            return Err(wrong(line.number, format!("{} was given before, in {place}", field.name)));
        }
        match field.name {
            RATES => self.take_rates(field, line.number, values),
            _ => self.take_number(field, line.number, values),
        }
    }

    fn take_number(
        &mut self,
        field: &'static Field,
        line: usize,
        values: &[&str],
    ) -> Result<(), Trouble> {
        let (name, count) = (field.name, there(values.len()));
        let [word] = values else {
            return Err(wrong(line, format!("{name} takes one number, and {count}")));
        };
        let Some(number) = small(word) else {
            return Err(wrong(line, format!("{name} {} {NOT_WHOLE}", quoted(word))));
        };
        self.fields.give(field, number, format!("line {line}: {name} {word}"));
        Ok(())
    }

    fn take_rates(
        &mut self,
        field: &'static Field,
        line: usize,
        values: &[&str],
    ) -> Result<(), Trouble> {
        let count = u16::try_from(values.len()).unwrap_or(u16::MAX);
        self.fields.give(field, count, format!("line {line}: the number of rates {count}"));
        for word in values {
            self.take_rate(line, word)?;
        }
        Ok(())
    }

    fn take_rate(&mut self, line: usize, word: &str) -> Result<(), Trouble> {
        let place = format!("line {line}: rate {}:", self.rates.len());
        let rate = within(&place, word, 0, MOST_RATE.into())? as u16;
        match self.rates.last() {
            Some(before) if *before >= rate => Err(Trouble::Text(format!(
                "{place} {rate} is not over {before}, the rate before it"
            ))),
            _ => {
                self.rates.push(rate);
                Ok(())
            }
        }
    }

    /// Whether the table can begin in this line.
    fn check(&self, line: usize) -> Result<(), Trouble> {
        if let Some(name) = self.fields.missing() {
            return Err(wrong(line, format!("the table begins, and {name} is missing above it")));
        }
        self.fields.wrong().map_or(Ok(()), |words| Err(Trouble::Text(words)))
    }
}

/// Whether this is the head of the table, which may be written with capitals.
fn is_head(cells: &[&str]) -> bool {
    let mut both = cells.iter().zip(HEAD);
    cells.len() == HEAD.len() && both.all(|(cell, name)| cell.eq_ignore_ascii_case(name))
}

fn unknown(name: &str) -> String {
    let names: Vec<&str> = FIELDS.iter().map(|field| field.name).collect();
    let (names, head) = (names.join(", "), HEAD.join(" "));
    format!("{} is none of the names {names}, and the head of the table is: {head}", quoted(name))
}

/// A number in this range; `place` says what it is and where it stands.
fn within(
    place: &dyn std::fmt::Display,
    word: &str,
    least: u32,
    most: u32,
) -> Result<u32, Trouble> {
    let Some(number) = whole(word) else {
        return Err(Trouble::Text(format!("{place} {} {NOT_WHOLE}", quoted(word))));
    };
    if number < least.into() {
        return Err(Trouble::Text(format!("{place} {word} is under {least}")));
    }
    match u32::try_from(number) {
        Ok(number) if number <= most => Ok(number),
        _ => Err(Trouble::Text(format!("{place} {word} is over {most}"))),
    }
}

/// The table, unit after unit.
struct Table {
    choices: usize,
    units: usize,
    /// The line of each choice of each unit, or 0.
    lines: Vec<usize>,
    sizes: Vec<u16>,
    distortions: Vec<u32>,
}

impl Table {
    fn read<'a>(
        header: &Header,
        lines: &mut impl Iterator<Item = Line<'a>>,
    ) -> Result<Table, Trouble> {
        let [units, choices] = [header.units, header.choices].map(usize::from);
        let count = units * choices;
        let (sizes, distortions) = (vec![0; count], vec![0; count]);
        let mut table = Table { choices, units, lines: vec![0; count], sizes, distortions };
        for line in lines {
            table.take(&line)?;
        }
        table.check()?;
        Ok(table)
    }

    fn take(&mut self, line: &Line) -> Result<(), Trouble> {
        let (number, count) = (line.number, there(line.cells.len()));
        let [unit, choice, grains, distortion] = line.cells[..] else {
            let due = HEAD.join(", ");
            return Err(wrong(number, format!("4 columns are due, {due}, and {count}")));
        };
        let unit = within(&format_args!("line {number}: unit"), unit, 1, self.units as u32)?;
        let place = format_args!("line {number}: unit {unit}, choice");
        let choice = within(&place, choice, 0, self.choices as u32 - 1)?;
        let at = (unit as usize - 1) * self.choices + choice as usize;
        if self.lines[at] > 0 {
            let words = format!("unit {unit}, choice {choice} stands in line {}", self.lines[at]);
            return Err(wrong(number, format!("{words} already")));
        }
        self.lines[at] = number;
        let place = format_args!("line {number}: unit {unit}, choice {choice}: grains");
        self.sizes[at] = within(&place, grains, 0, MOST_GRAINS.into())? as u16;
        let place = format_args!("line {number}: unit {unit}, choice {choice}: distortion");
        self.distortions[at] = within(&place, distortion, 0, MOST_DISTORTION)?;
        Ok(())
    }

    /// Whether each choice of each unit is there.
    fn check(&self) -> Result<(), Trouble> {
        let Some(first) = self.lines.iter().position(|line| *line == 0) else { return Ok(()) };
        let (unit, choice) = (first / self.choices + 1, first % self.choices);
        let others = self.lines[first + 1..].iter().filter(|line| **line == 0).count();
        let more = if others > 0 { format!(", and {others} more") } else { String::new() };
        Err(Trouble::Text(format!(
            "unit {unit}, choice {choice} is missing in the table{more}: it is to have {} units \
             with {} choices",
            self.units, self.choices
        )))
    }
}
