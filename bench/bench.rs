//! Times the library beside straightforward programs for the same work, in one
//! run and in turn, and shows how each function grows with its size. Built and
//! started by `bench/run`.
//!
//! A ratio is the library's time over the plain program's: below 1 the library
//! is faster. Growth is the time over that of the line before it, beside how
//! much the work grew.
//!
//! Planning stands beside two plain programs: four nested loops, with a second
//! bucket five, and the two passes of the library written plainly. All three must
//! give the same table, plan and least distortion. Loops over 1,000 choices would
//! take minutes, and are left out. Even pictures stand beside the least total, a
//! sitting of pins and lifts, seen at once, beside planning anew after each, and a list
//! of what larger buckets bring beside planning for each size.
//!
//! What is timed are trial jobs, so that they can be made again from a header and a
//! state. The headers are those of `Size::header`: the sizes that are printed, a drain of
//! 20, the decoder filled to a third at the start and each bucket to a half. The state is
//! [`STATE`] unless the line names another. A few jobs are made here instead; where they
//! are made, it says why no trial job would do.

use std::hint::black_box;
use std::time::{Duration, Instant};

use upload_planner::{numbers, Aim, Call, Order};

#[allow(dead_code)]
#[path = "../tests/reference.rs"]
mod reference;
use reference::{trial_lists, u16_at, u32_at, Draft, Lists, Rng, Size, FULL, MOST_CHOICES};

const NEVER: u32 = u32::MAX;

/// The choice of an interval that decodes no unit.
const NO_UNIT: u16 = 65_535;

/// The largest job of 31 choices.
const FEWER: Size = Size { choices: 31, ..FULL };

// ---------------------------------------------------------------------------
// The plain programs.
// ---------------------------------------------------------------------------

/// A carrier's bucket and its starting level.
#[derive(Clone, Copy)]
struct Bucket {
    size: usize,
    drain: usize,
    level: usize,
}

/// The outer bucket of a line that has one: nothing stays in it.
const NEUTRAL: Bucket = Bucket { size: 0, drain: usize::MAX, level: 0 };

/// What a reader finds; rates and units stay in the job's bytes.
struct Read<'a> {
    header: [usize; 9],
    second: Option<Bucket>,
    rates: &'a [u8],
    units: &'a [u8],
    taken: usize,
}

/// Checks a whole job.
fn plain_open(job: &[u8]) -> Option<Read<'_>> {
    let two = job.get(2..4)? == [8, 0];
    let body = if two { plain_record(job, 0, 8, 26)? } else { plain_record(job, 0, 1, 20)? };
    let field = |i: usize| u16_at(body, 2 * i) as usize;
    let header: [usize; 9] = std::array::from_fn(field);
    let second = two.then(|| Bucket { size: field(9), drain: field(10), level: field(11) });
    let fits =
        |bucket: Bucket| bucket.size <= 63 && bucket.drain <= 4095 && bucket.level <= bucket.size;
    if !plain_header(&header) || !second.map_or(true, fits) {
        return None;
    }
    let [units, .., rates, choices] = header;
    let after = 4 + body.len();
    let listed = plain_record(job, after, 2, 2 + 2 * rates)?;
    let rising = listed.chunks_exact(2).map(|two| u16_at(two, 0) as i32);
    if !rising.clone().zip(rising.skip(1)).all(|(one, two)| one < two) {
        return None;
    }
    if u16_at(listed, 2 * (rates - 1)) > 4095 {
        return None;
    }
    let first = after + 4 + 2 * rates;
    let size = 4 + 6 * choices;
    for unit in 0..units {
        let body = plain_record(job, first + unit * size, 3, 2 + 6 * choices)?;
        let fits = |six: &[u8]| u16_at(six, 0) <= 4095 && u32_at(six, 2) <= 1_000_000;
        if !body.chunks_exact(6).all(fits) {
            return None;
        }
    }
    let taken = first + units * size;
    Some(Read { header, second, rates: listed, units: &job[first..taken], taken })
}

/// Whether all fields are in range.
fn plain_header(header: &[usize; 9]) -> bool {
    let limits = [512, 64, 255, 255, 4095, header[2], header[3], 16, MOST_CHOICES];
    let [units, .., rates, choices] = *header;
    header.iter().zip(limits).all(|(field, high)| *field <= high)
        && units > 0
        && rates > 0
        && choices > 0
}

fn plain_record(job: &[u8], at: usize, kind: u16, length: usize) -> Option<&[u8]> {
    let head = job.get(at..at + 4)?;
    if u16_at(head, 0) as usize != length || u16_at(head, 2) != kind {
        return None;
    }
    job.get(at + 4..at + 2 + length)
}

impl Read<'_> {
    fn intervals(&self) -> usize {
        self.header[0] + self.header[1]
    }

    fn words(&self) -> usize {
        let [outer, inner] = self.buckets();
        (self.intervals() + 1) * (self.header[2] + 1) * (outer.size + 1) * (inner.size + 1)
    }

    /// The outer bucket and the inner one, whose levels stand side by side in the table.
    fn buckets(&self) -> [Bucket; 2] {
        let [_, _, _, size, drain, _, level, ..] = self.header;
        let first = Bucket { size, drain, level };
        self.second.map_or([NEUTRAL, first], |second| [first, second])
    }

    fn rate(&self, index: usize) -> usize {
        u16_at(self.rates, 2 * index) as usize
    }

    /// Grains and distortion; `unit` from 0.
    fn choice(&self, unit: usize, choice: usize) -> (usize, u32) {
        let at = unit * (4 + 6 * self.header[8]) + 4 + 6 * choice;
        (u16_at(self.units, at) as usize, u32_at(self.units, at + 2))
    }

    /// What interval t, from 1, may decode: choice, grains, distortion.
    fn options(&self, pins: &[Option<usize>], t: usize) -> Vec<(u16, usize, u32)> {
        let Some(unit) = t.checked_sub(self.header[1] + 1) else {
            return vec![(NO_UNIT, 0, 0)];
        };
        let held = |choice: &usize| pins[unit].map_or(true, |pinned| pinned == *choice);
        let with = |choice| {
            let (grains, distortion) = self.choice(unit, choice);
            (choice as u16, grains, distortion)
        };
        (0..self.header[8]).filter(held).map(with).collect()
    }
}

/// The decoder's level after an interval, if its peak fits and the unit is there.
fn plain_level(before: usize, sent: usize, taken: usize, size: usize) -> Option<usize> {
    let peak = before + sent;
    if peak > size {
        return None;
    }
    peak.checked_sub(taken)
}

/// A bucket's level after an interval, if it fits.
fn plain_filled(before: usize, sent: usize, bucket: &Bucket) -> Option<usize> {
    let level = (before + sent).saturating_sub(bucket.drain);
    (level <= bucket.size).then_some(level)
}

/// The pins that a list of calls leaves, and the answer to each call.
fn plain_calls(read: &Read, calls: &[u16], answers: &mut [u8]) -> Vec<Option<usize>> {
    let mut pins = vec![None; read.header[0]];
    for (call, answer) in calls.chunks_exact(3).zip(answers) {
        let (unit, choice) = (call[1] as usize, call[2] as usize);
        *answer = if unit < 1 || unit > pins.len() {
            7
        } else if call[0] == 6 {
            if choice >= read.header[8] {
                8
            } else if pins[unit - 1].is_some() {
                9
            } else {
                pins[unit - 1] = Some(choice);
                0
            }
        } else if pins[unit - 1].take().is_none() {
            10
        } else {
            0
        };
    }
    pins
}

/// What receiver and carrier fix.
struct PlainLine {
    decoder: usize,
    outer: Bucket,
    inner: Bucket,
    rates: Vec<usize>,
}

/// How a plain program fills a layer from the next one.
#[derive(Clone, Copy, PartialEq)]
enum Filling {
    /// Loops over decoder levels, levels of each bucket, rates and choices.
    Loops,
    /// A pass over sizes and a pass over rates, as the library does it.
    TwoPasses,
}

impl PlainLine {
    /// The words of a decoder level, and of a level of the outer bucket in it.
    fn widths(&self) -> [usize; 2] {
        let [outer, inner] = [self.outer, self.inner].map(|bucket| bucket.size + 1);
        [outer * inner, inner]
    }

    /// Every state with every rate and choice.
    fn loops(&self, options: &[(u16, usize, u32)], layer: &mut [u32], next: &[u32]) {
        let [row, width] = self.widths();
        for b in 0..=self.decoder {
            for l in 0..=self.outer.size {
                for m in 0..=self.inner.size {
                    let mut best = NEVER;
                    for &sent in &self.rates {
                        let Some(one) = plain_filled(l, sent, &self.outer) else { continue };
                        let Some(two) = plain_filled(m, sent, &self.inner) else { continue };
                        let filled = one * width + two;
                        for &(_, grains, distortion) in options {
                            if let Some(level) = plain_level(b, sent, grains, self.decoder) {
                                let rest = next[level * row + filled];
                                if rest != NEVER && rest + distortion < best {
                                    best = rest + distortion;
                                }
                            }
                        }
                    }
                    layer[b * row + l * width + m] = best;
                }
            }
        }
    }

    /// The least distortion of each size that the decoder holds, by size.
    fn prices(&self, options: &[(u16, usize, u32)]) -> Vec<(usize, i32)> {
        let mut least = [FAR; 256];
        for &(_, grains, distortion) in options {
            if grains <= self.decoder {
                least[grains] = least[grains].min(distortion as i32);
            }
        }
        let sizes = 0..=self.decoder;
        sizes.map(|size| (size, least[size])).filter(|price| price.1 < FAR).collect()
    }
}

/// More than two distortions come to, and not so much that adding one overflows:
/// in place of `NEVER` it needs no test before the sum.
const FAR: i32 = 1_600_000_000;

/// Two layers of numbers: the next one's, and those between arrival and decoding.
struct Passes {
    next: Vec<i32>,
    between: Vec<i32>,
}

impl Passes {
    fn new(layer: usize) -> Passes {
        Passes { next: vec![FAR; layer], between: vec![FAR; layer] }
    }

    /// First, for each level between arrival and decoding, the least over sizes;
    /// then, for each level before, the least over rates. Row by row, a row being
    /// the bucket levels of one decoder level, and within it by outer levels.
    fn fill(
        &mut self,
        line: &PlainLine,
        options: &[(u16, usize, u32)],
        layer: &mut [u32],
        next: &[u32],
    ) {
        let [all, width] = line.widths();
        for (number, &word) in self.next.iter_mut().zip(next) {
            *number = if word == NEVER { FAR } else { word as i32 };
        }
        let prices = line.prices(options);
        for (peak, row) in self.between.chunks_exact_mut(all).enumerate() {
            row.fill(FAR);
            for &(size, distortion) in prices.iter().take_while(|price| price.0 <= peak) {
                let from = &self.next[(peak - size) * all..][..all];
                for (least, rest) in row.iter_mut().zip(from) {
                    *least = (*least).min(rest + distortion);
                }
            }
        }
        // What the next layer was is not needed any more.
        let rows = self.next.chunks_exact_mut(all).zip(layer.chunks_exact_mut(all));
        for (level, (row, words)) in rows.enumerate() {
            row.fill(FAR);
            for (outer, row) in row.chunks_exact_mut(width).enumerate() {
                for &sent in line.rates.iter().take_while(|sent| level + **sent <= line.decoder) {
                    let Some(filled) = plain_filled(outer, sent, &line.outer) else { break };
                    let from = &self.between[(level + sent) * all + filled * width..][..width];
                    let low = line.inner.drain.saturating_sub(sent).min(width);
                    let high = sent.saturating_sub(line.inner.drain).min(width);
                    row[..low].iter_mut().for_each(|least| *least = (*least).min(from[0]));
                    for (least, rest) in row[low..].iter_mut().zip(&from[high..]) {
                        *least = (*least).min(*rest);
                    }
                }
            }
            for (word, number) in words.iter_mut().zip(row) {
                *word = if *number < FAR { *number as u32 } else { NEVER };
            }
        }
    }
}

/// Fills the table from the last layer on, then reads the best plan off from the start.
fn plain_plan(
    filling: Filling,
    job: &[u8],
    calls: &[u16],
    answers: &mut [u8],
    table: &mut [u32],
    entries: &mut [u8],
) -> Option<u64> {
    let read = plain_open(job)?;
    let pins = plain_calls(&read, calls, answers);
    let [_, _, decoder, _, _, start, _, rates, _] = read.header;
    let rates = (0..rates).map(|rate| read.rate(rate)).collect();
    let [outer, inner] = read.buckets();
    let line = PlainLine { decoder, outer, inner, rates };
    let [row, width] = line.widths();
    let layer = (decoder + 1) * row;
    let mut passes = Passes::new(if filling == Filling::TwoPasses { layer } else { 0 });
    table[read.intervals() * layer..read.words()].fill(0);
    for t in (1..=read.intervals()).rev() {
        let options = read.options(&pins, t);
        let (before, next) = table.split_at_mut(t * layer);
        let before = &mut before[(t - 1) * layer..];
        match filling {
            Filling::Loops => line.loops(&options, before, next),
            Filling::TwoPasses => passes.fill(&line, &options, before, next),
        }
    }
    let (mut levels, mut total) = ([start, outer.level, inner.level], 0);
    for t in 1..=read.intervals() {
        let [b, l, m] = levels;
        let due = table[(t - 1) * layer + b * row + l * width + m];
        if due == NEVER {
            return None;
        }
        let options = read.options(&pins, t);
        let (entry, after, distortion) =
            plain_entry(&line, &options, levels, due, &table[t * layer..])?;
        entries[3 * t - 3..3 * t].copy_from_slice(&entry);
        total += distortion as u64;
        levels = after;
    }
    Some(total)
}

/// The first entry in the early order that attains what is due from these levels, and the
/// levels and distortion that it leads to.
fn plain_entry(
    line: &PlainLine,
    options: &[(u16, usize, u32)],
    [b, l, m]: [usize; 3],
    due: u32,
    next: &[u32],
) -> Option<([u8; 3], [usize; 3], u32)> {
    let [row, width] = line.widths();
    for (rate, &sent) in line.rates.iter().enumerate().rev() {
        let Some(one) = plain_filled(l, sent, &line.outer) else { continue };
        let Some(two) = plain_filled(m, sent, &line.inner) else { continue };
        for &(choice, grains, distortion) in options {
            let Some(level) = plain_level(b, sent, grains, line.decoder) else { continue };
            let rest = next[level * row + one * width + two];
            if rest != NEVER && rest + distortion == due {
                let [low, high] = choice.to_le_bytes();
                return Some(([rate as u8, low, high], [level, one, two], distortion));
            }
        }
    }
    None
}

fn plain_shape(read: &Read, entries: &[u8]) -> bool {
    let fits = |(t, entry): (usize, &[u8])| {
        let choice = u16_at(entry, 1);
        let waits = t < read.header[1];
        let chosen = if waits { choice == NO_UNIT } else { (choice as usize) < read.header[8] };
        (entry[0] as usize) < read.header[7] && chosen
    };
    entries.len() == 3 * read.intervals() && entries.chunks_exact(3).enumerate().all(fits)
}

fn plain_replay(job: &[u8], calls: &[u16], entries: &[u8], levels: &mut [u16]) -> Option<u64> {
    let read = plain_open(job)?;
    let pins = plain_calls(&read, calls, &mut vec![0; calls.len() / 3]);
    if !plain_shape(&read, entries) {
        return None;
    }
    let [_, delay, decoder, _, _, mut b, ..] = read.header;
    let [outer, inner] = read.buckets();
    let (mut l, mut m) = (outer.level, inner.level);
    let mut rest = levels.iter_mut();
    let mut total = 0;
    for (t, entry) in entries.chunks_exact(3).enumerate() {
        let sent = read.rate(entry[0] as usize);
        let mut taken = 0;
        if let Some(unit) = t.checked_sub(delay) {
            let choice = u16_at(entry, 1) as usize;
            let (grains, distortion) = read.choice(unit, choice);
            taken = grains;
            total += distortion as u64;
            if pins[unit].is_some_and(|pinned| pinned != choice) {
                return None;
            }
        }
        b = plain_level(b, sent, taken, decoder)?;
        l = plain_filled(l, sent, &outer)?;
        m = plain_filled(m, sent, &inner)?;
        let held: &[usize] = if read.second.is_some() { &[b, l, m] } else { &[b, m] };
        held.iter().zip(&mut rest).for_each(|(after, level)| *level = *after as u16);
    }
    Some(total)
}

fn plain_report(job: &[u8], entries: &[u8], sums: &mut [u32]) -> Option<()> {
    let read = plain_open(job)?;
    if !plain_shape(&read, entries) {
        return None;
    }
    let [units, delay, ..] = read.header;
    let sent = |t: usize| read.rate(entries[3 * t] as usize) as u32;
    sums[0] = (0..delay).map(sent).sum();
    for i in 0..units {
        sums[i + 1] = sums[i] + sent(i + delay) - sent(i);
    }
    Some(())
}

/// Checks all that is given, then writes the job; how many bytes it took.
fn plain_write(lists: &Lists, job: &mut [u8]) -> Option<usize> {
    let Lists { fields, rates, sizes, distortions } = lists;
    let header: [u16; 9] = fields.as_slice().try_into().ok()?;
    if !plain_header(&header.map(usize::from)) {
        return None;
    }
    let choices = header[8] as usize;
    let codings = header[0] as usize * choices;
    if rates.len() != header[7] as usize || sizes.len() != codings || distortions.len() != codings {
        return None;
    }
    if !rates.windows(2).all(|two| two[0] < two[1]) || rates[rates.len() - 1] > 4095 {
        return None;
    }
    if sizes.iter().any(|size| *size > 4095) || distortions.iter().any(|more| *more > 1_000_000) {
        return None;
    }
    let taken = 26 + 2 * rates.len() + header[0] as usize * (4 + 6 * choices);
    let mut rest = job.get_mut(..taken)?;
    let mut put = |bytes: &[u8]| {
        let (front, back) = std::mem::take(&mut rest).split_at_mut(bytes.len());
        front.copy_from_slice(bytes);
        rest = back;
    };
    let heads = [[20, 1], [2 + 2 * rates.len() as u16, 2], [2 + 6 * choices as u16, 3]];
    for number in heads[0].iter().chain(&header).chain(&heads[1]).chain(rates) {
        put(&number.to_le_bytes());
    }
    for (sizes, distortions) in sizes.chunks_exact(choices).zip(distortions.chunks_exact(choices)) {
        heads[2].iter().for_each(|number| put(&number.to_le_bytes()));
        for (size, distortion) in sizes.iter().zip(distortions) {
            put(&size.to_le_bytes());
            put(&distortion.to_le_bytes());
        }
    }
    Some(taken)
}

/// Checks the header, then draws the job and writes it; how many bytes it took.
fn plain_trial(fields: &[u16; 9], state: u32, job: &mut [u8]) -> Option<usize> {
    if !plain_header(&fields.map(usize::from)) {
        return None;
    }
    let [units, .., rates, choices] = *fields;
    let taken = 26 + 2 * rates as usize + units as usize * (4 + 6 * choices as usize);
    let mut rest = job.get_mut(..taken)?;
    let mut put = |bytes: &[u8]| {
        let (front, back) = std::mem::take(&mut rest).split_at_mut(bytes.len());
        front.copy_from_slice(bytes);
        rest = back;
    };
    let mut state = state;
    let mut draw = || {
        state = state.wrapping_mul(1_664_525).wrapping_add(1_013_904_223);
        state >> 16
    };
    for number in [20, 1].iter().chain(fields).chain(&[2 + 2 * rates, 2]) {
        put(&number.to_le_bytes());
    }
    let mut least = 0;
    for _ in 0..rates {
        let rate = least + (draw() % 4) as u16;
        put(&rate.to_le_bytes());
        least = rate + 1;
    }
    for _ in 0..units {
        [2 + 6 * choices, 3].iter().for_each(|number| put(&number.to_le_bytes()));
        for _ in 0..choices {
            put(&((draw() % 64) as u16).to_le_bytes());
            put(&draw().to_le_bytes());
        }
    }
    Some(taken)
}

// ---------------------------------------------------------------------------
// Jobs.
// ---------------------------------------------------------------------------

impl Size {
    /// States times rates and sizes, over all intervals: the steps of two passes. Of
    /// many choices the first pass has no more sizes than the decoder has levels.
    fn steps(&self) -> f64 {
        let layer = (self.decoder + 1) * (self.bucket + 1);
        let sizes = self.choices.min(self.decoder + 1);
        (layer * (self.units * sizes + self.delay + self.intervals() * self.rates)) as f64
    }

    /// States times rates times choices: the moves that loops try.
    fn moves(&self) -> f64 {
        let layer = (self.decoder + 1) * (self.bucket + 1) * self.rates;
        (layer * (self.units * self.choices + self.delay)) as f64
    }

    fn intervals(&self) -> usize {
        self.units + self.delay
    }

    /// One `part`th of the units and of the delay.
    fn part(&self, part: usize) -> Size {
        Size { units: self.units / part, delay: self.delay / part, ..*self }
    }
}

/// The state of a trial job where no other is named. Most sizes that are timed have a plan
/// from it; another was found by trying where one is named.
const STATE: u32 = 1;

fn job_of(size: &Size) -> Vec<u8> {
    trial_of(size, None, STATE)
}

/// The trial job of a size and a state, on a line of one bucket or two.
fn trial_of(size: &Size, second: Option<[u16; 3]>, state: u32) -> Vec<u8> {
    let fields = size.header(second);
    let mut job = vec![0; trial_room(&fields)];
    let mut values = [0; numbers::WRITE_VALUES];
    let answer = numbers::trial(&fields, state, &mut job, &mut values);
    assert!(answer == 0 && values[0] as usize == job.len(), "the trial job is refused");
    job
}

/// The bytes that a job of these fields takes.
fn trial_room(fields: &[u16]) -> usize {
    let [units, rates, choices] = [fields[0], fields[7], fields[8]].map(usize::from);
    8 + 2 * fields.len() + 2 * rates + units * (4 + 6 * choices)
}

/// A second bucket, half full at the start: its size, drain and level.
fn half_full(size: usize, drain: usize) -> [u16; 3] {
    [size, drain, size / 2].map(|number| number as u16)
}

/// Units of fine and coarse codings around what the line carries; the coarsest takes
/// nothing, so that there is a plan also where the decoder holds nothing. Of a trial job's
/// 512 units some take a grain or more at each choice.
fn draft_of(size: &Size) -> Draft {
    let mut rng = Rng(1);
    let rates: Vec<u16> = (0..size.rates).map(|i| (i * 40 / size.rates) as u16).collect();
    let mut unit = |_| {
        let finest = if rng.one_in(12) { rng.from(80, 200) } else { rng.from(10, 50) };
        let coding = |choice: usize| {
            let grains = finest * (size.choices - 1 - choice) / (size.choices - 1).max(1);
            let lost = finest - grains;
            (grains as u16, (lost * lost * rng.from(3, 9) + rng.from(0, 60)) as u32)
        };
        (0..size.choices).map(coding).collect::<Vec<(u16, u32)>>()
    };
    let units = (0..size.units).map(&mut unit).collect();
    Draft { header: size.header(None), rates, units, commands: Vec::new() }
}

/// Units whose choices have so many sizes, spread over all that the decoder holds, in any
/// order; with as many sizes as choices the first pass has as much to do as it can have.
/// Larger ones lose less, more or less. A trial job has no more than 64 sizes.
fn spread_draft(size: &Size, sizes: usize) -> Draft {
    let mut rng = Rng(3);
    let mut draft = draft_of(size);
    for unit in &mut draft.units {
        let last = size.choices - 1;
        for (choice, coding) in unit.iter_mut().enumerate() {
            let grains = choice % sizes * size.decoder / (sizes - 1);
            let lost = size.decoder - grains;
            *coding = (grains as u16, (lost * lost * rng.from(3, 9) + rng.from(0, 60)) as u32);
        }
        for at in (1..=last).rev() {
            unit.swap(at, rng.from(0, at));
        }
    }
    draft
}

/// A programme as an encoder gives it: each quantizer takes about a tenth less
/// than the one before it and loses about an eighth more. Of the decoder the finest
/// coding takes a fifth to nine tenths, the drain about a sixth and the largest
/// rate a half; a grain is what one of so many in the decoder comes to. In a trial job
/// a choice's grains say nothing of its distortion.
fn programme(units: usize, decoder: usize) -> (Size, Vec<u8>) {
    let mut rng = Rng(2);
    let size = Size { units, delay: 4, decoder, bucket: decoder, rates: 16, choices: 31 };
    let rates: Vec<u16> = (0..16).map(|i| (i * decoder / 30).max(i) as u16).collect();
    let mut unit = |_| {
        let (mut millis, mut lost) = (rng.from(200, 400) * decoder, rng.from(600, 1300));
        if rng.one_in(8) {
            millis = rng.from(400, 900) * decoder;
        }
        let coding = |_| {
            let grains = millis.div_ceil(1000) as u16;
            let distortion = lost as u32;
            millis = millis * rng.from(88, 93) / 100;
            lost = lost * rng.from(110, 116) / 100;
            (grains, distortion)
        };
        (0..size.choices).map(coding).collect::<Vec<(u16, u32)>>()
    };
    let units: Vec<_> = (0..units).map(&mut unit).collect();
    let levels = [size.delay, decoder, decoder, (decoder * 3).div_ceil(20), 0, 0];
    (size, Draft::new(levels.map(|level| level as u16), &rates, &units).bytes())
}

// ---------------------------------------------------------------------------
// Timing.
// ---------------------------------------------------------------------------

/// The least time of each in `rounds` rounds, the two in turn.
fn in_turn(rounds: usize, mut ours: impl FnMut(), mut plain: impl FnMut()) -> [f64; 2] {
    let mut least = [f64::MAX; 2];
    for _ in 0..rounds {
        for (side, best) in least.iter_mut().enumerate() {
            let start = Instant::now();
            if side == 0 {
                ours();
            } else {
                plain();
            }
            *best = best.min(start.elapsed().as_secs_f64());
        }
    }
    least
}

/// For short calls: each timed over as many repeats as fill some milliseconds.
fn short_in_turn(mut ours: impl FnMut(), mut plain: impl FnMut()) -> [f64; 2] {
    let start = Instant::now();
    let mut repeats = 0;
    while start.elapsed() < Duration::from_millis(4) {
        ours();
        repeats += 1;
    }
    let ours = || (0..repeats).for_each(|_| ours());
    let plain = || (0..repeats).for_each(|_| plain());
    in_turn(7, ours, plain).map(|time| time / repeats as f64)
}

struct Line {
    name: String,
    /// What the time should grow with.
    work: f64,
    times: [f64; 2],
}

fn line(name: impl Into<String>, work: f64, times: [f64; 2]) -> Line {
    Line { name: name.into(), work, times }
}

fn shown(seconds: f64) -> String {
    match seconds {
        _ if seconds < 1e-3 => format!("{:.2} us", seconds * 1e6),
        _ if seconds < 1.0 => format!("{:.2} ms", seconds * 1e3),
        _ => format!("{seconds:.2} s"),
    }
}

/// Prints a line as soon as it is measured.
struct Table {
    last: Option<Line>,
    each: &'static str,
}

impl Table {
    /// `each`: what the work counts.
    fn new(title: &str, each: &'static str) -> Table {
        println!("\n{title}");
        println!(
            "  {:<34} {:>12} {:>12} {:>7} {:>16} {:>8} {:>8}",
            "", "library", "plain", "ratio", "ns each", "grows", "work"
        );
        Table { last: None, each }
    }

    fn add(&mut self, line: Line) {
        let [ours, plain] = line.times;
        let growth = self.last.as_ref().map_or(["".into(), "".into()], |last| {
            [ours / last.times[0], line.work / last.work].map(|ratio| format!("x{ratio:.2}"))
        });
        let each = format!("{:.2} a {}", ours * 1e9 / line.work, self.each);
        println!(
            "  {:<34} {:>12} {:>12} {:>7.2} {:>16} {:>8} {:>8}",
            line.name,
            shown(ours),
            shown(plain),
            ours / plain,
            each,
            growth[0],
            growth[1]
        );
        self.last = Some(line);
    }
}

// ---------------------------------------------------------------------------
// The functions, each at several sizes.
// ---------------------------------------------------------------------------

/// What one of the programs leaves.
#[derive(PartialEq)]
struct Left {
    table: Vec<u32>,
    entries: Vec<u8>,
    total: Option<u64>,
}

const PROGRAMS: usize = 3;

/// What is timed is the default order.
const ORDER: Order = Order::Early;

/// The library, two passes, loops.
fn run_plan(program: usize, job: &[u8], left: &mut Left) {
    let Left { table, entries, .. } = left;
    left.total = match program {
        0 => {
            let planned =
                upload_planner::plan(job, &[], Aim::Total, ORDER, &mut [], table, entries);
            planned.ok().map(|totals| totals.distortion)
        }
        1 => plain_plan(Filling::TwoPasses, job, &[], &mut [], table, entries),
        _ => plain_plan(Filling::Loops, job, &[], &mut [], table, entries),
    };
}

/// The least time of each in several rounds, in turn, each over as many repeats as
/// fill some milliseconds; what takes seconds is timed once. All must leave the same.
fn time_plan(job: &[u8], with_loops: bool) -> [Option<f64>; PROGRAMS] {
    let opened = upload_planner::open(job).expect("a job");
    let fresh = || Left {
        table: vec![0; opened.table_words],
        entries: vec![0; opened.plan_bytes()],
        total: None,
    };
    let (mut ours, mut plain) = (fresh(), fresh());
    let mut least = [None; PROGRAMS];
    for program in 0..PROGRAMS - !with_loops as usize {
        let left = if program == 0 { &mut ours } else { &mut plain };
        let start = Instant::now();
        run_plan(program, job, left);
        least[program] = Some(start.elapsed().as_secs_f64());
        assert!(ours.total.is_some(), "no plan");
        assert!(program == 0 || ours == plain, "program {program} has another table or plan");
        plain.table.fill(1);
    }
    for _ in 0..7 {
        for (program, least) in least.iter_mut().enumerate() {
            let Some(best) = least.filter(|best| *best < 2.0) else { continue };
            let repeats = (0.004 / best).ceil();
            let left = if program == 0 { &mut ours } else { &mut plain };
            let start = Instant::now();
            (0..repeats as usize).for_each(|_| run_plan(program, black_box(job), left));
            *least = Some(best.min(start.elapsed().as_secs_f64() / repeats));
        }
    }
    least
}

/// Times of planning, each line printed as soon as it is measured.
struct Plans {
    /// In a table by one number: time and steps of the line before.
    last: Option<(f64, f64)>,
    grows: bool,
}

impl Plans {
    fn new(title: &str, grows: bool) -> Plans {
        println!("\n{title}");
        println!(
            "  {:<38} {:>10} {:>10} {:>10} {:>9} {:>8} {:>7} {:>7}",
            "",
            "library",
            "two passes",
            "loops",
            "to passes",
            "loops to",
            if grows { "grows" } else { "" },
            if grows { "work" } else { "" },
        );
        Plans { last: None, grows }
    }

    /// `steps`: what the time should grow with.
    fn add(&mut self, name: impl Into<String>, steps: f64, job: &[u8], with_loops: bool) {
        let times = time_plan(job, with_loops);
        let [Some(ours), Some(passes), loops] = times else { panic!("a time is missing") };
        let growth = self.last.map_or(["".into(), "".into()], |(time, before)| {
            [ours / time, steps / before].map(|ratio| format!("x{ratio:.2}"))
        });
        println!(
            "  {:<38} {:>10} {:>10} {:>10} {:>9.2} {:>8} {:>7} {:>7}",
            name.into(),
            shown(ours),
            shown(passes),
            loops.map_or("-".into(), shown),
            ours / passes,
            loops.map_or("-".into(), |loops| format!("{:.1}", loops / ours)),
            growth[0],
            growth[1]
        );
        self.last = self.grows.then_some((ours, steps));
    }
}

/// A line's name with the state of its trial job, if it is not the usual one.
fn from_state(name: String, state: u32) -> String {
    if state == STATE {
        name
    } else {
        format!("{name}, state {state}")
    }
}

/// A job of which each number is doubled in turn, and a state from which all of these
/// have a plan but those of a long delay.
const GROWING: Size = Size { units: 64, delay: 8, decoder: 63, bucket: 63, rates: 4, choices: 8 };
const GROWING_STATE: u32 = 20;

/// How many levels decoder or bucket have there.
const DOUBLED: [usize; 4] = [32, 64, 128, 256];

/// Two units, 20 states of decoder and bucket, 6 moves each.
const SMALLEST: Size = Size { units: 2, delay: 1, decoder: 4, bucket: 3, rates: 3, choices: 2 };

/// Its name and a trial job of it that has a plan.
fn smallest() -> (String, Vec<u8>) {
    let state = 531;
    (from_state("2 units, 20 levels, 6 moves".to_string(), state), trial_of(&SMALLEST, None, state))
}

/// Whether loops over so many moves take seconds at most.
fn loops_are_short(moves: f64) -> bool {
    moves * 4.0 < FEWER.moves()
}

fn plan_tables(with_full: bool) {
    println!("\nto passes: the library's time over that of two passes written plainly;");
    println!("loops to: the time of nested loops, four or with a second bucket five, over the");
    println!("library's, how many times faster it is");
    let mut plans = Plans::new("planning, the largest job that opens", false);
    plans.add("512 units, 1,000 choices", FULL.steps(), &job_of(&FULL), false);
    if with_full {
        let job = spread_draft(&FULL, FULL.choices).bytes();
        plans.add("the same, of all sizes", FULL.steps(), &job, false);
    }
    plans.add("512 units, 31 choices", FEWER.steps(), &job_of(&FEWER), with_full);

    let mut plans = Plans::new("planning, a programme of 512 units, 31 quantizers", false);
    for decoder in [255, 127, 60, 51, 25, 12] {
        let (size, job) = programme(512, decoder);
        let name = format!("decoder and bucket of {decoder}");
        plans.add(name, size.steps(), &job, loops_are_short(size.moves()));
    }

    let mut plans =
        Plans::new("planning, a row or a column of one word: 512 units, delay 64", false);
    for (decoder, bucket) in [(255, 0), (60, 0), (0, 255), (0, 60), (0, 0)] {
        let size = Size { decoder, bucket, ..FEWER };
        let name = format!("decoder {decoder}, bucket {bucket}");
        let job = if decoder > 0 { job_of(&size) } else { draft_of(&size).bytes() };
        plans.add(name, size.steps(), &job, true);
    }

    let mut plans = Plans::new("planning, four units, delay 1", false);
    for (grains, state) in [(255, STATE), (60, STATE), (25, STATE), (12, STATE), (4, 2)] {
        let size = Size { units: 4, delay: 1, decoder: grains, bucket: grains, ..FEWER };
        let name = from_state(format!("decoder and bucket of {grains}"), state);
        plans.add(name, size.steps(), &trial_of(&size, None, state), true);
    }
    let (name, job) = smallest();
    plans.add(name, SMALLEST.steps(), &job, true);

    let mut plans = Plans::new("planning, by length (1 is 512 units, delay 64)", true);
    for part in [64, 32, 16, 8, 4, 2, 1] {
        let size = FEWER.part(part);
        let name = format!("1/{part}: {} units, delay {}", size.units, size.delay);
        plans.add(name, size.steps(), &job_of(&size), loops_are_short(size.moves()));
    }
    // Over a long delay the least rate has to be 0, else the decoder runs over; and with
    // two rates or four choices the largest has to be more than a job has whose least is 0.
    let rows: [(&str, u32, fn(&mut Size, usize), [usize; 4]); 5] = [
        ("decoder size", GROWING_STATE, |size, value| size.decoder = value - 1, DOUBLED),
        ("bucket size", GROWING_STATE, |size, value| size.bucket = value - 1, DOUBLED),
        ("rates", GROWING_STATE, |size, value| size.rates = value, [2, 4, 8, 16]),
        ("choices", GROWING_STATE, |size, value| size.choices = value, [4, 8, 16, 31]),
        ("delay", 7, |size, value| size.delay = value, [8, 16, 32, 64]),
    ];
    for (name, state, set, values) in rows {
        let title = from_state(format!("planning, by {name}"), state);
        let mut plans = Plans::new(&title, true);
        for value in values {
            let mut size = GROWING;
            set(&mut size, value);
            let job = trial_of(&size, None, state);
            plans.add(format!("{value}"), size.steps(), &job, true);
        }
    }
}

/// Two buckets beside one, by the time of a word of the table and a rate. The
/// jobs have as many words, rates and choices, and of their intervals one in
/// sixteen decodes nothing: with two buckets a layer has four times the words, and
/// the job a quarter of the layers. From state 0 the rates go up to 38; how many of them
/// a second bucket takes from its levels depends on its drain, and with 40 it takes all
/// from each.
fn two_bucket_tables(with_full: bool) {
    let [units, delays] = if with_full { [[483, 120], [32, 8]] } else { [[123, 30], [8, 2]] };
    let one = Size { units: units[0], delay: delays[0], ..FEWER };
    let two = Size { units: units[1], delay: delays[1], bucket: 63, ..FEWER };
    let state = 0;
    let with_one = trial_of(&one, None, state);
    let with_two = |drain| trial_of(&two, Some(half_full(15, drain)), state);
    let opened = [&with_one, &with_two(30)].map(|job| upload_planner::open(job).expect("a job"));
    let words = opened[0].table_words;
    assert!(words == opened[1].table_words, "one table is longer than the other");

    let title = "planning, one bucket and two, tables of as many words".to_string();
    let mut plans = Plans::new(&from_state(title, state), false);
    let name = format!("bucket 255: {} units, delay {}", one.units, one.delay);
    plans.add(name, one.steps(), &with_one, loops_are_short(one.moves()));
    let name = format!("buckets 63, 15: {} units, delay {}", two.units, two.delay);
    plans.add(name, 16.0 * two.steps(), &with_two(30), loops_are_short(16.0 * two.moves()));

    println!("  the library alone, the least of five in turn, for a word of the table and a rate;");
    println!("  two buckets are to take at most 1.50 times what one takes:");
    let pairs = (words * FEWER.rates) as f64;
    let room = opened[0].plan_bytes();
    let mut lent = [(vec![0; words], vec![0; room]), (vec![0; words], vec![0; room])];
    let plan = |job: &[u8], (table, entries): &mut (Vec<u32>, Vec<u8>)| {
        upload_planner::plan(job, &[], Aim::Total, ORDER, &mut [], table, entries)
            .expect("a plan");
    };
    for drain in [20, 30, 40] {
        let with_two = with_two(drain);
        let [for_one, for_two] = &mut lent;
        let times = in_turn(5, || plan(&with_one, for_one), || plan(&with_two, for_two));
        let [one, two] = times.map(|time| time * 1e9 / pairs);
        let ratio = two / one;
        println!("  second drain {drain}: {one:.3} ns with one, {two:.3} ns with two, x{ratio:.2}");
    }

    let title = from_state("planning, by second bucket size".to_string(), GROWING_STATE);
    let mut plans = Plans::new(&title, true);
    for levels in [1, 4, 16, 64] {
        let job = trial_of(&GROWING, Some(half_full(levels - 1, 30)), GROWING_STATE);
        let [steps, moves] = [GROWING.steps(), GROWING.moves()].map(|work| work * levels as f64);
        plans.add(format!("{levels}"), steps, &job, loops_are_short(moves));
    }
}

fn call_tables() {
    // From this state the one rate is 0 and the one unit takes nothing, so that planning is
    // next to nothing.
    let size = Size { units: 1, delay: 0, decoder: 0, bucket: 0, rates: 1, choices: 1 };
    let job = trial_of(&size, None, 44);
    let mut table = Table::new(
        "pins and lifts on the smallest job, state 44, by planning (the plain program reads it once)",
        "call",
    );
    for count in [2, 64, 1024, 16_384, 262_144] {
        let calls: Vec<u16> = [[6, 1, 0], [7, 1, 0]].concat().repeat(count / 2);
        let (mut answers, mut words, mut entries) = (vec![0; count], [0; 2], [0; 3]);
        let mut values = [0; numbers::PLAN_VALUES];
        let mut spare = (vec![0; count], [0; 2], [0; 3]);
        let times = short_in_turn(
            || {
                let lent = (&mut answers, &mut words, &mut entries, &mut values);
                let (aim, order) = (numbers::TOTAL, ORDER.number());
                black_box(numbers::plan(&job, &calls, aim, order, lent.0, lent.1, lent.2, lent.3));
            },
            || {
                let lent = (&mut spare.0, &mut spare.1, &mut spare.2);
                let filling = Filling::Loops;
                black_box(plain_plan(filling, &job, black_box(&calls), lent.0, lent.1, lent.2));
            },
        );
        assert!(answers == spare.0, "the answers differ");
        table.add(line(format!("{count} calls"), count as f64, times));
    }

    let mut table = Table::new(
        "1,024 pins and lifts on larger jobs, by replay (the plain program reads the job once)",
        "call",
    );
    for part in [64, 8, 1] {
        let size = FEWER.part(part);
        let job = job_of(&size);
        let entries = some_entries(&size);
        let units = size.units as u16;
        let pair = |i: u16| [[6, 1 + i % units, 0], [7, 1 + i % units, 0]].concat();
        let calls: Vec<u16> = (0..512).flat_map(pair).collect();
        let mut levels = [vec![0; 2 * size.intervals()], vec![0; 2 * size.intervals()]];
        let [our_levels, plain_levels] = &mut levels;
        let mut values = [0; numbers::REPLAY_VALUES];
        let times = short_in_turn(
            || {
                black_box(numbers::replay(&job, &calls, &entries, our_levels, &mut values));
            },
            || {
                black_box(plain_replay(&job, black_box(&calls), &entries, plain_levels));
            },
        );
        table.add(line(format!("{} units, {} bytes", size.units, job.len()), 1024.0, times));
    }
}

/// A plan's bytes: for each interval, from 0, a rate and the choice of its unit.
fn entries_of(
    size: &Size,
    rate: impl Fn(usize) -> usize,
    choice: impl Fn(usize) -> usize,
) -> Vec<u8> {
    let entry = |t: usize| {
        let choice = if t < size.delay { NO_UNIT } else { choice(t) as u16 };
        let [low, high] = choice.to_le_bytes();
        [rate(t) as u8, low, high]
    };
    (0..size.intervals()).flat_map(entry).collect()
}

/// A well-shaped plan: for the report any will do.
fn some_entries(size: &Size) -> Vec<u8> {
    entries_of(size, |t| t % size.rates, |_| size.choices - 1)
}

/// An easy job: every interval sends one grain or none, and what waits for the
/// delay fits the decoder; the plan never breaks off. In a trial job one that was not
/// searched for breaks off soon.
fn even_job(size: &Size) -> (Draft, Vec<u8>) {
    let unit: Vec<(u16, u32)> = (0..size.choices).map(|i| (1, i as u32)).collect();
    let rates: Vec<u16> = (0..size.rates).map(|i| i as u16).collect();
    let levels = [size.delay as u16, 255, 255, 1, 0, 0];
    let job = Draft::new(levels, &rates, &vec![unit; size.units]);
    (job, entries_of(size, |_| 1, |t| 389 * t % size.choices))
}

fn other_tables() {
    let mut table = Table::new("writing", "byte");
    for part in [64, 8, 1] {
        let size = FULL.part(part);
        let lists = trial_lists(&size.header(None), STATE);
        let due = job_of(&size);
        let mut jobs = [vec![0; due.len()], vec![0; due.len()]];
        let [ours, plain] = &mut jobs;
        let mut values = [0];
        let times = short_in_turn(
            || {
                let Lists { fields, rates, sizes, distortions } = black_box(&lists);
                black_box(numbers::write(fields, rates, sizes, distortions, ours, &mut values));
            },
            || {
                black_box(plain_write(black_box(&lists), plain));
            },
        );
        assert!(jobs[0] == due && jobs[1] == due, "the bytes differ");
        table.add(line(format!("{} units", size.units), due.len() as f64, times));
    }

    let mut table = Table::new("trial jobs", "byte");
    for part in [64, 8, 1] {
        let size = FULL.part(part);
        let fields: [u16; 9] = size.header(None).try_into().expect("nine fields");
        let room = trial_room(&fields);
        let mut jobs = [vec![0; room], vec![0; room]];
        let [ours, plain] = &mut jobs;
        let mut values = [0];
        let times = short_in_turn(
            || {
                black_box(numbers::trial(black_box(&fields), STATE, ours, &mut values));
            },
            || {
                black_box(plain_trial(black_box(&fields), STATE, plain));
            },
        );
        assert!(jobs[0] == jobs[1] && values[0] as usize == room, "the bytes differ");
        table.add(line(format!("{} units", size.units), room as f64, times));
    }

    let mut table = Table::new("opening", "byte");
    for part in [64, 8, 1] {
        let size = FULL.part(part);
        let job = job_of(&size);
        table.add(line(format!("{} units", size.units), job.len() as f64, time_open(&job)));
    }

    let mut table = Table::new("replay, the job's reading included", "byte");
    for part in [64, 8, 1] {
        let size = FULL.part(part);
        let (draft, entries) = even_job(&size);
        let job = draft.bytes();
        let name = format!("{} intervals", size.intervals());
        table.add(line(name, job.len() as f64, time_replay(&job, &entries)));
    }
    let (draft, entries) = even_job(&FULL);
    let job = draft.doubled([63, 1, 0]).bytes();
    let name = format!("{} intervals, two buckets", FULL.intervals());
    table.add(line(name, job.len() as f64, time_replay(&job, &entries)));

    let mut table = Table::new("report, the job's reading included", "byte");
    for part in [64, 8, 1] {
        let size = FULL.part(part);
        let job = job_of(&size);
        let name = format!("{} units, delay {}", size.units, size.delay);
        table.add(line(name, job.len() as f64, time_report(&size, &job)));
    }
    let mut table = Table::new("report, by delay: 512 units, four rates, one choice", "unit");
    for delay in [0, 1, 8, 64] {
        let size = Size { delay, rates: 4, choices: 1, ..FULL };
        let times = time_report(&size, &job_of(&size));
        table.add(line(format!("delay {delay}"), size.units as f64, times));
    }
}

/// Planning with as many choices as there may be beside fewer.
fn many_choice_tables() {
    let base = Size { units: 400, delay: 8, decoder: 127, bucket: 127, ..FULL };
    let mut plans = Plans::new("planning, by choices of all sizes that the decoder holds", true);
    for choices in [31, 125, 500, 1000] {
        let size = Size { choices, ..base };
        let job = spread_draft(&size, choices).bytes();
        plans.add(format!("{choices} choices"), size.steps(), &job, false);
    }

    println!("  the library alone, the least of seven in turn, for 31 choices, 1,000 of the same 31");
    println!("  sizes, and 500 and 1,000 of all sizes; 1,000 are to take at most 4.00 times what 31");
    println!("  take on the same sizes, and of all sizes hardly more than 500:");
    for (units, grains) in [(400, 63), (400, 127), (128, 255)] {
        let base = Size { units, decoder: grains, bucket: grains, ..base };
        let jobs = [(31, 31), (1000, 31), (500, 500), (1000, 1000)]
            .map(|(choices, sizes)| spread_draft(&Size { choices, ..base }, sizes).bytes());
        let opened = upload_planner::open(&jobs[0]).expect("a job");
        let (mut table, mut entries) = (vec![0; opened.table_words], vec![0; opened.plan_bytes()]);
        let mut least = [f64::MAX; 4];
        for _ in 0..7 {
            for (job, best) in jobs.iter().zip(&mut least) {
                let lent = (&mut table, &mut entries);
                let start = Instant::now();
                let planned =
                    upload_planner::plan(job, &[], Aim::Total, ORDER, &mut [], lent.0, lent.1);
                *best = best.min(start.elapsed().as_secs_f64());
                planned.expect("a plan");
            }
        }
        let [few, same, half, most] = least;
        let times = least.map(shown).join(", ");
        println!(
            "  {units} units, decoder and bucket of {grains}: {times}; 1,000 to 31 on the same \
             sizes x{:.2}, of all sizes x{:.2}, 1,000 to 500 x{:.2}",
            same / few,
            most / few,
            most / half
        );
    }
}

/// Even pictures beside the least total, the library alone. Both plan the same job into
/// lists of their own, and the plan for even pictures is held to what it promises of the
/// two: no less in total, and no unit worse than the worst of the other plan.
fn even_tables(with_full: bool) {
    println!("\nplanning, even pictures beside the least total: the library alone, the least of");
    println!("seven in turn; even is to take at most 2.50 times what total takes");
    println!("  {:<48} {:>10} {:>10} {:>7} {:>7}", "", "total", "even", "ratio", "at most");
    let base = Size { units: 300, delay: 8, ..FEWER };
    let square = |units: usize, grains: usize| {
        let size = Size { units, decoder: grains, bucket: grains, ..base };
        (format!("{units} units, decoder and bucket of {grains}"), job_of(&size))
    };
    let spread = |sizes: usize, name: &str| {
        let size = Size { units: 128, decoder: 127, bucket: 127, choices: 1000, ..base };
        let job = spread_draft(&size, sizes).bytes();
        (format!("128 units, 1,000 choices of {name} sizes, 127"), job)
    };
    let few = Size { units: 4, delay: 1, decoder: 12, bucket: 12, ..base };
    let double = Size { rates: 8, ..GROWING };
    let with_two = trial_of(&double, Some(half_full(15, 30)), STATE);
    let mut jobs = vec![
        square(300, 255),
        square(300, 127),
        square(300, 60),
        square(300, 25),
        square(300, 12),
        spread(1000, "all"),
        spread(31, "31"),
        ("64 units, buckets of 63 and 15".to_string(), with_two),
        ("300 units, bucket of 0".to_string(), job_of(&Size { bucket: 0, ..base })),
        ("4 units, decoder and bucket of 12".to_string(), job_of(&few)),
        smallest(),
    ];
    if with_full {
        jobs.insert(0, ("512 units, delay 64, 31 choices, 255".to_string(), job_of(&FEWER)));
    }
    for (name, job) in jobs {
        let [total, even] = time_aims(&job);
        let ratio = format!("{:.2}", even / total);
        let [total, even] = [total, even].map(shown);
        println!("  {name:<48} {total:>10} {even:>10} {ratio:>7} {:>7}", "2.50");
    }
}

/// The times for the least total and for even pictures.
fn time_aims(job: &[u8]) -> [f64; 2] {
    let opened = upload_planner::open(job).expect("a job");
    let fresh = || Left {
        table: vec![0; opened.table_words],
        entries: vec![0; opened.plan_bytes()],
        total: None,
    };
    let plan = |aim: Aim, left: &mut Left| {
        let Left { table, entries, total } = left;
        let job = black_box(job);
        let planned = upload_planner::plan(job, &[], aim, ORDER, &mut [], table, entries);
        *total = planned.ok().map(|totals| totals.distortion);
    };
    let (mut total, mut even) = (fresh(), fresh());
    let start = Instant::now();
    plan(Aim::Total, &mut total);
    plan(Aim::Even, &mut even);
    // Short calls are timed over as many repeats as fill some milliseconds.
    let repeats = (0.008 / start.elapsed().as_secs_f64()).ceil();
    let times = in_turn(
        7,
        || (0..repeats as usize).for_each(|_| plan(Aim::Total, &mut total)),
        || (0..repeats as usize).for_each(|_| plan(Aim::Even, &mut even)),
    );
    assert!(total.total.is_some() && total.total <= even.total, "even has the lesser total");
    let [worst, evened] = [&total, &even].map(|left| greatest_of(job, &left.entries));
    assert!(evened <= worst, "even has the worse unit");
    times.map(|time| time / repeats)
}

/// The greatest distortion of a unit in a plan.
fn greatest_of(job: &[u8], entries: &[u8]) -> u32 {
    let read = plain_open(job).expect("a job");
    let units = entries.chunks_exact(3).skip(read.header[1]).enumerate();
    let lost = |(unit, entry): (usize, &[u8])| read.choice(unit, u16_at(entry, 1) as usize).1;
    units.map(lost).max().expect("a unit")
}

/// How many clicks a sitting has.
const CLICKS: usize = 40;

/// A sitting beside planning anew, the library alone: a unit is pinned and lifted in turn,
/// the first, the middle one or the last. A click that is seen fills u + d of the T layers
/// that planning fills, and the ratio is to show it.
fn sitting_tables(with_full: bool) {
    println!("\na sitting of {CLICKS} clicks, unit u pinned and lifted in turn: a click seen at");
    println!("once beside one planned anew, the library alone, the least of up to seven sittings");
    println!("in turn; the ratio is to be about that of the layers filled, (u + d) / T, or less");
    println!("for early units, since the first d layers decode nothing");
    println!("  {:<48} {:>10} {:>10} {:>7} {:>7}", "", "anew", "seen", "ratio", "layers");
    let base = Size { units: 300, delay: 8, ..FEWER };
    let square = |grains: usize| {
        let size = Size { decoder: grains, bucket: grains, ..base };
        (format!("decoder and bucket of {grains}"), job_of(&size))
    };
    let many = Size { decoder: 60, bucket: 60, choices: 1000, ..base };
    let double = Size { decoder: 31, bucket: 31, rates: 8, choices: 8, ..base };
    let with_two = trial_of(&double, Some(half_full(15, 30)), 0);
    let mut jobs = vec![
        square(127),
        square(60),
        square(25),
        square(12),
        ("1,000 choices, 60".to_string(), spread_draft(&many, 1000).bytes()),
        (from_state("buckets 31 and 15".to_string(), 0), with_two),
    ];
    if with_full {
        jobs.insert(0, square(255));
    }
    for (name, job) in jobs {
        for unit in [1, base.units / 2, base.units] {
            let [seen, anew] = time_sitting(&job, unit as u16);
            let ratio = format!("{:.3}", seen / anew);
            let layers = format!("{:.3}", (unit + base.delay) as f64 / base.intervals() as f64);
            let name = format!("{} units, {name}: unit {unit}", base.units);
            let [seen, anew] = [seen, anew].map(shown);
            println!("  {name:<48} {anew:>10} {seen:>10} {ratio:>7} {layers:>7}");
        }
    }
}

/// What is kept from click to click.
#[derive(PartialEq)]
struct Sitting<'a> {
    job: &'a [u8],
    set: Vec<u32>,
    table: Vec<u32>,
    entries: Vec<u8>,
}

impl Sitting<'_> {
    /// Without a pin, and with the table of that.
    fn new(job: &[u8]) -> Sitting<'_> {
        let opened = upload_planner::open(job).expect("a job");
        let mut set = vec![0; numbers::SET_NUMBERS];
        assert!(numbers::set(job, &mut set) == 0, "no set");
        let table = vec![0; opened.table_words];
        let mut sitting = Sitting { job, set, table, entries: vec![0; opened.plan_bytes()] };
        sitting.planned();
        sitting
    }

    /// Plans with the pins that stand; the least total.
    fn planned(&mut self) -> u64 {
        let Sitting { job, set, table, entries } = self;
        let mut values = [0; numbers::PLAN_VALUES_MOST];
        let (aim, order) = (numbers::TOTAL, ORDER.number());
        let answer = numbers::plan_set(job, set, aim, order, table, entries, &mut values);
        assert!(answer == 0, "no plan");
        values[0]
    }

    /// Pins the unit, or lifts it where no choice is given, then plans all.
    fn anew(&mut self, unit: u16, choice: Option<u16>) -> u64 {
        let Sitting { job, set, .. } = self;
        let answer = match choice {
            Some(choice) => numbers::pin(job, set, unit, choice),
            None => numbers::lift(job, set, unit),
        };
        assert!(answer == 0, "the click is refused");
        self.planned()
    }

    /// The same in one call that fills what the unit has a part in.
    fn seen(&mut self, unit: u16, choice: Option<u16>) -> u64 {
        let Sitting { job, set, table, .. } = self;
        let mut values = [0; numbers::SEE_VALUES];
        let answer = match choice {
            Some(choice) => numbers::pin_and_see(job, set, unit, choice, table, &mut values),
            None => numbers::lift_and_see(job, set, unit, table, &mut values),
        };
        assert!(answer == 0, "the click is refused");
        values[0]
    }
}

/// The times of a click that is seen and of one that is planned anew. The unit is pinned at
/// the choice that takes least, so that a plan holds the pin. Both must have the same pins,
/// table and total after the first pin and lift, and at the end.
fn time_sitting(job: &[u8], unit: u16) -> [f64; 2] {
    let read = plain_open(job).expect("a job");
    let grains = |choice: &usize| read.choice(unit as usize - 1, *choice).0;
    let least = (0..read.header[8]).min_by_key(grains).expect("a choice") as u16;
    let clicks = || [Some(least), None].into_iter().cycle().take(CLICKS);
    let (mut seen, mut anew) = (Sitting::new(job), Sitting::new(job));
    let start = Instant::now();
    for choice in clicks().take(2) {
        assert!(seen.seen(unit, choice) == anew.anew(unit, choice), "the totals differ");
        assert!((&seen.set, &seen.table) == (&anew.set, &anew.table), "the tables differ");
    }
    // What takes seconds is timed once.
    let sitting = start.elapsed().as_secs_f64() * CLICKS as f64 / 2.0;
    let rounds = (3.0 / sitting).ceil().min(7.0) as usize;
    let times = in_turn(
        rounds,
        || {
            black_box(clicks().map(|choice| seen.seen(unit, choice)).sum::<u64>());
        },
        || {
            black_box(clicks().map(|choice| anew.anew(unit, choice)).sum::<u64>());
        },
    );
    assert!(seen == anew, "the tables differ at the end");
    times.map(|time| time / CLICKS as f64)
}

/// What larger buckets bring, the library alone: one call that lists the least total for each
/// size of the first bucket from the job's own to 255, beside planning the job afresh with
/// each of these sizes in its place. Both must give the same numbers and the same last table.
///
/// What a list can save depends on the job. The bucket stops to matter soon where it drains
/// about as much as the units would take: then most sizes have the total of the largest. Where
/// it drains less, each grain of its size is one more that is sent, and it matters to the end.
/// A job without a plan at size 255 has none for any.
fn size_tables(with_full: bool) {
    println!("\nwhat larger buckets bring: a list of all sizes from the job's own to 255 in one");
    println!("call, beside planning afresh for each of them; the library alone, the least of up");
    println!("to seven in turn; totals: how many the list has, and from which size on the last;");
    println!("a line names decoder and buckets, and how long a larger bucket matters");
    println!(
        "  {:<46} {:>5} {:>10} {:>10} {:>10} {:>7}",
        "", "sizes", "totals", "afresh", "listed", "ratio"
    );
    let base = Size { units: 120, delay: 8, decoder: 60, bucket: 20, ..FEWER };
    let few = Size { units: 60, decoder: 25, bucket: 12, ..base };
    let double = Size { units: 90, decoder: 15, bucket: 31, rates: 8, ..base };
    let second = Some(half_full(3, 9));
    let mut jobs = vec![
        ("120 units, 60 and 20, drain 28: not at all", base, None, 28),
        ("drain 26: soon no more", base, None, 26),
        ("drain 16: to the end", base, None, 16),
        ("drain 16, two choices: no plan", Size { choices: 2, ..base }, None, 16),
        ("60 and 200, drain 16: to the end", Size { bucket: 200, ..base }, None, 16),
        ("60 units, 25 and 12, drain 12: soon no more", few, None, 12),
        ("drain 4: to the end", few, None, 4),
        ("90 units, 15, 31 and 3, drain 7: soon no more", double, second, 7),
        ("drain 3: to the end", double, second, 3),
    ];
    if with_full {
        let size = Size { bucket: 252, ..FEWER };
        jobs.push(("512 units, 255 and 252, drain 16: to the end", size, None, 16));
    }
    for (name, size, second, drain) in jobs {
        let (totals, [listed, afresh]) = time_sizes(&with_drain(&size, second, drain));
        let falls: Vec<usize> =
            (1..totals.len()).filter(|&at| totals[at] < totals[at - 1]).collect();
        let different = match totals.last() {
            Some(&NEVER) => "none".to_string(),
            _ => format!("{}, {}", 1 + falls.len(), size.bucket + falls.last().unwrap_or(&0)),
        };
        let (sizes, ratio) = (totals.len(), format!("{:.3}", listed / afresh));
        let [listed, afresh] = [listed, afresh].map(shown);
        println!("  {name:<46} {sizes:>5} {different:>10} {afresh:>10} {listed:>10} {ratio:>7}");
    }
}

/// The trial job of a size with another drain of the first bucket.
fn with_drain(size: &Size, second: Option<[u16; 3]>, drain: u16) -> Vec<u8> {
    let mut job = trial_of(size, second, STATE);
    job[12..14].copy_from_slice(&drain.to_le_bytes());
    job
}

/// A job with one of the sizes, its set without a pin, and the words of its table.
struct OfSize {
    job: Vec<u8>,
    set: Vec<u32>,
    words: usize,
}

/// The totals of all sizes, and the times of one call and of planning for each. Jobs and sets of
/// each size are made before that, and a table of the largest serves all.
fn time_sizes(job: &[u8]) -> (Vec<u32>, [f64; 2]) {
    let opened = upload_planner::open(job).expect("a job");
    let fresh = |job: &[u8]| {
        let mut set = vec![0; numbers::SET_NUMBERS];
        assert!(numbers::set(job, &mut set) == 0, "no set");
        set
    };
    let each: Vec<OfSize> = (opened.bucket_sizes())
        .map(|size| {
            let mut job = job.to_vec();
            job[10..12].copy_from_slice(&size.to_le_bytes());
            let words = upload_planner::open(&job).expect("a job").table_words;
            OfSize { set: fresh(&job), job, words }
        })
        .collect();
    let set = fresh(job);
    let words = opened.largest_table_words();
    let mut tables = [vec![0; words], vec![1; words]];
    let mut totals = [vec![0; each.len()], vec![1; each.len()]];
    let mut entries = vec![0; opened.plan_bytes()];
    let ([our_table, other_table], [ours, others]) = (&mut tables, &mut totals);
    let mut list = || {
        let answer = numbers::sizes(black_box(job), &set, our_table, ours);
        assert!(answer == 0, "the list is refused");
    };
    let mut plan = || {
        for (OfSize { job, set, words }, total) in each.iter().zip(others.iter_mut()) {
            let mut values = [0; numbers::PLAN_VALUES_MOST];
            let (aim, order) = (numbers::TOTAL, ORDER.number());
            let lent = (&mut other_table[..*words], &mut entries, &mut values);
            *total = match numbers::plan_set(job, set, aim, order, lent.0, lent.1, lent.2) {
                0 => values[0] as u32,
                13 => NEVER,
                _ => panic!("planning is refused"),
            };
        }
    };
    let start = Instant::now();
    list();
    plan();
    // What takes seconds is timed once more; short calls over some repeats.
    let once = start.elapsed().as_secs_f64();
    let rounds = (3.0 / once).ceil().min(7.0) as usize;
    let repeats = (0.02 / once).ceil() as usize;
    let times =
        in_turn(rounds, || (0..repeats).for_each(|_| list()), || (0..repeats).for_each(|_| plan()));
    assert!(totals[0] == totals[1], "the numbers differ");
    assert!(tables[0] == tables[1], "the last tables differ");
    let [totals, _] = totals;
    (totals, times.map(|time| time / repeats as f64))
}

/// Opening, a pin and a replay take as long for each byte of the largest job as for each
/// byte of a job of half its bytes or a quarter of them.
fn largest_tables() {
    let fewer = |choices| Size { choices, ..FULL };
    for (by, sizes) in
        [("units", [FULL.part(4), FULL.part(2), FULL]), ("choices", [fewer(250), fewer(500), FULL])]
    {
        let named =
            |what: &str| format!("{what}, a quarter, half and all of the largest job, by {by}");
        let mut table = Table::new(&named("opening"), "byte");
        for size in &sizes {
            let job = job_of(size);
            table.add(line(sized(size), job.len() as f64, time_open(&job)));
        }
        let mut table = Table::new(&named("a pin"), "byte");
        for size in &sizes {
            let job = job_of(size);
            let call = [6, size.units as u16, size.choices as u16 - 1];
            table.add(line(sized(size), job.len() as f64, time_pin(&job, &call)));
        }
        let mut table = Table::new(&named("replay"), "byte");
        for size in &sizes {
            let (draft, entries) = even_job(size);
            let job = draft.bytes();
            table.add(line(sized(size), job.len() as f64, time_replay(&job, &entries)));
        }
    }
}

fn sized(size: &Size) -> String {
    format!("{} units of {} choices", size.units, size.choices)
}

fn time_open(job: &[u8]) -> [f64; 2] {
    let mut values = [0; numbers::OPEN_VALUES];
    short_in_turn(
        || {
            black_box(numbers::open(job, &mut values));
        },
        || {
            black_box(plain_open(black_box(job)).map(|read| (read.taken, read.words())));
        },
    )
}

fn time_pin(job: &[u8], call: &[u16; 3]) -> [f64; 2] {
    let (mut answers, mut values) = ([[9], [9]], [0; numbers::CALLS_VALUES]);
    let [ours, plain] = &mut answers;
    let times = short_in_turn(
        || {
            black_box(numbers::calls(job, call, ours, &mut values));
        },
        || {
            let read = plain_open(black_box(job)).expect("a job");
            black_box(plain_calls(&read, call, plain));
        },
    );
    assert!(answers == [[0], [0]] && values[0] == 1, "the pin is refused");
    times
}

fn time_replay(job: &[u8], entries: &[u8]) -> [f64; 2] {
    let room = upload_planner::open(job).expect("a job").level_numbers();
    let mut levels = [vec![0; room], vec![0; room]];
    let [our_levels, plain_levels] = &mut levels;
    let mut total = None;
    let times = short_in_turn(
        || {
            let calls: [Call; 0] = [];
            black_box(upload_planner::replay(job, &calls, entries, our_levels)).unwrap();
        },
        || total = plain_replay(job, &[], black_box(entries), plain_levels),
    );
    assert!(total.is_some() && levels[0] == levels[1], "the levels differ");
    times
}

fn time_report(size: &Size, job: &[u8]) -> [f64; 2] {
    let entries = some_entries(size);
    let mut sums = [vec![0; size.units + 1], vec![0; size.units + 1]];
    let [our_sums, plain_sums] = &mut sums;
    let times = short_in_turn(
        || upload_planner::report(job, &entries, our_sums).unwrap(),
        || plain_report(job, black_box(&entries), plain_sums).unwrap(),
    );
    assert!(sums[0] == sums[1], "the sums differ");
    times
}

fn main() {
    let (mut with_full, mut all) = (true, true);
    let (mut choices_alone, mut sitting_alone, mut sizes_alone) = (false, false, false);
    for argument in std::env::args().skip(1) {
        match argument.as_str() {
            "--no-full" => with_full = false,
            "--planning" => all = false,
            "--choices" => choices_alone = true,
            "--sitting" => sitting_alone = true,
            "--sizes" => sizes_alone = true,
            _ => {
                println!(
                    "usage: bench/run [--planning | --choices | --sitting | --sizes] [--no-full]"
                );
                std::process::exit(2);
            }
        }
    }
    println!("jobs: trial jobs, state {STATE} unless the line names another; the drain is 20, the");
    println!("decoder starts filled to a third, each bucket to a half, and there are 16 rates and");
    println!("1,000 choices or 31 unless it says otherwise; programmes, choices of named sizes,");
    println!("larger jobs with a decoder of 0 and replay have jobs of their own");
    if sitting_alone {
        return sitting_tables(with_full);
    }
    if sizes_alone {
        return size_tables(with_full);
    }
    println!("ratio: the library's time over that of a plain program; below 1 it is faster");
    if all && !choices_alone {
        call_tables();
        other_tables();
    }
    if all {
        largest_tables();
    }
    if !choices_alone {
        plan_tables(with_full);
        two_bucket_tables(with_full);
        even_tables(with_full);
        sitting_tables(with_full);
        size_tables(with_full);
    }
    many_choice_tables();
}
