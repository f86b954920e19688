//! What the test programs share: answers worked out straight from the product's
//! paper, and the jobs they are asked of.
//!
//! The answers have twelve parts: a reader that gives the first refusal due, an
//! enumeration of every plan (small jobs), a dynamic program that carries whole
//! paths forward (the jobs too large to enumerate), both of these again for even
//! pictures, with every word of the table, a reader of plans of either shape, a book of
//! pins with the numbers of its set, changes of contract by trying every continuation and
//! by making a job of the rest, what a larger bucket brings by the size that each plan needs,
//! playlists by one such search after another, each from the levels that the last one left,
//! a writer that gives a job's bytes or the first refusal due, a reader that gives the
//! writer's lists back, and a generator that gives a trial job's bytes. Each program uses a
//! part of what stands here.

use std::collections::btree_map::Entry as MapEntry;
use std::collections::BTreeMap;
use std::ops::RangeInclusive;
use std::path::{Path, PathBuf};
use std::time::{SystemTime, UNIX_EPOCH};

pub const INPUT_LIMIT: usize = 32_768;
pub const WORKSPACE_WORDS: usize = 16_384;
/// How many choices a unit may have.
pub const MOST_CHOICES: usize = 1000;
/// The choice entry of an interval that decodes no unit.
pub const NO_CHOICE: usize = 65_535;
/// Both of the former shape, in which an entry had two bytes.
pub const FORMER_CHOICES: usize = 31;
pub const FORMER_NO_CHOICE: usize = 255;
/// Jobs with more plans than this are left to the dynamic program.
pub const ENUMERATION_LIMIT: u64 = 10_000;
/// How many buckets a line may have.
pub const MOST_BUCKETS: usize = 2;

// ---------------------------------------------------------------------------
// The reader: bytes to a job and the pins held, or the first refusal due.
// ---------------------------------------------------------------------------

pub type Refusal = u8;

#[derive(Clone, Debug)]
pub struct Choice {
    pub grains: i64,
    pub distortion: i64,
}

#[derive(Clone, Copy, Debug)]
pub struct Bucket {
    pub size: i64,
    pub drain: i64,
    pub start: i64,
}

/// A level of each bucket, or another number of each, in their order. Where a line
/// has fewer buckets, the places past them stay at 0.
pub type Levels = [i64; MOST_BUCKETS];

#[derive(Clone, Debug)]
pub struct Job {
    pub delay: usize,
    pub decoder_size: i64,
    pub start_decoder: i64,
    /// One, or two where the header says so. Each takes all that is sent.
    pub buckets: Vec<Bucket>,
    pub rates: Vec<i64>,
    pub units: Vec<Vec<Choice>>,
}

impl Job {
    pub fn intervals(&self) -> usize {
        self.units.len() + self.delay
    }

    pub fn choices(&self) -> usize {
        self.units[0].len()
    }

    /// How many sets of levels the buckets can have.
    pub fn width(&self) -> usize {
        self.buckets.iter().map(|bucket| bucket.size as usize + 1).product()
    }

    pub fn words(&self) -> usize {
        (self.intervals() + 1) * (self.decoder_size as usize + 1) * self.width()
    }

    /// The word of the levels after interval t, the last bucket's innermost.
    pub fn word(&self, t: usize, decoder: i64, levels: &Levels) -> usize {
        let row = t as i64 * (self.decoder_size + 1) + decoder;
        let inner = |word, (bucket, level): (&Bucket, &i64)| word * (bucket.size + 1) + level;
        self.buckets.iter().zip(levels).fold(row, inner) as usize
    }

    pub fn start_levels(&self) -> Levels {
        let mut levels = [0; MOST_BUCKETS];
        for (level, bucket) in levels.iter_mut().zip(&self.buckets) {
            *level = bucket.start;
        }
        levels
    }

    /// Every set of levels of the buckets, in the order of words.
    pub fn all_levels(&self) -> Vec<Levels> {
        let mut sets = vec![[0; MOST_BUCKETS]];
        for (at, bucket) in self.buckets.iter().enumerate() {
            let filled = |set: &Levels, level| {
                let mut set = *set;
                set[at] = level;
                set
            };
            let each = |set: &Levels| -> Vec<Levels> {
                (0..=bucket.size).map(|level| filled(set, level)).collect()
            };
            sets = sets.iter().flat_map(each).collect();
        }
        sets
    }

    /// The job with another bucket in the place of one that it has.
    pub fn with_bucket(&self, at: usize, change: impl Fn(&mut Bucket)) -> Job {
        let mut job = self.clone();
        job.buckets.get_mut(at).map(change);
        job
    }

    /// Whether the drain of a bucket is 0. Such a job is not opened, but the archive
    /// takes it.
    pub fn never_drains(&self) -> bool {
        self.buckets.iter().any(|bucket| bucket.drain == 0)
    }

    /// How many plans have T entries in range, or `None` beyond 64 bits.
    pub fn plans(&self) -> Option<u64> {
        let rates = (self.rates.len() as u64).checked_pow(self.intervals() as u32)?;
        let choices = (self.choices() as u64).checked_pow(self.units.len() as u32)?;
        rates.checked_mul(choices)
    }
}

pub struct Reader<'a> {
    pub rest: &'a [u8],
}

impl<'a> Reader<'a> {
    /// Takes one record. `due` gives the length due for a kind, if any.
    pub fn record(
        &mut self,
        due: impl Fn(u16) -> Option<usize>,
    ) -> Result<(u16, &'a [u8]), Refusal> {
        if self.rest.len() < 4 {
            return Err(1);
        }
        let length = u16_at(self.rest, 0) as usize;
        let kind = u16_at(self.rest, 2);
        if due(kind) != Some(length) {
            return Err(2);
        }
        // The length counts the kind and the body, but not itself.
        if self.rest.len() < 2 + length {
            return Err(1);
        }
        let (record, rest) = self.rest.split_at(2 + length);
        self.rest = rest;
        Ok((kind, &record[4..]))
    }

    pub fn record_of(&mut self, kind: u16, length: usize) -> Result<&'a [u8], Refusal> {
        let (_, body) = self.record(|k| (k == kind).then_some(length))?;
        Ok(body)
    }
}

pub fn u16_at(bytes: &[u8], at: usize) -> u16 {
    u16::from_le_bytes([bytes[at], bytes[at + 1]])
}

pub fn u32_at(bytes: &[u8], at: usize) -> u32 {
    u32::from_le_bytes([bytes[at], bytes[at + 1], bytes[at + 2], bytes[at + 3]])
}

/// How many fields a header has, with one bucket and with two.
pub const FIELDS: [usize; MOST_BUCKETS] = [9, 12];

/// The length due for a kind where a header is due.
pub fn header_length(kind: u16) -> Option<usize> {
    match kind {
        1 => Some(20),
        8 => Some(26),
        _ => None,
    }
}

/// The fields of a header of either kind.
pub fn read_header(body: &[u8]) -> Result<Vec<i64>, Refusal> {
    let f: Vec<i64> = body.chunks(2).map(|two| u16_at(two, 0) as i64).collect();
    let mut ranges = vec![
        (1, 512),
        (0, 64),
        (0, 255),
        (0, 255),
        (0, 4095),
        (0, f[DECODER]),
        (0, f[BUCKET]),
        (1, 16),
        (1, MOST_CHOICES as i64),
    ];
    if let Some(&second) = f.get(SECOND) {
        ranges.extend([(0, 63), (0, 4095), (0, second)]);
    }
    for (value, (low, high)) in f.iter().zip(ranges) {
        if *value < low || *value > high {
            return Err(3);
        }
    }
    Ok(f)
}

/// Where the header has size, drain and starting level of each bucket.
pub const BUCKET_FIELDS: [[usize; 3]; MOST_BUCKETS] =
    [[BUCKET, DRAIN, START_BUCKET], [SECOND, SECOND_DRAIN, START_SECOND]];

/// The buckets of a header of either kind.
pub fn buckets_of(fields: &[i64]) -> Vec<Bucket> {
    let bucket = |places: &[usize; 3]| {
        let [size, drain, start] = places.map(|place| fields.get(place).copied());
        Some(Bucket { size: size?, drain: drain?, start: start? })
    };
    BUCKET_FIELDS.iter().filter_map(bucket).collect()
}

pub fn read_rates(body: &[u8]) -> Result<Vec<i64>, Refusal> {
    let rates: Vec<i64> = body.chunks(2).map(|two| u16_at(two, 0) as i64).collect();
    let rising = rates.windows(2).all(|pair| pair[0] < pair[1]);
    if !rising || rates.iter().any(|&rate| rate > 4095) {
        return Err(4);
    }
    Ok(rates)
}

pub fn read_unit(body: &[u8]) -> Result<Vec<Choice>, Refusal> {
    let read =
        |six: &[u8]| Choice { grains: u16_at(six, 0) as i64, distortion: u32_at(six, 2) as i64 };
    let unit: Vec<Choice> = body.chunks(6).map(read).collect();
    if unit.iter().any(|c| c.grains > 4095 || c.distortion > 1_000_000) {
        return Err(5);
    }
    Ok(unit)
}

/// Which entry reads a job. They differ in lines that never drain alone.
#[derive(Clone, Copy, Debug, PartialEq, Eq)]
pub enum Door {
    /// That of opening, writer, pin, lift and every call that plans.
    Opening,
    /// That of stored jobs, and of replay, report and turning.
    Archive,
}

impl Door {
    /// What is asked of a header whose fields are all in range.
    pub fn drains(self, fields: &[i64]) -> Result<(), Refusal> {
        let never = buckets_of(fields).iter().any(|bucket| bucket.drain == 0);
        match self {
            Door::Opening if never => Err(17),
            _ => Ok(()),
        }
    }
}

/// The job that opening takes.
pub fn read_job(reader: &mut Reader) -> Result<Job, Refusal> {
    read_by(Door::Opening, reader)
}

/// The job that the archive takes.
pub fn read_stored(reader: &mut Reader) -> Result<Job, Refusal> {
    read_by(Door::Archive, reader)
}

pub fn read_by(door: Door, reader: &mut Reader) -> Result<Job, Refusal> {
    let (_, header) = reader.record(header_length)?;
    let f = read_header(header)?;
    door.drains(&f)?;
    let rates = read_rates(reader.record_of(2, 2 + 2 * f[RATES] as usize)?)?;
    let mut units = Vec::new();
    for _ in 0..f[UNITS] {
        units.push(read_unit(reader.record_of(3, 2 + 6 * f[CHOICES] as usize)?)?);
    }
    Ok(Job {
        delay: f[DELAY] as usize,
        decoder_size: f[DECODER],
        start_decoder: f[START_DECODER],
        buckets: buckets_of(&f),
        rates,
        units,
    })
}

/// The pins held: at u − 1 the choice of unit u, if it is pinned.
pub type Pins = Vec<Option<usize>>;

pub fn pin(pins: &mut Pins, choices: usize, unit: usize, choice: usize) -> Result<(), Refusal> {
    if unit < 1 || unit > pins.len() {
        return Err(7);
    }
    if choice >= choices {
        return Err(8);
    }
    if pins[unit - 1].is_some() {
        return Err(9);
    }
    pins[unit - 1] = Some(choice);
    Ok(())
}

pub fn lift(pins: &mut Pins, unit: usize) -> Result<(), Refusal> {
    if unit < 1 || unit > pins.len() {
        return Err(7);
    }
    if pins[unit - 1].is_none() {
        return Err(10);
    }
    pins[unit - 1] = None;
    Ok(())
}

/// How many pins are held, and the sums of their grains and distortions.
pub fn pin_totals(job: &Job, pins: &Pins) -> [u64; 3] {
    let (mut count, mut grains, mut distortion) = (0, 0, 0);
    for (unit, pinned) in job.units.iter().zip(pins) {
        if let Some(choice) = pinned.map(|choice| &unit[choice]) {
            count += 1;
            grains += choice.grains as u64;
            distortion += choice.distortion as u64;
        }
    }
    [count, grains, distortion]
}

pub fn command_length(kind: u16) -> Option<usize> {
    match kind {
        6 => Some(6),
        7 => Some(4),
        _ => None,
    }
}

/// Takes the commands in turn: each is carried out before the next is read.
pub fn read_commands(reader: &mut Reader, job: &Job) -> Result<Pins, Refusal> {
    let mut pins = vec![None; job.units.len()];
    while !reader.rest.is_empty() {
        let (kind, body) = reader.record(command_length)?;
        let unit = u16_at(body, 0) as usize;
        if kind == 6 {
            pin(&mut pins, job.choices(), unit, u16_at(body, 2) as usize)?;
        } else {
            lift(&mut pins, unit)?;
        }
    }
    Ok(pins)
}

pub fn read_input(input: &[u8]) -> Result<(Job, Pins), Refusal> {
    if input.len() > INPUT_LIMIT {
        return Err(15);
    }
    let mut reader = Reader { rest: input };
    let job = read_job(&mut reader)?;
    let pins = read_commands(&mut reader, &job)?;
    Ok((job, pins))
}

// ---------------------------------------------------------------------------
// The decoder's limits.
// ---------------------------------------------------------------------------

/// What the decoder makes of an interval: from its level before, what is sent and
/// what the unit takes (0 where none leaves) to its level after, or `None` where
/// a limit is broken.
pub type Decoder = fn(&Job, i64, i64, i64) -> Option<i64>;

/// The rule. All that is sent has come before the unit leaves: this peak is at
/// most the decoder's size, and after the unit at least nothing is left.
pub fn by_peak(job: &Job, before: i64, sent: i64, taken: i64) -> Option<i64> {
    let peak = before + sent;
    let level = peak - taken;
    (peak <= job.decoder_size && level >= 0).then_some(level)
}

// ---------------------------------------------------------------------------
// The buckets' step.
// ---------------------------------------------------------------------------

/// A bucket's level after an interval and what this leaves unused of the drain,
/// from the level before and what is sent. Its size is left to the caller.
pub fn bucket_step(bucket: &Bucket, before: i64, sent: i64) -> (i64, i64) {
    let level = (before + sent - bucket.drain).max(0);
    let unused = (bucket.drain - before - sent).max(0);
    (level, unused)
}

/// What the buckets make of an interval: from their levels before and what is sent
/// to their levels after and what goes by unused. Their sizes are left to the
/// caller.
pub type Fill = fn(&Job, &Levels, i64) -> (Levels, Levels);

/// The rule. Each takes all that is sent.
pub fn by_each(job: &Job, before: &Levels, sent: i64) -> (Levels, Levels) {
    let (mut levels, mut unused) = ([0; MOST_BUCKETS], [0; MOST_BUCKETS]);
    for (at, bucket) in job.buckets.iter().enumerate() {
        (levels[at], unused[at]) = bucket_step(bucket, before[at], sent);
    }
    (levels, unused)
}

/// Whether no bucket is over.
pub fn hold(job: &Job, levels: &Levels) -> bool {
    job.buckets.iter().zip(levels).all(|(bucket, level)| *level <= bucket.size)
}

/// The levels after an interval, or `None` where a bucket is over.
pub fn filled(job: &Job, before: &Levels, sent: i64) -> Option<Levels> {
    let (levels, _) = by_each(job, before, sent);
    hold(job, &levels).then_some(levels)
}

// ---------------------------------------------------------------------------
// The rules of a search.
// ---------------------------------------------------------------------------

/// What a search goes by.
#[derive(Clone, Copy)]
pub struct Rules {
    pub decoder: Decoder,
    pub fill: Fill,
    /// Two paths may stand for each other where these are the same of their levels.
    pub meet: fn(&Levels) -> Levels,
}

pub const RULES: Rules = Rules { decoder: by_peak, fill: by_each, meet: |levels| *levels };

// ---------------------------------------------------------------------------
// The best plan: every plan replayed, and a dynamic program.
// ---------------------------------------------------------------------------

/// Rate index and choice index of one interval. Which of two equal plans is given is
/// decided by their ranks in an `Order`.
pub type Entry = (usize, usize);
pub type Plan = Vec<Entry>;

/// The plan due in each order, as in `ORDERS`.
pub type Plans = [Option<Plan>; 2];

/// The one that is due in this order.
pub fn plan_in(order: Order, plans: &Plans) -> &Option<Plan> {
    &plans[order.number() as usize]
}

#[derive(Clone, Debug, Default, PartialEq)]
pub struct Totals {
    pub distortion: i64,
    pub source: i64,
    pub channel: i64,
    /// A number for each bucket.
    pub unused: Vec<i64>,
}

impl Totals {
    /// In the order in which they are answered and printed.
    pub fn numbers(&self) -> Vec<i64> {
        [&[self.distortion, self.source, self.channel], &self.unused[..]].concat()
    }
}

/// Replays a plan; `None` at a violation. `see` is told the levels after each
/// interval that holds: the decoder's, and those of the buckets.
pub fn replay(job: &Job, pins: &Pins, plan: &Plan, see: impl FnMut(i64, &[i64])) -> Option<Totals> {
    replay_by(&RULES, job, pins, plan, see)
}

pub fn replay_by(
    rules: &Rules,
    job: &Job,
    pins: &Pins,
    plan: &Plan,
    mut see: impl FnMut(i64, &[i64]),
) -> Option<Totals> {
    let count = job.buckets.len();
    let (mut decoder, mut levels) = (job.start_decoder, job.start_levels());
    let mut totals = Totals { unused: vec![0; count], ..Totals::default() };
    for t in 1..=job.intervals() {
        let (rate, choice) = plan[t - 1];
        let sent = job.rates[rate];
        let mut taken = 0;
        if t > job.delay {
            let unit = t - job.delay;
            if pins[unit - 1].is_some_and(|pinned| pinned != choice) {
                return None;
            }
            taken = job.units[unit - 1][choice].grains;
            totals.distortion += job.units[unit - 1][choice].distortion;
        }
        decoder = (rules.decoder)(job, decoder, sent, taken)?;
        let (after, unused) = (rules.fill)(job, &levels, sent);
        if !hold(job, &after) {
            return None;
        }
        levels = after;
        totals.source += taken;
        totals.channel += sent;
        totals.unused.iter_mut().zip(unused).for_each(|(sum, grains)| *sum += grains);
        see(decoder, &levels[..count]);
    }
    Some(totals)
}

/// Steps to another plan as a counter does; false when all have been seen.
pub fn next_plan(job: &Job, plan: &mut Plan) -> bool {
    for entry in plan.iter_mut() {
        entry.0 += 1;
        if entry.0 < job.rates.len() {
            return true;
        }
        entry.0 = 0;
        if entry.1 != NO_CHOICE {
            entry.1 += 1;
            if entry.1 < job.choices() {
                return true;
            }
            entry.1 = 0;
        }
    }
    false
}

pub struct Enumerated {
    pub best: Plans,
    /// How many admissible plans share the least distortion.
    pub equals: usize,
}

/// Replays every plan in range and keeps the first in each of the paper's orders.
pub fn enumerate(job: &Job, pins: &Pins) -> Enumerated {
    let first = |t| (0, if t > job.delay { 0 } else { NO_CHOICE });
    let mut plan: Plan = (1..=job.intervals()).map(first).collect();
    let mut least = i64::MAX;
    let mut best: Plans = [None, None];
    let mut equals = 0;
    loop {
        if let Some(totals) = replay(job, pins, &plan, |_, _| ()) {
            if totals.distortion < least {
                (least, best, equals) = (totals.distortion, [None, None], 0);
            }
            if totals.distortion == least {
                equals += 1;
                for (order, held) in ORDERS.iter().zip(&mut best) {
                    if held.as_ref().map_or(true, |held| order.prefers(job, &plan, held)) {
                        *held = Some(plan.clone());
                    }
                }
            }
        }
        if !next_plan(job, &mut plan) {
            return Enumerated { best, equals };
        }
    }
}

/// A path: where it has come to, at what distortion and by which entries, these ranked in
/// the order asked for.
pub struct Branch {
    pub decoder: i64,
    pub levels: Levels,
    pub distortion: i64,
    pub ranks: Plan,
}

pub fn dynamic(order: Order, job: &Job, pins: &Pins) -> Option<Plan> {
    dynamic_by(&RULES, order, job, pins)
}

/// In each order.
pub fn dynamics(job: &Job, pins: &Pins) -> Plans {
    ORDERS.map(|order| dynamic(order, job, pins))
}

/// Carries the best path to each set of levels forward, interval by interval.
/// Paths that meet in all levels have the same continuations, so the better
/// of the two (then the first in order) may stand for both.
pub fn dynamic_by(rules: &Rules, order: Order, job: &Job, pins: &Pins) -> Option<Plan> {
    let (decoder, levels) = (job.start_decoder, job.start_levels());
    let mut layer = vec![Branch { decoder, levels, distortion: 0, ranks: Vec::new() }];
    for t in 1..=job.intervals() {
        let options = options(job, pins, t);
        let mut next: BTreeMap<(i64, Levels), Branch> = BTreeMap::new();
        for branch in &layer {
            for (rate, sent) in job.rates.iter().enumerate() {
                let (levels, _) = (rules.fill)(job, &branch.levels, *sent);
                if !hold(job, &levels) {
                    continue;
                }
                for &(choice, grains, distortion) in &options {
                    let decoder = (rules.decoder)(job, branch.decoder, *sent, grains);
                    let Some(decoder) = decoder else { continue };
                    let place = next.entry((decoder, (rules.meet)(&levels)));
                    let distortion = branch.distortion + distortion;
                    let rank = (order.place(job, rate), choice);
                    offer(place, branch, decoder, levels, distortion, rank);
                }
            }
        }
        layer = next.into_values().collect();
    }
    let best =
        layer.into_iter().min_by(|a, b| (a.distortion, &a.ranks).cmp(&(b.distortion, &b.ranks)))?;
    Some(order.ranked(job, &best.ranks))
}

/// What interval t may decode: choice, grains and distortion.
pub fn options(job: &Job, pins: &Pins, t: usize) -> Vec<(usize, i64, i64)> {
    if t <= job.delay {
        return vec![(NO_CHOICE, 0, 0)];
    }
    let unit = t - job.delay - 1;
    let listed = job.units[unit].iter().enumerate();
    let held = listed.filter(|(index, _)| pins[unit].map_or(true, |pinned| pinned == *index));
    held.map(|(index, choice)| (index, choice.grains, choice.distortion)).collect()
}

/// Keeps `branch` extended by an entry of this rank in a place if it is the better one
/// there.
pub fn offer(
    place: MapEntry<(i64, Levels), Branch>,
    branch: &Branch,
    decoder: i64,
    levels: Levels,
    distortion: i64,
    rank: Entry,
) {
    if let MapEntry::Occupied(held) = &place {
        let held = held.get();
        let order = branch.ranks.iter().chain([&rank]).cmp(held.ranks.iter());
        if distortion.cmp(&held.distortion).then(order).is_ge() {
            return;
        }
    }
    let mut ranks = branch.ranks.clone();
    ranks.push(rank);
    let better = Branch { decoder, levels, distortion, ranks };
    match place {
        MapEntry::Occupied(mut held) => drop(held.insert(better)),
        MapEntry::Vacant(free) => drop(free.insert(better)),
    }
}

pub fn best_plan(order: Order, job: &Job, pins: &Pins) -> Option<Plan> {
    if job.plans().is_some_and(|plans| plans <= ENUMERATION_LIMIT) {
        plan_in(order, &enumerate(job, pins).best).clone()
    } else {
        dynamic(order, job, pins)
    }
}

// ---------------------------------------------------------------------------
// Even pictures: every plan replayed, every completion tried, and a search forward.
// ---------------------------------------------------------------------------

/// What a plan is to make least, as the caller names it.
#[derive(Clone, Copy, Debug, PartialEq, Eq)]
pub enum Aim {
    /// The total distortion.
    Total,
    /// The greatest distortion of a unit, and then the total.
    Even,
}

pub const AIMS: [Aim; 2] = [Aim::Total, Aim::Even];

/// The numbers by which C names them.
pub const TOTAL: u32 = 0;
pub const EVEN: u32 = 1;

impl Aim {
    pub fn number(self) -> u32 {
        match self {
            Aim::Total => TOTAL,
            Aim::Even => EVEN,
        }
    }
}

/// Which of several plans that are as good is given, as the caller names it.
#[derive(Clone, Copy, Debug, PartialEq, Eq)]
pub enum Order {
    /// At the first difference the larger rate index, then the smaller choice index.
    Early,
    /// At the first difference the smaller rate index, then the smaller choice index.
    Late,
}

pub const ORDERS: [Order; 2] = [Order::Early, Order::Late];

/// The numbers by which C names them.
pub const EARLY: u32 = 0;
pub const LATE: u32 = 1;

impl Order {
    pub fn number(self) -> u32 {
        match self {
            Order::Early => EARLY,
            Order::Late => LATE,
        }
    }

    /// A rate's place among all, the one that is preferred first.
    pub fn place(self, job: &Job, rate: usize) -> usize {
        match self {
            Order::Early => job.rates.len() - 1 - rate,
            Order::Late => rate,
        }
    }

    /// Of two plans that are as good the one of the lesser rank is given.
    pub fn rank(self, job: &Job, plan: &Plan) -> Plan {
        plan.iter().map(|&(rate, choice)| (self.place(job, rate), choice)).collect()
    }

    /// The plan of this rank.
    pub fn ranked(self, job: &Job, ranks: &Plan) -> Plan {
        let rate = |place| (0..job.rates.len()).find(|&rate| self.place(job, rate) == place);
        ranks.iter().map(|&(place, choice)| (rate(place).expect("a rate"), choice)).collect()
    }

    /// In the words of document 02, and apart from the ranks: at the first difference the
    /// rate decides by its index, and where that is the same the smaller choice.
    pub fn prefers(self, job: &Job, plan: &Plan, other: &Plan) -> bool {
        for t in 0..job.intervals() {
            let ((rate, choice), (held, held_choice)) = (plan[t], other[t]);
            if rate != held {
                return if self == Order::Early { rate > held } else { rate < held };
            }
            if choice != held_choice {
                return choice < held_choice;
            }
        }
        false
    }
}

/// No choice is left out: more than any distortion.
pub const NO_LIMIT: i64 = i64::MAX;

/// The greatest distortion of a unit in a plan, be it pinned or not.
pub fn greatest(job: &Job, plan: &Plan) -> i64 {
    let units = job.units.iter().zip(&plan[job.delay..]);
    units.map(|(unit, entry)| unit[entry.1].distortion).max().expect("a unit")
}

/// An admissible plan and what it is judged by.
#[derive(Clone, Debug)]
pub struct Judged {
    pub greatest: i64,
    pub total: i64,
    pub plan: Plan,
}

/// Every admissible plan, found by replaying every plan in range.
pub fn admissible_plans(job: &Job, pins: &Pins) -> Vec<Judged> {
    let first = |t| (0, if t > job.delay { 0 } else { NO_CHOICE });
    let mut plan: Plan = (1..=job.intervals()).map(first).collect();
    let mut found = Vec::new();
    loop {
        if let Some(totals) = replay(job, pins, &plan, |_, _| ()) {
            let (greatest, total) = (greatest(job, &plan), totals.distortion);
            found.push(Judged { greatest, total, plan: plan.clone() });
        }
        if !next_plan(job, &mut plan) {
            return found;
        }
    }
}

pub struct Evened {
    pub best: Plans,
    /// The least that the greatest distortion of a plan can be.
    pub greatest: Option<i64>,
    /// How many admissible plans have it.
    pub as_even: usize,
    /// How many of these share the least total.
    pub equals: usize,
}

/// In the words of document 02: the greatest distortion is as small as an admissible
/// plan allows, among such plans the total is least, and then the order holds.
pub fn enumerate_even(job: &Job, pins: &Pins) -> Evened {
    let mut plans = admissible_plans(job, pins);
    let greatest = plans.iter().map(|judged| judged.greatest).min();
    plans.retain(|judged| Some(judged.greatest) == greatest);
    let as_even = plans.len();
    let total = plans.iter().map(|judged| judged.total).min();
    plans.retain(|judged| Some(judged.total) == total);
    let equals = plans.len();
    let best = ORDERS.map(|order| first_plan(job, Aim::Even, order, &plans));
    Evened { best, greatest, as_even, equals }
}

/// Of all admissible plans the one that is due for an aim and an order.
pub fn first_plan(job: &Job, aim: Aim, order: Order, plans: &[Judged]) -> Option<Plan> {
    let key = |judged: &&Judged| {
        let greatest = if aim == Aim::Even { judged.greatest } else { 0 };
        (greatest, judged.total, order.rank(job, &judged.plan))
    };
    plans.iter().min_by_key(key).map(|judged| judged.plan.clone())
}

/// The plan that is first in this order of those whose every entry attains the table's
/// word.
pub fn read_off_in(order: Order, job: &Job, pins: &Pins, table: &[u32]) -> Option<Plan> {
    read_off_by(by_peak, order, job, pins, table)
}

pub fn read_off_by(
    decoder_rule: Decoder,
    order: Order,
    job: &Job,
    pins: &Pins,
    table: &[u32],
) -> Option<Plan> {
    let word = |t: usize, decoder: i64, levels: &Levels| table[job.word(t, decoder, levels)];
    let mut rates: Vec<(usize, i64)> = job.rates.iter().copied().enumerate().collect();
    rates.sort_by_key(|&(rate, _)| order.place(job, rate));
    let (mut decoder, mut levels) = (job.start_decoder, job.start_levels());
    if word(0, decoder, &levels) == u32::MAX {
        return None;
    }
    let mut plan = Vec::new();
    for t in 1..=job.intervals() {
        let due = word(t - 1, decoder, &levels);
        let mut taken = None;
        for &(rate, sent) in &rates {
            for (choice, grains, distortion) in options(job, pins, t) {
                let Some(level) = decoder_rule(job, decoder, sent, grains) else { continue };
                let Some(after) = filled(job, &levels, sent) else { continue };
                let rest = word(t, level, &after);
                if taken.is_none() && rest != u32::MAX && distortion as u32 + rest == due {
                    taken = Some(((rate, choice), level, after));
                }
            }
        }
        let (entry, level, after) = taken.expect("an entry that attains the word");
        plan.push(entry);
        (decoder, levels) = (level, after);
    }
    Some(plan)
}

/// The least that intervals t + 1 to T add from these levels, by trying every
/// completion in which each pinned unit has its choice and no unit has a distortion
/// above the limit; `None` where there is no such completion.
pub fn completed(
    job: &Job,
    pins: &Pins,
    limit: i64,
    t: usize,
    decoder: i64,
    levels: &Levels,
) -> Option<i64> {
    if t == job.intervals() {
        return Some(0);
    }
    // Interval t + 1 decodes this unit, counted from 0, or none.
    let unit = t.checked_sub(job.delay);
    let mut open = Vec::new();
    match unit {
        None => open.push((0, 0)),
        Some(unit) => {
            for (index, choice) in job.units[unit].iter().enumerate() {
                let held = pins[unit].is_none() || pins[unit] == Some(index);
                if held && choice.distortion <= limit {
                    open.push((choice.grains, choice.distortion));
                }
            }
        }
    }
    let mut sums = Vec::new();
    for &sent in &job.rates {
        let Some(after) = filled(job, levels, sent) else { continue };
        for &(taken, distortion) in &open {
            let Some(level) = by_peak(job, decoder, sent, taken) else { continue };
            let rest = completed(job, pins, limit, t + 1, level, &after);
            sums.extend(rest.map(|rest| distortion + rest));
        }
    }
    sums.into_iter().min()
}

/// Every word of the table in which choices above the limit are left out.
pub fn completed_table(job: &Job, pins: &Pins, limit: i64) -> Vec<u32> {
    let mut table = vec![0; job.words()];
    for t in 0..=job.intervals() {
        for decoder in 0..=job.decoder_size {
            for levels in job.all_levels() {
                let word = completed(job, pins, limit, t, decoder, &levels);
                table[job.word(t, decoder, &levels)] = word.map_or(u32::MAX, |word| word as u32);
            }
        }
    }
    table
}

/// The table that planning for even pictures leaves: where there is no plan, the full
/// one.
pub fn even_table(job: &Job, pins: &Pins, greatest: Option<i64>) -> Vec<u32> {
    completed_table(job, pins, greatest.unwrap_or(NO_LIMIT))
}

/// The least that the greatest distortion of a plan can be: carried forward to each
/// set of levels, interval by interval.
pub fn least_greatest(job: &Job, pins: &Pins) -> Option<i64> {
    let mut layer = BTreeMap::from([((job.start_decoder, job.start_levels()), 0)]);
    for t in 1..=job.intervals() {
        let options = options(job, pins, t);
        let mut next: BTreeMap<(i64, Levels), i64> = BTreeMap::new();
        for ((decoder, levels), worst) in &layer {
            for &sent in &job.rates {
                let Some(after) = filled(job, levels, sent) else { continue };
                for &(_, grains, distortion) in &options {
                    let Some(level) = by_peak(job, *decoder, sent, grains) else { continue };
                    let held = next.entry((level, after)).or_insert(NO_LIMIT);
                    *held = (*held).min(distortion.max(*worst));
                }
            }
        }
        layer = next;
    }
    layer.into_values().min()
}

/// The job with every choice above the limit made larger than any decoder, so that no
/// plan has it. What each choice loses is as before.
pub fn limited(job: &Job, limit: i64) -> Job {
    let mut job = job.clone();
    let choices = job.units.iter_mut().flatten();
    choices.filter(|choice| choice.distortion > limit).for_each(|choice| choice.grains = 1 << 20);
    job
}

/// The least greatest distortion by the search forward, then the dynamic program over
/// the choices that this leaves.
pub fn dynamic_even(order: Order, job: &Job, pins: &Pins) -> Option<Plan> {
    let limit = least_greatest(job, pins)?;
    dynamic(order, &limited(job, limit), pins)
}

// ---------------------------------------------------------------------------
// Plans as bytes.
// ---------------------------------------------------------------------------

/// How many bytes an entry has: the rate's index, then the choice's, its lower byte
/// first.
pub const ENTRY_BYTES: usize = 3;
/// The same of the former shape: the rate's index, then the choice's.
pub const FORMER_BYTES: usize = 2;

pub fn plan_bytes(plan: &Plan) -> Vec<u8> {
    let entry = |&(rate, choice): &Entry| {
        let [low, high] = (choice as u16).to_le_bytes();
        vec![rate as u8, low, high]
    };
    plan.iter().flat_map(entry).collect()
}

/// The plan that the bytes are, or the refusal due.
pub fn read_plan(job: &Job, bytes: &[u8]) -> Result<Plan, Refusal> {
    if bytes.len() != ENTRY_BYTES * job.intervals() {
        return Err(14);
    }
    let entry = |three: &[u8]| (three[0] as usize, u16_at(three, 1) as usize);
    in_range(job, NO_CHOICE, bytes.chunks(ENTRY_BYTES).map(entry).collect())
}

/// The plan, if every rate and choice is in range and the first intervals, which
/// decode no unit, have this for a choice.
pub fn in_range(job: &Job, no_choice: usize, plan: Plan) -> Result<Plan, Refusal> {
    for (t, &(rate, choice)) in (1..).zip(&plan) {
        let due = if t > job.delay { choice < job.choices() } else { choice == no_choice };
        if rate >= job.rates.len() || !due {
            return Err(14);
        }
    }
    Ok(plan)
}

/// A plan as it was stored in the former shape.
pub fn former_bytes(plan: &Plan) -> Vec<u8> {
    let entry = |&(rate, choice): &Entry| {
        let stored = if choice == NO_CHOICE { FORMER_NO_CHOICE } else { choice };
        vec![rate as u8, stored as u8]
    };
    plan.iter().flat_map(entry).collect()
}

/// The plan that the bytes were under the former shape, or the refusal due.
pub fn read_former(job: &Job, bytes: &[u8]) -> Result<Plan, Refusal> {
    if job.choices() > FORMER_CHOICES || bytes.len() != FORMER_BYTES * job.intervals() {
        return Err(14);
    }
    let entry = |two: &[u8]| (two[0] as usize, two[1] as usize);
    let plan = in_range(job, FORMER_NO_CHOICE, bytes.chunks(FORMER_BYTES).map(entry).collect())?;
    let marked = |choice| if choice == FORMER_NO_CHOICE { NO_CHOICE } else { choice };
    let kept = |(rate, choice)| (rate, marked(choice));
    Ok(plan.into_iter().map(kept).collect())
}

/// What a stored plan is turned into, or the first refusal due. `room` is the length
/// of the list for the entries.
pub fn turn(job: &Job, old: &[u8], room: usize) -> Result<Vec<u8>, Refusal> {
    let entries = plan_bytes(&read_former(job, old)?);
    if room < entries.len() {
        return Err(12);
    }
    Ok(entries)
}

// ---------------------------------------------------------------------------
// A book of pins, and sets of them as numbers.
// ---------------------------------------------------------------------------

/// The lines that have a choice, by unit from 1.
pub type Book = BTreeMap<usize, usize>;

/// What the book makes of a call in three numbers: 0, or the number that refuses it. A
/// refused call changes no line.
pub fn step_book(job: &Job, book: &mut Book, call: [u16; 3]) -> Refusal {
    let [kind, unit, choice] = call.map(usize::from);
    if unit < 1 || unit > job.units.len() {
        return 7;
    }
    if kind == 7 {
        return if book.remove(&unit).is_some() { 0 } else { 10 };
    }
    if choice >= job.choices() {
        return 8;
    }
    if book.contains_key(&unit) {
        return 9;
    }
    book.insert(unit, choice);
    0
}

/// The book's pins as the searches have them.
pub fn pins_of(job: &Job, book: &Book) -> Pins {
    (1..=job.units.len()).map(|unit| book.get(&unit).copied()).collect()
}

/// How many numbers a set has, and where its pins and its totals begin.
pub const SET_NUMBERS: usize = 528;
pub const SET_PINS: usize = 13;
pub const SET_TOTALS: usize = 525;
/// The pin of a unit without one.
pub const NO_PIN: u32 = 65_535;

/// The set of a job with these pins: the header's kind, its fields, a pin for each of
/// 512 units, and what the pins come to.
pub fn set_numbers(job: &Job, book: &Book) -> Vec<u32> {
    let mut numbers = vec![if job.buckets.len() > 1 { 8 } else { 1 }];
    numbers.extend(Lists::of_job(job).fields.iter().map(|&field| field as u32));
    numbers.resize(SET_PINS, 0);
    numbers.extend((1..=512).map(|unit| book.get(&unit).map_or(NO_PIN, |&choice| choice as u32)));
    let choices = || book.iter().map(|(unit, choice)| &job.units[unit - 1][*choice]);
    numbers.push(book.len() as u32);
    numbers.push(choices().map(|choice| choice.grains as u32).sum());
    numbers.push(choices().map(|choice| choice.distortion as u32).sum());
    numbers
}

/// The book whose set the numbers are; `None` where they are no set of this job. What
/// stands behind a set is not looked at.
pub fn read_set(job: &Job, numbers: &[u32]) -> Option<Book> {
    let numbers = numbers.get(..SET_NUMBERS)?;
    let mut book = Book::new();
    for (unit, &number) in (1..).zip(&numbers[SET_PINS..SET_TOTALS]) {
        if number == NO_PIN {
            continue;
        }
        let choices = job.units.get(unit - 1).map_or(0, Vec::len);
        if number as usize >= choices {
            return None;
        }
        book.insert(unit, number as usize);
    }
    (set_numbers(job, &book) == numbers).then_some(book)
}

// ---------------------------------------------------------------------------
// A change of contract: every continuation tried, and the rest as a job of its own.
// ---------------------------------------------------------------------------

/// The largest size of each bucket.
pub const LARGEST: [i64; MOST_BUCKETS] = [255, 63];
/// The most rates, and the most that a rate or a drain may be.
pub const MOST_RATES: usize = 16;
pub const MOST_GRAINS: i64 = 4095;

/// Rates, and size and drain of each bucket, in place of a job's own. As in a draft,
/// anything may be wrong.
#[derive(Clone, Debug, PartialEq)]
pub struct Contract {
    pub rates: Vec<u16>,
    pub sizes: Vec<u16>,
    pub drains: Vec<u16>,
}

impl Contract {
    /// The job's own.
    pub fn of(job: &Job) -> Contract {
        let each = |of: fn(&Bucket) -> i64| job.buckets.iter().map(|b| of(b) as u16).collect();
        Contract {
            rates: job.rates.iter().map(|&rate| rate as u16).collect(),
            sizes: each(|bucket| bucket.size),
            drains: each(|bucket| bucket.drain),
        }
    }

    /// The first refusal due, for a line of so many buckets.
    pub fn judged(&self, buckets: usize) -> Result<(), Refusal> {
        let counts = [self.sizes.len(), self.drains.len()];
        if counts != [buckets; 2] || self.rates.is_empty() || self.rates.len() > MOST_RATES {
            return Err(3);
        }
        for (at, (&size, &drain)) in self.sizes.iter().zip(&self.drains).enumerate() {
            if size as i64 > LARGEST[at] || drain as i64 > MOST_GRAINS {
                return Err(3);
            }
        }
        if self.drains.contains(&0) {
            return Err(17);
        }
        read_rates(&words(&self.rates)).map(|_| ())
    }

    /// The job with this contract in the place of its own, its buckets at these levels at the
    /// start.
    pub fn put(&self, job: &Job, levels: &Levels) -> Job {
        let mut job = job.clone();
        job.rates = self.rates.iter().map(|&rate| rate as i64).collect();
        for (at, bucket) in job.buckets.iter_mut().enumerate() {
            let [size, drain] = [self.sizes[at], self.drains[at]].map(i64::from);
            *bucket = Bucket { size, drain, start: levels[at] };
        }
        job
    }
}

/// The levels of decoder and buckets after so many entries of a plan, from the starting
/// levels and under the job's own contract; `None` where one of these has a violation.
pub fn carried(job: &Job, pins: &Pins, plan: &Plan, first: usize) -> Option<(i64, Levels)> {
    let (mut decoder, mut levels) = (job.start_decoder, job.start_levels());
    for (t, &(rate, choice)) in (1..=first).zip(plan) {
        let sent = job.rates[rate];
        let open = options(job, pins, t);
        // A choice that a pin rules out is not among them.
        let (_, taken, _) = open.iter().find(|option| option.0 == choice)?;
        decoder = by_peak(job, decoder, sent, *taken)?;
        levels = filled(job, &levels, sent)?;
    }
    Some((decoder, levels))
}

/// Follows a plan whose first entries are under the job's own contract and the others under
/// a new one, from the starting levels; `None` at a violation. `see` is told the levels after
/// each interval.
pub fn replay_changed(
    job: &Job,
    pins: &Pins,
    first: usize,
    contract: &Contract,
    plan: &Plan,
    mut see: impl FnMut(i64, &[i64]),
) -> Option<Totals> {
    let count = job.buckets.len();
    let new = contract.put(job, &[0; MOST_BUCKETS]);
    let (mut decoder, mut levels) = (job.start_decoder, job.start_levels());
    let mut totals = Totals { unused: vec![0; count], ..Totals::default() };
    for (t, &(rate, choice)) in (1..).zip(plan) {
        let under = if t <= first { job } else { &new };
        let sent = under.rates[rate];
        if t > job.delay {
            let unit = t - job.delay - 1;
            if pins[unit].is_some_and(|pinned| pinned != choice) {
                return None;
            }
            let Choice { grains, distortion } = job.units[unit][choice];
            decoder = by_peak(under, decoder, sent, grains)?;
            totals.source += grains;
            totals.distortion += distortion;
        } else {
            decoder = by_peak(under, decoder, sent, 0)?;
        }
        for at in 0..count {
            let (level, unused) = bucket_step(&under.buckets[at], levels[at], sent);
            if level > under.buckets[at].size {
                return None;
            }
            levels[at] = level;
            totals.unused[at] += unused;
        }
        totals.channel += sent;
        see(decoder, &levels[..count]);
    }
    Some(totals)
}

/// How many continuations of so many entries there are, or `None` beyond 64 bits.
pub fn continuations(job: &Job, first: usize, contract: &Contract) -> Option<u64> {
    let left = (job.intervals() - first) as u32;
    let rates = (contract.rates.len() as u64).checked_pow(left)?;
    let units = left.min(job.units.len() as u32);
    rates.checked_mul((job.choices() as u64).checked_pow(units)?)
}

pub struct Continued {
    /// Whole plans: the old entries and the best continuation, in each order.
    pub best: Plans,
    /// How many continuations that are admissible share the least distortion.
    pub equals: usize,
}

/// Follows every continuation of the first entries from the starting levels, and keeps the
/// one of least distortion that is first in each order.
pub fn continued(
    job: &Job,
    pins: &Pins,
    old: &Plan,
    first: usize,
    contract: &Contract,
) -> Continued {
    // Rates and choices are counted as the new contract has them; the first entries are the
    // same in all, so that they do not matter to the order.
    let new = contract.put(job, &[0; MOST_BUCKETS]);
    let none = |t| (0, if t > job.delay { 0 } else { NO_CHOICE });
    let mut rest: Plan = (first + 1..=job.intervals()).map(none).collect();
    let mut least = i64::MAX;
    let mut best: Plans = [None, None];
    let mut equals = 0;
    loop {
        let plan: Plan = [&old[..first], &rest].concat();
        if let Some(totals) = replay_changed(job, pins, first, contract, &plan, |_, _| ()) {
            if totals.distortion < least {
                (least, best, equals) = (totals.distortion, [None, None], 0);
            }
            if totals.distortion == least {
                equals += 1;
                for (order, held) in ORDERS.iter().zip(&mut best) {
                    if held.as_ref().map_or(true, |held| order.prefers(job, &plan, held)) {
                        *held = Some(plan.clone());
                    }
                }
            }
        }
        if !next_plan(&new, &mut rest) {
            return Continued { best, equals };
        }
    }
}

/// The rest of a programme as a job of its own: the intervals after the first ones, with the
/// units that they decode, under the new contract and from these levels; and its pins.
pub fn rest_of(
    job: &Job,
    pins: &Pins,
    first: usize,
    contract: &Contract,
    (decoder, levels): (i64, Levels),
) -> (Job, Pins) {
    let gone = first.saturating_sub(job.delay);
    let mut rest = contract.put(job, &levels);
    rest.delay = job.delay.saturating_sub(first);
    rest.start_decoder = decoder;
    rest.units.drain(..gone);
    (rest, pins[gone..].to_vec())
}

/// Every word of the layers from `first` on, by trying every completion.
pub fn completed_layers(job: &Job, pins: &Pins, first: usize, contract: &Contract) -> Vec<u32> {
    let new = contract.put(job, &[0; MOST_BUCKETS]);
    let mut layers = Vec::new();
    for t in first..=job.intervals() {
        for decoder in 0..=job.decoder_size {
            for levels in new.all_levels() {
                let word = completed(&new, pins, NO_LIMIT, t, decoder, &levels);
                layers.push(word.map_or(u32::MAX, |word| word as u32));
            }
        }
    }
    layers
}

/// A contract for a line of so many buckets, mostly near one that is given: the same; or with
/// other rates, more or fewer; or with other sizes and drains, where `at_least` are levels
/// that the sizes mostly hold. It is in range.
pub fn random_contract(
    rng: &mut Rng,
    own: &Contract,
    at_least: &[i64],
    most_size: usize,
    most_rates: usize,
) -> Contract {
    let mut contract = own.clone();
    if !rng.one_in(4) {
        let most = *own.rates.last().expect("a rate") as usize;
        let most = (most.min(4000) + rng.from(0, 3)).max(2);
        let count = rng.from(1, most_rates.min(most));
        contract.rates = rng.rising(count, most);
        if !rng.one_in(4) {
            contract.rates[0] = 0;
        }
        if rng.one_in(20) {
            contract.rates[count - 1] = 4095;
        }
    }
    for at in 0..own.sizes.len() {
        let (size, level) = (own.sizes[at] as usize, at_least[at] as usize);
        let most = if at == 0 { most_size } else { most_size.min(63) };
        contract.sizes[at] = match rng.from(0, 9) {
            0 | 1 => size,
            2 | 3 => level,
            4 | 5 => level.saturating_sub(1),
            6 => rng.from(0, most),
            _ => rng.from(level.min(most), most),
        } as u16;
        let drain = own.drains[at] as usize;
        contract.drains[at] = match rng.from(0, 5) {
            0 | 1 => drain,
            2 => drain + rng.from(0, 2),
            3 => drain - rng.from(0, drain.min(2)),
            _ => random_drain(rng, 6),
        }
        .clamp(1, 4095) as u16;
    }
    contract
}

// ---------------------------------------------------------------------------
// What a larger bucket brings: every plan by the size that it needs.
// ---------------------------------------------------------------------------

/// The sizes of the first bucket that are asked for: from the job's own to the largest.
pub fn larger_sizes(job: &Job) -> RangeInclusive<i64> {
    job.buckets[0].size..=LARGEST[0]
}

/// The job with a first bucket of this size, all else equal.
pub fn enlarged(job: &Job, size: i64) -> Job {
    job.with_bucket(0, |bucket| bucket.size = size)
}

/// The least size of the first bucket with which the plan is admissible, and its distortion;
/// `None` where the size of this bucket is not what rules it out. It is followed with a bucket
/// that is never over, and needs the highest level that this comes to.
pub fn size_needed(job: &Job, pins: &Pins, plan: &Plan) -> Option<(i64, i64)> {
    let mut highest = 0;
    let endless = enlarged(job, i64::MAX);
    let totals = replay(&endless, pins, plan, |_, levels| highest = highest.max(levels[0]))?;
    Some((highest, totals.distortion))
}

/// The least total for each of the sizes, by following every plan in range once.
pub fn sizes_by_plans(job: &Job, pins: &Pins) -> Vec<u32> {
    let first = |t| (0, if t > job.delay { 0 } else { NO_CHOICE });
    let mut plan: Plan = (1..=job.intervals()).map(first).collect();
    // By the size that is needed.
    let mut least: BTreeMap<i64, i64> = BTreeMap::new();
    loop {
        if let Some((size, distortion)) = size_needed(job, pins, &plan) {
            let held = least.entry(size).or_insert(distortion);
            *held = (*held).min(distortion);
        }
        if !next_plan(job, &mut plan) {
            break;
        }
    }
    let total = |size| least.range(..=size).map(|(_, distortion)| *distortion).min();
    larger_sizes(job).map(|size| total(size).map_or(u32::MAX, |total| total as u32)).collect()
}

/// The least total with a first bucket of this size, by the dynamic program.
pub fn size_by_paths(order: Order, job: &Job, pins: &Pins, size: i64) -> u32 {
    let job = enlarged(job, size);
    let plan = dynamic(order, &job, pins);
    let totals = plan.and_then(|plan| replay(&job, pins, &plan, |_, _| ()));
    totals.map_or(u32::MAX, |totals| totals.distortion as u32)
}

/// The shapes of jobs in which the first bucket's size decides: to enumerate, and for the
/// dynamic program. `bucket` is the most room that the bucket has at the start.
pub const SIZED: [Shape; 2] = [
    Shape {
        units: (2, 3),
        delay: (0, 2),
        decoder: 7,
        bucket: 3,
        rates: 3,
        choices: 3,
        grains: 0,
        heavy: &[2, 6, 1000],
        commands: 2,
    },
    Shape {
        units: (5, 9),
        delay: (0, 3),
        decoder: 9,
        bucket: 4,
        rates: 4,
        choices: 4,
        grains: 0,
        heavy: &[4, 20, 1000],
        commands: 2,
    },
];

/// A job in which the first bucket's size decides: it drains little, and distortions fall as
/// the units grow, so that a good plan sends as much as the bucket takes. Its size is anywhere
/// in the range, and mostly it starts so full that each of the next sizes counts. A second
/// bucket drains somewhat more.
pub fn random_sized_job(rng: &mut Rng, shape: &Shape) -> Draft {
    let decoder = rng.from(3, shape.decoder);
    let room = rng.from(0, shape.bucket);
    let largest = LARGEST[0] as usize;
    let size = match rng.from(0, 11) {
        0 => largest,
        1..=4 => largest - rng.from(1, shape.bucket),
        5 => rng.from(0, largest),
        6 => 0,
        _ => room,
    };
    let levels = [
        rng.from(shape.delay.0, shape.delay.1),
        decoder,
        size,
        rng.from(1, decoder.div_ceil(4)),
        rng.from(0, decoder / 3),
        if rng.one_in(8) { rng.from(0, size) } else { size.saturating_sub(room) },
    ];
    let count = rng.from(2, shape.rates);
    let mut rates = rng.rising(count, decoder);
    if !rng.one_in(8) {
        rates[0] = 0;
    }
    let count = rng.from(shape.units.0, shape.units.1);
    let choices = rng.from(2, shape.choices);
    let (steep, heavy) = (rng.pick(&[1, 7, 40, 65_536]), rng.pick(shape.heavy));
    let mut units = Vec::new();
    for _ in 0..count {
        let mut unit: Vec<(u16, u32)> = Vec::new();
        for choice in 1..=choices {
            let light = choice == choices && !rng.one_in(heavy);
            let taken = if light { 0 } else { rng.from(1, decoder) };
            let distortion = (decoder - taken) * steep + rng.from(0, steep / 2);
            unit.push((taken as u16, distortion as u32));
        }
        units.push(unit);
    }
    let mut draft = Draft::new(levels.map(|level| level as u16), &rates, &units);
    draft.commands = random_commands(rng, &draft, shape.commands);
    if rng.one_in(2) {
        return draft;
    }
    let size = rng.from(0, 2 * shape.bucket);
    let second = [size, rng.from(levels[3], decoder), rng.from(0, size / 2)];
    draft.doubled(second.map(|number| number as u16))
}

// ---------------------------------------------------------------------------
// A playlist: each programme from the levels that the one before it left.
// ---------------------------------------------------------------------------

/// The most entries of a playlist, and how many totals each programme has.
pub const MOST_PROGRAMMES: usize = 64;
pub const PROGRAMME_TOTALS: usize = 5;

/// No pins.
pub fn free(job: &Job) -> Pins {
    vec![None; job.units.len()]
}

/// The job with its buckets at these levels at the start.
pub fn started(job: &Job, levels: &Levels) -> Job {
    let mut job = job.clone();
    for (bucket, level) in job.buckets.iter_mut().zip(levels) {
        bucket.start = *level;
    }
    job
}

/// A programme that was planned: its job, with the levels from which it starts in the place of
/// its own, and its plan.
#[derive(Clone, Debug)]
pub struct Sent {
    pub job: Job,
    pub plan: Plan,
}

impl Sent {
    /// What decoder and buckets hold after so many of its intervals.
    pub fn after(&self, intervals: usize) -> (i64, Levels) {
        let levels = carried(&self.job, &free(&self.job), &self.plan, intervals);
        levels.expect("an admissible plan")
    }

    /// What they hold at its end.
    pub fn ended(&self) -> (i64, Levels) {
        self.after(self.job.intervals())
    }

    /// Five numbers on either line: a second bucket that is not there leaves nothing unused.
    pub fn totals(&self) -> [u64; PROGRAMME_TOTALS] {
        let totals = replay(&self.job, &free(&self.job), &self.plan, |_, _| ());
        let mut numbers = [0; PROGRAMME_TOTALS];
        for (number, total) in numbers.iter_mut().zip(totals.expect("admissible").numbers()) {
            *number = total as u64;
        }
        numbers
    }
}

/// What comes of a playlist.
#[derive(Clone, Debug, Default)]
pub struct Played {
    /// The programmes that were planned, in the order of the list.
    pub sent: Vec<Sent>,
    /// The job of the one after them, where it was searched and has no plan.
    pub planless: Option<Job>,
    /// The place of the first that is refused, from 1, or 0 for the list itself; and the number.
    pub refused: Option<(usize, Refusal)>,
}

impl Played {
    pub fn answer(&self) -> u32 {
        self.refused.map_or(0, |(place, number)| 256 * place as u32 + number as u32)
    }

    /// The jobs whose tables were filled, one after another.
    pub fn searched(&self) -> impl Iterator<Item = &Job> {
        self.sent.iter().map(|sent| &sent.job).chain(&self.planless)
    }
}

/// The job of an entry, if nothing is wrong with the entry by itself.
pub fn read_entry(bytes: &[u8], entry: &[u32]) -> Result<Job, Refusal> {
    let [first, length] = [entry[0] as usize, entry[1] as usize];
    let mut reader = Reader { rest: bytes.get(first..first + length).ok_or(22)? };
    let job = read_job(&mut reader)?;
    if !reader.rest.is_empty() {
        return Err(22);
    }
    Ok(job)
}

/// The rule: the bucket levels at the end of the last programme replace the job's own, if they
/// are within its buckets. The decoder starts at the job's own level.
pub fn sent_after(job: &Job, sent: &[Sent]) -> Result<Job, Refusal> {
    let Some(last) = sent.last() else { return Ok(job.clone()) };
    let (_, levels) = last.ended();
    if !hold(job, &levels) {
        return Err(20);
    }
    Ok(started(job, &levels))
}

/// In the words of document 02, in lists of these lengths: table, entries, totals. `plan` gives
/// the plan that is due from a job's starting levels.
pub fn play(
    bytes: &[u8],
    numbers: &[u32],
    room: [usize; 3],
    plan: impl Fn(&Job) -> Option<Plan>,
) -> Played {
    play_by(sent_after, bytes, numbers, room, plan)
}

/// The same, where another rule may say how a job starts after those that were sent before it.
pub fn play_by(
    start: impl Fn(&Job, &[Sent]) -> Result<Job, Refusal>,
    bytes: &[u8],
    numbers: &[u32],
    [words, mut room, totals]: [usize; 3],
    plan: impl Fn(&Job) -> Option<Plan>,
) -> Played {
    let mut played = Played::default();
    let count = numbers.len() / 2;
    if numbers.len() % 2 == 1 || count == 0 || count > MOST_PROGRAMMES {
        played.refused = Some((0, 21));
        return played;
    }
    for (place, entry) in (1..).zip(numbers.chunks(2)) {
        let mut next = || -> Result<(), Refusal> {
            let job = read_entry(bytes, entry)?;
            let first = played.sent.first();
            if first.is_some_and(|first| first.job.buckets.len() != job.buckets.len()) {
                return Err(22);
            }
            let job = start(&job, &played.sent)?;
            if words < job.words() {
                return Err(11);
            }
            if room < ENTRY_BYTES * job.intervals() || totals < PROGRAMME_TOTALS * place {
                return Err(12);
            }
            let Some(plan) = plan(&job) else {
                played.planless = Some(job);
                return Err(13);
            };
            room -= ENTRY_BYTES * job.intervals();
            played.sent.push(Sent { job, plan });
            Ok(())
        };
        if let Err(number) = next() {
            played.refused = Some((place, number));
            break;
        }
    }
    played
}

/// Follows the plans of several programmes in one go: the buckets run on from interval to
/// interval, whichever programme it belongs to, by the drains and sizes of that programme; the
/// decoder starts anew with each. Gives each one's five totals, and the bucket levels after
/// each interval; `None` at a violation.
pub fn replay_on(
    jobs: &[Job],
    plans: &[Plan],
) -> Option<(Vec<[u64; PROGRAMME_TOTALS]>, Vec<Levels>)> {
    let mut levels = jobs.first()?.start_levels();
    let (mut totals, mut seen) = (Vec::new(), Vec::new());
    for (job, plan) in jobs.iter().zip(plans) {
        let mut sums = [0; PROGRAMME_TOTALS];
        let mut decoder = job.start_decoder;
        for (t, &(rate, choice)) in (1..).zip(plan) {
            let sent = job.rates[rate];
            decoder += sent;
            if decoder > job.decoder_size {
                return None;
            }
            if t > job.delay {
                let Choice { grains, distortion } = job.units[t - job.delay - 1][choice];
                decoder -= grains;
                sums[0] += distortion as u64;
                sums[1] += grains as u64;
            }
            if decoder < 0 {
                return None;
            }
            sums[2] += sent as u64;
            for (at, bucket) in job.buckets.iter().enumerate() {
                let level = levels[at] + sent - bucket.drain;
                levels[at] = level.max(0);
                sums[3 + at] += (levels[at] - level) as u64;
                if level > bucket.size {
                    return None;
                }
            }
            seen.push(levels);
        }
        totals.push(sums);
    }
    Some((totals, seen))
}

/// The jobs of a playlist, most of which can be sent one after another: their lines have as many
/// buckets, and sizes and drains that change now and then. They drain little and most units are
/// the better the more they take, so that what one programme leaves in the buckets counts for the
/// next. One job in `steady` may have no plan, and one bucket in as many a smaller size. `size`:
/// 0 for tiny jobs, 1 for larger ones.
pub fn random_programmes(rng: &mut Rng, size: usize, count: usize, steady: usize) -> Vec<Draft> {
    let buckets = rng.from(1, MOST_BUCKETS);
    let mut line: Vec<[usize; 2]> =
        (0..buckets).map(|_| [rng.from(0, 7), rng.from(1, 3)]).collect();
    let mut drafts: Vec<Draft> = Vec::new();
    for _ in 0..count {
        // Now and then the same is sent again.
        if !drafts.is_empty() && rng.one_in(8) {
            let again = drafts[rng.from(0, drafts.len() - 1)].clone();
            drafts.push(again);
            continue;
        }
        let mut draft = match rng.from(0, 7) {
            0 => random_job(rng, [&TINY, &MEDIUM][size]),
            1 | 2 => random_equal_job(rng, &EQUAL[size]),
            _ => random_sized_job(rng, &SIZED[size]),
        };
        draft = draft.alone();
        draft.commands.clear();
        if !rng.one_in(steady) {
            draft.rates[0] = 0;
            draft.units.iter_mut().for_each(|unit| unit.last_mut().expect("a choice").0 = 0);
        }
        for [size, drain] in &mut line {
            match rng.from(0, 11) {
                _ if rng.one_in(steady) => *size = rng.from(0, *size),
                0 => *size = (*size + rng.from(0, 2)).min(60),
                1 => *drain = rng.from(1, 4),
                _ => (),
            }
        }
        let with_level = |rng: &mut Rng, [size, drain]: [usize; 2]| {
            [size, drain, rng.from(0, size)].map(|number| number as u16)
        };
        let [size, drain, level] = with_level(rng, line[0]);
        draft = draft.with(BUCKET, size).with(DRAIN, drain).with(START_BUCKET, level);
        if let Some(second) = line.get(1) {
            draft = draft.doubled(with_level(rng, *second));
        }
        drafts.push(draft);
    }
    drafts
}

// ---------------------------------------------------------------------------
// Rules that a program might follow by mistake.
// ---------------------------------------------------------------------------

/// Says of each mistaken rule, by its name, whether a job has another answer under
/// it, only to count the jobs that tell it from the right one. The plan is the
/// job's best in the order, if there is one.
pub type Mistakes = fn(Order, &Job, &Pins, Option<&Plan>) -> Vec<Mistake>;

/// A mistaken rule by its name, and whether it shows.
pub type Mistake = (&'static str, bool);

/// The decoder's: another plan is best, or there is one where there is none.
pub fn decoder_mistakes(order: Order, job: &Job, pins: &Pins, plan: Option<&Plan>) -> Vec<Mistake> {
    let rules: [(&str, Decoder); 2] = [
        ("the size asked of the level alone", by_level),
        ("the peak cut down to the size", by_cut),
    ];
    let told = |decoder| dynamic_by(&Rules { decoder, ..RULES }, order, job, pins).as_ref() != plan;
    rules.map(|(name, rule)| (name, told(rule))).to_vec()
}

/// The decoder's former rule: the size is asked of the level after the unit has left.
pub fn by_level(job: &Job, before: i64, sent: i64, taken: i64) -> Option<i64> {
    let level = before + sent - taken;
    (0..=job.decoder_size).contains(&level).then_some(level)
}

fn by_cut(job: &Job, before: i64, sent: i64, taken: i64) -> Option<i64> {
    let level = (before + sent).min(job.decoder_size) - taken;
    (level >= 0).then_some(level)
}

/// The same, and that of a program that fills the table by the right rule and reads the
/// plan off it by the decoder's former one. Every completion is tried for the table.
pub fn tight_mistakes(order: Order, job: &Job, pins: &Pins, plan: Option<&Plan>) -> Vec<Mistake> {
    let table = completed_table(job, pins, NO_LIMIT);
    let former = former_mistakes(order, job, pins, plan, &table);
    [decoder_mistakes(order, job, pins, plan), former].concat()
}

/// The plan read off the right table by the decoder's former rule. In the late order it is
/// never another: a smaller rate than one that the decoder holds has a smaller peak.
pub fn former_mistakes(
    order: Order,
    job: &Job,
    pins: &Pins,
    plan: Option<&Plan>,
    table: &[u32],
) -> Vec<Mistake> {
    match order {
        Order::Early => {
            let found = read_off_by(by_level, order, job, pins, table);
            vec![("read off by the level", found.as_ref() != plan)]
        }
        Order::Late => vec![],
    }
}

/// Those of programs that decide between equal plans in another way.
pub fn order_mistakes(order: Order, job: &Job, pins: &Pins, plan: Option<&Plan>) -> Vec<Mistake> {
    let other = match order {
        Order::Early => Order::Late,
        Order::Late => Order::Early,
    };
    // With each unit's choices turned about the smaller index is the larger.
    let last = job.choices() - 1;
    let mut turned = job.clone();
    turned.units.iter_mut().for_each(|unit| unit.reverse());
    let pinned = pins.iter().map(|pinned| pinned.map(|choice| last - choice)).collect();
    let back = |&(rate, choice): &Entry| match choice {
        NO_CHOICE => (rate, choice),
        _ => (rate, last - choice),
    };
    let larger = dynamic(order, &turned, &pinned).map(|plan| plan.iter().map(back).collect());
    vec![
        ("the other order", dynamic(other, job, pins).as_ref() != plan),
        ("the larger choice", larger.as_ref() != plan),
    ]
}

/// The same, and more of them. Every plan is tried.
pub fn tie_mistakes(order: Order, job: &Job, pins: &Pins, plan: Option<&Plan>) -> Vec<Mistake> {
    let mut plans = admissible_plans(job, pins);
    let total = plans.iter().map(|judged| judged.total).min();
    plans.retain(|judged| Some(judged.total) == total);
    let by = |key: &dyn Fn(&Plan) -> Plan| {
        let first = plans.iter().min_by_key(|judged| key(&order.rank(job, &judged.plan)));
        first.map(|judged| &judged.plan) != plan
    };
    let grains = |ranks: &Plan| ranks.iter().map(|&(place, _)| place).sum();
    let choice_first =
        |ranks: &Plan| ranks.iter().map(|&(place, choice)| (choice, place)).collect();
    let rates_first = |ranks: &Plan| {
        let rates = ranks.iter().map(|&(place, _)| (place, 0));
        rates.chain(ranks.iter().map(|&(_, choice)| (choice, 0))).collect()
    };
    let mut told = order_mistakes(order, job, pins, plan);
    told.extend([
        ("all rates before the choices", by(&rates_first)),
        ("the last difference", by(&|ranks| ranks.iter().rev().copied().collect())),
        ("the sum of the rates", by(&|ranks| [&[(grains(ranks), 0)], &ranks[..]].concat())),
    ]);
    // Early the larger rate nearly always leaves the smaller choice too.
    if order == Order::Late {
        told.push(("the choice before the rate", by(&choice_first)));
    }
    told
}

/// The first bucket's: the best plan has another sum of unused drain.
pub fn unused_mistakes(_: Order, job: &Job, pins: &Pins, plan: Option<&Plan>) -> Vec<Mistake> {
    // Of each interval the level before, what is sent, and the level after.
    let mut steps = Vec::new();
    let bucket = job.buckets[0];
    let mut before = bucket.start;
    let totals = plan.and_then(|plan| {
        replay(job, pins, plan, |_, after| {
            steps.push((before, job.rates[plan[steps.len()].0], after[0]));
            before = after[0];
        })
    });
    let unused = |before: i64, sent: i64| bucket_step(&bucket, before, sent).1;
    let due = || steps.iter().map(|&(before, sent, _)| unused(before, sent));
    let but_last = steps.len().saturating_sub(1);
    let sums: [(&str, i64); 6] = [
        ("nothing counted", 0),
        ("the first interval left out", due().skip(1).sum()),
        ("the last interval left out", due().take(but_last).sum()),
        ("draining before adding", steps.iter().map(|step| unused(step.0, 0)).sum()),
        ("the level left out", steps.iter().map(|step| unused(0, step.1)).sum()),
        ("the level after the interval", steps.iter().map(|step| unused(step.2, step.1)).sum()),
    ];
    let told = |sum| totals.as_ref().is_some_and(|totals| totals.unused[0] != sum);
    sums.map(|(name, sum)| (name, told(sum))).to_vec()
}

/// The second bucket's: something else is printed, be it the plan, a level or a
/// total.
pub fn second_mistakes(order: Order, job: &Job, pins: &Pins, plan: Option<&Plan>) -> Vec<Mistake> {
    let first = job.buckets[0];
    let second = |change: &dyn Fn(&mut Bucket)| job.with_bucket(1, change);
    let fill = |fill| Rules { fill, ..RULES };
    let rows: [(&str, Job, Rules); 7] = [
        ("no limit", second(&|bucket| bucket.size = i64::MAX), RULES),
        ("the first's size", second(&|bucket| bucket.size = first.size), RULES),
        ("the first's drain", second(&|bucket| bucket.drain = first.drain), RULES),
        ("the first's start", second(&|bucket| bucket.start = first.start), RULES),
        ("given what the first lets through", job.clone(), fill(in_series)),
        ("drained before adding", job.clone(), fill(drained_before)),
        ("the sums of unused drain swapped", job.clone(), fill(swapped_unused)),
    ];
    let due = plan.and_then(|plan| followed_by(&RULES, job, pins, plan));
    let told = |job: &Job, rules: &Rules| {
        let other = dynamic_by(rules, order, job, pins);
        let found = other.as_ref().and_then(|plan| followed_by(rules, job, pins, plan));
        other.as_ref() != plan || found != due
    };
    rows.map(|(name, job, rules)| (name, told(&job, &rules))).to_vec()
}

/// The same, and those of a search that takes paths for each other which differ in
/// one bucket. Plans of few intervals seldom tell these.
pub fn meeting_mistakes(order: Order, job: &Job, pins: &Pins, plan: Option<&Plan>) -> Vec<Mistake> {
    let meet = |meet| Rules { meet, ..RULES };
    let rows: [(&str, Rules); 2] = [
        ("paths met without the second level", meet(|levels| [levels[0], 0])),
        ("paths met without the first level", meet(|levels| [0, levels[1]])),
    ];
    let other = |rules: &Rules| dynamic_by(rules, order, job, pins).as_ref() != plan;
    let told = rows.map(|(name, rules)| (name, other(&rules)));
    [&second_mistakes(order, job, pins, plan)[..], &told].concat()
}

/// Those of programs that count choices in a byte, or that have one price for all the
/// choices of a size and take another choice than the best of them for it.
pub fn choice_mistakes(order: Order, job: &Job, pins: &Pins, plan: Option<&Plan>) -> Vec<Mistake> {
    let chosen = || plan.into_iter().flat_map(|plan| &plan[job.delay..]).map(|entry| entry.1);
    // Another choice like the one made stands behind it.
    let again = |(unit, choice): (usize, usize)| {
        let like = |other: &Choice| {
            let made = &job.units[unit][choice];
            (other.grains, other.distortion) == (made.grains, made.distortion)
        };
        pins[unit].is_none() && job.units[unit][choice + 1..].iter().any(like)
    };
    let told = |replaces| dynamic(order, &priced(job, pins, replaces), pins).as_ref() != plan;
    vec![
        ("the high byte lost", chosen().any(|choice| choice > 255)),
        ("255 for no unit", chosen().any(|choice| choice == 255)),
        ("31 choices looked at", chosen().any(|choice| choice >= FORMER_CHOICES)),
        ("the last of equal choices", chosen().enumerate().any(again)),
        ("the price of a size's first choice", told(|_, _| false)),
        ("the price of a size's last choice", told(|_, _| true)),
        ("the greatest price of a size", told(|held, other| other > held)),
    ]
}

/// Those of programs for even pictures: another plan, or another table. Every plan is
/// tried, and `plan` is the one due.
pub fn even_mistakes(order: Order, job: &Job, pins: &Pins, plan: Option<&Plan>) -> Vec<Mistake> {
    let plans = admissible_plans(job, pins);
    let table = even_table(job, pins, plan.map(|plan| greatest(job, plan)));
    // The greatest of the units that are not pinned; 0 where all are.
    let unpinned = |plan: &Plan| {
        let units = job.units.iter().zip(pins).zip(&plan[job.delay..]);
        let free = units.filter(|((_, pinned), _)| pinned.is_none());
        free.map(|((unit, _), entry)| unit[entry.1].distortion).max().unwrap_or(0)
    };
    // The first plan by these numbers and then in order.
    let by = |key: &dyn Fn(&Judged) -> (i64, i64)| {
        let rank = |judged: &Judged| order.rank(job, &judged.plan);
        let first = plans.iter().min_by_key(|judged| (key(judged), rank(judged)));
        first.map(|judged| &judged.plan)
    };
    let least_total = by(&|judged| (judged.total, 0));
    let free = by(&|judged| (unpinned(&judged.plan), judged.total));
    let last = plan.and_then(|plan| {
        let due = replay(job, pins, plan, |_, _| ())?.distortion;
        let as_good =
            |judged: &&Judged| (judged.greatest, judged.total) == (greatest(job, plan), due);
        let of = plans.iter().filter(as_good).map(|judged| &judged.plan);
        of.max_by_key(|plan| order.rank(job, plan))
    });
    // Each unit at the least that any of its choices loses: what no plan goes below.
    let floor = |unit: &Vec<Choice>| unit.iter().map(|choice| choice.distortion).min();
    let floor = job.units.iter().filter_map(floor).max();
    let other = |limit: Option<i64>| even_table(job, pins, limit) != table;
    let limit_of = |plan: Option<&Plan>| plan.map(|plan| greatest(job, plan));
    let below = limit_of(plan).map(|limit| limit - 1);
    // Of the pinned choices none is left out by it.
    let open_pins = |limit: Option<i64>| {
        let mut job = job.clone();
        for (unit, pinned) in job.units.iter_mut().zip(pins) {
            for (index, choice) in unit.iter_mut().enumerate() {
                let left_out = limit.is_some_and(|limit| choice.distortion > limit);
                if left_out && *pinned != Some(index) {
                    choice.grains = 1 << 20;
                }
            }
        }
        completed_table(&job, pins, NO_LIMIT)
    };
    vec![
        ("the least total", least_total != plan),
        ("the greatest alone, then the order", by(&|judged| (judged.greatest, 0)) != plan),
        ("the greatest after the total", by(&|j| (j.total, j.greatest)) != plan),
        ("the last of equal plans", last != plan),
        ("the limit of the plan of least total", other(limit_of(least_total))),
        ("the full table", other(None)),
        ("the choices at the limit left out", plan.is_some() && other(below)),
        ("the least of each unit for the limit", plan.is_some() && other(floor)),
        ("the greatest without the pins", free != plan || open_pins(free.map(unpinned)) != table),
        ("the full table where it is not reached", unreached(job, pins, &table)),
    ]
}

/// Whether the table and the full one have other words for levels that no admissible
/// beginning of a plan comes to.
fn unreached(job: &Job, pins: &Pins, table: &[u32]) -> bool {
    let full = completed_table(job, pins, NO_LIMIT);
    let mut reached = vec![false; table.len()];
    let mut layer = vec![(job.start_decoder, job.start_levels())];
    for t in 0..=job.intervals() {
        let mut next = Vec::new();
        for (decoder, levels) in layer {
            let word = job.word(t, decoder, &levels);
            if std::mem::replace(&mut reached[word], true) || t == job.intervals() {
                continue;
            }
            for &sent in &job.rates {
                let Some(after) = filled(job, &levels, sent) else { continue };
                for (_, grains, _) in options(job, pins, t + 1) {
                    next.extend(by_peak(job, decoder, sent, grains).map(|level| (level, after)));
                }
            }
        }
        layer = next;
    }
    let differs = |at: usize| !reached[at] && table[at] != full[at];
    (0..table.len()).any(differs)
}

/// The job with one choice left of each size: the first, or a later one where
/// `replaces` says so of their distortions. The others take more than any decoder
/// holds. A unit that is pinned has its choice.
fn priced(job: &Job, pins: &Pins, replaces: fn(i64, i64) -> bool) -> Job {
    let mut job = job.clone();
    let free = job.units.iter_mut().zip(pins).filter(|(_, pinned)| pinned.is_none());
    for unit in free.map(|(unit, _)| unit) {
        let mut held: BTreeMap<i64, (usize, i64)> = BTreeMap::new();
        for (index, choice) in unit.iter().enumerate() {
            let place = held.entry(choice.grains).or_insert((index, choice.distortion));
            if replaces(place.1, choice.distortion) {
                *place = (index, choice.distortion);
            }
        }
        for (index, choice) in unit.iter_mut().enumerate() {
            if held[&choice.grains].0 != index {
                choice.grains = 1 << 20;
            }
        }
    }
    job
}

/// For jobs to enumerate, for the dynamic program, and long.
pub const DOUBLE_MISTAKES: [Mistakes; 3] = [second_mistakes, meeting_mistakes, meeting_mistakes];

/// The levels of a plan, interval after interval, and its totals.
pub fn followed_by(
    rules: &Rules,
    job: &Job,
    pins: &Pins,
    plan: &Plan,
) -> Option<(Vec<i64>, Totals)> {
    let mut levels = Vec::new();
    let totals = replay_by(rules, job, pins, plan, |decoder, buckets| {
        levels.push(decoder);
        levels.extend_from_slice(buckets);
    })?;
    Some((levels, totals))
}

/// What leaves the first bucket comes to the second.
fn in_series(job: &Job, before: &Levels, sent: i64) -> (Levels, Levels) {
    let (mut levels, mut unused) = by_each(job, before, sent);
    let through = before[0] + sent - levels[0];
    (levels[1], unused[1]) = bucket_step(&job.buckets[1], before[1], through);
    (levels, unused)
}

fn drained_before(job: &Job, before: &Levels, sent: i64) -> (Levels, Levels) {
    let (mut levels, mut unused) = by_each(job, before, sent);
    (levels[1], unused[1]) = bucket_step(&job.buckets[1], before[1], 0);
    levels[1] += sent;
    (levels, unused)
}

fn swapped_unused(job: &Job, before: &Levels, sent: i64) -> (Levels, Levels) {
    let (levels, [first, second]) = by_each(job, before, sent);
    (levels, [second, first])
}

/// How many jobs tell the rule from each of the mistaken ones, and of how many that
/// was asked.
#[derive(Default)]
pub struct Told {
    counts: BTreeMap<&'static str, [usize; 2]>,
}

impl Told {
    /// In each order, with the plans due.
    pub fn count(&mut self, mistakes: Mistakes, job: &Job, pins: &Pins, plans: &Plans) {
        for order in ORDERS {
            self.count_in(order, mistakes, job, pins, plan_in(order, plans));
        }
    }

    pub fn count_in(
        &mut self,
        order: Order,
        mistakes: Mistakes,
        job: &Job,
        pins: &Pins,
        plan: &Option<Plan>,
    ) {
        self.add(&mistakes(order, job, pins, plan.as_ref()));
    }

    pub fn add(&mut self, mistakes: &[(&'static str, bool)]) {
        for (name, told) in mistakes {
            let count = self.counts.entry(name).or_default();
            count[0] += *told as usize;
            count[1] += 1;
        }
    }

    /// Whether each mistaken rule shows in one of `jobs` jobs or more often.
    pub fn each(&self, jobs: usize) -> bool {
        self.counts.values().all(|[told, asked]| told * jobs >= *asked)
    }

    /// Whether nothing was asked.
    pub fn is_empty(&self) -> bool {
        self.counts.is_empty()
    }

    pub fn show(&self) -> String {
        let show = |(name, [told, asked]): (&&str, &[usize; 2])| format!("{name} {told}/{asked}");
        let each: Vec<String> = self.counts.iter().map(show).collect();
        format!("; told from {}", each.join(", "))
    }
}

// ---------------------------------------------------------------------------
// Building inputs.
// ---------------------------------------------------------------------------

/// Positions of the header's fields.
pub const UNITS: usize = 0;
pub const DELAY: usize = 1;
pub const DECODER: usize = 2;
pub const BUCKET: usize = 3;
pub const DRAIN: usize = 4;
pub const START_DECODER: usize = 5;
pub const START_BUCKET: usize = 6;
pub const RATES: usize = 7;
pub const CHOICES: usize = 8;
pub const SECOND: usize = 9;
pub const SECOND_DRAIN: usize = 10;
pub const START_SECOND: usize = 11;

/// Each header field with its least and its greatest value; the starting
/// levels' greatest are the sizes of Job A, and that of `SECOND_A`. The first nine
/// are those of a header with one bucket. A drain of 0 is in the range, and opening
/// refuses it all the same, by a number of its own.
pub const LIMITS: [(usize, u16, u16); 12] = [
    (UNITS, 1, 512),
    (DELAY, 0, 64),
    (DECODER, 0, 255),
    (BUCKET, 0, 255),
    (DRAIN, 0, 4095),
    (START_DECODER, 0, 4),
    (START_BUCKET, 0, 3),
    (RATES, 1, 16),
    (CHOICES, 1, MOST_CHOICES as u16),
    (SECOND, 0, 63),
    (SECOND_DRAIN, 0, 4095),
    (START_SECOND, 0, 2),
];

/// A second bucket for Job A that a rate of 2 passes through: size, drain and
/// starting level.
pub const SECOND_A: [u16; 3] = [2, 2, 0];

/// How large a job is.
#[derive(Clone, Copy)]
pub struct Size {
    pub units: usize,
    pub delay: usize,
    pub decoder: usize,
    pub bucket: usize,
    pub rates: usize,
    pub choices: usize,
}

impl Size {
    /// A header of this size. The drain is 20; at the start the decoder is filled to a
    /// third, the bucket to a half. `second`: size, drain and starting level of a second
    /// bucket.
    pub fn header(&self, second: Option<[u16; 3]>) -> Vec<u16> {
        let Size { units, delay, decoder, bucket, rates, choices } = *self;
        let fields = [units, delay, decoder, bucket, 20, decoder / 3, bucket / 2, rates, choices];
        let mut header = fields.map(|field| field as u16).to_vec();
        header.extend(second.into_iter().flatten());
        header
    }
}

/// The largest job that opens.
pub const FULL: Size =
    Size { units: 512, delay: 64, decoder: 255, bucket: 255, rates: 16, choices: MOST_CHOICES };

#[derive(Clone, Copy)]
pub enum Command {
    Pin(u16, u16),
    Lift(u16),
}
pub use self::Command::{Lift, Pin};

/// A job in the making. The header is kept as written, so that a field may be
/// wrong or disagree with what follows; it is of kind 8 where it has twelve fields.
#[derive(Clone)]
pub struct Draft {
    pub header: Vec<u16>,
    pub rates: Vec<u16>,
    pub units: Vec<Vec<(u16, u32)>>,
    pub commands: Vec<Command>,
}

impl Draft {
    /// `levels`: delay, decoder size, bucket size, drain, both starting levels.
    pub fn new(levels: [u16; 6], rates: &[u16], units: &[Vec<(u16, u32)>]) -> Draft {
        let mut header = vec![0; FIELDS[0]];
        header[UNITS] = units.len() as u16;
        header[DELAY..=START_BUCKET].copy_from_slice(&levels);
        header[RATES] = rates.len() as u16;
        header[CHOICES] = units[0].len() as u16;
        Draft { header, rates: rates.to_vec(), units: units.to_vec(), commands: Vec::new() }
    }

    pub fn with(&self, field: usize, value: u16) -> Draft {
        let mut draft = self.clone();
        draft.header[field] = value;
        draft
    }

    /// The job with a second bucket: its size, drain and starting level.
    pub fn doubled(&self, second: [u16; 3]) -> Draft {
        let mut draft = self.alone();
        draft.header.extend(second);
        draft
    }

    /// The job without its second bucket.
    pub fn alone(&self) -> Draft {
        let mut draft = self.clone();
        draft.header.truncate(FIELDS[0]);
        draft
    }

    /// The job with a drain of 0 in each bucket whose bit is set, the first one's the
    /// lowest.
    pub fn undrained(&self, buckets: usize) -> Draft {
        let mut draft = self.clone();
        for (at, &[_, drain, _]) in BUCKET_FIELDS.iter().enumerate() {
            if buckets >> at & 1 == 1 {
                draft.header[drain] = 0;
            }
        }
        draft
    }

    /// The buckets, whose numbers may be out of range.
    pub fn buckets(&self) -> Vec<Bucket> {
        let fields: Vec<i64> = self.header.iter().map(|&field| field as i64).collect();
        buckets_of(&fields)
    }

    /// Whether the drain of a bucket is 0.
    pub fn never_drains(&self) -> bool {
        self.buckets().iter().any(|bucket| bucket.drain == 0)
    }

    /// The words of its table.
    pub fn words(&self) -> usize {
        let fields = &self.header;
        let width: i64 = self.buckets().iter().map(|bucket| bucket.size + 1).product();
        let rows = (fields[UNITS] + fields[DELAY] + 1) as usize * (fields[DECODER] + 1) as usize;
        rows * width as usize
    }

    /// The job with its two buckets in the other order.
    pub fn swapped(&self) -> Draft {
        let mut draft = self.clone();
        for (first, second) in BUCKET_FIELDS[0].iter().zip(&BUCKET_FIELDS[1]) {
            draft.header.swap(*first, *second);
        }
        draft
    }

    pub fn commanded(&self, commands: &[Command]) -> Draft {
        let mut draft = self.clone();
        draft.commands.extend_from_slice(commands);
        draft
    }

    pub fn records(&self) -> Vec<Vec<u8>> {
        let kind = if self.header.len() > FIELDS[0] { 8 } else { 1 };
        let mut records = vec![record(kind, &words(&self.header)), record(2, &words(&self.rates))];
        records.extend(self.units.iter().map(|unit| record(3, &unit_body(unit))));
        records.extend(self.commands.iter().map(|&command| command_record(command)));
        records
    }

    pub fn bytes(&self) -> Vec<u8> {
        self.records().concat()
    }
}

pub fn record(kind: u16, body: &[u8]) -> Vec<u8> {
    let mut bytes = words(&[2 + body.len() as u16, kind]);
    bytes.extend_from_slice(body);
    bytes
}

pub fn words(values: &[u16]) -> Vec<u8> {
    values.iter().flat_map(|value| value.to_le_bytes()).collect()
}

pub fn unit_body(unit: &[(u16, u32)]) -> Vec<u8> {
    let mut body = Vec::new();
    for (grains, distortion) in unit {
        body.extend_from_slice(&grains.to_le_bytes());
        body.extend_from_slice(&distortion.to_le_bytes());
    }
    body
}

pub fn command_record(command: Command) -> Vec<u8> {
    match command {
        Pin(unit, choice) => record(6, &words(&[unit, choice])),
        Lift(unit) => record(7, &words(&[unit])),
    }
}

/// Every list of this length.
pub fn all_lists(letters: &[Command], length: usize) -> Vec<Vec<Command>> {
    let mut lists = vec![Vec::new()];
    for _ in 0..length {
        let longer = |list: &Vec<Command>| {
            let list = list.clone();
            letters.iter().map(move |letter| [&list[..], &[*letter]].concat()).collect::<Vec<_>>()
        };
        lists = lists.iter().flat_map(longer).collect();
    }
    lists
}

/// For two units of two choices: the empty list, every list of up to three
/// commands from a set with each refusal in it, and every list of four from those
/// that can be taken.
pub fn command_lists() -> Vec<Vec<Command>> {
    let good = [Pin(1, 0), Pin(1, 1), Pin(2, 0), Pin(2, 1), Lift(1), Lift(2)];
    let bad = [Pin(0, 0), Pin(3, 1), Pin(1, 2), Pin(0, 2), Pin(3, 2), Lift(0), Lift(3)];
    let mixed = [&good[..], &bad[..]].concat();
    let mut lists: Vec<Vec<Command>> =
        (0..=3).flat_map(|length| all_lists(&mixed, length)).collect();
    lists.extend(all_lists(&good, 4));
    lists
}

/// `input` followed by `tail`.
pub fn then(mut input: Vec<u8>, tail: &[u8]) -> Vec<u8> {
    input.extend_from_slice(tail);
    input
}

/// What a job is written from. As in a draft, anything may be wrong.
#[derive(Clone, Debug, PartialEq)]
pub struct Lists {
    pub fields: Vec<u16>,
    pub rates: Vec<u16>,
    /// Grains by unit and choice, unit after unit.
    pub sizes: Vec<u16>,
    /// Distortions in the same order.
    pub distortions: Vec<u32>,
}

impl Lists {
    pub fn of_draft(draft: &Draft) -> Lists {
        let codings = || draft.units.iter().flatten();
        Lists {
            fields: draft.header.clone(),
            rates: draft.rates.clone(),
            sizes: codings().map(|coding| coding.0).collect(),
            distortions: codings().map(|coding| coding.1).collect(),
        }
    }

    /// What the reader found in a job.
    pub fn of_job(job: &Job) -> Lists {
        let mut fields = vec![0; FIELDS[job.buckets.len() - 1]];
        for (field, value) in [
            (UNITS, job.units.len() as i64),
            (DELAY, job.delay as i64),
            (DECODER, job.decoder_size),
            (START_DECODER, job.start_decoder),
            (RATES, job.rates.len() as i64),
            (CHOICES, job.choices() as i64),
        ] {
            fields[field] = value as u16;
        }
        for (bucket, [size, drain, start]) in job.buckets.iter().zip(BUCKET_FIELDS) {
            fields[size] = bucket.size as u16;
            fields[drain] = bucket.drain as u16;
            fields[start] = bucket.start as u16;
        }
        let codings = || job.units.iter().flatten();
        Lists {
            fields,
            rates: job.rates.iter().map(|&rate| rate as u16).collect(),
            sizes: codings().map(|choice| choice.grains as u16).collect(),
            distortions: codings().map(|choice| choice.distortion as u32).collect(),
        }
    }

    /// The draft of a job, for a header of either kind whose choices are not 0.
    pub fn draft(&self) -> Draft {
        let codings: Vec<(u16, u32)> =
            self.sizes.iter().copied().zip(self.distortions.iter().copied()).collect();
        let choices = self.fields[CHOICES] as usize;
        Draft {
            header: self.fields.clone(),
            rates: self.rates.clone(),
            units: codings.chunks(choices).map(<[_]>::to_vec).collect(),
            commands: Vec::new(),
        }
    }

    /// The lengths that reading back to these lists needs: fields, rates, sizes, distortions,
    /// values.
    pub fn read_needs(&self) -> [usize; READ_LISTS] {
        let codings = [self.sizes.len(), self.distortions.len()];
        [self.fields.len(), self.rates.len(), codings[0], codings[1], READ_VALUES]
    }

    /// What to type again to see a failure.
    pub fn show(&self) -> String {
        format!("{self:?}").chars().take(40_000).collect()
    }
}

/// The bytes of the job that the lists make, or the first refusal due. `room` is
/// the length of the list for the bytes, `values` that of the list for their
/// count.
pub fn write_job(lists: &Lists, room: usize, values: usize) -> Result<Vec<u8>, Refusal> {
    if !FIELDS.contains(&lists.fields.len()) {
        return Err(3);
    }
    let f = read_header(&words(&lists.fields))?;
    Door::Opening.drains(&f)?;
    let codings = (f[UNITS] * f[CHOICES]) as usize;
    let lengths = [lists.rates.len(), lists.sizes.len(), lists.distortions.len()];
    if lengths != [f[RATES] as usize, codings, codings] {
        return Err(16);
    }
    // The limits of rates and codings are those that the reader holds them to.
    let draft = lists.draft();
    read_rates(&words(&draft.rates))?;
    for unit in &draft.units {
        read_unit(&unit_body(unit))?;
    }
    let bytes = draft.bytes();
    if room < bytes.len() || values < 1 {
        return Err(12);
    }
    Ok(bytes)
}

/// How many lists reading back fills, and how many values are among them: the bytes that the
/// job took and its fields.
pub const READ_LISTS: usize = 5;
pub const READ_VALUES: usize = 2;

/// What is read back of a job: its lists and the bytes that it took, or the first refusal due.
pub type ReadBack = Result<(Lists, usize), Refusal>;

/// `room`: the lengths of the lists that are filled, as `read_needs` has them.
pub fn read_back(door: Door, bytes: &[u8], room: [usize; READ_LISTS]) -> ReadBack {
    let mut reader = Reader { rest: bytes };
    let lists = Lists::of_job(&read_by(door, &mut reader)?);
    if room.iter().zip(lists.read_needs()).any(|(room, need)| *room < need) {
        return Err(12);
    }
    Ok((lists, bytes.len() - reader.rest.len()))
}

/// The draws from a starting state, one after another. The state has 32 bits; here the
/// product is whole, and what is over is taken off by a remainder.
pub struct Draws {
    pub state: u64,
}

impl Draws {
    pub fn next(&mut self) -> u64 {
        self.state = (self.state * 1_664_525 + 1_013_904_223) % 4_294_967_296;
        self.state / 65_536
    }
}

/// What a trial job holds, for a header in range.
pub fn trial_lists(fields: &[u16], state: u32) -> Lists {
    let mut draws = Draws { state: state.into() };
    let mut rates: Vec<u16> = Vec::new();
    for _ in 0..fields[RATES] {
        let least = rates.last().map_or(0, |rate| rate + 1);
        rates.push(least + (draws.next() % 4) as u16);
    }
    let (mut sizes, mut distortions) = (Vec::new(), Vec::new());
    for _unit in 0..fields[UNITS] {
        for _choice in 0..fields[CHOICES] {
            sizes.push((draws.next() % 64) as u16);
            distortions.push(draws.next() as u32);
        }
    }
    Lists { fields: fields.to_vec(), rates, sizes, distortions }
}

/// The bytes of a trial job, or the first refusal due. `room` is the length of the list
/// for the bytes, `values` that of the list for their count.
pub fn trial_bytes(
    fields: &[u16],
    state: u32,
    room: usize,
    values: usize,
) -> Result<Vec<u8>, Refusal> {
    if !FIELDS.contains(&fields.len()) {
        return Err(3);
    }
    Door::Opening.drains(&read_header(&words(fields))?)?;
    let bytes = trial_lists(fields, state).draft().bytes();
    if room < bytes.len() || values < 1 {
        return Err(12);
    }
    Ok(bytes)
}

/// The paper's Job A.
pub fn job_a() -> Draft {
    let units = [vec![(4, 10), (2, 30)], vec![(5, 12), (2, 40)]];
    Draft::new([1, 4, 3, 2, 0, 0], &[0, 2, 4], &units)
}

/// A job of N units in which every interval sends and decodes one grain.
pub fn even_job(units: usize, levels: [u16; 6]) -> Draft {
    Draft::new(levels, &[1], &vec![vec![(1, 1)]; units])
}

/// A job that is sent as it is decoded: each unit takes just what its interval is
/// to send, and nothing is to be sent in the delay. `levels`: delay, bucket size,
/// drain, the bucket's starting level.
pub fn sent_as_decoded(levels: [u16; 4], taken: &[u16]) -> Draft {
    let [delay, bucket, drain, start] = levels;
    let mut rates = [&[0][..], taken].concat();
    rates.sort();
    rates.dedup();
    let units: Vec<_> = taken.iter().map(|&grains| vec![(grains, 1)]).collect();
    let decoder = rates[rates.len() - 1];
    Draft::new([delay, decoder, bucket, drain, 0, start], &rates, &units)
}

/// A job that is sent before it is decoded: in each interval what is to be sent just fills
/// the decoder, and a unit takes what the next interval is to send, the last one nothing.
/// Nothing is to be sent in the delay and in the interval after it. `levels`: delay, bucket
/// size, drain, the bucket's starting level.
pub fn sent_before_decoded(levels: [u16; 4], sent: &[u16]) -> Draft {
    let [delay, bucket, drain, start] = levels;
    let mut rates = [&[0][..], sent].concat();
    rates.sort();
    rates.dedup();
    let taken = sent[1..].iter().chain(&[0]);
    let units: Vec<_> = taken.map(|&grains| vec![(grains, 1)]).collect();
    let decoder = rates[rates.len() - 1];
    let level = if delay > 0 { decoder } else { decoder - sent[0] };
    Draft::new([delay, decoder, bucket, drain, level, start], &rates, &units)
}

/// Jobs with the sums of their unused drain, worked out by hand: in this order the plan
/// sends what they are to send. In some a bucket never drains; of these no plan is made,
/// and what is worked out is a replay.
pub fn unused_by_hand(order: Order) -> Vec<(String, Draft, Vec<i64>)> {
    let sending = match order {
        Order::Early => sent_before_decoded,
        Order::Late => sent_as_decoded,
    };
    [one_unused_by_hand(sending), two_unused_by_hand(sending)].concat()
}

/// A job that sends so much in each interval after the delay.
type Sending = fn([u16; 4], &[u16]) -> Draft;

fn one_unused_by_hand(sending: Sending) -> Vec<(String, Draft, Vec<i64>)> {
    // Each line: delay, bucket size, drain, the bucket's starting level; what is
    // sent after the delay; how many times this is sent; what goes by unused.
    let rows: [([u16; 4], &[u16], usize, i64); 32] = [
        // No drain; the level is 5, 5, 9, or 0. A drain of 1: it is 4, 3, 6, or 0.
        ([0, 9, 0, 3], &[2, 0, 4], 1, 0),
        ([0, 0, 0, 0], &[0], 3, 0),
        ([0, 6, 1, 3], &[2, 0, 4], 1, 0),
        ([0, 0, 1, 0], &[0], 3, 3),
        // As full as 255 can be, and as full with all that was there.
        ([0, 255, 0, 0], &[5], 51, 0),
        ([3, 255, 0, 250], &[1, 0], 5, 0),
        // A drain of just what is there and what is sent, of one more and of one
        // less: both, only what is sent, only what is there, neither.
        ([0, 9, 5, 3], &[2], 1, 0),
        ([0, 9, 6, 3], &[2], 1, 1),
        ([0, 9, 4, 3], &[2], 1, 0),
        ([0, 9, 5, 0], &[5], 1, 0),
        ([0, 9, 6, 0], &[5], 1, 1),
        ([0, 9, 4, 0], &[5], 1, 0),
        ([0, 9, 5, 5], &[0], 1, 0),
        ([0, 9, 6, 5], &[0], 1, 1),
        ([0, 9, 4, 5], &[0], 1, 0),
        ([0, 9, 1, 0], &[0], 1, 1),
        // It goes by in the first, the second or the last interval alone.
        ([0, 2, 3, 0], &[0, 3, 3], 1, 3),
        ([0, 2, 3, 0], &[3, 0, 3], 1, 3),
        ([0, 2, 3, 0], &[3, 3, 0], 1, 3),
        // All 4 go by, then 5 are left; or 2, then 1 are left, and 3 go by last.
        ([0, 9, 4, 0], &[0, 9], 1, 4),
        ([0, 9, 4, 0], &[6, 3, 0], 1, 3),
        // The level is 5, 1, 0, 4, 0: the third interval drains 1 + 1, the last 4.
        ([0, 9, 4, 0], &[9, 0, 1, 8, 0], 1, 2),
        // The delay counts: 4, then 1 are there; then none are sent, then 3.
        ([2, 9, 3, 4], &[0, 3], 1, 2 + 3),
        // A bucket that starts filled: 255, 155, 55 and 0 are there.
        ([0, 255, 100, 255], &[0], 4, 45 + 100),
        ([0, 255, 100, 255], &[0], 2, 0),
        // The largest drain: all of it; all but what was there; all but that and
        // what is sent.
        ([0, 0, 4095, 0], &[0], 1, 4095),
        ([64, 0, 4095, 0], &[0], 512, 576 * 4095),
        ([0, 255, 4095, 255], &[0], 63, 63 * 4095 - 255),
        ([0, 3, 4095, 3], &[255], 9, 9 * (4095 - 255) - 3),
        // 512 units: 300 drain 5 or none; 4 drain 5, of which 1 is left, then 1; 4
        // drain 4 of 5, again and again.
        ([0, 0, 300, 0], &[5, 0], 256, 256 * (295 + 300)),
        ([0, 4, 4, 0], &[5, 0], 256, 256 * 3),
        ([0, 1, 4, 1], &[4], 512, 0),
    ];
    let case = |(levels, taken, times, unused): ([u16; 4], &[u16], usize, i64)| {
        let [delay, bucket, drain, start] = levels;
        let label = format!(
            "delay {delay}, bucket {bucket} from {start}, drain {drain}, {times} times {taken:?}"
        );
        (label, sending(levels, &taken.repeat(times)), vec![unused])
    };
    rows.map(case).to_vec()
}

fn two_unused_by_hand(sending: Sending) -> Vec<(String, Draft, Vec<i64>)> {
    // Each line: delay; size, drain and starting level of both buckets; what is sent
    // after the delay; how many times this is sent; what goes by unused.
    let rows: [(u16, [[u16; 3]; 2], &[u16], usize, [i64; 2]); 24] = [
        // A drain of just what is there and what is sent, and of one more.
        (0, [[9, 5, 3], [9, 6, 3]], &[2], 1, [0, 1]),
        (0, [[9, 6, 3], [9, 5, 3]], &[2], 1, [1, 0]),
        (0, [[9, 5, 3], [9, 5, 2]], &[2], 1, [0, 1]),
        (0, [[9, 5, 2], [9, 5, 3]], &[2], 1, [1, 0]),
        // The first goes 5, 1, 0, 4, 0 and leaves 2 and 0. The second does so too; or
        // goes 6, 3, 1, 6, 3; or 3, 0, 0, 2, 0 and leaves 3, 5 and 4.
        (0, [[9, 4, 0], [9, 4, 0]], &[9, 0, 1, 8, 0], 1, [2, 2]),
        (0, [[9, 4, 0], [6, 3, 0]], &[9, 0, 1, 8, 0], 1, [2, 0]),
        (0, [[9, 4, 0], [3, 6, 0]], &[9, 0, 1, 8, 0], 1, [2, 3 + 5 + 4]),
        (0, [[3, 6, 0], [9, 4, 0]], &[9, 0, 1, 8, 0], 1, [3 + 5 + 4, 2]),
        // The delay counts in both: the second goes 39, 38, 37, 39; or is 5, and then
        // all of its drain goes by but what is sent.
        (2, [[9, 3, 4], [63, 1, 40]], &[0, 3], 1, [2 + 3, 0]),
        (2, [[9, 3, 4], [5, 9, 5]], &[0, 3], 1, [2 + 3, 4 + 9 + 9 + 6]),
        // Buckets that start filled: 31, 21, 11 and 1 are there; 63, 13 and none.
        (0, [[31, 10, 31], [63, 50, 63]], &[0], 4, [9, 37 + 50 + 50]),
        (0, [[63, 50, 63], [31, 10, 31]], &[0], 4, [37 + 50 + 50, 9]),
        // No drain in one of them; its level is 5, 5, 9.
        (0, [[9, 4, 0], [15, 0, 3]], &[2, 0, 4], 1, [2 + 4, 0]),
        (0, [[9, 0, 3], [9, 5, 0]], &[2, 0, 4], 1, [0, 3 + 5 + 1]),
        // None in either, from other levels.
        (0, [[9, 0, 3], [12, 0, 6]], &[2, 0, 4], 1, [0, 0]),
        // A drain of 1 in one of them; its level is 4, 3, 6.
        (0, [[9, 4, 0], [6, 1, 3]], &[2, 0, 4], 1, [2 + 4, 0]),
        (0, [[6, 1, 3], [9, 5, 0]], &[2, 0, 4], 1, [0, 3 + 5 + 1]),
        // What was there at the start is drained once, in one of them alone.
        (0, [[2, 3, 0], [3, 3, 1]], &[0, 3, 3], 1, [3, 2]),
        // The largest drain, 512 units and a delay of 64.
        (64, [[0, 4095, 0], [0, 4095, 0]], &[0], 512, [576 * 4095, 576 * 4095]),
        (64, [[0, 0, 0], [0, 4095, 0]], &[0], 512, [0, 576 * 4095]),
        (64, [[0, 1, 0], [0, 4095, 0]], &[0], 512, [576, 576 * 4095]),
        // 512 units, as above: 300 drain 5 or none; 4 drain 5, of which 1 is left.
        (0, [[0, 300, 0], [4, 4, 0]], &[5, 0], 256, [256 * (295 + 300), 256 * 3]),
        (0, [[4, 4, 0], [0, 300, 0]], &[5, 0], 256, [256 * 3, 256 * (295 + 300)]),
        (0, [[1, 4, 1], [0, 4, 0]], &[4], 512, [0, 0]),
    ];
    let mut cases = Vec::new();
    for (delay, [first, second], taken, times, unused) in rows {
        let [bucket, drain, start] = first;
        let sent = taken.repeat(times);
        let draft = sending([delay, bucket, drain, start], &sent).doubled(second);
        let label = format!("delay {delay}, buckets {first:?} {second:?}, {times} times {taken:?}");
        cases.push((label, draft, unused.to_vec()));
    }
    cases
}

/// A unit of two grains at distortion 9, at every choice but these, which have 5; a rate
/// of 0 and one of 2.
pub fn chosen_among(choices: usize, best: &[usize]) -> Draft {
    let mut unit = vec![(2, 9); choices];
    best.iter().for_each(|&choice| unit[choice].1 = 5);
    Draft::new([0, 3, 0, 4095, 0, 0], &[0, 2], &[unit])
}

/// Job A or an easy job, with one field set and the records to go with it, on a
/// line of one bucket or with `SECOND_A` too.
pub fn sized_draft(buckets: usize, field: usize, value: u16) -> Draft {
    let count = value as usize;
    let unit = |choices: usize| (0..choices).map(|c| (c as u16 % 4, 1 + c as u32)).collect();
    let draft = match field {
        UNITS => even_job(count.max(1), [0, 2, 2, 1, 0, 0]),
        DELAY => Draft::new([value, 4, 3, 1, 0, 0], &[0, 1, 2], &[unit(2), unit(2)]),
        DECODER => Draft::new([1, value, 3, 1, 0, 0], &[0, 1], &[unit(2), unit(2)]),
        BUCKET => Draft::new([1, 3, value, 1, 0, 0], &[0, 1], &[unit(2), unit(2)]),
        RATES => {
            let rates: Vec<u16> = (0..value).collect();
            Draft::new([1, 4, 3, 2, 0, 0], &rates, &[unit(2), unit(2)])
        }
        CHOICES => Draft::new([1, 4, 3, 2, 0, 0], &[0, 2], &[unit(count), unit(count)]),
        SECOND | SECOND_DRAIN | START_SECOND => job_a(),
        _ => job_a().with(field, value),
    };
    match field {
        SECOND | SECOND_DRAIN | START_SECOND => draft.doubled(SECOND_A).with(field, value),
        _ if buckets > 1 => draft.doubled(SECOND_A),
        _ => draft,
    }
}

/// The bytes of such a job, whose field may be out of range. What follows is never
/// longer than a little past the limits.
pub fn sized(buckets: usize, field: usize, value: u16) -> Vec<u8> {
    let input = sized_draft(buckets, field, value.min(most_sized(field))).bytes();
    patched(&input, 4 + 2 * field, &value.to_le_bytes())
}

/// The ends of a field's range. Choices were 31 at most, and are counted in two bytes. A
/// drain may have a byte of 0 and not be 0.
pub fn values_in(field: usize, low: u16, high: u16) -> Vec<u16> {
    let mut values = vec![low, low + 1, high - 1, high];
    values.extend(match field {
        CHOICES => vec![31, 32, 255, 256, 257],
        DRAIN | SECOND_DRAIN => vec![255, 256, 257, 0x0f00],
        _ => vec![],
    });
    values
}

/// What opening and writer make of a field in its range, all else in order.
pub fn in_limits(field: usize, value: u16) -> Refusal {
    match field {
        DRAIN | SECOND_DRAIN if value == 0 => 17,
        _ => 0,
    }
}

/// Job A on a line of one bucket and of two, each with every set of drains at 0.
pub fn drains_of_a() -> Vec<Draft> {
    let lines = [job_a(), job_a().doubled(SECOND_A)];
    let each = |a: &Draft| -> Vec<Draft> {
        (0..1 << a.buckets().len()).map(|stopped| a.undrained(stopped)).collect()
    };
    lines.iter().flat_map(each).collect()
}

/// Headers with a fault, and the number due; the first has none. A drain that is out of
/// range stands in the place of one that is 0.
pub fn faulty_headers(a: &Draft) -> Vec<(Vec<u8>, Refusal)> {
    let right = a.records()[0].clone();
    let mut headers = vec![(right.clone(), 0)];
    let fields = [
        (UNITS, 0),
        (UNITS, 513),
        (DELAY, 65),
        (DECODER, 256),
        (BUCKET, 256),
        (DRAIN, 4096),
        (DRAIN, 0xff00),
        (START_DECODER, 5),
        (START_BUCKET, 4),
        (RATES, 0),
        (RATES, 17),
        (CHOICES, 0),
        (CHOICES, 1001),
        (SECOND, 64),
        (SECOND_DRAIN, 4096),
        (SECOND_DRAIN, 0xff00),
        (START_SECOND, 3),
        (START_SECOND, 0xffff),
    ];
    let wrong: Vec<Vec<u8>> = fields
        .iter()
        .filter(|(field, _)| *field < a.header.len())
        .map(|&(field, value)| a.with(field, value).records()[0].clone())
        .collect();
    headers.extend(wrong.iter().map(|header| (header.clone(), 3)));
    // Of another kind or length, with fields in range and not.
    let (length, kind) = (u16_at(&right, 0), u16_at(&right, 2));
    for (length, kind) in [
        (length, 0),
        (length, 2),
        (length, 9 - kind),
        (length, kind + 256),
        (length - 2, kind),
        (length + 1, kind),
        (46 - length, kind),
        (0, kind),
    ] {
        for header in [&right, &wrong[0], &wrong[wrong.len() - 1]] {
            headers.push((patched(header, 0, &words(&[length, kind])), 2));
        }
    }
    headers
}

/// What may follow Job A's header, and the number due: rates and units as they should
/// be, cut at every byte, with a record of another kind or length, or with one whose
/// numbers are out of range.
pub fn faulty_tails(a: &Draft) -> Vec<(Vec<u8>, Refusal)> {
    let records = &a.records()[1..];
    let mut tails = vec![(records.concat(), 0)];
    for (index, right) in records.iter().enumerate() {
        let (before, after) = (records[..index].concat(), records[index + 1..].concat());
        for cut in 0..right.len() {
            tails.push((then(before.clone(), &right[..cut]), 1));
        }
        let (length, kind) = (u16_at(right, 0), u16_at(right, 2));
        // A kind of 0 stands where a header of kind 8 has its second drain.
        let others = [(length, 0), (length, 1), (length, kind + 1), (length, kind + 256)];
        let mut wrong: Vec<(Vec<u8>, Refusal)> = others
            .iter()
            .chain(&[(0, kind), (length + 2, kind)])
            .map(|&(length, kind)| (patched(right, 0, &words(&[length, kind])), 2))
            .collect();
        // The last number of a record and the first: two rates that do not rise, a
        // rate, a size or a distortion over its limit.
        let last = right.len() - 2;
        wrong.extend(match index {
            0 => [(patched(right, 4, &[2, 0]), 4), (patched(right, last, &[0, 16]), 4)],
            _ => [(patched(right, 4, &[0, 16]), 5), (patched(right, last, &[0, 255]), 5)],
        });
        for (record, number) in wrong {
            let whole = then(before.clone(), &record);
            tails.push((then(whole.clone(), &after), number));
            // A fault behind it says nothing more.
            tails.push((then(whole.clone(), &[9, 0, 9, 0]), number));
            tails.push((whole, number));
        }
    }
    tails
}

/// The number of the first defect that is there, in the order due.
pub fn first_of(defects: &[(bool, Refusal)]) -> u32 {
    defects.iter().find(|defect| defect.0).map_or(0, |defect| defect.1 as u32)
}

/// As much of what a field counts as there is to go with it.
pub fn most_sized(field: usize) -> u16 {
    if field == CHOICES {
        MOST_CHOICES as u16 + 100
    } else {
        600
    }
}

pub fn patched(input: &[u8], at: usize, value: &[u8]) -> Vec<u8> {
    let mut bytes = input.to_vec();
    bytes[at..at + value.len()].copy_from_slice(value);
    bytes
}

// ---------------------------------------------------------------------------
// Random jobs.
// ---------------------------------------------------------------------------

/// SplitMix64.
pub struct Rng(pub u64);

impl Rng {
    pub fn next(&mut self) -> u64 {
        self.0 = self.0.wrapping_add(0x9e37_79b9_7f4a_7c15);
        let mut z = self.0;
        z = (z ^ (z >> 30)).wrapping_mul(0xbf58_476d_1ce4_e5b9);
        z = (z ^ (z >> 27)).wrapping_mul(0x94d0_49bb_1331_11eb);
        z ^ (z >> 31)
    }

    /// A number from `low` to `high`, both included.
    pub fn from(&mut self, low: usize, high: usize) -> usize {
        low + (self.next() % (high - low + 1) as u64) as usize
    }

    pub fn one_in(&mut self, count: usize) -> bool {
        self.from(1, count) == 1
    }

    pub fn pick<T: Copy>(&mut self, list: &[T]) -> T {
        list[self.from(0, list.len() - 1)]
    }

    /// `count` different numbers from 0 to `high`, rising.
    pub fn rising(&mut self, count: usize, high: usize) -> Vec<u16> {
        let mut left: Vec<u16> = (0..=high as u16).collect();
        let mut taken = Vec::new();
        for _ in 0..count {
            taken.push(left.swap_remove(self.from(0, left.len() - 1)));
        }
        taken.sort();
        taken
    }
}

/// The ranges a random job is drawn from.
pub struct Shape {
    pub units: (usize, usize),
    pub delay: (usize, usize),
    pub decoder: usize,
    pub bucket: usize,
    pub rates: usize,
    pub choices: usize,
    /// The largest usual rate and unit size; in a tight job, how far they may
    /// pass the decoder's size.
    pub grains: usize,
    /// How often, once in so many, a unit has no choice of next to nothing.
    /// Long jobs with several such units hardly ever have a plan.
    pub heavy: &'static [usize],
    pub commands: usize,
}

pub const TINY: Shape = Shape {
    units: (1, 3),
    delay: (0, 2),
    decoder: 6,
    bucket: 6,
    rates: 3,
    choices: 3,
    grains: 6,
    heavy: &[2, 8, 1000],
    commands: 6,
};

pub const MEDIUM: Shape = Shape {
    units: (8, 14),
    delay: (0, 4),
    decoder: 30,
    bucket: 15,
    rates: 5,
    choices: 6,
    grains: 12,
    heavy: &[2, 8, 1000],
    commands: 8,
};

pub const LONG: Shape = Shape {
    units: (100, 512),
    delay: (0, 64),
    decoder: 0,
    bucket: 0,
    rates: 4,
    choices: 4,
    grains: 5,
    heavy: &[1000],
    commands: 12,
};

/// The shapes of tight jobs: to enumerate, for the dynamic program, and long.
pub const TIGHT: [Shape; 3] = [
    Shape {
        units: (1, 3),
        delay: (0, 2),
        decoder: 8,
        bucket: 8,
        rates: 3,
        choices: 3,
        grains: 2,
        heavy: &[4, 1000],
        commands: 3,
    },
    Shape {
        units: (6, 14),
        delay: (0, 4),
        decoder: 24,
        bucket: 15,
        rates: 6,
        choices: 6,
        grains: 3,
        heavy: &[1000],
        commands: 3,
    },
    Shape {
        units: (100, 300),
        delay: (0, 30),
        decoder: 12,
        bucket: 2,
        rates: 4,
        choices: 4,
        grains: 2,
        heavy: &[1000],
        commands: 3,
    },
];

/// The shapes of idle jobs, which are drawn as tight ones are: with decoders that
/// hold every rate and most units, so that most jobs have a plan, and in its
/// quieter intervals some of the drain goes by.
pub const IDLE: [Shape; 3] = [
    Shape { units: (2, 3), grains: 0, heavy: &[1000], commands: 1, ..TIGHT[0] },
    Shape { choices: 4, grains: 0, commands: 1, ..TIGHT[1] },
    Shape { decoder: 7, bucket: 5, choices: 3, grains: 0, commands: 1, ..TIGHT[2] },
];

/// The shapes of jobs full of ties, drawn as idle ones are.
pub const EQUAL: [Shape; 3] = IDLE;

/// A job in which many plans are as good as the best: all choices of a unit are alike; or
/// they lose the same at other sizes; or they have the same size, and one in two loses
/// more; or they take next to nothing, so that rates differ in filler alone.
pub fn random_equal_job(rng: &mut Rng, shape: &Shape) -> Draft {
    let mut draft = random_tight_job(rng, shape);
    let most = draft.header[DECODER] as usize;
    let flavour = rng.from(0, 3);
    for unit in &mut draft.units {
        let size = rng.from(0, most.div_ceil(2)) as u16;
        let lost = rng.pick(&[0, 1, 7, 256, 65_535, 999_999]);
        for coding in unit {
            *coding = match flavour {
                0 => (size, lost),
                1 => (coding.0, lost),
                2 => (size, lost + rng.one_in(2) as u32),
                _ => (rng.from(0, 1) as u16, lost),
            };
        }
    }
    either_line(rng, draft, shape)
}

pub fn random_job(rng: &mut Rng, shape: &Shape) -> Draft {
    let decoder = rng.from(0, shape.decoder);
    let bucket = rng.from(0, shape.bucket);
    let levels = [
        rng.from(shape.delay.0, shape.delay.1),
        decoder,
        bucket,
        random_drain(rng, shape.grains),
        rng.from(0, decoder),
        rng.from(0, bucket),
    ];
    let rates = random_rates(rng, shape);
    let units = random_units(rng, shape);
    let mut draft = Draft::new(levels.map(|level| level as u16), &rates, &units);
    draft.commands = random_commands(rng, &draft, shape.commands);
    draft
}

/// A drain that opening takes: 1 in more jobs than another.
pub fn random_drain(rng: &mut Rng, grains: usize) -> usize {
    match rng.from(1, 16) {
        1 | 2 => 1,
        3 => 4095,
        _ => rng.from(1, grains),
    }
}

/// The job as it may have been stored: one time in `times` a bucket never drains, of
/// two buckets either or both. Such a bucket is often made larger, so that it takes
/// what some intervals send.
pub fn random_stored(rng: &mut Rng, draft: &Draft, times: usize) -> Draft {
    if !rng.one_in(times) {
        return draft.clone();
    }
    let which = rng.from(1, (1 << draft.buckets().len()) - 1);
    let mut stored = draft.undrained(which);
    for (at, &[size, ..]) in BUCKET_FIELDS.iter().enumerate() {
        if which >> at & 1 == 1 && !rng.one_in(3) {
            let largest = [255, 63][at];
            let more = rng.pick(&[3, 10, 40, 250]).min(largest - stored.header[size]);
            stored.header[size] += rng.from(0, more as usize) as u16;
        }
    }
    stored
}

pub fn random_rates(rng: &mut Rng, shape: &Shape) -> Vec<u16> {
    // Now and then as many rates as a job may have, in the larger shapes.
    let count = if shape.rates > 4 && rng.one_in(10) { 16 } else { rng.from(1, shape.rates) };
    let mut rates = rng.rising(count, shape.grains.max(count));
    if !rng.one_in(4) {
        // Without a rate of nothing, few jobs have a plan.
        rates[0] = 0;
    }
    if rng.one_in(20) {
        rates[count - 1] = 4095;
    }
    rates
}

pub fn random_units(rng: &mut Rng, shape: &Shape) -> Vec<Vec<(u16, u32)>> {
    let count = rng.from(shape.units.0, shape.units.1);
    // Now and then up to 31 choices, in the larger shapes.
    let most = if shape.choices > 4 && rng.one_in(10) { 31 } else { shape.choices };
    let choices = rng.from(1, most);
    let flavour = rng.from(0, 5);
    let heavy = rng.pick(shape.heavy);
    let mut units = Vec::new();
    for _ in 0..count {
        let mut unit: Vec<(u16, u32)> = Vec::new();
        for _ in 0..choices {
            let grains = if rng.one_in(40) { 4095 } else { rng.from(0, shape.grains) };
            unit.push((grains as u16, random_distortion(rng, flavour)));
        }
        if !rng.one_in(heavy) {
            unit[choices - 1].0 = rng.from(0, 1) as u16;
        }
        units.push(unit);
    }
    units
}

/// Flavours: mostly ties, values that need every byte, and plain ones.
pub fn random_distortion(rng: &mut Rng, flavour: usize) -> u32 {
    match flavour {
        0 => 1,
        1 => rng.from(0, 2) as u32,
        2 => rng.pick(&[0, 255, 256, 257, 65_535, 65_536, 65_537, 131_072, 1_000_000]),
        3 => rng.pick(&[999_999, 1_000_000]),
        4 => rng.from(0, 1_000_000) as u32,
        _ => rng.from(0, 9) as u32,
    }
}

/// Mostly lists that are taken whole; otherwise anything near the limits.
pub fn random_commands(rng: &mut Rng, draft: &Draft, most: usize) -> Vec<Command> {
    let (units, choices) = (draft.units.len(), draft.units[0].len());
    let loose = rng.one_in(4);
    let mut pinned = vec![false; units + 1];
    let mut commands = Vec::new();
    let count = rng.from(0, most);
    for _ in 0..count {
        let astray = loose && rng.one_in(8);
        let unit = if astray { rng.pick(&[0, units + 1]) } else { rng.from(1, units) };
        let choice = match loose && rng.one_in(8) {
            true if choices > 256 => rng.pick(&[choices, choices + 256, NO_CHOICE]),
            true => choices,
            false if choices > 256 => random_edge(rng, choices),
            false => rng.from(0, choices - 1),
        };
        let lifts = if loose { rng.one_in(4) } else { pinned[unit] };
        commands.push(if lifts { Lift(unit as u16) } else { Pin(unit as u16, choice as u16) });
        if !loose {
            pinned[unit] = !pinned[unit];
        }
    }
    commands
}

/// Choices at the ends of what one byte counts, lower or upper, and of the range.
pub const EDGES: [usize; 14] =
    [0, 30, 31, 32, 254, 255, 256, 257, 511, 512, 767, 768, MOST_CHOICES - 2, MOST_CHOICES - 1];

/// A choice of so many: mostly at an edge, and often 255 or more.
pub fn random_edge(rng: &mut Rng, choices: usize) -> usize {
    let edge = match rng.from(1, 8) {
        1 => rng.from(0, choices - 1),
        2 => rng.pick(&EDGES),
        3 | 4 | 5 => 255,
        _ => rng.pick(&EDGES[6..]),
    };
    if edge < choices {
        edge
    } else {
        rng.from(0, choices - 1)
    }
}

/// The shapes of jobs of many choices: one unit, so that all plans can be tried, for the
/// dynamic program, and long.
pub const MANY: [Shape; 3] = [
    Shape {
        units: (1, 1),
        delay: (0, 1),
        decoder: 7,
        bucket: 4,
        rates: 3,
        choices: MOST_CHOICES,
        grains: 2,
        heavy: &[],
        commands: 2,
    },
    Shape {
        units: (2, 5),
        delay: (0, 3),
        decoder: 9,
        bucket: 5,
        rates: 4,
        choices: MOST_CHOICES,
        grains: 2,
        heavy: &[],
        commands: 2,
    },
    Shape {
        units: (20, 40),
        delay: (0, 9),
        decoder: 12,
        bucket: 5,
        rates: 5,
        choices: MOST_CHOICES,
        grains: 2,
        heavy: &[],
        commands: 2,
    },
];

/// A job in which every size has many choices. The best of a size stands at an edge, and
/// distortions fall as the units grow; in half of the units a choice at an edge has none
/// at all.
pub fn random_many_job(rng: &mut Rng, shape: &Shape) -> Draft {
    let decoder = rng.from(2, shape.decoder);
    let bucket = rng.from(0, shape.bucket);
    let most = decoder + shape.grains;
    let levels = [
        rng.from(shape.delay.0, shape.delay.1),
        decoder,
        bucket,
        rng.from(most / 2, most),
        rng.from(0, decoder),
        rng.from(0, bucket),
    ];
    let count = rng.from(2, shape.rates);
    let mut rates = rng.rising(count, most);
    if !rng.one_in(8) {
        rates[0] = 0;
    }
    let choices = rng.pick(&[32, 256, 257, 300, 513, 600, 769, 1000, 1000]).min(shape.choices);
    let count = rng.from(shape.units.0, shape.units.1);
    let steep = rng.from(1, 30);
    let mut units = Vec::new();
    for _ in 0..count {
        let price = |size: usize, more: usize| (size as u16, ((most - size) * steep + more) as u32);
        let mut unit: Vec<(u16, u32)> = Vec::new();
        for _ in 0..choices {
            unit.push(price(rng.from(0, most), rng.from(3, 40)));
        }
        for size in 0..=decoder {
            let best = price(size, rng.from(0, 2));
            put_at_edge(rng, &mut unit, best);
        }
        if rng.one_in(2) {
            let size = rng.from(0, decoder) as u16;
            put_at_edge(rng, &mut unit, (size, 0));
        }
        units.push(unit);
    }
    let mut draft = Draft::new(levels.map(|level| level as u16), &rates, &units);
    if rng.one_in(3) {
        draft.commands = random_commands(rng, &draft, shape.commands);
    }
    draft
}

/// Half of the time the same stands again somewhere behind it.
fn put_at_edge(rng: &mut Rng, unit: &mut [(u16, u32)], coding: (u16, u32)) {
    let at = random_edge(rng, unit.len());
    unit[at] = coding;
    if rng.one_in(2) {
        unit[rng.from(at, unit.len() - 1)] = coding;
    }
}

/// A long job's buffers share what the workspace leaves for each interval.
pub fn random_long_job(rng: &mut Rng) -> Draft {
    let mut draft = random_job(rng, &LONG);
    let intervals = (draft.header[UNITS] + draft.header[DELAY]) as usize;
    let decoder = rng.from(0, WORKSPACE_WORDS / (intervals + 1) - 1);
    let most = WORKSPACE_WORDS / ((intervals + 1) * (decoder + 1));
    // Now and then the first size that is too large.
    let bucket = if rng.one_in(10) { most } else { rng.from(0, most - 1) };
    draft.header[DECODER] = decoder as u16;
    draft.header[BUCKET] = bucket as u16;
    draft.header[START_DECODER] = rng.from(0, decoder) as u16;
    draft.header[START_BUCKET] = rng.from(0, bucket) as u16;
    draft
}

/// A job in which the decoder's peak decides. Rates and units reach a little past
/// the decoder's size, some units further than any rate, and distortions fall as
/// the units grow, so that a good plan fills the decoder as far as it may.
pub fn random_tight_job(rng: &mut Rng, shape: &Shape) -> Draft {
    let decoder = rng.from(2, shape.decoder);
    let bucket = rng.from(0, shape.bucket);
    let most = decoder + shape.grains;
    let levels = [
        rng.from(shape.delay.0, shape.delay.1),
        decoder,
        bucket,
        rng.from(most / 2, most),
        rng.from(0, decoder),
        rng.from(0, bucket),
    ];
    let count = rng.from(2, shape.rates.min(most));
    let mut rates = rng.rising(count, most);
    if !rng.one_in(8) {
        rates[0] = 0;
    }
    let count = rng.from(shape.units.0, shape.units.1);
    let choices = rng.from(2, shape.choices);
    let (steep, heavy) = (rng.from(1, 9), rng.pick(shape.heavy));
    let mut units = Vec::new();
    for _ in 0..count {
        let mut unit: Vec<(u16, u32)> = Vec::new();
        for choice in 1..=choices {
            let size = match rng.from(1, 8) {
                _ if choice == choices && !rng.one_in(heavy) => rng.from(0, 1),
                1 => most + rng.from(1, 9),
                _ => rng.from(0, most),
            };
            let distortion = most.saturating_sub(size) * steep + rng.from(0, steep / 2);
            unit.push((size as u16, distortion as u32));
        }
        units.push(unit);
    }
    let mut draft = Draft::new(levels.map(|level| level as u16), &rates, &units);
    draft.commands = random_commands(rng, &draft, shape.commands);
    draft
}

/// The job with a second bucket of at most this size.
pub fn random_doubled(rng: &mut Rng, draft: &Draft, size: usize, grains: usize) -> Draft {
    let size = rng.from(0, size);
    let second = [size, random_drain(rng, grains), rng.from(0, size)];
    draft.doubled(second.map(|number| number as u16))
}

pub fn random_tiny_double(rng: &mut Rng) -> Draft {
    let draft = random_job(rng, &TINY);
    random_doubled(rng, &draft, 4, TINY.grains)
}

pub fn random_medium_double(rng: &mut Rng) -> Draft {
    let shape = Shape { decoder: 14, bucket: 12, heavy: &[8, 1000], commands: 4, ..MEDIUM };
    let draft = random_job(rng, &shape);
    random_doubled(rng, &draft, 12, shape.grains)
}

/// Buffers that share what the workspace leaves for each interval of a long job.
/// In most jobs every unit has a choice of nothing, so that there is a plan.
pub fn random_long_double(rng: &mut Rng) -> Draft {
    let mut draft = random_job(rng, &Shape { commands: 2, ..LONG });
    if !rng.one_in(3) {
        draft.rates[0] = 0;
        draft.units.iter_mut().filter_map(|unit| unit.last_mut()).for_each(|last| last.0 = 0);
    }
    let mut left = WORKSPACE_WORDS / ((draft.header[UNITS] + draft.header[DELAY]) as usize + 1);
    let mut share = |rng: &mut Rng, most: usize| {
        let size = rng.from(0, most.min(left) - 1);
        left /= size + 1;
        size as u16
    };
    let (decoder, bucket, second) = (share(rng, 6), share(rng, 6), share(rng, 64));
    let start = |rng: &mut Rng, size: u16| rng.from(0, size as usize) as u16;
    draft
        .with(DECODER, decoder)
        .with(START_DECODER, start(rng, decoder))
        .with(BUCKET, bucket)
        .with(START_BUCKET, start(rng, bucket))
        .doubled([second, random_drain(rng, LONG.grains) as u16, start(rng, second)])
}

/// The shapes of jobs on lines of two buckets that both decide: to enumerate, for the
/// dynamic program, and long. `bucket` is the larger one's size.
pub const DOUBLE: [Shape; 3] = [
    Shape {
        units: (3, 3),
        delay: (0, 2),
        decoder: 9,
        bucket: 6,
        rates: 4,
        choices: 3,
        grains: 0,
        heavy: &[8, 1000],
        commands: 1,
    },
    Shape {
        units: (6, 10),
        delay: (0, 4),
        decoder: 12,
        bucket: 9,
        rates: 6,
        choices: 5,
        grains: 0,
        heavy: &[1000],
        commands: 1,
    },
    Shape {
        units: (60, 100),
        delay: (0, 10),
        decoder: 5,
        bucket: 5,
        rates: 5,
        choices: 4,
        grains: 0,
        heavy: &[1000],
        commands: 1,
    },
];

/// A job in which one bucket holds little and drains much, so that it lets no large
/// rate through, and the other holds more and drains less, so that it does not let
/// many of them through. Either may be the first. Distortions fall as the units grow,
/// so that a good plan sends as much as both allow.
pub fn random_double_job(rng: &mut Rng, shape: &Shape) -> Draft {
    let decoder = rng.from(shape.decoder / 2 + 1, shape.decoder);
    let little = rng.from(0, shape.bucket / 3);
    let much = rng.from(little + 1, little + shape.bucket * 2 / 3);
    let slow = rng.from(1, decoder.div_ceil(4));
    let quick = rng.from(slow + 1, slow + decoder.div_ceil(2));
    let start = |rng: &mut Rng, size: usize| if rng.one_in(2) { rng.from(0, size) } else { 0 };
    let levels = [
        rng.from(shape.delay.0, shape.delay.1),
        decoder,
        little,
        quick,
        rng.from(0, decoder / 2),
        start(rng, little),
    ];
    let second = [much, slow, start(rng, much)].map(|number| number as u16);
    let count = rng.from(3, shape.rates.min(decoder));
    let mut rates = rng.rising(count, decoder);
    rates[0] = 0;
    let count = rng.from(shape.units.0, shape.units.1);
    let choices = rng.from(2, shape.choices);
    let (steep, heavy) = (rng.from(1, 9), rng.pick(shape.heavy));
    let mut units = Vec::new();
    for _ in 0..count {
        let mut unit: Vec<(u16, u32)> = Vec::new();
        for choice in 1..=choices {
            let light = choice == choices && !rng.one_in(heavy);
            let size = if light { 0 } else { rng.from(1, decoder) };
            let distortion = (decoder - size) * steep + rng.from(0, steep / 2);
            unit.push((size as u16, distortion as u32));
        }
        units.push(unit);
    }
    let draft = Draft::new(levels.map(|level| level as u16), &rates, &units).doubled(second);
    let mut draft = if rng.one_in(2) { draft.swapped() } else { draft };
    draft.commands = random_commands(rng, &draft, shape.commands);
    draft
}

/// The shapes of jobs for both aims: to enumerate, for the dynamic program, and long.
/// Of these a second bucket has at most half the size of the first one.
pub const EVEN_SHAPES: [Shape; 3] = [
    Shape {
        units: (1, 3),
        delay: (0, 3),
        decoder: 6,
        bucket: 3,
        rates: 3,
        choices: 4,
        grains: 0,
        heavy: &[4, 1000],
        commands: 2,
    },
    Shape {
        units: (6, 12),
        delay: (0, 4),
        decoder: 20,
        bucket: 10,
        rates: 5,
        choices: 6,
        grains: 2,
        heavy: &[1000],
        commands: 2,
    },
    Shape {
        units: (80, 160),
        delay: (0, 20),
        decoder: 9,
        bucket: 4,
        rates: 4,
        choices: 4,
        grains: 1,
        heavy: &[1000],
        commands: 2,
    },
];

/// A job in which too few grains have to be shared out, on a line of one bucket or of
/// two. Each unit has a distortion that no coding goes below and one that a grain more
/// takes off; in half of the jobs the grains of a fine coding take off more than those
/// of a coarse one. The least total gives the grains to the units that gain most by
/// them, even pictures to those that lose most. In some jobs a pin sets the greatest.
pub fn random_even_job(rng: &mut Rng, shape: &Shape) -> Draft {
    let decoder = rng.from(3, shape.decoder);
    let bucket = rng.from(0, shape.bucket);
    let levels = [
        rng.from(shape.delay.0, shape.delay.1),
        decoder,
        bucket,
        rng.from(1, 1 + decoder / 8),
        rng.from(0, decoder),
        rng.from(0, bucket),
    ];
    let count = rng.from(1, shape.rates);
    let mut rates = rng.rising(count, (decoder / 2).max(count));
    if !rng.one_in(12) {
        rates[0] = 0;
    }
    // Of the two aims one unit says nothing.
    let count = rng.from(shape.units.0, shape.units.1).max(if rng.one_in(12) { 1 } else { 2 });
    let choices = rng.from(2, shape.choices);
    let (heavy, bent) = (rng.pick(shape.heavy), rng.one_in(2));
    let mut units = Vec::new();
    for _ in 0..count {
        let (least, gain) = (rng.from(0, 30), rng.from(1, 12));
        let coding = |size: usize| {
            let coarse = if bent { decoder * decoder - size * size } else { decoder - size };
            (size as u16, (least + gain * coarse) as u32)
        };
        // Sizes from nothing to all that the decoder holds, in any order but for the
        // last one, which is next to nothing.
        let spread = |choice: usize| choice * decoder / (choices - 1).max(1);
        let mut unit: Vec<_> = (1..choices).map(|choice| coding(spread(choice))).collect();
        for at in (1..unit.len()).rev() {
            unit.swap(at, rng.from(0, at));
        }
        let light = if rng.one_in(heavy) { rng.from(2, decoder) } else { rng.from(0, 1) };
        unit.push(coding(light));
        units.push(unit);
    }
    let mut draft = Draft::new(levels.map(|level| level as u16), &rates, &units);
    match rng.from(1, 8) {
        1 | 2 => draft.commands = vec![random_worst(rng, &mut draft)],
        3 => draft.commands = random_commands(rng, &draft, shape.commands),
        _ => (),
    }
    either_line(rng, draft, shape)
}

/// The same with few distortions, so that many plans are equally even, and many of
/// these have the same total; or with one that a grain takes off anywhere, so that all
/// plans that take as many grains have the same total; and with the same coding twice
/// in a unit.
pub fn random_level_job(rng: &mut Rng, shape: &Shape) -> Draft {
    let mut draft = random_even_job(rng, shape);
    if rng.one_in(2) {
        let decoder = draft.header[DECODER] as u32;
        let gain = rng.pick(&[1, 7, 256, 3900]);
        for (size, distortion) in draft.units.iter_mut().flatten() {
            *distortion = gain * (decoder - *size as u32);
        }
        if !rng.one_in(3) {
            // The coarsest first: what is too coarse for an even plan comes before what is
            // not, and adds up to the same.
            draft.units.iter_mut().for_each(|unit| unit.sort());
        }
        return draft;
    }
    let most = draft.units.iter().flatten().map(|coding| coding.1).max().expect("a coding");
    let levels: &[u32] = rng.pick(&[
        &[7][..],
        &[0, 1_000_000],
        &[0, 1, 2],
        &[0, 2, 3],
        &[0, 2, 3],
        &[0, 999_999, 1_000_000],
        &[0, 255, 256, 65_535, 65_536],
        &[1, 3, 4, 6, 7, 9],
    ]);
    for (_, distortion) in draft.units.iter_mut().flatten() {
        *distortion = levels[*distortion as usize * levels.len() / (most as usize + 1)];
    }
    for unit in &mut draft.units {
        if rng.one_in(4) {
            let (from, to) = (rng.from(0, unit.len() - 1), rng.from(0, unit.len() - 1));
            unit[to] = unit[from];
        }
    }
    draft
}

/// A pin of a unit at its last choice, which is light and now loses about as much as
/// any choice of the job, or more.
fn random_worst(rng: &mut Rng, draft: &mut Draft) -> Command {
    let most = draft.units.iter().flatten().map(|coding| coding.1).max().expect("a coding");
    let unit = rng.from(0, draft.units.len() - 1);
    let last = draft.units[unit].len() - 1;
    draft.units[unit][last].1 = rng.pick(&[most, most + 1, most / 2, most * 3 / 4, 900]);
    Pin(unit as u16 + 1, last as u16)
}

fn either_line(rng: &mut Rng, draft: Draft, shape: &Shape) -> Draft {
    if rng.one_in(2) {
        return draft;
    }
    let most = draft.rates[draft.rates.len() - 1] as usize;
    random_doubled(rng, &draft, shape.bucket / 2, most.max(1))
}

/// A job with commands, its bytes then harmed. In some a bucket never drains.
pub fn scrambled(rng: &mut Rng) -> Vec<u8> {
    let draft = random_job(rng, &TINY);
    let draft = random_stored(rng, &draft, 8);
    harmed(rng, &draft, 10, harm)
}

/// The same of a line of two buckets.
pub fn scrambled_double(rng: &mut Rng) -> Vec<u8> {
    let draft = random_tiny_double(rng);
    let draft = random_stored(rng, &draft, 8);
    harmed(rng, &draft, 10, |rng, bytes| match rng.from(0, 9) {
        0 => harm_kind(rng, bytes),
        _ => harm(rng, bytes),
    })
}

/// Gives the first record the length or the kind of the other header, or both.
pub fn harm_kind(rng: &mut Rng, bytes: &mut [u8]) {
    if bytes.len() >= 4 {
        let [length, kind] = rng.pick(&[[20, 1], [20, 8], [26, 1], [26, 8], [24, 8], [28, 8]]);
        bytes[..4].copy_from_slice(&[length, 0, kind, 0]);
    }
}

/// The bytes of a draft, harmed in one to three places; before that, one time in
/// `times`, a record is moved.
pub fn harmed(
    rng: &mut Rng,
    draft: &Draft,
    times: usize,
    harm: impl Fn(&mut Rng, &mut Vec<u8>),
) -> Vec<u8> {
    let mut records = draft.records();
    if rng.one_in(times) {
        let (from, to) = (rng.from(0, records.len() - 1), rng.from(0, records.len() - 1));
        let moved = records.remove(from);
        records.insert(to, moved);
    }
    let mut bytes = records.concat();
    for _ in 0..rng.pick(&[1, 1, 1, 2, 3]) {
        harm(rng, &mut bytes);
    }
    bytes
}

pub fn harm(rng: &mut Rng, bytes: &mut Vec<u8>) {
    let any = rng.next() as u8;
    if bytes.is_empty() {
        return bytes.push(any);
    }
    let at = rng.from(0, bytes.len() - 1);
    match rng.from(0, 8) {
        0 => bytes[at] = any,
        1 => bytes[at] = rng.pick(&[0, 1, 3, 4, 15, 16, 17, 31, 32, 64, 65, 231, 232, 255]),
        2 | 3 => bytes[at] = bytes[at].wrapping_add(1),
        4 | 5 => bytes[at] = bytes[at].wrapping_sub(1),
        6 => bytes.truncate(at),
        7 => bytes.insert(at, any),
        _ => drop(bytes.remove(at)),
    }
}

pub fn hex(bytes: &[u8]) -> String {
    let shown = &bytes[..bytes.len().min(40_000)];
    let mut text: String = shown.iter().map(|byte| format!("{byte:02x}")).collect();
    if shown.len() < bytes.len() {
        text += " and more";
    }
    text
}

/// Every X.bin of the directory, by name.
pub fn example_inputs(directory: &Path) -> Result<Vec<(PathBuf, Vec<u8>)>, String> {
    let listed = std::fs::read_dir(directory).map_err(|_| cannot_read(directory))?;
    let mut paths: Vec<PathBuf> = listed.filter_map(|entry| Some(entry.ok()?.path())).collect();
    paths.retain(|path| path.extension().is_some_and(|end| end == "bin"));
    paths.sort();
    let read = |path: PathBuf| match std::fs::read(&path) {
        Ok(input) => Ok((path, input)),
        Err(_) => Err(cannot_read(&path)),
    };
    paths.into_iter().map(read).collect()
}

pub fn cannot_read(path: &Path) -> String {
    format!("{}: cannot be read", path.display())
}

pub fn clock_seed() -> u64 {
    let now = SystemTime::now().duration_since(UNIX_EPOCH).unwrap_or_default();
    // Below a million million it is easy to type again.
    now.as_nanos() as u64 % 1_000_000_000_000
}
