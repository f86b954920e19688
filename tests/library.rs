//! Checks the library through the crate `upload_planner`: what each function
//! answers, every number it writes, and that it writes no other. What is due is
//! worked out here and in `reference.rs`, straight from the product's paper. Of
//! every clean replay the balance of each bucket is asked besides, of even pictures
//! that the least total gives them too once all choices above the greatest distortion
//! are gone, of the report that a long delay takes little more time than a short one,
//! of the archive that it takes what opening takes with another drain, of a sitting that it
//! comes to the set, the table and the plans of a fresh one with its pins, of a change of
//! contract that it plans the rest as a job of its own is planned, of a list for larger
//! buckets that each number is what planning gives for the job with that size, of reading a
//! job back that what was read is written again as the bytes that the job took, and of a
//! playlist that each programme is planned as by itself from the levels at which the last one
//! ended, and that all intervals keep their limits when they are followed in one go.
//!
//! Build and run, where DIR holds libupload.a:
//!
//! ```text
//! rustc -O --edition 2021 --crate-type rlib --crate-name upload_planner \
//!     -L native=DIR -o libupload_planner.rlib bindings/rust/src/lib.rs
//! rustc -O --edition 2021 --extern upload_planner=libupload_planner.rlib \
//!     -o library tests/library.rs
//! library [SEED] [--no-full] [--small] [--examples DIR]
//! library --words
//! ```
//!
//! SEED repeats the run whose new seed was SEED; without it the clock gives
//! one. `--no-full` leaves out the one job of the largest size, which takes most
//! of the time. `--small` keeps to few and small jobs, takes no times and lends
//! every list as a piece of memory of its own, for runs that watch each access to
//! memory. `--examples` adds a group: the job of each X.bin in DIR is read and
//! written again, and planned with one distortion changed. `--words` tests
//! nothing: it prints the words of every refusal and violation, to be compared
//! with those of the C header.

use std::collections::{BTreeMap, BTreeSet};
use std::fmt::{Debug, Display};
use std::path::{Path, PathBuf};
use std::process::ExitCode;
use std::sync::atomic::{AtomicBool, Ordering};
use std::time::{Duration, Instant};

use upload_planner::{numbers, Call, Entry, Header, PinTotals, Replayed, Violation};

#[allow(dead_code)]
mod reference;
use reference::*;

/// An entry as the searches have it: the index of a rate and that of a choice.
type Pair = reference::Entry;

/// The word of a state that cannot be completed.
const NEVER: u32 = 4_294_967_295;

/// How many values calls alone write: the pins held, their grains and distortions.
const CALLS_VALUES: usize = 3;

/// How many values planning writes: distortion, source and channel grains, then the
/// unused grains of each bucket.
fn plan_values(job: &Job) -> usize {
    3 + job.buckets.len()
}

/// How many replay writes: the violation and its interval, then the same.
fn replay_values(job: &Job) -> usize {
    2 + plan_values(job)
}

/// How many levels replay writes: in each interval the decoder's and each bucket's.
fn level_numbers(job: &Job) -> usize {
    (1 + job.buckets.len()) * job.intervals()
}

/// The levels of a draft in which all that opening lets be 0 is 0.
const BARE: [u16; 6] = [0, 0, 0, 1, 0, 0];

/// How many bytes a job takes.
fn job_bytes(job: &Job) -> usize {
    let header = 4 + 2 * FIELDS[job.buckets.len() - 1];
    let rates = 4 + 2 * job.rates.len();
    header + rates + job.units.len() * (4 + 6 * job.choices())
}

/// Set once, before the first group.
static SMALL: AtomicBool = AtomicBool::new(false);

fn small() -> bool {
    SMALL.load(Ordering::Relaxed)
}

/// `count` jobs, or a few of them in a small run.
fn scaled(count: usize) -> usize {
    if small() {
        count.div_ceil(30)
    } else {
        count
    }
}

// ---------------------------------------------------------------------------
// Checks and lent lists.
// ---------------------------------------------------------------------------

/// What went wrong, if anything.
type Checked = Result<(), String>;

macro_rules! ensure {
    ($holds:expr, $($message:tt)*) => {
        if !$holds {
            return Err(format!($($message)*));
        }
    };
}

fn same<T: PartialEq + Debug>(what: &str, due: T, found: T) -> Checked {
    ensure!(due == found, "{what}: due {due:?}, instead {found:?}");
    Ok(())
}

/// How often each number came.
fn by_number<T: Display>(tally: &BTreeMap<T, usize>) -> String {
    let each: Vec<String> =
        tally.iter().map(|(number, count)| format!("{count} {number}")).collect();
    each.join(", ")
}

trait Number: Copy + PartialEq + Debug {
    fn cut(bits: u64) -> Self;
}

macro_rules! number {
    ($($kind:ty)*) => { $(impl Number for $kind {
        fn cut(bits: u64) -> Self {
            bits as $kind
        }
    })* };
}
number!(u8 u16 u32 u64);

/// A list to lend, filled with numbers that look like nothing. More such
/// numbers stand on both sides of it, except in a small run.
struct Lent<T> {
    key: u64,
    all: Vec<T>,
    side: usize,
}

impl<T: Number> Lent<T> {
    fn new(rng: &mut Rng, length: usize) -> Lent<T> {
        let key = rng.next();
        let side = if small() { 0 } else { 5 };
        let all = (0..length + 2 * side).map(|at| filler(key, at)).collect();
        Lent { key, all, side }
    }

    fn list(&mut self) -> &mut [T] {
        let end = self.all.len() - self.side;
        &mut self.all[self.side..end]
    }

    /// The list as it is, to be read alone.
    fn held(&self) -> &[T] {
        &self.all[self.side..self.all.len() - self.side]
    }

    /// The list begins with `due`, and all else is as it was.
    fn wrote(&self, what: &str, due: &[T]) -> Checked {
        let length = self.all.len() - 2 * self.side;
        ensure!(due.len() <= length, "{what}: {} due in a list of {length}", due.len());
        for (at, found) in self.all.iter().enumerate() {
            let place = at.wrapping_sub(self.side);
            let expected = due.get(place).copied().unwrap_or_else(|| filler(self.key, at));
            ensure!(
                *found == expected,
                "{what} number {}: due {expected:?}{}, instead {found:?}",
                at as isize - self.side as isize,
                if place < due.len() { "" } else { " as before" }
            );
        }
        Ok(())
    }

    fn kept(&self, what: &str) -> Checked {
        self.wrote(what, &[])
    }
}

fn filler<T: Number>(key: u64, at: usize) -> T {
    T::cut(Rng(key ^ (at as u64) << 20).next())
}

// ---------------------------------------------------------------------------
// What is asked: a job's bytes and calls, with the pins they leave.
// ---------------------------------------------------------------------------

struct Asked {
    bytes: Vec<u8>,
    job: Job,
    /// Three numbers a call.
    calls: Vec<u16>,
    /// What each call meets with: 0 or its number. On a line that never drains a replay
    /// alone makes calls, and does not say.
    answers: Vec<u8>,
    /// The pins held after the last call.
    pins: Pins,
}

impl Asked {
    /// The draft's job and its commands as calls.
    fn new(rng: &mut Rng, draft: &Draft) -> Asked {
        let mut bytes = Draft { commands: Vec::new(), ..draft.clone() }.bytes();
        let job = read_stored(&mut Reader { rest: &bytes }).expect("a job as it should be");
        if rng.one_in(3) {
            // Bytes after the job are not looked at.
            bytes.extend((0..rng.from(1, 9)).map(|_| rng.next() as u8).collect::<Vec<u8>>());
        }
        bytes.shrink_to_fit();
        let calls = call_numbers(rng, &draft.commands);
        Asked::with(bytes, job, calls)
    }

    fn with(bytes: Vec<u8>, job: Job, mut calls: Vec<u16>) -> Asked {
        calls.shrink_to_fit();
        let mut pins = vec![None; job.units.len()];
        let answers = calls.chunks(3).map(|call| make_call(&job, &mut pins, call)).collect();
        Asked { bytes, job, calls, answers, pins }
    }

    fn intervals(&self) -> usize {
        self.job.intervals()
    }

    /// The lengths that planning needs: answers, table, entries, values.
    fn needs(&self) -> [usize; 4] {
        let job = &self.job;
        [self.answers.len(), job.words(), ENTRY_BYTES * job.intervals(), plan_values(job)]
    }

    fn typed_calls(&self) -> Vec<Call> {
        self.calls.chunks(3).map(typed_call).collect()
    }

    /// What to type again to see a failure.
    fn show(&self) -> String {
        format!("job {}\n  calls {:?}", hex(&self.bytes), self.calls)
    }
}

/// A lift does not look at its third number, so that is anything.
fn call_numbers(rng: &mut Rng, commands: &[Command]) -> Vec<u16> {
    let number = |command: &Command| match *command {
        Pin(unit, choice) => [6, unit, choice],
        Lift(unit) => [7, unit, rng.next() as u16],
    };
    commands.iter().flat_map(number).collect()
}

fn typed_call(call: &[u16]) -> Call {
    match call[0] {
        6 => Call::Pin { unit: call[1], choice: call[2] },
        _ => Call::Lift { unit: call[1] },
    }
}

/// Gives 0, or the number that refuses the call.
fn make_call(job: &Job, pins: &mut Pins, call: &[u16]) -> u8 {
    if job.never_drains() {
        return 17;
    }
    let unit = call[1] as usize;
    let taken = match call[0] {
        6 => pin(pins, job.choices(), unit, call[2] as usize),
        _ => lift(pins, unit),
    };
    taken.err().unwrap_or(0)
}

/// The totals of an admissible plan, step by step.
fn totals_of(asked: &Asked, plan: &Plan) -> Option<Vec<u64>> {
    let totals = replay(&asked.job, &asked.pins, plan, |_, _| ())?;
    Some(totals.numbers().into_iter().map(|total| total as u64).collect())
}

// ---------------------------------------------------------------------------
// Calls alone.
// ---------------------------------------------------------------------------

/// Lends lists of just enough or somewhat more, and then each of them one short.
fn check_calls(rng: &mut Rng, asked: &Asked) -> Checked {
    let totals = pin_totals(&asked.job, &asked.pins);
    let count = asked.answers.len();
    let lengths = [count, CALLS_VALUES].map(|need| need + slack(rng));
    let mut lent = CallLists::new(rng, lengths);
    same("calls", 0, lent.make(&asked.bytes, &asked.calls))?;
    lent.wrote(&asked.answers, &totals)?;
    for which in 0..2 {
        let Some(lengths) = one_short([count, CALLS_VALUES], which) else { continue };
        let mut lent = CallLists::new(rng, lengths);
        same("calls, a list one short", 12, lent.make(&asked.bytes, &asked.calls))?;
        lent.kept()?;
    }

    let calls = asked.typed_calls();
    let room = count + slack(rng);
    let mut answers = Lent::new(rng, room);
    let found = upload_planner::calls(&asked.bytes, &calls, answers.list());
    same("typed calls", Ok(typed_pins(totals)), found)?;
    answers.wrote("typed answers of calls", &asked.answers)?;
    let owned =
        upload_planner::called(&asked.bytes, &calls).map_err(|refusal| refusal.to_string())?;
    same("owned totals of calls", typed_pins(totals), owned.totals)?;
    same("owned answers of calls", &asked.answers, &answer_numbers(&owned.answers))
}

struct CallLists {
    answers: Lent<u8>,
    values: Lent<u64>,
}

impl CallLists {
    /// `lengths`: answers, values.
    fn new(rng: &mut Rng, lengths: [usize; 2]) -> CallLists {
        CallLists { answers: Lent::new(rng, lengths[0]), values: Lent::new(rng, lengths[1]) }
    }

    fn make(&mut self, job: &[u8], calls: &[u16]) -> u32 {
        numbers::calls(job, calls, self.answers.list(), self.values.list())
    }

    fn wrote(&self, answers: &[u8], values: &[u64]) -> Checked {
        self.answers.wrote("answers of calls", answers)?;
        self.values.wrote("values of calls", values)
    }

    fn kept(&self) -> Checked {
        self.wrote(&[], &[])
    }
}

fn typed_pins([count, grains, distortion]: [u64; CALLS_VALUES]) -> PinTotals {
    PinTotals { count: count as usize, grains, distortion }
}

fn answer_numbers(answers: &[Result<(), upload_planner::Refusal>]) -> Vec<u8> {
    let number = |refusal: upload_planner::Refusal| refusal.number() as u8;
    answers.iter().map(|answer| answer.err().map_or(0, number)).collect()
}

/// How much longer a list is than it needs to be.
fn slack(rng: &mut Rng) -> usize {
    if rng.one_in(3) {
        0
    } else {
        rng.from(1, 9)
    }
}

/// The lengths with one of them less by one, if it is not 0.
fn one_short<const N: usize>(mut lengths: [usize; N], which: usize) -> Option<[usize; N]> {
    lengths[which] = lengths[which].checked_sub(1)?;
    Some(lengths)
}

// ---------------------------------------------------------------------------
// The table: from every state all completions tried, and a program for speed.
// ---------------------------------------------------------------------------

/// What each interval may decode: choice, grains, distortion.
type Options = Vec<Vec<(usize, i64, i64)>>;

fn all_options(job: &Job, pins: &Pins) -> Options {
    (1..=job.intervals()).map(|t| options(job, pins, t)).collect()
}

/// Tries every completion of the levels after interval t.
fn least(job: &Job, options: &Options, t: usize, decoder: i64, levels: &Levels) -> Option<i64> {
    if t == job.intervals() {
        return Some(0);
    }
    let mut found: Option<i64> = None;
    for sent in &job.rates {
        let Some(after) = filled(job, levels, *sent) else { continue };
        for (_, grains, distortion) in &options[t] {
            let Some(level) = by_peak(job, decoder, *sent, *grains) else { continue };
            if let Some(rest) = least(job, options, t + 1, level, &after) {
                found = Some(found.map_or(i64::MAX, |held| held).min(distortion + rest));
            }
        }
    }
    found
}

fn brute_table(job: &Job, pins: &Pins) -> Vec<u32> {
    let options = all_options(job, pins);
    let mut table = Vec::new();
    for t in 0..=job.intervals() {
        for decoder in 0..=job.decoder_size {
            for levels in job.all_levels() {
                let value = least(job, &options, t, decoder, &levels);
                table.push(value.map_or(NEVER, |value| value as u32));
            }
        }
    }
    table
}

/// Stands for "cannot be completed" in the layers of `fast_table`: above every
/// sum of distortions, and far enough from overflow to be added to.
const FAR: u32 = 1 << 30;

/// The same table, layer by layer from the last, with the work of an interval
/// split in two: first the least over choices for each peak, which is what the
/// decoder has between sending and decoding, then the least over rates. Both
/// limits of the decoder lie in the rows: no peak past its size has one, and a
/// unit is taken from no row below its own size.
fn fast_table(job: &Job, pins: &Pins) -> Vec<u32> {
    let (rows, width) = (job.decoder_size as usize + 1, job.width());
    let layer = rows * width;
    let mut table = vec![0; (job.intervals() + 1) * layer];
    let mut next = vec![0; layer];
    for t in (1..=job.intervals()).rev() {
        let decoded = decode_layer(&options(job, pins, t), &next, width);
        next = send_layer(job, &decoded, rows, width);
        let words = next.iter().map(|&value| if value >= FAR { NEVER } else { value });
        let place = &mut table[(t - 1) * layer..t * layer];
        place.iter_mut().zip(words).for_each(|(word, value)| *word = value);
    }
    table
}

/// Row r: the decoder's peak is r, and a unit leaves it for a row of `next`. Choices of
/// one size leave it for the same row, so that the least of them stands for all.
fn decode_layer(options: &[(usize, i64, i64)], next: &[u32], width: usize) -> Vec<u32> {
    let mut prices: BTreeMap<usize, u32> = BTreeMap::new();
    for &(_, grains, distortion) in options {
        let price = prices.entry(grains as usize).or_insert(u32::MAX);
        *price = (*price).min(distortion as u32);
    }
    let mut decoded = vec![FAR; next.len()];
    for (peak, best) in decoded.chunks_mut(width).enumerate() {
        for (&grains, &price) in prices.range(..=peak) {
            let from = &next[(peak - grains) * width..(peak - grains + 1) * width];
            for (held, value) in best.iter_mut().zip(from) {
                *held = (*held).min(value + price);
            }
        }
    }
    decoded
}

fn send_layer(job: &Job, decoded: &[u32], rows: usize, width: usize) -> Vec<u32> {
    let mut layer = vec![FAR; rows * width];
    for (row, best) in layer.chunks_mut(width).enumerate() {
        for &sent in &job.rates {
            let at = (row + sent as usize) * width;
            if at >= decoded.len() {
                break;
            }
            send_row(best, &decoded[at..at + width], &job.buckets, sent);
        }
    }
    layer.iter_mut().for_each(|value| *value = (*value).min(FAR));
    layer
}

/// From each level of the first of these buckets to the one that it comes to, with
/// the parts that the other buckets have there.
fn send_row(best: &mut [u32], from: &[u32], buckets: &[Bucket], sent: i64) {
    let (bucket, inner) = buckets.split_first().expect("a bucket");
    if inner.is_empty() {
        return send_last(best, from, sent - bucket.drain);
    }
    let width = best.len() / (bucket.size as usize + 1);
    for (level, best) in best.chunks_mut(width).enumerate() {
        let after = (level as i64 + sent - bucket.drain).max(0) as usize;
        if let Some(from) = from.chunks(width).nth(after) {
            send_row(best, from, inner, sent);
        }
    }
}

/// The bucket rises by `rise`, and not below 0 where that is negative.
fn send_last(best: &mut [u32], from: &[u32], rise: i64) {
    let width = best.len();
    let step = (rise.unsigned_abs() as usize).min(width);
    let keep = |held: &mut u32, value: u32| *held = (*held).min(value);
    if rise >= 0 {
        best.iter_mut().zip(&from[step..]).for_each(|(held, &value)| keep(held, value));
    } else {
        best[..step].iter_mut().for_each(|held| keep(held, from[0]));
        best[step..].iter_mut().zip(from).for_each(|(held, &value)| keep(held, value));
    }
}

/// In each order the first plan whose every entry attains the table's word.
fn read_off(job: &Job, pins: &Pins, table: &[u32]) -> Plans {
    ORDERS.map(|order| read_off_in(order, job, pins, table))
}

/// A plan that is due in both orders.
fn both(plan: Plan) -> Plans {
    [Some(plan.clone()), Some(plan)]
}

// ---------------------------------------------------------------------------
// Planning.
// ---------------------------------------------------------------------------

/// In each order lends lists of just enough or somewhat more and compares all of them;
/// before that, where the table is not large, with one of the lists one short. The calls
/// alone meet with the same, and a plan that was found replays under them.
fn check_plan(rng: &mut Rng, asked: &Asked, table: &[u32], plans: &Plans) -> Checked {
    check_calls(rng, asked)?;
    check_plan_for(Aim::Total, rng, asked, table, plans)
}

fn check_plan_for(aim: Aim, rng: &mut Rng, asked: &Asked, table: &[u32], plans: &Plans) -> Checked {
    for order in ORDERS {
        check_plan_in(aim, order, rng, asked, table, plan_in(order, plans))
            .map_err(|trouble| format!("{order:?}: {trouble}"))?;
    }
    Ok(())
}

fn check_plan_in(
    aim: Aim,
    order: Order,
    rng: &mut Rng,
    asked: &Asked,
    table: &[u32],
    plan: &Option<Plan>,
) -> Checked {
    let (aim, order) = (aim.number(), order.number());
    let needs = asked.needs();
    same("words", table.len(), needs[1])?;
    let which = rng.from(0, 3);
    if let (Some(lengths), true) = (one_short(needs, which), table.len() < 5000) {
        let mut lent = PlanLists::new(rng, lengths);
        let due = if which == 1 { 11 } else { 12 };
        let found = lent.plan_for(aim, order, &asked.bytes, &asked.calls);
        same("plan, a list one short", due, found)?;
        lent.kept()?;
    }
    let lengths = needs.map(|need| need + slack(rng));
    let mut lent = PlanLists::new(rng, lengths);
    let number = lent.plan_for(aim, order, &asked.bytes, &asked.calls);
    lent.table.wrote("table", table)?;
    let Some(plan) = plan else {
        same("plan", 13, number)?;
        return lent.kept_but_table();
    };
    same("plan", 0, number)?;
    lent.answers.wrote("answers", &asked.answers)?;
    lent.entries.wrote("entries", &plan_bytes(plan))?;
    let totals = totals_of(asked, plan).ok_or("the plan due is not admissible")?;
    lent.values.wrote("values", &totals)?;
    check_replay(rng, asked, plan)
}

struct PlanLists {
    answers: Lent<u8>,
    table: Lent<u32>,
    entries: Lent<u8>,
    values: Lent<u64>,
}

impl PlanLists {
    /// `lengths`: answers, table, entries, values.
    fn new(rng: &mut Rng, lengths: [usize; 4]) -> PlanLists {
        PlanLists {
            answers: Lent::new(rng, lengths[0]),
            table: Lent::new(rng, lengths[1]),
            entries: Lent::new(rng, lengths[2]),
            values: Lent::new(rng, lengths[3]),
        }
    }

    /// For the least total.
    fn plan(&mut self, order: Order, job: &[u8], calls: &[u16]) -> u32 {
        self.plan_for(TOTAL, order.number(), job, calls)
    }

    fn plan_for(&mut self, aim: u32, order: u32, job: &[u8], calls: &[u16]) -> u32 {
        numbers::plan(
            job,
            calls,
            aim,
            order,
            self.answers.list(),
            self.table.list(),
            self.entries.list(),
            self.values.list(),
        )
    }

    fn kept(&self) -> Checked {
        self.table.kept("table")?;
        self.kept_but_table()
    }

    fn kept_but_table(&self) -> Checked {
        self.answers.kept("answers")?;
        self.entries.kept("entries")?;
        self.values.kept("values")
    }
}

const DOORS: [Door; 2] = [Door::Opening, Door::Archive];

/// Opens a job by a door.
fn open_by(door: Door, job: &[u8], values: &mut [u64]) -> u32 {
    match door {
        Door::Opening => numbers::open(job, values),
        Door::Archive => numbers::archive(job, values),
    }
}

fn typed_open_by(door: Door, job: &[u8]) -> Result<upload_planner::Opened, u32> {
    let opened = match door {
        Door::Opening => upload_planner::open(job),
        Door::Archive => upload_planner::archive(job),
    };
    opened.map_err(|refusal| refusal.number())
}

/// The archive takes the job, and so does opening where its line drains; what they say
/// of it is the same.
fn check_open(rng: &mut Rng, asked: &Asked) -> Checked {
    for door in DOORS {
        let refused = door == Door::Opening && asked.job.never_drains();
        let checked = if refused {
            check_unopened(rng, door, &asked.bytes, 17, 4)
        } else {
            check_opened(rng, door, asked)
        };
        checked.map_err(|trouble| format!("{door:?}: {trouble}"))?;
    }
    Ok(())
}

fn check_opened(rng: &mut Rng, door: Door, asked: &Asked) -> Checked {
    let job = &asked.job;
    let due = [job_bytes(job), job.units.len(), job.intervals(), job.words()];
    let length = 4 + rng.from(0, 3);
    let mut values = Lent::new(rng, length);
    same("open", 0, open_by(door, &asked.bytes, values.list()))?;
    values.wrote("values of open", &due.map(|value| value as u64))?;
    let opened = typed_open_by(door, &asked.bytes).map_err(|number| number.to_string())?;
    let found = [opened.bytes, opened.units, opened.intervals, opened.table_words];
    same("typed open", due, found)?;
    let found = (opened.buckets, opened.level_numbers(), opened.plan_bytes());
    let due = (job.buckets.len(), level_numbers(job), ENTRY_BYTES * job.intervals());
    same("buckets, levels and plan of open", due, found)
}

/// The door refuses these bytes by this number, whatever is lent.
fn check_unopened(rng: &mut Rng, door: Door, bytes: &[u8], number: u32, length: usize) -> Checked {
    let mut values: Lent<u64> = Lent::new(rng, length);
    same("open", number, open_by(door, bytes, values.list()))?;
    values.kept("values of open")?;
    let found = typed_open_by(door, bytes).err();
    same("typed open", Some(number), found)
}

/// The typed functions give what the numbers give, in each order.
fn check_typed(asked: &Asked, table: &[u32], plans: &Plans) -> Checked {
    check_typed_for(upload_planner::Aim::default(), asked, table, plans)
}

fn check_typed_for(
    aim: upload_planner::Aim,
    asked: &Asked,
    table: &[u32],
    plans: &Plans,
) -> Checked {
    for order in ORDERS {
        check_typed_in(aim, typed_order(order), asked, table, plan_in(order, plans))
            .map_err(|trouble| format!("{order:?}: {trouble}"))?;
    }
    Ok(())
}

fn check_typed_in(
    aim: upload_planner::Aim,
    order: upload_planner::Order,
    asked: &Asked,
    table: &[u32],
    plan: &Option<Plan>,
) -> Checked {
    let calls = asked.typed_calls();
    let opened = upload_planner::open(&asked.bytes).map_err(|refusal| refusal.to_string())?;
    let mut answers = vec![99; calls.len()];
    let mut words = vec![0; opened.table_words];
    let mut entries = vec![0; ENTRY_BYTES * opened.intervals];
    let lent = (&mut answers, &mut words, &mut entries);
    let found = upload_planner::plan(&asked.bytes, &calls, aim, order, lent.0, lent.1, lent.2);
    let owned = upload_planner::best_plan(&asked.bytes, &calls, aim, order);
    ensure!(words == table, "the typed table is another");
    let Some(plan) = plan else {
        same("typed plan", Err(13), found.map_err(|refusal| refusal.number()))?;
        same("typed answers after 13", vec![99; calls.len()], answers)?;
        return same("owned plan", Some(13), owned.err().map(|refusal| refusal.number()));
    };
    let found = found.map_err(|refusal| refusal.to_string())?;
    let owned = owned.map_err(|refusal| refusal.to_string())?;
    let totals = totals_of(asked, plan).map(|totals| typed_totals(&totals));
    same("typed totals", totals, Some(found))?;
    same("typed answers", &asked.answers, &answers)?;
    let named = typed_entries(plan);
    let bytes = named.iter().flat_map(|entry| entry.bytes()).collect();
    same("an entry's bytes", plan_bytes(plan), bytes)?;
    same("entries by name", named, Entry::each(&entries).collect())?;
    same("typed entries", plan_bytes(plan), entries)?;
    same("owned totals", found, owned.totals)?;
    same("owned entries", plan_bytes(plan), owned.entries)?;
    ensure!(owned.table == table, "the owned table is another");
    same("owned answers", &asked.answers, &answer_numbers(&owned.answers))
}

fn typed_entries(plan: &Plan) -> Vec<Entry> {
    let typed = |&(rate, choice): &Pair| Entry {
        rate: rate as u8,
        choice: (choice != NO_CHOICE).then_some(choice as u16),
    };
    plan.iter().map(typed).collect()
}

/// Each job's table by trying all completions, its plan by trying all plans;
/// and both other searches against them.
fn tiny_group(seed: u64, asks: bool) -> Result<String, String> {
    tiny_jobs(seed, asks, |rng| random_job(rng, &TINY))
}

fn tiny_double_group(seed: u64, asks: bool) -> Result<String, String> {
    tiny_jobs(seed, asks, random_tiny_double)
}

fn tiny_jobs(seed: u64, asks: bool, make: impl Fn(&mut Rng) -> Draft) -> Result<String, String> {
    let mut rng = Rng(seed);
    let (mut plans, mut ties, mut refused, mut words) = (0, 0, 0, 0);
    let jobs = scaled(1500);
    for index in 1..=jobs {
        let draft = make(&mut rng);
        let asked = Asked::new(&mut rng, &draft);
        let table = brute_table(&asked.job, &asked.pins);
        let all = enumerate(&asked.job, &asked.pins);
        let check = |rng: &mut Rng| -> Checked {
            same("fast table", &table, &fast_table(&asked.job, &asked.pins))?;
            same("plan read off", &all.best, &read_off(&asked.job, &asked.pins, &table))?;
            same("dynamic program", &all.best, &dynamics(&asked.job, &asked.pins))?;
            check_open(rng, &asked)?;
            check_plan(rng, &asked, &table, &all.best)?;
            check_typed(&asked, &table, &all.best)
        };
        check(&mut rng).map_err(|trouble| failed(seed, index, &trouble, &asked))?;
        plans += all.best[0].is_some() as usize;
        ties += (all.equals > 1) as usize;
        refused += asked.answers.iter().filter(|answer| **answer != 0).count();
        words += table.len();
    }
    let counts = format!(
        "{jobs} jobs, {plans} with a plan, {ties} with several equal ones, \
         {refused} calls refused, {words} words"
    );
    let worthwhile = plans * 3 > jobs && plans * 10 < jobs * 9 && ties * 4 > plans && refused > 0;
    ensure!(worthwhile || !asks, "too little in it: {counts}");
    Ok(counts)
}

fn failed(seed: u64, index: usize, trouble: &str, asked: &Asked) -> String {
    format!("seed {seed}, job {index}: {trouble}\n  {}", asked.show())
}

/// Jobs too large to try everything, against the dynamic program that carries
/// whole paths and the table made for speed.
fn larger_group(seed: u64, asks: bool) -> Result<String, String> {
    larger_jobs(seed, asks, |rng| random_job(rng, &MEDIUM), random_long_job)
}

fn larger_double_group(seed: u64, asks: bool) -> Result<String, String> {
    larger_jobs(seed, asks, random_medium_double, random_long_double)
}

fn larger_jobs(
    seed: u64,
    asks: bool,
    make_medium: impl Fn(&mut Rng) -> Draft,
    make_long: impl Fn(&mut Rng) -> Draft,
) -> Result<String, String> {
    let mut rng = Rng(seed);
    let (mut plans, mut words) = (0, 0);
    let (medium, long) = (scaled(250), scaled(40));
    for index in 1..=medium + long {
        let draft = if index <= medium { make_medium(&mut rng) } else { make_long(&mut rng) };
        let asked = Asked::new(&mut rng, &draft);
        let table = fast_table(&asked.job, &asked.pins);
        let due = dynamics(&asked.job, &asked.pins);
        let check = |rng: &mut Rng| -> Checked {
            same("plan read off", &due, &read_off(&asked.job, &asked.pins, &table))?;
            check_open(rng, &asked)?;
            check_plan(rng, &asked, &table, &due)
        };
        check(&mut rng).map_err(|trouble| failed(seed, index, &trouble, &asked))?;
        plans += due[0].is_some() as usize;
        words += table.len();
    }
    let counts = format!("{} jobs, {plans} with a plan, {words} words", medium + long);
    ensure!(plans * 4 > medium + long || !asks, "too few plans: {counts}");
    Ok(counts)
}

// ---------------------------------------------------------------------------
// Replay and report.
// ---------------------------------------------------------------------------

/// Levels up to the first violation, and the values due.
struct Followed {
    levels: Vec<u16>,
    values: Vec<u64>,
    /// What the decoder holds just before and just after the unit leaves, up to
    /// the first violation and in its interval too.
    decoder: Vec<(i64, i64)>,
    /// Whether each bucket is over in the violation's interval.
    over: Vec<bool>,
    /// The unused drain of each bucket before the first violation.
    unused: Vec<i64>,
}

/// The numbers of violations. They are names, and the order of testing is
/// another.
const SHORT: u64 = 1;
const OVER: u64 = 2;
const BUCKET_OVER: u64 = 3;
const NOT_HELD: u64 = 4;
const SECOND_OVER: u64 = 5;

/// The levels of each interval from sums over all intervals up to it. The
/// decoder has its start and all that was sent, less all that was taken, where
/// the interval's own unit is still there at the peak. A bucket's level, cut at
/// 0 after each interval, is the larger of its start and all rises, and all rises
/// since some interval. Its unused drain is the most by which its start and all
/// rises up to some interval have fallen below 0: so much was never there.
fn follow(job: &Job, pins: &Pins, plan: &Plan) -> Followed {
    let sent = |t: usize| job.rates[plan[t - 1].0];
    let unit = |t: usize| t.checked_sub(job.delay + 1);
    let choice = |t: usize| unit(t).map(|unit| &job.units[unit][plan[t - 1].1]);
    let taken = |t: usize| choice(t).map_or(0, |choice| choice.grains);
    let (mut levels, mut decoder) = (Vec::new(), Vec::new());
    let mut unused = vec![0; job.buckets.len()];
    for t in 1..=job.intervals() {
        let come = job.start_decoder + (1..=t).map(sent).sum::<i64>();
        let gone = |upto: usize| (1..=upto).map(taken).sum::<i64>();
        let (peak, level) = (come - gone(t - 1), come - gone(t));
        decoder.push((peak, level));
        // Of each bucket its level, and what that would be if it had never been cut.
        let followed = |bucket: &Bucket| {
            let since = |s: usize| (s + 1..=t).map(|r| sent(r) - bucket.drain).sum::<i64>();
            let risen = (1..=t).map(since).max().expect("an interval");
            let uncut = bucket.start + since(0);
            (risen.max(uncut), uncut)
        };
        let after: Vec<(i64, i64)> = job.buckets.iter().map(followed).collect();
        let over: Vec<bool> =
            job.buckets.iter().zip(&after).map(|(bucket, after)| after.0 > bucket.size).collect();
        let pinned = unit(t).and_then(|unit| pins[unit]);
        let violations = [
            (OVER, peak > job.decoder_size),
            (SHORT, level < 0),
            (BUCKET_OVER, over[0]),
            (SECOND_OVER, over.get(1) == Some(&true)),
            (NOT_HELD, pinned.is_some_and(|pinned| pinned != plan[t - 1].1)),
        ];
        if let Some((first, _)) = violations.into_iter().find(|(_, found)| *found) {
            let values = violated(job, first, t);
            return Followed { levels, values, decoder, over, unused };
        }
        levels.push(level as u16);
        levels.extend(after.iter().map(|after| after.0 as u16));
        for (most, (_, uncut)) in unused.iter_mut().zip(&after) {
            *most = (*most).max(-uncut);
        }
    }
    let distortion = |t: usize| choice(t).map_or(0, |choice| choice.distortion);
    let all = |of: &dyn Fn(usize) -> i64| (1..=job.intervals()).map(of).sum::<i64>() as u64;
    let mut values = vec![0, 0, all(&distortion), all(&taken), all(&sent)];
    values.extend(unused.iter().map(|sum| *sum as u64));
    Followed { levels, values, decoder, over: vec![false; job.buckets.len()], unused }
}

/// The values of a replay that stops at a violation.
fn violated(job: &Job, violation: u64, interval: usize) -> Vec<u64> {
    let mut values = vec![0; replay_values(job)];
    (values[0], values[1]) = (violation, interval as u64);
    values
}

fn check_replay(rng: &mut Rng, asked: &Asked, plan: &Plan) -> Checked {
    check_replay_of(rng, asked, plan, &plan_bytes(plan))
}

/// Replays these bytes, which are to be the plan's.
fn check_replay_of(rng: &mut Rng, asked: &Asked, plan: &Plan, entries: &[u8]) -> Checked {
    let due = follow(&asked.job, &asked.pins, plan);
    let totals = (due.values[0] == 0).then_some(due.values[2..].to_vec());
    same("step by step", totals, totals_of(asked, plan))?;
    let needs = [level_numbers(&asked.job), replay_values(&asked.job)];
    let [room, more] = one_short(needs, rng.from(0, 1)).expect("needed");
    let mut levels: Lent<u16> = Lent::new(rng, room);
    let mut values: Lent<u64> = Lent::new(rng, more);
    let found = numbers::replay(&asked.bytes, &asked.calls, entries, levels.list(), values.list());
    same("replay, a list one short", 12, found)?;
    levels.kept("levels after 12")?;
    values.kept("values of replay after 12")?;

    let [room, more] = needs.map(|need| need + slack(rng));
    let mut levels = Lent::new(rng, room);
    let mut values = Lent::new(rng, more);
    let found = numbers::replay(&asked.bytes, &asked.calls, entries, levels.list(), values.list());
    same("replay", 0, found)?;
    values.wrote("values of replay", &due.values)?;
    levels.wrote("levels", &due.levels)?;
    check_balance(&asked.job, values.list(), levels.list())?;
    let mut levels = vec![0; needs[0]];
    let calls = asked.typed_calls();
    let typed = upload_planner::replay(&asked.bytes, &calls, entries, &mut levels);
    same("typed replay", Ok(typed_replay(&due.values)), typed)?;
    let owned = upload_planner::replayed(&asked.bytes, &calls, entries);
    let levels = typed_levels(&asked.job, &due.levels);
    same("owned replay", Ok((levels, typed_replay(&due.values))), owned)
}

/// Where there is no violation, what a bucket had and what was sent has left
/// by its drain or is there still, and the rest of the drain is unused. From what
/// the library answers and writes alone.
fn check_balance(job: &Job, values: &[u64], levels: &[u16]) -> Checked {
    let [0, 0, _, _, channel, unused @ ..] = values else { return Ok(()) };
    let last = &levels[..level_numbers(job)][level_numbers(job) - job.buckets.len()..];
    for ((bucket, unused), last) in job.buckets.iter().zip(unused).zip(last) {
        let drained = job.intervals() as u64 * bucket.drain as u64;
        same("balance", drained + *last as u64, bucket.start as u64 + channel + unused)?;
    }
    Ok(())
}

fn typed_totals(totals: &[u64]) -> upload_planner::Totals {
    upload_planner::Totals {
        distortion: totals[0],
        source_grains: totals[1],
        channel_grains: totals[2],
        unused_grains: totals[3],
        second_unused: totals.get(4).copied(),
    }
}

fn typed_replay(values: &[u64]) -> Replayed {
    let violation = match values[0] {
        0 => return Replayed::Clean(typed_totals(&values[2..])),
        SHORT => Violation::DecoderShort,
        OVER => Violation::DecoderOver,
        BUCKET_OVER => Violation::BucketOver,
        SECOND_OVER => Violation::SecondBucketOver,
        _ => Violation::PinNotHeld,
    };
    Replayed::Violated { violation, interval: values[1] as usize }
}

fn typed_levels(job: &Job, levels: &[u16]) -> Vec<upload_planner::Levels> {
    let typed = |levels: &[u16]| upload_planner::Levels {
        decoder: levels[0],
        bucket: levels[1],
        second: levels.get(2).copied(),
    };
    levels.chunks(1 + job.buckets.len()).map(typed).collect()
}

/// For i from 0 to N what intervals i + 1 to i + d send, each sum added anew.
fn effective_buffers(job: &Job, plan: &Plan) -> Vec<u32> {
    let sum = |i: usize| (i + 1..=i + job.delay).map(|t| job.rates[plan[t - 1].0] as u32).sum();
    (0..=job.units.len()).map(sum).collect()
}

fn check_report(rng: &mut Rng, asked: &Asked, plan: &Plan) -> Checked {
    let due = effective_buffers(&asked.job, plan);
    let room = due.len() + rng.from(0, 4);
    let mut sums = Lent::new(rng, room);
    same("report", 0, numbers::report(&asked.bytes, &plan_bytes(plan), sums.list()))?;
    sums.wrote("sums", &due)
}

fn random_entry(rng: &mut Rng, job: &Job, t: usize) -> Pair {
    let choice = if t > job.delay { rng.from(0, job.choices() - 1) } else { NO_CHOICE };
    (rng.from(0, job.rates.len() - 1), choice)
}

/// Entries drawn until one goes on without a violation, for some tries; now and
/// then one that is not tried, so that violations stand deep in the plan too.
fn random_plan(rng: &mut Rng, job: &Job, pins: &Pins) -> Plan {
    let tries = rng.pick(&[1, 3, 30, 30, 300]);
    let careless = rng.pick(&[2, 10, 1000]);
    let regards_pins = !rng.one_in(3);
    let (mut decoder, mut levels) = (job.start_decoder, job.start_levels());
    let mut plan = Vec::new();
    for t in 1..=job.intervals() {
        let mut entry = random_entry(rng, job, t);
        for _ in 0..if rng.one_in(careless) { 0 } else { tries } {
            let sent = job.rates[entry.0];
            let unit = t.checked_sub(job.delay + 1);
            let taken = unit.map_or(0, |unit| job.units[unit][entry.1].grains);
            let level = by_peak(job, decoder, sent, taken);
            let after = filled(job, &levels, sent);
            let pinned = unit.and_then(|unit| pins[unit]).unwrap_or(entry.1);
            let held = pinned == entry.1 || !regards_pins;
            if let (Some(level), Some(after), true) = (level, after, held) {
                (decoder, levels) = (level, after);
                break;
            }
            entry = random_entry(rng, job, t);
        }
        plan.push(entry);
    }
    plan
}

fn replay_group(seed: u64, asks: bool) -> Result<String, String> {
    replay_jobs(seed, asks, &[SHORT, OVER, BUCKET_OVER, NOT_HELD], |rng, index| {
        let shape = if index % 4 == 0 { &MEDIUM } else { &TINY };
        let draft = if index % 60 == 1 { random_long_job(rng) } else { random_job(rng, shape) };
        random_stored(rng, &draft, 4)
    })
}

fn replay_double_group(seed: u64, asks: bool) -> Result<String, String> {
    let violations = [SHORT, OVER, BUCKET_OVER, SECOND_OVER, NOT_HELD];
    replay_jobs(seed, asks, &violations, |rng, index| {
        let draft = match index % 60 {
            1 => random_long_double(rng),
            _ if index % 4 == 0 => random_medium_double(rng),
            _ => random_tiny_double(rng),
        };
        random_stored(rng, &draft, 4)
    })
}

/// `violations` are those that can be; each must be met with.
fn replay_jobs(
    seed: u64,
    asks: bool,
    violations: &[u64],
    make: impl Fn(&mut Rng, usize) -> Draft,
) -> Result<String, String> {
    let mut rng = Rng(seed);
    let mut tally = [0; 6];
    let mut deep = 0;
    let jobs = scaled(1200);
    for index in 1..=jobs {
        let draft = make(&mut rng, index);
        let asked = Asked::new(&mut rng, &draft);
        for _ in 0..10 {
            let plan = random_plan(&mut rng, &asked.job, &asked.pins);
            let check = |rng: &mut Rng| -> Checked {
                check_replay(rng, &asked, &plan)?;
                check_report(rng, &asked, &plan)?;
                check_misshapen(rng, &asked, &plan)
            };
            let named = |trouble: String| format!("{trouble}\n  plan {plan:?}");
            let checked = check(&mut rng).map_err(named);
            checked.map_err(|trouble| failed(seed, index, &trouble, &asked))?;
            let due = follow(&asked.job, &asked.pins, &plan).values;
            tally[due[0] as usize] += 1;
            deep += (due[1] > 2) as usize;
        }
    }
    let [clean, short, over, bucket, pin, second] = tally;
    let counts = format!(
        "{} plans: {clean} clean, {short} decoder short, {over} decoder over, {bucket} bucket \
         over, {second} second bucket over, {pin} pin not held; {deep} violations past interval 2",
        10 * jobs
    );
    let often = |number: &u64| tally[*number as usize] * 50 > jobs;
    let worthwhile = often(&0) && violations.iter().all(often) && deep * 10 > jobs;
    ensure!(worthwhile || !asks, "too little in it: {counts}");
    Ok(counts)
}

/// The plan with one thing wrong in its shape: 14, and nothing is written.
fn check_misshapen(rng: &mut Rng, asked: &Asked, plan: &Plan) -> Checked {
    let (entries, how) = misshapen(rng, &asked.job, plan);
    check_no_plan(rng, asked, &entries).map_err(|trouble| format!("{how}: {trouble}"))
}

/// Bytes that are no plan of the job.
fn check_no_plan(rng: &mut Rng, asked: &Asked, entries: &[u8]) -> Checked {
    let mut levels = Lent::<u16>::new(rng, level_numbers(&asked.job));
    let mut values = Lent::<u64>::new(rng, replay_values(&asked.job));
    let mut sums = Lent::<u32>::new(rng, asked.job.units.len() + 1);
    let found = numbers::replay(&asked.bytes, &asked.calls, entries, levels.list(), values.list());
    same("replay", 14, found)?;
    levels.kept("levels after 14")?;
    values.kept("values after 14")?;
    same("report", 14, numbers::report(&asked.bytes, entries, sums.list()))?;
    sums.kept("sums after 14")
}

fn misshapen(rng: &mut Rng, job: &Job, plan: &Plan) -> (Vec<u8>, &'static str) {
    let mut entries = plan_bytes(plan);
    let t = rng.from(0, job.intervals() - 1);
    let mut put = |t: usize, choice: usize| {
        let choice = (choice as u16).to_le_bytes();
        entries[ENTRY_BYTES * t + 1..ENTRY_BYTES * (t + 1)].copy_from_slice(&choice);
    };
    let how = match rng.from(0, 9) {
        0 => {
            entries.truncate(entries.len() - rng.from(1, 2));
            "a byte or two short"
        }
        1 => {
            entries.truncate(entries.len() - ENTRY_BYTES);
            "an entry short"
        }
        2 => {
            entries.extend([0, 0].iter().take(rng.from(1, 2)));
            "a byte or two more"
        }
        3 => {
            entries.extend([0; ENTRY_BYTES]);
            "an entry more"
        }
        4 => {
            entries.clear();
            "no entries"
        }
        5 => {
            entries = former_bytes(plan);
            "two bytes an entry"
        }
        6 => {
            entries[ENTRY_BYTES * t] = rng.from(job.rates.len(), 255) as u8;
            "a rate out of range"
        }
        7 if t < job.delay => {
            put(t, rng.pick(&[0, 255, 256, 999, 0xff00, NO_CHOICE - 1]));
            "a choice before the first unit"
        }
        7 => {
            // The lower byte of the first is a choice's.
            let near = plan[t].1 + 256 * rng.from(4, 250);
            put(t, rng.pick(&[near, job.choices(), MOST_CHOICES, NO_CHOICE - 1]));
            "a choice out of range"
        }
        8 => {
            put(t, if t < job.delay { rng.from(0, NO_CHOICE - 1) } else { NO_CHOICE });
            "the mark in the wrong place"
        }
        _ => {
            put(job.intervals() - 1, NO_CHOICE);
            "no choice for the last unit"
        }
    };
    entries.shrink_to_fit();
    (entries, how)
}

// ---------------------------------------------------------------------------
// The report's delay.
// ---------------------------------------------------------------------------

/// A job and a plan for it that sends these grains, interval by interval. Its line never
/// drains, which the report does not ask.
fn sending(delay: usize, sent: &[u16]) -> (Draft, Plan) {
    let mut rates = sent.to_vec();
    rates.sort();
    rates.dedup();
    let units = vec![vec![(0, 0)]; sent.len() - delay];
    let entry = |(t, rate): (usize, &u16)| {
        let index = rates.iter().position(|listed| listed == rate).expect("a rate");
        (index, if t < delay { NO_CHOICE } else { 0 })
    };
    let plan = sent.iter().enumerate().map(entry).collect();
    (Draft::new([delay as u16, 0, 0, 0, 0, 0], &rates, &units), plan)
}

/// Effective buffers by hand.
fn report_group() -> Result<String, String> {
    let mut rng = Rng(1);
    // Each line: the delay, what each interval sends, the sums.
    let rows: [(usize, Vec<u16>, Vec<u32>); 16] = [
        // Sums of no interval, and of one.
        (0, vec![4095], vec![0; 2]),
        (0, vec![7, 0, 4095], vec![0; 4]),
        (0, vec![4095; 512], vec![0; 513]),
        (1, vec![3, 8], vec![3, 8]),
        (1, vec![5, 0, 4095, 2], vec![5, 0, 4095, 2]),
        // Each interval in a digit of its own; rates that rise and fall.
        (2, vec![1, 10, 100, 1000, 4000], vec![11, 110, 1100, 5000]),
        (3, vec![1, 20, 300, 20, 1, 300, 4000, 0], vec![321, 340, 321, 321, 4301, 4300]),
        // More intervals in the delay than units.
        (4, vec![1, 2, 4, 8, 16], vec![15, 30]),
        (8, (1..=10).collect(), vec![36, 44, 52]),
        (64, [vec![4095], vec![0; 64]].concat(), vec![4095, 0]),
        (64, [vec![0; 64], vec![4095]].concat(), vec![0, 4095]),
        // 15, 16 and 17 times 4,095: past sixteen bits, and back.
        (17, [vec![0; 2], vec![4095; 17]].concat(), vec![61_425, 65_520, 69_615]),
        (17, [vec![4095; 17], vec![0; 2]].concat(), vec![69_615, 65_520, 61_425]),
        // 512 units. The first interval and the last send, or interval 100 alone,
        // which counts for i from 36 to 99; or all do, and the sums are the largest.
        (8, [vec![9], vec![0; 518], vec![7]].concat(), [vec![9], vec![0; 511], vec![7]].concat()),
        (
            64,
            [vec![0; 99], vec![4095], vec![0; 476]].concat(),
            [vec![0; 36], vec![4095; 64], vec![0; 413]].concat(),
        ),
        (64, vec![4095; 576], vec![262_080; 513]),
    ];
    for (row, (delay, sent, due)) in (1..).zip(&rows) {
        let (draft, plan) = sending(*delay, sent);
        for drain in [0, 1, 4095] {
            let asked = Asked::new(&mut rng, &draft.with(DRAIN, drain));
            let units = asked.job.units.len();
            let what = format!("line {row}, delay {delay}, {units} units, drain {drain}");
            same(&what, due, &effective_buffers(&asked.job, &plan))?;
            check_report(&mut rng, &asked, &plan)
                .map_err(|trouble| format!("{what}: {trouble}"))?;
        }
    }
    Ok(format!("{} jobs by hand", rows.len()))
}

/// Every delay, with few units, with about as many as it has intervals, and with
/// as many as a job may have. The rates jump between 0 and 4,095.
fn delays_group() -> Result<String, String> {
    let mut rng = Rng(1);
    let (mut jobs, mut wide, mut more, mut less) = (0, 0, 0, 0);
    for delay in (0..=64).step_by(if small() { 8 } else { 1 }) {
        for units in [1, 2, delay.max(2) - 1, delay.max(1), delay + 1, 512] {
            let (count, choices) = (rng.from(2, 16), rng.from(1, 3));
            let mut rates = rng.rising(count, 4095);
            (rates[0], rates[count - 1]) = (0, 4095);
            let units = vec![vec![(0, 0); choices]; units];
            let drain = rng.pick(&[0, 1, 4095]);
            let draft = Draft::new([delay as u16, 0, 0, drain, 0, 0], &rates, &units);
            let asked = Asked::new(&mut rng, &draft);
            let entry = |t| random_entry(&mut rng, &asked.job, t);
            let plan: Plan = (1..=asked.intervals()).map(entry).collect();
            check_report(&mut rng, &asked, &plan).map_err(|trouble| {
                format!("delay {delay}: {trouble}\n  plan {plan:?}\n  {}", asked.show())
            })?;
            let sums = effective_buffers(&asked.job, &plan);
            jobs += 1;
            wide += sums.iter().filter(|sum| **sum > 65_535).count();
            more += sums.windows(2).filter(|two| two[0] < two[1]).count();
            less += sums.windows(2).filter(|two| two[0] > two[1]).count();
        }
    }
    let counts = format!(
        "{jobs} jobs, {wide} sums over 65,535, {more} more than the one before, {less} less"
    );
    ensure!([wide, more, less].iter().all(|count| *count > jobs), "too little in it: {counts}");
    Ok(counts)
}

/// With 512 units, one rate and one choice, a delay of 64 takes at most twice the
/// time of a delay of 1.
fn long_delays_group() -> Result<String, String> {
    // What else runs on the machine only adds time, so the least of many rounds is
    // close to the time of the calls alone. Rounds are short, so that most of them
    // are not broken into; the delays take turns, so that a slower clock slows both
    // alike. If the first rounds do not show it, more of them may.
    const CALLS: u32 = 20;
    const ROUNDS: usize = 2000;
    const MOST_ROUNDS: usize = 10_000;

    let mut rng = Rng(1);
    let mut jobs = Vec::new();
    for delay in [1, 64] {
        let (draft, plan) = sending(delay, &vec![4095; 512 + delay]);
        let asked = Asked::new(&mut rng, &draft);
        check_report(&mut rng, &asked, &plan)
            .map_err(|trouble| format!("delay {delay}: {trouble}"))?;
        jobs.push((asked.bytes, plan_bytes(&plan)));
    }
    if small() {
        return Ok("2 jobs, no times".to_string());
    }
    let mut sums = vec![0; 513];
    let mut least = [Duration::MAX; 2];
    let mut rounds = 0;
    while rounds < ROUNDS || (rounds < MOST_ROUNDS && least[1] > 2 * least[0]) {
        for ((job, entries), best) in jobs.iter().zip(&mut least) {
            let start = Instant::now();
            for _ in 0..CALLS {
                same("report", 0, numbers::report(job, entries, &mut sums))?;
            }
            *best = start.elapsed().min(*best);
        }
        rounds += 1;
    }
    let [short, long] = least.map(|time| time.as_secs_f64() * 1e6 / CALLS as f64);
    let times = format!(
        "delay 1 takes {short:.2} us, delay 64 {long:.2} us, {:.2} times as long; {rounds} rounds",
        long / short
    );
    ensure!(least[1] <= 2 * least[0], "more than twice as long: {times}");
    Ok(times)
}

// ---------------------------------------------------------------------------
// The decoder's peak.
// ---------------------------------------------------------------------------

/// A table and totals by hand.
fn peaks_group() -> Result<String, String> {
    let mut rng = Rng(1);
    // One unit, a decoder of 2, rates 0 and 2. From level 0 the 2 grains sent are
    // the peak; from 1 and 2 nothing can be sent. The last two choices take more
    // than the decoder ever holds. Of a drain of 9 all but what is sent goes by.
    let unit = vec![(2, 5), (1, 8), (3, 1), (4, 0)];
    let draft = Draft::new([0, 2, 0, 9, 0, 0], &[0, 2], &[unit]);
    let asked = Asked::new(&mut rng, &draft);
    check_plan(&mut rng, &asked, &[5, 8, 5, 0, 0, 0], &both(vec![(1, 0)]))?;
    for (start, plan, due) in [
        (0, (1, 0), [0, 0, 5, 2, 2, 7]),
        (0, (1, 1), [0, 0, 8, 1, 2, 7]),
        (0, (0, 1), [SHORT, 1, 0, 0, 0, 0]),
        (0, (1, 2), [SHORT, 1, 0, 0, 0, 0]),
        (0, (1, 3), [SHORT, 1, 0, 0, 0, 0]),
        (1, (0, 1), [0, 0, 8, 1, 0, 9]),
        (1, (1, 0), [OVER, 1, 0, 0, 0, 0]),
        (1, (1, 1), [OVER, 1, 0, 0, 0, 0]),
        (1, (1, 2), [OVER, 1, 0, 0, 0, 0]),
        (1, (1, 3), [OVER, 1, 0, 0, 0, 0]),
        (2, (0, 0), [0, 0, 5, 2, 0, 9]),
        (2, (1, 0), [OVER, 1, 0, 0, 0, 0]),
    ] {
        let asked = Asked::new(&mut rng, &draft.with(START_DECODER, start));
        let what = format!("from {start} with {plan:?}");
        same(&what, due.to_vec(), follow(&asked.job, &asked.pins, &vec![plan]).values)?;
        check_replay(&mut rng, &asked, &vec![plan])
            .map_err(|trouble| format!("{what}: {trouble}"))?;
    }

    // As many grains as a plan can come to, more than sixteen bits count.
    let units = vec![vec![(255, 1_000_000)]; 512];
    let asked = Asked::new(&mut rng, &Draft::new([0, 255, 0, 255, 0, 0], &[255], &units));
    let (table, plan) = (fast_table(&asked.job, &asked.pins), vec![(0, 0); 512]);
    let due = Some(vec![512_000_000, 130_560, 130_560, 0]);
    same("512 full units", due, totals_of(&asked, &plan))?;
    check_plan(&mut rng, &asked, &table, &both(plan))?;
    Ok("by hand".to_string())
}

/// Every set of violations in one interval, before it none: the name is the first
/// in the order of testing, whatever else is wrong.
fn violations_group() -> Result<String, String> {
    let mut rng = Rng(1);
    let mut sets = 0;
    for (delay, double) in [(0, false), (1, false), (2, false), (0, true), (1, true), (2, true)] {
        for t in 1..=delay + 2 {
            for bits in 0..64 {
                let has: [bool; 6] = std::array::from_fn(|bit| bits >> bit & 1 == 1);
                let [_, short, _, unheld, far, second] = has;
                if t <= delay && (short || unheld || far) || second && !double {
                    // Nothing is taken, and nothing is pinned; or there is no such
                    // bucket.
                    continue;
                }
                check_violations(&mut rng, delay, t, double, has).map_err(|trouble| {
                    format!("delay {delay}, interval {t}, second {double}, {has:?}: {trouble}")
                })?;
                sets += 1;
            }
        }
    }
    Ok(format!("{sets} sets of violations"))
}

/// Two units and a decoder of 9 that holds 3 up to interval t, which sends the
/// first grains: 6, or 7 for a peak of 10. Its unit takes just the peak, or one
/// grain more to be short; far from that, a single grain, or 4,095. Each bucket
/// just holds or is over by one; until then they are empty, and their drain of 1
/// goes by, which no violation shows. The second has a grain for the first drain.
fn check_violations(
    rng: &mut Rng,
    delay: usize,
    t: usize,
    double: bool,
    [over, short, bucket, unheld, far, second]: [bool; 6],
) -> Checked {
    let sent: u16 = if over { 7 } else { 6 };
    let taken = match (short, far) {
        (false, false) => 3 + sent,
        (false, true) => 1,
        (true, false) => 3 + sent + 1,
        (true, true) => 4095,
    };
    let size = sent - 1 - bucket as u16;
    let units = vec![vec![(0, 5), (taken, 6)]; 2];
    let mut draft = Draft::new([delay as u16, 9, size, 1, 3, 0], &[0, sent], &units);
    if double {
        let level = sent - 1 + (t == 1) as u16;
        draft = draft.doubled([level - second as u16, 1, 1]);
    }
    if unheld {
        draft.commands.push(Pin((t - delay) as u16, 0));
    }
    let asked = Asked::new(rng, &draft);
    let entry = |s: usize| {
        let here = (s == t) as usize;
        (here, if s > delay { here } else { NO_CHOICE })
    };
    let plan: Plan = (1..=delay + 2).map(entry).collect();

    let tested = [(over, 2), (short, 1), (bucket, 3), (second, 5), (unheld, 4)];
    let first = first_of(&tested) as u64;
    // After interval t the buckets have 5 or more, more than the last intervals
    // drain.
    let unused = [t as u64 - 1, (t as u64 - 1).saturating_sub(1)];
    let due = match first {
        0 => {
            let (distortion, taken) = if t > delay { (5 + 6, taken) } else { (5 + 5, 0) };
            let totals = [0, 0, distortion, taken as u64, sent as u64];
            [&totals[..], &unused[..1 + double as usize]].concat()
        }
        _ => violated(&asked.job, first, t),
    };
    same("followed", due, follow(&asked.job, &asked.pins, &plan).values)?;
    check_replay(rng, &asked, &plan)
}

/// Tight jobs: plans that keep the decoder as full as it may be or a little fuller.
fn tight_group(seed: u64, asks: bool) -> Result<String, String> {
    let mut sharp = Sharp::default();
    let see = |asked: &Asked, plan: &Plan| sharp.count(asked, plan);
    let telling = telling_jobs(seed, &TIGHT_JOBS, see)?;
    let Sharp { full, within, both, waiting } = sharp;
    let text = format!(
        "{}: {full} units leave a full decoder, {within} over with a level within the size, \
         {both} over and short, {waiting} over before the first unit",
        telling.show()
    );
    let worthwhile = telling.worthwhile(&[full, within, both, waiting]);
    ensure!(worthwhile || !asks, "too little in it: {text}");
    Ok(text)
}

/// Jobs of three sizes that tell a rule from mistaken ones.
struct TellingJobs {
    shapes: &'static [Shape; 3],
    /// How many of each size.
    jobs: [usize; 3],
    make: fn(&mut Rng, &Shape) -> Draft,
    /// For each size.
    mistakes: [&'static [Mistakes]; 3],
    /// In one of so many intervals a plan has no regard for the buckets; 0 where it
    /// always has.
    bold: usize,
}

const TIGHT_JOBS: TellingJobs = TellingJobs {
    shapes: &TIGHT,
    jobs: [600, 120, 20],
    make: random_tight_job,
    mistakes: [&[decoder_mistakes, level_mistakes]; 3],
    bold: 0,
};

/// That of a program that reads the plan off the right table by the decoder's former rule.
fn level_mistakes(order: Order, job: &Job, pins: &Pins, plan: Option<&Plan>) -> Vec<Mistake> {
    former_mistakes(order, job, pins, plan, &fast_table(job, pins))
}

/// What came of them.
struct Telling {
    jobs: usize,
    plans: usize,
    told: Told,
}

impl Telling {
    fn show(&self) -> String {
        let Telling { jobs, plans, told } = self;
        format!("{jobs} jobs, {plans} with a plan{}; {} plans", told.show(), PLANS_A_JOB * jobs)
    }

    /// Whether most jobs have a plan, each mistaken rule shows in many, and each of
    /// the counts over plans is not small.
    fn worthwhile(&self, counts: &[usize]) -> bool {
        self.plans * 2 > self.jobs
            && self.told.each(4)
            && counts.iter().all(|count| count * 10 > self.jobs)
    }
}

const PLANS_A_JOB: usize = 8;

/// The jobs' tables and best plans, and plans that keep the decoder full, of which
/// `see` is told.
fn telling_jobs(
    seed: u64,
    of: &TellingJobs,
    mut see: impl FnMut(&Asked, &Plan),
) -> Result<Telling, String> {
    let mut rng = Rng(seed);
    let (mut plans, mut told) = (0, Told::default());
    let counts = of.jobs.map(scaled);
    let jobs: usize = counts.iter().sum();
    for index in 1..=jobs {
        let shape = (index > counts[0]) as usize + (index > counts[0] + counts[1]) as usize;
        let draft = (of.make)(&mut rng, &of.shapes[shape]);
        let asked = Asked::new(&mut rng, &draft);
        let due = dynamics(&asked.job, &asked.pins);
        let mut check = || -> Checked {
            let table = fast_table(&asked.job, &asked.pins);
            if shape == 0 {
                same("fast table", &brute_table(&asked.job, &asked.pins), &table)?;
                same("plan of all", &enumerate(&asked.job, &asked.pins).best, &due)?;
            }
            same("plan read off", &due, &read_off(&asked.job, &asked.pins, &table))?;
            check_plan(&mut rng, &asked, &table, &due)?;
            for _ in 0..PLANS_A_JOB {
                let tight = tight_plan(&mut rng, &asked.job, &asked.pins, of.bold);
                check_replay(&mut rng, &asked, &tight)
                    .map_err(|trouble| format!("{trouble}\n  plan {tight:?}"))?;
                see(&asked, &tight);
            }
            Ok(())
        };
        check().map_err(|trouble| failed(seed, index, &trouble, &asked))?;
        plans += due[0].is_some() as usize;
        for &mistakes in of.mistakes[shape] {
            told.count(mistakes, &asked.job, &asked.pins, &due);
        }
    }
    Ok(Telling { jobs, plans, told })
}

/// What tells the peak from the level, counted over plans.
#[derive(Default)]
struct Sharp {
    /// A peak of just the size, and a unit of some grains leaves.
    full: usize,
    /// Over, and the level after the unit would be within the size.
    within: usize,
    /// Over and short at once.
    both: usize,
    /// Over where no unit leaves.
    waiting: usize,
}

impl Sharp {
    fn count(&mut self, asked: &Asked, plan: &Plan) {
        let size = asked.job.decoder_size;
        let Followed { values, decoder, .. } = follow(&asked.job, &asked.pins, plan);
        for (t, &(peak, level)) in (1..).zip(&decoder) {
            let breaks = values[1] == t as u64;
            self.full += (!breaks && peak == size && level < peak) as usize;
            let over = breaks && values[0] == OVER;
            self.within += (over && t > asked.job.delay && (0..=size).contains(&level)) as usize;
            self.both += (over && level < 0) as usize;
            self.waiting += (over && t <= asked.job.delay) as usize;
        }
    }
}

/// Goes on without a violation where that is possible, half of the time with the
/// highest peak; now and then any entry. In one of `bold` intervals, if that is not
/// 0, the buckets are left out of account.
fn tight_plan(rng: &mut Rng, job: &Job, pins: &Pins, bold: usize) -> Plan {
    let slip = rng.pick(&[2, 8, 1000]);
    let (mut decoder, mut levels) = (job.start_decoder, job.start_levels());
    let mut plan = Vec::new();
    for t in 1..=job.intervals() {
        let heedless = bold > 0 && rng.one_in(bold);
        let mut going = Vec::new();
        for (rate, &sent) in job.rates.iter().enumerate() {
            let (after, _) = by_each(job, &levels, sent);
            for (choice, grains, _) in options(job, pins, t) {
                let level = by_peak(job, decoder, sent, grains);
                if let (Some(level), true) = (level, heedless || hold(job, &after)) {
                    going.push((decoder + sent, (rate, choice), level, after));
                }
            }
        }
        if rng.one_in(2) {
            let highest = going.iter().map(|step| step.0).max();
            going.retain(|step| Some(step.0) == highest);
        }
        if going.is_empty() || rng.one_in(slip) {
            plan.push(random_entry(rng, job, t));
        } else {
            let (_, entry, level, after) = rng.pick(&going);
            plan.push(entry);
            (decoder, levels) = (level, after);
        }
    }
    plan
}

// ---------------------------------------------------------------------------
// Unused drain.
// ---------------------------------------------------------------------------

/// What goes by unused, by hand: what planning and replay answer.
fn unused_group() -> Result<String, String> {
    let mut rng = Rng(1);
    let mut jobs = 0;
    for order in ORDERS {
        for (what, draft, unused) in unused_by_hand(order) {
            let never = draft.never_drains();
            if order == Order::Early && never {
                continue;
            }
            check_unused(&mut rng, order, &draft, &unused)
                .map_err(|trouble| format!("{order:?}, {what}: {trouble}"))?;
            jobs += 1;
        }
    }
    Ok(format!("{jobs} jobs by hand"))
}

fn check_unused(rng: &mut Rng, order: Order, draft: &Draft, unused: &[i64]) -> Checked {
    let asked = Asked::new(rng, draft);
    let table = fast_table(&asked.job, &asked.pins);
    let plans = read_off(&asked.job, &asked.pins, &table);
    let plan = plan_in(order, &plans);
    // Every unit has a distortion of 1. Late it takes what its interval sends; early what
    // is sent fills the decoder, and the last unit leaves it full.
    let taken: u64 = draft.units.iter().map(|unit| unit[0].0 as u64).sum();
    let filled = match order {
        Order::Early => draft.header[DECODER] - draft.header[START_DECODER],
        Order::Late => 0,
    };
    let mut due = vec![asked.job.units.len() as u64, taken, taken + filled as u64];
    due.extend(unused.iter().map(|sum| *sum as u64));
    let found = plan.as_ref().and_then(|plan| totals_of(&asked, plan));
    same("totals", Some(due), found)?;
    match plan {
        Some(plan) if asked.job.never_drains() => check_never(rng, &asked, plan),
        _ => check_plan(rng, &asked, &table, &plans),
    }
}

/// Idle jobs: plans that leave some of the drain unused, and plans that do not.
fn idle_group(seed: u64, asks: bool) -> Result<String, String> {
    let (mut idle, mut busy, mut hidden) = (0, 0, 0);
    let see = |asked: &Asked, plan: &Plan| {
        let Followed { values, unused, .. } = follow(&asked.job, &asked.pins, plan);
        match (values[0], unused[0]) {
            (0, 0) => busy += 1,
            (0, _) => idle += 1,
            (_, 0) => (),
            _ => hidden += 1,
        }
    };
    let idle_jobs = TellingJobs { shapes: &IDLE, mistakes: [&[unused_mistakes]; 3], ..TIGHT_JOBS };
    let telling = telling_jobs(seed, &idle_jobs, see)?;
    let text = format!(
        "{}: {idle} clean with unused drain, {busy} clean without, {hidden} with some before a \
         violation",
        telling.show()
    );
    ensure!(telling.worthwhile(&[idle, busy, hidden]) || !asks, "too little in it: {text}");
    Ok(text)
}

/// Jobs full of ties: programs that decide between equal plans in another way are told
/// apart, in both orders.
fn equal_group(seed: u64, asks: bool) -> Result<String, String> {
    let equal_jobs = TellingJobs {
        shapes: &EQUAL,
        make: random_equal_job,
        mistakes: [&[tie_mistakes], &[order_mistakes], &[order_mistakes]],
        ..TIGHT_JOBS
    };
    let telling = telling_jobs(seed, &equal_jobs, |_, _| ())?;
    let text = telling.show();
    let worthwhile = telling.plans * 2 > telling.jobs && telling.told.each(40);
    ensure!(worthwhile || !asks, "too little in it: {text}");
    Ok(text)
}

// ---------------------------------------------------------------------------
// Two buckets.
// ---------------------------------------------------------------------------

/// Job A's words with a second bucket of size 3 and drain 1, by hand: for each
/// interval and decoder level a word for each level of the second bucket, whatever
/// the first one's. A rate of 4 goes in from 0 alone, one of 2 from all but 3, and
/// they leave 3, or one more than there was; without one there is one less.
/// After interval 2, unit 2 needs 2 in the decoder. After interval 1, unit 1 at 0
/// needs a peak of 4, which leaves nothing for unit 2: 2 more must be sent. Level 0
/// has it by a rate of 4, after which none is; level 2 by one of 2, if after that
/// another goes in; level 4 without any.
const TABLE_SECOND: [[[u32; 4]; 5]; 4] = [
    [[50, 70, 70, NEVER], [70, 70, 70, NEVER], [50, 50, 50, 70], [70; 4], [50; 4]],
    [[70, 70, NEVER, NEVER], [70, 70, NEVER, NEVER], [50, 50, 70, 70], [70; 4], [50; 4]],
    [[40, 40, 40, NEVER], [40, 40, 40, NEVER], [40; 4], [40; 4], [40; 4]],
    [[0; 4]; 5],
];

/// Job A with a second bucket: plans, tables, levels and violations by hand.
fn second_group() -> Result<String, String> {
    let mut rng = Rng(1);
    let a = job_a();
    // Each line: the second bucket, the pins, what planning gives early and late.
    type Given = Option<[([u8; 9], [u64; 5]); 2]>;
    let last_less = [2, 255, 255, 0, 0, 0, 1, 1, 0];
    let even = [1, 255, 255, 1, 0, 0, 1, 1, 0];
    let coarse = [0, 255, 255, 1, 1, 0, 1, 1, 0];
    let coarse_early = [1, 255, 255, 1, 1, 0, 1, 1, 0];
    let stopped = [1, 255, 255, 1, 1, 0, 0, 1, 0];
    let paused = [1, 255, 255, 0, 1, 0, 1, 1, 0];
    // Job A's own plans send 4, 0 and 4 grains, or 0, 4 and 2.
    let own = |early, late| -> Given {
        Some([(EARLY_A, [50, 6, 8, 0, early]), (LATE_A, [50, 6, 6, 2, late])])
    };
    let alike = |plan, totals| -> Given { Some([(plan, totals); 2]) };
    let rows: [([u16; 3], &[Command], Given); 16] = [
        // No rate is over 4, so the bucket stays empty; or it never fills.
        ([63, 4, 0], &[], own(4, 6)),
        ([0, 4, 0], &[], own(4, 6)),
        ([63, 4, 63], &[], own(0, 0)),
        ([63, 1, 0], &[], own(0, 1)),
        ([63, 4095, 0], &[], own(3 * 4095 - 8, 3 * 4095 - 6)),
        // 4, none and 4 would leave 3, 2 and 5; late 4 and 2 leave 3 and 4.
        ([4, 1, 0], &[], Some([(last_less, [50, 6, 6, 0, 0]), (LATE_A, [50, 6, 6, 2, 1])])),
        // 4 does not go in, so that 2 and 2 are sent for unit 1.
        ([1, 2, 0], &[], alike(even, [50, 6, 6, 0, 0])),
        ([1, 2, 0], &[Pin(1, 0)], alike(even, [50, 6, 6, 0, 0])),
        (
            [1, 2, 0],
            &[Pin(1, 1)],
            Some([(coarse_early, [70, 4, 6, 0, 0]), (coarse, [70, 4, 4, 2, 2])]),
        ),
        ([3, 1, 0], &[], Some([(last_less, [50, 6, 6, 0, 0]), (even, [50, 6, 6, 0, 0])])),
        // Only 4 grains can be sent; or not in two intervals in a row.
        ([2, 1, 0], &[], Some([(stopped, [70, 4, 4, 2, 0]), (coarse, [70, 4, 4, 2, 1])])),
        ([3, 1, 1], &[], Some([(stopped, [70, 4, 4, 2, 0]), (coarse, [70, 4, 4, 2, 0])])),
        ([1, 1, 0], &[], alike(paused, [70, 4, 4, 2, 0])),
        // No plan, though there is one without the bucket.
        ([0, 1, 0], &[], None),
        ([3, 1, 3], &[], None),
        ([2, 1, 2], &[], None),
    ];
    for (second, commands, due) in rows {
        let asked = Asked::new(&mut rng, &a.doubled(second).commanded(commands));
        let (table, all) =
            (brute_table(&asked.job, &asked.pins), enumerate(&asked.job, &asked.pins));
        let found = ORDERS.map(|order| {
            let plan = plan_in(order, &all.best).as_ref()?;
            Some((plan_bytes(plan), totals_of(&asked, plan)?))
        });
        let given = |(entries, totals): ([u8; 9], [u64; 5])| (entries.to_vec(), totals.to_vec());
        let due = due.map_or([None, None], |due| due.map(|of| Some(given(of))));
        let what = format!("second bucket {second:?}");
        let check = || -> Checked {
            same("by hand", due, found)?;
            check_open(&mut rng, &asked)?;
            check_plan(&mut rng, &asked, &table, &all.best)?;
            check_typed(&asked, &table, &all.best)
        };
        check().map_err(|trouble| format!("{what}: {trouble}"))?;
    }

    for (second, table) in [
        (SECOND_A, known_lines()[1].table.clone()),
        ([3, 1, 0], TABLE_SECOND.concat().iter().flat_map(|words| words.repeat(4)).collect()),
    ] {
        let asked = Asked::new(&mut rng, &a.doubled(second));
        same("table by hand", &table, &brute_table(&asked.job, &asked.pins))?;
        for order in ORDERS.map(typed_order) {
            let aim = upload_planner::Aim::Total;
            let found = upload_planner::best_plan(&asked.bytes, &[], aim, order);
            same("table", Ok(&table), found.as_ref().map(|best| &best.table))?;
        }
    }
    check_second_replays(&mut rng)?;
    check_second_sizes(&mut rng)?;
    Ok(format!("{} jobs by hand", rows.len()))
}

/// Each line: both buckets, a plan, the levels before its violation, what is named.
fn check_second_replays(rng: &mut Rng) -> Checked {
    let best = [(0, NO_CHOICE), (2, 0), (1, 1)];
    let early = [(1, NO_CHOICE), (2, 1), (1, 1)];
    let rows: [([[u16; 3]; 2], [Pair; 3], &[u16], &[u64]); 12] = [
        ([[3, 2, 0], [63, 4, 0]], best, &[0, 0, 0, 0, 2, 0, 0, 2, 0], &[0, 0, 50, 6, 6, 2, 6]),
        ([[3, 2, 0], [63, 1, 9]], best, &[0, 0, 8, 0, 2, 11, 0, 2, 12], &[0, 0, 50, 6, 6, 2, 0]),
        // The second is over, the first is not, and just holds.
        ([[3, 2, 0], [1, 2, 0]], best, &[0, 0, 0], &[SECOND_OVER, 2]),
        ([[2, 2, 0], [1, 2, 0]], best, &[0, 0, 0], &[SECOND_OVER, 2]),
        ([[3, 2, 0], [3, 1, 0]], best, &[0, 0, 0, 0, 2, 3], &[SECOND_OVER, 3]),
        ([[3, 2, 0], [0, 0, 0]], early, &[], &[SECOND_OVER, 1]),
        // The first is over, the second is not, and just holds.
        ([[1, 2, 0], [2, 2, 0]], best, &[0, 0, 0], &[BUCKET_OVER, 2]),
        ([[9, 1, 9], [2, 2, 1]], best, &[0, 8, 0], &[BUCKET_OVER, 2]),
        // Both are over in the same interval, and the first is named.
        ([[1, 2, 0], [1, 2, 0]], best, &[0, 0, 0], &[BUCKET_OVER, 2]),
        ([[0, 1, 0], [0, 0, 0]], early, &[], &[BUCKET_OVER, 1]),
        // The decoder is over before either: 2 and 4 are 6.
        ([[1, 2, 0], [1, 2, 0]], [early[0], (2, 1), early[2]], &[2, 0, 0], &[OVER, 2]),
        // The decoder is short before either.
        ([[1, 2, 0], [1, 2, 0]], [best[0], (0, 0), best[2]], &[0, 0, 0], &[SHORT, 2]),
    ];
    for ([first, second], plan, levels, named) in rows {
        let a = job_a().with(BUCKET, first[0]).with(DRAIN, first[1]).with(START_BUCKET, first[2]);
        let asked = Asked::new(rng, &a.doubled(second));
        let plan = plan.to_vec();
        let due = follow(&asked.job, &asked.pins, &plan);
        let what = format!("buckets {first:?} {second:?}, plan {plan:?}");
        let mut values = named.to_vec();
        values.resize(7, 0);
        same(&what, (levels, &values), (&due.levels[..], &due.values))?;
        check_replay(rng, &asked, &plan).map_err(|trouble| format!("{what}: {trouble}"))?;
        check_report(rng, &asked, &plan).map_err(|trouble| format!("{what}: {trouble}"))?;
    }
    // A pin that is not held is named after the second bucket, and before the next
    // interval's.
    for (second, due) in [([1, 2, 0], SECOND_OVER), ([2, 2, 0], NOT_HELD)] {
        let draft = job_a().doubled(second).commanded(&[Pin(1, 1)]);
        let asked = Asked::new(rng, &draft);
        let plan = best.to_vec();
        let found = follow(&asked.job, &asked.pins, &plan).values;
        same("a pin not held", violated(&asked.job, due, 2), found)?;
        check_replay(rng, &asked, &plan)?;
    }
    Ok(())
}

/// The words and bytes of the largest jobs, which no table is made of.
fn check_second_sizes(rng: &mut Rng) -> Checked {
    let largest = largest_draft();
    for (draft, due) in [
        (job_a().doubled([63, 4, 0]), [70, 2, 3, 5120]),
        (job_a().doubled([0, 1, 0]), [70, 2, 3, 80]),
        (largest.clone(), [3_074_106, 512, 576, 37_814_272]),
        (largest.doubled([0, 4095, 0]), [3_074_112, 512, 576, 37_814_272]),
        (largest.doubled([1, 4095, 1]), [3_074_112, 512, 576, 75_628_544]),
        (largest.doubled([63, 4095, 63]), [3_074_112, 512, 576, 2_420_113_408]),
    ] {
        let asked = Asked::new(rng, &draft);
        let mut values = Lent::new(rng, 4);
        same("open", 0, numbers::open(&asked.bytes, values.list()))?;
        values.wrote("values of open", &due)?;
        check_open(rng, &asked)?;
        let mut lent = PlanLists::new(rng, [0, 79, ENTRY_BYTES * asked.intervals(), 5]);
        same("a table of 79", 11, lent.plan(rng.pick(&ORDERS), &asked.bytes, &[]))?;
        lent.kept()?;
    }
    Ok(())
}

/// The words of a table by other layouts: the second level outside the decoder's,
/// and outside the first one's.
fn layout_mistakes(_: Order, job: &Job, pins: &Pins, _: Option<&Plan>) -> Vec<Mistake> {
    let table = fast_table(job, pins);
    let (mut outermost, mut outside) = (vec![0; table.len()], vec![0; table.len()]);
    let [width, second] = [0, 1].map(|at| job.buckets[at].size as usize + 1);
    let rows = job.decoder_size as usize + 1;
    for t in 0..=job.intervals() {
        for decoder in 0..rows {
            for levels in job.all_levels() {
                let word = table[job.word(t, decoder as i64, &levels)];
                let [l, m] = levels.map(|level| level as usize);
                outermost[((t * second + m) * rows + decoder) * width + l] = word;
                outside[((t * rows + decoder) * second + m) * width + l] = word;
            }
        }
    }
    vec![
        ("the second level outermost", outermost != table),
        ("the second level outside the first", outside != table),
    ]
}

const DOUBLE_JOBS: TellingJobs = TellingJobs {
    shapes: &DOUBLE,
    jobs: TIGHT_JOBS.jobs,
    make: random_double_job,
    mistakes: [
        &[second_mistakes, layout_mistakes],
        &[meeting_mistakes, layout_mistakes],
        &[meeting_mistakes, layout_mistakes],
    ],
    bold: 4,
};

/// Jobs in which both buckets decide, with plans in which one of them is over, or
/// both are. Where both are, another order of testing has another answer.
fn double_group(seed: u64, asks: bool) -> Result<String, String> {
    let (mut first, mut second, mut both, mut clean) = (0, 0, BTreeSet::new(), 0);
    let see = |asked: &Asked, plan: &Plan| {
        let Followed { values, over, .. } = follow(&asked.job, &asked.pins, plan);
        match (values[0], over[0], over[1]) {
            (0, ..) => clean += 1,
            (BUCKET_OVER, _, true) => drop(both.insert(asked.bytes.clone())),
            (BUCKET_OVER, ..) => first += 1,
            (SECOND_OVER, ..) => second += 1,
            _ => (),
        }
    };
    let telling = telling_jobs(seed, &DOUBLE_JOBS, see)?;
    let text = format!(
        "{}: {clean} clean, {first} with the first bucket over alone, {second} with the second \
         alone; {} jobs with both",
        telling.show(),
        both.len()
    );
    let often = [first, second, both.len(), clean].iter().all(|count| count * 5 > telling.jobs);
    ensure!(telling.worthwhile(&[]) && often || !asks, "too little in it: {text}");
    Ok(text)
}

/// What the library plans: its number, table, entries and values.
type PlannedNumbers = (u32, Vec<u32>, Vec<u8>, Vec<u64>);

fn planned_numbers(order: Order, asked: &Asked) -> PlannedNumbers {
    planned_numbers_for(Aim::Total, order, asked)
}

fn planned_numbers_for(aim: Aim, order: Order, asked: &Asked) -> PlannedNumbers {
    let [answers, table, entries, values] = asked.needs();
    let (mut table, mut entries, mut values) = (vec![7; table], vec![7; entries], vec![7; values]);
    let (aim, order) = (aim.number(), order.number());
    let mut answers = vec![7; answers];
    let number = numbers::plan(
        &asked.bytes,
        &asked.calls,
        aim,
        order,
        &mut answers,
        &mut table,
        &mut entries,
        &mut values,
    );
    (number, table, entries, values)
}

/// What the library plans for lines of two buckets, against what it plans for others:
/// with the buckets in the other order, with a bucket that never binds, with one that
/// is there twice, and without the second.
fn lines_group(seed: u64, asks: bool) -> Result<String, String> {
    let mut rng = Rng(seed);
    let (mut plans, mut others, mut lost) = (0, 0, 0);
    let jobs = scaled(600);
    for index in 1..=jobs {
        let draft = match index % 3 {
            0 => random_tiny_double(&mut rng),
            _ => random_double_job(&mut rng, &DOUBLE[(index % 20 == 1) as usize]),
        };
        let asked = Asked::new(&mut rng, &draft);
        let [double, alone] = check_lines(&mut rng, &draft, &asked)
            .map_err(|trouble| failed(seed, index, &trouble, &asked))?;
        plans += (double.0 == 0) as usize;
        others += (double.0 == 0 && double.2 != alone.2) as usize;
        lost += (double.0 == 13 && alone.0 == 0) as usize;
    }
    let counts = format!(
        "{jobs} jobs, {plans} with a plan, {others} with another than without the second bucket, \
         {lost} with none for it"
    );
    let worthwhile = plans * 2 > jobs && others * 6 > jobs && lost * 100 > jobs;
    ensure!(worthwhile || !asks, "too little in it: {counts}");
    Ok(counts)
}

/// Gives what is planned with the second bucket and without it.
fn check_lines(rng: &mut Rng, draft: &Draft, asked: &Asked) -> Result<[PlannedNumbers; 2], String> {
    let order = rng.pick(&ORDERS);
    let of = |draft: &Draft| planned_numbers(order, &Asked::new(&mut Rng(1), draft));
    let (double, alone) = (of(draft), of(&draft.alone()));
    let (number, table, entries, values) = of(&draft.swapped());
    let job = &asked.job;
    let [width, second] = [0, 1].map(|at| job.buckets[at].size as usize + 1);
    let swapped = |at: usize| {
        let (row, l, m) = (at / (width * second), at / second % width, at % second);
        (row * second + m) * width + l
    };
    let turned: Vec<u32> = (0..table.len()).map(|at| table[swapped(at)]).collect();
    same("in the other order", (double.0, &double.2), (number, &entries))?;
    ensure!(double.1 == turned, "in the other order the table is another");
    let [d, s, c, first, last] = double.3[..] else { return Err("not five values".to_string()) };
    let turned = if number == 0 { vec![d, s, c, last, first] } else { vec![7; 5] };
    same("values in the other order", turned, values)?;

    // Its drain is the largest rate or more, so that no level rises.
    let most = draft.rates[draft.rates.len() - 1];
    let size = rng.from(0, 9);
    let drain = (most + rng.from(0, 3) as u16).max(1);
    let idle = [size as u16, drain, rng.from(0, size) as u16];
    let idle = of(&draft.doubled(idle.map(|number| number.min(4095))));
    same("with an idle bucket", (alone.0, &alone.2), (idle.0, &idle.2))?;
    let repeated: Vec<u32> = alone.1.iter().flat_map(|&word| vec![word; size + 1]).collect();
    ensure!(repeated == idle.1, "with an idle bucket the table is another");
    same("values with an idle bucket", &alone.3[..], &idle.3[..4])?;

    let [size, drain, start] = BUCKET_FIELDS[0].map(|field| draft.header[field]);
    let twice = of(&draft.doubled([size, drain, start]));
    same("with a bucket twice", (alone.0, &alone.2), (twice.0, &twice.2))?;
    let again = [&alone.3[..], &alone.3[3..]].concat();
    same("values with a bucket twice", again, twice.3)?;
    // No less distortion than without it.
    let worse = alone.0 == 0 && (double.0 == 13 || double.3[0] >= alone.3[0]);
    ensure!(worse || [alone.0, double.0] == [13, 13], "better with the second bucket");
    Ok([double, alone])
}

// ---------------------------------------------------------------------------
// Many choices.
// ---------------------------------------------------------------------------

/// The two bytes of a choice, worked out by hand: its lower one first.
fn two_bytes(choice: usize) -> [u8; 2] {
    [(choice % 256) as u8, (choice / 256) as u8]
}

/// Choices past 31 and past what a byte counts: made best, equal, pinned and lifted,
/// and entries of them.
fn thousand_group() -> Result<String, String> {
    let mut rng = Rng(1);
    let mut jobs = 0;
    for choice in EDGES {
        for (choices, delay) in [(choice + 1, 1), (MOST_CHOICES, 0)] {
            let what = format!("{choice} of {choices}, delay {delay}");
            let draft = chosen_among(choices, &[choice]).with(DELAY, delay);
            check_chosen(&mut rng, &draft, choice, 5).map_err(|t| format!("{what}: {t}"))?;
            // Where all are equal, the pinned one; lifted again, the first.
            let pin = [Pin(1, choice as u16), Lift(1)];
            let even = chosen_among(choices, &[]).with(DELAY, delay);
            for (made, due) in [(&pin[..1], choice), (&pin[..], 0)] {
                let draft = even.commanded(made);
                check_chosen(&mut rng, &draft, due, 9)
                    .map_err(|trouble| format!("{what}, {} calls: {trouble}", made.len()))?;
            }
            jobs += 3;
        }
        for other in EDGES.into_iter().filter(|other| *other > choice) {
            let what = format!("{choice} and {other} are equal");
            let draft = chosen_among(MOST_CHOICES, &[choice, other]);
            check_chosen(&mut rng, &draft, choice, 5).map_err(|t| format!("{what}: {t}"))?;
            let draft = draft.commanded(&[Pin(1, other as u16)]);
            check_chosen(&mut rng, &draft, other, 5)
                .map_err(|trouble| format!("{what}, the second pinned: {trouble}"))?;
            jobs += 2;
        }
    }
    check_pins_of_many(&mut rng)?;
    let entries = check_entries_of_many(&mut rng)?;
    // Two units, and every plan of theirs is tried.
    for (choices, places) in [(300, [255, 299]), (MOST_CHOICES, [999, 256])] {
        let mut units = vec![vec![(2, 9); choices]; 2];
        (units[0][places[0]], units[1][places[1]]) = ((2, 3), (1, 4));
        let draft = Draft::new([0, 2, 2, 1, 0, 0], &[2], &units);
        let asked = Asked::new(&mut rng, &draft);
        let all = enumerate(&asked.job, &asked.pins).best;
        same("two units", both(vec![(0, places[0]), (0, places[1])]), all.clone())?;
        check_plan(&mut rng, &asked, &fast_table(&asked.job, &asked.pins), &all)?;
        jobs += 1;
    }
    Ok(format!("{jobs} jobs by hand, {entries} plans"))
}

/// `chosen_among`, of which this choice is to be made, at this distortion. The unit takes
/// 2. Late its interval sends them, and the one before it, if there is one, nothing; early
/// the first interval sends them.
fn check_chosen(rng: &mut Rng, draft: &Draft, choice: usize, distortion: u64) -> Checked {
    let asked = Asked::new(rng, draft);
    let delay = asked.job.delay;
    let [low, high] = two_bytes(choice);
    let table = brute_table(&asked.job, &asked.pins);
    let best = enumerate(&asked.job, &asked.pins).best;
    for order in ORDERS {
        let mut entries = vec![[0, 255, 255]; delay];
        entries.push([0, low, high]);
        entries[if order == Order::Early { 0 } else { delay }][0] = 1;
        let mut lent = PlanLists::new(rng, asked.needs().map(|need| need + 4));
        same("plan", 0, lent.plan(order, &asked.bytes, &asked.calls))?;
        lent.entries.wrote("entries by hand", &entries.concat())?;
        let unused = 4095 * delay as u64 + 4093;
        lent.values.wrote("values by hand", &[distortion, 2, 2, unused])?;
        let plan = plan_in(order, &best).as_ref().map_or(vec![], plan_bytes);
        same("all plans", entries.concat(), plan)?;
    }
    check_plan(rng, &asked, &table, &best)?;
    check_typed(&asked, &table, &best)
}

/// What calls meet with in a job of 300 choices and one of 1,000: choice c takes c / 100
/// grains at a distortion of 2 c.
fn check_pins_of_many(rng: &mut Rng) -> Checked {
    let rows: [(usize, &[[u16; 3]], &[u8], [u64; 3]); 14] = [
        (300, &[[6, 1, 254]], &[0], [1, 2, 508]),
        (300, &[[6, 1, 255]], &[0], [1, 2, 510]),
        (300, &[[6, 1, 256]], &[0], [1, 2, 512]),
        (300, &[[6, 1, 299], [6, 2, 44]], &[0, 0], [2, 2, 686]),
        // 255 is a pin: it is there a second time, and can be lifted once.
        (300, &[[6, 1, 255], [6, 1, 255]], &[0, 9], [1, 2, 510]),
        (300, &[[6, 1, 255], [7, 1, 0], [7, 1, 0]], &[0, 0, 10], [0; 3]),
        (300, &[[6, 1, 255], [7, 1, 255], [6, 1, 256]], &[0, 0, 0], [1, 2, 512]),
        // Of these the lower byte is a choice; the last are near the mark, or it.
        (300, &[[6, 1, 300], [6, 1, 512], [6, 1, 555]], &[8, 8, 8], [0; 3]),
        (300, &[[6, 1, 0xff00], [6, 1, 0xff2b]], &[8, 8], [0; 3]),
        (300, &[[6, 1, 65_534], [6, 1, 65_535]], &[8, 8], [0; 3]),
        (300, &[[6, 1, 255], [6, 1, 65_535], [7, 1, 0]], &[0, 8, 0], [0; 3]),
        (1000, &[[6, 1, 999], [6, 2, 256]], &[0, 0], [2, 11, 2510]),
        (1000, &[[6, 1, 1000], [6, 2, 65_535]], &[8, 8], [0; 3]),
        (1000, &[[6, 1, 999], [6, 1, 231], [7, 1, 0]], &[0, 9, 0], [0; 3]),
    ];
    for (choices, calls, answers, totals) in rows {
        let unit: Vec<(u16, u32)> =
            (0..choices).map(|choice| ((choice / 100) as u16, 2 * choice as u32)).collect();
        let draft = Draft::new(BARE, &[0], &[unit.clone(), unit]);
        check_totals(rng, &draft, calls, answers, totals)
            .map_err(|trouble| format!("{choices} choices, calls {calls:?}: {trouble}"))?;
    }
    Ok(())
}

/// Plans of a job of 300 choices with a delay of 1, in which 255 has a distortion of 5
/// and all others have 9. Gives the number of plans.
fn check_entries_of_many(rng: &mut Rng) -> Result<usize, String> {
    const REFUSED: u64 = 0;
    let draft = chosen_among(300, &[255]).with(DELAY, 1);
    // Each line: a plan, and its distortion or `REFUSED`.
    let rows: [(&[u8], u64); 29] = [
        (&[0, 255, 255, 1, 255, 0], 5),
        (&[0, 255, 255, 1, 254, 0], 9),
        (&[0, 255, 255, 1, 0, 1], 9),
        (&[0, 255, 255, 1, 43, 1], 9),
        (&[0, 255, 255, 1, 0, 0], 9),
        // 300, 512, 767, 65,280, 65,534 and the mark.
        (&[0, 255, 255, 1, 44, 1], REFUSED),
        (&[0, 255, 255, 1, 0, 2], REFUSED),
        (&[0, 255, 255, 1, 255, 2], REFUSED),
        (&[0, 255, 255, 1, 0, 255], REFUSED),
        (&[0, 255, 255, 1, 254, 255], REFUSED),
        (&[0, 255, 255, 1, 255, 255], REFUSED),
        // In the delay only the mark: not the former one, not half of it.
        (&[0, 255, 0, 1, 255, 0], REFUSED),
        (&[0, 0, 255, 1, 255, 0], REFUSED),
        (&[0, 254, 255, 1, 255, 0], REFUSED),
        (&[0, 255, 254, 1, 255, 0], REFUSED),
        (&[0, 0, 0, 1, 255, 0], REFUSED),
        (&[0, 1, 0, 1, 255, 0], REFUSED),
        // Rates.
        (&[2, 255, 255, 1, 255, 0], REFUSED),
        (&[0, 255, 255, 2, 255, 0], REFUSED),
        (&[255, 255, 255, 1, 255, 0], REFUSED),
        (&[0, 255, 255, 255, 255, 0], REFUSED),
        // A byte, two and three short or more, and two bytes an entry.
        (&[0, 255, 255, 1, 255], REFUSED),
        (&[0, 255, 255, 1], REFUSED),
        (&[0, 255, 255], REFUSED),
        (&[], REFUSED),
        (&[0, 255, 255, 1, 255, 0, 0], REFUSED),
        (&[0, 255, 255, 1, 255, 0, 0, 0], REFUSED),
        (&[0, 255, 255, 1, 255, 0, 1, 255, 0], REFUSED),
        (&[0, 255, 1, 255], REFUSED),
    ];
    for (entries, distortion) in rows {
        let what = format!("entries {entries:?}");
        let asked = Asked::new(rng, &draft);
        let mut check = || -> Checked {
            match read_plan(&asked.job, entries) {
                Ok(plan) => {
                    let totals = totals_of(&asked, &plan).ok_or("not admissible")?;
                    same("distortion by hand", distortion, totals[0])?;
                    check_replay_of(rng, &asked, &plan, entries)?;
                    check_report(rng, &asked, &plan)
                }
                Err(number) => {
                    same("by hand", (REFUSED, 14), (distortion, number))?;
                    check_no_plan(rng, &asked, entries)
                }
            }
        };
        check().map_err(|trouble| format!("{what}: {trouble}"))?;
    }
    // A pin is held by its own choice alone, not by one with the same lower byte.
    for (pinned, chosen) in [(255, 511), (0, 256), (256, 0), (999, 231), (231, 999), (999, 999)] {
        let draft = chosen_among(MOST_CHOICES, &[]).commanded(&[Pin(1, pinned as u16)]);
        let asked = Asked::new(rng, &draft);
        let plan = vec![(1, chosen)];
        let due = if pinned == chosen { 0 } else { NOT_HELD };
        same("held by hand", due, follow(&asked.job, &asked.pins, &plan).values[0])?;
        check_replay(rng, &asked, &plan)
            .map_err(|trouble| format!("{pinned} pinned, {chosen} chosen: {trouble}"))?;
    }
    Ok(rows.len() + 6)
}

/// Every number that two bytes can hold as a choice: in an entry, in the delay, and in a
/// pin. Then every choice as the best one.
fn every_choice_group() -> Result<String, String> {
    let mut rng = Rng(1);
    let mut asked_of = 0;
    for choices in [1, 2, 31, 32, 255, 256, 257, 300, MOST_CHOICES] {
        // Every choice can be had without a grain sent, and has its own distortion.
        let unit: Vec<(u16, u32)> =
            (0..choices).map(|choice| (choice as u16 % 3, 100 + 7 * choice as u32)).collect();
        let draft = Draft::new([0, 2, 0, 9, 2, 0], &[0, 2], &[unit]);
        let asked = [0, 1].map(|delay| Asked::new(&mut rng, &draft.with(DELAY, delay)));
        // All of them; or those near the choices and near the mark, and some others.
        let [near, step] = match (small(), choices) {
            (true, _) => [64, 2111],
            (false, MOST_CHOICES) => [2048, 7],
            _ => [0, 1],
        };
        let numbers = (0..near).chain(EDGES).chain((near..65_536).step_by(step));
        for number in numbers.chain(65_536 - near..65_536) {
            check_number(&asked, number)
                .map_err(|trouble| format!("{choices} choices, {number}: {trouble}"))?;
            asked_of += 1;
        }
    }
    let mut plans = 0;
    for choices in [31, 32, 255, 256, 257, MOST_CHOICES] {
        let job = chosen_among(choices, &[]).bytes();
        for choice in (0..choices).step_by(if small() { 101 } else { 1 }) {
            // The first distortion stands behind the header, the rates, the unit's head
            // and a size: 22 + 8 + 4 + 2.
            let job = patched(&job, 36 + 6 * choice, &5_u32.to_le_bytes());
            let (mut table, mut entries, mut values) = ([7; 8], [7; 3], [7; 4]);
            let lent = (&mut table, &mut entries, &mut values);
            let order = [EARLY, LATE][choice % 2];
            let found = numbers::plan(&job, &[], TOTAL, order, &mut [], lent.0, lent.1, lent.2);
            let [low, high] = two_bytes(choice);
            let what = format!("{choice} of {choices} is best");
            same(&what, (0, [1, low, high], [5, 2, 2, 4093]), (found, entries, values))?;
            plans += 1;
        }
    }
    Ok(format!("{asked_of} numbers, {plans} plans"))
}

/// The number as a choice of the job without a delay and as what that with one has in its
/// delay.
fn check_number([asked, waiting]: &[Asked; 2], number: usize) -> Checked {
    let codings = &asked.job.units[0];
    let due = codings.get(number).map(|choice| [choice.grains, choice.distortion]);
    let [low, high] = two_bytes(number);
    let (mut levels, mut values) = ([7; 2], [7; 6]);
    let found = numbers::replay(&asked.bytes, &[], &[0, low, high], &mut levels, &mut values);
    let due_values = due.map(|[grains, distortion]| [0, 0, distortion as u64, grains as u64, 0, 9]);
    let refused = |held: bool, number| if held { 0 } else { number };
    same("replay", refused(due.is_some(), 14), found)?;
    same("values of replay", due_values.unwrap_or([7; 6]), values)?;
    same("levels", due.map_or([7; 2], |[grains, _]| [2 - grains as u16, 0]), levels)?;
    let mut sums = [7; 2];
    let found = numbers::report(&asked.bytes, &[0, low, high], &mut sums);
    same("report", refused(due.is_some(), 14), found)?;

    let (mut answers, mut values) = ([7], [7; 3]);
    let found = numbers::calls(&asked.bytes, &[6, 1, number as u16], &mut answers, &mut values);
    same("calls", 0, found)?;
    let pinned = due.map(|[grains, distortion]| [1, grains as u64, distortion as u64]);
    same("answer", refused(due.is_some(), 8) as u8, answers[0])?;
    same("pins", pinned.unwrap_or([0; 3]), values)?;

    let (mut levels, mut values) = ([7; 4], [7; 6]);
    let entries = [0, low, high, 0, 0, 0];
    let found = numbers::replay(&waiting.bytes, &[], &entries, &mut levels, &mut values);
    same("replay in the delay", refused(number == NO_CHOICE, 14), found)
}

const MANY_JOBS: TellingJobs = TellingJobs {
    shapes: &MANY,
    jobs: [240, 90, 9],
    make: random_many_job,
    mistakes: [&[choice_mistakes]; 3],
    bold: 8,
};

/// Jobs of up to 1,000 choices, and plans of them with choices past a byte's range.
fn many_group(seed: u64, asks: bool) -> Result<String, String> {
    let (mut clean, mut high) = (0, 0);
    let see = |asked: &Asked, plan: &Plan| {
        if totals_of(asked, plan).is_some() {
            clean += 1;
            high += plan[asked.job.delay..].iter().any(|entry| entry.1 > 255) as usize;
        }
    };
    let telling = telling_jobs(seed, &MANY_JOBS, see)?;
    let text = format!("{}: {clean} clean, of which {high} have a choice over 255", telling.show());
    ensure!(telling.worthwhile(&[clean, high]) || !asks, "too little in it: {text}");
    Ok(text)
}

/// Jobs of few choices or many, whose plans the next groups harm. Some never drain.
fn random_planned_job(rng: &mut Rng) -> Draft {
    let draft = match rng.from(1, 6) {
        1 => random_many_job(rng, &MANY[0]),
        2 => random_tiny_double(rng),
        // As many choices as plans of two bytes had, or one more.
        3 => {
            let units = rng.from(1, 3);
            let choices = rng.from(31, 32);
            let units: Vec<Vec<(u16, u32)>> = (0..units)
                .map(|_| (0..choices).map(|_| (rng.from(0, 3) as u16, 1)).collect())
                .collect();
            let delay = rng.from(0, 2) as u16;
            Draft::new([delay, 9, 9, 2, 0, 0], &[0, 1, 2], &units)
        }
        _ => random_job(rng, &TINY),
    };
    random_stored(rng, &draft, 4)
}

/// Changes something in a plan's bytes, mostly in a choice of so many, where an entry has
/// so many bytes.
fn harm_plan(rng: &mut Rng, entries: &mut Vec<u8>, choices: usize, each: usize) {
    if entries.len() < each || rng.one_in(4) {
        return harm(rng, entries);
    }
    let at = each * rng.from(0, entries.len() / each - 1);
    let number = match rng.from(1, 4) {
        1 => 65_535 - rng.pick(&[0, 0, 1, 255, 256]),
        2 => rng.pick(&[0, 30, 31, 32, 254, 255, 256, 257, 299, 512, 999, 1000, 1023, 65_279]),
        _ => rng.from(0, choices - 1),
    };
    let choice = two_bytes(number);
    entries[at + 1..at + each].copy_from_slice(&choice[..each - 1]);
    if rng.one_in(8) {
        entries[at] = rng.pick(&[0, 1, 2, 3, 15, 16, 255]);
    }
}

/// Plans with harmed bytes: they are replayed and reported as what they have become, or
/// are no plan.
fn harmed_plans_group(seed: u64, asks: bool) -> Result<String, String> {
    let mut rng = Rng(seed);
    let (mut plans, mut clean, mut others) = (0, 0, 0);
    let inputs = scaled(20_000);
    for index in 1..=inputs {
        let draft = random_planned_job(&mut rng);
        let asked = Asked::new(&mut rng, &draft);
        let plan = random_plan(&mut rng, &asked.job, &asked.pins);
        let mut entries = plan_bytes(&plan);
        for _ in 0..rng.pick(&[1, 1, 1, 2, 3]) {
            harm_plan(&mut rng, &mut entries, asked.job.choices(), ENTRY_BYTES);
        }
        entries.shrink_to_fit();
        let mut check = || -> Checked {
            let Ok(read) = read_plan(&asked.job, &entries) else {
                return check_no_plan(&mut rng, &asked, &entries);
            };
            plans += 1;
            others += (read != plan) as usize;
            clean += totals_of(&asked, &read).is_some() as usize;
            check_replay_of(&mut rng, &asked, &read, &entries)?;
            check_report(&mut rng, &asked, &read)
        };
        let named = |trouble: String| format!("{trouble}\n  entries {}", hex(&entries));
        check().map_err(named).map_err(|trouble| failed(seed, index, &trouble, &asked))?;
    }
    let counts = format!("{inputs} inputs: {plans} plans, {others} other ones, {clean} clean");
    let worthwhile = plans * 10 > inputs && others * 10 > inputs && clean * 50 > inputs;
    ensure!(worthwhile && plans * 4 < inputs * 3 || !asks, "too little in it: {counts}");
    Ok(counts)
}

// ---------------------------------------------------------------------------
// Stored plans of two bytes an interval.
// ---------------------------------------------------------------------------

/// Has a stored plan turned, to a list of this length, and compares all that it holds
/// afterwards. Gives the number due.
fn check_turn(rng: &mut Rng, asked: &Asked, old: &[u8], room: usize) -> Result<Refusal, String> {
    let due = turn(&asked.job, old, room);
    let number = due.as_ref().err().copied().unwrap_or(0);
    let mut entries = Lent::new(rng, room);
    same("turn", number as u32, numbers::turn(&asked.bytes, old, entries.list()))?;
    let written = due.unwrap_or_default();
    entries.wrote("entries of turning", &written)?;

    let mut entries = Lent::new(rng, room);
    let found = upload_planner::turn(&asked.bytes, old, entries.list());
    let typed = if number > 0 { Err(number as u32) } else { Ok(()) };
    same("typed turning", typed, found.map_err(|refusal| refusal.number()))?;
    entries.wrote("entries of typed turning", &written)?;
    Ok(number)
}

/// The same to lists that are just enough, somewhat more, and too short; and of what was a
/// plan, that the entries are replayed under the calls as it was. Gives the plan, if there
/// was one.
fn check_turned(rng: &mut Rng, asked: &Asked, old: &[u8]) -> Result<Option<Plan>, String> {
    let plan = read_former(&asked.job, old).ok();
    let need = ENTRY_BYTES * asked.intervals();
    let [was, short] = if plan.is_some() { [0, 12] } else { [14, 14] };
    let more = rng.from(1, 9);
    for (room, due) in [(need, was), (need + more, was), (need - 1, short)] {
        let found = check_turn(rng, asked, old, room)?;
        same(&format!("number for {room} bytes"), due, found)?;
    }
    let less = rng.from(0, need - 1);
    same("number for fewer bytes", short, check_turn(rng, asked, old, less)?)?;
    let owned = upload_planner::turned(&asked.bytes, old).map_err(|refusal| refusal.number());
    let Some(plan) = plan else {
        same("owned turning", Err(14), owned)?;
        return Ok(None);
    };
    let entries = owned.map_err(|number| format!("owned turning: {number}"))?;
    same("entries by name", typed_entries(&plan), Entry::each(&entries).collect())?;
    check_replay_of(rng, asked, &plan, &entries)?;
    Ok(Some(plan))
}

/// Plans turned, and bytes that were no plan, by hand.
fn turning_group() -> Result<String, String> {
    let mut rng = Rng(1);
    let a = job_a();
    let double = a.doubled(SECOND_A);
    let no_delay = a.with(DELAY, 0);
    // As many rates and choices as a plan of two bytes had; one choice more; more yet.
    let of = |choices: usize| {
        let unit = (0..choices).map(|choice| (choice as u16 % 3, choice as u32)).collect();
        let rates: Vec<u16> = (0..16).collect();
        Draft::new([1, 9, 9, 9, 0, 0], &rates, &[unit])
    };
    const NONE: &[u8] = &[];
    // Each line: the job, what was stored, and what it is turned into or `NONE`.
    let rows: [(&Draft, &[u8], &[u8]); 46] = [
        // The best plan; that of 42 from document 01, which the decoder does not hold any
        // more; plans with other violations. Turning asks for none of it.
        (&a, &[0, 255, 2, 0, 1, 1], &[0, 255, 255, 2, 0, 0, 1, 1, 0]),
        (&a, &[1, 255, 1, 1, 2, 0], &[1, 255, 255, 1, 1, 0, 2, 0, 0]),
        (&a, &[2, 255, 2, 1, 0, 0], &[2, 255, 255, 2, 1, 0, 0, 0, 0]),
        (&a, &[0, 255, 0, 1, 0, 1], &[0, 255, 255, 0, 1, 0, 0, 1, 0]),
        (&a, &[2, 255, 0, 0, 0, 0], &[2, 255, 255, 0, 0, 0, 0, 0, 0]),
        (&double, &[0, 255, 2, 0, 1, 1], &[0, 255, 255, 2, 0, 0, 1, 1, 0]),
        (&no_delay, &[0, 0, 2, 1], &[0, 0, 0, 2, 1, 0]),
        (&no_delay, &[2, 1, 1, 0], &[2, 1, 0, 1, 0, 0]),
        // Lengths; three bytes an entry are none of the former shape.
        (&a, &[], NONE),
        (&a, &[0, 255, 2, 0, 1], NONE),
        (&a, &[0, 255, 2, 0], NONE),
        (&a, &[0, 255], NONE),
        (&a, &[0, 255, 2, 0, 1, 1, 1], NONE),
        (&a, &[0, 255, 2, 0, 1, 1, 1, 1], NONE),
        (&a, &[0, 255, 255, 2, 0, 0, 1, 1, 0], NONE),
        (&a, &[0, 255, 0, 255, 2, 0, 1, 1], NONE),
        (&no_delay, &[0, 0, 2, 1, 0, 1], NONE),
        // Rates.
        (&a, &[3, 255, 2, 0, 1, 1], NONE),
        (&a, &[0, 255, 3, 0, 1, 1], NONE),
        (&a, &[0, 255, 2, 0, 3, 1], NONE),
        (&a, &[255, 255, 2, 0, 1, 1], NONE),
        (&a, &[0, 255, 2, 0, 255, 1], NONE),
        // Choices in the delay.
        (&a, &[0, 0, 2, 0, 1, 1], NONE),
        (&a, &[0, 1, 2, 0, 1, 1], NONE),
        (&a, &[0, 254, 2, 0, 1, 1], NONE),
        // Choices out of range, and no choice, behind it.
        (&a, &[0, 255, 2, 2, 1, 1], NONE),
        (&a, &[0, 255, 2, 0, 1, 2], NONE),
        (&a, &[0, 255, 2, 255, 1, 1], NONE),
        (&a, &[0, 255, 2, 0, 1, 255], NONE),
        (&a, &[0, 255, 2, 254, 1, 1], NONE),
        (&a, &[255, 0, 0, 2, 1, 1], NONE),
        (&no_delay, &[0, 255, 2, 1], NONE),
        (&no_delay, &[0, 0, 2, 255], NONE),
        // The ends of the ranges.
        (&of(31), &[15, 255, 15, 30], &[15, 255, 255, 15, 30, 0]),
        (&of(31), &[0, 255, 0, 0], &[0, 255, 255, 0, 0, 0]),
        (&of(31), &[0, 255, 16, 30], NONE),
        (&of(31), &[16, 255, 0, 30], NONE),
        (&of(31), &[0, 255, 0, 31], NONE),
        (&of(1), &[7, 255, 8, 0], &[7, 255, 255, 8, 0, 0]),
        (&of(1), &[7, 255, 8, 1], NONE),
        // Jobs that had no such plan.
        (&of(32), &[0, 255, 0, 0], NONE),
        (&of(32), &[15, 255, 15, 31], NONE),
        (&of(32), &[0, 255, 255, 0, 0, 0], NONE),
        (&of(256), &[0, 255, 0, 255], NONE),
        (&of(300), &[0, 255, 0, 30], NONE),
        (&of(1000), &[0, 255, 0, 0], NONE),
    ];
    for (row, (draft, old, due)) in (1..).zip(rows) {
        let asked = Asked::new(&mut rng, draft);
        let what = format!("line {row}, stored {old:?}");
        let found = turn(&asked.job, old, usize::MAX).unwrap_or_default();
        same(&what, due, &found)?;
        check_turned(&mut rng, &asked, old).map_err(|trouble| format!("{what}: {trouble}"))?;
    }
    // What the replays come to, and a pin that one of them does not hold.
    for (calls, old, levels, named) in [
        (vec![], [0, 255, 2, 0, 1, 1], &LEVELS_A[..], &[0, 0, 50, 6, 6, 2]),
        (vec![6, 1, 1], [0, 255, 2, 0, 1, 1], &[0, 0], &[NOT_HELD, 2, 0, 0, 0, 0]),
        (vec![], [1, 255, 1, 1, 2, 0], &[2, 0, 2, 0], &[OVER, 3, 0, 0, 0, 0]),
        (vec![6, 2, 1], [1, 255, 1, 1, 2, 0], &[2, 0, 2, 0], &[OVER, 3, 0, 0, 0, 0]),
        (vec![], [0, 255, 0, 1, 0, 1], &[0, 0], &[SHORT, 2, 0, 0, 0, 0]),
    ] {
        let job = a.bytes();
        let entries = upload_planner::turned(&job, &old).map_err(|refusal| refusal.to_string())?;
        let (mut reached, mut values) = (Lent::new(&mut rng, 6), Lent::new(&mut rng, 6));
        let found = numbers::replay(&job, &calls, &entries, reached.list(), values.list());
        same("replay by hand", 0, found)?;
        reached.wrote("levels by hand", levels)?;
        values.wrote("values by hand", named)?;
    }
    // The longest plan, of which each interval has another entry, on a line that never
    // drains.
    let units = vec![vec![(0, 0); 31]; 512];
    let rates: Vec<u16> = (0..16).collect();
    let asked = Asked::new(&mut rng, &Draft::new([64, 0, 0, 0, 0, 0], &rates, &units));
    let entry = |t: usize| (t % 16, if t < 64 { NO_CHOICE } else { t % 31 });
    let plan: Plan = (0..576).map(entry).collect();
    let old = former_bytes(&plan);
    same("bytes of the longest plan", (1152, 1728), (old.len(), plan_bytes(&plan).len()))?;
    same("the longest plan", Some(plan), check_turned(&mut rng, &asked, &old)?)?;
    Ok(format!("{} plans by hand", rows.len() + 6))
}

/// In how many ways `check_turning_order` has a wrong plan and a list too short.
const TURN_DEFECTS: [usize; 2] = [11, 4];

/// Every set of defects at once, each in each of its ways, of a job of the first five
/// numbers, a job of 32 choices, the plan and the list.
fn turning_order_group() -> Result<String, String> {
    let mut rng = Rng(1);
    let mut sets = 0;
    let lines = [job_a(), job_a().doubled(SECOND_A)];
    for (a, wrong) in lines.iter().flat_map(|a| (0..=5).map(move |wrong| (a, wrong))) {
        for bits in 0..1 << 3 {
            let has: [bool; 3] = std::array::from_fn(|bit| bits >> bit & 1 == 1);
            for number in 0..TURN_DEFECTS.iter().product() {
                let way = [number % TURN_DEFECTS[0], number / TURN_DEFECTS[0]];
                check_turning_order(&mut rng, a, wrong, has, way).map_err(|trouble| {
                    format!("job {wrong}, defects {has:?} in ways {way:?}: {trouble}")
                })?;
                sets += 1;
            }
        }
    }
    Ok(format!("{sets} sets of defects"))
}

fn check_turning_order(
    rng: &mut Rng,
    a: &Draft,
    wrong: Refusal,
    [many, shape, short]: [bool; 3],
    way: [usize; 2],
) -> Checked {
    let mut draft = a.clone();
    if many {
        draft.header[CHOICES] = 32;
        draft.units.iter_mut().for_each(|unit| unit.resize(32, (1, 1)));
    }
    let job = wrong_job(&draft, wrong);
    let mut old = vec![0, 255, 2, 0, 1, 1];
    if shape {
        match way[0] {
            0 => old.clear(),
            1 => old.truncate(5),
            2 => old.push(1),
            3 => old = LATE_A.to_vec(),
            4 => old[0] = 3,
            5 => old[4] = 3,
            6 => old[1] = 0,
            7 => old[1] = 254,
            8 => old[3] = 32,
            9 => old[5] = 255,
            _ => old[3] = 255,
        }
    }
    old.shrink_to_fit();
    let room = if short { [8, 6, 1, 0][way[1]] } else { 9 + way[1] };
    let mut entries = Lent::new(rng, room);
    let due = first_of(&[(wrong > 0, wrong), (many, 14), (shape, 14), (short, 12)]);
    same("turn", due, numbers::turn(&job, &old, entries.list()))?;
    entries.wrote("entries", if due == 0 { &LATE_A } else { &[] })
}

/// Every plan of tiny jobs, and every pair of bytes that a job of one interval could have
/// stored; of one of two intervals, every two of its bytes.
fn former_plans_group() -> Result<String, String> {
    let mut rng = Rng(1);
    let (mut plans, mut strings, mut held) = (0, 0, 0);
    for (units, delay, rates, choices) in
        [(1, 0, 1, 1), (1, 2, 3, 3), (2, 1, 3, 2), (2, 0, 2, 5), (3, 0, 2, 2), (1, 1, 4, 31)]
    {
        let unit: Vec<(u16, u32)> = (0..choices).map(|c| (c % 4, 1 + c as u32)).collect();
        let rates: Vec<u16> = (0..rates).collect();
        let draft = Draft::new([delay, 3, 2, 1, 1, 0], &rates, &vec![unit; units]);
        let first = |t| (0, if t > delay { 0 } else { NO_CHOICE });
        let mut plan: Plan = (1..=units as u16 + delay).map(first).collect();
        loop {
            // Pins of all kinds, and none.
            let mut draft = draft.clone();
            draft.commands = random_commands(&mut rng, &draft, 2);
            let asked = Asked::new(&mut rng, &draft);
            let found = check_turned(&mut rng, &asked, &former_bytes(&plan));
            let found = found.map_err(|trouble| format!("{trouble}\n  {}", asked.show()))?;
            same("the plan turned", Some(&plan), found.as_ref())?;
            plans += 1;
            let jump = if small() { 60 } else { 1 };
            if !(0..jump).all(|_| next_plan(&asked.job, &mut plan)) {
                break;
            }
        }
    }
    for (rates, choices) in [(1, 1), (2, 3), (16, 31), (16, 32)] {
        let unit: Vec<(u16, u32)> = (0..choices).map(|c| (0, c)).collect();
        let draft = Draft::new([0; 6], &(0..rates).collect::<Vec<u16>>(), &[unit]);
        let jobs = [0, 1].map(|delay| Asked::new(&mut rng, &draft.with(DELAY, delay)));
        for two in (0..=0xffff_u16).step_by(if small() { 257 } else { 1 }) {
            let [one, other] = two.to_le_bytes();
            held += check_stored(&jobs[0], &[one, other])? as usize;
            strings += 1;
            for [from, to] in [[0, 1], [0, 2], [0, 3], [1, 2], [1, 3], [2, 3]] {
                let mut old = [0, 255, 0, 0];
                (old[from], old[to]) = (one, other);
                held += check_stored(&jobs[1], &old)? as usize;
                strings += 1;
            }
        }
    }
    let counts = format!("{plans} plans, {strings} strings of bytes, of which {held} were plans");
    ensure!(held > 0 && plans > 0, "too little in it: {counts}");
    Ok(counts)
}

/// Whether the bytes were a plan.
fn check_stored(asked: &Asked, old: &[u8]) -> Result<bool, String> {
    let due = turn(&asked.job, old, 6);
    let mut entries = [7; 6];
    let found = numbers::turn(&asked.bytes, old, &mut entries);
    let mut left = due.clone().unwrap_or_default();
    left.resize(6, 7);
    let number = due.as_ref().err().map_or(0, |number| *number as u32);
    ensure!(
        (number, &left[..]) == (found, &entries[..]),
        "stored {old:?}: due {number} {left:?}, instead {found} {entries:?}\n  {}",
        asked.show()
    );
    Ok(due.is_ok())
}

/// Random plans of all kinds of jobs, as they were stored, with pins that they hold or do
/// not hold.
fn turned_group(seed: u64, asks: bool) -> Result<String, String> {
    let mut rng = Rng(seed);
    let (mut tally, mut many) = ([0; 6], 0);
    let jobs = scaled(1200);
    for index in 1..=jobs {
        let draft = match index % 12 {
            0 => random_medium_double(&mut rng),
            1 if index % 60 == 1 => random_long_job(&mut rng),
            1..=3 => random_job(&mut rng, &MEDIUM),
            4 | 5 => random_tight_job(&mut rng, &TIGHT[0]),
            6 => random_double_job(&mut rng, &DOUBLE[1]),
            7 | 8 => random_tiny_double(&mut rng),
            9 | 10 => random_job(&mut rng, &Shape { choices: FORMER_CHOICES, ..TINY }),
            _ => random_job(&mut rng, &TINY),
        };
        let draft = random_stored(&mut rng, &draft, 4);
        let asked = Asked::new(&mut rng, &draft);
        for _ in 0..4 {
            let plan = random_plan(&mut rng, &asked.job, &asked.pins);
            let check = |rng: &mut Rng| -> Checked {
                let found = check_turned(rng, &asked, &former_bytes(&plan))?;
                same("the plan turned", Some(&plan), found.as_ref())
            };
            let named = |trouble: String| format!("{trouble}\n  plan {plan:?}");
            let checked = check(&mut rng).map_err(named);
            checked.map_err(|trouble| failed(seed, index, &trouble, &asked))?;
            tally[follow(&asked.job, &asked.pins, &plan).values[0] as usize] += 1;
            many += (asked.job.choices() > 8) as usize;
        }
    }
    let [clean, short, over, bucket, pin, second] = tally;
    let counts = format!(
        "{} plans: {clean} clean, {short} decoder short, {over} decoder over, {bucket} bucket \
         over, {second} second bucket over, {pin} pin not held; {many} of more than 8 choices",
        4 * jobs
    );
    let worthwhile = tally.iter().chain([&many]).all(|count| count * 50 > jobs);
    ensure!(worthwhile || !asks, "too little in it: {counts}");
    Ok(counts)
}

/// Stored plans with harmed bytes, also of jobs that had none.
fn harmed_stored_group(seed: u64, asks: bool) -> Result<String, String> {
    let mut rng = Rng(seed);
    let (mut plans, mut others, mut many) = (0, 0, 0);
    let inputs = scaled(20_000);
    for index in 1..=inputs {
        let draft = random_planned_job(&mut rng);
        let asked = Asked::new(&mut rng, &draft);
        let plan = random_plan(&mut rng, &asked.job, &asked.pins);
        let mut old = former_bytes(&plan);
        for _ in 0..rng.pick(&[0, 1, 1, 1, 2, 3]) {
            harm_plan(&mut rng, &mut old, asked.job.choices(), FORMER_BYTES);
        }
        if rng.one_in(50) {
            old = plan_bytes(&plan);
        }
        old.shrink_to_fit();
        let found = check_turned(&mut rng, &asked, &old);
        let named = |trouble: String| format!("{trouble}\n  stored {}", hex(&old));
        let found =
            found.map_err(named).map_err(|trouble| failed(seed, index, &trouble, &asked))?;
        plans += found.is_some() as usize;
        others += found.is_some_and(|found| found != plan) as usize;
        many += (asked.job.choices() > FORMER_CHOICES) as usize;
    }
    let counts = format!(
        "{inputs} inputs: {plans} were plans, {others} other ones; {many} of jobs of more than 31 \
         choices"
    );
    let worthwhile = [plans, others, many].iter().all(|count| count * 20 > inputs);
    ensure!(worthwhile && plans * 4 < inputs * 3 || !asks, "too little in it: {counts}");
    Ok(counts)
}

// ---------------------------------------------------------------------------
// Even pictures.
// ---------------------------------------------------------------------------

/// Numbers that name no aim: the nearest, and such as have a right one in their lower
/// byte, their lower two or three, or but for the highest bit.
const WRONG_AIMS: [u32; 12] =
    [2, 3, 7, 255, 4_294_967_295, 256, 257, 65_536, 65_537, 0x0100_0000, 0x8000_0000, 0x8000_0001];

fn typed_aim(aim: Aim) -> upload_planner::Aim {
    match aim {
        Aim::Total => upload_planner::Aim::Total,
        Aim::Even => upload_planner::Aim::Even,
    }
}

/// What planning for an aim is to leave, and to give in each order. Without a plan it is
/// refused with 13.
#[derive(Clone)]
struct Due {
    table: Vec<u32>,
    plans: Plans,
}

/// A table in which choices above the limit are left out, by plain loops over levels,
/// rates and choices.
fn loops_table(job: &Job, pins: &Pins, limit: i64) -> Vec<u32> {
    let mut table = vec![0; job.words()];
    let all_levels = job.all_levels();
    for t in (1..=job.intervals()).rev() {
        let unit = t.checked_sub(job.delay + 1);
        for decoder in 0..=job.decoder_size {
            for levels in &all_levels {
                let mut best = NEVER;
                let mut offer = |level: i64, after: &Levels, distortion: i64| {
                    let rest = table[job.word(t, level, after)];
                    if rest != NEVER {
                        best = best.min(rest + distortion as u32);
                    }
                };
                for &sent in &job.rates {
                    let peak = decoder + sent;
                    let Some(after) = filled(job, levels, sent) else { continue };
                    if peak > job.decoder_size {
                        continue;
                    }
                    let Some(unit) = unit else {
                        offer(peak, &after, 0);
                        continue;
                    };
                    for (index, choice) in job.units[unit].iter().enumerate() {
                        let held = pins[unit].map_or(true, |pinned| pinned == index);
                        if held && choice.distortion <= limit && choice.grains <= peak {
                            offer(peak - choice.grains, &after, choice.distortion);
                        }
                    }
                }
                table[job.word(t - 1, decoder, levels)] = best;
            }
        }
    }
    table
}

/// What is due for both aims, from tables alone: the limit goes below the greatest
/// distortion of the plan found, as long as there is another plan.
fn lowered(job: &Job, pins: &Pins) -> [Due; 2] {
    let within = |limit: i64| {
        let table = loops_table(job, pins, limit);
        let plans = read_off(&limited(job, limit), pins, &table);
        Due { table, plans }
    };
    let worst = |due: &Due| due.plans[0].as_ref().map(|plan| greatest(job, plan));
    let total = within(NO_LIMIT);
    let mut found = worst(&total);
    let Some(mut least) = found else { return [total.clone(), total] };
    while let Some(limit) = found {
        least = limit;
        found = worst(&within(limit - 1));
    }
    [total, within(least)]
}

/// Both aims in both orders, each in lists of its own and then in turn in the same lists;
/// and the typed functions.
fn check_aims(rng: &mut Rng, asked: &Asked, dues: &[Due; 2]) -> Checked {
    let there = [0, 1].map(|aim: usize| dues[aim].plans.each_ref().map(|plan| plan.is_some()));
    same("a plan for both aims, in both orders", [[there[0][0]; 2]; 2], there)?;
    check_calls(rng, asked)?;
    for (aim, Due { table, plans }) in AIMS.into_iter().zip(dues) {
        check_plan_for(aim, rng, asked, table, plans)
            .and_then(|_| check_typed_for(typed_aim(aim), asked, table, plans))
            .map_err(|trouble| format!("{aim:?}: {trouble}"))?;
    }
    let lengths = asked.needs().map(|need| need + 3);
    let mut lent = PlanLists::new(rng, lengths);
    for (which, order) in [(0, 0), (1, 0), (0, 1), (1, 1), (1, 0), (0, 0), (0, 1), (1, 1)] {
        let (Due { table, plans }, order) = (&dues[which], ORDERS[order]);
        let plan = plan_in(order, plans);
        let aim = AIMS[which].number();
        let number = lent.plan_for(aim, order.number(), &asked.bytes, &asked.calls);
        let what = format!("{:?}, {order:?} in lists that were lent before", AIMS[which]);
        same(&what, if plan.is_some() { 0 } else { 13 }, number)?;
        lent.table.wrote(&what, table)?;
        match plan {
            Some(plan) => lent.entries.wrote(&what, &plan_bytes(plan))?,
            None => lent.kept_but_table()?,
        }
    }
    Ok(())
}

/// Four grains lie in the decoder, and no more can come: a rate of 2 or 4 is over in a
/// bucket of size 0 and drain 1. In each interval that drain goes by unused.
fn four_grains(units: &[Vec<(u16, u32)>]) -> Draft {
    Draft::new([0, 4, 0, 1, 4, 0], &[0, 2, 4], units)
}

/// All four grains, two or none.
fn four_two_none() -> Vec<(u16, u32)> {
    vec![(4, 0), (2, 50), (0, 90)]
}

/// Two units that share four grains, by hand. All of them for one unit lose 0 + 90,
/// two for each 50 + 50: the least total is 90, and the choices 0, 2 come before 2, 0.
/// One of the units has fewer than four grains, so that the least greatest distortion
/// is 50, and only choices 1, 1 have it.
///
/// After interval 1 unit 2 has all of 4 grains, two of 2 or 3, or none. Without the
/// choice of 90 there is no completion from 0 or 1, and unit 1 must leave 2.
fn two_sharing() -> (Draft, [[usize; 2]; 2], [u64; 2], [[[u32; 5]; 3]; 2]) {
    let draft = four_grains(&[four_two_none(), four_two_none()]);
    let full = [[180, 180, 140, 140, 90], [90, 90, 50, 50, 0], [0; 5]];
    let even = [[NEVER, NEVER, NEVER, NEVER, 100], [NEVER, NEVER, 50, 50, 0], [0; 5]];
    (draft, [[0, 2], [1, 1]], [90, 100], [full, even])
}

/// A row of jobs by hand: what it is, the units that share four grains, the pins; for
/// the least total and for even pictures the choices and the distortion, or for none.
type SharedRow =
    (&'static str, Vec<Vec<(u16, u32)>>, Vec<Command>, Option<[(&'static [usize], u64); 2]>);

fn shared_rows() -> Vec<SharedRow> {
    let free = four_two_none;
    // Unit 1 may lose 900 or 1 and take nothing, or take all.
    let three = || vec![vec![(0, 900), (0, 1), (4, 0)], free(), free()];
    vec![
        ("aims that differ", vec![free(), free()], vec![], Some([(&[0, 2], 90), (&[1, 1], 100)])),
        // All that share the grains lose 100. Unit 1 at choice 0 loses 100 and leaves all for
        // unit 2, which loses nothing: the sum is that of the even plan, and the choice
        // is above its greatest.
        (
            "a choice above the greatest that adds up to the total",
            vec![vec![(0, 100), (2, 50), (4, 0)]; 2],
            vec![],
            Some([(&[0, 2], 100), (&[1, 1], 100)]),
        ),
        // Two units of three can have two grains. Where they are units 1 and 2, unit 3
        // loses 60, and the total is 9 + 9 + 60. Else it has two, at 20 or 30, and
        // one of the others loses 50. So the greatest is 50 at least. Of the plans that
        // have it 50 + 50 + 20 is more than 50 + 9 + 30, and this is more than
        // 50 + 9 + 20 and 9 + 50 + 20. In order, unit 1 at choice 0 comes before unit 1
        // at choice 1 or 2, which are the same; then unit 2 at 1 before unit 2 at 2.
        (
            "equal greatest, told by totals and then by order",
            vec![
                vec![(0, 50), (2, 9), (2, 9)],
                vec![(0, 50), (2, 9), (2, 9)],
                vec![(0, 60), (2, 20), (2, 30)],
            ],
            vec![],
            Some([(&[1, 1, 0], 78), (&[0, 1, 1], 79)]),
        ),
        // Unit 1 loses 900, so that no plan is more even than that, and the others are
        // to have the least total, 0 + 90, and not 50 + 50.
        (
            "a pin sets the greatest",
            three(),
            vec![Pin(1, 0)],
            Some([(&[0, 0, 2], 990), (&[0, 0, 2], 990)]),
        ),
        // Lifted, unit 1 loses 1 and takes nothing, and the others share four grains.
        (
            "a pin that set the greatest is lifted",
            three(),
            vec![Pin(1, 0), Lift(1)],
            Some([(&[1, 0, 2], 91), (&[1, 1, 1], 101)]),
        ),
        // Below the greatest a pin sets nothing.
        (
            "a pin below the greatest",
            three(),
            vec![Pin(1, 1)],
            Some([(&[1, 0, 2], 91), (&[1, 1, 1], 101)]),
        ),
        // Unit 1 takes all, and the others lose 90 each.
        (
            "a pin that leaves nothing",
            three(),
            vec![Pin(1, 2)],
            Some([(&[2, 2, 2], 180), (&[2, 2, 2], 180)]),
        ),
        // Unit 2 loses 50 by its pin and takes two; unit 3 has the other two, as without
        // them it loses 90, and unit 1 none.
        (
            "a pin at the greatest",
            three(),
            vec![Pin(2, 1)],
            Some([(&[1, 1, 1], 101), (&[1, 1, 1], 101)]),
        ),
        // One of the two loses 1,000,000; both plans that lose it once are as even as
        // the one that loses it twice.
        (
            "0 and 1,000,000",
            vec![vec![(0, 1_000_000), (4, 0)]; 2],
            vec![],
            Some([(&[0, 1], 1_000_000), (&[0, 1], 1_000_000)]),
        ),
        // 1,000,000 + 0 is less than 999,999 + 2.
        (
            "999,999 and 1,000,000",
            vec![vec![(4, 999_999), (0, 1_000_000)], vec![(4, 0), (0, 2)]],
            vec![],
            Some([(&[1, 0], 1_000_000), (&[0, 1], 1_000_001)]),
        ),
        ("0 alone", vec![vec![(0, 0), (2, 0)]; 2], vec![], Some([(&[0, 0], 0), (&[0, 0], 0)])),
        // Of 256 and more the lower byte is less: 255 is the greatest of choices 0, 0,
        // 256 that of 1, 1.
        (
            "255 and 256",
            vec![vec![(2, 255), (4, 1)], vec![(2, 255), (0, 256)]],
            vec![],
            Some([(&[1, 1], 257), (&[0, 0], 510)]),
        ),
        (
            "65,535 and 65,536",
            vec![vec![(2, 65_535), (4, 0)], vec![(2, 65_535), (0, 65_536)]],
            vec![],
            Some([(&[1, 1], 65_536), (&[0, 0], 131_070)]),
        ),
        // Eight grains are not there, whatever the aim.
        ("no plan", vec![free(), free()], vec![Pin(1, 0), Pin(2, 0)], None),
        ("no plan, a unit free", vec![free(); 3], vec![Pin(1, 0), Pin(2, 0)], None),
        ("no plan at all", vec![vec![(5, 0), (4095, 7)]], vec![], None),
    ]
}

fn even_by_hand_group() -> Result<String, String> {
    let mut rng = Rng(1);
    let rows = shared_rows();
    for (what, units, commands, due) in &rows {
        let one = four_grains(units).commanded(commands);
        // Nothing is sent, so that a second bucket stays as it is, and each word is
        // there for each of its levels.
        for draft in [one.clone(), one.doubled(SECOND_A)] {
            let asked = Asked::new(&mut rng, &draft);
            check_shared(&mut rng, &asked, due)
                .map_err(|trouble| format!("{what}: {trouble}\n  {}", asked.show()))?;
        }
    }
    let tables = check_even_tables(&mut rng)?;

    // Job A: unit 2 has no choice but 40, so that unit 1 is to lose as little as it
    // can. None of its choices loses more than 40: the table is the full one. Pinned
    // at choice 1, unit 1 loses 30, and the greatest is 40 still.
    for (known, commands) in known_lines().iter().flat_map(|known| [(known, 0), (known, 1)]) {
        let draft = known.draft.commanded(&[Pin(1, 1)][..commands]);
        let asked = Asked::new(&mut rng, &draft);
        let full = brute_table(&asked.job, &asked.pins);
        let entries = match commands {
            0 => [EARLY_A, LATE_A],
            _ => [[2, 255, 255, 0, 1, 0, 1, 1, 0], [0, 255, 255, 1, 1, 0, 1, 1, 0]],
        };
        let plans = entries.map(|entries| Some(read_plan(&asked.job, &entries).expect("a plan")));
        let due = Due { table: full, plans };
        check_aims(&mut rng, &asked, &[due.clone(), due])
            .map_err(|trouble| format!("Job A, {commands} pins: {trouble}"))?;
    }

    // One grain is there, and one may be sent. Either choice loses 5: without sending
    // the second alone can be had, with it the first too. The rate decides.
    let draft = Draft::new([0, 2, 0, 1, 1, 0], &[0, 1], &[vec![(2, 5), (1, 5)]]);
    let asked = Asked::new(&mut rng, &draft);
    let plans = [Some(vec![(1, 0)]), Some(vec![(0, 1)])];
    let due = Due { table: vec![5, 5, 5, 0, 0, 0], plans };
    check_aims(&mut rng, &asked, &[due.clone(), due]).map_err(|t| format!("rate first: {t}"))?;

    // 512 units at the largest distortion: a sum of 512,000,000.
    let units = vec![vec![(0, 1_000_000)]; 512];
    let asked = Asked::new(&mut rng, &four_grains(&units));
    let plan = vec![(0, 0); 512];
    same("512 units", Some(vec![512_000_000, 0, 0, 512]), totals_of(&asked, &plan))?;
    let table = (0..=512).rev().flat_map(|left| [left * 1_000_000; 5]).collect();
    let due = Due { table, plans: both(plan) };
    check_aims(&mut rng, &asked, &[due.clone(), due]).map_err(|t| format!("512 units: {t}"))?;

    same("the default", upload_planner::Aim::Total, upload_planner::Aim::default())?;
    let numbered = [numbers::TOTAL, numbers::EVEN];
    same("numbers of aims", [0, 1], numbered)?;
    same("aims by name", numbered, AIMS.map(|aim| typed_aim(aim).number()))?;
    Ok(format!("{} jobs, {tables} tables", 2 * rows.len() + 6))
}

/// Units that share four grains: both plans are those by hand, and so are their totals.
fn check_shared(
    rng: &mut Rng,
    asked: &Asked,
    due: &Option<[(&'static [usize], u64); 2]>,
) -> Checked {
    let plans =
        [enumerate(&asked.job, &asked.pins).best, enumerate_even(&asked.job, &asked.pins).best];
    for (which, plan) in plans.iter().enumerate().flat_map(|(n, of)| of.iter().map(move |p| (n, p)))
    {
        let due = due.map(|due| due[which]);
        let chosen = |plan: &Plan| plan.iter().map(|entry| entry.1).collect::<Vec<usize>>();
        same("choices", due.map(|due| due.0.to_vec()), plan.as_ref().map(chosen))?;
        let totals = plan.as_ref().and_then(|plan| totals_of(asked, plan));
        same("distortion", due.map(|due| due.1), totals.as_ref().map(|totals| totals[0]))?;
        let rates = plan.iter().flatten().map(|entry| entry.0).max();
        same("rates", due.map(|_| 0), rates)?;
    }
    let limit = plans[1][0].as_ref().map(|plan| greatest(&asked.job, plan));
    let tables = [None, limit].map(|limit| even_table(&asked.job, &asked.pins, limit));
    let [total, even] = plans;
    let [full, left] = tables;
    check_aims(rng, asked, &[Due { table: full, plans: total }, Due { table: left, plans: even }])
}

/// Tables by hand, for both aims, on lines of one bucket and of two.
fn check_even_tables(rng: &mut Rng) -> Result<usize, String> {
    const X: u32 = NEVER;
    let (sharing, _, _, tables) = two_sharing();
    // Unit 1 loses 900 by its pin and takes nothing, so that its words are those of unit
    // 2 and 900. Of unit 2 the choice at 900 stays, that at 901 goes.
    let units = [vec![(0, 900), (4, 0), (4, 0)], vec![(4, 3), (2, 900), (0, 901)]];
    let pinned = four_grains(&units).commanded(&[Pin(1, 0)]);
    // Unit 3 is free, and unit 2 takes four grains by its pin. No plan has eight.
    let none = four_grains(&[four_two_none(), four_two_none(), four_two_none()])
        .commanded(&[Pin(1, 0), Pin(2, 0)]);
    let without = vec![[X; 5], [X, X, X, X, 90], [90, 90, 50, 50, 0], [0; 5]];
    let rows: [(&str, Draft, [Vec<[u32; 5]>; 2]); 4] = [
        ("two sharing", sharing, tables.map(|table| table.to_vec())),
        (
            "a pin at 900",
            pinned,
            [
                vec![[1801, 1801, 1800, 1800, 903], [901, 901, 900, 900, 3], [0; 5]],
                vec![[X, X, 1800, 1800, 903], [X, X, 900, 900, 3], [0; 5]],
            ],
        ),
        ("no plan", none, [without.clone(), without]),
        // What loses nothing is all that stays.
        (
            "nothing lost",
            four_grains(&[vec![(0, 1), (4, 0)]]),
            [vec![[1, 1, 1, 1, 0], [0; 5]], vec![[X, X, X, X, 0], [0; 5]]],
        ),
    ];
    for (what, one, tables) in &rows {
        for (draft, times) in [(one.clone(), 1), (one.doubled(SECOND_A), 3)] {
            let asked = Asked::new(rng, &draft);
            let plans = [
                enumerate(&asked.job, &asked.pins).best,
                enumerate_even(&asked.job, &asked.pins).best,
            ];
            let limit = plans[1][0].as_ref().map(|plan| greatest(&asked.job, plan));
            let words = |table: &Vec<[u32; 5]>| -> Vec<u32> {
                table.concat().iter().flat_map(|&word| vec![word; times]).collect()
            };
            let [full, left] = [&tables[0], &tables[1]].map(words);
            let [total, even] = plans;
            let check = || -> Checked {
                same("full", &full, &even_table(&asked.job, &asked.pins, None))?;
                same("even", &left, &even_table(&asked.job, &asked.pins, limit))?;
                let dues = [Due { table: full, plans: total }, Due { table: left, plans: even }];
                check_aims(rng, &asked, &dues)
            };
            check().map_err(|trouble| format!("table of {what}: {trouble}"))?;
        }
    }
    Ok(4 * rows.len())
}

/// Every set of defects of planning, and each with every aim: a number that names none
/// is refused after the job's own numbers and before those of the calls, and so is one that
/// names no order. Nothing can be sent, so that both orders have the same plan.
fn aim_order_group() -> Result<String, String> {
    let mut rng = Rng(1);
    let mut sets = 0;
    let (one, choices, totals, tables) = two_sharing();
    for (draft, times) in [(one.clone(), 1), (one.doubled(SECOND_A), 3)] {
        let known = [0, 1].map(|aim| {
            let words = tables[aim].concat();
            let plan: Plan = choices[aim].iter().map(|&choice| (0, choice)).collect();
            let mut totals = vec![totals[aim], 4, 0, 2];
            totals.extend((times > 1).then_some(4));
            let table: Vec<u32> = words.iter().flat_map(|&word| vec![word; times]).collect();
            (table, plan_bytes(&plan), totals)
        });
        for wrong in 0..=5 {
            let job = wrong_job(&draft, wrong);
            for bits in (0..1 << 10).step_by(if small() { 13 } else { 1 }) {
                let has = |bit: usize| bits >> bit & 1 == 1;
                // In a small run one of the wrong numbers, in turn.
                let number = bits % WRONG_AIMS.len();
                let others = if small() { &WRONG_AIMS[number..=number] } else { &WRONG_AIMS[..] };
                for aim in [TOTAL, EVEN].iter().chain(others) {
                    let known = known.get(*aim as usize);
                    check_aim_order(&mut rng, &job, wrong, *aim, known, times, has).map_err(
                        |t| {
                            format!("{times} levels, job {wrong}, aim {aim}, defects {bits:b}: {t}")
                        },
                    )?;
                    sets += 1;
                }
            }
        }
    }
    Ok(format!("{sets} sets of defects"))
}

/// `known`: table, entries and values, where the aim is one.
fn check_aim_order(
    rng: &mut Rng,
    job: &[u8],
    wrong: Refusal,
    aim: u32,
    known: Option<&(Vec<u32>, Vec<u8>, Vec<u64>)>,
    times: usize,
    has: impl Fn(usize) -> bool,
) -> Checked {
    let [values, kind, cut, table, answers, entries, no_plan] = std::array::from_fn(&has);
    let by_all = has(7);
    let pins: [u16; 6] = if no_plan { [6, 1, 0, 6, 2, 0] } else { [6, 1, 1, 7, 1, 9] };
    let calls = faulty_calls(&pins, kind, cut, has(8));
    let count = if times > 1 { 5 } else { 4 };
    let lengths = [
        cut_to(2, answers, by_all),
        cut_to(15 * times, table, by_all),
        cut_to(6, entries, by_all),
        cut_to(count, values, by_all),
    ];
    let mut lent = PlanLists::new(rng, lengths);
    let wrong_order = has(9);
    let order = if wrong_order { rng.pick(&WRONG_AIMS) } else { rng.pick(&[EARLY, LATE]) };
    let due = first_of(&[
        (wrong > 0, wrong),
        (known.is_none(), 2),
        (wrong_order, 2),
        (kind, 2),
        (cut, 1),
        (table, 11),
        (answers, 12),
        (entries, 12),
        (values, 12),
        (no_plan, 13),
    ]);
    same(&format!("plan in order {order}"), due, lent.plan_for(aim, order, job, &calls))?;
    match (due, known) {
        (0, Some((table, entries, values))) => {
            lent.answers.wrote("answers", &[0, 0])?;
            lent.table.wrote("table", table)?;
            lent.entries.wrote("entries", entries)?;
            lent.values.wrote("values", values)
        }
        (13, _) => {
            // Both units take four grains; from the four that are there one can.
            let never = vec![NEVER; 9 * times];
            let full = [never, vec![0; 6 * times]].concat();
            lent.table.wrote("table", &full)?;
            lent.kept_but_table()
        }
        _ => lent.kept(),
    }
}

/// What came of planning for both aims.
#[derive(Default)]
struct Aimed {
    jobs: usize,
    plans: usize,
    /// Even pictures have another plan than the least total.
    differ: usize,
    /// A pinned unit loses more than every other.
    by_pin: usize,
    /// Words that are other than in the full table, and those among them that cannot be
    /// completed any more.
    words: usize,
    other: usize,
    lost: usize,
}

impl Aimed {
    fn count(&mut self, asked: &Asked, dues: &[Due; 2]) {
        let [total, even] = dues;
        self.jobs += 1;
        self.words += even.table.len();
        for (full, left) in total.table.iter().zip(&even.table) {
            self.other += (full != left) as usize;
            self.lost += (full != left && *left == NEVER) as usize;
        }
        let [Some(plan), _] = &even.plans else { return };
        self.plans += 1;
        self.differ += (even.plans != total.plans) as usize;
        let job = &asked.job;
        let lost = |unit: usize| job.units[unit][plan[job.delay + unit].1].distortion;
        let free = (0..job.units.len()).filter(|unit| asked.pins[*unit].is_none());
        let most = free.map(lost).max().unwrap_or(-1);
        self.by_pin += (most < greatest(job, plan)) as usize;
    }

    fn show(&self) -> String {
        let Aimed { jobs, plans, differ, by_pin, words, other, lost } = self;
        let (none, agree) = (jobs - plans, plans - differ);
        format!(
            "{jobs} jobs, {none} without a plan; for even pictures {differ} have another and \
             {agree} the same, {by_pin} with a pin for the greatest; {words} words, {other} other \
             than in the full table, {lost} of them lost"
        )
    }

    /// Whether each of them is there in one of `rarest` jobs or more often.
    fn worthwhile(&self, rarest: usize) -> bool {
        let Aimed { jobs, plans, differ, by_pin, words, other, lost } = *self;
        [jobs - plans, differ, plans - differ, by_pin].iter().all(|count| count * rarest > jobs)
            && other * 25 > words
            && lost * 25 > words
    }
}

/// Both aims against every plan and every completion, on lines of one bucket and of
/// two; and the searches against each other.
fn even_tiny_group(seed: u64, asks: bool) -> Result<String, String> {
    even_tiny_jobs(seed, asks, random_even_job, &[even_mistakes], 25)
}

/// The same of jobs in which many plans are equal.
fn even_ties_group(seed: u64, asks: bool) -> Result<String, String> {
    even_tiny_jobs(seed, asks, random_level_job, &[even_mistakes, read_off_mistakes], 50)
}

/// That of a program that reads the plan off the right table and tries choices above the
/// greatest too: some add up to what is due.
fn read_off_mistakes(order: Order, job: &Job, pins: &Pins, plan: Option<&Plan>) -> Vec<Mistake> {
    let table = plan.map(|plan| loops_table(job, pins, greatest(job, plan)));
    let found = table.and_then(|table| read_off_in(order, job, pins, &table));
    vec![("read off with choices above the limit", found.as_ref() != plan)]
}

/// What can tell the aims apart, and each mistaken rule, is to show in one of `rarest`
/// jobs or more often.
fn even_tiny_jobs(
    seed: u64,
    asks: bool,
    make: fn(&mut Rng, &Shape) -> Draft,
    mistakes: &[Mistakes],
    rarest: usize,
) -> Result<String, String> {
    let mut rng = Rng(seed);
    let (mut aimed, mut told) = (Aimed::default(), Told::default());
    // Several plans are as even, and then several of these have the same total.
    let (mut as_even, mut equals) = (0, 0);
    let jobs = scaled(1500);
    for index in 1..=jobs {
        let draft = make(&mut rng, &EVEN_SHAPES[0]);
        let asked = Asked::new(&mut rng, &draft);
        let (job, pins) = (&asked.job, &asked.pins);
        let all = enumerate_even(job, pins);
        let limit = all.greatest.unwrap_or(NO_LIMIT);
        let total = Due { table: brute_table(job, pins), plans: enumerate(job, pins).best };
        let even = Due { table: even_table(job, pins, all.greatest), plans: all.best.clone() };
        let dues = [total, even];
        let mut check = || -> Checked {
            let table = &dues[1].table;
            same("loops", table, &loops_table(job, pins, limit))?;
            same("fast table", table, &fast_table(&limited(job, limit), pins))?;
            same("plan read off", &all.best, &read_off(&limited(job, limit), pins, table))?;
            same("least greatest", all.greatest, least_greatest(job, pins))?;
            let dynamic = ORDERS.map(|order| dynamic_even(order, job, pins));
            same("dynamic program", &all.best, &dynamic)?;
            let [total, even] = lowered(job, pins);
            same("limits lowered", [&dues[0].plans, &all.best], [&total.plans, &even.plans])?;
            same("tables", [&dues[0].table, table], [&total.table, &even.table])?;
            ensure!(all.best[0].is_some() || dues[0].table == *table, "not the full table");
            check_aims(&mut rng, &asked, &dues)?;
            check_by_total(order_in_turn(index), &draft).map(|_| ())
        };
        check().map_err(|trouble| failed(seed, index, &trouble, &asked))?;
        aimed.count(&asked, &dues);
        as_even += (all.as_even > 1) as usize;
        equals += (all.equals > 1) as usize;
        if index % 2 == 0 && !small() {
            for &mistakes in mistakes {
                told.count(mistakes, job, pins, &all.best);
            }
        }
    }
    let text = format!(
        "{}; {as_even} of several as even, {equals} of several equal ones{}",
        aimed.show(),
        if small() { String::new() } else { told.show() }
    );
    let often = [as_even, equals].iter().all(|count| count * 4 > jobs);
    let worthwhile = aimed.worthwhile(rarest) && often && told.each(rarest);
    ensure!(worthwhile || !asks, "too little in it: {text}");
    Ok(text)
}

/// Jobs too large to try everything, against tables by plain loops and the dynamic
/// program; some of many choices, and some long.
fn even_larger_group(seed: u64, asks: bool) -> Result<String, String> {
    let mut rng = Rng(seed);
    let mut aimed = Aimed::default();
    let [medium, many, long] = [300, 40, 12].map(scaled);
    for index in 1..=medium + many + long {
        let draft = match index {
            _ if index > medium + many => random_even_job(&mut rng, &EVEN_SHAPES[2]),
            _ if index > medium => random_many_job(&mut rng, &MANY[1]),
            _ if index % 3 == 0 => random_level_job(&mut rng, &EVEN_SHAPES[1]),
            _ => random_even_job(&mut rng, &EVEN_SHAPES[1]),
        };
        let asked = Asked::new(&mut rng, &draft);
        let (job, pins) = (&asked.job, &asked.pins);
        let dues = lowered(job, pins);
        let mut check = || -> Checked {
            let due = dues[1].plans[0].as_ref().map(|plan| greatest(job, plan));
            let limit = due.unwrap_or(NO_LIMIT);
            same("least greatest", due, least_greatest(job, pins))?;
            same("dynamic program", &dues[0].plans, &dynamics(job, pins))?;
            let even = ORDERS.map(|order| dynamic_even(order, job, pins));
            same("dynamic program, even", &dues[1].plans, &even)?;
            ensure!(dues[1].table == fast_table(&limited(job, limit), pins), "fast table");
            check_aims(&mut rng, &asked, &dues)?;
            check_by_total(order_in_turn(index), &draft).map(|_| ())
        };
        check().map_err(|trouble| failed(seed, index, &trouble, &asked))?;
        aimed.count(&asked, &dues);
    }
    let text = aimed.show();
    ensure!(aimed.worthwhile(20) || !asks, "too little in it: {text}");
    Ok(text)
}

/// The job with every choice above the limit larger than any decoder.
fn left_out(draft: &Draft, limit: i64) -> Draft {
    let mut draft = draft.clone();
    let codings = draft.units.iter_mut().flatten();
    codings.filter(|coding| coding.1 as i64 > limit).for_each(|coding| coding.0 = 4095);
    draft
}

/// Even pictures by the least total, both from the library: with every choice above the
/// plan's greatest distortion too large for the decoder it leaves the same, and with
/// those at this distortion too large as well it has no plan. Gives the greatest.
fn check_by_total(order: Order, draft: &Draft) -> Result<Option<i64>, String> {
    let asked = |draft: &Draft| Asked::new(&mut Rng(1), draft);
    let whole = asked(draft);
    let even = planned_numbers_for(Aim::Even, order, &whole);
    if even.0 == 13 {
        let total = planned_numbers_for(Aim::Total, order, &whole);
        ensure!(even == total, "no plan, and another answer or table for the total");
        return Ok(None);
    }
    let plan = read_plan(&whole.job, &even.2).map_err(|_| "the entries are no plan")?;
    let limit = greatest(&whole.job, &plan);
    let total = planned_numbers_for(Aim::Total, order, &asked(&left_out(draft, limit)));
    same("number and values by the total", (even.0, even.3), (total.0, total.3))?;
    same("entries by the total", &even.2, &total.2)?;
    ensure!(even.1 == total.1, "another table by the total, limit {limit}");
    let below = planned_numbers_for(Aim::Total, order, &asked(&left_out(draft, limit - 1)));
    same("below the greatest", 13, below.0)?;
    Ok(Some(limit))
}

/// Large trial jobs, of which the first is as large as those that are timed. The last
/// number is the state: one from which even pictures have another plan than the least total.
/// Among the pins is one that sets the greatest distortion, so that they have the same.
fn even_large_group() -> Result<String, String> {
    let few = Size { units: 48, delay: 8, decoder: 63, bucket: 15, rates: 8, choices: 8 };
    let thousand = Size { units: 64, delay: 8, decoder: 127, bucket: 63, ..FULL };
    let many = Size { decoder: 63, bucket: 31, ..FULL };
    let sizes = [
        ("300 units", Size { units: 300, delay: 8, choices: 31, ..FULL }, None, false, 5),
        ("1,000 choices", thousand, None, false, 10),
        ("many units", Size { choices: 8, ..many }, None, false, 7),
        ("pins", Size { choices: 31, ..many }, None, true, 1),
        ("two buckets", few, Some([63, 18, 20]), false, 5),
    ];
    let mut rng = Rng(5);
    let (mut words, mut other) = (0, 0);
    for (name, size, second, pins, state) in &sizes {
        let mut draft = large_trial(size, *second, *state)?;
        if !pins {
            draft.commands.clear();
        }
        let asked = Asked::new(&mut rng, &draft);
        // Such a job is too long to print; its name tells.
        let mut check = || -> Checked {
            let limit = check_by_total(Order::Early, &draft)?.ok_or("no plan")?;
            if asked.job.words() > 5_000_000 {
                return Ok(());
            }
            let (job, pins) = (&asked.job, &asked.pins);
            let table = fast_table(&limited(job, limit), pins);
            let plans = read_off(&limited(job, limit), pins, &table);
            other += (plans != read_off(job, pins, &fast_table(job, pins))) as usize;
            check_plan_for(Aim::Even, &mut Rng(1), &asked, &table, &plans)
        };
        check().map_err(|trouble| format!("{name}: {trouble}"))?;
        words += asked.job.words();
    }
    ensure!(other > 2, "even pictures have another plan in {other} alone");
    Ok(format!("{} jobs, {words} words", sizes.len()))
}

// ---------------------------------------------------------------------------
// Long sessions.
// ---------------------------------------------------------------------------

const SESSION: Shape = Shape {
    units: (1, 40),
    delay: (0, 4),
    decoder: 9,
    bucket: 9,
    rates: 4,
    choices: 5,
    grains: 6,
    heavy: &[1000],
    commands: 0,
};

/// Calls of which about a third are refused. In half of the sessions
/// the last calls lift most of what is pinned, so that there is a plan.
fn long_list(rng: &mut Rng, job: &Job, count: usize) -> Vec<u16> {
    let mut pins: Pins = vec![None; job.units.len()];
    let mut calls = Vec::new();
    let light = rng.one_in(2);
    for _ in 0..count {
        let call = if rng.one_in(3) {
            bad_call(rng, job, &pins)
        } else {
            good_call(rng, job, &pins, light)
        };
        make_call(job, &mut pins, &call);
        calls.extend(call);
    }
    if rng.one_in(2) {
        for unit in 1..=job.units.len() {
            if pins[unit - 1].is_some() && !rng.one_in(6) {
                calls.extend([7, unit as u16, rng.next() as u16]);
            }
        }
    }
    calls
}

fn good_call(rng: &mut Rng, job: &Job, pins: &Pins, light: bool) -> [u16; 3] {
    let unit = rng.from(1, job.units.len());
    let last = job.choices() - 1;
    let choice = if light { last } else { rng.from(0, last) };
    match pins[unit - 1] {
        Some(_) => [7, unit as u16, rng.next() as u16],
        None => [6, unit as u16, choice as u16],
    }
}

fn bad_call(rng: &mut Rng, job: &Job, pins: &Pins) -> [u16; 3] {
    let units = job.units.len() as u16;
    let unit = rng.from(1, units as usize) as u16;
    let beyond = rng.pick(&[0, units + 1, unit + 256, unit | 0x8000, 513, 0xffff]);
    // Small numbers of units may make one of these a unit after all.
    let beyond = if (1..=units).contains(&beyond) { 0 } else { beyond };
    let choices = job.choices() as u16;
    let choice = rng.from(0, choices as usize - 1) as u16;
    let no_choice = rng.pick(&[choices, choices + 1, 255, choice + 256, 0xffff]);
    // Many choices may make one of these a choice after all.
    let no_choice = no_choice.max(choices);
    match rng.from(0, 3) {
        0 => [rng.pick(&[6, 7]), beyond, rng.pick(&[choice, no_choice])],
        1 => [6, unit, no_choice],
        _ if pins[unit as usize - 1].is_some() => [6, unit, choice],
        _ => [7, unit, choice],
    }
}

fn sessions_group(seed: u64, asks: bool) -> Result<String, String> {
    let mut rng = Rng(seed);
    let (mut calls, mut refused, mut plans, mut pins) = (0, 0, 0, 0);
    let jobs = scaled(150);
    for index in 1..=jobs {
        let draft = if index % 15 == 1 {
            random_long_job(&mut rng)
        } else {
            random_job(&mut rng, &SESSION)
        };
        let asked = Asked::new(&mut rng, &draft);
        let count = match index {
            _ if small() => rng.from(20, 60),
            // More calls, and more numbers, than sixteen bits count.
            2 => 70_000,
            3 => 22_000,
            _ => rng.from(200, 600),
        };
        let list = long_list(&mut rng, &asked.job, count);
        let asked = Asked::with(asked.bytes, asked.job, list);
        let planned = check_session(&mut rng, &asked);
        plans += planned.map_err(|trouble| failed(seed, index, &trouble, &asked))? as usize;
        calls += asked.answers.len();
        refused += asked.answers.iter().filter(|answer| **answer != 0).count();
        pins += asked.pins.iter().flatten().count();
    }
    let counts = format!(
        "{jobs} sessions, {calls} calls, {refused} refused, {pins} pins stand, {plans} plans"
    );
    let worthwhile = refused * 5 > calls && refused * 2 < calls && plans * 4 > jobs && pins > jobs;
    ensure!(worthwhile || !asks, "too little in it: {counts}");
    Ok(counts)
}

/// The calls of a fresh session that sets only these pins, in any order.
fn fresh_calls(rng: &mut Rng, pins: &Pins) -> Vec<u16> {
    let call = |(i, pinned): (usize, &Option<usize>)| Some([6, i as u16 + 1, (*pinned)? as u16]);
    let mut calls: Vec<[u16; 3]> = pins.iter().enumerate().filter_map(call).collect();
    for i in (1..calls.len()).rev() {
        calls.swap(i, rng.from(0, i));
    }
    calls.concat()
}

/// True if there is a plan.
fn check_session(rng: &mut Rng, asked: &Asked) -> Result<bool, String> {
    let table = fast_table(&asked.job, &asked.pins);
    let plans = read_off(&asked.job, &asked.pins, &table);
    check_plan(rng, asked, &table, &plans)?;
    let other = random_plan(rng, &asked.job, &asked.pins);
    check_replay(rng, asked, &other)?;

    let calls = fresh_calls(rng, &asked.pins);
    let mut long = PlanLists::new(&mut Rng(1), asked.needs());
    let mut fresh = PlanLists::new(&mut Rng(1), asked.needs());
    let order = rng.pick(&ORDERS);
    let numbers =
        (long.plan(order, &asked.bytes, &asked.calls), fresh.plan(order, &asked.bytes, &calls));
    same("a fresh session's answer", numbers.0, numbers.1)?;
    let planned = plans[0].is_some();
    if planned {
        fresh.answers.wrote("a fresh session's answers", &vec![0; calls.len() / 3])?;
    }
    same("a fresh session's values", long.values.list(), fresh.values.list())?;
    same("a fresh session's entries", long.entries.list(), fresh.entries.list())?;
    ensure!(long.table.list() == fresh.table.list(), "a fresh session's table is another");
    Ok(planned)
}

// ---------------------------------------------------------------------------
// Calls alone: by hand, in every order, and of random jobs.
// ---------------------------------------------------------------------------

/// What Job A's calls meet with, and the totals of the pins that they leave. Unit 1
/// takes 4 grains at 10 or 2 at 30, unit 2 takes 5 at 12 or 2 at 40.
fn calls_by_hand_group() -> Result<String, String> {
    let mut rng = Rng(1);
    let rows: [(&[[u16; 3]], &[u8], [u64; 3]); 26] = [
        (&[], &[], [0, 0, 0]),
        (&[[6, 1, 0]], &[0], [1, 4, 10]),
        (&[[6, 1, 1]], &[0], [1, 2, 30]),
        (&[[6, 2, 0]], &[0], [1, 5, 12]),
        (&[[6, 2, 1]], &[0], [1, 2, 40]),
        (&[[6, 1, 0], [6, 2, 0]], &[0, 0], [2, 9, 22]),
        (&[[6, 2, 1], [6, 1, 1]], &[0, 0], [2, 4, 70]),
        // A lift takes the pin off the totals too, whatever its third number.
        (&[[6, 1, 0], [7, 1, 0]], &[0, 0], [0, 0, 0]),
        (&[[6, 1, 0], [7, 1, 1]], &[0, 0], [0, 0, 0]),
        (&[[6, 1, 0], [7, 1, 0xffff]], &[0, 0], [0, 0, 0]),
        (&[[6, 1, 0], [6, 2, 1], [7, 1, 1]], &[0, 0, 0], [1, 2, 40]),
        (&[[6, 1, 0], [6, 2, 1], [7, 2, 0]], &[0, 0, 0], [1, 4, 10]),
        (&[[6, 1, 0], [7, 1, 0], [6, 1, 1]], &[0, 0, 0], [1, 2, 30]),
        // A refused call changes nothing, and those after it are made.
        (&[[7, 1, 0]], &[10], [0, 0, 0]),
        (&[[7, 2, 0], [6, 2, 0], [7, 2, 0], [7, 2, 0]], &[10, 0, 0, 10], [0, 0, 0]),
        (&[[6, 1, 0], [6, 1, 1]], &[0, 9], [1, 4, 10]),
        (&[[6, 1, 1], [6, 1, 1], [6, 1, 0]], &[0, 9, 9], [1, 2, 30]),
        (&[[6, 1, 0], [6, 1, 1], [7, 1, 0], [6, 1, 1]], &[0, 9, 0, 0], [1, 2, 30]),
        (&[[6, 1, 0], [7, 2, 0]], &[0, 10], [1, 4, 10]),
        (&[[6, 3, 0], [6, 2, 2], [6, 2, 1]], &[7, 8, 0], [1, 2, 40]),
        // 7, then 8, then 9 or 10; numbers that are in range in one byte alone.
        (&[[6, 0, 0], [6, 3, 0], [7, 0, 0], [7, 3, 0]], &[7, 7, 7, 7], [0, 0, 0]),
        (&[[6, 0, 2], [6, 3, 0xffff], [6, 0xffff, 2]], &[7, 7, 7], [0, 0, 0]),
        (&[[6, 257, 0], [6, 0x8001, 0], [7, 258, 0]], &[7, 7, 7], [0, 0, 0]),
        (&[[6, 1, 2], [6, 2, 255], [6, 1, 256], [6, 1, 257]], &[8, 8, 8, 8], [0, 0, 0]),
        (&[[6, 1, 0], [6, 1, 2], [6, 0, 0]], &[0, 8, 7], [1, 4, 10]),
        (&[[6, 1, 0], [7, 257, 0], [7, 0, 0]], &[0, 7, 7], [1, 4, 10]),
    ];
    for (calls, answers, totals) in rows {
        check_totals(&mut rng, &job_a(), calls, answers, totals)
            .map_err(|trouble| format!("calls {calls:?}: {trouble}"))?;
    }

    // 512 units, of which unit u takes u grains at a distortion of 1,000 u: all are
    // pinned, the even ones lifted, then the rest. In the last line both sums are as
    // large as they may be.
    let units: Vec<_> = (1..=512).map(|unit| vec![(0, 7), (unit, 1000 * unit as u32)]).collect();
    let draft = Draft::new(BARE, &[0], &units);
    let pins: Vec<[u16; 3]> = (1..=512).rev().map(|unit| [6, unit, 1]).collect();
    let lifts =
        |from: u16| -> Vec<[u16; 3]> { (from..=512).step_by(2).map(|unit| [7, unit, 0]).collect() };
    let largest = Draft::new(BARE, &[0], &vec![vec![(0, 0), (4095, 1_000_000)]; 512]);
    for (draft, calls, totals) in [
        (&draft, pins.clone(), [512, 131_328, 131_328_000]),
        (&draft, [pins.clone(), lifts(2)].concat(), [256, 65_536, 65_536_000]),
        (&draft, [pins.clone(), lifts(2), lifts(1)].concat(), [0, 0, 0]),
        (&largest, pins, [512, 2_096_640, 512_000_000]),
    ] {
        check_totals(&mut rng, draft, &calls, &vec![0; calls.len()], totals)
            .map_err(|trouble| format!("512 units, {} calls: {trouble}", calls.len()))?;
    }
    Ok(format!("{} lists by hand", rows.len() + 4))
}

fn check_totals(
    rng: &mut Rng,
    draft: &Draft,
    calls: &[[u16; 3]],
    answers: &[u8],
    totals: [u64; 3],
) -> Checked {
    let asked = Asked::new(rng, draft);
    let asked = Asked::with(asked.bytes, asked.job, calls.concat());
    same("answers by hand", answers, &asked.answers)?;
    same("totals by hand", totals, pin_totals(&asked.job, &asked.pins))?;
    check_calls(rng, &asked)
}

/// Every short list of calls on a job whose pins all have other totals.
fn calls_in_every_order_group() -> Result<String, String> {
    let mut rng = Rng(1);
    let units = [vec![(3, 10), (1, 31)], vec![(8, 12), (20, 40)]];
    let draft = Draft::new([1, 4, 3, 2, 0, 0], &[0, 2, 3], &units);
    let lists = command_lists();
    let mut made = 0;
    for list in lists.iter().step_by(if small() { 31 } else { 1 }) {
        let asked = Asked::new(&mut rng, &draft.commanded(list));
        check_calls(&mut rng, &asked)
            .map_err(|trouble| format!("{trouble}\n  {}", asked.show()))?;
        made += 1;
    }
    Ok(format!("{made} lists of calls"))
}

/// As many units, rates and choices as a job may have, and the largest numbers, which no
/// trial job has. No table is made of such jobs.
const LARGE: Shape = Shape { units: (1, 512), ..WIDE };

/// Jobs of all sizes, with lists of calls from none to many.
fn calls_group(seed: u64, asks: bool) -> Result<String, String> {
    let mut rng = Rng(seed);
    let mut tally: BTreeMap<u8, usize> = BTreeMap::new();
    let (mut calls, mut pins, mut lifted, mut wide, mut none) = (0, 0, 0, 0, 0);
    let jobs = scaled(600);
    for index in 1..=jobs {
        let large = index % 30 == 7;
        let draft = match large {
            true if small() => random_job(&mut rng, &WIDE),
            true => random_job(&mut rng, &LARGE),
            false => random_mixed_job(&mut rng, index),
        };
        let most = if large { 200 } else { rng.pick(&[0, 2, 10, 100]) };
        let count = rng.from(most / 2, most);
        let Asked { bytes, job, .. } = Asked::new(&mut rng, &draft);
        let list = long_list(&mut rng, &job, count);
        let asked = Asked::with(bytes, job, list);
        let mut check = || -> Checked {
            check_calls(&mut rng, &asked)?;
            check_fresh(&mut rng, &asked)
        };
        check().map_err(|trouble| failed(seed, index, &trouble, &asked))?;
        for (call, answer) in asked.calls.chunks(3).zip(&asked.answers) {
            *tally.entry(*answer).or_default() += 1;
            lifted += (call[0] == 7 && *answer == 0) as usize;
        }
        let [count, grains, _] = pin_totals(&asked.job, &asked.pins);
        calls += asked.answers.len();
        pins += count as usize;
        wide += (grains > 65_535) as usize;
        none += asked.calls.is_empty() as usize;
    }
    let counts = format!(
        "{jobs} jobs, {none} without a call, {calls} calls by number ({}), {lifted} pins lifted, \
         {pins} held at the end, {wide} jobs with more than 65,535 grains in them",
        by_number(&tally)
    );
    let numbers = [0, 7, 8, 9, 10];
    let worthwhile = numbers.iter().all(|number| tally.get(number).is_some_and(|c| c * 50 > calls))
        && lifted * 10 > calls
        && pins > jobs
        && none > 0
        && wide * 200 > jobs;
    ensure!(worthwhile || !asks, "too little in it: {counts}");
    Ok(counts)
}

/// A fresh session that sets only the pins held comes to the same totals.
fn check_fresh(rng: &mut Rng, asked: &Asked) -> Checked {
    let calls = fresh_calls(rng, &asked.pins);
    let count = calls.len() / 3;
    let mut lent = CallLists::new(rng, [count, CALLS_VALUES]);
    same("calls of a fresh session", 0, lent.make(&asked.bytes, &calls))?;
    lent.wrote(&vec![0; count], &pin_totals(&asked.job, &asked.pins))
}

// ---------------------------------------------------------------------------
// Harmed bytes.
// ---------------------------------------------------------------------------

/// As many rates and choices as a job may have.
const WIDE: Shape = Shape {
    units: (1, 3),
    delay: (0, 64),
    decoder: 255,
    bucket: 255,
    rates: 16,
    choices: MOST_CHOICES,
    grains: 4095,
    heavy: &[2],
    commands: 3,
};

/// On a line of one bucket or of two.
fn harmed_job(rng: &mut Rng, buckets: usize) -> Vec<u8> {
    let shape = if rng.one_in(5) { &WIDE } else { &TINY };
    let mut draft = random_job(rng, shape);
    draft.commands.clear();
    if buckets > 1 {
        draft = random_doubled(rng, &draft, second_size(shape), shape.grains);
    }
    draft = random_stored(rng, &draft, 4);
    let mut bytes = harmed(rng, &draft, 20, |rng, bytes| match rng.from(0, 9) {
        0 => harm_head(rng, bytes),
        1 => harm_value(rng, bytes),
        2 if buckets > 1 && rng.one_in(4) => harm_kind(rng, bytes),
        _ => harm(rng, bytes),
    });
    bytes.shrink_to_fit();
    bytes
}

/// The largest second bucket in jobs of a shape.
fn second_size(shape: &Shape) -> usize {
    shape.bucket.min(63)
}

/// Puts a limit or its neighbour in a field of the header or a rate.
fn harm_head(rng: &mut Rng, bytes: &mut [u8]) {
    let field = 4 + 2 * rng.from(0, 14);
    let limits: [u16; 17] =
        [0, 1, 2, 16, 17, 63, 64, 65, 255, 256, 512, 513, 1000, 1001, 4095, 4096, 0xffff];
    if field + 2 <= bytes.len() {
        bytes[field..field + 2].copy_from_slice(&rng.pick(&limits).to_le_bytes());
    }
}

/// Puts a distortion at or near its limit somewhere.
fn harm_value(rng: &mut Rng, bytes: &mut [u8]) {
    if bytes.len() > 40 {
        let at = rng.from(36, bytes.len() - 4);
        let value: u32 = rng.pick(&[999_999, 1_000_000, 1_000_001, 1_000_000 << 8, 0x8000_0000]);
        bytes[at..at + 4].copy_from_slice(&value.to_le_bytes());
    }
}

fn harmed_group(seed: u64, asks: bool) -> Result<String, String> {
    harmed_jobs(seed, asks, 1)
}

fn harmed_double_group(seed: u64, asks: bool) -> Result<String, String> {
    harmed_jobs(seed, asks, 2)
}

fn harmed_jobs(seed: u64, asks: bool, buckets: usize) -> Result<String, String> {
    let mut rng = Rng(seed);
    let mut tally: BTreeMap<[Refusal; 2], usize> = BTreeMap::new();
    let inputs = scaled(60_000);
    for index in 1..=inputs {
        let bytes = harmed_job(&mut rng, buckets);
        let due = check_bytes(&mut rng, &bytes).map_err(|trouble| {
            format!("seed {seed}, input {index}: {trouble}\n  job {}", hex(&bytes))
        })?;
        *tally.entry(due).or_default() += 1;
    }
    let each: Vec<String> = tally
        .iter()
        .map(|([opened, stored], count)| match opened {
            17 => format!("{count} 17, to the archive {stored}"),
            _ => format!("{count} {opened}"),
        })
        .collect();
    let counts = format!("{inputs} inputs by number ({})", each.join("; "));
    let often = |due: [Refusal; 2]| tally.get(&due).is_some_and(|count| count * 200 > inputs);
    let worthwhile = (0..=5).all(|number| often([number; 2]))
        && [0, 1, 2, 4, 5].iter().all(|&number| often([17, number]));
    ensure!(worthwhile || !asks, "too little in it: {counts}");
    Ok(counts)
}

/// All that take a job, on bytes that may or may not be one. Gives the numbers of opening
/// them, by the door of opening and by the archive's. These come before all others, so
/// bytes that a door refuses are given with lists of any length too.
fn check_bytes(rng: &mut Rng, bytes: &[u8]) -> Result<[Refusal; 2], String> {
    let [opened, stored] = DOORS.map(|door| {
        let mut reader = Reader { rest: bytes };
        let job = read_by(door, &mut reader);
        job.map(|job| (job, bytes.len() - reader.rest.len()))
    });
    let numbers = [&opened, &stored].map(|read| *read.as_ref().err().unwrap_or(&0));
    check_doors(bytes)?;
    let calls = [6, 1, 0, 7, 1, 0];
    let any = std::array::from_fn(|_| rng.from(0, 7));
    let cut = rng.from(0, calls.len());
    for (calls, lengths) in [(&calls[..], ENOUGH), (&calls[..cut], any)] {
        if numbers[0] > 0 {
            check_not_opened(rng, bytes, numbers[0], calls, lengths)?;
        }
        if numbers[1] > 0 {
            check_not_stored(rng, bytes, numbers[1], calls, lengths)?;
        }
    }
    let Ok((job, taken)) = stored else { return Ok(numbers) };
    same("bytes taken", taken, job_bytes(&job))?;
    let asked = Asked::with(bytes.to_vec(), job, calls.to_vec());
    check_open(rng, &asked)?;
    if opened.is_ok() {
        let mut desk = Desk::lent(rng, bytes.to_vec(), asked.job.clone(), 0)?;
        for (call, number) in asked.calls.chunks(3).zip(&asked.answers) {
            same("a call for a set", *number, desk.make([call[0], call[1], call[2]])?)?;
        }
    }
    if opened.is_err() {
        let plan = random_plan(rng, &asked.job, &asked.pins);
        check_never(rng, &asked, &plan)?;
        return Ok(numbers);
    }
    if asked.job.words() > 20 {
        let mut lent = PlanLists::new(rng, [2, 20, 12, plan_values(&asked.job)]);
        same("plan", 11, lent.plan(rng.pick(&ORDERS), bytes, &calls))?;
        lent.kept()?;
    }
    if asked.job.words() < 2000 {
        let table = fast_table(&asked.job, &asked.pins);
        let plans = read_off(&asked.job, &asked.pins, &table);
        check_plan(rng, &asked, &table, &plans)?;
    } else {
        check_calls(rng, &asked)?;
    }
    Ok(numbers)
}

/// The bytes with another drain wherever it is 0 in a header of either kind. What the
/// archive says of the bytes themselves, opening must say of these: the library alone
/// is asked, so that a slip of the reader here is seen too.
fn check_doors(bytes: &[u8]) -> Checked {
    let mut drained = bytes.to_vec();
    let count = if bytes.get(2) == Some(&8) { 2 } else { 1 };
    for [_, drain, _] in &BUCKET_FIELDS[..count] {
        match drained.get_mut(4 + 2 * drain..4 + 2 * drain + 2) {
            Some(field) if *field == [0, 0] => field[0] = 1,
            _ => (),
        }
    }
    let (mut values, mut others) = ([7; 4], [7; 4]);
    let found = (numbers::archive(bytes, &mut values), numbers::open(&drained, &mut others));
    same("archive, and opening with another drain", (found.1, others), (found.0, values))
}

/// Lists that are long enough for a job of a few numbers.
const ENOUGH: [usize; 9] = [4, 2, 3, 20, 18, 5, 18, 7, 4];

/// Every function that opens or plans refuses these bytes. `lengths`: values of opening;
/// answers of calls and of planning; values of calls; table, entries, also of turning,
/// and values of planning; levels and values of replay; sums.
fn check_not_opened(
    rng: &mut Rng,
    bytes: &[u8],
    number: Refusal,
    calls: &[u16],
    lengths: [usize; 9],
) -> Checked {
    let number = number as u32;
    let [open, answers, made, table, room, planned, ..] = lengths;
    check_unopened(rng, Door::Opening, bytes, number, open)?;

    let mut lent = CallLists::new(rng, [answers, made]);
    same("calls", number, lent.make(bytes, calls))?;
    let typed: Vec<Call> = calls.chunks_exact(3).map(typed_call).collect();
    let found = upload_planner::calls(bytes, &typed, lent.answers.list());
    same("typed calls", Some(number), found.err().map(|refusal| refusal.number()))?;
    lent.kept()?;
    let found = upload_planner::called(bytes, &typed);
    same("owned calls", Some(number), found.err().map(|refusal| refusal.number()))?;

    let mut lent = PlanLists::new(rng, [answers, table, room, planned]);
    let aim = rng.pick(&[TOTAL, EVEN, WRONG_AIMS[0], u32::MAX]);
    let order = rng.pick(&[EARLY, LATE, WRONG_AIMS[0], u32::MAX]);
    same("plan", number, lent.plan_for(aim, order, bytes, calls))?;
    lent.kept()?;
    let (aim, order) = (typed_aim(rng.pick(&AIMS)), typed_order(rng.pick(&ORDERS)));
    let found = upload_planner::best_plan(bytes, &typed, aim, order);
    same("owned plan", Some(number), found.err().map(|refusal| refusal.number()))?;
    check_unread(rng, Door::Opening, bytes, number)?;
    check_no_sitting(rng, bytes, number, table, planned)
}

/// Reading by the door refuses these bytes, whatever is lent.
fn check_unread(rng: &mut Rng, door: Door, bytes: &[u8], number: u32) -> Checked {
    let lengths = std::array::from_fn(|_| rng.from(0, 20));
    let mut lent = ReadLists::new(rng, lengths);
    same("read", number, lent.read(door, bytes))?;
    lent.kept()?;
    same("contents", Some(number), contents_by(door, bytes).err())
}

/// No set is made of these bytes, and none that is lent is looked at; `table` and
/// `values` are the lengths of lists.
fn check_no_sitting(
    rng: &mut Rng,
    bytes: &[u8],
    number: u32,
    table: usize,
    values: usize,
) -> Checked {
    let length = if rng.one_in(20) { SET_NUMBERS } else { rng.from(0, 3) };
    let mut set: Lent<u32> = Lent::new(rng, length);
    let mut table: Lent<u32> = Lent::new(rng, table);
    let mut entries: Lent<u8> = Lent::new(rng, values);
    let mut totals: Lent<u32> = Lent::new(rng, values);
    let mut values: Lent<u64> = Lent::new(rng, values);
    let (unit, choice) = (rng.from(0, 2) as u16, rng.from(0, 2) as u16);
    let (aim, order) = (rng.pick(&[TOTAL, EVEN, 2]), rng.pick(&[EARLY, LATE, 2]));
    let old: Vec<u8> = (0..rng.from(0, 12)).map(|_| rng.next() as u8 % 3).collect();
    let new = Contract { rates: vec![0, 2], sizes: vec![3; rng.from(0, 2)], drains: vec![1] };
    let first = rng.from(0, 2) as u32;
    let found = [
        numbers::set(bytes, set.list()),
        numbers::pin(bytes, set.list(), unit, choice),
        numbers::lift(bytes, set.list(), unit),
        numbers::pin_and_see(bytes, set.list(), unit, choice, table.list(), values.list()),
        numbers::lift_and_see(bytes, set.list(), unit, table.list(), values.list()),
        numbers::plan_set(
            bytes,
            set.held(),
            aim,
            order,
            table.list(),
            entries.list(),
            values.list(),
        ),
        changed(
            bytes,
            set.held(),
            &old,
            first,
            &new,
            order,
            table.list(),
            entries.list(),
            values.list(),
        ),
        numbers::sizes(bytes, set.held(), table.list(), totals.list()),
    ];
    same("calls that make or take a set", [number; 8], found)?;
    // A list with the bytes as its only entry.
    let entry = [0, bytes.len() as u32];
    let lists = (table.list(), entries.list(), values.list());
    let found = numbers::playlist(bytes, &entry, lists.0, lists.1, lists.2);
    same("a playlist", 256 + number, found)?;
    set.kept("set")?;
    table.kept("table")?;
    entries.kept("entries")?;
    totals.kept("totals")?;
    values.kept("values")?;
    let found = upload_planner::larger_buckets(bytes, &[]).err().map(|refusal| refusal.number());
    same("an owned list of sizes", Some(number), found)?;
    let found = upload_planner::playlist_plans(&[bytes]).err().map(|refused| refused.answer());
    same("an owned playlist", Some(256 + number), found)?;
    let found = upload_planner::Session::open(bytes).err().map(|refusal| refusal.number());
    same("typed session", Some(number), found)
}

/// Every other function that takes a job refuses these bytes.
fn check_not_stored(
    rng: &mut Rng,
    bytes: &[u8],
    number: Refusal,
    calls: &[u16],
    lengths: [usize; 9],
) -> Checked {
    let number = number as u32;
    let [open, _, _, _, room, _, levels, replayed, sums] = lengths;
    check_unopened(rng, Door::Archive, bytes, number, open)?;
    check_unread(rng, Door::Archive, bytes, number)?;

    let entries: Vec<u8> = (0..rng.from(0, 12)).map(|_| rng.next() as u8).collect();
    let mut levels: Lent<u16> = Lent::new(rng, levels);
    let mut values: Lent<u64> = Lent::new(rng, replayed);
    let found = numbers::replay(bytes, calls, &entries, levels.list(), values.list());
    same("replay", number, found)?;
    levels.kept("levels")?;
    values.kept("values of replay")?;
    let typed: Vec<Call> = calls.chunks_exact(3).map(typed_call).collect();
    let found = upload_planner::replayed(bytes, &typed, &entries);
    same("owned replay", Some(number), found.err().map(|refusal| refusal.number()))?;
    let set = vec![7; if rng.one_in(20) { SET_NUMBERS } else { rng.from(0, 3) }];
    let found = numbers::replay_set(bytes, &set, &entries, levels.list(), values.list());
    same("replay with a set", number, found)?;
    levels.kept("levels with a set")?;
    values.kept("values of replay with a set")?;

    let mut sums: Lent<u32> = Lent::new(rng, sums);
    same("report", number, numbers::report(bytes, &entries, sums.list()))?;
    sums.kept("sums")?;

    let mut turned: Lent<u8> = Lent::new(rng, room);
    same("turn", number, numbers::turn(bytes, &entries, turned.list()))?;
    turned.kept("entries of turning")?;
    let found = upload_planner::turned(bytes, &entries);
    same("owned turning", Some(number), found.err().map(|refusal| refusal.number()))
}

/// A job cut at every byte, and with other bytes after it; one of many choices cut at
/// some.
fn cuts_group() -> Result<String, String> {
    let mut rng = Rng(1);
    let mut inputs = 0;
    let mut wide = random_job(&mut rng, &Shape { choices: 31, ..WIDE });
    wide.commands.clear();
    let doubles = [job_a(), wide.clone()].map(|draft| draft.doubled([63, 4095, 63]));
    let stored = [job_a().undrained(1), doubles[0].undrained(2), doubles[1].undrained(3)];
    let many = chosen_among(MOST_CHOICES, &[]);
    for draft in [vec![job_a(), wide, many], doubles.to_vec(), stored.to_vec()].concat() {
        let whole = draft.bytes();
        let never = draft.never_drains();
        // The header is whole by here, and is looked at before the next record.
        let header = 4 + 2 * draft.header.len();
        let step = if whole.len() > 4096 { 251 } else { 1 };
        for cut in (0..whole.len()).step_by(step).chain([whole.len() - 1, whole.len()]) {
            let bytes = whole[..cut].to_vec();
            let due = check_bytes(&mut rng, &bytes).map_err(|t| format!("cut to {cut}: {t}"))?;
            let stored = (cut < whole.len()) as u8;
            let opened = if never && cut >= header { 17 } else { stored };
            same(&format!("cut to {cut}"), [opened, stored], due)?;
            inputs += 1;
        }
        for tail in [vec![0; 1], vec![255; 2], vec![6, 0, 6], whole.clone(), vec![0; 70_000]] {
            let bytes = then(whole.clone(), &tail);
            let due = if never { [17, 0] } else { [0, 0] };
            same("bytes after the job", due, check_bytes(&mut rng, &bytes)?)?;
            inputs += 1;
        }
    }
    Ok(format!("{inputs} inputs"))
}

/// Each header field at its limits and one beyond them, as the paper has them.
fn limits_group() -> Result<String, String> {
    let mut rng = Rng(1);
    let mut inputs = 0;
    let mut check = |input: &[u8], due: Refusal, what: String| -> Checked {
        inputs += 1;
        let found = check_bytes(&mut rng, input).map_err(|trouble| format!("{what}: {trouble}"))?;
        let stored = if due == 17 { 0 } else { due };
        same(&what, [due, stored], found)
    };
    for buckets in 1..=MOST_BUCKETS {
        for &(field, low, high) in &LIMITS[..FIELDS[buckets - 1]] {
            let what = |value: u16| format!("{buckets} buckets, field {field} is {value}");
            for value in values_in(field, low, high) {
                check(&sized(buckets, field, value), in_limits(field, value), what(value))?;
            }
            for value in [low.wrapping_sub(1), high + 1, high + 256, 0x8000, 0xffff] {
                if value < low || value > high {
                    check(&sized(buckets, field, value), 3, what(value))?;
                }
            }
        }
    }
    for ([size, drain, start], due) in [
        ([0, 0, 0], 17),
        ([0, 1, 0], 0),
        ([0, 0, 1], 3),
        ([62, 0, 63], 3),
        ([62, 1, 63], 3),
        ([63, 0, 63], 17),
        ([63, 1, 63], 0),
        ([63, 0, 64], 3),
        ([64, 0, 64], 3),
        ([63, 4095, 63], 0),
        ([63, 4096, 63], 3),
        // In range in one byte alone.
        ([256, 0, 0], 3),
        ([0, 256, 0], 0),
        ([0, 0x1000, 0], 3),
        ([0, 0, 256], 3),
        ([63, 0, 0x0100], 3),
    ] {
        let draft = job_a().doubled([size, drain, start]);
        check(&draft.bytes(), due, format!("second size {size}, drain {drain}, start {start}"))?;
    }
    // The first nine fields and the last three are held to their limits together.
    for (field, value) in [(UNITS, 0), (DELAY, 65), (START_BUCKET, 4), (CHOICES, 1001)] {
        let draft = job_a().doubled([63, 4095, 63]).with(field, value);
        for stopped in 0..4 {
            let what = format!("two buckets, field {field} is {value}, drains 0 {stopped:02b}");
            check(&draft.undrained(stopped).bytes(), 3, what)?;
        }
    }
    // Either kind with the other's length, and the fields of the other.
    let [one, two] = [job_a(), job_a().doubled(SECOND_A)].map(|draft| draft.bytes());
    for (length, kind) in [(20, 8), (26, 1), (20, 7), (26, 9), (24, 8), (28, 8), (25, 8), (282, 8)]
    {
        let begun = words(&[length, kind]);
        check(&patched(&one, 0, &begun), 2, format!("one bucket, {length}, {kind}"))?;
        check(&patched(&two, 0, &begun), 2, format!("two buckets, {length}, {kind}"))?;
    }
    check(&patched(&one, 0, &words(&[26, 8])), 2, "one bucket, begun as two".to_string())?;
    check(&patched(&two, 0, &words(&[20, 1])), 2, "two buckets, begun as one".to_string())?;
    for (rates, due) in [([0, 2, 2], 4), ([2, 2, 4], 4), ([0, 4095, 4096], 4), ([0, 2, 4095], 0)] {
        let draft = Draft { rates: rates.to_vec(), ..job_a() };
        check(&draft.bytes(), due, format!("rates {rates:?}"))?;
    }
    for (rates, due) in [([0, 2, 2], 4), ([0, 4095, 4096], 4), ([0, 2, 4095], 0)] {
        let draft = Draft { rates: rates.to_vec(), ..job_a().doubled(SECOND_A) };
        check(&draft.bytes(), due, format!("two buckets, rates {rates:?}"))?;
    }
    for (unit, choice) in [(0, 0), (0, 1), (1, 0), (1, 1)] {
        for (entry, due) in [
            ((4095, 1_000_000), 0),
            ((4096, 0), 5),
            ((0, 1_000_001), 5),
            ((0xffff, 0), 5),
            ((0, 0x8000_0000), 5),
            ((0, 0x0100_0000), 5),
        ] {
            for mut draft in [job_a(), job_a().doubled(SECOND_A)] {
                draft.units[unit][choice] = entry;
                check(&draft.bytes(), due, format!("unit {} choice {choice} {entry:?}", unit + 1))?;
            }
        }
    }
    Ok(format!("{inputs} inputs"))
}

// ---------------------------------------------------------------------------
// Job A as written, and refusals in their order.
// ---------------------------------------------------------------------------

/// Job A's best plan in the late order, its levels and totals, by hand. Unit 2 has choice
/// 1, as its choice 0 takes 5 grains and the decoder holds 4. Unit 1 at choice 0 takes 4,
/// so the decoder is just full before it leaves. Interval 1 sends nothing, and its
/// drain of 2 goes by.
const LATE_A: [u8; 9] = [0, 255, 255, 2, 0, 0, 1, 1, 0];
const LEVELS_A: [u16; 6] = [0, 0, 0, 2, 0, 2];
const TOTALS_A: [u64; 4] = [50, 6, 6, 2];

/// Job A's best plan in the early order, and what it comes to on a line of two buckets, by
/// hand: the first interval fills the decoder and leaves 2 in each bucket, the second sends
/// nothing, and the third, in which unit 2 takes 2 grains, sends 4. No drain goes by.
const EARLY_A: [u8; 9] = [2, 255, 255, 0, 0, 0, 2, 1, 0];
const EARLY_TOTALS_A: [u64; 5] = [50, 6, 8, 0, 0];

/// The plan in this order.
fn best_a(order: Order) -> [u8; 9] {
    match order {
        Order::Early => EARLY_A,
        Order::Late => LATE_A,
    }
}

/// Job A's table by hand: a row for each decoder level, a word for each bucket
/// level. Unit 1 at choice 0 needs a peak of just 4, which levels 0, 2 and 4 can
/// reach and levels 1 and 3 cannot; from 0 the bucket must take 4 grains.
const TABLE_A: [[[u32; 4]; 5]; 4] = [
    [[50; 4], [70; 4], [50; 4], [70; 4], [50; 4]],
    [[50, 50, 70, 70], [70; 4], [50; 4], [70; 4], [50; 4]],
    [[40; 4]; 5],
    [[0; 4]; 5],
];

/// Job A on a line of one bucket or two, and what comes of its best plan in the late order.
struct Known {
    draft: Draft,
    table: Vec<u32>,
    levels: Vec<u16>,
    totals: Vec<u64>,
}

impl Known {
    /// What the best plan in this order comes to.
    fn totals_in(&self, order: Order) -> &[u64] {
        match order {
            Order::Early => &EARLY_TOTALS_A[..self.totals.len()],
            Order::Late => &self.totals,
        }
    }
}

/// By hand. The second bucket, `SECOND_A`, holds 2 and drains 2. A rate of 4 fills it
/// from 0, and does not go in from 1 and 2; a rate of 2 leaves it as it is, and in an
/// interval without one it is emptied. So the best plan is the same, and the table
/// differs from Job A's only where 4 grains must be sent: after interval 1, with
/// nothing in the decoder.
fn known_lines() -> [Known; 2] {
    let one = Known {
        draft: job_a(),
        table: TABLE_A.concat().concat(),
        levels: LEVELS_A.to_vec(),
        totals: TOTALS_A.to_vec(),
    };
    let mut table: Vec<u32> = one.table.iter().flat_map(|&word| [word; 3]).collect();
    // A word for each level of the second bucket, for each level of the first.
    table[60..72].copy_from_slice(&[50, 70, 70, 50, 70, 70, 70, 70, 70, 70, 70, 70]);
    let two = Known {
        draft: job_a().doubled(SECOND_A),
        table,
        levels: vec![0, 0, 0, 0, 2, 2, 0, 2, 2],
        totals: vec![50, 6, 6, 2, 2],
    };
    [one, two]
}

/// The cases that the papers write out and their neighbours, worked out by hand.
fn job_a_group() -> Result<String, String> {
    use upload_planner::{best_plan, called, open, plan, replay, report, written, Refusal};
    let job = job_a().bytes();
    let aim = upload_planner::Aim::Total;
    let (first, second) = (Call::Pin { unit: 1, choice: 0 }, Call::Pin { unit: 2, choice: 0 });
    let (other, lifted) = (Call::Pin { unit: 1, choice: 1 }, Call::Lift { unit: 1 });
    let rows = [
        ((EARLY_A, EARLY_TOTALS_A[..4].to_vec()), ([2, 255, 255, 0, 1, 0, 1, 1, 0], [70, 4, 6, 0])),
        ((LATE_A, TOTALS_A.to_vec()), ([0, 255, 255, 1, 1, 0, 1, 1, 0], [70, 4, 4, 2])),
    ];

    let opened = open(&job).map_err(|refusal| refusal.to_string())?;
    let opened = (opened.bytes, opened.units, opened.intervals, opened.table_words);
    same("opened", (64, 2, 3, 80), opened)?;
    same("the default order", upload_planner::Order::Early, upload_planner::Order::default())?;
    for (order, (found, coarse)) in ORDERS.map(typed_order).into_iter().zip(rows) {
        let best = |calls: &[Call]| {
            best_plan(&job, calls, aim, order).map(|best| (best.entries, best.totals))
        };
        let found = (found.0.to_vec(), typed_totals(&found.1));
        let coarse = (coarse.0.to_vec(), typed_totals(&coarse.1));
        same("no pins", Ok(found.clone()), best(&[]))?;
        same("unit 1 pinned at 0", Ok(found.clone()), best(&[first]))?;
        same("and lifted", Ok(found.clone()), best(&[first, lifted]))?;
        same("unit 1 pinned at 1", Ok(coarse), best(&[other]))?;
        same("unit 1 pinned at 1 and lifted", Ok(found.clone()), best(&[other, lifted]))?;
        same("both pinned at 0", Err(Refusal::NoPlan), best(&[first, second]))?;
        same("unit 2 pinned at 0", Err(Refusal::NoPlan), best(&[second]))?;
        let table = best_plan(&job, &[], aim, order).map(|best| best.table);
        same("the table", Ok(TABLE_A.concat().concat()), table)?;
        let answers = best_plan(&job, &[lifted], aim, order).map(|best| best.answers);
        same("lift of no pin", Ok(vec![Err(Refusal::NotPinned)]), answers)?;

        let sized = |words: usize, bytes: usize| {
            plan(&job, &[], aim, order, &mut [], &mut vec![0; words], &mut vec![0; bytes])
        };
        same("79 words", Err(Refusal::TableTooShort), sized(79, 9))?;
        for bytes in [0, 5, 6, 8] {
            same("too few plan bytes", Err(Refusal::ListTooShort), sized(80, bytes))?;
        }
        same("80 words, nine bytes", Ok(found.1), sized(80, 9))?;
    }

    let pinned = |calls: &[Call]| {
        let made = called(&job, calls).map(|made| (answer_numbers(&made.answers), made.totals));
        made.map_err(|refusal| refusal.number())
    };
    let due = |answers: &[u8], totals| Ok((answers.to_vec(), typed_pins(totals)));
    same("pinned totals, no pins", due(&[], [0; 3]), pinned(&[]))?;
    same("pinned totals, unit 1 pinned", due(&[0], [1, 4, 10]), pinned(&[first]))?;
    same("pinned totals, lifted", due(&[0, 0], [0; 3]), pinned(&[first, lifted]))?;
    same("pinned totals, both pinned", due(&[0, 0], [2, 9, 22]), pinned(&[first, second]))?;
    same("pinned totals, lift of no pin", due(&[10], [0; 3]), pinned(&[lifted]))?;

    let replayed = |calls: &[Call], entries: &[u8]| {
        let mut levels = [9; 6];
        replay(&job, calls, entries, &mut levels).map(|replayed| (replayed, levels))
    };
    let violated = |violation, interval, levels: [u16; 6]| {
        Ok((Replayed::Violated { violation, interval }, levels))
    };
    let over = replayed(&[], &[2, 255, 255, 2, 1, 0, 0, 0, 0]);
    same("decoder over", violated(Violation::DecoderOver, 2, [4, 2, 9, 9, 9, 9]), over)?;
    let short = replayed(&[], &[0, 255, 255, 0, 1, 0, 0, 1, 0]);
    same("decoder short", violated(Violation::DecoderShort, 2, [0, 0, 9, 9, 9, 9]), short)?;
    let clean = Ok((Replayed::Clean(typed_totals(&TOTALS_A)), LEVELS_A));
    same("the best plan, late", clean, replayed(&[], &LATE_A))?;
    let clean = Ok((Replayed::Clean(typed_totals(&EARLY_TOTALS_A[..4])), [4, 2, 0, 0, 2, 2]));
    same("the best plan, early", clean, replayed(&[], &EARLY_A))?;
    // Of distortion 42, but with 2 + 4 grains in a decoder of 4 before unit 2
    // leaves with 5 of them.
    let finer = [1, 255, 255, 1, 1, 0, 2, 0, 0];
    let over = replayed(&[], &finer);
    same("over before unit 2", violated(Violation::DecoderOver, 3, [2, 0, 2, 0, 9, 9]), over)?;
    for (pinned, entries, levels) in
        [(first, finer, [2, 0, 9, 9, 9, 9]), (other, LATE_A, [0, 0, 9, 9, 9, 9])]
    {
        let unheld = replayed(&[pinned], &entries);
        same("a pin not held", violated(Violation::PinNotHeld, 2, levels), unheld)?;
    }

    for (entries, due) in [(finer, [2, 2, 4, 9]), (LATE_A, [0, 4, 2, 9]), (EARLY_A, [4, 0, 4, 9])] {
        let mut sums = [9; 4];
        same("report", Ok(()), report(&job, &entries, &mut sums))?;
        same("effective buffers", due, sums)?;
    }
    let opens = |draft: Draft| open(&draft.bytes()).err().map_or(0, |refusal| refusal.number());
    same("no bytes", Err(Refusal::Cut), open(&[]))?;
    same("drain 0", 17, opens(job_a().with(DRAIN, 0)))?;
    same("drain 0, second", 17, opens(job_a().doubled([2, 0, 0])))?;
    same("drain 1", 0, opens(job_a().with(DRAIN, 1)))?;
    let stored = upload_planner::archive(&job_a().with(DRAIN, 0).bytes());
    same("drain 0 to the archive", open(&job), stored)?;
    same("rates 2, 2", 4, opens(Draft { rates: vec![2, 2, 4], ..job_a() }))?;

    let header = Header {
        units: 2,
        delay: 1,
        decoder: 4,
        bucket: 3,
        drain: 2,
        level: 0,
        fill: 0,
        rates: 3,
        choices: 2,
        second: None,
    };
    let (rates, sizes) = ([0, 2, 4], [4, 2, 5, 2]);
    same("written", Ok(job), written(&header, &rates, &sizes, &[10, 30, 12, 40]))?;
    let over = written(&header, &rates, &sizes, &[10, 30, 12, 1_000_001]);
    same("distortion 1,000,001 written", Err(Refusal::Choices), over)?;
    let missing = written(&header, &rates, &sizes, &[10, 30, 12]);
    same("a distortion missing", Err(Refusal::Lengths), missing)?;

    let never = Header { drain: 0, ..header };
    let refused = written(&never, &rates, &sizes, &[10, 30, 12, 40]);
    same("drain 0 written", Err(Refusal::NeverDrains), refused)?;
    same("its number", 17, Refusal::NeverDrains.number())?;

    for number in 1..=22 {
        let refusal = Refusal::from_number(number).ok_or(format!("no refusal {number}"))?;
        same("a refusal's number", number, refusal.number())?;
        ensure!(!refusal.to_string().is_empty(), "refusal {number} has no words");
    }
    same("refusals beyond", (None, None), (Refusal::from_number(0), Refusal::from_number(23)))?;
    Ok("as written".to_string())
}

/// A job with a wrong record for each of the first five numbers, and right.
fn wrong_job(draft: &Draft, number: Refusal) -> Vec<u8> {
    let mut draft = draft.clone();
    let whole = draft.bytes();
    match number {
        1 => return whole[..whole.len() - 1].to_vec(),
        2 => return patched(&whole, 2, &[2]),
        3 => draft.header[DELAY] = 65,
        4 => draft.rates[2] = 2,
        5 => draft.units[1][1].0 = 4096,
        _ => (),
    }
    draft.bytes()
}

/// `need`, or less by one or by all of it.
fn cut_to(need: usize, short: bool, by_all: bool) -> usize {
    match (short, by_all) {
        (false, _) => need,
        (true, false) => need - 1,
        (true, true) => 0,
    }
}

/// Calls with an unknown kind, a cut last call, or both.
fn faulty_calls(pins: &[u16], kind: bool, cut: bool, longer: bool) -> Vec<u16> {
    let mut calls = pins.to_vec();
    if kind {
        let last = calls.len() - 3;
        calls[last] = 5;
    }
    if cut {
        calls.push(9);
        calls.extend(longer.then_some(1));
    }
    calls.shrink_to_fit();
    calls
}

/// Every set of defects at once: the first in order gives the number, and
/// nothing is written.
fn order_group() -> Result<String, String> {
    let mut rng = Rng(1);
    let mut sets = 0;
    for (known, wrong) in known_lines().iter().flat_map(|known| (0..=5).map(move |n| (known, n))) {
        let job = wrong_job(&known.draft, wrong);
        for bits in 0..1 << 9 {
            let has = |bit: usize| bits >> bit & 1 == 1;
            let named = |trouble: String| {
                let buckets = known.totals.len() - 3;
                format!("{buckets} buckets, job {wrong}, defects {bits:b}: {trouble}")
            };
            check_calls_order(&mut rng, &job, wrong, has).map_err(named)?;
            for order in ORDERS {
                check_plan_order(&mut rng, order, known, &job, wrong, has).map_err(named)?;
            }
            check_other_orders(&mut rng, known, &job, wrong, has).map_err(named)?;
            for door in DOORS {
                check_open_order(&mut rng, door, known, &job, wrong, has).map_err(named)?;
            }
            sets += 1;
        }
    }
    Ok(format!("{sets} sets of defects"))
}

fn check_calls_order(
    rng: &mut Rng,
    job: &[u8],
    wrong: Refusal,
    has: impl Fn(usize) -> bool,
) -> Checked {
    let [values, kind, cut, answers, refused] = std::array::from_fn(&has);
    let by_all = has(7);
    let made: [u16; 6] = if refused { [6, 1, 0, 7, 2, 9] } else { [6, 1, 0, 6, 2, 0] };
    let calls = faulty_calls(&made, kind, cut, has(8));
    let lengths = [cut_to(2, answers, by_all), cut_to(CALLS_VALUES, values, by_all)];
    let mut lent = CallLists::new(rng, lengths);
    let due = first_of(&[(wrong > 0, wrong), (kind, 2), (cut, 1), (answers, 12), (values, 12)]);
    same("calls", due, lent.make(job, &calls))?;
    match (due, refused) {
        (0, true) => lent.wrote(&[0, 10], &[1, 4, 10]),
        (0, false) => lent.wrote(&[0, 0], &[2, 9, 22]),
        _ => lent.kept(),
    }
}

fn check_plan_order(
    rng: &mut Rng,
    order: Order,
    known: &Known,
    job: &[u8],
    wrong: Refusal,
    has: impl Fn(usize) -> bool,
) -> Checked {
    let [values, kind, cut, table, answers, entries, no_plan] = std::array::from_fn(&has);
    let by_all = has(7);
    let pins: [u16; 6] = if no_plan { [6, 1, 0, 6, 2, 0] } else { [6, 1, 1, 7, 1, 9] };
    let calls = faulty_calls(&pins, kind, cut, has(8));
    let lengths = [
        cut_to(2, answers, by_all),
        cut_to(known.table.len(), table, by_all),
        cut_to(LATE_A.len(), entries, by_all),
        cut_to(known.totals.len(), values, by_all),
    ];
    let mut lent = PlanLists::new(rng, lengths);
    let due = first_of(&[
        (wrong > 0, wrong),
        (kind, 2),
        (cut, 1),
        (table, 11),
        (answers, 12),
        (entries, 12),
        (values, 12),
        (no_plan, 13),
    ]);
    same(&format!("plan, {order:?}"), due, lent.plan(order, job, &calls))?;
    match due {
        0 => {
            lent.answers.wrote("answers", &[0, 0])?;
            lent.table.wrote("table", &known.table)?;
            lent.entries.wrote("entries", &best_a(order))?;
            lent.values.wrote("values", known.totals_in(order))
        }
        13 => {
            let read = read_job(&mut Reader { rest: job }).expect("Job A");
            lent.table.wrote("table", &brute_table(&read, &vec![Some(0), Some(0)]))?;
            lent.kept_but_table()
        }
        _ => lent.kept(),
    }
}

fn check_other_orders(
    rng: &mut Rng,
    known: &Known,
    job: &[u8],
    wrong: Refusal,
    has: impl Fn(usize) -> bool,
) -> Checked {
    let [short, kind, cut, shape, list] = std::array::from_fn(&has);
    let by_all = has(7);
    let mut entries = LATE_A.to_vec();
    if shape {
        match has(5) {
            true => entries[3] = 3,
            false => entries.truncate(8),
        }
    }
    entries.shrink_to_fit();
    // A pin that the plan holds; where none is made, one that it does not hold.
    let pin = if known.draft.never_drains() { [6, 1, 1] } else { [6, 2, 1] };
    let calls = faulty_calls(&pin, kind, cut, has(8));
    let mut values = Lent::new(rng, cut_to(2 + known.totals.len(), short, by_all));
    let mut levels = Lent::new(rng, cut_to(known.levels.len(), list, by_all));
    let due =
        first_of(&[(wrong > 0, wrong), (kind, 2), (cut, 1), (shape, 14), (list, 12), (short, 12)]);
    let found = numbers::replay(job, &calls, &entries, levels.list(), values.list());
    same("replay", due, found)?;
    if due == 0 {
        values.wrote("values of replay", &[&[0, 0], &known.totals[..]].concat())?;
        levels.wrote("levels", &known.levels)?;
    } else {
        values.kept("values of replay")?;
        levels.kept("levels")?;
    }

    let mut sums = Lent::new(rng, cut_to(3, list, by_all));
    let due = first_of(&[(wrong > 0, wrong), (shape, 14), (list, 12)]);
    same("report", due, numbers::report(job, &entries, sums.list()))?;
    sums.wrote("sums", if due == 0 { &[0, 4, 2] } else { &[] })
}

fn check_open_order(
    rng: &mut Rng,
    door: Door,
    known: &Known,
    job: &[u8],
    wrong: Refusal,
    has: impl Fn(usize) -> bool,
) -> Checked {
    let (short, by_all) = (has(0), has(7));
    let mut values = Lent::new(rng, cut_to(4, short, by_all));
    let due = first_of(&[(wrong > 0, wrong), (short, 12)]);
    same(&format!("{door:?}"), due, open_by(door, job, values.list()))?;
    let buckets = known.draft.buckets();
    let words = buckets.iter().fold(4 * 5, |words, bucket| words * (bucket.size + 1));
    let opened = [known.draft.bytes().len() as u64, 2, 3, words as u64];
    values.wrote("values of open", if due == 0 { &opened } else { &[] })
}

/// Lists of every length up to what is needed, each alone.
fn lengths_group() -> Result<String, String> {
    let mut rng = Rng(2);
    let mut lists = 0;
    for known in &known_lines() {
        let checked = check_lengths(&mut rng, known);
        let buckets = known.totals.len() - 3;
        lists += checked.map_err(|trouble| format!("{buckets} buckets, {trouble}"))?;
    }
    Ok(format!("{lists} lists"))
}

/// Gives the number of lists.
fn check_lengths(rng: &mut Rng, known: &Known) -> Result<usize, String> {
    let job = known.draft.bytes();
    let calls = [6, 1, 1, 7, 1, 0, 7, 1, 0, 6, 2, 1];
    let needs = [4, known.table.len(), LATE_A.len(), known.totals.len()];
    let mut lists = 0;
    for (which, need) in needs.into_iter().enumerate() {
        for length in 0..=need + 2 {
            let mut lengths = needs;
            lengths[which] = length;
            let mut lent = PlanLists::new(rng, lengths);
            let number = if which == 1 { 11 } else { 12 };
            let due = if length < need { number } else { 0 };
            let order = order_in_turn(length);
            let found = lent.plan(order, &job, &calls);
            let what = format!("list {which} of {length}");
            same(&what, due, found)?;
            if due > 0 {
                lent.kept().map_err(|trouble| format!("{what}: {trouble}"))?;
            } else {
                lent.answers.wrote("answers", &[0, 0, 10, 0])?;
                lent.entries.wrote("entries", &best_a(order))?;
                lent.values.wrote("values", known.totals_in(order))?;
            }
            lists += 1;
        }
    }
    for length in 0..=6 {
        for lengths in [[length, CALLS_VALUES], [4, length]] {
            let mut lent = CallLists::new(rng, lengths);
            let short = lengths[0] < 4 || lengths[1] < CALLS_VALUES;
            let what = format!("answers and values of {lengths:?}");
            same(&what, if short { 12 } else { 0 }, lent.make(&job, &calls))?;
            let held = if short { lent.kept() } else { lent.wrote(&[0, 0, 10, 0], &[1, 2, 40]) };
            held.map_err(|trouble| format!("{what}: {trouble}"))?;
            lists += 1;
        }
    }
    let needs = [known.levels.len(), 2 + known.totals.len()];
    // The second interval breaks off, yet room is asked for all of them. What the
    // first sends leaves 2 in each bucket.
    let entries = [2, 255, 255, 2, 1, 0, 0, 0, 0];
    let reached: Vec<u16> = [4, 2, 2][..needs[0] / 3].to_vec();
    let mut named: Vec<u64> = vec![0; needs[1]];
    (named[0], named[1]) = (OVER, 2);
    for length in 0..=needs[0] + 2 {
        for [room, more] in [[length, needs[1]], [needs[0], length]] {
            let mut levels = Lent::new(rng, room);
            let mut values = Lent::new(rng, more);
            let found = numbers::replay(&job, &[], &entries, levels.list(), values.list());
            let short = room < needs[0] || more < needs[1];
            let what = format!("levels of {room}, values of {more}");
            same(&what, if short { 12 } else { 0 }, found)?;
            levels.wrote("levels", if short { &[] } else { &reached })?;
            values.wrote("values of replay", if short { &[] } else { &named })?;
        }
        let mut sums = Lent::new(rng, length);
        let found = numbers::report(&job, &entries, sums.list());
        same(&format!("sums of {length}"), if length < 3 { 12 } else { 0 }, found)?;
        sums.wrote("sums", if length < 3 { &[] } else { &[4, 4, 0] })?;
        lists += 3;
    }
    // A plan is 3 x T bytes, and no other length will do.
    for length in 0..=2 * LATE_A.len() {
        let mut levels = Lent::<u16>::new(rng, needs[0]);
        let mut values = Lent::<u64>::new(rng, needs[1]);
        let mut sums = Lent::<u32>::new(rng, 3);
        let entries: Vec<u8> = LATE_A.into_iter().cycle().take(length).collect();
        let replayed = numbers::replay(&job, &[], &entries, levels.list(), values.list());
        let reported = numbers::report(&job, &entries, sums.list());
        let due = if length == LATE_A.len() { 0 } else { 14 };
        same(&format!("a plan of {length} bytes"), [due; 2], [replayed, reported])?;
        levels.wrote("levels", if due > 0 { &[] } else { &known.levels })?;
        sums.wrote("sums", if due > 0 { &[] } else { &[0, 4, 2] })?;
        lists += 1;
    }
    Ok(lists)
}

/// Calls of other kinds in every place, and last calls that are cut, whatever
/// their kind.
fn kinds_group() -> Result<String, String> {
    let mut rng = Rng(3);
    let job = job_a().bytes();
    let whole = [6, 1, 1, 7, 1, 0, 6, 2, 1];
    let kinds = [0, 1, 2, 3, 4, 5, 6, 7, 8, 255, 256, 262, 263, 0x0600, 0x8006, 0xffff];
    let tails: [&[u16]; 7] = [&[], &[6], &[7], &[9], &[6, 1], &[7, 1], &[9, 1]];
    let mut lists = 0;
    for place in 0..3 {
        for kind in kinds {
            for tail in tails {
                let mut calls = whole.to_vec();
                calls[3 * place] = kind;
                calls.extend_from_slice(tail);
                let known = kind == 6 || kind == 7;
                let due = first_of(&[(!known, 2), (!tail.is_empty(), 1)]);
                let mut made = CallLists::new(&mut rng, [4, CALLS_VALUES]);
                let alone = made.make(&job, &calls);
                let mut lent = PlanLists::new(&mut rng, [4, 80, LATE_A.len(), TOTALS_A.len()]);
                let found = lent.plan(rng.pick(&ORDERS), &job, &calls);
                let mut levels = Lent::<u16>::new(&mut rng, 6);
                let mut values = Lent::<u64>::new(&mut rng, 2 + TOTALS_A.len());
                let again = numbers::replay(&job, &calls, &LATE_A, levels.list(), values.list());
                same(&format!("calls {calls:?}"), [due; 3], [alone, found, again])?;
                if due > 0 {
                    made.kept()?;
                    lent.kept()?;
                    levels.kept("levels")?;
                    values.kept("values of replay")?;
                }
                lists += 1;
            }
        }
    }
    Ok(format!("{lists} lists of calls"))
}

// ---------------------------------------------------------------------------
// Lines that never drain.
// ---------------------------------------------------------------------------

/// A job that never drains, and a plan of it. What opens or plans refuses it by 17,
/// whatever the calls and the lists; the archive opens it, and the plan is replayed,
/// reported and turned.
fn check_never(rng: &mut Rng, asked: &Asked, plan: &Plan) -> Checked {
    check_open(rng, asked)?;
    check_doors(&asked.bytes)?;
    let any = std::array::from_fn(|_| rng.from(0, 7));
    let cut = rng.from(0, asked.calls.len());
    check_not_opened(rng, &asked.bytes, 17, &asked.calls, ENOUGH)?;
    check_not_opened(rng, &asked.bytes, 17, &asked.calls[..cut], any)?;
    check_replay(rng, asked, plan)?;
    check_report(rng, asked, plan)?;
    check_turned(rng, asked, &former_bytes(plan))?;
    check_filling(asked, plan)
}

/// Where the drain is 0, a level is the one before and what is sent, and nothing of the
/// drain goes by: from what the library writes alone, and with the calls left out.
fn check_filling(asked: &Asked, plan: &Plan) -> Checked {
    let job = &asked.job;
    let (mut levels, mut values) = (vec![7; level_numbers(job)], vec![7; replay_values(job)]);
    let found = numbers::replay(&asked.bytes, &[], &plan_bytes(plan), &mut levels, &mut values);
    same("replay without calls", 0, found)?;
    let due = upload_planner::replayed(&asked.bytes, &asked.typed_calls(), &plan_bytes(plan));
    let held = if values[0] == 0 { job.intervals() } else { values[1] as usize - 1 };
    let each = 1 + job.buckets.len();
    let written = typed_levels(job, &levels[..each * held]);
    same("replay with calls", due, Ok((written, typed_replay(&values))))?;
    for (at, bucket) in job.buckets.iter().enumerate().filter(|(_, bucket)| bucket.drain == 0) {
        let mut level = bucket.start;
        for (t, after) in levels.chunks(each).take(held).enumerate() {
            level += job.rates[plan[t].0];
            same(&format!("bucket {at} in interval {}", t + 1), level, after[1 + at] as i64)?;
        }
        same("unused drain", 0, values[5 + at])?;
    }
    Ok(())
}

/// Job A with a first bucket and perhaps a second one: size, drain, starting level.
fn line_of_a(first: [u16; 3], second: Option<[u16; 3]>) -> Draft {
    let [size, drain, start] = first;
    let a = job_a().with(BUCKET, size).with(DRAIN, drain).with(START_BUCKET, start);
    second.map_or(a.clone(), |second| a.doubled(second))
}

/// Lists of calls of which none is made: pins that the best plan holds and does not
/// hold, lifts, and such as are refused on any line.
fn idle_calls() -> [Vec<Command>; 6] {
    [
        vec![],
        vec![Pin(1, 1)],
        vec![Pin(1, 0), Pin(2, 1)],
        vec![Pin(2, 0), Lift(2), Pin(2, 0)],
        vec![Lift(1), Lift(2), Pin(1, 1)],
        vec![Pin(0, 0), Pin(3, 1), Pin(1, 2), Lift(3), Pin(1, 1), Pin(1, 1)],
    ]
}

/// Replays by hand. The best plan sends 0, 4 and 2 grains, the other one 2 each time, and
/// both leave the decoder empty but for 2 grains in the other's first interval.
fn never_drains_group() -> Result<String, String> {
    let mut rng = Rng(1);
    let best = [(0, NO_CHOICE), (2, 0), (1, 1)];
    let other = [(1, NO_CHOICE), (1, 0), (1, 1)];
    let early = [(1, NO_CHOICE), (2, 1), (1, 1)];
    let none = [(0, NO_CHOICE), (0, 1), (0, 1)];
    let one = None;
    let rows: [([u16; 3], Option<[u16; 3]>, [Pair; 3], &[u16], &[u64]); 24] = [
        // All that is sent is there at the end, and just goes in or does not.
        ([6, 0, 0], one, best, &[0, 0, 0, 4, 0, 6], &[0, 0, 50, 6, 6, 0]),
        ([6, 0, 0], one, other, &[2, 2, 0, 4, 0, 6], &[0, 0, 50, 6, 6, 0]),
        ([7, 0, 1], one, best, &[0, 1, 0, 5, 0, 7], &[0, 0, 50, 6, 6, 0]),
        ([255, 0, 249], one, best, &[0, 249, 0, 253, 0, 255], &[0, 0, 50, 6, 6, 0]),
        ([255, 0, 250], one, best, &[0, 250, 0, 254], &[BUCKET_OVER, 3]),
        ([5, 0, 0], one, best, &[0, 0, 0, 4], &[BUCKET_OVER, 3]),
        ([3, 0, 0], one, best, &[0, 0], &[BUCKET_OVER, 2]),
        ([6, 0, 6], one, best, &[0, 6], &[BUCKET_OVER, 2]),
        ([6, 0, 5], one, other, &[], &[BUCKET_OVER, 1]),
        ([0, 0, 0], one, other, &[], &[BUCKET_OVER, 1]),
        // Nothing is sent, and unit 1 is not there; 6 are there before it leaves, and in
        // the bucket too.
        ([0, 0, 0], one, none, &[0, 0], &[SHORT, 2]),
        ([9, 0, 9], one, none, &[0, 9], &[SHORT, 2]),
        ([3, 0, 0], one, early, &[2, 2], &[OVER, 2]),
        // The second never drains, the first, or both.
        ([3, 2, 0], Some([6, 0, 0]), best, &[0, 0, 0, 0, 2, 4, 0, 2, 6], &[0, 0, 50, 6, 6, 2, 0]),
        ([3, 2, 0], Some([5, 0, 0]), best, &[0, 0, 0, 0, 2, 4], &[SECOND_OVER, 3]),
        ([6, 0, 0], Some([2, 2, 0]), best, &[0, 0, 0, 0, 4, 2, 0, 6, 2], &[0, 0, 50, 6, 6, 0, 2]),
        ([5, 0, 0], Some([2, 2, 0]), best, &[0, 0, 0, 0, 4, 2], &[BUCKET_OVER, 3]),
        ([6, 0, 0], Some([1, 2, 0]), best, &[0, 0, 0], &[SECOND_OVER, 2]),
        (
            [6, 0, 0],
            Some([63, 0, 57]),
            best,
            &[0, 0, 57, 0, 4, 61, 0, 6, 63],
            &[0, 0, 50, 6, 6, 0, 0],
        ),
        ([6, 0, 0], Some([63, 0, 58]), best, &[0, 0, 58, 0, 4, 62], &[SECOND_OVER, 3]),
        // Both are over, and the first is named; or only the second is.
        ([3, 0, 0], Some([3, 0, 0]), best, &[0, 0, 0], &[BUCKET_OVER, 2]),
        ([4, 0, 0], Some([3, 0, 0]), best, &[0, 0, 0], &[SECOND_OVER, 2]),
        ([0, 0, 0], Some([0, 0, 0]), other, &[], &[BUCKET_OVER, 1]),
        ([3, 2, 0], Some([0, 0, 0]), none, &[0, 0, 0], &[SHORT, 2]),
    ];
    for (first, second, plan, levels, named) in rows {
        let draft = line_of_a(first, second);
        let plan = plan.to_vec();
        for commands in idle_calls() {
            let asked = Asked::new(&mut rng, &draft.commanded(&commands));
            let what = format!("buckets {first:?} {second:?}, {:?}, {plan:?}", asked.calls);
            let due = follow(&asked.job, &asked.pins, &plan);
            let mut values = named.to_vec();
            values.resize(replay_values(&asked.job), 0);
            same(&what, (levels, &values), (&due.levels[..], &due.values))?;
            check_never(&mut rng, &asked, &plan).map_err(|t| format!("{what}: {t}"))?;
            let words = 20 * draft.header[BUCKET] as u64 + 20;
            let words = words * second.map_or(1, |second| second[0] as u64 + 1);
            let due = [draft.bytes().len() as u64, 2, 3, words];
            let mut values = Lent::new(&mut rng, 4);
            same(&what, 0, numbers::archive(&asked.bytes, values.list()))?;
            values.wrote("values of the archive by hand", &due)?;
        }
        // As soon as something drains, pins are made.
        if named[0] == 0 {
            let drained = draft.with(DRAIN, 2);
            let drained = if second.is_some() { drained.with(SECOND_DRAIN, 4) } else { drained };
            let asked = Asked::new(&mut rng, &drained.commanded(&[Pin(1, 1)]));
            let due = follow(&asked.job, &asked.pins, &plan).values;
            same("a pin of unit 1 with a drain", [NOT_HELD, 2], [due[0], due[1]])?;
            check_replay(&mut rng, &asked, &plan)?;
        }
    }
    // Turned from two bytes an interval, and the report: as on any line.
    for draft in &drains_of_a() {
        let asked = Asked::new(&mut rng, draft);
        let found = upload_planner::turned(&asked.bytes, &[0, 255, 2, 0, 1, 1]);
        same("turned by hand", Ok(LATE_A.to_vec()), found)?;
        let mut sums = Lent::new(&mut rng, 3);
        same("report by hand", 0, numbers::report(&asked.bytes, &LATE_A, sums.list()))?;
        sums.wrote("sums by hand", &[0, 4, 2])?;
    }
    Ok(format!("{} replays by hand, each with {} lists of calls", rows.len(), idle_calls().len()))
}

/// A drain of 0 in either bucket or both, with every fault of the header before it and
/// every fault of another record behind it: 17 comes directly after 3, and not to the
/// archive.
fn doors_group() -> Result<String, String> {
    let mut rng = Rng(1);
    let mut inputs = 0;
    let mut check = |bytes: &[u8], never: bool, head: Refusal, tail: Refusal| -> Checked {
        let opened = first_of(&[(head > 0, head), (never, 17), (tail > 0, tail)]) as Refusal;
        let stored = first_of(&[(head > 0, head), (tail > 0, tail)]) as Refusal;
        let found = check_bytes(&mut rng, bytes);
        let checked = found.and_then(|found| same("numbers", [opened, stored], found));
        inputs += 1;
        checked.map_err(|trouble| format!("{trouble}\n  job {}", hex(bytes)))
    };
    for a in &drains_of_a() {
        let never = a.never_drains();
        let tails = faulty_tails(a);
        for (header, head) in faulty_headers(a) {
            for (tail, number) in tails.iter().step_by(if small() { 7 } else { 1 }) {
                check(&then(header.clone(), tail), never, head, *number)?;
            }
            // A header that is cut, whatever its fields: the kind is looked at first, by
            // its fourth byte.
            for cut in 0..header.len() {
                let number = if head == 2 && cut >= 4 { 2 } else { 1 };
                check(&header[..cut], never, number, 0)?;
            }
        }
    }
    Ok(format!("{inputs} inputs"))
}

/// Job A on lines that never drain, in which the best plan goes through: with what its
/// levels and totals come to.
fn stored_lines() -> [Known; 4] {
    let known = |draft: Draft, levels: &[u16], totals: &[u64]| Known {
        draft,
        table: Vec::new(),
        levels: levels.to_vec(),
        totals: totals.to_vec(),
    };
    let first = line_of_a([6, 0, 0], None);
    [
        known(first.clone(), &[0, 0, 0, 4, 0, 6], &[50, 6, 6, 0]),
        known(first.doubled(SECOND_A), &[0, 0, 0, 0, 4, 2, 0, 6, 2], &[50, 6, 6, 0, 2]),
        known(job_a().doubled([6, 0, 0]), &[0, 0, 0, 0, 2, 4, 0, 2, 6], &[50, 6, 6, 2, 0]),
        known(first.doubled([7, 0, 1]), &[0, 0, 1, 0, 4, 5, 0, 6, 7], &[50, 6, 6, 0, 0]),
    ]
}

/// Every set of defects of calls, plan and lists on jobs that never drain, and on such
/// jobs with a wrong record.
fn stored_order_group() -> Result<String, String> {
    let mut rng = Rng(1);
    let mut sets = 0;
    for (known, wrong) in stored_lines().iter().flat_map(|known| (0..=5).map(move |n| (known, n))) {
        let job = wrong_job(&known.draft, wrong);
        // The wrong byte of 1 is the last one; only 2 and 3 are in the header.
        let opened = if wrong == 2 || wrong == 3 { wrong } else { 17 };
        for bits in (0..1 << 9).step_by(if small() { 5 } else { 1 }) {
            let has = |bit: usize| bits >> bit & 1 == 1;
            check_never_order(&mut rng, known, &job, [opened, wrong], has).map_err(|trouble| {
                let header = &known.draft.header;
                format!("header {header:?}, job {wrong}, defects {bits:b}: {trouble}")
            })?;
            sets += 1;
        }
    }
    Ok(format!("{sets} sets of defects"))
}

fn check_never_order(
    rng: &mut Rng,
    known: &Known,
    job: &[u8],
    [opened, wrong]: [Refusal; 2],
    has: impl Fn(usize) -> bool,
) -> Checked {
    let [short, kind, cut, shape, list] = std::array::from_fn(&has);
    let by_all = has(7);
    let calls = faulty_calls(&[6, 1, 1, 7, 2, 1], kind, cut, has(8));
    let due = opened as u32;
    let mut lent = CallLists::new(rng, [cut_to(2, list, by_all), cut_to(3, short, by_all)]);
    same("calls", due, lent.make(job, &calls))?;
    lent.kept()?;
    let lengths =
        [cut_to(2, list, by_all), cut_to(2000, shape, by_all), cut_to(9, has(5), by_all), 5];
    let mut lent = PlanLists::new(rng, lengths);
    let aim = if has(6) { rng.pick(&WRONG_AIMS) } else { rng.pick(&[TOTAL, EVEN]) };
    let order = if rng.one_in(2) { rng.pick(&WRONG_AIMS) } else { rng.pick(&[EARLY, LATE]) };
    same("plan", due, lent.plan_for(aim, order, job, &calls))?;
    lent.kept()?;

    check_open_order(rng, Door::Opening, known, job, opened, &has)?;
    check_open_order(rng, Door::Archive, known, job, wrong, &has)?;
    check_other_orders(rng, known, job, wrong, &has)?;
    let mut old = vec![0, 255, 2, 0, 1, 1];
    if shape {
        old[has(5) as usize] = 7;
    }
    let mut entries = Lent::new(rng, cut_to(9, list, by_all));
    let due = first_of(&[(wrong > 0, wrong), (shape, 14), (list, 12)]);
    same("turn", due, numbers::turn(job, &old, entries.list()))?;
    entries.wrote("entries of turning", if due == 0 { &LATE_A } else { &[] })
}

/// Every short list of calls before a replay on a line that never drains, and calls of
/// other kinds or cut ones among them.
fn stored_calls_group() -> Result<String, String> {
    let mut rng = Rng(1);
    let mut lists = 0;
    let lines = stored_lines();
    for (index, list) in command_lists().iter().enumerate() {
        if small() && index % 31 > 0 {
            continue;
        }
        let known = &lines[index % lines.len()];
        let asked = Asked::new(&mut rng, &known.draft.commanded(list));
        let plan = read_plan(&asked.job, &LATE_A).expect("a plan");
        let mut check = || -> Checked {
            same("answers", vec![17; list.len()], asked.answers.clone())?;
            let due = follow(&asked.job, &asked.pins, &plan);
            let values = [&[0, 0], &known.totals[..]].concat();
            same("by hand", (&known.levels, &values), (&due.levels, &due.values))?;
            check_replay(&mut rng, &asked, &plan)
        };
        check().map_err(|trouble| format!("{trouble}\n  {}", asked.show()))?;
        lists += 1;
    }
    let kinds = [0, 1, 2, 5, 6, 7, 8, 17, 255, 256, 262, 263, 0x0600, 0x8006, 0xffff];
    let tails: [&[u16]; 7] = [&[], &[6], &[7], &[9], &[6, 1], &[7, 1], &[9, 1]];
    for (known, place) in lines.iter().flat_map(|known| (0..3).map(move |place| (known, place))) {
        let job = known.draft.bytes();
        for (kind, tail) in kinds.iter().flat_map(|kind| tails.map(|tail| (*kind, tail))) {
            let mut calls = vec![6, 1, 1, 7, 1, 0, 6, 2, 0];
            calls[3 * place] = kind;
            calls.extend_from_slice(tail);
            let due = first_of(&[(kind != 6 && kind != 7, 2), (!tail.is_empty(), 1)]);
            let mut levels = Lent::new(&mut rng, known.levels.len());
            let mut values = Lent::new(&mut rng, 2 + known.totals.len());
            let found = numbers::replay(&job, &calls, &LATE_A, levels.list(), values.list());
            same(&format!("calls {calls:?}"), due, found)?;
            let replayed = [&[0, 0], &known.totals[..]].concat();
            levels.wrote("levels", if due > 0 { &[] } else { &known.levels })?;
            values.wrote("values", if due > 0 { &[] } else { &replayed })?;
            let mut made = CallLists::new(&mut rng, [4, CALLS_VALUES]);
            same("calls alone", 17, made.make(&job, &calls))?;
            made.kept()?;
            lists += 1;
        }
    }
    Ok(format!("{lists} lists of calls"))
}

/// Values of every length for both doors, on lines that drain and that never do.
fn door_lengths_group() -> Result<String, String> {
    let mut rng = Rng(1);
    let mut lists = 0;
    for draft in &drains_of_a() {
        let bytes = draft.bytes();
        let words = if draft.buckets().len() > 1 { 240 } else { 80 };
        let taken = [bytes.len() as u64, 2, 3, words];
        for (door, length) in DOORS.iter().flat_map(|door| (0..=6).map(move |n| (*door, n))) {
            let mut values = Lent::new(&mut rng, length);
            let never = door == Door::Opening && draft.never_drains();
            let due = first_of(&[(never, 17), (length < 4, 12)]);
            let what = format!("header {:?}, {door:?}, {length} values", draft.header);
            same(&what, due, open_by(door, &bytes, values.list()))?;
            values.wrote(&what, if due == 0 { &taken } else { &[] })?;
            lists += 1;
        }
    }
    Ok(format!("{lists} lists"))
}

/// Random jobs that never drain, with calls of all kinds and plans that go on as long as
/// the buckets take it. What the report and turning make of them is what they make of
/// the job with another drain.
fn stored_group(seed: u64, asks: bool) -> Result<String, String> {
    let mut rng = Rng(seed);
    let (mut tally, mut deep, mut calls, mut unlike) = ([0; 6], 0, 0, 0);
    let jobs = scaled(600);
    for index in 1..=jobs {
        let draft = match index % 12 {
            0 if index % 48 == 0 => random_long_double(&mut rng),
            0 if index % 48 == 24 => random_long_job(&mut rng),
            1 => random_medium_double(&mut rng),
            2 | 3 => random_job(&mut rng, &MEDIUM),
            4 => random_double_job(&mut rng, &DOUBLE[1]),
            5 => random_tight_job(&mut rng, &TIGHT[0]),
            6 => random_many_job(&mut rng, &MANY[0]),
            7..=9 => random_tiny_double(&mut rng),
            _ => random_job(&mut rng, &TINY),
        };
        let drained = draft.clone();
        let draft = random_stored(&mut rng, &draft, 1);
        let asked = Asked::new(&mut rng, &draft);
        let other = Asked::new(&mut rng, &drained);
        for which in 0..4 {
            let plan = match which {
                0 => tight_plan(&mut rng, &asked.job, &asked.pins, 4),
                _ => random_plan(&mut rng, &asked.job, &asked.pins),
            };
            let check = |rng: &mut Rng| -> Checked {
                check_never(rng, &asked, &plan)?;
                check_misshapen(rng, &asked, &plan)?;
                check_alike(&asked, &other, &plan)
            };
            let named = |trouble: String| format!("{trouble}\n  plan {plan:?}");
            let checked = check(&mut rng).map_err(named);
            checked.map_err(|trouble| failed(seed, index, &trouble, &asked))?;
            let due = follow(&asked.job, &asked.pins, &plan).values;
            tally[due[0] as usize] += 1;
            deep += (due[1] > 2) as usize;
            calls += asked.answers.len();
            // Pins that are made elsewhere would not be held here.
            let held = other.pins.iter().zip(&plan[asked.job.delay..]);
            let held = held.filter(|(pinned, entry)| pinned.is_some_and(|p| p != entry.1));
            unlike += (due[0] == 0 && held.count() > 0) as usize;
        }
    }
    let [clean, short, over, bucket, _, second] = tally;
    let counts = format!(
        "{} plans: {clean} clean, {short} decoder short, {over} decoder over, {bucket} bucket \
         over, {second} second bucket over; {deep} violations past interval 2; {calls} calls, \
         {unlike} clean plans that would not hold them",
        4 * jobs
    );
    let seen = [clean, short, over, bucket, second, deep, unlike];
    let worthwhile = seen.iter().all(|count| count * 15 > jobs);
    ensure!(worthwhile || !asks, "too little in it: {counts}");
    Ok(counts)
}

/// The report and turning do not look at the buckets.
fn check_alike(asked: &Asked, other: &Asked, plan: &Plan) -> Checked {
    let (entries, old) = (plan_bytes(plan), former_bytes(plan));
    let [one, two] = [asked, other].map(|asked| {
        let (mut sums, mut turned) = (vec![7; asked.job.units.len() + 1], vec![7; entries.len()]);
        let reported = numbers::report(&asked.bytes, &entries, &mut sums);
        let number = numbers::turn(&asked.bytes, &old, &mut turned);
        (reported, sums, number, turned)
    });
    same("report and turning with another drain", two, one)
}

// ---------------------------------------------------------------------------
// Layers made again.
// ---------------------------------------------------------------------------

/// The most that a total can be: 512 units at 1,000,000. A greater word is read as
/// "cannot be completed".
const MOST_TOTAL: u32 = 512_000_000;

/// How a word of the next layer is read: `FAR` where nothing can be completed from it.
type Reading = fn(u32) -> u32;

/// Makes the layers below `upto` again, each from the next, and the last of them from
/// what stands in layer `upto`.
fn renewed(job: &Job, pins: &Pins, words: &[u32], upto: usize) -> Vec<u32> {
    renewed_by(|word| if word > MOST_TOTAL { FAR } else { word }, job, pins, words, upto)
}

fn renewed_by(read: Reading, job: &Job, pins: &Pins, words: &[u32], upto: usize) -> Vec<u32> {
    let (rows, width) = (job.decoder_size as usize + 1, job.width());
    let layer = rows * width;
    let mut table = words.to_vec();
    for t in (1..=upto).rev() {
        let (before, from) = table.split_at_mut(t * layer);
        let next: Vec<u32> = from[..layer].iter().map(|&word| read(word)).collect();
        let decoded = decode_layer(&options(job, pins, t), &next, width);
        let made = send_layer(job, &decoded, rows, width);
        let words = made.iter().map(|&value| if value >= FAR { NEVER } else { value });
        before[(t - 1) * layer..].iter_mut().zip(words).for_each(|(word, value)| *word = value);
    }
    table
}

/// The same by plain loops over levels, rates and choices.
fn renewed_by_loops(job: &Job, pins: &Pins, words: &[u32], upto: usize) -> Vec<u32> {
    let mut table = words.to_vec();
    let all_levels = job.all_levels();
    for t in (1..=upto).rev() {
        let options = options(job, pins, t);
        for decoder in 0..=job.decoder_size {
            for levels in &all_levels {
                let mut least: Option<i64> = None;
                for &sent in &job.rates {
                    let Some(after) = filled(job, levels, sent) else { continue };
                    for &(_, grains, distortion) in &options {
                        let Some(level) = by_peak(job, decoder, sent, grains) else { continue };
                        let rest = table[job.word(t, level, &after)];
                        if rest <= MOST_TOTAL {
                            let sum = distortion + rest as i64;
                            least = Some(least.map_or(sum, |held| held.min(sum)));
                        }
                    }
                }
                let word = least.map_or(NEVER, |sum| sum as u32);
                table[job.word(t - 1, decoder, levels)] = word;
            }
        }
    }
    table
}

// ---------------------------------------------------------------------------
// Sets of pins: what is lent from call to call, and what it is to hold.
// ---------------------------------------------------------------------------

/// A job, a book of its pins, and the set and the table that are lent in every call.
struct Desk {
    bytes: Vec<u8>,
    job: Job,
    book: Book,
    set: Lent<u32>,
    table: Lent<u32>,
    /// What the table holds.
    words: Vec<u32>,
    /// Whether that is what planning for the total makes with the pins of the book.
    own: bool,
}

impl Desk {
    /// The set without a pin, and a table in which anything stands.
    fn new(rng: &mut Rng, draft: &Draft) -> Result<Desk, String> {
        let Asked { bytes, job, .. } = Asked::new(rng, draft);
        let room = job.words() + slack(rng);
        Desk::lent(rng, bytes, job, room)
    }

    /// `room` is the length of the table; 0 for jobs of which none is made.
    fn lent(rng: &mut Rng, bytes: Vec<u8>, job: Job, room: usize) -> Result<Desk, String> {
        let more = slack(rng);
        let mut set = Lent::new(rng, SET_NUMBERS + more);
        same("set", 0, numbers::set(&bytes, set.list()))?;
        let table = Lent::new(rng, room);
        let words = table.held()[..room.min(job.words())].to_vec();
        let desk = Desk { bytes, job, book: Book::new(), set, table, words, own: false };
        desk.holds()?;
        Ok(desk)
    }

    fn pins(&self) -> Pins {
        pins_of(&self.job, &self.book)
    }

    /// The set and the table are as they are to be, and so is all around them.
    fn holds(&self) -> Checked {
        self.set.wrote("set", &set_numbers(&self.job, &self.book))?;
        self.table.wrote("table", &self.words)
    }

    /// Puts the set of these pins in the place of the one held.
    fn put_book(&mut self, book: Book) {
        self.set.list()[..SET_NUMBERS].copy_from_slice(&set_numbers(&self.job, &book));
        (self.book, self.own) = (book, false);
    }

    /// Puts these words in the place of those held.
    fn put_words(&mut self, words: Vec<u32>) {
        self.table.list()[..words.len()].copy_from_slice(&words);
        (self.words, self.own) = (words, false);
    }

    /// The word of layer 0 at the starting levels.
    fn total(&self) -> u32 {
        self.words[self.job.word(0, self.job.start_decoder, &self.job.start_levels())]
    }

    /// How many layers a call for this unit makes again.
    fn layers(&self, unit: u16) -> usize {
        unit as usize + self.job.delay
    }

    /// Pins or lifts, as the call says. Gives the number due.
    fn make(&mut self, call: [u16; 3]) -> Result<Refusal, String> {
        let due = step_book(&self.job, &mut self.book, call);
        let [kind, unit, choice] = call;
        let (job, set) = (&self.bytes, self.set.list());
        let found = match kind {
            6 => numbers::pin(job, set, unit, choice),
            _ => numbers::lift(job, set, unit),
        };
        let what = format!("call {call:?}");
        same(&what, due as u32, found)?;
        self.own &= due > 0;
        self.holds().map_err(|trouble| format!("{what}: {trouble}"))?;
        Ok(due)
    }

    /// Pins or lifts and sees, with a table that is so many words short and a list of
    /// this length for values. Gives the number due.
    fn see(
        &mut self,
        rng: &mut Rng,
        call: [u16; 3],
        short: usize,
        room: usize,
    ) -> Result<Refusal, String> {
        let mut book = self.book.clone();
        let refused = step_book(&self.job, &mut book, call);
        let due = first_of(&[(refused > 0, refused), (short > 0, 11), (room < 1, 12)]);
        let whole = self.table.list().len();
        let length = if short > 0 { self.job.words() - short } else { whole };
        let mut values = Lent::new(rng, room);
        let [kind, unit, choice] = call;
        let (job, set, table) = (&self.bytes, self.set.list(), &mut self.table.list()[..length]);
        let found = match kind {
            6 => numbers::pin_and_see(job, set, unit, choice, table, values.list()),
            _ => numbers::lift_and_see(job, set, unit, table, values.list()),
        };
        let what = format!("call {call:?} that sees, {short} words short, {room} values");
        same(&what, due, found)?;
        if due == 0 {
            self.book = book;
            let pins = self.pins();
            self.words = match self.own {
                true => fast_table(&self.job, &pins),
                false => renewed(&self.job, &pins, &self.words, self.layers(unit)),
            };
        }
        let total = [self.total() as u64];
        let wrote = values.wrote("value", if due == 0 { &total } else { &[] });
        wrote.and_then(|_| self.holds()).map_err(|trouble| format!("{what}: {trouble}"))?;
        Ok(due as Refusal)
    }

    /// Plans, before that with one of the lists one short. Gives the plan due.
    fn plan(&mut self, rng: &mut Rng, aim: Aim, order: Order) -> Result<Option<Plan>, String> {
        let due = due_for(aim, &self.job, &self.pins());
        let plan = plan_in(order, &due.plans).clone();
        self.plan_due(rng, aim, order, due.table, &plan)
            .map_err(|trouble| format!("{aim:?}, {order:?}: {trouble}"))?;
        Ok(plan)
    }

    fn plan_due(
        &mut self,
        rng: &mut Rng,
        aim: Aim,
        order: Order,
        table: Vec<u32>,
        plan: &Option<Plan>,
    ) -> Checked {
        let needs = [table.len(), ENTRY_BYTES * self.job.intervals(), plan_values(&self.job)];
        let lengths = one_short(needs, rng.from(0, 2)).expect("needed");
        let lists = self.plan_in(rng, aim.number(), order.number(), lengths);
        let (number, entries, values) = lists;
        same("plan, a list one short", if lengths[0] < needs[0] { 11 } else { 12 }, number)?;
        entries.kept("entries")?;
        values.kept("values")?;
        self.holds()?;

        let lengths = [self.table.list().len(), needs[1] + slack(rng), needs[2] + slack(rng)];
        let lists = self.plan_in(rng, aim.number(), order.number(), lengths);
        let (number, entries, values) = lists;
        same("plan", if plan.is_some() { 0 } else { 13 }, number)?;
        (self.words, self.own) = (table, aim == Aim::Total || plan.is_none());
        self.holds()?;
        let Some(plan) = plan else {
            entries.kept("entries")?;
            return values.kept("values");
        };
        entries.wrote("entries", &plan_bytes(plan))?;
        let totals = replay(&self.job, &self.pins(), plan, |_, _| ());
        let totals = totals.ok_or("the plan due is not admissible")?.numbers();
        let totals: Vec<u64> = totals.into_iter().map(|total| total as u64).collect();
        values.wrote("values", &totals)
    }

    /// The answer of planning, its entries and its values. `lengths`: table, entries,
    /// values.
    fn plan_in(
        &mut self,
        rng: &mut Rng,
        aim: u32,
        order: u32,
        lengths: [usize; 3],
    ) -> (u32, Lent<u8>, Lent<u64>) {
        let mut entries = Lent::new(rng, lengths[1]);
        let mut values = Lent::new(rng, lengths[2]);
        let table = &mut self.table.list()[..lengths[0]];
        let (job, set) = (&self.bytes, self.set.held());
        let number = numbers::plan_set(job, set, aim, order, table, entries.list(), values.list());
        (number, entries, values)
    }

    /// The table, planned by calls that set the book's pins in any order.
    fn plan_by_calls(&mut self, rng: &mut Rng) -> Checked {
        let calls = fresh_calls(rng, &self.pins());
        let asked = Asked::with(self.bytes.clone(), self.job.clone(), calls);
        let [answers, _, entries, values] = asked.needs();
        let number = numbers::plan(
            &asked.bytes,
            &asked.calls,
            TOTAL,
            order_in_turn(asked.answers.len()).number(),
            &mut vec![0; answers],
            self.table.list(),
            &mut vec![0; entries],
            &mut vec![0; values],
        );
        (self.words, self.own) = (fast_table(&self.job, &asked.pins), true);
        same("plan by calls", if self.total() == NEVER { 13 } else { 0 }, number)?;
        self.holds()
    }

    /// Follows a plan with the pins of the set, before that with a list one short. Gives
    /// the values due.
    fn replay(&self, rng: &mut Rng, plan: &Plan) -> Result<Vec<u64>, String> {
        let due = follow(&self.job, &self.pins(), plan);
        let entries = plan_bytes(plan);
        let needs = [level_numbers(&self.job), replay_values(&self.job)];
        let short = one_short(needs, rng.from(0, 1)).expect("needed");
        for lengths in [short, needs.map(|need| need + slack(rng))] {
            let number = if lengths == short { 12 } else { 0 };
            let mut levels = Lent::new(rng, lengths[0]);
            let mut values = Lent::new(rng, lengths[1]);
            let (job, set) = (&self.bytes, self.set.held());
            let found = numbers::replay_set(job, set, &entries, levels.list(), values.list());
            same("replay with a set", number, found)?;
            levels.wrote("levels", if number > 0 { &[] } else { &due.levels })?;
            values.wrote("values of replay", if number > 0 { &[] } else { &due.values })?;
            self.holds()?;
        }
        Ok(due.values)
    }

    /// What to type again to see a failure.
    fn show(&self) -> String {
        format!("job {}\n  pins {:?}", hex(&self.bytes), self.book)
    }

    fn failed(&self, seed: u64, index: usize, trouble: &str) -> String {
        format!("seed {seed}, job {index}: {trouble}\n  {}", self.show())
    }
}

fn due_for(aim: Aim, job: &Job, pins: &Pins) -> Due {
    let limit = match aim {
        Aim::Total => None,
        Aim::Even => least_greatest(job, pins),
    };
    let job = limit.map_or(job.clone(), |limit| limited(job, limit));
    let table = fast_table(&job, pins);
    let plans = read_off(&job, pins, &table);
    Due { table, plans }
}

/// A call of a sitting: about a third are refused.
fn sitting_call(rng: &mut Rng, desk: &Desk, light: bool) -> [u16; 3] {
    let pins = desk.pins();
    if rng.one_in(3) {
        bad_call(rng, &desk.job, &pins)
    } else {
        good_call(rng, &desk.job, &pins, light)
    }
}

/// Some pins, at any choice.
fn random_book(rng: &mut Rng, job: &Job) -> Book {
    let rarely = rng.pick(&[1, 2, 4, 1000]);
    let mut book = Book::new();
    for unit in 1..=job.units.len() {
        if rng.one_in(rarely) {
            book.insert(unit, rng.from(0, job.choices() - 1));
        }
    }
    book
}

// ---------------------------------------------------------------------------
// Sets by hand, of every length, and with other numbers.
// ---------------------------------------------------------------------------

/// The numbers of Job A's sets, after every call of a list. What is pinned takes 4 or 2
/// grains at 10 or 30 in unit 1, 5 or 2 at 12 or 40 in unit 2.
fn sets_by_hand_group() -> Result<String, String> {
    let mut rng = Rng(1);
    let none = NO_PIN;
    let rows: [([u16; 3], Refusal, [u32; 2], [u32; 3]); 22] = [
        ([7, 1, 0], 10, [none, none], [0, 0, 0]),
        ([6, 1, 0], 0, [0, none], [1, 4, 10]),
        ([6, 1, 1], 9, [0, none], [1, 4, 10]),
        ([6, 1, 2], 8, [0, none], [1, 4, 10]),
        ([6, 0, 2], 7, [0, none], [1, 4, 10]),
        ([6, 3, 0], 7, [0, none], [1, 4, 10]),
        ([6, 2, 0xffff], 8, [0, none], [1, 4, 10]),
        ([7, 2, 0], 10, [0, none], [1, 4, 10]),
        ([6, 2, 1], 0, [0, 1], [2, 6, 50]),
        ([7, 0, 0], 7, [0, 1], [2, 6, 50]),
        ([7, 3, 0], 7, [0, 1], [2, 6, 50]),
        ([7, 257, 0], 7, [0, 1], [2, 6, 50]),
        ([7, 1, 9], 0, [none, 1], [1, 2, 40]),
        ([7, 1, 9], 10, [none, 1], [1, 2, 40]),
        ([6, 1, 256], 8, [none, 1], [1, 2, 40]),
        ([6, 1, 1], 0, [1, 1], [2, 4, 70]),
        ([7, 2, 0], 0, [1, none], [1, 2, 30]),
        ([6, 2, 0], 0, [1, 0], [2, 7, 42]),
        ([7, 1, 0], 0, [none, 0], [1, 5, 12]),
        ([6, 512, 0], 7, [none, 0], [1, 5, 12]),
        ([6, 513, 0], 7, [none, 0], [1, 5, 12]),
        ([7, 2, 0], 0, [none, none], [0, 0, 0]),
    ];
    let a = job_a();
    let other = Draft::new([64, 255, 254, 4095, 253, 252], &[1, 8, 4095], &a.units);
    let lines: [(Draft, [u32; SET_PINS]); 4] = [
        (a.clone(), [1, 2, 1, 4, 3, 2, 0, 0, 3, 2, 0, 0, 0]),
        (a.doubled(SECOND_A), [8, 2, 1, 4, 3, 2, 0, 0, 3, 2, 2, 2, 0]),
        (other.clone(), [1, 2, 64, 255, 254, 4095, 253, 252, 3, 2, 0, 0, 0]),
        (other.doubled([63, 4094, 62]), [8, 2, 64, 255, 254, 4095, 253, 252, 3, 2, 63, 4094, 62]),
    ];
    let named = [numbers::SET_NUMBERS, numbers::SET_PINS, numbers::SET_TOTALS];
    same("where a set's numbers stand", [528, 13, 525], named)?;
    same("no pin", 65_535, numbers::NO_PIN)?;
    same("orders", [0, 1], [numbers::EARLY, numbers::LATE])?;
    let mut sets = 0;
    for (draft, head) in &lines {
        let Asked { bytes, job, .. } = Asked::new(&mut rng, draft);
        let room = if job.words() < 1000 { job.words() } else { 0 };
        let mut plain = Desk::lent(&mut rng, bytes.clone(), job.clone(), room)?;
        let mut seeing = Desk::lent(&mut rng, bytes, job, room)?;
        let due =
            |pins: [u32; 2], totals: [u32; 3]| [&head[..], &pins, &[NO_PIN; 510], &totals].concat();
        same("a set without a pin", &due([none; 2], [0; 3])[..], &plain.set.held()[..SET_NUMBERS])?;
        for (call, number, pins, totals) in rows {
            let due = due(pins, totals);
            let what = format!("header {:?}, call {call:?}", draft.header);
            same(&what, number, plain.make(call)?)?;
            same(&what, &due[..], &plain.set.held()[..SET_NUMBERS])?;
            if room > 0 {
                same(&what, number, seeing.see(&mut rng, call, 0, 1)?)?;
                same(&what, &due[..], &seeing.set.held()[..SET_NUMBERS])?;
            }
            sets += 1;
        }
    }

    // 512 units, of which unit u takes u grains at a distortion of 1,000 u. At the end
    // both sums are as large as they may be; 999 is the last of a thousand choices.
    let units: Vec<_> = (1..=512).map(|unit| vec![(0, 7), (unit, 1000 * unit as u32)]).collect();
    let draft = Draft::new(BARE, &[0], &units);
    let largest = Draft::new(BARE, &[0], &vec![vec![(0, 0), (4095, 1_000_000)]; 512]);
    let many = chosen_among(MOST_CHOICES, &[999]);
    for (draft, units, choice, totals) in [
        (&draft, 512, 1, [512, 131_328, 131_328_000]),
        (&largest, 512, 1, [512, 2_096_640, 512_000_000]),
        (&many, 1, 999, [1, 2, 5]),
    ] {
        let mut desk = Desk::new(&mut rng, draft)?;
        for unit in (1..=units).rev() {
            same("a pin of many", 0, desk.make([6, unit, choice])?)?;
        }
        let pins = &desk.set.held()[SET_PINS..SET_PINS + units as usize];
        same("pins of many", &vec![choice as u32; units as usize][..], pins)?;
        same("totals of many", &totals[..], &desk.set.held()[SET_TOTALS..SET_NUMBERS])?;
        for unit in 1..=units {
            same("a lift of many", 0, desk.make([7, unit, 0])?)?;
        }
        same("totals of none", &[0; 3][..], &desk.set.held()[SET_TOTALS..SET_NUMBERS])?;
        sets += 2 * units as usize;
    }
    Ok(format!("{sets} sets"))
}

/// Every call that takes a set refuses these numbers with 6, whatever else it is given,
/// and changes nothing.
fn check_no_set(rng: &mut Rng, bytes: &[u8], job: &Job, list: &[u32]) -> Checked {
    check_cut_set(rng, bytes, job, list, list.len())
}

/// A change of contract.
fn changed(
    job: &[u8],
    set: &[u32],
    old: &[u8],
    first: u32,
    contract: &Contract,
    order: u32,
    table: &mut [u32],
    entries: &mut [u8],
    values: &mut [u64],
) -> u32 {
    let Contract { rates, sizes, drains } = contract;
    numbers::change(job, set, old, first, rates, sizes, drains, order, table, entries, values)
}

/// A new contract for the job's line that is its own, or out of range.
fn any_contract(rng: &mut Rng, job: &Job) -> Contract {
    let mut contract = Contract::of(job);
    match rng.from(0, 3) {
        0 => contract.rates.clear(),
        1 => contract.sizes.push(0),
        2 => contract.drains[0] = rng.pick(&[0, 4096]),
        _ => (),
    }
    contract
}

/// The same of so many of the first numbers. The others stand behind them.
fn check_cut_set(rng: &mut Rng, bytes: &[u8], job: &Job, list: &[u32], length: usize) -> Checked {
    let mut set = lent_with(rng, list);
    let (units, choices) = (job.units.len() as u16, job.choices() as u16);
    let unit = rng.pick(&[0, 1, 1, units, units + 1, 0xffff]);
    let choice = rng.pick(&[0, choices - 1, choices, 0xffff]);
    let room = rng.pick(&[job.words(), job.words(), job.words() - 1, 0]);
    let mut table: Lent<u32> = Lent::new(rng, room);
    let room = rng.pick(&[0, 1, 7, 7]);
    let mut values: Lent<u64> = Lent::new(rng, room);
    let room = rng.pick(&[0, ENTRY_BYTES * job.intervals()]);
    let mut entries: Lent<u8> = Lent::new(rng, room);
    let room = rng.pick(&[0, level_numbers(job)]);
    let mut levels: Lent<u16> = Lent::new(rng, room);
    let room = rng.pick(&[0, 256]);
    let mut totals: Lent<u32> = Lent::new(rng, room);
    let (aim, order) = (rng.pick(&[TOTAL, EVEN]), rng.pick(&[EARLY, LATE]));
    let plan: Plan = (1..=job.intervals()).map(|t| random_entry(rng, job, t)).collect();
    let mut plan = plan_bytes(&plan);
    plan.truncate(rng.pick(&[0, plan.len(), plan.len()]));
    let (first, new) = (rng.from(0, job.intervals()) as u32, any_contract(rng, job));
    let (cut, last) = (&mut set.list()[..length], values.list());
    let found = [
        numbers::pin(bytes, cut, unit, choice),
        numbers::lift(bytes, cut, unit),
        numbers::pin_and_see(bytes, cut, unit, choice, table.list(), last),
        numbers::lift_and_see(bytes, cut, unit, table.list(), last),
        numbers::plan_set(bytes, cut, aim, order, table.list(), entries.list(), last),
        numbers::replay_set(bytes, cut, &plan, levels.list(), last),
        changed(bytes, cut, &plan, first, &new, order, table.list(), entries.list(), last),
        numbers::sizes(bytes, cut, table.list(), totals.list()),
    ];
    same("no set of the job", [6; 8], found)?;
    set.wrote("what is no set", list)?;
    table.kept("table")?;
    totals.kept("totals")?;
    values.kept("values")?;
    entries.kept("entries")?;
    levels.kept("levels")
}

/// Lists for a set of every length, and sets that are cut.
fn set_lengths_group() -> Result<String, String> {
    let mut rng = Rng(1);
    let mut lists = 0;
    for draft in [job_a(), job_a().doubled(SECOND_A)] {
        let asked = Asked::new(&mut rng, &draft);
        let due = set_numbers(&asked.job, &Book::new());
        let pinned = set_numbers(&asked.job, &Book::from([(1, 0), (2, 1)]));
        // In a small run some of the shorter lengths alone.
        let lengths = (0..=SET_NUMBERS + 3).filter(|n| !small() || n % 32 == 0 || *n > 523);
        for length in lengths {
            let mut set = Lent::new(&mut rng, length);
            let number = if length < SET_NUMBERS { 12 } else { 0 };
            let what = format!("a list of {length} for a set");
            same(&what, number, numbers::set(&asked.bytes, set.list()))?;
            set.wrote(&what, if number > 0 { &[] } else { &due })?;
            if length < SET_NUMBERS {
                check_no_set(&mut rng, &asked.bytes, &asked.job, &pinned[..length])
                    .and_then(|_| {
                        check_cut_set(&mut rng, &asked.bytes, &asked.job, &pinned, length)
                    })
                    .map_err(|trouble| format!("a set cut to {length}: {trouble}"))?;
            }
            lists += 1;
        }
    }
    Ok(format!("{lists} lists"))
}

/// What may come of a number that is changed.
const CHANGES: [fn(u32) -> u32; 9] = [
    |number| number.wrapping_add(1),
    |number| number.wrapping_sub(1),
    |number| number.wrapping_add(256),
    |number| number.wrapping_add(65_536),
    |number| number ^ 0x8000_0000,
    |_| u32::MAX,
    |_| 0,
    |_| 255,
    |_| NO_PIN,
];

/// Every number of a set changed alone, on jobs in which no two pins have the same
/// totals; and sets of other jobs.
fn changed_sets_group() -> Result<String, String> {
    let mut rng = Rng(1);
    let mut sets = 0;
    let a = job_a();
    let units = |unit: usize| (0..3).map(|c| (c as u16, 10 * unit as u32 + c)).collect();
    let units: Vec<_> = (1..=512).map(units).collect();
    let long = Draft::new(BARE, &[0], &units);
    let every: Book = (1..=512).map(|unit| (unit, unit % 3)).collect();
    let few = [Book::new(), Book::from([(1, 0)]), Book::from([(1, 1), (2, 0)])];
    let jobs = [
        (a.clone(), &few[..], 1),
        (a.doubled(SECOND_A), &few[..], 1),
        (long.clone(), &[Book::new(), every.clone()][..], 5),
        (long.doubled([0, 1, 0]), &[every][..], 5),
    ];
    for (draft, books, step) in &jobs {
        let asked = Asked::new(&mut rng, draft);
        for book in *books {
            let right = set_numbers(&asked.job, book);
            let more = if small() { 23 } else { 1 };
            let first = rng.from(0, step - 1);
            let ends = (0..SET_PINS + 4).chain(SET_TOTALS..SET_NUMBERS);
            for at in ends.chain((first..SET_NUMBERS).step_by(step * more)) {
                for change in CHANGES {
                    let mut list = right.clone();
                    list[at] = change(right[at]);
                    if list == right {
                        continue;
                    }
                    let what = format!("number {at} is {} in place of {}", list[at], right[at]);
                    ensure!(read_set(&asked.job, &list).is_none(), "{what}: still a set");
                    check_no_set(&mut rng, &asked.bytes, &asked.job, &list)
                        .map_err(|trouble| format!("{what}: {trouble}\n  pins {book:?}"))?;
                    sets += 1;
                }
            }
        }
    }

    // Of a job with one other field in its header, or another number of buckets; of one
    // with other codings, which shows in what the pins come to.
    let asked = Asked::new(&mut rng, &a);
    let double = Asked::new(&mut rng, &a.doubled(SECOND_A));
    let pinned = Book::from([(1, 0)]);
    let mut others: Vec<Draft> = vec![a.doubled(SECOND_A), a.doubled([0, 1, 0])];
    for (field, value) in [
        (DELAY, 2),
        (DECODER, 5),
        (BUCKET, 4),
        (DRAIN, 3),
        (START_DECODER, 1),
        (START_BUCKET, 1),
        (RATES, 2),
    ] {
        others.push(a.with(field, value));
    }
    for other in &mut others {
        other.rates.truncate(other.header[RATES] as usize);
    }
    let mut one_more = a.clone();
    one_more.units.push(one_more.units[0].clone());
    one_more.header[UNITS] = 3;
    let mut wider = a.clone();
    wider.units.iter_mut().for_each(|unit| unit.push((1, 50)));
    wider.header[CHOICES] = 3;
    let mut finer = a.clone();
    finer.units[0][0].1 = 9;
    let mut smaller = a.clone();
    smaller.units[0][0].0 = 3;
    let mut turned = a.clone();
    turned.units.swap(0, 1);
    others.extend([one_more, wider, finer, smaller, turned]);
    let seconds = [[3, 2, 0], [2, 3, 0], [2, 2, 1]].map(|second| a.doubled(second));
    let pairs = others.iter().map(|other| (&asked, other));
    for (asked, other) in pairs.chain(seconds.iter().map(|other| (&double, other))) {
        let set = set_numbers(&Asked::new(&mut rng, other).job, &pinned);
        ensure!(read_set(&asked.job, &set).is_none(), "header {:?}: a set", other.header);
        check_no_set(&mut rng, &asked.bytes, &asked.job, &set)
            .map_err(|trouble| format!("the set of another job, {:?}: {trouble}", other.header))?;
        sets += 1;
    }
    Ok(format!("{sets} lists that are no set"))
}

/// Sets of random jobs with one number or a few changed. Some of them are sets of the
/// job all the same, of other pins, and then a call goes on from these.
fn harmed_sets_group(seed: u64, asks: bool) -> Result<String, String> {
    let mut rng = Rng(seed);
    let (mut refused, mut others, mut kept) = (0, 0, 0);
    let inputs = scaled(2500);
    for index in 1..=inputs {
        let draft = match index % 2 {
            0 => random_tiny_double(&mut rng),
            _ => random_job(&mut rng, &TINY),
        };
        let mut desk = Desk::new(&mut rng, &draft)?;
        let book = random_book(&mut rng, &desk.job);
        let mut list = set_numbers(&desk.job, &book);
        for _ in 0..rng.from(1, 3) {
            harm_set(&mut rng, &desk.job, &mut list);
        }
        let read = read_set(&desk.job, &list);
        let mut check = || -> Checked {
            let Some(read) = read.clone() else {
                return check_no_set(&mut rng, &desk.bytes, &desk.job, &list);
            };
            desk.put_book(read);
            let light = rng.one_in(2);
            for _ in 0..3 {
                let call = sitting_call(&mut rng, &desk, light);
                let (short, room) = (rng.one_in(8) as usize, rng.from(0, 2));
                match rng.one_in(2) {
                    true => desk.make(call)?,
                    false => desk.see(&mut rng, call, short, room)?,
                };
            }
            Ok(())
        };
        let checked = check();
        checked.map_err(|t| desk.failed(seed, index, &format!("{t}\n  numbers {list:?}")))?;
        match read {
            None => refused += 1,
            Some(read) if read == book => kept += 1,
            Some(_) => others += 1,
        }
    }
    let counts = format!(
        "{inputs} lists, {refused} no set, {others} the set of other pins, {kept} as before"
    );
    let worthwhile = refused * 2 > inputs && others * 20 > inputs;
    ensure!(worthwhile || !asks, "too little in it: {counts}");
    Ok(counts)
}

/// Changes a number, or a pin with all or some of what goes with it.
fn harm_set(rng: &mut Rng, job: &Job, list: &mut [u32]) {
    let units = job.units.len();
    let unit = rng.from(1, units);
    let at = SET_PINS + unit - 1;
    match rng.from(0, 7) {
        0 => {
            let at = rng.from(0, SET_PINS - 1);
            list[at] = rng.pick(&CHANGES)(list[at]);
        }
        1 => {
            let at = rng.from(SET_TOTALS, SET_NUMBERS - 1);
            list[at] = rng.pick(&CHANGES)(list[at]);
        }
        2 => list[at] = rng.pick(&CHANGES)(list[at]),
        3 => list[at] = rng.from(0, job.choices()) as u32,
        // A unit that the job does not have, and perhaps the count with it.
        4 if units < 512 => {
            list[SET_PINS + rng.from(units, 511)] = rng.pick(&[0, 0, 1, 999]);
            list[SET_TOTALS] += rng.from(0, 1) as u32;
        }
        // Another pin or none, with all three totals or without one of them.
        _ => {
            let taken = |pin: u32| job.units[unit - 1].get(pin as usize);
            let numbers =
                |pin: u32| taken(pin).map_or([0; 3], |c| [1, c.grains as u32, c.distortion as u32]);
            let pin = match rng.from(0, job.choices()) {
                choice if choice < job.choices() => choice as u32,
                _ => NO_PIN,
            };
            let (before, after) = (numbers(list[at]), numbers(pin));
            list[at] = pin;
            let left = rng.from(0, 8);
            for which in (0..3).filter(|which| *which != left) {
                let total = &mut list[SET_TOTALS + which];
                *total = total.wrapping_add(after[which]).wrapping_sub(before[which]);
            }
        }
    }
}

/// Jobs of all sizes, with calls of which about a third are refused: the book, and every
/// number of the set after each. Another session, in which the pins are set alone and in
/// any order, comes to the same set.
fn books_group(seed: u64, asks: bool) -> Result<String, String> {
    let mut rng = Rng(seed);
    let mut tally: BTreeMap<Refusal, usize> = BTreeMap::new();
    let (mut calls, mut pins, mut wide) = (0, 0, 0);
    let jobs = scaled(180);
    for index in 1..=jobs {
        let mut draft = match index % 30 {
            7 if !small() => random_job(&mut rng, &LARGE),
            _ => random_mixed_job(&mut rng, index),
        };
        if rng.one_in(2) {
            draft = random_doubled(&mut rng, &draft, 63, 4095);
        }
        let Asked { bytes, job, .. } = Asked::new(&mut rng, &draft);
        let mut desk = Desk::lent(&mut rng, bytes, job, 0)?;
        let light = rng.one_in(2);
        let mut check = || -> Checked {
            for _ in 0..rng.pick(&[3, 30, 120]) {
                let call = sitting_call(&mut rng, &desk, light);
                *tally.entry(desk.make(call)?).or_default() += 1;
                calls += 1;
            }
            let mut fresh = Desk::lent(&mut rng, desk.bytes.clone(), desk.job.clone(), 0)?;
            for call in fresh_calls(&mut rng, &desk.pins()).chunks(3) {
                same("a pin of a fresh session", 0, fresh.make([call[0], call[1], call[2]])?)?;
            }
            let sets = [&desk, &fresh].map(|desk| &desk.set.held()[..SET_NUMBERS]);
            same("the set of a fresh session", sets[0], sets[1])
        };
        check().map_err(|trouble| desk.failed(seed, index, &trouble))?;
        pins += desk.book.len();
        wide += (desk.set.held()[SET_TOTALS + 1] > 65_535) as usize;
    }
    let counts = format!(
        "{jobs} jobs, {calls} calls by number ({}), {pins} pins held at the end, {wide} jobs with \
         more than 65,535 grains in them",
        by_number(&tally)
    );
    let numbers = [0, 7, 8, 9, 10];
    let worthwhile = numbers.iter().all(|number| tally.get(number).is_some_and(|c| c * 50 > calls))
        && pins > jobs
        && wide > 0;
    ensure!(worthwhile || !asks, "too little in it: {counts}");
    Ok(counts)
}

// ---------------------------------------------------------------------------
// Refusals of sets in their order.
// ---------------------------------------------------------------------------

/// The set cut or with a wrong number, in one of four ways.
fn wrong_set(set: &mut Vec<u32>, way: usize) {
    match way {
        0 => set.truncate(SET_NUMBERS - 1),
        1 => set[SET_PINS + 2] = 0,
        2 => set[SET_TOTALS + 2] += 1,
        _ => set[0] = 9 - set[0],
    }
}

/// A list with these numbers.
fn lent_with(rng: &mut Rng, numbers: &[u32]) -> Lent<u32> {
    let mut lent = Lent::new(rng, numbers.len());
    lent.list().copy_from_slice(numbers);
    lent
}

/// Every set of defects of Job A, its set, and what else is named and lent, on lines that
/// drain and that never do. The first in order gives the number, and nothing is written.
fn sets_order_group() -> Result<String, String> {
    let mut rng = Rng(1);
    let mut sets = 0;
    for draft in &drains_of_a() {
        let right = Asked::new(&mut rng, draft);
        for wrong in 0..=5 {
            let asked = Asked::with(wrong_job(draft, wrong), right.job.clone(), Vec::new());
            // The wrong byte of 1 is the last one; only 2 and 3 are in the header.
            let never = draft.never_drains() && wrong != 2 && wrong != 3;
            let opened = if never { 17 } else { wrong };
            let step = match (never, wrong) {
                _ if small() => 37,
                (true, _) => 7,
                (false, 0) => 1,
                (false, _) => 3,
            };
            for bits in (0..1 << 9).step_by(step) {
                let has = |bit: usize| bits >> bit & 1 == 1;
                let mut check = || -> Checked {
                    check_set_order(&mut rng, &asked, opened, wrong, has)?;
                    check_pin_order(&mut rng, &asked, opened, has)?;
                    check_lift_order(&mut rng, &asked, opened, has)?;
                    check_plan_set_order(&mut rng, &asked, opened, has)?;
                    check_replay_set_order(&mut rng, &asked, wrong, has)
                };
                check().map_err(|trouble| {
                    format!("header {:?}, job {wrong}, defects {bits:b}: {trouble}", draft.header)
                })?;
                sets += 1;
            }
        }
    }
    Ok(format!("{sets} sets of defects"))
}

/// A fresh set by either door: the archive takes the line that never drains too.
fn check_set_order(
    rng: &mut Rng,
    asked: &Asked,
    opened: Refusal,
    archived: Refusal,
    has: impl Fn(usize) -> bool,
) -> Checked {
    let doors = [
        ("set", opened, numbers::set as fn(&[u8], &mut [u32]) -> u32),
        ("archive set", archived, numbers::archive_set),
    ];
    for (what, refused, open) in doors {
        let mut set = Lent::new(rng, cut_to(SET_NUMBERS, has(0), has(6)));
        let due = first_of(&[(refused > 0, refused), (has(0), 12)]);
        same(what, due, open(&asked.bytes, set.list()))?;
        let numbers = set_numbers(&asked.job, &Book::new());
        set.wrote(what, if due == 0 { &numbers } else { &[] })?;
    }
    Ok(())
}

/// The pins of `book` as the set, with a defect or without.
fn faulty_set(
    rng: &mut Rng,
    asked: &Asked,
    book: &Book,
    has: impl Fn(usize) -> bool,
) -> (Vec<u32>, Lent<u32>) {
    let mut numbers = set_numbers(&asked.job, book);
    if has(0) {
        wrong_set(&mut numbers, has(7) as usize + 2 * has(8) as usize);
    }
    let lent = lent_with(rng, &numbers);
    (numbers, lent)
}

/// Pins, alone and with a table.
fn check_pin_order(
    rng: &mut Rng,
    asked: &Asked,
    opened: Refusal,
    has: impl Fn(usize) -> bool,
) -> Checked {
    let [set, unit, choice, taken, table, values, by_all] = std::array::from_fn(&has);
    let mut book = Book::from([(2, 1)]);
    book.extend(taken.then_some((1, 1)));
    let call = [6, [1, 3, 0][unit as usize * (1 + by_all as usize)], if choice { 2 } else { 0 }];
    let due = [
        (opened > 0, opened),
        (set, 6),
        (unit, 7),
        (choice, 8),
        (taken, 9),
        (table, 11),
        (values, 12),
    ];
    let lengths = [cut_to(asked.job.words(), table, by_all), cut_to(1, values, by_all)];
    let mut set = faulty_set(rng, asked, &book, &has);
    let found = numbers::pin(&asked.bytes, set.1.list(), call[1], call[2]);
    check_stepped(asked, &mut book.clone(), call, first_of(&due[..5]), found, &set)?;
    set.1.list().copy_from_slice(&set.0);
    check_seen(rng, asked, &mut book, call, first_of(&due), set, lengths)
}

/// Lifts, alone and with a table.
fn check_lift_order(
    rng: &mut Rng,
    asked: &Asked,
    opened: Refusal,
    has: impl Fn(usize) -> bool,
) -> Checked {
    let [set, unit, other, free, table, values, by_all] = std::array::from_fn(&has);
    let mut book = Book::from([(2, other as usize)]);
    book.extend((!free).then_some((1, 1)));
    let call = [7, [1, 3, 0][unit as usize * (1 + by_all as usize)], 0];
    let due = [(opened > 0, opened), (set, 6), (unit, 7), (free, 10), (table, 11), (values, 12)];
    let lengths = [cut_to(asked.job.words(), table, by_all), cut_to(1, values, by_all)];
    let mut set = faulty_set(rng, asked, &book, &has);
    let found = numbers::lift(&asked.bytes, set.1.list(), call[1]);
    check_stepped(asked, &mut book.clone(), call, first_of(&due[..4]), found, &set)?;
    set.1.list().copy_from_slice(&set.0);
    check_seen(rng, asked, &mut book, call, first_of(&due), set, lengths)
}

/// The call was answered by `found`, and the set is that of the book after it.
fn check_stepped(
    asked: &Asked,
    book: &mut Book,
    call: [u16; 3],
    due: u32,
    found: u32,
    (numbers, set): &(Vec<u32>, Lent<u32>),
) -> Checked {
    same(&format!("call {call:?}"), due, found)?;
    if due > 0 {
        return set.wrote("set", numbers);
    }
    same("the book", 0, step_book(&asked.job, book, call))?;
    set.wrote("set", &set_numbers(&asked.job, book))
}

/// The same with a table in which anything stands. `lengths`: table, values.
fn check_seen(
    rng: &mut Rng,
    asked: &Asked,
    book: &mut Book,
    call: [u16; 3],
    due: u32,
    mut set: (Vec<u32>, Lent<u32>),
    lengths: [usize; 2],
) -> Checked {
    let (mut table, mut values) = (Lent::new(rng, lengths[0]), Lent::new(rng, lengths[1]));
    let words = table.held().to_vec();
    let (job, [kind, unit, choice]) = (&asked.bytes, call);
    let (numbers, lent) = (set.1.list(), (table.list(), values.list()));
    let found = match kind {
        6 => numbers::pin_and_see(job, numbers, unit, choice, lent.0, lent.1),
        _ => numbers::lift_and_see(job, numbers, unit, lent.0, lent.1),
    };
    check_stepped(asked, book, call, due, found, &set)?;
    if due > 0 {
        table.kept("table")?;
        return values.kept("value");
    }
    let (job, pins) = (&asked.job, pins_of(&asked.job, book));
    let words = renewed(job, &pins, &words, unit as usize + job.delay);
    table.wrote("table", &words)?;
    let start = job.word(0, job.start_decoder, &job.start_levels());
    values.wrote("value", &[words[start] as u64])
}

fn check_plan_set_order(
    rng: &mut Rng,
    asked: &Asked,
    opened: Refusal,
    has: impl Fn(usize) -> bool,
) -> Checked {
    let [wrong, aim, order, table, entries, values, by_all] = std::array::from_fn(&has);
    // A unit that the decoder cannot hold.
    let no_plan = has(7);
    let book = if no_plan { Book::from([(2, 0)]) } else { Book::from([(1, 0)]) };
    let set = faulty_set(rng, asked, &book, |bit| if bit == 7 { by_all } else { has(bit) });
    let due = first_of(&[
        (opened > 0, opened),
        (wrong, 6),
        (aim, 2),
        (order, 2),
        (table, 11),
        (entries, 12),
        (values, 12),
        (no_plan, 13),
    ]);
    let job = &asked.job;
    let mut table = Lent::new(rng, cut_to(job.words(), table, by_all));
    let mut entries = Lent::new(rng, cut_to(LATE_A.len(), entries, by_all));
    let mut values = Lent::new(rng, cut_to(plan_values(job), values, by_all));
    let named = [(aim, rng.pick(&[TOTAL, EVEN])), (order, rng.pick(&[EARLY, LATE]))];
    let [aim, order] =
        named.map(|(wrong, right)| if wrong { rng.pick(&WRONG_AIMS) } else { right });
    let lists = (table.list(), entries.list(), values.list());
    let found =
        numbers::plan_set(&asked.bytes, set.1.held(), aim, order, lists.0, lists.1, lists.2);
    same(&format!("plan for {aim} in order {order}"), due, found)?;
    set.1.wrote("set", &set.0)?;
    if due > 0 && due != 13 {
        table.kept("table")?;
    }
    if due > 0 {
        entries.kept("entries")?;
        values.kept("values")?;
    }
    match due {
        0 => {
            let plan = if order == EARLY { &EARLY_A } else { &LATE_A };
            entries.wrote("entries", plan)?;
            // Unused grains of each bucket: the drain of the first interval, or none.
            let totals = if order == EARLY { EARLY_TOTALS_A } else { [50, 6, 6, 2, 2] };
            values.wrote("values", &totals[..plan_values(job)])
        }
        13 => table.wrote("table", &fast_table(job, &pins_of(job, &book))),
        _ => Ok(()),
    }
}

/// On a line that never drains too: there the plan is followed with the set's pins.
fn check_replay_set_order(
    rng: &mut Rng,
    asked: &Asked,
    wrong: Refusal,
    has: impl Fn(usize) -> bool,
) -> Checked {
    let [faulty, shape, other, not_held, list, short, by_all] = std::array::from_fn(&has);
    let job = &asked.job;
    let book = if not_held { Book::from([(2, 0)]) } else { Book::from([(2, 1)]) };
    let set = faulty_set(rng, asked, &book, &has);
    let mut entries = LATE_A.to_vec();
    if shape {
        match other {
            true => entries[3] = 3,
            false => entries.truncate(8),
        }
    }
    entries.shrink_to_fit();
    let due = first_of(&[(wrong > 0, wrong), (faulty, 6), (shape, 14), (list, 12), (short, 12)]);
    let mut levels = Lent::new(rng, cut_to(level_numbers(job), list, by_all));
    let mut values = Lent::new(rng, cut_to(replay_values(job), short, by_all));
    let lists = (levels.list(), values.list());
    let found = numbers::replay_set(&asked.bytes, set.1.held(), &entries, lists.0, lists.1);
    same("replay with a set", due, found)?;
    set.1.wrote("set", &set.0)?;
    if due > 0 {
        levels.kept("levels")?;
        return values.kept("values of replay");
    }
    let plan = read_plan(job, &LATE_A).expect("a plan");
    let followed = follow(job, &pins_of(job, &book), &plan);
    levels.wrote("levels", &followed.levels)?;
    values.wrote("values of replay", &followed.values)
}

// ---------------------------------------------------------------------------
// Pin and see.
// ---------------------------------------------------------------------------

/// Job A's totals after every call of a list, and some of its tables, by hand; the table
/// of a job whose total is as large as it may be.
fn seen_by_hand_group() -> Result<String, String> {
    let mut rng = Rng(1);
    // With unit 1 at choice 1, two grains are enough from everywhere. Unit 2 at choice 0
    // takes five, which the decoder cannot hold.
    let coarse = |layer: usize| [70, 70, 40, 0][layer];
    let lost = |layer: usize| [NEVER, NEVER, NEVER, 0][layer];
    let rows: [([u16; 3], Refusal, u32, Option<&dyn Fn(usize) -> u32>); 14] = [
        ([6, 1, 1], 0, 70, Some(&coarse)),
        ([6, 1, 0], 9, 70, Some(&coarse)),
        ([6, 2, 1], 0, 70, Some(&coarse)),
        ([7, 2, 0], 0, 70, Some(&coarse)),
        ([7, 1, 0], 0, 50, None),
        ([6, 1, 0], 0, 50, None),
        ([6, 2, 0], 0, NEVER, Some(&lost)),
        ([6, 2, 1], 9, NEVER, Some(&lost)),
        ([7, 1, 0], 0, NEVER, Some(&lost)),
        ([6, 1, 1], 0, NEVER, Some(&lost)),
        ([7, 2, 0], 0, 70, Some(&coarse)),
        ([7, 2, 0], 10, 70, Some(&coarse)),
        ([7, 1, 0], 0, 50, None),
        ([7, 3, 0], 7, 50, None),
    ];
    let mut calls = 0;
    for Known { draft, table, totals, .. } in known_lines() {
        let mut desk = Desk::new(&mut rng, &draft)?;
        for (order, entries) in [(Order::Early, EARLY_A), (Order::Late, LATE_A)] {
            let plan = desk.plan(&mut rng, Aim::Total, order)?.map(|plan| plan_bytes(&plan));
            same(&format!("{order:?}"), Some(entries.to_vec()), plan)?;
        }
        same("Job A's table", &table, &desk.words)?;
        for (call, number, total, layers) in rows {
            let what = format!("{} words, call {call:?}", table.len());
            same(&what, number, desk.see(&mut rng, call, 0, 1)?)?;
            same(&what, total, desk.total())?;
            if let Some(layers) = layers {
                let each = table.len() / 4;
                let due: Vec<u32> = (0..4).flat_map(|layer| vec![layers(layer); each]).collect();
                same(&what, &due, &desk.words)?;
            }
            calls += 1;
        }
        same("Job A's table again", &table, &desk.words)?;
        same("Job A's total again", totals[0], desk.total() as u64)?;
    }

    // Each unit loses nothing or 1,000,000. All are pinned at that, from the last on and
    // then from the first on; what the first three layers read in the end is the most
    // that a total can be.
    let units = vec![vec![(0, 0), (0, 1_000_000)]; 512];
    let one = Draft::new([3, 0, 0, 1, 0, 0], &[0], &units);
    for (draft, falling) in [(one.clone(), true), (one.doubled([0, 1, 0]), false)] {
        let mut desk = Desk::new(&mut rng, &draft)?;
        let mut units: Vec<usize> = (1..=512).collect();
        if falling {
            units.reverse();
        }
        // In a small run all but the last calls are made beforehand.
        let made = if small() { 500 } else { 0 };
        desk.put_book(units[..made].iter().map(|&unit| (unit, 1)).collect());
        desk.plan(&mut rng, Aim::Total, Order::Early)?;
        for (count, &unit) in (1..).zip(&units).skip(made) {
            same("a pin of 512", 0, desk.see(&mut rng, [6, unit as u16, 1], 0, 1)?)?;
            same("a total of 512", 1_000_000 * count, desk.total())?;
            calls += 1;
        }
        same("the first layers", &[MOST_TOTAL; 4][..], &desk.words[..4])?;
    }
    Ok(format!("{calls} calls"))
}

/// One unit that may lose 5 or 1,000,000, and a table of one word a layer: what a pin
/// makes of the last word, by hand, without a delay and with one of two intervals.
fn words_by_hand_group() -> Result<String, String> {
    let mut rng = Rng(1);
    let (most, never) = (MOST_TOTAL, NEVER);
    // Each line: the last word; the choice, which loses 5 or 1,000,000; the word of the
    // layer before the last; those before it, where the delay is.
    let rows: [(u32, u16, u32, u32); 18] = [
        (0, 0, 5, 5),
        (0, 1, 1_000_000, 1_000_000),
        (7, 0, 12, 12),
        (most - 1_000_000, 1, most, most),
        (most - 999_999, 1, most + 1, never),
        (most - 6, 0, most - 1, most - 1),
        (most - 5, 0, most, most),
        (most - 4, 0, most + 1, never),
        (most - 1, 0, most + 4, never),
        (most, 0, most + 5, never),
        (most, 1, most + 1_000_000, never),
        (most + 1, 0, never, never),
        (most + 1, 1, never, never),
        (most + 1_000_000, 0, never, never),
        (0x8000_0000, 0, never, never),
        (never - 1_000_000, 1, never, never),
        (never - 5, 0, never, never),
        (never, 0, never, never),
    ];
    let units = [vec![(0, 5), (0, 1_000_000)]];
    let one = Draft::new(BARE, &[0], &units);
    for (draft, delay) in [(&one, 0), (&one, 2), (&one.doubled([0, 1, 0]), 2)] {
        let draft = draft.with(DELAY, delay);
        for (last, choice, word, before) in rows {
            let mut desk = Desk::new(&mut rng, &draft)?;
            let stood = desk.words.clone();
            let put = |last: u32| [&stood[..delay as usize + 1], &[last]].concat();
            desk.put_words(put(last));
            let what = format!("delay {delay}, last word {last}, choice {choice}");
            same(&what, 0, desk.see(&mut rng, [6, 1, choice], 0, 1)?)?;
            let due = [&vec![before; delay as usize][..], &[word, last]].concat();
            same(&what, &due, &desk.words)?;
            same(&what, if delay > 0 { before } else { word }, desk.total())?;
            // Without the pin the unit loses 5.
            same(&what, 0, desk.see(&mut rng, [7, 1, 0], 0, 1)?)?;
            let free = rows.iter().find(|row| row.0 == last && row.1 == 0);
            if let Some(&(_, _, word, before)) = free {
                let due = [&vec![before; delay as usize][..], &[word, last]].concat();
                same(&what, &due, &desk.words)?;
            }
        }
    }
    Ok(format!("{} last words, each for three lines", rows.len()))
}

/// What came of calls that see.
#[derive(Default)]
struct Seen {
    calls: usize,
    by_number: BTreeMap<Refusal, usize>,
    /// No plan holds the pins; and there is one again, or there is none any more.
    never: usize,
    turned: usize,
    /// Words made again, those among them that changed, and words that were kept.
    made: usize,
    changed: usize,
    kept: usize,
}

impl Seen {
    /// A call by which the number `due` was answered, on these words.
    fn count(&mut self, desk: &Desk, before: &[u32], unit: u16, due: Refusal) {
        self.calls += 1;
        *self.by_number.entry(due).or_default() += 1;
        if due > 0 {
            return;
        }
        let start = desk.job.word(0, desk.job.start_decoder, &desk.job.start_levels());
        let layer = desk.words.len() / (desk.job.intervals() + 1);
        let made = layer * desk.layers(unit);
        self.never += (desk.words[start] == NEVER) as usize;
        self.turned += ((desk.words[start] == NEVER) != (before[start] == NEVER)) as usize;
        self.made += made;
        self.changed += before.iter().zip(&desk.words).filter(|(a, b)| a != b).count();
        self.kept += desk.words.len() - made;
    }

    fn show(&self) -> String {
        let Seen { calls, by_number, never, turned, made, changed, kept } = self;
        let each: Vec<String> =
            by_number.iter().map(|(number, count)| format!("{count} {number}")).collect();
        format!(
            "{calls} calls that see by number ({}), {never} without a plan and {turned} that made \
             or ended that; {made} words made again, {changed} changed, {kept} kept",
            each.join(", ")
        )
    }

    /// Whether each of these numbers was given, and there is enough of the rest.
    fn worthwhile(&self, numbers: &[Refusal]) -> bool {
        let Seen { calls, by_number, never, turned, made, changed, kept } = self;
        let often = |number| by_number.get(number).is_some_and(|count| count * 100 > *calls);
        let [never, turned] = [never * 30, turned * 100].map(|count| count > *calls);
        numbers.iter().all(often) && never && turned && changed * 20 > *made && *kept > 0
    }
}

/// A job of any size on which a table is soon made.
fn random_seen_job(rng: &mut Rng, index: usize) -> Draft {
    match index % 12 {
        0 if index % 36 == 0 => random_long_job(rng),
        0 if index % 36 == 12 => random_long_double(rng),
        0 => random_many_job(rng, &MANY[1]),
        1 => random_job(rng, &MEDIUM),
        2 => random_medium_double(rng),
        3 => random_tight_job(rng, &TIGHT[1]),
        4 => random_double_job(rng, &DOUBLE[1]),
        5 => random_level_job(rng, &EVEN_SHAPES[1]),
        6 | 7 => random_tiny_double(rng),
        8 => random_double_job(rng, &DOUBLE[0]),
        9 => random_tight_job(rng, &TIGHT[0]),
        _ => random_job(rng, &TINY),
    }
}

/// Calls that see on planning's own tables, of jobs of all sizes. The table is the one
/// that a fresh session has, and follows from the one before.
fn seen_group(seed: u64, asks: bool) -> Result<String, String> {
    let mut rng = Rng(seed);
    let mut seen = Seen::default();
    let jobs = scaled(240);
    for index in 1..=jobs {
        let draft = random_seen_job(&mut rng, index);
        let mut desk = Desk::new(&mut rng, &draft)?;
        let light = !rng.one_in(3);
        let mut check = || -> Checked {
            if rng.one_in(2) {
                let book = random_book(&mut rng, &desk.job);
                desk.put_book(book);
            }
            match rng.one_in(3) {
                true => desk.plan_by_calls(&mut rng)?,
                false => drop(desk.plan(&mut rng, Aim::Total, order_in_turn(index))?),
            }
            for _ in 0..8 {
                let call = sitting_call(&mut rng, &desk, light);
                let (short, room) = lent_amiss(&mut rng, &desk);
                let before = desk.words.clone();
                let due = desk.see(&mut rng, call, short, room)?;
                seen.count(&desk, &before, call[1], due);
                if due == 0 {
                    let follows = renewed(&desk.job, &desk.pins(), &before, desk.layers(call[1]));
                    ensure!(follows == desk.words, "call {call:?}: it does not follow");
                }
            }
            Ok(())
        };
        check().map_err(|trouble| desk.failed(seed, index, &trouble))?;
    }
    let counts = format!("{jobs} jobs, {}", seen.show());
    let worthwhile = seen.worthwhile(&[0, 7, 8, 9, 10, 11, 12]);
    ensure!(worthwhile || !asks, "too little in it: {counts}");
    Ok(counts)
}

/// The orders in turn.
fn order_in_turn(index: usize) -> Order {
    ORDERS[index % 2]
}

/// How many words the table is short of, mostly none, and the room for values.
fn lent_amiss(rng: &mut Rng, desk: &Desk) -> (usize, usize) {
    let short = match rng.from(1, 16) {
        1 => 1,
        2 => rng.from(1, desk.job.words()),
        _ => 0,
    };
    (short, if rng.one_in(8) { 0 } else { rng.from(1, 3) })
}

// ---------------------------------------------------------------------------
// Tables of any words.
// ---------------------------------------------------------------------------

/// What the words of a layer are drawn from.
const MIXES: [&[u32]; 6] = [
    &[MOST_TOTAL, MOST_TOTAL + 1],
    &[MOST_TOTAL, MOST_TOTAL + 1, MOST_TOTAL + 1, NEVER],
    &[MOST_TOTAL - 2, MOST_TOTAL - 1, MOST_TOTAL, MOST_TOTAL + 1, MOST_TOTAL + 2, NEVER],
    &[0, 1, 7, 1_000_000, MOST_TOTAL, MOST_TOTAL + 1, NEVER],
    &[
        MOST_TOTAL - 1_000_000,
        MOST_TOTAL + 1,
        MOST_TOTAL + 1_000_000,
        MOST_TOTAL + 1_000_001,
        0x1fff_ffff,
        0x2000_0000,
        0x7fff_ffff,
        0x8000_0000,
        NEVER - 1_000_000,
        NEVER - 999_999,
        NEVER - 1,
        NEVER,
    ],
    &[0, NEVER, NEVER, NEVER],
];

/// Each layer is drawn from a mix of its own, or from all numbers there are.
fn random_words(rng: &mut Rng, job: &Job) -> Vec<u32> {
    let mut words = Vec::new();
    for _ in 0..=job.intervals() {
        let mix = rng.from(0, MIXES.len() + 3);
        for _ in 0..job.words() / (job.intervals() + 1) {
            words.push(match MIXES.get(mix) {
                Some(mix) => rng.pick(mix),
                None if rng.one_in(2) => rng.from(0, 600_000_000) as u32,
                None => rng.next() as u32,
            });
        }
    }
    words
}

/// A small job in which the levels of a state tell: a bucket drains little and may start
/// filled. In most jobs an interval may send nothing and a unit take nothing, and in many
/// the first unit is decoded in the first interval.
fn random_words_job(rng: &mut Rng) -> Draft {
    let shape = Shape { units: (1, 4), decoder: 5, heavy: &[8], commands: 0, ..TINY };
    let mut draft = random_job(rng, &shape);
    if !rng.one_in(4) {
        draft.rates[0] = 0;
        draft.units.iter_mut().filter_map(|unit| unit.last_mut()).for_each(|last| last.0 = 0);
    }
    let bucket = |rng: &mut Rng| {
        let size = rng.from(1, 5);
        let start = if rng.one_in(2) { size } else { rng.from(0, size) };
        [size as u16, rng.pick(&[1, 1, 1, 2, 3, 9]), start as u16]
    };
    let ([size, drain, start], second) = (bucket(rng), bucket(rng));
    let draft = draft.with(BUCKET, size).with(DRAIN, drain).with(START_BUCKET, start);
    let draft = draft.with(DELAY, rng.pick(&[0, 0, 0, 0, 1, 1, 2, 3, 5, 9]));
    if rng.one_in(2) {
        draft.doubled(second)
    } else {
        draft
    }
}

/// Calls that see on tables of any words, and on those that planning leaves for even
/// pictures, for other pins or for another job. Of each the layers that a call makes
/// again follow from what stands behind them.
fn any_words_group(seed: u64, asks: bool) -> Result<String, String> {
    let mut rng = Rng(seed);
    let (mut seen, mut told) = (Seen::default(), Told::default());
    let mut delays = [0; 4];
    let jobs = scaled(360);
    for index in 1..=jobs {
        let draft = match index % 8 {
            0 => random_seen_job(&mut rng, index / 8),
            1 => random_level_job(&mut rng, &EVEN_SHAPES[0]),
            _ => random_words_job(&mut rng),
        };
        let mut desk = Desk::new(&mut rng, &draft)?;
        let tiny = index % 8 > 0;
        let mut check = || -> Checked {
            let book = random_book(&mut rng, &desk.job);
            desk.put_book(book);
            for step in 0..8 {
                match step {
                    // What the call before has left is gone on from.
                    2 | 5 => (),
                    3 => drop(desk.plan(&mut rng, Aim::Even, Order::Late)?),
                    6 => {
                        // Planning's own, for other pins.
                        drop(desk.plan(&mut rng, Aim::Total, Order::Early)?);
                        let book = random_book(&mut rng, &desk.job);
                        desk.put_book(book);
                    }
                    7 => {
                        let other = random_job(&mut rng, &MEDIUM);
                        let words = fast_table(&Asked::new(&mut rng, &other).job, &vec![None; 20]);
                        let words = words.into_iter().cycle().take(desk.job.words()).collect();
                        desk.put_words(words);
                    }
                    _ => {
                        let words = random_words(&mut rng, &desk.job);
                        desk.put_words(words);
                    }
                }
                let mut call = sitting_call(&mut rng, &desk, false);
                if step > 5 {
                    call = good_call(&mut rng, &desk.job, &desk.pins(), false);
                }
                let (short, room) = lent_amiss(&mut rng, &desk);
                let (before, pins) = (desk.words.clone(), desk.pins());
                let due = desk.see(&mut rng, call, short, room)?;
                seen.count(&desk, &before, call[1], due);
                if due > 0 {
                    continue;
                }
                delays[desk.job.delay.min(3)] += 1;
                if tiny {
                    let (job, layers) = (&desk.job, desk.layers(call[1]));
                    let loops = renewed_by_loops(job, &desk.pins(), &before, layers);
                    ensure!(loops == desk.words, "call {call:?}: the loops come to others");
                    told.add(&seen_mistakes(&desk, &pins, &before, call[1]));
                }
            }
            Ok(())
        };
        check().map_err(|trouble| desk.failed(seed, index, &trouble))?;
    }
    let counts =
        format!("{jobs} jobs, {}; delays 0, 1, 2, more {delays:?}{}", seen.show(), told.show());
    let worthwhile = seen.worthwhile(&[0, 7, 8, 9, 10, 11, 12])
        && told.each(150)
        && delays.iter().all(|count| count * 20 > seen.calls);
    ensure!(worthwhile || !asks, "too little in it: {counts}");
    Ok(counts)
}

/// Mistaken ways to make the layers again, and whether a call for this unit tells them:
/// from the pins and the words before it.
fn seen_mistakes(
    desk: &Desk,
    before: &Pins,
    words: &[u32],
    unit: u16,
) -> Vec<(&'static str, bool)> {
    let (job, pins, layers) = (&desk.job, desk.pins(), desk.layers(unit));
    let other = |pins: &Pins, layers: usize| renewed(job, pins, words, layers) != desk.words;
    let read = |read: Reading| renewed_by(read, job, &pins, words, layers) != desk.words;
    let mut alone: Pins = vec![None; pins.len()];
    alone[unit as usize - 1] = pins[unit as usize - 1];
    let (last, total) = (job.intervals(), desk.total());
    let levels = job.start_levels();
    let word = |decoder: i64, levels: Levels| desk.words[job.word(0, decoder, &levels)] != total;
    vec![
        ("one layer too few", other(&pins, layers - 1)),
        ("one layer too many", other(&pins, (layers + 1).min(last))),
        ("layer 0 alone", other(&pins, 1)),
        ("the delay forgotten", other(&pins, unit as usize)),
        ("every layer", other(&pins, last)),
        ("the pins before the call", other(before, layers)),
        ("no other pin", other(&alone, layers)),
        ("512,000,001 read", read(|word| if word > MOST_TOTAL + 1 { FAR } else { word })),
        ("512,000,000 not read", read(|word| if word >= MOST_TOTAL { FAR } else { word })),
        ("29 bits read", read(|word| if word >> 29 > 0 { FAR } else { word })),
        (
            "all but 4,294,967,295 read",
            read(|word| if word == NEVER { FAR } else { word.min(FAR - 1_000_001) }),
        ),
        (
            "no sum over 512,000,000",
            desk.words[..layers * words.len() / (last + 1)]
                .iter()
                .any(|word| *word > MOST_TOTAL && *word != NEVER),
        ),
        ("the total over 512,000,000 as none", total > MOST_TOTAL && total != NEVER),
        ("the total before", words[job.word(0, job.start_decoder, &levels)] != total),
        ("the first word", word(0, [0; MOST_BUCKETS])),
        ("the word of an empty decoder", word(0, levels)),
        ("the word of an empty bucket", word(job.start_decoder, [0, levels[1]])),
        ("the word of an empty second bucket", word(job.start_decoder, [levels[0], 0])),
    ]
}

// ---------------------------------------------------------------------------
// Sittings.
// ---------------------------------------------------------------------------

/// A job for a long sitting.
fn random_sitting_job(rng: &mut Rng, index: usize) -> Draft {
    match index % 8 {
        0 => random_long_job(rng),
        1 => random_double_job(rng, &DOUBLE[1]),
        2 => random_medium_double(rng),
        3 => random_many_job(rng, &MANY[1]),
        4 => random_level_job(rng, &Shape { units: (10, 30), bucket: 4, ..EVEN_SHAPES[1] }),
        _ => random_job(rng, &SESSION),
    }
}

/// How many calls a sitting has.
fn sitting_length(rng: &mut Rng, desk: &Desk) -> usize {
    match desk.job.words() {
        _ if small() => 25,
        0..=5000 => rng.from(150, 400),
        _ => rng.from(30, 80),
    }
}

/// Sittings of calls that see, begun on planning's own table: pins and lifts in any order,
/// refused ones, and such as are lent too little. After every call the set, the table and
/// the total are those of a fresh session with the same pins.
fn sittings_group(seed: u64, asks: bool) -> Result<String, String> {
    sittings(seed, asks, |rng, desk, light, seen| {
        let call = sitting_call(rng, desk, light);
        let (short, room) = lent_amiss(rng, desk);
        let before = desk.words.clone();
        let due = desk.see(rng, call, short, room)?;
        seen.count(desk, &before, call[1], due);
        Ok(())
    })
}

/// The same with calls among them that do not see, after most of which a plan brings the
/// table up to date; now and then one for even pictures, whose table is another, and
/// calls that see go on from that.
fn mixed_sittings_group(seed: u64, asks: bool) -> Result<String, String> {
    sittings(seed, asks, |rng, desk, light, seen| {
        let call = sitting_call(rng, desk, light);
        let order = rng.pick(&ORDERS);
        match rng.from(1, 12) {
            1..=3 => {
                for _ in 0..rng.from(0, 2) {
                    let call = sitting_call(rng, desk, light);
                    desk.make(call)?;
                }
                desk.make(call)?;
                if !rng.one_in(4) {
                    desk.plan(rng, Aim::Total, order)?;
                }
            }
            4 if rng.one_in(3) => drop(desk.plan(rng, Aim::Even, order)?),
            _ => {
                let (short, room) = lent_amiss(rng, desk);
                let before = desk.words.clone();
                let due = desk.see(rng, call, short, room)?;
                seen.count(desk, &before, call[1], due);
            }
        }
        Ok(())
    })
}

fn sittings(
    seed: u64,
    asks: bool,
    step: impl Fn(&mut Rng, &mut Desk, bool, &mut Seen) -> Checked,
) -> Result<String, String> {
    let mut rng = Rng(seed);
    let (mut seen, mut ends) = (Seen::default(), Ends::default());
    let jobs = scaled(24);
    for index in 1..=jobs {
        let draft = random_sitting_job(&mut rng, index);
        let mut desk = Desk::new(&mut rng, &draft)?;
        let light = rng.one_in(2);
        let mut check = || -> Checked {
            match rng.one_in(2) {
                true => desk.plan_by_calls(&mut rng)?,
                false => drop(desk.plan(&mut rng, Aim::Total, order_in_turn(index))?),
            }
            for _ in 0..sitting_length(&mut rng, &desk) {
                step(&mut rng, &mut desk, light, &mut seen)?;
            }
            // At the end of every second sitting most is lifted, so that there is a plan.
            for unit in if index % 2 == 0 { desk.book.keys().copied().collect() } else { vec![] } {
                if !rng.one_in(8) {
                    let before = desk.words.clone();
                    let due = desk.see(&mut rng, [7, unit as u16, 0], 0, 1)?;
                    seen.count(&desk, &before, unit as u16, due);
                }
            }
            check_end(&mut rng, &mut desk, &mut ends)
        };
        check().map_err(|trouble| desk.failed(seed, index, &trouble))?;
    }
    let Ends { plans, orders, not_held, other } = ends;
    let counts = format!(
        "{jobs} sittings, {}; at the end {plans} with a plan, {orders} with another in the other \
         order; of those with another pin {not_held} do not hold it, {other} end otherwise",
        seen.show()
    );
    let worthwhile = seen.worthwhile(&[0, 7, 8, 9, 10, 11, 12])
        && plans * 4 > jobs
        && orders * 10 > jobs
        && not_held * 4 > plans;
    ensure!(worthwhile || !asks, "too little in it: {counts}");
    Ok(counts)
}

/// What came of the ends of sittings.
#[derive(Default)]
struct Ends {
    plans: usize,
    orders: usize,
    not_held: usize,
    other: usize,
}

/// The end of a sitting: a fresh session with its pins, its plans for both aims and in
/// both orders, and their replays. By calls that set the same pins the plans are the same.
fn check_end(rng: &mut Rng, desk: &mut Desk, ends: &mut Ends) -> Checked {
    let (pins, words) = (desk.pins(), desk.job.words());
    let calls = fresh_calls(rng, &pins);
    let mut fresh = Desk::lent(rng, desk.bytes.clone(), desk.job.clone(), words)?;
    for call in calls.chunks(3) {
        same("a pin of a fresh session", 0, fresh.make([call[0], call[1], call[2]])?)?;
    }
    fresh.plan(rng, Aim::Total, Order::Late)?;
    let sets = [&*desk, &fresh].map(|desk| &desk.set.held()[..SET_NUMBERS]);
    same("a fresh session's set", sets[1], sets[0])?;
    if desk.own {
        let same = desk.table.held()[..words] == fresh.table.held()[..words];
        ensure!(same, "a fresh session's table is another");
    }

    let asked = Asked::with(desk.bytes.clone(), desk.job.clone(), calls);
    for aim in AIMS {
        let [early, late] = ORDERS.map(|order| desk.plan(rng, aim, order));
        let (early, late) = (early?, late?);
        same("a plan in both orders", early.is_some(), late.is_some())?;
        for order in ORDERS {
            let due = planned_numbers_for(aim, order, &asked);
            let found = set_planned(aim, order, desk);
            ensure!(due == found, "{aim:?}, {order:?}: by calls another plan than by the set");
        }
        for plan in early.iter().chain(&late) {
            same("a plan's replay", 0, desk.replay(rng, plan)?[0])?;
        }
        let Some(plan) = late else { continue };
        ends.plans += (aim == Aim::Total) as usize;
        ends.orders += (aim == Aim::Total && early.as_ref() != Some(&plan)) as usize;
        check_other_pin(rng, &mut fresh, &plan, ends)?;
    }
    Ok(())
}

/// What planning with a set gives, as `planned_numbers_for` has it.
fn set_planned(aim: Aim, order: Order, desk: &Desk) -> PlannedNumbers {
    let (mut table, mut entries) =
        (vec![7; desk.job.words()], vec![7; ENTRY_BYTES * desk.job.intervals()]);
    let mut values = vec![7; plan_values(&desk.job)];
    let (job, set, aim, order) = (&desk.bytes, desk.set.held(), aim.number(), order.number());
    let number = numbers::plan_set(job, set, aim, order, &mut table, &mut entries, &mut values);
    (number, table, entries, values)
}

/// The plan under a set in which one unit has another pin than the plan's choice: what
/// replay finds is what it finds after the same calls.
fn check_other_pin(rng: &mut Rng, fresh: &mut Desk, plan: &Plan, ends: &mut Ends) -> Checked {
    let choices = fresh.job.choices();
    if choices < 2 {
        return Ok(());
    }
    let unit = rng.from(1, fresh.job.units.len());
    let chosen = plan[fresh.job.delay + unit - 1].1;
    let mut book = fresh.book.clone();
    book.insert(unit, (chosen + rng.from(1, choices - 1)) % choices);
    let held = std::mem::take(&mut fresh.book);
    fresh.put_book(book);
    let values = fresh.replay(rng, plan)?;
    let interval = (fresh.job.delay + unit) as u64;
    match values[..2] {
        [NOT_HELD, found] if found == interval => ends.not_held += 1,
        _ => ends.other += 1,
    }
    let calls = fresh_calls(rng, &fresh.pins());
    let found = replayed_numbers(fresh, &calls, plan);
    let due = set_replayed(fresh, plan);
    fresh.put_book(held);
    same("a replay with a set, and after calls", due, found)
}

/// A replay's answer, levels and values.
type ReplayedNumbers = (u32, Vec<u16>, Vec<u64>);

fn set_replayed(desk: &Desk, plan: &Plan) -> ReplayedNumbers {
    let mut levels = vec![7; level_numbers(&desk.job)];
    let mut values = vec![7; replay_values(&desk.job)];
    let (job, set, entries) = (&desk.bytes, desk.set.held(), plan_bytes(plan));
    let number = numbers::replay_set(job, set, &entries, &mut levels, &mut values);
    (number, levels, values)
}

fn replayed_numbers(desk: &Desk, calls: &[u16], plan: &Plan) -> ReplayedNumbers {
    let mut levels = vec![7; level_numbers(&desk.job)];
    let mut values = vec![7; replay_values(&desk.job)];
    let (job, entries) = (&desk.bytes, plan_bytes(plan));
    let number = numbers::replay(job, calls, &entries, &mut levels, &mut values);
    (number, levels, values)
}

fn typed_order(order: Order) -> upload_planner::Order {
    match order {
        Order::Early => upload_planner::Order::Early,
        Order::Late => upload_planner::Order::Late,
    }
}

/// Sittings of the type [`upload_planner::Session`]: what it says after each call is what
/// the numbers say.
fn typed_sittings_group(seed: u64, asks: bool) -> Result<String, String> {
    let mut rng = Rng(seed);
    let (mut calls, mut refused, mut never, mut plans) = (0, 0, 0, 0);
    let jobs = scaled(60);
    for index in 1..=jobs {
        let draft = random_seen_job(&mut rng, index);
        let mut desk = Desk::new(&mut rng, &draft)?;
        let light = rng.one_in(2);
        let bytes = desk.bytes.clone();
        let mut check = || -> Checked {
            let opened = upload_planner::Session::open(&bytes);
            let mut session = opened.map_err(|refusal| refusal.to_string())?;
            desk.plan(&mut rng, Aim::Total, Order::Late)?;
            check_typed_session(&session, &desk)?;
            for _ in 0..12 {
                let call = sitting_call(&mut rng, &desk, light);
                let due = desk.see(&mut rng, call, 0, 1)?;
                let [kind, unit, choice] = call;
                let found = match kind {
                    6 => session.pin(unit, choice),
                    _ => session.lift(unit),
                };
                let found = found.err().map_or(0, |refusal| refusal.number());
                same(&format!("typed call {call:?}"), due as u32, found)?;
                check_typed_session(&session, &desk)?;
                calls += 1;
                refused += (due > 0) as usize;
                never += (desk.total() == NEVER) as usize;
            }
            for (aim, order) in AIMS.iter().flat_map(|aim| ORDERS.map(|order| (*aim, order))) {
                let plan = desk.plan(&mut rng, aim, order)?;
                let found = session.plan(typed_aim(aim), typed_order(order));
                let found = found.map_err(|refusal| refusal.number());
                let (number, table, entries, values) = set_planned(aim, order, &desk);
                same("a typed plan's number", number, found.as_ref().err().copied().unwrap_or(0))?;
                if let (Ok(found), Some(plan)) = (found, plan) {
                    same("typed entries", &entries, &found.entries)?;
                    same("typed totals", typed_totals(&values), found.totals)?;
                    ensure!(table == found.table, "the typed table is another");
                    ensure!(found.answers.is_empty(), "answers without calls");
                    check_typed_replay(&session, &desk, &plan)?;
                    plans += 1;
                }
            }
            let other = random_plan(&mut rng, &desk.job, &desk.pins());
            check_typed_replay(&session, &desk, &other)?;
            let (entries, how) = misshapen(&mut rng, &desk.job, &other);
            let found = session.replay(&entries).err().map(|refusal| refusal.number());
            same(how, Some(14), found)
        };
        check().map_err(|trouble| desk.failed(seed, index, &trouble))?;
    }
    let counts = format!(
        "{jobs} sittings, {calls} calls, {refused} refused, {never} without a plan, {plans} plans"
    );
    let worthwhile = refused * 5 > calls && never * 20 > calls && plans > jobs;
    ensure!(worthwhile || !asks, "too little in it: {counts}");
    Ok(counts)
}

fn check_typed_session(session: &upload_planner::Session, desk: &Desk) -> Checked {
    let total = desk.total();
    same("typed total", (total != NEVER).then_some(total), session.best_total())?;
    ensure!(session.table() == desk.words, "the typed table is another");
    let pins: Vec<(u16, u16)> =
        desk.book.iter().map(|(&unit, &choice)| (unit as u16, choice as u16)).collect();
    same("typed pins", &pins, &session.pins().collect())?;
    let units = desk.job.units.len();
    for unit in [0, 1, units, units + 1, 512, 513, 0xffff] {
        let choice = desk.book.get(&unit).map(|&choice| choice as u16);
        same(&format!("typed pin of unit {unit}"), choice, session.pin_of(unit as u16))?;
    }
    let totals = pin_totals(&desk.job, &desk.pins());
    same("typed totals of pins", typed_pins(totals), session.pin_totals())?;
    let opened = session.opened();
    same("typed words", desk.job.words(), opened.table_words)?;
    same("the job's bytes", &desk.bytes[..], session.job())
}

fn check_typed_replay(session: &upload_planner::Session, desk: &Desk, plan: &Plan) -> Checked {
    let due = follow(&desk.job, &desk.pins(), plan);
    let found = session.replay(&plan_bytes(plan)).map_err(|refusal| refusal.number());
    let levels = typed_levels(&desk.job, &due.levels);
    same("typed replay", Ok((levels, typed_replay(&due.values))), found)
}

// ---------------------------------------------------------------------------
// Plans and replays with a set.
// ---------------------------------------------------------------------------

/// Tiny jobs, both aims and both orders, against every plan there is.
fn set_plans_group(seed: u64, asks: bool) -> Result<String, String> {
    let mut rng = Rng(seed);
    let (mut plans, mut orders, mut choices) = ([0; 2], [0; 2], 0);
    let mut jobs = 0;
    for index in 1..=scaled(500) {
        let draft = match index % 4 {
            0 => random_tiny_double(&mut rng),
            1 => random_job(&mut rng, &TINY),
            _ => random_level_job(&mut rng, &EVEN_SHAPES[0]),
        };
        let mut desk = Desk::new(&mut rng, &draft)?;
        if desk.job.plans().map_or(true, |plans| plans > ENUMERATION_LIMIT) {
            continue;
        }
        jobs += 1;
        let calls = call_numbers(&mut rng, &draft.commands);
        let asked = Asked::with(desk.bytes.clone(), desk.job.clone(), calls);
        let mut check = || -> Checked {
            for (call, number) in asked.calls.chunks(3).zip(&asked.answers) {
                same("a call", *number, desk.make([call[0], call[1], call[2]])?)?;
            }
            let all = admissible_plans(&desk.job, &desk.pins());
            for (which, aim) in AIMS.into_iter().enumerate() {
                let [early, late] = ORDERS.map(|order| first_plan(&desk.job, aim, order, &all));
                let found = [
                    desk.plan(&mut rng, aim, Order::Early)?,
                    desk.plan(&mut rng, aim, Order::Late)?,
                ];
                same("every plan, and those read off", [&early, &late], [&found[0], &found[1]])?;
                for order in ORDERS {
                    let found = set_planned(aim, order, &desk);
                    let due = planned_numbers_for(aim, order, &asked);
                    ensure!(due == found, "{order:?}: by calls another plan");
                }
                plans[which] += late.is_some() as usize;
                orders[which] += (early != late) as usize;
                // Early and late differ in a rate first; a choice decides after that.
                let last = all.iter().max_by_key(|judged| {
                    (-judged.total, Order::Late.rank(&desk.job, &judged.plan))
                });
                let last = last.map(|judged| judged.plan.clone());
                choices += (aim == Aim::Total && last != early && last != late) as usize;
                for plan in early.iter().chain(&late) {
                    same("a plan's replay", 0, desk.replay(&mut rng, plan)?[0])?;
                }
            }
            Ok(())
        };
        check().map_err(|trouble| desk.failed(seed, index, &trouble))?;
    }
    let counts = format!(
        "{jobs} jobs, {} with a plan, {} for even pictures; {} and {} with another in the other \
         order; {choices} in which the last plan of all is neither",
        plans[0], plans[1], orders[0], orders[1]
    );
    let worthwhile =
        plans[0] * 3 > jobs && orders.iter().all(|o| o * 8 > jobs) && choices * 8 > jobs;
    ensure!(worthwhile || !asks, "too little in it: {counts}");
    Ok(counts)
}

/// Plans of any kind with the pins of a set, also on lines that never drain, where a set
/// has to be made by hand. On others replay finds the same after calls.
fn set_replays_group(seed: u64, asks: bool) -> Result<String, String> {
    let mut rng = Rng(seed);
    let (mut tally, mut stored, mut held) = ([0; 6], 0, 0);
    let jobs = scaled(300);
    for index in 1..=jobs {
        let draft = match index % 6 {
            0 => random_medium_double(&mut rng),
            1 => random_job(&mut rng, &MEDIUM),
            2 => random_double_job(&mut rng, &DOUBLE[1]),
            3 => random_tiny_double(&mut rng),
            _ => random_job(&mut rng, &TINY),
        };
        let draft = random_stored(&mut rng, &draft, 4);
        let Asked { bytes, job, .. } = Asked::new(&mut rng, &draft);
        let never = job.never_drains();
        let book = random_book(&mut rng, &job);
        let more = slack(&mut rng);
        let mut set = Lent::new(&mut rng, SET_NUMBERS + more);
        set.list()[..SET_NUMBERS].copy_from_slice(&set_numbers(&job, &book));
        let (table, words) = (Lent::new(&mut rng, 0), Vec::new());
        let desk = Desk { bytes, job, book, set, table, words, own: false };
        let mut check = || -> Checked {
            for which in 0..6 {
                let plan = match which % 2 {
                    0 => tight_plan(&mut rng, &desk.job, &desk.pins(), 4),
                    _ => random_plan(&mut rng, &desk.job, &desk.pins()),
                };
                let values = desk.replay(&mut rng, &plan)?;
                tally[values[0] as usize] += 1;
                stored += never as usize;
                held += (never && values[0] == NOT_HELD) as usize;
                if !never {
                    let calls = fresh_calls(&mut rng, &desk.pins());
                    let due = replayed_numbers(&desk, &calls, &plan);
                    same("replay after calls, and with a set", due, set_replayed(&desk, &plan))?;
                }
                let (entries, how) = misshapen(&mut rng, &desk.job, &plan);
                let mut levels = Lent::<u16>::new(&mut rng, level_numbers(&desk.job));
                let mut values = Lent::<u64>::new(&mut rng, replay_values(&desk.job));
                let (job, set, lists) =
                    (&desk.bytes, desk.set.held(), (levels.list(), values.list()));
                same(how, 14, numbers::replay_set(job, set, &entries, lists.0, lists.1))?;
                levels.kept("levels after 14")?;
                values.kept("values after 14")?;
            }
            Ok(())
        };
        check().map_err(|trouble| desk.failed(seed, index, &trouble))?;
    }
    let [clean, short, over, bucket, pin, second] = tally;
    let counts = format!(
        "{} plans: {clean} clean, {short} decoder short, {over} decoder over, {bucket} bucket \
         over, {second} second bucket over, {pin} pin not held; {stored} on lines that never \
         drain, {held} of them for a pin",
        6 * jobs
    );
    let worthwhile = tally.iter().all(|count| count * 20 > jobs) && held * 30 > jobs;
    ensure!(worthwhile || !asks, "too little in it: {counts}");
    Ok(counts)
}

/// The best plan of Job A on lines that never drain, with sets that have to be made by
/// hand: it is followed with their pins, and every other call refuses the job with 17,
/// whatever the set.
fn set_never_group() -> Result<String, String> {
    let mut rng = Rng(1);
    let mut sets = 0;
    for Known { draft, levels, totals, .. } in stored_lines() {
        let Asked { bytes, job, .. } = Asked::new(&mut rng, &draft);
        let each = 1 + job.buckets.len();
        let plan = read_plan(&job, &LATE_A).expect("a plan");
        let clean = [&[0, 0], &totals[..]].concat();
        // Unit 1 has choice 0 in interval 2, unit 2 choice 1 in interval 3.
        for (book, held) in [
            (vec![], 3),
            (vec![(1, 0)], 3),
            (vec![(1, 0), (2, 1)], 3),
            (vec![(1, 1)], 1),
            (vec![(2, 0)], 2),
            (vec![(1, 0), (2, 0)], 2),
            (vec![(1, 1), (2, 0)], 1),
        ] {
            let book: Book = book.into_iter().collect();
            let right = set_numbers(&job, &book);
            let what = format!("header {:?}, pins {book:?}", draft.header);
            let set = lent_with(&mut rng, &right);
            let (table, words) = (Lent::new(&mut rng, 0), Vec::new());
            let (bytes, job) = (bytes.clone(), job.clone());
            let desk = Desk { bytes, job, book, set, table, words, own: false };
            let found = desk.replay(&mut rng, &plan).map_err(|t| format!("{what}: {t}"))?;
            let due =
                if held == 3 { clean.clone() } else { violated(&desk.job, NOT_HELD, held + 1) };
            same(&what, due, found)?;
            let followed = follow(&desk.job, &desk.pins(), &plan).levels;
            same(&what, &levels[..each * held], &followed)?;
            for way in 0..5 {
                let mut list = right.clone();
                if way < 4 {
                    wrong_set(&mut list, way);
                }
                check_undrained(&mut rng, &desk.bytes, &list, &plan, way < 4)
                    .map_err(|trouble| format!("{what}, set {way}: {trouble}"))?;
                sets += 1;
            }
        }
    }
    Ok(format!("{sets} sets"))
}

/// Every call that takes a set refuses the job with 17 before it looks at the set; replay
/// takes the job, and refuses a wrong set with 6.
fn check_undrained(rng: &mut Rng, bytes: &[u8], list: &[u32], plan: &Plan, wrong: bool) -> Checked {
    let mut set = lent_with(rng, list);
    let (mut table, mut entries): (Lent<u32>, Lent<u8>) = (Lent::new(rng, 2000), Lent::new(rng, 9));
    let (mut values, mut totals): (Lent<u64>, Lent<u32>) = (Lent::new(rng, 7), Lent::new(rng, 256));
    let buckets = if list[0] == 8 { 2 } else { 1 };
    let new = Contract { rates: vec![0, 2], sizes: vec![3; buckets], drains: vec![1; buckets] };
    let (old, lists) = (plan_bytes(plan), (table.list(), values.list()));
    let found = [
        numbers::pin(bytes, set.list(), 1, 0),
        numbers::pin(bytes, set.list(), 3, 0),
        numbers::lift(bytes, set.list(), 1),
        numbers::lift(bytes, set.list(), 0),
        numbers::pin_and_see(bytes, set.list(), 2, 1, lists.0, lists.1),
        numbers::lift_and_see(bytes, set.list(), 1, lists.0, lists.1),
        numbers::plan_set(bytes, set.held(), TOTAL, LATE, lists.0, entries.list(), lists.1),
        numbers::plan_set(bytes, set.held(), EVEN, 9, lists.0, entries.list(), lists.1),
        changed(bytes, set.held(), &old, 1, &new, EARLY, lists.0, entries.list(), lists.1),
        changed(bytes, set.held(), &old[1..], 3, &new, 9, lists.0, entries.list(), lists.1),
        numbers::sizes(bytes, set.held(), lists.0, totals.list()),
        numbers::sizes(bytes, set.held(), &mut [], &mut []),
        numbers::set(bytes, set.list()),
    ];
    same("a job that never drains", [17; 13], found)?;
    totals.kept("totals")?;
    let mut levels = vec![7; 9];
    let replayed =
        numbers::replay_set(bytes, set.held(), &plan_bytes(plan), &mut levels, &mut [7; 7]);
    same("its replay", if wrong { 6 } else { 0 }, replayed)?;
    ensure!(!wrong || levels == [7; 9], "levels after 6");
    set.wrote("set", list)?;
    table.kept("table")?;
    entries.kept("entries")?;
    values.kept("values")
}

/// Calls that see over the large tables of trial jobs: of the first unit, the last and one
/// between, each pinned at the choice that takes least. The last number is the state.
fn seen_large_group() -> Result<String, String> {
    let few = Size { units: 48, delay: 8, decoder: 63, bucket: 15, rates: 8, choices: 8 };
    let sizes = [
        ("many units", Size { units: 512, delay: 64, decoder: 31, bucket: 3, ..few }, None, 70),
        ("large buffers", Size { units: 4, decoder: 255, bucket: 255, ..few }, None, 1),
        ("a thousand choices", Size { units: 8, rates: 16, choices: 1000, ..few }, None, 1),
        ("two buckets", Size { units: 8, ..few }, Some([31, 18, 20]), 1),
    ];
    let mut rng = Rng(7);
    let (mut words, mut calls) = (0, 0);
    for (name, size, second, state) in &sizes {
        let draft = large_trial(size, *second, *state)?;
        let mut check = || -> Checked {
            let mut desk = Desk::new(&mut rng, &draft)?;
            desk.plan(&mut rng, Aim::Total, Order::Early)?;
            let last = size.units as u16;
            let pin = |unit: u16| [6, unit, smallest(&draft.units[unit as usize - 1])];
            for call in [pin(last), pin(1), pin(last / 2), [7, 1, 0], [7, last, 0]] {
                same("a large table", 0, desk.see(&mut rng, call, 0, 1)?)?;
                ensure!(desk.total() != NEVER, "no plan");
                calls += 1;
            }
            words += desk.words.len();
            Ok(())
        };
        check().map_err(|trouble| format!("{name}: {trouble}"))?;
    }
    Ok(format!("{} jobs, {words} words, {calls} calls", sizes.len()))
}

// ---------------------------------------------------------------------------
// Writing.
// ---------------------------------------------------------------------------

/// Has a job written to lists of these lengths, and compares all that they hold
/// afterwards with what is due. Gives the number due.
fn check_write(
    rng: &mut Rng,
    lists: &Lists,
    room: usize,
    values: usize,
) -> Result<Refusal, String> {
    // A copy has no memory to spare, so that a watched run sees what is read
    // past the end of a list.
    let given = lists.clone();
    let mut job = Lent::new(rng, room);
    let mut count = Lent::new(rng, values);
    let found = numbers::write(
        &given.fields,
        &given.rates,
        &given.sizes,
        &given.distortions,
        job.list(),
        count.list(),
    );
    let due = write_job(lists, room, values);
    let number = due.as_ref().err().copied().unwrap_or(0);
    same("write", number as u32, found)?;
    match due {
        Ok(bytes) => {
            job.wrote("job", &bytes)?;
            count.wrote("values of write", &[bytes.len() as u64])?;
        }
        Err(_) => {
            job.kept("job")?;
            count.kept("values of write")?;
        }
    }
    Ok(number)
}

/// The header of nine fields or twelve.
fn header_of(fields: &[u16]) -> Option<Header> {
    if !FIELDS.contains(&fields.len()) {
        return None;
    }
    let second = fields.get(SECOND).map(|&size| upload_planner::Bucket {
        size,
        drain: fields[SECOND_DRAIN],
        level: fields[START_SECOND],
    });
    Some(Header {
        units: fields[UNITS],
        delay: fields[DELAY],
        decoder: fields[DECODER],
        bucket: fields[BUCKET],
        drain: fields[DRAIN],
        level: fields[START_DECODER],
        fill: fields[START_BUCKET],
        rates: fields[RATES],
        choices: fields[CHOICES],
        second,
    })
}

/// What the library itself writes.
fn written(lists: &Lists) -> Result<Vec<u8>, String> {
    let header = header_of(&lists.fields).ok_or("not a header")?;
    let Lists { rates, sizes, distortions, .. } = lists;
    upload_planner::written(&header, rates, sizes, distortions)
        .map_err(|refusal| format!("refused: {refusal}"))
}

/// The typed functions give what the numbers give.
fn check_typed_write(rng: &mut Rng, lists: &Lists, room: usize) -> Checked {
    let Some(header) = header_of(&lists.fields) else { return Ok(()) };
    same("a header's numbers", &lists.fields[..], &header.numbers()[..])?;
    let Lists { rates, sizes, distortions, .. } = lists;
    let due = write_job(lists, room, 1).map_err(u32::from);
    let mut job = Lent::new(rng, room);
    let found = upload_planner::write(&header, rates, sizes, distortions, job.list());
    let count = due.as_ref().map(Vec::len).map_err(|number| *number);
    same("typed write", count, found.map_err(|refusal| refusal.number()))?;
    job.wrote("typed job", &due.unwrap_or_default())?;

    let due = write_job(lists, usize::MAX, 1).map_err(u32::from);
    if let Ok(bytes) = &due {
        same("a header's bytes", bytes.len(), header.job_bytes())?;
    }
    let owned = upload_planner::written(&header, rates, sizes, distortions);
    same("owned job", due, owned.map_err(|refusal| refusal.number()))
}

/// The bytes that the header calls for, up to more than a job of these lists takes.
fn room_for(lists: &Lists) -> usize {
    match header_of(&lists.fields) {
        Some(header) => {
            let [units, rates, choices] =
                [header.units, header.rates, header.choices].map(usize::from);
            let fields = lists.fields.len();
            let called_for = 8 + 2 * fields + 2 * rates + units * (4 + 6 * choices);
            called_for.min(100_000 + 10 * lists.sizes.len())
        }
        None => 100,
    }
}

// ---------------------------------------------------------------------------
// Writing the examples again.
// ---------------------------------------------------------------------------

/// Each example's job is read, and written as it stands in the file; with a distortion
/// changed it opens and plans as the changed job is to. One that never drains is not
/// written.
fn examples_group(directory: &Path) -> Result<String, String> {
    let inputs = example_inputs(directory)?;
    let mut rng = Rng(1);
    let (mut changes, mut plans, mut others) = (0, 0, 0);
    for (path, input) in &inputs {
        let counts = check_example(&mut rng, input)
            .map_err(|trouble| format!("{}: {trouble}", path.display()))?;
        changes += counts[0];
        plans += counts[1];
        others += counts[2];
    }
    let counts = format!(
        "{} examples, {changes} changes, {plans} with a plan, {others} with another plan",
        inputs.len()
    );
    // An emptied directory would pass otherwise.
    ensure!(others > 0, "too little in it: {counts}");
    Ok(counts)
}

/// Gives the number of changes, of those with a plan, and of those with another
/// plan than the example's.
fn check_example(rng: &mut Rng, input: &[u8]) -> Result<[usize; 3], String> {
    let mut reader = Reader { rest: input };
    let job = read_stored(&mut reader).map_err(|number| format!("no job: {number}"))?;
    check_job_read(rng, &Lists::of_job(&job).draft(), input)?;
    if job.never_drains() {
        same("write", 17, check_write(rng, &Lists::of_job(&job), input.len(), 1)?)?;
        same("bytes", [17, 0], check_bytes(rng, input)?)?;
        return Ok([0; 3]);
    }
    let taken = &input[..input.len() - reader.rest.len()];
    let pins = read_commands(&mut reader, &job).map_err(|number| format!("commands: {number}"))?;
    let lists = Lists::of_job(&job);
    for room in [taken.len(), taken.len() + 9] {
        same("write", 0, check_write(rng, &lists, room, 1)?)?;
    }
    check_typed_write(rng, &lists, taken.len())?;
    same("the example written again", taken, &written(&lists)?)?;

    let units = pins.iter().enumerate();
    let held: Vec<Command> =
        units.filter_map(|(i, pinned)| Some(Pin(i as u16 + 1, (*pinned)? as u16))).collect();
    let mut counts = [0; 3];
    for commands in if held.is_empty() { vec![vec![]] } else { vec![held, vec![]] } {
        let draft = lists.draft().commanded(&commands);
        let before = check_changed(rng, &draft)?;
        let codings = job.units.len() * job.choices();
        for at in (0..codings).step_by(if small() { codings.div_ceil(3) } else { 1 }) {
            let (unit, choice) = (at / job.choices(), at % job.choices());
            for distortion in [0, rng.from(0, 300) as u32, rng.from(65_536, 1_000_000) as u32] {
                let mut changed = draft.clone();
                changed.units[unit][choice].1 = distortion;
                let plan = check_changed(rng, &changed).map_err(|trouble| {
                    format!("unit {} choice {choice}: {distortion}: {trouble}", unit + 1)
                })?;
                counts[0] += 1;
                counts[1] += plan.is_some() as usize;
                counts[2] += (plan != before) as usize;
            }
        }
    }
    Ok(counts)
}

/// Has the draft's job written, opened and planned. Gives the best plan in the early order.
fn check_changed(rng: &mut Rng, draft: &Draft) -> Result<Option<Plan>, String> {
    let lists = Lists::of_draft(draft);
    same("write", 0, check_write(rng, &lists, room_for(&lists), 1)?)?;
    let asked = Asked { bytes: written(&lists)?, ..Asked::new(rng, draft) };
    let table = fast_table(&asked.job, &asked.pins);
    let plans = read_off(&asked.job, &asked.pins, &table);
    if asked.job.plans().is_some_and(|plans| plans <= ENUMERATION_LIMIT) {
        same("plan read off", &enumerate(&asked.job, &asked.pins).best, &plans)?;
    }
    check_open(rng, &asked)?;
    check_plan(rng, &asked, &table, &plans)?;
    check_typed(&asked, &table, &plans)?;
    Ok(plan_in(Order::Early, &plans).clone())
}

// ---------------------------------------------------------------------------
// Limits of writing.
// ---------------------------------------------------------------------------

/// Every field, number and length at its limits and past them, each alone.
fn write_limits_group() -> Result<String, String> {
    let mut rng = Rng(1);
    let mut cases = largest_cases();
    for buckets in 1..=MOST_BUCKETS {
        let a = if buckets > 1 { job_a().doubled(SECOND_A) } else { job_a() };
        cases.extend(field_cases(&a, buckets));
        cases.extend(rate_cases(&a, buckets));
        cases.extend(coding_cases(&a));
        cases.extend(length_cases(&a));
        cases.extend(room_cases(&a));
    }
    let mut count = 0;
    // A small run takes each seventh case, from among those of every kind.
    let every = if small() { 7 } else { 1 };
    for LimitCase { lists, room, values, due, what } in cases.into_iter().step_by(every) {
        count += 1;
        let mut check = || -> Checked {
            same("number", due, check_write(&mut rng, &lists, room, values)?)?;
            check_typed_write(&mut rng, &lists, room)
        };
        check().map_err(|trouble| format!("{what}: {trouble}\n  {}", lists.show()))?;
    }
    Ok(format!("{count} cases"))
}

struct LimitCase {
    lists: Lists,
    /// The length of the list for the job.
    room: usize,
    /// The length of the list for its bytes' count.
    values: usize,
    due: Refusal,
    what: String,
}

/// A case in which the lists that are filled are long enough.
fn limit_case(lists: Lists, due: Refusal, what: String) -> LimitCase {
    LimitCase { room: room_for(&lists) + 3, lists, values: 1, due, what }
}

/// Each field of the header, on a line of so many buckets, of which `a` is Job A.
fn field_cases(a: &Draft, buckets: usize) -> Vec<LimitCase> {
    let mut cases = Vec::new();
    for &(field, low, high) in &LIMITS[..FIELDS[buckets - 1]] {
        let what = |value: u16| format!("{buckets} buckets, field {field} is {value}");
        for value in values_in(field, low, high) {
            let lists = Lists::of_draft(&sized_draft(buckets, field, value));
            cases.push(limit_case(lists, in_limits(field, value), what(value)));
        }
        for value in [low.wrapping_sub(1), high + 1, high + 256, 0x8000, 0xffff] {
            if value < low || value > high {
                let sized = sized_draft(buckets, field, value.min(most_sized(field)));
                let draft = sized.with(field, value);
                cases.push(limit_case(Lists::of_draft(&draft), 3, what(value)));
            }
        }
    }
    let sizes =
        [(DECODER, START_DECODER, 255), (BUCKET, START_BUCKET, 255), (SECOND, START_SECOND, 63)];
    for &(size, level, large) in &sizes[..1 + buckets] {
        for (most, start, due) in
            [(0, 0, 0), (0, 1, 3), (7, 7, 0), (7, 8, 3), (large, large, 0), (large, large + 1, 3)]
        {
            let draft = a.with(size, most).with(level, start);
            let what = format!("field {size} is {most}, starting level {start}");
            cases.push(limit_case(Lists::of_draft(&draft), due, what));
        }
    }
    cases
}

/// Rates over their limit or not rising.
fn rate_cases(a: &Draft, buckets: usize) -> Vec<LimitCase> {
    let mut cases = Vec::new();
    let rates: [(&[u16], Refusal); 20] = [
        (&[0], 0),
        (&[4095], 0),
        (&[4096], 4),
        (&[0xffff], 4),
        (&[0, 1], 0),
        (&[0, 0], 4),
        (&[1, 0], 4),
        (&[4094, 4095], 0),
        (&[4095, 4095], 4),
        (&[4095, 4096], 4),
        (&[255, 256], 0),
        (&[256, 255], 4),
        (&[0, 2, 4095], 0),
        (&[0, 2, 4096], 4),
        (&[0, 4095, 4096], 4),
        (&[0, 2, 2], 4),
        (&[2, 2, 4], 4),
        (&[0, 4, 2], 4),
        (&[4, 2, 0], 4),
        (&[4096, 4097, 4098], 4),
    ];
    for (rates, due) in rates {
        let mut lists = Lists::of_draft(&a.with(RATES, rates.len() as u16));
        lists.rates = rates.to_vec();
        cases.push(limit_case(lists, due, format!("rates {rates:?}")));
    }
    for place in 0..16 {
        // As many rates as a job may have, and one of them equal to the one
        // before it, below it, or over the limit.
        let mut lists = Lists::of_draft(&sized_draft(buckets, RATES, 16));
        lists.rates = (0..16).map(|rate| 4095 - 3 * (15 - rate)).collect();
        let before = place > 0;
        for (rate, wrong) in [
            (lists.rates[place], false),
            (lists.rates[place].wrapping_sub(3), before),
            (lists.rates[place].wrapping_sub(4), before),
            (4096 + place as u16, true),
        ] {
            let mut lists = lists.clone();
            lists.rates[place] = rate;
            let due = if wrong { 4 } else { 0 };
            cases.push(limit_case(lists, due, format!("rate {place} is {rate}")));
        }
    }
    cases
}

/// Grains and distortions, in every place or many.
fn coding_cases(a: &Draft) -> Vec<LimitCase> {
    let mut cases = Vec::new();
    let mut wide = Draft::new(BARE, &[0], &vec![vec![(1, 2); 31]; 3]);
    wide.header.extend(&a.header[FIELDS[0]..]);
    let mut many = Draft::new(BARE, &[0], &vec![vec![(1, 2); MOST_CHOICES]; 2]);
    many.header.extend(&a.header[FIELDS[0]..]);
    // Of many choices some, in either unit.
    let some = [0, 31, 255, 256, 999, 1000, 1255, 1256, 1999];
    for (draft, places) in [(a, None), (&wide, None), (&many, Some(some))] {
        let lists = Lists::of_draft(draft);
        for at in places.map_or((0..lists.sizes.len()).collect(), Vec::from) {
            for (size, due) in [(0, 0), (255, 0), (256, 0), (4095, 0), (4096, 5), (0xffff, 5)] {
                let mut lists = lists.clone();
                lists.sizes[at] = size;
                cases.push(limit_case(lists, due, format!("size {at} is {size}")));
            }
            for (distortion, due) in [
                (0, 0),
                (255, 0),
                (256, 0),
                (65_535, 0),
                (65_536, 0),
                (0x000a_0b0c, 0),
                (1_000_000, 0),
                (1_000_001, 5),
                (0x0100_0000, 5),
                (0x8000_0000, 5),
                (u32::MAX, 5),
            ] {
                let mut lists = lists.clone();
                lists.distortions[at] = distortion;
                cases.push(limit_case(lists, due, format!("distortion {at} is {distortion}")));
            }
        }
    }
    cases
}

/// Lists that are read, of all lengths.
fn length_cases(a: &Draft) -> Vec<LimitCase> {
    let mut cases = Vec::new();
    let good = Lists::of_draft(a);
    // Some wrong lengths are the right one in eight or sixteen bits.
    let lengths = |due: usize| [0, 1, due - 1, due, due + 1, 2 * due, due + 256, due + 65_536];
    // With three more fields of 1, or without its last three, a header is of the
    // other kind.
    for length in (0..=26).chain([256, 265, 268, 65_545, 65_548]) {
        let mut lists = good.clone();
        lists.fields.resize(length, 1);
        let due = if length == 9 || length == 12 { 0 } else { 3 };
        cases.push(limit_case(lists, due, format!("{length} fields")));
    }
    for which in 1..8 {
        // One list of another length, or several.
        let has = |bit: usize| which >> bit & 1 == 1;
        let right = if has(0) { 3 } else { 4 };
        for length in lengths(right) {
            let mut lists = good.clone();
            if has(0) {
                let rate = |at: usize| good.rates.get(at).map_or(at as u16 + 9, |&rate| rate);
                lists.rates = (0..length).map(rate).collect();
            }
            if has(1) {
                lists.sizes.resize(length, 3);
            }
            if has(2) {
                lists.distortions.resize(length, 3);
            }
            let fit = [lists.rates.len(), lists.sizes.len(), lists.distortions.len()] == [3, 4, 4];
            let due = if fit { 0 } else { 16 };
            cases.push(limit_case(lists, due, format!("length {length} of lists {which:03b}")));
        }
    }
    // One list longer by what the other is shorter.
    for (sizes, distortions) in [(3, 5), (5, 3), (0, 8), (8, 0)] {
        let mut lists = good.clone();
        lists.sizes.resize(sizes, 3);
        lists.distortions.resize(distortions, 3);
        cases.push(limit_case(lists, 16, format!("{sizes} sizes, {distortions} distortions")));
    }
    // The header calls for more or fewer than there are.
    for (field, value) in
        [(RATES, 2), (RATES, 4), (UNITS, 1), (UNITS, 3), (CHOICES, 1), (CHOICES, 3)]
    {
        let lists = Lists::of_draft(&a.with(field, value));
        cases.push(limit_case(lists, 16, format!("field {field} is {value}, the lists as before")));
    }
    // Two units of two choices, one of four, or four of one.
    for (units, choices) in [(2, 2), (1, 4), (4, 1)] {
        let lists = Lists::of_draft(&a.with(UNITS, units).with(CHOICES, choices));
        cases.push(limit_case(lists, 0, format!("{units} units of {choices} choices")));
    }
    cases
}

/// Lists that are filled, of all lengths.
fn room_cases(a: &Draft) -> Vec<LimitCase> {
    let mut cases = Vec::new();
    let good = Lists::of_draft(a);
    let taken = if good.fields.len() == 9 { 64 } else { 70 };
    for room in 0..=taken + 3 {
        let due = if room < taken { 12 } else { 0 };
        let lists = good.clone();
        cases.push(LimitCase { lists, room, values: 1, due, what: format!("{room} bytes") });
    }
    for values in [0, 1, 2, 9] {
        let due = if values < 1 { 12 } else { 0 };
        let lists = good.clone();
        cases.push(LimitCase { lists, room: taken, values, due, what: format!("{values} values") });
    }
    cases
}

/// The smallest job and the largest of either kind, whose numbers are as large as
/// they may be, in lists that are just enough and one byte short.
fn largest_cases() -> Vec<LimitCase> {
    let mut cases = Vec::new();
    let smallest = Draft::new(BARE, &[0], &[vec![(0, 0)]]);
    let largest = largest_draft();
    for (draft, taken) in [
        (smallest.doubled([0, 1, 0]), 44),
        (largest.doubled([63, 4095, 63]), 3_074_112),
        (smallest, 38),
        (largest, 3_074_106),
    ] {
        for (room, due) in [(taken - 1, 12), (taken, 0), (taken + 1, 0)] {
            let lists = Lists::of_draft(&draft);
            let what = format!("{room} bytes for {taken}");
            cases.push(LimitCase { lists, room, values: 1, due, what });
        }
    }
    cases
}

/// The largest job on a line of one bucket.
fn largest_draft() -> Draft {
    let rates: Vec<u16> = (4080..=4095).collect();
    let units = vec![vec![(4095, 1_000_000); MOST_CHOICES]; 512];
    Draft::new([64, 255, 255, 4095, 255, 255], &rates, &units)
}

// ---------------------------------------------------------------------------
// Refusals of writing in their order.
// ---------------------------------------------------------------------------

/// In how many ways `check_write_order` has a wrong header, lengths, rates and
/// codings, and a list too short for the job.
const WRITE_DEFECTS: [usize; 5] = [8, 10, 4, 4, 3];

/// Every set of defects at once, each in each of its ways.
fn write_order_group() -> Result<String, String> {
    let mut rng = Rng(1);
    let ways: usize = WRITE_DEFECTS.iter().product();
    let mut sets = 0;
    for (a, bits) in drains_of_a().iter().flat_map(|a| (0..1 << 6).map(move |bits| (a, bits))) {
        for number in (0..ways).step_by(if small() { 97 } else { 1 }) {
            let mut rest = number;
            let way = WRITE_DEFECTS.map(|count| {
                let way = rest % count;
                rest /= count;
                way
            });
            let has = |bit: usize| bits >> bit & 1 == 1;
            check_write_order(&mut rng, a, has, way).map_err(|trouble| {
                let fields = &a.header;
                format!("fields {fields:?}, defects {bits:06b} in ways {way:?}: {trouble}")
            })?;
            sets += 1;
        }
    }
    Ok(format!("{sets} sets of defects"))
}

fn check_write_order(
    rng: &mut Rng,
    a: &Draft,
    has: impl Fn(usize) -> bool,
    way: [usize; 5],
) -> Checked {
    let [values, header, lengths, rates, codings, short] = std::array::from_fn(has);
    let mut lists = Lists::of_draft(a);
    let double = lists.fields.len() == 12;
    // The wrong number first, then the wrong length: a length may take the last
    // number off a list, and no other.
    if codings {
        match way[3] {
            0 => lists.sizes[0] = 4096,
            1 => lists.sizes[3] = 0xffff,
            2 => lists.distortions[0] = 1_000_001,
            _ => lists.distortions[3] = u32::MAX,
        }
    }
    if rates {
        match way[2] {
            0 => lists.rates[0] = 4096,
            1 => lists.rates[1] = 0,
            2 => lists.rates.swap(0, 1),
            _ => lists.rates[2] = 4096,
        }
    }
    if lengths {
        match way[1] {
            0 => drop(lists.rates.pop()),
            1 => lists.rates.push(4094),
            2 => drop(lists.sizes.pop()),
            3 => lists.sizes.push(1),
            4 => drop(lists.distortions.pop()),
            5 => lists.distortions.push(1),
            6 => {
                lists.sizes.pop();
                lists.distortions.pop();
            }
            7 => lists.fields[RATES] = 2,
            8 => lists.fields[UNITS] = 3,
            _ => lists.fields[CHOICES] = 1,
        }
    }
    if header {
        match way[0] {
            0 => lists.fields[DELAY] = 65,
            1 => lists.fields[UNITS] = 0,
            2 => lists.fields[CHOICES] = 1001,
            3 => lists.fields[START_BUCKET] = 4,
            4 => drop(lists.fields.pop()),
            5 => lists.fields.push(1),
            6 if double => lists.fields[SECOND] = 64,
            7 if double => lists.fields[START_SECOND] = 3,
            6 => lists.fields.extend([1, 1]),
            _ => lists.fields.extend([1, 1, 2]),
        }
    }
    let taken = if double { 70 } else { 64 };
    let room = if short { [taken - 1, 22, 0][way[4]] } else { taken };
    let due = first_of(&[
        (header, 3),
        (a.never_drains(), 17),
        (lengths, 16),
        (rates, 4),
        (codings, 5),
        (short, 12),
        (values, 12),
    ]);
    let found = check_write(rng, &lists, room, !values as usize)?;
    same("number", due, found as u32)
}

// ---------------------------------------------------------------------------
// Jobs written.
// ---------------------------------------------------------------------------

/// Jobs of all sizes: their bytes, which open, and which are written again from
/// what a reader finds in them.
fn written_group(seed: u64, asks: bool) -> Result<String, String> {
    written_jobs(seed, asks, random_mixed_job)
}

fn written_double_group(seed: u64, asks: bool) -> Result<String, String> {
    written_jobs(seed, asks, |rng, index| {
        let draft = random_mixed_job(rng, index);
        random_doubled(rng, &draft, 63, 4095)
    })
}

fn written_jobs(
    seed: u64,
    asks: bool,
    make: impl Fn(&mut Rng, usize) -> Draft,
) -> Result<String, String> {
    let mut rng = Rng(seed);
    let (mut bytes, mut long, mut wide) = (0, 0, 0);
    let jobs = scaled(4000);
    for index in 1..=jobs {
        let mut draft = make(&mut rng, index);
        draft.commands.clear();
        let taken = check_written(&mut rng, &draft).map_err(|trouble| {
            format!("seed {seed}, job {index}: {trouble}\n  {}", Lists::of_draft(&draft).show())
        })?;
        bytes += taken;
        long += (taken > 4096) as usize;
        wide += draft.units.iter().flatten().any(|coding| coding.1 > 65_535) as usize;
    }
    let counts = format!(
        "{jobs} jobs, {bytes} bytes, {long} jobs over 4,096, {wide} with a distortion over 65,535"
    );
    ensure!((long * 20 > jobs && wide * 4 > jobs) || !asks, "too little in it: {counts}");
    Ok(counts)
}

/// Jobs of all sizes in turn.
fn random_mixed_job(rng: &mut Rng, index: usize) -> Draft {
    match index % 10 {
        0 => random_long_job(rng),
        1 | 2 => random_job(rng, &WIDE),
        3 | 4 => random_job(rng, &SESSION),
        5 => random_job(rng, &MEDIUM),
        _ => random_job(rng, &TINY),
    }
}

/// Gives the number of bytes that the job took.
fn check_written(rng: &mut Rng, draft: &Draft) -> Result<usize, String> {
    let lists = Lists::of_draft(draft);
    let due = draft.bytes();
    let slack = if rng.one_in(3) { 0 } else { rng.from(1, 90) };
    let values = rng.from(1, 3);
    same("write", 0, check_write(rng, &lists, due.len() + slack, values)?)?;
    same("one byte short", 12, check_write(rng, &lists, due.len() - 1, values)?)?;
    check_typed_write(rng, &lists, due.len() + slack)?;

    let bytes = written(&lists)?;
    same("written", &due, &bytes)?;
    let asked = Asked { bytes: bytes.clone(), ..Asked::new(rng, draft) };
    check_open(rng, &asked)?;
    let read =
        read_job(&mut Reader { rest: &bytes }).map_err(|number| format!("read: {number}"))?;
    let again = Lists::of_job(&read);
    same("what a reader finds", &lists, &again)?;
    same("written again", bytes, written(&again)?)?;
    Ok(due.len())
}

// ---------------------------------------------------------------------------
// Harmed lists.
// ---------------------------------------------------------------------------

fn harmed_lists_group(seed: u64, asks: bool) -> Result<String, String> {
    harmed_lists(seed, asks, 1)
}

fn harmed_double_lists_group(seed: u64, asks: bool) -> Result<String, String> {
    harmed_lists(seed, asks, 2)
}

fn harmed_lists(seed: u64, asks: bool, buckets: usize) -> Result<String, String> {
    let mut rng = Rng(seed);
    let mut tally: BTreeMap<Refusal, usize> = BTreeMap::new();
    let inputs = scaled(40_000);
    for index in 1..=inputs {
        let mut draft = random_job(&mut rng, if index % 5 == 0 { &WIDE } else { &TINY });
        if buckets > 1 {
            draft = random_doubled(&mut rng, &draft, 63, 4095);
        }
        draft = random_stored(&mut rng, &draft, 4);
        let mut lists = Lists::of_draft(&draft);
        for _ in 0..rng.pick(&[0, 1, 1, 1, 1, 2, 3]) {
            harm_lists(&mut rng, &mut lists);
        }
        let need = room_for(&lists);
        let room = match rng.from(0, 9) {
            0 => need.saturating_sub(1),
            1 => rng.from(0, need),
            2..=5 => need,
            _ => need + rng.from(1, 99),
        };
        let values = if rng.one_in(10) { 0 } else { rng.from(1, 3) };
        let mut check = || -> Result<Refusal, String> {
            let due = check_write(&mut rng, &lists, room, values)?;
            check_typed_write(&mut rng, &lists, room)?;
            Ok(due)
        };
        let due = check().map_err(|trouble| {
            format!(
                "seed {seed}, input {index}: {trouble}\n  {}\n  room {room}, values {values}",
                lists.show()
            )
        })?;
        *tally.entry(due).or_default() += 1;
    }
    let counts = format!("{inputs} inputs by number ({})", by_number(&tally));
    let numbers = [0, 3, 4, 5, 12, 16, 17];
    let worthwhile =
        numbers.iter().all(|number| tally.get(number).is_some_and(|c| c * 50 > inputs));
    ensure!(worthwhile || !asks, "too little in it: {counts}");
    Ok(counts)
}

/// Changes one number or one length, mostly near a limit.
fn harm_lists(rng: &mut Rng, lists: &mut Lists) {
    let limits: [u16; 17] =
        [0, 1, 2, 16, 17, 63, 64, 65, 255, 256, 512, 513, 1000, 1001, 4095, 4096, 0xffff];
    match rng.from(0, 9) {
        0 => change_one(rng, &mut lists.fields, |rng, _| rng.pick(&limits)),
        1 => change_one(rng, &mut lists.fields, near),
        // The fields of the other kind, or one more or fewer.
        2 if rng.one_in(8) => lists.fields.truncate(FIELDS[0]),
        2 if rng.one_in(8) => lists.fields.extend([2, 9, 1]),
        2 => change_length(rng, &mut lists.fields),
        3 if lists.fields.len() > CHOICES => {
            // Other units and choices may have the same product.
            lists.fields.swap(UNITS, CHOICES);
        }
        3 | 4 => change_one(rng, &mut lists.rates, |rng, rate| match rng.from(0, 2) {
            0 => near(rng, rate),
            _ => rng.pick(&limits),
        }),
        5 => change_length(rng, &mut lists.rates),
        6 => change_one(rng, &mut lists.sizes, |rng, _| rng.pick(&[0, 255, 4095, 4096, 0xffff])),
        7 => change_one(rng, &mut lists.distortions, |rng, _| {
            rng.pick(&[0, 999_999, 1_000_000, 1_000_001, 1_000_000 << 8, 0x8000_0000])
        }),
        8 => change_length(rng, &mut lists.sizes),
        _ => change_length(rng, &mut lists.distortions),
    }
}

fn near(rng: &mut Rng, value: u16) -> u16 {
    if rng.one_in(2) {
        value.wrapping_add(1)
    } else {
        value.wrapping_sub(1)
    }
}

fn change_one<T: Copy>(rng: &mut Rng, list: &mut [T], change: impl Fn(&mut Rng, T) -> T) {
    if !list.is_empty() {
        let at = rng.from(0, list.len() - 1);
        list[at] = change(rng, list[at]);
    }
}

/// A number more or fewer somewhere, or none left.
fn change_length<T: Copy>(rng: &mut Rng, list: &mut Vec<T>) {
    if !list.is_empty() {
        let at = rng.from(0, list.len() - 1);
        match rng.from(0, 8) {
            0 => list.clear(),
            1..=4 => drop(list.remove(at)),
            _ => list.insert(at, list[at]),
        }
    }
}

// ---------------------------------------------------------------------------
// Reading a job back.
// ---------------------------------------------------------------------------

/// What a job is read to.
struct ReadLists {
    fields: Lent<u16>,
    rates: Lent<u16>,
    sizes: Lent<u16>,
    distortions: Lent<u32>,
    values: Lent<u64>,
}

impl ReadLists {
    /// `lengths`: fields, rates, sizes, distortions, values.
    fn new(rng: &mut Rng, lengths: [usize; READ_LISTS]) -> ReadLists {
        ReadLists {
            fields: Lent::new(rng, lengths[0]),
            rates: Lent::new(rng, lengths[1]),
            sizes: Lent::new(rng, lengths[2]),
            distortions: Lent::new(rng, lengths[3]),
            values: Lent::new(rng, lengths[4]),
        }
    }

    fn read(&mut self, door: Door, job: &[u8]) -> u32 {
        let read = match door {
            Door::Opening => numbers::read,
            Door::Archive => numbers::read_archive,
        };
        read(
            job,
            self.fields.list(),
            self.rates.list(),
            self.sizes.list(),
            self.distortions.list(),
            self.values.list(),
        )
    }

    fn wrote(&self, lists: &Lists, taken: usize) -> Checked {
        self.fields.wrote("fields", &lists.fields)?;
        self.rates.wrote("rates", &lists.rates)?;
        self.sizes.wrote("sizes", &lists.sizes)?;
        self.distortions.wrote("distortions", &lists.distortions)?;
        let values = [taken, lists.fields.len()].map(|value| value as u64);
        self.values.wrote("values of read", &values)
    }

    fn kept(&self) -> Checked {
        self.fields.kept("fields")?;
        self.rates.kept("rates")?;
        self.sizes.kept("sizes")?;
        self.distortions.kept("distortions")?;
        self.values.kept("values of read")
    }

    /// What was read, by nothing but the counts that were read with it, and the bytes that
    /// the job took.
    fn lists(&self) -> Option<(Lists, usize)> {
        let values = self.values.held();
        let fields = self.fields.held().get(..values[1] as usize)?.to_vec();
        let codings = *fields.get(UNITS)? as usize * *fields.get(CHOICES)? as usize;
        let lists = Lists {
            rates: self.rates.held().get(..*fields.get(RATES)? as usize)?.to_vec(),
            sizes: self.sizes.held().get(..codings)?.to_vec(),
            distortions: self.distortions.held().get(..codings)?.to_vec(),
            fields,
        };
        Some((lists, values[0] as usize))
    }
}

/// The lengths that are promised to be long enough for every job of so many bytes.
fn always_enough(bytes: &[u8]) -> [usize; READ_LISTS] {
    [12, 16, bytes.len() / 6, bytes.len() / 6, READ_VALUES]
}

/// Has a job read to lists of these lengths, and compares all that they hold afterwards with
/// what is due. Gives the number due.
fn check_read_to(
    rng: &mut Rng,
    door: Door,
    bytes: &[u8],
    lengths: [usize; READ_LISTS],
    due: &ReadBack,
) -> Result<Refusal, String> {
    // A copy has no memory to spare, so that a watched run sees what is read past the end.
    let given = bytes.to_vec();
    let mut lent = ReadLists::new(rng, lengths);
    let found = lent.read(door, &given);
    let number = due.as_ref().err().copied().unwrap_or(0);
    let held = match due {
        Ok((lists, taken)) => lent.wrote(lists, *taken),
        Err(_) => lent.kept(),
    };
    same("number", number as u32, found)
        .and(held)
        .map_err(|trouble| format!("{door:?}, read to lists of {lengths:?}: {trouble}"))?;
    Ok(number)
}

/// The same, with what the reference reads.
fn check_read(
    rng: &mut Rng,
    door: Door,
    bytes: &[u8],
    lengths: [usize; READ_LISTS],
) -> Result<Refusal, String> {
    check_read_to(rng, door, bytes, lengths, &read_back(door, bytes, lengths))
}

/// What was read is enough to write the job again, byte for byte. The library writes none
/// that never drains, so the reference does.
fn check_read_and_written(rng: &mut Rng, door: Door, bytes: &[u8]) -> Checked {
    let mut lent = ReadLists::new(rng, always_enough(bytes));
    same("read", 0, lent.read(door, bytes))?;
    let (lists, taken) = lent.lists().ok_or("counts that do not fit what was read")?;
    let due = bytes.get(..taken).ok_or(format!("{taken} bytes taken of {}", bytes.len()))?;
    let draft = lists.draft();
    ensure!(draft.bytes() == due, "what was read makes another job");
    let room = taken + slack(rng);
    let mut job = Lent::new(rng, room);
    let mut count = Lent::new(rng, 1);
    let Lists { fields, rates, sizes, distortions } = &lists;
    let found = numbers::write(fields, rates, sizes, distortions, job.list(), count.list());
    if draft.never_drains() {
        same("a job that never drains, written again", 17, found)?;
        count.kept("values of write again")?;
        return job.kept("job written again");
    }
    same("write again", 0, found)?;
    job.wrote("job written again", due)?;
    count.wrote("values of write again", &[taken as u64])
}

fn contents_by(door: Door, job: &[u8]) -> Result<upload_planner::Contents, u32> {
    let contents = match door {
        Door::Opening => upload_planner::contents(job),
        Door::Archive => upload_planner::archived_contents(job),
    };
    contents.map_err(|refusal| refusal.number())
}

/// The typed functions give what the numbers give, and the job again.
fn check_contents(door: Door, bytes: &[u8], due: &ReadBack) -> Checked {
    let checked = match (due, contents_by(door, bytes)) {
        (Ok((lists, taken)), Ok(contents)) => check_held(&contents, lists, &bytes[..*taken]),
        (due, found) => {
            let number = due.as_ref().err().map(|number| *number as u32);
            same("contents", number, found.err())
        }
    };
    checked.map_err(|trouble| format!("{door:?}, typed: {trouble}"))
}

/// `job`: the bytes that the job took.
fn check_held(contents: &upload_planner::Contents, lists: &Lists, job: &[u8]) -> Checked {
    same("the header's numbers", &lists.fields[..], &contents.header.numbers()[..])?;
    same("header", header_of(&lists.fields).as_ref(), Some(&contents.header))?;
    same("rates", &lists.rates, &contents.rates)?;
    same("sizes", &lists.sizes, &contents.sizes)?;
    same("distortions", &lists.distortions, &contents.distortions)?;
    check_codings(contents, lists)?;
    let never = lists.draft().never_drains();
    let due = if never { Err(17) } else { Ok(job.to_vec()) };
    same("job of the contents", due, contents.job().map_err(|refusal| refusal.number()))
}

/// The coding of units and choices at both ends of their ranges, within and outside.
fn check_codings(contents: &upload_planner::Contents, lists: &Lists) -> Checked {
    let [units, choices] = [lists.fields[UNITS], lists.fields[CHOICES]];
    for unit in [0, 1, 2, units / 2, units - 1, units, units + 1, 0x8001, 0xffff] {
        for choice in [0, 1, choices / 2, choices - 1, choices, choices + 1, 0x8000, 0xffff] {
            check_coding(contents, lists, unit, choice)?;
        }
    }
    Ok(())
}

fn check_coding(
    contents: &upload_planner::Contents,
    lists: &Lists,
    unit: u16,
    choice: u16,
) -> Checked {
    let [units, choices] = [lists.fields[UNITS], lists.fields[CHOICES]];
    let due = ((1..=units).contains(&unit) && choice < choices).then(|| {
        let at = (unit as usize - 1) * choices as usize + choice as usize;
        (lists.sizes[at], lists.distortions[at])
    });
    let found = contents.coding(unit, choice);
    ensure!(due == found, "unit {unit} at choice {choice}: due {due:?}, instead {found:?}");
    Ok(())
}

/// The bytes of Job A, and of a job of one unit and one choice in which no two numbers but the
/// counts are alike, each on a line of one bucket and of two.
const READ_A: [u8; 64] = [
    20, 0, 1, 0, // the header
    2, 0, 1, 0, 4, 0, 3, 0, 2, 0, 0, 0, 0, 0, 3, 0, 2, 0, // its nine fields
    8, 0, 2, 0, 0, 0, 2, 0, 4, 0, // the rates
    14, 0, 3, 0, 4, 0, 10, 0, 0, 0, 2, 0, 30, 0, 0, 0, // unit 1
    14, 0, 3, 0, 5, 0, 12, 0, 0, 0, 2, 0, 40, 0, 0, 0, // unit 2
];
const READ_A_TWO: [u8; 70] = [
    26, 0, 8, 0, // the header
    2, 0, 1, 0, 4, 0, 3, 0, 2, 0, 0, 0, 0, 0, 3, 0, 2, 0, // its first nine fields
    7, 0, 9, 0, 5, 0, // the second bucket
    8, 0, 2, 0, 0, 0, 2, 0, 4, 0, // the rates
    14, 0, 3, 0, 4, 0, 10, 0, 0, 0, 2, 0, 30, 0, 0, 0, // unit 1
    14, 0, 3, 0, 5, 0, 12, 0, 0, 0, 2, 0, 40, 0, 0, 0, // unit 2
];
const READ_ONE: [u8; 38] = [
    20, 0, 1, 0, // the header
    1, 0, 64, 0, 255, 0, 250, 0, 13, 14, 254, 0, 249, 0, 1, 0, 1, 0, // its nine fields
    4, 0, 2, 0, 2, 1, // the rate
    8, 0, 3, 0, 11, 10, 14, 13, 12, 0, // the unit
];
const READ_ONE_TWO: [u8; 44] = [
    26, 0, 8, 0, // the header
    1, 0, 64, 0, 255, 0, 250, 0, 13, 14, 254, 0, 249, 0, 1, 0, 1, 0, // its first nine fields
    63, 0, 3, 2, 62, 0, // the second bucket
    4, 0, 2, 0, 2, 1, // the rate
    8, 0, 3, 0, 11, 10, 14, 13, 12, 0, // the unit
];

/// The first place of each bucket's drain in the bytes.
const DRAIN_BYTES: [usize; MOST_BUCKETS] = [4 + 2 * DRAIN, 4 + 2 * SECOND_DRAIN];

/// A job's bytes, and what is to be read of them.
struct ReadRow {
    what: String,
    bytes: Vec<u8>,
    lists: Lists,
}

/// By hand, and with every set of drains at 0.
fn read_rows() -> Vec<ReadRow> {
    let a = Lists {
        fields: vec![2, 1, 4, 3, 2, 0, 0, 3, 2],
        rates: vec![0, 2, 4],
        sizes: vec![4, 2, 5, 2],
        distortions: vec![10, 30, 12, 40],
    };
    let one = Lists {
        fields: vec![1, 64, 255, 250, 3597, 254, 249, 1, 1],
        rates: vec![258],
        sizes: vec![2571],
        distortions: vec![789_774],
    };
    let doubled = |lists: &Lists, second: [u16; 3]| Lists {
        fields: [&lists.fields[..], &second].concat(),
        ..lists.clone()
    };
    let (a_two, one_two) = (doubled(&a, [7, 9, 5]), doubled(&one, [63, 515, 62]));
    let jobs = [
        ("Job A", READ_A.to_vec(), a),
        ("Job A, two buckets", READ_A_TWO.to_vec(), a_two),
        ("one unit and one choice", READ_ONE.to_vec(), one),
        ("one unit and one choice, two buckets", READ_ONE_TWO.to_vec(), one_two),
    ];
    let mut rows = Vec::new();
    for (what, bytes, lists) in &jobs {
        let buckets = if lists.fields.len() > FIELDS[0] { 2 } else { 1 };
        rows.extend((0..1 << buckets).map(|stopped| stopped_row(what, bytes, lists, stopped)));
    }
    rows
}

/// A drain of 0 in each bucket whose bit is set, in the bytes and in the lists.
fn stopped_row(what: &str, bytes: &[u8], lists: &Lists, stopped: usize) -> ReadRow {
    let (mut bytes, mut lists) = (bytes.to_vec(), lists.clone());
    for (at, field) in [DRAIN, SECOND_DRAIN].into_iter().enumerate() {
        if stopped >> at & 1 == 1 {
            bytes[DRAIN_BYTES[at]..DRAIN_BYTES[at] + 2].fill(0);
            lists.fields[field] = 0;
        }
    }
    ReadRow { what: format!("{what}, drains of 0: {stopped:02b}"), bytes, lists }
}

/// What a unit of `placed_row` takes and loses at a choice: another number in nearly every
/// place.
fn placed_coding(unit: usize, choice: usize) -> (u16, u32) {
    let (grains, distortion) = (37 * unit + 11 * choice, 1951 * unit + 997 * choice);
    ((grains % 4096) as u16, (distortion % 1_000_001) as u32)
}

/// A job of this many units, rates and choices, whose every number follows from its place.
/// `second`: the second bucket, if any.
fn placed_row(units: usize, rates: usize, choices: usize, second: &[u16]) -> ReadRow {
    let mut lists = Lists {
        fields: vec![units as u16, 64, 255, 253, 4095, 254, 252, rates as u16, choices as u16],
        rates: (0..rates).map(|at| 250 + 256 * at as u16).collect(),
        sizes: vec![0; units * choices],
        distortions: vec![0; units * choices],
    };
    lists.fields.extend_from_slice(second);
    for (unit, choice) in (1..=units).flat_map(|unit| (0..choices).map(move |c| (unit, c))) {
        let at = (unit - 1) * choices + choice;
        (lists.sizes[at], lists.distortions[at]) = placed_coding(unit, choice);
    }
    let unit = |unit| (0..choices).map(|choice| placed_coding(unit, choice)).collect();
    let bytes = Draft {
        header: lists.fields.clone(),
        rates: lists.rates.clone(),
        units: (1..=units).map(unit).collect(),
        commands: Vec::new(),
    }
    .bytes();
    let buckets = if second.is_empty() { 1 } else { 2 };
    let what = format!("{units} units, {rates} rates, {choices} choices, {buckets} buckets");
    ReadRow { what, bytes, lists }
}

impl ReadRow {
    fn never_drains(&self) -> bool {
        let drains = [DRAIN, SECOND_DRAIN].map(|field| self.lists.fields.get(field));
        drains.contains(&Some(&0))
    }

    /// What the door makes of it.
    fn due(&self, door: Door) -> ReadBack {
        if door == Door::Opening && self.never_drains() {
            return Err(17);
        }
        Ok((self.lists.clone(), self.bytes.len()))
    }

    /// By a door, with these bytes behind the job, to lists of just enough and longer ones.
    fn check(&self, rng: &mut Rng, door: Door, behind: &[u8]) -> Checked {
        let bytes = then(self.bytes.clone(), behind);
        let due = self.due(door);
        let needs = self.lists.read_needs();
        for lengths in [needs, needs.map(|need| need + 1), needs.map(|need| need + slack(rng))] {
            check_read_to(rng, door, &bytes, lengths, &due)?;
        }
        if due.is_ok() {
            check_read_and_written(rng, door, &bytes)?;
        }
        check_contents(door, &bytes, &due)
    }
}

/// Jobs whose every number is worked out apart, with other bytes behind them.
fn read_by_hand_group() -> Result<String, String> {
    let mut rng = Rng(1);
    let mut rows = read_rows();
    rows.push(placed_row(512, 16, 1, &[]));
    rows.push(placed_row(2, 16, MOST_CHOICES, &[63, 4095, 61]));
    rows.push(placed_row(3, 2, 300, &[]));
    rows.push(placed_row(300, 15, 3, &[62, 256, 1]));
    let zeros = vec![0; 70_000];
    let tails = [&[][..], &[0], &[3, 0, 3], &[255; 9], &READ_A, &zeros];
    let mut readings = 0;
    for (row, behind) in rows.iter().flat_map(|row| tails.map(|behind| (row, behind))) {
        for door in DOORS {
            row.check(&mut rng, door, behind).map_err(|trouble| {
                format!("{}, {} bytes behind: {trouble}", row.what, behind.len())
            })?;
            readings += 1;
        }
    }
    Ok(format!("{} jobs, {readings} readings", rows.len()))
}

/// The largest jobs, and one of as many codings as two bytes can count and one more.
fn largest_read_group() -> Result<String, String> {
    let mut rng = Rng(1);
    let largest = [
        placed_row(512, 16, MOST_CHOICES, &[]),
        placed_row(512, 16, MOST_CHOICES, &[63, 4095, 63]),
    ];
    for (row, taken) in largest.iter().zip([3_074_106, 3_074_112]) {
        same("bytes", taken, row.bytes.len())?;
        for door in DOORS {
            row.check(&mut rng, door, &[3, 0])
                .map_err(|trouble| format!("{}: {trouble}", row.what))?;
        }
    }
    let row = placed_row(512, 1, 128, &[]);
    let needs = row.lists.read_needs();
    same("codings", 65_536, needs[2])?;
    for length in [0, 1, 2, 65_534, 65_535, 65_536, 65_537] {
        for which in [2, 3] {
            let mut lengths = needs;
            lengths[which] = length;
            let due = if length < 65_536 { 12 } else { 0 };
            same("lists", due, check_read(&mut rng, Door::Opening, &row.bytes, lengths)?)?;
        }
    }
    Ok(format!("{} jobs", largest.len() + 1))
}

/// Jobs of few numbers: Job A with every set of drains at 0, a job of one unit and one
/// choice, and one in which no two lists have the same length but those of the codings.
fn few_numbers() -> Vec<Draft> {
    let mut drafts = drains_of_a();
    drafts.push(Draft::new(BARE, &[9], &[vec![(8, 7)]]));
    drafts.push(placed_row(3, 4, 2, &[5, 6, 4]).lists.draft());
    drafts
}

/// The lengths around those needed: a digit of `others` to the base of three says of each
/// list that it is one short, just enough or longer.
fn lengths_around(needs: [usize; READ_LISTS], others: usize) -> [usize; READ_LISTS] {
    let mut rest = others;
    needs.map(|need| {
        let way = rest % 3;
        rest /= 3;
        [need - 1, need, need + 5][way]
    })
}

/// Each list of every length up to two more than needed, while each other is one short, just
/// enough or longer; and of lengths that are short in eight or sixteen bits.
fn read_lengths_group() -> Result<String, String> {
    let mut rng = Rng(1);
    let mut tally: BTreeMap<u32, usize> = BTreeMap::new();
    let every = if small() { 41 } else { 1 };
    for draft in &few_numbers() {
        let needs = Lists::of_draft(draft).read_needs();
        for (which, need) in needs.into_iter().enumerate() {
            let ways = (0..=need + 2).flat_map(|length| (0..243).map(move |way| (length, way)));
            for (length, others) in ways.step_by(every) {
                let mut lengths = lengths_around(needs, others);
                lengths[which] = length;
                check_read_lengths(&mut rng, draft, lengths, &mut tally)?;
            }
            for length in [256, 257, 65_536, 65_537] {
                let mut lengths = needs;
                lengths[which] = length;
                check_read_lengths(&mut rng, draft, lengths, &mut tally)?;
            }
        }
    }
    let counts = by_number(&tally);
    ensure!(tally.keys().eq(&[0, 12, 17]), "too little in it: {counts}");
    Ok(format!("readings by number ({counts})"))
}

fn check_read_lengths(
    rng: &mut Rng,
    draft: &Draft,
    lengths: [usize; READ_LISTS],
    tally: &mut BTreeMap<u32, usize>,
) -> Checked {
    let bytes = draft.bytes();
    let needs = Lists::of_draft(draft).read_needs();
    let short = lengths.iter().zip(needs).any(|(length, need)| *length < need);
    for door in DOORS {
        let never = door == Door::Opening && draft.never_drains();
        let due = first_of(&[(never, 17), (short, 12)]);
        check_read(rng, door, &bytes, lengths)
            .and_then(|found| same("number", due, found as u32))
            .map_err(|trouble| format!("header {:?}: {trouble}", draft.header))?;
        *tally.entry(due).or_default() += 1;
    }
    Ok(())
}

/// The lengths that are promised are enough for jobs at the ends of every range, with bytes
/// behind them too.
fn read_promise_group() -> Result<String, String> {
    let mut rng = Rng(1);
    let mut jobs = 0;
    let mut least = usize::MAX;
    let shapes =
        [(1, 1), (1, 2), (2, 1), (3, 7), (1, 1000), (2, 999), (64, 16), (511, 2), (512, 1)];
    let rates = [1, 2, 15, 16];
    for ((units, choices), rates) in shapes.iter().flat_map(|shape| rates.map(|r| (*shape, r))) {
        for second in [&[][..], &[63, 1, 0]] {
            let row = placed_row(units, rates, choices, second);
            let behind = vec![3; rng.from(0, 7)];
            let bytes = then(row.bytes.clone(), &behind);
            for door in DOORS {
                check_read_to(&mut rng, door, &bytes, always_enough(&bytes), &row.due(door))
                    .map_err(|trouble| format!("{}: {trouble}", row.what))?;
            }
            least = least.min(row.bytes.len() / 6 - units * choices);
            jobs += 1;
        }
    }
    Ok(format!("{jobs} jobs, at least {least} numbers to spare"))
}

/// Every set of defects of a job and of the lists at once.
fn read_order_group() -> Result<String, String> {
    let mut rng = Rng(1);
    let mut tally: BTreeMap<u32, usize> = BTreeMap::new();
    for a in &drains_of_a() {
        for bits in (0..1 << 11).step_by(if small() { 13 } else { 1 }) {
            let has = |bit: usize| bits >> bit & 1 == 1;
            check_read_order(&mut rng, a, has, &mut tally).map_err(|trouble| {
                format!("header {:?}, defects {bits:011b}: {trouble}", a.header)
            })?;
        }
    }
    let counts = by_number(&tally);
    ensure!(tally.keys().eq(&[0, 1, 2, 3, 4, 5, 12, 17]), "too little in it: {counts}");
    Ok(format!("sets of defects by number ({counts})"))
}

fn check_read_order(
    rng: &mut Rng,
    a: &Draft,
    has: impl Fn(usize) -> bool,
    tally: &mut BTreeMap<u32, usize>,
) -> Checked {
    let [kind, header, rates, unit, cut, by_all] = std::array::from_fn(&has);
    let mut draft = a.clone();
    if header {
        draft.header[DELAY] = 65;
    }
    if rates {
        draft.rates[2] = 2;
    }
    if unit {
        draft.units[0][1].1 = 1_000_001;
    }
    let mut bytes = draft.bytes();
    if kind {
        bytes[2] = 2;
    }
    if cut {
        bytes.pop();
    }
    let needs = Lists::of_draft(a).read_needs();
    let lengths = std::array::from_fn(|at| cut_to(needs[at], has(6 + at), by_all));
    for door in DOORS {
        let due = first_of(&[
            (kind, 2),
            (header, 3),
            (door == Door::Opening && a.never_drains(), 17),
            (rates, 4),
            (unit, 5),
            (cut, 1),
            (lengths != needs, 12),
        ]);
        same("number", due, check_read(rng, door, &bytes, lengths)? as u32)?;
        *tally.entry(due).or_default() += 1;
    }
    Ok(())
}

/// Every fault of the header with every fault behind it, with lists that are enough and with
/// a set of short ones, each set in its turn; behind a header without a fault with all sets.
fn read_faults_group() -> Result<String, String> {
    let mut rng = Rng(1);
    let mut tally: BTreeMap<u32, usize> = BTreeMap::new();
    let mut inputs = 0;
    for a in &drains_of_a() {
        let tails = faulty_tails(a);
        for (header, head) in faulty_headers(a) {
            for (tail, behind) in tails.iter().step_by(if small() { 7 } else { 1 }) {
                inputs += 1;
                let bytes = then(header.clone(), tail);
                let in_turn = 1 + inputs % SHORT_SETS;
                let short = if head == 0 { 1..=SHORT_SETS } else { in_turn..=in_turn };
                for short in short.chain([0]) {
                    check_read_faults(&mut rng, a, &bytes, [head, *behind], short, &mut tally)
                        .map_err(|trouble| format!("{trouble}\n  job {}", hex(&bytes)))?;
                }
            }
        }
    }
    let counts = by_number(&tally);
    let worthwhile = tally.keys().eq(&[0, 1, 2, 3, 4, 5, 12, 17]);
    ensure!(worthwhile || small(), "too little in it: {counts}");
    Ok(format!("{inputs} inputs, readings by number ({counts})"))
}

/// How many sets of the lists there are with one in it.
const SHORT_SETS: usize = (1 << READ_LISTS) - 1;

/// `head`, `behind`: the numbers of the fault in the header and of that behind it, or 0.
/// `short`: the lists that are too short, by their bits.
fn check_read_faults(
    rng: &mut Rng,
    a: &Draft,
    bytes: &[u8],
    [head, behind]: [Refusal; 2],
    short: usize,
    tally: &mut BTreeMap<u32, usize>,
) -> Checked {
    let needs = Lists::of_draft(a).read_needs();
    let by_all = rng.one_in(2);
    let lengths = std::array::from_fn(|at| cut_to(needs[at], short >> at & 1 == 1, by_all));
    for door in DOORS {
        let due = first_of(&[
            (head > 0, head),
            (door == Door::Opening && a.never_drains(), 17),
            (behind > 0, behind),
            (short > 0, 12),
        ]);
        same("number", due, check_read(rng, door, bytes, lengths)? as u32)?;
        check_contents(door, bytes, &read_back(door, bytes, needs))?;
        *tally.entry(due).or_default() += 1;
    }
    Ok(())
}

/// A job cut at every byte, or at some where it is long.
fn read_cuts_group() -> Result<String, String> {
    let mut rng = Rng(1);
    let mut drafts = few_numbers();
    drafts.push(placed_row(2, 16, 31, &[]).lists.draft());
    drafts.push(placed_row(2, 16, 300, &[9, 9, 9]).lists.draft().undrained(2));
    drafts.push(chosen_among(MOST_CHOICES, &[]));
    drafts.push(placed_row(512, 1, 1, &[]).lists.draft());
    let mut cuts = 0;
    for draft in &drafts {
        let whole = draft.bytes();
        let step = if small() || whole.len() > 2048 { 61 } else { 1 };
        for cut in (0..whole.len()).step_by(step).chain([whole.len() - 1, whole.len()]) {
            check_read_cut(&mut rng, draft, &whole, cut)
                .map_err(|trouble| format!("header {:?}, cut to {cut}: {trouble}", draft.header))?;
            cuts += 1;
        }
    }
    Ok(format!("{} jobs, {cuts} cuts", drafts.len()))
}

fn check_read_cut(rng: &mut Rng, draft: &Draft, whole: &[u8], cut: usize) -> Checked {
    let bytes = &whole[..cut];
    let needs = Lists::of_draft(draft).read_needs();
    // The header is whole by here, and is looked at before the next record.
    let header = 4 + 2 * draft.header.len();
    for door in DOORS {
        let never = door == Door::Opening && draft.never_drains() && cut >= header;
        let due = first_of(&[(never, 17), (cut < whole.len(), 1)]);
        for lengths in [needs, always_enough(bytes)] {
            same("number", due, check_read(rng, door, bytes, lengths)? as u32)?;
        }
        let any = needs.map(|need| rng.from(0, need + 1));
        let short = any.iter().zip(needs).any(|(length, need)| *length < need);
        let due = first_of(&[(due > 0, due as Refusal), (short, 12)]);
        same("number", due, check_read(rng, door, bytes, any)? as u32)?;
    }
    Ok(())
}

/// What an editor's tool does with the contents of Job A: it looks at every coding, corrects
/// one, and asks for the job again.
fn contents_group() -> Result<String, String> {
    use upload_planner::{archived_contents, contents, Refusal};
    let read = contents(&READ_A).map_err(|refusal| refusal.to_string())?;
    same("the header", [2, 1, 4, 3, 2, 0, 0, 3, 2].as_slice(), &read.header.numbers()[..])?;
    same("no second bucket", true, read.header.second.is_none())?;
    let codings = [[(4, 10), (2, 30)], [(5, 12), (2, 40)]];
    for (unit, choice) in (0..=4).flat_map(|unit| (0..=4).map(move |choice| (unit, choice))) {
        let due = match (unit, choice) {
            (1 | 2, 0 | 1) => Some(codings[unit - 1][choice]),
            _ => None,
        };
        let found = read.coding(unit as u16, choice as u16);
        same(&format!("unit {unit} at choice {choice}"), due, found)?;
    }
    same("the job again", Ok(READ_A.to_vec()), read.job())?;
    same("by the archive", Ok(&read), archived_contents(&READ_A).as_ref())?;

    let mut corrected = read.clone();
    corrected.distortions[2] = 0x000b_0c0d;
    same("the corrected coding", Some((5, 0x000b_0c0d)), corrected.coding(2, 0))?;
    let due = patched(&READ_A, 54, &[0x0d, 0x0c, 0x0b, 0]);
    same("the corrected job", Ok(due.clone()), corrected.job())?;
    same("the corrected job read", Ok(&corrected), contents(&due).as_ref())?;
    corrected.distortions[2] = 1_000_001;
    same("a distortion of 1,000,001", Err(Refusal::Choices), corrected.job())?;
    corrected.distortions.pop();
    same("a distortion missing", Err(Refusal::Lengths), corrected.job())?;

    let two = contents(&READ_A_TWO).map_err(|refusal| refusal.to_string())?;
    let second = upload_planner::Bucket { size: 7, drain: 9, level: 5 };
    same("the second bucket", Some(second), two.header.second)?;
    same("the job of two buckets again", Ok(READ_A_TWO.to_vec()), two.job())?;
    let never = patched(&READ_A_TWO, DRAIN_BYTES[1], &[0, 0]);
    same("a second drain of 0", Err(Refusal::NeverDrains), contents(&never))?;
    let stored = archived_contents(&never).map_err(|refusal| refusal.to_string())?;
    same("its drain", Some(0), stored.header.second.map(|bucket| bucket.drain))?;
    same("its job again", Err(Refusal::NeverDrains), stored.job())?;
    same("no bytes", Err(Refusal::Cut), contents(&[]))?;
    same("no bytes by the archive", Err(Refusal::Cut), archived_contents(&[]))?;
    let wide = placed_row(2, 1, MOST_CHOICES, &[]);
    let read = contents(&wide.bytes).map_err(|refusal| refusal.to_string())?;
    for (unit, choice) in (0..=3).flat_map(|unit| (0..=1001).map(move |choice| (unit, choice))) {
        check_coding(&read, &wide.lists, unit, choice)?;
    }
    Ok("as written".to_string())
}

/// Jobs of all sizes on lines of one bucket and of two, some of which never drain.
fn read_back_group(seed: u64, asks: bool) -> Result<String, String> {
    let mut rng = Rng(seed);
    let (mut bytes, mut long, mut double, mut never, mut behind) = (0, 0, 0, 0, 0);
    let jobs = scaled(1500);
    for index in 1..=jobs {
        let mut draft = random_mixed_job(&mut rng, index);
        draft.commands.clear();
        if rng.one_in(2) {
            draft = random_doubled(&mut rng, &draft, 63, 4095);
        }
        draft = random_stored(&mut rng, &draft, 3);
        let asked = Asked::new(&mut rng, &draft);
        check_job_read(&mut rng, &draft, &asked.bytes)
            .map_err(|trouble| failed(seed, index, &trouble, &asked))?;
        bytes += asked.bytes.len();
        long += (asked.bytes.len() > 4096) as usize;
        double += (draft.header.len() > FIELDS[0]) as usize;
        never += draft.never_drains() as usize;
        behind += (asked.bytes.len() > draft.bytes().len()) as usize;
    }
    let counts = format!(
        "{jobs} jobs, {bytes} bytes, {long} jobs over 4,096, {double} of two buckets, {never} that \
         never drain, {behind} with bytes behind"
    );
    let worthwhile = [long * 2, double, never, behind].iter().all(|count| count * 5 > jobs);
    ensure!(worthwhile || !asks, "too little in it: {counts}");
    Ok(counts)
}

/// The bytes begin with the draft's job.
fn check_job_read(rng: &mut Rng, draft: &Draft, bytes: &[u8]) -> Checked {
    let lists = Lists::of_draft(draft);
    let needs = lists.read_needs();
    for door in DOORS {
        let never = door == Door::Opening && draft.never_drains();
        let due = if never { Err(17) } else { Ok((lists.clone(), draft.bytes().len())) };
        let longer = needs.map(|need| need + slack(rng));
        for lengths in [needs, longer, always_enough(bytes)] {
            same("what a reader finds", &due, &read_back(door, bytes, lengths))?;
            check_read_to(rng, door, bytes, lengths, &due)?;
        }
        let short = one_short(needs, rng.from(0, READ_LISTS - 1)).ok_or("nothing to read")?;
        let number = check_read(rng, door, bytes, short)?;
        same("a list one short", if never { 17 } else { 12 }, number)?;
        if !never {
            check_read_and_written(rng, door, bytes)?;
        }
        check_contents(door, bytes, &due)?;
    }
    Ok(())
}

/// Bytes that may or may not be a job: reading answers what its door answers, and 12 only
/// where that takes them.
fn harmed_read_group(seed: u64, asks: bool) -> Result<String, String> {
    let mut rng = Rng(seed);
    let mut tally: BTreeMap<[u32; 2], usize> = BTreeMap::new();
    let inputs = scaled(15_000);
    for index in 1..=inputs {
        let bytes = harmed_job(&mut rng, 1 + index % MOST_BUCKETS);
        for door in DOORS {
            let numbers = check_harmed_read(&mut rng, door, &bytes).map_err(|trouble| {
                format!("seed {seed}, input {index}: {trouble}\n  job {}", hex(&bytes))
            })?;
            *tally.entry(numbers).or_default() += 1;
        }
    }
    let each: Vec<String> = tally
        .iter()
        .map(|([opened, read], count)| match (opened, read) {
            (0, 12) => format!("{count} 12"),
            _ => format!("{count} {opened}"),
        })
        .collect();
    let counts = format!("{inputs} inputs by number of either door ({})", each.join(", "));
    let often = |numbers: [u32; 2]| tally.get(&numbers).is_some_and(|count| count * 100 > inputs);
    let worthwhile =
        [0, 1, 2, 3, 4, 5, 17].iter().all(|number| often([*number; 2])) && often([0, 12]);
    ensure!(worthwhile || !asks, "too little in it: {counts}");
    Ok(counts)
}

/// Gives the number of opening by the door, and that of reading to lists of any length.
fn check_harmed_read(rng: &mut Rng, door: Door, bytes: &[u8]) -> Result<[u32; 2], String> {
    let mut opened = [0; 4];
    let number = open_by(door, bytes, &mut opened);
    let enough = always_enough(bytes);
    let due = read_back(door, bytes, enough);
    same("read, and opened", number, check_read_to(rng, door, bytes, enough, &due)? as u32)?;
    if let Ok((_, taken)) = &due {
        same("bytes taken, and opened", opened[0], *taken as u64)?;
    }
    check_contents(door, bytes, &due)?;
    let near = match &due {
        Ok((lists, _)) => lists.read_needs().map(|need| near_length(rng, need)),
        Err(_) => [0; READ_LISTS].map(|_| rng.from(0, 20)),
    };
    let read = check_read(rng, door, bytes, near)? as u32;
    ensure!(read == number || [number, read] == [0, 12], "opened {number}, read {read}");
    Ok([number, read])
}

/// Just enough or more, and one time in eight too short.
fn near_length(rng: &mut Rng, need: usize) -> usize {
    match rng.from(0, 15) {
        0 => need - 1,
        1 => rng.from(0, need - 1),
        2..=8 => need,
        _ => need + rng.from(1, 9),
    }
}

// ---------------------------------------------------------------------------
// Trial jobs.
// ---------------------------------------------------------------------------

/// What a trial job is written to.
struct TrialLists {
    job: Lent<u8>,
    values: Lent<u64>,
}

impl TrialLists {
    /// `lengths`: job, values.
    fn new(rng: &mut Rng, lengths: [usize; 2]) -> TrialLists {
        TrialLists { job: Lent::new(rng, lengths[0]), values: Lent::new(rng, lengths[1]) }
    }

    fn make(&mut self, fields: &[u16], state: u32) -> u32 {
        // A copy has no memory to spare, so that a watched run sees what is read
        // past its end.
        let given = fields.to_vec();
        numbers::trial(&given, state, self.job.list(), self.values.list())
    }

    fn wrote(&self, bytes: &[u8]) -> Checked {
        self.job.wrote("trial job", bytes)?;
        self.values.wrote("values of trial", &[bytes.len() as u64])
    }

    fn kept(&self) -> Checked {
        self.job.kept("trial job")?;
        self.values.kept("values of trial")
    }
}

/// Has a trial job written to lists of these lengths, job and values, and compares all
/// that they hold afterwards with what is due. Gives the number due.
fn check_trial(
    rng: &mut Rng,
    fields: &[u16],
    state: u32,
    lengths: [usize; 2],
) -> Result<Refusal, String> {
    let due = trial_bytes(fields, state, lengths[0], lengths[1]);
    let number = due.as_ref().err().copied().unwrap_or(0);
    let mut lent = TrialLists::new(rng, lengths);
    same("trial", number as u32, lent.make(fields, state))?;
    match due {
        Ok(bytes) => lent.wrote(&bytes)?,
        Err(_) => lent.kept()?,
    }
    Ok(number)
}

/// The typed functions give what the numbers give.
fn check_typed_trial(rng: &mut Rng, fields: &[u16], state: u32, room: usize) -> Checked {
    let Some(header) = header_of(fields) else { return Ok(()) };
    let due = trial_bytes(fields, state, room, 1).map_err(u32::from);
    let mut job = Lent::new(rng, room);
    let found = upload_planner::trial(&header, state, job.list());
    let count = due.as_ref().map(Vec::len).map_err(|number| *number);
    same("typed trial", count, found.map_err(|refusal| refusal.number()))?;
    job.wrote("typed trial job", &due.unwrap_or_default())?;

    let due = trial_bytes(fields, state, usize::MAX, 1).map_err(u32::from);
    let owned = upload_planner::trial_job(&header, state).map_err(|refusal| refusal.number());
    ensure!(due == owned, "another owned trial job: {:?} due", due.as_ref().map(Vec::len));
    Ok(())
}

/// What the library itself writes.
fn trial_of(fields: &[u16], state: u32) -> Result<Vec<u8>, String> {
    let header = header_of(fields).ok_or("not a header")?;
    upload_planner::trial_job(&header, state).map_err(|refusal| format!("refused: {refusal}"))
}

/// The lists make the trial job of their header and a state, in lists of just enough or
/// somewhat more, and one byte is too few. It opens with all its bytes taken, and is
/// written again from what a reader finds in it. Gives its bytes.
fn check_trial_of(rng: &mut Rng, lists: &Lists, state: u32) -> Result<Vec<u8>, String> {
    let due = lists.draft().bytes();
    let fields = &lists.fields;
    let lengths = [due.len() + slack(rng), 1 + slack(rng)];
    let mut lent = TrialLists::new(rng, lengths);
    same("trial", 0, lent.make(fields, state))?;
    lent.wrote(&due)?;
    same("one byte short", 12, check_trial(rng, fields, state, [due.len() - 1, lengths[1]])?)?;
    check_typed_trial(rng, fields, state, lengths[0])?;

    let bytes = trial_of(fields, state)?;
    ensure!(due == bytes, "the typed job is another");
    let mut reader = Reader { rest: &bytes };
    let job = read_job(&mut reader).map_err(|number| format!("read: {number}"))?;
    same("bytes left", 0, reader.rest.len())?;
    let again = Lists::of_job(&job);
    ensure!(*lists == again, "a reader finds another job: {}", again.show());
    let asked = Asked::with(bytes, job, Vec::new());
    check_open(rng, &asked)?;
    ensure!(asked.bytes == written(&again)?, "written again it is another");
    Ok(asked.bytes)
}

fn trial_failed(fields: &[u16], state: u32, trouble: &str) -> String {
    format!("fields {fields:?}, state {state}: {trouble}")
}

/// States of which some are at the edge of their 32 bits or of half of them.
const STATES: [u32; 8] = [0, 1, 65_535, 65_536, 0x7fff_ffff, 0x8000_0000, 0xffff_fffe, u32::MAX];

fn random_state(rng: &mut Rng) -> u32 {
    if rng.one_in(4) {
        rng.pick(&STATES)
    } else {
        rng.next() as u32
    }
}

/// The first draws from some states, worked out apart in whole numbers.
const DRAWS: [(u32, [u16; 19]); 9] = [
    (
        0,
        [
            15470, 18256, 53708, 43769, 25170, 40750, 22526, 41945, 33277, 38128, 52214, 48337,
            40227, 58006, 442, 33734, 46381, 20425, 25167,
        ],
    ),
    (
        1,
        [
            15496, 24200, 33046, 46195, 3312, 24216, 50774, 36450, 1080, 41893, 16413, 27680,
            38711, 54849, 15405, 64280, 56419, 21422, 44735,
        ],
    ),
    (
        4_294_967_295,
        [
            15445, 12311, 8835, 41343, 47029, 57284, 59813, 47440, 65474, 34363, 22478, 3457,
            41744, 61164, 51014, 3188, 36344, 19429, 5599,
        ],
    ),
    (
        123_456_789,
        [
            14043, 57398, 34363, 22515, 35712, 24425, 18932, 35051, 25884, 8409, 28075, 18587,
            21551, 19005, 45447, 17668, 64095, 63409, 35399,
        ],
    ),
    (
        2_147_483_648,
        [
            48238, 51024, 20940, 11001, 57938, 7982, 55294, 9177, 509, 5360, 19446, 15569, 7459,
            25238, 33210, 966, 13613, 53193, 57935,
        ],
    ),
    (
        2_147_483_647,
        [
            48213, 45079, 41603, 8575, 14261, 24516, 27045, 14672, 32706, 1595, 55246, 36225, 8976,
            28396, 18246, 35956, 3576, 52197, 38367,
        ],
    ),
    (
        65_535,
        [
            41570, 36032, 11544, 35088, 16402, 55933, 23306, 47473, 10095, 30724, 46339, 59186,
            14093, 16581, 25931, 4277, 43845, 30414, 6580,
        ],
    ),
    (
        65_536,
        [
            41595, 41977, 56417, 37514, 60079, 39399, 51555, 41978, 43434, 34489, 10539, 38530,
            12576, 13423, 40895, 34823, 53882, 31410, 26148,
        ],
    ),
    (
        3_141_592_653,
        [
            6146, 33731, 42631, 55792, 17016, 14993, 7865, 26732, 7598, 55255, 7626, 60586, 14908,
            11162, 40633, 41604, 51898, 26424, 36785,
        ],
    ),
];

/// What a job of these fields holds by its draws: rate i is i and the sum of the first
/// i + 1 of them, each modulo 4.
fn drawn(fields: &[u16], draws: &[u16]) -> Lists {
    let (rises, codings) = draws.split_at(fields[RATES] as usize);
    let rate = |i: usize| i as u16 + rises[..=i].iter().map(|draw| draw % 4).sum::<u16>();
    let codings = codings.chunks_exact(2).take(fields[UNITS] as usize * fields[CHOICES] as usize);
    Lists {
        fields: fields.to_vec(),
        rates: (0..rises.len()).map(rate).collect(),
        sizes: codings.clone().map(|two| two[0] % 64).collect(),
        distortions: codings.map(|two| two[1].into()).collect(),
    }
}

/// Two units of two choices at three rates, from state 5 and from the last state, byte by
/// byte.
#[rustfmt::skip]
const TRIAL_ONE: [u8; 64] = [
    20, 0, 1, 0,  2, 0, 0, 0, 8, 0, 8, 0, 4, 0, 0, 0, 0, 0, 3, 0, 2, 0,
    8, 0, 2, 0,   1, 0, 3, 0, 6, 0,
    14, 0, 3, 0,  26, 0, 102, 183, 0, 0,  0, 0, 184, 127, 0, 0,
    14, 0, 3, 0,  6, 0, 37, 13, 0, 0,  57, 0, 187, 16, 0, 0,
];
#[rustfmt::skip]
const TRIAL_TWO: [u8; 70] = [
    26, 0, 8, 0,  2, 0, 0, 0, 8, 0, 8, 0, 4, 0, 0, 0, 0, 0, 3, 0, 2, 0, 7, 0, 9, 0, 1, 0,
    8, 0, 2, 0,   1, 0, 5, 0, 9, 0,
    14, 0, 3, 0,  63, 0, 181, 183, 0, 0,  4, 0, 165, 233, 0, 0,
    14, 0, 3, 0,  16, 0, 194, 255, 0, 0,  59, 0, 206, 87, 0, 0,
];

/// The draws of `DRAWS` as every job shows them that has enough of them: with from 1 to
/// 16 rates, the rest as choices of one unit, of several, or of as many as there are. From
/// the third on a draw stands whole in some job, as a distortion.
fn draws_group() -> Result<String, String> {
    let mut rng = Rng(1);
    for (bytes, state) in [(&TRIAL_ONE[..], 5), (&TRIAL_TWO[..], u32::MAX)] {
        let body = &bytes[4..][..u16_at(bytes, 0) as usize - 2];
        let fields: Vec<u16> = body.chunks(2).map(|two| u16_at(two, 0)).collect();
        let mut lent = TrialLists::new(&mut rng, [bytes.len() + 3, 1]);
        same("trial", 0, lent.make(&fields, state))?;
        lent.wrote(bytes).map_err(|trouble| trial_failed(&fields, state, &trouble))?;
    }

    let mut jobs = 0;
    for (state, draws) in &DRAWS {
        let mut apart = Draws { state: (*state).into() };
        for draw in draws {
            same("a draw written apart", *draw as u64, apart.next())?;
        }
        for rates in 1..=16 {
            let codings = (draws.len() - rates) / 2;
            for units in (1..=codings).filter(|units| codings % units == 0) {
                for fields in trial_headers(units, rates, codings / units) {
                    check_trial_of(&mut rng, &drawn(&fields, draws), *state)
                        .map_err(|trouble| trial_failed(&fields, *state, &trouble))?;
                    jobs += 1;
                }
            }
        }
    }
    Ok(format!("{} states, {jobs} jobs", DRAWS.len()))
}

/// Headers of so many units, rates and choices, with one bucket and with two: all else as
/// small as it may be, and as large.
fn trial_headers(units: usize, rates: usize, choices: usize) -> [Vec<u16>; 4] {
    let [units, rates, choices] = [units, rates, choices].map(|count| count as u16);
    let header = |[delay, decoder, bucket, drain, level, fill]: [u16; 6], second: &[u16]| {
        let first = [units, delay, decoder, bucket, drain, level, fill, rates, choices];
        [&first, second].concat()
    };
    let large = [64, 255, 255, 4095, 255, 255];
    [
        header(BARE, &[]),
        header(large, &[]),
        header(BARE, &[0, 1, 0]),
        header(large, &[63, 4095, 63]),
    ]
}

/// Units, rates and choices at their limits, alone and together, from several states, and
/// each field of the header at its limits and past them.
fn trial_limits_group() -> Result<String, String> {
    let mut rng = Rng(1);
    let (mut jobs, mut cases, mut bytes) = (0, 0, 0);
    let mut sizes = vec![
        (1, 1, 1),
        (1, 2, 1),
        (1, 16, 1),
        (2, 16, 2),
        (1, 1, 1000),
        (2, 3, 1000),
        (1, 16, 999),
        (512, 1, 1),
        (512, 16, 8),
        (511, 15, 3),
    ];
    if !small() {
        sizes.extend([(512, 8, 31), (128, 16, 1000)]);
    }
    for (units, rates, choices) in sizes {
        for fields in trial_headers(units, rates, choices) {
            let state = random_state(&mut rng);
            for state in if small() { vec![state] } else { vec![state, 0, 1, u32::MAX] } {
                let lists = trial_lists(&fields, state);
                let trial = check_trial_of(&mut rng, &lists, state);
                bytes += trial.map_err(|trouble| trial_failed(&fields, state, &trouble))?.len();
                jobs += 1;
            }
        }
    }
    for buckets in 1..=MOST_BUCKETS {
        let a = if buckets > 1 { job_a().doubled(SECOND_A) } else { job_a() };
        for LimitCase { lists, room, due, what, .. } in field_cases(&a, buckets) {
            let state = random_state(&mut rng);
            let mut check = || -> Checked {
                let found = check_trial(&mut rng, &lists.fields, state, [room, 1])?;
                same("number", due, found)?;
                check_typed_trial(&mut rng, &lists.fields, state, room)
            };
            check().map_err(|trouble| format!("{what}: {trouble}"))?;
            cases += 1;
        }
    }
    Ok(format!("{jobs} jobs, {bytes} bytes, {cases} cases"))
}

/// The last coding of the largest job: draws 1,024,015, modulo 64, and 1,024,016, worked
/// out apart from the powers of the multiplier.
const LAST_DRAWS: [(u32, u16, u32); 4] =
    [(0, 20, 3040), (1, 57, 53_545), (u32::MAX, 48, 18_072), (123_456_789, 28, 5846)];

/// The largest jobs of either kind.
fn trial_largest_group() -> Result<String, String> {
    let mut rng = Rng(1);
    let mut sums = [0; 2];
    for ((state, grains, distortion), at) in LAST_DRAWS.iter().zip([3, 1, 3, 1]) {
        let fields = &trial_headers(512, 16, MOST_CHOICES)[at];
        let lists = trial_lists(fields, *state);
        let mut check = || -> Checked {
            same("the last size apart", Some(grains), lists.sizes.last())?;
            same("the last distortion apart", Some(distortion), lists.distortions.last())?;
            let job = check_trial_of(&mut rng, &lists, *state)?;
            same("bytes", if fields.len() == 12 { 3_074_112 } else { 3_074_106 }, job.len())?;
            sums[0] += 1;
            sums[1] += job.len();
            Ok(())
        };
        check().map_err(|trouble| trial_failed(fields, *state, &trouble))?;
    }
    Ok(format!("{} jobs, {} bytes", sums[0], sums[1]))
}

/// Headers of other lengths than nine or twelve, or with a field one past its limits;
/// `a` is the header of Job A with one bucket or with two.
fn wrong_trial_headers(a: &[u16]) -> Vec<Vec<u16>> {
    let mut wrong = Vec::new();
    for &(field, low, high) in &LIMITS[..a.len()] {
        for value in [low.checked_sub(1), Some(high + 1)].into_iter().flatten() {
            let mut fields = a.to_vec();
            fields[field] = value;
            wrong.push(fields);
        }
    }
    // Some of these lengths are the right one in eight or sixteen bits.
    let lengths = (0..=26).chain([256 + 9, 256 + 12, 65_536 + 9, 65_536 + 12]);
    for length in lengths.filter(|length| !FIELDS.contains(length)) {
        let mut fields = a.to_vec();
        fields.resize(length, 1);
        wrong.push(fields);
    }
    wrong
}

/// Every set of defects at once: a header as it should be or wrong in each of its ways,
/// drains of 0, and lists of all lengths near those needed.
fn trial_order_group() -> Result<String, String> {
    let mut rng = Rng(1);
    let mut tally: BTreeMap<u32, usize> = BTreeMap::new();
    for a in drains_of_a() {
        let taken = if a.header.len() == 12 { 70 } else { 64 };
        let wrong = wrong_trial_headers(&a.header).into_iter().map(|fields| (fields, true));
        for (fields, header) in [(a.header.clone(), false)].into_iter().chain(wrong) {
            for room in [0, 1, 22, taken - 1, taken, taken + 1, taken + 9] {
                for values in [0, 1, 2] {
                    let due = first_of(&[
                        (header, 3),
                        (a.never_drains(), 17),
                        (room < taken, 12),
                        (values < 1, 12),
                    ]);
                    let state = random_state(&mut rng);
                    let mut check = || -> Checked {
                        let found = check_trial(&mut rng, &fields, state, [room, values])?;
                        same("number", due, found as u32)?;
                        check_typed_trial(&mut rng, &fields, state, room)
                    };
                    check().map_err(|trouble| {
                        let trouble = format!("room {room}, values {values}: {trouble}");
                        trial_failed(&fields, state, &trouble)
                    })?;
                    *tally.entry(due).or_default() += 1;
                }
            }
        }
    }
    let counts = by_number(&tally);
    ensure!(tally.keys().eq(&[0, 3, 12, 17]), "too little in it: {counts}");
    Ok(format!("sets of defects by number ({counts})"))
}

/// What stood in the list before does not matter, nor what was asked before: jobs of
/// several headers and states are written over each other and over bytes of one kind.
fn trial_over_group() -> Result<String, String> {
    let mut rng = Rng(1);
    let mut asks = Vec::new();
    for (units, rates, choices) in [(1, 1, 1), (3, 4, 5), (2, 16, 31), (40, 2, 2)] {
        for (at, fields) in trial_headers(units, rates, choices).into_iter().enumerate() {
            let state = [0, u32::MAX, 123_456_789, random_state(&mut rng)][at];
            let due = trial_bytes(&fields, state, usize::MAX, 1);
            asks.push((fields, state, due.map_err(|number| format!("refused: {number}"))?));
        }
    }
    let room = asks.iter().map(|(_, _, due)| due.len()).max().expect("a job") + 3;
    let mut list = vec![0; room];
    let mut values = [0; 2];
    let mut times = 0;
    for (fields, state, due) in &asks {
        for before in 0..3 + asks.len() {
            match before {
                0 => list.fill(0),
                1 => list.fill(255),
                2 => list.iter_mut().for_each(|byte| *byte = rng.next() as u8),
                // The job of another header and state, or the same.
                _ => {
                    let (fields, state, _) = &asks[before - 3];
                    same("trial", 0, numbers::trial(fields, *state, &mut list, &mut values))?;
                }
            }
            values = [rng.next(), rng.next()];
            let mut after = list.clone();
            after[..due.len()].copy_from_slice(due);
            let counted = [due.len() as u64, values[1]];
            let found = numbers::trial(fields, *state, &mut list, &mut values);
            let trouble = |what| trial_failed(fields, *state, &format!("over {before}: {what}"));
            ensure!(found == 0, "{}", trouble("refused"));
            ensure!(list == after, "{}", trouble("other bytes"));
            ensure!(values == counted, "{}", trouble("other values"));
            times += 1;
        }
    }
    Ok(format!("{} jobs, written {times} times", asks.len()))
}

/// A header in range: of all sizes, of few bytes mostly.
fn random_trial_header(rng: &mut Rng) -> Vec<u16> {
    let (units, choices) = match rng.from(0, 19) {
        0 => (512, rng.from(1, 12)),
        1 => (rng.from(1, 512), rng.from(1, 12)),
        2 => (rng.from(1, 12), MOST_CHOICES),
        3 => (rng.from(1, 12), rng.from(1, MOST_CHOICES)),
        4 => (rng.from(1, 60), rng.from(1, 60)),
        _ => (rng.from(1, 9), rng.from(1, 9)),
    };
    let [decoder, bucket] = [rng.from(0, 255), rng.from(0, 255)];
    let mut fields = vec![units, rng.from(0, 64), decoder, bucket, rng.from(1, 4095)];
    fields.extend([rng.from(0, decoder), rng.from(0, bucket), rng.from(1, 16), choices]);
    if rng.one_in(2) {
        let second = rng.from(0, 63);
        fields.extend([second, rng.from(1, 4095), rng.from(0, second)]);
    }
    fields.into_iter().map(|field| field as u16).collect()
}

fn trials_group(seed: u64, asks: bool) -> Result<String, String> {
    let mut rng = Rng(seed);
    let (mut bytes, mut long, mut double) = (0, 0, 0);
    let jobs = scaled(2000);
    for index in 1..=jobs {
        let fields = random_trial_header(&mut rng);
        let state = random_state(&mut rng);
        let job = check_trial_of(&mut rng, &trial_lists(&fields, state), state)
            .map_err(|trouble| trial_failed(&fields, state, &trouble))
            .map_err(|trouble| format!("seed {seed}, job {index}: {trouble}"))?;
        bytes += job.len();
        long += (job.len() > 4096) as usize;
        double += (fields.len() > FIELDS[0]) as usize;
    }
    let counts =
        format!("{jobs} jobs, {bytes} bytes, {long} jobs over 4,096, {double} of two buckets");
    let worthwhile = long * 10 > jobs && double * 3 > jobs && double * 3 < jobs * 2;
    ensure!(worthwhile || !asks, "too little in it: {counts}");
    Ok(counts)
}

/// Headers with a field changed or two, mostly near a limit, and lists of any length.
fn harmed_trials_group(seed: u64, asks: bool) -> Result<String, String> {
    let mut rng = Rng(seed);
    let mut tally: BTreeMap<Refusal, usize> = BTreeMap::new();
    let inputs = scaled(20_000);
    for index in 1..=inputs {
        let mut fields = random_trial_header(&mut rng);
        // Each change is tried on many headers, so that short jobs will do.
        fields[UNITS] = fields[UNITS].min(9);
        fields[CHOICES] = fields[CHOICES].min(9);
        for _ in 0..rng.pick(&[0, 0, 1, 1, 1, 2, 3]) {
            harm_fields(&mut rng, &mut fields);
        }
        let need = trial_bytes(&fields, 0, usize::MAX, 1).map_or(100, |bytes| bytes.len());
        let room = match rng.from(0, 9) {
            0 => need - 1,
            1 => rng.from(0, need),
            2..=5 => need,
            _ => need + rng.from(1, 99),
        };
        let values = if rng.one_in(10) { 0 } else { rng.from(1, 3) };
        let state = random_state(&mut rng);
        let mut check = || -> Result<Refusal, String> {
            check_typed_trial(&mut rng, &fields, state, room)?;
            check_trial(&mut rng, &fields, state, [room, values])
        };
        let due = check().map_err(|trouble| {
            let trouble = format!("room {room}, values {values}: {trouble}");
            format!("seed {seed}, input {index}: {}", trial_failed(&fields, state, &trouble))
        })?;
        *tally.entry(due).or_default() += 1;
    }
    let counts = format!("{inputs} inputs by number ({})", by_number(&tally));
    let worthwhile =
        [0, 3, 12, 17].iter().all(|number| tally.get(number).is_some_and(|c| c * 50 > inputs));
    ensure!(worthwhile || !asks, "too little in it: {counts}");
    Ok(counts)
}

/// Changes one field, mostly near a limit, or their number.
fn harm_fields(rng: &mut Rng, fields: &mut Vec<u16>) {
    let limits: [u16; 15] = [0, 1, 2, 16, 17, 63, 64, 65, 255, 256, 512, 513, 1000, 1001, 4095];
    match rng.from(0, 9) {
        0..=2 => change_one(rng, fields, |rng, _| rng.pick(&limits)),
        3 | 4 => change_one(rng, fields, near),
        5 => change_one(rng, fields, |rng, _| rng.pick(&[4096, 0x8000, 0xffff])),
        6 => change_length(rng, fields),
        // A drain is one of twelve fields, and there is a number for it alone.
        _ => {
            let drain = rng.pick(&[DRAIN, SECOND_DRAIN]);
            if let Some(field) = fields.get_mut(drain) {
                *field = 0;
            }
        }
    }
}

// ---------------------------------------------------------------------------
// A change of contract: what is asked, and what is due.
// ---------------------------------------------------------------------------

/// What a change is asked of. Anything in it may be wrong.
#[derive(Clone)]
struct Changing {
    bytes: Vec<u8>,
    set: Vec<u32>,
    old: Vec<u8>,
    first: u32,
    contract: Contract,
    order: u32,
}

impl Changing {
    fn of(
        bytes: &[u8],
        set: Vec<u32>,
        old: &[u8],
        first: u32,
        contract: &Contract,
        order: Order,
    ) -> Changing {
        let (bytes, old, contract) = (bytes.to_vec(), old.to_vec(), contract.clone());
        Changing { bytes, set, old, first, contract, order: order.number() }
    }

    /// What stands if nothing refuses the change before the lists are looked at, else the
    /// first number due.
    fn begun(&self) -> Result<Begun, Refusal> {
        let job = read_job(&mut Reader { rest: &self.bytes })?;
        let book = read_set(&job, &self.set).ok_or(6)?;
        if ORDERS.iter().all(|order| order.number() != self.order) {
            return Err(2);
        }
        let old = read_plan(&job, &self.old)?;
        self.contract.judged(job.buckets.len())?;
        let first = self.first as usize;
        if first == 0 || first >= job.intervals() {
            return Err(18);
        }
        let pins = pins_of(&job, &book);
        let levels = carried(&job, &pins, &old, first).ok_or(19)?;
        let sizes = self.contract.sizes.iter().map(|&size| size as i64);
        if sizes.zip(levels.1).any(|(size, level)| level > size) {
            return Err(20);
        }
        Ok(Begun { job, pins, old, first, levels })
    }

    fn typed_contract(&self) -> upload_planner::Contract<'_> {
        let Contract { rates, sizes, drains } = &self.contract;
        upload_planner::Contract { rates, sizes, drains }
    }

    /// What to type again to see a failure.
    fn failed(&self, trouble: &str) -> String {
        let Changing { bytes, old, first, contract, order, .. } = self;
        let pins = shown_pins(&self.set);
        format!(
            "{trouble}\n  job {}\n  {} numbers, pins {pins:?}\n  old plan {}, first {first}, \
             {contract:?}, order {order}",
            hex(bytes),
            self.set.len(),
            hex(old)
        )
    }
}

/// The pins in the numbers of a set, right or wrong, by unit.
fn shown_pins(set: &[u32]) -> Vec<(usize, u32)> {
    let pins = set.get(SET_PINS..SET_TOTALS).unwrap_or(&[]);
    (1..).zip(pins.iter().copied()).filter(|(_, pin)| *pin != NO_PIN).collect()
}

/// A change that nothing refuses before the lists are looked at.
struct Begun {
    job: Job,
    pins: Pins,
    old: Plan,
    first: usize,
    /// What the decoder and the buckets hold after the first intervals.
    levels: (i64, Levels),
}

impl Begun {
    /// The lengths needed: table, entries, values.
    fn needs(&self, contract: &Contract) -> [usize; 3] {
        let layers = self.job.intervals() + 1;
        let rows = self.job.decoder_size as usize + 1;
        let width: usize = contract.sizes.iter().map(|&size| size as usize + 1).product();
        [layers * rows * width, ENTRY_BYTES * self.job.intervals(), plan_values(&self.job)]
    }

    /// The intervals up to the change as a job of its own, which may have no unit.
    fn head(&self) -> (Job, Pins) {
        let shown = self.first.saturating_sub(self.job.delay);
        let mut head = self.job.clone();
        head.delay = head.delay.min(self.first);
        head.units.truncate(shown);
        (head, self.pins[..shown].to_vec())
    }

    fn rest(&self, contract: &Contract) -> (Job, Pins) {
        rest_of(&self.job, &self.pins, self.first, contract, self.levels)
    }

    /// The old entries that remain, then those of the rest.
    fn whole(&self, rest: Plan) -> Plan {
        [&self.old[..self.first], &rest].concat()
    }

    /// What is due by the table of the rest: the layers from `first` on, and whole plans.
    fn due(&self, contract: &Contract) -> Due {
        let (rest, pins) = self.rest(contract);
        let table = fast_table(&rest, &pins);
        let plans = read_off(&rest, &pins, &table).map(|plan| Some(self.whole(plan?)));
        Due { table, plans }
    }

    /// What is due by trying everything.
    fn tried(&self, contract: &Contract) -> (Due, usize) {
        let table = completed_layers(&self.job, &self.pins, self.first, contract);
        let all = continued(&self.job, &self.pins, &self.old, self.first, contract);
        (Due { table, plans: all.best }, all.equals)
    }

    /// The totals of a whole plan, each interval by its own contract: followed step by step
    /// from the starting levels, and by sums of each part. The levels of both are the same,
    /// and every grain is accounted for.
    fn totals(&self, contract: &Contract, plan: &Plan) -> Result<Vec<u64>, String> {
        let mut levels: Vec<u16> = Vec::new();
        let totals = replay_changed(
            &self.job,
            &self.pins,
            self.first,
            contract,
            plan,
            |decoder, buckets| {
                levels.push(decoder as u16);
                levels.extend(buckets.iter().map(|&level| level as u16));
            },
        );
        let totals = totals.ok_or("the plan due is not admissible")?;
        let values: Vec<u64> = totals.numbers().into_iter().map(|total| total as u64).collect();

        let ((head, head_pins), (rest, rest_pins)) = (self.head(), self.rest(contract));
        let [before, after] = [&plan[..self.first], &plan[self.first..]].map(<[_]>::to_vec);
        let parts = [follow(&head, &head_pins, &before), follow(&rest, &rest_pins, &after)];
        same(
            "the levels of both parts",
            &levels,
            &[&parts[0].levels[..], &parts[1].levels].concat(),
        )?;
        let both = parts[0].values.iter().zip(&parts[1].values).map(|(one, other)| one + other);
        same("the values of both parts", [&[0, 0], &values[..]].concat(), both.collect())?;

        let last = &levels[levels.len() - self.job.buckets.len()..];
        let left = (self.job.intervals() - self.first) as i64;
        for (at, bucket) in self.job.buckets.iter().enumerate() {
            let drained = self.first as i64 * bucket.drain + left * contract.drains[at] as i64;
            let come = bucket.start + totals.channel + totals.unused[at];
            same("the balance of both parts", drained + last[at] as i64, come)?;
        }
        Ok(values)
    }
}

/// The lists that a change is lent, the set among them.
struct ChangeLists {
    set: Lent<u32>,
    table: Lent<u32>,
    entries: Lent<u8>,
    values: Lent<u64>,
}

impl ChangeLists {
    /// `lengths`: table, entries, values.
    fn new(rng: &mut Rng, asked: &Changing, lengths: [usize; 3]) -> ChangeLists {
        ChangeLists {
            set: lent_with(rng, &asked.set),
            table: Lent::new(rng, lengths[0]),
            entries: Lent::new(rng, lengths[1]),
            values: Lent::new(rng, lengths[2]),
        }
    }

    fn change(&mut self, asked: &Changing) -> u32 {
        let Changing { bytes, old, first, contract, order, .. } = asked;
        let lists = (self.table.list(), self.entries.list(), self.values.list());
        changed(bytes, self.set.held(), old, *first, contract, *order, lists.0, lists.1, lists.2)
    }

    fn kept(&self, asked: &Changing) -> Checked {
        self.table.kept("table")?;
        self.kept_but_table(asked)
    }

    fn kept_but_table(&self, asked: &Changing) -> Checked {
        self.set.wrote("set", &asked.set)?;
        self.entries.kept("entries")?;
        self.values.kept("values")
    }
}

/// The change is refused by this number, and writes nothing. `lengths`: table, entries,
/// values.
fn check_unchanged(rng: &mut Rng, asked: &Changing, number: u32, lengths: [usize; 3]) -> Checked {
    let mut lent = ChangeLists::new(rng, asked, lengths);
    same(&format!("change in lists of {lengths:?}"), number, lent.change(asked))?;
    lent.kept(asked)
}

/// Asks for the change with one of the lists one short, then with lists of just enough or
/// somewhat more, and compares all that is written: of the table the layers from `first` on.
/// Gives the number due.
fn check_change(rng: &mut Rng, asked: &Changing, begun: &Begun, due: &Due) -> Result<u32, String> {
    let needs = begun.needs(&asked.contract);
    let lengths = one_short(needs, rng.from(0, 2)).expect("needed");
    let short = if lengths[0] < needs[0] { 11 } else { 12 };
    check_unchanged(rng, asked, short, lengths)?;
    let lengths = needs.map(|need| need + slack(rng));
    check_change_in(rng, asked, begun, due, lengths)
}

/// The same in lists of these lengths, which are long enough.
fn check_change_in(
    rng: &mut Rng,
    asked: &Changing,
    begun: &Begun,
    due: &Due,
    lengths: [usize; 3],
) -> Result<u32, String> {
    let mut lent = ChangeLists::new(rng, asked, lengths);
    let layers = begun.job.intervals() + 1 - begun.first;
    let before = begun.first * (due.table.len() / layers);
    let words = [&lent.table.held()[..before], &due.table].concat();
    let number = lent.change(asked);
    let Some(plan) = &due.plans[asked.order as usize] else {
        same("change", 13, number)?;
        lent.table.wrote("table", &words)?;
        lent.kept_but_table(asked)?;
        return Ok(13);
    };
    same("change", 0, number)?;
    lent.table.wrote("table", &words)?;
    lent.set.wrote("set", &asked.set)?;
    lent.entries.wrote("entries", &plan_bytes(plan))?;
    lent.values.wrote("values", &begun.totals(&asked.contract, plan)?)?;
    Ok(0)
}

/// The typed functions give what the numbers give: with calls that set the pins in any
/// order, and in a session. Where an order is wrong or a set they cannot be asked.
fn check_typed_change(rng: &mut Rng, asked: &Changing, due: Option<&Due>) -> Checked {
    let job = read_job(&mut Reader { rest: &asked.bytes });
    let book = job.as_ref().map_or(Some(Book::new()), |job| read_set(job, &asked.set));
    let order = ORDERS.into_iter().find(|order| order.number() == asked.order);
    let (Some(book), Some(order)) = (book, order) else { return Ok(()) };
    let pins = job.as_ref().map_or(vec![], |job| pins_of(job, &book));
    let calls: Vec<Call> = fresh_calls(rng, &pins).chunks(3).map(typed_call).collect();
    let (bytes, old, first) = (&asked.bytes, &asked.old, asked.first);
    let (contract, order) = (asked.typed_contract(), typed_order(order));
    let begun = asked.begun();
    let number = match (&begun, due) {
        (Err(number), _) => *number as u32,
        (Ok(_), Some(due)) if due.plans[asked.order as usize].is_none() => 13,
        _ => 0,
    };
    let found = upload_planner::changed(bytes, &calls, old, first, contract, order);
    if job.is_ok() {
        let mut session = upload_planner::Session::open(bytes).map_err(|r| r.to_string())?;
        for (&unit, &choice) in &book {
            session.pin(unit as u16, choice as u16).map_err(|refusal| refusal.to_string())?;
        }
        let best = session.best_total();
        let kept = session.change(old, first, contract, order);
        let answers = vec![Ok(()); book.len()];
        let kept = kept.map(|kept| upload_planner::BestPlan { answers, ..kept });
        ensure!(kept == found, "a session's change is another");
        same("a session's total after a change", best, session.best_total())?;
    }
    let (mut table, mut entries) = (Vec::new(), Vec::new());
    if let (Ok(begun), Some(due)) = (&begun, due) {
        let needs = begun.needs(&asked.contract);
        let words = contract.table_words(begun.job.intervals(), begun.job.decoder_size as u16);
        same("typed words", needs[0], words)?;
        table = vec![0; needs[0] - due.table.len()];
        table.extend(&due.table);
        entries = vec![0; needs[1]];
    }
    let mut words = vec![0; table.len()];
    let lent = (&mut words, &mut entries);
    let totals = upload_planner::change(bytes, &calls, old, first, contract, order, lent.0, lent.1);
    same("typed change", number, totals.err().map_or(0, |refusal| refusal.number()))?;
    ensure!(words == table, "the typed table is another");
    let found = match found {
        Ok(found) => found,
        Err(refusal) => return same("owned change", number, refusal.number()),
    };
    same("owned change", number, 0)?;
    let (Ok(begun), Some(due)) = (&begun, due) else { return Ok(()) };
    let plan = due.plans[asked.order as usize].as_ref().expect("a plan");
    let values = typed_totals(&begun.totals(&asked.contract, plan)?);
    same("typed totals", (Ok(values), values), (totals, found.totals))?;
    same("typed entries", [plan_bytes(plan), plan_bytes(plan)], [entries, found.entries])?;
    ensure!(found.table == table, "the owned table is another");
    same("owned answers", vec![0; book.len()], answer_numbers(&found.answers))
}

/// What a change is asked of where nothing is wrong with its job.
fn changing(
    asked: &Asked,
    book: &Book,
    old: &[u8],
    first: u32,
    contract: &Contract,
    order: Order,
) -> Changing {
    let set = set_numbers(&asked.job, book);
    Changing::of(&asked.bytes, set, old, first, contract, order)
}

fn book_of(pins: &Pins) -> Book {
    let pinned = pins.iter().enumerate().filter_map(|(at, pinned)| Some((at + 1, (*pinned)?)));
    pinned.collect()
}

fn contract(rates: &[u16], sizes: &[u16], drains: &[u16]) -> Contract {
    Contract { rates: rates.to_vec(), sizes: sizes.to_vec(), drains: drains.to_vec() }
}

// ---------------------------------------------------------------------------
// Changes by hand, and every change of Job A.
// ---------------------------------------------------------------------------

/// Job A's layers 1 to 3 by hand, under rates of 0, 1 and 3, a bucket of 2 and a drain of 1: a
/// row for each decoder level, a word for each bucket level. Unit 2 takes 2 grains: from
/// nothing 3 must be sent, which only the empty bucket takes. Unit 1 at choice 0 needs a peak
/// of just 4, and after it an empty bucket.
const CHANGED_A: [[[u32; 3]; 5]; 3] = [
    [[70, NEVER, NEVER], [70, NEVER, NEVER], [70; 3], [50, 70, 70], [50, 50, 70]],
    [[40, NEVER, NEVER], [40; 3], [40; 3], [40; 3], [40; 3]],
    [[0; 3]; 5],
];

/// Changes of Job A's contract, worked out by hand. Early its plan sends 4, 0 and 4 and has
/// levels 4 2, 0 0 and 2 2; late it sends 0, 4 and 2 and has levels 0 0, 0 2 and 0 2.
fn changes_by_hand_group() -> Result<String, String> {
    let mut rng = Rng(1);
    // The old plan, after how many intervals it is left, and by what it is to go on, with the
    // values of the whole; or the number due.
    type Row<'a> = (
        &'a [(usize, usize)],
        [u8; 9],
        u32,
        &'a Contract,
        Order,
        Result<(&'a [u8], &'a [u64]), u32>,
    );
    let (early, late) = (Order::Early, Order::Late);
    let lower = contract(&[0, 1, 3], &[2], &[1]);
    let wider = contract(&[0, 1, 2, 3, 4, 5], &[0], &[4]);
    let (one_rate, none_fits) = (contract(&[2], &[2], &[2]), contract(&[0, 4], &[1], &[2]));
    let [to_0, to_1, to_2, to_3] =
        [0, 1, 2, 3].map(|size: u16| contract(&[0, 2, 4], &[size], &[2]));
    // Plans by which two or four grains more than the decoder holds come in interval 2, and
    // one by which it holds two too few in interval 3.
    let over = [2, 255, 255, 1, 0, 0, 0, 0, 0];
    let far_over = [2, 255, 255, 2, 0, 0, 0, 0, 0];
    let short = [2, 255, 255, 0, 0, 0, 0, 1, 0];
    let one: [Row; 34] = [
        // After 4 grains the decoder is full, and interval 2 sends none. Three grains do not
        // go into the bucket after that, so that unit 1 leaves two for unit 2.
        (&[], EARLY_A, 1, &lower, early, Ok((&[0, 1, 0, 1, 1, 0], &[70, 4, 5, 0]))),
        (&[], EARLY_A, 1, &lower, late, Ok((&[0, 1, 0, 0, 1, 0], &[70, 4, 4, 0]))),
        // After interval 2 both are empty: three grains bring the bucket to its 2.
        (&[], EARLY_A, 2, &lower, early, Ok((&[2, 1, 0], &[50, 6, 7, 0]))),
        (&[], EARLY_A, 2, &lower, late, Ok((&[2, 1, 0], &[50, 6, 7, 0]))),
        // The late plan has left 2 in the bucket by then, and unit 2 needs 3 grains of it.
        (&[], LATE_A, 2, &lower, early, Err(13)),
        (&[], LATE_A, 2, &one_rate, late, Ok((&[0, 1, 0], &[50, 6, 6, 2]))),
        // All that is sent leaves at once. Of the old drain 2 went by, of the new one 0 or 2.
        (&[], LATE_A, 1, &wider, early, Ok((&[4, 0, 0, 4, 1, 0], &[50, 6, 8, 2]))),
        (&[], LATE_A, 1, &wider, late, Ok((&[4, 0, 0, 2, 1, 0], &[50, 6, 6, 4]))),
        // Nothing changes, and what remains of a plan is as it was. After interval 2 of the
        // late plan that is so in the early order too: four grains do not go into the bucket.
        (&[], EARLY_A, 1, &to_3, early, Ok((&EARLY_A[3..], &[50, 6, 8, 0]))),
        (&[], EARLY_A, 2, &to_3, early, Ok((&EARLY_A[6..], &[50, 6, 8, 0]))),
        (&[], LATE_A, 1, &to_3, late, Ok((&LATE_A[3..], &[50, 6, 6, 2]))),
        (&[], LATE_A, 2, &to_3, late, Ok((&LATE_A[6..], &[50, 6, 6, 2]))),
        (&[], LATE_A, 2, &to_3, early, Ok((&LATE_A[6..], &[50, 6, 6, 2]))),
        // Unit 1 is decoded in interval 2. A pin that the old plan does not hold is too late
        // after that, and binds the rest before it.
        (&[(1, 1)], EARLY_A, 1, &to_3, early, Ok((&[0, 1, 0, 1, 1, 0], &[70, 4, 6, 0]))),
        (&[(1, 1)], EARLY_A, 2, &to_3, early, Err(19)),
        (&[(1, 0)], EARLY_A, 2, &to_3, early, Ok((&EARLY_A[6..], &[50, 6, 8, 0]))),
        (&[(1, 0)], EARLY_A, 1, &lower, early, Err(13)),
        (&[(2, 0)], EARLY_A, 2, &to_3, early, Err(13)),
        (&[(1, 1), (2, 0)], EARLY_A, 2, &to_3, late, Err(19)),
        // The bucket has 2 after interval 1 of the early plan, and nothing after interval 2.
        (&[], EARLY_A, 1, &to_1, early, Err(20)),
        (&[], EARLY_A, 1, &to_0, late, Err(20)),
        (&[], EARLY_A, 1, &to_2, early, Ok((&EARLY_A[3..], &[50, 6, 8, 0]))),
        (&[], EARLY_A, 2, &to_0, early, Ok((&[1, 1, 0], &[50, 6, 6, 0]))),
        // It takes two grains at a time, so that unit 1 has its choice 1; and four never.
        (&[], LATE_A, 1, &to_0, early, Ok((&[1, 1, 0, 1, 1, 0], &[70, 4, 4, 2]))),
        (&[], LATE_A, 1, &to_1, late, Ok((&[1, 1, 0, 1, 1, 0], &[70, 4, 4, 2]))),
        (&[], LATE_A, 1, &none_fits, early, Err(13)),
        // Outside of the programme.
        (&[], EARLY_A, 0, &to_3, early, Err(18)),
        (&[], EARLY_A, 3, &to_3, early, Err(18)),
        (&[], EARLY_A, 65_537, &to_3, early, Err(18)),
        // What is wrong in interval 2 is seen by a change after it, and not by one before.
        (&[], over, 2, &to_3, early, Err(19)),
        (&[], over, 1, &to_3, early, Ok((&EARLY_A[3..], &[50, 6, 8, 0]))),
        // There the bucket has 2 + 4 - 2, over its new size; that comes after.
        (&[], far_over, 2, &to_1, early, Err(19)),
        (&[], far_over, 1, &to_1, early, Err(20)),
        // The last interval is never among the first.
        (&[], short, 2, &to_3, early, Ok((&EARLY_A[6..], &[50, 6, 8, 0]))),
    ];
    let [two, two_one, one_two, one_one, two_none] = [[2, 2], [2, 1], [1, 2], [1, 1], [2, 0]]
        .map(|sizes: [u16; 2]| contract(&[0, 1, 3], &sizes, &[1, 2]));
    let two: [Row; 7] = [
        // Both buckets have 2 after interval 1. In the last interval one grain goes into the
        // first, from which one drains, and the second's drain of 2 finds no other.
        (&[], EARLY_A, 1, &two, early, Ok((&[0, 1, 0, 1, 1, 0], &[70, 4, 5, 0, 1]))),
        (&[], EARLY_A, 1, &two, late, Ok((&[0, 1, 0, 0, 1, 0], &[70, 4, 4, 0, 2]))),
        (&[], EARLY_A, 1, &two_one, early, Err(20)),
        (&[], EARLY_A, 1, &one_two, early, Err(20)),
        (&[], EARLY_A, 1, &one_one, early, Err(20)),
        (&[], EARLY_A, 2, &two_none, early, Err(13)),
        (&[], EARLY_A, 2, &two_one, early, Ok((&[2, 1, 0], &[50, 6, 7, 0, 0]))),
    ];
    let mut rows = 0;
    for (draft, list) in [(job_a(), &one[..]), (job_a().doubled(SECOND_A), &two[..])] {
        let asked = Asked::new(&mut rng, &draft);
        for &(pins, old, first, new, order, found) in list {
            let book: Book = pins.iter().copied().collect();
            let ask = changing(&asked, &book, &old, first, new, order);
            let mut check = || -> Checked {
                let begun = match ask.begun() {
                    Ok(begun) => begun,
                    Err(number) => {
                        same("by hand", found.map(|_| ()), Err(number as u32))?;
                        check_unchanged(&mut rng, &ask, number as u32, [500, 12, 7])?;
                        return check_typed_change(&mut rng, &ask, None);
                    }
                };
                let due = begun.due(new);
                let other = match plan_in(order, &due.plans) {
                    Some(plan) => Ok((plan_bytes(plan), begun.totals(new, plan)?)),
                    None => Err(13),
                };
                let whole = |rest: &[u8]| [&old[..ENTRY_BYTES * begun.first], rest].concat();
                let by_hand = found.map(|(rest, values)| (whole(rest), values.to_vec()));
                same("by hand", &by_hand, &other)?;
                check_change(&mut rng, &ask, &begun, &due)?;
                check_typed_change(&mut rng, &ask, Some(&due))
            };
            check().map_err(|trouble| ask.failed(&trouble))?;
            rows += 1;
        }
    }
    // The table by hand.
    let asked = Asked::new(&mut rng, &job_a());
    for first in 1..=2 {
        let ask = changing(&asked, &Book::new(), &EARLY_A, first, &lower, early);
        let begun = ask.begun().map_err(|number| format!("refused: {number}"))?;
        let table = CHANGED_A[first as usize - 1..].concat().concat();
        same("the table by hand", &table, &begun.due(&lower).table)?;
        let (plans, _) = begun.tried(&lower);
        check_change(&mut rng, &ask, &begun, &Due { table, plans: plans.plans })?;
    }
    Ok(format!("{rows} changes"))
}

/// Every plan of Job A, after each of its intervals, with some pins and under some contracts:
/// every continuation is tried.
fn every_change_group() -> Result<String, String> {
    let mut rng = Rng(1);
    let mut tally: BTreeMap<u32, usize> = BTreeMap::new();
    let books = [
        Book::new(),
        Book::from([(1, 0)]),
        Book::from([(1, 1)]),
        Book::from([(2, 0)]),
        Book::from([(1, 1), (2, 1)]),
    ];
    let contracts = [
        ([0, 2, 4].to_vec(), [3, 2], [2, 2]),
        ([0, 1, 3].to_vec(), [2, 2], [1, 2]),
        ([0, 1, 2, 3, 4, 5].to_vec(), [5, 3], [1, 4]),
        ([2].to_vec(), [2, 2], [2, 1]),
        ([0, 4].to_vec(), [1, 0], [4, 4095]),
        ([1, 2, 3, 4095].to_vec(), [0, 1], [3, 3]),
    ];
    for draft in [job_a(), job_a().doubled(SECOND_A)] {
        let asked = Asked::new(&mut rng, &draft);
        let count = asked.job.buckets.len();
        let mut old: Plan = vec![(0, NO_CHOICE), (0, 0), (0, 0)];
        loop {
            for (at, (rates, sizes, drains)) in contracts.iter().enumerate() {
                let new = contract(rates, &sizes[..count], &drains[..count]);
                // In a small run one of them each time.
                if small() && rng.from(0, 11) != at {
                    continue;
                }
                for (book, first) in books.iter().flat_map(|book| [(book, 1), (book, 2)]) {
                    let order = rng.pick(&ORDERS);
                    let ask = changing(&asked, book, &plan_bytes(&old), first, &new, order);
                    let mut check = || -> Result<u32, String> {
                        match ask.begun() {
                            Err(number) => {
                                check_unchanged(&mut rng, &ask, number as u32, [500, 12, 7])?;
                                Ok(number as u32)
                            }
                            Ok(begun) => {
                                let (due, _) = begun.tried(&new);
                                same("the rest as a job", &due.table, &begun.due(&new).table)?;
                                check_change(&mut rng, &ask, &begun, &due)
                            }
                        }
                    };
                    let number = check().map_err(|trouble| ask.failed(&trouble))?;
                    *tally.entry(number).or_default() += 1;
                }
            }
            if !next_plan(&asked.job, &mut old) {
                break;
            }
        }
    }
    let counts = by_number(&tally);
    ensure!(tally.keys().eq(&[0, 13, 19, 20]) || small(), "too little in it: {counts}");
    Ok(format!("changes by number ({counts})"))
}

// ---------------------------------------------------------------------------
// Refusals of a change.
// ---------------------------------------------------------------------------

/// A job of three units whose old plan has levels 4 and 6 of the decoder and 2 and 4 of each
/// bucket after its first two intervals.
fn changing_job() -> (Draft, [u8; 12]) {
    let unit = vec![(2, 10), (0, 30), (9, 1)];
    let draft = Draft::new([1, 8, 6, 2, 0, 0], &[0, 2, 4, 8], &vec![unit; 3]);
    (draft, [2, 255, 255, 2, 0, 0, 0, 0, 0, 0, 0, 0])
}

/// Every set of defects at once, each in one of its ways: the first in order gives the
/// number, and nothing is written.
fn change_order_group() -> Result<String, String> {
    let mut rng = Rng(1);
    let mut tally: BTreeMap<u32, usize> = BTreeMap::new();
    let (draft, old) = changing_job();
    for draft in [draft.clone(), draft.doubled([6, 2, 0])] {
        for (wrong, never) in (0..=5).flat_map(|wrong| [(wrong, false), (wrong, true)]) {
            let count = draft.buckets().len();
            let stored = draft.undrained(if never { rng.from(1, (1 << count) - 1) } else { 0 });
            let bytes = wrong_job(&stored, wrong);
            // The wrong byte of 1 is the last one; only 2 and 3 are in the header.
            let refused = if never && wrong != 2 && wrong != 3 { 17 } else { wrong };
            let step = match refused {
                0 => 1,
                _ if small() => 1023,
                _ => 29,
            };
            for bits in (0..1u32 << 13).step_by(step) {
                if small() && bits.count_ones() > 2 {
                    continue;
                }
                // The defects that come last are seldom the first; so they are tried again.
                let times = if small() { 1 } else { 1 + 3 * bits.trailing_zeros().min(13) };
                for _ in 0..times {
                    let has = |bit: usize| bits >> bit & 1 == 1;
                    let number = check_change_order(&mut rng, &draft, &bytes, refused, &old, has)
                        .map_err(|trouble| {
                        let what = format!("header {:?}, job {wrong}", stored.header);
                        format!("{what}, defects {bits:b}: {trouble}")
                    })?;
                    *tally.entry(number).or_default() += 1;
                }
            }
        }
    }
    let counts = by_number(&tally);
    let due = [0, 1, 2, 3, 4, 5, 6, 11, 12, 13, 14, 17, 18, 19, 20];
    ensure!(tally.keys().eq(&due), "too little in it: {counts}");
    Ok(format!("sets of defects by number ({counts})"))
}

fn check_change_order(
    rng: &mut Rng,
    draft: &Draft,
    bytes: &[u8],
    refused: Refusal,
    old: &[u8],
    has: impl Fn(usize) -> bool,
) -> Result<u32, String> {
    let [set, order, shape, range, never, rates, first, violation, over, table, entries, values, none] =
        std::array::from_fn(has);
    let by_all = rng.one_in(2);
    let job = read_job(&mut Reader { rest: &draft.bytes() }).expect("a job as it should be");
    let count = job.buckets.len();
    let mut book = Book::new();
    if none {
        // Nine grains, and the decoder holds eight.
        book.insert(3, 2);
    }
    let mut old = old.to_vec();
    if violation {
        // In interval 2 more than the decoder holds are taken or sent, or more than a pin
        // lets be taken; or in interval 1 so much is sent that interval 2 has no room.
        match rng.from(0, 3) {
            0 => old[4] = 2,
            1 => old[3] = 3,
            2 => drop(book.insert(1, 1)),
            _ => old[0] = 3,
        }
    }
    if shape {
        match rng.from(0, 4) {
            0 => old.truncate(11),
            1 => old.push(0),
            2 => old[9] = 4,
            3 => old[10] = 3,
            _ => old[0] = 255,
        }
    }
    let mut numbers = set_numbers(&job, &book);
    if set {
        wrong_set(&mut numbers, rng.from(0, 3));
    }
    let mut new = contract(&[0, 1, 5], &[4, 4][..count], &[1, 1][..count]);
    let bucket = rng.from(0, count - 1);
    if over {
        new.sizes[bucket] = 3;
    }
    if rates {
        new.rates = rng.pick(&[[0, 0, 5], [0, 1, 1], [0, 5, 4], [0, 1, 4096]]).to_vec();
    }
    if never {
        new.drains[bucket] = 0;
    }
    if range {
        let drain = count - 1 - bucket;
        match rng.from(0, 7) {
            0 => new.sizes[0] = 256,
            1 => new.sizes[count - 1] = [256, 64][count - 1],
            2 => new.drains[drain] = 4096,
            3 => new.sizes.push(4),
            4 => drop(new.sizes.pop()),
            5 => new.drains.push(0),
            6 => new.rates.clear(),
            _ => new.rates = (0..17).collect(),
        }
    }
    let mut ask = Changing::of(bytes, numbers, &old, 2, &new, rng.pick(&ORDERS));
    if first {
        ask.first = rng.pick(&[0, 4, 5, 256 + 2, 65_536 + 2, 0x8000_0002, u32::MAX]);
    }
    if order {
        ask.order = rng.pick(&WRONG_AIMS);
    }
    let due = first_of(&[
        (refused > 0, refused),
        (set, 6),
        (order, 2),
        (shape, 14),
        (range, 3),
        (never, 17),
        (rates, 4),
        (first, 18),
        (violation, 19),
        (over, 20),
        (table, 11),
        (entries, 12),
        (values, 12),
        (none, 13),
    ]);
    // So many layers of nine rows, and three bytes for each of four intervals.
    let words = 5 * 9 * 5usize.pow(count as u32);
    let lengths = [
        cut_to(words, table, by_all),
        cut_to(12, entries, by_all),
        cut_to(3 + count, values, by_all),
    ];
    let begun = ask.begun();
    if due == 0 || due == 13 {
        let begun = begun.map_err(|number| format!("refused: {number}"))?;
        let found = check_change_in(rng, &ask, &begun, &begun.due(&new), lengths)?;
        same("change", due, found)?;
    } else {
        let before = due < 11 || due == 14 || due > 13;
        same("in order", before.then_some(due), begun.err().map(|number| number as u32))?;
        check_unchanged(rng, &ask, due, lengths)?;
    }
    Ok(due)
}

/// Each number of a new contract at its limits and beyond them, and each two of its refusals
/// together.
fn contract_limits_group() -> Result<String, String> {
    let mut rng = Rng(1);
    let mut tally: BTreeMap<u32, usize> = BTreeMap::new();
    for draft in [job_a(), job_a().doubled(SECOND_A)] {
        let asked = Asked::new(&mut rng, &draft);
        let count = asked.job.buckets.len();
        let right = contract(&[0, 1, 3], &[2, 2][..count], &[1, 2][..count]);
        for (new, due) in contract_cases(&right) {
            let order = rng.pick(&ORDERS);
            // After interval 2 decoder and buckets are empty, so that every size will do.
            let ask = changing(&asked, &Book::new(), &EARLY_A, 2, &new, order);
            let mut check = || -> Result<u32, String> {
                let begun = match ask.begun() {
                    Ok(begun) => begun,
                    Err(number) => {
                        for lengths in [[5000, 12, 7], [0, 0, 0]] {
                            check_unchanged(&mut rng, &ask, number as u32, lengths)?;
                        }
                        check_typed_change(&mut rng, &ask, None)?;
                        return Ok(number as u32);
                    }
                };
                let due = begun.due(&new);
                check_change(&mut rng, &ask, &begun, &due)?;
                check_typed_change(&mut rng, &ask, Some(&due))?;
                Ok(0)
            };
            let found = check().map_err(|trouble| ask.failed(&trouble))?;
            same(&format!("{new:?}"), due, found)?;
            *tally.entry(due).or_default() += 1;
        }
    }
    let counts = by_number(&tally);
    ensure!(tally.keys().eq(&[0, 3, 4, 17]), "too little in it: {counts}");
    Ok(format!("contracts by number ({counts})"))
}

/// Contracts that differ from a right one in a number or two, and the number due; 0 where the
/// contract is taken, be there a plan or not.
fn contract_cases(right: &Contract) -> Vec<(Contract, u32)> {
    let buckets = right.sizes.len();
    let mut cases = vec![(right.clone(), 0)];
    let rated = |rates: Vec<u16>| Contract { rates, ..right.clone() };
    // Some wrong lengths are the right one in eight or sixteen bits.
    for length in [0, 1, 2, 15, 16, 17, 18, 255, 256, 257, 259, 272, 65_536, 65_539] {
        let due = if (1..=16).contains(&length) { 0 } else { 3 };
        cases.push((rated((0..length).map(|rate| rate as u16).collect()), due));
        // With a rate that is not right the number of rates comes first.
        if length > 1 {
            let mut rates: Vec<u16> = (0..length).map(|rate| rate as u16).collect();
            rates[length - 1] = 0;
            cases.push((rated(rates), if due == 0 { 4 } else { 3 }));
        }
    }
    for (rates, due) in [
        (vec![4095], 0),
        (vec![4096], 4),
        (vec![0xffff], 4),
        (vec![0x8000], 4),
        (vec![0, 4095], 0),
        (vec![0, 4096], 4),
        (vec![4095, 4096], 4),
        (vec![4096, 4097], 4),
        (vec![2, 2], 4),
        (vec![0, 0], 4),
        (vec![3, 2], 4),
        (vec![0, 3, 2], 4),
        (vec![0, 3, 3], 4),
        (vec![1, 0, 3], 4),
        // Rising in the lower byte alone, and in the upper one.
        (vec![256, 1], 4),
        (vec![255, 256], 0),
    ] {
        cases.push((rated(rates), due));
    }
    for at in 0..buckets {
        let with = |size: u16, drain: u16| {
            let mut new = right.clone();
            (new.sizes[at], new.drains[at]) = (size, drain);
            new
        };
        let largest = LARGEST[at] as u16;
        let (size, drain) = (right.sizes[at], right.drains[at]);
        for value in [0, 1, 2, largest - 1, largest] {
            cases.push((with(value, drain), 0));
        }
        for value in [largest + 1, largest + 2, 256, 257, 0x0100 + 2, 0x8000, 0xff00, 0xffff] {
            cases.push((with(value, drain), 3));
            // Whatever its drain is.
            cases.push((with(value, 0), 3));
        }
        for value in [1, 2, 255, 256, 257, 0x0f00, 4094, 4095] {
            cases.push((with(size, value), 0));
        }
        cases.push((with(size, 0), 17));
        for value in [4096, 4097, 0x1000 + 256, 0x8000, 0xf001, 0xffff] {
            cases.push((with(size, value), 3));
        }
        // 17 before 4, and the other bucket before that.
        let faulty = |mut new: Contract| {
            new.rates = vec![3, 2];
            new
        };
        cases.push((faulty(with(size, 0)), 17));
        cases.push((faulty(with(largest + 1, drain)), 3));
        for (other, largest) in LARGEST.iter().enumerate().take(buckets) {
            let mut new = with(size, 0);
            new.sizes[other] = *largest as u16 + 1;
            cases.push((faulty(new), 3));
            if other != at {
                let mut new = with(size, 0);
                new.drains[other] = 4096;
                cases.push((new, 3));
            }
        }
    }
    // Another number of sizes or drains than there are buckets.
    for length in [0, 1, 2, 3, 4, 256 + buckets, 65_536 + buckets] {
        if length == buckets {
            continue;
        }
        let resized = |list: &[u16]| {
            let mut list = list.to_vec();
            list.resize(length, 1);
            list
        };
        let (sizes, drains) = (resized(&right.sizes), resized(&right.drains));
        cases.push((Contract { sizes: sizes.clone(), ..right.clone() }, 3));
        cases.push((Contract { drains: drains.clone(), ..right.clone() }, 3));
        cases.push((Contract { sizes, drains: drains.clone(), ..right.clone() }, 3));
        // One that is too many or too few is not looked at by itself.
        let never = drains.iter().map(|_| 0).collect();
        cases.push((Contract { drains: never, rates: vec![2, 2], ..right.clone() }, 3));
    }
    cases
}

/// Levels of each bucket just at their new size, one above it and one below it, on lines in
/// which they stay as they are. All of both buckets is tried together.
fn carried_levels_group() -> Result<String, String> {
    let mut rng = Rng(1);
    let mut tally: BTreeMap<u32, usize> = BTreeMap::new();
    let levels = |largest: u16| [0, 1, 2, 3, largest / 2, largest - 1, largest];
    // What is sent drains at once; no unit takes a grain.
    let line =
        |start: u16| Draft::new([0, 3, 255, 1, 0, start], &[0, 1], &vec![vec![(0, 5), (1, 4)]; 3]);
    let mut check = |draft: &Draft, sizes: &[u16], over: bool| -> Checked {
        let asked = Asked::new(&mut rng, draft);
        let new = contract(&[0, 1], sizes, &vec![1; sizes.len()]);
        for first in 1..=2 {
            let old = [1, 1, 0].repeat(3);
            let order = rng.pick(&ORDERS);
            let ask = changing(&asked, &Book::new(), &old, first, &new, order);
            let number = match ask.begun() {
                Ok(begun) => check_change(&mut rng, &ask, &begun, &begun.due(&new)),
                Err(number) => {
                    let refused = check_unchanged(&mut rng, &ask, number as u32, [5000, 9, 5]);
                    refused.map(|_| number as u32)
                }
            };
            let number = number.map_err(|trouble| ask.failed(&trouble))?;
            same(
                &format!("sizes {sizes:?}, {:?}", draft.header),
                if over { 20 } else { 0 },
                number,
            )?;
            *tally.entry(number).or_default() += 1;
        }
        Ok(())
    };
    let near = |level: u16, largest: u16| -> Vec<u16> {
        let sizes = [level.checked_sub(1), Some(level), Some(level + 1)];
        sizes.into_iter().flatten().filter(|size| *size <= largest).collect()
    };
    for one in levels(255) {
        for size in near(one, 255) {
            check(&line(one), &[size], size < one)?;
        }
    }
    for (one, other) in levels(30).into_iter().flat_map(|one| levels(63).map(|two| (one, two))) {
        if small() && one > 1 && other > 1 && one != other {
            continue;
        }
        let draft = line(one).doubled([63, 1, other]);
        for size in near(one, 255) {
            for second in near(other, 63) {
                check(&draft, &[size, second], size < one || second < other)?;
            }
        }
    }
    Ok(format!("changes by number ({})", by_number(&tally)))
}

/// A change after every interval of some jobs, and after none that they have.
fn first_intervals_group() -> Result<String, String> {
    let mut rng = Rng(1);
    let (mut within, mut outside) = (0, 0);
    let mut drafts = vec![
        job_a(),
        job_a().doubled(SECOND_A),
        changing_job().0,
        even_job(1, [0, 2, 2, 1, 0, 0]),
        even_job(2, [0, 2, 2, 1, 0, 0]),
        even_job(1, [1, 2, 2, 1, 0, 0]),
        even_job(1, [64, 70, 2, 1, 0, 0]),
        even_job(40, [3, 4, 2, 1, 0, 0]),
    ];
    if !small() {
        drafts.push(even_job(512, [64, 70, 1, 1, 0, 0]));
        drafts.push(even_job(300, [0, 3, 3, 1, 0, 0]));
    }
    for draft in drafts {
        let asked = Asked::new(&mut rng, &draft);
        let intervals = asked.intervals() as u32;
        let Some(old) = dynamic(Order::Early, &asked.job, &asked.pins) else {
            return Err(format!("no plan for {:?}", draft.header));
        };
        let new = Contract::of(&asked.job);
        let far = [256, 257, 65_536, 65_537, 0x0100_0001, 0x8000_0000, 0x8000_0001, u32::MAX];
        let near = (0..=intervals + 3).filter(|first| intervals < 100 || first % 23 < 2);
        for first in near.chain([intervals - 1, intervals, intervals + 1]).chain(far) {
            let ask = changing(&asked, &Book::new(), &plan_bytes(&old), first, &new, Order::Early);
            let mut check = || -> Checked {
                if (1..intervals).contains(&first) {
                    let begun = ask.begun().map_err(|number| format!("refused: {number}"))?;
                    let due = begun.due(&new);
                    // Nothing changes, and so the plan remains.
                    same("the plan", Some(&old), due.plans[0].as_ref())?;
                    within += 1;
                    return check_change(&mut rng, &ask, &begun, &due).map(|_| ());
                }
                outside += 1;
                same("first", Some(18), ask.begun().err())?;
                let lengths = rng.pick(&[[0; 3], [5000, 2000, 7]]);
                check_unchanged(&mut rng, &ask, 18, lengths)?;
                check_typed_change(&mut rng, &ask, None)
            };
            check().map_err(|trouble| {
                format!("header {:?}, first {first}: {trouble}", draft.header)
            })?;
        }
    }
    Ok(format!("{within} intervals within a programme, {outside} not"))
}

/// Lists of every length.
fn change_lengths_group() -> Result<String, String> {
    let mut rng = Rng(1);
    let mut lists = 0;
    for draft in [job_a(), job_a().doubled(SECOND_A)] {
        let asked = Asked::new(&mut rng, &draft);
        let count = asked.job.buckets.len();
        // Tables that are larger and smaller than the job's own, and with no plan.
        for (sizes, rates) in [([2, 2], vec![0, 1, 3]), ([5, 4], vec![0, 1]), ([2, 2], vec![1])] {
            let new = contract(&rates, &sizes[..count], &[1, 2][..count]);
            let ask = changing(&asked, &Book::new(), &EARLY_A, 1, &new, rng.pick(&ORDERS));
            let begun = ask.begun().map_err(|number| format!("refused: {number}"))?;
            let due = begun.due(&new);
            let needs = begun.needs(&new);
            for (which, need) in needs.into_iter().enumerate() {
                let step = if small() { 13 } else { 1 };
                for length in (0..need).step_by(step).chain(need - 1..need + 4) {
                    // The others are as long as is needed, longer, or too short as well.
                    let mut lengths = needs.map(|need| need + slack(&mut rng));
                    lengths[which] = length;
                    let number = first_of(&[(lengths[0] < needs[0], 11), (length < need, 12)]);
                    let checked = match number {
                        0 => check_change_in(&mut rng, &ask, &begun, &due, lengths).map(|_| ()),
                        _ => check_unchanged(&mut rng, &ask, number, lengths),
                    };
                    checked.map_err(|trouble| format!("lists of {lengths:?}: {trouble}"))?;
                    lists += 1;
                    // With a table that is too short the others are not looked at.
                    let short = [needs[0] - 1, lengths[1], lengths[2]];
                    check_unchanged(&mut rng, &ask, 11, short)?;
                }
            }
        }
    }
    Ok(format!("{lists} lists"))
}

// ---------------------------------------------------------------------------
// Changes of random jobs.
// ---------------------------------------------------------------------------

/// A plan of which the first entries mostly go well, and after how many of them the contract
/// changes. In a job of one interval it cannot change.
fn random_old_plan(rng: &mut Rng, job: &Job, pins: &Pins) -> (Plan, usize) {
    let first = rng.from(1, (job.intervals() - 1).max(1));
    let best = match rng.from(0, 3) {
        0 => dynamic(rng.pick(&ORDERS), job, pins),
        _ => None,
    };
    let mut plan = best.unwrap_or_else(|| random_plan(rng, job, pins));
    for _ in 0..6 {
        if carried(job, pins, &plan, first).is_some() {
            break;
        }
        plan = match rng.one_in(2) {
            true => tight_plan(rng, job, pins, 0),
            false => random_plan(rng, job, pins),
        };
    }
    (plan, first)
}

/// A change of the job's contract after one of its intervals. `most` bounds the new sizes and
/// the number of rates.
fn random_change(rng: &mut Rng, asked: &Asked, most: [usize; 2]) -> Changing {
    let (job, pins) = (&asked.job, &asked.pins);
    let (plan, first) = random_old_plan(rng, job, pins);
    let (_, levels) = carried(job, pins, &plan, first).unwrap_or((0, job.start_levels()));
    let new = random_contract(rng, &Contract::of(job), &levels, most[0], most[1]);
    let order = rng.pick(&ORDERS);
    changing(asked, &book_of(pins), &plan_bytes(&plan), first as u32, &new, order)
}

/// How often each number was due, and what else the changes had in them.
#[derive(Default)]
struct Changes {
    by_number: BTreeMap<u32, usize>,
    /// More rates than before, and fewer; a larger table, and a smaller one.
    rates: [usize; 2],
    tables: [usize; 2],
    /// The contract stays, and then the plan does, if it was the best.
    same: usize,
    /// Pins of the first units, and of the others.
    pins: [usize; 2],
    ties: usize,
    told: Told,
}

impl Changes {
    fn count(&mut self, asked: &Changing, number: u32, begun: Option<&Begun>) {
        *self.by_number.entry(number).or_default() += 1;
        let Some(begun) = begun else { return };
        let own = Contract::of(&begun.job);
        let new = &asked.contract;
        self.rates[0] += (new.rates.len() > own.rates.len()) as usize;
        self.rates[1] += (new.rates.len() < own.rates.len()) as usize;
        let words = [begun.needs(new)[0], begun.job.words()];
        self.tables[0] += (words[0] > words[1]) as usize;
        self.tables[1] += (words[0] < words[1]) as usize;
        self.same += (own == *new) as usize;
        let gone = begun.first.saturating_sub(begun.job.delay);
        let [before, behind] = [&begun.pins[..gone], &begun.pins[gone..]];
        self.pins[0] += before.iter().any(Option::is_some) as usize;
        self.pins[1] += behind.iter().any(Option::is_some) as usize;
    }

    fn all(&self) -> usize {
        self.by_number.values().sum()
    }

    fn show(&self) -> String {
        let Changes { rates, tables, same, pins, ties, .. } = self;
        format!(
            "{} changes by number ({}); {} with more rates and {} with fewer, {} with a larger \
             table and {} with a smaller one, {same} with the same contract, {} with pins before \
             and {} behind, {ties} with several equal plans{}",
            self.all(),
            by_number(&self.by_number),
            rates[0],
            rates[1],
            tables[0],
            tables[1],
            pins[0],
            pins[1],
            self.told.show()
        )
    }

    fn worthwhile(&self, numbers: &[u32], ties: usize) -> bool {
        let often = |number| self.by_number.get(number).is_some_and(|c| c * 60 > self.all());
        let of = [self.rates, self.tables, self.pins].concat();
        numbers.iter().all(often)
            && of.iter().all(|count| count * 30 > self.all())
            && self.same * 100 > self.all()
            && self.ties >= ties
    }
}

/// Says of each mistaken rule whether the change has another answer under it. `plan` is the
/// whole plan that is due.
fn change_mistakes(
    order: Order,
    new: &Contract,
    begun: &Begun,
    plan: Option<&Plan>,
) -> Vec<Mistake> {
    let Begun { job, pins, first, levels, .. } = begun;
    let own = Contract::of(job);
    let other = |new: &Contract, pins: &Pins, levels: (i64, Levels)| {
        let (rest, pins) = rest_of(job, pins, *first, new, levels);
        dynamic(order, &rest, &pins).map(|rest| begun.whole(rest)).as_ref() != plan
    };
    let start = (job.start_decoder, job.start_levels());
    let free = vec![None; pins.len()];
    let mut mistakes = vec![
        ("the rest from the starting levels", other(new, pins, start)),
        ("the decoder from its starting level", other(new, pins, (start.0, levels.1))),
        ("the buckets from their starting levels", other(new, pins, (levels.0, start.1))),
        (
            "the old rates",
            other(&Contract { rates: own.rates.clone(), ..new.clone() }, pins, *levels),
        ),
        (
            "the old sizes",
            other(&Contract { sizes: own.sizes.clone(), ..new.clone() }, pins, *levels),
        ),
        (
            "the old drains",
            other(&Contract { drains: own.drains.clone(), ..new.clone() }, pins, *levels),
        ),
        ("the pins of the rest forgotten", other(new, &free, *levels)),
    ];
    let Some(plan) = plan else { return mistakes };
    let best = dynamic(order, job, pins);
    let anew = best.is_some_and(|best| best[..*first] != plan[..*first]);
    let sum = |plan: &[Pair], rates: &[u16]| -> Option<u32> {
        plan.iter().map(|entry| rates.get(entry.0).map(|&rate| rate as u32)).sum()
    };
    let (before, after) = plan.split_at(*first);
    let unused = |old: &Contract, new: &Contract| {
        // The levels of the right contracts, and the drains of others.
        let (mut levels, mut sums) = (job.start_levels(), [0; MOST_BUCKETS]);
        let right = [job.clone(), new.put(job, &[0; MOST_BUCKETS])];
        for (t, entry) in (1..).zip(plan) {
            let (right, drains) = match t <= *first {
                true => (&right[0], &old.drains),
                false => (&right[1], &new.drains),
            };
            let sent = right.rates[entry.0];
            for at in 0..job.buckets.len() {
                let drain = drains[at] as i64;
                sums[at] += (drain - levels[at] - sent).max(0);
                levels[at] = bucket_step(&right.buckets[at], levels[at], sent).0;
            }
        }
        sums
    };
    let drained =
        |drains: &[u16], of: &Contract| Contract { drains: drains.to_vec(), ..of.clone() };
    let due = unused(&own, new);
    mistakes.extend([
        ("the first entries planned anew", anew),
        ("all by the new rates", sum(before, &new.rates) != sum(before, &own.rates)),
        ("all by the old rates", sum(after, &new.rates) != sum(after, &own.rates)),
        ("all by the new drains", unused(&drained(&new.drains, &own), new) != due),
    ]);
    mistakes
}

/// Tiny jobs: every continuation and every completion is tried.
fn tiny_changes_group(seed: u64, asks: bool) -> Result<String, String> {
    let mut rng = Rng(seed);
    let mut changes = Changes::default();
    for index in 1..=scaled(1500) {
        let draft = match index % 8 {
            0 => random_job(&mut rng, &TINY),
            1 => random_tiny_double(&mut rng),
            2 => random_tight_job(&mut rng, &TIGHT[0]),
            3 | 4 => random_double_job(&mut rng, &DOUBLE[0]),
            5 => random_level_job(&mut rng, &EVEN_SHAPES[0]),
            _ => random_equal_job(&mut rng, &EQUAL[0]),
        };
        let asked = Asked::new(&mut rng, &draft);
        let ask = random_change(&mut rng, &asked, [6, 4]);
        let within = (1..asked.intervals() as u32).contains(&ask.first);
        let plans = continuations(&asked.job, ask.first as usize, &ask.contract);
        if within && plans.map_or(true, |plans| plans > ENUMERATION_LIMIT) {
            continue;
        }
        let mut check = || -> Checked {
            let begun = match ask.begun() {
                Ok(begun) => begun,
                Err(number) => {
                    changes.count(&ask, number as u32, None);
                    check_unchanged(&mut rng, &ask, number as u32, [3000, 20, 7])?;
                    return check_typed_change(&mut rng, &ask, None);
                }
            };
            let (tried, equals) = begun.tried(&ask.contract);
            let due = begun.due(&ask.contract);
            same("the table of the rest", &tried.table, &due.table)?;
            same("plans read off", &tried.plans, &due.plans)?;
            let (rest, pins) = begun.rest(&ask.contract);
            let carried = dynamics(&rest, &pins).map(|plan| Some(begun.whole(plan?)));
            same("dynamic program", &tried.plans, &carried)?;
            let number = check_change(&mut rng, &ask, &begun, &tried)?;
            check_typed_change(&mut rng, &ask, Some(&tried))?;
            // In the other order too.
            let other = Changing { order: 1 - ask.order, ..ask.clone() };
            check_change(&mut rng, &other, &begun, &tried)?;
            changes.count(&ask, number, Some(&begun));
            changes.ties += (equals > 1) as usize;
            let order = ORDERS[ask.order as usize];
            let plan = tried.plans[ask.order as usize].as_ref();
            changes.told.add(&change_mistakes(order, &ask.contract, &begun, plan));
            Ok(())
        };
        check().map_err(|trouble| format!("seed {seed}, job {index}: {}", ask.failed(&trouble)))?;
    }
    let counts = changes.show();
    let worthwhile = changes.worthwhile(&[0, 13, 19, 20], 60) && changes.told.each(60);
    ensure!(worthwhile || !asks, "too little in it: {counts}");
    Ok(counts)
}

/// Jobs too large to try everything. The rest is written as a job of its own, and the library
/// plans and replays it to the same; where the contract stays, the rest of the best plan does.
fn larger_changes_group(seed: u64, asks: bool) -> Result<String, String> {
    let mut rng = Rng(seed);
    let mut changes = Changes::default();
    let (mut rests, mut stays) = (0, 0);
    for index in 1..=scaled(400) {
        let draft = random_seen_job(&mut rng, index);
        let asked = Asked::new(&mut rng, &draft);
        let most = if asked.intervals() > 100 { [7, 4] } else { [16, 16] };
        let mut ask = random_change(&mut rng, &asked, most);
        let order = ORDERS[ask.order as usize];
        let best = dynamic(order, &asked.job, &asked.pins).filter(|_| rng.one_in(6));
        if let Some(best) = &best {
            ask.old = plan_bytes(best);
            ask.contract = Contract::of(&asked.job);
        }
        let mut check = || -> Checked {
            let begun = match ask.begun() {
                Ok(begun) => begun,
                Err(number) => {
                    changes.count(&ask, number as u32, None);
                    return check_unchanged(&mut rng, &ask, number as u32, [3000, 2000, 7]);
                }
            };
            let due = begun.due(&ask.contract);
            let number = check_change(&mut rng, &ask, &begun, &due)?;
            changes.count(&ask, number, Some(&begun));
            let plan = &due.plans[ask.order as usize];
            if let Some(best) = &best {
                same("the best plan, under the same contract", Some(best), plan.as_ref())?;
                stays += 1;
            }
            let (rest, pins) = begun.rest(&ask.contract);
            let carried = dynamic(order, &rest, &pins).map(|rest| begun.whole(rest));
            same("dynamic program", plan, &carried)?;
            if begun.job.words() < 3000 {
                check_typed_change(&mut rng, &ask, Some(&due))?;
            }
            check_rest(&mut rng, &rest, &pins, &due.table, order, plan, begun.first)?;
            rests += 1;
            changes.told.add(&change_mistakes(order, &ask.contract, &begun, plan.as_ref()));
            Ok(())
        };
        check().map_err(|trouble| format!("seed {seed}, job {index}: {}", ask.failed(&trouble)))?;
    }
    let counts = format!("{}; {rests} rests as jobs, {stays} plans that stay", changes.show());
    let worthwhile = changes.worthwhile(&[0, 13, 20], 0) && stays * 40 > rests;
    ensure!(worthwhile && changes.told.each(40) || !asks, "too little in it: {counts}");
    Ok(counts)
}

/// The library plans the rest as a job of its own to the same table and the same entries, and
/// follows them without a violation.
fn check_rest(
    rng: &mut Rng,
    rest: &Job,
    pins: &Pins,
    table: &[u32],
    order: Order,
    plan: &Option<Plan>,
    first: usize,
) -> Checked {
    let draft = Lists::of_job(rest).draft();
    let calls = fresh_calls(rng, pins);
    let asked = Asked::with(draft.bytes(), rest.clone(), calls);
    let plan = plan.as_ref().map(|plan| plan[first..].to_vec());
    check_plan_in(Aim::Total, order, rng, &asked, table, &plan)
        .map_err(|trouble| format!("the rest as a job: {trouble}"))
}

/// Plans with a violation, and changes just before its interval, just after it and
/// elsewhere: it counts exactly where it is among the first intervals.
fn violated_changes_group(seed: u64, asks: bool) -> Result<String, String> {
    let mut rng = Rng(seed);
    // By violation: how often just in the last of the first intervals, and in the next.
    let mut tally = [[0; 2]; 6];
    let mut by: BTreeMap<u32, usize> = BTreeMap::new();
    let jobs = scaled(800);
    for index in 1..=jobs {
        let draft = match index % 5 {
            0 => random_job(&mut rng, &MEDIUM),
            1 => random_medium_double(&mut rng),
            2 => random_double_job(&mut rng, &DOUBLE[1]),
            3 => random_tight_job(&mut rng, &TIGHT[1]),
            _ => random_tiny_double(&mut rng),
        };
        let asked = Asked::new(&mut rng, &draft);
        let plan = match rng.one_in(2) {
            true => tight_plan(&mut rng, &asked.job, &asked.pins, 4),
            false => random_plan(&mut rng, &asked.job, &asked.pins),
        };
        let followed = follow(&asked.job, &asked.pins, &plan);
        let [violation, at] = [followed.values[0], followed.values[1]].map(|value| value as usize);
        let last = asked.intervals() - 1;
        for first in [at.saturating_sub(1), at, rng.from(1, last.max(1))] {
            if !(1..=last).contains(&first) {
                continue;
            }
            // Every level fits.
            let mut new = Contract::of(&asked.job);
            new.drains.iter_mut().for_each(|drain| *drain = rng.from(1, 9) as u16);
            let (book, order) = (book_of(&asked.pins), rng.pick(&ORDERS));
            let entries = plan_bytes(&plan);
            let ask = changing(&asked, &book, &entries, first as u32, &new, order);
            let mut check = || -> Result<u32, String> {
                let begun = ask.begun();
                let breach = violation > 0 && at <= first;
                same("19", breach, begun.as_ref().err() == Some(&19))?;
                let Ok(begun) = begun else {
                    check_unchanged(&mut rng, &ask, 19, [3000, 60, 5])?;
                    return Ok(19);
                };
                let levels = &followed.levels[(1 + new.sizes.len()) * (first - 1)..];
                let after = [&[begun.levels.0], &begun.levels.1[..new.sizes.len()]].concat();
                let after: Vec<u16> = after.into_iter().map(|level| level as u16).collect();
                same("the levels after the first", &after, &levels[..after.len()].to_vec())?;
                check_change(&mut rng, &ask, &begun, &begun.due(&new))
            };
            let number = check()
                .map_err(|trouble| format!("seed {seed}, job {index}: {}", ask.failed(&trouble)))?;
            *by.entry(number).or_default() += 1;
            if violation > 0 && (first == at || first + 1 == at) {
                tally[violation][(first < at) as usize] += 1;
            }
        }
    }
    let names =
        ["decoder short", "decoder over", "bucket over", "pin not held", "second bucket over"];
    let each: Vec<String> = (names.iter().zip(&tally[1..]))
        .map(|(name, [last, next])| format!("{name} {last} and {next}"))
        .collect();
    let counts = format!(
        "{jobs} jobs, changes by number ({}); in the last of the first intervals and in the \
         next: {}",
        by_number(&by),
        each.join(", ")
    );
    let worthwhile = tally[1..].iter().flatten().all(|count| count * 100 > jobs);
    ensure!(worthwhile || !asks, "too little in it: {counts}");
    Ok(counts)
}

/// Changes of tiny jobs with something wrong in one place or a few, and lists of any length.
fn harmed_changes_group(seed: u64, asks: bool) -> Result<String, String> {
    let mut rng = Rng(seed);
    let mut tally: BTreeMap<u32, usize> = BTreeMap::new();
    let inputs = scaled(12_000);
    for index in 1..=inputs {
        let draft = match index % 3 {
            0 => random_tiny_double(&mut rng),
            1 => random_double_job(&mut rng, &DOUBLE[0]),
            _ => random_job(&mut rng, &TINY),
        };
        let asked = Asked::new(&mut rng, &draft);
        let mut ask = random_change(&mut rng, &asked, [6, 4]);
        for _ in 0..rng.pick(&[0, 1, 1, 1, 2, 3]) {
            harm_change(&mut rng, &asked.job, &mut ask);
        }
        ask.old.shrink_to_fit();
        ask.set.shrink_to_fit();
        let begun = ask.begun();
        // A harmed job may call for a table that is too large to compare.
        let most = begun.as_ref().map_or(0, |begun| begun.needs(&ask.contract)[0]);
        let due = begun.as_ref().ok().filter(|_| most < 20_000);
        let due = due.map(|begun| begun.due(&ask.contract));
        let needs = begun.as_ref().map_or([20; 3], |begun| begun.needs(&ask.contract));
        let lengths = needs.map(|need| match rng.from(0, 11) {
            0 => need - 1,
            1 => rng.from(0, need),
            2..=4 => need,
            _ => need + rng.from(1, 9),
        });
        let lengths = [lengths[0].min(20_000), lengths[1], lengths[2]];
        let short = (0..3).map(|at| lengths[at] < needs[at]).collect::<Vec<_>>();
        let mut check = || -> Result<u32, String> {
            let begun = match &begun {
                Ok(begun) if !short.contains(&true) => begun,
                Ok(_) => {
                    let number = first_of(&[(short[0], 11), (short[1] || short[2], 12)]);
                    check_unchanged(&mut rng, &ask, number, lengths)?;
                    return Ok(number);
                }
                Err(number) => {
                    check_unchanged(&mut rng, &ask, *number as u32, lengths)?;
                    check_typed_change(&mut rng, &ask, None)?;
                    return Ok(*number as u32);
                }
            };
            let due = due.as_ref().expect("a table that is not too large");
            if begun.job.words() < 3000 {
                check_typed_change(&mut rng, &ask, Some(due))?;
            }
            check_change_in(&mut rng, &ask, begun, due, lengths)
        };
        let number = check()
            .map_err(|trouble| format!("seed {seed}, input {index}: {}", ask.failed(&trouble)))?;
        *tally.entry(number).or_default() += 1;
    }
    let counts = format!("{inputs} inputs by number ({})", by_number(&tally));
    let often = |number: &u32| tally.get(number).is_some_and(|count| count * 400 > inputs);
    let numbers = [0, 1, 2, 3, 4, 5, 6, 11, 12, 13, 14, 17, 18, 19, 20];
    ensure!(numbers.iter().all(often) || !asks, "too little in it: {counts}");
    Ok(counts)
}

/// Changes something in what a change is asked of.
fn harm_change(rng: &mut Rng, job: &Job, ask: &mut Changing) {
    let limits: [u16; 14] = [0, 1, 2, 3, 16, 62, 63, 64, 254, 255, 256, 4095, 4096, 0xffff];
    match rng.from(0, 15) {
        0 | 1 => harm(rng, &mut ask.bytes),
        2 => harm_head(rng, &mut ask.bytes),
        3 | 4 if ask.set.len() == SET_NUMBERS => harm_set(rng, job, &mut ask.set),
        3..=5 => change_length(rng, &mut ask.set),
        6 | 7 => harm_plan(rng, &mut ask.old, job.choices(), ENTRY_BYTES),
        8 => {
            let near = [0, 1, ask.first + 1, ask.first.wrapping_sub(1), job.intervals() as u32];
            ask.first = rng.pick(&[near.to_vec(), vec![u32::MAX, ask.first + 65_536]].concat());
        }
        9 => ask.order = rng.pick(&WRONG_AIMS),
        10 => change_one(rng, &mut ask.contract.rates, near),
        11 => change_one(rng, &mut ask.contract.rates, |rng, _| rng.pick(&limits)),
        12 => change_one(rng, &mut ask.contract.sizes, |rng, _| rng.pick(&limits)),
        13 => change_one(rng, &mut ask.contract.sizes, near),
        14 => change_one(rng, &mut ask.contract.drains, |rng, _| rng.pick(&limits)),
        _ => {
            let Contract { rates, sizes, drains } = &mut ask.contract;
            match rng.from(0, 4) {
                0 => change_length(rng, rates),
                1 => change_length(rng, sizes),
                2 => change_length(rng, drains),
                3 => *rates = (0..rng.pick(&[0, 1, 15, 16, 17, 18])).collect(),
                _ => drains.fill(0),
            }
        }
    }
}

/// Trial jobs whose contract changes on the way, against plain loops over levels, rates and
/// choices. The last numbers are the state and after how many intervals it changes.
fn large_changes_group() -> Result<String, String> {
    let few = Size { units: 48, delay: 8, decoder: 63, bucket: 15, rates: 8, choices: 8 };
    let middle = Size { units: 120, delay: 8, decoder: 60, bucket: 60, rates: 16, choices: 31 };
    let long = Size { units: 512, delay: 64, decoder: 31, bucket: 3, ..few };
    let wide = Size { units: 8, rates: 16, choices: 1000, ..few };
    let sizes = [
        ("a trial job", middle, None, 1, 60, contract(&[0, 3, 7, 12, 20, 31], &[80], &[17])),
        ("many units", long, None, 70, 300, contract(&[0, 1, 5, 12, 21, 30], &[9], &[18])),
        ("a thousand choices", wide, None, 1, 9, contract(&[0, 10, 20, 40], &[40], &[25])),
        (
            "two buckets",
            few,
            Some([31, 18, 20]),
            1,
            4,
            contract(&[0, 8, 18, 33], &[30, 40], &[15, 19]),
        ),
    ];
    let mut rng = Rng(8);
    let (mut words, mut changes) = (0, 0);
    for (name, size, second, state, first, new) in &sizes {
        let mut check = || -> Checked {
            let draft = large_trial(size, *second, *state)?;
            let asked = Asked::new(&mut rng, &draft);
            let (job, pins) = (&asked.job, &asked.pins);
            let table = fast_table(job, pins);
            for (order, old) in ORDERS.into_iter().zip(read_off(job, pins, &table)) {
                let old = plan_bytes(&old.ok_or("no plan")?);
                let ask = changing(&asked, &book_of(pins), &old, *first, new, order);
                let begun = ask.begun().map_err(|number| format!("refused: {number}"))?;
                let due = begun.due(new);
                let (rest, pins) = begun.rest(new);
                let plain = loops_table(&rest, &pins, NO_LIMIT);
                ensure!(plain == due.table, "plain loops give another table");
                same("a large change", 0, check_change(&mut rng, &ask, &begun, &due)?)?;
                words += due.table.len();
                changes += 1;
            }
            Ok(())
        };
        check().map_err(|trouble| format!("{name}: {trouble}"))?;
    }
    Ok(format!("{} jobs, {changes} changes, {words} words", sizes.len()))
}

// ---------------------------------------------------------------------------
// What a larger bucket brings: what is asked, and what is due.
// ---------------------------------------------------------------------------

/// What a list for larger buckets is asked of. Anything in it may be wrong.
#[derive(Clone)]
struct Sizing {
    bytes: Vec<u8>,
    set: Vec<u32>,
}

impl Sizing {
    /// With these pins. Numbers may stand behind the set.
    fn of(rng: &mut Rng, asked: &Asked, book: &Book) -> Sizing {
        let mut set = set_numbers(&asked.job, book);
        set.extend((0..slack(rng)).map(|_| rng.next() as u32).collect::<Vec<u32>>());
        set.shrink_to_fit();
        Sizing { bytes: asked.bytes.clone(), set }
    }

    /// What stands if nothing refuses the list before the lists are looked at, else the first
    /// number due.
    fn begun(&self) -> Result<(Job, Book), Refusal> {
        let job = read_job(&mut Reader { rest: &self.bytes })?;
        let book = read_set(&job, &self.set).ok_or(6)?;
        Ok((job, book))
    }

    /// What to type again to see a failure.
    fn failed(&self, trouble: &str) -> String {
        let (numbers, pins) = (self.set.len(), shown_pins(&self.set));
        format!("{trouble}\n  job {}\n  {numbers} numbers, pins {pins:?}", hex(&self.bytes))
    }
}

/// The lengths needed: the table of a first bucket of 255, and a number for each size.
fn size_needs(job: &Job) -> [usize; 2] {
    let [first, inner @ ..] = &job.buckets[..] else { panic!("no bucket") };
    let rows = (job.intervals() + 1) * (job.decoder_size as usize + 1);
    let width: usize = inner.iter().map(|bucket| bucket.size as usize + 1).product();
    [rows * 256 * width, 256 - first.size as usize]
}

/// What is due: a number for each size, and the table of the largest.
struct Listed {
    totals: Vec<u32>,
    table: Vec<u32>,
}

impl Listed {
    fn of(job: &Job, pins: &Pins, totals: Vec<u32>) -> Listed {
        Listed { totals, table: fast_table(&enlarged(job, 255), pins) }
    }

    /// As the typed functions give it.
    fn typed(&self, job: &Job) -> Vec<(u16, Option<u32>)> {
        let total = |total: &u32| (*total != NEVER).then_some(*total);
        (job.buckets[0].size as u16..).zip(self.totals.iter().map(total)).collect()
    }
}

/// The word of layer 0 at the starting levels, in a table with a first bucket of this size.
fn size_by_table(job: &Job, pins: &Pins, size: i64) -> u32 {
    let job = enlarged(job, size);
    fast_table(&job, pins)[job.word(0, job.start_decoder, &job.start_levels())]
}

/// A table for each size.
fn sizes_by_tables(job: &Job, pins: &Pins) -> Vec<u32> {
    larger_sizes(job).map(|size| size_by_table(job, pins, size)).collect()
}

/// The same with fewer tables. A plan stays admissible in a larger bucket: so where two sizes
/// have the same total, all between them have it.
fn sizes_by_halves(job: &Job, pins: &Pins) -> Vec<u32> {
    let sizes: Vec<i64> = larger_sizes(job).collect();
    let last = sizes.len() - 1;
    let total = |at: usize| size_by_table(job, pins, sizes[at]);
    let mut totals = vec![NEVER; sizes.len()];
    (totals[0], totals[last]) = (total(0), total(last));
    let mut parts = vec![(0, last)];
    while let Some((low, high)) = parts.pop() {
        if totals[low] == totals[high] {
            let same = totals[low];
            totals[low..high].fill(same);
        } else if high - low > 1 {
            let middle = (low + high) / 2;
            totals[middle] = total(middle);
            parts.extend([(low, middle), (middle, high)]);
        }
    }
    totals
}

/// The places at which a number is less than the one before it.
fn falls(totals: &[u32]) -> Vec<usize> {
    (1..totals.len()).filter(|&at| totals[at] < totals[at - 1]).collect()
}

/// The lists that are lent, the set among them.
struct SizeLists {
    set: Lent<u32>,
    table: Lent<u32>,
    totals: Lent<u32>,
}

impl SizeLists {
    /// `lengths`: table, totals.
    fn new(rng: &mut Rng, ask: &Sizing, lengths: [usize; 2]) -> SizeLists {
        SizeLists {
            set: lent_with(rng, &ask.set),
            table: Lent::new(rng, lengths[0]),
            totals: Lent::new(rng, lengths[1]),
        }
    }

    fn list(&mut self, ask: &Sizing) -> u32 {
        numbers::sizes(&ask.bytes, self.set.held(), self.table.list(), self.totals.list())
    }

    fn wrote(&self, ask: &Sizing, totals: &[u32], table: &[u32]) -> Checked {
        self.totals.wrote("totals", totals)?;
        self.table.wrote("table", table)?;
        self.set.wrote("set", &ask.set)
    }
}

/// The list is refused by this number, and writes nothing. `lengths`: table, totals.
fn check_unlisted(rng: &mut Rng, ask: &Sizing, number: u32, lengths: [usize; 2]) -> Checked {
    let mut lent = SizeLists::new(rng, ask, lengths);
    let what = format!("sizes in lists of {lengths:?}");
    same(&what, number, lent.list(ask))?;
    lent.wrote(ask, &[], &[]).map_err(|trouble| format!("{what}: {trouble}"))
}

/// Asks for the list with each of the lists one short, then with lists of just enough or
/// somewhat more, and compares all that is written.
fn check_listed(rng: &mut Rng, ask: &Sizing, listed: &Listed) -> Checked {
    let (job, _) = ask.begun().map_err(|number| format!("refused: {number}"))?;
    let needs = size_needs(&job);
    same("what is needed", needs, [listed.table.len(), listed.totals.len()])?;
    let mut falling = listed.totals.windows(2).map(|pair| pair[1] <= pair[0]);
    ensure!(falling.all(|falls| falls), "a number exceeds the one before it");
    check_unlisted(rng, ask, 11, [needs[0] - 1, needs[1]])?;
    check_unlisted(rng, ask, 12, [needs[0], needs[1] - 1])?;
    let lengths = needs.map(|need| need + slack(rng));
    check_listed_in(rng, ask, listed, lengths)
}

/// The same in lists of these lengths, which are long enough.
fn check_listed_in(rng: &mut Rng, ask: &Sizing, listed: &Listed, lengths: [usize; 2]) -> Checked {
    let mut lent = SizeLists::new(rng, ask, lengths);
    same("sizes", 0, lent.list(ask))?;
    lent.wrote(ask, &listed.totals, &listed.table)
}

/// Each of these sizes is put in the place of the job's own, and the job planned with the same
/// pins: the number is the total of that, or there is no plan. The table of 255 is the last
/// one.
fn check_each_size(
    rng: &mut Rng,
    ask: &Sizing,
    listed: &Listed,
    sizes: impl Iterator<Item = i64>,
) -> Checked {
    let (job, book) = ask.begun().map_err(|number| format!("refused: {number}"))?;
    let first = job.buckets[0].size;
    let mut entries = vec![7; ENTRY_BYTES * job.intervals()];
    for size in sizes {
        let bytes = patched(&ask.bytes, 4 + 2 * BUCKET, &(size as u16).to_le_bytes());
        let job = enlarged(&job, size);
        let (set, order) = (set_numbers(&job, &book), rng.pick(&[EARLY, LATE]));
        let (mut table, mut values) = (vec![7; job.words()], vec![7; plan_values(&job)]);
        let lists = (&mut table, &mut entries, &mut values);
        let number = numbers::plan_set(&bytes, &set, TOTAL, order, lists.0, lists.1, lists.2);
        let planned = match number {
            0 => values[0] as u32,
            13 => NEVER,
            _ => return Err(format!("planning with size {size}: refused {number}")),
        };
        let listed_total = listed.totals[(size - first) as usize];
        same(&format!("planning with size {size}"), listed_total, planned)?;
        ensure!(size < 255 || table == listed.table, "planning with size 255: another table");
    }
    Ok(())
}

/// The typed functions give what the numbers give: with calls that set the pins in any
/// order, and in a session, which stays as it is. Where a set is wrong they cannot be asked.
fn check_typed_sizes(rng: &mut Rng, ask: &Sizing, listed: Option<&Listed>) -> Checked {
    let bytes = &ask.bytes;
    let refused = |refusal: upload_planner::Refusal| refusal.number();
    let (job, book) = match ask.begun() {
        Ok(begun) => begun,
        Err(6) => return Ok(()),
        Err(number) => {
            let due = Err(number as u32);
            let calls = [Call::Pin { unit: 1, choice: 0 }];
            let found = upload_planner::larger_buckets(bytes, &calls).map_err(refused);
            same("an owned list", due.clone(), found.map(|_| ()))?;
            let mut lists = [Lent::new(rng, 7), Lent::new(rng, 7)];
            let [table, totals] = &mut lists;
            let found = upload_planner::sizes(bytes, &calls, table.list(), totals.list());
            same("a typed list", due, found.map_err(refused))?;
            return lists.iter().try_for_each(|list| list.kept("typed lists"));
        }
    };
    let Some(listed) = listed else { return Ok(()) };
    let due = listed.typed(&job);
    let needs = size_needs(&job);
    let opened = upload_planner::open(bytes).map_err(|refusal| refusal.to_string())?;
    let found = [opened.largest_table_words(), opened.bucket_sizes().len()];
    same("the lengths of opening", needs, found)?;
    ensure!(due.iter().map(|of| of.0).eq(opened.bucket_sizes()), "other sizes of opening");
    same("the bucket of opening", job.buckets[0].size as u16, opened.bucket)?;

    let calls = fresh_calls(rng, &pins_of(&job, &book));
    let calls: Vec<Call> = calls.chunks(3).map(typed_call).collect();
    for lengths in [[needs[0] - 1, needs[1]], [needs[0], needs[1] - 1], needs] {
        let mut lent = SizeLists::new(rng, ask, lengths);
        let lists = (lent.table.list(), lent.totals.list());
        let found = upload_planner::sizes(bytes, &calls, lists.0, lists.1).map_err(refused);
        let number = first_of(&[(lengths[0] < needs[0], 11), (lengths[1] < needs[1], 12)]);
        same("a typed list", if number > 0 { Err(number) } else { Ok(()) }, found)?;
        match number {
            0 => lent.wrote(ask, &listed.totals, &listed.table)?,
            _ => lent.wrote(ask, &[], &[])?,
        }
    }
    let found = upload_planner::larger_buckets(bytes, &calls).map_err(refused);
    same("an owned list", Ok(&due), found.as_ref())?;

    let mut session = upload_planner::Session::open(bytes).map_err(|r| r.to_string())?;
    for (&unit, &choice) in &book {
        session.pin(unit as u16, choice as u16).map_err(|refusal| refusal.to_string())?;
    }
    let before = session.clone();
    same("a session's list", &due, &session.larger_buckets())?;
    same("a session's own total", due[0].1, session.best_total())?;
    ensure!(session == before, "the session is another after a list");
    Ok(())
}

// ---------------------------------------------------------------------------
// Larger buckets by hand, from every size on, and refused.
// ---------------------------------------------------------------------------

/// Job A on a line that drains one grain, with a bucket of this size and level. Unit 2 takes 2
/// grains in interval 3; unit 1 takes 4 by interval 2 and loses 10, or 2 and loses 30. Six
/// grains bring the bucket to its level at the start and 3, as 2, 2 and 2; four as 2, 0 and 2
/// bring it one up.
fn slow_a(size: u16, level: u16) -> Draft {
    job_a().with(BUCKET, size).with(DRAIN, 1).with(START_BUCKET, level)
}

/// Units that lose a unit of distortion for each grain short of two, and a drain of one: with
/// a grain in each interval the bucket stays, and each grain more in it is one that some
/// unit gains. So with size k from an empty bucket N units lose N - k, if k is at most N.
fn falling_job(units: usize, size: u16) -> Draft {
    let unit = vec![(2, 0), (1, 1), (0, 2)];
    Draft::new([0, 2, size, 1, 0, 0], &[0, 1, 2], &vec![unit; units])
}

/// The numbers from the first size named on, each as far as the next size.
fn stepped(steps: &[(u16, u32)]) -> Vec<u32> {
    let held = |size: u16| steps.iter().rfind(|step| step.0 <= size).map(|step| step.1);
    (steps[0].0..=255).filter_map(held).collect()
}

/// Lists worked out by hand.
fn sizes_by_hand_group() -> Result<String, String> {
    let mut rng = Rng(1);
    type Row<'a> = (Draft, &'a [(usize, usize)], &'a [(u16, u32)]);
    let slow = |second: [u16; 3]| slow_a(0, 0).doubled(second);
    // One interval, and a grain more of rate for each size.
    let rates: Vec<u16> = (0..16).collect();
    let coding = |grains: u16| (grains, 15 - grains as u32);
    let stairs =
        Draft::new([0, 15, 0, 1, 0, 0], &rates, &[rates.iter().copied().map(coding).collect()]);
    let stair_steps: Vec<(u16, u32)> = (0..15).map(|size| (size, 14 - size as u32)).collect();
    let at_once = |size: u16, level: u16| {
        Draft::new([0, 255, size, 1, 0, level], &[0, 255], &[vec![(255, 0), (0, 9)]])
    };
    let short_steps: Vec<(u16, u32)> = (0..=8).map(|size| (size, 8 - size as u32)).collect();
    let long_steps: Vec<(u16, u32)> = (0..=255).map(|size| (size, 256 - size as u32)).collect();
    let mut rows: Vec<Row> = vec![
        // The decoder holds no more than four grains, and two at a time drain at once.
        (job_a(), &[], &[(3, 50)]),
        (job_a().with(BUCKET, 0), &[], &[(0, 50)]),
        (job_a(), &[(1, 1)], &[(3, 70)]),
        (job_a(), &[(2, 0)], &[(3, NEVER)]),
        // A bucket of nothing takes no grain; 50 is had after two sizes that have 70.
        (slow_a(0, 0), &[], &[(0, NEVER), (1, 70), (3, 50)]),
        (slow_a(1, 0), &[], &[(1, 70), (3, 50)]),
        (slow_a(2, 0), &[], &[(2, 70), (3, 50)]),
        (slow_a(3, 0), &[], &[(3, 50)]),
        (slow_a(254, 0), &[], &[(254, 50)]),
        // The largest has one number.
        (slow_a(255, 0), &[], &[(255, 50)]),
        (slow_a(255, 0), &[(2, 0)], &[(255, NEVER)]),
        (slow_a(255, 255), &[], &[(255, NEVER)]),
        (slow_a(255, 0).doubled([1, 1, 0]), &[], &[(255, 70)]),
        // Pins: unit 2 never has five grains.
        (slow_a(0, 0), &[(1, 0)], &[(0, NEVER), (3, 50)]),
        (slow_a(0, 0), &[(1, 1)], &[(0, NEVER), (1, 70)]),
        (slow_a(0, 0), &[(2, 1)], &[(0, NEVER), (1, 70), (3, 50)]),
        (slow_a(0, 0), &[(1, 1), (2, 1)], &[(0, NEVER), (1, 70)]),
        (slow_a(0, 0), &[(2, 0)], &[(0, NEVER)]),
        (slow_a(0, 0), &[(1, 0), (2, 0)], &[(0, NEVER)]),
        // The level at the start stays, whatever the size.
        (slow_a(1, 1), &[], &[(1, NEVER), (2, 70), (4, 50)]),
        (slow_a(4, 1), &[], &[(4, 50)]),
        (slow_a(252, 252), &[], &[(252, NEVER), (253, 70), (255, 50)]),
        (slow_a(253, 253), &[], &[(253, NEVER), (254, 70)]),
        (slow_a(254, 254), &[], &[(254, NEVER), (255, 70)]),
        (slow_a(254, 251), &[], &[(254, 50)]),
        (slow_a(253, 251), &[], &[(253, 70), (254, 50)]),
        // The second bucket stays: it takes all that the first one can, or only four grains, or
        // none, or four with the one in it.
        (slow([3, 1, 0]), &[], &[(0, NEVER), (1, 70), (3, 50)]),
        (slow([2, 1, 0]), &[], &[(0, NEVER), (1, 70)]),
        (slow([1, 1, 0]), &[], &[(0, NEVER), (1, 70)]),
        (slow([0, 1, 0]), &[], &[(0, NEVER)]),
        (slow([3, 1, 1]), &[], &[(0, NEVER), (1, 70)]),
        (slow([0, 2, 0]), &[(1, 0)], &[(0, NEVER), (3, 50)]),
        (slow_a(250, 250).doubled([63, 1, 60]), &[], &[(250, NEVER), (251, 70), (253, 50)]),
        (slow_a(250, 250).doubled([63, 1, 62]), &[], &[(250, NEVER), (251, 70)]),
        // A fall at each size.
        (stairs, &[], &stair_steps),
        (falling_job(8, 0), &[], &short_steps),
    ];
    if !small() {
        // The total is as large as it may be.
        let units = vec![vec![(0, 1_000_000)]; 512];
        rows.extend::<[Row; 5]>([
            (Draft::new([0, 0, 252, 1, 0, 0], &[0], &units), &[], &[(252, 512_000_000)]),
            (falling_job(256, 0), &[], &long_steps),
            // 255 grains at once, of which one drains: 254 of them stay, or 255, or 256.
            (at_once(0, 0), &[], &[(0, 9), (254, 0)]),
            (at_once(1, 1), &[], &[(1, 9), (255, 0)]),
            (at_once(2, 2), &[], &[(2, 9)]),
        ]);
    }
    let (mut numbers, count) = (0, rows.len());
    for (at, (draft, pins, steps)) in rows.into_iter().enumerate() {
        let asked = Asked::new(&mut rng, &draft);
        let book: Book = pins.iter().copied().collect();
        let ask = Sizing::of(&mut rng, &asked, &book);
        let (job, pins) = (&asked.job, pins_of(&asked.job, &book));
        let totals = stepped(steps);
        let mut check = || -> Checked {
            if job.plans().is_some_and(|plans| plans <= ENUMERATION_LIMIT) {
                same("by hand, and every plan", &totals, &sizes_by_plans(job, &pins))?;
            }
            let due =
                if small() { sizes_by_halves(job, &pins) } else { sizes_by_tables(job, &pins) };
            same("by hand, and by tables", &totals, &due)?;
            let listed = Listed::of(job, &pins, totals.clone());
            check_listed(&mut rng, &ask, &listed)?;
            let some = larger_sizes(job).filter(|size| !small() || (at as i64 + size) % 64 == 0);
            check_each_size(&mut rng, &ask, &listed, some)?;
            if job.words() < 10_000 && (!small() || at % 5 == 0) {
                check_typed_sizes(&mut rng, &ask, Some(&listed))?;
            }
            Ok(())
        };
        check()
            .map_err(|trouble| format!("header {:?}: {}", draft.header, ask.failed(&trouble)))?;
        numbers += totals.len();
    }
    Ok(format!("{count} lists, {numbers} numbers"))
}

/// The same job with each size from 0 to 255 in turn: its list is the rest of the list of
/// size 0, and the table is the same for all.
fn every_own_size_group() -> Result<String, String> {
    let mut rng = Rng(1);
    let mut lists = 0;
    let books = [Book::new(), Book::from([(1, 0)]), Book::from([(2, 0)])];
    for (draft, step) in [(slow_a(0, 0), 1), (slow_a(0, 0).doubled([1, 1, 0]), 7)] {
        let step = if small() { 63 } else { step };
        for size in (0..=255).step_by(step).chain([254, 255]) {
            let asked = Asked::new(&mut rng, &draft.with(BUCKET, size));
            let book = &books[size as usize % books.len()];
            let pins = pins_of(&asked.job, book);
            let totals = sizes_by_plans(&enlarged(&asked.job, 0), &pins);
            let listed = Listed::of(&asked.job, &pins, totals[size as usize..].to_vec());
            let ask = Sizing::of(&mut rng, &asked, book);
            check_listed(&mut rng, &ask, &listed).map_err(|trouble| ask.failed(&trouble))?;
            lists += 1;
        }
    }
    Ok(format!("{lists} lists"))
}

/// Every set of defects at once, on lines that drain and that never do: the first in order
/// gives the number, and nothing is written. That there is no plan is no defect.
fn size_order_group() -> Result<String, String> {
    let mut rng = Rng(1);
    let mut tally: BTreeMap<u32, usize> = BTreeMap::new();
    for draft in &drains_of_a() {
        let right = Asked::new(&mut rng, draft);
        let needs = size_needs(&right.job);
        for (wrong, bits) in (0..=5).flat_map(|wrong| (0..1 << 7).map(move |bits| (wrong, bits))) {
            if small() && bits % 17 > 0 {
                continue;
            }
            let [set, table, totals, by_all, no_plan, way, other] =
                std::array::from_fn(|bit| bits >> bit & 1 == 1);
            // The wrong byte of 1 is the last one; only 2 and 3 are in the header.
            let never = draft.never_drains() && wrong != 2 && wrong != 3;
            let refused = if never { 17 } else { wrong };
            let book = Book::from([if no_plan { (2, 0) } else { (1, 0) }]);
            let mut ask = Sizing::of(&mut rng, &right, &book);
            ask.bytes = wrong_job(draft, wrong);
            if set {
                ask.set.truncate(SET_NUMBERS);
                wrong_set(&mut ask.set, way as usize + 2 * other as usize);
                ask.set.shrink_to_fit();
            }
            let due = first_of(&[(refused > 0, refused), (set, 6), (table, 11), (totals, 12)]);
            let lengths = [cut_to(needs[0], table, by_all), cut_to(needs[1], totals, by_all)];
            let begun = ask.begun().err().map(|number| number as u32);
            let mut check = || -> Checked {
                same("in order", (due > 0 && due < 11 || due == 17).then_some(due), begun)?;
                if due > 0 {
                    return check_unlisted(&mut rng, &ask, due, lengths);
                }
                let pins = pins_of(&right.job, &book);
                let listed = Listed::of(&right.job, &pins, sizes_by_plans(&right.job, &pins));
                same("no plan", no_plan, listed.totals[0] == NEVER)?;
                check_listed_in(&mut rng, &ask, &listed, lengths)
            };
            check().map_err(|trouble| {
                format!("header {:?}, job {wrong}, defects {bits:b}: {trouble}", draft.header)
            })?;
            check_typed_sizes(&mut rng, &ask, None)?;
            *tally.entry(due).or_default() += 1;
        }
    }
    let counts = by_number(&tally);
    let due = [0, 1, 2, 3, 4, 5, 6, 11, 12, 17];
    ensure!(tally.keys().eq(&due) || small(), "too little in it: {counts}");
    Ok(format!("sets of defects by number ({counts})"))
}

/// Lists of every length. A table that is long enough for the job itself, or for a bucket of
/// 254, is too short.
fn size_lengths_group() -> Result<String, String> {
    let mut rng = Rng(1);
    let mut lists = 0;
    // Two layers of a row of 256 words, and Job A's, with one bucket and two.
    let row = Draft::new(BARE, &[0], &[vec![(0, 5)]]);
    for draft in [row, slow_a(0, 0), slow_a(250, 250), slow_a(253, 253).doubled([1, 1, 0])] {
        let asked = Asked::new(&mut rng, &draft);
        let ask = Sizing::of(&mut rng, &asked, &Book::new());
        let (job, pins) = (&asked.job, &asked.pins);
        let listed = Listed::of(job, pins, sizes_by_plans(job, pins));
        let needs = size_needs(job);
        let own = [job.words(), enlarged(job, 254).words()];
        for (which, need) in needs.into_iter().enumerate() {
            let step = if small() { 97 } else { 1 };
            let near = [need - 1, need, need + 1, need + 2];
            let named = if which == 0 { own.to_vec() } else { vec![1, need / 2] };
            for length in (0..need).step_by(step).chain(named).chain(near) {
                // The other is as long as is needed, longer, or too short as well.
                let mut lengths = needs.map(|need| need + slack(&mut rng));
                if rng.one_in(8) {
                    lengths[1 - which] = rng.from(0, needs[1 - which] - 1);
                }
                lengths[which] = length;
                let number = first_of(&[(lengths[0] < needs[0], 11), (lengths[1] < needs[1], 12)]);
                let checked = match number {
                    0 => check_listed_in(&mut rng, &ask, &listed, lengths),
                    _ => check_unlisted(&mut rng, &ask, number, lengths),
                };
                checked.map_err(|trouble| ask.failed(&trouble))?;
                lists += 1;
            }
        }
    }
    Ok(format!("{lists} lists"))
}

// ---------------------------------------------------------------------------
// Larger buckets of random jobs.
// ---------------------------------------------------------------------------

/// What lists had in them.
#[derive(Default)]
struct Sizes {
    lists: usize,
    /// With a plan for no size, for some and for all.
    plans: [usize; 3],
    /// Numbers less than the one before, and lists with several of these; those of one number
    /// and of 256.
    falls: usize,
    several: usize,
    ends: [usize; 2],
    pinned: usize,
    two: usize,
    told: Told,
}

impl Sizes {
    fn count(&mut self, job: &Job, pins: &Pins, totals: &[u32]) {
        self.lists += 1;
        let never = totals.iter().filter(|total| **total == NEVER).count();
        self.plans[if never == totals.len() { 0 } else { 1 + (never == 0) as usize }] += 1;
        let falls = falls(totals).len();
        self.falls += falls;
        self.several += (falls > 1) as usize;
        self.ends[0] += (totals.len() == 1) as usize;
        self.ends[1] += (totals.len() == 256) as usize;
        self.pinned += pins.iter().any(Option::is_some) as usize;
        self.two += (job.buckets.len() > 1) as usize;
    }

    fn show(&self) -> String {
        let Sizes { lists, plans, falls, several, ends, pinned, two, told } = self;
        format!(
            "{lists} lists, {} without a plan, {} with one for the larger sizes alone and {} for \
             all; {falls} falls, {several} lists with several; {} of one number and {} of 256; \
             {pinned} with pins, {two} of two buckets{}",
            plans[0],
            plans[1],
            plans[2],
            ends[0],
            ends[1],
            if told.is_empty() { String::new() } else { told.show() }
        )
    }

    /// Each of these at least once in so many lists.
    fn worthwhile(&self, often: usize) -> bool {
        let Sizes { plans, falls, several, ends, pinned, two, .. } = self;
        let counts = [&plans[..], &ends[..], &[*falls, *several, *pinned, *two]].concat();
        counts.iter().all(|count| count * often >= self.lists)
    }
}

/// Says of each mistaken rule whether the list is another under it, or its last number.
fn size_mistakes(job: &Job, pins: &Pins, totals: &[u32]) -> Vec<Mistake> {
    let last = *totals.last().expect("a number");
    let at_255 = |job: &Job, pins: &Pins| size_by_table(job, pins, 255) != last;
    // The list ends where two numbers are equal.
    let flat = totals.windows(2).position(|pair| pair[0] == pair[1]);
    let mut mistakes = vec![
        ("one number for all", last != totals[0]),
        ("a list ended by two equal numbers", flat.is_some_and(|at| last != totals[at])),
        ("the pins forgotten", sizes_by_plans(job, &vec![None; pins.len()]) != totals),
        ("a bucket that starts fuller", {
            let more = 255 - job.buckets[0].size;
            at_255(&job.with_bucket(0, |bucket| bucket.start += more), pins)
        }),
        (
            "a bucket that starts empty",
            at_255(&job.with_bucket(0, |bucket| bucket.start = 0), pins),
        ),
        ("a larger decoder", {
            let mut larger = job.clone();
            larger.decoder_size += 1;
            at_255(&larger, pins)
        }),
        ("the last size left out", totals.len() > 1 && last != totals[totals.len() - 2]),
        ("the first size left out", totals.len() > 1 && totals[0] != totals[1]),
    ];
    if job.buckets.len() > 1 {
        let second = job.with_bucket(1, |bucket| bucket.size = 63);
        mistakes.push(("a larger second bucket", at_255(&second, pins)));
    }
    mistakes
}

/// A word of the table, by trying every completion of its levels.
fn word_by_completions(job: &Job, pins: &Pins, at: usize) -> u32 {
    let (rows, width) = (job.decoder_size as usize + 1, job.width());
    let (t, decoder) = (at / width / rows, at / width % rows);
    let levels = job.all_levels()[at % width];
    let word = completed(job, pins, NO_LIMIT, t, decoder as i64, &levels);
    word.map_or(NEVER, |word| word as u32)
}

/// Tiny jobs, by following every plan. The set is made by the job's calls, refused ones
/// included.
fn tiny_sizes_group(seed: u64, asks: bool) -> Result<String, String> {
    let mut rng = Rng(seed);
    let mut sizes = Sizes::default();
    for index in 1..=scaled(100) {
        let draft = match index % 12 {
            0 => random_tiny_double(&mut rng),
            1 => random_job(&mut rng, &TINY),
            _ => random_sized_job(&mut rng, &SIZED[0]),
        };
        let asked = Asked::new(&mut rng, &draft);
        let (job, pins) = (&asked.job, &asked.pins);
        let mut desk = Desk::lent(&mut rng, asked.bytes.clone(), job.clone(), 0)?;
        for (call, number) in asked.calls.chunks(3).zip(&asked.answers) {
            same("a call for a set", *number, desk.make([call[0], call[1], call[2]])?)?;
        }
        let ask = Sizing { bytes: asked.bytes.clone(), set: desk.set.held().to_vec() };
        let totals = sizes_by_plans(job, pins);
        let mut check = || -> Checked {
            same("by halves", &totals, &sizes_by_halves(job, pins))?;
            if index % 4 == 0 {
                same("by tables", &totals, &sizes_by_tables(job, pins))?;
            }
            let listed = Listed::of(job, pins, totals.clone());
            for _ in 0..3 {
                let at = rng.from(0, listed.table.len() - 1);
                let word = word_by_completions(&enlarged(job, 255), pins, at);
                same(&format!("every completion of word {at}"), word, listed.table[at])?;
            }
            check_listed(&mut rng, &ask, &listed)?;
            let (first, falls) = (job.buckets[0].size, falls(&totals));
            let near = |size: i64| falls.iter().any(|&at| (size - first - at as i64).abs() < 2);
            let every = index % 3 == 0;
            let some = larger_sizes(job).filter(|&size| {
                every || near(size) || size == first || size > 253 || size % 50 == 7
            });
            check_each_size(&mut rng, &ask, &listed, some)?;
            if index % 4 == 1 {
                check_typed_sizes(&mut rng, &ask, Some(&listed))?;
            }
            Ok(())
        };
        check().map_err(|trouble| format!("seed {seed}, job {index}: {}", ask.failed(&trouble)))?;
        sizes.count(job, pins, &totals);
        sizes.told.add(&size_mistakes(job, pins, &totals));
    }
    let counts = sizes.show();
    let worthwhile = sizes.worthwhile(25) && sizes.told.each(60);
    ensure!(worthwhile || !asks, "too little in it: {counts}");
    Ok(counts)
}

/// Jobs too large to try everything, by tables and, where a number falls and at the ends, by
/// the dynamic program.
fn larger_sizes_group(seed: u64, asks: bool) -> Result<String, String> {
    let mut rng = Rng(seed);
    let mut sizes = Sizes::default();
    for index in 1..=scaled(40) {
        let draft = match index % 8 {
            0 => random_double_job(&mut rng, &DOUBLE[1]),
            1 => random_tight_job(&mut rng, &TIGHT[0]),
            2 => random_even_job(&mut rng, &EVEN_SHAPES[0]),
            _ => random_sized_job(&mut rng, &SIZED[1]),
        };
        let asked = Asked::new(&mut rng, &draft);
        let (job, pins) = (&asked.job, &asked.pins);
        let ask = Sizing::of(&mut rng, &asked, &book_of(pins));
        let totals = sizes_by_halves(job, pins);
        let mut check = || -> Checked {
            let first = job.buckets[0].size as usize;
            let mut places = vec![0, totals.len() - 1, rng.from(0, totals.len() - 1)];
            for at in falls(&totals).into_iter().take(2) {
                places.extend([at - 1, at]);
            }
            for &at in &places {
                let found = size_by_paths(rng.pick(&ORDERS), job, pins, (first + at) as i64);
                same(&format!("dynamic program, size {}", first + at), totals[at], found)?;
            }
            let listed = Listed::of(job, pins, totals.clone());
            check_listed(&mut rng, &ask, &listed)?;
            let some = places.iter().map(|at| (first + at) as i64);
            check_each_size(&mut rng, &ask, &listed, some)
        };
        check().map_err(|trouble| format!("seed {seed}, job {index}: {}", ask.failed(&trouble)))?;
        sizes.count(job, pins, &totals);
    }
    let counts = sizes.show();
    ensure!(sizes.worthwhile(40) || !asks, "too little in it: {counts}");
    Ok(counts)
}

/// Sittings in which a list is asked for after pins and lifts, seen or not, and refused ones
/// among them. Set and table stay as they are, and a session does.
fn size_sittings_group(seed: u64, asks: bool) -> Result<String, String> {
    let mut rng = Rng(seed);
    let mut sizes = Sizes::default();
    let (mut refused, mut lifted) = (0, 0);
    for index in 1..=scaled(12) {
        let draft = random_sized_job(&mut rng, &Shape { commands: 0, ..SIZED[0] });
        let mut desk = Desk::new(&mut rng, &draft)?;
        let bytes = desk.bytes.clone();
        let light = rng.one_in(2);
        let mut check = || -> Checked {
            let opened = upload_planner::Session::open(&bytes);
            let mut session = opened.map_err(|refusal| refusal.to_string())?;
            desk.plan(&mut rng, Aim::Total, order_in_turn(index))?;
            for _ in 0..4 {
                for _ in 0..rng.from(1, 4) {
                    let call = sitting_call(&mut rng, &desk, light);
                    let due = desk.see(&mut rng, call, 0, 1)?;
                    let [kind, unit, choice] = call;
                    let found = match kind {
                        6 => session.pin(unit, choice),
                        _ => session.lift(unit),
                    };
                    let found = found.err().map_or(0, |refusal| refusal.number());
                    same(&format!("typed call {call:?}"), due as u32, found)?;
                    refused += (due > 0) as usize;
                    lifted += (due == 0 && kind == 7) as usize;
                }
                let (job, pins) = (desk.job.clone(), desk.pins());
                let ask = Sizing { bytes: bytes.clone(), set: desk.set.held().to_vec() };
                let listed = Listed::of(&job, &pins, sizes_by_halves(&job, &pins));
                let needs = size_needs(&job).map(|need| need + slack(&mut rng));
                check_listed_in(&mut rng, &ask, &listed, needs)?;
                // The desk's own lists, and its own table in the place of the one that is lent.
                let (number, mut lists) = (first_of(&[(job.buckets[0].size < 255, 11)]), [7; 256]);
                let own = &mut desk.table.list()[..job.words()];
                let found = numbers::sizes(&bytes, &ask.set, own, &mut lists);
                same("the desk's own table", number, found)?;
                desk.holds()?;
                same("the word of the desk", desk.total(), listed.totals[0])?;
                same("a session's list", &listed.typed(&job), &session.larger_buckets())?;
                check_typed_session(&session, &desk)?;
                sizes.count(&job, &pins, &listed.totals);
            }
            Ok(())
        };
        check().map_err(|trouble| desk.failed(seed, index, &trouble))?;
    }
    let counts = format!("{}, {refused} calls refused, {lifted} lifts", sizes.show());
    let worthwhile = sizes.falls * 4 > sizes.lists && refused * 3 > sizes.lists && lifted > 5;
    ensure!(worthwhile || !asks, "too little in it: {counts}");
    Ok(counts)
}

/// Lists of tiny jobs with something wrong in one place or a few, and lists of any length.
fn harmed_sizes_group(seed: u64, asks: bool) -> Result<String, String> {
    let mut rng = Rng(seed);
    let mut tally: BTreeMap<u32, usize> = BTreeMap::new();
    let inputs = scaled(3000);
    for index in 1..=inputs {
        let shape = Shape { decoder: 3, ..SIZED[0] };
        let draft = random_sized_job(&mut rng, &shape);
        let draft = random_stored(&mut rng, &draft, 12);
        let asked = Asked::new(&mut rng, &draft);
        let mut ask = Sizing::of(&mut rng, &asked, &book_of(&asked.pins));
        for _ in 0..rng.pick(&[0, 1, 1, 1, 2, 3]) {
            match rng.from(0, 5) {
                0 | 1 => harm(&mut rng, &mut ask.bytes),
                2 => harm_head(&mut rng, &mut ask.bytes),
                3 | 4 if ask.set.len() >= SET_NUMBERS => {
                    harm_set(&mut rng, &asked.job, &mut ask.set[..SET_NUMBERS])
                }
                _ => ask.set.truncate(rng.pick(&[0, 1, SET_TOTALS, SET_NUMBERS - 1, SET_NUMBERS])),
            }
        }
        ask.bytes.shrink_to_fit();
        ask.set.shrink_to_fit();
        let begun = ask.begun();
        let needs = begun.as_ref().map_or([20; 2], |(job, _)| size_needs(job));
        let lengths = needs.map(|need| match rng.from(0, 11) {
            0 => need - 1,
            1 => rng.from(0, need),
            2..=4 => need,
            _ => need + rng.from(1, 9),
        });
        // A harmed job may call for a table that is too large to compare.
        let lengths = [lengths[0].min(40_000), lengths[1]];
        let number = match &begun {
            Err(number) => *number as u32,
            Ok(_) => first_of(&[(lengths[0] < needs[0], 11), (lengths[1] < needs[1], 12)]),
        };
        let mut check = || -> Checked {
            match &begun {
                // Most lists that go well are left to other groups.
                Ok((job, book)) if number == 0 => {
                    if index % 8 > 0 {
                        return Ok(());
                    }
                    let pins = pins_of(job, book);
                    let listed = Listed::of(job, &pins, sizes_by_halves(job, &pins));
                    check_listed_in(&mut rng, &ask, &listed, lengths)
                }
                _ => {
                    check_unlisted(&mut rng, &ask, number, lengths)?;
                    check_typed_sizes(&mut rng, &ask, None)
                }
            }
        };
        check()
            .map_err(|trouble| format!("seed {seed}, input {index}: {}", ask.failed(&trouble)))?;
        *tally.entry(number).or_default() += 1;
    }
    let counts = format!("{inputs} inputs by number ({})", by_number(&tally));
    let often = |number: &u32| tally.get(number).is_some_and(|count| count * 300 > inputs);
    let numbers = [0, 1, 2, 3, 4, 5, 6, 11, 12, 17];
    ensure!(numbers.iter().all(often) || !asks, "too little in it: {counts}");
    Ok(counts)
}

/// A larger decoder, a larger bucket of either, a larger drain of either: every plan that was
/// admissible stays so, and what the library plans loses no more, for either aim.
fn raised_group(seed: u64, asks: bool) -> Result<String, String> {
    let mut rng = Rng(seed);
    let (mut raised, mut plans, mut lower, mut new) = (0, 0, [0; 2], 0);
    for index in 1..=scaled(150) {
        let draft = match index % 3 {
            0 => random_tiny_double(&mut rng),
            1 => random_sized_job(&mut rng, &SIZED[0]),
            _ => random_double_job(&mut rng, &Shape { units: (1, 2), ..DOUBLE[0] }),
        };
        let asked = Asked::new(&mut rng, &draft);
        let held = admissible_plans(&asked.job, &asked.pins);
        let before = AIMS.map(|aim| worst_and_total(&asked, aim));
        let mut fields = vec![(DECODER, 255), (BUCKET, 255), (DRAIN, 4095)];
        if asked.job.buckets.len() > 1 {
            fields.extend([(SECOND, 63), (SECOND_DRAIN, 4095)]);
        }
        for (field, most) in fields {
            let now = draft.header[field];
            if now == most {
                continue;
            }
            let more = rng.pick(&[1, 1, 2, 5]).min(most - now);
            let larger = Asked::new(&mut rng, &draft.with(field, now + more));
            let mut check = || -> Checked {
                same("the pins", &asked.pins, &larger.pins)?;
                for Judged { plan, total, .. } in held.iter().step_by(1 + held.len() / 20) {
                    let entries = plan_bytes(plan);
                    let (mut levels, mut values) = ([7; 64], [7; 7]);
                    let (job, calls) = (&larger.bytes, &larger.calls);
                    let found = numbers::replay(job, calls, &entries, &mut levels, &mut values);
                    same("a plan that was admissible", [0, 0, *total as u64], {
                        [found as u64, values[0], values[2]]
                    })?;
                    plans += 1;
                }
                for (which, aim) in AIMS.into_iter().enumerate() {
                    let after = worst_and_total(&larger, aim);
                    let [old, found] = [before[which], after].map(|of| match aim {
                        Aim::Total => of.map(|of| of.1),
                        Aim::Even => of.map(|of| of.0),
                    });
                    // No plan counts as more than any.
                    let [old, found] = [old, found].map(|of| of.unwrap_or(u64::MAX));
                    ensure!(found <= old, "{aim:?}: {old} rises to {found}");
                    lower[which] += (found < old) as usize;
                    new += (old == u64::MAX && found < old && which == 0) as usize;
                }
                Ok(())
            };
            check().map_err(|trouble| {
                let what = format!("field {field} raised by {more}: {trouble}");
                failed(seed, index, &what, &asked)
            })?;
            raised += 1;
        }
    }
    let counts = format!(
        "{raised} numbers raised, {plans} plans that stay; a lesser total {} times, a lesser \
         greatest distortion {} times, a first plan {new} times",
        lower[0], lower[1]
    );
    let worthwhile = lower.iter().all(|count| count * 20 > raised) && new * 100 > raised;
    ensure!(worthwhile || !asks, "too little in it: {counts}");
    Ok(counts)
}

/// The greatest distortion of a unit in the plan that the library gives for an aim, and the
/// total; `None` where there is no plan.
fn worst_and_total(asked: &Asked, aim: Aim) -> Option<(u64, u64)> {
    let (number, _, entries, values) = planned_numbers_for(aim, Order::Early, asked);
    if number > 0 {
        return None;
    }
    let plan = read_plan(&asked.job, &entries).expect("a plan");
    Some((greatest(&asked.job, &plan) as u64, values[0]))
}

/// Lists of trial jobs on lines that drain little and start filled, by tables. The last numbers
/// are the state and the drain.
fn large_sizes_group() -> Result<String, String> {
    let few = Size { units: 48, delay: 8, decoder: 63, bucket: 100, rates: 8, choices: 8 };
    let long = Size { units: 512, delay: 64, decoder: 31, bucket: 252, ..few };
    let wide = Size { units: 8, bucket: 240, rates: 16, choices: 1000, ..few };
    let sizes = [
        ("a trial job", few, None, 1, 9),
        ("many units", long, None, 70, 9),
        ("large buffers", Size { units: 12, decoder: 255, bucket: 245, ..few }, None, 1, 5),
        ("a thousand choices", wide, None, 1, 9),
        (
            "two buckets",
            Size { units: 24, decoder: 31, bucket: 245, ..few },
            Some([15, 14, 4]),
            0,
            9,
        ),
    ];
    let mut rng = Rng(9);
    let (mut words, mut numbers, mut fallen) = (0, 0, 0);
    for (name, size, second, state, drain) in &sizes {
        let mut check = || -> Checked {
            let draft = large_trial(size, *second, *state)?;
            let draft = draft.with(DRAIN, *drain).with(START_BUCKET, size.bucket as u16);
            let asked = Asked::new(&mut rng, &draft);
            let (job, pins) = (&asked.job, &asked.pins);
            let totals = sizes_by_halves(job, pins);
            ensure!(totals[0] > totals[totals.len() - 1], "a larger bucket brings nothing");
            let listed = Listed::of(job, pins, totals);
            let ask = Sizing::of(&mut rng, &asked, &book_of(pins));
            check_listed(&mut rng, &ask, &listed)?;
            let middle = rng.from(job.buckets[0].size as usize, 255) as i64;
            let some = [job.buckets[0].size, middle, 255].into_iter();
            check_each_size(&mut rng, &ask, &listed, some)?;
            words += listed.table.len();
            numbers += listed.totals.len();
            fallen += falls(&listed.totals).len();
            Ok(())
        };
        check().map_err(|trouble| format!("{name}: {trouble}"))?;
    }
    let jobs = sizes.len();
    let counts = format!("{jobs} jobs, {numbers} numbers, {fallen} falls, {words} words");
    Ok(counts)
}

// ---------------------------------------------------------------------------
// A playlist: what is asked, and what is due.
// ---------------------------------------------------------------------------

/// What a playlist is asked of. Anything in it may be wrong.
#[derive(Clone)]
struct Listing {
    bytes: Vec<u8>,
    /// Two an entry: where a job begins in the bytes, and how many it has.
    entries: Vec<u32>,
}

/// Lists that are long enough.
const ENDLESS: [usize; 3] = [usize::MAX; 3];

impl Listing {
    fn of(mut bytes: Vec<u8>, mut entries: Vec<u32>) -> Listing {
        bytes.shrink_to_fit();
        entries.shrink_to_fit();
        Listing { bytes, entries }
    }

    /// The jobs one behind another.
    fn row(jobs: &[Vec<u8>]) -> Listing {
        let (mut bytes, mut entries) = (Vec::new(), Vec::new());
        for job in jobs {
            entries.extend([bytes.len() as u32, job.len() as u32]);
            bytes.extend_from_slice(job);
        }
        Listing::of(bytes, entries)
    }

    fn row_of(drafts: &[Draft]) -> Listing {
        Listing::row(&drafts.iter().map(Draft::bytes).collect::<Vec<_>>())
    }

    /// The jobs in any order, with other bytes around them. One that is sent several times
    /// mostly stands there once.
    fn scattered(rng: &mut Rng, drafts: &[Draft]) -> Listing {
        let jobs: Vec<Vec<u8>> = drafts.iter().map(Draft::bytes).collect();
        let mut bytes: Vec<u8> = Vec::new();
        let mut entries = vec![0; 2 * jobs.len()];
        let mut left: Vec<usize> = (0..jobs.len()).collect();
        let mut placed: Vec<(usize, u32)> = Vec::new();
        while !left.is_empty() {
            let index = left.swap_remove(rng.from(0, left.len() - 1));
            let there = placed.iter().find(|of| jobs[of.0] == jobs[index] && !rng.one_in(4));
            let first = match there {
                Some(of) => of.1,
                None => {
                    let gap = rng.pick(&[0, 0, 1, 2, 40]);
                    bytes.extend((0..gap).map(|_| rng.next() as u8).collect::<Vec<u8>>());
                    bytes.extend_from_slice(&jobs[index]);
                    (bytes.len() - jobs[index].len()) as u32
                }
            };
            placed.push((index, first));
            entries[2 * index..][..2].copy_from_slice(&[first, jobs[index].len() as u32]);
        }
        if rng.one_in(2) {
            bytes.push(rng.next() as u8);
        }
        Listing::of(bytes, entries)
    }

    fn count(&self) -> usize {
        self.entries.len() / 2
    }

    /// An entry's bytes, if it does not pass.
    fn part(&self, entry: &[u32]) -> Option<&[u8]> {
        self.bytes.get(entry[0] as usize..entry[0] as usize + entry[1] as usize)
    }

    /// What comes of it in lists of these lengths: table, entries, totals. The plans are read
    /// off tables.
    fn played(&self, room: [usize; 3]) -> Played {
        play(&self.bytes, &self.entries, room, late_by_table)
    }

    /// The same by trying every plan, or by the dynamic program.
    fn tried(&self, room: [usize; 3]) -> Played {
        let plan = |job: &Job| best_plan(Order::Late, job, &free(job));
        play(&self.bytes, &self.entries, room, plan)
    }

    /// The lengths that are needed to come as far as in endless lists.
    fn needs(&self, played: &Played) -> [usize; 3] {
        let words = played.searched().map(Job::words).max();
        let entries = played.searched().map(|job| ENTRY_BYTES * job.intervals()).sum();
        [words.unwrap_or(0), entries, PROGRAMME_TOTALS * self.count()]
    }

    /// What to type again to see a failure.
    fn failed(&self, trouble: &str) -> String {
        format!("{trouble}\n  bytes {}\n  entries {:?}", hex(&self.bytes), self.entries)
    }
}

/// The late plan from a job's starting levels, without pins.
fn late_by_table(job: &Job) -> Option<Plan> {
    read_off_in(Order::Late, job, &free(job), &fast_table(job, &free(job)))
}

/// What stands in the lists at the end: table, entries, totals.
struct Stands {
    table: Vec<u32>,
    entries: Vec<u8>,
    totals: Vec<u64>,
}

impl Stands {
    /// Each table is written over what the one before it left, and stays where the next is
    /// shorter. Of a programme that is refused nothing is there but the table of 13.
    fn of(played: &Played) -> Stands {
        let mut table: Vec<u32> = Vec::new();
        for job in played.searched() {
            let words = fast_table(job, &free(job));
            let behind = table.get(words.len()..).unwrap_or(&[]).to_vec();
            table = [words, behind].concat();
        }
        let entries = played.sent.iter().flat_map(|sent| plan_bytes(&sent.plan)).collect();
        let totals = played.sent.iter().flat_map(Sent::totals).collect();
        Stands { table, entries, totals }
    }
}

/// The lists that are lent, the entries of the list among them.
struct PlaylistLists {
    programmes: Lent<u32>,
    table: Lent<u32>,
    entries: Lent<u8>,
    totals: Lent<u64>,
}

impl PlaylistLists {
    /// `room`: table, entries, totals.
    fn new(rng: &mut Rng, ask: &Listing, room: [usize; 3]) -> PlaylistLists {
        PlaylistLists {
            programmes: lent_with(rng, &ask.entries),
            table: Lent::new(rng, room[0]),
            entries: Lent::new(rng, room[1]),
            totals: Lent::new(rng, room[2]),
        }
    }

    fn play(&mut self, ask: &Listing) -> u32 {
        let lists = (self.table.list(), self.entries.list(), self.totals.list());
        numbers::playlist(&ask.bytes, self.programmes.held(), lists.0, lists.1, lists.2)
    }

    fn wrote(&self, ask: &Listing, stands: &Stands) -> Checked {
        self.entries.wrote("entries", &stands.entries)?;
        self.totals.wrote("totals", &stands.totals)?;
        self.table.wrote("table", &stands.table)?;
        self.programmes.wrote("the list itself", &ask.entries)
    }
}

/// Place and number, to be read more easily than an answer.
fn apart(answer: u32) -> (u32, u32) {
    (answer / 256, answer % 256)
}

/// Asks for the playlist in lists of these lengths, and compares all that is written and all
/// that is kept.
fn check_played_in(rng: &mut Rng, ask: &Listing, room: [usize; 3], played: &Played) -> Checked {
    let mut lent = PlaylistLists::new(rng, ask, room);
    let what = format!("a playlist in lists of {room:?}, place and number");
    same(&what, apart(played.answer()), apart(lent.play(ask)))?;
    lent.wrote(ask, &Stands::of(played)).map_err(|trouble| format!("{what}: {trouble}"))
}

/// Asks with each of the lists one short, then with lists of just enough or somewhat more. Gives
/// what comes of it in these.
fn check_played(rng: &mut Rng, ask: &Listing) -> Result<Played, String> {
    let played = ask.played(ENDLESS);
    let needs = ask.needs(&played);
    for which in 0..3 {
        let Some(room) = one_short(needs, which) else { continue };
        check_played_in(rng, ask, room, &ask.played(room))?;
    }
    let room = needs.map(|need| need + slack(rng));
    check_played_in(rng, ask, room, &played)?;
    Ok(played)
}

/// What the library leaves in lists that are just long enough.
struct PlainLists {
    answer: u32,
    table: Vec<u32>,
    entries: Vec<u8>,
    totals: Vec<u64>,
}

impl PlainLists {
    fn of(ask: &Listing, needs: [usize; 3]) -> PlainLists {
        let [words, room, numbers] = needs;
        let (mut table, mut entries, mut totals) =
            (vec![7; words], vec![7; room], vec![7; numbers]);
        let lists = (&mut table, &mut entries, &mut totals);
        let answer = numbers::playlist(&ask.bytes, &ask.entries, lists.0, lists.1, lists.2);
        PlainLists { answer, table, entries, totals }
    }
}

/// By the library's other functions: the levels at which the last programme ended are put in the
/// place of the job's own, and the job is planned by itself, in the late order and without pins.
/// Its replay says at which levels it ends. So as far as there is a plan.
fn check_one_by_one(ask: &Listing, played: &Played) -> Checked {
    let found = PlainLists::of(ask, ask.needs(played));
    let (mut entries, mut totals) = (&found.entries[..], &found.totals[..]);
    let mut levels: Vec<u16> = Vec::new();
    let mut last = Vec::new();
    let searched = played.searched().count();
    for (place, entry) in (1..=searched).zip(ask.entries.chunks(2)) {
        let what = |name: &str| format!("programme {place} by itself: {name}");
        let mut job = ask.part(entry).ok_or(what("it passes"))?.to_vec();
        for ([.., start], level) in BUCKET_FIELDS.iter().zip(&levels) {
            job = patched(&job, 4 + 2 * start, &level.to_le_bytes());
        }
        let (mut opened, mut set) = ([7; 4], vec![7; SET_NUMBERS]);
        same(&what("opening"), 0, numbers::open(&job, &mut opened))?;
        same(&what("its set"), 0, numbers::set(&job, &mut set))?;
        let [bytes, _, intervals, words] = opened.map(|value| value as usize);
        same(&what("its bytes"), job.len(), bytes)?;
        let (mut table, mut plan) = (vec![7; words], vec![7; ENTRY_BYTES * intervals]);
        let mut values = [0; PROGRAMME_TOTALS];
        let lists = (&mut table, &mut plan, &mut values);
        let number = numbers::plan_set(&job, &set, TOTAL, LATE, lists.0, lists.1, lists.2);
        last = table;
        if number == 13 {
            same(&what("no plan"), (place as u32, 13), apart(found.answer))?;
            break;
        }
        same(&what("planning"), 0, number)?;
        let (of_this, behind) = entries.split_at(plan.len());
        same(&what("entries"), &plan[..], of_this)?;
        same(&what("totals"), &values[..], &totals[..PROGRAMME_TOTALS])?;
        (entries, totals) = (behind, &totals[PROGRAMME_TOTALS..]);

        let count = if job[2] == 8 { 2 } else { 1 };
        let (mut seen, mut values) = (vec![7; (1 + count) * intervals], [7; 7]);
        let number = numbers::replay_set(&job, &set, of_this, &mut seen, &mut values);
        same(&what("replay"), (0, 0), (number, values[0]))?;
        levels = seen[seen.len() - count..].to_vec();
    }
    ensure!(found.table[..last.len()] == last, "the table is not that of the last programme");
    Ok(())
}

/// All intervals in one go, by what the library has written alone: each programme keeps its
/// limits, and its totals are those that were told. The levels are the same by sums over all
/// intervals, and every grain is accounted for.
fn check_in_one_go(ask: &Listing, played: &Played) -> Checked {
    let found = PlainLists::of(ask, ask.needs(played));
    let (mut jobs, mut plans) = (Vec::new(), Vec::new());
    let mut left = &found.entries[..];
    for entry in ask.entries.chunks(2).take(played.sent.len()) {
        let job = read_entry(&ask.bytes, entry).map_err(|number| format!("refused: {number}"))?;
        let (plan, behind) = left.split_at(ENTRY_BYTES * job.intervals());
        plans.push(read_plan(&job, plan).map_err(|_| "no plan of its job")?);
        jobs.push(job);
        left = behind;
    }
    let Some(first) = jobs.first() else { return Ok(()) };
    let (totals, levels) = replay_on(&jobs, &plans).ok_or("a violation in one go")?;
    let told = &found.totals[..PROGRAMME_TOTALS * totals.len()];
    same("the totals in one go", &totals.concat()[..], told)?;

    for (at, bucket) in first.buckets.iter().enumerate() {
        // What each interval brings to the bucket, if it were never cut at 0.
        let rises: Vec<i64> = jobs
            .iter()
            .zip(&plans)
            .flat_map(|(job, plan)| plan.iter().map(|of| job.rates[of.0] - job.buckets[at].drain))
            .collect();
        for t in 1..=rises.len() {
            let mut since: i64 = 0;
            let cut = rises[..t].iter().rev().map(|rise| {
                since += rise;
                since
            });
            let most = cut.max().expect("an interval");
            let level = most.max(0).max(bucket.start + since);
            same("a level by sums", levels[t - 1][at], level)?;
        }
        let sum = |which: usize| totals.iter().map(|of| of[which] as i64).sum::<i64>();
        let drains = jobs.iter().map(|job| job.intervals() as i64 * job.buckets[at].drain);
        let last = levels[rises.len() - 1][at];
        let come = bucket.start + sum(2) + sum(3 + at);
        same("the balance of the whole list", drains.sum::<i64>() + last, come)?;
    }
    Ok(())
}

fn typed_refused(refused: Option<(usize, Refusal)>) -> Option<upload_planner::PlaylistRefusal> {
    let (place, number) = refused?;
    let refusal = upload_planner::Refusal::from_number(number as u32).expect("a refusal");
    Some(upload_planner::PlaylistRefusal { place: (place > 0).then_some(place), refusal })
}

/// The typed functions give what the numbers give, in lists of these lengths and in lists of
/// their own. An odd count of numbers cannot be asked of them, nor entries that pass of the
/// second.
fn check_typed_playlist(rng: &mut Rng, ask: &Listing, room: [usize; 3]) -> Checked {
    if ask.entries.len() % 2 == 1 {
        return Ok(());
    }
    let entry = |of: &[u32]| upload_planner::Programme { first: of[0], length: of[1] };
    let programmes: Vec<_> = ask.entries.chunks(2).map(entry).collect();
    let played = ask.played(room);
    let mut lent = PlaylistLists::new(rng, ask, room);
    let lists = (lent.table.list(), lent.entries.list(), lent.totals.list());
    let found = upload_planner::playlist(&ask.bytes, &programmes, lists.0, lists.1, lists.2);
    let refused = typed_refused(played.refused);
    same("a typed playlist", refused, found.err())?;
    if let Some(refused) = refused {
        same("its answer", played.answer(), refused.answer())?;
        let again = upload_planner::PlaylistRefusal::from_answer(refused.answer());
        same("its answer read", Some(refused), again)?;
        let place = refused.place.map_or(String::new(), |place| format!("programme {place}: "));
        same("its words", format!("{place}{}", refused.refusal), refused.to_string())?;
    }
    lent.wrote(ask, &Stands::of(&played))?;

    let jobs: Option<Vec<&[u8]>> = ask.entries.chunks(2).map(|entry| ask.part(entry)).collect();
    let Some(jobs) = jobs else { return Ok(()) };
    let played = ask.played(ENDLESS);
    let typed = |sent: &Sent| {
        let totals = &sent.totals()[..plan_values(&sent.job)];
        let (totals, entries) = (typed_totals(totals), plan_bytes(&sent.plan));
        upload_planner::ProgrammePlan { totals, entries }
    };
    let due = match typed_refused(played.refused) {
        Some(refused) => Err(refused),
        None => Ok(played.sent.iter().map(typed).collect()),
    };
    same("owned plans of a playlist", due, upload_planner::playlist_plans(&jobs))
}

// ---------------------------------------------------------------------------
// Playlists by hand.
// ---------------------------------------------------------------------------

/// A job of one interval, whose unit may be sent at these rates and has these choices. `line`:
/// size, drain and starting level of the bucket.
fn in_one_interval(line: [u16; 3], rates: &[u16], choices: &[(u16, u32)]) -> Draft {
    let [size, drain, level] = line;
    let decoder = *rates.last().expect("a rate");
    Draft::new([0, decoder, size, drain, 0, level], rates, &[choices.to_vec()])
}

/// What a programme comes to by hand: its plan and its totals.
type ByHand = (Plan, [u64; PROGRAMME_TOTALS]);

/// Job A sent as 0, 4 and 2 grains, with this much unused of each bucket.
fn fine_a(unused: [u64; 2]) -> ByHand {
    (vec![(0, NO_CHOICE), (2, 0), (1, 1)], [50, 6, 6, unused[0], unused[1]])
}

/// Job A sent as 0, 2 and 2 grains, of which unit 1 has two.
fn coarse_a(unused: [u64; 2]) -> ByHand {
    (vec![(0, NO_CHOICE), (1, 1), (1, 1)], [70, 4, 4, unused[0], unused[1]])
}

/// Playlists worked out by hand.
fn playlists_by_hand_group() -> Result<String, String> {
    let mut rng = Rng(1);
    let rows = playlist_rows();
    let (lists, mut programmes) = (rows.len(), 0);
    for (drafts, planned, refused) in rows {
        let ask = Listing::row_of(&drafts);
        let mut check = || -> Checked {
            let due: Vec<ByHand> =
                ask.tried(ENDLESS).sent.iter().map(|of| (of.plan.clone(), of.totals())).collect();
            same("by hand", &planned, &due)?;
            let played = check_played(&mut rng, &ask)?;
            same("by hand", refused, played.refused)?;
            for job in played.searched().filter(|job| job.intervals() < 10) {
                let table = brute_table(job, &free(job));
                ensure!(table == fast_table(job, &free(job)), "another table");
            }
            check_one_by_one(&ask, &played)?;
            check_in_one_go(&ask, &played)?;
            check_typed_playlist(&mut rng, &ask, ask.needs(&played))?;
            let scattered = Listing::scattered(&mut rng, &drafts);
            check_played(&mut rng, &scattered).map(|_| ())
        };
        check().map_err(|trouble| ask.failed(&trouble))?;
        programmes += planned.len();
    }
    check_tables_by_hand(&mut rng)?;
    check_jobs_in_jobs(&mut rng)?;
    Ok(format!("{lists} lists, {programmes} programmes planned"))
}

/// Jobs, what those come to that are planned, and the place and the number of one that is refused.
type PlaylistRow = (Vec<Draft>, Vec<ByHand>, Option<(usize, Refusal)>);

fn playlist_rows() -> Vec<PlaylistRow> {
    let (a, slow) = (job_a(), slow_a(5, 0));
    let two = |second: [u16; 3]| job_a().doubled(second);
    // One takes two grains and loses nothing, or one and loses 1 or 100.
    let [light, heavy] =
        [1, 100].map(|lost| in_one_interval([1, 1, 0], &[1, 2], &[(2, 0), (1, lost)]));
    let whole: ByHand = (vec![(1, 0)], [0, 2, 2, 0, 0]);
    let halved = |lost: u64| -> ByHand { (vec![(0, 1)], [lost, 1, 1, 0, 0]) };
    // Two of three grains stay in the decoder; then one comes, and a unit would take three.
    let filler = in_one_interval([9, 9, 0], &[3], &[(1, 0)]);
    let thirsty = in_one_interval([9, 9, 0], &[1], &[(3, 0), (1, 5)]).with(DECODER, 3);
    let drunk: ByHand = (vec![(0, 0)], [0, 3, 1, 8, 0]);
    let sipped: ByHand = (vec![(0, 1)], [5, 1, 1, 8, 0]);
    // One grain comes and two drain: each level falls by one.
    let falling =
        |level: u16, second: u16| even_job(1, [0, 1, 9, 2, 0, level]).doubled([9, 2, second]);
    let fallen = |unused: [u64; 2]| -> ByHand { (vec![(0, 0)], [1, 1, 1, unused[0], unused[1]]) };
    let [steady, short] = [even_job(3, [1, 2, 5, 1, 0, 3]), even_job(2, [0, 1, 4, 1, 0, 0])];
    // As much as can be lost, and all of the largest drain, but for what was in the buckets.
    let units = vec![vec![(0, 1_000_000)]; 512];
    let most = Draft::new([64, 0, 3, 4095, 0, 3], &[0], &units).doubled([2, 4095, 2]);
    let lost = |[first, second]: [u64; 2]| -> ByHand {
        let plan = [vec![(0, NO_CHOICE); 64], vec![(0, 0); 512]].concat();
        (plan, [512_000_000, 0, 0, 576 * 4095 - first, 576 * 4095 - second])
    };
    vec![
        (vec![most; 2], vec![lost([3, 2]), lost([0, 0])], None),
        // A drain of 1: 0, 4 and 2 grains bring the bucket to 0, 3 and 4. From 4 it comes to 3,
        // and four grains more would be 6; so 0, 2 and 2 bring it to 3, 4 and 5. From 5 only
        // three grains go, and four are needed.
        (vec![slow.clone()], vec![fine_a([1, 0])], None),
        (vec![slow.clone(); 2], vec![fine_a([1, 0]), coarse_a([0, 0])], None),
        (vec![slow.clone(); 3], vec![fine_a([1, 0]), coarse_a([0, 0])], Some((3, 13))),
        (vec![slow.clone(); 4], vec![fine_a([1, 0]), coarse_a([0, 0])], Some((3, 13))),
        // A drain of 2: the bucket has 0, 2 and 2, and from then on 2 at the start, so that the
        // drain of the first interval finds something.
        (vec![a.clone(); 3], vec![fine_a([2, 0]), fine_a([0, 0]), fine_a([0, 0])], None),
        // The first starts from its own level, and the second from the one that is carried,
        // whatever its own is.
        (vec![slow_a(5, 4)], vec![coarse_a([0, 0])], None),
        (vec![slow_a(5, 4), slow.clone()], vec![coarse_a([0, 0])], Some((2, 13))),
        (vec![slow_a(5, 5)], vec![], Some((1, 13))),
        (vec![slow_a(5, 5), a.clone()], vec![], Some((1, 13))),
        (vec![a.clone(), slow_a(5, 5)], vec![fine_a([2, 0]), fine_a([0, 0])], None),
        // The best for the first fills the bucket, and the second loses 100 for it. With 1 for
        // the first the second would lose nothing; but nothing is claimed for the list.
        (vec![light.clone(), heavy.clone()], vec![whole.clone(), halved(100)], None),
        (
            vec![heavy.clone(), light.clone(), heavy.clone()],
            vec![whole, halved(1), halved(100)],
            None,
        ),
        // The decoder starts from its own level, whatever was left in it.
        (
            vec![filler, thirsty.clone(), thirsty.with(START_DECODER, 2), thirsty.clone()],
            vec![(vec![(0, 0)], [0, 1, 3, 6, 0]), sipped.clone(), drunk, sipped],
            None,
        ),
        // Programmes of other lengths, delays and sizes. The bucket stays at 3, comes to 2, 3
        // and 4, and stays at 4, for which a size of 3 is too small.
        (
            vec![steady, slow.clone(), short.clone(), short.with(BUCKET, 3)],
            vec![
                (vec![(0, NO_CHOICE), (0, 0), (0, 0), (0, 0)], [3, 3, 4, 0, 0]),
                coarse_a([0, 0]),
                (vec![(0, 0); 2], [2, 2, 2, 0, 0]),
            ],
            Some((4, 20)),
        ),
        // Both buckets of a line are carried. Of the drain of 2 one goes by where the level
        // was 0.
        (vec![falling(4, 7), falling(0, 0)], vec![fallen([0, 0]); 2], None),
        (vec![falling(1, 0), falling(9, 9)], vec![fallen([0, 1]), fallen([1, 1])], None),
        (
            vec![falling(0, 2), falling(9, 9), falling(9, 9)],
            vec![fallen([1, 0]), fallen([1, 0]), fallen([1, 1])],
            None,
        ),
        (vec![two([2, 2, 0]); 2], vec![fine_a([2, 2]), fine_a([0, 0])], None),
        // The second drains 1, and 0, 2 and 2 grains bring it to 0, 1 and 2. From 2 they would
        // bring it to 3, for which a size of 3 is enough. From 3 a drain of 4 empties it.
        (vec![two([2, 1, 0]); 2], vec![coarse_a([2, 1])], Some((2, 13))),
        (
            vec![two([2, 1, 0]), two([3, 1, 0]), two([3, 4, 3])],
            vec![coarse_a([2, 1]), coarse_a([2, 0]), fine_a([2, 3])],
            None,
        ),
        // Of a size of 3 it takes 2, 2 and 2 grains, to 1, 2 and 3; and from 3 no four.
        (
            vec![two([3, 1, 0]); 2],
            vec![(vec![(1, NO_CHOICE), (1, 0), (1, 1)], [50, 6, 6, 0, 0])],
            Some((2, 13)),
        ),
        // A level that is carried: 4 in one bucket, or 2 in each of two.
        (vec![slow.clone(), slow_a(4, 0)], vec![fine_a([1, 0])], Some((2, 13))),
        (vec![slow.clone(), slow_a(3, 0)], vec![fine_a([1, 0])], Some((2, 20))),
        (vec![slow, slow_a(0, 0)], vec![fine_a([1, 0])], Some((2, 20))),
        (vec![two([2, 2, 0]), two([1, 2, 1])], vec![fine_a([2, 2])], Some((2, 20))),
        (vec![two([2, 2, 0]), two([2, 2, 1]).with(BUCKET, 1)], vec![fine_a([2, 2])], Some((2, 20))),
        (
            vec![two([2, 2, 0]), two([2, 2, 1]).with(BUCKET, 2)],
            vec![fine_a([2, 2]), fine_a([0, 0])],
            None,
        ),
        // A line of one bucket is not one of two.
        (vec![a.clone(), two([2, 2, 0])], vec![fine_a([2, 0])], Some((2, 22))),
        (vec![two([2, 2, 0]), a.clone()], vec![fine_a([2, 2])], Some((2, 22))),
        // A job's own level is wrong, though another stands in its place; or it never drains.
        (vec![a.clone(), a.with(START_BUCKET, 4)], vec![fine_a([2, 0])], Some((2, 3))),
        (vec![a.clone(), a.undrained(1), a], vec![fine_a([2, 0])], Some((2, 17))),
        (vec![two([2, 2, 0]), two([2, 0, 0])], vec![fine_a([2, 2])], Some((2, 17))),
    ]
}

/// Job A's table by hand, and over it that of a programme of one unit, of two words or six: it
/// takes nothing and loses 5, or takes a grain that is not there. Where this has no plan its
/// table stands all the same; where something else is wrong with it, nothing of it does.
fn check_tables_by_hand(rng: &mut Rng) -> Checked {
    let unit = |grains: u16| Draft::new(BARE, &[0], &[vec![(grains, 5)]]);
    // Job A leaves 2 in the bucket.
    let [takes_none, takes_one] = [0, 1].map(|grains| unit(grains).with(BUCKET, 2));
    let a = TABLE_A.concat().concat();
    let over_a = |first: [u32; 3]| [&first[..], &[0, 0, 0], &a[6..]].concat();
    let rows = [
        (vec![job_a()], (0, 0), a.clone()),
        (vec![unit(0)], (0, 0), vec![5, 0]),
        (vec![unit(1)], (1, 13), vec![NEVER, 0]),
        (vec![unit(0), job_a()], (0, 0), a.clone()),
        (vec![unit(1), job_a()], (1, 13), vec![NEVER, 0]),
        (vec![job_a(), takes_none.clone()], (0, 0), over_a([5; 3])),
        (vec![job_a(), takes_none.clone(), job_a()], (0, 0), a.clone()),
        (vec![job_a(), takes_one.clone()], (2, 13), over_a([NEVER; 3])),
        (vec![job_a(), takes_one, job_a()], (2, 13), over_a([NEVER; 3])),
        (vec![job_a(), unit(0)], (2, 20), a.clone()),
        (vec![job_a(), takes_none.with(DRAIN, 0)], (2, 17), a.clone()),
        (vec![job_a(), takes_none.doubled([2, 1, 0])], (2, 22), a.clone()),
    ];
    for (drafts, answer, table) in rows {
        let ask = Listing::row_of(&drafts);
        let check = || -> Checked {
            let played = check_played(rng, &ask)?;
            let mut lent = PlaylistLists::new(rng, &ask, [90, 90, 90]);
            same("by hand", answer, apart(lent.play(&ask)))?;
            lent.wrote(&ask, &Stands { table, ..Stands::of(&played) })
        };
        check().map_err(|trouble| ask.failed(&trouble))?;
    }
    Ok(())
}

/// Entries may overlap: a job stands in the choices of another one's unit, each six of its bytes
/// a choice.
fn check_jobs_in_jobs(rng: &mut Rng) -> Checked {
    let inner = in_one_interval([5, 1, 2], &[3], &[(3, 7)]).bytes();
    let mut choices: Vec<(u16, u32)> = Vec::new();
    for six in then(inner.clone(), &[0; 4]).chunks_exact(6) {
        choices.push((u16_at(six, 0), u32_at(six, 2)));
    }
    let outer = Draft::new([1, 9, 6, 2, 0, 6], &[0, 1, 2], &vec![choices; 2]).bytes();
    let first = outer.windows(inner.len()).position(|part| part == inner).ok_or("not in it")?;
    let [outer_entry, inner_entry] = [[0, outer.len() as u32], [first as u32, inner.len() as u32]];
    for order in [[0, 1, 0], [1, 0, 1], [0, 0, 1], [1, 1, 0]] {
        let entry = |which: usize| [outer_entry, inner_entry][which];
        let ask = Listing::of(outer.clone(), order.map(entry).concat());
        let mut check = || -> Checked {
            let played = check_played(rng, &ask)?;
            // The one within leaves 4 in a bucket of 5, and cannot be sent again at once.
            let twice = order == [1, 1, 0];
            same("jobs in jobs", if twice { 2 * 256 + 13 } else { 0 }, played.answer())?;
            check_one_by_one(&ask, &played)?;
            check_in_one_go(&ask, &played)?;
            check_typed_playlist(rng, &ask, ask.needs(&played))
        };
        check().map_err(|trouble| ask.failed(&trouble))?;
    }
    Ok(())
}

// ---------------------------------------------------------------------------
// Entries, levels, lengths and refusals of a playlist.
// ---------------------------------------------------------------------------

/// One job among other bytes, and entries of every first byte and every length: by themselves and
/// behind an entry that is right. Then entries whose two numbers pass 32 bits together.
fn entries_group() -> Result<String, String> {
    let mut rng = Rng(1);
    let job = in_one_interval([3, 1, 0], &[0, 2], &[(2, 0), (0, 4)]).bytes();
    // The other bytes begin as a header does, so that they are looked at.
    let (before, behind) = (vec![20, 0, 1, 0, 1], vec![0, 3, 0]);
    let bytes = [before.clone(), job.clone(), behind].concat();
    let (at, whole, end) = (before.len() as u64, job.len() as u64, bytes.len() as u64);
    let mut entries: Vec<[u64; 2]> = Vec::new();
    for first in 0..=end + 3 {
        entries.extend((0..=end + 3).map(|length| [first, length]));
    }
    // Of these the sum is one that does not pass, if its 33rd bit is lost.
    let all = 1 << 32;
    for sum in [0, 1, at, whole, at + whole, end - 1, end] {
        entries.extend([1, 2, whole, end, end + 1].map(|back| [all - back, back + sum]));
        entries.extend([sum + 1, sum + 2, end, end + 1].map(|first| [first, all - first + sum]));
    }
    let (most, half) = (all - 1, all / 2);
    entries.extend([[most, 0], [most, 1], [most, most], [0, most], [at, most], [half, half]]);
    entries.retain(|[first, length]| *first < all && *length < all);
    let mut tally: BTreeMap<u32, usize> = BTreeMap::new();
    let right = [at as u32, whole as u32];
    for (index, &[first, length]) in entries.iter().enumerate() {
        let near = |of: u64, to: u64| of + 1 >= to && of <= to + 1;
        let telling = near(first, at) && near(length, whole) || near(first + length, end);
        if small() && !telling && index % 31 > 0 {
            continue;
        }
        let due = match (first + length > end, first == at, length.cmp(&whole)) {
            (true, ..) => Some(22),
            (_, true, std::cmp::Ordering::Less) => Some(1),
            (_, true, std::cmp::Ordering::Equal) => Some(0),
            (_, true, std::cmp::Ordering::Greater) => Some(22),
            _ => None,
        };
        let entry = [first as u32, length as u32];
        for place in 1..=2 {
            let list = [right, entry][2 - place..].concat();
            let ask = Listing::of(bytes.clone(), list);
            let mut check = || -> Result<u32, String> {
                let played = ask.played(ENDLESS);
                let (found, number) = apart(played.answer());
                ensure!(due.map_or(true, |due| due == number), "{number} in place of {due:?}");
                ensure!(number == 0 || found == place as u32, "another place");
                check_played_in(&mut rng, &ask, [40, 9, 10], &played)?;
                if index % 13 == 0 || telling {
                    check_typed_playlist(&mut rng, &ask, [40, 9, 10])?;
                }
                Ok(number)
            };
            let number = check().map_err(|trouble| ask.failed(&trouble))?;
            *tally.entry(number).or_default() += 1;
        }
    }
    let counts = by_number(&tally);
    ensure!(tally.keys().eq(&[0, 1, 2, 3, 22]) || small(), "too little in it: {counts}");
    Ok(format!("entries by number ({counts})"))
}

/// Lists of every count of numbers up to 140, and of more: 1 to 64 entries are a list. Of the
/// totals a number is missing, or not.
fn entry_counts_group() -> Result<String, String> {
    let mut rng = Rng(1);
    let mut tally: BTreeMap<u32, usize> = BTreeMap::new();
    let job = in_one_interval([3, 1, 0], &[0, 2], &[(2, 0), (0, 4)]).bytes();
    let more = [255, 256, 257, 258, 384, 511, 512, 514, 640, 65_536, 65_538, 131_072, 131_074];
    for count in (0..=140).chain(more) {
        if small() && ![0, 1, 2, 3, 127, 128, 129, 130, 514].contains(&count) {
            continue;
        }
        let entries: Vec<u32> = [0, job.len() as u32].repeat(count / 2 + 1)[..count].to_vec();
        let ask = Listing::of(job.clone(), entries);
        let needed = PROGRAMME_TOTALS * (count / 2);
        for totals in [needed.saturating_sub(1), needed, needed + 1, 0, 5, 320, 330] {
            let list = count % 2 == 1 || count == 0 || count > 128;
            // The first whose totals do not fit.
            let place = (totals / PROGRAMME_TOTALS + 1) as u32;
            let due = first_of(&[(list, 21), (totals < needed, 12)]);
            let due = if due == 12 { 256 * place + 12 } else { due };
            let room = [40, ENTRY_BYTES * (count / 2), totals];
            let mut check = || -> Checked {
                let played = ask.played(room);
                same("by count", due, played.answer())?;
                check_played_in(&mut rng, &ask, room, &played)?;
                check_typed_playlist(&mut rng, &ask, room)
            };
            check().map_err(|trouble| format!("{count} numbers, {totals} totals: {trouble}"))?;
            *tally.entry(apart(due).1).or_default() += 1;
        }
    }
    let counts = by_number(&tally);
    ensure!(tally.keys().eq(&[0, 12, 21]), "too little in it: {counts}");
    Ok(format!("lists by number ({counts})"))
}

/// Every level of a bucket carried into a bucket that just holds it, and into one that just does
/// not; of two buckets either, or both. A job that comes after starts from there again.
fn carried_on_group() -> Result<String, String> {
    let mut rng = Rng(1);
    let mut tally: BTreeMap<(u32, u32), usize> = BTreeMap::new();
    // A grain comes and a grain drains, so that a level stays. The job's own is any.
    let draft = |rng: &mut Rng, sizes: &[i64], levels: Option<&[i64]>| {
        let mut own = |at: usize| match levels {
            Some(levels) => levels[at] as u16,
            None => rng.from(0, sizes[at] as usize) as u16,
        };
        let draft = even_job(1, [0, 1, sizes[0] as u16, 1, 0, own(0)]);
        match sizes.get(1) {
            Some(&size) => draft.doubled([size as u16, 1, own(1)]),
            None => draft,
        }
    };
    for buckets in 1..=MOST_BUCKETS {
        let largest = &LARGEST[..buckets];
        for step in 0..=largest[0] {
            if small() && step % 17 > 0 {
                continue;
            }
            let levels = [step, if step <= 63 { step } else { rng.from(0, 63) as i64 }];
            let levels = &levels[..buckets];
            // Which of the buckets is one too small.
            for bits in 0..1 << buckets {
                let less = |at: usize| (bits >> at & 1) as i64;
                let sizes: Vec<i64> = (0..buckets).map(|at| levels[at] - less(at)).collect();
                if sizes.iter().any(|size| *size < 0) {
                    continue;
                }
                let drafts = [
                    draft(&mut rng, largest, Some(levels)),
                    draft(&mut rng, levels, None),
                    draft(&mut rng, &sizes, None),
                    draft(&mut rng, largest, None),
                ];
                let ask = Listing::row_of(&drafts);
                let mut check = || -> Checked {
                    let due = if bits > 0 { 3 * 256 + 20 } else { 0 };
                    let played = ask.played(ENDLESS);
                    same("by hand", due, played.answer())?;
                    for sent in &played.sent {
                        same("the levels stay", levels, &sent.ended().1[..buckets])?;
                    }
                    check_played_in(&mut rng, &ask, ask.needs(&played), &played)?;
                    if step % 16 == 0 {
                        check_one_by_one(&ask, &played)?;
                        check_in_one_go(&ask, &played)?;
                        check_typed_playlist(&mut rng, &ask, ask.needs(&played))?;
                    }
                    Ok(())
                };
                check().map_err(|trouble| ask.failed(&trouble))?;
                *tally.entry((buckets as u32, bits)).or_default() += 1;
            }
        }
    }
    let each: Vec<String> = tally
        .iter()
        .map(|((buckets, bits), count)| {
            format!("{count} with {} of {buckets} over", bits.count_ones())
        })
        .collect();
    Ok(each.join(", "))
}

/// Lists of every length for three programmes that need 20, 42 and 96 words: the first one that
/// needs more is refused, and what was written before it stays.
fn playlist_lengths_group() -> Result<String, String> {
    let mut rng = Rng(1);
    let mut tally: BTreeMap<(u32, u32), usize> = BTreeMap::new();
    let unit = vec![(2, 0), (1, 3), (0, 7)];
    let draft = |units: usize, delay: u16, decoder: u16| {
        Draft::new([delay, decoder, 4, 1, 0, 1], &[0, 1, 2], &vec![unit.clone(); units])
    };
    let one = [draft(1, 0, 1), draft(2, 0, 2), draft(2, 1, 3)];
    let two = one.clone().map(|draft| draft.doubled([2, 1, 0]));
    for drafts in [one, two] {
        let ask = Listing::scattered(&mut rng, &drafts);
        let needs = ask.needs(&ask.played(ENDLESS));
        for (which, need) in needs.into_iter().enumerate() {
            for length in 0..=need + 2 {
                if small() && length % 7 > 0 && length + 1 < need {
                    continue;
                }
                // The others are as long as is needed, longer, or too short as well.
                let mut room = needs.map(|need| need + slack(&mut rng));
                if rng.one_in(8) {
                    let other = (which + rng.from(1, 2)) % 3;
                    room[other] = rng.from(0, needs[other] - 1);
                }
                room[which] = length;
                let played = ask.played(room);
                let checked = check_played_in(&mut rng, &ask, room, &played)
                    .and_then(|_| check_typed_playlist(&mut rng, &ask, room));
                checked.map_err(|trouble| ask.failed(&trouble))?;
                *tally.entry(apart(played.answer())).or_default() += 1;
            }
        }
    }
    let each: Vec<String> = tally
        .iter()
        .map(|((place, number), count)| format!("{count} {number} at {place}"))
        .collect();
    let counts = each.join(", ");
    let refused = (1..=3).flat_map(|place| [11, 12].map(|number| (place, number)));
    let all = [(0, 0)].into_iter().chain(refused);
    ensure!(tally.keys().copied().eq(all) || small(), "too little in it: {counts}");
    Ok(format!("lists by number and place ({counts})"))
}

/// What may be wrong with a programme: the number of its job, and a bit for each of the others:
/// the entry passes; bytes are left behind the job; it has another number of buckets; a carried
/// level is over; the table is too short, and what is left of the entries or of the totals; there
/// is no plan.
type Defects = (Refusal, u32);

/// How many bits these are.
const DEFECTS: usize = 7;

/// Three programmes, and every set of defects at each place; in most lists the others have some
/// too. The first place with a defect counts, and there the first defect in order. What is wrong
/// with the list as a whole comes before all.
fn playlist_order_group() -> Result<String, String> {
    let mut rng = Rng(1);
    let mut tally: BTreeMap<(u32, u32), usize> = BTreeMap::new();
    for buckets in 1..=MOST_BUCKETS {
        for place in 0..3 {
            for (wrong, bits) in [0, 1, 2, 3, 4, 5, 17]
                .into_iter()
                .flat_map(|wrong| (0..1 << DEFECTS).map(move |bits| (wrong, bits)))
            {
                if small() && (bits + wrong as u32) % 23 > 0 && bits.count_ones() != 1 {
                    continue;
                }
                // What comes last is seldom the first; so it is tried again.
                let last = if wrong == 0 { bits.trailing_zeros().min(DEFECTS as u32) } else { 0 };
                for _ in 0..if small() { 1 } else { 1 + 4 * last } {
                    let defects = other_defects(&mut rng, place, (wrong, bits));
                    let no_list = rng.one_in(24);
                    let answer = check_playlist_order(&mut rng, buckets, &defects, no_list)
                        .map_err(|trouble| {
                            let of = format!("defects {defects:?}, no list: {no_list}");
                            format!("{buckets} buckets, {of}: {trouble}")
                        })?;
                    *tally.entry(apart(answer)).or_default() += 1;
                }
            }
        }
    }
    let each: Vec<String> = tally
        .iter()
        .map(|((place, number), count)| format!("{count} {number} at {place}"))
        .collect();
    let counts = each.join(", ");
    // Nothing is carried to the first.
    let numbers = [1, 2, 3, 4, 5, 11, 12, 13, 17, 20, 22];
    let at = |place: u32| numbers.map(|number| (place, number)).into_iter();
    let due = [0, 21].map(|number| (0, number)).into_iter();
    let due = due.chain(at(1).filter(|of| of.1 != 20)).chain(at(2)).chain(at(3));
    ensure!(tally.keys().copied().eq(due) || small(), "too little in it: {counts}");
    Ok(format!("sets of defects by number and place ({counts})"))
}

/// These at one place, and in half of the lists some at another: mostly not at one before it.
fn other_defects(rng: &mut Rng, place: usize, here: Defects) -> [Defects; 3] {
    let mut defects = [(0, 0); 3];
    for (other, defects) in defects.iter_mut().enumerate() {
        if rng.one_in(2) && (other > place || rng.one_in(4)) {
            let wrong = rng.pick(&[0, 0, 0, 0, 1, 2, 3, 4, 5, 17]);
            *defects = (wrong, 1 << rng.from(0, DEFECTS - 1));
        }
    }
    defects[place] = here;
    defects
}

fn check_playlist_order(
    rng: &mut Rng,
    buckets: usize,
    defects: &[Defects; 3],
    no_list: bool,
) -> Result<u32, String> {
    let has = |place: usize, bit: usize| defects[place].1 >> bit & 1 == 1;
    let (mut jobs, mut dues, mut words) = (Vec::new(), Vec::new(), Vec::new());
    for (place, &(wrong, _)) in defects.iter().enumerate() {
        let [_, behind, other, over, _, _, none] = std::array::from_fn(|bit| has(place, bit));
        // Job A, which leaves 2 in each bucket. The decoders grow, and with them the tables, so
        // that one is too short for the first time where that is asked for.
        let decoder = [[4, 10, 22], [4, 20, 84]][buckets - 1][place];
        let mut draft = job_a().with(DECODER, decoder);
        if buckets > 1 {
            draft = draft.doubled([3, 2, 0]);
        }
        if over && place > 0 {
            let which = rng.from(1, (1 << buckets) - 1);
            for at in (0..buckets).filter(|at| which >> at & 1 == 1) {
                draft = draft.with(BUCKET_FIELDS[at][0], 1);
            }
        }
        if none {
            draft.units[0] = vec![(4095, 10), (4095, 30)];
        }
        words.push(draft.words());
        if other && place > 0 {
            draft = if buckets > 1 { draft.alone() } else { draft.doubled([63, 4095, 0]) };
        }
        if wrong == 17 {
            let which = rng.from(1, (1 << draft.buckets().len()) - 1);
            draft = draft.undrained(which);
        }
        // A job is cut by so much that it is cut with the bytes behind it too.
        let mut bytes = wrong_job(&draft, wrong);
        bytes.truncate(bytes.len() - if wrong == 1 { 9 } else { 0 });
        let due = first_of(&[
            (has(place, 0), 22),
            (wrong > 0, wrong),
            (behind, 22),
            (other && place > 0, 22),
            (over && place > 0, 20),
            (has(place, 4), 11),
            (has(place, 5), 12),
            (none, 13),
        ]);
        dues.push(if due > 0 { 256 * (place as u32 + 1) + due } else { 0 });
        jobs.push(bytes);
    }

    let gap = 4;
    let parts: Vec<Vec<u8>> = jobs.iter().map(|job| then(job.clone(), &vec![0; gap])).collect();
    let mut ask = Listing::row(&parts);
    for (place, job) in jobs.iter().enumerate() {
        let behind = if has(place, 1) { rng.from(1, gap) } else { 0 };
        ask.entries[2 * place + 1] = (job.len() + behind) as u32;
        if has(place, 0) {
            let [first, length] = [ask.entries[2 * place], ask.entries[2 * place + 1]];
            let end = ask.bytes.len() as u32;
            // A number whose sum with this one has 33 bits.
            let mut wraps = |number: u32| 0u32.wrapping_sub(rng.from(1, number as usize) as u32);
            let passing = [
                [first, end - first + 1],
                [end + 1, 0],
                [end - length + 1, length],
                [wraps(length), length],
                [first.max(1), wraps(first.max(1))],
                [u32::MAX, u32::MAX],
            ];
            ask.entries[2 * place..][..2].copy_from_slice(&rng.pick(&passing));
        }
    }
    // The most that leaves a list too short for one place and not for those before it, or less.
    let short = |rng: &mut Rng, bit: usize, needs: &dyn Fn(usize) -> [usize; 2]| {
        let [least, most] = (0..3).find(|&place| has(place, bit)).map(needs)?;
        let most = most.max(least + 1) - 1;
        Some(if rng.one_in(2) { most } else { rng.from(least, most) })
    };
    let before = |place: usize| words[..place].iter().copied().max().unwrap_or(0);
    let table = short(rng, 4, &|place| [before(place), words[place]]);
    // The plan of a programme has no room, or its totals have none, or neither has.
    let which = rng.from(1, 3);
    let entries = short(rng, 5, &|place| [9 * place, 9 * place + 9]);
    let totals = short(rng, 5, &|place| [5 * place, 5 * place + 5]);
    let entries = entries.filter(|_| which & 1 > 0).unwrap_or(27);
    let totals = totals.filter(|_| which & 2 > 0).unwrap_or(15);
    let room = [table.unwrap_or(before(3)), entries, totals];
    let mut due = dues.into_iter().find(|due| *due > 0).unwrap_or(0);
    if no_list {
        match rng.from(0, 2) {
            0 => ask.entries.clear(),
            1 => ask.entries.truncate(5),
            _ => ask.entries = ask.entries.repeat(22)[..2 * rng.from(65, 66)].to_vec(),
        }
        ask.entries.shrink_to_fit();
        due = 21;
    }
    let played = ask.played(room);
    same("in order", apart(due), apart(played.answer()))?;
    check_played_in(rng, &ask, room, &played)?;
    if rng.one_in(8) {
        check_typed_playlist(rng, &ask, room)?;
    }
    Ok(due)
}

// ---------------------------------------------------------------------------
// Random playlists.
// ---------------------------------------------------------------------------

/// What playlists had in them.
#[derive(Default)]
struct Playlists {
    lists: usize,
    planned: usize,
    /// Of these, with other levels at the start than the job's own; and with a plan or totals
    /// that the own levels do not give.
    carried: [usize; 2],
    /// Lists of one entry and of 64, and with two buckets.
    ends: [usize; 2],
    two: usize,
    /// How many came to each number; and at which places they were refused: the first, one in
    /// the middle, and the last.
    numbers: BTreeMap<u32, usize>,
    places: [usize; 3],
    told: Told,
}

impl Playlists {
    fn count(&mut self, ask: &Listing, played: &Played) {
        self.lists += 1;
        self.planned += played.sent.len();
        self.ends[0] += (ask.count() == 1) as usize;
        self.ends[1] += (ask.count() == MOST_PROGRAMMES) as usize;
        let (place, number) = apart(played.answer());
        *self.numbers.entry(number).or_default() += 1;
        if place > 0 {
            let last = place as usize == ask.count();
            self.places[if place == 1 { 0 } else { 1 + last as usize }] += 1;
        }
        let Some(first) = played.searched().next() else { return };
        self.two += (first.buckets.len() > 1) as usize;
        for (sent, entry) in played.sent.iter().zip(ask.entries.chunks(2)) {
            let own = read_entry(&ask.bytes, entry).expect("a job that was planned");
            if own.start_levels() == sent.job.start_levels() {
                continue;
            }
            self.carried[0] += 1;
            let alone = late_by_table(&own).map(|plan| Sent { job: own, plan });
            let same = |alone: Sent| alone.plan == sent.plan && alone.totals() == sent.totals();
            self.carried[1] += !alone.is_some_and(same) as usize;
        }
    }

    fn show(&self) -> String {
        let Playlists { lists, planned, carried, ends, two, numbers, places, told } = self;
        format!(
            "{lists} lists by number ({}), refused at the first place {}, between {} and at the \
             last {}; {planned} programmes planned, {} from other levels than their own and {} \
             otherwise for it; {} lists of one and {} of 64, {two} of two buckets{}",
            by_number(numbers),
            places[0],
            places[1],
            places[2],
            carried[0],
            carried[1],
            ends[0],
            ends[1],
            if told.is_empty() { String::new() } else { told.show() }
        )
    }
}

/// Says of each mistaken rule whether something else comes of the list under it.
fn playlist_mistakes(ask: &Listing, played: &Played) -> Vec<Mistake> {
    let shown = |played: &Played| -> (u32, Vec<ByHand>) {
        let each = played.sent.iter().map(|of| (of.plan.clone(), of.totals()));
        (played.answer(), each.collect())
    };
    let due = shown(played);
    type Start<'a> = &'a dyn Fn(&Job, &[Sent]) -> Result<Job, Refusal>;
    let other = |start: Start, plan: &dyn Fn(&Job) -> Option<Plan>| {
        shown(&play_by(start, &ask.bytes, &ask.entries, ENDLESS, plan)) != due
    };
    // With other levels in the place of those at the last one's end.
    let levels = |of: &dyn Fn(&Job, &Sent) -> Levels| {
        let start = |job: &Job, sent: &[Sent]| match sent.last() {
            None => Ok(job.clone()),
            Some(last) => {
                let levels = of(job, last);
                let holds = hold(job, &levels);
                holds.then(|| started(job, &levels)).ok_or(20)
            }
        };
        other(&start, &late_by_table)
    };
    let two = played.searched().next().is_some_and(|job| job.buckets.len() > 1);
    let mut mistakes = vec![
        ("levels not carried", levels(&|job, _| job.start_levels())),
        ("the start carried", levels(&|_, last| last.job.start_levels())),
        ("a level before the last", levels(&|_, last| last.after(last.plan.len() - 1).1)),
        ("empty buckets", levels(&|_, _| [0; MOST_BUCKETS])),
        ("the first one's end carried", {
            let start = |job: &Job, sent: &[Sent]| sent_after(job, &sent[..sent.len().min(1)]);
            other(&start, &late_by_table)
        }),
        ("the decoder carried", {
            let start = |job: &Job, sent: &[Sent]| {
                let mut job = sent_after(job, sent)?;
                let level = sent.last().map(|last| last.ended().0);
                job.start_decoder = level.unwrap_or(job.start_decoder).min(job.decoder_size);
                Ok(job)
            };
            other(&start, &late_by_table)
        }),
        ("levels cut to the size", {
            levels(&|job, last| {
                let mut levels = last.ended().1;
                for (level, bucket) in levels.iter_mut().zip(&job.buckets) {
                    *level = (*level).min(bucket.size);
                }
                levels
            })
        }),
        ("a full bucket refused", {
            let start = |job: &Job, sent: &[Sent]| {
                let job = sent_after(job, sent)?;
                let full = job.buckets.iter().any(|bucket| bucket.start == bucket.size);
                if full && !sent.is_empty() {
                    return Err(20);
                }
                Ok(job)
            };
            other(&start, &late_by_table)
        }),
        ("early", {
            let early = |job: &Job| {
                read_off_in(Order::Early, job, &free(job), &fast_table(job, &free(job)))
            };
            other(&sent_after, &early)
        }),
        ("even", {
            let even = |job: &Job| dynamic_even(Order::Late, job, &free(job));
            other(&sent_after, &even)
        }),
    ];
    if two {
        for (at, name) in ["the first bucket's own", "the second bucket's own"].iter().enumerate() {
            let own = |job: &Job, last: &Sent| {
                let mut levels = last.ended().1;
                levels[at] = job.start_levels()[at];
                levels
            };
            mistakes.push((*name, levels(&own)));
        }
    }
    mistakes
}

/// A list of one programme is planned as planning plans it late, without pins; what opening
/// refuses is refused by the same number.
fn alone_group(seed: u64, asks: bool) -> Result<String, String> {
    let mut rng = Rng(seed);
    let mut playlists = Playlists::default();
    for index in 1..=scaled(400) {
        let draft = match index % 6 {
            0 => random_tiny_double(&mut rng),
            1 => random_job(&mut rng, &TINY),
            2 => random_equal_job(&mut rng, &EQUAL[0]),
            3 => random_sized_job(&mut rng, &SIZED[0]),
            4 => random_tight_job(&mut rng, &TIGHT[0]),
            _ => random_double_job(&mut rng, &DOUBLE[0]),
        };
        let mut draft = random_stored(&mut rng, &draft, 20);
        draft.commands.clear();
        let mut bytes = draft.bytes();
        if rng.one_in(10) {
            harm(&mut rng, &mut bytes);
        }
        let ask = Listing::row(&[bytes]);
        let mut check = || -> Result<Played, String> {
            let played = check_played(&mut rng, &ask)?;
            let tried = ask.tried(ENDLESS);
            same("every plan tried", tried.answer(), played.answer())?;
            check_one_by_one(&ask, &played)?;
            let mut values = [0; 4];
            let opened = numbers::open(&ask.bytes, &mut values);
            if opened > 0 || values[0] as usize != ask.bytes.len() {
                let number = if opened > 0 { opened } else { 22 };
                same("opening", 256 + number, played.answer())?;
            }
            check_typed_playlist(&mut rng, &ask, ask.needs(&played))?;
            Ok(played)
        };
        let played = check()
            .map_err(|trouble| format!("seed {seed}, job {index}: {}", ask.failed(&trouble)))?;
        playlists.count(&ask, &played);
    }
    let counts = playlists.show();
    let often = |number: &u32| playlists.numbers.get(number).is_some_and(|count| *count > 2);
    ensure!([0, 13, 17].iter().all(often) || !asks, "too little in it: {counts}");
    Ok(counts)
}

/// Lists of 1 to 64 tiny jobs, by trying every plan of each from the levels that the one before
/// it left.
fn tiny_playlists_group(seed: u64, asks: bool) -> Result<String, String> {
    let mut rng = Rng(seed);
    let mut playlists = Playlists::default();
    for index in 1..=scaled(300) {
        let count = match index % 15 {
            0 => MOST_PROGRAMMES,
            1 => 1,
            2 => rng.from(9, MOST_PROGRAMMES - 1),
            _ => rng.from(2, 8),
        };
        let steady = if count > 8 { 400 } else { 6 };
        let mut drafts = random_programmes(&mut rng, 0, count, steady);
        if rng.one_in(6) {
            harm_programme(&mut rng, &mut drafts[count - 1..]);
        }
        let ask = Listing::scattered(&mut rng, &drafts);
        let mut check = || -> Result<Played, String> {
            let played = check_played(&mut rng, &ask)?;
            let tried = ask.tried(ENDLESS);
            same("every plan tried", tried.refused, played.refused)?;
            for (place, (one, other)) in (1..).zip(tried.sent.iter().zip(&played.sent)) {
                let what = format!("every plan of programme {place} tried");
                same(&what, (&one.plan, one.totals()), (&other.plan, other.totals()))?;
            }
            if let Some(last) = played.searched().last() {
                let table = Stands::of(&played).table;
                for _ in 0..2 {
                    let at = rng.from(0, last.words() - 1);
                    let word = word_by_completions(last, &free(last), at);
                    same(&format!("every completion of word {at}"), word, table[at])?;
                }
            }
            check_one_by_one(&ask, &played)?;
            check_in_one_go(&ask, &played)?;
            if index % 3 == 0 {
                check_typed_playlist(&mut rng, &ask, ask.needs(&played))?;
            }
            Ok(played)
        };
        let played = check()
            .map_err(|trouble| format!("seed {seed}, list {index}: {}", ask.failed(&trouble)))?;
        playlists.count(&ask, &played);
        if count > 1 && count < 9 {
            playlists.told.add(&playlist_mistakes(&ask, &played));
        }
    }
    let counts = playlists.show();
    let Playlists { lists, planned, carried, ends, two, numbers, places, told } = &playlists;
    let often = |number: &u32| numbers.get(number).is_some_and(|count| count * 40 > *lists);
    let worthwhile = [0, 13, 20].iter().all(often)
        && [&ends[..], &places[1..], &[*two]].concat().iter().all(|count| count * 30 > *lists)
        && carried.iter().all(|count| count * 4 > *planned)
        && told.each(25);
    ensure!(worthwhile || !asks, "too little in it: {counts}");
    Ok(counts)
}

/// Lists of jobs too large to try everything, by tables, and by the dynamic program where that is
/// not too long.
fn larger_playlists_group(seed: u64, asks: bool) -> Result<String, String> {
    let mut rng = Rng(seed);
    let mut playlists = Playlists::default();
    for index in 1..=scaled(120) {
        let count = rng.from(2, 6);
        let drafts = random_programmes(&mut rng, 1, count, 15);
        let ask = Listing::scattered(&mut rng, &drafts);
        let mut check = || -> Result<Played, String> {
            let played = check_played(&mut rng, &ask)?;
            for sent in played.sent.iter().filter(|sent| sent.job.words() < 2500) {
                let plan = dynamic(Order::Late, &sent.job, &free(&sent.job));
                same("the dynamic program", Some(&sent.plan), plan.as_ref())?;
            }
            check_one_by_one(&ask, &played)?;
            check_in_one_go(&ask, &played)?;
            check_typed_playlist(&mut rng, &ask, ask.needs(&played))?;
            Ok(played)
        };
        let played = check()
            .map_err(|trouble| format!("seed {seed}, list {index}: {}", ask.failed(&trouble)))?;
        playlists.count(&ask, &played);
    }
    let counts = playlists.show();
    let Playlists { planned, carried, numbers, .. } = &playlists;
    let worthwhile = carried[1] * 4 > *planned && numbers.get(&0).is_some_and(|count| *count > 5);
    ensure!(worthwhile || !asks, "too little in it: {counts}");
    Ok(counts)
}

/// Lists with something wrong in one place or a few: in a job's bytes, in its draft, in the two
/// numbers of an entry or in their count; and lists of any length.
fn harmed_playlists_group(seed: u64, asks: bool) -> Result<String, String> {
    let mut rng = Rng(seed);
    let mut playlists = Playlists::default();
    let inputs = scaled(8000);
    for index in 1..=inputs {
        let count = rng.pick(&[1, 2, 2, 3, 3, 4, 6]);
        let mut drafts = random_programmes(&mut rng, 0, count, 12);
        let mut harms = rng.pick(&[0, 1, 1, 1, 2, 3]);
        while harms > 0 && rng.one_in(3) {
            harm_programme(&mut rng, &mut drafts);
            harms -= 1;
        }
        let mut ask = Listing::scattered(&mut rng, &drafts);
        for _ in 0..harms {
            harm_listing(&mut rng, &mut ask);
        }
        let ask = Listing::of(ask.bytes, ask.entries);
        let played = ask.played(ENDLESS);
        let room = ask.needs(&played).map(|need| match rng.from(0, 11) {
            0 => need.saturating_sub(1),
            1 => rng.from(0, need),
            2..=4 => need,
            _ => need + rng.from(1, 9),
        });
        let played = ask.played(room);
        let mut check = || -> Checked {
            check_played_in(&mut rng, &ask, room, &played)?;
            if index % 4 == 0 {
                check_typed_playlist(&mut rng, &ask, room)?;
            }
            Ok(())
        };
        check()
            .map_err(|trouble| format!("seed {seed}, input {index}: {}", ask.failed(&trouble)))?;
        playlists.count(&ask, &played);
    }
    let counts = playlists.show();
    let Playlists { lists, numbers, places, .. } = &playlists;
    let often = |number: &u32| numbers.get(number).is_some_and(|count| count * 400 > *lists);
    let due = [0, 1, 2, 3, 4, 5, 11, 12, 13, 17, 20, 21, 22];
    let worthwhile = due.iter().all(often) && places.iter().all(|count| count * 12 > *lists);
    ensure!(worthwhile || !asks, "too little in it: {counts}");
    Ok(counts)
}

/// Something else in one of the drafts: a bucket that never drains, one bucket more or less, a
/// smaller bucket, a level that is over, or a unit that takes too much.
fn harm_programme(rng: &mut Rng, drafts: &mut [Draft]) {
    let at = rng.from(0, drafts.len() - 1);
    let draft = &mut drafts[at];
    let count = draft.buckets().len();
    let [size, _, start] = BUCKET_FIELDS[rng.from(0, count - 1)];
    match rng.from(0, 5) {
        0 => *draft = draft.undrained(rng.from(1, (1 << count) - 1)),
        1 if count > 1 => *draft = draft.alone(),
        1 => *draft = draft.doubled([7, 1, 0]),
        2 => (draft.header[size], draft.header[start]) = (rng.from(0, 2) as u16, 0),
        3 => draft.header[start] = draft.header[size] + rng.from(0, 1) as u16,
        4 => draft.header[START_DECODER] = draft.header[DECODER] + rng.from(0, 1) as u16,
        _ => draft.units[0].iter_mut().for_each(|coding| coding.0 = rng.pick(&[9, 4095, 4096])),
    }
}

/// Something else in the bytes of a playlist or in its numbers.
fn harm_listing(rng: &mut Rng, ask: &mut Listing) {
    let at = rng.from(0, ask.entries.len() - 1);
    let end = ask.bytes.len() as u32;
    match rng.from(0, 11) {
        0..=3 => {
            // In a job or not far from its first byte.
            let first = ask.entries[at / 2 * 2] as usize;
            let near = if rng.one_in(2) { 40 } else { ask.bytes.len() };
            let place = (first + rng.from(0, near)).min(ask.bytes.len() - 1);
            ask.bytes[place] = match rng.from(0, 3) {
                0 => rng.next() as u8,
                1 => ask.bytes[place].wrapping_add(1),
                2 => ask.bytes[place].wrapping_sub(1),
                _ => rng.pick(&[0, 1, 2, 3, 15, 16, 17, 255]),
            };
        }
        4 => ask.bytes.truncate(rng.from(ask.bytes.len() / 2, ask.bytes.len())),
        5 | 6 => ask.entries[at] = ask.entries[at].wrapping_add(rng.pick(&[1, u32::MAX, 256])),
        7 => ask.entries[at] = rng.pick(&[0, 1, end, end + 1, u32::MAX, u32::MAX - end]),
        8 => ask.entries.swap(at, at / 2 * 2),
        9 => drop(ask.entries.remove(at)),
        10 => ask.entries.push(rng.from(0, ask.bytes.len()) as u32),
        _ => {
            let count = rng.pick(&[0, 2 * MOST_PROGRAMMES, 2 * MOST_PROGRAMMES + 2]);
            ask.entries = ask.entries.repeat(count / ask.entries.len() + 1)[..count].to_vec();
        }
    }
    if ask.entries.is_empty() {
        // No list, which no second harm can be done to.
        ask.entries.push(0);
    }
    if ask.bytes.is_empty() {
        ask.bytes.push(0);
    }
}

/// Playlists of trial jobs, by tables: 64 of them, long ones, many choices, two buckets. Each
/// programme has a size and a state. The states of the long ones are some from which there is a
/// plan, found by trying: with a first rate above 0 a delay of 64 fills the decoder.
fn large_playlists_group() -> Result<String, String> {
    let few = Size { units: 8, delay: 2, decoder: 63, bucket: 63, rates: 8, choices: 8 };
    let long = Size { units: 512, delay: 64, decoder: 31, bucket: 31, choices: 16, ..few };
    let wide = Size { units: 6, rates: 16, choices: 1000, ..few };
    let fine = Size { decoder: 31, bucket: 31, choices: 31, ..few };
    let lists: [(&str, Vec<(Size, u32)>, Option<[u16; 3]>); 4] = [
        ("64 programmes", (1..=64).map(|state| (few, state)).collect(), None),
        ("long programmes", vec![(long, 4), (fine, 2), (long, 7)], None),
        ("a thousand choices", vec![(wide, 1), (few, 2), (wide, 3), (wide, 4)], None),
        ("two buckets", (1..=6).map(|state| (fine, state)).collect(), Some([31, 21, 5])),
    ];
    let mut rng = Rng(5);
    let (mut programmes, mut words) = (0, 0);
    for (name, list, second) in &lists {
        let mut check = || -> Checked {
            let mut drafts = Vec::new();
            for (size, state) in list {
                let fields = size.header(*second);
                let draft = trial_lists(&fields, *state).draft();
                ensure!(draft.bytes() == trial_of(&fields, *state)?, "another trial job");
                drafts.push(draft);
            }
            let ask = Listing::row_of(&drafts);
            let played = ask.played(ENDLESS);
            same("a list that can be sent", (0, 0), apart(played.answer()))?;
            let room = ask.needs(&played).map(|need| need + slack(&mut rng));
            check_played_in(&mut rng, &ask, room, &played)?;
            check_one_by_one(&ask, &played)?;
            check_in_one_go(&ask, &played)?;
            programmes += list.len();
            words += played.searched().map(Job::words).sum::<usize>();
            Ok(())
        };
        check().map_err(|trouble| format!("{name}: {trouble}"))?;
    }
    check_largest_programme(&mut rng).map_err(|trouble| format!("the largest job: {trouble}"))?;
    Ok(format!("{} lists, {programmes} programmes, {words} words", lists.len()))
}

/// The job of the most bytes, by itself and with other bytes behind it, however many they are.
fn check_largest_programme(rng: &mut Rng) -> Checked {
    let unit: Vec<(u16, u32)> =
        (0..1000).map(|choice| (choice % 3, 1000 - choice as u32)).collect();
    let rates: Vec<u16> = (0..16).collect();
    let draft = Draft::new([64, 2, 2, 1, 0, 0], &rates, &vec![unit; 512]).doubled([2, 1, 0]);
    let job = draft.bytes();
    same("its bytes", 3_074_112, job.len())?;
    for behind in [0, 1, 2, job.len(), 5_000_000] {
        let bytes = then(job.clone(), &vec![0; behind]);
        let ask = Listing::of(bytes.clone(), vec![0, bytes.len() as u32, 0, job.len() as u32]);
        let played = ask.played(ENDLESS);
        let due = if behind > 0 { (1, 22) } else { (0, 0) };
        same(&format!("{behind} bytes behind it"), due, apart(played.answer()))?;
        let needs = ask.needs(&played);
        check_played_in(rng, &ask, needs, &played)?;
        check_typed_playlist(rng, &ask, needs)?;
    }
    Ok(())
}

// ---------------------------------------------------------------------------
// Large jobs.
// ---------------------------------------------------------------------------

/// A trial job with pins: of units 1, 17, 33 and so on each at the choice that takes least,
/// so that a small decoder can hold it. The states are some from which there is a plan,
/// found by trying; from state 1 there mostly is.
fn large_trial(size: &Size, second: Option<[u16; 3]>, state: u32) -> Result<Draft, String> {
    let fields = size.header(second);
    let mut draft = trial_lists(&fields, state).draft();
    ensure!(draft.bytes() == trial_of(&fields, state)?, "another trial job, state {state}");
    draft.commands = (1..=size.units)
        .step_by(16)
        .map(|unit| Pin(unit as u16, smallest(&draft.units[unit - 1])))
        .collect();
    Ok(draft)
}

/// The choice of a unit that takes least.
fn smallest(unit: &[(u16, u32)]) -> u16 {
    (0..unit.len()).min_by_key(|&choice| unit[choice].0).expect("a choice") as u16
}

/// A job with a plan that no trial job is: its units take up to 200 grains, and lose up to
/// 1,000,000 where a trial job's take at most 63 and lose at most 65,535. They have fine
/// and coarse codings around what the line carries in an interval.
fn large_job(rng: &mut Rng, size: &Size) -> Draft {
    let rates: Vec<u16> = (0..size.rates).map(|i| (i * 40 / size.rates.max(2)) as u16).collect();
    let mut unit = || {
        let finest = if rng.one_in(12) { rng.from(80, 200) } else { rng.from(10, 50) };
        let coding = |choice: usize| {
            let grains = finest * (size.choices - choice) / size.choices;
            let lost = (finest - grains) * rng.from(3, 40);
            (grains as u16, (lost * lost / 8 + rng.from(0, 60)).min(1_000_000) as u32)
        };
        (0..size.choices).map(coding).collect::<Vec<(u16, u32)>>()
    };
    let units: Vec<_> = (0..size.units).map(|_| unit()).collect();
    let mut draft = Draft { header: size.header(None), rates, units, commands: Vec::new() };
    for _ in 0..size.units / 16 {
        let unit = rng.from(1, size.units);
        // Of the coarsest, so that a small decoder can hold them.
        let choice = size.choices - 1 - rng.from(0, size.choices / 16);
        draft.commands.push(Pin(unit as u16, choice as u16));
    }
    draft
}

/// Parts of the largest work, cut down in one way or another.
fn large_group() -> Result<String, String> {
    let few = Size { units: 48, delay: 8, decoder: 63, bucket: 15, rates: 8, choices: 8 };
    let two_large = Size { units: 12, bucket: 255, ..few };
    let trials = [
        ("31 choices", Size { units: 128, choices: 31, ..FULL }, None),
        ("few units", Size { units: 32, delay: 4, ..FULL }, None),
        ("a small decoder", Size { decoder: 15, ..FULL }, None),
        ("small buffers", Size { decoder: 127, bucket: 63, ..FULL }, None),
        ("two buckets", few, Some([63, 18, 20])),
        ("two large buckets", two_large, Some([63, 21, 63])),
        ("many units, two buckets", Size { decoder: 31, bucket: 7, ..FULL }, Some([7, 20, 0])),
    ];
    let others = [
        ("few rates and choices", Size { rates: 4, choices: 4, ..FULL }),
        ("few units of other ranges", Size { units: 32, delay: 4, ..FULL }),
    ];
    let mut rng = Rng(5);
    let (mut words, mut jobs) = (0, 0);
    // Such a job is too long to print; its name tells.
    let mut check = |name: &str, draft: Result<Draft, String>| -> Checked {
        let checked = draft.and_then(|draft| check_large(&mut rng, &draft));
        words += checked.map_err(|trouble| format!("{name}: {trouble}"))?;
        jobs += 1;
        Ok(())
    };
    for (name, size, second) in &trials {
        check(name, large_trial(size, *second, 1))?;
    }
    let mut rng = Rng(5);
    for (name, size) in &others {
        check(name, Ok(large_job(&mut rng, size)))?;
    }
    Ok(format!("{jobs} jobs, {words} words"))
}

fn full_group() -> Result<String, String> {
    let words = check_large(&mut Rng(6), &large_trial(&FULL, None, 1)?)?;
    Ok(format!("1 job, {words} words"))
}

/// Gives the number of words compared.
fn check_large(rng: &mut Rng, draft: &Draft) -> Result<usize, String> {
    let asked = Asked::new(rng, draft);
    let table = fast_table(&asked.job, &asked.pins);
    let plans = read_off(&asked.job, &asked.pins, &table);
    let word = table[asked.job.word(0, asked.job.start_decoder, &asked.job.start_levels())];
    check_open(rng, &asked)?;
    for plan in &plans {
        let plan = plan.as_ref().ok_or("no plan".to_string())?;
        let distortion = totals_of(&asked, plan).map(|totals| totals[0]);
        same("the table's word of the start", Some(word as u64), distortion)?;
        check_report(rng, &asked, plan)?;
    }
    check_plan(rng, &asked, &table, &plans)?;
    Ok(table.len())
}

// ---------------------------------------------------------------------------
// The run.
// ---------------------------------------------------------------------------

fn print_group(name: &str, result: Result<String, String>) -> bool {
    match &result {
        Ok(counts) => println!("ok {name}: {counts}"),
        Err(trouble) => println!("FAILED {name}: {trouble}"),
    }
    result.is_ok()
}

fn run_all(new_seed: u64, with_full: bool, examples: Option<&Path>) -> bool {
    println!("new seed {new_seed}");
    let mut results = vec![
        print_group("Job A as written", job_a_group()),
        print_group("refusals in their order", order_group()),
        print_group("lists of every length", lengths_group()),
        print_group("kinds of calls", kinds_group()),
        print_group("calls by hand", calls_by_hand_group()),
        print_group("calls in every order", calls_in_every_order_group()),
        print_group("decoder peaks", peaks_group()),
        print_group("every set of violations", violations_group()),
        print_group("unused drain", unused_group()),
        print_group("a second bucket", second_group()),
        print_group("a thousand choices", thousand_group()),
        print_group("every choice", every_choice_group()),
        print_group("even pictures by hand", even_by_hand_group()),
        print_group("aims and refusals in their order", aim_order_group()),
        print_group("stored plans turned", turning_group()),
        print_group("refusals of turning in their order", turning_order_group()),
        print_group("every stored plan", former_plans_group()),
        print_group("lines that never drain", never_drains_group()),
        print_group("a drain of 0 and refusals around it", doors_group()),
        print_group("refusals of stored jobs in their order", stored_order_group()),
        print_group("calls before the replay of a stored job", stored_calls_group()),
        print_group("values of opening and of the archive", door_lengths_group()),
        print_group("sets of pins by hand", sets_by_hand_group()),
        print_group("sets of every length", set_lengths_group()),
        print_group("every number of a set changed", changed_sets_group()),
        print_group("refusals of sets in their order", sets_order_group()),
        print_group("sets on lines that never drain", set_never_group()),
        print_group("pin and see by hand", seen_by_hand_group()),
        print_group("words over 512,000,000 by hand", words_by_hand_group()),
        print_group("report by hand", report_group()),
        print_group("every delay in the report", delays_group()),
        print_group("long delays in the report", long_delays_group()),
        print_group("limits", limits_group()),
        print_group("cuts at every byte", cuts_group()),
        print_group("limits of writing", write_limits_group()),
        print_group("refusals of writing in their order", write_order_group()),
        print_group("jobs read back by hand", read_by_hand_group()),
        print_group("contents of jobs by hand", contents_group()),
        print_group("lists of reading of every length", read_lengths_group()),
        print_group("lists that are always enough for reading", read_promise_group()),
        print_group("refusals of reading in their order", read_order_group()),
        print_group("every fault of a job and refusals of reading", read_faults_group()),
        print_group("cuts of a job read back", read_cuts_group()),
        print_group("draws of trial jobs by hand", draws_group()),
        print_group("limits of trial jobs", trial_limits_group()),
        print_group("refusals of trial jobs in their order", trial_order_group()),
        print_group("trial jobs over what stood there", trial_over_group()),
        print_group("changes of contract by hand", changes_by_hand_group()),
        print_group("every change of Job A", every_change_group()),
        print_group("refusals of a change in their order", change_order_group()),
        print_group("limits of a new contract", contract_limits_group()),
        print_group("levels carried into a new contract", carried_levels_group()),
        print_group("changes after every interval", first_intervals_group()),
        print_group("lists of a change of every length", change_lengths_group()),
        print_group("larger buckets by hand", sizes_by_hand_group()),
        print_group("larger buckets from every size on", every_own_size_group()),
        print_group("refusals of larger buckets in their order", size_order_group()),
        print_group("lists of larger buckets of every length", size_lengths_group()),
        print_group("playlists by hand", playlists_by_hand_group()),
        print_group("entries of a playlist", entries_group()),
        print_group("playlists of every count", entry_counts_group()),
        print_group("levels carried to the next programme", carried_on_group()),
        print_group("lists of a playlist of every length", playlist_lengths_group()),
        print_group("refusals of a playlist in their order", playlist_order_group()),
    ];
    if let Some(directory) = examples {
        results.push(print_group("examples written again", examples_group(directory)));
    }
    // How much a new seed or a small run brings is chance, so nothing is asked.
    let mut seeded = |name: &str, seeds: &[u64], group: fn(u64, bool) -> Result<String, String>| {
        for seed in seeds {
            let result = group(*seed, !small());
            results.push(print_group(&format!("{name}, seed {seed}"), result));
        }
        results.push(print_group(&format!("{name}, new seed"), group(new_seed, false)));
    };
    seeded("jobs written", &[1, 2], written_group);
    seeded("harmed lists", &[1], harmed_lists_group);
    seeded("jobs read back", &[1, 2], read_back_group);
    seeded("harmed bytes read back", &[1], harmed_read_group);
    seeded("trial jobs", &[1, 2], trials_group);
    seeded("harmed headers of trial jobs", &[1], harmed_trials_group);
    seeded("changes of contract, tiny jobs", &[1, 2], tiny_changes_group);
    seeded("changes of contract, larger jobs", &[1], larger_changes_group);
    seeded("changes around a violation", &[1], violated_changes_group);
    seeded("harmed changes of contract", &[1], harmed_changes_group);
    seeded("larger buckets, tiny jobs", &[1], tiny_sizes_group);
    seeded("larger buckets, larger jobs", &[1], larger_sizes_group);
    seeded("larger buckets in a sitting", &[1], size_sittings_group);
    seeded("larger buckets, harmed jobs and sets", &[1], harmed_sizes_group);
    seeded("larger sizes and drains", &[1], raised_group);
    seeded("playlists of one programme", &[1], alone_group);
    seeded("playlists, tiny jobs", &[1, 2], tiny_playlists_group);
    seeded("playlists, larger jobs", &[1], larger_playlists_group);
    seeded("harmed playlists", &[1], harmed_playlists_group);
    seeded("harmed bytes", &[1], harmed_group);
    seeded("replay and report", &[1, 2], replay_group);
    seeded("jobs that never drain", &[1, 2], stored_group);
    seeded("tiny jobs", &[1, 2, 3], tiny_group);
    seeded("tight jobs", &[1, 2], tight_group);
    seeded("idle jobs", &[1, 2], idle_group);
    seeded("jobs full of ties", &[1, 2], equal_group);
    seeded("calls", &[1, 2], calls_group);
    seeded("long sessions", &[1, 2], sessions_group);
    seeded("books of pins", &[1, 2], books_group);
    seeded("harmed sets", &[1, 2], harmed_sets_group);
    seeded("pin and see", &[1, 2], seen_group);
    seeded("pin and see on any words", &[1, 2], any_words_group);
    seeded("sittings", &[1, 2], sittings_group);
    seeded("mixed sittings", &[1, 2], mixed_sittings_group);
    seeded("typed sittings", &[1], typed_sittings_group);
    seeded("plans with a set", &[1, 2], set_plans_group);
    seeded("replays with a set", &[1, 2], set_replays_group);
    seeded("larger jobs", &[4], larger_group);
    seeded("jobs of many choices", &[1, 2], many_group);
    seeded("even pictures, tiny jobs", &[1, 2], even_tiny_group);
    seeded("even pictures, tiny jobs full of ties", &[1, 2], even_ties_group);
    seeded("even pictures, larger jobs", &[1], even_larger_group);
    seeded("harmed plans", &[1], harmed_plans_group);
    seeded("random stored plans", &[1, 2], turned_group);
    seeded("harmed stored plans", &[1], harmed_stored_group);
    seeded("jobs of two buckets written", &[1, 2], written_double_group);
    seeded("harmed lists of two buckets", &[1], harmed_double_lists_group);
    seeded("harmed bytes of two buckets", &[1], harmed_double_group);
    seeded("replay and report of two buckets", &[1, 2], replay_double_group);
    seeded("tiny jobs of two buckets", &[1, 2, 3], tiny_double_group);
    seeded("two-bucket jobs", &[1, 2], double_group);
    seeded("lines of two buckets", &[1, 2], lines_group);
    seeded("larger jobs of two buckets", &[4], larger_double_group);
    if !small() {
        results.push(print_group("jobs of the largest size read back", largest_read_group()));
        results.push(print_group("trial jobs of the largest size", trial_largest_group()));
        results.push(print_group("large jobs", large_group()));
        results.push(print_group("even pictures, large jobs", even_large_group()));
        results.push(print_group("pin and see, large jobs", seen_large_group()));
        results.push(print_group("changes of contract, large jobs", large_changes_group()));
        results.push(print_group("larger buckets, large jobs", large_sizes_group()));
        results.push(print_group("playlists, large jobs", large_playlists_group()));
    }
    if !small() && with_full {
        results.push(print_group("a job of the largest size", full_group()));
    }
    let passed = results.iter().filter(|held| **held).count();
    println!("{passed} passed, {} failed", results.len() - passed);
    passed == results.len()
}

/// The words of every refusal and violation, as `tests/words.c` prints those of the C header.
fn print_words() {
    for number in 1..=22 {
        println!("{number} {}", upload_planner::Refusal::from_number(number).unwrap());
    }
    let violations = [
        Violation::DecoderShort,
        Violation::DecoderOver,
        Violation::BucketOver,
        Violation::PinNotHeld,
        Violation::SecondBucketOver,
    ];
    for (at, violation) in violations.iter().enumerate() {
        println!("violation {} {violation}", at + 1);
    }
    let manifest = include_str!("../bindings/rust/Cargo.toml");
    let version = manifest.lines().find_map(|line| line.strip_prefix("version = "));
    println!("version {}", version.unwrap().trim_matches('"'));
}

fn main() -> ExitCode {
    let (mut seed, mut with_full, mut examples) = (None, true, None);
    let mut arguments = std::env::args().skip(1);
    while let Some(argument) = arguments.next() {
        let known = match argument.as_str() {
            "--small" => {
                SMALL.store(true, Ordering::Relaxed);
                true
            }
            "--no-full" => {
                with_full = false;
                true
            }
            "--examples" => {
                examples = arguments.next().map(PathBuf::from);
                examples.is_some()
            }
            "--words" => {
                print_words();
                return ExitCode::SUCCESS;
            }
            number => {
                seed = number.parse().ok();
                seed.is_some()
            }
        };
        if !known {
            println!("usage: library [SEED] [--no-full] [--small] [--examples DIR], or library --words");
            return ExitCode::from(2);
        }
    }
    if run_all(seed.unwrap_or_else(clock_seed), with_full, examples.as_deref()) {
        ExitCode::SUCCESS
    } else {
        ExitCode::from(1)
    }
}
