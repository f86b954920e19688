//! Checks the program `plan` from outside. Bytes go to its standard input and
//! what it prints is compared, byte for byte, with an answer worked out here.
//!
//! Build and run:
//!
//! ```text
//! rustc -O -o brute_force tests/brute_force.rs
//! brute_force PATH_OF_PLAN [SEED] [--examples DIR]
//! brute_force --write-examples DIR
//! ```
//!
//! SEED repeats the run whose new seed was SEED; without it the clock gives
//! one. `--examples` adds a group: for each X.bin in DIR, `plan` and this file
//! must both give X.txt. `--write-examples` writes the examples, their answers
//! worked out here.
//!
//! The answer has three parts, each written straight from the product's paper:
//! a reader that gives the first refusal due, an enumeration of every plan
//! (small jobs), and a dynamic program that carries whole paths forward (the
//! jobs too large to enumerate). Of several best plans it is the one that sends early,
//! which `plan` prints. The two searches check each other, in either order. Cases
//! written by hand also carry the number or the text that the paper calls for, so
//! that a slip in the reader here, or in the decoder's limits and the buckets'
//! step that both searches share, is seen too. Of every plan printed the balance
//! of each bucket is asked besides.

use std::collections::BTreeMap;
use std::io::{Read, Write};
use std::path::Path;
use std::process::{Child, ExitCode, Stdio};
use std::sync::atomic::{AtomicBool, AtomicUsize, Ordering};
use std::sync::Mutex;
use std::time::{Duration, Instant};

#[allow(dead_code)]
mod reference;
use reference::*;

// ---------------------------------------------------------------------------
// The whole text due for an input.
// ---------------------------------------------------------------------------

/// The order by which `plan` prints.
const PRINTED: Order = Order::Early;

fn planned_text(input: &[u8]) -> Result<String, Refusal> {
    let (job, pins) = read_input(input)?;
    if job.words() > WORKSPACE_WORDS {
        return Err(11);
    }
    let plan = best_plan(PRINTED, &job, &pins).ok_or(13)?;
    Ok(print_plan(&job, &pins, &plan))
}

fn print_plan(job: &Job, pins: &Pins, plan: &Plan) -> String {
    let mut text = format!("plan {} {} {}\n", job.units.len(), job.intervals(), job.words());
    let mut t = 0;
    let totals = replay(job, pins, plan, |decoder, buckets| {
        let (rate, choice) = plan[t];
        t += 1;
        let shown = if choice == NO_CHOICE { "-".to_string() } else { choice.to_string() };
        let rate = job.rates[rate];
        text += &format!("{t} {rate} {shown} {decoder} {}\n", spaced(buckets));
    });
    let totals = totals.expect("a plan that was found replays").numbers();
    text + &format!("total {}\n", spaced(&totals))
}

fn spaced(numbers: &[i64]) -> String {
    numbers.iter().map(|number| number.to_string()).collect::<Vec<_>>().join(" ")
}

fn refused(number: Refusal) -> String {
    format!("refused {number}\n")
}

fn answer(input: &[u8]) -> String {
    planned_text(input).unwrap_or_else(refused)
}

// ---------------------------------------------------------------------------
// Cases and groups.
// ---------------------------------------------------------------------------

/// What the paper says of a case by hand, beside the answer worked out here.
enum ByHand {
    Nothing,
    APlan,
    /// A plan whose last numbers, the unused drain of each bucket, are these.
    Unused(Vec<i64>),
    Refused(Refusal),
    Text(&'static str),
    /// A text with a number put in, or that of a file that lies beside the input.
    Made(String),
}
use ByHand::{APlan, Made, Nothing, Refused, Text, Unused};

impl ByHand {
    fn holds(&self, text: &str) -> bool {
        match self {
            Nothing => true,
            APlan => text.starts_with("plan "),
            Unused(sums) => APlan.holds(text) && text.ends_with(&format!(" {}\n", spaced(sums))),
            Refused(number) => text == refused(*number),
            Text(said) => text == *said,
            Made(said) => text == said,
        }
    }

    fn show(&self) -> String {
        match self {
            Nothing => "nothing".to_string(),
            APlan => "a plan".to_string(),
            Unused(sums) => format!("a plan that leaves {} grains unused", spaced(sums)),
            Refused(number) => refused(*number),
            Text(said) => said.to_string(),
            Made(said) => said.clone(),
        }
    }
}

struct Case {
    label: String,
    input: Vec<u8>,
    by_hand: ByHand,
    /// The input is written in this many parts, with a pause between them.
    parts: usize,
}

fn case(label: impl Into<String>, input: Vec<u8>, by_hand: ByHand) -> Case {
    Case { label: label.into(), input, by_hand, parts: 1 }
}

struct Group {
    name: String,
    cases: Vec<Case>,
    /// At least one case in this many must have a plan, so that a random group
    /// cannot pass by asking for refusals alone; 0 where nothing is asked.
    plan_in: usize,
    /// Mistaken rules, and that at least one job in this many must have another
    /// answer under each of them; 0 where they are only counted.
    told_in: Option<(Mistakes, usize)>,
}

fn group(name: impl Into<String>, cases: Vec<Case>) -> Group {
    Group { name: name.into(), cases, plan_in: 0, told_in: None }
}

#[derive(Clone, Copy)]
enum Seed {
    Fixed(u64),
    New(u64),
}
use Seed::{Fixed, New};

impl Seed {
    fn number(self) -> u64 {
        match self {
            Fixed(number) | New(number) => number,
        }
    }
}

fn random_group(
    kind: &str,
    seed: Seed,
    count: usize,
    plan_in: usize,
    mut make: impl FnMut(&mut Rng) -> Vec<u8>,
) -> Group {
    let number = seed.number();
    let mut rng = Rng(number);
    let cases =
        (1..=count).map(|i| case(format!("job {i}, seed {number}"), make(&mut rng), Nothing));
    let cases = cases.collect();
    match seed {
        Fixed(_) => Group { plan_in, ..group(format!("{kind}, seed {number}"), cases) },
        // How many plans a new seed brings is chance, so nothing is asked.
        New(_) => group(format!("{kind}, new seed"), cases),
    }
}

/// Jobs of three sizes that tell a rule from mistaken ones, from each of them in one job
/// of `rarest` or more often.
fn telling_groups(
    name: &str,
    (mistakes, rarest): ([Mistakes; 3], usize),
    seed: Seed,
    shapes: &[Shape; 3],
    make: fn(&mut Rng, &Shape) -> Draft,
) -> [Group; 3] {
    let asked = if matches!(seed, Fixed(_)) { rarest } else { 0 };
    let sizes = [("jobs", 1000, 2), ("medium jobs", 250, 2), ("long jobs", 40, 3)];
    std::array::from_fn(|size| {
        let (kind, count, plan_in) = sizes[size];
        let make = |rng: &mut Rng| make(rng, &shapes[size]).bytes();
        let group = random_group(&format!("{name} {kind}"), seed, count, plan_in, make);
        Group { told_in: Some((mistakes[size], asked)), ..group }
    })
}

fn random_groups(new_seed: u64) -> Vec<Group> {
    let mut groups = Vec::new();
    for seed in [Fixed(1), Fixed(2), Fixed(3), New(new_seed)] {
        let make = |rng: &mut Rng| random_job(rng, &TINY).bytes();
        groups.push(random_group("tiny jobs", seed, 1500, 3, make));
    }
    for seed in [Fixed(4), New(new_seed)] {
        let make = |rng: &mut Rng| random_job(rng, &MEDIUM).bytes();
        groups.push(random_group("medium jobs", seed, 250, 4, make));
        let make = |rng: &mut Rng| random_long_job(rng).bytes();
        groups.push(random_group("long jobs", seed, 40, 4, make));
        groups.push(random_group("scrambled bytes", seed, 1000, 40, scrambled));
    }
    for seed in [Fixed(5), New(new_seed)] {
        let make = random_tight_job;
        let mistakes: [Mistakes; 3] = [tight_mistakes, decoder_mistakes, decoder_mistakes];
        groups.extend(telling_groups("tight", (mistakes, 5), seed, &TIGHT, make));
        groups.extend(telling_groups("idle", ([unused_mistakes; 3], 5), seed, &IDLE, make));
    }
    for seed in [Fixed(6), Fixed(7), New(new_seed)] {
        let make = |rng: &mut Rng| random_tiny_double(rng).bytes();
        groups.push(random_group("tiny jobs of two buckets", seed, 1500, 4, make));
    }
    for seed in [Fixed(8), New(new_seed)] {
        let make = |rng: &mut Rng| random_medium_double(rng).bytes();
        groups.push(random_group("medium jobs of two buckets", seed, 250, 4, make));
        let make = |rng: &mut Rng| random_long_double(rng).bytes();
        groups.push(random_group("long jobs of two buckets", seed, 40, 4, make));
        let make = scrambled_double;
        groups.push(random_group("scrambled bytes of two buckets", seed, 1000, 40, make));
        let make = random_double_job;
        groups.extend(telling_groups("two-bucket", (DOUBLE_MISTAKES, 6), seed, &DOUBLE, make));
    }
    for seed in [Fixed(9), New(new_seed)] {
        groups.extend(many_groups(seed));
    }
    for seed in [Fixed(10), New(new_seed)] {
        let make = random_equal_job;
        let mistakes: [Mistakes; 3] = [tie_mistakes, order_mistakes, order_mistakes];
        groups.extend(telling_groups("equal", (mistakes, 25), seed, &EQUAL, make));
    }
    groups
}

/// Jobs of up to 1,000 choices that fit in the input: of one unit, all of whose plans are
/// tried, and of a few.
fn many_groups(seed: Seed) -> Vec<Group> {
    let asked = if matches!(seed, Fixed(_)) { 5 } else { 0 };
    let sizes = [("jobs of many choices", 300), ("medium jobs of many choices", 80)];
    let mut groups = Vec::new();
    for (&(name, count), shape) in sizes.iter().zip(&MANY) {
        let make = |rng: &mut Rng| random_many_job(rng, shape).bytes();
        let group = random_group(name, seed, count, 2, make);
        groups.push(Group { told_in: Some((choice_mistakes, asked)), ..group });
    }
    groups
}

/// The cases the paper writes out for Job A. Its decoder of 4 never holds the 5
/// grains of unit 2's choice 0, so unit 2 has choice 1; the best plan has unit 1
/// at 0 anyway, and only a pin at 1 changes it. Both plans fill the decoder in interval
/// 1, so that interval 2 sends nothing; then unit 1 has left it 0 grains or 2, and 4 or 2
/// fill it again. The bucket has 2 when interval 2 drains it, and no drain goes by.
fn job_a_group() -> Group {
    let best = "plan 2 3 80\n1 4 - 4 2\n2 0 0 0 0\n3 4 1 2 2\ntotal 50 6 8 0\n";
    let coarse = "plan 2 3 80\n1 4 - 4 2\n2 0 1 2 0\n3 2 1 2 0\ntotal 70 4 6 0\n";
    // A drain of 1: 4 grains leave 3, then 2, and 4 more would leave 5; 2 leave 3.
    let slow = "plan 2 3 80\n1 4 - 4 3\n2 0 0 0 2\n3 2 1 0 3\ntotal 50 6 6 0\n";
    let a = job_a();
    let of = |commands: &[Command]| a.commanded(commands).bytes();
    group(
        "Job A as written",
        vec![
            case("no commands", of(&[]), Text(best)),
            case("unit 1 pinned at 0", of(&[Pin(1, 0)]), Text(best)),
            case("and lifted", of(&[Pin(1, 0), Lift(1)]), Text(best)),
            case("unit 1 pinned at 1", of(&[Pin(1, 1)]), Text(coarse)),
            case("unit 1 pinned at 1 and lifted", of(&[Pin(1, 1), Lift(1)]), Text(best)),
            case("both pinned at 0", of(&[Pin(1, 0), Pin(2, 0)]), Refused(13)),
            case("unit 2 pinned at 0", of(&[Pin(2, 0)]), Refused(13)),
            case("lift on a fresh desk", of(&[Lift(1)]), Refused(10)),
            case("empty input", Vec::new(), Refused(1)),
            case("drain 0", a.with(DRAIN, 0).bytes(), Refused(17)),
            case("drain 1", a.with(DRAIN, 1).bytes(), Text(slow)),
        ],
    )
}

/// Job A on a line of one bucket, and with a second one under which it has the
/// same best plan.
fn both_lines() -> [(&'static str, Draft); 2] {
    [("one bucket", job_a()), ("two buckets", job_a().doubled(SECOND_A))]
}

/// Job A with a second bucket, worked out by hand.
fn second_group() -> Group {
    // No rate is over 4, so a drain of 4 leaves the second bucket empty.
    let idle = "plan 2 3 5120\n1 4 - 4 2 0\n2 0 0 0 0 0\n3 4 1 2 2 0\ntotal 50 6 8 0 4\n";
    // A rate of 4 leaves 2 in a bucket of 1. Unit 1 has its 4 grains by 2 and 2. At
    // choice 1 it leaves 2 in the decoder, to which 2 are sent again.
    let small = "plan 2 3 160\n1 2 - 2 0 0\n2 2 0 0 0 0\n3 2 1 0 0 0\ntotal 50 6 6 0 0\n";
    let coarse = "plan 2 3 160\n1 2 - 2 0 0\n2 2 1 2 0 0\n3 2 1 2 0 0\ntotal 70 4 6 0 0\n";
    // A drain of 1: 4 grains leave 3, then 2, and 2 more leave 3. From a level of 1 six
    // grains would leave 4, and unit 1 has choice 1: 4 at once would leave 4; 2 and 2
    // leave 2 and 3, and no more are sent. From 3 no interval sends before the second,
    // and the third does not.
    let slow = "plan 2 3 320\n1 4 - 4 2 3\n2 0 0 0 0 2\n3 2 1 0 0 3\ntotal 50 6 6 0 0\n";
    let slower = "plan 2 3 320\n1 2 - 2 0 2\n2 2 1 2 0 3\n3 0 1 0 0 2\ntotal 70 4 4 2 0\n";
    // The first bucket drains all, the second is Job A's own.
    let moved = "plan 2 3 800\n1 4 - 4 0 2\n2 0 0 0 0 0\n3 4 1 2 0 2\ntotal 50 6 8 4 0\n";
    let a = job_a();
    let of = |second| a.doubled(second);
    let large = a.with(BUCKET, 9).with(DRAIN, 4);
    let pinned = of([1, 2, 0]).commanded(&[Pin(1, 1)]);
    let mut cases = vec![
        case("it never binds", of([63, 4, 0]).bytes(), Text(idle)),
        case("another plan", of([1, 2, 0]).bytes(), Text(small)),
        case("no plan", of([0, 1, 0]).bytes(), Refused(13)),
        case("a drain of 1", of([3, 1, 0]).bytes(), Text(slow)),
        case("a drain of 1 from 1", of([3, 1, 1]).bytes(), Text(slower)),
        case("a drain of 1 from 3", of([3, 1, 3]).bytes(), Refused(13)),
        case("its only bucket is the second", large.doubled([3, 2, 0]).bytes(), Text(moved)),
        case("unit 1 pinned at 1", pinned.bytes(), Text(coarse)),
        case("and lifted", pinned.commanded(&[Lift(1)]).bytes(), Text(small)),
        case("unit 2 pinned at 0", of([63, 4, 0]).commanded(&[Pin(2, 0)]).bytes(), Refused(13)),
        case("lift of no pin", of([63, 4, 0]).commanded(&[Lift(1)]).bytes(), Refused(10)),
        case("no plan, then a lift 10", of([0, 1, 0]).commanded(&[Lift(1)]).bytes(), Refused(10)),
    ];
    // The buckets stand in for each other: where one binds, so it does as the other.
    for second in [[1, 2, 0], [3, 1, 0], [3, 1, 1]] {
        let label = format!("{second:?} as the first bucket");
        cases.push(case(label, of(second).swapped().bytes(), APlan));
    }
    group("Job A with a second bucket", cases)
}

/// Each header field at its limits and one beyond them. Where a field sets the
/// count of what follows, what follows agrees with it.
fn header_group() -> Group {
    let mut cases = Vec::new();
    for (buckets, (line, a)) in (1..).zip(both_lines()) {
        for &(field, low, high) in &LIMITS[..FIELDS[buckets - 1]] {
            let label = |value: u16| format!("{line}, field {field} is {value}");
            for value in values_in(field, low, high) {
                let by_hand = match in_limits(field, value) {
                    0 if takes_plan(field) => APlan,
                    0 => Nothing,
                    number => Refused(number),
                };
                cases.push(case(label(value), sized(buckets, field, value), by_hand));
            }
            for value in [low.wrapping_sub(1), high + 1, high + 256, 0x8000, 0xffff] {
                if value < low || value > high {
                    cases.push(case(label(value), sized(buckets, field, value), Refused(3)));
                    let alone = format!("{} and nothing else", label(value));
                    cases.push(case(alone, a.with(field, value).bytes(), Refused(3)));
                }
            }
        }
        for (size, start) in [(DECODER, START_DECODER), (BUCKET, START_BUCKET)] {
            cases.extend(above_size(line, &a, size, start, 256));
        }
    }
    let (line, a) = &both_lines()[1];
    cases.extend(above_size(line, a, SECOND, START_SECOND, 64));
    group("header fields", cases)
}

/// A starting level above its size, or at a size that is too large.
fn above_size(line: &str, a: &Draft, size: usize, start: usize, large: u16) -> [Case; 2] {
    [(0, 1), (large, large)].map(|(most, level)| {
        let label = format!("{line}, field {start} is {level}, its size is {most}");
        case(label, a.with(size, most).with(start, level).bytes(), Refused(3))
    })
}

/// Whether `sized` keeps a plan at every value of the field that is in range.
fn takes_plan(field: usize) -> bool {
    [UNITS, DELAY, DECODER, BUCKET, RATES, CHOICES, SECOND, START_SECOND].contains(&field)
}

fn rates_group() -> Group {
    let lists: [(&[u16], ByHand); 14] = [
        (&[0, 2, 4], APlan),
        (&[4093, 4094, 4095], Refused(13)),
        (&[0, 2, 4095], Nothing),
        (&[0, 2, 4096], Refused(4)),
        (&[4094, 4095, 4096], Refused(4)),
        (&[0, 2, 0xffff], Refused(4)),
        (&[2, 2, 4], Refused(4)),
        (&[0, 2, 2], Refused(4)),
        (&[0, 0, 0], Refused(4)),
        (&[2, 0, 4], Refused(4)),
        (&[0, 4, 2], Refused(4)),
        (&[4, 2, 0], Refused(4)),
        // These rise only in their high or only in their low bytes.
        (&[2, 0x0101, 0x0200], Nothing),
        (&[0x0100, 0x0001, 0x0002], Refused(4)),
    ];
    let mut cases = Vec::new();
    for (rates, by_hand) in lists {
        let mut draft = job_a();
        draft.rates = rates.to_vec();
        cases.push(case(format!("rates {rates:?}"), draft.bytes(), by_hand));
    }
    // A decoder of 255 takes no more at once, though a rate may be larger.
    for (rate, by_hand) in [
        (0, APlan),
        (255, APlan),
        (256, Refused(13)),
        (4095, Refused(13)),
        (4096, Refused(4)),
        (0xffff, Refused(4)),
    ] {
        let draft = Draft::new([0, 255, 0, 4095, 0, 0], &[rate], &[vec![(4095, 1), (0, 2)]]);
        cases.push(case(format!("only rate {rate}"), draft.bytes(), by_hand));
    }
    group("rates", cases)
}

/// Sizes and distortions at and beyond their limits, in every entry.
fn entries_group() -> Group {
    let mut cases = Vec::new();
    for unit in 0..2 {
        for choice in 0..2 {
            for (grains, by_hand) in [
                (0, APlan),
                (4095, Nothing),
                (4096, Refused(5)),
                (0x8000, Refused(5)),
                (0xffff, Refused(5)),
            ] {
                let mut draft = job_a();
                draft.units[unit][choice].0 = grains;
                let label = format!("unit {} choice {choice} of {grains} grains", unit + 1);
                cases.push(case(label, draft.bytes(), by_hand));
            }
            for distortion in [0, 255, 256, 65_535, 65_536, 999_999, 1_000_000] {
                cases.push(distortion_case(unit, choice, distortion, APlan));
            }
            // The later ones are small in their low two or three bytes.
            for distortion in [1_000_001, 0x0010_0000, 0x0100_0000, 0x8000_0000, u32::MAX] {
                cases.push(distortion_case(unit, choice, distortion, Refused(5)));
            }
        }
    }
    let alike = Draft::new([1, 4, 3, 2, 0, 0], &[0, 2, 4], &vec![vec![(2, 7); 31]; 3]);
    cases.push(case("equal entries", alike.bytes(), APlan));
    // The same in a unit of as many choices as there may be.
    for choice in [0, 255, 256, MOST_CHOICES - 1] {
        for (coding, by_hand) in [
            ((4095, 1_000_000), APlan),
            ((4096, 0), Refused(5)),
            ((0, 1_000_001), Refused(5)),
            ((0, 0), APlan),
        ] {
            let mut unit = vec![(2, 7); MOST_CHOICES];
            unit[choice] = coding;
            let draft = Draft::new([1, 4, 3, 2, 0, 0], &[0, 2, 4], &[unit]);
            let label = format!("choice {choice} of 1,000 is {coding:?}");
            cases.push(case(label, draft.bytes(), by_hand));
        }
    }
    group("sizes and distortions", cases)
}

fn distortion_case(unit: usize, choice: usize, distortion: u32, by_hand: ByHand) -> Case {
    let mut draft = job_a();
    draft.units[unit][choice].1 = distortion;
    case(
        format!("unit {} choice {choice} distortion {distortion}", unit + 1),
        draft.bytes(),
        by_hand,
    )
}

/// Job A with every kind of command, for the groups that harm its records.
fn commanded_a() -> Draft {
    with_every_command(&job_a())
}

fn with_every_command(draft: &Draft) -> Draft {
    draft.commanded(&[Pin(2, 1), Pin(1, 0), Lift(2), Lift(1), Pin(1, 1)])
}

/// The input cut at every byte: a plan only where a command would begin.
fn cuts_group() -> Group {
    let mut cases = Vec::new();
    for (line, a) in both_lines() {
        let (whole, job) = (with_every_command(&a).bytes(), a.bytes().len());
        let commands = &with_every_command(&a).records()[4..];
        let starts: Vec<usize> =
            (0..=commands.len()).map(|i| job + commands[..i].concat().len()).collect();
        for cut in 0..=whole.len() {
            let by_hand = if starts.contains(&cut) { APlan } else { Refused(1) };
            cases.push(case(format!("{line}, cut to {cut} bytes"), whole[..cut].to_vec(), by_hand));
        }
    }
    group("cuts at every byte", cases)
}

/// Every record with other kinds and lengths, whole and cut at every byte:
/// 1 within its first four bytes, then 2 whatever follows.
fn kinds_group() -> Group {
    let mut cases = Vec::new();
    for (line, a) in both_lines() {
        let records = with_every_command(&a).records();
        for (index, right) in records.iter().enumerate() {
            let before = records[..index].concat();
            let after = records[index + 1..].concat();
            for (length, kind) in wrong_beginnings(right) {
                let wrong = patched(right, 0, &words(&[length, kind]));
                let label = format!("{line}, record {} of length {length} kind {kind}", index + 1);
                let whole = then(then(before.clone(), &wrong), &after);
                cases.push(case(label.clone(), whole, Refused(2)));
                for cut in 1..wrong.len().min(7) {
                    let by_hand = if cut < 4 { Refused(1) } else { Refused(2) };
                    let input = then(before.clone(), &wrong[..cut]);
                    cases.push(case(format!("{label}, cut to {cut} bytes"), input, by_hand));
                }
            }
        }
    }
    group("kinds and lengths", cases)
}

/// Headers of either kind that begin as the other one does, in part or whole, and
/// headers that are wrong in more than one way.
fn header_kinds_group() -> Group {
    let one = job_a().bytes();
    let two = |second| job_a().doubled(second).bytes();
    let [begun, other] = [[20, 1], [26, 8]].map(|beginning| words(&beginning));
    let wrong = |a: &Draft| a.with(UNITS, 0).bytes();
    let [(_, a), (_, double)] = both_lines();
    let rows: [(&str, Vec<u8>, ByHand); 22] = [
        ("kind 1, length 26", patched(&one, 0, &words(&[26, 1])), Refused(2)),
        ("kind 8, length 20", patched(&two([63, 4, 0]), 0, &words(&[20, 8])), Refused(2)),
        ("kind 1's fields, kind 8", patched(&one, 0, &words(&[20, 8])), Refused(2)),
        ("kind 8's fields, kind 1", patched(&two([63, 4, 0]), 0, &words(&[26, 1])), Refused(2)),
        // The record of rates has 8, 2 and 0 for the second bucket, then 2 and 4.
        ("kind 1's fields, begun as kind 8", patched(&one, 0, &other), Refused(2)),
        ("kind 8's fields, begun as kind 1", patched(&two([63, 4, 0]), 0, &begun), Refused(2)),
        // The second bucket is a record of rates: 0, then 8 and 2.
        ("a second bucket that begins rates", patched(&two([8, 2, 0]), 0, &begun), Refused(4)),
        // A field is out of range, and the body is not wholly there.
        ("kind 1, no units", wrong(&a), Refused(3)),
        ("kind 1, no units, cut", wrong(&a)[..21].to_vec(), Refused(1)),
        ("kind 1, no units, then nothing", wrong(&a)[..22].to_vec(), Refused(3)),
        ("kind 8, no units", wrong(&double), Refused(3)),
        ("kind 8, no units, cut", wrong(&double)[..27].to_vec(), Refused(1)),
        ("kind 8, no units, cut after nine fields", wrong(&double)[..22].to_vec(), Refused(1)),
        ("kind 8, no units, then nothing", wrong(&double)[..28].to_vec(), Refused(3)),
        ("a second size of 64, then nothing", two([64, 0, 0])[..28].to_vec(), Refused(3)),
        ("a second size of 64, cut", two([64, 0, 0])[..27].to_vec(), Refused(1)),
        ("a second level above its size, cut", two([1, 0, 2])[..27].to_vec(), Refused(1)),
        ("a second level above its size", two([1, 0, 2])[..28].to_vec(), Refused(3)),
        // A header in another place.
        ("a header of kind 8 for the rates", then(two([2, 2, 0])[..28].to_vec(), &one), Refused(2)),
        ("kind 8 after kind 1", then(one[..22].to_vec(), &two([2, 2, 0])), Refused(2)),
        ("kind 8 after the job", then(one.clone(), &two([2, 2, 0])), Refused(2)),
        ("kind 1 after a job of kind 8", then(two([2, 2, 0]), &one), Refused(2)),
    ];
    let mut cases = Vec::new();
    for (label, input, by_hand) in rows {
        cases.push(case(label, input, by_hand));
    }
    group("kinds of headers", cases)
}

/// Pairs of length and kind that are not due where `right` stands. The kinds
/// of both commands are among them, each with the other's length.
fn wrong_beginnings(right: &[u8]) -> Vec<(u16, u16)> {
    let (length, kind) = (u16_at(right, 0), u16_at(right, 2));
    let mut wrong = Vec::new();
    for other in (0..=8).chain([kind + 256, kind << 8, 0x8000 | kind, 0xffff]) {
        if other != kind {
            wrong.push((length, other));
        }
    }
    for other in
        [0, 1, 2, 3, 4, 6, 8, 14, 20, 26, length - 1, length + 1, length + 2, length + 256, 0xffff]
    {
        if other != length {
            wrong.push((other, kind));
        }
    }
    wrong
}

/// A record of a kind that is due nowhere.
fn wrong_record() -> Vec<u8> {
    record(5, &[0; 4])
}

/// A job's record is checked whole, fields included, before the next is read.
fn job_order_group() -> Group {
    let mut cases = Vec::new();
    for (line, a) in both_lines() {
        let records = a.records();
        let upto = |count: usize| records[..count].concat();
        let header = a.with(UNITS, 0).records()[0].clone();
        let last = a.with(a.header.len() - 1, 0xffff).records()[0].clone();
        let rates = then(upto(1), &record(2, &words(&[0, 2, 2])));
        let unit = record(3, &unit_body(&[(4096, 10), (2, 30)]));
        let (first, second) = (then(upto(2), &unit), then(upto(3), &unit));
        let (lift, pin) = (command_record(Lift(1)), command_record(Pin(1, 0)));
        let wrong = wrong_record();
        let rows: [(&str, &[u8], &[u8], Refusal); 16] = [
            ("header 3, then nothing", &header, &[], 3),
            ("header 3, then a wrong kind", &header, &wrong, 3),
            ("header 3, then the rest", &header, &records[1..].concat(), 3),
            ("header 3 in its last field, then nothing", &last, &[], 3),
            ("header 3 in its last field, then a wrong kind", &last, &wrong, 3),
            ("rates 4, then nothing", &rates, &[], 4),
            ("rates 4, then a wrong kind", &rates, &wrong, 4),
            ("rates 4, then unit 1 5", &rates, &unit, 4),
            ("unit 1 5, then nothing", &first, &[], 5),
            ("unit 1 5, then a cut record", &first, &[14, 0, 3], 5),
            ("unit 1 5, then a wrong kind", &first, &wrong, 5),
            ("unit 2 5, then nothing", &second, &[], 5),
            ("unit 2 5, then a lift 10", &second, &lift, 5),
            ("a pin in the place of unit 2", &upto(3), &pin, 2),
            ("a unit too many", &upto(4), &records[3], 2),
            ("the job twice", &upto(4), &upto(4), 2),
        ];
        for (label, head, tail, number) in rows {
            cases.push(case(format!("{line}, {label}"), [head, tail].concat(), Refused(number)));
        }
    }
    group("order within a job", cases)
}

/// Commands are carried out one by one, and all before planning.
fn command_order_group() -> Group {
    let wrong = wrong_record();
    let no_plan = job_a().commanded(&[Pin(1, 0), Pin(2, 0)]);
    let large = job_a().with(DECODER, 255).with(BUCKET, 255);
    let mut cases = vec![
        case("no plan, then a cut record", then(no_plan.bytes(), &[6]), Refused(1)),
        case("no plan, then a wrong kind", then(no_plan.bytes(), &wrong), Refused(2)),
        case("no plan, then a pin 9", no_plan.commanded(&[Pin(1, 1)]).bytes(), Refused(9)),
        case("no plan, then lifted", no_plan.commanded(&[Lift(2)]).bytes(), APlan),
        case("too many words, then a cut record", then(large.bytes(), &[6]), Refused(1)),
        case("too many words, then a wrong kind", then(large.bytes(), &wrong), Refused(2)),
        case("too many words, then a lift 10", large.commanded(&[Lift(1)]).bytes(), Refused(10)),
        case("too many words, pinned", large.commanded(&[Pin(1, 0)]).bytes(), Refused(11)),
    ];
    for (command, number) in
        [(Pin(0, 0), 7), (Pin(1, 2), 8), (Pin(2, 1), 9), (Lift(1), 10), (Lift(3), 7)]
    {
        let refused = job_a().commanded(&[Pin(2, 1), command]).bytes();
        for (label, tail) in [("a cut record", &[4, 0, 7][..]), ("a wrong kind", &wrong[..])] {
            let label = format!("command {number}, then {label}");
            cases.push(case(label, then(refused.clone(), tail), Refused(number)));
        }
    }
    group("order of commands", cases)
}

/// Every short list of commands.
fn command_lists_group() -> Group {
    // Roomier than Job A: each pair of pins has a plan of its own.
    let units = [vec![(3, 10), (1, 30)], vec![(4, 12), (2, 40)]];
    let job = Draft::new([1, 4, 3, 2, 0, 0], &[0, 2, 3], &units);
    let make = |list: &Vec<Command>| case(describe(list), job.commanded(list).bytes(), Nothing);
    group("command lists", command_lists().iter().map(make).collect())
}

fn describe(list: &[Command]) -> String {
    let show = |command: &Command| match command {
        Pin(unit, choice) => format!("pin {unit} {choice}"),
        Lift(unit) => format!("lift {unit}"),
    };
    format!("[{}]", list.iter().map(show).collect::<Vec<_>>().join(", "))
}

/// Units and choices beyond their range, also where a byte of the number alone
/// would be in range; and 7 before 8 before 9.
fn command_numbers_group() -> Group {
    let mut cases = Vec::new();
    let mut add = |commands: &[Command], by_hand: ByHand| {
        cases.push(case(describe(commands), job_a().commanded(commands).bytes(), by_hand));
    };
    for unit in [0, 3, 255, 256, 257, 258, 511, 512, 513, 0x0101, 0x8001, 0xff01, 0xffff] {
        add(&[Pin(unit, 0)], Refused(7));
        add(&[Pin(unit, 2)], Refused(7));
        add(&[Lift(unit)], Refused(7));
        add(&[Pin(1, 0), Pin(unit, 0)], Refused(7));
        add(&[Pin(1, 0), Lift(unit)], Refused(7));
    }
    for choice in [2, 3, 31, 254, 255, 256, 257, 999, 1000, 0x8000, 0xff01, 0xfffe, 0xffff] {
        add(&[Pin(1, choice)], Refused(8));
        add(&[Pin(2, choice)], Refused(8));
        add(&[Pin(1, 0), Pin(1, choice)], Refused(8));
        add(&[Pin(1, 0), Pin(0, choice)], Refused(7));
    }
    add(&[Pin(1, 0), Pin(1, 0)], Refused(9));
    add(&[Pin(1, 0), Pin(1, 1)], Refused(9));
    add(&[Pin(1, 0), Lift(1), Lift(1)], Refused(10));
    add(&[Pin(1, 0), Lift(1), Pin(1, 1)], APlan);
    add(&[Pin(1, 0), Lift(2)], Refused(10));
    group("command numbers", cases)
}

/// One to three bytes after a job or after commands, whatever they are.
fn trailing_group() -> Group {
    let mut cases = Vec::new();
    for (name, draft) in [("the job", job_a()), ("commands", commanded_a())] {
        for count in 1..=3 {
            for filler in [[0u8; 3], [255; 3], [6, 0, 6], [4, 0, 7], [10; 3], [32; 3]] {
                let input = then(draft.bytes(), &filler[..count]);
                cases.push(case(format!("{count} bytes after {name}"), input, Refused(1)));
            }
        }
        let zeros = then(draft.bytes(), &[0; 4]);
        cases.push(case(format!("four zero bytes after {name}"), zeros, Refused(2)));
    }
    group("trailing bytes", cases)
}

/// A job whose bytes and commands, all taken, fill the input limit exactly.
fn full_input() -> Vec<u8> {
    let unit = |i: usize| (0..9).map(|c| ((i + c) as u16 % 4, (i * c % 11) as u32)).collect();
    let units: Vec<Vec<(u16, u32)>> = (0..512).map(unit).collect();
    let mut draft = Draft::new([0, 5, 4, 1, 2, 1], &[0, 1, 2], &units);
    let room = INPUT_LIMIT - draft.bytes().len();
    // A pin takes 8 bytes, a pin with its lift 14.
    let kept = (0..7).find(|kept| (room - 8 * kept) % 14 == 0).expect("a multiple of 14");
    for i in 0..(room - 8 * kept) / 14 {
        let unit = 1 + (i % 512) as u16;
        draft.commands.extend([Pin(unit, (i % 9) as u16), Lift(unit)]);
    }
    draft.commands.extend((0..kept).map(|i| Pin(1 + 100 * i as u16, 8)));
    draft.bytes()
}

fn input_length_group() -> Group {
    let full = full_input();
    assert_eq!(full.len(), INPUT_LIMIT);
    let mut cases = vec![
        case("32,768 bytes, all taken", full.clone(), APlan),
        case("32,767 bytes, the last record cut", full[..INPUT_LIMIT - 1].to_vec(), Refused(1)),
        case("32,769 bytes", then(full.clone(), &[0]), Refused(15)),
        case(
            "32,776 bytes, one more pin",
            then(full.clone(), &command_record(Pin(512, 0))),
            Refused(15),
        ),
        // 26 + 2 + 5 or 6 x 6,004 bytes.
        case("five units of 1,000 choices", many_choices(5).bytes(), APlan),
        case("six units of 1,000 choices", many_choices(6).bytes(), Refused(15)),
        case("32,768 zero bytes", vec![0; INPUT_LIMIT], Refused(2)),
        case("32,768 bytes, Job A and zeros", padded(job_a().bytes(), INPUT_LIMIT), Refused(2)),
    ];
    for length in [32_769, 32_770, 33_000, 65_535, 65_536, 65_537, 100_000, 1_000_000] {
        let header = job_a().with(UNITS, 0).bytes();
        let command = job_a().commanded(&[Lift(1)]).bytes();
        for (name, input) in [
            ("zeros", Vec::new()),
            ("Job A and zeros", job_a().bytes()),
            ("a refused header and zeros", header),
            ("a refused command and zeros", command),
        ] {
            cases.push(case(format!("{length} bytes, {name}"), padded(input, length), Refused(15)));
        }
    }
    group("input length", cases)
}

/// Units of as many choices as there may be, of which the last is the best.
fn many_choices(units: usize) -> Draft {
    let unit: Vec<(u16, u32)> = (0..MOST_CHOICES as u32).rev().map(|more| (1, more)).collect();
    Draft::new([0, 2, 2, 1, 0, 0], &[1], &vec![unit; units])
}

fn padded(mut input: Vec<u8>, length: usize) -> Vec<u8> {
    input.resize(length, 0);
    input
}

/// Tables of just enough and of one or more words too many. Each line: N, d,
/// D, K and what is due.
fn workspace_group() -> Group {
    let jobs: [(usize, [u16; 3], ByHand); 19] = [
        (3, [0, 63, 63], APlan),        // 16,384
        (1, [0, 255, 31], APlan),       // 16,384
        (1, [0, 31, 255], APlan),       // 16,384
        (1, [62, 0, 255], APlan),       // 16,384
        (511, [0, 31, 0], APlan),       // 16,384
        (511, [0, 0, 31], APlan),       // 16,384
        (2, [0, 42, 126], APlan),       // 16,383
        (4, [0, 28, 112], Refused(11)), // 16,385
        (2, [2, 112, 28], Refused(11)), // 16,385
        (512, [0, 31, 0], Refused(11)), // 16,416
        (3, [0, 64, 63], Refused(11)),  // 16,640
        (3, [0, 63, 64], Refused(11)),  // 16,640
        (1, [0, 255, 32], Refused(11)), // 16,896
        (3, [1, 63, 63], Refused(11)),  // 20,480
        (4, [0, 63, 63], Refused(11)),  // 20,480
        // A multiple of 65,536: nothing remains of it in sixteen bits.
        (1, [0, 255, 255], Refused(11)),
        (1, [64, 255, 255], Refused(11)),
        (512, [64, 255, 255], Refused(11)),
        (512, [64, 27, 0], APlan), // 16,156
    ];
    let mut cases = Vec::new();
    for (units, [delay, decoder, bucket], by_hand) in jobs {
        // A rate of 0 next to that of 1 lets the decoder wait out the delay. A
        // decoder of no size takes units of nothing.
        let unit = vec![(decoder.min(1), 1)];
        let levels = [delay, decoder, bucket, 1, 0, 0];
        let draft = Draft::new(levels, &[0, 1], &vec![unit; units]);
        let label = format!("N {units} d {delay} D {decoder} K {bucket}");
        if matches!(by_hand, Refused(11)) {
            // 11 comes before 13.
            let mut hopeless = draft.clone();
            hopeless.units[0][0].0 = 4095;
            cases.push(case(format!("{label}, no plan"), hopeless.bytes(), Refused(11)));
        }
        cases.push(case(label, draft.bytes(), by_hand));
    }
    group("workspace words", cases)
}

/// The same with the second bucket's size last in each line.
fn double_workspace_group() -> Group {
    let jobs: [(usize, [u16; 4], ByHand); 23] = [
        (3, [0, 15, 15, 15], APlan),       // 16,384
        (1, [0, 0, 127, 63], APlan),       // 16,384
        (1, [0, 127, 0, 63], APlan),       // 16,384
        (1, [6, 7, 3, 63], APlan),         // 16,384
        (255, [0, 0, 0, 63], APlan),       // 16,384
        (1, [62, 0, 255, 0], APlan),       // 16,384
        (511, [0, 31, 0, 0], APlan),       // 16,384
        (511, [0, 0, 0, 31], APlan),       // 16,384
        (2, [0, 126, 0, 42], APlan),       // 16,383
        (2, [0, 0, 126, 42], APlan),       // 16,383
        (4, [0, 112, 0, 28], Refused(11)), // 16,385
        (4, [0, 0, 112, 28], Refused(11)), // 16,385
        (256, [0, 0, 0, 63], Refused(11)), // 16,448
        (3, [0, 15, 15, 16], Refused(11)), // 17,408
        (3, [0, 15, 16, 15], Refused(11)), // 17,408
        (3, [0, 16, 15, 15], Refused(11)), // 17,408
        (4, [0, 15, 15, 15], Refused(11)), // 20,480
        (3, [1, 15, 15, 15], Refused(11)), // 20,480
        // Enough but for the second bucket.
        (3, [0, 63, 63, 1], Refused(11)), // 32,768
        // A multiple of 65,536: nothing remains of it in sixteen bits.
        (3, [0, 63, 63, 3], Refused(11)),
        (1, [0, 255, 255, 63], Refused(11)),
        // 2,420,113,408, more than 31 bits count.
        (512, [64, 255, 255, 63], Refused(11)),
        (512, [64, 6, 1, 1], APlan), // 16,156
    ];
    let mut cases = Vec::new();
    for (units, [delay, decoder, bucket, second], by_hand) in jobs {
        let unit = vec![(decoder.min(1), 1)];
        let levels = [delay, decoder, bucket, 1, 0, 0];
        let draft = Draft::new(levels, &[0, 1], &vec![unit; units]).doubled([second, 1, 0]);
        let label = format!("N {units} d {delay} D {decoder} K {bucket}, then {second}");
        if matches!(by_hand, Refused(11)) {
            // 11 comes before 13.
            let mut hopeless = draft.clone();
            hopeless.units[0][0].0 = 4095;
            cases.push(case(format!("{label}, no plan"), hopeless.bytes(), Refused(11)));
        }
        cases.push(case(label, draft.bytes(), by_hand));
    }
    group("workspace words of two buckets", cases)
}

/// The counts of units at the limit, with pins at both ends of them.
fn unit_counts_group() -> Group {
    let job = |units: usize| {
        let unit = |i: usize| vec![(2, i as u32 % 3), (1, 3), (0, 9)];
        let units: Vec<Vec<(u16, u32)>> = (0..units).map(unit).collect();
        Draft::new([3, 4, 4, 1, 0, 0], &[0, 1, 2], &units)
    };
    let whole = job(512);
    group(
        "unit counts",
        vec![
            case("N 512", whole.bytes(), APlan),
            case("N 512, d 64", whole.with(DELAY, 64).bytes(), APlan),
            case("N 512, unit 512 pinned", whole.commanded(&[Pin(512, 2)]).bytes(), APlan),
            case(
                "N 512, units 256 and 257 pinned",
                whole.commanded(&[Pin(256, 2), Pin(257, 1)]).bytes(),
                APlan,
            ),
            case(
                "N 512, unit 512 twice",
                whole.commanded(&[Pin(512, 2), Pin(512, 2)]).bytes(),
                Refused(9),
            ),
            case("N 512, unit 513", whole.commanded(&[Pin(513, 2)]).bytes(), Refused(7)),
            case("N 512, all pinned", whole.commanded(&all_pinned(512, 1)).bytes(), APlan),
            case("N 512, 511 units there", job(511).with(UNITS, 512).bytes(), Refused(1)),
            case("N 511, 512 units there", whole.with(UNITS, 511).bytes(), Refused(2)),
            case("N 513", job(513).bytes(), Refused(3)),
            case("N 0", whole.with(UNITS, 0).bytes(), Refused(3)),
            case("N 1", job(1).bytes(), APlan),
            case("N 300, unit 300", job(300).commanded(&[Pin(300, 2)]).bytes(), APlan),
            case("N 300, unit 301", job(300).commanded(&[Pin(301, 2)]).bytes(), Refused(7)),
            case("N 512, two buckets", whole.doubled([0, 2, 0]).bytes(), APlan),
            case("N 513, two buckets", job(513).doubled([0, 2, 0]).bytes(), Refused(3)),
            case("N 0, two buckets", whole.doubled([0, 2, 0]).with(UNITS, 0).bytes(), Refused(3)),
            case(
                "N 512, two buckets, 511 units there",
                job(511).doubled([0, 2, 0]).with(UNITS, 512).bytes(),
                Refused(1),
            ),
        ],
    )
}

fn all_pinned(units: u16, choice: u16) -> Vec<Command> {
    (1..=units).map(|unit| Pin(unit, choice)).collect()
}

/// Totals as large as the workspace lets them be, and levels at the ends of their
/// ranges. What is sent and taken in an interval is at most the decoder's size.
fn large_numbers_group() -> Group {
    let most = |units: usize, grains: u16, levels| {
        Draft::new(levels, &[grains], &vec![vec![(grains, 1_000_000)]; units])
    };
    let full = Draft::new([0, 255, 31, 4095, 255, 31], &[0], &[vec![(255, 0)]]);
    let mut wide: Vec<u16> = (0..16).map(|i| i * 17).collect();
    wide[15] = 4095;
    let unit: Vec<(u16, u32)> = (0..31).map(|i| (i * 10, 1_000_000 - 33_333 * i as u32)).collect();
    let widest = Draft::new([1, 255, 9, 4095, 100, 7], &wide, &vec![unit; 4]);
    let unit = (0..1000).map(|i| (i % 90, 1_000_000 - 997 * i as u32)).collect();
    let thousand = Draft::new([1, 31, 3, 4095, 20, 3], &wide, &vec![unit; 2]);
    let open = most(17, 31, [0, 31, 0, 4095, 0, 0]);
    let top = Draft::new([0, 127, 0, 4095, 127, 0], &[0], &[vec![(127, 0)]]);
    let rows: [(&str, Draft, ByHand); 16] = [
        (
            "512 units of the largest distortion, two buckets",
            most(512, 0, [0, 0, 0, 4095, 0, 0]).doubled([0, 4095, 0]),
            Unused(vec![512 * 4095; 2]),
        ),
        (
            "511 units of 31 grains, two buckets",
            most(511, 31, [0, 31, 0, 4095, 0, 0]).doubled([0, 4095, 0]),
            Unused(vec![511 * 4064; 2]),
        ),
        ("a second bucket one grain short", open.doubled([16, 30, 0]), Refused(13)),
        ("a second bucket that just holds", open.doubled([17, 30, 0]), APlan),
        ("all levels start at the top", top.doubled([63, 63, 63]), Unused(vec![4095, 0])),
        ("and all drains are the largest", top.doubled([63, 4095, 63]), Unused(vec![4095, 4032])),
        ("512 units of the largest distortion", most(512, 0, [0, 0, 0, 4095, 0, 0]), APlan),
        ("511 units of 31 grains", most(511, 31, [0, 31, 0, 4095, 0, 0]), APlan),
        ("63 units of 255 grains", most(63, 255, [0, 255, 0, 4095, 0, 0]), APlan),
        ("63 units of 4,095 grains", most(63, 4095, [0, 255, 0, 4095, 0, 0]), Refused(13)),
        ("a bucket one grain short", most(17, 31, [0, 31, 16, 30, 0, 0]), Refused(13)),
        ("a bucket that just holds", most(17, 31, [0, 31, 17, 30, 0, 0]), APlan),
        ("a delay the decoder cannot hold", most(1, 255, [1, 255, 0, 4095, 0, 0]), Refused(13)),
        ("both levels start at the top", full, APlan),
        ("16 rates and 31 choices", widest, APlan),
        ("16 rates and 1,000 choices", thousand, APlan),
    ];
    let mut cases = Vec::new();
    for (label, draft, by_hand) in rows {
        cases.push(case(label, draft.bytes(), by_hand));
    }
    group("large numbers", cases)
}

/// Choices past 31 and past what a byte counts: made best, equal, pinned and lifted.
fn thousand_group() -> Group {
    let mut cases = Vec::new();
    // One interval sends 2, all but which goes by of a drain of 4,095.
    let text = |choice: usize, distortion: u32| {
        Made(format!("plan 1 1 8\n1 2 {choice} 0 0\ntotal {distortion} 2 2 4093\n"))
    };
    for choice in EDGES {
        for choices in [choice + 1, MOST_CHOICES] {
            let draft = chosen_among(choices, &[choice]);
            let label = format!("{choice} of {choices}");
            cases.push(case(format!("{label} is best"), draft.bytes(), text(choice, 5)));
            let pin = Pin(1, choice as u16);
            let plain = chosen_among(choices, &[]).commanded(&[pin]);
            cases.push(case(format!("{label} pinned"), plain.bytes(), text(choice, 9)));
            let twice = plain.commanded(&[pin]);
            cases.push(case(format!("{label} pinned twice"), twice.bytes(), Refused(9)));
            let lifted = plain.commanded(&[Lift(1)]);
            cases.push(case(format!("{label} pinned and lifted"), lifted.bytes(), text(0, 9)));
            let again = lifted.commanded(&[Lift(1)]);
            cases.push(case(format!("{label} lifted twice"), again.bytes(), Refused(10)));
            // The lower byte of the first ones is a choice.
            for beyond in [choices, choices + 256, 0x8000 | choice, NO_CHOICE - 1, NO_CHOICE] {
                let wrong = draft.commanded(&[Pin(1, beyond as u16)]);
                cases.push(case(format!("{label}, pin {beyond}"), wrong.bytes(), Refused(8)));
            }
        }
        // Equal ones: the first, whatever their lower bytes.
        for &other in EDGES.iter().filter(|other| **other > choice) {
            let draft = chosen_among(MOST_CHOICES, &[choice, other]);
            let label = format!("{choice} and {other} are equal");
            cases.push(case(label.clone(), draft.bytes(), text(choice, 5)));
            let pinned = draft.commanded(&[Pin(1, other as u16)]);
            cases.push(case(format!("{label}, {other} pinned"), pinned.bytes(), text(other, 5)));
        }
    }
    cases.extend(sizes_of_choices());
    group("a thousand choices", cases)
}

/// Sizes that differ, a delay, and a second unit.
fn sizes_of_choices() -> Vec<Case> {
    // Of three sizes the best is where it is, and another is worse before it and
    // behind it. 3 grains are not to be had; 1 and 2 leave the same to nobody.
    let mut unit = vec![(2, 30); MOST_CHOICES];
    for (choice, coding) in [
        (10, (1, 40)),
        (255, (1, 21)),
        (256, (1, 22)),
        (257, (2, 21)),
        (511, (2, 20)),
        (700, (2, 21)),
        (998, (3, 0)),
        (999, (1, 20)),
    ] {
        unit[choice] = coding;
    }
    let of = |levels, rates: &[u16], units| Draft::new(levels, rates, units);
    let one = [unit.clone()];
    let two = [unit.clone(), unit];
    let rows: [(&str, Draft, ByHand); 8] = [
        // The first of the two that have 20; with one grain there is but one, and two are
        // sent where they can be; from a level of 2 no grain can.
        (
            "two grains come",
            of([0, 2, 0, 9, 0, 0], &[2], &one),
            Text("plan 1 1 6\n1 2 511 0 0\ntotal 20 2 2 7\n"),
        ),
        (
            "one grain comes",
            of([0, 2, 0, 9, 0, 0], &[1], &one),
            Text("plan 1 1 6\n1 1 999 0 0\ntotal 20 1 1 8\n"),
        ),
        (
            "one or two grains come",
            of([0, 2, 0, 9, 0, 0], &[1, 2], &one),
            Text("plan 1 1 6\n1 2 511 0 0\ntotal 20 2 2 7\n"),
        ),
        (
            "from a level of 2",
            of([0, 2, 0, 9, 2, 0], &[0, 1], &one),
            Text("plan 1 1 6\n1 0 511 0 0\ntotal 20 2 0 9\n"),
        ),
        (
            "256 pinned",
            of([0, 2, 0, 9, 0, 0], &[0, 1, 2], &one).commanded(&[Pin(1, 256)]),
            Text("plan 1 1 6\n1 2 256 1 0\ntotal 22 1 2 7\n"),
        ),
        (
            "998 pinned",
            of([0, 2, 0, 9, 0, 0], &[0, 1, 2], &one).commanded(&[Pin(1, 998)]),
            Refused(13),
        ),
        // The delay, then unit 1, then unit 2, which has what is left.
        (
            "a delay of 1",
            of([1, 2, 0, 9, 0, 0], &[1], &two),
            Text("plan 2 3 12\n1 1 - 1 0\n2 1 511 0 0\n3 1 999 0 0\ntotal 40 3 3 24\n"),
        ),
        (
            "a delay of 1, unit 1 pinned at 255",
            of([1, 2, 0, 9, 0, 0], &[1], &two).commanded(&[Pin(1, 255)]),
            Text("plan 2 3 12\n1 1 - 1 0\n2 1 255 1 0\n3 1 511 0 0\ntotal 41 3 3 24\n"),
        ),
    ];
    let mut cases = Vec::new();
    for (label, draft, by_hand) in rows {
        cases.push(case(label, draft.bytes(), by_hand));
    }
    cases
}

/// What the decoder may hold just before a unit leaves: up to its size, with one
/// more refused even where the unit takes that away. Each line: d, D, the
/// starting level, the rates, one unit's sizes (choice c has distortion 7 + c),
/// and what is due by hand; the bucket drains all, and of 4,095 in each interval
/// all but what is sent goes by.
fn peaks_group() -> Group {
    let rows: [([u16; 3], &[u16], &[u16], ByHand); 30] = [
        // The peak is the size, and something or nothing is left.
        ([0, 4, 1], &[3], &[3], Text("plan 1 1 10\n1 3 0 1 0\ntotal 7 3 3 4092\n")),
        ([0, 4, 1], &[3], &[4], Text("plan 1 1 10\n1 3 0 0 0\ntotal 7 4 3 4092\n")),
        ([0, 4, 1], &[3], &[0], Text("plan 1 1 10\n1 3 0 4 0\ntotal 7 0 3 4092\n")),
        ([0, 4, 0], &[4], &[4], Text("plan 1 1 10\n1 4 0 0 0\ntotal 7 4 4 4091\n")),
        ([0, 4, 4], &[0], &[4], Text("plan 1 1 10\n1 0 0 0 0\ntotal 7 4 0 4095\n")),
        // The peak is one more, and the unit would take it down to 4 or less.
        ([0, 4, 2], &[3], &[1], Refused(13)),
        ([0, 4, 2], &[3], &[3], Refused(13)),
        ([0, 4, 2], &[3], &[5], Refused(13)),
        ([0, 4, 4], &[1], &[4], Refused(13)),
        ([0, 4, 0], &[5], &[5], Refused(13)),
        // Cut down to 4 it would still have what the unit takes.
        ([0, 4, 2], &[9], &[4], Refused(13)),
        // One short of what the unit takes, and over besides.
        ([0, 4, 1], &[2], &[4], Refused(13)),
        ([0, 4, 1], &[4], &[6], Refused(13)),
        // A unit larger than the decoder, whatever is sent.
        ([0, 4, 4], &[0, 1, 2, 3, 4, 5], &[5], Refused(13)),
        ([1, 4, 0], &[0, 1, 2, 3, 4, 5], &[5], Refused(13)),
        // The first choice needs 5 there; the second just fits.
        ([0, 4, 3], &[0, 1, 2], &[5, 4, 3], Text("plan 1 1 10\n1 1 1 0 0\ntotal 8 4 1 4094\n")),
        // No unit leaves during the delay, and the level is the peak.
        ([1, 4, 1], &[3], &[3], Refused(13)),
        ([1, 4, 0], &[4, 5], &[4], Refused(13)),
        ([1, 4, 0], &[0, 4], &[4], Text("plan 1 2 15\n1 4 - 4 0\n2 0 0 0 0\ntotal 7 4 4 8186\n")),
        ([1, 4, 4], &[0, 1], &[4], Text("plan 1 2 15\n1 0 - 4 0\n2 0 0 0 0\ntotal 7 4 0 8190\n")),
        (
            [2, 6, 0],
            &[2],
            &[3],
            Text("plan 1 3 28\n1 2 - 2 0\n2 2 - 4 0\n3 2 0 3 0\ntotal 7 3 6 12279\n"),
        ),
        ([2, 5, 0], &[2], &[3], Refused(13)),
        // The largest rate that fills it, though more would leave no more than the size.
        (
            [0, 4, 0],
            &[0, 1, 2, 3, 4, 5, 6],
            &[2],
            Text("plan 1 1 10\n1 4 0 2 0\ntotal 7 2 4 4091\n"),
        ),
        ([0, 4, 1], &[0, 1, 2, 4, 5], &[3], Text("plan 1 1 10\n1 2 0 0 0\ntotal 7 3 2 4093\n")),
        ([0, 4, 3], &[0, 1, 2, 3, 4], &[3], Text("plan 1 1 10\n1 1 0 1 0\ntotal 7 3 1 4094\n")),
        ([0, 4, 4], &[0, 1, 2, 3, 4], &[4], Text("plan 1 1 10\n1 0 0 0 0\ntotal 7 4 0 4095\n")),
        // The ends of the decoder's range.
        ([0, 0, 0], &[0], &[0], Text("plan 1 1 2\n1 0 0 0 0\ntotal 7 0 0 4095\n")),
        ([0, 0, 0], &[1], &[1], Refused(13)),
        ([0, 255, 55], &[200], &[1], Text("plan 1 1 512\n1 200 0 254 0\ntotal 7 1 200 3895\n")),
        ([0, 255, 55], &[201], &[1], Refused(13)),
    ];
    let mut cases = Vec::new();
    for ([delay, size, start], rates, sizes, by_hand) in rows {
        let unit: Vec<(u16, u32)> = sizes.iter().copied().zip(7..).collect();
        let draft = Draft::new([delay, size, 0, 4095, start, 0], rates, &[unit]);
        let label = format!("d {delay}, D {size} at {start}, rates {rates:?}, unit {sizes:?}");
        cases.push(case(label, draft.bytes(), by_hand));
    }
    group("decoder peaks", cases)
}

fn unused_group() -> Group {
    let case = |(label, draft, sums): (_, Draft, _)| {
        let by_hand = if draft.never_drains() { Refused(17) } else { Unused(sums) };
        case(label, draft.bytes(), by_hand)
    };
    group("unused drain", unused_by_hand(PRINTED).into_iter().map(case).collect())
}

/// A drain of 0 in either bucket or both: 17 comes directly after 3, before the next
/// record is looked at, and so before every command, the workspace and the search.
fn never_drains_group() -> Group {
    let mut cases = Vec::new();
    for a in drains_of_a() {
        let never = a.never_drains();
        let line = format!("header {:?}", a.header);
        let tails = faulty_tails(&a);
        let mut add = |label: &str, input: Vec<u8>, head: Refusal, tail: Refusal| {
            let due = first_of(&[(head > 0, head), (never, 17), (tail > 0, tail)]);
            let by_hand = if due == 0 { APlan } else { Refused(due as Refusal) };
            cases.push(case(format!("{line}, {label}"), input, by_hand));
        };
        for (index, (header, head)) in faulty_headers(&a).into_iter().enumerate() {
            // Behind a right header every fault, behind a wrong one some.
            for (tail, number) in tails.iter().step_by(if index == 0 { 1 } else { 40 }) {
                add("a fault", then(header.clone(), tail), head, *number);
            }
            for cut in [0, 3, 4, 14, 21, header.len() - 1] {
                let number = if head == 2 && cut >= 4 { 2 } else { 1 };
                add("cut within the header", header[..cut].to_vec(), number, 0);
            }
        }
        let both = [Pin(1, 0), Pin(2, 0)];
        let rows: [(&[Command], Refusal); 11] = [
            (&[Pin(1, 1)], 0),
            (&[Pin(1, 0), Lift(1)], 0),
            (&[Pin(0, 0)], 7),
            (&[Pin(3, 2)], 7),
            (&[Pin(1, 2)], 8),
            (&[Pin(1, 0), Pin(1, 1)], 9),
            (&[Lift(1)], 10),
            (&[Lift(3)], 7),
            (&[Pin(1, 0), Lift(1), Lift(1)], 10),
            (&both, 13),
            (&[Pin(2, 0)], 13),
        ];
        for (commands, number) in rows {
            let label = format!("commands {}", describe(commands));
            add(&label, a.commanded(commands).bytes(), 0, number);
        }
        for (tail, number) in [(&[6, 0, 6][..], 1), (&wrong_record(), 2), (&a.bytes(), 2)] {
            add("other bytes after it", then(a.bytes(), tail), 0, number);
            let pinned = a.commanded(&[Pin(1, 1)]).bytes();
            add("other bytes after a pin", then(pinned, tail), 0, number);
        }
        let large = a.with(DECODER, 255).with(BUCKET, 255);
        add("too many words", large.bytes(), 0, 11);
        add("too many words and a lift", large.commanded(&[Lift(1)]).bytes(), 0, 10);
        add("32,768 bytes", padded(a.bytes(), INPUT_LIMIT), 0, 2);
        add("32,769 bytes", padded(a.bytes(), INPUT_LIMIT + 1), 15, 0);
    }
    group("lines that never drain", cases)
}

/// Standard input may come in parts; the program must read to the end.
fn parts_group() -> Group {
    let mut cases = vec![
        case("Job A", job_a().bytes(), APlan),
        case("Job A and commands", commanded_a().bytes(), APlan),
        case("Job A and a cut command", then(job_a().bytes(), &[6, 0, 6]), Refused(1)),
        case("32,768 bytes", full_input(), APlan),
        case("32,769 bytes", then(full_input(), &[0]), Refused(15)),
        case("two buckets and commands", with_every_command(&both_lines()[1].1).bytes(), APlan),
        case("drain 0", commanded_a().with(DRAIN, 0).bytes(), Refused(17)),
    ];
    for case in &mut cases {
        case.parts = 5;
    }
    group("input in parts", cases)
}

// ---------------------------------------------------------------------------
// The examples.
// ---------------------------------------------------------------------------

/// Two groups of twelve pictures over a policed channel, the first picture of
/// each costly. Every picture has five codings, from fine to coarse.
fn channel_job() -> Draft {
    let kinds = [15, 5, 4, 9, 4, 5, 8, 5, 6, 10, 4, 3];
    let unit = |i: usize| -> Vec<(u16, u32)> {
        let motion = [0, 0, 1, 2, 2, 1, 0, 1, 3, 1, 0, 0, 0, 2, 3, 1, 1, 0, 2, 0, 1, 2, 0, 0][i];
        let finest = kinds[i % 12] + motion;
        let coding = |c: usize| {
            let grains = finest * (16 - 3 * c as u16) / 16;
            let lost = (finest - grains) as u32;
            (grains, 40 + 9 * motion as u32 + lost * lost * (3 + i as u32 % 5) + 7 * c as u32)
        };
        (0..5).map(coding).collect()
    };
    let units: Vec<Vec<(u16, u32)>> = (0..24).map(unit).collect();
    // The second group's first picture is kept at its finest; the pin of
    // picture 18 is lifted again.
    Draft::new([2, 20, 15, 4, 0, 0], &[1, 3, 5, 9], &units).commanded(&[
        Pin(18, 4),
        Pin(13, 0),
        Lift(18),
    ])
}

fn examples() -> Vec<(&'static str, Vec<u8>)> {
    let a = job_a();
    vec![
        ("job_a", a.bytes()),
        ("job_a_pinned", a.commanded(&[Pin(1, 1)]).bytes()),
        ("job_a_lifted", a.commanded(&[Pin(1, 1), Lift(1)]).bytes()),
        ("no_plan", a.commanded(&[Pin(1, 0), Pin(2, 0)]).bytes()),
        ("two_buckets", a.doubled([1, 2, 0]).bytes()),
        ("never_drains", a.with(DRAIN, 0).bytes()),
        ("channel", channel_job().bytes()),
    ]
}

fn write_examples(directory: &Path) -> std::io::Result<()> {
    std::fs::create_dir_all(directory)?;
    for (name, input) in examples() {
        std::fs::write(directory.join(format!("{name}.bin")), &input)?;
        std::fs::write(directory.join(format!("{name}.txt")), answer(&input))?;
    }
    Ok(())
}

/// Every X.bin of the directory with its X.txt. The examples written here must
/// be among them, or an emptied directory would pass.
fn examples_group(directory: &Path) -> Result<Group, String> {
    let mut cases = Vec::new();
    for (path, input) in example_inputs(directory)? {
        let text_path = path.with_extension("txt");
        let text = std::fs::read_to_string(&text_path).map_err(|_| cannot_read(&text_path))?;
        cases.push(case(path.display().to_string(), input, Made(text)));
    }
    for (name, input) in examples() {
        let there = cases
            .iter()
            .any(|case| case.input == input && case.label.ends_with(&format!("{name}.bin")));
        if !there {
            return Err(format!("{name}.bin is missing or not the one written here"));
        }
    }
    Ok(group("examples", cases))
}

// ---------------------------------------------------------------------------
// Running the program.
// ---------------------------------------------------------------------------

const WORKERS: usize = 2;
/// A run longer than this has hung and is ended.
const RUN_LIMIT: Duration = Duration::from_secs(10);
/// A group gives up after this many failures; more would not say more.
const FAILURE_LIMIT: usize = 3;

struct Program {
    path: String,
    /// What each worker has running, for the watch to end when it hangs.
    running: [Mutex<Option<(Instant, Child)>>; WORKERS],
}

impl Program {
    fn run(&self, worker: usize, input: &[u8], parts: usize) -> Result<Vec<u8>, String> {
        let mut command = std::process::Command::new(&self.path);
        command.stdin(Stdio::piped()).stdout(Stdio::piped()).stderr(Stdio::piped());
        let mut child = command.spawn().map_err(|error| format!("not started: {error}"))?;
        let mut to_program = child.stdin.take().expect("piped");
        let mut from_program = child.stdout.take().expect("piped");
        let mut complaints = child.stderr.take().expect("piped");
        *self.running[worker].lock().unwrap() = Some((Instant::now(), child));
        feed(&mut to_program, input, parts);
        drop(to_program);
        let (mut printed, mut complained) = (Vec::new(), Vec::new());
        let read = from_program.read_to_end(&mut printed);
        let read = read.and(complaints.read_to_end(&mut complained));
        let (started, mut child) = self.running[worker].lock().unwrap().take().expect("put there");
        let status = child.wait().map_err(|error| error.to_string())?;
        read.map_err(|error| error.to_string())?;
        if started.elapsed() > RUN_LIMIT {
            return Err(format!("no end within {} seconds", RUN_LIMIT.as_secs()));
        }
        if status.code().is_none() || !complained.is_empty() {
            let complained = String::from_utf8_lossy(&complained);
            return Err(format!("ended with {status}; on standard error: {complained}"));
        }
        Ok(printed)
    }

    /// Ends runs that have hung, until `done`.
    fn watch(&self, done: &AtomicBool) {
        while !done.load(Ordering::Relaxed) {
            std::thread::sleep(Duration::from_millis(50));
            for slot in &self.running {
                if let Some((started, child)) = slot.lock().unwrap().as_mut() {
                    if started.elapsed() > RUN_LIMIT {
                        // An error only means that it has ended by itself.
                        let _ = child.kill();
                    }
                }
            }
        }
    }
}

/// A program that refuses early may close its input before the end, so a
/// failed write says nothing; what it printed will tell.
fn feed(to_program: &mut impl Write, input: &[u8], parts: usize) {
    let size = input.len().div_ceil(parts).max(1);
    for (index, part) in input.chunks(size).enumerate() {
        if index > 0 {
            std::thread::sleep(Duration::from_millis(15));
        }
        if to_program.write_all(part).is_err() {
            return;
        }
    }
}

struct Failure {
    length: usize,
    report: String,
}

/// Checks one case and gives the text due.
fn check(program: &Program, worker: usize, case: &Case) -> Result<String, Failure> {
    let due = answer(&case.input);
    let fail = |what: &str, left: &str, right: &str| {
        let hex = hex(&case.input);
        let size = case.input.len();
        let report = format!(
            "{what}\n  case: {}\n  input ({size} bytes): {hex}\n  due:\n{}  instead:\n{}",
            case.label,
            indented(left),
            indented(right)
        );
        Failure { length: size, report }
    };
    if !case.by_hand.holds(&due) {
        return Err(fail(
            "the answer worked out here is not the written one",
            &case.by_hand.show(),
            &due,
        ));
    }
    match program.run(worker, &case.input, case.parts) {
        Ok(printed) if printed != due.as_bytes() => {
            Err(fail("the program prints something else", &due, &String::from_utf8_lossy(&printed)))
        }
        Ok(_) if APlan.holds(&due) && !balances(&case.input, &due) => {
            Err(fail("the program prints what does not balance", BALANCE, &due))
        }
        Ok(_) => Ok(due),
        Err(trouble) => Err(fail("the program failed", &due, &trouble)),
    }
}

const BALANCE: &str = "starting level + channel + unused = T x drain + last level, of each bucket";

/// Each bucket's balance, from the printed lines and the job's header alone.
fn balances(input: &[u8], printed: &str) -> bool {
    let count = if u16_at(input, 2) == 8 { 2 } else { 1 };
    let field = |at: usize| u16_at(input, 4 + 2 * at) as i64;
    let numbers = |line: &str| -> Vec<i64> {
        line.split(' ').filter_map(|number| number.parse().ok()).collect()
    };
    let lines: Vec<Vec<i64>> = printed.lines().map(numbers).collect();
    let [first, .., interval, total] = &lines[..] else { return false };
    // Before the buckets' own the last interval's line has its number, what it
    // sends, its choice and the decoder's level.
    if first.len() != 3 || interval.len() != 4 + count || total.len() != 3 + count {
        return false;
    }
    let (intervals, channel) = (first[1], total[2]);
    (0..count).all(|at| {
        let [_, drain, start] = BUCKET_FIELDS[at].map(field);
        start + channel + total[3 + at] == intervals * drain + interval[4 + at]
    })
}

fn indented(text: &str) -> String {
    text.lines().map(|line| format!("    {line}\n")).collect()
}

/// Runs all cases of a group and prints its line; true if all held.
fn run_group(program: &Program, group: &Group) -> bool {
    let next = AtomicUsize::new(0);
    let failures: Mutex<Vec<Failure>> = Mutex::new(Vec::new());
    let tally: Mutex<BTreeMap<String, usize>> = Mutex::new(BTreeMap::new());
    let work = |worker: usize| loop {
        let index = next.fetch_add(1, Ordering::Relaxed);
        if index >= group.cases.len() || failures.lock().unwrap().len() >= FAILURE_LIMIT {
            return;
        }
        match check(program, worker, &group.cases[index]) {
            Ok(due) => *tally.lock().unwrap().entry(outcome(&due)).or_default() += 1,
            Err(failure) => failures.lock().unwrap().push(failure),
        }
    };
    let (work, done) = (&work, &AtomicBool::new(false));
    std::thread::scope(|scope| {
        scope.spawn(|| program.watch(done));
        let workers: Vec<_> =
            (0..WORKERS).map(|worker| scope.spawn(move || work(worker))).collect();
        let ended = workers.into_iter().filter_map(|worker| worker.join().ok()).count();
        // The watch must stop in any case, or a fault here would hang the run.
        done.store(true, Ordering::Relaxed);
        assert_eq!(ended, WORKERS, "a worker broke off");
    });
    report_group(group, failures.into_inner().unwrap(), tally.into_inner().unwrap())
}

/// The kind of answer: `plan` or `refused` with its number.
fn outcome(due: &str) -> String {
    if due.starts_with("plan") {
        "plan".to_string()
    } else {
        due.trim_end().to_string()
    }
}

fn report_group(group: &Group, failures: Vec<Failure>, tally: BTreeMap<String, usize>) -> bool {
    let jobs = group.cases.len();
    if let Some(shortest) = failures.iter().min_by_key(|failure| failure.length) {
        println!("FAILED {}: {} of {jobs} jobs or more; the shortest:", group.name, failures.len());
        println!("  {}", shortest.report.trim_end());
        return false;
    }
    let parts: Vec<String> = tally.iter().map(|(what, count)| format!("{count} {what}")).collect();
    let plans = tally.get("plan").copied().unwrap_or(0);
    if plans * group.plan_in < jobs && group.plan_in > 0 {
        println!("FAILED {}: too few plans among {jobs} jobs: {}", group.name, parts.join(", "));
        return false;
    }
    let mut counts = String::new();
    if let Some((mistakes, asked)) = group.told_in {
        let told = told_apart(mistakes, &group.cases);
        counts = told.show();
        if asked > 0 && !told.each(asked) {
            println!("FAILED {}: too little in {jobs} jobs{counts}", group.name);
            return false;
        }
    }
    println!("ok {}: {jobs} jobs ok ({}){counts}", group.name, parts.join(", "));
    true
}

fn told_apart(mistakes: Mistakes, cases: &[Case]) -> Told {
    let mut told = Told::default();
    for case in cases {
        if let Ok((job, pins)) = read_input(&case.input) {
            told.count_in(PRINTED, mistakes, &job, &pins, &dynamic(PRINTED, &job, &pins));
        }
    }
    told
}

/// The dynamic program against the enumeration in both orders, on tiny jobs and tight
/// ones, of one bucket and of two, on units of many choices, and on jobs full of ties. It
/// also asks that the jobs be worth something: plans, jobs without one, many ties, and many
/// plans that are other ones early than late.
fn searches_agree(new_seed: u64) -> bool {
    let (mut jobs, mut plans, mut ties, mut others) = (0, 0, 0, 0);
    for seed in [1, 2, 3, new_seed] {
        let mut rng = Rng(seed);
        for index in 1..=4600 {
            let draft = match index {
                4101.. => random_equal_job(&mut rng, &EQUAL[0]),
                1..=1500 => random_job(&mut rng, &TINY),
                1501..=2000 => random_tight_job(&mut rng, &TIGHT[0]),
                2001..=3500 => random_tiny_double(&mut rng),
                3501..=4000 => random_double_job(&mut rng, &DOUBLE[0]),
                _ => random_many_job(&mut rng, &MANY[0]),
            };
            let input = draft.bytes();
            let Ok((job, pins)) = read_input(&input) else {
                continue;
            };
            let all = enumerate(&job, &pins);
            if all.best != dynamics(&job, &pins) {
                println!(
                    "FAILED enumeration and dynamic program: job {index}, seed {seed}: {}",
                    hex(&input)
                );
                return false;
            }
            jobs += 1;
            plans += all.best[0].is_some() as usize;
            ties += (all.equals > 1) as usize;
            others += (all.best[0] != all.best[1]) as usize;
        }
    }
    let counts = format!(
        "{jobs} jobs, {plans} with a plan, {ties} with several equal ones, {others} with \
         another early than late"
    );
    let worthwhile =
        plans * 3 > jobs && plans * 10 < jobs * 9 && ties * 4 > plans && others * 4 > plans;
    println!(
        "{} enumeration and dynamic program agree: {counts}",
        if worthwhile { "ok" } else { "FAILED" }
    );
    worthwhile
}

/// What holds of any line of two buckets: in the other order they have the same
/// plan, with their levels and sums in the other order; and a bucket that is there
/// twice, or one that drains all that is sent, leaves the plan of the line without
/// it.
fn lines_agree(new_seed: u64) -> bool {
    let (mut jobs, mut plans, mut others) = (0, 0, 0);
    for seed in [1, 2, 3, new_seed] {
        let mut rng = Rng(seed);
        for index in 1..=1000 {
            let draft = random_double_job(&mut rng, &DOUBLE[(index % 50 == 0) as usize]);
            let size = rng.from(0, 9) as u16;
            if let Err(what) = line_agrees(&draft, [size, 4095, size]) {
                println!("FAILED lines: {what}: job {index}, seed {seed}: {}", hex(&draft.bytes()));
                return false;
            }
            let (best, alone) = (followed(&draft), followed(&draft.alone()));
            jobs += 1;
            plans += best.is_some() as usize;
            others += (best.map(|found| found.0) != alone.map(|found| found.0)) as usize;
        }
    }
    let counts = format!("{jobs} jobs, {plans} with a plan, {others} with another than without it");
    let worthwhile = plans * 2 > jobs && others * 4 > jobs;
    println!("{} lines of two buckets: {counts}", if worthwhile { "ok" } else { "FAILED" });
    worthwhile
}

/// The best plan with the levels of each interval and the totals.
fn followed(draft: &Draft) -> Option<(Plan, Vec<i64>, Totals)> {
    let (job, pins) = read_input(&draft.bytes()).ok()?;
    let plan = dynamic(PRINTED, &job, &pins)?;
    let (levels, totals) = followed_by(&RULES, &job, &pins, &plan)?;
    Some((plan, levels, totals))
}

fn line_agrees(draft: &Draft, idle: [u16; 3]) -> Result<(), &'static str> {
    let swapped = followed(&draft.swapped()).map(|(plan, mut levels, mut totals)| {
        levels.chunks_mut(3).for_each(|levels| levels.swap(1, 2));
        totals.unused.swap(0, 1);
        (plan, levels, totals)
    });
    if swapped != followed(draft) {
        return Err("in the other order");
    }
    let alone = followed(&draft.alone()).map(|found| found.0);
    let [size, drain, start] = BUCKET_FIELDS[0].map(|field| draft.header[field]);
    for (what, second) in [("a bucket twice", [size, drain, start]), ("an idle bucket", idle)] {
        if followed(&draft.doubled(second)).map(|found| found.0) != alone {
            return Err(what);
        }
    }
    Ok(())
}

fn run_all(path: String, new_seed: u64, example_directory: Option<&Path>) -> bool {
    let program = Program { path, running: [const { Mutex::new(None) }; WORKERS] };
    println!("new seed {new_seed}");
    let mut groups = vec![
        job_a_group(),
        second_group(),
        header_group(),
        rates_group(),
        entries_group(),
        cuts_group(),
        kinds_group(),
        header_kinds_group(),
        job_order_group(),
        command_order_group(),
        command_numbers_group(),
        trailing_group(),
        input_length_group(),
        workspace_group(),
        double_workspace_group(),
        unit_counts_group(),
        large_numbers_group(),
        peaks_group(),
        unused_group(),
        thousand_group(),
        never_drains_group(),
        parts_group(),
        command_lists_group(),
    ];
    groups.extend(random_groups(new_seed));
    let mut results = vec![searches_agree(new_seed), lines_agree(new_seed)];
    results.extend(groups.iter().map(|group| run_group(&program, group)));
    if let Some(directory) = example_directory {
        results.push(match examples_group(directory) {
            Ok(group) => run_group(&program, &group),
            Err(trouble) => {
                println!("FAILED examples: {trouble}");
                false
            }
        });
    }
    let passed = results.iter().filter(|held| **held).count();
    println!("{passed} passed, {} failed", results.len() - passed);
    passed == results.len()
}

// ---------------------------------------------------------------------------
// The command line.
// ---------------------------------------------------------------------------

const USAGE: &str = "usage: brute_force PATH_OF_PLAN [SEED] [--examples DIR]\n       \
                     brute_force --write-examples DIR";

fn run_arguments(arguments: &[String]) -> Option<bool> {
    let (first, mut rest) = arguments.split_first()?;
    if first == "--write-examples" {
        let [directory] = rest else { return None };
        if let Err(error) = write_examples(Path::new(directory)) {
            println!("{directory}: {error}");
            return Some(false);
        }
        return Some(true);
    }
    let (mut seed, mut directory) = (None, None);
    loop {
        match rest {
            [] => break,
            [flag, value, tail @ ..] if flag == "--examples" => {
                directory = Some(Path::new(value));
                rest = tail;
            }
            [number, tail @ ..] => {
                seed = Some(number.parse().ok()?);
                rest = tail;
            }
        }
    }
    Some(run_all(first.clone(), seed.unwrap_or_else(clock_seed), directory))
}

fn main() -> ExitCode {
    let arguments: Vec<String> = std::env::args().skip(1).collect();
    match run_arguments(&arguments) {
        Some(true) => ExitCode::SUCCESS,
        Some(false) => ExitCode::from(1),
        None => {
            println!("{USAGE}");
            ExitCode::from(2)
        }
    }
}
