//! Plans of one job: `plan`, `replay` and `report`.

use upload_planner::{best_plan, open, report as buffer_report};
use upload_planner::{Aim, Order, Replayed};

use crate::arguments::{Command, Given, Takes};
use crate::files;
use crate::jobs::{calls, Followed, Job};
use crate::picture::{self, Shown};
use crate::table::{self, aligned, Listed};
use crate::trouble::{Failure, Trouble};

pub const PLAN: Command = Command {
    name: "plan",
    summary: "plans a job: of all admissible plans the best",
    usage: "JOB [--pin U=C]... [--even] [--late] [--entries FILE] \
            [--picture FILE.svg [--title TEXT]]",
    files: &["JOB"],
    many: false,
    writes: false,
    options: &[
        ("--pin", Takes::Values),
        ("--even", Takes::Nothing),
        ("--late", Takes::Nothing),
        ("--entries", Takes::File),
        ("--picture", Takes::File),
        ("--title", Takes::Value),
    ],
    help: "\
Prints the plan of least total distortion, a line for each interval, and its
totals.

    interval    counted from 1
    rate, sent  the index of its rate, and the grains that it sends
    unit        the unit that it decodes, - where there is none
    choice      the index of the unit's choice
    pin         * where the unit is pinned
    grains      what the unit takes at this choice
    distortion  what it loses
    peak        what the decoder holds before the unit leaves
    decoder     what it holds afterwards
    bucket      what is in the carrier's bucket; second: in the second one

JOB is a file with the bytes of a job, or - for standard input. Bytes behind
the job are not looked at.

    --pin U=C      holds unit U, counted from 1, at choice C, counted from 0;
                   may be given for each unit
    --even         even pictures: the worst unit as good as can be, and among
                   such plans the least total
    --late         of plans as good, the one that sends late; the default is
                   the one that sends early
    --entries FILE writes the plan itself, three bytes for each interval
    --picture FILE.svg
                   draws the plan
    --title TEXT   the title of the picture, instead of the name of JOB

Example: hold unit 1 at its second choice.
    upload-planner plan job.bin --pin 1=1 --entries plan.bin
",
    run: plan,
};

pub const REPLAY: Command = Command {
    name: "replay",
    summary: "follows a plan, up to its first violation",
    usage: "JOB ENTRIES [--pin U=C]... [--picture FILE.svg [--title TEXT]]",
    files: &["JOB", "ENTRIES"],
    many: false,
    writes: false,
    options: &[("--pin", Takes::Values), ("--picture", Takes::File), ("--title", Takes::Value)],
    help: "\
Follows a plan interval by interval and prints it as plan does. It ends with
the totals, or with the first violation, such as

    violation in interval 7: decoder short

The interval with the violation has its peak, but no levels. A violation is an
answer and no refusal: the exit status is 0.

JOB is a file with the bytes of a job, whose line may never drain, ENTRIES one
with a plan of it, as plan --entries writes it. One of them may be -, which is
standard input.

    --pin U=C      unit U is to have choice C; may be given for each unit
    --picture FILE.svg
                   draws the plan, its levels up to a violation
    --title TEXT   the title of the picture, instead of the name of JOB

Example:
    upload-planner replay job.bin plan.bin
",
    run: replay,
};

pub const REPORT: Command = Command {
    name: "report",
    summary: "lists the effective buffer sizes of a plan",
    usage: "JOB ENTRIES [--picture FILE.svg [--title TEXT]]",
    files: &["JOB", "ENTRIES"],
    many: false,
    writes: false,
    options: &[("--picture", Takes::File), ("--title", Takes::Value)],
    help: "\
Prints the effective buffer sizes of a plan, admissible or not: for each i from
0 to the number of units the grains that intervals i + 1 to i + delay send.

JOB is a file with the bytes of a job, whose line may never drain, ENTRIES one
with a plan of it, as plan --entries writes it. One of them may be -, which is
standard input.

    --picture FILE.svg
                   draws the plan itself, as replay does
    --title TEXT   the title of the picture, instead of the name of JOB

Example:
    upload-planner report job.bin plan.bin
",
    run: report,
};

fn plan(given: &Given, output: &mut Vec<u8>) -> Result<(), Failure> {
    let title = picture_title(given)?;
    let job = Job::open(&given.files()[0])?;
    let pins = job.pins(given)?;
    let opened = open(&job.bytes).map_err(|refusal| job.refused(refusal))?;
    job.check_room(opened.table_words)?;
    let aim = if given.has("--even") { Aim::Even } else { Aim::Total };
    let best = best_plan(&job.bytes, &calls(&pins), aim, order(given))
        .map_err(|refusal| job.refused(refusal))?;
    let followed = job.follow(&pins, &best.entries).map_err(|refusal| job.refused(refusal))?;
    if let Some(file) = given.value("--entries") {
        files::write(file, &best.entries)?;
    }
    draw(given, &title, &job, &pins, &followed)?;
    output.extend(listing(&job, &pins, &followed).into_bytes());
    Ok(())
}

fn replay(given: &Given, output: &mut Vec<u8>) -> Result<(), Failure> {
    let [job, entries] = given.read_files()? else { unreachable!("replay takes two files") };
    let title = picture_title(given)?;
    let job = Job::stored(job)?;
    let pins = job.pins(given)?;
    let followed = job.follow_file(&pins, entries)?;
    draw(given, &title, &job, &pins, &followed)?;
    output.extend(listing(&job, &pins, &followed).into_bytes());
    Ok(())
}

fn report(given: &Given, output: &mut Vec<u8>) -> Result<(), Failure> {
    let [job, entries] = given.read_files()? else { unreachable!("report takes two files") };
    let title = picture_title(given)?;
    let job = Job::stored_without_pins(job)?;
    let followed = job.follow_file(&[], entries)?;
    let mut sums = vec![0; usize::from(job.contents.header.units) + 1];
    buffer_report(&job.bytes, &followed.entries, &mut sums)
        .map_err(|refusal| job.refused(refusal))?;
    draw(given, &title, &job, &[], &followed)?;
    let sums = sums.iter().enumerate();
    let rows: Vec<Vec<String>> =
        sums.map(|(i, sum)| vec![i.to_string(), sum.to_string()]).collect();
    output.extend(table::text(&aligned(&["i", "sum"], &rows)).into_bytes());
    Ok(())
}

/// The order that the arguments name.
pub fn order(given: &Given) -> Order {
    if given.has("--late") {
        Order::Late
    } else {
        Order::Early
    }
}

/// The title of a picture of the first file: the one that is given, or the file's name without its
/// folders.
pub fn picture_title(given: &Given) -> Result<String, Trouble> {
    match given.words("--title").into_iter().next() {
        Some(_) if !given.has("--picture") => {
            Err(Trouble::Usage("--title is given without --picture".to_string()))
        }
        Some(title) => Ok(title),
        None => Ok(files::short_name(&given.files()[0])),
    }
}

/// Draws a plan where a picture is asked for.
fn draw(
    given: &Given,
    title: &str,
    job: &Job,
    pins: &[(u16, u16)],
    followed: &Followed,
) -> Result<(), Failure> {
    let Some(file) = given.value("--picture") else { return Ok(()) };
    let Followed { entries, levels, found } = followed;
    let shown = Shown { contents: &job.contents, pins, entries, levels, found };
    Ok(files::write(file, picture::of_plan(title, &shown).as_bytes())?)
}

/// The table of a plan, then its totals or its violation.
fn listing(job: &Job, pins: &[(u16, u16)], followed: &Followed) -> String {
    let Followed { entries, levels, found } = followed;
    let sent = table::sent(entries, &job.contents.rates);
    let listed = Listed { contents: &job.contents, pins, entries, sent: &sent, levels };
    let end = match found {
        Replayed::Clean(totals) => table::totals(totals),
        violated => format!("{}\n", violation(violated)),
    };
    format!("{}\n{end}", listed.table())
}

/// What is wrong with a plan, and where.
pub fn violation(found: &Replayed) -> String {
    match found {
        Replayed::Clean(_) => "no violation".to_string(),
        Replayed::Violated { violation, interval } => {
            format!("violation in interval {interval}: {violation}")
        }
    }
}
