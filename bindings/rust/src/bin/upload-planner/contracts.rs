//! Trial jobs, contracts and playlists: `trial`, `sizes`, `change` and `playlist`.

use std::ffi::OsString;

use upload_planner::{changed, contents, larger_buckets, open, playlist_plans};
use upload_planner::{replayed, trial_job};
use upload_planner::{Bucket, Contents, Contract, Entry, Header, Levels, PlaylistRefusal};
use upload_planner::{ProgrammePlan, Refusal, Totals};

use crate::arguments::{Command, Given, Takes};
use crate::fields::{Fields, FIELDS};
use crate::files;
use crate::jobs::{calls, unopened, Followed, Job, LARGEST_JOB};
use crate::picture;
use crate::plans::{order, picture_title, violation};
use crate::table::{self, aligned, cell, Listed};
use crate::trouble::{Failure, Trouble};
use crate::words::{quoted, small, whole, NOT_WHOLE};

pub const TRIAL: Command = Command {
    name: "trial",
    summary: "makes a job to try things with",
    usage: "--units N --delay N --decoder N --bucket N --drain N --rates N --choices N \
            [--decoder-level N] [--bucket-level N] [--second-bucket N --second-drain N \
            [--second-level N]] --state N JOB",
    files: &["JOB"],
    many: false,
    writes: true,
    options: &[
        ("--units", Takes::Value),
        ("--delay", Takes::Value),
        ("--decoder", Takes::Value),
        ("--bucket", Takes::Value),
        ("--drain", Takes::Value),
        ("--rates", Takes::Value),
        ("--choices", Takes::Value),
        ("--decoder-level", Takes::Value),
        ("--bucket-level", Takes::Value),
        ("--second-bucket", Takes::Value),
        ("--second-drain", Takes::Value),
        ("--second-level", Takes::Value),
        ("--state", Takes::Value),
    ],
    help: "\
Writes a trial job to the file JOB, or for - to standard output. Its rates,
grains and distortions are drawn from a starting state, a number from 0 to
4294967295: the same numbers give the same bytes on every machine. The job
opens, but may have no plan.

    --units        1 to 512
    --delay        0 to 64 intervals
    --decoder, --bucket
                   their sizes, 0 to 255 grains
    --drain        1 to 4095 grains in an interval
    --rates        how many, 1 to 16
    --choices      how many for each unit, 1 to 1000
    --decoder-level, --bucket-level
                   the levels at the start, 0 if left out
    --second-bucket, --second-drain, --second-level
                   a second bucket, of at most 63 grains
    --state        the starting state

Example:
    upload-planner trial --units 8 --delay 2 --decoder 60 --bucket 20 \\
        --drain 15 --rates 10 --choices 4 --state 7 trial.bin
",
    run: trial,
};

pub const SIZES: Command = Command {
    name: "sizes",
    summary: "lists what a larger bucket brings",
    usage: "JOB [--pin U=C]... [--picture FILE.svg [--title TEXT]]",
    files: &["JOB"],
    many: false,
    writes: false,
    options: &[("--pin", Takes::Values), ("--picture", Takes::File), ("--title", Takes::Value)],
    help: "\
Lists what a larger bucket brings: for each size of the first bucket, from the
job's own to 255, the least total distortion, or - where there is no plan.

JOB is a file with the bytes of a job, or - for standard input.

    --pin U=C      holds unit U at choice C; may be given for each unit
    --picture FILE.svg
                   draws the total against the size
    --title TEXT   the title of the picture, instead of the name of JOB

Example:
    upload-planner sizes job.bin --picture sizes.svg
",
    run: sizes,
};

pub const CHANGE: Command = Command {
    name: "change",
    summary: "plans the rest afresh under a new contract",
    usage: "JOB ENTRIES --after S --rates R,... --sizes K[,K2] --drains N[,N2] [--pin U=C]... \
            [--late] [--entries FILE]",
    files: &["JOB", "ENTRIES"],
    many: false,
    writes: false,
    options: &[
        ("--after", Takes::Value),
        ("--rates", Takes::Value),
        ("--sizes", Takes::Value),
        ("--drains", Takes::Value),
        ("--pin", Takes::Values),
        ("--late", Takes::Nothing),
        ("--entries", Takes::File),
    ],
    help: "\
Plans the rest of a programme afresh when the carrier's contract changes. The
first S intervals of the plan ENTRIES remain; those after them are planned
under the new contract, from the levels that were reached. The whole plan is
printed as plan prints it. Behind interval S the rates are the new ones, and
the buckets too. Each interval counts in the totals by its own contract.

JOB is a file with the bytes of a job, ENTRIES one with a plan of it, as plan
--entries writes it. One of them may be -, which is standard input.

    --after S      the last interval under the old contract
    --rates R,...  the new rates, rising
    --sizes K[,K2] the new size of each bucket
    --drains N[,N2]
                   the new drain of each bucket
    --pin U=C      holds unit U at choice C; may be given for each unit
    --late         of plans as good, the one that sends late
    --entries FILE writes the whole plan, three bytes for each interval; behind
                   interval S they have indices of the new rates, so that
                   replay, report and change, which go by the job's own
                   contract, do not take them

Example:
    upload-planner change job.bin plan.bin --after 1 \\
        --rates 0,1,3 --sizes 2 --drains 1
",
    run: change,
};

pub const PLAYLIST: Command = Command {
    name: "playlist",
    summary: "plans programmes that are sent back to back",
    usage: "JOB... [--entries FILE]",
    files: &["JOB"],
    many: true,
    writes: false,
    options: &[("--entries", Takes::File)],
    help: "\
Plans programmes that are sent back to back over one line, up to 64. Each
starts from the bucket levels at which the one before it ended, and is planned
late, without pins. A line for each programme says whether it is planned, its
totals: distortion, source grains, channel grains and the unused grains of each
bucket, and what is in the buckets at its end. Work stops at the first one that
is refused: the message names its place and its file, and no entries are
written.

Each JOB is a file with the bytes of one job and nothing behind it; one of them
may be -, which is standard input. A file may be named more than once.

    --entries FILE writes the plans one after another, three bytes for each
                   interval

Example:
    upload-planner playlist news.bin film.bin news.bin
",
    run: playlist,
};

fn trial(given: &Given, output: &mut Vec<u8>) -> Result<(), Failure> {
    let fields = fields_of(given)?;
    let word = given.due("--state")?;
    let state = whole(&word).and_then(|state| u32::try_from(state).ok());
    let state = state.ok_or_else(|| {
        Trouble::Usage(format!("--state {} is no number from 0 to {}", quoted(&word), u32::MAX))
    })?;
    let job = trial_job(&fields.header(), state).map_err(|refusal| fields.refused(refusal))?;
    Ok(files::put(&given.files()[0], &job, output)?)
}

/// The numbers of a header that the options give.
fn fields_of(given: &Given) -> Result<Fields, Trouble> {
    let mut fields = Fields::default();
    for field in &FIELDS {
        let option = format!("--{}", field.name);
        if given.has(&option) {
            let word = given.due(&option)?;
            let number = small(&word)
                .ok_or_else(|| Trouble::Usage(format!("{option} {} {NOT_WHOLE}", quoted(&word))))?;
            fields.give(field, number, format!("{option} {word}"));
        }
    }
    match fields.missing() {
        Some(name) => Err(Trouble::Usage(format!("--{name} is missing"))),
        None => Ok(fields),
    }
}

fn sizes(given: &Given, output: &mut Vec<u8>) -> Result<(), Failure> {
    let title = picture_title(given)?;
    let job = Job::open(&given.files()[0])?;
    let pins = job.pins(given)?;
    let opened = open(&job.bytes).map_err(|refusal| job.refused(refusal))?;
    job.check_room(opened.largest_table_words())?;
    let listed = larger_buckets(&job.bytes, &calls(&pins));
    let totals = listed.map_err(|refusal| job.refused(refusal))?;
    if let Some(file) = given.value("--picture") {
        files::write(file, picture::of_sizes(&title, &totals).as_bytes())?;
    }
    let rows: Vec<Vec<String>> =
        totals.iter().map(|(size, total)| vec![size.to_string(), cell(*total)]).collect();
    output.extend(table::text(&aligned(&["size", "total"], &rows)).into_bytes());
    Ok(())
}

fn change(given: &Given, output: &mut Vec<u8>) -> Result<(), Failure> {
    let [job, entries] = given.read_files()? else { unreachable!("change takes two files") };
    let first = first_of(given)?;
    let [rates, sizes, drains] = ["--rates", "--sizes", "--drains"].map(|name| given.numbers(name));
    let (rates, sizes, drains) = (rates?, sizes?, drains?);
    let contract = Contract { rates: &rates, sizes: &sizes, drains: &drains };

    let job = Job::open(job)?;
    let pins = job.pins(given)?;
    let old = job.follow_file(&pins, entries)?;
    let best = changed(&job.bytes, &calls(&pins), &old.entries, first, contract, order(given))
        .map_err(|refusal| refused_change(refusal, given, &job, &old, first))?;
    if let Some(file) = given.value("--entries") {
        files::write(file, &best.entries)?;
    }
    let listed = changed_table(&job, &pins, &old, first as usize, contract, &best.entries)?;
    output.extend(format!("{listed}\n{}", table::totals(&best.totals)).into_bytes());
    Ok(())
}

/// The table of a plan whose contract changes after the first intervals.
fn changed_table(
    job: &Job,
    pins: &[(u16, u16)],
    old: &Followed,
    first: usize,
    contract: Contract,
    entries: &[u8],
) -> Result<String, Failure> {
    let (before, rest) = entries.split_at(Entry::BYTES * first);
    let mut levels = old.levels[..first].to_vec();
    levels.extend(rest_levels(job, contract, first, levels[first - 1], rest)?);
    let sent = [table::sent(before, &job.contents.rates), table::sent(rest, contract.rates)];
    let (contents, sent) = (&job.contents, &sent.concat());
    Ok(Listed { contents, pins, entries, sent, levels: &levels }.table())
}

/// The interval after which the contract changes. One that cannot be counted is refused as any
/// behind the programme's end.
fn first_of(given: &Given) -> Result<u32, Trouble> {
    let word = given.due("--after")?;
    let first = whole(&word).map(|first| u32::try_from(first).unwrap_or(u32::MAX));
    first.ok_or_else(|| Trouble::Usage(format!("--after {} {NOT_WHOLE}", quoted(&word))))
}

/// A refusal of a change, with what it is about.
fn refused_change(
    refusal: Refusal,
    given: &Given,
    job: &Job,
    old: &Followed,
    first: u32,
) -> Failure {
    let option = |name: &str| format!("{name} {}", given.words(name).concat());
    let place = match refusal {
        Refusal::Header => contract_limits(&job.contents.header),
        Refusal::NeverDrains => option("--drains"),
        Refusal::Rates => option("--rates"),
        Refusal::NotWithin => {
            format!("{} is not from 1 to {}", option("--after"), job.intervals() - 1)
        }
        Refusal::OldViolation => violation(&old.found),
        Refusal::CarriedOver => {
            let reached = old.levels[first as usize - 1];
            format!("{}, where {}", option("--sizes"), in_buckets(reached))
        }
        _ => return job.refused(refusal),
    };
    Trouble::from(refusal).about(place)
}

/// What a contract may be.
fn contract_limits(header: &Header) -> String {
    let (sizes, drains) = match header.second {
        Some(_) => ("two, at most 255 and 63", "two, 1 to 4095"),
        None => ("one, at most 255", "one, 1 to 4095"),
    };
    format!("--rates takes 1 to 16 numbers, --sizes {sizes}, --drains {drains}")
}

fn in_buckets(reached: Levels) -> String {
    match reached.second {
        Some(second) => format!("{} and {second} grains are in the buckets", reached.bucket),
        None => format!("{} grains are in the bucket", reached.bucket),
    }
}

/// The levels behind the first intervals.
fn rest_levels(
    job: &Job,
    contract: Contract,
    first: usize,
    reached: Levels,
    entries: &[u8],
) -> Result<Vec<Levels>, Failure> {
    let rest = rest_of(&job.contents, contract, first as u16, reached);
    let levels = rest.job().and_then(|rest| replayed(&rest, &[], entries));
    Ok(levels.map_err(|refusal| job.refused(refusal))?.0)
}

/// What is still to be sent is a job too: it has the units that are left and the new contract, and
/// starts at the levels that were reached.
fn rest_of(contents: &Contents, contract: Contract, first: u16, reached: Levels) -> Contents {
    let Header { units, delay, choices, .. } = contents.header;
    let decoded = first.saturating_sub(delay);
    let second = reached.second.map(|level| Bucket {
        size: contract.sizes[1],
        drain: contract.drains[1],
        level,
    });
    let header = Header {
        units: units - decoded,
        delay: delay.saturating_sub(first),
        bucket: contract.sizes[0],
        drain: contract.drains[0],
        level: reached.decoder,
        fill: reached.bucket,
        rates: contract.rates.len() as u16,
        second,
        ..contents.header
    };
    let left = usize::from(decoded) * usize::from(choices);
    Contents {
        header,
        rates: contract.rates.to_vec(),
        sizes: contents.sizes[left..].to_vec(),
        distortions: contents.distortions[left..].to_vec(),
    }
}

fn playlist(given: &Given, output: &mut Vec<u8>) -> Result<(), Failure> {
    let names = given.read_files()?;
    let read: Result<Vec<Vec<u8>>, Trouble> =
        names.iter().map(|name| files::read(name, LARGEST_JOB)).collect();
    let read = read?;
    let jobs: Vec<&[u8]> = read.iter().map(Vec::as_slice).collect();
    match playlist_plans(&jobs) {
        Ok(plans) => {
            let entries: Vec<u8> = plans.iter().flat_map(|plan| plan.entries.clone()).collect();
            if let Some(file) = given.value("--entries") {
                files::write(file, &entries)?;
            }
            output.extend(programmes(names, &jobs, &plans).into_bytes());
            Ok(())
        }
        Err(refused) => Err(refused_playlist(refused, names, &jobs, output)),
    }
}

/// Lists the programmes before the one that is refused.
fn refused_playlist(
    refused: PlaylistRefusal,
    names: &[OsString],
    jobs: &[&[u8]],
    output: &mut Vec<u8>,
) -> Failure {
    let trouble = Trouble::RefusedProgramme(refused);
    let Some(place) = refused.place else { return trouble.into() };
    // Where the first programme is refused, those before it are no list.
    let planned = playlist_plans(&jobs[..place - 1]).unwrap_or_default();
    output.extend(programmes(names, jobs, &planned).into_bytes());
    trouble.about(unopened(&files::name(&names[place - 1]), refused.refusal))
}

/// A line for each programme: its totals and the levels at its end, or marks for those that are not
/// planned, and its file.
fn programmes(names: &[OsString], jobs: &[&[u8]], plans: &[ProgrammePlan]) -> String {
    let mut head = vec!["programme", "planned", "distortion", "source", "channel", "unused"];
    head.extend(["second-unused", "bucket", "second"]);
    let ends = end_levels(jobs, plans);
    let rows: Vec<Vec<String>> =
        (0..names.len()).map(|place| programme(place, plans.get(place), ends.get(place))).collect();
    let files = ["file".to_string()].into_iter().chain(names.iter().map(|name| files::name(name)));
    let lines = aligned(&head, &rows).into_iter().zip(files);
    lines.map(|(line, file)| format!("{line}  {file}\n")).collect()
}

/// What is in a line's buckets.
#[derive(Clone, Copy)]
struct Ends {
    bucket: u64,
    second: Option<u64>,
}

/// What is in the buckets at the end of each programme.
fn end_levels(jobs: &[&[u8]], plans: &[ProgrammePlan]) -> Vec<Ends> {
    // All that were planned open.
    let headers = jobs.iter().filter_map(|job| Some(contents(job).ok()?.header));
    let mut before = None;
    let ends = headers.zip(plans).map(|(header, plan)| {
        let ends = ends_of(&header, before, &plan.totals);
        before = Some(ends);
        ends
    });
    ends.collect()
}

/// What is in the buckets at the end of a programme: the first one starts from its own levels, each
/// other from those at the end of the one before it.
fn ends_of(header: &Header, before: Option<Ends>, totals: &Totals) -> Ends {
    let intervals = u64::from(header.units) + u64::from(header.delay);
    let end = |start: u64, unused: u64, drain: u16| {
        start + totals.channel_grains + unused - intervals * u64::from(drain)
    };
    let starts = before.unwrap_or(Ends {
        bucket: header.fill.into(),
        second: header.second.map(|second| second.level.into()),
    });
    let second = header.second.zip(starts.second).zip(totals.second_unused);
    Ends {
        bucket: end(starts.bucket, totals.unused_grains, header.drain),
        second: second.map(|((second, start), unused)| end(start, unused, second.drain)),
    }
}

fn programme(place: usize, plan: Option<&ProgrammePlan>, ends: Option<&Ends>) -> Vec<String> {
    let totals = plan.map(|plan| plan.totals);
    let planned = if totals.is_some() { "yes" } else { "no" };
    vec![
        (place + 1).to_string(),
        planned.to_string(),
        cell(totals.map(|totals| totals.distortion)),
        cell(totals.map(|totals| totals.source_grains)),
        cell(totals.map(|totals| totals.channel_grains)),
        cell(totals.map(|totals| totals.unused_grains)),
        cell(totals.and_then(|totals| totals.second_unused)),
        cell(ends.map(|ends| ends.bucket)),
        cell(ends.and_then(|ends| ends.second)),
    ]
}
