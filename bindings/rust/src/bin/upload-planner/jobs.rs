//! Jobs from files, with the pins that are asked for, and plans of them.

use std::ffi::OsStr;
use std::io::{self, Write};

use upload_planner::{archived_contents, called, contents, replayed};
use upload_planner::{Call, Contents, Entry, Levels, Refusal, Replayed};

use crate::arguments::Given;
use crate::files;
use crate::trouble::{Failure, Trouble};
use crate::words::{quoted, small};

/// The bytes of the largest job.
pub const LARGEST_JOB: usize = 3_074_112;

/// The bytes of the longest plan, of 512 units and 64 intervals before them.
const LONGEST_PLAN: usize = Entry::BYTES * 576;

/// What a note of bytes behind a job adds where the command takes pins: they may be meant as such.
const PINS: &str = "; pins are given with --pin";

/// The same for a sitting.
const SITTING_PINS: &str = "; pins are given in the sitting";

/// A job from a file.
pub struct Job {
    /// The name of the file.
    pub name: String,
    pub bytes: Vec<u8>,
    pub contents: Contents,
}

impl Job {
    /// Reads a job that is to be planned.
    pub fn open(file: &OsStr) -> Result<Job, Failure> {
        Job::read(file, contents, PINS)
    }

    /// Reads a job for a sitting.
    pub fn open_to_sit(file: &OsStr) -> Result<Job, Failure> {
        Job::read(file, contents, SITTING_PINS)
    }

    /// Reads a job whose line may never drain.
    pub fn stored(file: &OsStr) -> Result<Job, Failure> {
        Job::read(file, archived_contents, PINS)
    }

    /// Reads such a job for a command that takes no pins.
    pub fn stored_without_pins(file: &OsStr) -> Result<Job, Failure> {
        Job::read(file, archived_contents, "")
    }

    fn read(
        file: &OsStr,
        by: fn(&[u8]) -> Result<Contents, Refusal>,
        hint: &str,
    ) -> Result<Job, Failure> {
        let (name, bytes) = (files::name(file), files::read(file, LARGEST_JOB)?);
        match by(&bytes) {
            Ok(contents) => {
                let job = Job { name, bytes, contents };
                job.note_behind(hint);
                Ok(job)
            }
            Err(refusal) => Err(Trouble::from(refusal).about(unopened(&name, refusal))),
        }
    }

    /// Says that bytes behind the job are not looked at, where there are some.
    fn note_behind(&self, hint: &str) {
        let bytes = match self.bytes.len() - self.contents.header.job_bytes() {
            0 => return,
            _ if self.bytes.len() > LARGEST_JOB => "more bytes behind the job are".to_string(),
            1 => "1 byte behind the job is".to_string(),
            behind => format!("{behind} bytes behind the job are"),
        };
        let note = format!("upload-planner: {}: {bytes} not looked at{hint}\n", self.name);
        // The command does its work also where standard error cannot be written.
        let _ = io::stderr().write_all(note.as_bytes());
    }

    /// A refusal that is about this job.
    pub fn refused(&self, refusal: Refusal) -> Failure {
        Trouble::from(refusal).about(self.name.clone())
    }

    /// T.
    pub fn intervals(&self) -> usize {
        usize::from(self.contents.header.units) + usize::from(self.contents.header.delay)
    }

    /// The pins of the options `--pin U=C`, each of which the job has to take.
    pub fn pins(&self, given: &Given) -> Result<Vec<(u16, u16)>, Failure> {
        let words = given.words("--pin");
        let pins = words.iter().map(|word| pin_of(word)).collect::<Result<Vec<_>, Trouble>>()?;
        // A stored job that never drains takes no pin, and is replayed without.
        if pins.is_empty() {
            return Ok(pins);
        }
        let made = called(&self.bytes, &calls(&pins)).map_err(|refusal| self.refused(refusal))?;
        for (answer, word) in made.answers.iter().zip(&words) {
            answer.map_err(|refusal| self.refused_pin(refusal, word))?;
        }
        Ok(pins)
    }

    fn refused_pin(&self, refusal: Refusal, word: &str) -> Failure {
        let (units, choices) = (self.contents.header.units, self.contents.header.choices);
        let range = format!("units 1 to {units}, choices 0 to {}", choices - 1);
        Trouble::from(refusal).about(format!("{}: --pin {word} ({range})", self.name))
    }

    /// Whether there is memory for a table of so many words. Without it the program would end in
    /// the midst of planning, and not say for which job.
    pub fn check_room(&self, words: usize) -> Result<(), Failure> {
        self.check_tables(1, "a table", words)
    }

    /// The same for a sitting, which has a plan's table beside its own.
    pub fn check_room_to_sit(&self, words: usize) -> Result<(), Failure> {
        self.check_tables(2, "two tables", words)
    }

    fn check_tables(&self, count: usize, tables: &str, words: usize) -> Result<(), Failure> {
        if Vec::<u32>::new().try_reserve_exact(words.saturating_mul(count)).is_ok() {
            return Ok(());
        }
        let place = format!("{}: there is no memory for {tables} of {words} words", self.name);
        Err(Trouble::from(Refusal::TableTooShort).about(place))
    }

    /// Reads a plan of this job and follows it.
    pub fn follow_file(&self, pins: &[(u16, u16)], file: &OsStr) -> Result<Followed, Failure> {
        let entries = files::read(file, LONGEST_PLAN)?;
        self.follow(pins, &entries).map_err(|refusal| {
            let place = self.wrong_entry(&entries);
            Trouble::from(refusal).about(format!("{}: {place}", files::name(file)))
        })
    }

    /// Follows a plan.
    pub fn follow(&self, pins: &[(u16, u16)], entries: &[u8]) -> Result<Followed, Refusal> {
        let (levels, found) = replayed(&self.bytes, &calls(pins), entries)?;
        Ok(Followed { entries: entries.to_vec(), levels, found })
    }

    /// Why bytes are no plan of this job.
    fn wrong_entry(&self, entries: &[u8]) -> String {
        let (bytes, intervals) = (entries.len(), self.intervals());
        let due = Entry::BYTES * intervals;
        if bytes > LONGEST_PLAN {
            return format!(
                "more than {LONGEST_PLAN} bytes, where {intervals} intervals have {due}"
            );
        }
        if bytes != due {
            return format!("{bytes} bytes, where {intervals} intervals have {due}");
        }
        let fits = |(place, entry): (usize, Entry)| self.fits(place, entry);
        let place = Entry::each(entries).enumerate().position(|of| !fits(of)).unwrap_or(0);
        let (rates, choices) = (self.contents.header.rates, self.contents.header.choices);
        format!("interval {}, of {rates} rates and {choices} choices", place + 1)
    }

    fn fits(&self, place: usize, entry: Entry) -> bool {
        let header = &self.contents.header;
        let choice = match entry.choice {
            Some(choice) => place >= usize::from(header.delay) && choice < header.choices,
            None => place < usize::from(header.delay),
        };
        choice && u16::from(entry.rate) < header.rates
    }
}

/// A file that does not open. Where its records are not those of a job, as in a text, it is said how
/// one is made.
pub fn unopened(name: &str, refusal: Refusal) -> String {
    match refusal {
        Refusal::Cut | Refusal::WrongRecord => {
            format!("{name}: not the bytes of a job (make TEXT JOB makes one of a text)")
        }
        _ => name.to_string(),
    }
}

/// A plan and what following it finds.
pub struct Followed {
    pub entries: Vec<u8>,
    /// After each interval before the first violation, or after all.
    pub levels: Vec<Levels>,
    pub found: Replayed,
}

fn pin_of(word: &str) -> Result<(u16, u16), Trouble> {
    let pin = word.split_once('=').and_then(|(unit, choice)| Some((small(unit)?, small(choice)?)));
    pin.ok_or_else(|| {
        Trouble::Usage(format!("--pin {} is not U=C, a unit and a choice", quoted(word)))
    })
}

/// The calls that set these pins.
pub fn calls(pins: &[(u16, u16)]) -> Vec<Call> {
    pins.iter().map(|(unit, choice)| Call::Pin { unit: *unit, choice: *choice }).collect()
}
