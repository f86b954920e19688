//! A sitting at the keyboard, or from a pipe: a line for each command, and the answer at once.

use crate::files;
use crate::jobs::Job;
use crate::picture::{self, Shown};
use crate::table;
use crate::trouble::{Failure, Trouble};
use std::ffi::OsStr;
use std::io::{BufRead, IsTerminal};
use upload_planner::{open, Aim, BestPlan, Contents, Entry, Levels, Order, Refusal};
use upload_planner::{Replayed, Session, Totals};

/// How many units are named that changed their choice.
const NAMED: usize = 10;

/// What can be said in a sitting.
const HELP: &str = "\
pin UNIT CHOICE   holds a unit at a choice, and tells what that costs
lift UNIT         leaves a unit free again
undo              takes back the last pin or lift, and then the one before it
list              the pins that stand, and as options of the other commands
plan              the choices of the best plan, and its totals
even              the same for even pictures: the worst unit as good as can be
entries FILE      writes the best plan, three bytes for each interval
picture FILE      draws the best plan into an SVG file
compare FILE      draws the plans before and after the last change over each other
help              these lines
quit              ends the sitting, as the end of the input does

What stands behind a # at the beginning of a word is a comment.
";

/// Answers the lines of the input one after another until `quit` or the end. A line that is refused
/// or not understood is answered too, and the sitting goes on. Lines that are empty, but for a
/// comment, are passed over. There is a prompt if the standard input is a terminal.
///
/// # Errors
///
/// A job that is refused or has no room; input that cannot be read, or output that cannot be
/// written.
pub fn sit(job: &Job, input: &mut dyn BufRead) -> Result<(), Failure> {
    let opened = open(&job.bytes).map_err(|refusal| job.refused(refusal))?;
    // The session has a table, and a plan is made in another one beside it.
    job.check_room_to_sit(opened.table_words)?;
    let sat = Sitting::open(job).map_err(Trouble::from).and_then(|mut of| of.answer_all(input));
    sat.map_err(|trouble| match trouble {
        Trouble::Refused(refusal) => job.refused(refusal),
        _ => trouble.into(),
    })
}

/// The next line of the input, if there is one. Bytes that are no text become marks, so that the
/// line is answered and the sitting goes on.
fn next_line(input: &mut dyn BufRead) -> Result<Option<String>, Trouble> {
    let mut line = Vec::new();
    match input.read_until(b'\n', &mut line) {
        Ok(0) => Ok(None),
        Ok(_) => Ok(Some(String::from_utf8_lossy(&line).into_owned())),
        Err(error) => Err(Trouble::File(format!("standard input cannot be read: {error}"))),
    }
}

/// A line up to its comment. A # within a word begins none, since a file may be named so.
fn without_comment(line: &str) -> &str {
    let begins = |at: &usize| !line[..*at].ends_with(|before: char| !before.is_whitespace());
    let comment = line.match_indices('#').map(|(at, _)| at).find(begins);
    &line[..comment.unwrap_or(line.len())]
}

/// Prints words at once.
fn say(words: &str) -> Result<(), Trouble> {
    files::print(words.as_bytes())
}

/// Whether the sitting goes on.
enum Said {
    More,
    Quit,
}

/// A change of the pins that was not refused.
#[derive(Clone, Copy)]
enum Change {
    Pin { unit: u16, choice: u16 },
    Lift { unit: u16, choice: u16 },
}

impl Change {
    /// The change that takes it back.
    fn back(self) -> Change {
        match self {
            Change::Pin { unit, choice } => Change::Lift { unit, choice },
            Change::Lift { unit, choice } => Change::Pin { unit, choice },
        }
    }

    fn words(self) -> String {
        match self {
            Change::Pin { unit, choice } => format!("unit {unit} pinned at choice {choice}"),
            Change::Lift { unit, .. } => format!("unit {unit} lifted"),
        }
    }
}

/// A best plan and the pins that it was made with. Its table is not kept: two more of the largest
/// would take some hundred megabytes.
struct Held {
    pins: Vec<(u16, u16)>,
    entries: Vec<u8>,
    totals: Totals,
    levels: Vec<Levels>,
    found: Replayed,
}

impl Held {
    /// The best plan with the pins that stand; `None` where there is none.
    fn of(session: &Session, aim: Aim) -> Result<Option<Held>, Refusal> {
        let BestPlan { entries, totals, .. } = match session.plan(aim, Order::Early) {
            Err(Refusal::NoPlan) => return Ok(None),
            planned => planned?,
        };
        let (levels, found) = session.replay(&entries)?;
        Ok(Some(Held { pins: session.pins().collect(), entries, totals, levels, found }))
    }

    fn shown<'a>(&'a self, contents: &'a Contents) -> Shown<'a> {
        let Held { pins, entries, levels, found, .. } = self;
        Shown { contents, pins, entries, levels, found }
    }

    /// The units and their choices.
    fn choices(&self) -> impl Iterator<Item = (u16, u16)> + '_ {
        (1..).zip(Entry::each(&self.entries).filter_map(|entry| entry.choice))
    }
}

/// A sitting between two lines.
struct Sitting<'a> {
    contents: &'a Contents,
    session: Session<'a>,
    /// The changes that can be taken back, the last one at the end.
    done: Vec<Change>,
    /// The last change in words.
    last: Option<String>,
    /// The best plan before the last change, and that of now.
    before: Option<Held>,
    now: Option<Held>,
}

impl<'a> Sitting<'a> {
    fn open(job: &'a Job) -> Result<Sitting<'a>, Refusal> {
        let (contents, session) = (&job.contents, Session::open(&job.bytes)?);
        let now = Held::of(&session, Aim::Total)?;
        Ok(Sitting { contents, session, done: Vec::new(), last: None, before: None, now })
    }

    /// Answers each line of the input.
    fn answer_all(&mut self, input: &mut dyn BufRead) -> Result<(), Trouble> {
        let prompt = if std::io::stdin().is_terminal() { "> " } else { "" };
        say(&self.opening())?;
        loop {
            say(prompt)?;
            let Some(line) = next_line(input)? else { break };
            if let Said::Quit = self.answer(&line)? {
                return Ok(());
            }
        }
        // What comes next at a terminal does not stand behind the last prompt.
        if !prompt.is_empty() {
            say("\n")?;
        }
        Ok(())
    }

    /// The line before the first answer.
    fn opening(&self) -> String {
        let header = &self.contents.header;
        let (units, choices) = (header.units, header.choices - 1);
        let total = told(self.session.best_total());
        format!("units 1 to {units}, choices 0 to {choices}; {total}\n")
    }

    /// Answers a line.
    fn answer(&mut self, line: &str) -> Result<Said, Trouble> {
        let line = without_comment(line).trim();
        let (word, rest) = line.split_once(char::is_whitespace).unwrap_or((line, ""));
        let answer = match (word, rest.trim()) {
            ("", _) => String::new(),
            ("quit", "") => return Ok(Said::Quit),
            ("help", "") => HELP.into(),
            ("list", "") => self.list(),
            ("plan", "") => self.table(self.now.as_ref()),
            ("even", "") => self.table(Held::of(&self.session, Aim::Even)?.as_ref()),
            ("pin", rest) => return self.pin(rest),
            ("lift", rest) => return self.lift(rest),
            ("undo", "") => return self.undo(),
            ("entries", file) if !file.is_empty() => self.entries(file),
            ("picture", file) if !file.is_empty() => self.picture(file),
            ("compare", file) if !file.is_empty() => self.compare(file),
            ("entries" | "picture" | "compare", _) => format!("due: {word} FILE\n"),
            ("quit" | "help" | "list" | "plan" | "even" | "undo", rest) => {
                format!("due: {word} alone, without \"{rest}\"\n")
            }
            _ => format!("\"{word}\" is no command; help lists them\n"),
        };
        say(&answer)?;
        Ok(Said::More)
    }

    fn pin(&mut self, rest: &str) -> Result<Said, Trouble> {
        match numbers(rest)[..] {
            [Some(unit), Some(choice)] => self.change(Change::Pin { unit, choice }),
            _ => due("pin UNIT CHOICE, two whole numbers up to 65535"),
        }
    }

    fn lift(&mut self, rest: &str) -> Result<Said, Trouble> {
        match numbers(rest)[..] {
            [Some(unit)] => {
                // A unit without a pin is refused, and the choice is then not looked at.
                let choice = self.session.pin_of(unit).unwrap_or(0);
                self.change(Change::Lift { unit, choice })
            }
            _ => due("lift UNIT, a whole number up to 65535"),
        }
    }

    /// Makes a change that undo can take back.
    fn change(&mut self, change: Change) -> Result<Said, Trouble> {
        match self.make(change) {
            Ok(()) => {
                self.done.push(change);
                self.see(change)
            }
            Err(refusal) => {
                say(&self.refused(refusal, change))?;
                Ok(Said::More)
            }
        }
    }

    fn undo(&mut self) -> Result<Said, Trouble> {
        let Some(change) = self.done.pop() else {
            say("nothing is left to undo\n")?;
            return Ok(Said::More);
        };
        self.make(change.back())?;
        say(&format!("{}\n", change.back().words()))?;
        self.see(change.back())
    }

    fn make(&mut self, change: Change) -> Result<(), Refusal> {
        match change {
            Change::Pin { unit, choice } => self.session.pin(unit, choice),
            Change::Lift { unit, .. } => self.session.lift(unit),
        }
    }

    /// Tells what a change that was made has brought. The total is known at once and is written
    /// before the plan is made, from which the choices come.
    fn see(&mut self, change: Change) -> Result<Said, Trouble> {
        let before = self.now.as_ref().map(|held| held.totals.distortion);
        let now = self.session.best_total();
        say(&format!("{}{}\n", told(now), gained(before, now.map(u64::from))))?;
        let held = Held::of(&self.session, Aim::Total)?;
        self.before = std::mem::replace(&mut self.now, held);
        self.last = Some(change.words());
        if let (Some(before), Some(now)) = (&self.before, &self.now) {
            say(&changed(before, now))?;
        }
        Ok(Said::More)
    }

    /// A refusal, with the limit that was passed or the pin that stands.
    fn refused(&self, refusal: Refusal, change: Change) -> String {
        let (Change::Pin { unit, .. } | Change::Lift { unit, .. }) = change;
        let header = &self.contents.header;
        let limit = match refusal {
            Refusal::NoSuchUnit => format!("; units are 1 to {}", header.units),
            Refusal::NoSuchChoice => format!("; choices are 0 to {}", header.choices - 1),
            Refusal::Pinned => {
                let choice = self.session.pin_of(unit);
                choice
                    .map_or(String::new(), |choice| format!("; unit {unit} is at choice {choice}"))
            }
            _ => String::new(),
        };
        format!("{}{limit}\n", Trouble::Refused(refusal))
    }

    /// The pins, a line for each, and all of them in one line that other commands take.
    fn list(&self) -> String {
        let pin = |(unit, choice)| format!("unit {unit} at choice {choice}\n");
        let pins: String = self.session.pins().map(pin).collect();
        if pins.is_empty() {
            return "no pins\n".into();
        }
        let option = |(unit, choice)| format!("--pin {unit}={choice}");
        let options: Vec<String> = self.session.pins().map(option).collect();
        format!("{pins}{}\n", options.join(" "))
    }

    /// The choices of a plan, a line for each unit, and its totals.
    fn table(&self, held: Option<&Held>) -> String {
        let Some(held) = held else { return format!("{}\n", told(None)) };
        let mut choices = String::from("unit  choice  pin  grains  distortion\n");
        for (unit, choice) in held.choices() {
            let (grains, distortion) = self.contents.coding(unit, choice).unwrap_or((0, 0));
            let pin = if self.session.pin_of(unit).is_some() { "*" } else { "-" };
            choices += &format!("{unit:4}  {choice:6}  {pin:>3}  {grains:6}  {distortion:10}\n");
        }
        choices + "\n" + &table::totals(&held.totals)
    }

    fn entries(&self, file: &str) -> String {
        let Some(now) = &self.now else { return "no plan to write\n".into() };
        save("written", file, &now.entries)
    }

    fn picture(&self, file: &str) -> String {
        let Some(now) = &self.now else { return "no plan to draw\n".into() };
        let title = match now.pins.len() {
            0 => "Best plan without pins".to_string(),
            1 => "Best plan with 1 pin".to_string(),
            pins => format!("Best plan with {pins} pins"),
        };
        save("drawn", file, picture::of_plan(&title, &now.shown(self.contents)).as_bytes())
    }

    fn compare(&self, file: &str) -> String {
        let Some(last) = &self.last else { return "no pin was set or lifted yet\n".into() };
        let (before, now) = match (&self.before, &self.now) {
            (Some(before), Some(now)) => (before, now),
            (None, Some(_)) => return "there was no plan before the last change\n".into(),
            (Some(_), None) => return "there is no plan after the last change\n".into(),
            (None, None) => return "there is no plan before the last change, nor after\n".into(),
        };
        let title = format!("Before and after: {last}");
        let [before, now] = [before, now].map(|held| held.shown(self.contents));
        save("drawn", file, picture::of_two(&title, &before, &now).as_bytes())
    }
}

/// The words of a line as numbers.
fn numbers(rest: &str) -> Vec<Option<u16>> {
    rest.split_whitespace().map(|word| word.parse().ok()).collect()
}

/// Says what should have stood in a line.
fn due(what: &str) -> Result<Said, Trouble> {
    say(&format!("due: {what}\n"))?;
    Ok(Said::More)
}

/// The least total.
fn told(total: Option<u32>) -> String {
    match total {
        Some(total) => format!("total {total}"),
        None => "no plan is admissible".into(),
    }
}

/// What the total gained or lost.
fn gained(before: Option<u64>, now: Option<u64>) -> String {
    match (before, now) {
        (Some(before), Some(now)) if now > before => format!(", {} more than before", now - before),
        (Some(before), Some(now)) if now < before => format!(", {} less than before", before - now),
        (Some(_), Some(_)) => ", as before".into(),
        (Some(before), None) => format!("; before, the total was {before}"),
        (None, _) => "; before, there was no plan".into(),
    }
}

/// Which units have another choice than before.
fn changed(before: &Held, now: &Held) -> String {
    let both = before.choices().zip(now.choices()).filter(|(before, now)| before != now);
    let words: Vec<String> =
        both.map(|((unit, from), (_, to))| format!("unit {unit} from {from} to {to}")).collect();
    let named = words[..words.len().min(NAMED)].join(", ");
    match words.len() {
        0 => "no choice changed\n".into(),
        count if count > NAMED => format!("changed: {named} and {} more\n", count - NAMED),
        _ => format!("changed: {named}\n"),
    }
}

/// Writes a file, and says with a word what was done. That it cannot be written is told, and the
/// sitting goes on.
fn save(done: &str, file: &str, bytes: &[u8]) -> String {
    match files::write(OsStr::new(file), bytes) {
        Ok(()) => format!("{done}: {file}\n"),
        Err(trouble) => format!("{trouble}\n"),
    }
}
