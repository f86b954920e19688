//! The command `upload-planner`: the planner's calls from a shell. What is a job, what is refused
//! and which plan is best the library decides; here is what it takes to ask it and to print its
//! answers.

use std::env;
use std::ffi::OsString;
use std::io::{self, Write};
use std::process::ExitCode;

use upload_planner::VERSION;

use crate::arguments::{asks_for_help, is_help, Command, Given};
use crate::jobs::Job;
use crate::trouble::{Failure, Trouble};

mod arguments;
mod contracts;
mod fields;
mod files;
mod jobs;
mod picture;
mod plans;
mod sitting;
mod table;
mod text;
mod trouble;
mod words;

const COMMANDS: [&Command; 10] = [
    &text::SHOW,
    &text::MAKE,
    &plans::PLAN,
    &plans::REPLAY,
    &plans::REPORT,
    &contracts::TRIAL,
    &contracts::SIZES,
    &contracts::CHANGE,
    &contracts::PLAYLIST,
    &SIT,
];

const SIT: Command = Command {
    name: "sit",
    summary: "pins and lifts at the keyboard, and says at once what it costs",
    usage: "JOB",
    files: &["JOB"],
    many: false,
    writes: false,
    options: &[],
    help: "\
A sitting over a job: reads lines from standard input, such as pin 3 0, lift 3,
plan, undo, list, entries plan.bin, picture plan.svg and quit, and answers each
at once. The line help says what there is.

JOB is a file with the bytes of a job.

Example:
    upload-planner sit job.bin
",
    run: sit,
};

const HELP: &str = "
Every command but sit takes - in place of a file that it reads, for standard
input. upload-planner COMMAND --help says more of a command, with an example;
upload-planner --version says the version.

Exit status: 0; 1 where the library refuses, with its number and words on
standard error, or where a file cannot be read or written; 2 for wrong usage.
";

fn main() -> ExitCode {
    let arguments: Vec<OsString> = env::args_os().skip(1).collect();
    let command = named(&arguments);
    let mut output = Vec::new();
    let ended = run(command, &arguments, &mut output);
    let printed = files::print(&output);
    match ended.and(printed.map_err(Failure::from)) {
        Ok(()) => ExitCode::SUCCESS,
        Err(failure) => {
            tell(&failure, command);
            ExitCode::from(failure.trouble.status())
        }
    }
}

/// The command that the first argument names.
fn named(arguments: &[OsString]) -> Option<&'static Command> {
    let name = arguments.first()?;
    COMMANDS.into_iter().find(|command| name == command.name)
}

fn run(
    command: Option<&Command>,
    arguments: &[OsString],
    output: &mut Vec<u8>,
) -> Result<(), Failure> {
    let Some(command) = command else { return without_command(arguments, output) };
    let arguments = &arguments[1..];
    if asks_for_help(arguments) {
        output.extend(format!("{}\n\n{}", usage(command), command.help).into_bytes());
        return Ok(());
    }
    let given = Given::of(command, arguments)?;
    (command.run)(&given, output)
}

fn without_command(arguments: &[OsString], output: &mut Vec<u8>) -> Result<(), Failure> {
    match arguments.first() {
        Some(first) if first == "help" || is_help(first) => {
            output.extend(help().into_bytes());
            Ok(())
        }
        Some(first) if first == "--version" => {
            output.extend(format!("upload-planner {VERSION}\n").into_bytes());
            Ok(())
        }
        Some(first) => {
            let first = words::quoted(&first.to_string_lossy());
            Err(Trouble::Usage(format!("{first} is no command")).into())
        }
        None => Err(Trouble::Usage("a command is missing".to_string()).into()),
    }
}

fn help() -> String {
    let line = |command: &&Command| format!("    {:<10}{}\n", command.name, command.summary);
    let lines: String = COMMANDS.iter().map(line).collect();
    format!("usage: upload-planner COMMAND ...\n\n{lines}{HELP}")
}

fn usage(command: &Command) -> String {
    format!("usage: upload-planner {} {}", command.name, command.usage)
}

/// Says what failed, and of wrong usage what is due.
fn tell(failure: &Failure, command: Option<&Command>) {
    let due = match (&failure.trouble, command) {
        (Trouble::Usage(_), Some(command)) => {
            format!("{}\nmore: upload-planner {} --help\n", usage(command), command.name)
        }
        (Trouble::Usage(_), None) => {
            "usage: upload-planner COMMAND ...\nmore: upload-planner --help\n".to_string()
        }
        _ => String::new(),
    };
    // Where standard error cannot be written either, the exit status is all that is left to say.
    let _ = write!(io::stderr(), "upload-planner: {failure}\n{due}");
}

fn sit(given: &Given, _: &mut Vec<u8>) -> Result<(), Failure> {
    let file = &given.files()[0];
    if file == files::STANDARD {
        let words = "the lines of a sitting come from standard input, so that JOB is a file";
        return Err(Trouble::Usage(words.to_string()).into());
    }
    sitting::sit(&Job::open_to_sit(file)?, &mut io::stdin().lock())
}
