//! The sub-commands, and the arguments that they are given.

use std::ffi::{OsStr, OsString};
use std::slice;

use crate::files;
use crate::trouble::{Failure, Trouble};
use crate::words::{quoted, small};

/// A sub-command.
pub struct Command {
    pub name: &'static str,
    /// What it does, in one line.
    pub summary: &'static str,
    /// Its arguments, in one line.
    pub usage: &'static str,
    /// The names of its files.
    pub files: &'static [&'static str],
    /// Whether the last of them may be given more than once.
    pub many: bool,
    /// Whether the last of them is written, and not read.
    pub writes: bool,
    pub options: &'static [(&'static str, Takes)],
    /// All that is to be said of it, with an example.
    pub help: &'static str,
    /// Does it. What it adds to the list is printed, also where it fails.
    pub run: fn(&Given, &mut Vec<u8>) -> Result<(), Failure>,
}

/// What stands behind an option.
#[derive(Clone, Copy, PartialEq, Eq)]
pub enum Takes {
    Nothing,
    /// A value; the option is given once at most.
    Value,
    /// A value; the option may be given again.
    Values,
    /// A file that is written. Standard output has what the command prints.
    File,
}

/// The arguments behind a sub-command.
#[derive(Default)]
pub struct Given {
    files: Vec<OsString>,
    options: Vec<(&'static str, OsString)>,
}

/// Whether help is asked for.
pub fn asks_for_help(arguments: &[OsString]) -> bool {
    arguments.iter().take_while(|argument| *argument != "--").any(|argument| is_help(argument))
}

/// Whether this argument asks for help.
pub fn is_help(argument: &OsStr) -> bool {
    argument == "--help" || argument == "-h"
}

/// A file among the arguments.
struct Named<'a> {
    /// As what it is given, such as JOB or --entries.
    name: &'static str,
    file: &'a OsStr,
    written: bool,
}

impl Given {
    /// Sorts the arguments of a sub-command. Options may stand before, between and behind files;
    /// what follows `--` is files.
    pub fn of(command: &Command, arguments: &[OsString]) -> Result<Given, Trouble> {
        let mut given = Given::default();
        let mut arguments = arguments.iter();
        while let Some(argument) = arguments.next() {
            if argument == "--" {
                given.files.extend(arguments.by_ref().cloned());
            } else if is_option(argument) {
                given.take_option(command, argument, &mut arguments)?;
            } else {
                given.files.push(argument.clone());
            }
        }
        given.check_files(command)?;
        given.check_written(command)?;
        Ok(given)
    }

    fn take_option(
        &mut self,
        command: &Command,
        argument: &OsStr,
        behind: &mut slice::Iter<OsString>,
    ) -> Result<(), Trouble> {
        let known = command.options.iter().find(|(name, _)| argument == *name);
        let Some((name, takes)) = known else {
            let option = quoted(&argument.to_string_lossy());
            return Err(Trouble::Usage(format!("{} has no option {option}", command.name)));
        };
        if *takes != Takes::Values && self.has(name) {
            return Err(Trouble::Usage(format!("{name} is given more than once")));
        }
        let value = match takes {
            Takes::Nothing => OsString::new(),
            _ => value_of(name, *takes, behind.next())?,
        };
        self.options.push((name, value));
        Ok(())
    }

    fn check_files(&self, command: &Command) -> Result<(), Trouble> {
        if let Some(missing) = command.files.get(self.files.len()) {
            return Err(Trouble::Usage(format!("the file {missing} is missing")));
        }
        if let (false, Some(more)) = (command.many, self.files.get(command.files.len())) {
            let more = quoted(&more.to_string_lossy());
            return Err(Trouble::Usage(format!("{more} is one argument too many")));
        }
        Ok(())
    }

    /// Whether each file that is written is another than all that are read or written: it would
    /// take their place.
    fn check_written(&self, command: &Command) -> Result<(), Trouble> {
        let named = self.named_files(command);
        let twice = named.iter().enumerate().find_map(|(place, one)| {
            let mut others = named[place + 1..].iter();
            others.find(|other| one.clashes(other)).map(|other| (one.name, other.name))
        });
        match twice {
            Some((one, other)) => {
                Err(Trouble::Usage(format!("{one} and {other} name the same file")))
            }
            None => Ok(()),
        }
    }

    /// All files that have a name, those of the options first.
    fn named_files(&self, command: &Command) -> Vec<Named<'_>> {
        let written = |name| command.options.contains(&(name, Takes::File));
        let options = self.options.iter().filter(|(name, _)| written(*name));
        let options = options.map(|(name, file)| Named { name, file, written: true });
        let last = command.files.len() - 1;
        let files = self.files.iter().enumerate().map(|(place, file)| {
            let (name, written) = (command.files[place.min(last)], command.writes && place == last);
            Named { name, file, written }
        });
        options.chain(files).filter(|named| named.file != files::STANDARD).collect()
    }

    /// The files.
    pub fn files(&self) -> &[OsString] {
        &self.files
    }

    /// The files that are read: standard input can be one of them only.
    pub fn read_files(&self) -> Result<&[OsString], Trouble> {
        if self.files.iter().filter(|file| *file == files::STANDARD).count() > 1 {
            return Err(Trouble::Usage("standard input can be read once only".to_string()));
        }
        Ok(&self.files)
    }

    /// Whether an option is given.
    pub fn has(&self, name: &str) -> bool {
        self.value(name).is_some()
    }

    /// The value of an option.
    pub fn value(&self, name: &str) -> Option<&OsStr> {
        self.values(name).first().copied()
    }

    fn values(&self, name: &str) -> Vec<&OsStr> {
        let named = self.options.iter().filter(|(option, _)| *option == name);
        named.map(|(_, value)| value.as_os_str()).collect()
    }

    /// The values of an option as words.
    pub fn words(&self, name: &str) -> Vec<String> {
        let values = self.values(name).into_iter();
        values.map(|value| value.to_string_lossy().into_owned()).collect()
    }

    /// The value of an option that is due, as a word.
    pub fn due(&self, name: &str) -> Result<String, Trouble> {
        let missing = || Trouble::Usage(format!("{name} is missing"));
        self.words(name).into_iter().next().ok_or_else(missing)
    }

    /// The numbers of an option that is due, with commas between them.
    pub fn numbers(&self, name: &str) -> Result<Vec<u16>, Trouble> {
        let word = self.due(name)?;
        let numbers: Option<Vec<u16>> = word.split(',').map(small).collect();
        numbers.ok_or_else(|| {
            Trouble::Usage(format!(
                "{name} {} is no list of whole numbers, such as 0,2,4",
                quoted(&word)
            ))
        })
    }
}

impl Named<'_> {
    /// Whether these two are one file, and one of them is written.
    fn clashes(&self, other: &Named) -> bool {
        (self.written || other.written) && files::same(self.file, other.file)
    }
}

fn is_option(argument: &OsStr) -> bool {
    argument != files::STANDARD && argument.as_encoded_bytes().starts_with(b"-")
}

fn value_of(name: &str, takes: Takes, next: Option<&OsString>) -> Result<OsString, Trouble> {
    let value = next.filter(|value| !value.as_encoded_bytes().starts_with(b"--"));
    let Some(value) = value else {
        return Err(Trouble::Usage(format!("the value of {name} is missing")));
    };
    if takes == Takes::File && value == files::STANDARD {
        return Err(Trouble::Usage(format!(
            "{name} takes the name of a file: standard output has what the command prints"
        )));
    }
    Ok(value.clone())
}
