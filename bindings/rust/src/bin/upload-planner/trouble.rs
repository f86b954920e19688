//! What keeps a command from doing what it was asked for.

use std::fmt;

use upload_planner::{PlaylistRefusal, Refusal};

/// Why a command ends without success.
#[derive(Debug)]
pub enum Trouble {
    /// The library refused.
    Refused(Refusal),
    /// The library refused a playlist.
    RefusedProgramme(PlaylistRefusal),
    /// The command was called in another way than it takes.
    Usage(String),
    /// A text that is no job.
    Text(String),
    /// A file that cannot be read or written.
    File(String),
}

impl Trouble {
    /// The exit status of the command.
    pub fn status(&self) -> u8 {
        match self {
            Trouble::Usage(_) => 2,
            _ => 1,
        }
    }

    /// The trouble with the file, the line or the option that it is about.
    pub fn about(self, place: impl Into<String>) -> Failure {
        Failure { place: Some(place.into()), trouble: self }
    }
}

impl fmt::Display for Trouble {
    fn fmt(&self, f: &mut fmt::Formatter) -> fmt::Result {
        match self {
            Trouble::Refused(refusal) => write!(f, "refused {}: {refusal}", refusal.number()),
            Trouble::RefusedProgramme(refused) => {
                write!(f, "refused {}: {refused}", refused.refusal.number())
            }
            Trouble::Usage(words) | Trouble::Text(words) | Trouble::File(words) => {
                f.write_str(words)
            }
        }
    }
}

impl From<Refusal> for Trouble {
    fn from(refusal: Refusal) -> Trouble {
        Trouble::Refused(refusal)
    }
}

/// A trouble and what it is about, where its own words do not say so.
#[derive(Debug)]
pub struct Failure {
    pub place: Option<String>,
    pub trouble: Trouble,
}

impl Failure {
    /// The same, with the file in which the place is.
    pub fn within(self, file: &str) -> Failure {
        let place = match self.place {
            Some(place) => format!("{file}: {place}"),
            None => file.to_string(),
        };
        Failure { place: Some(place), ..self }
    }
}

impl fmt::Display for Failure {
    fn fmt(&self, f: &mut fmt::Formatter) -> fmt::Result {
        match &self.place {
            Some(place) => write!(f, "{place}: {}", self.trouble),
            None => self.trouble.fmt(f),
        }
    }
}

impl From<Trouble> for Failure {
    fn from(trouble: Trouble) -> Failure {
        Failure { place: None, trouble }
    }
}
