//! The numbers of a job's header by their names: the lines of a text have these names, and so have
//! the options of `trial`.

use upload_planner::{Bucket, Header, Refusal};

use crate::trouble::Failure;

/// A number of the header and its range. The library decides what it takes; these limits are there
/// to say which number it is that it does not take.
pub struct Field {
    pub name: &'static str,
    least: u16,
    most: u16,
}

/// The numbers of a header. A drain of 0 is in range, and is refused for what it says.
pub const FIELDS: [Field; 12] = [
    Field { name: "units", least: 1, most: 512 },
    Field { name: "delay", least: 0, most: 64 },
    Field { name: "decoder", least: 0, most: 255 },
    Field { name: "bucket", least: 0, most: 255 },
    Field { name: "drain", least: 0, most: 4095 },
    Field { name: "decoder-level", least: 0, most: 255 },
    Field { name: "bucket-level", least: 0, most: 255 },
    Field { name: "second-bucket", least: 0, most: 63 },
    Field { name: "second-drain", least: 0, most: 4095 },
    Field { name: "second-level", least: 0, most: 63 },
    Field { name: "choices", least: 1, most: 1000 },
    Field { name: RATES, least: 1, most: 16 },
];

/// How many rates there are. A text has the rates themselves in the line of this name.
pub const RATES: &str = "rates";

/// What may be left out, and is then 0.
const LEVELS: [&str; 3] = ["decoder-level", "bucket-level", "second-level"];

/// Each level and what it lies in.
const SIZES: [(&str, &str); 3] =
    [("decoder-level", "decoder"), ("bucket-level", "bucket"), ("second-level", "second-bucket")];

/// The numbers that were given.
#[derive(Default)]
pub struct Fields(Vec<GivenField>);

struct GivenField {
    name: &'static str,
    number: u16,
    /// Where it was given, and as what.
    place: String,
}

/// The field of this name, which may be written with capitals.
pub fn named(name: &str) -> Option<&'static Field> {
    FIELDS.iter().find(|field| field.name.eq_ignore_ascii_case(name))
}

fn is_second(name: &str) -> bool {
    name.starts_with("second-")
}

impl Fields {
    /// Adds a number, with the place where it was given, such as `line 3: delay 1`.
    pub fn give(&mut self, field: &'static Field, number: u16, place: String) {
        self.0.push(GivenField { name: field.name, number, place });
    }

    fn given(&self, name: &str) -> Option<&GivenField> {
        self.0.iter().find(|given| given.name == name)
    }

    /// Where a number was given.
    pub fn place(&self, name: &str) -> Option<&str> {
        self.given(name).map(|given| given.place.as_str())
    }

    /// Whether there is a second bucket.
    fn has_second(&self) -> bool {
        self.0.iter().any(|given| is_second(given.name))
    }

    /// A number that is due and was not given.
    pub fn missing(&self) -> Option<&'static str> {
        let due = |name: &str| !LEVELS.contains(&name) && (!is_second(name) || self.has_second());
        let mut names = FIELDS.iter().map(|field| field.name);
        names.find(|name| due(name) && self.given(name).is_none())
    }

    /// What is out of range, and its limit.
    pub fn wrong(&self) -> Option<String> {
        let range = FIELDS.iter().find_map(|field| self.out_of_range(field));
        range.or_else(|| SIZES.iter().find_map(|(level, size)| self.over_size(level, size)))
    }

    fn out_of_range(&self, field: &Field) -> Option<String> {
        let GivenField { number, place, .. } = self.given(field.name)?;
        if *number < field.least {
            return Some(format!("{place} is under {}", field.least));
        }
        (*number > field.most).then(|| format!("{place} is over {}", field.most))
    }

    fn over_size(&self, level: &str, size: &str) -> Option<String> {
        let most = self.number(size);
        let GivenField { number, place, .. } = self.given(level)?;
        (*number > most).then(|| format!("{place} is over {most}, the size of the {size}"))
    }

    /// A refusal of the header, with the number that it is about.
    pub fn refused(&self, refusal: Refusal) -> Failure {
        let place = match refusal {
            Refusal::Header => self.wrong(),
            Refusal::NeverDrains => self.never_drains(),
            _ => None,
        };
        Failure { place, trouble: refusal.into() }
    }

    fn never_drains(&self) -> Option<String> {
        let drains = ["drain", "second-drain"].into_iter().filter_map(|name| self.given(name));
        let mut never = drains.filter(|drain| drain.number == 0);
        never.next().map(|drain| drain.place.clone())
    }

    fn number(&self, name: &str) -> u16 {
        self.given(name).map_or(0, |given| given.number)
    }

    /// The header with these numbers.
    pub fn header(&self) -> Header {
        let second = self.has_second().then(|| Bucket {
            size: self.number("second-bucket"),
            drain: self.number("second-drain"),
            level: self.number("second-level"),
        });
        Header {
            units: self.number("units"),
            delay: self.number("delay"),
            decoder: self.number("decoder"),
            bucket: self.number("bucket"),
            drain: self.number("drain"),
            level: self.number("decoder-level"),
            fill: self.number("bucket-level"),
            rates: self.number(RATES),
            choices: self.number("choices"),
            second,
        }
    }
}
