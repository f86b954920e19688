//! What a plan does interval by interval, as the numbers that are drawn.

use super::Shown;
use upload_planner::{Entry, Levels, Replayed, Violation};

/// Numbers of intervals that follow each other.
pub struct Series {
    /// How many intervals come before the first number's.
    pub skipped: usize,
    /// What stands before the first number, where there is such a thing: a starting level.
    pub start: Option<u32>,
    /// The numbers.
    pub values: Vec<u32>,
}

impl Series {
    /// Numbers from interval 1 on.
    fn from_the_first(values: Vec<u32>) -> Series {
        Series { skipped: 0, start: None, values }
    }

    /// Levels from interval 1 on.
    fn of_levels(start: u16, levels: &[Levels], level: impl Fn(&Levels) -> u16) -> Series {
        let values = levels.iter().map(|of| level(of).into()).collect();
        Series { skipped: 0, start: Some(start.into()), values }
    }

    /// The greatest number, or 0 of none.
    pub fn greatest(&self) -> u32 {
        self.values.iter().copied().chain(self.start).max().unwrap_or(0)
    }

    /// The intervals and their numbers.
    pub fn by_interval(&self) -> impl Iterator<Item = (usize, u32)> + '_ {
        (self.skipped + 1..).zip(self.values.iter().copied())
    }

    /// The number of interval t, if it has one.
    pub fn at(&self, t: usize) -> Option<u32> {
        self.values.get(t.checked_sub(1 + self.skipped)?).copied()
    }
}

/// What a plan does. The levels and the peaks end where replay ends; what is sent, the choices
/// and the distortions are those of the whole plan.
pub struct Course {
    /// What each interval sends.
    pub sent: Series,
    /// The decoder's level before each interval and what it sends, also for the interval of a
    /// violation.
    pub peaks: Series,
    /// The decoder's level when the unit has left.
    pub decoder: Series,
    /// The bucket's level, of two the first's.
    pub bucket: Series,
    /// The second bucket's level, where there is one.
    pub second: Option<Series>,
    /// The choice of each unit.
    pub choices: Series,
    /// The distortion of each unit.
    pub distortions: Series,
}

impl Course {
    /// What the shown plan does.
    pub fn of(shown: &Shown) -> Course {
        let header = &shown.contents.header;
        let rate = |entry: Entry| u32::from(shown.contents.rates[usize::from(entry.rate)]);
        let sent: Vec<u32> = Entry::each(shown.entries).map(rate).collect();
        let decoder = Series::of_levels(header.level, shown.levels, |of| of.decoder);
        let bucket = Series::of_levels(header.fill, shown.levels, |of| of.bucket);
        let second = header.second.map(|second| {
            Series::of_levels(second.level, shown.levels, |of| of.second.unwrap_or(0))
        });
        let before = decoder.start.into_iter().chain(decoder.values.iter().copied());
        let peaks = before.zip(&sent).map(|(level, sent)| level + sent).collect();
        let skipped = usize::from(header.delay);
        Course {
            sent: Series::from_the_first(sent),
            peaks: Series::from_the_first(peaks),
            decoder,
            bucket,
            second,
            choices: Series { skipped, start: None, values: choices(shown) },
            distortions: Series { skipped, start: None, values: distortions(shown) },
        }
    }

    /// The violation in words: in which interval it is, and which numbers make it.
    pub fn of_violation(&self, shown: &Shown) -> Option<String> {
        let Replayed::Violated { violation, interval } = *shown.found else { return None };
        let reason = match violation {
            Violation::DecoderOver => self.decoder_over(shown, interval),
            Violation::DecoderShort => self.decoder_short(shown, interval),
            Violation::BucketOver | Violation::SecondBucketOver => self.bucket_over(shown),
            Violation::PinNotHeld => self.pin_not_held(shown, interval),
        };
        Some(format!("{violation} in interval {interval}: {}", reason?))
    }

    fn decoder_over(&self, shown: &Shown, t: usize) -> Option<String> {
        let (peak, sent, size) =
            (self.peaks.at(t)?, self.sent.at(t)?, shown.contents.header.decoder);
        Some(format!("a level of {} and {sent} sent are {peak}, size {size}", peak - sent))
    }

    fn decoder_short(&self, shown: &Shown, t: usize) -> Option<String> {
        let (taken, peak) = (self.taken(shown, t), self.peaks.at(t)?);
        Some(format!("unit {} takes {taken} and {peak} are there", unit_of(shown, t)))
    }

    fn bucket_over(&self, shown: &Shown) -> Option<String> {
        let Over { interval, level, size, drain } = self.over(shown)?;
        let (sent, left) = (self.sent.at(interval)?, self.left(shown)?.1);
        Some(format!(
            "a level of {level} and {sent} sent, less a drain of {drain}, leave {left}, size {size}"
        ))
    }

    fn pin_not_held(&self, shown: &Shown, t: usize) -> Option<String> {
        let (unit, choice) = (unit_of(shown, t), self.choices.at(t)?);
        let (_, pinned) = shown.pins.iter().find(|pin| usize::from(pin.0) == unit)?;
        Some(format!("unit {unit} is pinned at choice {pinned} and has choice {choice}"))
    }

    /// What the unit of interval t takes at the plan's choice.
    pub fn taken(&self, shown: &Shown, t: usize) -> u32 {
        let (unit, choice) = (unit_of(shown, t), self.choices.at(t).unwrap_or(0));
        let coding = shown.contents.coding(unit as u16, choice as u16);
        coding.map_or(0, |(grains, _)| grains.into())
    }

    /// Where a bucket is over: the interval, and the level that would be left in it.
    pub fn left(&self, shown: &Shown) -> Option<(usize, u32)> {
        let Over { interval, level, drain, .. } = self.over(shown)?;
        Some((interval, (level + self.sent.at(interval)?).saturating_sub(drain.into())))
    }

    fn over(&self, shown: &Shown) -> Option<Over> {
        let Replayed::Violated { violation, interval } = *shown.found else { return None };
        let header = &shown.contents.header;
        let (levels, size, drain) = match violation {
            Violation::BucketOver => (&self.bucket, header.bucket, header.drain),
            Violation::SecondBucketOver => {
                (self.second.as_ref()?, header.second?.size, header.second?.drain)
            }
            _ => return None,
        };
        let level = levels.at(interval - 1).or(levels.start)?;
        Some(Over { interval, level, size, drain })
    }
}

/// A bucket that is over in an interval: its level before it, its size and its drain.
struct Over {
    interval: usize,
    level: u32,
    size: u16,
    drain: u16,
}

/// The unit that interval t decodes, or 0.
fn unit_of(shown: &Shown, t: usize) -> usize {
    t.saturating_sub(shown.contents.header.delay.into())
}

/// The units and their choices, by the plan.
fn by_unit<'a>(shown: &'a Shown) -> impl Iterator<Item = (u16, u16)> + 'a {
    (1..).zip(Entry::each(shown.entries).filter_map(|entry| entry.choice))
}

fn choices(shown: &Shown) -> Vec<u32> {
    by_unit(shown).map(|(_, choice)| choice.into()).collect()
}

fn distortions(shown: &Shown) -> Vec<u32> {
    let distortion = |(unit, choice)| shown.contents.coding(unit, choice).map_or(0, |of| of.1);
    by_unit(shown).map(distortion).collect()
}
