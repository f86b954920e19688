//! The upload planner.
//!
//! Programmes are sent over a line that a carrier polices. For each interval
//! the planner chooses a channel rate and for each coded unit a quantizer
//! choice, so that total distortion is least while the decoder's buffer runs
//! neither short nor over and the carrier's leaky bucket never overflows. Some
//! carriers police a line by two buckets, each with its own size and drain.
//!
//! A job of N units with a delay of d intervals has T = N + d intervals; for
//! t > d, interval t decodes unit t − d. Sizes, rates and levels are counted in
//! grains. Units and intervals are counted from 1, rates and choices from 0.
//!
//! What an interval sends has come before its unit leaves. This peak, the level
//! before the interval and what it sends, is at most the decoder's size and at
//! least what the unit takes. A level is what is left after the unit.
//!
//! What an interval sends goes to each bucket too, which then loses its drain, or
//! all that it has. Grains of the drain that find nothing there go by unused.
//!
//! Every call that plans names an [`Aim`]: the least total distortion, or even
//! pictures, where the worst unit is as good as it can be. It names an [`Order`] too,
//! which says which of several plans as good is given: the one that sends early, or the
//! one that sends late.
//!
//! [`write()`] makes the bytes of a job from its header and lists, and [`trial`] those of
//! a job to try things with, from its header and a starting state; [`read`] and
//! [`read_archive`] give header and lists back. [`open`], [`archive`], [`calls()`], [`plan`],
//! [`replay`], [`report`], [`turn`], [`change`], [`sizes`] and [`playlist`] take these bytes and
//! read them again. All these fill lists that the caller lends; [`written`], [`trial_job`],
//! [`contents`], [`archived_contents`], [`called`], [`best_plan`], [`replayed`], [`turned`],
//! [`changed`], [`larger_buckets`] and [`playlist_plans`] make the lists themselves.
//!
//! Nothing is kept between calls. A list that is filled may be longer than needed: what stands
//! past the part named as written keeps its values. Wherever a job is read, its own refusals come
//! first: 1 to 5, and for those that open it 17. A refusal writes nothing, except that
//! [`Refusal::NoPlan`] comes after the search and leaves `table` written, and no other list. Of a
//! playlist this is said of the programme that is refused; what the programmes before it have
//! written stays.
//!
//! An editor who pins and lifts, and wants to see each time what the best plan comes
//! to, opens a [`Session`]. It keeps the pins and the table from click to click, and of
//! the table a click fills only what its unit has a part in.
//!
//! A carrier may alter the [`Contract`] while the programme is sent. [`change`] keeps what
//! was sent under the old one and plans the rest afresh under the new one, from the levels
//! that were reached. [`larger_buckets`] lists what a contract with a larger bucket would bring.
//!
//! Programmes that are sent back to back over one line are a playlist. [`playlist_plans`] plans
//! each from the bucket levels at which the one before it ended.
//!
//! A drain of 0 was once typed for a line without a limit, and says the opposite: what
//! is sent stays in the bucket. Jobs with it, in either bucket, are refused with 17,
//! directly after 3 and before the next record is looked at: by [`open`], [`calls()`],
//! [`plan`], [`change`], [`sizes`], [`playlist`], [`read`], [`write()`] and [`trial`], by
//! [`called`], [`best_plan`], [`changed`], [`larger_buckets`], [`playlist_plans`], [`contents`],
//! [`written`] and [`trial_job`], and by [`Session::open`]. Such jobs that are stored are opened
//! by [`archive`], which takes all other jobs too; [`read_archive`], [`replay`], [`report`],
//! [`turn`], [`archived_contents`], [`replayed`] and [`turned`] take what it takes.
//!
//! The work is done by the library `libupload.a`, whose code is proved to meet
//! its contract. It takes no memory and reads and writes only what is lent to
//! it, so every function here is safe. [`numbers`] has its functions as they
//! are in C.
//!
//! ```
//! use upload_planner::{best_plan, Aim, Call, Order, Refusal};
//!
//! // Two units over three intervals: the header, the rates 0, 2 and 4, then
//! // grains and distortion of both choices of each unit.
//! #[rustfmt::skip]
//! let job = [
//!     20, 0, 1, 0,  2, 0, 1, 0, 4, 0, 3, 0, 2, 0, 0, 0, 0, 0, 3, 0, 2, 0,
//!     8, 0, 2, 0,   0, 0, 2, 0, 4, 0,
//!     14, 0, 3, 0,  4, 0, 10, 0, 0, 0,  2, 0, 30, 0, 0, 0,
//!     14, 0, 3, 0,  5, 0, 12, 0, 0, 0,  2, 0, 40, 0, 0, 0,
//! ];
//!
//! // A plan has three bytes for each interval: a rate, then a choice or 65,535.
//! let best = best_plan(&job, &[], Aim::Total, Order::Early)?;
//! assert_eq!(best.totals.distortion, 50);
//! assert_eq!(best.entries, [2, 255, 255, 0, 0, 0, 2, 1, 0]);
//!
//! // Interval 2 sends nothing, but interval 1 has left two grains in the bucket, and the
//! // drain is 2.
//! assert_eq!(best.totals.unused_grains, 0);
//!
//! // Of the plans that lose 50 the late one sends nothing in interval 1, when the bucket
//! // is empty.
//! let late = best_plan(&job, &[], Aim::Total, Order::Late)?;
//! assert_eq!(late.totals.distortion, 50);
//! assert_eq!(late.entries, [0, 255, 255, 2, 0, 0, 1, 1, 0]);
//! assert_eq!(late.totals.unused_grains, 2);
//!
//! let coarse = Call::Pin { unit: 1, choice: 1 };
//! let best = best_plan(&job, &[coarse], Aim::Total, Order::Early)?;
//! assert_eq!(best.totals.distortion, 70);
//! assert_eq!(best.entries, [2, 255, 255, 0, 1, 0, 1, 1, 0]);
//!
//! // Five grains, and the decoder holds four.
//! let large = Call::Pin { unit: 2, choice: 0 };
//! let both = best_plan(&job, &[coarse, large], Aim::Total, Order::Early);
//! assert_eq!(both, Err(Refusal::NoPlan));
//!
//! let lifts = [Call::Lift { unit: 2 }, Call::Lift { unit: 1 }];
//! let calls = [coarse, large, lifts[0], lifts[1]];
//! let best = best_plan(&job, &calls, Aim::Total, Order::Early)?;
//! assert_eq!(best.totals.distortion, 50);
//! # Ok::<(), Refusal>(())
//! ```

#![warn(missing_docs)]

use std::error::Error;
use std::fmt;
use std::ops::RangeInclusive;

pub mod numbers;

/// The version of the planner, as `UPLOAD_VERSION` of the C header has it.
pub const VERSION: &str = "0.1.0";

/// The choice of an interval that decodes no unit.
pub const NO_UNIT: u16 = 65_535;

/// The word of a state from which no plan can be completed.
pub const NEVER: u32 = u32::MAX;

/// The largest size of a first bucket.
pub const LARGEST_SIZE: u16 = 255;

/// The most programmes of a playlist.
pub const PROGRAMMES: usize = 64;

/// Why a job, a call or a list is refused.
#[derive(Clone, Copy, Debug, PartialEq, Eq, Hash)]
#[non_exhaustive]
pub enum Refusal {
    /// 1: the bytes end before a record that is due is whole, or the last call is
    /// cut.
    Cut,
    /// 2: a record's kind or length is not the one due, an aim's number or an order's
    /// is neither of the two, or a call is neither a pin nor a lift. An [`Aim`] and an
    /// [`Order`] always have one or the other.
    WrongRecord,
    /// 3: a field of the header is out of range, or the fields are not nine or
    /// twelve. A [`Header`] always has one or the other. Of a [`Contract`]: a size or a
    /// drain is out of range, there is another number of them than the line has buckets,
    /// no rate or more than 16.
    Header,
    /// 4: a rate is over 4,095, or the rates do not rise; also of a [`Contract`].
    Rates,
    /// 5: a choice's grains are over 4,095 or its distortion is over 1,000,000.
    Choices,
    /// 6: the numbers are no set of pins of this job. The functions here and a
    /// [`Session`] keep their own set and never give this; those of [`numbers`] that
    /// take a set do.
    OtherJob,
    /// 7: the unit is not from 1 to N.
    NoSuchUnit,
    /// 8: the choice is not one of the unit's.
    NoSuchChoice,
    /// 9: the unit is pinned already.
    Pinned,
    /// 10: the unit is not pinned.
    NotPinned,
    /// 11: the table has fewer words than planning needs.
    TableTooShort,
    /// 12: another list that is to be filled is too short.
    ListTooShort,
    /// 13: no plan is admissible. From [`change`]: none of the rest is.
    NoPlan,
    /// 14: the entries are not 3 × T bytes, or one of them is out of range. From
    /// [`turn`]: the job has more than 31 choices, or the bytes were no plan of two
    /// bytes for each interval.
    NotAPlan,
    /// 15: the input is longer than 32,768 bytes. The program `plan` gives
    /// this; the functions here never do.
    InputTooLong,
    /// 16: a list's length is not what the header calls for.
    Lengths,
    /// 17: the drain of a bucket is 0, so that the line never drains. [`archive`],
    /// [`read_archive`], [`replay`], [`report`] and [`turn`] take such a job. Of a
    /// [`Contract`] it is refused too.
    NeverDrains,
    /// 18: the interval after which the contract changes is not from 1 to T − 1.
    NotWithin,
    /// 19: the old plan has a violation up to the interval after which the contract
    /// changes.
    OldViolation,
    /// 20: the level that a bucket has when the contract changes is over its new size. In a
    /// [`playlist`]: the level that a bucket had at the end of the programme before is over its
    /// size in this one.
    CarriedOver,
    /// 21: a [`playlist`] has no entry, or more than [`PROGRAMMES`].
    NotAList,
    /// 22: an entry of a [`playlist`] passes the bytes, bytes are left behind its job, or its
    /// line has another number of buckets than the first one's.
    Programme,
}

impl Refusal {
    const ALL: [Refusal; 22] = [
        Refusal::Cut,
        Refusal::WrongRecord,
        Refusal::Header,
        Refusal::Rates,
        Refusal::Choices,
        Refusal::OtherJob,
        Refusal::NoSuchUnit,
        Refusal::NoSuchChoice,
        Refusal::Pinned,
        Refusal::NotPinned,
        Refusal::TableTooShort,
        Refusal::ListTooShort,
        Refusal::NoPlan,
        Refusal::NotAPlan,
        Refusal::InputTooLong,
        Refusal::Lengths,
        Refusal::NeverDrains,
        Refusal::NotWithin,
        Refusal::OldViolation,
        Refusal::CarriedOver,
        Refusal::NotAList,
        Refusal::Programme,
    ];

    /// The refusal's number, from 1.
    pub fn number(self) -> u32 {
        self as u32 + 1
    }

    /// The refusal of this number, if there is one.
    pub fn from_number(number: u32) -> Option<Refusal> {
        Self::ALL.get((number as usize).checked_sub(1)?).copied()
    }
}

impl fmt::Display for Refusal {
    fn fmt(&self, f: &mut fmt::Formatter) -> fmt::Result {
        f.write_str(match self {
            Refusal::Cut => {
                "the bytes end before a record that is due is whole, or the last call is cut"
            }
            Refusal::WrongRecord => {
                "a record, an aim, an order or a call of another kind or length than the one due"
            }
            Refusal::Header => {
                "a field of the header or a number of a contract is out of range, or there are \
                 more or fewer than are due"
            }
            Refusal::Rates => "a rate is over 4,095, or the rates do not rise",
            Refusal::Choices => "a choice's grains or distortion are over their limit",
            Refusal::OtherJob => "the set of pins does not fit the job",
            Refusal::NoSuchUnit => "the job has no such unit",
            Refusal::NoSuchChoice => "the unit has no such choice",
            Refusal::Pinned => "the unit is pinned already",
            Refusal::NotPinned => "the unit is not pinned",
            Refusal::TableTooShort => "the table has fewer words than planning needs",
            Refusal::ListTooShort => "a list that is to be filled is too short",
            Refusal::NoPlan => "no plan is admissible",
            Refusal::NotAPlan => "the entries are not a plan of this job",
            Refusal::InputTooLong => "the input is longer than 32,768 bytes",
            Refusal::Lengths => "a list's length is not what the header calls for",
            Refusal::NeverDrains => "the drain of a bucket is 0, so that the line never drains",
            Refusal::NotWithin => "the contract does not change within the programme",
            Refusal::OldViolation => "the old plan has a violation before the contract changes",
            Refusal::CarriedOver => {
                "the level of a bucket is over its size in the new contract or the next programme"
            }
            Refusal::NotAList => {
                "the playlist has no entry, more than 64, or an odd count of numbers"
            }
            Refusal::Programme => {
                "an entry passes the bytes, bytes are left behind its job, or it has another \
                 number of buckets than the first"
            }
        })
    }
}

impl Error for Refusal {}

/// A pin set or lifted. A list of calls starts from no pins; a call that is
/// refused changes none.
#[derive(Clone, Copy, Debug, PartialEq, Eq, Hash)]
pub enum Call {
    /// Holds a unit at one of its choices.
    Pin {
        /// From 1 to N.
        unit: u16,
        /// Below the number of choices.
        choice: u16,
    },
    /// Leaves the unit free again.
    Lift {
        /// From 1 to N.
        unit: u16,
    },
}

impl Call {
    /// The call as the three numbers that the library takes.
    pub fn numbers(self) -> [u16; 3] {
        match self {
            Call::Pin { unit, choice } => [numbers::PIN, unit, choice],
            Call::Lift { unit } => [numbers::LIFT, unit, 0],
        }
    }
}

fn numbers_of(calls: &[Call]) -> Vec<u16> {
    calls.iter().flat_map(|call| call.numbers()).collect()
}

/// What a plan is to make least. The caller names it in every call that plans.
///
/// Pinned units count as all others do. Among plans that are equal in what the aim
/// names, the first interval at which they differ decides, whatever the aim, by the
/// [`Order`] that the caller names. There is no plan for the one aim exactly where there
/// is none for the other.
///
/// # Examples
///
/// Four grains are there for two units, and nothing is sent. All of them for unit 1
/// leave none for unit 2, which then loses 90; two for each lose 50 and 50.
///
/// ```
/// use upload_planner::{best_plan, written, Aim, Call, Header, Order, Refusal, NEVER};
///
/// let header = Header {
///     units: 2,
///     delay: 0,
///     decoder: 4,
///     bucket: 0,
///     drain: 1,
///     level: 4,
///     fill: 0,
///     rates: 1,
///     choices: 3,
///     second: None,
/// };
/// let (sizes, distortions) = ([4, 2, 0].repeat(2), [0, 50, 90].repeat(2));
/// let job = written(&header, &[0], &sizes, &distortions)?;
///
/// let total = best_plan(&job, &[], Aim::Total, Order::Early)?;
/// assert_eq!(total.totals.distortion, 0 + 90);
/// assert_eq!(total.entries, [0, 0, 0, 0, 2, 0]);
///
/// let even = best_plan(&job, &[], Aim::Even, Order::Early)?;
/// assert_eq!(even.totals.distortion, 50 + 50);
/// assert_eq!(even.entries, [0, 1, 0, 0, 1, 0]);
///
/// // The words after interval 1, by what is left for unit 2: with less than two
/// // grains it loses 90, and that choice is left out of the second table.
/// assert_eq!(total.table[5..10], [90, 90, 50, 50, 0]);
/// assert_eq!(even.table[5..10], [NEVER, NEVER, 50, 50, 0]);
///
/// // Unit 2 is to lose 90: then no plan is more even than that, and unit 1 has all.
/// let coarse = Call::Pin { unit: 2, choice: 2 };
/// let even = best_plan(&job, &[coarse], Aim::Even, Order::Early)?;
/// assert_eq!(even.entries, total.entries);
/// assert_eq!(Aim::default(), Aim::Total);
/// # Ok::<(), Refusal>(())
/// ```
#[derive(Clone, Copy, Debug, Default, PartialEq, Eq, Hash)]
pub enum Aim {
    /// The total distortion.
    #[default]
    Total,
    /// The greatest distortion of a unit, and among plans in which that is least the
    /// total.
    Even,
}

impl Aim {
    /// The number that the library takes.
    pub fn number(self) -> u32 {
        match self {
            Aim::Total => numbers::TOTAL,
            Aim::Even => numbers::EVEN,
        }
    }
}

/// Which of several plans that are as good is given: the first interval at which they
/// differ decides. The caller names it in every call that plans.
///
/// Lines drop more near the end of a programme than at its start, so that
/// [`Order::Early`] is the default. [`Order::Late`] was the only order once: it is the one
/// to name where a plan is compared with the archive or with stored listings. The table,
/// what the aim makes least and whether there is a plan at all do not depend on the order.
///
/// # Examples
///
/// Unit 1 takes four grains, and they can be sent in the first interval or in the
/// second. Unit 2 takes two, and the last interval can send four.
///
/// ```
/// use upload_planner::{best_plan, written, Aim, Header, Order, Refusal, Session};
///
/// let header = Header {
///     units: 2,
///     delay: 1,
///     decoder: 4,
///     bucket: 3,
///     drain: 2,
///     level: 0,
///     fill: 0,
///     rates: 3,
///     choices: 2,
///     second: None,
/// };
/// let job = written(&header, &[0, 2, 4], &[4, 2, 5, 2], &[10, 30, 12, 40])?;
/// let session = Session::open(&job)?;
///
/// // Four grains at once fill the decoder, so that the next interval sends nothing.
/// let early = session.plan(Aim::Total, Order::Early)?;
/// assert_eq!(early.entries, [2, 255, 255, 0, 0, 0, 2, 1, 0]);
/// assert_eq!(early.totals.distortion, 10 + 40);
/// assert_eq!(early.totals.channel_grains, 4 + 0 + 4);
///
/// let late = session.plan(Aim::Total, Order::Late)?;
/// assert_eq!(late.entries, [0, 255, 255, 2, 0, 0, 1, 1, 0]);
/// assert_eq!(late.totals.distortion, 10 + 40);
/// assert_eq!(late.totals.channel_grains, 0 + 4 + 2);
///
/// // The table is the same, and so are the plans without a session.
/// assert_eq!(early.table, late.table);
/// assert_eq!(early, best_plan(&job, &[], Aim::Total, Order::default())?);
/// assert_eq!(late, best_plan(&job, &[], Aim::Total, Order::Late)?);
/// # Ok::<(), Refusal>(())
/// ```
#[derive(Clone, Copy, Debug, Default, PartialEq, Eq, Hash)]
pub enum Order {
    /// The larger rate index, then the smaller choice index.
    #[default]
    Early,
    /// The smaller rate index, then the smaller choice index.
    Late,
}

impl Order {
    /// The number that the library takes.
    pub fn number(self) -> u32 {
        match self {
            Order::Early => numbers::EARLY,
            Order::Late => numbers::LATE,
        }
    }
}

/// A carrier's leaky bucket, as a job starts with it.
#[derive(Clone, Copy, Debug, PartialEq, Eq, Hash)]
pub struct Bucket {
    /// Its size; of a second bucket at most 63.
    pub size: u16,
    /// What leaves it in an interval, from 1 to 4,095.
    pub drain: u16,
    /// Its starting level, at most its size.
    pub level: u16,
}

/// The header of a job, from which [`write()`] and [`written`] make its bytes, and [`trial`]
/// and [`trial_job`] those of a trial job. [`read`] and [`contents`] give it back.
#[derive(Clone, Copy, Debug, PartialEq, Eq, Hash)]
pub struct Header {
    /// N, from 1 to 512.
    pub units: u16,
    /// d, at most 64.
    pub delay: u16,
    /// The decoder's size, at most 255.
    pub decoder: u16,
    /// The bucket's size, at most 255. Where there are two, this is the first.
    pub bucket: u16,
    /// What leaves the bucket in an interval, from 1 to 4,095.
    pub drain: u16,
    /// The decoder's starting level, at most its size.
    pub level: u16,
    /// The bucket's starting level, at most its size.
    pub fill: u16,
    /// P, how many rates there are, from 1 to 16.
    pub rates: u16,
    /// M, how many choices each unit has, from 1 to 1,000.
    pub choices: u16,
    /// The second bucket of a line that has two.
    pub second: Option<Bucket>,
}

impl Header {
    /// From the fields that reading wrote, so many of them.
    fn of(fields: [u16; numbers::FIELDS_MOST], written: usize) -> Header {
        let [units, delay, decoder, bucket, drain, level, fill, rates, choices, second @ ..] =
            fields;
        let second = (written == numbers::FIELDS_MOST).then_some(second);
        let second = second.map(|[size, drain, level]| Bucket { size, drain, level });
        Header { units, delay, decoder, bucket, drain, level, fill, rates, choices, second }
    }

    /// The header as the numbers that the library takes: nine, and three more
    /// where there is a second bucket.
    pub fn numbers(self) -> Vec<u16> {
        let mut fields = vec![
            self.units,
            self.delay,
            self.decoder,
            self.bucket,
            self.drain,
            self.level,
            self.fill,
            self.rates,
            self.choices,
        ];
        if let Some(Bucket { size, drain, level }) = self.second {
            fields.extend([size, drain, level]);
        }
        fields
    }

    /// How many bytes a job of this header takes. The header's record has 22, or
    /// 28 with a second bucket, that of the rates 4 + 2 × P, and that of each unit
    /// 4 + 6 × M.
    pub fn job_bytes(self) -> usize {
        let [units, rates, choices] = [self.units, self.rates, self.choices].map(usize::from);
        let header = 4 + 2 * self.numbers().len();
        header + 4 + 2 * rates + units * (4 + 6 * choices)
    }
}

/// What a carrier sells: the rates, and the size and the drain of each bucket. A job has a
/// contract of its own; [`change`] and [`changed`] put another in its place while the
/// programme is sent. The decoder, the units and the delay stay, and the line keeps its
/// number of buckets.
#[derive(Clone, Copy, Debug, PartialEq, Eq, Hash)]
pub struct Contract<'a> {
    /// 1 to 16 rates, each at most 4,095, strictly rising.
    pub rates: &'a [u16],
    /// The size of each bucket, in the order of the job: at most 255 for the first, 63 for
    /// the second.
    pub sizes: &'a [u16],
    /// The drain of each bucket, from 1 to 4,095.
    pub drains: &'a [u16],
}

impl Contract<'_> {
    /// How many words the table takes under this contract, for a job of so many intervals
    /// ([`Opened::intervals`]) and a decoder of this size:
    /// (T + 1) × (decoder size + 1) × (bucket size + 1), with two buckets
    /// × (second size + 1).
    pub fn table_words(self, intervals: usize, decoder: u16) -> usize {
        let buffers = [decoder].into_iter().chain(self.sizes.iter().copied());
        // A contract out of range may call for more than can be counted; it is refused,
        // however long the list.
        buffers.fold(intervals.saturating_add(1), |words, size| {
            words.saturating_mul(usize::from(size) + 1)
        })
    }
}

/// The bytes of the largest job.
const LARGEST_JOB: usize = 3_074_112;

/// Where a set of pins has the kind of the job's header, the size of the decoder and that of
/// the first bucket.
const SET_KIND: usize = 0;
const SET_DECODER: usize = 3;
const SET_BUCKET: usize = 4;

/// The kind of the header of a line with two buckets.
const TWO_BUCKETS: u32 = 8;

/// The set without a pin of a job that [`open`] or [`archive`] takes: with it the library tells
/// the header.
fn set_of(job: &[u8]) -> Result<Vec<u32>, Refusal> {
    let mut set = vec![0; numbers::SET_NUMBERS];
    checked(numbers::archive_set(job, &mut set))?;
    Ok(set)
}

/// How many buckets the line has of the job that a set belongs to.
fn buckets_in(set: &[u32]) -> usize {
    match set[SET_KIND] {
        TWO_BUCKETS => 2,
        _ => 1,
    }
}

/// What a job takes.
#[derive(Clone, Copy, Debug, PartialEq, Eq, Hash)]
pub struct Opened {
    /// How many bytes the job took; those after it are not looked at.
    pub bytes: usize,
    /// N.
    pub units: usize,
    /// T.
    pub intervals: usize,
    /// The words that planning needs for its table.
    pub table_words: usize,
    /// How many buckets the line has, 1 or 2.
    pub buckets: usize,
    /// The bucket's size; where there are two, that of the first.
    pub bucket: u16,
}

impl Opened {
    /// From what opening or the archive wrote for a job.
    fn of(values: [u64; numbers::OPEN_VALUES], job: &[u8]) -> Result<Opened, Refusal> {
        let [bytes, units, intervals, table_words] = values.map(|value| value as usize);
        let set = set_of(job)?;
        let (buckets, bucket) = (buckets_in(&set), set[SET_BUCKET] as u16);
        Ok(Opened { bytes, units, intervals, table_words, buckets, bucket })
    }

    /// How many bytes a plan has.
    pub fn plan_bytes(self) -> usize {
        Entry::BYTES * self.intervals
    }

    /// How many numbers [`replay`] needs for the levels: for each interval one of
    /// the decoder and one of each bucket.
    pub fn level_numbers(self) -> usize {
        Levels::numbers(self.buckets) * self.intervals
    }

    /// The sizes of the first bucket of which [`sizes`] tells: from the job's own to
    /// [`LARGEST_SIZE`].
    pub fn bucket_sizes(self) -> RangeInclusive<u16> {
        self.bucket..=LARGEST_SIZE
    }

    /// The words that [`sizes`] needs for its table: those of the job with a first bucket of
    /// [`LARGEST_SIZE`].
    pub fn largest_table_words(self) -> usize {
        self.table_words / (usize::from(self.bucket) + 1) * (usize::from(LARGEST_SIZE) + 1)
    }
}

/// What the pins come to that stand after a list of calls, or in a [`Session`].
#[derive(Clone, Copy, Debug, PartialEq, Eq, Hash)]
pub struct PinTotals {
    /// How many there are.
    pub count: usize,
    /// What their units take at the pinned choices, in grains.
    pub grains: u64,
    /// The distortions of these choices.
    pub distortion: u64,
}

/// What a plan comes to.
#[derive(Clone, Copy, Debug, PartialEq, Eq, Hash)]
pub struct Totals {
    /// The distortions of the choices made.
    pub distortion: u64,
    /// What the units take, in grains.
    pub source_grains: u64,
    /// What the intervals send, in grains.
    pub channel_grains: u64,
    /// What they leave of the drain, in grains: in each interval the larger of 0
    /// and the drain less the bucket's level before it less what it sends. The
    /// bucket's starting level + channel grains + unused grains = T × drain + its
    /// last level; where the contract [changes](change), each interval counts with its own
    /// drain. In a [`playlist`] the starting level is the last level of the programme before.
    pub unused_grains: u64,
    /// The same of the second bucket, where the line has one.
    pub second_unused: Option<u64>,
}

impl Totals {
    /// From what planning wrote for so many buckets.
    fn of(values: [u64; numbers::PLAN_VALUES_MOST], buckets: usize) -> Totals {
        let [distortion, source_grains, channel_grains, unused_grains, second] = values;
        let second_unused = (buckets == 2).then_some(second);
        Totals { distortion, source_grains, channel_grains, unused_grains, second_unused }
    }

    /// The totals programme by programme in a list that [`playlist`] filled, on a line of so
    /// many buckets ([`Opened::buckets`]).
    ///
    /// # Panics
    ///
    /// Where `buckets` is neither 1 nor 2.
    ///
    /// # Examples
    ///
    /// ```
    /// use upload_planner::Totals;
    ///
    /// let numbers = [50, 6, 6, 1, 0, 70, 4, 4, 0, 0];
    /// let one: Vec<Totals> = Totals::each(&numbers, 1).collect();
    /// assert_eq!((one[0].distortion, one[0].unused_grains, one[0].second_unused), (50, 1, None));
    /// assert_eq!((one[1].distortion, one[1].source_grains, one[1].channel_grains), (70, 4, 4));
    ///
    /// // With two buckets the fifth number is the second one's.
    /// let two: Vec<Totals> = Totals::each(&numbers[..5], 2).collect();
    /// assert_eq!(two[0].second_unused, Some(0));
    /// ```
    pub fn each(
        totals: &[u64],
        buckets: usize,
    ) -> impl DoubleEndedIterator<Item = Totals> + ExactSizeIterator + '_ {
        assert!(buckets == 1 || buckets == 2, "a line has one bucket or two");
        totals.chunks_exact(numbers::PROGRAMME_TOTALS).map(move |of| {
            let of = of.try_into().expect("a programme's numbers are as many as planning's");
            Totals::of(of, buckets)
        })
    }
}

/// What a plan has for an interval.
#[derive(Clone, Copy, Debug, PartialEq, Eq, Hash)]
pub struct Entry {
    /// The index of its rate.
    pub rate: u8,
    /// The index of its unit's choice; `None` where it decodes no unit.
    pub choice: Option<u16>,
}

impl Entry {
    /// How many bytes a plan has for each interval: the rate, then the choice as
    /// two, the lower first, or [`NO_UNIT`].
    pub const BYTES: usize = 3;

    /// The entry as these bytes.
    pub fn bytes(self) -> [u8; Entry::BYTES] {
        let [low, high] = self.choice.unwrap_or(NO_UNIT).to_le_bytes();
        [self.rate, low, high]
    }

    /// The entries interval by interval of a plan's bytes, as [`plan`] writes them.
    ///
    /// # Examples
    ///
    /// ```
    /// use upload_planner::Entry;
    ///
    /// let plan: Vec<Entry> = Entry::each(&[4, 255, 255, 0, 255, 0, 1, 231, 3]).collect();
    /// assert_eq!(plan[0], Entry { rate: 4, choice: None });
    /// assert_eq!(plan[1], Entry { rate: 0, choice: Some(255) });
    /// assert_eq!(plan[2], Entry { rate: 1, choice: Some(999) });
    /// assert_eq!(plan[2].bytes(), [1, 231, 3]);
    /// ```
    pub fn each(entries: &[u8]) -> impl DoubleEndedIterator<Item = Entry> + ExactSizeIterator + '_ {
        entries.chunks_exact(Entry::BYTES).map(|of| {
            let choice = u16::from_le_bytes([of[1], of[2]]);
            Entry { rate: of[0], choice: (choice != NO_UNIT).then_some(choice) }
        })
    }
}

/// The levels after an interval, when its unit has left.
#[derive(Clone, Copy, Debug, PartialEq, Eq, Hash)]
pub struct Levels {
    /// What the decoder holds.
    pub decoder: u16,
    /// What is in the bucket; where there are two, in the first.
    pub bucket: u16,
    /// What is in the second bucket, where the line has one.
    pub second: Option<u16>,
}

impl Levels {
    /// How many numbers [`replay`] writes for each interval on a line of so many
    /// buckets: one of the decoder and one of each bucket.
    pub const fn numbers(buckets: usize) -> usize {
        1 + buckets
    }

    /// The levels interval by interval in a list that [`replay`] filled, on a line
    /// of so many buckets ([`Opened::buckets`]). Replay writes the intervals before
    /// the first violation; what stands after them is as it was lent.
    ///
    /// # Panics
    ///
    /// Where `buckets` is neither 1 nor 2.
    ///
    /// # Examples
    ///
    /// ```
    /// use upload_planner::Levels;
    ///
    /// let one: Vec<Levels> = Levels::each(&[2, 0, 4, 1], 1).collect();
    /// assert_eq!(one[0], Levels { decoder: 2, bucket: 0, second: None });
    /// assert_eq!(one[1], Levels { decoder: 4, bucket: 1, second: None });
    ///
    /// let two: Vec<Levels> = Levels::each(&[2, 0, 4], 2).collect();
    /// assert_eq!(two, [Levels { decoder: 2, bucket: 0, second: Some(4) }]);
    /// ```
    pub fn each(
        levels: &[u16],
        buckets: usize,
    ) -> impl DoubleEndedIterator<Item = Levels> + ExactSizeIterator + '_ {
        assert!(buckets == 1 || buckets == 2, "a line has one bucket or two");
        levels.chunks_exact(Levels::numbers(buckets)).map(|of| Levels {
            decoder: of[0],
            bucket: of[1],
            second: of.get(2).copied(),
        })
    }
}

/// What is wrong with a plan in an interval. They are tested in this order, which
/// is not that of their numbers in [`numbers::replay`].
#[derive(Clone, Copy, Debug, PartialEq, Eq, PartialOrd, Ord, Hash)]
pub enum Violation {
    /// What the decoder holds just before a unit leaves, or in an interval
    /// without one, would pass its size.
    DecoderOver,
    /// The decoder holds less than the unit takes.
    DecoderShort,
    /// The level of the bucket, of two the first, would pass its size.
    BucketOver,
    /// The second bucket's level would pass its size.
    SecondBucketOver,
    /// The unit is pinned at another choice.
    PinNotHeld,
}

impl fmt::Display for Violation {
    fn fmt(&self, f: &mut fmt::Formatter) -> fmt::Result {
        f.write_str(match self {
            Violation::DecoderOver => "decoder over",
            Violation::DecoderShort => "decoder short",
            Violation::BucketOver => "bucket over",
            Violation::SecondBucketOver => "second bucket over",
            Violation::PinNotHeld => "pin not held",
        })
    }
}

/// What replay finds.
#[derive(Clone, Copy, Debug, PartialEq, Eq, Hash)]
pub enum Replayed {
    /// The plan is admissible.
    Clean(Totals),
    /// The plan is not admissible.
    Violated {
        /// The first violation.
        violation: Violation,
        /// Its interval, from 1.
        interval: usize,
    },
}

impl Replayed {
    /// From what replay wrote for so many buckets.
    fn of(values: [u64; numbers::REPLAY_VALUES_MOST], buckets: usize) -> Replayed {
        let [kind, interval, totals @ ..] = values;
        let violation = match kind {
            0 => return Replayed::Clean(Totals::of(totals, buckets)),
            1 => Violation::DecoderShort,
            2 => Violation::DecoderOver,
            3 => Violation::BucketOver,
            4 => Violation::PinNotHeld,
            5 => Violation::SecondBucketOver,
            _ => panic!("the library answered {kind}, which is no violation"),
        };
        Replayed::Violated { violation, interval: interval as usize }
    }

    /// The levels before the first violation, or all, in the list that replay filled.
    fn held(self, levels: &[u16], opened: Opened) -> Vec<Levels> {
        let held = match self {
            Replayed::Clean(_) => opened.intervals,
            Replayed::Violated { interval, .. } => interval - 1,
        };
        Levels::each(levels, opened.buckets).take(held).collect()
    }
}

fn checked(number: u32) -> Result<(), Refusal> {
    match number {
        0 => Ok(()),
        _ => Err(Refusal::from_number(number)
            .unwrap_or_else(|| panic!("the library answered {number}, which is no refusal"))),
    }
}

/// Opens a job: checks all of it and says what the other functions need.
///
/// # Errors
///
/// Numbers 1 to 5; 17 directly after 3.
pub fn open(job: &[u8]) -> Result<Opened, Refusal> {
    let mut values = [0; numbers::OPEN_VALUES];
    checked(numbers::open(job, &mut values))?;
    Opened::of(values, job)
}

/// Opens a stored job, on a line that may never drain: checks all else as [`open`] does
/// and says the same of it. Any job that [`open`] takes it takes too. The words of the
/// table are those that planning would need; [`plan`] refuses such a job.
///
/// # Errors
///
/// Numbers 1 to 5.
///
/// # Examples
///
/// A plan was stored with a job whose drain is 0.
///
/// ```
/// use upload_planner::{archive, best_plan, open, replayed, turned, written};
/// use upload_planner::{Aim, Call, Header, Order, Refusal, Replayed};
///
/// let header = Header {
///     units: 2,
///     delay: 1,
///     decoder: 4,
///     bucket: 6,
///     drain: 2,
///     level: 0,
///     fill: 0,
///     rates: 3,
///     choices: 2,
///     second: None,
/// };
/// let mut job = written(&header, &[0, 2, 4], &[4, 2, 5, 2], &[10, 30, 12, 40])?;
/// assert_eq!(archive(&job), open(&job));
/// let opened = archive(&job);
///
/// // Such a job is not written any more; its drain stands in bytes 12 and 13.
/// job[12] = 0;
/// assert_eq!(open(&job), Err(Refusal::NeverDrains));
/// let best = best_plan(&job, &[], Aim::Total, Order::Early);
/// assert_eq!(best, Err(Refusal::NeverDrains));
/// assert_eq!(archive(&job), opened);
///
/// // Its plans are turned and replayed. What is sent stays in the bucket.
/// let entries = turned(&job, &[0, 255, 2, 0, 1, 1])?;
/// let (levels, found) = replayed(&job, &[], &entries)?;
/// let buckets: Vec<_> = levels.iter().map(|level| level.bucket).collect();
/// assert_eq!(buckets, [0, 4, 6]);
/// let Replayed::Clean(totals) = found else { panic!("the bucket holds all that is sent") };
/// assert_eq!((totals.distortion, totals.unused_grains), (50, 0));
///
/// // A pin is refused, so that none stands that the plan does not hold.
/// let pin = Call::Pin { unit: 1, choice: 1 };
/// assert_eq!(replayed(&job, &[pin], &entries)?, (levels, found));
/// # Ok::<(), Refusal>(())
/// ```
pub fn archive(job: &[u8]) -> Result<Opened, Refusal> {
    let mut values = [0; numbers::OPEN_VALUES];
    checked(numbers::archive(job, &mut values))?;
    Opened::of(values, job)
}

/// Makes the calls in turn, refused ones included. `answers`: one byte for each
/// call is written: 0 where it was taken, otherwise its refusal's number, 7 to 10.
///
/// # Errors
///
/// In this order: 1 to 5 and 17 for the job; 12 where `answers` is too short. A call
/// that is refused is no error here.
pub fn calls(job: &[u8], calls: &[Call], answers: &mut [u8]) -> Result<PinTotals, Refusal> {
    let mut values = [0; numbers::CALLS_VALUES];
    checked(numbers::calls(job, &numbers_of(calls), answers, &mut values))?;
    let [count, grains, distortion] = values;
    Ok(PinTotals { count: count as usize, grains, distortion })
}

/// Makes the calls as [`calls()`] does, then plans with the pins that stand at the
/// end.
///
/// - `aim`: what the plan is to make least.
/// - `order`: which of several such plans it is to be.
/// - `answers`: one byte for each call is written, as [`calls()`] writes them.
/// - `table`: [`Opened::table_words`] words are written. Word
///   (t × (decoder size + 1) + b) × (bucket size + 1) + l is the least
///   distortion that intervals t + 1 to T can add from decoder level b and
///   bucket level l after interval t, pins held, or [`NEVER`]. With two buckets,
///   the second at level m, that is word ((t × (decoder size + 1) + b) ×
///   (bucket size + 1) + l) × (second size + 1) + m. For [`Aim::Even`] it is the table
///   in which choices above the plan's greatest distortion are left out, and where
///   there is no plan the full one.
/// - `entries`: 3 × T bytes are written, three for each interval: the index of
///   its rate, then that of its unit's choice as two bytes, the lower first, or
///   [`NO_UNIT`]. [`Entry::each`] names them.
///
/// Of all plans that are admissible it has the least total distortion, or for
/// [`Aim::Even`] the least greatest distortion of a unit and among such plans the least
/// total. Among several the first interval at which they differ decides: for
/// [`Order::Early`] the larger rate index, for [`Order::Late`] the smaller one, and then
/// the smaller choice index.
///
/// # Errors
///
/// In this order: 1 to 5 and 17 for the job; 11; 12 where `answers` or `entries` is
/// too short; 13, which leaves `table` written and `answers` as they were; [`calls()`]
/// says what the calls met with.
pub fn plan(
    job: &[u8],
    calls: &[Call],
    aim: Aim,
    order: Order,
    answers: &mut [u8],
    table: &mut [u32],
    entries: &mut [u8],
) -> Result<Totals, Refusal> {
    let mut values = [0; numbers::PLAN_VALUES_MOST];
    let (calls, aim, order) = (numbers_of(calls), aim.number(), order.number());
    checked(numbers::plan(job, &calls, aim, order, answers, table, entries, &mut values))?;
    Ok(Totals::of(values, buckets_in(&set_of(job)?)))
}

/// Makes the calls as [`calls()`] does, then follows a plan interval by interval
/// up to its first violation. On a line that never drains each call is refused with 17,
/// and no pin stands.
///
/// `levels` needs room for [`Opened::level_numbers`], 2 × T numbers or with two
/// buckets 3 × T: after each interval, when its unit has left, the decoder's level
/// and that of each bucket. Only those before the violation are written.
/// [`Levels::each`] names them; [`replayed`] gives them by name.
///
/// # Errors
///
/// In this order: 1 to 5 for the job; 14; 12 where `levels` is too short.
pub fn replay(
    job: &[u8],
    calls: &[Call],
    entries: &[u8],
    levels: &mut [u16],
) -> Result<Replayed, Refusal> {
    let mut values = [0; numbers::REPLAY_VALUES_MOST];
    checked(numbers::replay(job, &numbers_of(calls), entries, levels, &mut values))?;
    Ok(Replayed::of(values, buckets_in(&set_of(job)?)))
}

/// The effective buffer sizes of a plan, admissible or not.
///
/// N + 1 sums are written: for i from 0 to N the grains that intervals i + 1 to
/// i + d send.
///
/// # Errors
///
/// In this order: 1 to 5 for the job; 14; 12 where `sums` is too short.
pub fn report(job: &[u8], entries: &[u8], sums: &mut [u32]) -> Result<(), Refusal> {
    checked(numbers::report(job, entries, sums))
}

/// Turns a stored plan of two bytes for each interval, as plans were while a job
/// had at most 31 choices, into entries.
///
/// - `old`: 2 × T bytes, two for each interval: the index of its rate, then that of
///   its unit's choice, or 255 for the first d.
/// - `entries`: 3 × T bytes are written, as [`plan`] writes them. The rate and the
///   choice of each interval are kept, and 255 becomes [`NO_UNIT`]; so they replay
///   to the levels of the old plan.
///
/// # Errors
///
/// In this order: 1 to 5 for the job; 14 where it has more than 31 choices or `old`
/// is anything else; 12 where `entries` is too short.
pub fn turn(job: &[u8], old: &[u8], entries: &mut [u8]) -> Result<(), Refusal> {
    checked(numbers::turn(job, old, entries))
}

/// Plans the rest of a programme afresh when the carrier's contract changes. It makes the
/// calls as [`calls()`] does, and goes by the pins that stand at the end; [`calls()`] says
/// what they met with.
///
/// - `old`: 3 × T bytes, a plan of the job, as [`plan`] writes them.
/// - `first`: how many of its entries remain, from 1 to T − 1. They lead to some levels
///   under the job's own contract. The intervals after them are planned under the new one,
///   from these levels.
/// - `contract`: the new one, with as many sizes and drains as the job has buckets.
/// - `order`: which of several plans of the rest as good it is to be.
/// - `table`: [`Contract::table_words`] words, by the new sizes. The layers of intervals
///   `first` to T are written as [`plan`] writes them, those before keep their values.
/// - `entries`: 3 × T bytes are written: the first ones of `old`, then those of the rest,
///   whose rates are counted in the new contract.
///
/// The plan of the rest has the least total distortion of all that start at those levels
/// and are admissible under the new contract. The totals are of the whole plan, each interval
/// counted by its own contract.
///
/// # Errors
///
/// In this order: 1 to 5 and 17 for the job; 14 for `old`; 3, 17 and 4 for the contract; 18
/// where `first` is not from 1 to T − 1; 19 where `old` has a violation in an interval up to
/// `first`, a pin that is not held too; 20 where the level that a bucket then has is over its
/// new size; 11; 12 where `entries` is too short; 13, which leaves `table` written.
pub fn change(
    job: &[u8],
    calls: &[Call],
    old: &[u8],
    first: u32,
    contract: Contract,
    order: Order,
    table: &mut [u32],
    entries: &mut [u8],
) -> Result<Totals, Refusal> {
    let (set, _) = set_after(job, calls)?;
    change_with(job, &set, old, first, contract, order, table, entries)
}

/// The set of pins that calls leave, and what each of them met with.
fn set_after(job: &[u8], calls: &[Call]) -> Result<(Vec<u32>, Vec<Result<(), Refusal>>), Refusal> {
    let mut set = vec![0; numbers::SET_NUMBERS];
    checked(numbers::set(job, &mut set))?;
    let made = calls.iter().map(|call| {
        checked(match *call {
            Call::Pin { unit, choice } => numbers::pin(job, &mut set, unit, choice),
            Call::Lift { unit } => numbers::lift(job, &mut set, unit),
        })
    });
    let answers = made.collect();
    Ok((set, answers))
}

fn change_with(
    job: &[u8],
    set: &[u32],
    old: &[u8],
    first: u32,
    contract: Contract,
    order: Order,
    table: &mut [u32],
    entries: &mut [u8],
) -> Result<Totals, Refusal> {
    let Contract { rates, sizes, drains } = contract;
    let order = order.number();
    let mut values = [0; numbers::PLAN_VALUES_MOST];
    let lent = (table, entries, &mut values);
    checked(numbers::change(
        job, set, old, first, rates, sizes, drains, order, lent.0, lent.1, lent.2,
    ))?;
    Ok(Totals::of(values, buckets_in(set)))
}

/// A change with lists of its own; the answers are left out.
fn changed_with(
    job: &[u8],
    opened: Opened,
    set: &[u32],
    old: &[u8],
    first: u32,
    contract: Contract,
    order: Order,
) -> Result<BestPlan, Refusal> {
    let mut entries = vec![0; opened.plan_bytes()];
    // What refuses a contract comes before 11, so that the table's words are counted for
    // one in range alone.
    match change_with(job, set, old, first, contract, order, &mut [], &mut entries) {
        Err(Refusal::TableTooShort) | Ok(_) => {}
        Err(refusal) => return Err(refusal),
    }
    let decoder = set[SET_DECODER] as u16;
    let mut table = vec![0; contract.table_words(opened.intervals, decoder)];
    let totals = change_with(job, set, old, first, contract, order, &mut table, &mut entries)?;
    Ok(BestPlan { totals, entries, answers: Vec::new(), table })
}

/// Lists what a larger bucket would bring: the least total distortion for each size of the
/// first bucket from the job's own to [`LARGEST_SIZE`], all else equal. It makes the calls as
/// [`calls()`] does, and goes by the pins that stand at the end; [`calls()`] says what they
/// met with.
///
/// - `table`: [`Opened::largest_table_words`] words are written: the table of the job with a
///   first bucket of [`LARGEST_SIZE`], as [`plan`] writes it for [`Aim::Total`].
/// - `totals`: a number for each of [`Opened::bucket_sizes`] is written, size after size: the
///   least total distortion, or [`NEVER`] where no plan is admissible.
///
/// What a bucket takes a larger one takes too, so that no number exceeds the one before it. The
/// starting levels stay, and so does a second bucket.
///
/// # Errors
///
/// In this order: 1 to 5 and 17 for the job; 11; 12 where `totals` is too short. That there is
/// no plan is no error.
pub fn sizes(
    job: &[u8],
    calls: &[Call],
    table: &mut [u32],
    totals: &mut [u32],
) -> Result<(), Refusal> {
    let (set, _) = set_after(job, calls)?;
    checked(numbers::sizes(job, &set, table, totals))
}

/// The same with lists of its own: each size with its total, if there is a plan.
fn larger_with(
    job: &[u8],
    opened: Opened,
    set: &[u32],
) -> Result<Vec<(u16, Option<u32>)>, Refusal> {
    let sizes = opened.bucket_sizes();
    let mut table = vec![0; opened.largest_table_words()];
    let mut totals = vec![0; sizes.len()];
    checked(numbers::sizes(job, set, &mut table, &mut totals))?;
    let totals = totals.into_iter().map(|total| (total != NEVER).then_some(total));
    Ok(sizes.zip(totals).collect())
}

/// An entry of a playlist: where its job stands in the bytes.
#[derive(Clone, Copy, Debug, PartialEq, Eq, Hash)]
pub struct Programme {
    /// The job's first byte, counted from 0.
    pub first: u32,
    /// How many bytes it has.
    pub length: u32,
}

impl Programme {
    /// The entry as the two numbers that the library takes.
    pub fn numbers(self) -> [u32; 2] {
        [self.first, self.length]
    }
}

/// Why a playlist is refused, and where.
#[derive(Clone, Copy, Debug, PartialEq, Eq, Hash)]
pub struct PlaylistRefusal {
    /// The place of the programme that is refused, counted from 1; `None` where that is the
    /// list, for 21.
    pub place: Option<usize>,
    /// Why it is.
    pub refusal: Refusal,
}

impl PlaylistRefusal {
    /// The refusal as the library answers it: 256 × the place + the number, or the number alone.
    pub fn answer(self) -> u32 {
        256 * self.place.unwrap_or(0) as u32 + self.refusal.number()
    }

    /// The refusal that [`numbers::playlist`] answers so, if it is one.
    ///
    /// # Examples
    ///
    /// ```
    /// use upload_planner::{PlaylistRefusal, Refusal};
    ///
    /// let refused = PlaylistRefusal { place: Some(3), refusal: Refusal::NoPlan };
    /// assert_eq!(refused.answer(), 3 * 256 + 13);
    /// assert_eq!(PlaylistRefusal::from_answer(781), Some(refused));
    /// assert_eq!(refused.to_string(), "programme 3: no plan is admissible");
    ///
    /// let list = PlaylistRefusal { place: None, refusal: Refusal::NotAList };
    /// assert_eq!(PlaylistRefusal::from_answer(21), Some(list));
    /// assert_eq!(PlaylistRefusal::from_answer(0), None);
    /// ```
    pub fn from_answer(answer: u32) -> Option<PlaylistRefusal> {
        let (place, number) = (answer as usize / 256, answer % 256);
        let refusal = Refusal::from_number(number)?;
        Some(PlaylistRefusal { place: (place > 0).then_some(place), refusal })
    }
}

impl fmt::Display for PlaylistRefusal {
    fn fmt(&self, f: &mut fmt::Formatter) -> fmt::Result {
        match self.place {
            Some(place) => write!(f, "programme {place}: {}", self.refusal),
            None => self.refusal.fmt(f),
        }
    }
}

impl Error for PlaylistRefusal {}

/// Plans the programmes of a playlist, which are sent back to back over one line. Each starts
/// from the bucket levels at which the one before it ended, the first from its own; the decoder
/// starts at each job's own level.
///
/// - `bytes`: the jobs. They may stand anywhere in it, and may overlap.
/// - `programmes`: an entry for each, 1 to [`PROGRAMMES`] of them, in the order in which they are
///   sent.
/// - `table`: room for the most words that one of the jobs needs ([`Opened::table_words`]). One
///   planning after another writes its table there, as [`plan`] does, and the last one's stands
///   in the end. Behind it may be words of a longer one before it.
/// - `entries`: 3 × T bytes for each programme are written, one plan after another, as [`plan`]
///   writes them for [`Aim::Total`] and [`Order::Late`].
/// - `totals`: [`numbers::PROGRAMME_TOTALS`] numbers for each programme are written, in the order
///   of the list: distortion, source grains, channel grains, the unused grains of the bucket and
///   those of the second, 0 where there is none. [`Totals::each`] names them.
///
/// Each plan is the best for its programme from those levels, without pins. Nothing is claimed
/// for the list as a whole.
///
/// Work stops at the first programme that is refused. The plans and totals of those before it stay
/// written, and so does the last table. Of the refused one nothing is written, except that 13
/// leaves its table.
///
/// # Errors
///
/// Without a place: 21 where there is no entry or more than [`PROGRAMMES`], and nothing is
/// written.
///
/// Of a programme, in this order: 22 where its entry passes `bytes`; 1 to 5 and 17 for its job;
/// 22 where bytes are left behind the job, or its line has another number of buckets than the
/// first one's; 20 where the level that a bucket had at the end of the programme before is over
/// its size; 11; 12 where its plan or its totals do not fit behind the others; 13.
///
/// # Examples
///
/// A programme that is sent twice stands in the bytes once. It is the one of [`playlist_plans`],
/// where the plans are worked out.
///
/// ```
/// use upload_planner::{numbers, open, playlist, written, Header, PlaylistRefusal, Programme};
/// use upload_planner::{Refusal, Totals};
///
/// let header = Header {
///     units: 2,
///     delay: 1,
///     decoder: 4,
///     bucket: 5,
///     drain: 1,
///     level: 0,
///     fill: 0,
///     rates: 3,
///     choices: 2,
///     second: None,
/// };
/// let job = written(&header, &[0, 2, 4], &[4, 2, 5, 2], &[10, 30, 12, 40])?;
/// let opened = open(&job)?;
/// let once = Programme { first: 0, length: job.len() as u32 };
///
/// let mut table = vec![0; opened.table_words];
/// let mut entries = vec![0; 3 * opened.plan_bytes()];
/// let mut totals = vec![0; 3 * numbers::PROGRAMME_TOTALS];
/// playlist(&job, &[once; 2], &mut table, &mut entries, &mut totals)?;
/// assert_eq!(entries[..9], [0, 255, 255, 2, 0, 0, 1, 1, 0]);
/// assert_eq!(entries[9..18], [0, 255, 255, 1, 1, 0, 1, 1, 0]);
/// assert_eq!(totals, [50, 6, 6, 1, 0, 70, 4, 4, 0, 0, 0, 0, 0, 0, 0]);
/// let lost: u64 = Totals::each(&totals[..10], opened.buckets).map(|of| of.distortion).sum();
/// assert_eq!(lost, 50 + 70);
///
/// // A third time there is no plan. The other two are planned all the same.
/// let (mut entries, mut totals) = (vec![7; 27], vec![7; 15]);
/// let found = playlist(&job, &[once; 3], &mut table, &mut entries, &mut totals);
/// assert_eq!(found, Err(PlaylistRefusal { place: Some(3), refusal: Refusal::NoPlan }));
/// assert_eq!((totals[5], totals[10]), (70, 7));
/// assert_eq!((entries[15], entries[18]), (1, 7));
///
/// // A byte is missing, or a list has no room for the second plan or its totals.
/// let past = Programme { first: 1, ..once };
/// let found = playlist(&job, &[once, past], &mut table, &mut entries, &mut totals);
/// assert_eq!(found, Err(PlaylistRefusal { place: Some(2), refusal: Refusal::Programme }));
/// let short = Err(PlaylistRefusal { place: Some(2), refusal: Refusal::ListTooShort });
/// let found = playlist(&job, &[once; 2], &mut table, &mut entries[..17], &mut totals);
/// assert_eq!(found, short);
/// let found = playlist(&job, &[once; 2], &mut table, &mut entries, &mut totals[..9]);
/// assert_eq!(found, short);
/// # Ok::<(), Box<dyn std::error::Error>>(())
/// ```
pub fn playlist(
    bytes: &[u8],
    programmes: &[Programme],
    table: &mut [u32],
    entries: &mut [u8],
    totals: &mut [u64],
) -> Result<(), PlaylistRefusal> {
    let programmes: Vec<u32> = programmes.iter().flat_map(|entry| entry.numbers()).collect();
    match numbers::playlist(bytes, &programmes, table, entries, totals) {
        0 => Ok(()),
        answer => Err(PlaylistRefusal::from_answer(answer)
            .unwrap_or_else(|| panic!("the library answered {answer}, which is no refusal"))),
    }
}

fn met_with(answers: Vec<u8>) -> Vec<Result<(), Refusal>> {
    answers.into_iter().map(|answer| checked(answer.into())).collect()
}

/// Calls that were made.
#[derive(Clone, Debug, PartialEq, Eq)]
pub struct Called {
    /// What each call met with.
    pub answers: Vec<Result<(), Refusal>>,
    /// What the pins come to that stand at the end.
    pub totals: PinTotals,
}

/// [`calls()`] with a list of its own, as long as the calls need.
///
/// # Errors
///
/// Numbers 1 to 5 and 17 for the job.
///
/// # Examples
///
/// No plan holds both pins, and each of them was taken all the same.
///
/// ```
/// use upload_planner::{best_plan, called, written, Aim, Call, Header, Order, Refusal};
///
/// let header = Header {
///     units: 2,
///     delay: 1,
///     decoder: 4,
///     bucket: 3,
///     drain: 2,
///     level: 0,
///     fill: 0,
///     rates: 3,
///     choices: 2,
///     second: None,
/// };
/// let job = written(&header, &[0, 2, 4], &[4, 2, 5, 2], &[10, 30, 12, 40])?;
///
/// let calls = [
///     Call::Pin { unit: 1, choice: 1 },
///     Call::Pin { unit: 1, choice: 0 },
///     Call::Pin { unit: 2, choice: 0 },
/// ];
/// let best = best_plan(&job, &calls, Aim::Total, Order::Early);
/// assert_eq!(best, Err(Refusal::NoPlan));
///
/// let made = called(&job, &calls)?;
/// assert_eq!(made.answers, [Ok(()), Err(Refusal::Pinned), Ok(())]);
/// assert_eq!(made.totals.count, 2);
/// assert_eq!(made.totals.grains, 2 + 5);
/// assert_eq!(made.totals.distortion, 30 + 12);
/// # Ok::<(), Refusal>(())
/// ```
pub fn called(job: &[u8], calls: &[Call]) -> Result<Called, Refusal> {
    let mut answers = vec![0; calls.len()];
    let totals = self::calls(job, calls, &mut answers)?;
    Ok(Called { answers: met_with(answers), totals })
}

/// A plan with the lists that planning filled.
#[derive(Clone, Debug, PartialEq, Eq)]
pub struct BestPlan {
    /// What the plan comes to.
    pub totals: Totals,
    /// Three bytes for each interval, which [`Entry::each`] names.
    pub entries: Vec<u8>,
    /// What each call met with; empty where a [`Session`] planned.
    pub answers: Vec<Result<(), Refusal>>,
    /// The least distortion from every state; for [`Aim::Even`] without the choices
    /// above the plan's greatest distortion. Where the contract changes it is that of the
    /// new one, and 0 in the layers before.
    pub table: Vec<u32>,
}

/// [`plan`] with lists of its own, as long as the job needs. At the largest jobs
/// the table takes 151 million bytes, and with two buckets 64 times as many.
///
/// # Errors
///
/// Numbers 1 to 5 and 17 for the job; 13.
pub fn best_plan(job: &[u8], calls: &[Call], aim: Aim, order: Order) -> Result<BestPlan, Refusal> {
    let opened = open(job)?;
    let mut answers = vec![0; calls.len()];
    let mut table = vec![0; opened.table_words];
    let mut entries = vec![0; opened.plan_bytes()];
    let totals = plan(job, calls, aim, order, &mut answers, &mut table, &mut entries)?;
    Ok(BestPlan { totals, entries, answers: met_with(answers), table })
}

/// [`replay`] with a list of its own: the levels after each interval before the
/// first violation, or after all T, and what was found.
///
/// # Errors
///
/// In this order: 1 to 5 for the job; 14.
///
/// # Examples
///
/// The best plan over a line with one bucket sends four grains in interval 1, and four in
/// interval 3.
///
/// ```
/// use upload_planner::{best_plan, replayed, written, Aim, Bucket, Header, Levels};
/// use upload_planner::{Order, Refusal, Replayed, Violation};
///
/// let one = Header {
///     units: 2,
///     delay: 1,
///     decoder: 4,
///     bucket: 3,
///     drain: 2,
///     level: 0,
///     fill: 0,
///     rates: 3,
///     choices: 2,
///     second: None,
/// };
/// let job_of = |header: Header| {
///     written(&header, &[0, 2, 4], &[4, 2, 5, 2], &[10, 30, 12, 40])
/// };
/// let job = job_of(one)?;
/// let best = best_plan(&job, &[], Aim::Total, Order::Early)?;
/// assert_eq!(best.entries, [2, 255, 255, 0, 0, 0, 2, 1, 0]);
///
/// let (levels, found) = replayed(&job, &[], &best.entries)?;
/// assert_eq!(levels.len(), 3);
/// assert_eq!(levels[0], Levels { decoder: 4, bucket: 2, second: None });
/// assert_eq!(levels[1], Levels { decoder: 0, bucket: 0, second: None });
/// assert_eq!(found, Replayed::Clean(best.totals));
///
/// // A second bucket for one grain, from which three drain, takes four.
/// let fast = Bucket { size: 1, drain: 3, level: 0 };
/// let job = job_of(Header { second: Some(fast), ..one })?;
/// let (levels, found) = replayed(&job, &[], &best.entries)?;
/// let second: Vec<_> = levels.iter().map(|level| level.second).collect();
/// assert_eq!(second, [Some(1), Some(0), Some(1)]);
/// let Replayed::Clean(totals) = found else { panic!("the plan is admissible") };
/// assert_eq!((totals.unused_grains, totals.second_unused), (0, Some(2)));
///
/// // One from which two drain does not, and the best plan is another.
/// let slow = Bucket { size: 1, drain: 2, level: 0 };
/// let job = job_of(Header { second: Some(slow), ..one })?;
/// let (levels, found) = replayed(&job, &[], &best.entries)?;
/// assert!(levels.is_empty());
/// let violation = Violation::SecondBucketOver;
/// assert_eq!(found, Replayed::Violated { violation, interval: 1 });
/// let best = best_plan(&job, &[], Aim::Total, Order::Early)?;
/// assert_eq!(best.entries, [1, 255, 255, 1, 0, 0, 1, 1, 0]);
/// # Ok::<(), Refusal>(())
/// ```
pub fn replayed(
    job: &[u8],
    calls: &[Call],
    entries: &[u8],
) -> Result<(Vec<Levels>, Replayed), Refusal> {
    let opened = archive(job)?;
    let mut levels = vec![0; opened.level_numbers()];
    let found = replay(job, calls, entries, &mut levels)?;
    Ok((found.held(&levels, opened), found))
}

/// An editor's sitting over a job: pins are set and lifted one after another, and each
/// time it says at once what the best plan then comes to.
///
/// It borrows the job's bytes and keeps two lists: the pins that stand, and the table
/// that planning for [`Aim::Total`] makes with them. [`Session::open`] fills all of the
/// table, as planning does. After that a pin or lift of unit u fills again the layers of
/// intervals 0 to u + d − 1 and no other, about (u + d) / T of planning's work: the
/// earlier the unit, the sooner it is done. However the pins came to stand, the table is
/// the one that a session opened anew has when it has the same pins.
///
/// A call that is refused changes nothing.
///
/// # Examples
///
/// A sitting of forty clicks over a programme of 20 units, for which the decoder holds
/// 20 grains at the start; nothing is sent. A unit is fine with two grains and loses 0,
/// with one it loses 10, and without any 30: the first grain gains 20, the second 10.
///
/// Where f units are pinned fine and b are pinned bare, 20 − f − b are free and have
/// 20 − 2 × f grains.
///
/// - If f ≥ b these are no more than the free units, and each is a first grain: the
///   least total is 30 × (20 − f) − 20 × (20 − 2 × f) = 200 + 10 × f.
/// - If b ≥ f each free unit has a first grain, and b − f have a second: the least
///   total is 30 × b + 10 × (20 − f − b) − 10 × (b − f) = 200 + 10 × b.
///
/// So it is 200 and 10 for each unit pinned fine or each pinned bare, whichever are
/// more, and from the eleventh fine unit on, which would make 22 grains, there is no plan.
///
/// ```
/// use upload_planner::{written, Aim, Header, Order, PinTotals, Refusal, Session};
///
/// let header = Header {
///     units: 20,
///     delay: 0,
///     decoder: 20,
///     bucket: 0,
///     drain: 1,
///     level: 20,
///     fill: 0,
///     rates: 1,
///     choices: 3,
///     second: None,
/// };
/// let (sizes, distortions) = ([2, 1, 0].repeat(20), [0, 10, 30].repeat(20));
/// let job = written(&header, &[0], &sizes, &distortions)?;
/// let (fine, bare) = (0, 2);
///
/// let mut session = Session::open(&job)?;
/// assert_eq!(session.best_total(), Some(200));
///
/// // Ten units are fine, one after another.
/// for unit in 1..=10 {
///     session.pin(unit, fine)?;
///     assert_eq!(session.best_total(), Some(200 + 10 * u32::from(unit)));
/// }
///
/// // One more is too many, and is lifted again.
/// session.pin(11, fine)?;
/// assert_eq!(session.best_total(), None);
/// session.lift(11)?;
/// assert_eq!(session.best_total(), Some(300));
///
/// // The units from 12 on get nothing, and it was all gone before.
/// for unit in 12..=20 {
///     session.pin(unit, bare)?;
///     assert_eq!(session.best_total(), Some(300));
/// }
/// let totals = PinTotals { count: 10 + 9, grains: 10 * 2, distortion: 9 * 30 };
/// assert_eq!(session.pin_totals(), totals);
/// assert_eq!((session.pin_of(10), session.pin_of(11)), (Some(fine), None));
///
/// // A click that is refused changes nothing.
/// assert_eq!(session.pin(10, bare), Err(Refusal::Pinned));
/// assert_eq!(session.lift(11), Err(Refusal::NotPinned));
/// assert_eq!(session.best_total(), Some(300));
///
/// // The first ten are free again; nine stay bare.
/// for unit in 1..=10 {
///     session.lift(unit)?;
///     assert_eq!(session.best_total(), Some(200 + 10 * 9));
/// }
///
/// // So are the others, from the last on: the fortieth click brings the first total back.
/// for unit in (12..=20).rev() {
///     session.lift(unit)?;
///     let bare = u32::from(unit) - 12;
///     assert_eq!(session.best_total(), Some(200 + 10 * bare));
/// }
/// assert_eq!(session.pins().count(), 0);
/// assert_eq!(session, Session::open(&job)?);
///
/// // One grain for each unit; no other plan loses 200, so that the order does not matter.
/// let best = session.plan(Aim::Total, Order::Early)?;
/// assert_eq!(best.totals.distortion, 200);
/// assert_eq!(best.entries, [0, 1, 0].repeat(20));
/// # Ok::<(), Refusal>(())
/// ```
#[derive(Clone, PartialEq, Eq)]
pub struct Session<'a> {
    job: &'a [u8],
    opened: Opened,
    set: Vec<u32>,
    /// Planning's own for this set and [`Aim::Total`].
    table: Vec<u32>,
    /// The word of layer 0 at the starting levels.
    best: u32,
}

impl<'a> Session<'a> {
    /// Opens a job, without a pin, and plans once. That there is no plan is no error.
    ///
    /// # Errors
    ///
    /// Numbers 1 to 5; 17 directly after 3.
    pub fn open(job: &'a [u8]) -> Result<Session<'a>, Refusal> {
        let opened = open(job)?;
        let mut set = vec![0; numbers::SET_NUMBERS];
        checked(numbers::set(job, &mut set))?;
        let mut session = Session { job, opened, set, table: Vec::new(), best: NEVER };
        let mut table = vec![0; opened.table_words];
        match session.plan_into(&mut table, Aim::Total, Order::default()) {
            Ok((totals, _)) => session.best = totals.distortion as u32,
            Err(Refusal::NoPlan) => {}
            Err(refusal) => return Err(refusal),
        }
        session.table = table;
        Ok(session)
    }

    /// Plans with the pins that stand; `table` is filled, also where there is no plan.
    fn plan_into(
        &self,
        table: &mut [u32],
        aim: Aim,
        order: Order,
    ) -> Result<(Totals, Vec<u8>), Refusal> {
        let Session { job, opened, set, .. } = self;
        let (aim, order) = (aim.number(), order.number());
        let mut entries = vec![0; opened.plan_bytes()];
        let mut values = [0; numbers::PLAN_VALUES_MOST];
        checked(numbers::plan_set(job, set, aim, order, table, &mut entries, &mut values))?;
        Ok((Totals::of(values, opened.buckets), entries))
    }

    /// Holds a unit at one of its choices. What the best plan then comes to is
    /// [`Session::best_total`]; that there is none is no error.
    ///
    /// # Errors
    ///
    /// In this order: 7 where `unit` is not from 1 to N; 8 where the unit has no such
    /// choice; 9 where it is pinned already.
    pub fn pin(&mut self, unit: u16, choice: u16) -> Result<(), Refusal> {
        let Session { job, set, table, .. } = self;
        let mut values = [0; numbers::SEE_VALUES];
        checked(numbers::pin_and_see(job, set, unit, choice, table, &mut values))?;
        self.best = values[0] as u32;
        Ok(())
    }

    /// Leaves a unit free again, and goes on as [`Session::pin`] does.
    ///
    /// # Errors
    ///
    /// In this order: 7 where `unit` is not from 1 to N; 10 where it is not pinned.
    pub fn lift(&mut self, unit: u16) -> Result<(), Refusal> {
        let Session { job, set, table, .. } = self;
        let mut values = [0; numbers::SEE_VALUES];
        checked(numbers::lift_and_see(job, set, unit, table, &mut values))?;
        self.best = values[0] as u32;
        Ok(())
    }

    /// The least total distortion with the pins that stand; `None` where no plan holds
    /// them. It is known from the last pin or lift, and costs nothing.
    pub fn best_total(&self) -> Option<u32> {
        (self.best != NEVER).then_some(self.best)
    }

    /// Plans with the pins that stand, as [`best_plan`] does with those that calls leave.
    /// The plan's table is a list of its own, so that the session keeps [`Session::table`]
    /// for either aim. All of it is filled: while only the total is asked for,
    /// [`Session::best_total`] has it.
    ///
    /// # Errors
    ///
    /// Number 13, exactly where [`Session::best_total`] is `None`.
    ///
    /// # Examples
    ///
    /// Four grains are there for two units, and nothing is sent. All of them for unit 1
    /// lose 90 in total, two for each lose 50 and 50.
    ///
    /// ```
    /// use upload_planner::{written, Aim, Header, Order, Refusal, Session};
    ///
    /// let header = Header {
    ///     units: 2,
    ///     delay: 0,
    ///     decoder: 4,
    ///     bucket: 0,
    ///     drain: 1,
    ///     level: 4,
    ///     fill: 0,
    ///     rates: 1,
    ///     choices: 3,
    ///     second: None,
    /// };
    /// let (sizes, distortions) = ([4, 2, 0].repeat(2), [0, 50, 90].repeat(2));
    /// let job = written(&header, &[0], &sizes, &distortions)?;
    /// let mut session = Session::open(&job)?;
    ///
    /// let total = session.plan(Aim::Total, Order::Early)?;
    /// assert_eq!(total.totals.distortion, 0 + 90);
    /// let even = session.plan(Aim::Even, Order::Early)?;
    /// assert_eq!(even.totals.distortion, 50 + 50);
    ///
    /// // The session's table is still the one for the total.
    /// assert_eq!(session.table(), total.table);
    /// assert_ne!(session.table(), even.table);
    /// session.pin(2, 1)?;
    /// assert_eq!(session.best_total(), Some(50 + 50));
    ///
    /// // Four grains for unit 1 leave none for unit 2.
    /// session.pin(1, 0)?;
    /// assert_eq!(session.best_total(), None);
    /// assert_eq!(session.plan(Aim::Even, Order::Early), Err(Refusal::NoPlan));
    /// # Ok::<(), Refusal>(())
    /// ```
    pub fn plan(&self, aim: Aim, order: Order) -> Result<BestPlan, Refusal> {
        let mut table = vec![0; self.opened.table_words];
        let (totals, entries) = self.plan_into(&mut table, aim, order)?;
        Ok(BestPlan { totals, entries, answers: Vec::new(), table })
    }

    /// Follows a plan with the pins that stand, as [`replayed`] does with those that
    /// calls leave: the levels after each interval before the first violation, or after
    /// all T, and what was found.
    ///
    /// # Errors
    ///
    /// Number 14.
    ///
    /// # Examples
    ///
    /// The best plan without pins does not hold one that is set later.
    ///
    /// ```
    /// use upload_planner::{written, Aim, Header, Order, Refusal, Replayed, Session, Violation};
    ///
    /// let header = Header {
    ///     units: 2,
    ///     delay: 1,
    ///     decoder: 4,
    ///     bucket: 3,
    ///     drain: 2,
    ///     level: 0,
    ///     fill: 0,
    ///     rates: 3,
    ///     choices: 2,
    ///     second: None,
    /// };
    /// let job = written(&header, &[0, 2, 4], &[4, 2, 5, 2], &[10, 30, 12, 40])?;
    /// let mut session = Session::open(&job)?;
    /// let best = session.plan(Aim::Total, Order::Early)?;
    /// assert_eq!(session.replay(&best.entries)?.1, Replayed::Clean(best.totals));
    ///
    /// // Unit 1 is decoded in interval 2.
    /// session.pin(1, 1)?;
    /// let (levels, found) = session.replay(&best.entries)?;
    /// assert_eq!(levels.len(), 1);
    /// let violation = Violation::PinNotHeld;
    /// assert_eq!(found, Replayed::Violated { violation, interval: 2 });
    /// # Ok::<(), Refusal>(())
    /// ```
    pub fn replay(&self, entries: &[u8]) -> Result<(Vec<Levels>, Replayed), Refusal> {
        let Session { job, opened, set, .. } = self;
        let mut levels = vec![0; opened.level_numbers()];
        let mut values = [0; numbers::REPLAY_VALUES_MOST];
        checked(numbers::replay_set(job, set, entries, &mut levels, &mut values))?;
        let found = Replayed::of(values, opened.buckets);
        Ok((found.held(&levels, *opened), found))
    }

    /// Plans the rest of the programme afresh when the carrier's contract changes, with the
    /// pins that stand, as [`changed`] does with those that calls leave. The session stays
    /// with the job's own contract, and so does [`Session::table`].
    ///
    /// # Errors
    ///
    /// In this order: 14 for `old`; 3, 17 and 4 for the contract; 18; 19; 20; 13.
    ///
    /// # Examples
    ///
    /// While the contract stays as it was, the rest of a best plan is planned as it was.
    /// Then unit 1, which is decoded in interval 2, is pinned at its second choice.
    ///
    /// ```
    /// use upload_planner::{written, Aim, Contract, Header, Order, Refusal, Session};
    ///
    /// let header = Header {
    ///     units: 2,
    ///     delay: 1,
    ///     decoder: 4,
    ///     bucket: 3,
    ///     drain: 2,
    ///     level: 0,
    ///     fill: 0,
    ///     rates: 3,
    ///     choices: 2,
    ///     second: None,
    /// };
    /// let job = written(&header, &[0, 2, 4], &[4, 2, 5, 2], &[10, 30, 12, 40])?;
    /// let mut session = Session::open(&job)?;
    /// let best = session.plan(Aim::Total, Order::Early)?;
    /// let same = Contract { rates: &[0, 2, 4], sizes: &[3], drains: &[2] };
    /// for first in 1..=2 {
    ///     let again = session.change(&best.entries, first, same, Order::Early)?;
    ///     assert_eq!((again.entries, again.totals), (best.entries.clone(), best.totals));
    /// }
    ///
    /// // After interval 1 the pin can be held still, after interval 2 it is too late.
    /// session.pin(1, 1)?;
    /// let coarse = session.change(&best.entries, 1, same, Order::Early)?;
    /// assert_eq!(coarse.entries, [2, 255, 255, 0, 1, 0, 1, 1, 0]);
    /// assert_eq!(coarse.totals.distortion, 30 + 40);
    /// let late = session.change(&best.entries, 2, same, Order::Early);
    /// assert_eq!(late, Err(Refusal::OldViolation));
    /// # Ok::<(), Refusal>(())
    /// ```
    pub fn change(
        &self,
        old: &[u8],
        first: u32,
        contract: Contract,
        order: Order,
    ) -> Result<BestPlan, Refusal> {
        changed_with(self.job, self.opened, &self.set, old, first, contract, order)
    }

    /// What a larger bucket would bring with the pins that stand, as [`larger_buckets`] says it
    /// of those that calls leave: each size of the first bucket from the job's own on, and the
    /// least total, if there is a plan. The first is the job's own and has
    /// [`Session::best_total`]. The session stays with its bucket, and keeps [`Session::table`].
    ///
    /// # Examples
    ///
    /// Two grains at a time go into the bucket and one drains, so that four for unit 1 and two
    /// for unit 2 need a bucket of three. Two for each can come in intervals 1 and 3, and for
    /// them a bucket of one is enough.
    ///
    /// ```
    /// use upload_planner::{written, Header, Refusal, Session};
    ///
    /// let header = Header {
    ///     units: 2,
    ///     delay: 1,
    ///     decoder: 4,
    ///     bucket: 1,
    ///     drain: 1,
    ///     level: 0,
    ///     fill: 0,
    ///     rates: 3,
    ///     choices: 2,
    ///     second: None,
    /// };
    /// let job = written(&header, &[0, 2, 4], &[4, 2, 5, 2], &[10, 30, 12, 40])?;
    /// let mut session = Session::open(&job)?;
    /// assert_eq!(session.best_total(), Some(30 + 40));
    /// let free = session.larger_buckets();
    /// assert_eq!(free[..3], [(1, Some(70)), (2, Some(70)), (3, Some(10 + 40))]);
    ///
    /// // Unit 1 is to have its four grains: until there is room for them there is no plan.
    /// session.pin(1, 0)?;
    /// let fine = session.larger_buckets();
    /// assert_eq!(fine[..3], [(1, None), (2, None), (3, Some(50))]);
    /// assert_eq!(session.best_total(), None);
    ///
    /// session.lift(1)?;
    /// assert_eq!(session.larger_buckets(), free);
    /// # Ok::<(), Refusal>(())
    /// ```
    pub fn larger_buckets(&self) -> Vec<(u16, Option<u32>)> {
        let listed = larger_with(self.job, self.opened, &self.set);
        listed.expect("a session's job and pins are taken, and its lists are long enough")
    }

    /// The choice that a unit is pinned at; `None` where it is free, or the job has no
    /// such unit.
    pub fn pin_of(&self, unit: u16) -> Option<u16> {
        let at = usize::from(unit).checked_sub(1)?;
        let pins = &self.set[numbers::SET_PINS..][..self.opened.units];
        pins.get(at).filter(|pin| **pin != numbers::NO_PIN).map(|pin| *pin as u16)
    }

    /// The pins that stand, unit by unit: each unit that is pinned and its choice.
    ///
    /// # Examples
    ///
    /// ```
    /// use upload_planner::{written, Header, Refusal, Session};
    ///
    /// let header = Header {
    ///     units: 3,
    ///     delay: 0,
    ///     decoder: 0,
    ///     bucket: 0,
    ///     drain: 1,
    ///     level: 0,
    ///     fill: 0,
    ///     rates: 1,
    ///     choices: 2,
    ///     second: None,
    /// };
    /// let job = written(&header, &[0], &[0; 6], &[7; 6])?;
    /// let mut session = Session::open(&job)?;
    /// session.pin(3, 0)?;
    /// session.pin(1, 1)?;
    /// assert!(session.pins().eq([(1, 1), (3, 0)]));
    /// # Ok::<(), Refusal>(())
    /// ```
    pub fn pins(&self) -> impl DoubleEndedIterator<Item = (u16, u16)> + '_ {
        (1..=self.opened.units as u16).filter_map(|unit| Some((unit, self.pin_of(unit)?)))
    }

    /// What these pins come to.
    pub fn pin_totals(&self) -> PinTotals {
        let totals = &self.set[numbers::SET_TOTALS..];
        PinTotals {
            count: totals[0] as usize,
            grains: totals[1].into(),
            distortion: totals[2].into(),
        }
    }

    /// The table for the pins that stand: the least distortion from every state, as
    /// [`plan`] writes it for [`Aim::Total`].
    pub fn table(&self) -> &[u32] {
        &self.table
    }

    /// What the job takes, as [`open`] said.
    pub fn opened(&self) -> Opened {
        self.opened
    }

    /// The job's bytes.
    pub fn job(&self) -> &'a [u8] {
        self.job
    }
}

/// Leaves out the job's bytes and the table.
impl fmt::Debug for Session<'_> {
    fn fmt(&self, f: &mut fmt::Formatter) -> fmt::Result {
        f.debug_struct("Session")
            .field("opened", &self.opened)
            .field("pins", &self.pins().collect::<Vec<_>>())
            .field("best_total", &self.best_total())
            .finish_non_exhaustive()
    }
}

/// [`change`] with lists of its own, as long as the job and the contract need.
///
/// # Errors
///
/// In this order: 1 to 5 and 17 for the job; 14 for `old`; 3, 17 and 4 for the contract; 18;
/// 19; 20; 13.
///
/// # Examples
///
/// The best plan sends four grains in interval 1, which fill the decoder and leave two in the
/// bucket; then nothing for unit 1, which takes all four, and four more for unit 2. After
/// interval 1 the carrier lowers the rates, the bucket's size and its drain.
///
/// Interval 2 can still send nothing only, and leaves one grain in the bucket. Three grains in
/// interval 3 would leave three there, and it now holds two. One grain is no use to unit 2,
/// which takes two, unless unit 1 leaves some: so unit 1 takes two, and loses 30.
///
/// ```
/// use upload_planner::{best_plan, changed, written, Aim, Call, Contract, Header, Order};
/// use upload_planner::Refusal;
///
/// let header = Header {
///     units: 2,
///     delay: 1,
///     decoder: 4,
///     bucket: 3,
///     drain: 2,
///     level: 0,
///     fill: 0,
///     rates: 3,
///     choices: 2,
///     second: None,
/// };
/// let job = written(&header, &[0, 2, 4], &[4, 2, 5, 2], &[10, 30, 12, 40])?;
/// let old = best_plan(&job, &[], Aim::Total, Order::Early)?.entries;
/// assert_eq!(old, [2, 255, 255, 0, 0, 0, 2, 1, 0]);
///
/// let lower = Contract { rates: &[0, 1, 3], sizes: &[2], drains: &[1] };
/// let best = changed(&job, &[], &old, 1, lower, Order::Early)?;
/// assert_eq!(best.entries, [2, 255, 255, 0, 1, 0, 1, 1, 0]);
/// assert_eq!(best.totals.distortion, 30 + 40);
/// assert_eq!(best.totals.channel_grains, 4 + 0 + 1);
///
/// // The table is that of the new contract from interval 1 on; the layer before was not
/// // written. After interval 1 the decoder holds four grains; with less than two in the
/// // bucket interval 3 could send three.
/// assert_eq!(best.table.len(), 4 * 5 * 3);
/// assert_eq!(best.table[..15], [0; 15]);
/// assert_eq!(best.table[(1 * 5 + 4) * 3..][..3], [50, 50, 70]);
///
/// // Late it sends nothing in interval 3.
/// let late = changed(&job, &[], &old, 1, lower, Order::Late)?;
/// assert_eq!(late.entries, [2, 255, 255, 0, 1, 0, 0, 1, 0]);
///
/// // Unit 1 is to have its four grains all the same; or the bucket has no room for what is
/// // in it; or the programme is over.
/// let fine = [Call::Pin { unit: 1, choice: 0 }];
/// assert_eq!(changed(&job, &fine, &old, 1, lower, Order::Early), Err(Refusal::NoPlan));
/// let small = Contract { sizes: &[1], ..lower };
/// assert_eq!(changed(&job, &[], &old, 1, small, Order::Early), Err(Refusal::CarriedOver));
/// assert_eq!(changed(&job, &[], &old, 3, lower, Order::Early), Err(Refusal::NotWithin));
/// # Ok::<(), Refusal>(())
/// ```
pub fn changed(
    job: &[u8],
    calls: &[Call],
    old: &[u8],
    first: u32,
    contract: Contract,
    order: Order,
) -> Result<BestPlan, Refusal> {
    let opened = open(job)?;
    let (set, answers) = set_after(job, calls)?;
    let best = changed_with(job, opened, &set, old, first, contract, order)?;
    Ok(BestPlan { answers, ..best })
}

/// [`sizes`] with lists of its own: each size of the first bucket from the job's own to
/// [`LARGEST_SIZE`], and the least total distortion with it; `None` where there is no plan.
/// Whatever the job's own size, the table is as large as for the largest: up to 151 million
/// bytes, and with two buckets 64 times as many.
///
/// # Errors
///
/// Numbers 1 to 5 and 17 for the job.
///
/// # Examples
///
/// The decoder holds four grains. They can come two at a time, which drain at once: a larger
/// bucket brings nothing.
///
/// ```
/// use upload_planner::{larger_buckets, written, Call, Header, Refusal};
///
/// let header = Header {
///     units: 2,
///     delay: 1,
///     decoder: 4,
///     bucket: 3,
///     drain: 2,
///     level: 0,
///     fill: 0,
///     rates: 3,
///     choices: 2,
///     second: None,
/// };
/// let job_of = |header: Header| {
///     written(&header, &[0, 2, 4], &[4, 2, 5, 2], &[10, 30, 12, 40])
/// };
/// let sizes = larger_buckets(&job_of(header)?, &[])?;
/// assert_eq!(sizes.len(), 256 - 3);
/// assert_eq!((sizes[0], sizes[252]), ((3, Some(10 + 40)), (255, Some(10 + 40))));
///
/// // Where one grain drains, a bucket of nothing takes none. With one of 1 the intervals can
/// // send 2, 0 and 2, and unit 1 loses 30; six grains leave 3 in it.
/// let job = job_of(Header { bucket: 0, drain: 1, ..header })?;
/// let mut sizes = larger_buckets(&job, &[])?;
/// assert_eq!(sizes.len(), 256);
/// sizes.dedup_by_key(|(_, total)| *total);
/// assert_eq!(sizes, [(0, None), (1, Some(30 + 40)), (3, Some(10 + 40))]);
///
/// // Unit 1 is to lose 30 in any case.
/// let coarse = [Call::Pin { unit: 1, choice: 1 }];
/// let mut sizes = larger_buckets(&job, &coarse)?;
/// sizes.dedup_by_key(|(_, total)| *total);
/// assert_eq!(sizes, [(0, None), (1, Some(30 + 40))]);
/// # Ok::<(), Refusal>(())
/// ```
pub fn larger_buckets(job: &[u8], calls: &[Call]) -> Result<Vec<(u16, Option<u32>)>, Refusal> {
    let opened = open(job)?;
    let (set, _) = set_after(job, calls)?;
    larger_with(job, opened, &set)
}

/// The plan of a programme in a playlist.
#[derive(Clone, Debug, PartialEq, Eq)]
pub struct ProgrammePlan {
    /// What the plan comes to.
    pub totals: Totals,
    /// Three bytes for each interval, which [`Entry::each`] names.
    pub entries: Vec<u8>,
}

/// [`playlist`] with lists of its own, as long as the jobs need: puts the jobs behind each other
/// and gives the plan of each, in the order in which they are sent.
///
/// Where a programme is refused, `playlist_plans(&jobs[..place - 1])` gives the plans of those
/// before it; [`playlist`] leaves them in the lists that it is lent.
///
/// # Errors
///
/// Number 21 without a place where there is no job or more than [`PROGRAMMES`]. Of a programme, in
/// this order: 1 to 5 and 17 for its job; 22 where bytes are left behind the job, or its line has
/// another number of buckets than the first one's; 20; 13.
///
/// # Examples
///
/// Each programme takes four grains for unit 1 by interval 2, which lose 10, or two, which lose
/// 30. Then it takes two for unit 2, which lose 40. One grain drains from a bucket of five.
///
/// The first time it is sent as 0, 4 and 2 grains, which bring the bucket to 0, 3 and 4. So the
/// second time it starts at 4. Nothing in interval 1 leaves 3 there; four grains would make 6 of
/// it, and two make 4. Another two in interval 3 make 5, and the bucket is full: so unit 1 has two.
///
/// ```
/// use upload_planner::{best_plan, playlist_plans, replayed, written, Aim, Bucket, Header};
/// use upload_planner::{Levels, Order, PlaylistRefusal, Refusal, Replayed};
///
/// let header = Header {
///     units: 2,
///     delay: 1,
///     decoder: 4,
///     bucket: 5,
///     drain: 1,
///     level: 0,
///     fill: 0,
///     rates: 3,
///     choices: 2,
///     second: None,
/// };
/// let job_of = |header: Header| {
///     written(&header, &[0, 2, 4], &[4, 2, 5, 2], &[10, 30, 12, 40])
/// };
/// let job = job_of(header)?;
/// let plans = playlist_plans(&[&job, &job])?;
/// assert_eq!(plans[0].entries, [0, 255, 255, 2, 0, 0, 1, 1, 0]);
/// assert_eq!(plans[0].totals.distortion, 10 + 40);
/// assert_eq!(plans[1].entries, [0, 255, 255, 1, 1, 0, 1, 1, 0]);
/// assert_eq!(plans[1].totals.distortion, 30 + 40);
///
/// // The first is what it is by itself; the second is that of a job that starts at 4.
/// let alone = best_plan(&job, &[], Aim::Total, Order::Late)?;
/// assert_eq!((&alone.entries, alone.totals), (&plans[0].entries, plans[0].totals));
/// let again = job_of(Header { fill: 4, ..header })?;
/// let (levels, found) = replayed(&again, &[], &plans[1].entries)?;
/// assert_eq!(levels[2], Levels { decoder: 0, bucket: 5, second: None });
/// assert_eq!(found, Replayed::Clean(plans[1].totals));
///
/// // From a full bucket at most three grains can go in three intervals, and four are needed.
/// let refused = |place, refusal| Err(PlaylistRefusal { place, refusal });
/// assert_eq!(playlist_plans(&[&job, &job, &job]), refused(Some(3), Refusal::NoPlan));
///
/// // A bucket of four holds what the first programme leaves in it, one of three does not.
/// let [four, three] = [4, 3].map(|bucket| job_of(Header { bucket, ..header }));
/// assert_eq!(playlist_plans(&[&job, &four?]), refused(Some(2), Refusal::NoPlan));
/// assert_eq!(playlist_plans(&[&job, &three?]), refused(Some(2), Refusal::CarriedOver));
///
/// // A line has one bucket or two throughout; and nothing to send is no list.
/// let second = Some(Bucket { size: 5, drain: 1, level: 0 });
/// let two = job_of(Header { second, ..header })?;
/// assert_eq!(playlist_plans(&[&job, &two]), refused(Some(2), Refusal::Programme));
/// assert_eq!(playlist_plans(&[]), refused(None, Refusal::NotAList));
/// # Ok::<(), Box<dyn std::error::Error>>(())
/// ```
pub fn playlist_plans(jobs: &[&[u8]]) -> Result<Vec<ProgrammePlan>, PlaylistRefusal> {
    let (mut bytes, mut programmes) = (Vec::new(), Vec::new());
    // One job too many is refused as many are, and one byte behind the largest job as many are.
    for job in jobs.iter().take(PROGRAMMES + 1) {
        let job = &job[..job.len().min(LARGEST_JOB + 1)];
        programmes.push(Programme { first: bytes.len() as u32, length: job.len() as u32 });
        bytes.extend_from_slice(job);
    }
    // The library plans no further than to a job that does not open, or is of another line.
    let opened = jobs.iter().take(PROGRAMMES).map_while(|job| open(job).ok());
    let mut opened: Vec<Opened> = opened.collect();
    let buckets = opened.first().map_or(1, |first| first.buckets);
    let same = opened.iter().take_while(|job| job.buckets == buckets).count();
    opened.truncate(same);

    let words = opened.iter().map(|job| job.table_words).max();
    let mut table = vec![0; words.unwrap_or(0)];
    let mut entries = vec![0; opened.iter().map(|job| job.plan_bytes()).sum()];
    let mut totals = vec![0; numbers::PROGRAMME_TOTALS * programmes.len()];
    playlist(&bytes, &programmes, &mut table, &mut entries, &mut totals)?;
    let mut left = &entries[..];
    let plans = opened.iter().zip(Totals::each(&totals, buckets)).map(|(job, totals)| {
        let (plan, behind) = left.split_at(job.plan_bytes());
        left = behind;
        ProgrammePlan { totals, entries: plan.to_vec() }
    });
    Ok(plans.collect())
}

/// [`turn`] with a list of its own, as long as the job needs.
///
/// # Errors
///
/// In this order: 1 to 5 for the job; 14.
///
/// # Examples
///
/// The best plan of a job was stored while an entry had two bytes, and while the order was
/// always the late one.
///
/// ```
/// use upload_planner::{best_plan, turned, written, Aim, Entry, Header, Order, Refusal};
///
/// let header = Header {
///     units: 2,
///     delay: 1,
///     decoder: 4,
///     bucket: 3,
///     drain: 2,
///     level: 0,
///     fill: 0,
///     rates: 3,
///     choices: 2,
///     second: None,
/// };
/// let job = written(&header, &[0, 2, 4], &[4, 2, 5, 2], &[10, 30, 12, 40])?;
///
/// let entries = turned(&job, &[0, 255, 2, 0, 1, 1])?;
/// assert_eq!(entries, best_plan(&job, &[], Aim::Total, Order::Late)?.entries);
/// let plan: Vec<Entry> = Entry::each(&entries).collect();
/// assert_eq!(plan[0], Entry { rate: 0, choice: None });
/// assert_eq!(plan[1], Entry { rate: 2, choice: Some(0) });
///
/// // Entries of three bytes were no plan then.
/// assert_eq!(turned(&job, &entries), Err(Refusal::NotAPlan));
/// # Ok::<(), Refusal>(())
/// ```
pub fn turned(job: &[u8], old: &[u8]) -> Result<Vec<u8>, Refusal> {
    let mut entries = vec![0; archive(job)?.plan_bytes()];
    turn(job, old, &mut entries)?;
    Ok(entries)
}

/// Writes a job's bytes from its header and lists, and says how many they are:
/// [`Header::job_bytes`].
///
/// - `rates`: P numbers, each at most 4,095, strictly rising.
/// - `sizes`: N × M numbers by unit and choice, unit after unit: the grains that
///   the unit takes, each at most 4,095.
/// - `distortions`: N × M numbers in the order of `sizes`, each at most
///   1,000,000.
/// - `job`: the records of the header, of the rates and of each unit are
///   written.
///
/// What is written opens and holds this header and these lists. A job that
/// opens, written from its own, is the bytes that it took.
///
/// # Errors
///
/// In this order: 3, then 17 for the header; 16 where `rates`, `sizes` or
/// `distortions` has another length; 4; 5; 12 where `job` is too short.
pub fn write(
    header: &Header,
    rates: &[u16],
    sizes: &[u16],
    distortions: &[u32],
    job: &mut [u8],
) -> Result<usize, Refusal> {
    let mut values = [0; numbers::WRITE_VALUES];
    let fields = header.numbers();
    checked(numbers::write(&fields, rates, sizes, distortions, job, &mut values))?;
    Ok(values[0] as usize)
}

/// [`write()`] with a list of its own, as long as the job needs.
///
/// # Errors
///
/// In this order: 3, then 17 for the header; 16 where `rates`, `sizes` or
/// `distortions` has another length; 4; 5.
///
/// # Examples
///
/// A distortion is corrected, and the plan follows.
///
/// ```
/// use upload_planner::{best_plan, written, Aim, Header, Order, Refusal};
///
/// let header = Header {
///     units: 2,
///     delay: 1,
///     decoder: 4,
///     bucket: 3,
///     drain: 2,
///     level: 0,
///     fill: 0,
///     rates: 3,
///     choices: 2,
///     second: None,
/// };
/// let rates = [0, 2, 4];
/// let sizes = [4, 2, 5, 2];
/// let mut distortions = [10, 30, 12, 40];
///
/// let job = written(&header, &rates, &sizes, &distortions)?;
/// let best = best_plan(&job, &[], Aim::Total, Order::Early)?;
/// assert_eq!(best.totals.distortion, 50);
/// assert_eq!(best.entries, [2, 255, 255, 0, 0, 0, 2, 1, 0]);
///
/// // Unit 1 at its second choice is better than was thought.
/// distortions[1] = 5;
/// let job = written(&header, &rates, &sizes, &distortions)?;
/// let best = best_plan(&job, &[], Aim::Total, Order::Early)?;
/// assert_eq!(best.totals.distortion, 45);
/// assert_eq!(best.entries, [2, 255, 255, 0, 1, 0, 1, 1, 0]);
///
/// // A distortion is missing.
/// assert_eq!(written(&header, &rates, &sizes, &distortions[..3]), Err(Refusal::Lengths));
/// # Ok::<(), Refusal>(())
/// ```
pub fn written(
    header: &Header,
    rates: &[u16],
    sizes: &[u16],
    distortions: &[u32],
) -> Result<Vec<u8>, Refusal> {
    // A header out of range may call for far more than any job takes; it is
    // refused, however long the list.
    let mut job = vec![0; header.job_bytes().min(LARGEST_JOB)];
    write(header, rates, sizes, distortions, &mut job)?;
    Ok(job)
}

/// A function of [`numbers`] that reads a job back, by the door of opening or by that of the
/// archive.
type Reading = fn(&[u8], &mut [u16], &mut [u16], &mut [u16], &mut [u32], &mut [u64]) -> u32;

fn read_with(
    reading: Reading,
    job: &[u8],
    rates: &mut [u16],
    sizes: &mut [u16],
    distortions: &mut [u32],
) -> Result<(Header, usize), Refusal> {
    let mut fields = [0; numbers::FIELDS_MOST];
    let mut values = [0; numbers::READ_VALUES];
    checked(reading(job, &mut fields, rates, sizes, distortions, &mut values))?;
    let [bytes, written] = values.map(|value| value as usize);
    Ok((Header::of(fields, written), bytes))
}

/// Reads a job back: its header and lists, as [`write()`] takes them. Says the header, and how
/// many bytes the job took.
///
/// - `rates`: P numbers are written.
/// - `sizes`: N × M numbers are written by unit and choice, unit after unit: number
///   (u − 1) × M + c is what unit u takes at choice c, in grains.
/// - `distortions`: N × M numbers are written in the order of `sizes`.
///
/// Lists of [`numbers::RATES_MOST`], n / 6 and n / 6 numbers are long enough for every job of n
/// bytes. Written again, what is read is the bytes that the job took.
///
/// # Errors
///
/// In this order: 1 to 5 for the job, with 17 directly after 3; 12 where a list is too short.
///
/// # Examples
///
/// A byte stands behind the job, and is not looked at.
///
/// ```
/// use upload_planner::{numbers, read, write, written, Header, Refusal};
///
/// let header = Header {
///     units: 2,
///     delay: 1,
///     decoder: 4,
///     bucket: 3,
///     drain: 2,
///     level: 0,
///     fill: 0,
///     rates: 3,
///     choices: 2,
///     second: None,
/// };
/// let mut job = written(&header, &[0, 2, 4], &[4, 2, 5, 2], &[10, 30, 12, 40])?;
/// job.push(7);
///
/// let mut rates = [9; numbers::RATES_MOST];
/// let (mut sizes, mut distortions) = (vec![9; job.len() / 6], vec![9; job.len() / 6]);
/// let (found, bytes) = read(&job, &mut rates, &mut sizes, &mut distortions)?;
/// assert_eq!((found, bytes), (header, 64));
/// assert_eq!(rates[..4], [0, 2, 4, 9]);
/// assert_eq!(sizes[..5], [4, 2, 5, 2, 9]);
/// assert_eq!(distortions[..5], [10, 30, 12, 40, 9]);
///
/// // The same bytes again; and no room for the last distortion.
/// let mut again = [0; 64];
/// write(&found, &rates[..3], &sizes[..4], &distortions[..4], &mut again)?;
/// assert_eq!(again, job[..64]);
/// let short = read(&job, &mut rates, &mut sizes, &mut distortions[..3]);
/// assert_eq!(short, Err(Refusal::ListTooShort));
/// # Ok::<(), Refusal>(())
/// ```
pub fn read(
    job: &[u8],
    rates: &mut [u16],
    sizes: &mut [u16],
    distortions: &mut [u32],
) -> Result<(Header, usize), Refusal> {
    read_with(numbers::read, job, rates, sizes, distortions)
}

/// Reads a stored job back, whose line may never drain: all else is as in [`read`]. A job that
/// [`open`] takes is read as there. A drain in the header may be 0, and such a job is not
/// written again.
///
/// # Errors
///
/// In this order: 1 to 5 for the job; 12 where a list is too short.
pub fn read_archive(
    job: &[u8],
    rates: &mut [u16],
    sizes: &mut [u16],
    distortions: &mut [u32],
) -> Result<(Header, usize), Refusal> {
    read_with(numbers::read_archive, job, rates, sizes, distortions)
}

/// What a job holds: its header and its lists, as [`written`] takes them. [`contents`] and
/// [`archived_contents`] read it from the job's bytes.
#[derive(Clone, Debug, PartialEq, Eq, Hash)]
pub struct Contents {
    /// The header.
    pub header: Header,
    /// The rates in grains, P of them, strictly rising.
    pub rates: Vec<u16>,
    /// What the units take in grains, N × M numbers by unit and choice, unit after unit.
    pub sizes: Vec<u16>,
    /// Their distortions, in the order of `sizes`.
    pub distortions: Vec<u32>,
}

impl Contents {
    /// What a unit, counted from 1, takes at a choice, counted from 0, and the distortion that
    /// it then has; `None` where the job has no such unit or choice.
    pub fn coding(&self, unit: u16, choice: u16) -> Option<(u16, u32)> {
        if choice >= self.header.choices {
            return None;
        }
        let before = usize::from(unit).checked_sub(1)? * usize::from(self.header.choices);
        let place = before + usize::from(choice);
        Some((*self.sizes.get(place)?, *self.distortions.get(place)?))
    }

    /// The bytes of the job, as [`written`] makes them. Where nothing was altered, they are
    /// those that were read.
    ///
    /// # Errors
    ///
    /// In this order: 3, then 17 for the header; 16 where a list has another length; 4; 5.
    pub fn job(&self) -> Result<Vec<u8>, Refusal> {
        written(&self.header, &self.rates, &self.sizes, &self.distortions)
    }
}

fn contents_with(reading: Reading, job: &[u8]) -> Result<Contents, Refusal> {
    // A choice takes six bytes of the job. What stands behind the largest job calls for no room.
    let most = job.len().min(LARGEST_JOB) / 6;
    let mut rates = vec![0; numbers::RATES_MOST];
    let (mut sizes, mut distortions) = (vec![0; most], vec![0; most]);
    let (header, _) = read_with(reading, job, &mut rates, &mut sizes, &mut distortions)?;
    let codings = usize::from(header.units) * usize::from(header.choices);
    rates.truncate(header.rates.into());
    sizes.truncate(codings);
    distortions.truncate(codings);
    Ok(Contents { header, rates, sizes, distortions })
}

/// [`read`] with lists of its own, as long as the job needs.
///
/// # Errors
///
/// Numbers 1 to 5; 17 directly after 3.
///
/// # Examples
///
/// A job is there as bytes alone, a distortion in it is corrected, and the plan follows.
///
/// ```
/// use upload_planner::{best_plan, contents, written, Aim, Header, Order, Refusal};
///
/// let header = Header {
///     units: 2,
///     delay: 1,
///     decoder: 4,
///     bucket: 3,
///     drain: 2,
///     level: 0,
///     fill: 0,
///     rates: 3,
///     choices: 2,
///     second: None,
/// };
/// let job = written(&header, &[0, 2, 4], &[4, 2, 5, 2], &[10, 30, 12, 40])?;
///
/// let mut held = contents(&job)?;
/// assert_eq!(held.header, header);
/// assert_eq!(held.rates, [0, 2, 4]);
/// assert_eq!(held.sizes, [4, 2, 5, 2]);
/// assert_eq!(held.distortions, [10, 30, 12, 40]);
/// assert_eq!(held.job()?, job);
///
/// // Unit 2 takes five grains at choice 0, and loses 12; there is no unit 3.
/// assert_eq!(held.coding(2, 0), Some((5, 12)));
/// assert_eq!((held.coding(2, 2), held.coding(3, 0)), (None, None));
///
/// // Unit 1 at its second choice is better than was thought.
/// held.distortions[1] = 5;
/// let best = best_plan(&held.job()?, &[], Aim::Total, Order::Early)?;
/// assert_eq!(best.totals.distortion, 5 + 40);
///
/// // The last byte is missing.
/// assert_eq!(contents(&job[..63]), Err(Refusal::Cut));
/// # Ok::<(), Refusal>(())
/// ```
pub fn contents(job: &[u8]) -> Result<Contents, Refusal> {
    contents_with(numbers::read, job)
}

/// [`read_archive`] with lists of its own, as long as the job needs.
///
/// # Errors
///
/// Numbers 1 to 5.
///
/// # Examples
///
/// The drain of a stored job was typed as 0 for a line without a limit. The job is mended with
/// the largest drain there is.
///
/// ```
/// use upload_planner::{archived_contents, contents, open, written, Header, Refusal};
///
/// let header = Header {
///     units: 2,
///     delay: 1,
///     decoder: 4,
///     bucket: 3,
///     drain: 2,
///     level: 0,
///     fill: 0,
///     rates: 3,
///     choices: 2,
///     second: None,
/// };
/// let mut job = written(&header, &[0, 2, 4], &[4, 2, 5, 2], &[10, 30, 12, 40])?;
/// assert_eq!(archived_contents(&job), contents(&job));
///
/// // The drain stands in bytes 12 and 13.
/// job[12] = 0;
/// assert_eq!(contents(&job), Err(Refusal::NeverDrains));
/// let mut held = archived_contents(&job)?;
/// assert_eq!(held.header, Header { drain: 0, ..header });
///
/// // As it is it is not written again.
/// assert_eq!(held.job(), Err(Refusal::NeverDrains));
/// held.header.drain = 4_095;
/// assert!(open(&held.job()?).is_ok());
/// # Ok::<(), Refusal>(())
/// ```
pub fn archived_contents(job: &[u8]) -> Result<Contents, Refusal> {
    contents_with(numbers::read_archive, job)
}

/// Writes the bytes of a trial job and says how many they are: [`Header::job_bytes`]. It
/// is a job with this header, whose rates, sizes and distortions are drawn from a starting
/// state. The same header and state give the same bytes on every machine, and what is
/// written opens.
///
/// - `state`: any number. A draw replaces it by state × 1,664,525 + 1,013,904,223, of
///   which the lowest 32 bits are kept, and is the new state divided by 65,536, rounded
///   down.
/// - `job`: the records of the header, of the rates and of each unit are written. The
///   first rate is a draw modulo 4, and each later one the rate before it plus 1 plus a
///   draw modulo 4. Then for each choice of each unit in turn the grains are a draw modulo
///   64, and the distortion is the draw after it.
///
/// So no rate is over 63, no size over 63 and no distortion over 65,535. Whether there is
/// a plan is chance: a unit may take more at each of its choices than the decoder holds.
///
/// # Errors
///
/// In this order: 3, then 17 for the header; 12 where `job` is too short.
pub fn trial(header: &Header, state: u32, job: &mut [u8]) -> Result<usize, Refusal> {
    let mut values = [0; numbers::WRITE_VALUES];
    checked(numbers::trial(&header.numbers(), state, job, &mut values))?;
    Ok(values[0] as usize)
}

/// [`trial`] with a list of its own, as long as the job needs.
///
/// # Errors
///
/// Number 3, then 17 for the header.
///
/// # Examples
///
/// The first eleven draws from state 5 are 15,597, 47,977, 15,930, 55,898, 46,950, 23,616,
/// 32,696, 14,470, 3,365, 56,953 and 4,283. Modulo 4 the first three are 1, 1 and 2, so that
/// the rates are 1, 1 + 1 + 1 and 3 + 1 + 2. The fourth is 26 modulo 64, the grains of the
/// first choice, and the fifth is its distortion; so on for the other three.
///
/// ```
/// use upload_planner::{best_plan, trial_job, written, Aim, Header, Order, Refusal};
///
/// let header = Header {
///     units: 2,
///     delay: 0,
///     decoder: 8,
///     bucket: 8,
///     drain: 4,
///     level: 0,
///     fill: 0,
///     rates: 3,
///     choices: 2,
///     second: None,
/// };
/// let job = trial_job(&header, 5)?;
/// let (rates, sizes) = ([1, 3, 6], [26, 0, 6, 57]);
/// assert_eq!(job, written(&header, &rates, &sizes, &[46_950, 32_696, 3_365, 4_283])?);
///
/// // Unit 1 takes nothing at its second choice, unit 2 takes six grains at its first.
/// let early = best_plan(&job, &[], Aim::Total, Order::Early)?;
/// assert_eq!(early.totals.distortion, 32_696 + 3_365);
/// assert_eq!(early.entries, [2, 1, 0, 0, 0, 0]);
/// let late = best_plan(&job, &[], Aim::Total, Order::Late)?;
/// assert_eq!(late.entries, [0, 1, 0, 2, 0, 0]);
///
/// // From state 0 unit 1 takes 57 grains or 46, and the decoder holds eight.
/// let job = trial_job(&header, 0)?;
/// let sizes = [57, 46, 25, 48];
/// assert_eq!(job, written(&header, &[2, 3, 4], &sizes, &[25_170, 22_526, 33_277, 52_214])?);
/// let best = best_plan(&job, &[], Aim::Total, Order::Early);
/// assert_eq!(best, Err(Refusal::NoPlan));
///
/// // The line is to drain.
/// let never = Header { drain: 0, ..header };
/// assert_eq!(trial_job(&never, 5), Err(Refusal::NeverDrains));
/// # Ok::<(), Refusal>(())
/// ```
pub fn trial_job(header: &Header, state: u32) -> Result<Vec<u8>, Refusal> {
    // As in `written`, a header out of range is refused, however long the list.
    let mut job = vec![0; header.job_bytes().min(LARGEST_JOB)];
    trial(header, state, &mut job)?;
    Ok(job)
}
