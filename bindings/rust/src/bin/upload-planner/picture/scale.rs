//! From numbers to places: up and down by a value, across by an interval.

use super::svg::Tenths;

/// The least distance between two lines of a scale.
const LINES: Tenths = 240;

/// The same where lines are at 1, 2, 5 and so on, which need be no closer to be read.
const CLOSE_LINES: Tenths = 150;

/// The least distance between two numbers of the axis across.
const NUMBERS: Tenths = 360;

/// Bars of a lesser distance are joined.
const WIDE: Tenths = 30;

/// The height that the value 0 has to itself on a logarithmic scale.
const ZERO: Tenths = 160;

/// From the least value to the frame, so that a line at 0 is not taken for the frame.
const MARGIN: Tenths = 50;

/// How the values of a panel are spread over its height.
pub struct Scale {
    top: Tenths,
    bottom: Tenths,
    least: u32,
    greatest: u32,
    /// No value is over this one, so that no line is either.
    last: u32,
    kind: Kind,
}

#[derive(Clone, Copy)]
enum Kind {
    /// Equal differences are equally far apart.
    Linear,
    /// Equal ratios are, and 0 has a place of its own if it is there.
    Logarithmic { zero: bool },
}

impl Scale {
    /// From 0 at the bottom to somewhat over the last value.
    pub fn from_zero(top: Tenths, bottom: Tenths, last: u32) -> Scale {
        let greatest = last + last.div_ceil(10).max(1);
        Scale { top, bottom, least: 0, greatest, last, kind: Kind::Linear }
    }

    /// From the least of the values, at the bottom, to somewhat over the greatest.
    pub fn from_least(top: Tenths, bottom: Tenths, values: &[u32]) -> Scale {
        let least = values.iter().copied().min().unwrap_or(0);
        let last = values.iter().copied().max().unwrap_or(0);
        let greatest = last + (last - least).div_ceil(10).max(1);
        Scale { top, bottom, least, greatest, last, kind: Kind::Linear }
    }

    /// By ratios, between two of the numbers 1, 2, 5, 10, 20 and so on. Where 0 is among the values
    /// it has its place at the foot; the scale then begins far enough below the greatest value for
    /// this one to stand high. Under ten there is no such number, and differences are shown.
    pub fn logarithmic(top: Tenths, bottom: Tenths, values: &[u32]) -> Scale {
        let zero = values.contains(&0);
        let most = values.iter().copied().max().unwrap_or(0);
        if zero && most < 10 {
            return Scale::from_zero(top, bottom, most.max(1));
        }
        let least = values.iter().copied().filter(|value| *value > 0).min().unwrap_or(1);
        let least = if zero {
            decade(least).min(decade(most) / 10)
        } else {
            round_numbers().take_while(|number| *number <= least).last().unwrap_or(1)
        };
        let greatest = round_numbers().find(|number| *number >= most && *number > least);
        let greatest = greatest.expect("the largest round number is over every distortion");
        Scale { top, bottom, least, greatest, last: greatest, kind: Kind::Logarithmic { zero } }
    }

    /// What a reader has to know of the scale, to stand behind the name of the panel.
    pub fn remark(&self) -> &'static str {
        match self.kind {
            Kind::Logarithmic { zero: true } => " (logarithmic, 0 at the foot)",
            Kind::Logarithmic { zero: false } => " (logarithmic)",
            Kind::Linear if self.least > 0 => " (axis not from 0)",
            Kind::Linear => "",
        }
    }

    /// Where a value stands; one that is off the scale stands at its end.
    pub fn place(&self, value: u32) -> Tenths {
        let measure = |value| match self.kind {
            Kind::Linear => i64::from(value),
            Kind::Logarithmic { .. } => logarithm(value),
        };
        match (self.kind, value) {
            (Kind::Logarithmic { zero: true }, 0) => self.base(),
            _ => {
                let value = value.clamp(self.least, self.greatest);
                let [from, at, to] = [self.least, value, self.greatest].map(measure);
                self.foot() - rounded((at - from) * (self.foot() - self.top), to - from)
            }
        }
    }

    /// Where bars begin.
    pub fn base(&self) -> Tenths {
        self.bottom - MARGIN
    }

    /// Where the least value stands, 0 of a logarithmic scale aside.
    fn foot(&self) -> Tenths {
        match self.kind {
            Kind::Logarithmic { zero: true } => self.base() - ZERO,
            _ => self.base(),
        }
    }

    /// The values that have a line.
    pub fn lines(&self) -> Vec<u32> {
        match self.kind {
            Kind::Linear => self.linear_lines(),
            Kind::Logarithmic { zero } => self.logarithmic_lines(zero),
        }
    }

    fn linear_lines(&self) -> Vec<u32> {
        let range = u64::from(self.greatest - self.least);
        let step = step(range, self.foot() - self.top, LINES);
        let first = self.least.div_ceil(step) * step;
        (first..=self.last).step_by(step as usize).collect()
    }

    /// The round numbers, or of very many the powers of ten, and 0 where it has its place.
    fn logarithmic_lines(&self, zero: bool) -> Vec<u32> {
        let within = |number: &u32| (self.least..=self.greatest).contains(number);
        let all: Vec<u32> = round_numbers().filter(within).collect();
        let far = all.len() as Tenths * CLOSE_LINES <= self.foot() - self.top;
        let kept = all.into_iter().filter(|number| far || is_power_of_ten(*number));
        zero.then_some(0).into_iter().chain(kept).collect()
    }

    /// The upper end.
    pub fn top(&self) -> Tenths {
        self.top
    }

    /// The lower end.
    pub fn bottom(&self) -> Tenths {
        self.bottom
    }

    /// Whether a value is on the scale.
    pub fn holds(&self, value: u32) -> bool {
        value <= self.greatest
    }
}

/// How a count of intervals, or of other things that follow each other, is spread over a width.
#[derive(Clone, Copy)]
pub struct Across {
    /// Where the first begins.
    pub left: Tenths,
    /// Where the last ends.
    pub right: Tenths,
    /// How many there are.
    pub count: usize,
}

impl Across {
    /// Where interval t ends, or for 0 where the first begins.
    pub fn end(&self, t: usize) -> Tenths {
        self.left + rounded(t as i64 * (self.right - self.left), self.count as i64)
    }

    /// The middle of interval t.
    pub fn middle(&self, t: usize) -> Tenths {
        (self.end(t - 1) + self.end(t)) / 2
    }

    /// Whether bars can be told apart.
    pub fn is_wide(&self) -> bool {
        self.right - self.left >= WIDE * self.count as Tenths
    }

    /// The round numbers from a first one to a last one that are far enough apart to be written.
    pub fn numbers(&self, first: usize, last: usize) -> Vec<usize> {
        let step = step(self.count as u64, self.right - self.left, NUMBERS) as usize;
        let next = (first / step + 1) * step;
        // The first number is written too, unless the next stands close behind it.
        let apart = 2 * (next - first) >= step;
        let first = apart.then_some(first).filter(|first| *first <= last);
        first.into_iter().chain((next..=last).step_by(step)).collect()
    }
}

/// The least of 1, 2, 5, 10, 20 and so on by which lines are far enough apart.
fn step(range: u64, length: Tenths, apart: Tenths) -> u32 {
    let is_far = |step: &u32| u64::from(*step) * length as u64 >= apart as u64 * range;
    round_numbers().find(is_far).unwrap_or(1_000_000_000)
}

/// 1, 2, 5, 10, 20 and so on, to 1,000,000,000.
fn round_numbers() -> impl Iterator<Item = u32> {
    let powers = (0..9).map(|power| 10_u32.pow(power));
    powers.flat_map(|power| [power, 2 * power, 5 * power]).chain([1_000_000_000])
}

fn is_power_of_ten(number: u32) -> bool {
    decade(number) == number
}

/// The greatest power of ten up to a number from 1 on.
fn decade(number: u32) -> u32 {
    10_u32.pow(number.ilog10())
}

/// A quotient of numbers from 0 on, to the nearest whole number, halves up.
fn rounded(dividend: i64, divisor: i64) -> i64 {
    (2 * dividend + divisor) / (2 * divisor)
}

/// The logarithm to base 2 of a number from 1 on, in parts of 65,536. It is worked out in whole
/// numbers, since the logarithms of two machines may differ in their last place.
fn logarithm(number: u32) -> i64 {
    let whole = number.ilog2();
    // The number as a power of 2 times this, which is from 1 to 2, in parts of 2^31.
    let mut part = u64::from(number) << (31 - whole);
    let mut logarithm = i64::from(whole);
    for _ in 0..16 {
        part = part * part >> 31;
        let bit = part >> 32;
        part >>= bit;
        logarithm = 2 * logarithm + bit as i64;
    }
    logarithm
}
