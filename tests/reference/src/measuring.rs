//! Paper 02, card 2: a sample judged by its measurements, with the k and F criteria of document 000, 5.1.2.3.4, as Tables D.2 and D.3
//! work them out: mean, variance, quality indices, the sample's F value. All of it is in exact fractions. In place of a root the square of
//! a quantity is compared, and its sign by itself.

use std::cmp::Ordering;
use std::ops::{Add, Div, Mul, RangeInclusive, Sub};

/// What is judged: the measurements, the limits that are given, k in hundredths, and F in thousandths where it is given.
#[derive(Clone, Debug, PartialEq, Eq)]
pub struct Sample {
    pub values: Vec<i32>,
    pub lower: Option<i32>,
    pub upper: Option<i32>,
    pub k: u32,
    pub f: Option<u32>,
}

/// "A refusal gives zeros and no for each", which is the default with its refusal number.
#[derive(Clone, Copy, Debug, Default, PartialEq, Eq)]
pub struct Judgement {
    pub refusal: u32,
    pub outside: u32,
    pub to_upper: i32,
    pub to_lower: i32,
    pub none_outside: bool,
    pub k_met: bool,
    pub f_met: bool,
}

/// Card 2's ranges.
const MEASUREMENTS: RangeInclusive<usize> = 2..=100;
const LEVELS: RangeInclusive<i32> = -4_000..=4_000;
const K: RangeInclusive<u32> = 1..=1_000;
const F: RangeInclusive<u32> = 1..=1_000;

pub fn judge(sample: &Sample) -> Judgement {
    if !out_of_range(sample).is_empty() {
        return refused(18);
    }
    if !ill_matched(sample).is_empty() {
        return refused(19);
    }
    let outside = sample.values.iter().filter(|value| is_outside(sample, **value)).count() as u32;
    let moments = Moments::of(&sample.values);
    Judgement {
        refusal: 0,
        outside,
        // each measurement's own distance, all of them together
        to_upper: sample
            .upper
            .map_or(0, |upper| sample.values.iter().map(|value| upper - value).sum()),
        to_lower: sample
            .lower
            .map_or(0, |lower| sample.values.iter().map(|value| value - lower).sum()),
        none_outside: outside == 0,
        k_met: moments.upper_index(sample) != Some(Ordering::Less) && moments.lower_index(sample) != Some(Ordering::Less),
        f_met: moments.f_value(sample) != Some(Ordering::Greater),
    }
}

fn refused(refusal: u32) -> Judgement {
    Judgement {
        refusal,
        ..Judgement::default()
    }
}

/// What is out of range, and so refused by 18.
pub fn out_of_range(sample: &Sample) -> Vec<&'static str> {
    let beyond = |limit: Option<i32>| limit.is_some_and(|limit| !LEVELS.contains(&limit));
    reasons([
        (!MEASUREMENTS.contains(&sample.values.len()), "n"),
        (!sample.values.iter().all(|value| LEVELS.contains(value)), "a measurement"),
        (beyond(sample.lower), "the lower limit"),
        (beyond(sample.upper), "the upper limit"),
        (!K.contains(&sample.k), "k"),
        (sample.f.is_some_and(|f| !F.contains(&f)), "F"),
    ])
}

/// What does not go together, and so is refused by 19.
pub fn ill_matched(sample: &Sample) -> Vec<&'static str> {
    let (lower, upper) = (sample.lower, sample.upper);
    let limits = [lower, upper].iter().flatten().count();
    reasons([
        (limits == 0, "no limit"),
        (limits == 2 && lower >= upper, "L not below U"),
        (limits == 1 && sample.f.is_some(), "F with one limit"),
        (limits == 2 && sample.f.is_none(), "no F with two limits"),
    ])
}

fn reasons<const N: usize>(known: [(bool, &'static str); N]) -> Vec<&'static str> {
    let those = known.into_iter().filter(|(applies, _)| *applies);
    those.map(|(_, reason)| reason).collect()
}

/// A limit itself is inside: a nonconforming item lies beyond it.
fn is_outside(sample: &Sample, value: i32) -> bool {
    sample.lower.is_some_and(|lower| value < lower) || sample.upper.is_some_and(|upper| value > upper)
}

/// Mean and variance of measurements, Tables D.2 and D.3, lines 3 and 7.
pub struct Moments {
    mean: Fraction,
    /// The square of s.
    variance: Fraction,
}

impl Moments {
    /// Of two measurements or more.
    pub fn of(values: &[i32]) -> Self {
        let n = values.len() as i128;
        let values = || values.iter().map(|value| Fraction::whole(i128::from(*value)));
        let mean = sum(values()) / Fraction::whole(n);
        let variance = sum(values().map(|value| (value - mean).squared())) / Fraction::whole(n - 1);
        Moments { mean, variance }
    }

    /// (U - mean) / s against k; none where U is absent.
    pub fn upper_index(&self, sample: &Sample) -> Option<Ordering> {
        let upper = Fraction::whole(sample.upper?.into());
        Some(self.index(upper - self.mean, sample.k))
    }

    /// (mean - L) / s against k; none where L is absent.
    pub fn lower_index(&self, sample: &Sample) -> Option<Ordering> {
        let lower = Fraction::whole(sample.lower?.into());
        Some(self.index(self.mean - lower, sample.k))
    }

    /// A quality index against k, which is above 0. Where s is 0, the mean beyond the limit is below every k, and any other above.
    fn index(&self, distance: Fraction, k: u32) -> Ordering {
        if distance < Fraction::whole(0) {
            return Ordering::Less;
        }
        if self.has_no_spread() {
            return Ordering::Greater;
        }
        let k = Fraction::new(k.into(), 100);
        (distance.squared() / self.variance).cmp(&k.squared())
    }

    /// s / (U - L) against F, where both limits are given with L below U, and F.
    pub fn f_value(&self, sample: &Sample) -> Option<Ordering> {
        let width = Fraction::whole((sample.upper? - sample.lower?).into());
        let f = Fraction::new(sample.f?.into(), 1_000);
        Some((self.variance / width.squared()).cmp(&f.squared()))
    }

    /// Whether s is 0.
    pub fn has_no_spread(&self) -> bool {
        self.variance == Fraction::whole(0)
    }
}

fn sum(fractions: impl Iterator<Item = Fraction>) -> Fraction {
    fractions.fold(Fraction::whole(0), |sum, next| sum + next)
}

/// A fraction in its lowest terms, its bottom above 0.
#[derive(Clone, Copy, Debug, PartialEq, Eq)]
struct Fraction {
    top: i128,
    bottom: i128,
}

impl Fraction {
    fn new(top: i128, bottom: i128) -> Self {
        assert!(bottom != 0, "a fraction over 0");
        let divisor = common_divisor(top.abs(), bottom.abs()) * bottom.signum();
        Fraction {
            top: top / divisor,
            bottom: bottom / divisor,
        }
    }

    fn whole(number: i128) -> Self {
        Fraction { top: number, bottom: 1 }
    }

    fn squared(self) -> Self {
        self * self
    }
}

/// The greatest common divisor of two numbers, not both 0.
fn common_divisor(a: i128, b: i128) -> i128 {
    if b == 0 {
        a
    } else {
        common_divisor(b, a % b)
    }
}

impl Add for Fraction {
    type Output = Fraction;
    fn add(self, other: Fraction) -> Fraction {
        Fraction::new(self.top * other.bottom + other.top * self.bottom, self.bottom * other.bottom)
    }
}

impl Sub for Fraction {
    type Output = Fraction;
    fn sub(self, other: Fraction) -> Fraction {
        Fraction::new(self.top * other.bottom - other.top * self.bottom, self.bottom * other.bottom)
    }
}

impl Mul for Fraction {
    type Output = Fraction;
    fn mul(self, other: Fraction) -> Fraction {
        Fraction::new(self.top * other.top, self.bottom * other.bottom)
    }
}

impl Div for Fraction {
    type Output = Fraction;
    fn div(self, other: Fraction) -> Fraction {
        Fraction::new(self.top * other.bottom, self.bottom * other.top)
    }
}

impl Ord for Fraction {
    fn cmp(&self, other: &Fraction) -> Ordering {
        (*self - *other).top.cmp(&0)
    }
}

impl PartialOrd for Fraction {
    fn partial_cmp(&self, other: &Fraction) -> Option<Ordering> {
        Some(self.cmp(other))
    }
}
