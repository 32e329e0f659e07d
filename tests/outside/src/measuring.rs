//! The judgement of a sample by its measurements (paper 02, card 2) against the reference: random samples near the edges of the criteria,
//! and every number at both sides of each end of its range, all of them together. What was met is counted; a test that no longer meets
//! some of it has gone blind, and fails.

use crate::random_samples::samples;
use crate::{said, Done, Setting};
use outside::{at, judge};
use reference::{ill_matched, out_of_range, Judgement, Moments, Random, Sample};
use std::cmp::Ordering::{self, Equal, Greater, Less};
use std::collections::BTreeMap;

const LISTS: u64 = 8;
/// So many samples are a list.
const SAMPLES: usize = 15_000;
/// So often, for each list, every state has to be met.
const OFTEN: u64 = 20;

/// What an accepted sample can meet.
const STATES: [&str; 59] = [
    "upper limit alone: k met",
    "upper limit alone: k at equality",
    "upper limit alone: k not met",
    "upper limit alone: mean beyond it",
    "lower limit alone: k met",
    "lower limit alone: k at equality",
    "lower limit alone: k not met",
    "lower limit alone: mean beyond it",
    "two limits: k met by both",
    "two limits: k not met by the upper alone",
    "two limits: k not met by the lower alone",
    "two limits: k met by neither",
    "two limits: upper at equality",
    "two limits: lower at equality",
    "two limits: mean beyond the upper",
    "two limits: mean beyond the lower",
    "k met, not one hundredth more",
    "k not met, but one hundredth less",
    "k one hundredth below equality",
    "k one hundredth above equality",
    "k 1 met",
    "k 1 not met",
    "k 1,000 met",
    "k 1,000 not met",
    "F met",
    "F at equality",
    "F not met",
    "F met, not one thousandth less",
    "F not met, but one thousandth more",
    "F one thousandth above equality",
    "F one thousandth below equality",
    "F 1 met",
    "F 1 not met",
    "F 1,000 met",
    "F 1,000 not met",
    "k at equality and F at equality",
    "k met, F not met",
    "k not met, F met",
    "all three met",
    "none of the three met",
    "s = 0: mean inside",
    "s = 0: mean on the limit",
    "s = 0: mean beyond the limit",
    "s above 0: mean on the upper limit",
    "s above 0: mean on the lower limit",
    "one outside",
    "all outside",
    "none outside, k not met",
    "some outside, k met",
    "on the upper limit, none outside",
    "on the lower limit, none outside",
    "next to the upper limit, outside",
    "next to the lower limit, outside",
    "n 2",
    "n 100",
    "n 100, k at equality",
    "n 100, F at equality",
    "n 100, half of them -4,000 and half 4,000: k from 760 on",
    "the farthest distance from a limit",
];

/// Both sides of each end of card 2's ranges, the 32-bit numbers' own ends, and what is absent.
const LENGTHS: [usize; 5] = [0, 1, 2, 100, 101];
const LEVELS: [i32; 7] = [i32::MIN, -4_001, -4_000, 0, 4_000, 4_001, i32::MAX];
const FACTORS: [u32; 5] = [0, 1, 1_000, 1_001, u32::MAX];
/// What each alone can refuse a sample, and at last both kinds together.
const REASONS: [&str; 11] = [
    "n",
    "a measurement",
    "the lower limit",
    "the upper limit",
    "k",
    "F",
    "no limit",
    "L not below U",
    "F with one limit",
    "no F with two limits",
    "18 before 19",
];

pub fn test(setting: &Setting) -> Result<Done, String> {
    let seeds = setting.seeds(LISTS);
    let (mut judged, mut reach) = (0, Reach::of(&STATES));
    for seed in seeds.clone() {
        let mut random = Random::new(seed);
        for k in 1..=SAMPLES {
            for sample in samples(&mut random) {
                at(|| format!("seed {seed}, sample {k}"), near_an_edge(&sample, &mut reach))?;
                judged += 1;
            }
        }
    }
    let lists = seeds.end - seeds.start;
    let rarest = reach.complete(OFTEN * lists)?;
    let (at_ends, refused) = at_the_ends(setting.seed)?;
    let mut what = format!(
        "{} samples judged {judged} times, each also mirrored at 0, {}: all {} states met, {rarest}; {at_ends} with numbers at both \
         sides of the ends of their ranges: accepted {} times, refused by 18 {} and by 19 {} times, for each reason alone",
        SAMPLES as u64 * lists,
        said(&seeds),
        STATES.len(),
        refused[0],
        refused[1],
        refused[2],
    );
    if setting.reach {
        what.push_str(&reach.table());
    }
    Ok(Done {
        calls: 2 * judged + at_ends,
        what,
    })
}

/// The library's judgement is the reference's, which is given.
fn agrees(sample: &Sample) -> Result<Judgement, String> {
    let (ours, theirs) = (judge(sample), reference::judge(sample));
    if ours == theirs {
        return Ok(ours);
    }
    Err(format!("{sample:?}: {ours:?}, expected {theirs:?}"))
}

fn near_an_edge(sample: &Sample, reach: &mut Reach) -> Result<(), String> {
    let judged = agrees(sample)?;
    if judged.refusal != 0 {
        return Err(format!("{sample:?}: refused by {}", judged.refusal));
    }
    mirrored(sample, &judged)?;
    reach.see(&met(sample, &judged));
    Ok(())
}

/// What needs no second implementation: mirrored at 0 and in the other order, a sample is judged alike, with its limits exchanged.
fn mirrored(sample: &Sample, judged: &Judgement) -> Result<(), String> {
    let mirror = |limit: Option<i32>| limit.map(|limit| -limit);
    let sample = Sample {
        values: sample.values.iter().rev().map(|value| -value).collect(),
        lower: mirror(sample.upper),
        upper: mirror(sample.lower),
        ..*sample
    };
    let expected = Judgement {
        to_upper: judged.to_lower,
        to_lower: judged.to_upper,
        ..*judged
    };
    let is = judge(&sample);
    if is != expected {
        return Err(format!("{sample:?}: {is:?}, which mirrored is {expected:?}"));
    }
    Ok(())
}

/// Every number at both sides of the ends of its range, with all the others; gives how many samples there were, and how many of them were
/// accepted, refused by 18 and refused by 19.
fn at_the_ends(seed: u64) -> Result<(usize, [u64; 3]), String> {
    let mut random = Random::new(seed);
    let (mut samples, mut refused, mut reach) = (0, [0; 3], Reach::of(&REASONS));
    for_each_at_the_ends(&mut random, |sample| {
        let judged = agrees(sample)?;
        let (eighteen, nineteen) = (out_of_range(sample), ill_matched(sample));
        match (&eighteen[..], &nineteen[..]) {
            ([reason], []) | ([], [reason]) => reach.see(&[reason]),
            ([_, ..], [_, ..]) => reach.see(&["18 before 19"]),
            _ => {}
        }
        samples += 1;
        let which = [0, 18, 19].iter().position(|refusal| *refusal == judged.refusal);
        refused[which.ok_or(format!("{sample:?}: refused by {}", judged.refusal))?] += 1;
        Ok(())
    })?;
    reach.complete(1)?;
    match refused.contains(&0) {
        true => Err(format!("too little was met: accepted, by 18, by 19: {refused:?}")),
        false => Ok((samples, refused)),
    }
}

/// A measurement at an end stands anywhere among others that are in range.
fn for_each_at_the_ends(random: &mut Random, mut take: impl FnMut(&Sample) -> Result<(), String>) -> Result<(), String> {
    let limits: Vec<Option<i32>> = [None].into_iter().chain(LEVELS.map(Some)).collect();
    let factors: Vec<Option<u32>> = [None].into_iter().chain(FACTORS.map(Some)).collect();
    for (n, value) in LENGTHS.iter().flat_map(|n| LEVELS.map(|value| (*n, value))) {
        for (lower, upper) in limits.iter().flat_map(|lower| limits.iter().map(|upper| (*lower, *upper))) {
            for (k, f) in FACTORS.iter().flat_map(|k| factors.iter().map(|f| (*k, *f))) {
                let mut values: Vec<i32> = (0..n as i32).collect();
                if n > 0 {
                    values[random.below(n)] = value;
                }
                let sample = Sample {
                    values,
                    lower,
                    upper,
                    k,
                    f,
                };
                take(&sample)?;
            }
        }
    }
    Ok(())
}

/// How often each of some states was met.
struct Reach {
    counts: BTreeMap<&'static str, u64>,
}

impl Reach {
    fn of(states: &[&'static str]) -> Self {
        Reach {
            counts: states.iter().map(|state| (*state, 0)).collect(),
        }
    }

    fn see(&mut self, states: &[&'static str]) {
        for state in states {
            *self.counts.get_mut(state).expect("a listed state") += 1;
        }
    }

    /// Gives the rarest state in words; an error where it was met less than so often.
    fn complete(&self, often: u64) -> Result<String, String> {
        let (state, count) = self.counts.iter().min_by_key(|(_, count)| **count).expect("states");
        if *count < often {
            return Err(format!("met {count} times, not {often}: {state}"));
        }
        Ok(format!("the rarest ({state}) {count} times"))
    }

    fn table(&self) -> String {
        let lines = STATES.iter().map(|state| format!("\n    {} {state}", self.counts[state]));
        lines.collect()
    }
}

/// What an accepted sample has met.
fn met(sample: &Sample, judged: &Judgement) -> Vec<&'static str> {
    let moments = Moments::of(&sample.values);
    let seen = Seen { sample, judged, moments };
    let known = [
        seen.one_limit(),
        seen.two_limits(),
        seen.k(),
        seen.f(),
        seen.together(),
        seen.without_spread(),
        seen.items(),
        seen.size(),
    ];
    let known = known.into_iter().flatten();
    known.filter(|(is, _)| *is).map(|(_, state)| state).collect()
}

struct Seen<'a> {
    sample: &'a Sample,
    judged: &'a Judgement,
    moments: Moments,
}

type States = Vec<(bool, &'static str)>;

impl Seen<'_> {
    /// Each given limit's quality index against k, the upper one first.
    fn indices(&self) -> [Option<Ordering>; 2] {
        [self.moments.upper_index(self.sample), self.moments.lower_index(self.sample)]
    }

    /// The quality index, the least of those, against a k, which need not be in range.
    fn index(&self, k: u32) -> Ordering {
        let sample = self.with(k, self.sample.f);
        let indices = [self.moments.upper_index(&sample), self.moments.lower_index(&sample)];
        indices.into_iter().flatten().min().expect("a limit")
    }

    fn f_value(&self, f: u32) -> Ordering {
        self.moments.f_value(&self.with(self.sample.k, Some(f))).expect("two limits")
    }

    /// The same limits with another k and F. The moments are those of the measurements, which are left out.
    fn with(&self, k: u32, f: Option<u32>) -> Sample {
        Sample {
            values: Vec::new(),
            k,
            f,
            ..*self.sample
        }
    }

    fn one_limit(&self) -> States {
        let judged = self.judged;
        match self.indices() {
            [Some(upper), None] => vec![
                (upper == Greater, "upper limit alone: k met"),
                (upper == Equal, "upper limit alone: k at equality"),
                (upper == Less && judged.to_upper >= 0, "upper limit alone: k not met"),
                (judged.to_upper < 0, "upper limit alone: mean beyond it"),
            ],
            [None, Some(lower)] => vec![
                (lower == Greater, "lower limit alone: k met"),
                (lower == Equal, "lower limit alone: k at equality"),
                (lower == Less && judged.to_lower >= 0, "lower limit alone: k not met"),
                (judged.to_lower < 0, "lower limit alone: mean beyond it"),
            ],
            _ => vec![],
        }
    }

    fn two_limits(&self) -> States {
        let [Some(upper), Some(lower)] = self.indices() else {
            return vec![];
        };
        let within = self.judged.to_upper >= 0 && self.judged.to_lower >= 0;
        vec![
            (upper == Greater && lower == Greater, "two limits: k met by both"),
            (
                within && upper == Less && lower != Less,
                "two limits: k not met by the upper alone",
            ),
            (
                within && upper != Less && lower == Less,
                "two limits: k not met by the lower alone",
            ),
            (within && upper == Less && lower == Less, "two limits: k met by neither"),
            (upper == Equal && lower != Less, "two limits: upper at equality"),
            (lower == Equal && upper != Less, "two limits: lower at equality"),
            (self.judged.to_upper < 0, "two limits: mean beyond the upper"),
            (self.judged.to_lower < 0, "two limits: mean beyond the lower"),
        ]
    }

    fn k(&self) -> States {
        let (k, met) = (self.sample.k, self.judged.k_met);
        let (less, more) = (self.index(k - 1), self.index(k + 1));
        vec![
            (met && more == Less, "k met, not one hundredth more"),
            (!met && less != Less, "k not met, but one hundredth less"),
            (more == Equal, "k one hundredth below equality"),
            (less == Equal, "k one hundredth above equality"),
            (k == 1 && met, "k 1 met"),
            (k == 1 && !met, "k 1 not met"),
            (k == 1_000 && met, "k 1,000 met"),
            (k == 1_000 && !met, "k 1,000 not met"),
        ]
    }

    fn f(&self) -> States {
        let Some(f) = self.sample.f else {
            return vec![];
        };
        let met = self.judged.f_met;
        let (less, same, more) = (self.f_value(f - 1), self.f_value(f), self.f_value(f + 1));
        vec![
            (same == Less, "F met"),
            (same == Equal, "F at equality"),
            (same == Greater, "F not met"),
            (met && less == Greater, "F met, not one thousandth less"),
            (!met && more != Greater, "F not met, but one thousandth more"),
            (less == Equal, "F one thousandth above equality"),
            (more == Equal, "F one thousandth below equality"),
            (f == 1 && met, "F 1 met"),
            (f == 1 && !met, "F 1 not met"),
            (f == 1_000 && met, "F 1,000 met"),
            (f == 1_000 && !met, "F 1,000 not met"),
        ]
    }

    fn together(&self) -> States {
        let Some(f) = self.sample.f else {
            return vec![];
        };
        let (k_at_equality, f_at_equality) = (self.index(self.sample.k) == Equal, self.f_value(f) == Equal);
        let Judgement {
            none_outside,
            k_met,
            f_met,
            ..
        } = *self.judged;
        vec![
            (k_at_equality && f_at_equality, "k at equality and F at equality"),
            (k_met && !f_met, "k met, F not met"),
            (!k_met && f_met, "k not met, F met"),
            (none_outside && k_met && f_met, "all three met"),
            (!none_outside && !k_met && !f_met, "none of the three met"),
            (self.sample.values.len() == 100 && f_at_equality, "n 100, F at equality"),
        ]
    }

    fn without_spread(&self) -> States {
        let on_upper = self.sample.upper.is_some() && self.judged.to_upper == 0;
        let on_lower = self.sample.lower.is_some() && self.judged.to_lower == 0;
        let beyond = self.judged.to_upper < 0 || self.judged.to_lower < 0;
        if self.moments.has_no_spread() {
            return vec![
                (!beyond && !on_upper && !on_lower, "s = 0: mean inside"),
                (on_upper || on_lower, "s = 0: mean on the limit"),
                (beyond, "s = 0: mean beyond the limit"),
            ];
        }
        vec![
            (on_upper, "s above 0: mean on the upper limit"),
            (on_lower, "s above 0: mean on the lower limit"),
        ]
    }

    fn items(&self) -> States {
        let Sample {
            values, lower, upper, ..
        } = self.sample;
        let has = |value: Option<i32>| value.is_some_and(|value| values.contains(&value));
        let (none, k_met) = (self.judged.none_outside, self.judged.k_met);
        vec![
            (self.judged.outside == 1, "one outside"),
            (self.judged.outside as usize == values.len(), "all outside"),
            (none && !k_met, "none outside, k not met"),
            (!none && k_met, "some outside, k met"),
            (none && has(*upper), "on the upper limit, none outside"),
            (none && has(*lower), "on the lower limit, none outside"),
            (has(upper.map(|upper| upper + 1)), "next to the upper limit, outside"),
            (has(lower.map(|lower| lower - 1)), "next to the lower limit, outside"),
        ]
    }

    fn size(&self) -> States {
        let Sample { values, k, .. } = self.sample;
        let n = values.len();
        let half = |end: i32| values.iter().filter(|value| **value == end).count() == 50;
        let halves = n == 100 && half(-4_000) && half(4_000);
        let farthest = [self.judged.to_upper, self.judged.to_lower].contains(&800_000);
        vec![
            (n == 2, "n 2"),
            (n == 100, "n 100"),
            (n == 100 && self.index(*k) == Equal, "n 100, k at equality"),
            (
                halves && *k >= 760,
                "n 100, half of them -4,000 and half 4,000: k from 760 on",
            ),
            (farthest, "the farthest distance from a limit"),
        ]
    }
}
