//! Random samples for the judgement by measurement, near the edges of its criteria: k and F next to the sample's own quality index and F
//! value, samples whose index and value often are whole hundredths and thousandths, and measurements on the limits and next to them.
//! Floating-point numbers only choose here; what a sample gives is worked out elsewhere.

use reference::{Random, Sample};

/// The ends of card 2's ranges.
const LOWEST: i32 = -4_000;
const HIGHEST: i32 = 4_000;
const MOST: u32 = 1_000;
/// Standard deviations that go into most multiples of 100.
const EVEN: [i32; 14] = [1, 2, 4, 5, 8, 10, 20, 25, 40, 50, 80, 100, 200, 400];
/// F values, in thousandths, that go into 1,000.
const EVEN_F: [i32; 10] = [1, 20, 40, 50, 100, 125, 200, 250, 500, 1_000];

/// Measurements with limits, several times: with k and F just below their own index and value, at them and just above, and anywhere.
pub fn samples(random: &mut Random) -> Vec<Sample> {
    let values = measurements(random);
    let centre = Centre::of(&values);
    let (lower, upper) = limits(random, &values, &centre);
    let to_upper = upper.map(|upper| f64::from(upper) - centre.mean);
    let to_lower = lower.map(|lower| centre.mean - f64::from(lower));
    // the nearer limit has the smaller index; that of the other one has an edge, too
    let nearer = to_upper.unwrap_or(f64::MAX).min(to_lower.unwrap_or(f64::MAX));
    let distance = match (to_upper, to_lower) {
        (Some(above), Some(below)) if random.chance(1, 4) => above.max(below),
        _ => nearer,
    };
    let width = lower.zip(upper).map(|(lower, upper)| f64::from(upper - lower));
    let ks = about(random, 100.0 * distance / centre.s).into_iter();
    ks.map(|k| Sample {
        values: values.clone(),
        lower,
        upper,
        k,
        f: width.map(|width| {
            let among = about(random, 1_000.0 * centre.s / width);
            random.pick(&among)
        }),
    })
    .collect()
}

/// The four numbers about an edge, which may be no number where s is 0, and one anywhere; none out of range.
fn about(random: &mut Random, edge: f64) -> [u32; 5] {
    let below = edge.clamp(0.0, f64::from(MOST)) as u32;
    let anywhere = random.range(1, MOST);
    [below.saturating_sub(1), below, below + 1, below + 2, anywhere].map(|number| number.clamp(1, MOST))
}

struct Centre {
    mean: f64,
    s: f64,
}

impl Centre {
    fn of(values: &[i32]) -> Self {
        let n = values.len() as f64;
        let mean = values.iter().map(|value| f64::from(*value)).sum::<f64>() / n;
        let squares: f64 = values.iter().map(|value| (f64::from(*value) - mean).powi(2)).sum();
        Centre {
            mean,
            s: (squares / (n - 1.0)).sqrt(),
        }
    }
}

fn measurements(random: &mut Random) -> Vec<i32> {
    let mut values = match random.below(16) {
        0 => alike(random),
        1 => at_the_ends(random),
        2..=6 => three(random),
        7..=10 => one_apart(random),
        _ => scattered(random),
    };
    for last in (1..values.len()).rev() {
        values.swap(last, random.below(last + 1));
    }
    values
}

fn count(random: &mut Random) -> usize {
    let other = if random.chance(1, 8) {
        random.range(2, 100)
    } else {
        random.range(2, 12)
    };
    random.pick(&[2, 2, 3, 99, 100, other, other, other, other, other, other, other]) as usize
}

fn between(random: &mut Random, first: i32, last: i32) -> i32 {
    first + random.below((last - first) as usize + 1) as i32
}

/// s is 0.
fn alike(random: &mut Random) -> Vec<i32> {
    let any = between(random, LOWEST, HIGHEST);
    let value = random.pick(&[LOWEST, HIGHEST, 0, any, any, any]);
    let n = count(random);
    vec![value; random.pick(&[100, n, n])]
}

/// Each the lowest or the highest, in all proportions.
fn at_the_ends(random: &mut Random) -> Vec<i32> {
    let other = count(random);
    let n = random.pick(&[100, other]);
    let low = random.pick(&[n / 2, n / 2, 1, n - 1]);
    (0..n).map(|k| if k < low { LOWEST } else { HIGHEST }).collect()
}

/// m - s, m, m + s, whose standard deviation is s.
fn three(random: &mut Random) -> Vec<i32> {
    let any = between(random, 1, HIGHEST);
    let even = random.pick(&EVEN);
    let s = random.pick(&[any, even, even, even]);
    let m = between(random, LOWEST + s, HIGHEST - s);
    vec![m - s, m, m + s]
}

/// One of r x r measurements is r s away from the others, which are alike: the standard deviation is s.
fn one_apart(random: &mut Random) -> Vec<i32> {
    let root = random.pick(&[2, 2, 2, 3, 3, 4, 5, 10]);
    let s = random.pick(&EVEN);
    let others = between(random, LOWEST, HIGHEST - root * s);
    let mut values = vec![others; (root * root) as usize];
    values[0] += root * s;
    if random.chance(1, 2) {
        values.iter_mut().for_each(|value| *value = -*value);
    }
    values
}

/// Anywhere about a centre, not too far from it.
fn scattered(random: &mut Random) -> Vec<i32> {
    let centre = between(random, LOWEST, HIGHEST);
    let far = random.pick(&[1, 3, 10, 100, 1_000, 8_000]);
    let (first, last) = ((centre - far).max(LOWEST), (centre + far).min(HIGHEST));
    (0..count(random)).map(|_| between(random, first, last)).collect()
}

fn limits(random: &mut Random, values: &[i32], centre: &Centre) -> (Option<i32>, Option<i32>) {
    let upper = centre.mean + limit(random, values, centre.mean, centre.s);
    let lower = centre.mean - limit(random, values, centre.mean, centre.s);
    match random.below(5) {
        0 => (None, Some(within(upper, LOWEST))),
        1 => (Some(within(lower, LOWEST)), None),
        _ => {
            let upper = within(upper, LOWEST + 1);
            let even = (1_000.0 * centre.s / f64::from(random.pick(&EVEN_F))).round();
            let lower = if random.chance(1, 3) { f64::from(upper) - even } else { lower };
            (Some((lower.round() as i32).clamp(LOWEST, upper - 1)), Some(upper))
        }
    }
}

fn within(limit: f64, lowest: i32) -> i32 {
    (limit.round() as i32).clamp(lowest, HIGHEST)
}

/// How far from the mean a limit lies, on its right side: hardly at all, as far as some measurement or next to it, on the wrong side, as
/// far as can be, or some standard deviations.
fn limit(random: &mut Random, values: &[i32], mean: f64, s: f64) -> f64 {
    let tenths = |random: &mut Random, most| f64::from(random.range(0, most)) / 10.0;
    match random.below(8) {
        0 => f64::from(between(random, -2, 2)),
        1 | 2 => (f64::from(random.pick(values)) - mean).abs() + f64::from(between(random, -1, 1)),
        3 => -s * tenths(random, 30),
        4 => f64::from(HIGHEST - LOWEST),
        _ => s * tenths(random, 104),
    }
}
