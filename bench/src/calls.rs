//! The eight calls, measured in sets: a set has the code at each of several places in memory. Of a row the set in the middle counts. The
//! fast Rust is compiled twice: the better copy counts, and what the two differ by, measured in the same way, is the noise.

use crate::streams::{measured, Stream, CALLS, ENTRIES, STREAMS};
use crate::timing::{Least, Timed};
use crate::{fast, fast_again, plain, proved, Make, Target};
use outside::agreement::{agrees, agrees_at_edges, Compared};
use outside::at;
use reference::{BACK, OPEN, READ};
use std::path::Path;

// The stream that is measured.
const STREAM: u32 = 5;
// The passes are seconds apart, so that something else that runs for a while does not spoil a row.
const PASSES: usize = 6;
const ROUNDS: usize = 25;
const CALLS_A_ROUND: usize = 100;

const SEEDS: u64 = 24;
const RANDOM_CALLS: usize = 2_000;

// Places in the list of implementations.
const OURS: usize = 0;
const FAST: usize = 1;
const PLAIN: usize = 2;
const FAST_AGAIN: usize = 3;
const MAKES: [(Make, usize); 4] = [
    (proved, CALLS_A_ROUND),
    (fast, CALLS_A_ROUND),
    (plain, 1),
    (fast_again, CALLS_A_ROUND),
];

type Time = fn(&Least) -> f64;

fn ours(set: &Least) -> f64 {
    set.call(OURS)
}

// The better of the two copies.
fn best_fast(set: &Least) -> f64 {
    set.call(FAST).min(set.call(FAST_AGAIN))
}

fn in_plain(set: &Least) -> f64 {
    set.call(PLAIN)
}

struct Row {
    stream: Stream,
    entries: usize,
    call: u32,
    timed: Timed,
    // For each set the least times.
    sets: Vec<Least>,
}

impl Row {
    // The least in all sets.
    fn ns(&self, time: Time) -> f64 {
        self.sets.iter().map(time).fold(f64::INFINITY, f64::min)
    }

    // How many times as long as the other the one takes, in each set, the least first.
    fn ratios(&self, one: Time, other: Time) -> Vec<f64> {
        sorted(self.sets.iter().map(|set| one(set) / other(set)))
    }

    // In the set in the middle.
    fn ratio(&self, one: Time, other: Time) -> f64 {
        self.ratios(one, other)[self.sets.len() / 2]
    }
}

/// Tests that the calls agree, measures them with the code where it is, and adds the least times to those of the set in the file.
pub fn measure(set: &Path) -> Result<(), String> {
    for (name, make) in [("ours", proved as Make), ("(b)", fast)] {
        let compared = &mut Compared::default();
        at(|| name.into(), agrees_at_edges(make, compared))?;
        for seed in 0..SEEDS {
            at(|| name.into(), agrees(make, seed, RANDOM_CALLS, compared))?;
        }
    }
    let mut rows = rows()?;
    for _ in 0..PASSES {
        for row in &mut rows {
            if row.timed.take(&MAKES, ROUNDS) > 0 {
                return Err(format!("{}, {}: another answer", row.stream.name(), CALLS[row.call as usize]));
            }
        }
    }
    if set.exists() {
        for (row, earlier) in rows.iter_mut().zip(times_in(set)?) {
            row.timed.least.keep(&earlier);
        }
    }
    let lines: String = rows.iter().map(|row| row.timed.least.line() + "\n").collect();
    std::fs::write(set, lines).map_err(|error| format!("{}: {error}", set.display()))
}

/// Prints the tables of some sets.
pub fn report(sets: &[&Path]) -> Result<Vec<Target>, String> {
    let mut rows = rows()?;
    for set in sets {
        let times = times_in(set)?;
        if times.len() != rows.len() {
            return Err(format!("{} has the times of other rows", set.display()));
        }
        for (row, least) in rows.iter_mut().zip(times) {
            row.sets.push(least);
        }
    }
    let noise = noise(&rows);
    print_calls(&rows, noise);
    print_growth(&rows);
    let ratios = sorted(rows.iter().map(|row| row.ratio(ours, best_fast)));
    let beyond = |limit: f64| ratios.iter().filter(|ratio| **ratio > limit).count();
    let target = format!(
        "no call slower than (b) beyond the noise of {:.1} %: {} of {} rows are; {} take longer at all; ours/(b) is {:.2} to {:.2}, {:.2} on average",
        noise * 100.0,
        beyond(1.0 + noise),
        rows.len(),
        beyond(1.0),
        ratios[0],
        ratios[ratios.len() - 1],
        ratios.iter().sum::<f64>() / ratios.len() as f64,
    );
    Ok(vec![(target, beyond(1.0 + noise) == 0)])
}

fn times_in(set: &Path) -> Result<Vec<Least>, String> {
    let text = std::fs::read_to_string(set).map_err(|error| format!("{}: {error}", set.display()))?;
    let times = text
        .lines()
        .map(|line| Least::in_line(line).filter(|least| least.has(MAKES.len())));
    times
        .collect::<Option<_>>()
        .ok_or_else(|| format!("{} is no set", set.display()))
}

fn rows() -> Result<Vec<Row>, String> {
    let mut rows = Vec::new();
    for stream in STREAMS {
        for entries in ENTRIES.into_iter().filter(|entries| stream.can_have(*entries)) {
            let kept = stream.store(plain, STREAM, entries);
            for call in OPEN..=READ {
                let frame = measured(call, plain, &mut kept.clone(), STREAM);
                let timed = Timed::new(&MAKES, kept.clone(), frame)
                    .ok_or_else(|| format!("{}, {}: another answer or another store", stream.name(), CALLS[call as usize]))?;
                let sets = Vec::new();
                rows.push(Row {
                    stream,
                    entries,
                    call,
                    timed,
                    sets,
                });
            }
        }
    }
    Ok(rows)
}

// Nineteen of twenty rows have the two copies of (b) no further apart.
fn noise(rows: &[Row]) -> f64 {
    let copies = |row: &Row| row.ratio(|set| set.call(FAST), |set| set.call(FAST_AGAIN));
    let distances = sorted(rows.iter().map(|row| (copies(row) - 1.0).abs()));
    distances[distances.len() * 19 / 20]
}

fn sorted(numbers: impl Iterator<Item = f64>) -> Vec<f64> {
    let mut numbers: Vec<f64> = numbers.collect();
    numbers.sort_by(f64::total_cmp);
    numbers
}

fn print_calls(rows: &[Row], noise: f64) {
    println!(
        "## Calls

Time of one call in ns, warm: the same store again and again, its area in the cache. Ours: the proved calls, by their Rust wrapper.
(a): the independent implementation. (b): safe Rust written for speed. (c): the floor, one pass that adds up the area's 2,608 bytes
in words of eight. {} sets; in each the code at four places in memory, at each {PASSES} passes over all rows, and in a pass {ROUNDS} rounds
of {CALLS_A_ROUND} calls of ours, (b), (a) (one call), (b)'s second copy and (c). The best round of a set counts, and of (b) the better copy. Times are those of the best set; ours/(b) is that of the
set in the middle, with the least and the largest. After a call that changes the store, the header and the record are put back from a copy;
that alone is measured too, and taken off all times. Refusal 7: such a plan has no such call; 9: no place is free.

Ours and (b) gave the answers and left the bytes of (a), here, and before on {SEEDS} random lists of {RANDOM_CALLS} calls and on
damaged areas. Checksum of the answers below, the same for all three: {:016x}. Noise, the two copies of (b) against each other: {:.1} %.

| stream | entries | call | refusal | ours | (b) | (a) | (c) | ours/(b) | least, largest | (a)/ours | ours/(c) | (b)/(c) |
|-|-:|-|-:|-:|-:|-:|-:|-:|-:|-:|-:|-:|",
        rows[0].sets.len(),
        checksum(rows),
        noise * 100.0
    );
    for row in rows {
        let ratios = row.ratios(ours, best_fast);
        let (our_ns, fast_ns, plain_ns, floor) = (row.ns(ours), row.ns(best_fast), row.ns(in_plain), row.ns(Least::floor));
        println!(
            "| {} | {} | {} | {} | {:.0} | {:.0} | {:.0} | {:.0} | {:.2} | {:.2}, {:.2} | {:.0} | {:.1} | {:.1} |",
            row.stream.name(),
            row.entries,
            CALLS[row.call as usize],
            row.timed.answer[0],
            our_ns,
            fast_ns,
            plain_ns,
            floor,
            row.ratio(ours, best_fast),
            ratios[0],
            ratios[ratios.len() - 1],
            plain_ns / our_ns,
            our_ns / floor,
            fast_ns / floor,
        );
    }
}

fn checksum(rows: &[Row]) -> u64 {
    let numbers = rows.iter().flat_map(|row| row.timed.answer);
    numbers.fold(0, |sum: u64, number| {
        (sum.rotate_left(7) ^ u64::from(number)).wrapping_mul(0x0100_0000_01b3)
    })
}

// Read does nothing but check the area, as every call does first; Back has to know the figures before the newest entry too.
fn print_growth(rows: &[Row]) {
    println!(
        "
## How time grows with standing entries

Read, and Back in brackets, in ns. The last column is the slope of the straight line through them: ns for each entry.

| stream | | 0 | 16 | 64 | 128 | an entry |
|-|-|-:|-:|-:|-:|-:|"
    );
    for stream in STREAMS.into_iter().filter(|stream| *stream != Stream::Unopened) {
        for (time, name) in [(ours as Time, "ours"), (best_fast, "(b)")] {
            let of = |call: u32, entries: usize| {
                let row = rows
                    .iter()
                    .find(|row| row.stream == stream && row.call == call && row.entries == entries)?;
                Some((entries as f64, row.ns(time)))
            };
            print!("| {} | {name} |", stream.name());
            for entries in ENTRIES {
                match (of(READ, entries), of(BACK, entries)) {
                    (Some((_, read)), Some((_, back))) => print!(" {read:.0} ({back:.0}) |"),
                    _ => print!(" |"),
                }
            }
            let slope = |call| {
                slope(
                    &ENTRIES
                        .into_iter()
                        .filter_map(|entries| of(call, entries))
                        .collect::<Vec<_>>(),
                )
            };
            println!(" {:.1} ({:.1}) |", slope(READ), slope(BACK));
        }
    }
}

// That of the least-squares line.
fn slope(points: &[(f64, f64)]) -> f64 {
    let mean = |of: fn(&(f64, f64)) -> f64| points.iter().map(of).sum::<f64>() / points.len() as f64;
    let (x, y) = (mean(|point| point.0), mean(|point| point.1));
    let over: f64 = points.iter().map(|point| (point.0 - x) * (point.1 - y)).sum();
    over / points.iter().map(|point| (point.0 - x).powi(2)).sum::<f64>()
}
