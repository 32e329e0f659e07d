//! The time of one call, taken in rounds that go through all implementations one after the other, so that a slow moment of the
//! machine is slow for all of them. The least time counts: what else the machine does only adds to it.

use crate::Make;
use reference::{area_at, record_at, Answer, Frame, AREA, RECORD, RECORDS_FROM};
use std::hint::black_box;
use std::ops::Range;
use std::time::Instant;

/// The least times of a call in nanoseconds: of each implementation, of the restoring after it, and of the floor.
#[derive(Clone)]
pub struct Least {
    calls: Vec<f64>,
    restoring: f64,
    floor: f64,
}

impl Least {
    fn of_nothing(implementations: usize) -> Self {
        Least {
            calls: vec![f64::INFINITY; implementations],
            restoring: f64::INFINITY,
            floor: f64::INFINITY,
        }
    }

    /// One call of an implementation, without the restoring.
    pub fn call(&self, k: usize) -> f64 {
        (self.calls[k] - self.restoring).max(0.1)
    }

    /// One pass that adds up the area's bytes in words of eight.
    pub fn floor(&self) -> f64 {
        self.floor
    }

    /// Keeps the lesser of each time and the other's.
    pub fn keep(&mut self, other: &Least) {
        for (kept, time) in self.calls.iter_mut().zip(&other.calls) {
            *kept = kept.min(*time);
        }
        self.restoring = self.restoring.min(other.restoring);
        self.floor = self.floor.min(other.floor);
    }

    /// Whether it is of so many implementations.
    pub fn has(&self, implementations: usize) -> bool {
        self.calls.len() == implementations
    }

    /// A line of text.
    pub fn line(&self) -> String {
        let numbers = self.calls.iter().chain([&self.restoring, &self.floor]);
        numbers.map(|time| format!("{time} ")).collect()
    }

    /// What such a line holds.
    pub fn in_line(line: &str) -> Option<Self> {
        let numbers: Option<Vec<f64>> = line.split_whitespace().map(|number| number.parse().ok()).collect();
        let mut calls = numbers?;
        let floor = calls.pop()?;
        let restoring = calls.pop()?;
        Some(Least { calls, restoring, floor })
    }
}

/// A call on a store that is the same before every one.
pub struct Timed {
    frame: Frame,
    kept: Vec<u8>,
    // What an accepted call changes, and what is put back after it: the header and one record.
    changed: [Range<usize>; 2],
    /// That of the reference.
    pub answer: Answer,
    pub least: Least,
}

impl Timed {
    /// Makes the call once with each implementation: none where an answer or a byte is not as the reference's.
    pub fn new(makes: &[(Make, usize)], kept: Vec<u8>, frame: Frame) -> Option<Self> {
        let mut after = kept.clone();
        let answer = reference::call_on_store(&mut after, &frame);
        let same = makes.iter().all(|(make, _)| {
            let mut store = kept.clone();
            make(&mut store, &frame) == answer && store == after
        });
        let area = area_at(frame.stream).start;
        let changed = match (0..AREA).rfind(|at| kept[area + at] != after[area + at]) {
            None => [area..area, area..area],
            Some(last) => {
                let record = record_at(last.saturating_sub(RECORDS_FROM) / RECORD);
                [area..area + RECORDS_FROM, area + record.start..area + record.end]
            }
        };
        same.then_some(Timed {
            frame,
            kept,
            changed,
            answer,
            least: Least::of_nothing(makes.len()),
        })
    }

    /// Takes so many rounds more. Gives how many answers were not those of the reference.
    pub fn take(&mut self, makes: &[(Make, usize)], rounds: usize) -> usize {
        let mut store = self.kept.clone();
        let mut others = 0;
        for _ in 0..rounds {
            let mut round = Least::of_nothing(makes.len());
            for (k, (make, calls)) in makes.iter().enumerate() {
                let other;
                (round.calls[k], other) = self.time(*make, *calls, &mut store);
                others += other;
            }
            (round.restoring, _) = self.time(|_, _| [0; 4], makes[0].1, &mut store);
            round.floor = self.time_floor(makes[0].1, &store);
            self.least.keep(&round);
        }
        others
    }

    fn time(&self, make: Make, calls: usize, store: &mut [u8]) -> (f64, usize) {
        let mut others = 0;
        let start = Instant::now();
        for _ in 0..calls {
            let answer = black_box(make)(black_box(store), black_box(&self.frame));
            others += usize::from(answer != self.answer);
            for part in &self.changed {
                store[part.clone()].copy_from_slice(&self.kept[part.clone()]);
            }
        }
        (start.elapsed().as_nanos() as f64 / calls as f64, others)
    }

    fn time_floor(&self, calls: usize, store: &[u8]) -> f64 {
        let area = store[area_at(self.frame.stream)].first_chunk().expect("an area");
        let start = Instant::now();
        for _ in 0..calls {
            black_box(sum(black_box(area)));
        }
        start.elapsed().as_nanos() as f64 / calls as f64
    }
}

#[inline(never)]
fn sum(area: &[u8; AREA]) -> u64 {
    area.as_chunks()
        .0
        .iter()
        .fold(0, |sum, word| sum.wrapping_add(u64::from_le_bytes(*word)))
}
