//! The outside tests: the proved static library and the proved program, compared with the reference on random calls. Each test prints
//! one line; the last line counts them.
//!
//!     outside [SEED [TIMES [reach]]]
//!
//! SEED (1) gives the random calls; TIMES (1) makes that many times as many of them; `reach` prints how often each state was
//! reached.

mod changes;
mod damage;
mod demand_three;
mod forged_areas;
mod frames_program;
mod lists;
mod measuring;
mod newest;
mod random_samples;
mod reach;
mod store_lengths;
mod whole_lists;

use std::ops::Range;
use std::process::ExitCode;
use std::{env, thread};

/// What the command line sets.
pub struct Setting {
    pub seed: u64,
    pub times: u64,
    pub reach: bool,
}

impl Setting {
    /// The seeds of so many lists, or as many times more.
    pub fn seeds(&self, lists: u64) -> Range<u64> {
        self.seed..self.seed + lists * self.times
    }
}

/// Seeds in words.
pub fn said(seeds: &Range<u64>) -> String {
    match seeds.end - seeds.start {
        1 => format!("seed {}", seeds.start),
        _ => format!("seeds {} to {}", seeds.start, seeds.end - 1),
    }
}

/// What a test did: so many answers of the library compared, and the rest in words.
pub struct Done {
    pub calls: usize,
    pub what: String,
}

type Test = fn(&Setting) -> Result<Done, String>;

const TESTS: [(&str, Test); 10] = [
    ("store lengths", store_lengths::test),
    ("lists", lists::test),
    ("whole lists", whole_lists::test),
    ("demand 3", demand_three::test),
    ("newest records", newest::test),
    ("damaged bytes", damage::every_byte),
    ("damaged areas", damage::whole_areas),
    ("forged areas", forged_areas::test),
    ("frames program", frames_program::test),
    ("measurements", measuring::test),
];

fn main() -> ExitCode {
    let Some(setting) = setting() else {
        eprintln!("outside [SEED [TIMES [reach]]]");
        return ExitCode::from(2);
    };
    let (mut passed, mut failed, mut calls) = (0, 0, 0);
    thread::scope(|scope| {
        let setting = &setting;
        let running = TESTS.map(|(name, test)| (name, scope.spawn(move || test(setting))));
        for (name, test) in running {
            match test
                .join()
                .unwrap_or_else(|_| Err("the test itself stopped: see above".into()))
            {
                Ok(done) => {
                    println!("ok {name}: {}", done.what);
                    passed += 1;
                    calls += done.calls;
                }
                Err(why) => {
                    println!("FAILED {name}: {why}");
                    failed += 1;
                }
            }
        }
    });
    println!("{calls} answers of the library compared");
    println!("outside: {passed} passed, {failed} failed");
    ExitCode::from(u8::from(failed > 0))
}

/// None where the arguments are not understood.
fn setting() -> Option<Setting> {
    let words: Vec<String> = env::args().skip(1).collect();
    let number = |k: usize| words.get(k).map_or(Some(1), |word| word.parse().ok());
    let reach = words.get(2).map(String::as_str);
    if words.len() > 3 || reach.is_some_and(|word| word != "reach") {
        return None;
    }
    Some(Setting {
        seed: number(0)?,
        times: number(1)?,
        reach: reach.is_some(),
    })
}
