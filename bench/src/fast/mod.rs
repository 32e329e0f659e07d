//! The eight calls in safe Rust, written for speed: what the proved calls are measured against.
//!
//! They promise what the proved ones do, over the same bytes, in place and without allocation: every byte of the area is checked at
//! each call, refusals come in paper 01's order, and a refused call leaves every byte. What makes them fast: a record is an array
//! of fixed length, so that no bounds are checked; each kind of plan has a replay of its own, with its figures in registers; no
//! replay divides.

#![forbid(unsafe_code)]

mod area;
mod continuous;
mod credit;
mod level;

use area::*;
use continuous::Continuous;
use credit::Credit;
use level::{level_sample, Level};

pub use area::STORE_LENGTH;

/// The refusal, and three numbers.
pub type Answer = [u32; 4];
type Given = Result<[u32; 3], u32>;

/// Makes call 1 (Open) to 8 (Read), which takes as many of the arguments as it has.
pub fn call(store: &mut [u8], number: u32, stream: u32, [a, b, c, d, e]: [u32; 5]) -> Answer {
    match number {
        1 => open(store, stream, a, b, c, d),
        2 => lot(store, stream, a, b, c, d, e),
        3 => run(store, stream, a, b),
        4 => block(store, stream, a, b),
        5 => stop(store, stream, a, b),
        6 => back(store, stream),
        7 => ask(store, stream, a),
        _ => read(store, stream),
    }
}

#[inline(never)]
pub fn open(store: &mut [u8], stream: u32, kind: u32, option: u32, a: u32, b: u32) -> Answer {
    answer((|| {
        let area = area_of(store, stream)?;
        match reading(area) {
            Ok(_) => return Err(4),
            Err(6) => (),
            Err(refusal) => return Err(refusal),
        }
        let plan = Plan { option, a, b };
        let figures = match kind {
            1 if Credit::is_valid(&plan) => Credit::start(&plan).words(&plan),
            2 if Level::is_valid(&plan) => Level::start(&plan).words(&plan),
            3 if Continuous::is_valid(&plan) => Continuous::start(&plan).words(&plan),
            _ => return Err(5),
        };
        put_plan(area, kind, &plan);
        put_figures(area, figures);
        Ok([0; 3])
    })())
}

#[inline(never)]
pub fn lot(store: &mut [u8], stream: u32, label: u32, size: u32, sample: u32, wrong: u32, all: u32) -> Answer {
    answer((|| {
        let area = area_of(store, stream)?;
        let record = record_of(LOT, label, size, wrong, all);
        match reading(area)? {
            Reading::Credit(standing) => {
                let Standing { plan, count, figures } = &standing;
                free_place(*count)?;
                labelled_anew(figures.newest, label)?;
                sized(1, size)?;
                if !figures.asks_for(plan, size, sample) {
                    return Err(12);
                }
                // The rest is what a replay asks of a lot: its sample is the one asked, and its counts agree with it.
                let after = enter(area, &standing, &record, 13)?;
                Ok([
                    Credit::verdict(figures.credit, plan, wrong),
                    (after.accepted - figures.accepted) as u32,
                    after.credit,
                ])
            }
            Reading::Level(standing) => {
                let Standing { plan, count, figures } = &standing;
                figures.goes_on()?;
                free_place(*count)?;
                labelled_anew(figures.newest, label)?;
                sized(2, size)?;
                if sample != level_sample(plan.a, figures.level, size) {
                    return Err(12);
                }
                let after = enter(area, &standing, &record, 13)?;
                let (verdict, accepted) = if wrong == 0 { (1, size) } else { (3, 0) };
                Ok([verdict, accepted, after.level])
            }
            Reading::Continuous(_) => Err(7),
        }
    })())
}

#[inline(never)]
pub fn run(store: &mut [u8], stream: u32, right: u32, wrong: u32) -> Answer {
    answer((|| {
        let area = area_of(store, stream)?;
        let standing = continuous(area)?;
        if right > 10_000 || wrong > 1 || (right | wrong) == 0 {
            return Err(15);
        }
        let record = record_of(RUN | wrong << 8, right, 0, 0, 0);
        let after = enter(area, &standing, &record, 14)?;
        Ok([right, after.phase(), 0])
    })())
}

#[inline(never)]
pub fn block(store: &mut [u8], stream: u32, heard: u32, wrong: u32) -> Answer {
    answer((|| {
        let area = area_of(store, stream)?;
        let standing = continuous(area)?;
        if heard == 0 || heard > standing.plan.b || wrong > 1 {
            return Err(15);
        }
        let record = record_of(BLOCK | wrong << 8, heard, 0, 0, 0);
        let after = enter(area, &standing, &record, 14)?;
        let before = &standing.figures;
        let hear_back = if wrong == 1 { before.tail + heard - 1 } else { 0 };
        Ok([(after.accepted - before.accepted) as u32, hear_back, after.phase()])
    })())
}

#[inline(never)]
pub fn stop(store: &mut [u8], stream: u32, why: u32, days: u32) -> Answer {
    fn enter_stop<F: Figures>(area: &mut Area, standing: &Standing<F>, why: u32, days: u32) -> Given {
        free_place(standing.count)?;
        // So that the flag is one byte; the rest is what a replay asks of a stop.
        if why > 2 {
            return Err(15);
        }
        enter(area, standing, &record_of(STOP | why << 8, days, 0, 0, 0), 15)?;
        Ok([0; 3])
    }
    answer((|| {
        let area = area_of(store, stream)?;
        match reading(area)? {
            Reading::Credit(standing) => enter_stop(area, &standing, why, days),
            Reading::Level(standing) => {
                standing.figures.goes_on()?;
                enter_stop(area, &standing, why, days)
            }
            Reading::Continuous(standing) => enter_stop(area, &standing, why, days),
        }
    })())
}

#[inline(never)]
pub fn back(store: &mut [u8], stream: u32) -> Answer {
    // The figures are those before the newest record: the replay stops there, and the last step serves the check alone.
    #[inline(never)]
    fn take_back<F: Figures>(area: &mut Area) -> Given {
        let (plan, records) = standing_records(area)?;
        let Some((newest, older)) = records.split_last() else {
            standing::<F>(area)?;
            return Err(16);
        };
        let count = records.len();
        let kind = newest[0] as u32;
        let before = replay::<F>(&plan, older).ok_or(3u32)?;
        let mut figures = before;
        if !figures.enter(&plan, newest) {
            return Err(3);
        }
        sound(area, &plan, count, &figures)?;
        put_record(area, count - 1, &[0; RECORD_LENGTH]);
        put_count(area, count - 1);
        put_figures(area, before.words(&plan));
        Ok([kind, 0, 0])
    }
    answer((|| {
        let area = area_of(store, stream)?;
        match area[0] {
            0 => unopened(area),
            1 => take_back::<Credit>(area),
            2 => take_back::<Level>(area),
            3 => take_back::<Continuous>(area),
            _ => Err(3),
        }
    })())
}

#[inline(never)]
pub fn ask(store: &[u8], stream: u32, size: u32) -> Answer {
    answer((|| match reading(area_at(store, stream)?)? {
        Reading::Credit(Standing { plan, figures, .. }) => {
            sized(1, size)?;
            Ok([figures.sample(&plan, size), 0, 0])
        }
        Reading::Level(Standing { plan, figures, .. }) => {
            figures.goes_on()?;
            sized(2, size)?;
            Ok([level_sample(plan.a, figures.level, size), 0, 0])
        }
        Reading::Continuous(_) => Err(7),
    })())
}

#[inline(never)]
pub fn read(store: &[u8], stream: u32) -> Answer {
    answer((|| {
        Ok(match reading(area_at(store, stream)?)? {
            Reading::Credit(Standing { count, figures, .. }) => [count as u32, figures.accepted as u32, figures.credit],
            Reading::Level(Standing { count, figures, .. }) => [count as u32, figures.accepted as u32, figures.level],
            Reading::Continuous(Standing { plan, count, figures }) => {
                let figure = if figures.left == 0 {
                    65_536 + figures.tail
                } else {
                    plan.a - figures.left
                };
                [count as u32, figures.accepted as u32, figure]
            }
        })
    })())
}

fn answer(given: Given) -> Answer {
    match given {
        Ok([first, second, third]) => [0, first, second, third],
        Err(refusal) => [refusal, 0, 0, 0],
    }
}

fn area_of(store: &mut [u8], stream: u32) -> Result<&mut Area, u32> {
    if store.len() != STORE_LENGTH {
        return Err(1);
    }
    store.as_chunks_mut().0.get_mut(stream as usize).ok_or(2)
}

fn area_at(store: &[u8], stream: u32) -> Result<&Area, u32> {
    if store.len() != STORE_LENGTH {
        return Err(1);
    }
    store.as_chunks().0.get(stream as usize).ok_or(2)
}

// What stands on a continuous stream with a place free: runs and blocks are entered there alone.
#[inline(always)]
fn continuous(area: &Area) -> Result<Standing<Continuous>, u32> {
    let Reading::Continuous(standing) = reading(area)? else {
        return Err(7);
    };
    free_place(standing.count)?;
    Ok(standing)
}

// Enters the record after those that stand, and gives the figures after it; where it cannot stand there, the refusal.
#[inline(always)]
fn enter<F: Figures>(area: &mut Area, standing: &Standing<F>, record: &Record, refusal: u32) -> Result<F, u32> {
    let Standing { plan, count, figures } = standing;
    let mut after = *figures;
    if !after.enter(plan, record) {
        return Err(refusal);
    }
    put_record(area, *count, record);
    put_count(area, *count + 1);
    put_figures(area, after.words(plan));
    Ok(after)
}

fn free_place(count: usize) -> Result<(), u32> {
    if count == MOST_RECORDS {
        return Err(9);
    }
    Ok(())
}

fn labelled_anew(newest: u64, label: u32) -> Result<(), u32> {
    if newest == label as u64 {
        return Err(10);
    }
    Ok(())
}

fn sized(least: u32, size: u32) -> Result<(), u32> {
    if size < least || size > MOST_SIZE {
        return Err(11);
    }
    Ok(())
}
