//! Random arguments for each call: good ones for the stream as it stands, and, so often as the caller's mood has it, bad ones of
//! every sort.

use crate::calls::{newest_label, Frame, ARGUMENTS, ASK, BLOCK, LOT, NEWEST, OPEN, RUN, STOP};
use crate::random::Random;
use crate::station::{sample, verdict, Figures, Plan, Station, CONTINUOUS, CREDIT, FULL, LARGEST_CEILING, LEVEL};
use std::array;

pub type Args = [u32; ARGUMENTS];

/// How a caller is minded: so many of a thousand calls.
#[derive(Clone, Copy)]
pub struct Mood {
    pub wrong: usize,
    pub back: usize,
    pub stop: usize,
    pub err: usize,
    /// Aims at a stream full and discontinued at once.
    pub doom: bool,
}

impl Mood {
    pub fn new(random: &mut Random) -> Self {
        Mood {
            wrong: random.pick(&[0, 0, 5, 10, 50, 150, 300, 500, 900]),
            back: random.pick(&[0, 5, 20, 100, 500, 950]),
            stop: random.pick(&[0, 10, 30, 150]),
            err: random.pick(&[0, 20, 100, 300]),
            doom: random.chance(1, 2),
        }
    }
}

/// A call with arguments that are good on some stream.
pub fn plain_frame(call: u32, stream: u32) -> Frame {
    let args = match call {
        OPEN => [CREDIT, 0, 15_000, 0, 300, 0, 0],
        LOT => [1, 201, 51, 0, 0, 1, 0],
        RUN | BLOCK => [1, 0, 0, 0, 0, 1, 0],
        STOP => [1, 4, 0, 0, 0, 0, 0],
        ASK => [201, 0, 0, 0, 0, 0, 0],
        NEWEST => [2, 0, 0, 0, 0, 0, 0],
        _ => [0; ARGUMENTS],
    };
    Frame { call, stream, args }
}

/// The nine calls, in the order of their numbers.
pub fn plain_frames(stream: u32) -> [Frame; NEWEST as usize] {
    array::from_fn(|k| plain_frame(OPEN + k as u32, stream))
}

/// The arguments of a call with a recording, which are the last two.
fn with_recording([a, b, c, d, e]: [u32; 5], [number, second]: [u32; 2]) -> Args {
    [a, b, c, d, e, number, second]
}

/// A recording number and a start second. The number is 0, which is refused by 17, half as often as the caller errs elsewhere, whatever
/// else is wrong with the call; the second is free.
fn recording(random: &mut Random, mood: &Mood) -> [u32; 2] {
    let number = match random.below(4) {
        _ if random.chance(mood.err, 2000) => 0,
        0 => random.pick(&[1, 1, 2, 255, 256, 65_536, 1 << 24, u32::MAX]),
        1 => random.range(1, 300),
        _ => (random.number() as u32).max(1),
    };
    let second = match random.below(4) {
        0 => random.pick(&[0, 0, 1, 255, 256, u32::MAX]),
        1 => random.range(0, 86_400),
        2 => random.odd(),
        _ => random.number() as u32,
    };
    [number, second]
}

/// How many of the newest records are asked for where so many stand.
pub fn newest_args(random: &mut Random, standing: usize) -> Args {
    let standing = standing as u32;
    let count = match random.below(4) {
        0 => random.pick(&[0, 1, 2, u32::MAX]),
        1 => standing.saturating_sub(1) + random.range(0, 2),
        2 => random.range(0, FULL as u32 + 1),
        _ => random.odd(),
    };
    [count, 0, 0, 0, 0, 0, 0]
}

pub fn any_plan_args(random: &mut Random) -> Args {
    let kind = random.range(1, 3);
    plan_args(random, kind)
}

pub fn plan_args(random: &mut Random, kind: u32) -> Args {
    match kind {
        CREDIT => [CREDIT, random.range(0, 1), limit(random), 0, ceiling(random), 0, 0],
        LEVEL => [LEVEL, u32::from(random.chance(3, 5)), random.range(1, 7), 0, 0, 0, 0],
        _ => [CONTINUOUS, 0, clearance(random), interval(random), 0, 0, 0],
    }
}

fn limit(random: &mut Random) -> u32 {
    match random.below(4) {
        0 => random.pick(&[1, 2, 10_000, 15_000, 20_000, 499_999, 500_000]),
        1 => random.range(1, 500_000),
        _ => some_bits(random, 18),
    }
}

/// None; small ones, below a lot's size or passed by the credit after some lots; and large ones, the largest more often.
fn ceiling(random: &mut Random) -> u32 {
    match random.below(8) {
        0 => 0,
        1 => LARGEST_CEILING,
        2 => random.pick(&[1, 2, 50, 100, LARGEST_CEILING - 1]),
        3 | 4 => random.range(1, 2_000),
        5 | 6 => some_bits(random, 22),
        _ => random.range(1, LARGEST_CEILING),
    }
}

/// A ceiling that a plan of this kind may not have, also where its low bytes would do: above the range, or any but 0.
fn bad_ceiling(random: &mut Random, kind: u32) -> u32 {
    let above = [LARGEST_CEILING + 1, LARGEST_CEILING + 2, 1 << 27, 1 << 31, u32::MAX];
    if kind == CREDIT || random.chance(1, 2) {
        random.pick(&above)
    } else {
        random.pick(&[1, 100, 256, 65_536, 1 << 24, LARGEST_CEILING])
    }
}

fn clearance(random: &mut Random) -> u32 {
    match random.below(4) {
        0 => random.pick(&[1, 2, 116, 9_999, 10_000]),
        1 => random.range(1, 20),
        2 => random.range(1, 500),
        _ => random.range(1, 10_000),
    }
}

fn interval(random: &mut Random) -> u32 {
    match random.below(3) {
        0 => random.pick(&[2, 3, 48, 199, 200]),
        1 => random.range(2, 12),
        _ => random.range(2, 200),
    }
}

/// At least 1, small numbers as often as large ones.
fn some_bits(random: &mut Random, most: u32) -> u32 {
    let bits = random.range(1, most);
    random.range(1, 1 << bits)
}

/// A plan with one or two numbers out of range: refusal 5, in most cases.
pub fn bad_plan_args(random: &mut Random) -> Args {
    let mut args = any_plan_args(random);
    for _ in 0..random.range(1, 2) {
        match random.below(8) {
            0 => args[0] = random.pick(&[0, 4, 255, 256, 257, 258, 259, u32::MAX]),
            1 => args[1] = random.pick(&[1, 2, 255, 256, 257, u32::MAX]),
            2 => args[2] = random.pick(&[0, 8, 500_001, 10_001, 263, u32::MAX]),
            3 => args[3] = random.pick(&[0, 1, 2, 201, 200, 65_536, 65_538, u32::MAX]),
            4 => args[3] = 1,
            5 => args[2] = 0,
            6 => args[4] = bad_ceiling(random, args[0]),
            _ => args[random.below(5)] = random.odd(),
        }
    }
    args
}

/// Lot sizes in range, the ends of the tables' rows more often (paper 01's and document 000's).
fn lot_size(random: &mut Random, small: bool) -> u32 {
    let ends = [
        1, 2, 3, 5, 12, 32, 170, 288, 544, 960, 1_632, 1_700, 3_072, 5_440, 5_482, 9_216, 9_720, 17_408, 30_720, 30_960, 9_900,
        8_192, 999_999, 1_000_000,
    ];
    let size = match random.below(if small { 2 } else { 6 }) {
        0 => random.range(1, 40),
        1 => random.range(2, 400),
        2 | 3 => random.pick(&ends) + random.range(0, 3) - 1,
        4 => some_bits(random, 20),
        _ => random.range(1, 1_000_000),
    };
    size.clamp(2, 1_000_000)
}

pub fn asked_size(random: &mut Random) -> u32 {
    if random.chance(1, 8) {
        random.pick(&[0, 1, 1, 2, 999_999, 1_000_000, 1_000_001, u32::MAX])
    } else {
        lot_size(random, false)
    }
}

/// What is wrong with a lot's arguments, by intent.
#[derive(Clone, Copy, PartialEq, Eq)]
enum Fault {
    Label,
    Size,
    Sample,
    WrongAboveSample,
    AnyWrong,
    AllBelowWrong,
    AllAboveRest,
    AnyAll,
    AllWithoutWrong,
}

const FAULTS: [Fault; 9] = [
    Fault::Label,
    Fault::Size,
    Fault::Sample,
    Fault::WrongAboveSample,
    Fault::AnyWrong,
    Fault::AllBelowWrong,
    Fault::AllAboveRest,
    Fault::AnyAll,
    Fault::AllWithoutWrong,
];

pub fn lot_args(random: &mut Random, plan: &Plan, station: &Station, now: &Figures, mood: &Mood) -> Args {
    let mut faults = Vec::new();
    if random.chance(mood.err, 1000) {
        for _ in 0..random.range(1, 2) {
            faults.push(random.pick(&FAULTS));
        }
    }
    let label = lot_label(random, newest_label(&station.entries), faults.contains(&Fault::Label));
    let size = match plan.kind {
        _ if faults.contains(&Fault::Size) => random.pick(&[0, 1, 1_000_001, 1_000_000, u32::MAX, 2]),
        CREDIT if random.chance(1, 20) => 1,
        kind => {
            let small = kind == LEVEL && random.chance(1, 6);
            lot_size(random, small)
        }
    };
    // on discontinued any sample will do: the lot is refused before it is looked at
    let judged = Figures {
        level: if now.level == 3 { random.range(0, 2) } else { now.level },
        ..*now
    };
    let asked = sample(plan, &judged, size.clamp(2, 1_000_000)).min(size.max(1));
    let n = if faults.contains(&Fault::Sample) {
        wrong_sample(random, plan, &judged, asked, size)
    } else {
        asked
    };
    let d = lot_wrong(random, asked, n, mood, &faults);
    let all = lot_all(random, verdict(plan, now, d), [size, n, d], &faults);
    with_recording([label, size, n, d, all], recording(random, mood))
}

/// A lot that hardly is one for its stream: its sample is not the one asked, as a rule.
pub fn stray_lot_args(random: &mut Random, mood: &Mood) -> Args {
    let lot = [random.odd(), lot_size(random, false), random.range(1, 100), 0, 0];
    with_recording(lot, recording(random, mood))
}

fn lot_label(random: &mut Random, newest: Option<u32>, again: bool) -> u32 {
    let label = match random.below(30) {
        0..=9 => random.range(0, 3),
        10..=12 => random.odd(),
        _ => random.number() as u32,
    };
    match newest {
        Some(newest) if again => newest,
        Some(newest) if newest == label => label.wrapping_add(1),
        _ => label,
    }
}

/// Mostly not the sample asked: one off, that without the ceiling, that of another level or of no credit, the whole lot.
fn wrong_sample(random: &mut Random, plan: &Plan, judged: &Figures, asked: u32, size: u32) -> u32 {
    match random.below(6) {
        0 => asked.wrapping_sub(1),
        1 => asked + 1,
        2 => random.odd(),
        3 => size,
        4 => {
            let unlimited = Plan { ceiling: 0, ..*plan };
            sample(&unlimited, judged, size.clamp(2, 1_000_000))
        }
        _ => {
            let elsewhere = Figures {
                level: random.range(0, 2),
                ..Figures::default()
            };
            sample(plan, &elsewhere, size.clamp(2, 1_000_000))
        }
    }
}

fn lot_wrong(random: &mut Random, asked: u32, n: u32, mood: &Mood, faults: &[Fault]) -> u32 {
    if faults.contains(&Fault::AnyWrong) {
        return if random.chance(1, 2) { random.odd() } else { asked };
    }
    if faults.contains(&Fault::WrongAboveSample) {
        return n.wrapping_add(1);
    }
    if !random.chance(mood.wrong, 1000) {
        return 0;
    }
    match random.below(4) {
        0 => asked,
        1 => random.range(1, asked),
        _ => 1,
    }
}

fn lot_all(random: &mut Random, verdict: u32, [size, n, d]: [u32; 3], faults: &[Fault]) -> u32 {
    let most = size.wrapping_sub(n).wrapping_add(d);
    if faults.contains(&Fault::AllWithoutWrong) && d == 0 {
        return 1;
    }
    if faults.contains(&Fault::AnyAll) {
        return random.odd();
    }
    if faults.contains(&Fault::AllAboveRest) {
        return if verdict == 2 {
            most.wrapping_add(1)
        } else {
            d.wrapping_add(1)
        };
    }
    if faults.contains(&Fault::AllBelowWrong) {
        return d.wrapping_sub(1);
    }
    match random.below(4) {
        _ if verdict != 2 || most < d => d,
        0 => d,
        1 => most,
        _ => random.range(d, most),
    }
}

/// A run with so many detections left to the clearance number.
pub fn run_args(random: &mut Random, left: u32, mood: &Mood) -> Args {
    let w = u32::from(random.chance(mood.wrong, 1000));
    let [h, w] = if random.chance(mood.err, 1000) {
        bad_run(random, left, w)
    } else {
        good_run(random, left, w)
    };
    with_recording([h, w, 0, 0, 0], recording(random, mood))
}

/// A short run, whatever the stream.
pub fn stray_run_args(random: &mut Random, mood: &Mood) -> Args {
    let run = [random.range(0, 9), random.range(0, 1), 0, 0, 0];
    with_recording(run, recording(random, mood))
}

fn good_run(random: &mut Random, left: u32, w: u32) -> [u32; 2] {
    let h = match random.below(5) {
        0 | 1 => left,
        2 => left - 1,
        3 => random.range(0, left),
        _ => random.range(0, left.min(5)),
    };
    [h.min(left - w).max(1 - w), w]
}

fn bad_run(random: &mut Random, left: u32, w: u32) -> [u32; 2] {
    match random.below(8) {
        0 => [left + 1, w],
        1 => [left, 1],
        2 => [10_001, w],
        3 => [10_000, w],
        4 => [0, 0],
        5 => [left, random.pick(&[2, 256, 257, u32::MAX])],
        6 => [random.odd(), w],
        _ => [random.odd(), random.odd()],
    }
}

pub fn block_args(random: &mut Random, interval: u32, mood: &Mood) -> Args {
    let mut p = match random.below(4) {
        0 => 1,
        1 => interval,
        _ => random.range(1, interval),
    };
    let mut w = u32::from(random.chance(mood.wrong, 1000));
    if random.chance(mood.err, 1000) {
        match random.below(5) {
            0 => p = 0,
            1 => p = interval + 1,
            2 => w = random.pick(&[2, 256, 257, u32::MAX]),
            3 => p = random.odd(),
            _ => (p, w) = (random.odd(), random.odd()),
        }
    }
    with_recording([p, w, 0, 0, 0], recording(random, mood))
}

pub fn stop_args(random: &mut Random, mood: &Mood) -> Args {
    let mut why = random.pick(&[1, 1, 2]);
    let mut days = if why == 2 {
        0
    } else {
        random.pick(&[0, 1, 2, 3, 3, 4, 4, 5, 100, 254, 255])
    };
    if random.chance(mood.err, 1000) {
        match random.below(5) {
            0 => why = random.pick(&[0, 3, 256, 257, 258, u32::MAX]),
            1 => days = random.pick(&[256, 257, 260, u32::MAX, 65_536]),
            2 => (why, days) = (2, random.pick(&[1, 3, 4, 255, 256])),
            3 => why = random.odd(),
            _ => days = random.odd(),
        }
    }
    [why, days, 0, 0, 0, 0, 0]
}
