//! The nine calls on one stream whose area is sound.

use crate::station::{
    enter, figures, sample, verdict, Entry, Figures, Plan, Recording, Station, CONTINUOUS, CREDIT, FULL, LARGEST_CEILING, LEVEL,
};

/// The refusal number, then the three numbers.
pub type Answer = [u32; 4];

/// The calls' numbers.
pub const OPEN: u32 = 1;
pub const LOT: u32 = 2;
pub const RUN: u32 = 3;
pub const BLOCK: u32 = 4;
pub const STOP: u32 = 5;
pub const BACK: u32 = 6;
pub const ASK: u32 = 7;
pub const READ: u32 = 8;
pub const NEWEST: u32 = 9;

/// A call has so many places for arguments.
pub const ARGUMENTS: usize = 7;

/// A call as a frame or a list holds it: its number, its stream, its arguments, unused ones 0.
#[derive(Clone, Copy, Debug, PartialEq, Eq)]
pub struct Frame {
    pub call: u32,
    pub stream: u32,
    pub args: [u32; ARGUMENTS],
}

impl Frame {
    /// As a list holds it.
    pub fn numbers(&self) -> [u32; 2 + ARGUMENTS] {
        let [a, b, c, d, e, f, g] = self.args;
        [self.call, self.stream, a, b, c, d, e, f, g]
    }
}

#[derive(Clone, Copy, Debug, PartialEq, Eq)]
pub enum Call {
    Open(Plan),
    Lot {
        label: u32,
        size: u32,
        n: u32,
        d: u32,
        all: u32,
        recording: Recording,
    },
    Run {
        h: u32,
        w: u32,
        recording: Recording,
    },
    Block {
        p: u32,
        w: u32,
        recording: Recording,
    },
    Stop {
        why: u32,
        days: u32,
    },
    Back,
    Ask {
        size: u32,
    },
    Read,
    Newest {
        count: u32,
    },
}

/// The call of a frame; none where its number is outside 1 to 9 or an unused argument is not 0. A recording is the sixth argument
/// and the seventh, whatever comes before it.
pub fn call_of(frame: &Frame) -> Option<Call> {
    let [.., number, second] = frame.args;
    let recording = Recording { number, second };
    match (frame.call, frame.args) {
        (OPEN, [kind, option, a, b, ceiling, 0, 0]) => Some(Call::Open(Plan {
            kind,
            option,
            a,
            b,
            ceiling,
        })),
        (LOT, [label, size, n, d, all, _, _]) => Some(Call::Lot {
            label,
            size,
            n,
            d,
            all,
            recording,
        }),
        (RUN, [h, w, 0, 0, 0, _, _]) => Some(Call::Run { h, w, recording }),
        (BLOCK, [p, w, 0, 0, 0, _, _]) => Some(Call::Block { p, w, recording }),
        (STOP, [why, days, 0, 0, 0, 0, 0]) => Some(Call::Stop { why, days }),
        (BACK, [0, 0, 0, 0, 0, 0, 0]) => Some(Call::Back),
        (ASK, [size, 0, 0, 0, 0, 0, 0]) => Some(Call::Ask { size }),
        (READ, [0, 0, 0, 0, 0, 0, 0]) => Some(Call::Read),
        (NEWEST, [count, 0, 0, 0, 0, 0, 0]) => Some(Call::Newest { count }),
        _ => None,
    }
}

/// What the call enters where it is accepted; none for those that enter nothing.
pub fn entry_of(call: &Call) -> Option<Entry> {
    match *call {
        Call::Lot {
            label,
            size,
            d,
            all,
            recording,
            ..
        } => Some(Entry::Lot {
            label,
            size,
            d,
            all,
            recording,
        }),
        Call::Run { h, w, recording } => Some(Entry::Run { h, w, recording }),
        Call::Block { p, w, recording } => Some(Entry::Block { p, w, recording }),
        Call::Stop { why, days } => Some(Entry::Stop { why, days }),
        Call::Open(_) | Call::Back | Call::Ask { .. } | Call::Read | Call::Newest { .. } => None,
    }
}

/// The answer, and the station after it.
pub fn answer(station: &mut Station, call: Call) -> Answer {
    let outcome = match (station.plan, call) {
        (_, Call::Open(plan)) => open(station, plan),
        (None, _) => Err(6),
        (Some(plan), _) => on_open_stream(station, &plan, call),
    };
    match outcome {
        Ok([first, second, third]) => [0, first, second, third],
        Err(refusal) => [refusal, 0, 0, 0],
    }
}

/// The three numbers, or the refusal number.
type Outcome = Result<[u32; 3], u32>;

fn open(station: &mut Station, plan: Plan) -> Outcome {
    if station.plan.is_some() {
        return Err(4);
    }
    if !is_good(&plan) {
        return Err(5);
    }
    *station = Station {
        plan: Some(plan),
        entries: Vec::new(),
    };
    Ok([0, 0, 0])
}

/// What 5 leaves. Paper 02, card 3: "only credit plans may set" a ceiling.
fn is_good(plan: &Plan) -> bool {
    let Plan {
        kind,
        option,
        a,
        b,
        ceiling,
    } = *plan;
    match kind {
        CREDIT => (1..=500_000).contains(&a) && b == 0 && option <= 1 && ceiling <= LARGEST_CEILING,
        LEVEL => (1..=7).contains(&a) && b == 0 && option <= 1 && ceiling == 0,
        CONTINUOUS => (1..=10_000).contains(&a) && (2..=200).contains(&b) && option == 0 && ceiling == 0,
        _ => false,
    }
}

fn on_open_stream(station: &mut Station, plan: &Plan, call: Call) -> Outcome {
    let before = figures(plan, &station.entries);
    match call {
        Call::Open(_) => unreachable!("answered before"),
        Call::Lot { .. } => lot(station, plan, &before, call),
        Call::Run { h, w, recording } => run(station, plan, &before, [h, w], recording),
        Call::Block { p, w, recording } => block(station, plan, &before, [p, w], recording),
        Call::Stop { why, days } => stop(station, plan, &before, why, days),
        Call::Back => back(station),
        Call::Ask { size } => ask(plan, &before, size),
        Call::Read => Ok(read(station, plan, &before)),
        Call::Newest { count } => Ok([newest(&station.entries, count).len() as u32, 0, 0]),
    }
}

fn lot(station: &mut Station, plan: &Plan, before: &Figures, call: Call) -> Outcome {
    let Call::Lot {
        label,
        size,
        n,
        d,
        all,
        recording,
    } = call
    else {
        unreachable!("a lot")
    };
    refuse(7, plan.kind == CONTINUOUS)?;
    refuse(8, discontinued(plan, before))?;
    refuse(9, full(station))?;
    refuse(10, newest_label(&station.entries) == Some(label))?;
    refuse(11, out_of_range(plan, size))?;
    refuse(12, n != sample(plan, before, size))?;
    refuse(13, d > n)?;
    refuse(
        13,
        match verdict(plan, before, d) {
            1 => all > 0,
            2 => all < d || all > size - n + d,
            _ => all != d,
        },
    )?;
    refuse(17, recording.number == 0)?;
    let mut after = *before;
    let entry = Entry::Lot {
        label,
        size,
        d,
        all,
        recording,
    };
    let given = enter(plan, &mut after, &entry);
    station.entries.push(entry);
    Ok([
        given.verdict,
        given.accepted,
        if plan.kind == CREDIT { after.credit } else { after.level },
    ])
}

fn run(station: &mut Station, plan: &Plan, before: &Figures, [h, w]: [u32; 2], recording: Recording) -> Outcome {
    refuse(7, plan.kind != CONTINUOUS)?;
    refuse(9, full(station))?;
    refuse(15, h > 10_000 || w > 1 || (h == 0 && w == 0))?;
    refuse(14, before.phase == 1 || before.c + h + w > plan.a)?;
    refuse(17, recording.number == 0)?;
    let mut after = *before;
    let entry = Entry::Run { h, w, recording };
    let given = enter(plan, &mut after, &entry);
    station.entries.push(entry);
    Ok([given.accepted, after.phase, 0])
}

fn block(station: &mut Station, plan: &Plan, before: &Figures, [p, w]: [u32; 2], recording: Recording) -> Outcome {
    refuse(7, plan.kind != CONTINUOUS)?;
    refuse(9, full(station))?;
    refuse(15, p < 1 || p > plan.b || w > 1)?;
    refuse(14, before.phase == 0)?;
    refuse(17, recording.number == 0)?;
    let mut after = *before;
    let entry = Entry::Block { p, w, recording };
    let given = enter(plan, &mut after, &entry);
    station.entries.push(entry);
    Ok([given.accepted, given.hear_back, after.phase])
}

fn stop(station: &mut Station, plan: &Plan, before: &Figures, why: u32, days: u32) -> Outcome {
    refuse(8, discontinued(plan, before))?;
    refuse(9, full(station))?;
    refuse(15, (why != 1 && why != 2) || days > 255 || (why == 2 && days > 0))?;
    station.entries.push(Entry::Stop { why, days });
    Ok([0, 0, 0])
}

fn back(station: &mut Station) -> Outcome {
    match station.entries.pop() {
        None => Err(16),
        Some(entry) => Ok([record_kind(&entry), 0, 0]),
    }
}

fn ask(plan: &Plan, before: &Figures, size: u32) -> Outcome {
    refuse(7, plan.kind == CONTINUOUS)?;
    refuse(8, discontinued(plan, before))?;
    refuse(11, out_of_range(plan, size))?;
    Ok([sample(plan, before, size), 0, 0])
}

fn read(station: &Station, plan: &Plan, before: &Figures) -> [u32; 3] {
    let third = match plan.kind {
        CREDIT => before.credit,
        LEVEL => before.level,
        _ if before.phase == 1 => 65_536 + before.u,
        _ => before.c,
    };
    [station.entries.len() as u32, before.accepted as u32, third]
}

/// "As many come back as the count says, or all where fewer stand."
pub fn newest(entries: &[Entry], count: u32) -> &[Entry] {
    let back = entries.len().min(count as usize);
    &entries[entries.len() - back..]
}

/// The kind that a record of this entry has, and that a take-back of it gives.
pub fn record_kind(entry: &Entry) -> u32 {
    match entry {
        Entry::Lot { .. } => 1,
        Entry::Run { .. } => 2,
        Entry::Block { .. } => 3,
        Entry::Stop { .. } => 4,
    }
}

fn refuse(refusal: u32, applies: bool) -> Result<(), u32> {
    if applies {
        Err(refusal)
    } else {
        Ok(())
    }
}

fn discontinued(plan: &Plan, figures: &Figures) -> bool {
    plan.kind == LEVEL && figures.level == 3
}

fn full(station: &Station) -> bool {
    station.entries.len() >= FULL
}

fn out_of_range(plan: &Plan, size: u32) -> bool {
    let smallest = if plan.kind == LEVEL { 2 } else { 1 };
    size < smallest || size > 1_000_000
}

/// The label of the newest standing lot, over any stops after it.
pub fn newest_label(entries: &[Entry]) -> Option<u32> {
    entries.iter().rev().find_map(|entry| match entry {
        Entry::Lot { label, .. } => Some(*label),
        _ => None,
    })
}
