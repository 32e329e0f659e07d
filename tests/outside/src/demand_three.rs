//! Demand 3 and the backward rules, at run time. The test keeps each stream's standing list itself, from the calls, their arguments
//! and their refusal numbers, never off the bytes. At many points it makes the accepted Open and the standing entries on another
//! fresh store, through the library: the stream's area must be the same there, every next call must give the same, the newest records
//! too, the figures in the bytes must be those that paper 01's backward rules read off the list, and the ceiling and the recordings in the
//! bytes those that the Open and the standing entries brought.

use crate::{said, Done, Setting};
use outside::{at, first_difference, make, newest, same};
use reference::{
    area_at, backward_c, backward_credit, backward_phase, backward_tail, backward_window, call_of, entry_of, header, record,
    record_at, Call, Caller, Entry, Frame, Plan, BLOCK, CONTINUOUS, CREDIT, FULL, LEVEL, LOT, RUN, STORE, STREAMS,
};

const LISTS: u64 = 40;
const CALLS: usize = 12_000;
/// One call in so many is followed by a replay.
const EVERY: usize = 12;
/// So many next calls, one after the other, on copies of both stores.
const NEXT: usize = 4;

pub fn test(setting: &Setting) -> Result<Done, String> {
    let seeds = setting.seeds(LISTS);
    let mut tally = Tally::default();
    for seed in seeds.clone() {
        one_list(seed, &mut tally)?;
    }
    let Tally {
        calls,
        replays,
        entries,
        deepest,
        recordings,
        passed_ceilings,
        figures,
    } = tally;
    if deepest < FULL || recordings == 0 || passed_ceilings == 0 || figures.contains(&0) {
        return Err(format!(
            "too little was met: deepest {deepest}, recordings {recordings}, ceilings passed {passed_ceilings}, figures {figures:?}"
        ));
    }
    let [credits, windows, cs, phases, tails] = figures;
    let what = format!(
        "{replays} standing lists of {entries} entries, {recordings} of them with a recording, the longest {deepest}, made again on a \
         fresh store, each with {NEXT} next calls and the newest records on both, {}; read backwards and not 0: credit {credits}, above \
         its ceiling {passed_ceilings}, window {windows}, c {cs}, phase {phases}, u {tails} times",
        said(&seeds)
    );
    Ok(Done { calls, what })
}

#[derive(Default)]
struct Tally {
    calls: usize,
    replays: usize,
    entries: usize,
    deepest: usize,
    recordings: usize,
    /// Credits above the ceiling of their plan.
    passed_ceilings: usize,
    /// Credit, window, c, phase and u that were not 0.
    figures: [usize; 5],
}

/// The accepted Open and the standing entries, oldest first, each as the call that entered it.
#[derive(Clone, Default)]
struct Standing {
    open: Option<Frame>,
    entries: Vec<Frame>,
}

impl Standing {
    fn take(&mut self, frame: &Frame, refusal: u32) {
        if refusal != 0 {
            return;
        }
        match call_of(frame).expect("a call") {
            Call::Open(_) => self.open = Some(*frame),
            Call::Back => {
                self.entries.pop();
            }
            Call::Ask { .. } | Call::Read | Call::Newest { .. } => {}
            Call::Lot { .. } | Call::Run { .. } | Call::Block { .. } | Call::Stop { .. } => self.entries.push(*frame),
        }
    }

    fn plan(&self) -> Option<Plan> {
        self.open.map(|frame| match call_of(&frame) {
            Some(Call::Open(plan)) => plan,
            _ => panic!("an Open"),
        })
    }

    fn entries(&self) -> Vec<Entry> {
        self.entries.iter().filter_map(|frame| entry_of(&call_of(frame)?)).collect()
    }
}

fn one_list(seed: u64, tally: &mut Tally) -> Result<(), String> {
    let mut caller = Caller::new(seed, CALLS, u32::MAX);
    let mut store = vec![0; STORE];
    let mut standing = vec![Standing::default(); STREAMS as usize];
    for k in 1..=CALLS {
        let frame = caller.next_call();
        caller.make(&frame); // so that the caller knows where its calls have led
        let answer = make(&mut store, &frame);
        let Some(standing) = standing.get_mut(frame.stream as usize) else {
            continue;
        };
        standing.take(&frame, answer[0]);
        if caller.random.chance(1, EVERY) {
            let place = || {
                format!(
                    "seed {seed}, after call {k}, {frame:?}, standing {:?} {:?}",
                    standing.open, standing.entries
                )
            };
            at(place, check(&mut caller, &store, frame.stream, standing, tally))?;
        }
    }
    Ok(())
}

fn check(caller: &mut Caller, store: &[u8], stream: u32, standing: &Standing, tally: &mut Tally) -> Result<(), String> {
    let other = replay(standing)?;
    let area = area_at(stream);
    let mut alone = vec![0; STORE];
    alone[area.clone()].copy_from_slice(&store[area.clone()]);
    if other != alone {
        return Err(format!("replayed: {}", first_difference(&other, &alone)));
    }
    tally.calls += same_parts(stream, standing.entries.len() as u32, store, &other)?;
    tally.recordings += recordings(standing, &store[area.clone()])?;
    tally.passed_ceilings += usize::from(passes_ceiling(standing, &store[area.clone()])?);
    next_calls(caller, stream, store.to_vec(), other)?;
    if let Some(plan) = standing.plan() {
        backward(&plan, &standing.entries(), &store[area], tally)?;
    }
    tally.replays += 1;
    tally.calls += standing.entries.len() + NEXT;
    tally.entries += standing.entries.len();
    tally.deepest = tally.deepest.max(standing.entries.len());
    Ok(())
}

/// A fresh store after the Open and the standing entries, each of which is accepted again.
fn replay(standing: &Standing) -> Result<Vec<u8>, String> {
    let mut store = vec![0; STORE];
    for frame in standing.open.iter().chain(&standing.entries) {
        let answer = make(&mut store, frame);
        if answer[0] != 0 {
            return Err(format!("replayed: {frame:?} gives {answer:?}"));
        }
    }
    Ok(store)
}

/// "the bytes of any part handed back": the newest records, where so many stand, at the same place of both stores. Gives how many answers
/// were compared.
fn same_parts(stream: u32, standing: u32, store: &[u8], other: &[u8]) -> Result<usize, String> {
    let counts = [0, 1, 2, standing.saturating_sub(1), standing, standing + 1, u32::MAX];
    for count in counts {
        let (long_lived, replayed) = (newest(store, stream, count), newest(other, stream, count));
        if long_lived != replayed {
            return Err(format!(
                "the newest {count}: {long_lived:?} on the long-lived store, {replayed:?} on the replayed"
            ));
        }
    }
    Ok(counts.len())
}

/// Paper 02, card 1: "a recording is found exactly where a lot, run or block stands", and it is the one that the entry brought. Gives how
/// many there are.
fn recordings(standing: &Standing, area: &[u8]) -> Result<usize, String> {
    let mut found = 0;
    for k in 0..FULL {
        let bytes = &area[record_at(k)];
        let stored = [record::RECORDING.get(bytes) as u32, record::SECOND.get(bytes) as u32];
        let brought = match standing.entries.get(k) {
            Some(Frame {
                call: LOT | RUN | BLOCK,
                args: [.., number, second],
                ..
            }) => Some([*number, *second]),
            _ => None,
        };
        if stored != brought.unwrap_or_default() || (stored[0] != 0) != brought.is_some() {
            return Err(format!(
                "record {k} has recording {stored:?}, and its entry brought {brought:?}"
            ));
        }
        found += usize::from(brought.is_some());
    }
    Ok(found)
}

/// The ceiling in the bytes is the accepted Open's, whatever was called since. Gives whether the credit has grown past it.
fn passes_ceiling(standing: &Standing, area: &[u8]) -> Result<bool, String> {
    let opened = standing.plan().map_or(0, |plan| u64::from(plan.ceiling));
    let stored = header::CEILING.get(area);
    if stored != opened {
        return Err(format!("the ceiling is {stored} in the bytes, {opened} in the Open"));
    }
    Ok(opened > 0 && header::CREDIT.get(area) > opened)
}

/// Whichever call on this stream follows gives the same on both stores, and leaves the same area.
fn next_calls(caller: &mut Caller, stream: u32, mut store: Vec<u8>, mut other: Vec<u8>) -> Result<(), String> {
    let area = area_at(stream);
    for _ in 0..NEXT {
        let next = caller.call_on(stream);
        let long_lived = make(&mut store, &next);
        let replayed = make(&mut other, &next);
        let place = || format!("next {next:?}, long-lived store against replayed");
        at(
            place,
            same((long_lived, &store[area.clone()]), (replayed, &other[area.clone()])),
        )?;
    }
    Ok(())
}

/// Paper 01, the backward rules, against the figures in the area's bytes; figures foreign to the plan are zero.
fn backward(plan: &Plan, entries: &[Entry], area: &[u8], tally: &mut Tally) -> Result<(), String> {
    let only = |kind, figure: &dyn Fn() -> u32| if plan.kind == kind { u64::from(figure()) } else { 0 };
    let figures = [
        ("credit", header::CREDIT, only(CREDIT, &|| backward_credit(entries))),
        ("window", header::WINDOW, only(LEVEL, &|| backward_window(entries))),
        ("c", header::C, only(CONTINUOUS, &|| backward_c(plan, entries))),
        ("phase", header::PHASE, only(CONTINUOUS, &|| backward_phase(plan, entries))),
        ("u", header::U, only(CONTINUOUS, &|| backward_tail(plan, entries))),
    ];
    for (k, (name, place, read)) in figures.into_iter().enumerate() {
        let stored = place.get(area);
        if stored != read {
            return Err(format!("{name} is {stored} in the bytes, {read} read backwards"));
        }
        tally.figures[k] += usize::from(read > 0);
    }
    Ok(())
}
