//! Long random lists of calls: after each, the answer, the part that call 9 hands back, and every byte of the store. No state may be left
//! out: `reach` counts them.

use crate::reach::Reach;
use crate::{said, Done, Setting};
use outside::{at, hands_back, make, same};
use reference::{newest_part, Answer, Caller, Station, NEWEST, STORE};

const LISTS: u64 = 200;
const CALLS: usize = 15_000;
/// So many bytes before and after the store are watched too.
const AROUND: usize = 4_095;

pub fn test(setting: &Setting) -> Result<Done, String> {
    let seeds = setting.seeds(LISTS);
    let mut reach = Reach::new();
    let mut calls = 0;
    for seed in seeds.clone() {
        one_list(seed, &mut reach)?;
        calls += CALLS;
    }
    reach.complete()?;
    let what = format!(
        "{calls} calls in lists of {CALLS}, {}; the answer, the part and all {STORE} bytes after each; {}",
        said(&seeds),
        if setting.reach { reach.table() } else { reach.summary() }
    );
    Ok(Done { calls, what })
}

fn one_list(seed: u64, reach: &mut Reach) -> Result<(), String> {
    let mut caller = Caller::new(seed, CALLS, u32::MAX);
    // the store lies in the middle of other bytes, at an odd address
    let mut memory = vec![0xa5; AROUND + STORE + AROUND];
    memory[AROUND..AROUND + STORE].fill(0);
    let mut expected = memory.clone();
    for k in 1..=CALLS {
        let frame = caller.next_call();
        let before = caller.station(frame.stream).cloned();
        let theirs = caller.make(&frame);
        caller.write_area(&mut expected[AROUND..AROUND + STORE], frame.stream);
        let ours = make(&mut memory[AROUND..AROUND + STORE], &frame);
        let place = || format!("seed {seed}, call {k}, {frame:?} on {}", described(&before));
        if frame.call == NEWEST {
            let [count, ..] = frame.args;
            let part = newest_part(before.as_ref(), frame.stream, count);
            at(place, hands_back(&memory[AROUND..AROUND + STORE], frame.stream, count, &part))?;
        }
        at(place, compare(ours, theirs, &memory, &expected))?;
        if let (Some(before), Some(after)) = (&before, caller.station(frame.stream)) {
            reach.see(&frame, &theirs, before, after);
        } else {
            reach.see_refusal(&frame, theirs[0]);
        }
    }
    Ok(())
}

/// The answers and the store are the same, and the bytes around the store too.
fn compare(ours: Answer, theirs: Answer, memory: &[u8], expected: &[u8]) -> Result<(), String> {
    if ours == theirs && memory == expected {
        return Ok(());
    }
    let store = AROUND..AROUND + STORE;
    same((ours, &memory[store.clone()]), (theirs, &expected[store]))?;
    Err("a byte outside the store was written".into())
}

fn described(station: &Option<Station>) -> String {
    match station {
        None => "no stream".into(),
        Some(Station { plan: None, .. }) => "a stream not opened".into(),
        Some(Station {
            plan: Some(plan),
            entries,
        }) => {
            let tail = &entries[entries.len().saturating_sub(5)..];
            format!("{plan:?} with {} entries, the newest {tail:?}", entries.len())
        }
    }
}
