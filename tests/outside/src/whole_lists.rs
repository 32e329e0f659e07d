//! `list`: whole lists of calls handed over at once. A malformed one gives false and leaves the store and the answers' room as they
//! were.

use crate::{said, Done, Setting};
use outside::{at, first_difference};
use reference::{Answer, Caller, Random, LOT, NEWEST, OPEN, READ, STORE};

const STORES: u64 = 40;
const LISTS: usize = 400;

/// The places of the arguments that a call does not have, from Open on. A recording has the last two places; an Open and a stop have
/// none.
const UNUSED: [&[usize]; NEWEST as usize] = [
    &[5, 6],
    &[],
    &[2, 3, 4],
    &[2, 3, 4],
    &[2, 3, 4, 5, 6],
    &[0, 1, 2, 3, 4, 5, 6],
    &[1, 2, 3, 4, 5, 6],
    &[0, 1, 2, 3, 4, 5, 6],
    &[1, 2, 3, 4, 5, 6],
];

pub fn test(setting: &Setting) -> Result<Done, String> {
    let seeds = setting.seeds(STORES);
    let mut tally = Tally::default();
    for seed in seeds.clone() {
        let mut caller = Caller::new(seed, LISTS * 50, u32::MAX);
        let mut store = vec![0; STORE];
        let mut expected = store.clone();
        for k in 1..=LISTS {
            let place = || format!("seed {seed}, list {k}");
            at(place, malformed(&mut caller, &mut store, &expected, &mut tally))?;
            at(place, good(&mut caller, &mut store, &mut expected, &mut tally))?;
        }
    }
    if let Some(kind) = tally.malformed.iter().position(|count| *count == 0) {
        return Err(format!("no list was malformed in way {kind}"));
    }
    let lists = LISTS * (seeds.end - seeds.start) as usize;
    let [number, unused, length, room] = tally.malformed;
    let what = format!(
        "{lists} lists of {} calls, and before each a malformed one, {}: {number} with a call number outside 1 to {NEWEST}, {unused} \
         with an unused argument, {length} of a wrong length, {room} with a wrong room for answers",
        tally.calls,
        said(&seeds)
    );
    Ok(Done {
        calls: tally.calls,
        what,
    })
}

#[derive(Default)]
struct Tally {
    calls: usize,
    malformed: [usize; 4],
}

fn good(caller: &mut Caller, store: &mut [u8], expected: &mut [u8], tally: &mut Tally) -> Result<(), String> {
    let length = caller.random.pick(&[0, 1, 2, 5, 20, 100, 300]);
    let (mut calls, mut frames) = (Vec::new(), Vec::new());
    let mut theirs: Vec<Answer> = Vec::new();
    for _ in 0..length {
        let frame = caller.next_call();
        theirs.push(caller.make(&frame));
        caller.write_area(expected, frame.stream);
        calls.extend(frame.numbers());
        frames.push(frame);
    }
    let mut answers = room(&mut caller.random, length * listening::ANSWER_LENGTH);
    if !listening::list(store, &calls, &mut answers) {
        return Err(format!("a good list was not made: {frames:?}"));
    }
    for (k, ours) in answers.chunks(listening::ANSWER_LENGTH).enumerate() {
        if ours != theirs[k] {
            return Err(format!(
                "call {}, {:?}: answers {ours:?}, expected {:?}",
                k + 1,
                frames[k],
                theirs[k]
            ));
        }
    }
    if store != expected {
        return Err(format!(
            "after {length} calls, the last {:?}: {}",
            frames.last(),
            first_difference(store, expected)
        ));
    }
    tally.calls += length;
    Ok(())
}

fn malformed(caller: &mut Caller, store: &mut [u8], expected: &[u8], tally: &mut Tally) -> Result<(), String> {
    let length = caller.random.pick(&[1, 1, 2, 7, 30]);
    let mut calls: Vec<u32> = Vec::new();
    for _ in 0..length {
        calls.extend(caller.next_call().numbers());
    }
    let random = &mut caller.random;
    let mut answers_length = length * listening::ANSWER_LENGTH;
    let way = random.below(4);
    match way {
        0 => spoil_number(random, &mut calls),
        1 => spoil_unused(random, &mut calls),
        2 => answers_length = spoil_length(random, &mut calls),
        _ => {
            answers_length = random.pick(&[
                0,
                1,
                answers_length - 1,
                answers_length + 1,
                answers_length + 4,
                2 * answers_length,
            ])
        }
    }
    let mut answers = room(random, answers_length);
    let kept = answers.clone();
    if listening::list(store, &calls, &mut answers) {
        return Err(format!("room for {answers_length} numbers, malformed, but made: {calls:?}"));
    }
    if answers != kept {
        return Err(format!("malformed, but an answer was written: {calls:?}"));
    }
    if store != expected {
        return Err(format!(
            "malformed, but the store was written: {calls:?}; {}",
            first_difference(store, expected)
        ));
    }
    tally.malformed[way] += 1;
    Ok(())
}

/// Room for so many numbers, with something in it.
fn room(random: &mut Random, length: usize) -> Vec<u32> {
    (0..length).map(|_| random.number() as u32).collect()
}

/// One call's number goes outside 1 to 9, also to one that would be inside if it were cut to a byte.
fn spoil_number(random: &mut Random, calls: &mut [u32]) {
    let at = random.below(calls.len() / listening::CALL_LENGTH) * listening::CALL_LENGTH;
    calls[at] = random.pick(&[0, 10, 11, 15, 255, 256, calls[at] + 256, calls[at] + 65_536, u32::MAX]);
}

/// One call gets an argument that it does not have.
fn spoil_unused(random: &mut Random, calls: &mut [u32]) {
    let count = calls.len() / listening::CALL_LENGTH;
    let call = &mut calls
        .chunks_mut(listening::CALL_LENGTH)
        .nth(random.below(count))
        .expect("a call")[..];
    if call[0] == LOT {
        // a lot uses them all
        call[0] = READ;
    }
    let place = random.pick(UNUSED[(call[0] - OPEN) as usize]);
    call[2 + place] = random.pick(&[1, 2, 256, 65_536, 1 << 31, u32::MAX]);
}

/// Some numbers too few or too many; gives the room that whole calls would have.
fn spoil_length(random: &mut Random, calls: &mut Vec<u32>) -> usize {
    let off = random.below(listening::CALL_LENGTH - 1) + 1;
    if random.chance(1, 2) {
        calls.truncate(calls.len() - off);
    } else {
        calls.resize(calls.len() + off, 0);
    }
    let whole = calls.len() / listening::CALL_LENGTH + random.below(2);
    whole * listening::ANSWER_LENGTH
}
