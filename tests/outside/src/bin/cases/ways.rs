//! The ways in which a case's steps are taken: the static library, by Rust and by C, the reference, and the program.

use crate::notation::{answer_in, judgement_in, part_in, Action, Given, Step};
use outside::programs::{printed_by, FRAMES};
use outside::{judge, make, newest, Make};
use reference::{
    answer_line, area_at, call_on_store, frame, line, newest_part_on_store, plain_frame, read_area, Answer, Frame, Judgement, Part,
    Sample, READ, STORE,
};
use std::io::Write;

/// The program that makes calls by include/listening.h; tests/run builds it.
const C_CALLS: &str = "target/c/calls";
/// The refusal of an area that is not sound.
const UNSOUND: u32 = 3;

pub struct Way {
    pub name: &'static str,
    pub take: fn(&[Step]) -> Result<Taken, String>,
}

/// What each step gave, none where the way has no part in it, and the store after the last, where it can be seen.
pub struct Taken {
    pub given: Vec<Option<Given>>,
    pub store: Option<Vec<u8>>,
}

pub const WAYS: [Way; 4] = [
    Way {
        name: "library",
        take: |steps| Ok(LIBRARY.take(steps)),
    },
    Way {
        name: "reference",
        take: |steps| Ok(REFERENCE.take(steps)),
    },
    Way {
        name: "C",
        take: through_c,
    },
    Way {
        name: "program",
        take: through_program,
    },
];

/// A way over a store of this program's own.
struct Inside {
    make: Make,
    /// What it prints for a line; none where that is not its part.
    print: fn(&mut [u8], &[u8]) -> Option<String>,
    is_sound: fn(&[u8], u32) -> bool,
    newest: fn(&[u8], u32, u32) -> Part,
    judge: fn(&Sample) -> Judgement,
}

/// The library takes a line only as the call that it is.
const LIBRARY: Inside = Inside {
    make,
    print: |store, line| frame(line).map(|frame| answer_line(&make(store, &frame))),
    is_sound: |store, stream| is_sound(&make(&mut store.to_vec(), &reading(stream))),
    newest: |store, stream, count| newest(store, stream, count).1,
    judge,
};

const REFERENCE: Inside = Inside {
    make: call_on_store,
    print: |store, line| Some(reference::printed(store, line)),
    is_sound: |store, stream| read_area(&store[area_at(stream)]).is_some(),
    newest: newest_part_on_store,
    judge: reference::judge,
};

impl Inside {
    fn take(&self, steps: &[Step]) -> Taken {
        let mut store = vec![0; STORE];
        let given = steps.iter().map(|step| self.step(&mut store, &step.action)).collect();
        Taken {
            given,
            store: Some(store),
        }
    }

    fn step(&self, store: &mut [u8], action: &Action) -> Option<Given> {
        match action {
            Action::Call(frame) => Some(Given::Answer((self.make)(store, frame))),
            Action::Line(line) => (self.print)(store, line).map(Given::Printed),
            Action::Bytes(place) => Some(Given::Bytes(store[place.clone()].to_vec())),
            Action::Sound(stream) => Some(Given::Sound((self.is_sound)(store, *stream))),
            Action::Part(stream, count) => Some(Given::Part((self.newest)(store, *stream, *count))),
            Action::Judge(sample) => Some(Given::Judged((self.judge)(sample))),
            Action::Put(at, bytes) => {
                store[*at..*at + bytes.len()].copy_from_slice(bytes);
                None
            }
        }
    }
}

/// A Read, by which a call says whether the area is sound.
fn reading(stream: u32) -> Frame {
    plain_frame(READ, stream)
}

fn is_sound(answer: &Answer) -> bool {
    answer[0] != UNSOUND
}

/// A word and numbers are a line: a call with its numbers, a part with its stream and its count, a sample as listening_judge takes it,
/// and for each byte that is put its place and its value. Calls, parts and samples are answered by a line each, and after the last line
/// comes the store.
fn through_c(steps: &[Step]) -> Result<Taken, String> {
    let (mut input, mut asked) = (Vec::new(), Vec::new());
    for (k, step) in steps.iter().enumerate() {
        if let Action::Put(at, bytes) = &step.action {
            for (byte, place) in bytes.iter().zip(*at as u32..) {
                input.extend(numbers_line("put", &[place, (*byte).into()]));
            }
        } else if let Action::Part(stream, count) = &step.action {
            input.extend(numbers_line("part", &[*stream, *count]));
            asked.push(k);
        } else if let Action::Judge(sample) = &step.action {
            input.extend(numbers_line("judge", &sample_numbers(sample)));
            asked.push(k);
        } else if let Some(frame) = call_in(&step.action) {
            input.extend(numbers_line("call", &frame.numbers()));
            asked.push(k);
        }
    }
    let mut output = printed_by(C_CALLS, |stdin| stdin.write_all(&input))?;
    let lines_end = output.len().checked_sub(STORE).ok_or("C printed no store")?;
    let store = output.split_off(lines_end);
    let given = given_by(steps, &asked, &output, |action, line| match action {
        Action::Part(..) => part_in(line).ok().map(Given::Part),
        Action::Judge(_) => judgement_in(line).ok().map(Given::Judged),
        _ => {
            let numbers: Option<Vec<u32>> = line.split(' ').map(|word| word.parse().ok()).collect();
            numbers?.try_into().ok().map(|answer| given(action, answer))
        }
    })?;
    Ok(Taken {
        given,
        store: Some(store),
    })
}

fn numbers_line<T: ToString>(word: &str, numbers: &[T]) -> Vec<u8> {
    let words: Vec<String> = numbers.iter().map(T::to_string).collect();
    format!("{word} {}\n", words.join(" ")).into_bytes()
}

/// The length and the measurements, the limits, k and F, each limit and F behind its flag; beside a flag that is 0 stands 0.
fn sample_numbers(sample: &Sample) -> Vec<i64> {
    let flagged = |number: Option<i64>| [number.is_some().into(), number.unwrap_or(0)];
    let mut numbers = vec![sample.values.len() as i64];
    numbers.extend(sample.values.iter().map(|value| i64::from(*value)));
    numbers.extend(flagged(sample.lower.map(i64::from)));
    numbers.extend(flagged(sample.upper.map(i64::from)));
    numbers.push(sample.k.into());
    numbers.extend(flagged(sample.f.map(i64::from)));
    numbers
}

/// The call that a step makes of a way that has calls alone.
fn call_in(action: &Action) -> Option<Frame> {
    match action {
        Action::Call(frame) => Some(*frame),
        Action::Line(line) => frame(line),
        Action::Sound(stream) => Some(reading(*stream)),
        Action::Bytes(_) | Action::Part(..) | Action::Judge(_) | Action::Put(..) => None,
    }
}

fn given(action: &Action, answer: Answer) -> Given {
    match action {
        Action::Line(_) => Given::Printed(answer_line(&answer)),
        Action::Sound(_) => Given::Sound(is_sound(&answer)),
        _ => Given::Answer(answer),
    }
}

/// Nobody but its calls writes the program's store, so it has no part in what follows a `put`. It prints no records, and judges no sample.
fn through_program(steps: &[Step]) -> Result<Taken, String> {
    let (mut input, mut asked) = (Vec::new(), Vec::new());
    for (k, step) in steps.iter().enumerate() {
        let text = match &step.action {
            Action::Call(frame) => line(frame).into_bytes(),
            Action::Line(text) => text.clone(),
            Action::Sound(stream) => line(&reading(*stream)).into_bytes(),
            Action::Bytes(_) | Action::Part(..) | Action::Judge(_) => continue,
            Action::Put(..) => break,
        };
        input.extend([&text[..], b"\n"].concat());
        asked.push(k);
    }
    let output = printed_by(FRAMES, |stdin| stdin.write_all(&input))?;
    let given = given_by(steps, &asked, &output, |action, line| match (action, answer_in(line)) {
        (Action::Call(_) | Action::Sound(_), Some(answer)) => Some(given(action, answer)),
        _ => Some(Given::Printed(line.to_string())),
    })?;
    Ok(Taken { given, store: None })
}

/// The printed lines, one for each of the steps that asked for one.
fn given_by(
    steps: &[Step],
    asked: &[usize],
    output: &[u8],
    given: impl Fn(&Action, &str) -> Option<Given>,
) -> Result<Vec<Option<Given>>, String> {
    let output = String::from_utf8_lossy(output);
    let lines: Vec<&str> = output.split_terminator('\n').collect();
    if lines.len() != asked.len() {
        return Err(format!("{} lines were printed for {}", lines.len(), asked.len()));
    }
    let mut all: Vec<Option<Given>> = steps.iter().map(|_| None).collect();
    for (k, line) in asked.iter().zip(lines) {
        all[*k] = Some(given(&steps[*k].action, line).ok_or(format!("'{line}' is no answer"))?);
    }
    Ok(all)
}
