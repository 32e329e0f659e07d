//! What the tests and the benchmark share: a call of the library by its frame, the part that it hands back, its judgement of a sample,
//! where two sides differ, whether an implementation agrees with the reference, and what a program prints.

pub mod agreement;
pub mod programs;

use reference::{
    Answer, Frame, Judgement, Part, Sample, AREA, ARGUMENTS, ASK, BACK, BLOCK, LOT, NEWEST, OPEN, READ, RECORD, RUN, STOP, STORE,
    STREAMS,
};

// The wrapper's sizes are the papers'.
const _: () = assert!(listening::STORE_LENGTH == STORE && listening::STREAMS == STREAMS && listening::RECORD_LENGTH == RECORD);
const _: () = assert!(listening::CALL_LENGTH == 2 + ARGUMENTS && listening::ANSWER_LENGTH == 4);

/// Makes a call on a store.
pub type Make = fn(&mut [u8], &Frame) -> Answer;

/// The library's call of this frame.
pub fn make(store: &mut [u8], frame: &Frame) -> Answer {
    let stream = frame.stream;
    let [a, b, c, d, e, recording, second] = frame.args;
    numbers(match frame.call {
        OPEN => listening::open(store, stream, a, b, c, d, e),
        LOT => listening::lot(store, stream, a, b, c, d, e, recording, second),
        RUN => listening::run(store, stream, a, b, recording, second),
        BLOCK => listening::block(store, stream, a, b, recording, second),
        STOP => listening::stop(store, stream, a, b),
        BACK => listening::back(store, stream),
        ASK => listening::ask(store, stream, a),
        READ => listening::read(store, stream),
        NEWEST => listening::newest(store, stream, a).0,
        call => panic!("no call {call}"),
    })
}

fn numbers(answer: listening::Answer) -> Answer {
    [answer.refusal, answer.first, answer.second, answer.third]
}

/// The library's newest records: the answer, and the part with its place in the store.
pub fn newest(store: &[u8], stream: u32, count: u32) -> (Answer, Part) {
    let (answer, records) = listening::newest(store, stream, count);
    let part = Part {
        at: records.as_ptr() as usize - store.as_ptr() as usize,
        bytes: records.to_vec(),
    };
    (numbers(answer), part)
}

/// The library's judgement of this sample.
pub fn judge(sample: &Sample) -> Judgement {
    let is = listening::judge(&sample.values, sample.lower, sample.upper, sample.k, sample.f);
    Judgement {
        refusal: is.refusal,
        outside: is.outside,
        to_upper: is.to_upper,
        to_lower: is.to_lower,
        none_outside: is.none_outside,
        k_met: is.k_met,
        f_met: is.f_met,
    }
}

/// The library hands back this part, with as many records as its answer says.
pub fn hands_back(store: &[u8], stream: u32, count: u32, expected: &Part) -> Result<(), String> {
    let (answer, part) = newest(store, stream, count);
    if part == *expected && part.bytes.len() == RECORD * answer[1] as usize {
        return Ok(());
    }
    Err(format!(
        "the newest {count} of stream {stream}: {answer:?}, part {part:?}, expected {expected:?}"
    ))
}

/// The answers and all bytes are the same on the two sides, of which the first is the library.
pub fn same(ours: (Answer, &[u8]), theirs: (Answer, &[u8])) -> Result<(), String> {
    if ours.0 == theirs.0 && ours.1 == theirs.1 {
        return Ok(());
    }
    Err(format!(
        "answers {:?}, expected {:?}; {}",
        ours.0,
        theirs.0,
        first_difference(ours.1, theirs.1)
    ))
}

/// Where two stores differ first, in words.
pub fn first_difference(ours: &[u8], theirs: &[u8]) -> String {
    match ours.iter().zip(theirs).position(|(a, b)| a != b) {
        Some(at) => {
            let (stream, byte) = (at / AREA, at % AREA);
            let (is, expected) = (ours[at], theirs[at]);
            format!("first differing byte {at} (byte {byte} of area {stream}) is {is:#04x}, expected {expected:#04x}")
        }
        None if ours.len() != theirs.len() => format!("{} bytes, expected {}", ours.len(), theirs.len()),
        None => "no byte differs".into(),
    }
}

/// An error's place, before its text.
pub fn at<T>(place: impl FnOnce() -> String, result: Result<T, String>) -> Result<T, String> {
    result.map_err(|why| format!("{}: {why}", place()))
}
