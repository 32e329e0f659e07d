//! The listening controller: sixteen streams in one store of bytes, for Rust.
//!
//! Each function is the proved call of the same name, and [`newest`] is two of them, `listening_newest` and `listening_newest_part`;
//! `include/listening.h` says of each what it takes and gives and how it is refused. A store is 58,112 bytes, all zero when fresh. Bad
//! input of any kind, a store of another length included, gets a refusal number and leaves the store as it was: no call panics, and
//! none has a duty for its caller. [`judge`] takes no store: it judges a sample by its measurements.
//!
//! ```
//! let mut store = vec![0; listening::STORE_LENGTH];
//! listening::open(&mut store, 0, 1, 0, 15_000, 0, 0);
//! let asked = listening::ask(&store, 0, 201);
//! // label 1, 201 detections, as many heard as were asked, none wrong; heard on recording 4711 from its second 90 on
//! let lot = listening::lot(&mut store, 0, 1, 201, asked.first, 0, 0, 4711, 90);
//! assert_eq!((lot.refusal, lot.first, lot.second, lot.third), (0, 1, 201, 201));
//!
//! let (answer, records) = listening::newest(&store, 0, 1);
//! assert_eq!((answer.refusal, answer.first), (0, 1));
//! assert_eq!(records[20..24], 4711_u32.to_le_bytes());
//! assert_eq!(records[24..28], 90_u32.to_le_bytes());
//! ```

#![warn(missing_docs)]

/// So many streams: 0 to 15.
pub const STREAMS: u32 = 16;
/// The length of a store.
pub const STORE_LENGTH: usize = 58_112;
/// The length of a record of [`newest`].
pub const RECORD_LENGTH: usize = 28;
/// So many numbers hold a call of [`list`]: its number, its stream, seven arguments.
pub const CALL_LENGTH: usize = 9;
/// So many numbers hold an answer of [`list`]: its refusal, three numbers.
pub const ANSWER_LENGTH: usize = 4;

/// What a call gives.
#[repr(C)]
#[derive(Clone, Copy, Debug, PartialEq, Eq)]
pub struct Answer {
    /// Why the call was refused; 0 where it was not.
    pub refusal: u32,
    /// The first number of the call's answer.
    pub first: u32,
    /// The second.
    pub second: u32,
    /// The third.
    pub third: u32,
}

/// What [`judge`] gives; all zero and false where it is refused.
#[repr(C)]
#[derive(Clone, Copy, Debug, PartialEq, Eq)]
pub struct Judgement {
    /// Why the call was refused, 18 or 19; 0 where it was not.
    pub refusal: u32,
    /// So many measurements lie outside the limits; a limit itself is inside.
    pub outside: u32,
    /// n times the upper limit, less the sum of the measurements; 0 where the limit is absent.
    pub to_upper: i32,
    /// The sum of the measurements, less n times the lower limit; 0 where the limit is absent.
    pub to_lower: i32,
    /// Whether `outside` is 0.
    pub none_outside: bool,
    /// Whether every given limit meets the k criterion.
    pub k_met: bool,
    /// Whether the F criterion is met; true where F is absent.
    pub f_met: bool,
}

// The declarations of include/listening.h: a slice crosses as pointer and length, an option as a flag and a number.
mod c {
    use super::{Answer, Judgement};

    #[repr(C)]
    pub struct Part {
        pub offset: usize,
        pub length: usize,
    }

    extern "C" {
        pub fn listening_open(
            store: *mut u8,
            length: usize,
            stream: u32,
            kind: u32,
            option: u32,
            a: u32,
            b: u32,
            ceiling: u32,
        ) -> Answer;
        pub fn listening_lot(
            store: *mut u8,
            length: usize,
            stream: u32,
            label: u32,
            size: u32,
            sample: u32,
            wrong: u32,
            wrong_in_all: u32,
            recording: u32,
            second: u32,
        ) -> Answer;
        pub fn listening_run(
            store: *mut u8,
            length: usize,
            stream: u32,
            right: u32,
            wrong: u32,
            recording: u32,
            second: u32,
        ) -> Answer;
        pub fn listening_block(
            store: *mut u8,
            length: usize,
            stream: u32,
            heard: u32,
            wrong: u32,
            recording: u32,
            second: u32,
        ) -> Answer;
        pub fn listening_stop(store: *mut u8, length: usize, stream: u32, why: u32, days: u32) -> Answer;
        pub fn listening_back(store: *mut u8, length: usize, stream: u32) -> Answer;
        pub fn listening_ask(store: *const u8, length: usize, stream: u32, size: u32) -> Answer;
        pub fn listening_read(store: *const u8, length: usize, stream: u32) -> Answer;
        pub fn listening_newest(store: *const u8, length: usize, stream: u32, count: u32) -> Answer;
        pub fn listening_newest_part(store: *const u8, length: usize, stream: u32, count: u32) -> Part;
        pub fn listening_list(
            store: *mut u8,
            length: usize,
            calls: *const u32,
            calls_length: usize,
            answers: *mut u32,
            answers_length: usize,
        ) -> bool;
        pub fn listening_judge(
            values: *const i32,
            length: usize,
            has_lower: bool,
            lower: i32,
            has_upper: bool,
            upper: i32,
            k: u32,
            has_f: bool,
            f: u32,
        ) -> Judgement;
    }
}

// Each unsafe block below calls a function that is proved for every slice and every number, with the pointer and length of a slice
// that the wrapper borrows for as long as the call runs, mutably where the call may write.

/// Opens a stream: kind 1 credit (`a`: limit in millionths), 2 level (`a`: VL), 3 continuous (`a`: clearance number, `b`: interval).
/// Option 1: a credit lot with a wrong one is heard whole also with credit; a level stream may go to reduced. `ceiling`, of a credit
/// stream alone: the most of the credit that a sample size uses (Kmax of ISO 28593, clause 10, note 1), at most 128,000,000; 0 for none.
#[inline]
pub fn open(store: &mut [u8], stream: u32, kind: u32, option: u32, a: u32, b: u32, ceiling: u32) -> Answer {
    unsafe { c::listening_open(store.as_mut_ptr(), store.len(), stream, kind, option, a, b, ceiling) }
}

/// Enters a lot (`size` N, `sample` n, `wrong` d, `wrong_in_all` D), heard on a recording of this number, not 0, from this second of it
/// on. Gives the verdict (1 accepted, 2 all heard, 3 returned or withheld), what is accepted, and the credit or the level (0 reduced, 1
/// normal, 2 tightened, 3 discontinued).
#[inline]
#[allow(clippy::too_many_arguments)] // they are the call's
pub fn lot(
    store: &mut [u8],
    stream: u32,
    label: u32,
    size: u32,
    sample: u32,
    wrong: u32,
    wrong_in_all: u32,
    recording: u32,
    second: u32,
) -> Answer {
    unsafe {
        c::listening_lot(
            store.as_mut_ptr(),
            store.len(),
            stream,
            label,
            size,
            sample,
            wrong,
            wrong_in_all,
            recording,
            second,
        )
    }
}

/// Enters a run in screening, with its recording: `right` detections, then a wrong one where `wrong` is 1. Gives what is accepted, and
/// the phase (0 screening, 1 sampling).
#[inline]
pub fn run(store: &mut [u8], stream: u32, right: u32, wrong: u32, recording: u32, second: u32) -> Answer {
    unsafe { c::listening_run(store.as_mut_ptr(), store.len(), stream, right, wrong, recording, second) }
}

/// Enters a block in sampling, with its recording, of which the detection at place `heard` was heard. Gives what is accepted, how many
/// to hear back, and the phase.
#[inline]
pub fn block(store: &mut [u8], stream: u32, heard: u32, wrong: u32, recording: u32, second: u32) -> Answer {
    unsafe { c::listening_block(store.as_mut_ptr(), store.len(), stream, heard, wrong, recording, second) }
}

/// Enters a stop: `why` 1 a pause of so many days, 2 the set-up changed.
#[inline]
pub fn stop(store: &mut [u8], stream: u32, why: u32, days: u32) -> Answer {
    unsafe { c::listening_stop(store.as_mut_ptr(), store.len(), stream, why, days) }
}

/// Takes the newest entry back. Gives its kind: 1 lot, 2 run, 3 block, 4 stop.
#[inline]
pub fn back(store: &mut [u8], stream: u32) -> Answer {
    unsafe { c::listening_back(store.as_mut_ptr(), store.len(), stream) }
}

/// Gives the sample that a lot of this size asks for.
#[inline]
pub fn ask(store: &[u8], stream: u32, size: u32) -> Answer {
    unsafe { c::listening_ask(store.as_ptr(), store.len(), stream, size) }
}

/// Gives the count of standing entries, what is accepted in all, and the credit, the level or the screening count; in sampling 65,536
/// plus what has passed since the last detection heard.
#[inline]
pub fn read(store: &[u8], stream: u32) -> Answer {
    unsafe { c::listening_read(store.as_ptr(), store.len(), stream) }
}

/// Gives how many of the newest standing records come back, as many as `count` says or all where fewer stand, and beside its answer
/// these records: they are a part of the store, [`RECORD_LENGTH`] bytes each, the oldest of them first, and end with the last standing
/// record. Where the call is refused the part is empty. `include/listening.h` has the bytes of a record.
#[inline]
pub fn newest(store: &[u8], stream: u32, count: u32) -> (Answer, &[u8]) {
    let (answer, part) = unsafe {
        (
            c::listening_newest(store.as_ptr(), store.len(), stream, count),
            c::listening_newest_part(store.as_ptr(), store.len(), stream, count),
        )
    };
    // the part is proved to lie in the store
    (answer, &store[part.offset..part.offset + part.length])
}

/// Makes a list of calls, nine numbers each, and writes the answers, four numbers each. False, and nothing made or written, where the
/// numbers are not whole calls, a call does not exist or has an argument too many, or the room for answers is not exactly that of the
/// calls. A refused call is no such case.
#[inline]
pub fn list(store: &mut [u8], calls: &[u32], answers: &mut [u32]) -> bool {
    unsafe {
        c::listening_list(
            store.as_mut_ptr(),
            store.len(),
            calls.as_ptr(),
            calls.len(),
            answers.as_mut_ptr(),
            answers.len(),
        )
    }
}

/// Judges a sample by its measurements, with the k and F criteria of ISO 28594, 5.1.2.3.4. There are 2 to 100 measurements, whole
/// numbers from -4,000 to 4,000 as the limits are; `k` is 1 to 1,000 hundredths and `f`, the standard's F, 1 to 1,000 thousandths. One
/// limit or both are given, and `f` with both and only then. It gives three answers and no verdict: the standard accepts a lot
/// where each of them is true.
///
/// ```
/// // Table D.3 of the standard: 82 to 98, k 1.18, F 0.370
/// let judged = listening::judge(&[92, 87, 84, 96], Some(82), Some(98), 118, Some(370));
/// assert_eq!((judged.refusal, judged.outside, judged.to_upper, judged.to_lower), (0, 0, 33, 31));
/// assert!(judged.none_outside && judged.k_met && judged.f_met);
///
/// // a limit or F that is absent is None, and no number stands for it
/// assert_eq!(listening::judge(&[92, 87, 84, 96], Some(82), Some(98), 118, None).refusal, 19);
/// assert_eq!(listening::judge(&[92, 87, 84, 96], Some(82), Some(98), 118, Some(0)).refusal, 18);
/// ```
#[inline]
pub fn judge(values: &[i32], lower: Option<i32>, upper: Option<i32>, k: u32, f: Option<u32>) -> Judgement {
    // what stands beside a false flag is not looked at
    unsafe {
        c::listening_judge(
            values.as_ptr(),
            values.len(),
            lower.is_some(),
            lower.unwrap_or(0),
            upper.is_some(),
            upper.unwrap_or(0),
            k,
            f.is_some(),
            f.unwrap_or(0),
        )
    }
}
