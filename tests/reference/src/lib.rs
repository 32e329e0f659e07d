//! The reference: papers 01 and 02 (cards 1 to 4) once more, written from the papers alone and from nothing of the proved crates. A
//! stream is its plan and the list of its standing entries, and whatever is asked is worked out from that list anew: slow, and plain on
//! purpose.
//!
//! Read `samples`, `station`, `calls`, `area`, in this order. `measuring` is by itself: the judgement of a sample by its measurements,
//! which is over no stream. `backward` has paper 01's backward rules, `frames` the program over standard input, `random`, `arguments` and
//! `making` the random calls that the tests make.

mod area;
mod arguments;
mod backward;
mod calls;
mod frames;
mod making;
mod measuring;
mod random;
mod samples;
mod station;

pub use area::{
    area_at, area_bytes, call_on_store, header, newest_part, newest_part_on_store, read_area, record, record_at, Part, Place, AREA,
    RECORD, RECORDS_FROM, STORE, STREAMS,
};
pub use arguments::{plain_frame, plain_frames};
pub use backward::{backward_c, backward_credit, backward_phase, backward_tail, backward_window};
pub use calls::{answer, call_of, entry_of, Answer, Call, Frame, ARGUMENTS, ASK, BACK, BLOCK, LOT, NEWEST, OPEN, READ, RUN, STOP};
pub use frames::{answer_line, frame, frames_output, line, printed, DIGITS, NO_FRAME};
pub use making::Caller;
pub use measuring::{ill_matched, judge, out_of_range, Judgement, Moments, Sample};
pub use random::Random;
pub use station::{
    figures, quotient, sample, Entry, Figures, Plan, Recording, Station, CONTINUOUS, CREDIT, FULL, LARGEST_CEILING, LEVEL,
};
