//! The streams that calls are measured on: of each kind of plan, with so many standing entries.

use crate::Make;
use reference::{area_at, header, plain_frame, Frame, Random, ARGUMENTS, ASK, BLOCK, LOT, OPEN, READ, RUN, STOP, STORE};
use Stream::*;

#[derive(Clone, Copy, Debug, PartialEq, Eq)]
pub enum Stream {
    Unopened,
    CreditGood,
    CreditMixed,
    LevelGood,
    LevelMixed,
    Screening,
    Sampling,
    Both,
}

pub const STREAMS: [Stream; 8] = [
    Unopened,
    CreditGood,
    CreditMixed,
    LevelGood,
    LevelMixed,
    Screening,
    Sampling,
    Both,
];
/// The calls by their numbers.
pub const CALLS: [&str; 9] = ["", "Open", "Lot", "Run", "Block", "Stop", "Back", "Ask", "Read"];
pub const ENTRIES: [usize; 4] = [0, 16, 64, 128];

// Clearance number and interval of the continuous streams: document 000, Table 4, VL-2, code letter C.
const CLEARANCE: u32 = 116;
const INTERVAL: u32 = 48;

impl Stream {
    pub fn name(self) -> &'static str {
        match self {
            Unopened => "unopened",
            CreditGood => "credit, good lots",
            CreditMixed => "credit, mixed lots",
            LevelGood => "level, good lots",
            LevelMixed => "level, mixed lots",
            Screening => "continuous, screening",
            Sampling => "continuous, sampling",
            Both => "continuous, both phases",
        }
    }

    /// Whether a stream of this kind can have so many entries: an unopened one has none, sampling begins with a run.
    pub fn can_have(self, entries: usize) -> bool {
        match self {
            Unopened => entries == 0,
            Sampling => entries > 0,
            _ => true,
        }
    }

    /// A store in which a stream of this kind has so many entries, each entered by `make`.
    pub fn store(self, make: Make, stream: u32, entries: usize) -> Vec<u8> {
        let mut store = vec![0; STORE];
        let plan = match self {
            Unopened => return store,
            CreditGood | CreditMixed => [1, 0, 15_000, 0, 0],
            LevelGood | LevelMixed => [2, 1, 4, 0, 0],
            Screening | Sampling | Both => [3, 0, CLEARANCE, INTERVAL, 0],
        };
        let mut random = Random::new(self as u64);
        let open = Frame {
            call: OPEN,
            stream,
            args: plan,
        };
        assert_eq!(make(&mut store, &open)[0], 0, "{self:?}");
        for label in 0..entries {
            let (call, args) = self.entry(&mut random, make, &mut store, stream, label as u32);
            let entered = make(&mut store, &Frame { call, stream, args });
            assert_eq!(entered[0], 0, "{self:?}, entry {label}");
        }
        store
    }

    fn entry(self, random: &mut Random, make: Make, store: &mut [u8], stream: u32, label: u32) -> (u32, [u32; ARGUMENTS]) {
        let [_, _, _, figure] = make(store, &plain_frame(READ, stream));
        let block = |random: &mut Random, w: bool| (BLOCK, [random.range(1, INTERVAL), w.into(), 0, 0, 0]);
        match self {
            Unopened => unreachable!("nothing is entered"),
            CreditGood | LevelGood => (LOT, good_lot(random, make, store, stream, label)),
            CreditMixed | LevelMixed => {
                let mut lot = good_lot(random, make, store, stream, label);
                // Not too often on tightened, so that the stream is not discontinued.
                let judged_on_tightened = header::TIGHTENED.get(&store[area_at(stream)]);
                if judged_on_tightened < 5 && random.chance(1, 4) {
                    let wrong = random.range(1, lot[2].min(3));
                    lot[3..].fill(wrong);
                }
                (LOT, lot)
            }
            Screening => {
                let most = CLEARANCE - figure - 1;
                let right = random.range(0, most.min(40));
                (
                    RUN,
                    [right, (right == 0 || right == most || random.chance(1, 4)).into(), 0, 0, 0],
                )
            }
            Sampling | Both if figure >= 65_536 => {
                let wrong = self == Both && random.chance(1, 8);
                block(random, wrong)
            }
            Sampling => (RUN, [CLEARANCE, 0, 0, 0, 0]),
            Both => (RUN, [random.range(1, CLEARANCE - figure), 0, 0, 0, 0]),
        }
    }
}

/// The call that is measured: one that the stream takes, where it takes such a call at all and has a place free.
pub fn measured(call: u32, make: Make, store: &mut [u8], stream: u32) -> Frame {
    let plain = plain_frame(call, stream);
    let args = match call {
        LOT => good_lot(&mut Random::new(0), make, store, stream, 1_000),
        BLOCK => [10, 0, 0, 0, 0],
        STOP => [1, 2, 0, 0, 0],
        ASK => [800, 0, 0, 0, 0],
        _ => plain.args,
    };
    Frame { args, ..plain }
}

fn good_lot(random: &mut Random, make: Make, store: &mut [u8], stream: u32, label: u32) -> [u32; ARGUMENTS] {
    let size = random.range(100, 4_000);
    let ask = Frame {
        call: ASK,
        stream,
        args: [size, 0, 0, 0, 0],
    };
    let [_, sample, _, _] = make(store, &ask);
    [label, size, sample, 0, 0]
}
