//! Stores of another length than 58,112: refusal 1 from every call, on any stream, whatever the bytes, which stay; and no part of them is
//! handed back.

use crate::{Done, Setting};
use outside::{at, hands_back, make, same};
use reference::{plain_frames, Caller, Part, Random, AREA, RECORDS_FROM, STORE};

/// The length of a store before entries had a recording.
const FORMER_STORE: usize = 41_728;
const LENGTHS: [usize; 19] = [
    0,
    1,
    2,
    RECORDS_FROM,
    AREA - 1,
    AREA,
    AREA + 1,
    STORE / 2,
    FORMER_STORE - 1,
    FORMER_STORE,
    FORMER_STORE + 1,
    STORE - AREA,
    STORE - 2,
    STORE - 1,
    STORE + 1,
    STORE + 2,
    STORE + AREA,
    2 * STORE,
    1 << 20,
];
const STREAMS: [u32; 5] = [0, 7, 15, 16, u32::MAX];
const REFUSED: [u32; 4] = [1, 0, 0, 0];

pub fn test(setting: &Setting) -> Result<Done, String> {
    let used = used_store(setting.seed);
    let mut random = Random::new(setting.seed);
    let mut calls = 0;
    for length in LENGTHS {
        let contents = [
            ("zero", vec![0; length]),
            ("used", (0..length).map(|k| used[k % STORE]).collect()),
            ("random", (0..length).map(|_| random.byte()).collect::<Vec<u8>>()),
        ];
        for (content, bytes) in contents {
            for stream in STREAMS {
                let place = || format!("a store of {length} bytes, {content}, stream {stream}");
                at(place, each_call(&bytes, stream))?;
                at(place, whole_list(&bytes, stream))?;
                at(place, hands_back(&bytes, stream, u32::MAX, &Part::default()))?;
                calls += plain_frames(stream).len();
            }
        }
    }
    // with the right length the same calls are not refused so
    for frame in plain_frames(0) {
        if make(&mut used.clone(), &frame)[0] == 1 {
            return Err(format!("{frame:?}: refusal 1 on {STORE} bytes"));
        }
    }
    let what = format!(
        "{calls} calls, each also in a list, on stores of {} wrong lengths, seed {}",
        LENGTHS.len(),
        setting.seed
    );
    // by itself and in a list
    Ok(Done { calls: 2 * calls, what })
}

fn each_call(bytes: &[u8], stream: u32) -> Result<(), String> {
    for frame in plain_frames(stream) {
        let mut store = bytes.to_vec();
        let ours = make(&mut store, &frame);
        at(|| format!("{frame:?}"), same((ours, &store), (REFUSED, bytes)))?;
    }
    Ok(())
}

fn whole_list(bytes: &[u8], stream: u32) -> Result<(), String> {
    let mut store = bytes.to_vec();
    let calls = plain_frames(stream).map(|frame| frame.numbers()).concat();
    let mut answers = vec![7; plain_frames(stream).len() * REFUSED.len()];
    let made = listening::list(&mut store, &calls, &mut answers);
    if !made || answers.chunks(REFUSED.len()).any(|answer| answer != REFUSED) || store != bytes {
        return Err(format!("the list gives {made} and {answers:?}"));
    }
    Ok(())
}

fn used_store(seed: u64) -> Vec<u8> {
    let mut caller = Caller::new(seed, 5_000, u32::MAX);
    let mut store = vec![0; STORE];
    for _ in 0..5_000 {
        let frame = caller.next_call();
        make(&mut store, &frame);
        caller.make(&frame);
    }
    store
}
