//! Open's ceiling, of which the wrapper's part is to hand it over as the last argument: 1 % and lots of 50, after Table A.2 of ISO 28593.

use listening::{ask, lot, open, Answer, STORE_LENGTH};

fn gives(answer: Answer, numbers: [u32; 4]) {
    assert_eq!([answer.refusal, answer.first, answer.second, answer.third], numbers);
}

/// Three lots of 50 on stream 0, opened with this ceiling; gives the sample of the fourth.
fn fourth_sample(store: &mut [u8], ceiling: u32) -> u32 {
    gives(open(store, 0, 1, 0, 10_000, 0, ceiling), [0; 4]);
    for (label, sample, credit) in [(1, 34, 50), (2, 25, 100), (3, 20, 150)] {
        gives(lot(store, 0, label, 50, sample, 0, 0, 1, 0), [0, 1, 50, credit]);
    }
    ask(store, 0, 50).first
}

#[test]
fn the_ceiling_holds_the_sample() {
    let mut store = vec![0; STORE_LENGTH];
    assert_eq!(fourth_sample(&mut store, 100), 20);
    assert_eq!(store[40..48], [100, 0, 0, 0, 0, 0, 0, 0]);
}

#[test]
fn a_ceiling_of_0_is_none() {
    let mut store = vec![0; STORE_LENGTH];
    assert_eq!(fourth_sample(&mut store, 0), 17);
    assert_eq!(store[40..48], [0; 8]);
}

#[test]
fn a_ceiling_that_a_plan_may_not_have_is_refused() {
    let mut store = vec![0; STORE_LENGTH];
    gives(open(&mut store, 0, 1, 0, 10_000, 0, 128_000_001), [5, 0, 0, 0]);
    gives(open(&mut store, 0, 2, 0, 1, 0, 1), [5, 0, 0, 0]);
    gives(open(&mut store, 0, 3, 0, 10, 4, 1), [5, 0, 0, 0]);
    gives(open(&mut store, 0, 1, 0, 10_000, 0, 128_000_000), [0; 4]);
    gives(open(&mut store, 0, 1, 0, 10_000, 0, 128_000_001), [4, 0, 0, 0]);
}
