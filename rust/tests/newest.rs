//! The wrapper's own part in call 9: the slice that it hands back is the store's own, at the place that the library names.

use listening::{back, block, lot, newest, open, run, stop, Answer, RECORD_LENGTH, STORE_LENGTH, STREAMS};

const AREA: usize = STORE_LENGTH / STREAMS as usize;
const HEADER: usize = AREA - 128 * RECORD_LENGTH;
const LAST: u32 = STREAMS - 1;

/// A store whose last stream has a run, a stop and a block.
fn store() -> Vec<u8> {
    let mut store = vec![0; STORE_LENGTH];
    let answers = [
        open(&mut store, LAST, 3, 0, 10, 4, 0),
        run(&mut store, LAST, 10, 0, 7, 60),
        stop(&mut store, LAST, 1, 3),
        block(&mut store, LAST, 3, 0, 0x0102_0304, u32::MAX),
    ];
    assert!(answers.iter().all(|answer| answer.refusal == 0));
    store
}

fn gives(answer: Answer, numbers: [u32; 4]) {
    assert_eq!([answer.refusal, answer.first, answer.second, answer.third], numbers);
}

/// Where a slice of the store starts in it.
fn place(store: &[u8], part: &[u8]) -> usize {
    part.as_ptr() as usize - store.as_ptr() as usize
}

#[test]
fn the_records_are_a_part_of_the_store() {
    let store = store();
    let first = LAST as usize * AREA + HEADER;
    for (count, records) in [(0, 0), (1, 1), (2, 2), (3, 3), (4, 3), (u32::MAX, 3)] {
        let (answer, part) = newest(&store, LAST, count);
        gives(answer, [0, records, 0, 0]);
        let records = records as usize;
        assert_eq!(part.len(), RECORD_LENGTH * records);
        assert_eq!(place(&store, part), first + RECORD_LENGTH * (3 - records));
    }
}

#[test]
fn the_oldest_of_them_comes_first() {
    let store = store();
    let (_, part) = newest(&store, LAST, 2);
    let records: Vec<&[u8]> = part.chunks(RECORD_LENGTH).collect();
    assert_eq!(records[0][..8], [4, 1, 0, 0, 3, 0, 0, 0]);
    assert_eq!(records[0][8..], [0; 20]);
    assert_eq!(records[1][..8], [3, 0, 0, 0, 3, 0, 0, 0]);
    assert_eq!(records[1][8..20], [0; 12]);
    assert_eq!(records[1][20..], [4, 3, 2, 1, 255, 255, 255, 255]);
}

#[test]
fn a_full_last_stream_ends_with_the_store() {
    let mut store = store();
    for _ in 3..128 {
        gives(stop(&mut store, LAST, 1, 0), [0; 4]);
    }
    let (answer, part) = newest(&store, LAST, 128);
    gives(answer, [0, 128, 0, 0]);
    assert_eq!(place(&store, part) + part.len(), STORE_LENGTH);
    let (answer, part) = newest(&store, LAST, 0);
    gives(answer, [0; 4]);
    assert_eq!((place(&store, part), part.len()), (STORE_LENGTH, 0));
}

#[test]
fn a_refused_call_hands_back_nothing() {
    let mut store = store();
    let refused = |store: &[u8], stream, refusal| {
        let (answer, part) = newest(store, stream, u32::MAX);
        gives(answer, [refusal, 0, 0, 0]);
        assert_eq!((place(store, part), part.len()), (0, 0));
    };
    refused(&[], LAST, 1);
    refused(&store[..STORE_LENGTH - 1], LAST, 1);
    refused(&store, STREAMS, 2);
    refused(&store, 0, 6);
    store[STORE_LENGTH - 1] = 1;
    refused(&store, LAST, 3);
}

#[test]
fn a_recording_is_the_calls_last_two_arguments() {
    let mut store = vec![0; STORE_LENGTH];
    open(&mut store, 0, 1, 0, 15_000, 0, 0);
    gives(lot(&mut store, 0, 1, 201, 51, 0, 0, 0, 9), [17, 0, 0, 0]);
    gives(lot(&mut store, 0, 1, 201, 51, 0, 0, 8, 9), [0, 1, 201, 201]);
    let (_, part) = newest(&store, 0, 1);
    assert_eq!(part[20..], [8, 0, 0, 0, 9, 0, 0, 0]);
    gives(back(&mut store, 0), [0, 1, 0, 0]);
    gives(newest(&store, 0, 1).0, [0; 4]);
}
