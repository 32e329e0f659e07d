//! The store's bytes. An area is written from a station anew, and read by replaying its records.

use crate::calls::{answer, call_of, newest, record_kind, Answer, Call, Frame};
use crate::station::{figures, Entry, Plan, Recording, Station, FULL};
use std::ops::Range;

pub const STREAMS: u32 = 16;
pub const AREA: usize = 3_632;
pub const STORE: usize = 58_112;
/// Where an area's records start, and the length of one.
pub const RECORDS_FROM: usize = 48;
pub const RECORD: usize = 28;

/// Where a little-endian number starts in an area or a record, and its length in bytes.
#[derive(Clone, Copy)]
pub struct Place {
    pub at: usize,
    pub length: usize,
}

const fn place(at: usize, length: usize) -> Place {
    Place { at, length }
}

/// Paper 01, The store: the area offsets before the records, and the ceiling's of paper 02, card 3. Bytes in none of them are zero.
pub mod header {
    use super::{place, Place};

    pub const KIND: Place = place(0, 1);
    pub const OPTION: Place = place(1, 1);
    pub const COUNT: Place = place(2, 2);
    pub const A: Place = place(4, 4);
    pub const B: Place = place(8, 2);
    pub const CREDIT: Place = place(16, 4);
    pub const LEVEL: Place = place(20, 1);
    pub const ROW: Place = place(21, 1);
    pub const TIGHTENED: Place = place(22, 1);
    pub const WINDOW: Place = place(23, 1);
    pub const C: Place = place(24, 4);
    pub const PHASE: Place = place(28, 1);
    pub const U: Place = place(30, 2);
    pub const ACCEPTED: Place = place(32, 8);
    pub const CEILING: Place = place(40, 4);
}

/// The same of a record: kind, flag, two zero bytes, four numbers, and the number and start second of the recording.
pub mod record {
    use super::{place, Place};

    pub const KIND: Place = place(0, 1);
    pub const FLAG: Place = place(1, 1);
    pub const NUMBERS: [Place; 4] = [place(4, 4), place(8, 4), place(12, 4), place(16, 4)];
    pub const RECORDING: Place = place(20, 4);
    pub const SECOND: Place = place(24, 4);
}

impl Place {
    pub fn get(self, bytes: &[u8]) -> u64 {
        let number = &bytes[self.at..self.at + self.length];
        number.iter().rev().fold(0, |number, byte| number * 256 + u64::from(*byte))
    }

    pub fn put(self, bytes: &mut [u8], value: u64) {
        let mut rest = value;
        for byte in &mut bytes[self.at..self.at + self.length] {
            *byte = (rest % 256) as u8;
            rest /= 256;
        }
        assert!(rest == 0, "number too large for its bytes");
    }

    pub fn contains(self, byte: usize) -> bool {
        byte >= self.at && byte < self.at + self.length
    }
}

/// The bytes of a stream's area in the store.
pub fn area_at(stream: u32) -> Range<usize> {
    let from = stream as usize * AREA;
    from..from + AREA
}

/// The bytes of a record in its area, by its place among the records.
pub fn record_at(k: usize) -> Range<usize> {
    let from = RECORDS_FROM + RECORD * k;
    from..from + RECORD
}

/// The area of a station: all zero before Open.
pub fn area_bytes(station: &Station) -> Vec<u8> {
    let mut bytes = vec![0; AREA];
    if let Some(plan) = station.plan {
        put_header(&mut bytes, &plan, station);
        for (k, entry) in station.entries.iter().enumerate() {
            put_record(&mut bytes[record_at(k)], entry);
        }
    }
    bytes
}

fn put_header(bytes: &mut [u8], plan: &Plan, station: &Station) {
    let figures = figures(plan, &station.entries);
    header::KIND.put(bytes, plan.kind.into());
    header::OPTION.put(bytes, plan.option.into());
    header::COUNT.put(bytes, station.entries.len() as u64);
    header::A.put(bytes, plan.a.into());
    header::B.put(bytes, plan.b.into());
    header::CREDIT.put(bytes, figures.credit.into());
    header::LEVEL.put(bytes, figures.level.into());
    header::ROW.put(bytes, figures.row.into());
    header::TIGHTENED.put(bytes, figures.tightened.into());
    header::WINDOW.put(bytes, figures.window.into());
    header::C.put(bytes, figures.c.into());
    header::PHASE.put(bytes, figures.phase.into());
    header::U.put(bytes, figures.u.into());
    header::ACCEPTED.put(bytes, figures.accepted);
    header::CEILING.put(bytes, plan.ceiling.into());
}

fn put_record(bytes: &mut [u8], entry: &Entry) {
    let (flag, numbers) = match *entry {
        Entry::Lot { label, size, d, all, .. } => (0, [label, size, d, all]),
        Entry::Run { h, w, .. } => (w, [h, 0, 0, 0]),
        Entry::Block { p, w, .. } => (w, [p, 0, 0, 0]),
        Entry::Stop { why, days } => (why, [days, 0, 0, 0]),
    };
    record::KIND.put(bytes, record_kind(entry).into());
    record::FLAG.put(bytes, flag.into());
    for (place, number) in record::NUMBERS.into_iter().zip(numbers) {
        place.put(bytes, number.into());
    }
    // "Stops carry two zeros."
    if let Entry::Lot { recording, .. } | Entry::Run { recording, .. } | Entry::Block { recording, .. } = *entry {
        record::RECORDING.put(bytes, recording.number.into());
        record::SECOND.put(bytes, recording.second.into());
    }
}

/// The station of a sound area; none where no accepted calls could have left these bytes. What the replay does not read (unused
/// bytes, the figures) is compared at its end, with the area that the replayed station has.
pub fn read_area(bytes: &[u8]) -> Option<Station> {
    assert!(bytes.len() == AREA);
    let mut station = Station::default();
    if bytes.iter().all(|byte| *byte == 0) {
        return Some(station);
    }
    let count = header::COUNT.get(bytes) as usize;
    let plan = Plan {
        kind: header::KIND.get(bytes) as u32,
        option: header::OPTION.get(bytes) as u32,
        a: header::A.get(bytes) as u32,
        b: header::B.get(bytes) as u32,
        ceiling: header::CEILING.get(bytes) as u32,
    };
    if count > FULL || answer(&mut station, Call::Open(plan))[0] != 0 {
        return None;
    }
    for k in 0..count {
        let call = record_call(&mut station, &bytes[record_at(k)])?;
        if answer(&mut station, call)[0] != 0 {
            return None;
        }
    }
    (area_bytes(&station) == bytes).then_some(station)
}

fn record_call(station: &mut Station, bytes: &[u8]) -> Option<Call> {
    let flag = record::FLAG.get(bytes) as u32;
    let [first, second, third, fourth] = record::NUMBERS.map(|place| place.get(bytes) as u32);
    let recording = Recording {
        number: record::RECORDING.get(bytes) as u32,
        second: record::SECOND.get(bytes) as u32,
    };
    match record::KIND.get(bytes) {
        1 => {
            // n is in no record: the only one that could have been accepted is the one asked
            let [0, n, _, _] = answer(station, Call::Ask { size: second }) else {
                return None;
            };
            Some(Call::Lot {
                label: first,
                size: second,
                n,
                d: third,
                all: fourth,
                recording,
            })
        }
        2 => Some(Call::Run {
            h: first,
            w: flag,
            recording,
        }),
        3 => Some(Call::Block {
            p: first,
            w: flag,
            recording,
        }),
        4 => Some(Call::Stop { why: flag, days: first }),
        _ => None,
    }
}

/// A call on a store of bytes, whatever they are.
pub fn call_on_store(store: &mut [u8], frame: &Frame) -> Answer {
    let mut station = match station_on_store(store, frame.stream) {
        Ok(station) => station,
        Err(refusal) => return [refusal, 0, 0, 0],
    };
    let given = answer(&mut station, call_of(frame).expect("a call"));
    if given[0] == 0 {
        store[area_at(frame.stream)].copy_from_slice(&area_bytes(&station));
    }
    given
}

fn station_on_store(store: &[u8], stream: u32) -> Result<Station, u32> {
    if store.len() != STORE {
        return Err(1);
    }
    if stream >= STREAMS {
        return Err(2);
    }
    read_area(&store[area_at(stream)]).ok_or(3)
}

/// The part of the store that call 9 hands back: from which byte of the store on, and its bytes.
#[derive(Clone, Debug, Default, PartialEq, Eq)]
pub struct Part {
    pub at: usize,
    pub bytes: Vec<u8>,
}

/// The newest so many standing records of a stream, oldest of them first, written anew from its entries. The part ends behind the last
/// standing record, also where no record comes back. "A refusal hands back an empty part", also where there is no station, since the
/// store, the stream or the area is refused; its place is then 0, as in the C header.
pub fn newest_part(station: Option<&Station>, stream: u32, count: u32) -> Part {
    let Some(Station { plan: Some(_), entries }) = station else {
        return Part::default();
    };
    let end = area_at(stream).start + record_at(entries.len()).start;
    let newest = newest(entries, count);
    let mut bytes = vec![0; RECORD * newest.len()];
    for (record, entry) in bytes.chunks_mut(RECORD).zip(newest) {
        put_record(record, entry);
    }
    Part {
        at: end - bytes.len(),
        bytes,
    }
}

/// The same on a store of bytes, whatever they are.
pub fn newest_part_on_store(store: &[u8], stream: u32, count: u32) -> Part {
    newest_part(station_on_store(store, stream).ok().as_ref(), stream, count)
}
