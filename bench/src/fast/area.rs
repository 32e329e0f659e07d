//! An area: its bytes, and the reading that checks every one of them.

use super::continuous::Continuous;
use super::credit::Credit;
use super::level::Level;

pub const STREAMS: usize = 16;
pub const MOST_RECORDS: usize = 128;
pub const HEADER_LENGTH: usize = 48;
pub const RECORD_LENGTH: usize = 20;
pub const AREA_LENGTH: usize = HEADER_LENGTH + RECORD_LENGTH * MOST_RECORDS;
pub const STORE_LENGTH: usize = STREAMS * AREA_LENGTH;

pub type Area = [u8; AREA_LENGTH];
pub type Record = [u8; RECORD_LENGTH];

// A record's first four bytes: kind, flag, two zeros.
pub const LOT: u32 = 1;
pub const RUN: u32 = 2;
pub const RUN_WRONG: u32 = RUN | 1 << 8;
pub const BLOCK: u32 = 3;
pub const BLOCK_WRONG: u32 = BLOCK | 1 << 8;
pub const STOP: u32 = 4;
pub const PAUSE: u32 = STOP | 1 << 8;
pub const CHANGE: u32 = STOP | 2 << 8;

pub const MOST_SIZE: u32 = 1_000_000;
pub const LONGEST_PAUSE: u32 = 255;
// A pause of more days moves a stream.
pub const SHORT_PAUSE: u32 = 3;

// In place of the newest lot's label where no lot stands: no label is as large.
pub const NO_LABEL: u64 = 1 << 32;

#[derive(Clone, Copy)]
pub struct Plan {
    pub option: u32,
    pub a: u32,
    pub b: u32,
}

impl Plan {
    pub fn is_for_lots(&self, most: u32) -> bool {
        self.a.wrapping_sub(1) < most && self.b == 0 && self.option <= 1
    }

    pub fn is_continuous(&self) -> bool {
        self.a.wrapping_sub(1) < 10_000 && self.b >= 2 && self.b <= 200 && self.option == 0
    }
}

// The figures of one kind of plan, and what a replay has to know beside them.
pub trait Figures: Copy {
    fn is_valid(plan: &Plan) -> bool;
    fn start(plan: &Plan) -> Self;
    // False where the record could not stand here; the figures are then of no use.
    fn enter(&mut self, plan: &Plan, record: &Record) -> bool;
    // Bytes 16 to 39 of the area.
    fn words(&self, plan: &Plan) -> [u64; 3];
}

pub struct Standing<F> {
    pub plan: Plan,
    pub count: usize,
    pub figures: F,
}

pub enum Reading {
    Credit(Standing<Credit>),
    Level(Standing<Level>),
    Continuous(Standing<Continuous>),
}

// Refuses with 3 or 6 where no plan stands.
#[inline(always)]
pub fn reading(area: &Area) -> Result<Reading, u32> {
    match area[0] {
        0 => unopened(area),
        1 => Ok(Reading::Credit(standing(area)?)),
        2 => Ok(Reading::Level(standing(area)?)),
        3 => Ok(Reading::Continuous(standing(area)?)),
        _ => Err(3),
    }
}

pub fn unopened<T>(area: &Area) -> Result<T, u32> {
    Err(if is_zero(area) { 6 } else { 3 })
}

#[inline(never)]
pub fn standing<F: Figures>(area: &Area) -> Result<Standing<F>, u32> {
    let (plan, records) = standing_records(area)?;
    let figures = replay::<F>(&plan, records).ok_or(3u32)?;
    sound(area, &plan, records.len(), &figures)?;
    Ok(Standing {
        plan,
        count: records.len(),
        figures,
    })
}

pub fn standing_records(area: &Area) -> Result<(Plan, &[Record]), u32> {
    let plan = Plan {
        option: area[1] as u32,
        a: get_u32(area, 4),
        b: get_u32(area, 8),
    };
    let count = get_u32(area, 0) >> 16;
    let records = area[HEADER_LENGTH..].as_chunks().0;
    Ok((plan, records.get(..count as usize).ok_or(3u32)?))
}

#[inline(always)]
pub fn replay<F: Figures>(plan: &Plan, records: &[Record]) -> Option<F> {
    if !F::is_valid(plan) {
        return None;
    }
    let mut figures = F::start(plan);
    for record in records {
        if !figures.enter(plan, record) {
            return None;
        }
    }
    Some(figures)
}

// Whether the bytes outside the plan and the standing records are those that such figures leave.
#[inline(always)]
pub fn sound<F: Figures>(area: &Area, plan: &Plan, count: usize, figures: &F) -> Result<(), u32> {
    let [first, second, third] = figures.words(plan);
    let differing = get_u32(area, 12) as u64
        | (get_u64(area, 16) ^ first)
        | (get_u64(area, 24) ^ second)
        | (get_u64(area, 32) ^ third)
        | get_u64(area, 40);
    if differing != 0 || !is_zero(&area[HEADER_LENGTH + RECORD_LENGTH * count..]) {
        return Err(3);
    }
    Ok(())
}

// It leaves at no byte, so that it is compiled to steps of many bytes.
pub fn is_zero(bytes: &[u8]) -> bool {
    bytes.iter().fold(0, |bits, byte| bits | byte) == 0
}

// Whether a record is a stop, of those that credit and level streams take.
pub fn is_stop(record: &Record) -> bool {
    let (head, days) = (get_u32(record, 0), get_u32(record, 4));
    let fits = (head == PAUSE && days <= LONGEST_PAUSE) || (head == CHANGE && days == 0);
    fits && get_u64(record, 8) | get_u32(record, 16) as u64 == 0
}

pub fn record_of(head: u32, a: u32, b: u32, c: u32, d: u32) -> Record {
    let mut record = [0; RECORD_LENGTH];
    for (bytes, number) in record.as_chunks_mut::<4>().0.iter_mut().zip([head, a, b, c, d]) {
        *bytes = number.to_le_bytes();
    }
    record
}

pub fn put_plan(area: &mut Area, kind: u32, plan: &Plan) {
    put_u32(area, 0, kind | plan.option << 8);
    put_u32(area, 4, plan.a);
    put_u32(area, 8, plan.b);
}

pub fn put_record(area: &mut Area, i: usize, record: &Record) {
    area[HEADER_LENGTH..].as_chunks_mut().0[i] = *record;
}

pub fn put_count(area: &mut Area, count: usize) {
    area[2] = count as u8;
}

pub fn put_figures(area: &mut Area, figures: [u64; 3]) {
    for (bytes, word) in area[16..40].as_chunks_mut::<8>().0.iter_mut().zip(figures) {
        *bytes = word.to_le_bytes();
    }
}

fn put_u32(area: &mut Area, at: usize, number: u32) {
    area[at..at + 4].copy_from_slice(&number.to_le_bytes());
}

// Each offset is a constant that lies inside, so that nothing is left of the `expect`.
pub fn get_u32<const LENGTH: usize>(bytes: &[u8; LENGTH], at: usize) -> u32 {
    u32::from_le_bytes(*bytes[at..].first_chunk().expect("four bytes"))
}

pub fn get_u64<const LENGTH: usize>(bytes: &[u8; LENGTH], at: usize) -> u64 {
    u64::from_le_bytes(*bytes[at..].first_chunk().expect("eight bytes"))
}
