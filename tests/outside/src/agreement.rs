//! Whether an implementation answers as the reference does and leaves the same bytes: on random lists of calls, on areas that were
//! damaged after them, some with figures that fit the damage, and at edges. The library is tested so, and each implementation before
//! it is measured.

use crate::{at, same, Make};
use reference::{
    area_at, area_bytes, call_on_store, figures, header, plain_frames, read_area, record_at, Caller, Entry, Frame, Random, Station,
    AREA, ASK, CONTINUOUS, CREDIT, FULL, LARGEST_CEILING, LEVEL, LOT, NEWEST, OPEN, RECORD, RECORDS_FROM, STOP, STORE, STREAMS,
};

// Damage is done after every so many calls of a list, so many times.
const BETWEEN_DAMAGES: usize = 20;
const DAMAGES: usize = 6;

/// So many calls were compared; so many damaged areas were sound still, and unsound.
#[derive(Default)]
pub struct Compared {
    pub calls: usize,
    pub sound: usize,
    pub unsound: usize,
}

/// Makes a list of random calls, and calls on damaged copies of what it leaves.
pub fn agrees(make: Make, seed: u64, calls: usize, compared: &mut Compared) -> Result<(), String> {
    let mut caller = Caller::new(seed, calls, u32::MAX);
    let (mut ours, mut theirs) = (vec![0; STORE], vec![0; STORE]);
    for k in 0..calls {
        let frame = caller.next_call();
        let expected = caller.make(&frame);
        caller.write_area(&mut theirs, frame.stream);
        let place = || format!("seed {seed}, call {k}, {frame:?}");
        at(place, same((make(&mut ours, &frame), &ours), (expected, &theirs)))?;
        compared.calls += 1;
        if k % BETWEEN_DAMAGES == 0 && frame.stream < STREAMS {
            at(place, on_damaged(make, &mut caller, &ours, frame.stream, compared))?;
        }
    }
    Ok(())
}

/// Makes calls where random ones hardly get: stores of another length; a ceiling just above the range, and the largest; a sample without
/// a rest, with one wrong more than it; a number whose low bytes would do; a recording whose number is 0 and whose second is not; a count
/// whose low bytes would do; the largest credit there is.
pub fn agrees_at_edges(make: Make, compared: &mut Compared) -> Result<(), String> {
    for length in [0, STORE - 1, STORE + 1] {
        for frame in plain_frames(0) {
            agrees_on(make, &mut vec![0; length], &frame, compared)?;
        }
    }
    let calls = [
        (OPEN, [LEVEL, 0, 1, 0, 1, 0, 0]),
        (OPEN, [CONTINUOUS, 0, 10, 4, 1 << 24, 0, 0]),
        (OPEN, [CREDIT, 0, 10_000, 0, LARGEST_CEILING + 1, 0, 0]),
        (OPEN, [CREDIT, 0, 10_000, 0, LARGEST_CEILING, 0, 0]),
        (OPEN, [CREDIT, 0, 10_000, 0, LARGEST_CEILING + 1, 0, 0]),
        (LOT, [1, 9_900, 99, 100, 100, 1, 0]),
        (STOP, [1 << 24 | 1, 2, 0, 0, 0, 0, 0]),
        (LOT, [1, 9_900, 99, 0, 0, 0, 1]),
        (LOT, [1, 9_900, 99, 0, 0, 1 << 24, u32::MAX]),
        (STOP, [1, 2, 0, 0, 0, 0, 0]),
        (NEWEST, [1 << 24 | 1, 0, 0, 0, 0, 0, 0]),
    ];
    let mut store = vec![0; STORE];
    for (call, args) in calls {
        agrees_on(make, &mut store, &Frame { call, stream: 3, args }, compared)?;
    }
    agrees_at_largest_credit(make, compared)
}

// Fills a stream with the largest lots at the largest limit, and asks for one more: the largest sum that a sample comes from.
fn agrees_at_largest_credit(make: Make, compared: &mut Compared) -> Result<(), String> {
    let open = (OPEN, [CREDIT, 0, 500_000, 0, 0, 0, 0]);
    let lot = |label| (LOT, [label, 1_000_000, if label == 1 { 2 } else { 1 }, 0, 0, 1, 0]);
    let ask = (ASK, [1_000_000, 0, 0, 0, 0, 0, 0]);
    let mut store = vec![0; STORE];
    let lots = (1..=FULL as u32).map(lot);
    for (call, args) in [open].into_iter().chain(lots).chain([ask]) {
        agrees_on(make, &mut store, &Frame { call, stream: 3, args }, compared)?;
    }
    match header::CREDIT.get(&store[area_at(3)]) {
        128_000_000 => Ok(()),
        credit => Err(format!("a full stream of the largest lots has credit {credit}")),
    }
}

// Makes the call on the store, and on a copy by the reference.
fn agrees_on(make: Make, store: &mut [u8], frame: &Frame, compared: &mut Compared) -> Result<(), String> {
    let mut theirs = store.to_vec();
    let expected = call_on_store(&mut theirs, frame);
    let answer = make(store, frame);
    compared.calls += 1;
    at(
        || format!("{} bytes, {frame:?}", store.len()),
        same((answer, store), (expected, &theirs)),
    )
}

// Damages the stream's area in some ways, and makes each of the calls there.
fn on_damaged(make: Make, caller: &mut Caller, store: &[u8], stream: u32, compared: &mut Compared) -> Result<(), String> {
    let station = caller.station(stream).expect("a stream").clone();
    for _ in 0..DAMAGES {
        let mut area = store[area_at(stream)].to_vec();
        match caller.random.below(7) {
            0 => add_stop(&mut area, station.entries.len()),
            1 | 2 => change_byte(&mut caller.random, &mut area, station.entries.len()),
            3 => area = area_bytes(&with_another_ceiling(&mut caller.random, station.clone())),
            _ => area = area_bytes(&forged(&mut caller.random, station.clone())),
        }
        match read_area(&area) {
            Some(_) => compared.sound += 1,
            None => compared.unsound += 1,
        }
        let mut damaged = store.to_vec();
        damaged[area_at(stream)].copy_from_slice(&area);
        for plain in plain_frames(stream) {
            let next = caller.call_on(stream);
            let frame = if next.call == plain.call { next } else { plain };
            at(|| "damaged".into(), agrees_on(make, &mut damaged.clone(), &frame, compared))?;
        }
    }
    Ok(())
}

// One more stop, of no effect: it can stand anywhere but on a discontinued stream.
fn add_stop(area: &mut [u8], entries: usize) {
    if entries < FULL {
        header::COUNT.put(area, entries as u64 + 1);
        area[record_at(entries)][..8].copy_from_slice(&[4, 1, 0, 0, 2, 0, 0, 0]);
    }
}

// One byte of the header, of a standing record, or of the rest.
fn change_byte(random: &mut Random, area: &mut [u8], entries: usize) {
    let at = match random.below(3) {
        0 => random.below(RECORDS_FROM),
        1 if entries > 0 => RECORDS_FROM + random.below(RECORD * entries),
        _ => random.below(AREA),
    };
    area[at] = match random.below(3) {
        0 => area[at].wrapping_add(1),
        1 => area[at] ^ 1 << random.below(8),
        _ => random.byte(),
    };
}

// A ceiling that the plan may have, under which the samples of the standing lots are others, or that it may not have.
fn with_another_ceiling(random: &mut Random, mut station: Station) -> Station {
    if let Some(plan) = &mut station.plan {
        plan.ceiling = random.pick(&[0, 1, 100, 10_000, LARGEST_CEILING, LARGEST_CEILING + 1]);
    }
    station
}

// Entries as no calls would leave them, or as others would; the figures are made to fit them.
fn forged(random: &mut Random, mut station: Station) -> Station {
    let entries = &mut station.entries;
    if entries.is_empty() {
        return station;
    }
    let at = random.below(entries.len());
    match random.below(4) {
        0 => drop(entries.remove(at)),
        1 if entries.len() < FULL => entries.insert(at, entries[at]),
        2 => entries.swap(at, 0),
        _ => {
            let b = station.plan.map_or(0, |plan| plan.b);
            let other = |n: u32, random: &mut Random| match random.below(3) {
                0 => n + 1,
                1 => n.saturating_sub(1),
                _ => random.pick(&[0, 1, 10_000, 10_001, 1_000_000, 1_000_001]),
            };
            match &mut entries[at] {
                // No more than the lot has, and no place outside the block: the reference's figures do not go below 0.
                Entry::Lot {
                    label,
                    size,
                    d,
                    all,
                    recording,
                } => match random.below(5) {
                    0 => *label = other(*label % 7, random),
                    1 => *size = other(*size, random).max(*all),
                    2 => *d = other(*d, random),
                    3 => recording.number = random.pick(&[0, 0, 1, u32::MAX]),
                    _ => *all = other(*all, random).min(*size),
                },
                Entry::Run { recording, .. } | Entry::Block { recording, .. } if random.chance(1, 3) => {
                    recording.number = random.pick(&[0, 0, 1, u32::MAX])
                }
                Entry::Run { h, .. } => *h = other(*h, random),
                Entry::Block { p, .. } => *p = other(*p, random).clamp(1, b),
                Entry::Stop { days, .. } => *days = other(*days, random),
            }
        }
    }
    // The reference has no figures after a lot on a discontinued stream.
    let ended = |count: &usize| {
        station
            .plan
            .is_some_and(|plan| figures(&plan, &station.entries[..*count]).level == 3)
    };
    let end = (0..station.entries.len()).find(ended).unwrap_or(station.entries.len());
    station.entries.truncate(end);
    station
}
