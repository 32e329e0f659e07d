//! Call 9 on every kind of stream, at the counts where it turns: its answer and the part of the store that it hands back, by its bytes and
//! its place, on a store that stays as it was. And where it is refused: by 1 and 2, by 3 in an area that is not sound, by 6.

use crate::{said, Done, Setting};
use outside::{at, hands_back, make, same};
use reference::{
    area_at, area_bytes, call_on_store, figures, header, newest_part_on_store, record, record_at, Caller, Frame, Part, Random,
    Station, ARGUMENTS, CREDIT, FULL, LEVEL, NEWEST, RECORD, STORE, STREAMS,
};
use std::collections::BTreeMap;

const LISTS: u64 = 12;
const CALLS: usize = 15_000;
/// Of each kind so many stations of a list are looked at.
const EACH: usize = 12;

/// Every kind of stream. All of them have to be met.
const KINDS: [&str; 12] = [
    "unopened",
    "opened, none stands",
    "credit",
    "level, reduced",
    "level, normal",
    "level, tightened",
    "level, discontinued",
    "continuous, screening",
    "continuous, sampling",
    "credit, full",
    "level, full",
    "continuous, full",
];

pub fn test(setting: &Setting) -> Result<Done, String> {
    let seeds = setting.seeds(LISTS);
    let mut tally = Tally::default();
    for seed in seeds.clone() {
        one_list(seed, &mut tally)?;
    }
    if let Some(kind) = KINDS.iter().find(|kind| !tally.stations.contains_key(*kind)) {
        return Err(format!("no station was {kind}"));
    }
    if tally.cut == 0 || tally.refusals.contains(&0) {
        return Err(format!(
            "too little was met: {} parts cut, refusals {:?}",
            tally.cut, tally.refusals
        ));
    }
    let [first, second, third, sixth] = tally.refusals;
    let what = format!(
        "{} calls on {} stations of {} kinds, {}: {} parts of {} records, {} of the parts cut by the count; refused by 1 {first}, by 2 \
         {second}, by 3 {third}, by 6 {sixth} times",
        tally.calls,
        tally.stations.values().sum::<usize>(),
        KINDS.len(),
        said(&seeds),
        tally.parts,
        tally.records,
        tally.cut,
    );
    Ok(Done {
        calls: tally.calls,
        what,
    })
}

#[derive(Default)]
struct Tally {
    calls: usize,
    stations: BTreeMap<&'static str, usize>,
    parts: usize,
    records: usize,
    cut: usize,
    /// By 1, 2, 3 and 6.
    refusals: [usize; 4],
}

/// Stations as random calls leave them, each on a store whose other areas hold anything.
fn one_list(seed: u64, tally: &mut Tally) -> Result<(), String> {
    let mut caller = Caller::new(seed, CALLS, u32::MAX);
    let mut random = Random::new(seed + 1);
    let mut looked_at: BTreeMap<&'static str, usize> = BTreeMap::new();
    for k in 0..CALLS {
        let frame = caller.next_call();
        caller.make(&frame);
        let Some(station) = caller.station(frame.stream) else {
            continue;
        };
        let looked = looked_at.entry(kind(station)).or_default();
        if *looked == EACH || !random.chance(1, 3) {
            continue;
        }
        *looked += 1;
        *tally.stations.entry(kind(station)).or_default() += 1;
        let place = || format!("seed {seed}, after call {k}, stream {} with {station:?}", frame.stream);
        at(place, on_station(&mut random, frame.stream, station, tally))?;
    }
    Ok(())
}

fn kind(station: &Station) -> &'static str {
    let Some(plan) = station.plan else {
        return "unopened";
    };
    let now = figures(&plan, &station.entries);
    match (plan.kind, station.entries.len()) {
        (_, 0) => "opened, none stands",
        (CREDIT, FULL) => "credit, full",
        (LEVEL, FULL) => "level, full",
        (_, FULL) => "continuous, full",
        (CREDIT, _) => "credit",
        (LEVEL, _) => ["level, reduced", "level, normal", "level, tightened", "level, discontinued"][now.level as usize],
        _ => ["continuous, screening", "continuous, sampling"][now.phase as usize],
    }
}

fn on_station(random: &mut Random, stream: u32, station: &Station, tally: &mut Tally) -> Result<(), String> {
    let stand = station.entries.len() as u32;
    let mut store: Vec<u8> = (0..STORE).map(|_| random.byte()).collect();
    store[area_at(stream)].copy_from_slice(&area_bytes(station));
    let some = random.range(0, FULL as u32);
    for count in [
        0,
        1,
        stand.saturating_sub(1),
        stand,
        stand + 1,
        FULL as u32,
        1 << 24,
        u32::MAX,
        some,
    ] {
        let part = newest(&store, stream, count, tally)?;
        ends_with_the_last(&part, stream, station, count)?;
        tally.cut += usize::from(count > 0 && count < stand);
    }
    let unsound = damaged(random, &store, stream, station);
    for (store, stream) in [
        (&store[..STORE - 1], stream),
        (&store[..0], stream),
        (&store[..], STREAMS),
        (&store[..], stream + 256),
        (&store[..], u32::MAX),
        (&unsound[..], stream),
    ] {
        for count in [0, 1, u32::MAX] {
            let part = newest(store, stream, count, tally)?;
            if part != Part::default() {
                return Err(format!("stream {stream} of {} bytes hands back {part:?}", store.len()));
            }
        }
    }
    Ok(())
}

/// The library's answer and part are the reference's, which is given, and its store stays.
fn newest(store: &[u8], stream: u32, count: u32, tally: &mut Tally) -> Result<Part, String> {
    let mut args = [0; ARGUMENTS];
    args[0] = count;
    let frame = Frame {
        call: NEWEST,
        stream,
        args,
    };
    let (mut ours, mut theirs) = (store.to_vec(), store.to_vec());
    let answers = (make(&mut ours, &frame), call_on_store(&mut theirs, &frame));
    at(|| format!("count {count}"), same((answers.0, &ours), (answers.1, &theirs)))?;
    if ours != store {
        return Err(format!("count {count} writes the store"));
    }
    let part = newest_part_on_store(store, stream, count);
    hands_back(store, stream, count, &part)?;
    tally.calls += 1;
    match answers.1[0] {
        0 => {
            tally.parts += 1;
            tally.records += part.bytes.len() / RECORD;
        }
        refusal => {
            let k = [1, 2, 3, 6].iter().position(|known| *known == refusal);
            tally.refusals[k.ok_or(format!("call 9 is refused by {refusal}"))?] += 1;
        }
    }
    Ok(part)
}

/// What needs no second implementation: the part has so many records, as they lie in the area, and ends behind the last standing one.
fn ends_with_the_last(part: &Part, stream: u32, station: &Station, count: u32) -> Result<(), String> {
    let (stand, area) = (station.entries.len(), area_at(stream));
    let back = stand.min(count as usize);
    let expected = match station.plan {
        None => Part::default(),
        Some(_) => Part {
            at: area.start + record_at(stand - back).start,
            bytes: area_bytes(station)[record_at(stand - back).start..record_at(stand).start].to_vec(),
        },
    };
    if *part != expected {
        return Err(format!("count {count}: {part:?}, expected {expected:?}"));
    }
    Ok(())
}

/// The store with the stream's area unsound in some way: in its records, behind them, or in its header.
fn damaged(random: &mut Random, store: &[u8], stream: u32, station: &Station) -> Vec<u8> {
    let mut store = store.to_vec();
    let area = &mut store[area_at(stream)];
    let stand = station.entries.len();
    match random.below(4) {
        0 if stand > 0 => {
            let newest = &mut area[record_at(stand - 1)];
            match record::KIND.get(newest) {
                4 => record::SECOND.put(newest, 1),
                _ => record::RECORDING.put(newest, 0),
            }
        }
        1 if stand < FULL => record::RECORDING.put(&mut area[record_at(stand)], 1),
        2 if stand > 0 => header::COUNT.put(area, stand as u64 - 1),
        _ => header::COUNT.put(area, FULL as u64 + 1),
    }
    store
}
