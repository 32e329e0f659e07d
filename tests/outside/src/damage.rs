//! Areas whose bytes were changed: refusal 3 exactly where the reference reads the area as unsound, with every byte kept; where it
//! is sound still (another label, another limit or ceiling, another recording), the answers, parts and bytes of that other area.

use crate::changes::{
    change, part, ALWAYS_SOUND, ALWAYS_SOUND_BY_ONE_BYTE, NEVER_SOUND, NEVER_SOUND_BY_ONE_BYTE, SOUND_AS_A_WHOLE, SOUND_BY_ONE_BYTE,
};
use crate::{said, Done, Setting};
use outside::{at, hands_back, make, same};
use reference::{
    answer, area_at, area_bytes, call_of, call_on_store, newest_part, plain_frames, read_area, Call, Caller, Frame, Random,
    Station, AREA, CREDIT, FULL, LOT, NEWEST, STORE, STREAMS,
};
use std::collections::BTreeMap;

/// Every byte of sound areas of each plan and option, at so many entries.
const DEPTHS: [usize; 9] = [0, 1, 2, 3, 6, 12, 30, 70, FULL];
/// Credit with option 0 and 1, each without and with a ceiling, level with option 0 and 1, continuous.
const PLANS: usize = 7;
/// So many calls in a list whose areas are changed as a whole.
const CALLS: usize = 40_000;

pub fn every_byte(setting: &Setting) -> Result<Done, String> {
    let mut random = Random::new(setting.seed);
    let mut met = Met::default();
    let mut tried = Tried::new(&mut random);
    let stations = stations(setting.seed, setting.times as usize);
    for station in &stations {
        let area = area_bytes(station);
        let frames = accepted_frames(random.range(0, STREAMS - 1), station);
        for byte in 0..AREA {
            for value in [area[byte].wrapping_add(1), area[byte].wrapping_sub(1), random.byte()] {
                let mut changed = area.clone();
                changed[byte] = value;
                let place = || format!("seed {}, byte {byte} of {station:?} made {value}", setting.seed);
                let sound = at(place, tried.each_call(&frames, &changed))?;
                if changed != area {
                    met.count(part(&area, byte), sound);
                }
            }
        }
    }
    met.complete(&SOUND_BY_ONE_BYTE, &ALWAYS_SOUND_BY_ONE_BYTE, &NEVER_SOUND_BY_ONE_BYTE)?;
    let what = format!(
        "{} calls on {} areas of which each byte was changed in turn, seed {}: {}",
        tried.calls,
        stations.len(),
        setting.seed,
        met.said()
    );
    Ok(Done {
        calls: tried.calls,
        what,
    })
}

pub fn whole_areas(setting: &Setting) -> Result<Done, String> {
    let seeds = setting.seeds(1);
    let mut met = Met::default();
    let mut calls = 0;
    for seed in seeds.clone() {
        calls += changed_list(seed, &mut met)?;
    }
    met.complete(&SOUND_AS_A_WHOLE, &ALWAYS_SOUND, &NEVER_SOUND)?;
    let what = format!(
        "{calls} calls on areas changed in one or two ways, {}: {}",
        said(&seeds),
        met.said()
    );
    Ok(Done { calls, what })
}

/// How often a change of each kind left its area sound, and unsound.
#[derive(Default)]
struct Met(BTreeMap<&'static str, [usize; 2]>);

impl Met {
    fn count(&mut self, kind: &'static str, sound: bool) {
        self.0.entry(kind).or_default()[usize::from(!sound)] += 1;
    }

    /// Each kind that can leave an area sound did, each that can leave it unsound did, and none did what it cannot.
    fn complete(&self, sound: &[&str], always_sound: &[&str], never_sound: &[&str]) -> Result<(), String> {
        if let Some(kind) = sound.iter().find(|kind| self.0.get(*kind).is_none_or(|met| met[0] == 0)) {
            return Err(format!("no change left the area sound: {kind}"));
        }
        if let Some((kind, _)) = self.0.iter().find(|(kind, met)| met[1] == 0 && !always_sound.contains(kind)) {
            return Err(format!("no change left the area unsound: {kind}"));
        }
        if let Some((kind, _)) = self.0.iter().find(|(kind, met)| met[1] > 0 && always_sound.contains(kind)) {
            return Err(format!("a change left the area unsound, which it cannot: {kind}"));
        }
        match never_sound.iter().find(|kind| self.0.get(*kind).is_none_or(|met| met[0] > 0)) {
            Some(kind) => Err(format!(
                "a change left the area sound, which it cannot, or was not met: {kind}"
            )),
            None => Ok(()),
        }
    }

    fn said(&self) -> String {
        let sum = |k: usize| self.0.values().map(|met| met[k]).sum::<usize>();
        format!(
            "changes of {} kinds, {} unsound, {} sound still",
            self.0.len(),
            sum(1),
            sum(0)
        )
    }
}

/// Sound stations of each of the plans at each depth, as random calls leave them.
fn stations(seed: u64, times: usize) -> Vec<Station> {
    let mut found: BTreeMap<(u32, u32, bool, usize), Vec<Station>> = BTreeMap::new();
    let mut wanted = PLANS * DEPTHS.len() * times;
    for list in 0.. {
        let mut caller = Caller::new(seed + list, CALLS, 255);
        for _ in 0..CALLS {
            let frame = caller.next_call();
            caller.make(&frame);
            let Some(station) = caller.station(frame.stream) else {
                continue;
            };
            let Some(plan) = station.plan else { continue };
            let (depth, has_ceiling) = (station.entries.len(), plan.kind == CREDIT && plan.ceiling > 0);
            let alike = found.entry((plan.kind, plan.option, has_ceiling, depth)).or_default();
            if DEPTHS.contains(&depth) && alike.len() < times {
                alike.push(station.clone());
                wanted -= 1;
            }
        }
        if wanted == 0 {
            break;
        }
    }
    found.into_values().flatten().collect()
}

/// A store around the changed area, for the library and as the reference expects it. The other areas hold anything: no call looks
/// at them.
struct Tried {
    store: Vec<u8>,
    expected: Vec<u8>,
    calls: usize,
}

impl Tried {
    fn new(random: &mut Random) -> Self {
        let store: Vec<u8> = (0..STORE).map(|_| random.byte()).collect();
        Tried {
            expected: store.clone(),
            store,
            calls: 0,
        }
    }

    /// Each of these calls on one stream, each on an area of these bytes; gives whether they are sound.
    fn each_call(&mut self, frames: &[Frame], bytes: &[u8]) -> Result<bool, String> {
        let station = read_area(bytes);
        for frame in frames {
            let area = area_at(frame.stream);
            self.store[area.clone()].copy_from_slice(bytes);
            self.expected[area.clone()].copy_from_slice(bytes);
            let theirs = match station.clone() {
                None => [3, 0, 0, 0],
                Some(mut station) => {
                    let given = answer(&mut station, call_of(frame).expect("a call"));
                    self.expected[area].copy_from_slice(&area_bytes(&station));
                    given
                }
            };
            let ours = make(&mut self.store, frame);
            at(|| format!("{frame:?}"), same((ours, &self.store), (theirs, &self.expected)))?;
            if frame.call == NEWEST {
                let [count, ..] = frame.args;
                let part = newest_part(station.as_ref(), frame.stream, count);
                hands_back(&self.store, frame.stream, count, &part)?;
            }
            self.calls += 1;
        }
        Ok(station.is_some())
    }
}

/// The nine calls, each accepted on this station if its plan and state let it.
fn accepted_frames(stream: u32, station: &Station) -> [Frame; NEWEST as usize] {
    const SIZE: u32 = 201;
    let [_, n, _, _] = answer(&mut station.clone(), Call::Ask { size: SIZE });
    plain_frames(stream).map(|mut frame| {
        if frame.call == LOT {
            frame.args = [987_654_321, SIZE, n, 0, 0, 123_456_789, 86_399];
        }
        frame
    })
}

/// Beside a list of calls, each area that they reach is changed on a copy of the store.
fn changed_list(seed: u64, met: &mut Met) -> Result<usize, String> {
    let mut caller = Caller::new(seed, CALLS, 255);
    let mut random = Random::new(seed + 1);
    let mut store = vec![0; STORE];
    let mut tried = Tried::new(&mut random);
    let mut calls = 0;
    for k in 1..=CALLS {
        let frame = caller.next_call();
        caller.make(&frame);
        caller.write_area(&mut store, frame.stream);
        let Some(station) = caller.station(frame.stream) else {
            continue;
        };
        let mut area = area_bytes(station);
        let mut ways = Vec::new();
        for _ in 0..random.pick(&[1, 1, 2]) {
            ways.push(change(&mut random, station.entries.len(), &mut area, &store));
        }
        let place = || format!("seed {seed}, after call {k}, {frame:?}, the area changed: {ways:?}");
        let sound = at(place, tried.each_call(&accepted_frames(frame.stream, station), &area))?;
        if let ([way], true) = (&ways[..], area != area_bytes(station)) {
            met.count(way, sound);
        }
        calls += at(place, next_calls(&mut caller, frame.stream, &store, &area))?;
    }
    Ok(calls + tried.calls)
}

/// The call that the caller would make next on this stream, were it not changed; and one on a neighbour, which is not concerned.
fn next_calls(caller: &mut Caller, stream: u32, store: &[u8], area: &[u8]) -> Result<usize, String> {
    let mut ours = store.to_vec();
    ours[area_at(stream)].copy_from_slice(area);
    let mut theirs = ours.clone();
    for stream in [stream, (stream + 1) % STREAMS] {
        let frame = caller.call_on(stream);
        let answers = (make(&mut ours, &frame), call_on_store(&mut theirs, &frame));
        at(|| format!("{frame:?}"), same((answers.0, &ours), (answers.1, &theirs)))?;
    }
    Ok(2)
}
