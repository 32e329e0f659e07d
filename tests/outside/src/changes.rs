//! What an area's bytes are, and ways to change them.

use reference::{
    area_at, header, record, record_at, Place, Random, AREA, CONTINUOUS, CREDIT, FULL, LARGEST_CEILING, LEVEL, RECORD,
    RECORDS_FROM, STREAMS,
};

/// Parts of which one byte may be changed so that some other list of calls could have left the area.
pub const SOUND_BY_ONE_BYTE: [&str; 16] = [
    "option",
    "A",
    "B",
    "ceiling",
    "lot: label",
    "lot: N",
    "lot: d",
    "block: p",
    "stop: why",
    "stop: days",
    "lot: recording",
    "run: recording",
    "block: recording",
    "lot: second",
    "run: second",
    "block: second",
];

/// Parts of which every byte is free: any second is one.
pub const ALWAYS_SOUND_BY_ONE_BYTE: [&str; 3] = ["lot: second", "run: second", "block: second"];

/// Parts whose bytes are zero in every sound area.
pub const NEVER_SOUND_BY_ONE_BYTE: [&str; 8] = [
    "unused",
    "no ceiling, level",
    "no ceiling, continuous",
    "unused numbers of a record",
    "zero bytes of a record",
    "stop: recording",
    "stop: second",
    "after the last record",
];

const HEADER: [(&str, Place); 14] = [
    ("plan kind", header::KIND),
    ("option", header::OPTION),
    ("count", header::COUNT),
    ("A", header::A),
    ("B", header::B),
    ("credit", header::CREDIT),
    ("level", header::LEVEL),
    ("row", header::ROW),
    ("lots on tightened", header::TIGHTENED),
    ("window", header::WINDOW),
    ("c", header::C),
    ("phase", header::PHASE),
    ("u", header::U),
    ("accepted", header::ACCEPTED),
];

/// What a byte of this area is.
pub fn part(area: &[u8], byte: usize) -> &'static str {
    if byte >= RECORDS_FROM {
        let (k, byte) = ((byte - RECORDS_FROM) / RECORD, (byte - RECORDS_FROM) % RECORD);
        return record_part(&area[record_at(k)], byte);
    }
    if header::CEILING.contains(byte) {
        return ceiling_part(area);
    }
    let part = HEADER.into_iter().find(|(_, place)| place.contains(byte));
    part.map_or("unused", |(name, _)| name)
}

/// "only credit plans may set it"
fn ceiling_part(area: &[u8]) -> &'static str {
    match header::KIND.get(area) as u32 {
        CREDIT => "ceiling",
        LEVEL => "no ceiling, level",
        CONTINUOUS => "no ceiling, continuous",
        _ => "unused",
    }
}

fn record_part(bytes: &[u8], byte: usize) -> &'static str {
    const UNUSED: &str = "unused numbers of a record";
    let (flag, numbers, recording) = match record::KIND.get(bytes) {
        0 => return "after the last record",
        1 => (
            "lot: flag",
            ["lot: label", "lot: N", "lot: d", "lot: D"],
            ["lot: recording", "lot: second"],
        ),
        2 => (
            "run: w",
            ["run: h", UNUSED, UNUSED, UNUSED],
            ["run: recording", "run: second"],
        ),
        3 => (
            "block: w",
            ["block: p", UNUSED, UNUSED, UNUSED],
            ["block: recording", "block: second"],
        ),
        _ => (
            "stop: why",
            ["stop: days", UNUSED, UNUSED, UNUSED],
            ["stop: recording", "stop: second"],
        ),
    };
    match record::NUMBERS.iter().position(|place| place.contains(byte)) {
        Some(k) => numbers[k],
        None if record::KIND.contains(byte) => "record kind",
        None if record::FLAG.contains(byte) => flag,
        None if record::RECORDING.contains(byte) => recording[0],
        None if record::SECOND.contains(byte) => recording[1],
        None => "zero bytes of a record",
    }
}

/// Changes of a whole area that may leave it sound.
pub const SOUND_AS_A_WHOLE: [&str; 11] = [
    "another ceiling",
    THE_LARGEST_CEILING,
    "two neighbouring records swapped",
    "N moved from one lot to another",
    "N, credit and accepted raised",
    "d and D raised",
    "h moved from one run to another",
    "a stop added",
    "the newest record removed",
    ANOTHER_RECORDING,
    ANOTHER_AREA,
];

/// The changes that always do: a lot, run or block may have any recording but 0, an area does not know its stream, and no credit before a
/// lot is above the largest ceiling, which so leaves every sample as it is without one.
pub const ALWAYS_SOUND: [&str; 3] = [ANOTHER_RECORDING, ANOTHER_AREA, THE_LARGEST_CEILING];
const ANOTHER_RECORDING: &str = "another recording";
const ANOTHER_AREA: &str = "another stream's area";
const THE_LARGEST_CEILING: &str = "the largest ceiling in place of none";

/// Changes that never leave an area sound: a recording is found exactly where a lot, run or block stands, and a ceiling in range only on a
/// credit plan.
pub const NEVER_SOUND: [&str; 10] = [
    "a ceiling above the range",
    "a ceiling put on a level plan",
    "a ceiling put on a continuous plan",
    "recording number 0",
    "recording lost",
    "a recording put on a stop",
    "a second put on a stop",
    "a recording and a second put on a stop",
    "a recording behind the last record",
    "a second behind the last record",
];

/// Changes an area with so many records in one way of many, and names it. The store is where other areas are.
pub fn change(random: &mut Random, count: usize, area: &mut [u8], store: &[u8]) -> &'static str {
    match random.below(12) {
        0 => change_all(random, area, store),
        1..=3 => change_header(random, count, area),
        4..=5 if count > 0 => change_number(random, count, area),
        6..=7 => change_recording(random, count, area),
        8 => change_ceiling(random, area),
        _ if count > 0 => change_records(random, count, area),
        _ => change_header(random, count, area),
    }
}

fn change_all(random: &mut Random, area: &mut [u8], store: &[u8]) -> &'static str {
    match random.below(3) {
        0 => {
            area.iter_mut().for_each(|byte| *byte = random.byte());
            "random bytes"
        }
        1 => {
            area[random.below(AREA)] = random.byte();
            "one byte"
        }
        _ => {
            let stream = random.range(0, STREAMS - 1);
            area.copy_from_slice(&store[area_at(stream)]);
            ANOTHER_AREA
        }
    }
}

fn change_header(random: &mut Random, count: usize, area: &mut [u8]) -> &'static str {
    match random.below(6) {
        0 if count > 0 => {
            set_count(area, count - 1);
            "count one less, the record left"
        }
        1 if count < FULL => {
            set_count(area, count + 1);
            "count one more, no record"
        }
        2 => {
            set_count(area, random.pick(&[129, 255, 256, 257, 384, 65_535]));
            "count above 128"
        }
        3 => {
            raise(area, &[header::CREDIT.at, header::C.at, header::ACCEPTED.at], 1);
            "figures raised together"
        }
        4 => {
            header::KIND.put(area, random.pick(&[0, 0, 1, 2, 3, 4, 255]));
            "plan kind"
        }
        _ => {
            area[..RECORDS_FROM].fill(0);
            area[random.below(RECORDS_FROM)] = 1;
            "header lost"
        }
    }
}

/// The ceiling: 1, the largest, some in range, the first above it and others; of a plan that may have one, and of others.
fn change_ceiling(random: &mut Random, area: &mut [u8]) -> &'static str {
    let kind = header::KIND.get(area) as u32;
    let had_none = header::CEILING.get(area) == 0;
    let ceiling = match random.below(5) {
        0 => 1,
        1 => LARGEST_CEILING,
        2 => random.range(0, LARGEST_CEILING),
        3 => random.range(0, 2_000),
        _ => random.pick(&[LARGEST_CEILING + 1, 1 << 31, u32::MAX]),
    };
    header::CEILING.put(area, ceiling.into());
    match kind {
        CREDIT if ceiling > LARGEST_CEILING => "a ceiling above the range",
        CREDIT if ceiling == LARGEST_CEILING && had_none => THE_LARGEST_CEILING,
        CREDIT => "another ceiling",
        LEVEL => "a ceiling put on a level plan",
        CONTINUOUS => "a ceiling put on a continuous plan",
        _ => "a ceiling put on no plan",
    }
}

/// Numbers of the records, some with figures to match.
fn change_number(random: &mut Random, count: usize, area: &mut [u8]) -> &'static str {
    let k = random.below(count);
    let (here, next) = (record_at(k).start, record_at(k + 1).start);
    let alike = |area: &[u8], kind: u8| k + 1 < count && area[here] == kind && area[next] == kind;
    let [first, second, third, fourth] = record::NUMBERS.map(|place| place.at);
    match random.below(5) {
        0 if alike(area, 1) => {
            let by = random.range(1, 3);
            raise(area, &[here + second], by.wrapping_neg());
            raise(area, &[next + second], by);
            "N moved from one lot to another"
        }
        0 | 1 if alike(area, 2) => {
            raise(area, &[here + first], u32::MAX);
            raise(area, &[next + first], 1);
            "h moved from one run to another"
        }
        2 => {
            raise(area, &[here + second, header::CREDIT.at, header::ACCEPTED.at], 1);
            "N, credit and accepted raised"
        }
        3 => {
            raise(area, &[here + third, here + fourth], 1);
            "d and D raised"
        }
        _ => {
            let byte = here + random.below(RECORD);
            area[byte] = area[byte].wrapping_add(random.pick(&[1, 255]));
            "one byte of a record"
        }
    }
}

/// Recordings: of a standing record, or behind the last.
fn change_recording(random: &mut Random, count: usize, area: &mut [u8]) -> &'static str {
    let some = |random: &mut Random| random.pick(&[1, 255, 256, 1 << 31, u32::MAX]).into();
    let behind = count < FULL && (count == 0 || random.chance(1, 5));
    let record = &mut area[record_at(if behind { count } else { random.below(count) })];
    let stop = record::KIND.get(record) == 4;
    match random.below(4) {
        0 | 1 if behind => {
            record::RECORDING.put(record, some(random));
            "a recording behind the last record"
        }
        _ if behind => {
            record::SECOND.put(record, some(random));
            "a second behind the last record"
        }
        0 if stop => {
            record::RECORDING.put(record, some(random));
            "a recording put on a stop"
        }
        1 if stop => {
            record::SECOND.put(record, some(random));
            "a second put on a stop"
        }
        _ if stop => {
            record::RECORDING.put(record, some(random));
            record::SECOND.put(record, some(random));
            "a recording and a second put on a stop"
        }
        0 => {
            record::RECORDING.put(record, 0);
            "recording number 0"
        }
        1 => {
            record::RECORDING.put(record, 0);
            record::SECOND.put(record, 0);
            "recording lost"
        }
        _ => {
            record::RECORDING.put(record, some(random));
            record::SECOND.put(record, random.odd().into());
            ANOTHER_RECORDING
        }
    }
}

/// Whole records.
fn change_records(random: &mut Random, count: usize, area: &mut [u8]) -> &'static str {
    match random.below(4) {
        0 if count > 1 => {
            let (before, after) = area.split_at_mut(record_at(random.below(count - 1) + 1).start);
            let last = before.len() - RECORD;
            before[last..].swap_with_slice(&mut after[..RECORD]);
            "two neighbouring records swapped"
        }
        1 if count < FULL => {
            set_count(area, count + 1);
            let stop = &mut area[record_at(count)];
            record::KIND.put(stop, 4);
            record::FLAG.put(stop, random.pick(&[0, 1, 1, 2, 3]));
            record::NUMBERS[0].put(stop, random.pick(&[0, 0, 3, 4, 255]));
            "a stop added"
        }
        2 => {
            area[record_at(count - 1)].fill(0);
            "the newest record zeroed, the count left"
        }
        _ => {
            area[record_at(count - 1)].fill(0);
            set_count(area, count - 1);
            "the newest record removed"
        }
    }
}

fn set_count(area: &mut [u8], count: usize) {
    header::COUNT.put(area, count as u64);
}

/// Adds to the four-byte numbers at these places.
fn raise(area: &mut [u8], places: &[usize], by: u32) {
    for at in places {
        let place = Place { at: *at, length: 4 };
        let raised = (place.get(area) as u32).wrapping_add(by);
        place.put(area, raised.into());
    }
}
