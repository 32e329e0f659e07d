//! The program `frames` on random text, good frames and anything else, written to its standard input in pieces cut anywhere.

use crate::{said, Done, Setting};
use outside::at;
use outside::programs::{printed_by, FRAMES, ROOT};
use reference::{frame, frames_output, line, plain_frame, plain_frames, Caller, Random, ARGUMENTS, DIGITS, OPEN};
use std::io::Write;
use std::time::Duration;
use std::{fs, io, thread};

const TEXTS: u64 = 12;
const LINES: usize = 10_000;
/// So many digits were a frame before it had a recording.
const FORMER_DIGITS: usize = 44;

pub fn test(setting: &Setting) -> Result<Done, String> {
    stored_run()?;
    let seeds = setting.seeds(TEXTS);
    let mut tally = Tally::default();
    for (text, seed) in edges().into_iter().zip(1..) {
        at(
            || format!("edge {seed}, {}", String::from_utf8_lossy(&text)),
            compare(&text, &mut Random::new(seed)),
        )?;
    }
    for seed in seeds.clone() {
        let text = random_text(seed, &mut tally);
        at(|| format!("seed {seed}"), compare(&text, &mut Random::new(seed)))?;
    }
    let what = format!(
        "the stored run, {} edges, {} random lines, {} bytes, {} of the lines no frame, {}, written in pieces",
        edges().len(),
        tally.lines,
        tally.bytes,
        tally.no_frame,
        said(&seeds)
    );
    if tally.no_frame == 0 {
        return Err("every line was a frame".into());
    }
    Ok(Done {
        calls: tally.lines - tally.no_frame,
        what,
    })
}

#[derive(Default)]
struct Tally {
    lines: usize,
    no_frame: usize,
    bytes: usize,
}

/// The run stored beside the program, through the reference and through the program.
fn stored_run() -> Result<(), String> {
    let file = |name: &str| fs::read(format!("{ROOT}/crates/frames/{name}")).map_err(|why| format!("crates/frames/{name}: {why}"));
    let (input, output) = (file("stdin")?, file("stdout")?);
    at(
        || "the stored run, the reference against stdout".into(),
        same_lines(&frames_output(&input), &output),
    )?;
    at(|| "the stored run".into(), compare(&input, &mut Random::new(0)))
}

/// Input without a line, with empty ones, without a line feed at its end, with frames one digit short and one too long, of the former
/// length, with a recording where a call has none.
fn edges() -> Vec<Vec<u8>> {
    let good = line(&plain_frame(OPEN, 0)).into_bytes();
    let mut edges: Vec<Vec<u8>> = vec![
        b"".to_vec(),
        b"\n".to_vec(),
        b"\n\n\n".to_vec(),
        b"\r\n".to_vec(),
        b"\0".to_vec(),
        b"f".to_vec(),
    ];
    edges.push(good.clone());
    for ending in ["\n", "\n\n", "\r\n", "\r", "0\n", "0", " \n", "\n\r\n"] {
        edges.push([&good, ending.as_bytes()].concat());
    }
    edges.push([&good[1..], b"\n"].concat());
    edges.push([b"0", &good[..], b"\n"].concat());
    edges.push([&good, &b"\n"[..], &vec![b'0'; 1 << 20], b"\n", &good].concat());
    edges.push(vec![b'\n'; 100_000]);
    edges.push(plain_lines(|line| line.truncate(FORMER_DIGITS)));
    // a number in the place of each argument, and another one in the next place
    for place in 0..ARGUMENTS {
        edges.push(plain_lines(|line| overwrite(line, number_at(place), "00000001")));
        edges.push(plain_lines(|line| {
            overwrite(line, number_at(place), "00000001");
            overwrite(line, number_at((place + 1) % ARGUMENTS), "0000003c");
        }));
    }
    edges
}

/// Each of the calls on stream 0, its line changed so.
fn plain_lines(change: impl Fn(&mut Vec<u8>)) -> Vec<u8> {
    let lines = plain_frames(0).map(|frame| {
        let mut line = line(&frame).into_bytes();
        change(&mut line);
        line
    });
    lines.join(&b'\n')
}

/// Where the digits of an argument start, by its place.
fn number_at(place: usize) -> usize {
    4 + 8 * place
}

/// So many lines, one in six of them damaged; with an odd seed the last has no line feed. The frames that are left are made on the
/// caller's stations too, so that the next ones go deep.
fn random_text(seed: u64, tally: &mut Tally) -> Vec<u8> {
    let mut caller = Caller::new(seed, LINES, 255);
    let mut text = Vec::new();
    let mut lines = 0;
    while lines < LINES {
        let mut good = line(&caller.next_call()).into_bytes();
        if caller.random.chance(1, 6) {
            good = damaged(&mut caller.random, good);
        }
        for part in good.split(|byte| *byte == b'\n') {
            if lines > 0 {
                text.push(b'\n');
            }
            text.extend_from_slice(part);
            lines += 1;
            match frame(part) {
                Some(frame) => _ = caller.make(&frame),
                None => tally.no_frame += 1,
            }
        }
    }
    if seed.is_multiple_of(2) {
        text.push(b'\n');
    }
    tally.lines += lines;
    tally.bytes += text.len();
    text
}

/// A line with something done to it; some stay frames, some become two lines.
fn damaged(random: &mut Random, mut line: Vec<u8>) -> Vec<u8> {
    let place = random.below(line.len());
    match random.below(19) {
        0 => line[place] ^= 1 << random.below(8),
        1 => line[place] = random.byte(),
        2 => line.push(random.pick(b"0123456789abcdef \r")),
        3 => line.truncate(place),
        4 => line.push(b'\r'),
        5 => line.make_ascii_uppercase(),
        6 => line.clear(),
        7 => overwrite(&mut line, 0, random.pick(&["00", "09", "0a", "0f", "10", "80", "ff"])),
        8 => line[4 + random.below(DIGITS - 4)] = random.pick(b"123456789abcdef"),
        9 => overwrite(&mut line, 2, random.pick(&["10", "11", "7f", "80", "ff"])),
        10 => line[place] = random.pick(b"ABCDEFgG/:`@ -+xX\0\xff\t\r"),
        11 => line.insert(place, random.pick(b"0 \n\r")),
        12 => line = vec![b'0'; random.pick(&[1, 2, FORMER_DIGITS, DIGITS - 1, DIGITS + 1, 68, 88, 200, 3_000, 70_000])],
        13 => line = vec![random.byte(); random.pick(&[DIGITS, DIGITS, DIGITS, 100, 1_000])],
        14 => _ = line.remove(place),
        15 => line.truncate(FORMER_DIGITS),
        // a recording where it belongs, which a stop does not have, and in a run's third and fourth place
        16 => overwrite(&mut line, number_at(5), "000000070000003c"),
        17 => overwrite(&mut line, number_at(2), "000000070000003c"),
        _ => return [line.clone(), line].concat(),
    }
    line
}

fn overwrite(line: &mut [u8], at: usize, digits: &str) {
    line[at..at + digits.len()].copy_from_slice(digits.as_bytes());
}

/// The program and the reference print the same for this input.
fn compare(input: &[u8], random: &mut Random) -> Result<(), String> {
    let printed = printed_by(FRAMES, |stdin| write_in_pieces(stdin, input, random))?;
    same_lines(&printed, &frames_output(input))
}

fn same_lines(ours: &[u8], theirs: &[u8]) -> Result<(), String> {
    if ours == theirs {
        return Ok(());
    }
    let line_of = |bytes: &[u8], at: usize| {
        let line = bytes.split(|byte| *byte == b'\n').nth(at).unwrap_or_default();
        String::from_utf8_lossy(line).into_owned()
    };
    let same = ours.iter().zip(theirs).take_while(|(a, b)| a == b);
    let at = same.filter(|(byte, _)| **byte == b'\n').count();
    let (is, expected) = (line_of(ours, at), line_of(theirs, at));
    Err(format!("line {} is '{is}', expected '{expected}'", at + 1))
}

/// A rest now and then, so that the program reads up to there and no further.
fn write_in_pieces(stdin: &mut impl Write, mut rest: &[u8], random: &mut Random) -> io::Result<()> {
    while !rest.is_empty() {
        let longest = random.pick(&[1, 3, DIGITS, DIGITS + 1, DIGITS + 2, 500, 5_000, 70_000]);
        let (piece, after) = rest.split_at((1 + random.below(longest)).min(rest.len()));
        stdin.write_all(piece)?;
        stdin.flush()?;
        if random.chance(1, 4) {
            thread::sleep(Duration::from_micros(100));
        }
        rest = after;
    }
    Ok(())
}
