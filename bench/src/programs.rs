//! The programs over standard input and output: a file of frames, their time on it, and the most memory that they had.

use crate::Target;
use reference::{line, Caller};
use std::fs::{self, File};
use std::io::{BufWriter, Result, Write};
use std::path::Path;
use std::process::{Command, Stdio};
use std::thread::sleep;
use std::time::{Duration, Instant};

const FRAMES: usize = 1_000_000;
const ROUNDS: usize = 25;
// In KiB.
const MOST_MEMORY_ABOVE_C: u64 = 2 * 1024;

// Places in the list of programs.
const OURS: usize = 0;
const FAST: usize = 1;
const PLAIN: usize = 2;
const NAMES: [&str; 3] = ["frames", "over (b)", "over (a)"];

/// Measures the program beside those over (b) and (a), and prints the table.
pub fn report() -> std::result::Result<Vec<Target>, String> {
    measured().unwrap_or_else(|error| Err(format!("a program cannot be run: {error}")))
}

fn measured() -> Result<std::result::Result<Vec<Target>, String>> {
    let built = std::env::current_exe()?.parent().expect("a folder").to_path_buf();
    let folder = Path::new("target/bench");
    fs::create_dir_all(folder)?;
    let input = folder.join("frames.in");
    let accepted = write_frames(&input, FRAMES)?;
    let programs = [
        Path::new("target/bin/frames").to_path_buf(),
        built.join("frames_fast"),
        built.join("frames"),
    ];
    let outputs = ["ours.out", "fast.out", "plain.out"].map(|name| folder.join(name));
    let mut times = [const { Vec::new() }; 3];
    for round in 0..ROUNDS {
        // The plain one takes long, and once is enough to see by how much.
        for k in if round == 0 { 0..3 } else { 0..2 } {
            times[k].push(run(&programs[k], &input, &outputs[k])?);
        }
    }
    let answers = fs::read(&outputs[PLAIN])?;
    if fs::read(&outputs[OURS])? != answers || fs::read(&outputs[FAST])? != answers {
        return Ok(Err("the programs print different answers".into()));
    }
    let memory = peak_memory(&programs[OURS], &input)?;
    let bare = peak_memory(&folder.join("reading"), &input)?;
    println!(
        "
## The program

{FRAMES} frames, of which {accepted} are accepted, from file to file: wall time, the best of {ROUNDS} rounds ((a): of one);
± is how far the median lies above it. All three print the same bytes.

| program | ms | ± | ns a frame |
|-|-:|-:|-:|"
    );
    for (name, times) in NAMES.iter().zip(&mut times) {
        times.sort_by(f64::total_cmp);
        let (ms, median) = (times[0], times[times.len() / 2]);
        println!(
            "| {name} | {ms:.0} | {:.0} % | {:.0} |",
            (median / ms - 1.0) * 100.0,
            ms * 1e6 / FRAMES as f64
        );
    }
    println!("\nMost memory while reading them: frames {memory} KiB, a C program that does nothing but read {bare} KiB.");
    let ratio = times[OURS][0] / times[FAST][0];
    let above = memory.saturating_sub(bare);
    Ok(Ok(vec![
        (
            format!("the program at least as fast as the one over (b): it takes {ratio:.2} times as long"),
            ratio <= 1.0,
        ),
        (
            format!("its memory less than 2 MiB above what the C library needs: it is {above} KiB"),
            above < MOST_MEMORY_ABOVE_C,
        ),
    ]))
}

// Writes a file of random frames, the same in every run. Gives how many of them are accepted.
fn write_frames(file: &Path, frames: usize) -> Result<usize> {
    let mut caller = Caller::new(1, frames, 255);
    let mut output = BufWriter::new(File::create(file)?);
    let mut accepted = 0;
    for _ in 0..frames {
        let frame = caller.next_call();
        accepted += usize::from(caller.make(&frame)[0] == 0);
        writeln!(output, "{}", line(&frame))?;
    }
    output.flush()?;
    Ok(accepted)
}

// Milliseconds that a program runs, from file to file.
fn run(program: &Path, input: &Path, output: &Path) -> Result<f64> {
    let (input, output) = (File::open(input)?, File::create(output)?);
    let start = Instant::now();
    let status = Command::new(program).stdin(input).stdout(output).status()?;
    assert!(status.success(), "{} failed", program.display());
    Ok(start.elapsed().as_secs_f64() * 1e3)
}

// KiB of memory that a program had at most when it had read this input (Linux's VmHWM, read while its input is still open).
fn peak_memory(program: &Path, input: &Path) -> Result<u64> {
    let mut child = Command::new(program).stdin(Stdio::piped()).stdout(Stdio::null()).spawn()?;
    let mut pipe = child.stdin.take().expect("a pipe");
    pipe.write_all(&fs::read(input)?)?;
    // What is still in the pipe is little beside what was read.
    sleep(Duration::from_millis(100));
    let status = fs::read_to_string(format!("/proc/{}/status", child.id()))?;
    drop(pipe);
    child.wait()?;
    let line = status.lines().find(|line| line.starts_with("VmHWM:")).expect("a line VmHWM");
    Ok(line.split_whitespace().nth(1).expect("a number").parse().expect("a number"))
}
