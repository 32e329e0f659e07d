//! The case files of tests/cases: calls as plain text, each with its answer (`notation` has all that a line can say). Every call is
//! made through the static library, by the reference, through the C header and as a frame through the program, and each answer is
//! compared with the file. Bytes are compared for the library and the reference, parts and judgements for these two and C, and at a
//! case's end the whole store for the same three. A line that is no frame goes to the reference and the program. What follows a `put` is
//! not for the program. Needs what tests/run builds.
//!
//!     cases              runs every file of tests/cases
//!     cases refused      runs every file of tests/cases_refused, each of which has to fail as its first line says
//!     cases written      whether the stored run of the program and the manual's worked day are what the case files give
//!     cases stored-run   writes that stored run, crates/frames/stdin and stdout
//!     cases manual-day   prints the tables of that worked day

mod calls;
mod manual;
mod notation;
mod refused;
mod running;
mod stored_run;
mod ways;

use outside::programs::ROOT;
use std::env;
use std::path::{Path, PathBuf};
use std::process::ExitCode;

/// A file or folder of the repository.
fn place(name: &str) -> PathBuf {
    Path::new(ROOT).join(name)
}

fn main() -> ExitCode {
    let words: Vec<String> = env::args().skip(1).collect();
    let words: Vec<&str> = words.iter().map(String::as_str).collect();
    let done = match words[..] {
        [] => every_case(),
        ["refused"] => refused::every_file(),
        ["written"] => written(),
        ["stored-run"] => stored_run::write(),
        ["manual-day"] => manual::print(),
        _ => Err("cases [refused | written | stored-run | manual-day]".into()),
    };
    match done {
        Ok(()) => ExitCode::SUCCESS,
        Err(why) => {
            println!("{why}");
            ExitCode::FAILURE
        }
    }
}

fn every_case() -> Result<(), String> {
    let tally = running::run_folder(&place("tests/cases"))?;
    let calls: Vec<String> = ways::WAYS
        .iter()
        .zip(tally.calls)
        .map(|(way, calls)| format!("{calls} {}", way.name))
        .collect();
    println!("calls made: {}", calls.join(", "));
    counted("cases", tally.passed, &tally.failures)
}

fn written() -> Result<(), String> {
    counted_of("written", [stored_run::test(), manual::test()])
}

fn counted_of(what: &str, tests: impl IntoIterator<Item = Result<(), String>>) -> Result<(), String> {
    let (passed, failed): (Vec<_>, Vec<_>) = tests.into_iter().partition(Result::is_ok);
    let failures: Vec<String> = failed.into_iter().filter_map(Result::err).collect();
    counted(what, passed.len(), &failures)
}

/// Prints what failed and, as the last line, the count, which is an error where anything failed.
fn counted(what: &str, passed: usize, failures: &[String]) -> Result<(), String> {
    for failure in failures {
        println!("FAILED {failure}");
    }
    let line = format!("{what}: {passed} passed, {} failed", failures.len());
    if !failures.is_empty() {
        return Err(line);
    }
    println!("{line}");
    Ok(())
}
