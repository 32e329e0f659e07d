//! That the runner can fail: the files of tests/cases_refused, one for each kind of fault, a folder without a file, and a manual's day
//! of two cases.

use crate::notation::cases;
use crate::running::{files, name, run_file, Tally};
use crate::{counted_of, manual, place};
use std::fs;
use std::path::Path;

/// How a file's first line begins; after it stands what the runner has to say of the file.
const REFUSED: &str = "// refused: ";

pub fn every_file() -> Result<(), String> {
    let files = files(&place("tests/cases_refused"))?;
    let others = [empty_folder(), day_of_two_cases()];
    counted_of("refused", files.iter().map(|file| refused(file)).chain(others))
}

/// The one thing that the runner says of the file is what its first line says.
fn refused(file: &Path) -> Result<(), String> {
    let name = name(file);
    let text = fs::read_to_string(file).map_err(|why| format!("{name}: {why}"))?;
    let first = text.lines().next().and_then(|line| line.strip_prefix(REFUSED));
    let expected = first.ok_or(format!("{name}: the first line does not begin with '{REFUSED}'"))?;
    let mut tally = Tally::default();
    run_file(file, &mut tally);
    match &tally.failures[..] {
        [failure] if *failure == format!("{name}, {expected}") => Ok(()),
        [] => Err(format!("{name} was not refused")),
        failures => Err(format!("'{name}, {expected}' was expected, not '{}'", failures.join("; "))),
    }
}

fn empty_folder() -> Result<(), String> {
    let folder = place("target/cases_empty");
    fs::create_dir_all(&folder).map_err(|why| why.to_string())?;
    match files(&folder) {
        Err(why) if why.ends_with("no file") => Ok(()),
        _ => Err("a folder without a file was not refused".into()),
    }
}

fn day_of_two_cases() -> Result<(), String> {
    let read = "read -> 6 0 0 0 // Read, before anything is opened\n";
    manual::tables(&cases(read)?)?;
    match manual::tables(&cases(&format!("{read}\n{read}"))?) {
        Err(why) if why.starts_with("a day is one case") => Ok(()),
        _ => Err("a manual's day of two cases was not refused".into()),
    }
}
