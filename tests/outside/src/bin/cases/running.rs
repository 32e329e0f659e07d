//! Cases taken in every way, and compared with what their file says.

use crate::notation::{cases, Action, Case, Given, Step};
use crate::ways::{Taken, Way, WAYS};
use outside::{at, first_difference};
use std::borrow::Cow;
use std::fs;
use std::path::{Path, PathBuf};

/// So many cases that passed, and so many calls of each way.
#[derive(Default)]
pub struct Tally {
    pub passed: usize,
    pub calls: [usize; WAYS.len()],
    /// What went wrong, each with its file.
    pub failures: Vec<String>,
}

/// The files of a folder, in the order of their names; a folder without one is an error.
pub fn files(folder: &Path) -> Result<Vec<PathBuf>, String> {
    let entries = fs::read_dir(folder).map_err(|why| format!("{}: {why}", folder.display()))?;
    let mut files: Vec<PathBuf> = entries.flatten().map(|entry| entry.path()).collect();
    files.sort();
    if files.is_empty() {
        return Err(format!("{}: no file", folder.display()));
    }
    Ok(files)
}

/// The cases of a file.
pub fn read(file: &Path) -> Result<Vec<Case>, String> {
    cases(&fs::read_to_string(file).map_err(|why| why.to_string())?)
}

/// Runs every file of a folder, and prints a line for each.
pub fn run_folder(folder: &Path) -> Result<Tally, String> {
    let mut tally = Tally::default();
    for file in files(folder)? {
        let [before, ..] = tally.calls;
        let cases = run_file(&file, &mut tally);
        let [calls, ..] = tally.calls;
        println!("{}: cases {cases}, calls of the library {}", name(&file), calls - before);
    }
    Ok(tally)
}

/// Runs every case of a file; gives how many there are.
pub fn run_file(file: &Path, tally: &mut Tally) -> usize {
    let cases = match read(file) {
        Ok(cases) => cases,
        Err(why) => {
            tally.failures.push(format!("{}, {why}", name(file)));
            return 0;
        }
    };
    for case in &cases {
        match run(case, &mut tally.calls) {
            Ok(()) => tally.passed += 1,
            Err(why) => tally.failures.push(format!("{}, {why}", name(file))),
        }
    }
    cases.len()
}

pub fn name(file: &Path) -> Cow<'_, str> {
    file.file_name().unwrap_or_default().to_string_lossy()
}

/// Takes the case in every way; an error names the line, what was expected of it and what each way gave.
fn run(case: &Case, calls: &mut [usize; WAYS.len()]) -> Result<(), String> {
    let mut taken = Vec::new();
    for (way, calls) in WAYS.iter().zip(calls) {
        let one = at(|| format!("'{}', {}", case.name, way.name), (way.take)(&case.steps))?;
        *calls += calls_of(case, &one);
        taken.push((way, one));
    }
    for (k, step) in case.steps.iter().enumerate() {
        at(|| format!("line {}: {}", step.line, step.text), compare(step, k, &taken))?;
    }
    at(|| format!("'{}'", case.name), same_stores(&taken))
}

/// Of the lines that make a call, judge a sample or are given to the program, those in which a way had a part.
fn calls_of(case: &Case, taken: &Taken) -> usize {
    let given = case.steps.iter().zip(&taken.given);
    let is_call = |action: &Action| matches!(action, Action::Call(_) | Action::Line(_) | Action::Judge(_));
    let called = given.filter(|(step, given)| given.is_some() && is_call(&step.action));
    called.count()
}

fn compare(step: &Step, k: usize, taken: &[(&Way, Taken)]) -> Result<(), String> {
    let Some(expected) = &step.expected else {
        return Ok(());
    };
    let given: Vec<(&Way, &Given)> = taken
        .iter()
        .filter_map(|(way, taken)| Some((*way, taken.given[k].as_ref()?)))
        .collect();
    if given.iter().all(|(_, given)| *given == expected) {
        return Ok(());
    }
    let said: Vec<String> = given.iter().map(|(way, given)| format!("{} {given}", way.name)).collect();
    Err(format!("expected {expected}; {}", said.join(", ")))
}

fn same_stores(taken: &[(&Way, Taken)]) -> Result<(), String> {
    let mut stores = taken
        .iter()
        .filter_map(|(way, taken)| Some((way.name, taken.store.as_ref()?)));
    let (first, expected) = stores.next().expect("a way whose store can be seen");
    for (other, store) in stores {
        if store != expected {
            return Err(format!("{other} against {first}: {}", first_difference(store, expected)));
        }
    }
    Ok(())
}
