//! The worked day of docs/MANUAL.md: its tables are those of tests/cases/manual-day.txt.

use crate::notation::{Action, Case, Given, Step};
use crate::{place, running};
use outside::at;
use reference::{answer_line, line};
use std::fs;

const CASES: &str = "tests/cases/manual-day.txt";
const MANUAL: &str = "docs/MANUAL.md";
const SECTION: &str = "## A worked day";

pub fn print() -> Result<(), String> {
    println!("{}", stored_tables()?.join("\n"));
    Ok(())
}

/// The headings and tables of the manual's section are those of the case file. What stands between them is the manual's own.
pub fn test() -> Result<(), String> {
    let manual = fs::read_to_string(place(MANUAL)).map_err(|why| format!("{MANUAL}: {why}"))?;
    let section = manual.lines().skip_while(|line| *line != SECTION).skip(1);
    let section = section.take_while(|line| !line.starts_with("## "));
    let stands: Vec<&str> = section
        .filter(|line| line.starts_with("### ") || line.starts_with('|'))
        .collect();
    let tables = stored_tables()?;
    let given = tables.iter().filter(|line| !line.is_empty());
    for (k, line) in given.clone().enumerate() {
        let stood = stands.get(k).copied().unwrap_or("nothing");
        if stood != line {
            return Err(format!(
                "{MANUAL} has '{stood}' where {CASES} gives '{line}': 'cases manual-day' prints the tables"
            ));
        }
    }
    match stands.get(given.count()) {
        Some(line) => Err(format!("{MANUAL} has '{line}' after what {CASES} gives")),
        None => Ok(()),
    }
}

fn stored_tables() -> Result<Vec<String>, String> {
    at(|| CASES.into(), running::read(&place(CASES)).and_then(|cases| tables(&cases)))
}

/// A heading for each comment on a line of its own, and under it a table: a row for each line, its comment saying what happened. The
/// day is one case, since its rows are all on one store.
pub fn tables(cases: &[Case]) -> Result<Vec<String>, String> {
    let [day] = cases else {
        return Err(format!("a day is one case, not {}", cases.len()));
    };
    let mut lines = Vec::new();
    for (step, number) in day.steps.iter().zip(1..) {
        if let Some(title) = &step.title {
            lines.extend([String::new(), format!("### {title}"), String::new()]);
            lines.extend(["| What happened | Frame | Answer |".into(), "|---|---|---|".into()]);
        }
        lines.push(at(|| format!("line {}", step.line), row(step, number))?);
    }
    Ok(lines)
}

fn row(step: &Step, number: usize) -> Result<String, String> {
    let happened = step.comment.as_ref().ok_or("no comment says what happened")?;
    let (frame, answer) = match (&step.action, &step.expected) {
        (Action::Call(frame), Some(Given::Answer(answer))) => (line(frame), answer_line(answer)),
        (Action::Line(text), Some(Given::Printed(printed))) => (String::from_utf8_lossy(text).into_owned(), printed.clone()),
        _ => return Err("no call".into()),
    };
    Ok(format!(
        "| {number}. {happened} | `{}` | `{}` |",
        parted(&frame, 2),
        parted(&answer, 1)
    ))
}

/// Digits with blanks between their parts: so many of two digits, then of eight.
fn parted(digits: &str, short: usize) -> String {
    let (head, numbers) = digits.split_at(digits.len().min(2 * short));
    let pairs = head.as_bytes().chunks(2);
    let parts = pairs.chain(numbers.as_bytes().chunks(8)).map(String::from_utf8_lossy);
    parts.collect::<Vec<_>>().join(" ")
}
