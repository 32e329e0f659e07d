//! The stored run of the program, crates/frames/stdin and stdout, made of cases of paper 01's file and of those of cards 1 and 3.

use crate::notation::{has_put, Action, Case, Given, Step};
use crate::{place, running};
use outside::at;
use reference::{answer_line, line, NEWEST, NO_FRAME, OPEN};
use std::fs;

const CASES: [&str; 3] = [
    "tests/cases/paper-01.txt",
    "tests/cases/card-01.txt",
    "tests/cases/card-03.txt",
];
const INPUT: &str = "crates/frames/stdin";
const OUTPUT: &str = "crates/frames/stdout";

/// The run begins with this case, by itself.
const FIRST: &str = "Hexadecimal frames: the whole case";
/// Then come these together, a line of each in turn: the first two are lines that are no frame; the cases on one stream go to streams 1
/// to 14; the last names its own streams.
const IN_TURN: [&str; 17] = [
    "Hexadecimal frames: lines that are no frame",
    "Frames: 44 digits, a call's arguments without a recording, are no frame any more",
    "Table of proved cases: VL-2, normal and tightened",
    "A day on a credit stream with recordings",
    "A day on a continuous stream with recordings",
    "A day on a credit stream with a ceiling",
    "Credit lots: a wrong lot without credit is heard whole, with credit it is returned",
    "Credit lots: with option 1 a wrong lot is heard whole even with credit, and the credit is lost",
    "Level lots: what ends reduced",
    "Level lots: tightened, normal after five accepted in a row, reduced after ten more",
    "Level lots: ten judged on tightened, discontinued",
    "Continuous: stops in screening and in sampling",
    "Calls: the refusals of a credit stream",
    "Calls: the refusals of a level stream",
    "Calls: the refusals of a continuous stream",
    "Calls: 128 records stand, on a stream that the last lot discontinues",
    "Calls: a stream above 15, and one that is not opened",
];
/// The refusals that the program can give: its store has the right length, and only calls write it.
const REFUSALS: [u32; 15] = [2, 4, 5, 6, 7, 8, 9, 10, 11, 12, 13, 14, 15, 16, 17];

/// A line of the input, and the line that it gives.
type Exchange = (Vec<u8>, String);

pub fn write() -> Result<(), String> {
    let (input, output) = texts()?;
    for (file, text) in [(INPUT, input), (OUTPUT, output)] {
        fs::write(place(file), text).map_err(|why| format!("{file}: {why}"))?;
    }
    println!("{INPUT} and {OUTPUT} are written; rt ci compares them with the program");
    Ok(())
}

/// The stored files are what the cases give, and every refusal that the program can give is among them.
pub fn test() -> Result<(), String> {
    let (input, output) = texts()?;
    for (file, text) in [(INPUT, input), (OUTPUT, output)] {
        let stored = fs::read(place(file)).map_err(|why| format!("{file}: {why}"))?;
        if stored != text {
            return Err(format!(
                "{file} is not what {} give: 'cases stored-run' writes it",
                CASES.join(" and ")
            ));
        }
    }
    Ok(())
}

/// The run's input and output. The input's last line has no line feed.
fn texts() -> Result<(Vec<u8>, Vec<u8>), String> {
    let exchanges = exchanges()?;
    complete(&exchanges)?;
    let (lines, answers): (Vec<Vec<u8>>, Vec<String>) = exchanges.into_iter().unzip();
    Ok((lines.join(&b'\n'), (answers.join("\n") + "\n").into_bytes()))
}

fn exchanges() -> Result<Vec<Exchange>, String> {
    let mut cases = Vec::new();
    for file in CASES {
        cases.extend(at(|| file.into(), running::read(&place(file)))?);
    }
    let mut exchanges = exchanges_of(named(&cases, FIRST)?, 0);
    let mut stream = 0;
    let mut waiting = Vec::new();
    for name in IN_TURN {
        let case = named(&cases, name)?;
        stream += u32::from(keeps_to_stream_0(case));
        waiting.push(exchanges_of(case, stream).into_iter());
    }
    while !waiting.is_empty() {
        exchanges.extend(waiting.iter_mut().filter_map(Iterator::next));
        waiting.retain(|rest| rest.len() > 0);
    }
    Ok(exchanges)
}

fn named<'a>(cases: &'a [Case], name: &str) -> Result<&'a Case, String> {
    match cases.iter().find(|case| case.name == name) {
        Some(case) if has_put(case) => Err(format!("'{name}' has a put, in which the program has no part")),
        Some(case) => Ok(case),
        None => Err(format!("no case '{name}' in {}", CASES.join(" or "))),
    }
}

/// Whether its calls are all on stream 0, and so can be made on another stream as well. A line that it gives to the program stays as
/// it is; its `bytes`, `sound`, `part` and `judge` lines are left out of the run.
fn keeps_to_stream_0(case: &Case) -> bool {
    case.steps.iter().all(|step| match &step.action {
        Action::Call(frame) => frame.stream == 0,
        Action::Line(_) => false,
        Action::Bytes(_) | Action::Sound(_) | Action::Part(..) | Action::Judge(_) | Action::Put(..) => true,
    })
}

/// The lines of a case, on this stream where it keeps to one.
fn exchanges_of(case: &Case, stream: u32) -> Vec<Exchange> {
    let moves = keeps_to_stream_0(case);
    let exchange = |step: &Step| match (&step.action, &step.expected) {
        (Action::Call(frame), Some(Given::Answer(answer))) => {
            let mut frame = *frame;
            if moves {
                frame.stream = stream;
            }
            Some((line(&frame).into_bytes(), answer_line(answer)))
        }
        (Action::Line(text), Some(Given::Printed(printed))) => Some((text.clone(), printed.clone())),
        _ => None,
    };
    case.steps.iter().filter_map(exchange).collect()
}

/// Every call is there and accepted, every refusal that the program can give, and a line that is no frame.
fn complete(exchanges: &[Exchange]) -> Result<(), String> {
    for call in OPEN..=NEWEST {
        let is_made = |(line, answer): &Exchange| line.starts_with(format!("{call:02x}").as_bytes()) && answer.starts_with("00");
        if !exchanges.iter().any(is_made) {
            return Err(format!("no line of the stored run makes call {call} so that it is accepted"));
        }
    }
    let refusals = REFUSALS.map(|refusal| answer_line(&[refusal, 0, 0, 0]));
    for wanted in refusals.into_iter().chain([NO_FRAME.into()]) {
        if exchanges.iter().all(|(_, answer)| *answer != wanted) {
            return Err(format!("no line of the stored run gives {wanted}"));
        }
    }
    Ok(())
}
