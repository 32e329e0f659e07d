//! What a case file says. A line is one of these:
//!
//!     # text                     a heading: a case begins, on a fresh store, and this is its name
//!                                a blank line: the next line begins a case of its own, on a fresh store
//!     // text                    a comment, on a line of its own, which ends no case, or after a line
//!     lot 1 201 51 0 0 -> 0 1 201 201
//!                                a call by its name, its arguments, the refusal and the numbers of its answer, all decimal
//!     lot 1 201 51 0 0 4711 90 -> 0 1 201 201
//!                                the same with a recording, as a run and a block may have it: its number and its second, or neither,
//!                                which is number 1, second 0
//!     open 1 0 15000 0 100 -> 0 0 0 0
//!                                an Open with a ceiling; without its fifth number the ceiling is 0, which is none
//!     stream 3                   the lines up to the end of the case are about this stream; a case begins with stream 0
//!     bytes 16 4 -> c9 00 00 00  so many bytes of the stream's area from this one on
//!     sound -> 1                 whether the stream's area is sound
//!     part 1 -> 76: 04 01 00 ..  the part that call 9 hands back for this count: the byte of the store at which it starts, and its bytes,
//!                                of which there may be none
//!     judge 82 98 118 370: 92 87 84 96 -> 0 0 33 31 1 1 1
//!                                a judgement by measurement: L, U, k in hundredths and F in thousandths, - for a limit or
//!                                an F that is absent, and the measurements; the refusal, how many are outside, n U - sum, sum - n L, and 1
//!                                or 0 for none outside, for k and for F
//!     put 16 c8 00               writes these bytes into the stream's area, as no call does
//!     frame 06ff -> ff           a line for the program, and the line that it prints; \r is a carriage return
//!
//! Words are parted by plain blanks, and a number has no leading zero and no sign, but for the minus of a measurement, a limit or a
//! distance below 0. A line that is none of these is an error. So are a heading that stands twice, a heading or a stream that no line
//! follows, a case that expects nothing, a line that is no frame after a `put`, since the program has no part in it there, and a file
//! without a case.

use crate::calls::call;
use reference::{area_at, frame, Answer, Frame, Judgement, Part, Sample, AREA, NO_FRAME, STREAMS};
use std::fmt;
use std::ops::Range;
use std::str::FromStr;

/// Steps that begin on a fresh store.
pub struct Case {
    pub name: String,
    pub steps: Vec<Step>,
}

pub struct Step {
    /// The line that says it: its number, its text without the comment, the comment after it.
    pub line: usize,
    pub text: String,
    pub comment: Option<String>,
    /// The comment on a line of its own before it.
    pub title: Option<String>,
    pub action: Action,
    /// What it gives; nothing is expected of a `put`.
    pub expected: Option<Given>,
}

pub enum Action {
    Call(Frame),
    /// A line for the program.
    Line(Vec<u8>),
    /// Bytes of the store.
    Bytes(Range<usize>),
    /// Whether this stream's area is sound.
    Sound(u32),
    /// The newest records of this stream, for this count.
    Part(u32, u32),
    Judge(Sample),
    /// From this byte of the store on.
    Put(usize, Vec<u8>),
}

#[derive(PartialEq)]
pub enum Given {
    Answer(Answer),
    Printed(String),
    Bytes(Vec<u8>),
    Sound(bool),
    Part(Part),
    Judged(Judgement),
}

impl fmt::Display for Given {
    fn fmt(&self, out: &mut fmt::Formatter) -> fmt::Result {
        match self {
            Given::Answer([refusal, first, second, third]) => write!(out, "{refusal} {first} {second} {third}"),
            Given::Printed(line) => write!(out, "'{line}'"),
            Given::Bytes(bytes) => write!(out, "{}", pairs(bytes)),
            Given::Sound(sound) => write!(out, "{}", u32::from(*sound)),
            Given::Part(Part { at, bytes }) => write!(out, "{}", format!("{at}: {}", pairs(bytes)).trim_end()),
            Given::Judged(is) => {
                let [none_outside, k, f] = [is.none_outside, is.k_met, is.f_met].map(u32::from);
                let numbers = format!("{} {} {} {}", is.refusal, is.outside, is.to_upper, is.to_lower);
                write!(out, "{numbers} {none_outside} {k} {f}")
            }
        }
    }
}

fn pairs(bytes: &[u8]) -> String {
    let pairs: Vec<String> = bytes.iter().map(|byte| format!("{byte:02x}")).collect();
    pairs.join(" ")
}

/// The cases that the text of a file says.
pub fn cases(text: &str) -> Result<Vec<Case>, String> {
    let mut reading = Reading::default();
    for (line, number) in text.split_terminator('\n').zip(1..) {
        reading.take(line, number).map_err(|why| format!("line {number}: {why}"))?;
    }
    reading.end()
}

#[derive(Default)]
struct Reading {
    cases: Vec<Case>,
    /// The headings and their lines, and whether no step has followed the last one yet.
    headings: Vec<(String, usize)>,
    is_bare: bool,
    /// Whether the next step goes on with the last case.
    goes_on: bool,
    stream: u32,
    /// The line that names this stream, until a step follows it.
    bare_stream: Option<usize>,
    title: Option<String>,
}

impl Reading {
    fn take(&mut self, line: &str, number: usize) -> Result<(), String> {
        if let Some(heading) = line.strip_prefix('#') {
            return self.head(heading, number);
        }
        let (said, comment) = match line.split_once("//") {
            Some((said, comment)) => (said, Some(comment.trim().to_string())),
            None => (line, None),
        };
        let said = said.trim_end_matches(' ');
        match (said, said.split_once(' ')) {
            ("", _) if comment.is_some() => self.title = comment,
            ("", _) => self.end_case()?,
            (_, Some(("stream", stream))) => self.go_to_stream(stream, number)?,
            _ => self.step(said, comment, number)?,
        }
        Ok(())
    }

    fn head(&mut self, heading: &str, number: usize) -> Result<(), String> {
        self.no_bare_heading()?;
        self.end_case()?;
        let heading = heading.trim();
        if heading.is_empty() {
            return Err("a heading without a text".into());
        }
        if let Some((_, line)) = self.headings.iter().find(|(text, _)| text == heading) {
            return Err(format!("the heading '{heading}' stands at line {line} already"));
        }
        self.headings.push((heading.to_string(), number));
        self.is_bare = true;
        Ok(())
    }

    fn go_to_stream(&mut self, stream: &str, number: usize) -> Result<(), String> {
        self.no_bare_stream()?;
        self.stream = stream_number(stream)?;
        self.bare_stream = Some(number);
        Ok(())
    }

    fn end_case(&mut self) -> Result<(), String> {
        self.no_bare_stream()?;
        if let Some(case) = self.case() {
            if case.steps.iter().all(|step| step.expected.is_none()) {
                return Err(format!("'{}' expects nothing", case.name));
            }
        }
        self.goes_on = false;
        self.stream = 0;
        self.title = None;
        Ok(())
    }

    /// The case with which the next step goes on.
    fn case(&self) -> Option<&Case> {
        self.cases.last().filter(|_| self.goes_on)
    }

    fn step(&mut self, said: &str, comment: Option<String>, line: usize) -> Result<(), String> {
        let (action, expected) = step(said, self.stream)?;
        let is_no_frame = matches!(&action, Action::Line(text) if frame(text).is_none());
        if is_no_frame && self.case().is_some_and(has_put) {
            return Err("after a put nothing but the reference takes a line that is no frame".into());
        }
        let step = Step {
            line,
            text: said.to_string(),
            comment,
            title: self.title.take(),
            action,
            expected,
        };
        match self.cases.last_mut() {
            Some(case) if self.goes_on => case.steps.push(step),
            _ => self.cases.push(Case {
                name: self.name(line),
                steps: vec![step],
            }),
        }
        (self.goes_on, self.is_bare, self.bare_stream) = (true, false, None);
        Ok(())
    }

    /// The heading's own case has its name; one after a blank line has its line beside it.
    fn name(&self, line: usize) -> String {
        match self.headings.last() {
            Some((heading, _)) if self.is_bare => heading.clone(),
            Some((heading, _)) => format!("{heading}, from line {line}"),
            None => format!("from line {line}"),
        }
    }

    fn no_bare_heading(&self) -> Result<(), String> {
        match self.headings.last() {
            Some((heading, number)) if self.is_bare => Err(format!("no line follows the heading '{heading}' of line {number}")),
            _ => Ok(()),
        }
    }

    fn no_bare_stream(&self) -> Result<(), String> {
        match self.bare_stream {
            Some(number) => Err(format!("no line follows the stream of line {number}")),
            None => Ok(()),
        }
    }

    fn end(mut self) -> Result<Vec<Case>, String> {
        self.no_bare_heading()?;
        self.end_case()?;
        if self.cases.is_empty() {
            return Err("no case".into());
        }
        Ok(self.cases)
    }
}

pub fn has_put(case: &Case) -> bool {
    case.steps.iter().any(|step| matches!(step.action, Action::Put(..)))
}

/// What a line does, and what it gives.
fn step(said: &str, stream: u32) -> Result<(Action, Option<Given>), String> {
    if let Some(put) = said.strip_prefix("put ") {
        return Ok((put_bytes(put, stream)?, None));
    }
    let Some((does, gives)) = said.split_once(" -> ") else {
        return Err("no ' -> '".into());
    };
    let gives = gives.trim_start_matches(' ');
    let (name, rest) = does.split_once(' ').unwrap_or((does, ""));
    let (action, expected) = match name {
        "frame" => (Action::Line(rest.replace("\\r", "\r").into_bytes()), printed(gives)?),
        "bytes" => area_bytes(rest, gives, stream)?,
        "sound" if words(rest).next().is_some() => return Err("sound takes no argument".into()),
        "sound" => (Action::Sound(with_area(stream)?), Given::Sound(yes_or_no("sound", gives)?)),
        "part" => newest_part(rest, gives, stream)?,
        "judge" => (Action::Judge(sample(rest)?), Given::Judged(judgement_in(gives)?)),
        _ => (Action::Call(call(name, stream, &numbers(rest)?)?), answer(gives)?),
    };
    Ok((action, Some(expected)))
}

fn put_bytes(put: &str, stream: u32) -> Result<Action, String> {
    let (at, pairs) = put
        .trim_start_matches(' ')
        .split_once(' ')
        .ok_or("put takes a place and bytes")?;
    let bytes = byte_pairs(pairs)?;
    let place = in_area(number(at)?, bytes.len(), stream)?;
    Ok(Action::Put(place.start, bytes))
}

fn area_bytes(place: &str, gives: &str, stream: u32) -> Result<(Action, Given), String> {
    let [at, length] = numbers(place)?[..] else {
        return Err("bytes takes a place and a length".into());
    };
    let bytes = byte_pairs(gives)?;
    if bytes.len() != length as usize {
        return Err(format!("{} bytes, not {length}", bytes.len()));
    }
    Ok((Action::Bytes(in_area(at, bytes.len(), stream)?), Given::Bytes(bytes)))
}

fn newest_part(count: &str, gives: &str, stream: u32) -> Result<(Action, Given), String> {
    let [count] = numbers(count)?[..] else {
        return Err("part takes a count".into());
    };
    Ok((Action::Part(stream, count), Given::Part(part_in(gives)?)))
}

/// The part that is written so.
pub fn part_in(text: &str) -> Result<Part, String> {
    let (at, pairs) = text.split_once(':').ok_or("a part is a place, ':' and bytes")?;
    Ok(Part {
        at: number::<u32>(at)? as usize,
        bytes: byte_pairs(pairs)?,
    })
}

fn sample(text: &str) -> Result<Sample, String> {
    let (demands, values) = text
        .split_once(':')
        .ok_or("judge takes L, U, k and F, ':' and measurements")?;
    let [lower, upper, k, f] = words(demands).collect::<Vec<_>>()[..] else {
        return Err("judge takes L, U, k and F before its ':'".into());
    };
    Ok(Sample {
        values: words(values).map(number).collect::<Result<_, _>>()?,
        lower: given_number(lower)?,
        upper: given_number(upper)?,
        k: number(k)?,
        f: given_number(f)?,
    })
}

/// None where the number is absent.
fn given_number<T: FromStr + ToString>(word: &str) -> Result<Option<T>, String> {
    match word {
        "-" => Ok(None),
        _ => number(word).map(Some),
    }
}

/// The judgement that is written so.
pub fn judgement_in(text: &str) -> Result<Judgement, String> {
    let [refusal, outside, to_upper, to_lower, none_outside, k, f] = words(text).collect::<Vec<_>>()[..] else {
        return Err("a judgement is four numbers, and 1 or 0 three times".into());
    };
    Ok(Judgement {
        refusal: number(refusal)?,
        outside: number(outside)?,
        to_upper: number(to_upper)?,
        to_lower: number(to_lower)?,
        none_outside: yes_or_no("none outside", none_outside)?,
        k_met: yes_or_no("k", k)?,
        f_met: yes_or_no("F", f)?,
    })
}

fn answer(gives: &str) -> Result<Given, String> {
    match numbers(gives)?.try_into() {
        Ok(answer) => Ok(Given::Answer(answer)),
        Err(_) => Err("an answer is four numbers".into()),
    }
}

fn yes_or_no(what: &str, word: &str) -> Result<bool, String> {
    match word {
        "0" => Ok(false),
        "1" => Ok(true),
        _ => Err(format!("{what} is 1 or 0, not '{word}'")),
    }
}

fn printed(gives: &str) -> Result<Given, String> {
    if gives == NO_FRAME || answer_in(gives).is_some() {
        return Ok(Given::Printed(gives.to_string()));
    }
    Err(format!("the program prints no '{gives}'"))
}

/// The answer that the program prints so.
pub fn answer_in(line: &str) -> Option<Answer> {
    let number = |digits: Range<usize>| u32::from_str_radix(line.get(digits)?, 16).ok();
    let answer = [number(0..2)?, number(2..10)?, number(10..18)?, number(18..26)?];
    (reference::answer_line(&answer) == line).then_some(answer)
}

/// So many bytes of the store, from this one of the stream's area on.
fn in_area(at: u32, length: usize, stream: u32) -> Result<Range<usize>, String> {
    let area = area_at(with_area(stream)?);
    let end = at as usize + length;
    if end > AREA {
        return Err(format!("an area has {AREA} bytes, not {end}"));
    }
    Ok(area.start + at as usize..area.start + end)
}

/// A stream that has an area.
fn with_area(stream: u32) -> Result<u32, String> {
    if stream < STREAMS {
        Ok(stream)
    } else {
        Err(format!("stream {stream} has no area"))
    }
}

/// A stream that a frame can hold.
fn stream_number(stream: &str) -> Result<u32, String> {
    match numbers(stream)?[..] {
        [stream @ ..=255] => Ok(stream),
        [stream] => Err(format!("a frame holds no stream {stream}")),
        _ => Err("stream takes one number".into()),
    }
}

/// What stands between plain blanks. A tab or another kind of blank is a character like any other.
fn words(text: &str) -> impl Iterator<Item = &str> {
    text.split(' ').filter(|word| !word.is_empty())
}

fn numbers(text: &str) -> Result<Vec<u32>, String> {
    words(text).map(number).collect()
}

fn number<T: FromStr + ToString>(word: &str) -> Result<T, String> {
    let number = word.parse().ok().filter(|number: &T| number.to_string() == word);
    number.ok_or(format!("'{}' is no plain decimal number of 32 bits", word.escape_debug()))
}

fn byte_pairs(text: &str) -> Result<Vec<u8>, String> {
    words(text).map(byte_pair).collect()
}

fn byte_pair(word: &str) -> Result<u8, String> {
    let is_pair = word.len() == 2 && word.bytes().all(|byte| matches!(byte, b'0'..=b'9' | b'a'..=b'f'));
    let byte = u8::from_str_radix(word, 16).ok().filter(|_| is_pair);
    byte.ok_or(format!("'{}' is no byte of two digits", word.escape_debug()))
}
