//! The frames program over the calls written for speed: standard input to standard output.

#![forbid(unsafe_code)]

use bench::fast::{call, Answer, STORE_LENGTH};
use std::io::{stdin, stdout, Read, Result, Write};

const FRAME_LENGTH: usize = 44;
const PIECE: usize = 1 << 16;
// An answer's 26 digits and a line feed.
const ANSWER_LENGTH: usize = 27;

fn main() -> Result<()> {
    let mut program = Program {
        store: [0; STORE_LENGTH],
        output: Vec::with_capacity(PIECE + ANSWER_LENGTH),
    };
    let mut input = [0; PIECE];
    // What is left of the last piece: a line without its end, of which no more than is needed to see that it is too long.
    let mut held = 0;
    loop {
        let read = stdin().lock().read(&mut input[held..])?;
        if read == 0 {
            break;
        }
        let mut piece = &input[..held + read];
        loop {
            // Most lines are frames: such a one need not be searched for its end.
            if let Some((line, [b'\n', after @ ..])) = piece.split_first_chunk::<FRAME_LENGTH>() {
                if let Some(frame) = bytes_of(line) {
                    program.answer_to(frame)?;
                    piece = after;
                    continue;
                }
            }
            let Some(end) = piece.iter().position(|byte| *byte == b'\n') else {
                break;
            };
            program.line(&piece[..end])?;
            piece = &piece[end + 1..];
        }
        let (from, length) = (held + read - piece.len(), piece.len().min(FRAME_LENGTH + 1));
        input.copy_within(from..from + length, 0);
        held = length;
    }
    if held > 0 {
        program.line(&input[..held])?;
    }
    program.flush()
}

struct Program {
    store: [u8; STORE_LENGTH],
    output: Vec<u8>,
}

impl Program {
    fn line(&mut self, line: &[u8]) -> Result<()> {
        match line.try_into().ok().and_then(bytes_of) {
            Some(frame) => self.answer_to(frame),
            None => self.write(b"ff\n"),
        }
    }

    fn answer_to(&mut self, frame: [u8; FRAME_LENGTH / 2]) -> Result<()> {
        let [number, stream, arguments @ ..] = &frame;
        let mut args = [0; 5];
        for (arg, bytes) in args.iter_mut().zip(arguments.as_chunks().0) {
            *arg = u32::from_be_bytes(*bytes);
        }
        let unused: &[u32] = match number {
            1 => &args[4..],
            2 => &[],
            3..=5 => &args[2..],
            6 | 8 => &args,
            7 => &args[1..],
            _ => return self.write(b"ff\n"),
        };
        if unused.iter().any(|arg| *arg != 0) {
            return self.write(b"ff\n");
        }
        let answer = call(&mut self.store, *number as u32, *stream as u32, args);
        self.write(&text_of(answer))
    }

    fn write(&mut self, line: &[u8]) -> Result<()> {
        self.output.extend_from_slice(line);
        if self.output.len() >= PIECE {
            self.flush()?;
        }
        Ok(())
    }

    fn flush(&mut self) -> Result<()> {
        stdout().lock().write_all(&self.output)?;
        self.output.clear();
        Ok(())
    }
}

// The bytes that 44 lower-case digits stand for. The loops leave at no digit, so that they are compiled to steps of many.
fn bytes_of(line: &[u8; FRAME_LENGTH]) -> Option<[u8; FRAME_LENGTH / 2]> {
    let mut values = [0; FRAME_LENGTH];
    let mut all_digits = true;
    for (value, byte) in values.iter_mut().zip(line) {
        let (digit, letter) = (byte.wrapping_sub(b'0'), byte.wrapping_sub(b'a'));
        *value = if digit < 10 { digit } else { letter.wrapping_add(10) };
        all_digits &= (digit < 10) | (letter < 6);
    }
    let mut bytes = [0; FRAME_LENGTH / 2];
    for (byte, [high, low]) in bytes.iter_mut().zip(values.as_chunks().0) {
        *byte = high << 4 | low;
    }
    all_digits.then_some(bytes)
}

fn text_of([refusal, first, second, third]: Answer) -> [u8; ANSWER_LENGTH] {
    let mut bytes = [0; ANSWER_LENGTH / 2];
    bytes[0] = refusal as u8;
    for (bytes, number) in bytes[1..].as_chunks_mut().0.iter_mut().zip([first, second, third]) {
        *bytes = number.to_be_bytes();
    }
    let mut text = [b'\n'; ANSWER_LENGTH];
    for (digits, byte) in text.as_chunks_mut().0.iter_mut().zip(bytes) {
        *digits = [byte >> 4, byte & 15].map(|value| value + if value < 10 { b'0' } else { b'a' - 10 });
    }
    text
}
