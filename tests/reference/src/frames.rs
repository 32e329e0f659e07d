//! The program over standard input: one frame a line, one answer a line.

use crate::area::{call_on_store, STORE};
use crate::calls::{call_of, Answer, Frame, ARGUMENTS};

/// So many digits are a frame: two of the call, two of the stream, eight of each argument.
pub const DIGITS: usize = 4 + 8 * ARGUMENTS;
/// What the program prints for a line that holds no frame.
pub const NO_FRAME: &str = "ff";

/// The frame that a line holds; none gives [`NO_FRAME`].
pub fn frame(line: &[u8]) -> Option<Frame> {
    if line.len() != DIGITS {
        return None;
    }
    let mut digits = Vec::new();
    for byte in line {
        digits.push(match *byte {
            b'0'..=b'9' => u32::from(*byte - b'0'),
            b'a'..=b'f' => u32::from(*byte - b'a') + 10,
            _ => return None,
        });
    }
    let number = |from: usize, to: usize| digits[from..to].iter().fold(0, |number, digit| number * 16 + digit);
    let mut args = [0; ARGUMENTS];
    for (k, arg) in args.iter_mut().enumerate() {
        *arg = number(4 + 8 * k, 12 + 8 * k);
    }
    let frame = Frame {
        call: number(0, 2),
        stream: number(2, 4),
        args,
    };
    call_of(&frame).map(|_| frame)
}

/// The line of a frame whose stream a line can hold.
pub fn line(frame: &Frame) -> String {
    let Frame { call, stream, args } = frame;
    let digits: String = args.iter().map(|arg| format!("{arg:08x}")).collect();
    format!("{call:02x}{stream:02x}{digits}")
}

/// An answer as the program prints it, without its line feed.
pub fn answer_line([refusal, first, second, third]: &Answer) -> String {
    format!("{refusal:02x}{first:08x}{second:08x}{third:08x}")
}

/// What the program prints for a line over this store, without its line feed.
pub fn printed(store: &mut [u8], line: &[u8]) -> String {
    match frame(line) {
        None => NO_FRAME.into(),
        Some(frame) => answer_line(&call_on_store(store, &frame)),
    }
}

/// All that the program prints for this input.
pub fn frames_output(input: &[u8]) -> Vec<u8> {
    let mut lines: Vec<&[u8]> = input.split(|byte| *byte == b'\n').collect();
    // what follows the last line feed is a line only if there is any byte of it
    if lines.last().is_some_and(|line| line.is_empty()) {
        lines.pop();
    }
    let mut store = vec![0; STORE];
    let mut output = String::new();
    for line in lines {
        output.push_str(&printed(&mut store, line));
        output.push('\n');
    }
    output.into_bytes()
}
