//! The frames program over the reference: standard input to standard output.

use std::io::{stdin, stdout, Read, Result, Write};

fn main() -> Result<()> {
    let mut input = Vec::new();
    stdin().read_to_end(&mut input)?;
    stdout().write_all(&reference::frames_output(&input))
}
