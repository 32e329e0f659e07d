//! Programs of the repository, run for what they print.

use std::io::Read;
use std::process::{ChildStdin, Command, Stdio};
use std::{io, thread};

/// The repository's folder.
pub const ROOT: &str = concat!(env!("CARGO_MANIFEST_DIR"), "/../..");
/// The program that answers frames; `tools/build` builds it.
pub const FRAMES: &str = "target/bin/frames";

/// What the program at this path of the repository prints for the input that `write` gives it.
pub fn printed_by(path: &str, write: impl FnOnce(&mut ChildStdin) -> io::Result<()>) -> Result<Vec<u8>, String> {
    run(path, write).map_err(|why| format!("{path}: {why}"))
}

// The output is read while the input is written, so that neither waits for the other however long they are.
fn run(path: &str, write: impl FnOnce(&mut ChildStdin) -> io::Result<()>) -> io::Result<Vec<u8>> {
    let mut program = Command::new(format!("{ROOT}/{path}"))
        .stdin(Stdio::piped())
        .stdout(Stdio::piped())
        .spawn()?;
    let mut stdin = program.stdin.take().expect("piped");
    let mut stdout = program.stdout.take().expect("piped");
    let printed = thread::scope(|scope| {
        let reader = scope.spawn(move || {
            let mut printed = Vec::new();
            stdout.read_to_end(&mut printed).map(|_| printed)
        });
        let written = write(&mut stdin);
        drop(stdin);
        let printed = reader.join().expect("the reader");
        written.and(printed)
    });
    let status = program.wait()?;
    if !status.success() {
        return Err(io::Error::other(format!("the program ended with {status}")));
    }
    printed
}
