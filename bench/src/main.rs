//! Measures the eight calls and the frames program, beside the same in safe Rust, and prints the tables in Markdown: bench/run does it all.
//!
//!     bench measure SET        measures the calls, with the code where this program has it, and adds the times to those of a set
//!     bench report SET...      prints what the sets have
//!     bench program            measures the program and prints it

use bench::{calls, programs, Target};
use std::path::Path;
use std::process::ExitCode;

// So many bytes before the code that is measured: see build.rs.
std::arch::global_asm!(
    ".section .text.placed, \"ax\"",
    ".globl placed",
    "placed:",
    concat!(".skip ", env!("PLACE")),
    ".text"
);

extern "C" {
    fn placed();
}

fn main() -> ExitCode {
    std::hint::black_box(placed as *const () as usize);
    let words: Vec<String> = std::env::args().skip(1).collect();
    let words: Vec<&str> = words.iter().map(String::as_str).collect();
    let done = match words[..] {
        ["measure", set] => calls::measure(Path::new(set)).map(|()| Vec::new()),
        ["report", ref sets @ ..] if !sets.is_empty() => calls::report(&sets.iter().map(Path::new).collect::<Vec<_>>()),
        ["program"] => programs::report(),
        _ => Err("bench measure SET | report SET... | program".into()),
    };
    match done {
        Ok(targets) => {
            print_targets(&targets);
            ExitCode::SUCCESS
        }
        Err(reason) => {
            eprintln!("no report: {reason}");
            ExitCode::FAILURE
        }
    }
}

fn print_targets(targets: &[Target]) {
    for (target, met) in targets {
        println!("\n**{}**: {target}", if *met { "Met" } else { "NOT met" });
    }
}
