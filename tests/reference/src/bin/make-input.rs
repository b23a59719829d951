// Prints the input that the program job or probe is tried on, the file stdin of its crate:
// make-input job >crates/job/stdin, make-input probe >crates/probe/stdin.

use reference::inputs::{job_input, probe_input};
use std::io::{self, Write};
use std::process::ExitCode;

fn main() -> ExitCode {
    let input = match std::env::args().nth(1).as_deref() {
        Some("job") => job_input(),
        Some("probe") => probe_input(),
        _ => {
            eprintln!("usage: make-input job|probe");
            return ExitCode::FAILURE;
        }
    };
    match io::stdout().lock().write_all(&input) {
        Ok(()) => ExitCode::SUCCESS,
        Err(error) => {
            eprintln!("make-input: {error}");
            ExitCode::FAILURE
        }
    }
}
