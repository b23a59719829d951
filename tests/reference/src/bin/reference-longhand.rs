// Prints the sheets of the numbers on standard input from the reference itself.
// It stands in for the program under test when a comparing program is tried out.

use reference::longhand::put_sheets;
use std::io::{self, Read, Write};
use std::process::ExitCode;

fn main() -> io::Result<ExitCode> {
    let mut numbers = String::new();
    io::stdin().lock().read_to_string(&mut numbers)?;
    let mut sheets = Vec::new();
    let worked = put_sheets(&numbers, &mut sheets);
    io::stdout().lock().write_all(&sheets)?;
    Ok(match worked {
        Ok(()) => ExitCode::SUCCESS,
        Err(line) => {
            eprintln!("not a number below 2^64: {line}");
            ExitCode::FAILURE
        }
    })
}
