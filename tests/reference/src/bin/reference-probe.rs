// Answers probes of stored states and of writing from the reference itself.
// It stands in for the program under test when a comparing program is tried out.

use reference::probe::answers;
use std::io::{self, Read, Write};

fn main() -> io::Result<()> {
    let mut input = Vec::new();
    io::stdin().lock().read_to_end(&mut input)?;
    io::stdout().lock().write_all(&answers(&input))
}
