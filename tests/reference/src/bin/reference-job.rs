// Carries out the job on standard input and prints its listing.
// It is the plain baseline of the benchmark as well as of the comparison.

use reference::listing::list;
use std::io::{self, Read, Write};

fn main() -> io::Result<()> {
    let mut job = Vec::new();
    io::stdin().lock().read_to_end(&mut job)?;
    let mut listing = Vec::new();
    list(&job, &mut listing);
    io::stdout().lock().write_all(&listing)
}
