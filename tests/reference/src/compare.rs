// Running the program under test: its input goes in on one side while its output comes out.
// Also what the comparing programs share: their arguments, the probes and the reports.

use crate::probe::{HEAD, HEAD_NAMES};
use crate::road::NUMBERS;
use std::io::{self, Read, Write};
use std::path::PathBuf;
use std::process::{Command, ExitCode, Stdio};
use std::thread;

/// Probes for one run of the program.
const AT_ONCE: usize = 100;

/// What a comparing program is told.
pub struct Order {
    pub program: String,
    pub count: u64,
    pub seed: u64,
}

impl Order {
    /// The seeds of the things to compare.
    pub fn seeds(&self) -> impl Iterator<Item = u64> {
        (self.seed..).take(self.count as usize)
    }
}

/// The program, the count and the seed, which is 1 if it is not given.
fn order(usage: &str) -> Result<Order, String> {
    let words: Vec<String> = std::env::args().skip(1).collect();
    if words.len() != 2 && words.len() != 3 {
        return Err(format!("usage: {usage}"));
    }
    let number = |word: &String| word.parse::<u64>().map_err(|e| format!("{word}: {e}"));
    Ok(Order {
        program: words[0].clone(),
        count: number(&words[1])?,
        seed: words.get(2).map_or(Ok(1), number)?,
    })
}

/// Does what a comparing program is told, and prints its summary or its report.
pub fn run(usage: &str, compare: impl Fn(&Order) -> Result<String, String>) -> ExitCode {
    match order(usage).and_then(|order| compare(&order)) {
        Ok(summary) => {
            println!("{summary}");
            ExitCode::SUCCESS
        }
        Err(report) => {
            eprintln!("{report}");
            ExitCode::FAILURE
        }
    }
}

/// What the program prints for an input. A program may stop reading early.
pub fn output_of(program: &str, input: &[u8]) -> io::Result<Vec<u8>> {
    let mut child = Command::new(program)
        .stdin(Stdio::piped())
        .stdout(Stdio::piped())
        .spawn()?;
    let mut entrance = child.stdin.take().expect("the input is piped");
    let mut exit = child.stdout.take().expect("the output is piped");
    let mut output = Vec::new();
    let read = thread::scope(|scope| {
        scope.spawn(move || entrance.write_all(input));
        exit.read_to_end(&mut output)
    });
    let status = child.wait()?;
    read?;
    match status.code() {
        Some(_) => Ok(output),
        None => Err(io::Error::other(format!("{program} was ended: {status}"))),
    }
}

/// Keeps bytes and says where.
pub fn keep(name: &str, bytes: &[u8]) -> String {
    match keep_beside(name, bytes) {
        Ok(path) => format!("it is kept as {}", path.display()),
        Err(error) => format!("it could not be kept: {error}"),
    }
}

/// Keeps bytes in a folder beside this program, with the number of this process in the name, so
/// that no other run writes over them.
fn keep_beside(name: &str, bytes: &[u8]) -> io::Result<PathBuf> {
    let folder = std::env::current_exe()?.with_file_name("differences");
    std::fs::create_dir_all(&folder)?;
    let path = folder.join(format!("{}-{name}", std::process::id()));
    std::fs::write(&path, bytes)?;
    Ok(path)
}

/// The first line in which two listings differ.
pub fn difference(expected: &[u8], found: &[u8]) -> String {
    let lines = |listing: &[u8]| -> Vec<String> {
        let pieces = listing.split_inclusive(|&byte| byte == b'\n');
        pieces
            .map(|line| format!("{:?}", String::from_utf8_lossy(line)))
            .collect()
    };
    let (expected, found) = (lines(expected), lines(found));
    let same = expected
        .iter()
        .zip(&found)
        .take_while(|(a, b)| a == b)
        .count();
    let line = |listing: &[String]| listing.get(same).cloned().unwrap_or("nothing".to_string());
    format!(
        "line {}: the reference has {}, the program {}",
        same + 1,
        line(&expected),
        line(&found)
    )
}

/// A probe: its name, what goes into the program, and the head and the bytes that have to come.
pub struct Probe {
    pub name: String,
    pub input: Vec<u8>,
    pub expected: Vec<u8>,
}

/// Compares one probe after the other, many in one run of the program.
pub fn compare_probes(
    program: &str,
    mut probes: impl Iterator<Item = Probe>,
) -> Result<(), String> {
    loop {
        let batch: Vec<Probe> = probes.by_ref().take(AT_ONCE).collect();
        let Some(last) = batch.last() else {
            return Ok(());
        };
        let more = compare_batch(program, &batch)?;
        if more > 0 {
            return Err(format!("{more} bytes too many after {}", last.name));
        }
    }
}

/// Sends probes to one run of the program and compares every byte that comes back.
/// Gives how many come after the last answer.
fn compare_batch(program: &str, batch: &[Probe]) -> Result<usize, String> {
    let inputs = batch.iter().map(|probe| probe.input.as_slice());
    let input = inputs.collect::<Vec<_>>().concat();
    let found = output_of(program, &input).map_err(|error| error.to_string())?;
    let mut rest = found.as_slice();
    for probe in batch {
        rest = rest
            .strip_prefix(probe.expected.as_slice())
            .ok_or_else(|| probe.report(rest))?;
    }
    Ok(rest.len())
}

impl Probe {
    /// Says where an answer differs and keeps what went in.
    fn report(&self, found: &[u8]) -> String {
        let pairs = self.expected.iter().zip(found);
        let same = pairs.take_while(|(a, b)| a == b).count();
        let place = match HEAD_NAMES.get(same) {
            Some(name) => format!("in the head, at byte {same} ({name})"),
            None => format!("in the bytes after the head, at byte {}", same - HEAD),
        };
        let front = |bytes: &[u8]| format!("{:?}", &bytes[..bytes.len().min(HEAD)]);
        let byte = |bytes: &[u8]| bytes.get(same).map_or("nothing".to_string(), u8::to_string);
        format!(
            "probe {} differs {place}: the reference has {}, the program {}\n\
             heads: the reference {}, the program {}\n{}",
            self.name,
            byte(&self.expected),
            byte(found),
            front(&self.expected),
            front(found),
            keep(&format!("{}.frame", self.name), &self.input)
        )
    }
}

/// The numbers of refusals as one piece of a summary line, from 1 or 2 on.
pub fn refusal_counts(counts: &[u64; NUMBERS], first: usize) -> String {
    let words: Vec<String> = (first..counts.len())
        .map(|number| format!("{number}:{}", counts[number]))
        .collect();
    words.join(" ")
}
