// Comparing the sheets of a program that takes roots with the reference's, while they come.
// Never more than one sheet is held, however many the program prints.

use crate::compare::{difference, keep};
use crate::longhand::{put_sheet, put_sheets};
use std::io::{self, BufRead, BufReader, Read, Write};
use std::os::unix::process::ExitStatusExt;
use std::process::{Child, Command, ExitStatus, Stdio};
use std::thread;

/// The bytes that are read at a time, and at most of what stands in place of the end of a line.
const BUFFER: usize = 65_536;
const LONGEST: u64 = 1000;

/// The signal that ends a program from here.
const KILLED: i32 = 9;

/// A number to take the root of, and its name.
pub struct Asked {
    pub name: String,
    pub number: u64,
}

impl Asked {
    fn differs(&self, how: &str) -> String {
        format!("the root of {} ({}) differs\n{how}", self.number, self.name)
    }
}

/// At which of the numbers the sheets differ first, and how.
#[derive(Debug, PartialEq, Eq)]
pub struct Difference {
    pub at: usize,
    pub report: String,
}

/// The numbers as the program reads them.
fn lines(batch: &[Asked]) -> Vec<u8> {
    let numbers = batch.iter().map(|asked| format!("{}\n", asked.number));
    numbers.collect::<String>().into_bytes()
}

/// Starts the program with its input and its output piped.
fn start(program: &str, messages: Stdio) -> Result<Child, String> {
    Command::new(program)
        .stdin(Stdio::piped())
        .stdout(Stdio::piped())
        .stderr(messages)
        .spawn()
        .map_err(|error| format!("{program}: {error}"))
}

/// Sends numbers to one run of the program and compares every sheet that comes back.
pub fn compare_batch(program: &str, batch: &[Asked]) -> Result<(), String> {
    let mut child = start(program, Stdio::inherit())?;
    let mut entrance = child.stdin.take().expect("the input is piped");
    let exit = child.stdout.take().expect("the output is piped");
    let mut exit = BufReader::with_capacity(BUFFER, exit);
    let compared = thread::scope(|scope| {
        scope.spawn(move || entrance.write_all(&lines(batch)));
        let compared = compare_sheets(&mut exit, batch);
        if !matches!(compared, Ok(None)) {
            // nobody listens to it any more; where it has ended already, this does nothing
            let _ = child.kill();
        }
        compared
    });
    let status = child.wait().map_err(|error| error.to_string())?;
    match compared.map_err(|error| error.to_string())? {
        Some(difference) => Err(told(batch, &difference, status)),
        None if status.success() => Ok(()),
        None => Err(told(batch, &whole(batch), status)),
    }
}

/// What is said of sheets that agree, but not the end of the program.
fn whole(batch: &[Asked]) -> Difference {
    Difference {
        at: batch.len() - 1,
        report: format!("all of {} sheets agree", batch.len()),
    }
}

/// Says how sheets differ and how the program ended, and keeps the numbers up to there.
fn told(batch: &[Asked], difference: &Difference, status: ExitStatus) -> String {
    let numbers = &batch[..=difference.at];
    let kept = keep(
        &format!("{}.numbers", batch[difference.at].name),
        &lines(numbers),
    );
    let ended = match status.signal() {
        Some(KILLED) => String::new(),
        _ => format!("the program ended with {status}\n"),
    };
    format!("{}\n{ended}{kept}", difference.report)
}

/// Compares one sheet after the other with what the program prints, up to its end.
pub fn compare_sheets(exit: &mut impl BufRead, batch: &[Asked]) -> io::Result<Option<Difference>> {
    let (mut expected, mut found) = (Vec::new(), Vec::new());
    for (at, asked) in batch.iter().enumerate() {
        expected.clear();
        put_sheet(asked.number, &mut expected);
        found.clear();
        let length = expected.len() as u64;
        exit.by_ref().take(length).read_to_end(&mut found)?;
        if at + 1 == batch.len() || found != expected {
            exit.by_ref().take(LONGEST).read_until(b'\n', &mut found)?;
        }
        if found != expected {
            let report = asked.differs(&difference(&expected, &found));
            return Ok(Some(Difference { at, report }));
        }
    }
    Ok(None)
}

/// Compares what becomes of an input with a line that is not a number: the sheets before it
/// and a message.
pub fn compare_refused(program: &str, input: &str) -> Result<(), String> {
    let mut expected = Vec::new();
    put_sheets(input, &mut expected).expect_err("a line is not a number");
    let mut child = start(program, Stdio::piped())?;
    let mut entrance = child.stdin.take().expect("the input is piped");
    // a program may stop reading early
    let _ = entrance.write_all(input.as_bytes());
    drop(entrance);
    let ended = child
        .wait_with_output()
        .map_err(|error| error.to_string())?;
    let report = if ended.stdout != expected {
        difference(&expected, &ended.stdout)
    } else if ended.stderr.is_empty() {
        "the program has no message".to_string()
    } else {
        return Ok(());
    };
    Err(format!("the refusal of {input:?} differs\n{report}"))
}
