// A job handed to a program through a pipe in pieces: each is taken before the next is sent.
// So a record may reach the program in any number of reads, cut anywhere.

use crate::chance::Chance;
use crate::jobs::{job, long_job};
use crate::record::LONGEST;
use std::io::{self, Read, Write};
use std::os::fd::{AsRawFd, RawFd};
use std::os::raw::{c_int, c_ulong};
use std::process::{Child, ChildStdin, Command, Stdio};
use std::thread;

/// The bytes of each buffer of the program, on either side, and of a page.
pub const BUFFER: usize = 65_536;
const PAGE: usize = 4096;

/// Sizes around those of records, of pages and of the program's own buffers.
const SIZES: [usize; 13] = [
    1,
    2,
    3,
    8,
    LONGEST - 1,
    LONGEST,
    LONGEST + 1,
    2 * LONGEST - 1,
    PAGE - 1,
    PAGE,
    BUFFER - 1,
    BUFFER,
    BUFFER + 1,
];

/// Pieces of one job at most, so that single bytes do not take long.
const MOST: usize = 4000;

/// FIONREAD of Linux: how many bytes wait in a pipe.
const WAITING: c_ulong = 0x541b;

extern "C" {
    fn ioctl(fd: c_int, request: c_ulong, ...) -> c_int;
}

/// A job and the pieces it comes in.
pub struct Delivery {
    pub job: Vec<u8>,
    pub sizes: Vec<usize>,
}

/// The delivery a seed stands for: a job, often cut short, in pieces of one size or of many.
pub fn delivery(seed: u64) -> Delivery {
    let mut chance = Chance::new(seed);
    let mut job = match seed % 5 {
        0 => long_job(seed),
        _ => job(seed),
    };
    let size = SIZES[(seed % SIZES.len() as u64) as usize];
    if chance.one_in(3) {
        job.truncate(chance.between(0, job.len() as i64) as usize);
    }
    let mixed = chance.one_in(4);
    let mut sizes = Vec::new();
    let mut sent = 0;
    while sent < job.len() && sizes.len() < MOST {
        let next = if mixed { chance.pick(&SIZES) } else { size };
        sizes.push(next.min(job.len() - sent));
        sent += sizes[sizes.len() - 1];
    }
    job.truncate(sent);
    Delivery { job, sizes }
}

/// How many bytes of a pipe were written and not yet read.
fn waiting(pipe: RawFd) -> io::Result<c_int> {
    let mut bytes: c_int = 0;
    // SAFETY: FIONREAD writes one int to the place that it is given, and keeps nothing
    let status = unsafe { ioctl(pipe, WAITING, &mut bytes as *mut c_int) };
    match status {
        0 => Ok(bytes),
        _ => Err(io::Error::last_os_error()),
    }
}

/// Sends a piece and waits until it is taken; false where the program does not take it any more.
fn send(child: &mut Child, entrance: &mut ChildStdin, piece: &[u8]) -> io::Result<bool> {
    match entrance.write_all(piece) {
        Err(error) if error.kind() == io::ErrorKind::BrokenPipe => return Ok(false),
        other => other?,
    }
    while waiting(entrance.as_raw_fd())? > 0 {
        if child.try_wait()?.is_some() {
            return Ok(false);
        }
        thread::yield_now();
    }
    Ok(true)
}

/// Sends one piece after the other, and then the end of the input.
fn send_all(child: &mut Child, delivery: &Delivery) -> io::Result<()> {
    let mut entrance = child.stdin.take().expect("the input is piped");
    let mut rest = delivery.job.as_slice();
    for &size in &delivery.sizes {
        let (piece, later) = rest.split_at(size);
        if !send(child, &mut entrance, piece)? {
            return Ok(());
        }
        rest = later;
    }
    Ok(())
}

/// What the program prints for a job that comes in pieces.
pub fn output_in_pieces(program: &str, delivery: &Delivery) -> io::Result<Vec<u8>> {
    let mut child = Command::new(program)
        .stdin(Stdio::piped())
        .stdout(Stdio::piped())
        .spawn()?;
    let mut exit = child.stdout.take().expect("the output is piped");
    let mut output = Vec::new();
    let (sent, read) = thread::scope(|scope| {
        let reader = scope.spawn(|| exit.read_to_end(&mut output));
        let sent = send_all(&mut child, delivery);
        (sent, reader.join().expect("the reader ends"))
    });
    let status = child.wait()?;
    sent?;
    read?;
    match status.code() {
        Some(_) => Ok(output),
        None => Err(io::Error::other(format!("{program} was ended: {status}"))),
    }
}
