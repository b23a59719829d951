// The listing of a job: one line for each ask and each refusal, and the closing line.
// The job is carried out on a book that begins cleared.

use crate::book::{Answer, Book};
use crate::record::{kind_in, length_of, read, Record};
use crate::road::NUMBERS;
use std::io::Write;

/// What a job was made of and met: records tried, asks answered, each refusal's count.
#[derive(Clone, Debug, Default, PartialEq, Eq)]
pub struct Tally {
    pub records: u64,
    pub asks: u64,
    pub refusals: [u64; NUMBERS],
}

impl Tally {
    pub fn add(&mut self, other: &Tally) {
        self.records += other.records;
        self.asks += other.asks;
        for (mine, theirs) in self.refusals.iter_mut().zip(other.refusals) {
            *mine += theirs;
        }
    }
}

fn put_level(out: &mut Vec<u8>, tenths: Option<i64>) {
    match tenths {
        Some(tenths) => write!(out, " {}.{}", tenths / 10, tenths % 10),
        None => write!(out, " --.-"),
    }
    .expect("memory takes every line");
}

fn put_answer(out: &mut Vec<u8>, tally: &mut Tally, record: &Record, answer: Answer) {
    match (answer, record) {
        (Answer::Levels(levels), Record::Ask(slot)) => {
            tally.asks += 1;
            write!(out, "{} R{slot:02}", tally.records).expect("memory takes every line");
            put_level(out, levels.den);
            put_level(out, levels.night);
            out.push(b'\n');
        }
        (Answer::Refused(refusal), _) => put_refusal(out, tally, refusal.number),
        _ => {}
    }
}

fn put_refusal(out: &mut Vec<u8>, tally: &mut Tally, number: u8) {
    tally.refusals[usize::from(number)] += 1;
    writeln!(out, "{} E{number:02}", tally.records).expect("memory takes every line");
}

/// Carries out a job and adds its listing to the output.
pub fn list(mut job: &[u8], out: &mut Vec<u8>) -> Tally {
    let mut book = Book::cleared();
    let mut tally = Tally::default();
    while !job.is_empty() {
        tally.records += 1;
        match read(job) {
            Ok((record, length)) => {
                let answer = book.apply(&record);
                put_answer(out, &mut tally, &record, answer);
                job = &job[length..];
            }
            Err(refusal) => {
                put_refusal(out, &mut tally, refusal.number);
                job = rest_after(job, refusal.number);
            }
        }
    }
    writeln!(out, "END {}", tally.records).expect("memory takes every line");
    tally
}

/// What is left of a job after a record the reader refused: nothing after a 2 or a 3.
fn rest_after(job: &[u8], number: u8) -> &[u8] {
    match (number, length_of(kind_in(job[0]))) {
        (4.., Some(length)) => &job[length..],
        _ => &[],
    }
}
