// The map viewer's three calls: clear a store, apply one record to it, ask a receiver.
// Also how a call goes to a driver that makes it, and whether what comes back is right.

use crate::book::{self, apply_stored, decode, Answer, Levels};
use crate::probe::{front, number};
use crate::record::extent;
use crate::road::{refusal, Refusal};
use std::io;

/// Bytes of what an ask writes, and how it tells a quiet index.
pub const OUTPUT_SIZE: usize = 4;
pub const QUIET: u16 = u16::MAX;

/// A result is a number times this, plus a place.
pub const PLACES: u32 = 1024;

/// What bytes lent to a call are told by, and the bytes of a result.
const LENGTH_SIZE: usize = 4;
const RESULT_SIZE: usize = 4;

/// Calls for one run of a driver.
const AT_ONCE: usize = 100;

/// One of the three, with what only it is lent.
#[derive(Clone, Debug, PartialEq, Eq)]
pub enum Call {
    Clear,
    Apply { record: Vec<u8> },
    Ask { slot: u64, output: Vec<u8> },
}

/// A call and the store it is lent. Where there are no bytes to lend, `null` says that there is no
/// address either; else bytes begin so many past an aligned address as `shift` says, at most 15.
#[derive(Clone, Debug, PartialEq, Eq)]
pub struct View {
    pub store: Vec<u8>,
    pub call: Call,
    pub null: bool,
    pub shift: u8,
}

/// The two numbers of a refusal in one.
pub fn packed(refusal: Refusal) -> u32 {
    u32::from(refusal.number) * PLACES + u32::from(refusal.place)
}

/// The number of a result, and its place.
pub fn unpacked(result: u32) -> (u32, u32) {
    (result / PLACES, result % PLACES)
}

/// What an ask writes: L_DEN, then L_Night, each the low byte first.
pub fn written(levels: Levels) -> [u8; OUTPUT_SIZE] {
    let told = |index: Option<i64>| index.map_or(QUIET, |tenths| tenths as u16).to_le_bytes();
    let [[a, b], [c, d]] = [levels.den, levels.night].map(told);
    [a, b, c, d]
}

/// Clears a store.
pub fn clear(store: &mut [u8]) -> Result<(), Refusal> {
    match book::clear(store) {
        Answer::Refused(refusal) => Err(refusal),
        _ => Ok(()),
    }
}

/// Does the one record to a store. That bytes follow it is told last of all, and then it is not done.
pub fn apply(store: &mut [u8], record: &[u8]) -> Result<(), Refusal> {
    let mut after = store.to_vec();
    if let Answer::Refused(refusal) = apply_stored(&mut after, record) {
        return Err(refusal);
    }
    if record.len() > extent(record) {
        return Err(refusal(2));
    }
    store.copy_from_slice(&after);
    Ok(())
}

/// Asks the receiver in a slot. That the output is of another length is told last of all.
pub fn ask(store: &[u8], slot: u64, output: &mut [u8]) -> Result<(), Refusal> {
    let book = decode(store).ok_or(refusal(1))?;
    let levels = book.ask(i64::try_from(slot).unwrap_or(i64::MAX))?;
    if output.len() != OUTPUT_SIZE {
        return Err(refusal(2));
    }
    output.copy_from_slice(&written(levels));
    Ok(())
}

/// Adds bytes that are lent to what goes into a driver.
fn put_lent(out: &mut Vec<u8>, bytes: &[u8]) {
    out.extend((bytes.len() as u32).to_be_bytes());
    out.extend(bytes);
}

/// Takes bytes that are lent off the front.
fn take_lent(input: &mut &[u8]) -> Option<Vec<u8>> {
    let length = number(front(input, LENGTH_SIZE)?);
    front(input, length).map(<[u8]>::to_vec)
}

impl View {
    /// Adds the call to what goes into a driver; lengths and the slot are most significant byte first.
    pub fn put(&self, out: &mut Vec<u8>) {
        let call = match self.call {
            Call::Clear => 0,
            Call::Apply { .. } => 1,
            Call::Ask { .. } => 2,
        };
        out.extend([call, u8::from(self.null), self.shift]);
        put_lent(out, &self.store);
        match &self.call {
            Call::Clear => {}
            Call::Apply { record } => put_lent(out, record),
            Call::Ask { slot, output } => {
                out.extend(slot.to_be_bytes());
                put_lent(out, output);
            }
        }
    }

    /// Takes a call off the front; none where no whole one is left.
    pub fn take(input: &mut &[u8]) -> Option<View> {
        let &[call, null, shift] = front(input, 3)? else {
            return None;
        };
        let store = take_lent(input)?;
        let call = match call {
            0 => Call::Clear,
            1 => Call::Apply {
                record: take_lent(input)?,
            },
            2 => Call::Ask {
                slot: number(front(input, 8)?) as u64,
                output: take_lent(input)?,
            },
            _ => return None,
        };
        Some(View {
            store,
            call,
            null: null != 0,
            shift,
        })
    }

    /// Makes the call and gives its result.
    pub fn call(&mut self) -> u32 {
        let outcome = match &mut self.call {
            Call::Clear => clear(&mut self.store),
            Call::Apply { record } => apply(&mut self.store, record),
            Call::Ask { slot, output } => ask(&self.store, *slot, output),
        };
        outcome.map_or_else(packed, |()| 0)
    }

    /// What a driver writes: the result, the store and the output as they are after the call.
    pub fn answered(&self, result: u32) -> Vec<u8> {
        let output: &[u8] = match &self.call {
            Call::Ask { output, .. } => output,
            _ => &[],
        };
        [&result.to_be_bytes()[..], &self.store, output].concat()
    }
}

/// The answers to calls end to end, each made in this way, and how many bytes are left that are no
/// whole call.
pub fn answers(mut input: &[u8], make: impl Fn(&mut View) -> u32) -> (Vec<u8>, usize) {
    let mut output = Vec::new();
    loop {
        let left = input.len();
        let Some(mut view) = View::take(&mut input) else {
            return (output, left);
        };
        let result = make(&mut view);
        output.extend(view.answered(result));
    }
}

/// A call with its name, and what has to come of it.
pub struct Trial {
    pub name: String,
    pub view: View,
    pub after: View,
    pub result: u32,
}

/// What a driver did otherwise: the name of the call, how it goes into the driver, and the report.
#[derive(Debug)]
pub struct Difference {
    pub name: String,
    pub input: Vec<u8>,
    pub report: String,
}

/// Compares one call after the other, many in one run of the driver.
pub fn compare(
    mut trials: impl Iterator<Item = Trial>,
    driver: impl Fn(&[u8]) -> io::Result<Vec<u8>>,
) -> Result<(), Difference> {
    loop {
        let batch: Vec<Trial> = trials.by_ref().take(AT_ONCE).collect();
        if batch.is_empty() {
            return Ok(());
        }
        compare_batch(&batch, &driver)?;
    }
}

/// Sends calls to one run of the driver and compares every byte that comes back. Where the run fails,
/// each call is sent alone, to find the one at which it does.
pub fn compare_batch(
    batch: &[Trial],
    driver: &impl Fn(&[u8]) -> io::Result<Vec<u8>>,
) -> Result<(), Difference> {
    let mut input = Vec::new();
    batch.iter().for_each(|trial| trial.view.put(&mut input));
    match driver(&input) {
        Ok(found) => compare_answers(batch, &found),
        Err(error) => {
            if batch.len() > 1 {
                let mut alone = batch.chunks(1);
                alone.try_for_each(|one| compare_batch(one, driver))?;
            }
            Err(batch[0].difference(format!("fails: {error}")))
        }
    }
}

fn compare_answers(batch: &[Trial], found: &[u8]) -> Result<(), Difference> {
    let mut rest = found;
    for trial in batch {
        let expected = trial.after.answered(trial.result);
        rest = rest
            .strip_prefix(expected.as_slice())
            .ok_or_else(|| trial.differs(&expected, rest))?;
    }
    match (rest.len(), batch.last()) {
        (more @ 1.., Some(last)) => Err(last.difference(format!("has {more} bytes after it"))),
        _ => Ok(()),
    }
}

impl Trial {
    pub fn new(name: String, view: View) -> Trial {
        let mut after = view.clone();
        let result = after.call();
        Trial {
            name,
            view,
            after,
            result,
        }
    }

    /// What goes into a driver.
    fn input(&self) -> Vec<u8> {
        let mut input = Vec::new();
        self.view.put(&mut input);
        input
    }

    fn difference(&self, said: String) -> Difference {
        Difference {
            name: self.name.clone(),
            input: self.input(),
            report: format!("call {} {said}", self.name),
        }
    }

    /// Says where an answer differs first, and both results.
    fn differs(&self, expected: &[u8], found: &[u8]) -> Difference {
        let pairs = expected.iter().zip(found);
        let same = pairs.take_while(|(a, b)| a == b).count();
        let byte = |bytes: &[u8]| bytes.get(same).map_or("nothing".to_string(), u8::to_string);
        self.difference(format!(
            "differs in {}: the reference has {}, the program {}\n\
             results: the reference {}, the program {}",
            self.part(same),
            byte(expected),
            byte(found),
            told(expected),
            told(found)
        ))
    }

    /// What a byte of the answer belongs to.
    fn part(&self, at: usize) -> String {
        let length = self.view.store.len();
        match at.checked_sub(RESULT_SIZE) {
            None => "the result".to_string(),
            Some(at) if at < length => format!("the store, at byte {at}"),
            Some(at) => format!("the output, at byte {}", at - length),
        }
    }
}

/// The result at the front of an answer in words.
fn told(answer: &[u8]) -> String {
    let Some(result) = answer.get(..RESULT_SIZE) else {
        return "none".to_string();
    };
    let (number, place) = unpacked(self::number(result) as u32);
    format!("{number} with place {place}")
}
