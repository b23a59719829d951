// What the map viewer's calls by chance meet: every number, for every reason that there is, and every
// sort of store, record, slot and output. Number 7 is not among them, and neither is 8.

use reference::book::decode;
use reference::record::{extent, kind_in, listed_kinds};
use reference::road::NUMBERS;
use reference::store::STORE_SIZE;
use reference::viewer::{apply, unpacked, Call, Trial, View, QUIET};
use reference::views::view;
use std::collections::BTreeMap;
use std::sync::LazyLock;

/// What a length or a slot is too great by where only its lowest bits are right.
const BYTE: usize = 1 << 8;
const TWO_BYTES: usize = 1 << 16;
const FOUR_BYTES: u64 = 1 << 32;

/// The calls of the first seeds, made once for all tests.
static TRIALS: LazyLock<Vec<Trial>> = LazyLock::new(|| {
    let trial = |seed| Trial::new(format!("seed-{seed}"), view(seed));
    (1..=2000).map(trial).collect()
});

fn number(trial: &Trial) -> usize {
    unpacked(trial.result).0 as usize
}

/// How often something was met.
#[derive(Default)]
struct Counts(BTreeMap<String, u64>);

impl Counts {
    fn note(&mut self, what: impl Into<String>, met: bool) {
        *self.0.entry(what.into()).or_default() += u64::from(met);
    }

    fn check(&self, least: u64) {
        for (what, met) in &self.0 {
            assert!(*met >= least, "{what}: {:?}", self.0);
        }
    }
}

/// How often each number is given to calls of one sort.
fn numbers(sort: impl Fn(&View) -> bool) -> [u64; NUMBERS] {
    let mut numbers = [0; NUMBERS];
    for trial in TRIALS.iter().filter(|trial| sort(&trial.view)) {
        numbers[number(trial)] += 1;
    }
    numbers
}

/// That these numbers were met so often at least, and no others.
fn check_numbers(met: [u64; NUMBERS], possible: &[usize], least: u64) {
    for (number, count) in met.into_iter().enumerate() {
        let enough = match possible.contains(&number) {
            true => count >= least,
            false => count == 0,
        };
        assert!(enough, "{number}: {met:?}");
    }
}

fn record_of(view: &View) -> Option<&[u8]> {
    match &view.call {
        Call::Apply { record } => Some(record),
        _ => None,
    }
}

/// How many bytes follow a whole record.
fn following(record: &[u8]) -> usize {
    match extent(record) {
        0 => 0,
        length => record.len() - length,
    }
}

#[test]
fn records_alone_meet_every_number() {
    let alone = |view: &View| record_of(view).is_some_and(|record| following(record) == 0);
    let possible = [0, 1, 2, 3, 4, 5, 6, 9, 10, 11, 12, 13, 14];
    check_numbers(numbers(alone), &possible, 2);
}

#[test]
fn records_with_bytes_that_follow_meet_every_number_but_0_and_3() {
    let followed = |view: &View| record_of(view).is_some_and(|record| following(record) > 0);
    let possible = [1, 2, 4, 5, 6, 9, 10, 11, 12, 13, 14];
    check_numbers(numbers(followed), &possible, 3);
}

#[test]
fn clears_and_asks_meet_their_numbers() {
    let asks = |view: &View| matches!(view.call, Call::Ask { .. });
    check_numbers(numbers(asks), &[0, 1, 2, 5, 9], 40);
    let clears = |view: &View| view.call == Call::Clear;
    check_numbers(numbers(clears), &[0, 1], 30);
}

#[test]
fn bytes_follow_what_would_be_done_in_every_way() {
    let mut counts = Counts::default();
    for trial in TRIALS.iter() {
        let Some(record) = record_of(&trial.view).filter(|_| number(trial) == 2) else {
            continue;
        };
        let more = following(record);
        if more == 0 {
            continue;
        }
        for kind in listed_kinds() {
            counts.note(format!("kind {kind}"), kind_in(record[0]) == kind);
        }
        counts.note("one byte", more == 1);
        counts.note("two bytes", more == 2);
        counts.note("more bytes", (3..TWO_BYTES).contains(&more));
        counts.note("65536 bytes", more == TWO_BYTES);
        counts.note("a record", is_done_after(&trial.view.store, record));
    }
    counts.check(3);
}

/// Whether the record and then the one that follows it would both be done.
fn is_done_after(store: &[u8], records: &[u8]) -> bool {
    let (first, second) = records.split_at(extent(records));
    let mut store = store.to_vec();
    [first, second].map(|record| apply(&mut store, record)) == [Ok(()); 2]
}

#[test]
fn records_are_cut_anywhere() {
    let mut counts = Counts::default();
    for trial in TRIALS.iter().filter(|trial| number(trial) == 2) {
        let Some(record) = record_of(&trial.view) else {
            continue;
        };
        counts.note("nothing", record.is_empty());
        counts.note("one byte", record.len() == 1);
        counts.note("more bytes", record.len() > 1 && extent(record) == 0);
        let last = [record, &[0]].concat();
        counts.note("all but the last", extent(record) == 0 && extent(&last) > 0);
    }
    counts.check(5);
}

#[test]
fn records_of_every_kind_are_done() {
    let mut counts = Counts::default();
    for trial in TRIALS.iter() {
        let Some(record) = record_of(&trial.view) else {
            continue;
        };
        for kind in listed_kinds() {
            let here = record.first().is_some_and(|&byte| kind_in(byte) == kind);
            counts.note(format!("kind {kind}"), here && number(trial) == 0);
        }
        let asks = record.first().is_some_and(|&byte| kind_in(byte) == 5);
        let more = following(record) > 0;
        counts.note("vacant by record", asks && !more && number(trial) == 9);
        counts.note("vacant, followed", asks && more && number(trial) == 9);
    }
    counts.check(2);
}

#[test]
fn asks_write_loud_and_quiet_indices() {
    let mut counts = Counts::default();
    for trial in TRIALS.iter().filter(|trial| number(trial) == 0) {
        if let Call::Ask { output, .. } = &trial.after.call {
            let quiet = |at: usize| output[at..at + 2] == QUIET.to_le_bytes();
            let (den, night) = (quiet(0), quiet(2));
            counts.note("both loud", !den && !night);
            counts.note("both quiet", den && night);
            counts.note("the night quiet alone", !den && night);
            counts.note("high bytes", output[1] > 0 && output[3] > 0 && !night);
            counts.note("no high bytes", output[1] == 0 || output[3] == 0);
            // the night weighs so much that a day with a night is never quiet
            assert!(night || !den);
        }
    }
    counts.check(20);
}

#[test]
fn asks_meet_outputs_of_every_length() {
    let mut counts = Counts::default();
    for trial in TRIALS.iter() {
        let Call::Ask { output, .. } = &trial.view.call else {
            continue;
        };
        let number = number(trial);
        for length in [0, 1, 2, 3, 5, 6, 4 + BYTE, 4 + TWO_BYTES] {
            let met = number == 2 && output.len() == length;
            counts.note(format!("output of {length}"), met);
        }
        for earlier in [1, 5, 9] {
            let met = number == earlier && output.len() != 4;
            counts.note(format!("{earlier} before the output's 2"), met);
        }
    }
    counts.check(2);
}

#[test]
fn asks_meet_every_sort_of_slot() {
    let mut counts = Counts::default();
    for trial in TRIALS.iter() {
        let Call::Ask { slot, .. } = trial.view.call else {
            continue;
        };
        let Some(book) = decode(&trial.view.store) else {
            continue;
        };
        let stands = |slot: u64| slot < 64 && book.accounts[slot as usize].is_some();
        counts.note("standing", stands(slot));
        counts.note("vacant", slot < 64 && !stands(slot));
        for beyond in [64, u64::from(u16::MAX), u64::from(u32::MAX), u64::MAX] {
            counts.note(format!("{beyond}"), slot == beyond);
        }
        for step in [64, BYTE as u64, TWO_BYTES as u64, FOUR_BYTES, 1 << 63] {
            let met = slot.checked_sub(step).is_some_and(stands);
            counts.note(format!("{step} and one that stands"), met);
        }
    }
    counts.check(2);
}

#[test]
fn calls_meet_every_sort_of_store() {
    let mut counts = Counts::default();
    for trial in TRIALS.iter() {
        let store = &trial.view.store;
        let call = match trial.view.call {
            Call::Clear => "clear",
            Call::Apply { .. } => "apply",
            Call::Ask { .. } => "ask",
        };
        let mut note = |what: &str, met| counts.note(format!("{call}: {what}"), met);
        let length = store.len();
        let sound = decode(store).is_some();
        note("sound", sound);
        note("damaged", length == STORE_SIZE && !sound);
        note("too short", (1..STORE_SIZE).contains(&length));
        note("too long", length > STORE_SIZE);
        let front = &store[..length.min(STORE_SIZE)];
        let longer = length == STORE_SIZE + TWO_BYTES;
        note("sound, and 65536 more", longer && decode(front).is_some());
        note("empty", length == 0);
        if call == "apply" {
            note("inconsistent", sound && number(trial) == 1);
        }
    }
    counts.check(4);
}

#[test]
fn bytes_are_lent_in_every_way() {
    let mut counts = Counts::default();
    for view in TRIALS.iter().map(|trial| &trial.view) {
        let (call, bytes) = match &view.call {
            Call::Clear => continue,
            Call::Apply { record } => ("record", record),
            Call::Ask { output, .. } => ("output", output),
        };
        for (what, bytes) in [(call, bytes), ("store", &view.store)] {
            let empty = bytes.is_empty();
            counts.note(format!("{what}, and no address"), empty && view.null);
            counts.note(format!("{what}, and an address"), empty && !view.null);
        }
        for shift in 0..16 {
            counts.note(format!("shift {shift}"), view.shift == shift);
        }
    }
    counts.check(4);
}

#[test]
fn a_refusal_leaves_all_that_was_lent() {
    for trial in TRIALS.iter().filter(|trial| trial.result != 0) {
        assert_eq!(trial.view, trial.after);
    }
}

#[test]
fn what_is_done_leaves_a_sound_store() {
    for trial in TRIALS.iter().filter(|trial| trial.result == 0) {
        assert!(decode(&trial.after.store).is_some());
        let asks = matches!(trial.view.call, Call::Ask { .. });
        assert!(!asks || trial.view.store == trial.after.store);
    }
}
