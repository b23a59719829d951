// Calls of the map viewer by chance, and those that are tried every time.
// A seed stands for one call, on the stored state of the probe that it stands for.

use crate::book::{decode, encode};
use crate::chance::Chance;
use crate::fields::{RECEIVERS, RECEIVER_SLOT, SOURCE_SLOT};
use crate::fixed::{example_image, one_of_each};
use crate::inconsistent::{asked, met_by_receiver, met_by_source, screened};
use crate::level::FAINTEST;
use crate::probe::{Frame, LONGEST_IMAGE};
use crate::record::{extent, kind_byte, unlisted_kinds, Record};
use crate::store::{receiver_at, RECEIVERS_AT, STORE_SIZE};
use crate::stores::{broken, frame};
use crate::town::Town;
use crate::viewer::{Call, View, OUTPUT_SIZE};

/// What makes one kind of call out of a probe; it may change the stored state.
type Maker = fn(&mut Chance, &mut Frame) -> Call;

/// The kinds of calls, with the names they are counted by. Their number is prime, so that each of them
/// meets each kind of probes.
const KINDS: [(&str, Maker); 31] = [
    ("clear", clear),
    ("record", record),
    ("followed", followed),
    ("ask", ask),
    ("doubled", doubled),
    ("vacant", vacant),
    ("record", record),
    ("cut", cut),
    ("barred", barred),
    ("beyond", beyond),
    ("telling", telling),
    ("record", record),
    ("ask", ask),
    ("followed", followed),
    ("doubled", doubled),
    ("asked-by-record", asked_by_record),
    ("room", room),
    ("faint", faint),
    ("followed", followed),
    ("record", record),
    ("clear", clear),
    ("unlisted", unlisted),
    ("ask", ask),
    ("beyond", beyond),
    ("record", record),
    ("disallowed", disallowed),
    ("barred", barred),
    ("vacant", vacant),
    ("followed", followed),
    ("room", room),
    ("faint", faint),
];

/// What a length or a slot may be too great by, so that its lowest 8, 16 or 32 bits are right.
const BYTE: usize = 1 << 8;
const TWO_BYTES: usize = 1 << 16;
const FOUR_BYTES: u64 = 1 << 32;

/// Bytes past an aligned address at which lent ones begin.
const SHIFTS: usize = 16;

fn kind(seed: u64) -> (&'static str, Maker) {
    KINDS[(seed % KINDS.len() as u64) as usize]
}

/// The name of the kind of call a seed stands for.
pub fn kind_name(seed: u64) -> &'static str {
    kind(seed).0
}

/// The call a seed stands for; of every kind some have a store of another length.
pub fn view(seed: u64) -> View {
    let chance = &mut Chance::new(!seed);
    let mut frame = frame(seed);
    let call = kind(seed).1(chance, &mut frame);
    if chance.one_in(15) {
        resize(chance, &mut frame.image);
    }
    View {
        store: frame.image,
        call,
        null: !chance.one_in(3),
        shift: chance.index(SHIFTS) as u8,
    }
}

fn some_bytes(chance: &mut Chance, count: usize) -> Vec<u8> {
    (0..count).map(|_| chance.draw() as u8).collect()
}

/// Makes a store too short or too long.
fn resize(chance: &mut Chance, image: &mut Vec<u8>) {
    let any = chance.index(LONGEST_IMAGE + 1);
    let near = chance.pick(&[STORE_SIZE - 1, STORE_SIZE + 1]);
    let length = chance.pick(&[0, near, any, STORE_SIZE + TWO_BYTES]);
    image.resize(length, chance.draw() as u8);
}

/// Clears any store, often one that is too short or too long.
fn clear(chance: &mut Chance, frame: &mut Frame) -> Call {
    if chance.one_in(2) {
        resize(chance, &mut frame.image);
    }
    Call::Clear
}

/// The record as the probe has it.
fn record(_: &mut Chance, frame: &mut Frame) -> Call {
    let record = frame.record.clone();
    Call::Apply { record }
}

/// The record without what follows it, or all bytes where there is no whole one.
fn alone(frame: &Frame) -> Vec<u8> {
    match extent(&frame.record) {
        0 => frame.record.clone(),
        length => frame.record[..length].to_vec(),
    }
}

/// The record cut short, often to nothing.
fn cut(chance: &mut Chance, frame: &mut Frame) -> Call {
    let mut record = alone(frame);
    let most = record.len().max(1) as i64 - 1;
    record.truncate(chance.edge(0, most) as usize);
    Call::Apply { record }
}

/// Bytes that follow a record: one or more, any or all 0.
fn tail(chance: &mut Chance) -> Vec<u8> {
    let many = chance.magnitude(1000) as usize;
    let count = chance.pick(&[1, 1, 2, many, many, TWO_BYTES]);
    match chance.one_in(3) {
        true => vec![0; count],
        false => some_bytes(chance, count),
    }
}

/// The record with bytes that follow it.
fn followed(chance: &mut Chance, frame: &mut Frame) -> Call {
    let mut record = alone(frame);
    record.extend(tail(chance));
    Call::Apply { record }
}

/// The record with another one that follows it, which may be the same.
fn doubled(chance: &mut Chance, frame: &mut Frame) -> Call {
    let mut record = alone(frame);
    let other = chance.pick(&one_of_each()).bytes();
    let same = record.clone();
    record.extend(if chance.one_in(2) { other } else { same });
    Call::Apply { record }
}

/// A record that asks, sometimes with bytes that follow it.
fn asked_by_record(chance: &mut Chance, frame: &mut Frame) -> Call {
    let used = !chance.one_in(3);
    let slot = slot(chance, &frame.image, used);
    let mut record = Record::Ask(slot as i64).bytes();
    if chance.one_in(2) {
        record.extend(tail(chance));
    }
    Call::Apply { record }
}

/// A record of a kind that is not listed, or its first byte alone.
fn unlisted(chance: &mut Chance, _: &mut Frame) -> Call {
    let count = chance.edge(1, 40) as usize;
    let mut record = some_bytes(chance, count);
    record[0] = kind_byte(chance.pick(&unlisted_kinds())) | record[0] & 15;
    Call::Apply { record }
}

/// A record that a pair may bar, mostly with bytes that follow it.
fn barred(chance: &mut Chance, frame: &mut Frame) -> Call {
    let probe = chance.pick(&[screened, screened, met_by_source, met_by_receiver]);
    *frame = probe(chance);
    match chance.one_in(4) {
        true => record(chance, frame),
        false => followed(chance, frame),
    }
}

/// A record that places a source which is not allowed, mostly with bytes that follow it.
fn disallowed(chance: &mut Chance, _: &mut Frame) -> Call {
    let slot = chance.within(&SOURCE_SLOT);
    let place = Town::anywhere(chance).placing(chance, slot);
    let mut record = broken(chance, place).bytes();
    if !chance.one_in(3) {
        record.extend(tail(chance));
    }
    Call::Apply { record }
}

/// A receiver's slot that is marked as in use, or one that is not; any where there is no such.
fn slot(chance: &mut Chance, image: &[u8], used: bool) -> u64 {
    let marked = |slot: &usize| image.get(receiver_at(*slot)) == Some(&1);
    let slots: Vec<usize> = (0..RECEIVERS).filter(|slot| marked(slot) == used).collect();
    match slots.as_slice() {
        [] => chance.within(&RECEIVER_SLOT) as u64,
        some => chance.pick(some) as u64,
    }
}

/// An output that is too short or too long.
fn wrong_output(chance: &mut Chance) -> Vec<u8> {
    let length = chance.pick(&[
        0,
        0,
        1,
        2,
        3,
        3,
        5,
        5,
        6,
        OUTPUT_SIZE + BYTE,
        OUTPUT_SIZE + TWO_BYTES,
    ]);
    some_bytes(chance, length)
}

/// An output that is, every third time, too short or too long.
fn any_output(chance: &mut Chance) -> Vec<u8> {
    match chance.one_in(3) {
        true => wrong_output(chance),
        false => some_bytes(chance, OUTPUT_SIZE),
    }
}

/// Asks a receiver that stands.
fn ask(chance: &mut Chance, frame: &mut Frame) -> Call {
    Call::Ask {
        slot: slot(chance, &frame.image, true),
        output: some_bytes(chance, OUTPUT_SIZE),
    }
}

/// Asks a receiver whose sums are at, just above or just below the energy of a level, or nothing.
fn telling(chance: &mut Chance, frame: &mut Frame) -> Call {
    *frame = asked(chance);
    ask(chance, frame)
}

/// Asks a receiver in a book in which all have little noise, around what an index is quiet with.
fn faint(chance: &mut Chance, frame: &mut Frame) -> Call {
    if let Some(mut book) = decode(&frame.image) {
        for account in book.accounts.iter_mut().flatten() {
            let sum = |()| chance.pick(&[0, 0, 1, FAINTEST - 1, FAINTEST, 2 * FAINTEST]);
            account.sums = [(); 3].map(sum);
        }
        frame.image = encode(&book);
    }
    ask(chance, frame)
}

/// Asks a receiver that stands, with an output that is too short or too long.
fn room(chance: &mut Chance, frame: &mut Frame) -> Call {
    Call::Ask {
        slot: slot(chance, &frame.image, true),
        output: wrong_output(chance),
    }
}

/// Asks where no receiver stands.
fn vacant(chance: &mut Chance, frame: &mut Frame) -> Call {
    Call::Ask {
        slot: slot(chance, &frame.image, false),
        output: any_output(chance),
    }
}

/// Asks in a slot that there is not; some of its bits may be those of one in which a receiver stands.
fn beyond(chance: &mut Chance, frame: &mut Frame) -> Call {
    let standing = slot(chance, &frame.image, true);
    let any = RECEIVERS as u64 + chance.draw() % (u64::MAX - RECEIVERS as u64);
    Call::Ask {
        slot: chance.pick(&[
            RECEIVERS as u64,
            RECEIVERS as u64 + standing,
            BYTE as u64 + standing,
            u64::from(u16::MAX),
            TWO_BYTES as u64 + standing,
            u64::from(u32::MAX),
            FOUR_BYTES + standing,
            (1 << 63) + standing,
            u64::MAX,
            any,
        ]),
        output: any_output(chance),
    }
}

/// Calls that are tried every time: clearings of stores of many lengths, every output with every kind
/// of slot, and one record of every kind cut anywhere, alone, and with bytes that follow it.
pub fn fixed_views() -> Vec<View> {
    let calls = fixed_clears().into_iter();
    let calls = calls.chain(fixed_asks()).chain(fixed_applies());
    let mut views = Vec::new();
    for (store, call) in calls {
        views.extend([true, false].map(|null| View {
            store: store.clone(),
            call: call.clone(),
            null,
            shift: u8::from(null),
        }));
    }
    views
}

fn fixed_clears() -> Vec<(Vec<u8>, Call)> {
    let lengths = [
        0,
        1,
        STORE_SIZE - 1,
        STORE_SIZE,
        STORE_SIZE + 1,
        STORE_SIZE + TWO_BYTES,
    ];
    let clear = |length| (vec![0xff; length], Call::Clear);
    lengths.map(clear).to_vec()
}

/// The stored state of the worked case, the same with a mark that says nothing, and none.
fn fixed_stores() -> [Vec<u8>; 3] {
    let mut damaged = example_image();
    damaged[RECEIVERS_AT] = 2;
    [example_image(), damaged, Vec::new()]
}

fn fixed_asks() -> Vec<(Vec<u8>, Call)> {
    let last = RECEIVERS as u64 - 1;
    let slots = [5, 6, last, last + 1, BYTE as u64 + 5, FOUR_BYTES + 5];
    let mut calls = Vec::new();
    for store in fixed_stores() {
        for slot in slots {
            calls.extend((0..=OUTPUT_SIZE + 2).map(|length| {
                let output = vec![0xff; length];
                (store.clone(), Call::Ask { slot, output })
            }));
        }
    }
    calls
}

fn fixed_applies() -> Vec<(Vec<u8>, Call)> {
    let mut calls = Vec::new();
    for record in one_of_each().map(|record| record.bytes()) {
        let longer = [&record[..], &[0, 0]].concat();
        let cut = |length| longer[..length].to_vec();
        let mut records: Vec<Vec<u8>> = (0..=longer.len()).map(cut).collect();
        records.push(record.repeat(2));
        for store in fixed_stores() {
            let on_store = |record| (store.clone(), Call::Apply { record });
            calls.extend(records.iter().cloned().map(on_store));
        }
    }
    calls
}
