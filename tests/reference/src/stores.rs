// Stored states by chance with a record each: sound ones and damaged ones.
// A seed stands for one probe; its remainder by the number of kinds says which kind it is.

use crate::book::{decode, encode, Account, Book, TOP};
use crate::chance::Chance;
use crate::course::Course;
use crate::cuts::stretched_roads;
use crate::exchanges::{exchanged, exchanged_source, exchanged_wall};
use crate::fields::{
    Field, CAR_SPEED, FARTHEST, HEIGHT, LENGTH, PARALLEL_HEIGHT, PARALLEL_SPACING, PARALLEL_WALLS,
    RECEIVERS, RECEIVER_FIELDS, RECEIVER_SLOT, REFLECTION, SOURCES, SOURCE_SLOT, SURFACE,
    WALL_FIELDS, WALL_HEIGHT, WALL_SLOT,
};
use crate::fixed::sum_edges;
use crate::inconsistent::{
    asked, bad_pair, bad_pair_walled, barely_asked, cut_pair, faint_level, high_sum, loud_walled,
    low_sum, met_by_receiver, met_by_source, screened, screened_sums, tight_level, tight_square,
    turning, wall_call,
};
use crate::limits::trial_value;
use crate::probe::{Frame, LONGEST_IMAGE, LONGEST_PIECE};
use crate::record::{kind_byte, unlisted_kinds, Record};
use crate::road::{Source, FAST_ABOVE, FAST_SURFACE};
use crate::store::{
    receiver_at, receiver_index, set_field, source_at, source_index, wall_at, wall_index,
    BETWEEN_SLOT, RECEIVERS_AT, RECEIVER_BYTES, RECEIVER_SIZE, SOURCE_BYTES, SOURCE_SIZE,
    STORE_SIZE, SUMS, UNCUT_SLOT, WALL_BYTES, WALL_SIZE,
};
use crate::town::{Town, WIDE};
use crate::wall::Wall;

/// What makes one kind of probe.
type Maker = fn(&mut Chance) -> Frame;

/// The kinds of probes, with the names they are counted by.
const KINDS: [(&str, Maker); 56] = [
    ("sound", sound),
    ("unread", unread),
    ("disallowed", disallowed),
    ("noise", noise),
    ("flipped", flipped),
    ("mark", marked),
    ("unused", unused_byte),
    ("source-field", source_field),
    ("source-field", source_field),
    ("source-field", source_field),
    ("source-field", source_field),
    ("source-field", source_field),
    ("course", course),
    ("course", course),
    ("receiver-field", receiver_field),
    ("sum", sums),
    ("sum", sums),
    ("length", wrong_length),
    ("dense", dense),
    ("low-sum", low_sum),
    ("high-sum", high_sum),
    ("bad-pair", bad_pair),
    ("bad-pair", bad_pair),
    ("met-by-source", met_by_source),
    ("met-by-source", met_by_source),
    ("met-by-receiver", met_by_receiver),
    ("cut-pair", cut_pair),
    ("cut-pair", cut_pair),
    ("cut-pair", cut_pair),
    ("cut-pair", cut_pair),
    ("wall-field", wall_field),
    ("wall-field", wall_field),
    ("screened", screened),
    ("screened", screened),
    ("screened-sums", screened_sums),
    ("bad-pair-walled", bad_pair_walled),
    ("bad-pair-walled", bad_pair_walled),
    ("loud-walled", loud_walled),
    ("turning", turning),
    ("turning", turning),
    ("tight-square", tight_square),
    ("tight-level", tight_level),
    ("faint-level", faint_level),
    ("faint-level", faint_level),
    ("faint-level", faint_level),
    ("asked", asked),
    ("asked", asked),
    ("barely-asked", barely_asked),
    ("exchanged", exchanged),
    ("exchanged", exchanged),
    ("exchanged-source", exchanged_source),
    ("exchanged-source", exchanged_source),
    ("exchanged-source", exchanged_source),
    ("exchanged-source", exchanged_source),
    ("exchanged-wall", exchanged_wall),
    ("exchanged-wall", exchanged_wall),
];

fn kind(seed: u64) -> (&'static str, Maker) {
    KINDS[(seed % KINDS.len() as u64) as usize]
}

/// The name of the kind of probe a seed stands for.
pub fn kind_name(seed: u64) -> &'static str {
    kind(seed).0
}

/// The probe a seed stands for; of every kind some have a record that is broken as well.
pub fn frame(seed: u64) -> Frame {
    let chance = &mut Chance::new(seed);
    let mut frame = kind(seed).1(chance);
    if chance.one_in(10) {
        spoil(chance, &mut frame.record);
    }
    frame
}

pub(crate) fn frame_of(book: &Book, record: &Record) -> Frame {
    Frame {
        image: encode(book),
        record: record.bytes(),
    }
}

/// A town and a book in which at least one source and one receiver stand, and mostly some walls.
pub(crate) fn settled(chance: &mut Chance) -> (Town, Book) {
    let town = Town::of_width(chance, WIDE);
    let records = chance.between(5, 150);
    let mut book = town.history(chance, records);
    while book.sources.iter().flatten().next().is_none() {
        let slot = chance.edge_in(&SOURCE_SLOT);
        let _ = book.place_source(slot, &town.source(chance));
    }
    while book.accounts.iter().flatten().next().is_none() {
        let slot = chance.edge_in(&RECEIVER_SLOT);
        let _ = book.place_receiver(slot, &town.receiver(chance));
    }
    (town, book)
}

/// A slot that is in use, or one that is not; the last one there is if there is no such.
pub(crate) fn slot_in<T>(chance: &mut Chance, slots: &[Option<T>], used: bool) -> usize {
    let fitting: Vec<usize> = (0..slots.len())
        .filter(|&slot| slots[slot].is_some() == used)
        .collect();
    match fitting.as_slice() {
        [] => slots.len() - 1,
        some => chance.pick(some),
    }
}

/// A record of any kind: what is to go or to be asked is mostly there, and what is to come comes into
/// a free slot or, every third time, into one in use.
pub(crate) fn fitting_record(chance: &mut Chance, town: &Town, book: &Book) -> Record {
    let there = !chance.one_in(6);
    let again = chance.one_in(3);
    let source = |chance: &mut Chance, used| slot_in(chance, &book.sources, used) as i64;
    let receiver = |chance: &mut Chance, used| slot_in(chance, &book.accounts, used) as i64;
    match chance.between(0, 9) {
        8 | 9 => wall_call(chance, book, town),
        0 => Record::PlaceReceiver(receiver(chance, again), town.receiver(chance)),
        1 => Record::WithdrawReceiver(receiver(chance, there)),
        2 | 3 => {
            let slot = source(chance, again);
            town.placing(chance, slot)
        }
        4 | 5 => Record::WithdrawSource(source(chance, there)),
        _ => Record::Ask(receiver(chance, there)),
    }
}

/// A state with a history, and any record after it.
fn sound(chance: &mut Chance) -> Frame {
    let (town, book) = settled(chance);
    let record = fitting_record(chance, &town, &book);
    let mut frame = frame_of(&book, &record);
    let room = LONGEST_PIECE - frame.record.len();
    for _ in 0..chance.edge(0, room as i64) {
        frame.record.push(chance.draw() as u8);
    }
    frame
}

/// A state of any kind: mostly sound, or damaged or cut short.
fn any_state(chance: &mut Chance) -> (Frame, Record) {
    let (town, book) = settled(chance);
    let record = fitting_record(chance, &town, &book);
    let mut frame = frame_of(&book, &record);
    match chance.between(0, 5) {
        0 => frame.image[RECEIVERS_AT] ^= 2,
        1 => frame.image.truncate(chance.index(STORE_SIZE)),
        _ => {}
    }
    (frame, record)
}

/// Cuts a record short, gives it a kind not listed, sets bits at its end, or makes it noise.
fn spoil(chance: &mut Chance, bytes: &mut Vec<u8>) {
    match chance.between(0, 3) {
        0 => bytes.truncate(chance.index(bytes.len() + 1)),
        1 => bytes.insert(
            0,
            kind_byte(chance.pick(&unlisted_kinds())) | chance.index(16) as u8,
        ),
        2 => {
            let spare = 1 << chance.index(3);
            bytes.last_mut().into_iter().for_each(|byte| *byte |= spare);
        }
        _ => bytes
            .iter_mut()
            .for_each(|byte| *byte = chance.draw() as u8),
    }
}

/// A record that is broken, on any state.
fn unread(chance: &mut Chance) -> Frame {
    let (mut frame, _) = any_state(chance);
    spoil(chance, &mut frame.record);
    frame
}

/// A record with fields that are not allowed, on any state.
fn disallowed(chance: &mut Chance) -> Frame {
    let (mut frame, record) = any_state(chance);
    frame.record = match record {
        Record::PlaceReceiver(slot, mut receiver) => {
            receiver.height = chance.pick(&HEIGHT.outer_edges(HEIGHT.bits));
            Record::PlaceReceiver(slot, receiver).bytes()
        }
        Record::PlaceWall(slot, wall) => {
            Record::PlaceWall(slot, disallowed_wall(chance, wall)).bytes()
        }
        _ => {
            let slot = match decode(&frame.image) {
                Some(book) if chance.one_in(2) => slot_in(chance, &book.sources, true) as i64,
                _ => chance.within(&SOURCE_SLOT),
            };
            broken_source(chance, slot)
        }
    };
    frame
}

/// The same wall with a height that is not allowed, both ends at one place, or both.
pub(crate) fn disallowed_wall(chance: &mut Chance, wall: Wall) -> Wall {
    let height = chance.pick(&WALL_HEIGHT.outer_edges(WALL_HEIGHT.bits));
    let second = wall.first;
    chance.pick(&[
        Wall { height, ..wall },
        Wall { second, ..wall },
        Wall {
            second,
            height,
            ..wall
        },
    ])
}

/// The bytes of a source anywhere that is not allowed.
fn broken_source(chance: &mut Chance, slot: i64) -> Vec<u8> {
    let place = Town::anywhere(chance).placing(chance, slot);
    broken(chance, place).bytes()
}

/// The same record with one field of its source, or the surface, or two of these, not allowed.
pub(crate) fn broken(chance: &mut Chance, place: Record) -> Record {
    let slow = place
        .with(&SURFACE, chance.between(FAST_SURFACE, SURFACE.most()))
        .with(&CAR_SPEED, chance.between(CAR_SPEED.least(), FAST_ABOVE));
    match chance.between(0, 15) {
        0 => past_an_edge(chance, place.with(&REFLECTION, REFLECTION.most() + 1)),
        1 => past_an_edge(chance, slow),
        2..=5 => slow,
        _ => past_an_edge(chance, place),
    }
}

/// The same source between two ends with a length just past what is allowed.
fn misstretched(chance: &mut Chance, source: Source) -> Source {
    let wrong = |source: &Source| !LENGTH.allows(source.course.length());
    let mut roads = stretched_roads(chance, source);
    roads.retain(wrong);
    chance.pick(&roads)
}

/// The same record with one field, or a length between ends, just past what is allowed.
fn past_an_edge(chance: &mut Chance, mut place: Record) -> Record {
    if let (7, Record::PlaceSource(slot, source), true) = (place.kind(), place, chance.one_in(3)) {
        return Record::PlaceSource(slot, misstretched(chance, source));
    }
    let breakable = |field: &&Field| !field.outer_edges(field.bits).is_empty();
    let fields: Vec<&Field> = place.fields()[1..].iter().filter(breakable).collect();
    let field = chance.pick(&fields);
    if field.of_parallel_walls() {
        for parallel_walls in [PARALLEL_WALLS, PARALLEL_HEIGHT, PARALLEL_SPACING] {
            place = place.with(&parallel_walls, parallel_walls.most());
        }
    }
    place.with(field, chance.pick(&field.outer_edges(field.bits)))
}

/// A state that never was a book's: bytes by chance, one byte throughout, or a few in a cleared one.
fn noise(chance: &mut Chance) -> Frame {
    let (town, book) = settled(chance);
    let record = fitting_record(chance, &town, &book);
    let mut frame = frame_of(&Book::cleared(), &record);
    match chance.between(0, 3) {
        0 => frame.image.fill_with(|| chance.draw() as u8),
        1 => frame.image.fill(chance.pick(&[0, 1, 255])),
        _ => {
            for _ in 0..chance.between(0, 2) {
                let at = chance.index(STORE_SIZE);
                frame.image[at] = chance.draw() as u8;
            }
        }
    }
    frame
}

/// Some bits turned anywhere, or within slots that are in use.
fn flipped(chance: &mut Chance) -> Frame {
    let (town, book) = settled(chance);
    let record = fitting_record(chance, &town, &book);
    let mut frame = frame_of(&book, &record);
    for _ in 0..chance.pick(&[1, 1, 1, 2, 5]) {
        let at = match chance.between(0, 3) {
            0 => chance.index(STORE_SIZE),
            1 => {
                let slot = slot_in(chance, &book.accounts, true);
                receiver_at(slot) + chance.index(RECEIVER_SIZE)
            }
            _ => source_at(slot_in(chance, &book.sources, true)) + chance.index(SOURCE_SIZE),
        };
        frame.image[at] ^= 1 << chance.index(8);
    }
    frame
}

/// A use mark that says something else.
fn marked(chance: &mut Chance) -> Frame {
    let (town, book) = settled(chance);
    let record = fitting_record(chance, &town, &book);
    let mut frame = frame_of(&book, &record);
    let used = chance.one_in(2);
    let at = match chance.between(0, 2) {
        0 => source_at(slot_in(chance, &book.sources, used)),
        1 => receiver_at(slot_in(chance, &book.accounts, used)),
        _ => wall_at(slot_in(chance, &book.walls, used)),
    };
    frame.image[at] = chance.pick(&[0, 1, 2, 3, 128, 129, 255]);
    frame
}

/// One byte of an unused slot that is not zero.
fn unused_byte(chance: &mut Chance) -> Frame {
    let (town, book) = settled(chance);
    let record = fitting_record(chance, &town, &book);
    let mut frame = frame_of(&book, &record);
    let (slot_at, size) = match chance.between(0, 2) {
        0 => (
            source_at(slot_in(chance, &book.sources, false)),
            SOURCE_SIZE,
        ),
        1 => (
            receiver_at(slot_in(chance, &book.accounts, false)),
            RECEIVER_SIZE,
        ),
        _ => (wall_at(slot_in(chance, &book.walls, false)), WALL_SIZE),
    };
    let at = slot_at + chance.edge(1, size as i64 - 1) as usize;
    frame.image[at] = chance.pick(&[0, 1, 128, 255]);
    frame
}

/// A field of a standing source at its limit, beyond it, or beyond what a record can hold.
fn source_field(chance: &mut Chance) -> Frame {
    let (town, mut book) = settled(chance);
    let slot = slot_in(chance, &book.sources, true);
    if chance.one_in(3) {
        book.sources[slot] = Some(town.between(chance));
    }
    let fields = match book.sources[slot].map(|source| source.course) {
        Some(Course::Between { .. }) => &BETWEEN_SLOT,
        _ => &UNCUT_SLOT,
    };
    let record = fitting_record(chance, &town, &book);
    let mut frame = frame_of(&book, &record);
    let mut set = |field: &Field, value: i64| {
        let (at, index) = (source_at(slot), source_index(field));
        set_field(&mut frame.image, at, &SOURCE_BYTES, index, value as u64);
    };
    match chance.between(0, 9) {
        0 => {
            set(
                &CAR_SPEED,
                chance.pick(&[1, FAST_ABOVE, FAST_ABOVE + 1, CAR_SPEED.most()]),
            );
            set(
                &SURFACE,
                chance.between(FAST_SURFACE - 1, SURFACE.most() + 1),
            );
        }
        1 => {
            set(
                &PARALLEL_WALLS,
                chance.between(0, PARALLEL_WALLS.most() + 1),
            );
            for size in [PARALLEL_HEIGHT, PARALLEL_SPACING] {
                set(&size, chance.pick(&size.edges(size.stored_bits())));
            }
        }
        _ => {
            let field = chance.pick(fields);
            set(&field, trial_value(chance, &field, field.stored_bits()));
        }
    }
    frame
}

/// A standing source whose course is told anew, by a byte and four numbers that may be taken for
/// ends, for a middle and a length, or for neither.
fn course(chance: &mut Chance) -> Frame {
    let (town, book) = settled(chance);
    let record = fitting_record(chance, &town, &book);
    let mut frame = frame_of(&book, &record);
    let slot = slot_in(chance, &book.sources, true);
    let mut numbers = [(); 4].map(|()| match chance.between(0, 5) {
        0 => chance.pick(&[1, FARTHEST]),
        1 => LENGTH.most() + chance.between(-1, 1),
        2 => chance.magnitude(LENGTH.most()),
        _ => 0,
    });
    if chance.one_in(4) {
        (numbers[2], numbers[3]) = (numbers[0], numbers[1]);
    }
    let told = chance.pick(&[0, 0, 0, 1, 1, 1, 2, 3, 128, 255]);
    for (index, value) in [told].into_iter().chain(numbers).enumerate() {
        set_field(
            &mut frame.image,
            source_at(slot),
            &SOURCE_BYTES,
            index,
            value as u64,
        );
    }
    if chance.one_in(2) {
        frame.record = Record::WithdrawSource(slot as i64).bytes();
    }
    frame
}

/// The place of a standing receiver at its limit or beyond it.
fn receiver_field(chance: &mut Chance) -> Frame {
    let (town, book) = settled(chance);
    let record = fitting_record(chance, &town, &book);
    let mut frame = frame_of(&book, &record);
    let at = receiver_at(slot_in(chance, &book.accounts, true));
    let any = chance.pick(&RECEIVER_FIELDS[1..]);
    let field = chance.pick(&[any, HEIGHT]);
    let value = trial_value(chance, &field, field.stored_bits());
    let index = receiver_index(&field);
    set_field(&mut frame.image, at, &RECEIVER_BYTES, index, value as u64);
    frame
}

/// A field of a standing wall at its limit or beyond it, or both its ends at one place, or nearly.
fn wall_field(chance: &mut Chance) -> Frame {
    let (town, mut book) = settled(chance);
    let slot = chance.edge_in(&WALL_SLOT) as usize;
    let mut wall = town.wall(chance);
    if chance.one_in(3) {
        wall.second = wall.first;
        wall.second.x += chance.between(0, 1).min(FARTHEST - wall.first.x);
    }
    book.walls[slot] = Some(wall);
    let record = fitting_record(chance, &town, &book);
    let mut frame = frame_of(&book, &record);
    if chance.one_in(2) {
        let any = chance.pick(&WALL_FIELDS[1..]);
        let field = chance.pick(&[any, WALL_HEIGHT]);
        let value = trial_value(chance, &field, field.stored_bits());
        let index = wall_index(&field);
        set_field(
            &mut frame.image,
            wall_at(slot),
            &WALL_BYTES,
            index,
            value as u64,
        );
    }
    frame
}

/// One sum of a standing receiver just at the top, above it, or any other.
fn sums(chance: &mut Chance) -> Frame {
    let (town, book) = settled(chance);
    let record = fitting_record(chance, &town, &book);
    let mut frame = frame_of(&book, &record);
    let at = receiver_at(slot_in(chance, &book.accounts, true));
    let top = TOP as u64;
    let sum = match chance.between(0, 7) {
        0 | 1 => top + chance.between(0, 1) as u64,
        2..=4 => chance.pick(&sum_edges()),
        5 => chance.pick(&[top + (1 << 32), 2 * top]),
        6 => chance.between(0, TOP) as u64,
        _ => chance.draw(),
    };
    let field = SUMS + chance.index(RECEIVER_BYTES.len() - SUMS);
    set_field(&mut frame.image, at, &RECEIVER_BYTES, field, sum);
    frame
}

/// A state that is too short or too long.
fn wrong_length(chance: &mut Chance) -> Frame {
    let (town, book) = settled(chance);
    let record = fitting_record(chance, &town, &book);
    let mut frame = frame_of(&book, &record);
    let any = chance.index(LONGEST_IMAGE + 1);
    let near = chance.pick(&[STORE_SIZE - 1, STORE_SIZE, STORE_SIZE + 1]);
    let length = chance.pick(&[0, 1, near, near, near, any, any, LONGEST_IMAGE]);
    frame.image.resize(length, 0);
    frame
}

/// Every slot in use, with sums that leave room for anything.
fn dense(chance: &mut Chance) -> Frame {
    let town = Town::of_width(chance, WIDE);
    let mut book = Book::cleared();
    for slot in &mut book.sources {
        let source = town.source(chance);
        *slot = Some(match source.course {
            Course::Uncut { .. } => source.uncut(chance.magnitude(100)),
            Course::Between { .. } => source,
        });
    }
    for slot in &mut book.accounts {
        let receiver = town.receiver(chance);
        let sums = [(); 3].map(|()| chance.between(TOP / 4, TOP / 2));
        *slot = Some(Account { receiver, sums });
    }
    match chance.between(0, 3) {
        0 => book.sources[chance.index(SOURCES)] = None,
        1 => book.accounts[chance.index(RECEIVERS)] = None,
        _ => {}
    }
    let record = fitting_record(chance, &town, &book);
    frame_of(&book, &record)
}
