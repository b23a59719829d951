// Probes of the writer of records: a call of any fields, allowed or not, and a room to write into.
// The fields go to the probing program with all the bytes of their types, more than a record has.

use crate::book::Answer;
use crate::chance::Chance;
use crate::cuts::{corner_roads, stretched_roads};
use crate::fields::{
    Field, BETWEEN_FIELDS, FIRST_X, FIRST_Y, PARALLEL_HEIGHT, RECEIVERS, RECEIVER_SLOT, SECOND_X,
    SECOND_Y, SOURCES, SOURCE_SLOT, WALL_FIELDS, WALL_SLOT,
};
use crate::fixed::{one_of_each, surfaced_records, trial_records};
use crate::limits::trial_values;
use crate::probe::{front, head, number, Deed, LONGEST_PIECE};
use crate::record::{fields_of, length_of, read, write, Record, LONGEST};
use crate::town::Town;
use std::ops::Range;

/// A call and the bytes there are for its record, all FF before.
#[derive(Clone, Debug, PartialEq, Eq)]
pub struct Writing {
    pub record: Record,
    pub room: usize,
}

/// What a frame begins with that asks for writing.
const MARK: [u8; 2] = [0, 1];

/// Bytes of the slot, and of the fields of a source between two ends, which are the most that
/// there are.
const SLOT: usize = 2;
const FIELDS: usize = {
    let mut bytes = 0;
    let mut at = 1;
    while at < BETWEEN_FIELDS.len() {
        bytes += BETWEEN_FIELDS[at].type_bytes();
        at += 1;
    }
    bytes
};

/// Bytes that a field has in such a frame.
fn bytes_of(field: &Field) -> usize {
    if [SOURCE_SLOT, RECEIVER_SLOT, WALL_SLOT].contains(field) {
        SLOT
    } else {
        field.type_bytes()
    }
}

/// Bits that a field has in such a frame.
pub fn bits_of(field: &Field) -> u32 {
    8 * bytes_of(field) as u32
}

/// A field and where its bytes are among those of the fields.
type Seat = (Field, Range<usize>);

/// The fields of a source between two ends in whose bytes those of a wall are.
const WALL_SEATS: [Field; WALL_FIELDS.len()] = [
    SOURCE_SLOT,
    FIRST_X,
    FIRST_Y,
    SECOND_X,
    SECOND_Y,
    PARALLEL_HEIGHT,
];

/// The fields of a kind, an ask's where it is not listed, with their bytes in such a frame.
fn seats(kind: u8) -> Vec<Seat> {
    match fields_of(kind) {
        Some(fields) if fields == WALL_FIELDS => wall_seats(),
        fields => seats_in_turn(fields.unwrap_or(&[RECEIVER_SLOT])),
    }
}

/// The fields of a table one after the other: the number that two ends have more than a middle and
/// a length comes after all that they have in common.
fn seats_in_turn(fields: &[Field]) -> Vec<Seat> {
    let (last, mut order): (Vec<Field>, Vec<Field>) =
        fields.iter().partition(|&field| field == &SECOND_Y);
    order.extend(last);
    let mut end = 0;
    let seat = |field: Field| {
        end += bytes_of(&field);
        (field, end - bytes_of(&field)..end)
    };
    order.into_iter().map(seat).collect()
}

/// The fields of a wall: its ends are where a source has them, and its height where a source has
/// that of parallel walls.
fn wall_seats() -> Vec<Seat> {
    let source = seats_in_turn(&BETWEEN_FIELDS);
    let among = |seat: &Field| source.iter().find(|(field, _)| field == seat);
    let places = WALL_SEATS.iter().filter_map(among);
    let seats = WALL_FIELDS.into_iter().zip(places);
    seats.map(|(field, (_, at))| (field, at.clone())).collect()
}

/// What the bytes hold that say nothing. With what is placed on a road or beside it they are such
/// that a program which took them for traffic or for an end is found out.
fn filler(record: &Record) -> u8 {
    match record {
        Record::PlaceSource(..) | Record::PlaceDaily(..) | Record::PlaceWall(..) => 0xff,
        _ => 0,
    }
}

impl Writing {
    /// Adds the probe to what goes into a probing program.
    pub fn put(&self, out: &mut Vec<u8>) {
        out.extend(MARK);
        out.extend((self.room as u16).to_be_bytes());
        out.push(self.record.kind());
        let mut call = [filler(&self.record); SLOT + FIELDS];
        for (field, at) in seats(self.record.kind()) {
            let value = self.record.value(&field).to_be_bytes();
            call[at.clone()].copy_from_slice(&value[8 - at.len()..]);
        }
        out.extend(call);
    }

    /// Takes such a probe off the front; none where no whole one is left.
    pub fn take(input: &mut &[u8]) -> Option<Writing> {
        let mut rest = input.strip_prefix(&MARK)?;
        let room = number(front(&mut rest, 2)?);
        let kind = front(&mut rest, 1)?[0];
        let call = front(&mut rest, SLOT + FIELDS)?;
        *input = rest;
        let seats = seats(kind);
        let record = Record::of(kind, |wanted| {
            let seat = seats.iter().find(|(field, _)| field == wanted);
            seat.map_or(0, |(_, at)| number(&call[at.clone()]) as i64)
        });
        Some(Writing { record, room })
    }

    /// Writes the record and reads it back: the answer, whose extent is what was read, and
    /// what the room holds then.
    pub fn call(&self) -> (Deed, Vec<u8>) {
        let mut room = vec![0xff; self.room];
        let answer = match write(&self.record, &mut room) {
            Ok(_) => Answer::Done,
            Err(refusal) => Answer::Refused(refusal),
        };
        let extent = read(&room).map_or(0, |(_, length)| length);
        (Deed { answer, extent }, room)
    }

    /// What a probing program writes: the head of the answer and the room.
    pub fn answered(&self) -> Vec<u8> {
        let (deed, room) = self.call();
        [&head(deed)[..], &room].concat()
    }
}

/// The probe a seed stands for.
pub fn writing(seed: u64) -> Writing {
    let chance = &mut Chance::new(seed);
    let town = Town::anywhere(chance);
    let slot = chance.within(&SOURCE_SLOT);
    let mut record = match chance.between(0, 4) {
        0 | 1 => town.placing(chance, slot),
        2 => town.wall_record(chance),
        _ => town.record(chance, SOURCES, RECEIVERS),
    };
    for _ in 0..chance.pick(&[0, 0, 1, 1, 2]) {
        record = changed(chance, record);
    }
    let length = length_of(record.kind()).expect("every record has a listed kind");
    let any = chance.index(LONGEST_PIECE + 1);
    let most = LONGEST_PIECE;
    let room = chance.pick(&[any, length - 1, length, length + 1, most, most]);
    Writing { record, room }
}

/// The same record with its slot or a field at a limit, beyond it, or beyond what a record holds;
/// or with other ends, at the corners of the map or just as far apart as they may be; or, of a wall,
/// with both at one place.
fn changed(chance: &mut Chance, record: Record) -> Record {
    if let (7, Record::PlaceSource(slot, source), true) = (record.kind(), record, chance.one_in(4))
    {
        let mut roads = stretched_roads(chance, source);
        roads.extend(corner_roads(chance, source));
        return Record::PlaceSource(slot, chance.pick(&roads));
    }
    if let (Record::PlaceWall(slot, mut wall), true) = (record, chance.one_in(4)) {
        wall.second = wall.first;
        return Record::PlaceWall(slot, wall);
    }
    let at = chance.index(record.fields().len());
    let field = &record.fields()[at];
    let mut values = trial_values(chance, field, bits_of(field));
    values.push(record.value(field));
    let value = chance.pick(&values);
    record.with(field, lifted(chance, value, field))
}

/// A value, or with a bit more than a record has, where the bytes leave room for it.
fn lifted(chance: &mut Chance, value: i64, field: &Field) -> i64 {
    if field.bits < bits_of(field) && chance.one_in(4) {
        value | (1 << field.bits)
    } else {
        value
    }
}

/// Probes that are tried every time: all rooms, and all fields at every value worth trying.
pub fn fixed_writings() -> Vec<Writing> {
    let mut writings = Vec::new();
    for record in one_of_each() {
        writings.extend((0..=LONGEST_PIECE).map(|room| Writing { record, room }));
    }
    for record in trial_records(bits_of).into_iter().chain(surfaced_records()) {
        writings.extend([0, LONGEST + 2].map(|room| Writing { record, room }));
    }
    writings
}
