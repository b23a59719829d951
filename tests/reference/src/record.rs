// Job records: reading them from bytes and writing them into bytes.
// Bits run from the most significant; the bits after the last field are zero.

use crate::course::Course;
use crate::daily::{judge_daily, Daily};
use crate::fields::{
    Field, BETWEEN_COURSE, BETWEEN_FIELDS, COMMON_FIELDS, DAILY_FIELDS, RECEIVER_FIELDS,
    RECEIVER_SLOT, SOURCE_FIELDS, SOURCE_SLOT, UNCUT_COURSE, WALL_FIELDS, WALL_SLOT,
};
use crate::road::{judge_receiver, judge_source, judge_value, refusal, Receiver, Refusal, Source};
use crate::wall::{judge_wall, Wall};

/// One record of a job, each with its slot. Where a source runs says of which kind its record is.
#[derive(Clone, Copy, Debug, PartialEq, Eq)]
pub enum Record {
    PlaceReceiver(i64, Receiver),
    WithdrawReceiver(i64),
    PlaceSource(i64, Source),
    WithdrawSource(i64),
    Ask(i64),
    PlaceDaily(i64, Daily),
    PlaceWall(i64, Wall),
    WithdrawWall(i64),
}

/// Bits of the kind that begins every record, and the kinds that they can say.
const KIND_BITS: u32 = 4;
const SAID_KINDS: u8 = 1 << KIND_BITS;

/// The longest record, that of a source between two ends.
pub const LONGEST: usize = whole_bytes(&BETWEEN_FIELDS);

/// The kind that begins with a byte.
pub fn kind_in(byte: u8) -> u8 {
    byte >> KIND_BITS
}

/// The first byte of a record of this kind, without its fields.
pub fn kind_byte(kind: u8) -> u8 {
    kind << KIND_BITS
}

/// The fields of a kind; none for a kind that is not listed.
pub fn fields_of(kind: u8) -> Option<&'static [Field]> {
    match kind {
        1 => Some(&RECEIVER_FIELDS),
        2 | 5 => Some(&RECEIVER_FIELDS[..1]),
        3 => Some(&SOURCE_FIELDS),
        4 => Some(&SOURCE_FIELDS[..1]),
        6 => Some(&DAILY_FIELDS),
        7 => Some(&BETWEEN_FIELDS),
        8 => Some(&WALL_FIELDS),
        9 => Some(&WALL_FIELDS[..1]),
        _ => None,
    }
}

/// The kinds that are listed.
pub fn listed_kinds() -> Vec<u8> {
    let listed = |kind: &u8| fields_of(*kind).is_some();
    (0..SAID_KINDS).filter(listed).collect()
}

/// The kinds that no record has.
pub fn unlisted_kinds() -> Vec<u8> {
    let unlisted = |kind: &u8| fields_of(*kind).is_none();
    (0..SAID_KINDS).filter(unlisted).collect()
}

const fn bits_of(fields: &[Field]) -> u32 {
    let mut bits = KIND_BITS;
    let mut at = 0;
    while at < fields.len() {
        bits += fields[at].bits;
        at += 1;
    }
    bits
}

const fn whole_bytes(fields: &[Field]) -> usize {
    bits_of(fields).div_ceil(8) as usize
}

/// Bytes of a record of this kind; none for a kind that is not listed.
pub fn length_of(kind: u8) -> Option<usize> {
    fields_of(kind).map(whole_bytes)
}

/// Bits after the last field of a record of this kind.
pub fn spare_bits(kind: u8) -> u32 {
    fields_of(kind).map_or(0, |fields| 8 * whole_bytes(fields) as u32 - bits_of(fields))
}

impl Record {
    pub fn kind(&self) -> u8 {
        match self {
            Record::PlaceReceiver(..) => 1,
            Record::WithdrawReceiver(_) => 2,
            Record::PlaceSource(_, source) => match source.course {
                Course::Uncut { .. } => 3,
                Course::Between { .. } => 7,
            },
            Record::WithdrawSource(_) => 4,
            Record::Ask(_) => 5,
            Record::PlaceDaily(..) => 6,
            Record::PlaceWall(..) => 8,
            Record::WithdrawWall(_) => 9,
        }
    }

    /// The fields of its kind, slot first.
    pub fn fields(&self) -> &'static [Field] {
        fields_of(self.kind()).expect("every record has a listed kind")
    }

    /// Judges the fields: refusals 5, 6 and 7.
    pub fn judge(&self) -> Result<(), Refusal> {
        match self {
            Record::PlaceReceiver(slot, receiver) => {
                judge_value(*slot, &RECEIVER_SLOT).and_then(|()| judge_receiver(receiver))
            }
            Record::PlaceSource(slot, source) => {
                judge_value(*slot, &SOURCE_SLOT).and_then(|()| judge_source(source))
            }
            Record::PlaceDaily(slot, daily) => {
                judge_value(*slot, &SOURCE_SLOT).and_then(|()| judge_daily(daily))
            }
            Record::WithdrawReceiver(slot) | Record::Ask(slot) => {
                judge_value(*slot, &RECEIVER_SLOT)
            }
            Record::WithdrawSource(slot) => judge_value(*slot, &SOURCE_SLOT),
            Record::PlaceWall(slot, wall) => {
                judge_value(*slot, &WALL_SLOT).and_then(|()| judge_wall(wall))
            }
            Record::WithdrawWall(slot) => judge_value(*slot, &WALL_SLOT),
        }
    }

    /// The slot.
    pub fn slot(&self) -> i64 {
        match self {
            Record::PlaceReceiver(slot, _)
            | Record::PlaceSource(slot, _)
            | Record::PlaceDaily(slot, _)
            | Record::PlaceWall(slot, _) => *slot,
            Record::WithdrawReceiver(slot)
            | Record::WithdrawSource(slot)
            | Record::Ask(slot)
            | Record::WithdrawWall(slot) => *slot,
        }
    }

    /// The source that it places, if it places one; a class must be allowed.
    pub fn source(&self) -> Option<Source> {
        match self {
            Record::PlaceSource(_, source) => Some(*source),
            Record::PlaceDaily(_, daily) => Some(daily.source()),
            _ => None,
        }
    }

    /// The values of the fields, slot first.
    pub fn values(&self) -> Vec<i64> {
        let mut values = vec![self.slot()];
        match self {
            Record::PlaceReceiver(_, receiver) => values.extend(receiver.fields()),
            Record::PlaceSource(_, source) => values.extend(source.fields()),
            Record::PlaceDaily(_, daily) => values.extend(daily.fields()),
            Record::PlaceWall(_, wall) => values.extend(wall.fields()),
            _ => {}
        }
        values
    }

    /// The value of one of its fields.
    pub fn value(&self, field: &Field) -> i64 {
        self.values()[field.index_in(self.fields())]
    }

    /// The same record with another value of one of its fields.
    pub fn with(&self, field: &Field, value: i64) -> Record {
        let mut values = self.values();
        values[field.index_in(self.fields())] = value;
        let mut values = values.into_iter();
        Record::of(self.kind(), |_| {
            values.next().expect("every field has a value")
        })
    }

    /// The record of a kind, an ask where the kind is not listed, from the values that are given
    /// for its fields one after the other, slot first.
    pub fn of(kind: u8, mut value: impl FnMut(&Field) -> i64) -> Record {
        match kind {
            1 => {
                let slot = value(&RECEIVER_SLOT);
                let fields = each(&RECEIVER_FIELDS[1..], &mut value);
                Record::PlaceReceiver(slot, Receiver::of_fields(fields))
            }
            2 => Record::WithdrawReceiver(value(&RECEIVER_SLOT)),
            3 => {
                let slot = value(&SOURCE_SLOT);
                let [x, y, length] = each(&UNCUT_COURSE, &mut value);
                placed(slot, Course::uncut(x, y, length), value)
            }
            4 => Record::WithdrawSource(value(&SOURCE_SLOT)),
            6 => {
                let slot = value(&SOURCE_SLOT);
                let [x, y, length] = each(&UNCUT_COURSE, &mut value);
                let course = Course::uncut(x, y, length);
                let rest = &DAILY_FIELDS[1 + UNCUT_COURSE.len()..];
                Record::PlaceDaily(slot, Daily::of_fields(course, each(rest, &mut value)))
            }
            7 => {
                let slot = value(&SOURCE_SLOT);
                let [x1, y1, x2, y2] = each(&BETWEEN_COURSE, &mut value);
                placed(slot, Course::between(x1, y1, x2, y2), value)
            }
            8 => {
                let slot = value(&WALL_SLOT);
                let fields = each(&WALL_FIELDS[1..], &mut value);
                Record::PlaceWall(slot, Wall::of_fields(fields))
            }
            9 => Record::WithdrawWall(value(&WALL_SLOT)),
            _ => Record::Ask(value(&RECEIVER_SLOT)),
        }
    }

    /// The record's bytes without any judgement; of each field the lowest bits.
    pub fn bytes(&self) -> Vec<u8> {
        let mut packer = Packer::default();
        packer.put(i64::from(self.kind()), KIND_BITS);
        for (value, field) in self.values().into_iter().zip(self.fields()) {
            packer.put(value, field.bits);
        }
        packer.finish()
    }
}

/// The record that places a source, from where it runs and the values of its fields 5 to 19.
fn placed(slot: i64, course: Course, mut value: impl FnMut(&Field) -> i64) -> Record {
    let fields = each(&COMMON_FIELDS, &mut value);
    Record::PlaceSource(slot, Source::of_fields(course, fields))
}

/// The values of as many fields as a table has.
fn each<const N: usize>(fields: &[Field], value: &mut impl FnMut(&Field) -> i64) -> [i64; N] {
    assert_eq!(fields.len(), N, "every field has a value");
    std::array::from_fn(|at| value(&fields[at]))
}

/// Puts fields of any width end to end.
#[derive(Default)]
struct Packer {
    bytes: Vec<u8>,
    held: u64,
    bits: u32,
}

impl Packer {
    fn put(&mut self, value: i64, width: u32) {
        self.held = (self.held << width) | (value as u64 & ((1 << width) - 1));
        self.bits += width;
        while self.bits >= 8 {
            self.bits -= 8;
            self.bytes.push((self.held >> self.bits) as u8);
        }
    }

    fn finish(mut self) -> Vec<u8> {
        let missing = (8 - self.bits) % 8;
        self.put(0, missing);
        self.bytes
    }
}

/// Takes fields of any width one after the other.
struct Taker<'a> {
    bytes: std::slice::Iter<'a, u8>,
    held: u64,
    bits: u32,
}

impl Taker<'_> {
    fn take(&mut self, width: u32) -> i64 {
        while self.bits < width {
            let next = self.bytes.next().expect("the record is long enough");
            self.held = (self.held << 8) | u64::from(*next);
            self.bits += 8;
        }
        self.bits -= width;
        let value = (self.held >> self.bits) & ((1 << width) - 1);
        value as i64
    }

    fn leftover(&self) -> bool {
        self.held & ((1 << self.bits) - 1) != 0
    }
}

/// How far on the next record begins: this record's length, or 0 where its kind is not listed
/// or not all of its bytes are there.
pub fn extent(bytes: &[u8]) -> usize {
    let length = bytes.first().and_then(|&byte| length_of(kind_in(byte)));
    length.filter(|&length| length <= bytes.len()).unwrap_or(0)
}

/// Takes the record at the front of the bytes as it is, without judging its fields:
/// the record and its length, or refusal 2 to 4.
pub fn take(bytes: &[u8]) -> Result<(Record, usize), Refusal> {
    let kind = kind_in(*bytes.first().ok_or(refusal(2))?);
    let length = length_of(kind).ok_or(refusal(3))?;
    let mut taker = Taker {
        bytes: bytes.get(..length).ok_or(refusal(2))?.iter(),
        held: 0,
        bits: 0,
    };
    taker.take(KIND_BITS);
    let record = Record::of(kind, |field| taker.take(field.bits));
    if taker.leftover() {
        return Err(refusal(4));
    }
    Ok((record, length))
}

/// Reads the record at the front of the bytes: the record and its length, or refusal 2 to 7.
pub fn read(bytes: &[u8]) -> Result<(Record, usize), Refusal> {
    let (record, length) = take(bytes)?;
    record.judge()?;
    Ok((record, length))
}

/// Writes a record at the front of the bytes: its length, or refusal 5 to 7 or the late 2.
pub fn write(record: &Record, out: &mut [u8]) -> Result<usize, Refusal> {
    record.judge()?;
    let bytes = record.bytes();
    let front = out.get_mut(..bytes.len()).ok_or(refusal(2))?;
    front.copy_from_slice(&bytes);
    Ok(bytes.len())
}
