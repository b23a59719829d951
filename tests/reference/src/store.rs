// The stored state as bytes: taking a book out of it and putting one into it.
// Taking out gives nothing exactly when the stored state is damaged.

use crate::book::{Account, Book, TOP};
use crate::course::Course;
use crate::fields::{
    field, joined, Field, BETWEEN_COURSE, COMMON_FIELDS, HEIGHT, RECEIVERS, RECEIVER_FIELDS,
    SOURCES, UNCUT_COURSE, WALLS, WALL_ENDS, WALL_FIELDS, WALL_HEIGHT, X, Y,
};
use crate::road::{judge_receiver, judge_source, Receiver, Source};
use crate::wall::{judge_wall, Wall};

/// Bytes of the use mark that begins every slot, and of each sum.
const MARK: usize = 1;
const SUM: usize = 8;

/// How a source slot says where its source runs, and what there is in place of a fourth number
/// where three say it. Neither has a number of its own: a slot in which they are wrong is damaged.
pub const COURSE: Field = field(0, "course", 8, &[(UNCUT, BETWEEN)]);
pub const NOTHING: Field = field(0, "nothing", 24, &[(0, 0)]);
const UNCUT: i64 = 0;
const BETWEEN: i64 = 1;

/// The fields of a source slot after its use mark, of an uncut source and of one between two ends.
pub static UNCUT_SLOT: [Field; 20] =
    joined(&[&[COURSE], &UNCUT_COURSE, &[NOTHING], &COMMON_FIELDS]);
pub static BETWEEN_SLOT: [Field; 20] = joined(&[&[COURSE], &BETWEEN_COURSE, &COMMON_FIELDS]);

/// Bytes of each field of a source slot after its use mark, whichever it is.
pub const SOURCE_BYTES: [usize; UNCUT_SLOT.len()] = bytes_of(&UNCUT_SLOT);

/// Bytes of each field of a receiver slot after its use mark: the place, then the sums.
pub const RECEIVER_BYTES: [usize; 6] = [X.bytes(), Y.bytes(), HEIGHT.bytes(), SUM, SUM, SUM];

/// The fields of a wall slot after its use mark, and the bytes of each.
static WALL_SLOT_FIELDS: [Field; 5] = joined(&[&WALL_ENDS, &[WALL_HEIGHT]]);
pub const WALL_BYTES: [usize; WALL_SLOT_FIELDS.len()] = bytes_of(&WALL_SLOT_FIELDS);

/// Where the first sum is among the fields of a receiver slot.
pub const SUMS: usize = RECEIVER_FIELDS.len() - 1;

/// Bytes of a slot of each kind, where the first of them begins, and bytes of the whole.
pub const SOURCE_SIZE: usize = MARK + total(&SOURCE_BYTES);
pub const RECEIVER_SIZE: usize = MARK + total(&RECEIVER_BYTES);
pub const RECEIVERS_AT: usize = SOURCES * SOURCE_SIZE;
pub const WALL_SIZE: usize = MARK + total(&WALL_BYTES);
pub const WALLS_AT: usize = RECEIVERS_AT + RECEIVERS * RECEIVER_SIZE;
pub const STORE_SIZE: usize = WALLS_AT + WALLS * WALL_SIZE;

/// Where a source slot begins.
pub const fn source_at(slot: usize) -> usize {
    slot * SOURCE_SIZE
}

/// Where a receiver slot begins.
pub const fn receiver_at(slot: usize) -> usize {
    RECEIVERS_AT + slot * RECEIVER_SIZE
}

/// Where a wall slot begins.
pub const fn wall_at(slot: usize) -> usize {
    WALLS_AT + slot * WALL_SIZE
}

/// Bytes of the fields of a table.
const fn bytes_of<const N: usize>(fields: &[Field; N]) -> [usize; N] {
    let mut bytes = [0; N];
    let mut at = 0;
    while at < N {
        bytes[at] = fields[at].bytes();
        at += 1;
    }
    bytes
}

const fn total(bytes: &[usize]) -> usize {
    let mut sum = 0;
    let mut at = 0;
    while at < bytes.len() {
        sum += bytes[at];
        at += 1;
    }
    sum
}

fn number(bytes: &[u8]) -> u64 {
    bytes.iter().fold(0, |n, &b| (n << 8) | u64::from(b))
}

/// The fields of a slot after its mark.
pub fn unpack<const N: usize>(slot: &[u8], widths: &[usize; N]) -> [u64; N] {
    let mut at = MARK;
    widths.map(|width| {
        at += width;
        number(&slot[at - width..at])
    })
}

fn pack(mut slot: &mut [u8], fields: &[i64], widths: &[usize]) {
    slot[0] = 1;
    slot = &mut slot[MARK..];
    for (&value, &width) in fields.iter().zip(widths) {
        let (field, rest) = slot.split_at_mut(width);
        field.copy_from_slice(&value.to_be_bytes()[8 - width..]);
        slot = rest;
    }
}

/// One slot: none if damaged, an inner none if unused.
fn decode_slot<T>(slot: &[u8], used: impl Fn(&[u8]) -> Option<T>) -> Option<Option<T>> {
    match slot[0] {
        0 if slot.iter().all(|&b| b == 0) => Some(None),
        1 => used(slot).map(Some),
        _ => None,
    }
}

/// Where a source runs, by the byte and the four numbers that say it.
fn course_of(told: i64, numbers: [i64; 4]) -> Option<Course> {
    match (told, numbers) {
        (UNCUT, [x, y, length, 0]) => Some(Course::uncut(x, y, length)),
        (BETWEEN, [x1, y1, x2, y2]) => Some(Course::between(x1, y1, x2, y2)),
        _ => None,
    }
}

/// The source of a slot as it is, without judging its fields; none where nothing says how it runs.
pub fn take_source(slot: &[u8]) -> Option<Source> {
    let fields = unpack(slot, &SOURCE_BYTES).map(|field| field as i64);
    let [told, a, b, c, d, common @ ..] = fields;
    course_of(told, [a, b, c, d]).map(|course| Source::of_fields(course, common))
}

fn decode_source(slot: &[u8]) -> Option<Source> {
    take_source(slot).filter(|source| judge_source(source).is_ok())
}

/// The fields of a source slot.
fn stored_fields(source: &Source) -> Vec<i64> {
    let mut fields = match source.course {
        Course::Uncut { .. } => vec![UNCUT],
        Course::Between { .. } => vec![BETWEEN],
    };
    fields.extend(source.course.values());
    fields.resize(SOURCE_BYTES.len() - COMMON_FIELDS.len(), 0);
    fields.extend(source.common_fields());
    fields
}

fn decode_account(slot: &[u8]) -> Option<Account> {
    let [x, y, height, day, evening, night] = unpack(slot, &RECEIVER_BYTES);
    let receiver = Receiver::of_fields([x, y, height].map(|field| field as i64));
    judge_receiver(&receiver).ok()?;
    let sums = [day, evening, night];
    if sums.iter().any(|&sum| sum > TOP as u64) {
        return None;
    }
    Some(Account {
        receiver,
        sums: sums.map(|sum| sum as i64),
    })
}

/// The wall of a slot as it is, without judging its fields.
pub fn take_wall(slot: &[u8]) -> Wall {
    Wall::of_fields(unpack(slot, &WALL_BYTES).map(|field| field as i64))
}

fn decode_wall(slot: &[u8]) -> Option<Wall> {
    Some(take_wall(slot)).filter(|wall| judge_wall(wall).is_ok())
}

/// The book of a stored state; none if the stored state is damaged.
pub fn decode(image: &[u8]) -> Option<Book> {
    if image.len() != STORE_SIZE {
        return None;
    }
    let (sources, others) = image.split_at(RECEIVERS_AT);
    let (receivers, walls) = others.split_at(WALLS_AT - RECEIVERS_AT);
    let sources = sources.chunks_exact(SOURCE_SIZE);
    let receivers = receivers.chunks_exact(RECEIVER_SIZE);
    let walls = walls.chunks_exact(WALL_SIZE);
    Some(Book {
        sources: sources
            .map(|slot| decode_slot(slot, decode_source))
            .collect::<Option<_>>()?,
        accounts: receivers
            .map(|slot| decode_slot(slot, decode_account))
            .collect::<Option<_>>()?,
        walls: walls
            .map(|slot| decode_slot(slot, decode_wall))
            .collect::<Option<_>>()?,
    })
}

/// The stored state of a book.
pub fn encode(book: &Book) -> Vec<u8> {
    let mut image = vec![0; STORE_SIZE];
    let (sources, others) = image.split_at_mut(RECEIVERS_AT);
    let (receivers, walls) = others.split_at_mut(WALLS_AT - RECEIVERS_AT);
    let source_slots = sources.chunks_exact_mut(SOURCE_SIZE);
    for (slot, source) in source_slots.zip(&book.sources) {
        if let Some(source) = source {
            pack(slot, &stored_fields(source), &SOURCE_BYTES);
        }
    }
    let receiver_slots = receivers.chunks_exact_mut(RECEIVER_SIZE);
    for (slot, account) in receiver_slots.zip(&book.accounts) {
        if let Some(Account { receiver, sums }) = account {
            let mut fields = receiver.fields().to_vec();
            fields.extend(sums);
            pack(slot, &fields, &RECEIVER_BYTES);
        }
    }
    let wall_slots = walls.chunks_exact_mut(WALL_SIZE);
    for (slot, wall) in wall_slots.zip(&book.walls) {
        if let Some(wall) = wall {
            pack(slot, &wall.fields(), &WALL_BYTES);
        }
    }
    image
}

/// Where a field is among those of a source slot.
pub fn source_index(field: &Field) -> usize {
    let uncut = UNCUT_SLOT.contains(field);
    field.index_in(if uncut { &UNCUT_SLOT } else { &BETWEEN_SLOT })
}

/// Where a field is among those of a receiver slot.
pub fn receiver_index(field: &Field) -> usize {
    field.index_in(&RECEIVER_FIELDS[1..])
}

/// Where a field is among those of a wall slot.
pub fn wall_index(field: &Field) -> usize {
    field.index_in(&WALL_FIELDS[1..])
}

/// Where a field of a slot begins, given where the slot is and the widths of its fields.
pub fn field_at(slot_at: usize, widths: &[usize], field: usize) -> usize {
    slot_at + MARK + widths[..field].iter().sum::<usize>()
}

/// Puts a value into a field of a slot.
pub(crate) fn set_field(
    image: &mut [u8],
    slot_at: usize,
    widths: &[usize],
    field: usize,
    value: u64,
) {
    let from = field_at(slot_at, widths, field);
    let width = widths[field];
    image[from..from + width].copy_from_slice(&value.to_be_bytes()[8 - width..]);
}
