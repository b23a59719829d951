// Whether the cases that are tried meet every edge there is, on both sides of it: of the fields
// in records, calls and stored states, of sums, of lengths, of distances and of share levels.

use reference::book::{decode, Book, TOP};
use reference::chance::Chance;
use reference::course::{Course, Piece};
use reference::fields::{widest, Field, LENGTH};
use reference::fixed::{fixed_frames, fixed_jobs};
use reference::jobs::job;
use reference::limits::{uncut_levels, way_of_square, FAR_STEPS, HALVES, NEAR_STEPS};
use reference::probe::Frame;
use reference::record::{extent, fields_of, listed_kinds, take, Record};
use reference::road::{Receiver, Refusal, Source, FARTHEST_SQUARE, LOUDEST, NEAREST_SQUARE};
use reference::store::{
    receiver_at, take_source, take_wall, unpack, wall_at, RECEIVER_BYTES, RECEIVER_SIZE,
    SOURCE_SIZE, STORE_SIZE, SUMS, WALL_SIZE,
};
use reference::stores::frame;
use reference::writing::{bits_of, fixed_writings, writing};
use std::collections::BTreeSet;
use std::ops::RangeInclusive;

/// As many as a comparison draws.
const SEEDS: RangeInclusive<u64> = 1..=2000;

/// The kinds of records that place what has fields in the store.
const PLACINGS: [u8; 4] = [1, 3, 7, 8];

/// The kind of record that has a length which follows from others of its fields.
const BETWEEN: u8 = 7;

/// A value of a field that is to be met: the kind of record, where the field is among those that
/// are judged, the value, and whether the record is to be accepted or refused for this field.
type Edge = (u8, usize, i64, bool);

/// The edges that were not met yet.
struct Missed(BTreeSet<Edge>);

/// The edges of a field of so many bits, from the table alone: the ends of what is allowed, which
/// are to be accepted, and one step past them and the most that the bits hold, to be refused.
fn edges_of(field: &Field, bits: u32) -> Vec<(i64, bool)> {
    let most = widest(bits);
    let mut edges = vec![(most, field.allows(most))];
    for &(first, last) in field.allowed {
        edges.extend([
            (first, true),
            (last, true),
            (first - 1, false),
            (last + 1, false),
        ]);
    }
    edges.retain(|&(value, _)| (0..=most).contains(&value));
    edges
}

/// The edges of a size of parallel walls where there are none: 0 is to be accepted and 1 to be refused.
fn edges_without_parallel_walls(field: &Field) -> Vec<(i64, bool)> {
    if field.of_parallel_walls() {
        vec![(0, true), (1, false)]
    } else {
        Vec::new()
    }
}

/// The edges of a length that follows from the ends: one step on either side of what is allowed.
fn edges_of_length() -> Vec<(i64, bool)> {
    let (least, most) = (LENGTH.least(), LENGTH.most());
    vec![
        (least - 1, false),
        (least, true),
        (most, true),
        (most + 1, false),
    ]
}

/// The fields of a kind, and last the length where it follows from the ends.
fn judged_fields(kind: u8) -> Vec<Field> {
    let mut fields = fields_of(kind).unwrap().to_vec();
    if kind == BETWEEN {
        fields.push(LENGTH);
    }
    fields
}

/// The values of these fields. A length follows only from ends that are on the map.
fn judged_values(record: &Record) -> Vec<i64> {
    let mut values = record.values();
    if let Record::PlaceSource(_, source) = record {
        let course = source.course;
        let mut ends = course.fields().iter().zip(course.values());
        if record.kind() == BETWEEN && ends.all(|(field, value)| field.allows(value)) {
            values.push(course.length());
        }
    }
    values
}

/// Whether a refusal is for one of these fields: of those that have its number, the first whose
/// value is not allowed.
fn is_for(refusal: Refusal, at: usize, fields: &[Field], values: &[i64]) -> bool {
    let of_number = |&other: &usize| fields[other].number == fields[at].number;
    let wrong = |&other: &usize| !fields[other].allows(values[other]);
    let refused = (refusal.number, refusal.place) == (5, fields[at].number);
    refused && !(0..at).filter(of_number).any(|other| wrong(&other))
}

impl Missed {
    /// All edges of records of these kinds, where every field has so many bits.
    fn all(kinds: &[u8], bits: impl Fn(&Field) -> u32) -> Missed {
        let mut edges = BTreeSet::new();
        for &kind in kinds {
            for (at, field) in judged_fields(kind).iter().enumerate() {
                let mut of_field = match field {
                    &LENGTH if kind == BETWEEN => edges_of_length(),
                    _ => edges_of(field, bits(field)),
                };
                of_field.extend(edges_without_parallel_walls(field));
                let named = |(value, good)| (kind, at, value, good);
                edges.extend(of_field.into_iter().map(named));
            }
        }
        Missed(edges)
    }

    /// All edges of stored fields; the number of a slot is not stored.
    fn stored() -> Missed {
        let mut edges = Missed::all(&PLACINGS, Field::stored_bits).0;
        edges.retain(|&(_, at, ..)| at != 0);
        Missed(edges)
    }

    /// Takes off what a record meets.
    fn meet(&mut self, record: &Record) {
        let judged = record.judge();
        let (fields, values) = (judged_fields(record.kind()), judged_values(record));
        for (at, &value) in values.iter().enumerate() {
            let good = judged.is_ok();
            let named = judged.is_err_and(|refusal| is_for(refusal, at, &fields, &values));
            if good || named {
                self.0.remove(&(record.kind(), at, value, good));
            }
        }
    }

    /// Takes off what the records of a job meet.
    fn meet_job(&mut self, mut job: &[u8]) {
        while extent(job) > 0 {
            if let Ok((record, _)) = take(job) {
                self.meet(&record);
            }
            job = &job[extent(job)..];
        }
    }

    /// Takes off what the used slots of a stored state meet.
    fn meet_image(&mut self, image: &[u8]) {
        if image.len() == STORE_SIZE {
            sources_in(image).for_each(|record| self.meet(&record));
            accounts_in(image).for_each(|(record, _)| self.meet(&record));
            walls_in(image).for_each(|record| self.meet(&record));
        }
    }

    /// Fails if any is left, and names it.
    fn none(&self, cases: &str) {
        let named = |&(kind, at, value, good): &Edge| {
            let field = judged_fields(kind)[at];
            let side = if good { "allowed" } else { "refused" };
            format!("{} {value} of kind {kind}, {side}", field.name)
        };
        let missed: Vec<String> = self.0.iter().map(named).collect();
        assert!(missed.is_empty(), "{cases} do not meet {missed:?}");
    }
}

/// The sources in a stored state, whether allowed or not.
fn sources_in(image: &[u8]) -> impl Iterator<Item = Record> + '_ {
    let slots = image[..receiver_at(0)].chunks_exact(SOURCE_SIZE);
    let used = (0..).zip(slots).filter(|(_, slot)| slot[0] == 1);
    used.filter_map(|(number, slot)| Some(Record::PlaceSource(number, take_source(slot)?)))
}

/// The walls in a stored state, whether allowed or not.
fn walls_in(image: &[u8]) -> impl Iterator<Item = Record> + '_ {
    let slots = image[wall_at(0)..].chunks_exact(WALL_SIZE);
    let used = (0..).zip(slots).filter(|(_, slot)| slot[0] == 1);
    used.map(|(number, slot)| Record::PlaceWall(number, take_wall(slot)))
}

/// The receivers in a stored state, whether allowed or not, with their sums.
fn accounts_in(image: &[u8]) -> impl Iterator<Item = (Record, Vec<u64>)> + '_ {
    let slots = image[receiver_at(0)..wall_at(0)].chunks_exact(RECEIVER_SIZE);
    let used = (0..).zip(slots).filter(|(_, slot)| slot[0] == 1);
    used.map(|(number, slot)| {
        let values = unpack(slot, &RECEIVER_BYTES);
        let fields = std::array::from_fn(|at| values[at] as i64);
        let receiver = Receiver::of_fields(fields);
        (
            Record::PlaceReceiver(number, receiver),
            values[SUMS..].to_vec(),
        )
    })
}

#[test]
fn jobs_meet_every_edge_of_every_field() {
    let mut missed = Missed::all(&listed_kinds(), |field| field.bits);
    (1..=200).for_each(|seed| missed.meet_job(&job(seed)));
    missed.none("jobs by chance");
    missed = Missed::all(&listed_kinds(), |field| field.bits);
    fixed_jobs().iter().for_each(|job| missed.meet_job(job));
    missed.none("fixed jobs");
}

#[test]
fn writings_meet_every_edge_of_every_field() {
    let mut missed = Missed::all(&listed_kinds(), bits_of);
    (1..=120_000).for_each(|seed| missed.meet(&writing(seed).record));
    missed.none("writings by chance");
    missed = Missed::all(&listed_kinds(), bits_of);
    let fixed = fixed_writings();
    fixed
        .iter()
        .for_each(|writing| missed.meet(&writing.record));
    missed.none("fixed writings");
}

#[test]
fn fixed_probes_meet_every_edge_of_every_field() {
    let mut stored = Missed::stored();
    let mut records = Missed::all(&listed_kinds(), |field| field.bits);
    for frame in fixed_frames() {
        stored.meet_image(&frame.image);
        records.meet_job(&frame.record);
    }
    stored.none("fixed stored states");
    records.none("records of fixed probes");
}

#[test]
fn stored_states_by_chance_meet_both_sides_of_every_field() {
    let sides = |edges: &Missed| -> BTreeSet<(u8, usize, bool)> {
        let side = |&(kind, at, _, good): &Edge| (kind, at, good);
        edges.0.iter().map(side).collect()
    };
    let all = Missed::stored();
    let mut missed = Missed(all.0.clone());
    (1..=6000).for_each(|seed| missed.meet_image(&frame(seed).image));
    let met = Missed(&all.0 - &missed.0);
    assert_eq!(&sides(&all) - &sides(&met), BTreeSet::new());
}

/// Sums and lengths that probes meet.
fn sums_and_lengths(frames: impl Iterator<Item = Frame>) -> (BTreeSet<u64>, BTreeSet<usize>) {
    let (mut sums, mut lengths) = (BTreeSet::new(), BTreeSet::new());
    for frame in frames {
        lengths.insert(frame.image.len());
        if frame.image.len() == STORE_SIZE {
            accounts_in(&frame.image).for_each(|(_, held)| sums.extend(held));
        }
    }
    (sums, lengths)
}

#[test]
fn probes_meet_the_edges_of_sums_and_of_the_length() {
    let top = TOP as u64;
    let fixed = sums_and_lengths(fixed_frames().into_iter());
    for (sums, lengths) in [fixed, sums_and_lengths(SEEDS.map(frame))] {
        let wanted = BTreeSet::from([0, top - 1, top, top + 1, u64::MAX]);
        assert_eq!(&wanted - &sums, BTreeSet::new());
        let wanted = BTreeSet::from([0, STORE_SIZE - 1, STORE_SIZE, STORE_SIZE + 1]);
        assert_eq!(&wanted - &lengths, BTreeSet::new());
    }
}

/// The numbers nearest to a limit that were met: the greatest below it and the least from it on.
#[derive(Clone, Copy, Debug)]
struct Around {
    limit: i64,
    below: i64,
    above: i64,
}

impl Around {
    fn of(limit: i64) -> Around {
        let (below, above) = (i64::MIN, i64::MAX);
        Around {
            limit,
            below,
            above,
        }
    }

    fn meet(&mut self, number: i64) {
        if number < self.limit {
            self.below = self.below.max(number);
        } else {
            self.above = self.above.min(number);
        }
    }

    /// How far from the limit both are.
    fn steps(&self) -> (i64, i64) {
        (self.below - self.limit, self.above - self.limit)
    }
}

/// What the pairs of placings meet: squared distances, how much longer than half the distance a
/// source is, and share levels, each around the first number that is treated otherwise.
struct Pairs {
    near: Around,
    far: Around,
    long: Around,
    loud: Around,
    faint: Around,
}

impl Pairs {
    fn none() -> Pairs {
        Pairs {
            near: Around::of(NEAREST_SQUARE),
            far: Around::of(FARTHEST_SQUARE + 1),
            long: Around::of(1),
            loud: Around::of(LOUDEST + 1),
            faint: Around::of(0),
        }
    }

    fn meet(&mut self, source: &Source, receiver: &Receiver) {
        let Course::Uncut { middle, length } = source.course else {
            return;
        };
        let square = Piece::new(middle, length, receiver).in_space;
        let excess = 4 * length * length - square;
        self.near.meet(square);
        self.far.meet(square);
        if (NEAREST_SQUARE..=FARTHEST_SQUARE).contains(&square) {
            self.long.meet(excess);
            if excess <= 0 {
                let levels = uncut_levels(source, receiver);
                levels.iter().flatten().for_each(|&level| {
                    self.loud.meet(level);
                    self.faint.meet(level);
                });
            }
        }
    }

    /// Meets the pairs of a new entry, if it is allowed.
    fn meet_record(&mut self, book: &Book, record: &Record) {
        match record {
            _ if record.judge().is_err() => {}
            Record::PlaceSource(..) | Record::PlaceDaily(..) => {
                let source = record.source().unwrap();
                let standing = book.accounts.iter().flatten();
                standing.for_each(|account| self.meet(&source, &account.receiver));
            }
            Record::PlaceReceiver(_, receiver) => {
                let standing = book.sources.iter().flatten();
                standing.for_each(|source| self.meet(source, receiver));
            }
            _ => {}
        }
    }

    fn meet_job(&mut self, mut job: &[u8]) {
        let mut book = Book::cleared();
        while extent(job) > 0 {
            if let Ok((record, _)) = take(job) {
                self.meet_record(&book, &record);
                book.apply(&record);
            }
            job = &job[extent(job)..];
        }
    }

    /// Holds what was met against what there is.
    fn check(&self) {
        assert_eq!(self.near.steps(), nearest(&NEAR_STEPS, 0));
        assert_eq!(self.far.steps(), nearest(&FAR_STEPS, 1));
        for around in [self.long, self.loud, self.faint] {
            assert_eq!(around.steps(), (-1, 0), "{around:?}");
        }
    }
}

/// Of the steps from a limit, those on either side of a first step, seen from there.
fn nearest(steps: &[i64], first: i64) -> (i64, i64) {
    let mut around = Around::of(first);
    steps.iter().for_each(|&step| around.meet(step));
    around.steps()
}

#[test]
fn jobs_meet_the_edges_of_distances_and_levels() {
    let mut pairs = Pairs::none();
    (1..=170).for_each(|seed| pairs.meet_job(&job(seed)));
    pairs.check();
}

#[test]
fn probes_meet_the_edges_of_distances_and_levels() {
    let mut pairs = Pairs::none();
    for frame in (1..=6000).map(frame) {
        if let (Some(book), Ok((record, _))) = (decode(&frame.image), take(&frame.record)) {
            pairs.meet_record(&book, &record);
        }
    }
    pairs.check();
}

#[test]
fn every_half_has_a_way_of_its_double() {
    for half in HALVES {
        let way = way_of_square(&mut Chance::new(1), 4 * half * half);
        assert!(way.is_some(), "length {half}");
    }
}
