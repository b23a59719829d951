// What the cases by chance meet of roads between two ends: every refusal, cuts of every depth, and
// pieces, lengths and sums on both sides of every limit.

use reference::book::{decode, Answer, Book};
use reference::course::{pieces, Course, Piece, SHORT};
use reference::fields::LENGTH;
use reference::fixed::{fixed_frames, fixed_jobs};
use reference::jobs::job;
use reference::level::FAINTEST;
use reference::limits::{FAR_STEPS, NEAR_STEPS};
use reference::record::{extent, kind_in, read, take, Record};
use reference::road::{
    emission, heard, length_term, Receiver, Refusal, Source, FARTHEST_SQUARE, GREATEST_SHARE,
    LOUDEST, NEAREST_SQUARE, NUMBERS,
};
use reference::store::{receiver_at, take_source, SOURCE_BYTES, SOURCE_SIZE, STORE_SIZE};
use reference::stores::frame;
use reference::writing::{fixed_writings, writing};
use std::collections::BTreeSet;
use std::ops::RangeInclusive;

const SEEDS: RangeInclusive<u64> = 1..=600;

/// The kind of record that places such a road.
const BETWEEN: u8 = 7;

/// Goes through a job as far as it goes, by a step that does each record to the book.
fn walk(mut job: &[u8], mut step: impl FnMut(&[u8], &mut Book) -> Answer) {
    let mut book = Book::cleared();
    while !job.is_empty() {
        let answer = step(job, &mut book);
        let stops = matches!(answer, Answer::Refused(Refusal { number: 2 | 3, .. }));
        job = if stops { &[] } else { &job[extent(job)..] };
    }
}

/// Does the record at the front of a job to a book.
fn done(job: &[u8], book: &mut Book) -> Answer {
    match read(job) {
        Ok((record, _)) => book.apply(&record),
        Err(refusal) => Answer::Refused(refusal),
    }
}

#[test]
fn jobs_meet_every_refusal_of_such_a_road() {
    let (mut counts, mut of_length, mut placed) = ([0; NUMBERS], [0; 2], 0);
    for job in SEEDS.map(job).chain(fixed_jobs()) {
        walk(&job, |record, book| {
            let answer = done(record, book);
            match answer {
                _ if kind_in(record[0]) != BETWEEN => {}
                Answer::Refused(refusal) => {
                    counts[usize::from(refusal.number)] += 1;
                    if (refusal.number, refusal.place) == (5, LENGTH.number) {
                        let source = take(record).unwrap().0.source().unwrap();
                        of_length[usize::from(source.course.length() > 0)] += 1;
                    }
                }
                _ => placed += 1,
            }
            answer
        });
    }
    for (number, met) in counts.into_iter().enumerate() {
        let possible = [2, 4, 5, 6, 10, 11, 13, 14].contains(&number);
        assert!(possible == (met >= 20), "refusal {number}: {met}");
        assert!(possible || met == 0, "refusal {number}: {met}");
    }
    assert!(of_length.into_iter().all(|met| met >= 20), "{of_length:?}");
    assert!(placed >= 5000, "{placed}");
}

/// What pairs of such a road and a receiver were met, how often or with which numbers.
#[derive(Debug, Default)]
struct Met {
    whole: u64,
    cut: u64,
    cut_deep: u64,
    near_at_first: u64,
    near_later: u64,
    far_at_first: u64,
    far_later: u64,
    middle_near_only: u64,
    pieces_near_only: u64,
    loud_alone: u64,
    loud_together: u64,
    nearly_loud: u64,
    loud_and_near: u64,
    silent_and_near: u64,
    silent_and_cut: u64,
    faint_in_part: u64,
    faint_and_heard: u64,
    faint_and_quiet: u64,
    squares: BTreeSet<i64>,
    excess: BTreeSet<i64>,
    lengths: BTreeSet<i64>,
}

fn is_near(piece: &Piece) -> bool {
    piece.in_space < NEAREST_SQUARE
}

fn is_far(piece: &Piece) -> bool {
    piece.in_space > FARTHEST_SQUARE
}

/// The share levels of the pieces that are not too far in one period, however near or loud.
fn levels(source: &Source, found: &[Piece], receiver: &Receiver, period: usize) -> Vec<i64> {
    let sent = emission(source);
    let found = found.iter().filter(|piece| !is_far(piece));
    let level = |piece: &Piece| {
        let level = heard(&sent, piece, receiver, 0)[period]?;
        Some(level + length_term(piece.length))
    };
    found.filter_map(level).collect()
}

/// The energy of a level, roughly, for sums that need not be exact.
fn rough(level: i64) -> f64 {
    10f64.powf(6.0 + level as f64 / 1000.0)
}

impl Met {
    fn meet(&mut self, source: &Source, receiver: &Receiver) {
        let Course::Between { .. } = source.course else {
            return;
        };
        let found = pieces(&source.course, receiver);
        let whole = Piece::new(source.course.middle(), source.course.length(), receiver);
        self.meet_distances(&whole, &found);
        self.meet_levels(source, receiver, &found);
    }

    fn meet_distances(&mut self, whole: &Piece, found: &[Piece]) {
        let many = found.len() > 1;
        self.whole += u64::from(!many);
        self.cut += u64::from(many);
        self.cut_deep += u64::from(found.len() >= 20);
        let first_near = found.iter().position(is_near);
        self.near_at_first += u64::from(many && first_near == Some(0));
        self.near_later += u64::from(first_near.is_some_and(|at| at > 0));
        let first_far = found.iter().position(is_far);
        self.far_at_first += u64::from(many && first_far == Some(0));
        self.far_later += u64::from(first_far.is_some_and(|at| at > 0));
        self.middle_near_only += u64::from(is_near(whole) && first_near.is_none());
        self.pieces_near_only += u64::from(!is_near(whole) && first_near.is_some());
        if many {
            self.squares
                .extend(found.iter().map(|piece| piece.in_space));
        }
        let excess = 4 * whole.length * whole.length - whole.in_space;
        if whole.length > SHORT {
            self.excess.insert(excess);
        }
        if excess > 0 {
            self.lengths.insert(whole.length);
        }
    }

    fn meet_levels(&mut self, source: &Source, receiver: &Receiver, found: &[Piece]) {
        let near = found.iter().any(is_near);
        let refused = near || found.iter().any(is_far);
        let many = found.len() > 1;
        let silent = source.traffic.iter().all(|traffic| traffic.vehicles == 0);
        self.silent_and_near += u64::from(silent && near);
        self.silent_and_cut += u64::from(silent && many && !refused);
        for period in 0..3 {
            let levels = levels(source, found, receiver, period);
            let alone = levels.iter().any(|&level| level > LOUDEST);
            let part =
                levels.iter().map(|&level| rough(level)).sum::<f64>() / GREATEST_SHARE as f64;
            self.loud_alone += u64::from(many && !refused && alone);
            self.loud_together += u64::from(!refused && !alone && part > 1.001);
            self.nearly_loud += u64::from(many && !refused && (0.99..0.9999).contains(&part));
            self.loud_and_near += u64::from(near && part > 1.001);
            let faint = levels.iter().filter(|&&level| level < 0).count();
            self.faint_in_part += u64::from(0 < faint && faint < levels.len());
            let all_faint = many && !refused && faint == levels.len();
            let heard = part * GREATEST_SHARE as f64 / FAINTEST as f64;
            self.faint_and_heard += u64::from(all_faint && heard > 1.001);
            self.faint_and_quiet += u64::from(all_faint && (0.9..0.999).contains(&heard));
        }
    }

    /// Meets the pairs of a new entry, if it is allowed.
    fn meet_record(&mut self, book: &Book, record: &Record) {
        match record {
            _ if record.judge().is_err() => {}
            Record::PlaceSource(_, source) => {
                let standing = book.accounts.iter().flatten();
                standing.for_each(|account| self.meet(source, &account.receiver));
            }
            Record::PlaceReceiver(_, receiver) => {
                let standing = book.sources.iter().flatten();
                standing.for_each(|source| self.meet(source, receiver));
            }
            _ => {}
        }
    }

    /// Fails where something was not met, or not often enough.
    fn check(&self, least: u64) {
        let counts = [
            self.whole,
            self.cut,
            self.cut_deep,
            self.near_at_first,
            self.near_later,
            self.far_at_first,
            self.far_later,
            self.middle_near_only,
            self.pieces_near_only,
            self.loud_alone,
            self.loud_together,
            self.nearly_loud,
            self.loud_and_near,
            self.silent_and_near,
            self.silent_and_cut,
            self.faint_in_part,
            self.faint_and_heard,
            self.faint_and_quiet,
        ];
        assert!(counts.iter().all(|&count| count >= least), "{counts:?}");
        let met = |step: &i64, limit: i64| self.squares.contains(&(limit + step));
        assert!(NEAR_STEPS.iter().all(|step| met(step, NEAREST_SQUARE)));
        assert!(FAR_STEPS.iter().all(|step| met(step, FARTHEST_SQUARE)));
        assert!((-1..=1).all(|excess| self.excess.contains(&excess)));
        assert!([SHORT, SHORT + 1]
            .iter()
            .all(|at| self.lengths.contains(at)));
        let most = [LENGTH.most() - 1, LENGTH.most()];
        assert!(most.iter().all(|at| self.lengths.contains(at)));
    }
}

#[test]
fn jobs_meet_every_way_in_which_such_a_road_is_cut() {
    let mut met = Met::default();
    for job in SEEDS.map(job) {
        walk(&job, |record, book| {
            if let Ok((record, _)) = read(record) {
                met.meet_record(book, &record);
            }
            done(record, book)
        });
    }
    met.check(20);
}

#[test]
fn probes_meet_every_way_in_which_such_a_road_is_cut() {
    let mut met = Met::default();
    for frame in (1..=10_000).map(frame) {
        if let (Some(book), Ok((record, _))) = (decode(&frame.image), read(&frame.record)) {
            met.meet_record(&book, &record);
        }
    }
    met.check(5);
}

/// The course of a source that a record withdraws from a stored state.
fn withdrawn(book: &Book, record: &Record) -> Option<Course> {
    match record {
        Record::WithdrawSource(slot) => {
            let source = book.sources.get(*slot as usize)?.as_ref()?;
            Some(source.course)
        }
        _ => None,
    }
}

/// Whether a course is cut before some receiver of a book.
fn is_cut(course: &Course, book: &Book) -> bool {
    let mut accounts = book.accounts.iter().flatten();
    accounts.any(|account| pieces(course, &account.receiver).len() > 1)
}

#[test]
fn jobs_withdraw_roads_that_are_cut() {
    let mut count = 0;
    for job in SEEDS.map(job) {
        walk(&job, |record, book| {
            let course = read(record)
                .ok()
                .and_then(|(record, _)| withdrawn(book, &record));
            let cut = course.is_some_and(|course| is_cut(&course, book));
            let answer = done(record, book);
            count += u64::from(cut && answer == Answer::Done);
            answer
        });
    }
    assert!(count >= 500, "{count}");
}

#[test]
fn probes_meet_the_late_damage_of_roads_that_are_cut() {
    let (mut placing, mut withdrawing, mut withdrawn_well) = (0, 0, 0);
    for mut frame in (1..=8000).map(frame) {
        let (Some(book), Ok((record, _))) = (decode(&frame.image), read(&frame.record)) else {
            continue;
        };
        let leaving = withdrawn(&book, &record);
        let coming = record.source().map(|source| source.course);
        let cut = |course: Option<Course>| course.is_some_and(|course| is_cut(&course, &book));
        match frame.call().answer {
            Answer::Refused(Refusal { number: 1, .. }) => {
                placing += u64::from(cut(coming));
                withdrawing += u64::from(cut(leaving));
            }
            Answer::Done => withdrawn_well += u64::from(cut(leaving)),
            _ => {}
        }
    }
    let counts = [placing, withdrawing, withdrawn_well];
    assert!(counts.into_iter().all(|count| count >= 5), "{counts:?}");
}

/// What the used source slots of stored states say of a course, and whether the state is damaged by
/// nothing but that: the byte, and the fourth number where the byte says that there are three.
fn courses_in(image: &[u8]) -> Vec<(u8, u64)> {
    let at: usize = SOURCE_BYTES[..4].iter().sum();
    let slots = image[..receiver_at(0)].chunks_exact(SOURCE_SIZE);
    let used = slots.filter(|slot| slot[0] == 1);
    let last = |slot: &[u8]| {
        let bytes = &slot[1 + at..1 + at + SOURCE_BYTES[4]];
        bytes.iter().fold(0, |n, &byte| n << 8 | u64::from(byte))
    };
    used.map(|slot| (slot[1], if slot[1] == 0 { last(slot) } else { 0 }))
        .collect()
}

#[test]
fn probes_meet_every_way_to_tell_a_course() {
    let fixed = fixed_frames();
    let drawn: Vec<_> = (1..=4000).map(frame).collect();
    for frames in [fixed, drawn] {
        let (mut bytes, mut fourths, mut lengths) =
            (BTreeSet::new(), BTreeSet::new(), BTreeSet::new());
        for frame in frames
            .iter()
            .filter(|frame| frame.image.len() == STORE_SIZE)
        {
            for (byte, fourth) in courses_in(&frame.image) {
                bytes.insert(byte);
                fourths.insert(fourth);
            }
            let slots = frame.image[..receiver_at(0)].chunks_exact(SOURCE_SIZE);
            let sources = slots.filter(|slot| slot[0] == 1).filter_map(take_source);
            let between = sources.filter(|source| matches!(source.course, Course::Between { .. }));
            lengths.extend(between.map(|source| source.course.length()));
        }
        assert!([0, 1, 2, 255].iter().all(|byte| bytes.contains(byte)));
        assert!([0, 1].iter().all(|fourth| fourths.contains(fourth)));
        let (least, most) = (LENGTH.least(), LENGTH.most());
        let edges = [least - 1, least, most, most + 1];
        assert!(edges.iter().all(|length| lengths.contains(length)));
    }
}

#[test]
fn writings_of_such_a_road_meet_every_refusal_of_the_writer() {
    let mut places = [0; 20];
    let mut numbers = [0; NUMBERS];
    let mut short_by_one = 0;
    for writing in (1..=4000).map(writing).chain(fixed_writings()) {
        if writing.record.kind() != BETWEEN {
            continue;
        }
        match writing.call().0.answer {
            Answer::Refused(refusal) => {
                numbers[usize::from(refusal.number)] += 1;
                places[usize::from(refusal.place)] += 1;
                short_by_one += u64::from((refusal.number, writing.room) == (2, 33));
            }
            _ => numbers[0] += 1,
        }
    }
    for (number, met) in numbers.into_iter().enumerate() {
        let possible = [0, 2, 5, 6].contains(&number);
        assert_eq!(possible, met >= 20, "refusal {number}: {met}");
    }
    assert!(places[1..].iter().all(|&met| met >= 5), "{places:?}");
    assert!(short_by_one >= 5);
}
