// What the jobs and probes by chance meet: every refusal that there is, and more than once.
// Number 7 is not among them: no allowed speeds make a truck quieter than a car. Neither is 8, which is
// given no more: what is placed into a used slot takes the place of what stood there.

use reference::book::{decode, Answer, Book};
use reference::fields::{Field, CAR_SPEED, LENGTH, SURFACE};
use reference::fixed::{fixed_frames, fixed_jobs};
use reference::jobs::job;
use reference::listing::{list, Tally};
use reference::probe::Frame;
use reference::record::{extent, fields_of, kind_in, listed_kinds, read, write, Record};
use reference::road::{Refusal, FAST_ABOVE, FAST_SURFACE, NUMBERS};
use reference::stores::frame;
use reference::writing::{fixed_writings, writing, Writing};

const SEEDS: std::ops::RangeInclusive<u64> = 1..=1000;

/// The numbers that are never given.
const UNUSED: [usize; 2] = [7, 8];

#[test]
fn jobs_meet_every_refusal() {
    let mut tally = Tally::default();
    for job in SEEDS.map(job).chain(fixed_jobs()) {
        tally.add(&list(&job, &mut Vec::new()));
    }
    for number in (2..=14).filter(|number| !UNUSED.contains(number)) {
        assert!(tally.refusals[number] >= 20, "refusal {number}");
    }
    assert_eq!(UNUSED.map(|number| tally.refusals[number]), [0; 2]);
    assert!(tally.asks >= 10_000);
}

/// The records of a job, each with its bytes or what is left of them.
fn pieces(mut job: &[u8]) -> Vec<&[u8]> {
    let mut pieces = Vec::new();
    while !job.is_empty() {
        let length = match extent(job) {
            0 => job.len(),
            length => length,
        };
        let (piece, rest) = job.split_at(length);
        pieces.push(piece);
        job = rest;
    }
    pieces
}

/// The same bytes, or those of the source that a daily figure stands for.
fn told(piece: &[u8]) -> Vec<u8> {
    match read(piece) {
        Ok((Record::PlaceDaily(slot, daily), _)) => {
            Record::PlaceSource(slot, daily.source()).bytes()
        }
        _ => piece.to_vec(),
    }
}

#[test]
fn jobs_with_daily_figures_are_those_with_the_traffic_told() {
    let mut changed = 0;
    for job in SEEDS.map(job).chain(fixed_jobs()) {
        let other: Vec<u8> = pieces(&job).into_iter().flat_map(told).collect();
        changed += u64::from(other != job);
        let listings = [job, other].map(|job| {
            let mut listing = Vec::new();
            list(&job, &mut listing);
            listing
        });
        assert_eq!(listings[0], listings[1]);
    }
    assert!(changed >= 400);
}

#[test]
fn jobs_meet_every_refusal_of_a_daily_figure() {
    let mut counts = [0; NUMBERS];
    for job in SEEDS.map(job).chain(fixed_jobs()) {
        let mut book = Book::cleared();
        for piece in pieces(&job) {
            let answer = match read(piece) {
                Ok((record, _)) => book.apply(&record),
                Err(refusal) => Answer::Refused(refusal),
            };
            if let (6, Answer::Refused(refusal)) = (kind_in(piece[0]), answer) {
                counts[usize::from(refusal.number)] += 1;
            }
        }
    }
    for number in [2, 4, 5, 6, 10, 11, 12, 13, 14] {
        assert!(counts[number] >= 20, "refusal {number}");
    }
    assert_eq!(UNUSED.map(|number| counts[number]), [0; 2]);
}

#[test]
fn probes_with_daily_figures_are_those_with_the_traffic_told() {
    let (mut placed, mut exchanged) = (0, 0);
    for mut frame in SEEDS.map(frame).chain(fixed_frames()) {
        let before = frame.image.clone();
        if let Ok((Record::PlaceDaily(slot, _), _)) = read(&frame.record) {
            let mut other = Frame {
                image: before.clone(),
                record: told(&frame.record),
            };
            let answer = frame.call().answer;
            assert_eq!((answer, &frame.image), (other.call().answer, &other.image));
            if answer == Answer::Done {
                let old = decode(&before).unwrap().sources[slot as usize];
                placed += u64::from(old.is_none());
                exchanged += u64::from(old.is_some());
                let back = old.map(|source| Record::PlaceSource(slot, source));
                frame.record = back.unwrap_or(Record::WithdrawSource(slot)).bytes();
                assert_eq!(frame.call().answer, Answer::Done);
                assert_eq!(frame.image, before);
            }
        }
    }
    assert!(placed >= 50 && exchanged >= 10, "{placed} {exchanged}");
}

#[test]
fn records_that_are_read_are_written_as_they_were() {
    let mut kinds = [0; 16];
    for job in SEEDS.map(job).chain(fixed_jobs()) {
        for piece in pieces(&job) {
            if let Ok((record, length)) = read(piece) {
                kinds[usize::from(record.kind())] += 1;
                let mut out = vec![0xff; length];
                assert_eq!(write(&record, &mut out), Ok(length));
                assert_eq!(out, piece);
            }
        }
    }
    assert!(listed_kinds()
        .into_iter()
        .all(|kind| kinds[usize::from(kind)] >= 1000));
}

#[test]
fn probes_meet_every_refusal() {
    let mut counts = [0; NUMBERS];
    let mut late = [0; 16];
    for mut frame in SEEDS.map(frame).chain(fixed_frames()) {
        let before = frame.image.clone();
        if let Answer::Refused(refusal) = frame.call().answer {
            assert_eq!(frame.image, before);
            counts[usize::from(refusal.number)] += 1;
            if refusal.number == 1 && decode(&before).is_some() {
                late[usize::from(frame.record[0] >> 4)] += 1;
            }
        }
    }
    for number in (1..=14).filter(|number| !UNUSED.contains(number)) {
        assert!(counts[number] >= 3, "refusal {number}");
    }
    assert_eq!(UNUSED.map(|number| counts[number]), [0; 2]);
    for (kind, met) in late.into_iter().enumerate() {
        let possible = [3, 4, 6, 7].contains(&kind);
        assert!(possible == (met >= 5), "late 1 of records of kind {kind}");
        assert!(possible || met == 0, "late 1 of records of kind {kind}");
    }
}

#[test]
fn damage_comes_before_what_the_reader_refuses() {
    let mut refused = 0;
    for mut frame in SEEDS.map(frame).chain(fixed_frames()) {
        if decode(&frame.image).is_none() {
            refused += u64::from(read(&frame.record).is_err());
            let expected = Refusal {
                number: 1,
                place: 0,
            };
            assert_eq!(frame.call().answer, Answer::Refused(expected));
        }
    }
    assert!(refused >= 50);
}

#[test]
fn only_refusals_2_and_3_have_no_extent() {
    for mut frame in SEEDS.map(frame).chain(fixed_frames()) {
        let stuck = read(&frame.record).is_err_and(|refusal| [2, 3].contains(&refusal.number));
        assert_eq!(frame.call().extent == 0, stuck);
    }
}

#[test]
fn what_is_done_keeps_a_stored_state_sound() {
    for mut frame in SEEDS.map(frame) {
        if frame.call().answer == Answer::Done {
            assert!(decode(&frame.image).is_some());
        }
    }
}

#[test]
fn writings_meet_every_refusal_of_the_writer() {
    let mut counts = [0; NUMBERS];
    let mut places = [0; 20];
    for writing in SEEDS.map(writing).chain(fixed_writings()) {
        let (deed, room) = writing.call();
        if let Answer::Refused(refusal) = deed.answer {
            assert_eq!(room, vec![0xff; writing.room]);
            counts[usize::from(refusal.number)] += 1;
            places[usize::from(refusal.place)] += 1;
        }
    }
    for (number, met) in counts.into_iter().enumerate() {
        let possible = [2, 5, 6].contains(&number);
        assert_eq!(possible, met > 0, "refusal {number}");
    }
    assert!(places.into_iter().skip(1).all(|met| met > 0));
}

/// Whether some fixed writing of a kind is refused for a field although other fields are wrong too.
fn named_although(kind: u8, field: &Field, wrong: impl Fn(&Record) -> bool) -> bool {
    let refusal = Refusal {
        number: 5,
        place: field.number,
    };
    let mut records = fixed_writings().into_iter().map(|writing| writing.record);
    records.any(|record| record.kind() == kind && record.judge() == Err(refusal) && wrong(&record))
}

#[test]
fn fixed_writings_of_sources_have_more_than_one_field_wrong() {
    for kind in [3, 6, 7] {
        let fields = fields_of(kind).unwrap();
        for pair in fields.windows(2) {
            let next_wrong = |record: &Record| !pair[1].allows(record.value(&pair[1]));
            assert!(named_although(kind, &pair[0], next_wrong), "{pair:?}");
        }
        let slow = |record: &Record| {
            let fast_surface = record.value(&SURFACE) >= FAST_SURFACE;
            fast_surface && record.value(&CAR_SPEED) <= FAST_ABOVE
        };
        assert!(named_although(kind, &fields[fields.len() - 1], slow));
    }
    let no_speed = |record: &Record| record.value(&CAR_SPEED) == 0;
    assert!(named_although(7, &LENGTH, no_speed));
}

#[test]
fn a_writing_comes_out_of_its_frame() {
    for writing in SEEDS.map(writing).chain(fixed_writings()) {
        let mut bytes = Vec::new();
        writing.put(&mut bytes);
        let mut rest = bytes.as_slice();
        assert_eq!(Writing::take(&mut rest), Some(writing));
        assert!(rest.is_empty());
    }
}
