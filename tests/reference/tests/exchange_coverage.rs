// What the cases by chance meet of exchanges: every refusal of what comes, all that may be wrong with
// what goes, and walls that are judged without the ones that they replace. And whether an exchange is
// what a withdrawal and a placing are, where these are done.

use reference::book::{decode, indices, Answer, Book, TOP};
use reference::fields::{RECEIVERS, SOURCES, WALLS};
use reference::fixed::{fixed_frames, fixed_jobs};
use reference::jobs::job;
use reference::probe::Frame;
use reference::record::{extent, read, take, Record};
use reference::road::{emission, shares, Receiver, Refusal, Shares, Source, NUMBERS};
use reference::stores::frame;
use reference::wall::Wall;
use std::collections::BTreeMap;
use std::ops::RangeInclusive;

const JOBS: RangeInclusive<u64> = 1..=600;
const PROBES: RangeInclusive<u64> = 1..=8000;

/// The kinds of records that place a receiver, an uncut source, one by its daily figure, one between two
/// ends, and a wall.
const PLACINGS: [u8; 5] = [1, 3, 6, 7, 8];

/// Goes through a job as far as it goes: every record as it is, what was answered, and the book before
/// it and after it.
fn walk(mut job: &[u8], mut look: impl FnMut(Option<&Record>, Answer, &Book, &Book)) -> Book {
    let mut book = Book::cleared();
    while extent(job) > 0 {
        let before = book.clone();
        let answer = match read(job) {
            Ok((record, _)) => book.apply(&record),
            Err(refusal) => Answer::Refused(refusal),
        };
        let record = take(job).ok().map(|(record, _)| record);
        look(record.as_ref(), answer, &before, &book);
        job = &job[extent(job)..];
    }
    book
}

fn number_of(answer: Answer) -> usize {
    match answer {
        Answer::Refused(refusal) => usize::from(refusal.number),
        _ => 0,
    }
}

/// How often something was met.
#[derive(Default)]
struct Counts(BTreeMap<String, u64>);

impl Counts {
    fn note(&mut self, what: impl Into<String>, met: bool) {
        *self.0.entry(what.into()).or_default() += u64::from(met);
    }

    fn check(&self, wanted: &[String], least: u64) {
        for what in wanted {
            let met = self.0.get(what).copied().unwrap_or(0);
            assert!(met >= least, "{what}: {:?}", self.0);
        }
    }
}

/// How often exchanges of each kind were answered with each number; 0 counts those that were done.
#[derive(Default)]
struct Answers([[u64; NUMBERS]; 16]);

impl Answers {
    fn count(&mut self, record: &Record, answer: Answer) {
        self.0[usize::from(record.kind())][number_of(answer)] += 1;
    }

    fn check(&self, possible: [&[usize]; 5], least: u64) {
        for (kind, possible) in PLACINGS.into_iter().zip(possible) {
            let counts = self.0[usize::from(kind)];
            for (number, met) in counts.into_iter().enumerate() {
                let enough = match possible.contains(&number) {
                    true => met >= least,
                    false => met == 0,
                };
                assert!(enough, "{number} of kind {kind}: {counts:?}");
            }
        }
    }
}

#[test]
fn jobs_meet_every_answer_to_an_exchange() {
    let mut answers = Answers::default();
    for job in JOBS.map(job).chain(fixed_jobs()) {
        walk(&job, |record, answer, before, after| {
            let Some(record) = record.filter(|record| before.exchanges(record)) else {
                return;
            };
            answers.count(record, answer);
            assert!(answer == Answer::Done || before == after);
        });
    }
    // the late 1 and an 8 are not among them, and no pair stands that is barred
    answers.check(
        [
            &[0, 5, 10, 11, 12, 13, 14],
            &[0, 5, 6, 10, 11, 12, 13, 14],
            &[0, 5, 6, 10, 11, 12, 13, 14],
            &[0, 5, 6, 10, 11, 13, 14],
            &[0, 5, 13, 14],
        ],
        20,
    );
}

#[test]
fn probes_meet_every_answer_to_an_exchange() {
    let mut answers = Answers::default();
    for mut frame in PROBES.map(frame).chain(fixed_frames()) {
        let Some(book) = decode(&frame.image) else {
            continue;
        };
        let Ok((record, _)) = take(&frame.record) else {
            continue;
        };
        if book.exchanges(&record) {
            let before = frame.image.clone();
            let answer = frame.call().answer;
            answers.count(&record, answer);
            assert!(answer == Answer::Done || frame.image == before);
        }
    }
    answers.check(
        [
            &[0, 5, 10, 11, 12, 13, 14],
            &[0, 1, 5, 6, 10, 11, 12, 13, 14],
            &[0, 1, 5, 6, 10, 11, 12, 13, 14],
            &[0, 1, 5, 6, 10, 11, 13, 14],
            &[0, 5, 10, 11, 12, 13, 14],
        ],
        3,
    );
}

/// The shares of a source at a receiver, or the number of the refused pair.
fn heard(source: &Source, receiver: &Receiver, walls: &[Wall]) -> Result<Shares, u8> {
    shares(source, &emission(source), receiver, walls)
}

/// The book with what a record replaces gone from its slot; none where a source cannot go.
fn without_the_old(book: &Book, record: &Record) -> Option<Book> {
    let mut book = book.clone();
    let slot = record.slot() as usize;
    match record {
        Record::PlaceReceiver(..) => book.accounts[slot] = None,
        Record::PlaceWall(..) => book.walls[slot] = None,
        _ => book.withdraw_source(record.slot()).ok()?,
    }
    Some(book)
}

/// The first pair of a source that is refused.
fn first_barred(book: &Book, source: &Source) -> Option<Refusal> {
    let walls = book.standing_walls();
    let accounts = (0..).zip(&book.accounts);
    let mut pairs = accounts.filter_map(|(slot, account)| Some((slot, (*account)?)));
    pairs.find_map(|(place, account)| {
        let number = heard(source, &account.receiver, &walls).err()?;
        Some(Refusal { number, place })
    })
}

/// Holds an exchange against a placing after the old entry went, or, where a source cannot go, against
/// the pairs of the new one and the late damage.
fn hold_against_two_calls(before: &Book, record: &Record, answer: Answer, after: &Book) {
    let (expected, book) = match without_the_old(before, record) {
        Some(mut book) => (book.apply(record), book),
        None => {
            let source = record.source().expect("only a source cannot go");
            let late = Refusal {
                number: 1,
                place: 0,
            };
            let refusal = first_barred(before, &source).unwrap_or(late);
            (Answer::Refused(refusal), before.clone())
        }
    };
    assert_eq!(answer, expected, "{record:?}");
    let expected = match answer {
        Answer::Done => &book,
        _ => before,
    };
    assert!(after == expected, "{record:?}");
}

#[test]
fn exchanges_in_jobs_are_what_two_calls_are() {
    let mut counts = [0; 16];
    for job in JOBS.map(job).chain(fixed_jobs()) {
        walk(&job, |record, answer, before, after| {
            if let Some(record) = record.filter(|record| before.exchanges(record)) {
                if record.judge().is_ok() {
                    hold_against_two_calls(before, record, answer, after);
                    counts[usize::from(record.kind())] += u64::from(answer == Answer::Done);
                }
            }
        });
    }
    let counts = PLACINGS.map(|kind| counts[usize::from(kind)]);
    assert!(counts.iter().all(|&count| count >= 1000), "{counts:?}");
}

/// The probes that are exchanges of what is allowed: the book, the record and the probe.
fn exchange_probes() -> impl Iterator<Item = (Book, Record, Frame)> {
    let frames = PROBES.map(frame).chain(fixed_frames());
    frames.filter_map(|frame| {
        let (book, (record, _)) = (decode(&frame.image)?, read(&frame.record).ok()?);
        book.exchanges(&record).then_some((book, record, frame))
    })
}

#[test]
fn exchanges_in_stored_states_are_what_two_calls_are() {
    let mut counts = [0; 16];
    for (before, record, mut frame) in exchange_probes() {
        let answer = frame.call().answer;
        let after = decode(&frame.image).unwrap();
        hold_against_two_calls(&before, &record, answer, &after);
        counts[usize::from(record.kind())] += u64::from(answer == Answer::Done);
    }
    let counts = PLACINGS.map(|kind| counts[usize::from(kind)]);
    assert!(counts.iter().all(|&count| count >= 50), "{counts:?}");
}

#[test]
fn an_exchange_of_sources_is_undone_by_another_one() {
    let mut undone = 0;
    for (before, record, mut frame) in exchange_probes() {
        let image = frame.image.clone();
        if record.source().is_some() && frame.call().answer == Answer::Done {
            let old = before.sources[record.slot() as usize].unwrap();
            frame.record = Record::PlaceSource(record.slot(), old).bytes();
            assert_eq!(frame.call().answer, Answer::Done);
            assert_eq!(frame.image, image);
            undone += 1;
        }
    }
    assert!(undone >= 300, "{undone}");
}

/// What stands in a book after a job, as its records and their answers alone tell it.
#[derive(Default)]
struct Latest {
    sources: BTreeMap<i64, Source>,
    receivers: BTreeMap<i64, Receiver>,
    walls: BTreeMap<i64, Wall>,
}

impl Latest {
    fn take(&mut self, record: &Record) {
        match *record {
            Record::PlaceReceiver(slot, receiver) => {
                self.receivers.insert(slot, receiver);
            }
            Record::PlaceWall(slot, wall) => {
                self.walls.insert(slot, wall);
            }
            Record::PlaceSource(..) | Record::PlaceDaily(..) => {
                let source = record.source().unwrap();
                self.sources.insert(record.slot(), source);
            }
            Record::WithdrawReceiver(slot) => {
                self.receivers.remove(&slot);
            }
            Record::WithdrawSource(slot) => {
                self.sources.remove(&slot);
            }
            Record::WithdrawWall(slot) => {
                self.walls.remove(&slot);
            }
            Record::Ask(_) => {}
        }
    }

    fn is_in(&self, book: &Book) -> bool {
        let receiver = |slot: i64| book.accounts[slot as usize].map(|account| account.receiver);
        let slots = |count: usize| 0..count as i64;
        slots(SOURCES).all(|slot| book.sources[slot as usize] == self.sources.get(&slot).copied())
            && slots(RECEIVERS).all(|slot| receiver(slot) == self.receivers.get(&slot).copied())
            && slots(WALLS).all(|slot| book.walls[slot as usize] == self.walls.get(&slot).copied())
    }
}

#[test]
fn the_latest_accepted_entries_stand_and_make_the_sums() {
    let mut compared = [0; 16];
    for job in JOBS.map(job).chain(fixed_jobs()) {
        let (mut latest, mut kinds) = (Latest::default(), [0; 16]);
        let book = walk(&job, |record, answer, before, _| {
            if let (Some(record), Answer::Done) = (record, answer) {
                latest.take(record);
                kinds[usize::from(record.kind())] |= u64::from(before.exchanges(record));
            }
        });
        assert!(latest.is_in(&book));
        assert!(book.given_anew() == book);
        (0..16).for_each(|kind| compared[kind] += kinds[kind]);
    }
    let compared = PLACINGS.map(|kind| compared[usize::from(kind)]);
    assert!(compared.iter().all(|&count| count >= 50), "{compared:?}");
}

/// What a question answers after an exchange of sources: whether it would answer otherwise if the old
/// shares were still there, or if the new ones were not.
fn tells(before: &Book, record: &Record, asked: i64, after: &Book) -> [bool; 2] {
    let account = after.accounts[asked as usize].expect("it is answered");
    let walls = after.standing_walls();
    let old = before.sources[record.slot() as usize].expect("it is exchanged");
    let new = record.source().expect("a source is placed");
    let [old, new] = [old, new].map(|source| heard(&source, &account.receiver, &walls).unwrap());
    let other = |sign: i64, shares: Shares| {
        let sums = [0, 1, 2].map(|period| account.sums[period] + sign * shares[period]);
        indices(&sums) != indices(&account.sums)
    };
    [other(1, old), other(-1, new)]
}

#[test]
fn questions_after_exchanges_tell_what_stands() {
    let mut counts = Counts::default();
    for job in JOBS.map(job) {
        let mut last: Option<(Record, Answer, Book)> = None;
        walk(&job, |record, answer, before, after| {
            let exchange = last.take();
            if let (Some((old, done, stood)), Some(&Record::Ask(asked))) = (exchange, record) {
                let answered = matches!(answer, Answer::Levels(_));
                let kind = old.kind();
                counts.note(format!("{kind} done"), answered && done == Answer::Done);
                let refused = matches!(done, Answer::Refused(_));
                counts.note(format!("{kind} refused"), answered && refused);
                if answered && done == Answer::Done && old.source().is_some() {
                    let [off, on] = tells(&stood, &old, asked, after);
                    counts.note(format!("{kind} tells what went"), off);
                    counts.note(format!("{kind} tells what came"), on);
                }
            }
            if let Some(record) = record.filter(|record| before.exchanges(record)) {
                last = Some((*record, answer, before.clone()));
            }
        });
    }
    let mut wanted = Vec::new();
    for kind in PLACINGS {
        wanted.extend([format!("{kind} done"), format!("{kind} refused")]);
    }
    for kind in [3, 6, 7] {
        wanted.push(format!("{kind} tells what went"));
        wanted.push(format!("{kind} tells what came"));
    }
    counts.check(&wanted, 100);
}

/// How an exchange of sources stands at one receiver.
struct Standing {
    slot: usize,
    goes: Result<Shares, u8>,
    comes: Result<Shares, u8>,
    sums: Shares,
}

impl Standing {
    /// In some period, what is left of the sum without the old share, and what it comes to then.
    fn any(&self, holds: impl Fn(i64, i64, i64) -> bool) -> bool {
        match (self.goes, self.comes) {
            (Ok(off), Ok(on)) => (0..3).any(|period| {
                let left = self.sums[period] - off[period];
                holds(left, left + on[period], self.sums[period] + on[period])
            }),
            _ => false,
        }
    }

    fn is_low(&self) -> bool {
        self.any(|left, _, _| left < 0)
    }

    fn has_no_room(&self) -> bool {
        self.any(|left, sum, _| left >= 0 && sum > TOP)
    }

    /// Whether the old source alone is late damage here.
    fn old_is_damage(&self) -> bool {
        let low = |off: Shares| (0..3).any(|period| self.sums[period] < off[period]);
        self.goes.map_or(true, low)
    }
}

fn standings(book: &Book, record: &Record) -> Vec<Standing> {
    let walls = book.standing_walls();
    let goes = book.sources[record.slot() as usize].expect("it is exchanged");
    let comes = record.source().expect("a source is placed");
    let accounts = book.accounts.iter().enumerate();
    let standing = accounts.filter_map(|(slot, account)| {
        let account = (*account)?;
        Some(Standing {
            slot,
            goes: heard(&goes, &account.receiver, &walls),
            comes: heard(&comes, &account.receiver, &walls),
            sums: account.sums,
        })
    });
    standing.collect()
}

/// Notes what an exchange of sources met, by what is found at each receiver, and what has to be answered
/// then.
fn note_source(counts: &mut Counts, book: &Book, record: &Record, answer: Answer) {
    let found = standings(book, record);
    let number = number_of(answer);
    let barring = found.iter().find(|standing| standing.comes.is_err());
    if let Some(barring) = barring {
        let mut before = found.iter().take_while(|it| it.slot < barring.slot);
        let mut behind = found.iter().skip_while(|it| it.slot <= barring.slot);
        counts.note(
            "barred after late damage",
            before.any(Standing::old_is_damage),
        );
        counts.note(
            "barred before late damage",
            behind.any(Standing::old_is_damage),
        );
        let expected = Refusal {
            number: barring.comes.unwrap_err(),
            place: barring.slot as u16,
        };
        assert_eq!(answer, Answer::Refused(expected));
        return;
    }
    let old_barred = found.iter().find_map(|standing| standing.goes.err());
    if let Some(old_barred) = old_barred {
        counts.note(format!("old barred by {old_barred}"), true);
        assert_eq!(number, 1);
        return;
    }
    let low = found.iter().any(Standing::is_low);
    let full = found.iter().any(Standing::has_no_room);
    assert_eq!(number, usize::from(low || full));
    let any = |holds: fn(i64, i64, i64) -> bool| found.iter().any(|it| it.any(holds));
    counts.note("less than the old share", low && !full);
    counts.note(
        "one less than the old share",
        low && any(|left, _, _| left == -1),
    );
    counts.note(
        "less than the old share, and the new one makes up for it",
        low && any(|left, sum, _| left < 0 && (0..=TOP).contains(&sum)),
    );
    counts.note("no room even so", full && !low);
    counts.note("no room by one", full && any(|_, sum, _| sum == TOP + 1));
    if number == 0 {
        counts.note(
            "just the old share",
            any(|left, sum, _| left == 0 && sum > 0),
        );
        counts.note(
            "just to the top",
            any(|_, sum, both| sum == TOP && both > TOP),
        );
        counts.note("room once the old one is off", any(|_, _, both| both > TOP));
        let same = book.sources[record.slot() as usize] == record.source();
        counts.note("the very same source", same && !found.is_empty());
    }
}

/// Whether some pair is refused with a number under these walls.
fn meets(book: &Book, walls: &[Wall], number: u8) -> bool {
    let accounts = book.accounts.iter().flatten();
    let mut pairs =
        accounts.flat_map(|account| book.sources.iter().flatten().map(move |it| (account, it)));
    pairs.any(|(account, source)| heard(source, &account.receiver, walls) == Err(number))
}

/// Notes what an exchange of walls met.
fn note_wall(counts: &mut Counts, book: &Book, record: &Record, answer: Answer) {
    let Record::PlaceWall(slot, new) = *record else {
        return;
    };
    let standing = (0..).zip(&book.walls);
    let others: Vec<Wall> = standing
        .filter(|&(at, _)| at != slot)
        .filter_map(|(_, wall)| *wall)
        .collect();
    let old = book.walls[slot as usize].expect("it is exchanged");
    let both = [&others[..], &[old, new]].concat();
    let done = answer == Answer::Done;
    counts.note(
        "one too many with the old wall",
        done && meets(book, &both, 14),
    );
    counts.note("too loud without a wall", done && meets(book, &others, 13));
    counts.note("too loud behind the new wall", number_of(answer) == 13);
    counts.note(
        "one too many with another wall",
        number_of(answer) == 14 && !others.is_empty(),
    );
    counts.note("the very same wall", done && old == new);
}

/// Notes what an exchange of receivers met.
fn note_receiver(counts: &mut Counts, book: &Book, record: &Record, done: bool, after: &Book) {
    let Record::PlaceReceiver(slot, new) = *record else {
        return;
    };
    let [old, now] = [book, after].map(|book| book.accounts[slot as usize].unwrap());
    counts.note(
        "the very same receiver",
        done && old == now && now.sums != [0; 3],
    );
    counts.note(
        "a receiver elsewhere",
        done && old.receiver != new && old.sums != now.sums,
    );
    counts.note(
        "a receiver with other sums",
        done && old.receiver == new && old != now,
    );
}

/// What there is to meet in stored states.
const MET_IN_STATES: [&str; 22] = [
    "old barred by 10",
    "old barred by 11",
    "old barred by 12",
    "old barred by 13",
    "old barred by 14",
    "less than the old share",
    "one less than the old share",
    "less than the old share, and the new one makes up for it",
    "just the old share",
    "room once the old one is off",
    "just to the top",
    "no room even so",
    "no room by one",
    "barred after late damage",
    "barred before late damage",
    "the very same source",
    "one too many with the old wall",
    "too loud without a wall",
    "too loud behind the new wall",
    "one too many with another wall",
    "the very same wall",
    "a receiver elsewhere",
];

/// The same of receivers that come to where they stand, with sums that are right or not.
const MET_BY_THE_SAME: [&str; 2] = ["the very same receiver", "a receiver with other sums"];

/// What jobs can meet of walls.
const MET_IN_JOBS: [&str; 5] = [
    "one too many with the old wall",
    "too loud without a wall",
    "too loud behind the new wall",
    "one too many with another wall",
    "the very same wall",
];

fn note_all(frames: impl Iterator<Item = Frame>) -> Counts {
    let mut counts = Counts::default();
    for mut frame in frames {
        let (Some(book), Ok((record, _))) = (decode(&frame.image), read(&frame.record)) else {
            continue;
        };
        if !book.exchanges(&record) {
            continue;
        }
        let before = frame.image.clone();
        let answer = frame.call().answer;
        match record {
            Record::PlaceWall(..) => note_wall(&mut counts, &book, &record, answer),
            Record::PlaceReceiver(..) => {
                let after = decode(&frame.image).unwrap();
                note_receiver(&mut counts, &book, &record, answer == Answer::Done, &after);
            }
            _ => note_source(&mut counts, &book, &record, answer),
        }
        let same =
            record.source().is_some() && book.sources[record.slot() as usize] == record.source();
        assert!(
            !same || frame.image == before,
            "the same source changes nothing"
        );
    }
    counts
}

#[test]
fn probes_meet_all_that_may_be_wrong_with_an_exchange() {
    let counts = note_all(PROBES.map(frame));
    counts.check(&MET_IN_STATES.map(String::from), 8);
    counts.check(&MET_BY_THE_SAME.map(String::from), 3);
}

#[test]
fn fixed_probes_meet_all_that_may_be_wrong_with_an_exchange() {
    let counts = note_all(fixed_frames().into_iter());
    counts.check(&MET_IN_STATES.map(String::from), 1);
    counts.check(&MET_BY_THE_SAME.map(String::from), 1);
}

#[test]
fn jobs_meet_walls_that_are_judged_without_the_old_one() {
    let mut counts = Counts::default();
    for job in JOBS.map(job) {
        walk(&job, |record, answer, before, _| {
            let exchange = record.filter(|record| before.exchanges(record));
            if let Some(record) = exchange.filter(|record| record.judge().is_ok()) {
                note_wall(&mut counts, before, record, answer);
            }
        });
    }
    counts.check(&MET_IN_JOBS.map(String::from), 20);
}
