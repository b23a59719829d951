// What the cases by chance meet of noise walls: every refusal, every manner in which a wall meets
// the way or misses it, and heights, detours and rays on both sides of every limit.

use reference::book::{decode, Answer, Book};
use reference::course::{pieces, Course, Piece, Point};
use reference::fields::{FARTHEST, WALL_HEIGHT};
use reference::fixed::{fixed_frames, fixed_jobs};
use reference::jobs::job;
use reference::record::{extent, kind_in, read, take, Record};
use reference::road::{
    ground_term, root, Receiver, Refusal, Source, FARTHEST_SQUARE, NEAREST_SQUARE, NUMBERS,
    SOURCE_HEIGHT,
};
use reference::store::{take_wall, wall_at, STORE_SIZE, WALL_SIZE};
use reference::stores::frame;
use reference::wall::{screens, Screen, Wall, LEAST_DETOUR, SHORT_RAY};
use reference::writing::{fixed_writings, writing};
use std::collections::{BTreeMap, BTreeSet};
use std::ops::RangeInclusive;

const SEEDS: RangeInclusive<u64> = 1..=700;

/// The kinds of records that place and withdraw a wall.
const PLACE: u8 = 8;
const WITHDRAW: u8 = 9;

/// Goes through a job as far as it goes, by a step that does each record to the book; the book then.
fn walk(mut job: &[u8], mut step: impl FnMut(&[u8], &mut Book) -> Answer) -> Book {
    let mut book = Book::cleared();
    while !job.is_empty() {
        let answer = step(job, &mut book);
        let stops = matches!(answer, Answer::Refused(Refusal { number: 2 | 3, .. }));
        job = if stops { &[] } else { &job[extent(job)..] };
    }
    book
}

/// Does the record at the front of a job to a book.
fn done(job: &[u8], book: &mut Book) -> Answer {
    match read(job) {
        Ok((record, _)) => book.apply(&record),
        Err(refusal) => Answer::Refused(refusal),
    }
}

/// How often calls on walls were refused with each number; 0 counts those that were done.
#[derive(Default)]
struct Refusals {
    placing: [u64; NUMBERS],
    withdrawing: [u64; NUMBERS],
}

impl Refusals {
    fn count(&mut self, record: &[u8], answer: Answer) {
        let number = match answer {
            Answer::Refused(refusal) => usize::from(refusal.number),
            _ => 0,
        };
        match record.first().map(|&byte| kind_in(byte)) {
            Some(PLACE) => self.placing[number] += 1,
            Some(WITHDRAW) => self.withdrawing[number] += 1,
            _ => {}
        }
    }

    fn check(&self, placing: &[usize], withdrawing: &[usize], least: u64) {
        for (counts, possible) in [(&self.placing, placing), (&self.withdrawing, withdrawing)] {
            for (number, &met) in counts.iter().enumerate() {
                let enough = match possible.contains(&number) {
                    true if number == 2 => 1..=u64::MAX,
                    true => least..=u64::MAX,
                    false => 0..=0,
                };
                assert!(enough.contains(&met), "{number}: {counts:?}");
            }
        }
    }
}

#[test]
fn jobs_meet_every_refusal_of_walls() {
    let mut refusals = Refusals::default();
    for job in SEEDS.map(job).chain(fixed_jobs()) {
        walk(&job, |record, book| {
            let answer = done(record, book);
            refusals.count(record, answer);
            answer
        });
    }
    // in a job no pair stands that is barred, so that a wall more can bring nothing but a 14, one less
    // nothing but a 13, and one in place of another both
    refusals.check(&[0, 2, 4, 5, 13, 14], &[0, 2, 4, 9, 13], 10);
}

#[test]
fn probes_meet_every_refusal_of_walls() {
    let mut refusals = Refusals::default();
    for mut frame in (1..=5000).map(frame).chain(fixed_frames()) {
        let answer = frame.call().answer;
        refusals.count(&frame.record, answer);
    }
    let pair = [10, 11, 12, 13, 14];
    refusals.check(
        &[&[0, 1, 2, 4, 5][..], &pair].concat(),
        &[&[0, 1, 2, 4, 9][..], &pair].concat(),
        3,
    );
}

#[test]
fn probes_meet_barred_pairs_of_more_than_one_receiver() {
    let mut later = 0;
    for mut frame in (1..=5000).map(frame) {
        let Some(book) = decode(&frame.image) else {
            continue;
        };
        let on_wall = [PLACE, WITHDRAW].contains(&frame.record.first().map_or(0, |&b| kind_in(b)));
        if let (true, Answer::Refused(refusal)) = (on_wall, frame.call().answer) {
            let first = book.accounts.iter().position(Option::is_some);
            let of_pair = refusal.number >= 10;
            later += u64::from(of_pair && Some(usize::from(refusal.place)) > first);
        }
    }
    assert!(later >= 20, "{later}");
}

#[test]
fn probes_meet_the_late_damage_of_two_walls() {
    let (mut two, mut one) = (0, 0);
    for mut frame in (1..=5000).map(frame) {
        let Some(book) = decode(&frame.image) else {
            continue;
        };
        let Ok((Record::WithdrawSource(slot), _)) = read(&frame.record) else {
            continue;
        };
        let Some(source) = book.sources[slot as usize] else {
            continue;
        };
        let walls = book.standing_walls();
        let accounts = book.accounts.iter().flatten();
        let most = accounts.map(|account| most_walls(&source, &account.receiver, &walls));
        match (most.max(), frame.call().answer) {
            (Some(2..), Answer::Refused(Refusal { number: 1, .. })) => two += 1,
            (Some(1), Answer::Done) => one += 1,
            _ => {}
        }
    }
    assert!(two >= 5 && one >= 10, "{two} {one}");
}

/// The most walls that count for any piece.
fn most_walls(source: &Source, receiver: &Receiver, walls: &[Wall]) -> usize {
    let pieces = pieces(&source.course, receiver);
    let counts = pieces
        .iter()
        .map(|piece| screens(piece, receiver, walls).count());
    counts.max().unwrap_or(0)
}

/// Twice the area of a triangle, positive if its corners are passed to the left.
fn area(a: Point, b: Point, c: Point) -> i128 {
    let [ax, ay, bx, by, cx, cy] = [a.x, a.y, b.x, b.y, c.x, c.y].map(i128::from);
    (bx - ax) * (cy - ay) - (by - ay) * (cx - ax)
}

/// How a wall lies to a way, told by areas alone.
fn manner(wall: &Wall, from: Point, to: Point) -> &'static str {
    let [first, second] = [wall.first, wall.second].map(|end| area(from, to, end).signum());
    let [start, end] = [from, to].map(|place| area(wall.first, wall.second, place).signum());
    let near = |end: Point| {
        area(from, to, end).abs() <= i128::from((to.x - from.x).abs().max((to.y - from.y).abs()))
    };
    match (first * second, start * end) {
        _ if first == 0 && second == 0 => "along",
        _ if start == 0 && end == 0 => "no way",
        (-1, -1) => "across",
        (0, -1) => "end on the way",
        (-1, 0) if start == 0 => "through the middle",
        (-1, 0) => "through the receiver",
        (0, 0) if start == 0 => "end at the middle",
        (0, 0) => "end at the receiver",
        (-1 | 0, 1) => "across beyond",
        (1, -1) if near(wall.first) || near(wall.second) => "a step beside",
        _ if start == end
            && area(wall.first, wall.second, from) == area(wall.first, wall.second, to) =>
        {
            "abreast"
        }
        _ => "elsewhere",
    }
}

const COUNTING: [&str; 2] = ["across", "end on the way"];

/// What was met of walls, pieces and receivers.
#[derive(Default)]
struct Met {
    manners: BTreeMap<&'static str, u64>,
    edges: BTreeSet<i64>,
    detours: BTreeSet<i64>,
    rays: BTreeSet<i64>,
    counts: BTreeMap<&'static str, u64>,
}

impl Met {
    fn note(&mut self, what: &'static str, met: bool) {
        *self.counts.entry(what).or_default() += u64::from(met);
    }

    fn meet(&mut self, source: &Source, receiver: &Receiver, walls: &[Wall]) {
        let found = pieces(&source.course, receiver);
        let barred =
            |piece: &Piece| piece.in_space < NEAREST_SQUARE || piece.in_space > FARTHEST_SQUARE;
        let crowded = |piece: &Piece| screens(piece, receiver, walls).count() > 1;
        let cut = matches!(source.course, Course::Between { .. });
        let any_barred = found.iter().any(barred);
        if any_barred {
            self.note("near or far, and two walls", found.iter().any(crowded));
            return;
        }
        let silent = source.traffic.iter().all(|period| period.vehicles == 0);
        let two = found.iter().any(crowded);
        self.note("two walls, uncut", two && !cut);
        self.note("two walls, cut", two && cut && found.len() > 1);
        self.note(
            "two walls, not at the first piece",
            two && !crowded(&found[0]),
        );
        self.note("two walls, silent", two && silent);
        self.note(
            "one wall, silent",
            !two && silent && most_walls(source, receiver, walls) == 1,
        );
        let behind = |piece: &&Piece| screens(piece, receiver, walls).count() == 1;
        let screened = found.iter().filter(behind).count();
        let partly = screened > 0 && screened < found.len();
        self.note("one wall before some pieces", !two && partly);
        for piece in &found {
            self.meet_piece(piece, receiver, walls);
        }
    }

    fn meet_piece(&mut self, piece: &Piece, receiver: &Receiver, walls: &[Wall]) {
        let (from, to) = (piece.middle, receiver.place());
        for wall in walls {
            let manner = manner(wall, from, to);
            let counts = COUNTING.contains(&manner);
            assert_eq!(
                wall.crossing(from, to).is_some(),
                counts,
                "{wall:?} {from:?} {to:?}"
            );
            *self.manners.entry(manner).or_default() += 1;
            let ends = [wall.first.x, wall.first.y, wall.second.x, wall.second.y];
            let vast = ends.iter().any(|end| [0, FARTHEST].contains(end));
            self.note("counts, from where the map ends", counts && vast);
        }
        let mut screens = screens(piece, receiver, walls);
        if let (Some(screen), None) = (screens.next(), screens.next()) {
            self.meet_screen(&screen, piece, receiver);
        }
    }

    fn meet_screen(&mut self, screen: &Screen, piece: &Piece, receiver: &Receiver) {
        let far = root(piece.in_space);
        let ground = ground_term(receiver.height + SOURCE_HEIGHT, far);
        let (taken, above) = (screen.taken(), screen.edge - screen.straight());
        self.note("takes more than the ground", taken > ground);
        self.note("takes less than the ground", 0 < taken && taken < ground);
        self.note("takes nothing although above", taken == 0 && above >= 0);
        self.note("below, with a detour", above < 0 && screen.detour() > 0);
        self.note("lowest", screen.edge == 10 * WALL_HEIGHT.least());
        self.note("highest", screen.edge == 10 * WALL_HEIGHT.most());
        self.note("next to the source", screen.a <= 20);
        self.note("next to the receiver", screen.b <= 20);
        self.edges.insert(above);
        self.rays.insert(screen.s);
        if above >= 0 {
            self.detours.insert(screen.detour());
        }
    }

    /// Meets the pairs of a record that is allowed and places something.
    fn meet_record(&mut self, book: &Book, record: &Record) {
        if record.judge().is_err() {
            return;
        }
        let mut walls = book.standing_walls();
        let slot = record.slot() as usize;
        let receivers: Vec<Receiver> = match record {
            Record::PlaceReceiver(_, receiver) => vec![*receiver],
            _ => {
                let standing = book.accounts.iter().flatten();
                standing.map(|account| account.receiver).collect()
            }
        };
        let sources: Vec<Source> = match record {
            Record::PlaceSource(_, source) => vec![*source],
            Record::PlaceWall(_, wall) => {
                let others = (0..).zip(&book.walls).filter(|&(at, _)| at != slot);
                walls = others.filter_map(|(_, other)| *other).collect();
                walls.push(*wall);
                book.sources.iter().flatten().copied().collect()
            }
            Record::PlaceReceiver(..) => book.sources.iter().flatten().copied().collect(),
            _ => return,
        };
        if walls.is_empty() || sources.len() * receivers.len() > 200 {
            return;
        }
        for receiver in &receivers {
            for source in &sources {
                self.meet(source, receiver, &walls);
            }
        }
    }

    fn check(&self, least: u64) {
        for manner in [
            "across",
            "end on the way",
            "a step beside",
            "through the middle",
            "through the receiver",
            "end at the middle",
            "end at the receiver",
            "along",
            "abreast",
            "across beyond",
            "elsewhere",
        ] {
            let met = self.manners.get(manner).copied().unwrap_or(0);
            assert!(met >= least, "{manner}: {:?}", self.manners);
        }
        assert!(
            self.counts.values().all(|&met| met >= least),
            "{:?}",
            self.counts
        );
        let mut within_a_step = [-9..=-1, 0..=0, 1..=9].into_iter();
        assert!(within_a_step.all(|steps| self.edges.range(steps).next().is_some()));
        let detours = LEAST_DETOUR - 2..=LEAST_DETOUR + 2;
        assert!(detours.into_iter().all(|z| self.detours.contains(&z)));
        let rays = SHORT_RAY - 1..=SHORT_RAY + 1;
        assert!(rays.into_iter().all(|s| self.rays.contains(&s)));
    }
}

#[test]
fn jobs_meet_every_manner_in_which_walls_lie_to_a_way() {
    let mut met = Met::default();
    for job in SEEDS.map(job) {
        walk(&job, |record, book| {
            if let Ok((record, _)) = read(record) {
                met.meet_record(book, &record);
            }
            done(record, book)
        });
    }
    met.check(5);
}

#[test]
fn probes_meet_every_manner_in_which_walls_lie_to_a_way() {
    let mut met = Met::default();
    for frame in (1..=8000).map(frame) {
        if let (Some(book), Ok((record, _))) = (decode(&frame.image), read(&frame.record)) {
            met.meet_record(&book, &record);
        }
    }
    met.check(2);
}

/// Whether a wall counts between some source and some receiver of a book.
fn is_screened(book: &Book) -> bool {
    let walls = book.standing_walls();
    let mut accounts = book.accounts.iter().flatten();
    accounts.any(|account| {
        let mut sources = book.sources.iter().flatten();
        sources.any(|source| most_walls(source, &account.receiver, &walls) > 0)
    })
}

#[test]
fn sums_under_walls_are_those_of_a_book_that_had_the_walls_first() {
    let (mut compared, mut screened) = (0, 0);
    for job in SEEDS.map(job) {
        let book = walk(&job, done);
        if !book.standing_walls().is_empty() {
            assert_eq!(book.given_anew(), book);
            compared += 1;
            screened += u64::from(is_screened(&book));
        }
    }
    assert!(compared >= 50 && screened >= 30, "{compared} {screened}");
}

#[test]
fn stored_states_meet_walls_with_both_ends_at_one_place() {
    let drawn: Vec<_> = (1..=4000).map(frame).collect();
    for frames in [fixed_frames(), drawn] {
        let (mut same, mut beside) = (0, 0);
        for frame in frames
            .iter()
            .filter(|frame| frame.image.len() == STORE_SIZE)
        {
            let slots = frame.image[wall_at(0)..].chunks_exact(WALL_SIZE);
            for wall in slots.filter(|slot| slot[0] == 1).map(take_wall) {
                let (dx, dy) = (wall.second.x - wall.first.x, wall.second.y - wall.first.y);
                same += u64::from((dx, dy) == (0, 0));
                beside += u64::from(dx.abs() + dy.abs() == 1);
            }
        }
        assert!(same >= 3, "{same}");
        assert!(beside >= 3 || frames.len() > 4000, "{beside}");
    }
}

#[test]
fn writings_of_walls_meet_every_refusal_of_the_writer() {
    for kind in [PLACE, WITHDRAW] {
        let (mut places, mut numbers) = ([0; 7], [0; NUMBERS]);
        let (mut short_by_one, mut pointed, mut pointed_and_low) = (0, 0, 0);
        for writing in (1..=4000).map(writing).chain(fixed_writings()) {
            let record = writing.record;
            if record.kind() != kind {
                continue;
            }
            let length = record.bytes().len();
            match writing.call().0.answer {
                Answer::Refused(refusal) => {
                    numbers[usize::from(refusal.number)] += 1;
                    places[usize::from(refusal.place)] += 1;
                    short_by_one += u64::from((refusal.number, writing.room) == (2, length - 1));
                }
                _ => numbers[0] += 1,
            }
            if let Record::PlaceWall(_, wall) = record {
                let at_one_place = wall.first == wall.second;
                pointed += u64::from(at_one_place);
                let low = !WALL_HEIGHT.allows(wall.height);
                pointed_and_low += u64::from(at_one_place && low);
            }
        }
        for (number, met) in numbers.into_iter().enumerate() {
            let possible = [0, 2, 5].contains(&number);
            assert_eq!(possible, met >= 10, "refusal {number}: {met}");
        }
        let fields = if kind == PLACE { 6 } else { 1 };
        assert!(places[1..=fields].iter().all(|&met| met >= 5), "{places:?}");
        assert!(places[fields + 1..].iter().all(|&met| met == 0));
        assert!(short_by_one >= 3);
        assert!(kind == WITHDRAW || (pointed >= 20 && pointed_and_low >= 5));
    }
}

#[test]
fn records_of_walls_in_jobs_have_every_field_wrong() {
    let mut places = [0; 7];
    for job in SEEDS.map(job).chain(fixed_jobs()) {
        walk(&job, |record, book| {
            let answer = done(record, book);
            if let (PLACE, Answer::Refused(Refusal { number: 5, place })) =
                (kind_in(record[0]), answer)
            {
                let Ok((Record::PlaceWall(_, wall), _)) = take(record) else {
                    unreachable!("it was read as far as its fields");
                };
                assert_eq!(wall.first == wall.second, place == 4);
                places[usize::from(place)] += 1;
            }
            answer
        });
    }
    assert!(places[4] >= 10 && places[6] >= 10, "{places:?}");
}
