// Far roads, of which each is below zero: figures worked out by hand, and whether the cases that are
// tried meet every share level that matters where one unit of its energy shows.

use reference::book::{decode, indices, Answer, Book};
use reference::course::Course;
use reference::faint::FAINT_LEVELS;
use reference::fixed::{
    example_receiver, far_source, fixed_frames, fixed_jobs, valley_example, verge_example,
    FAR_ROADS,
};
use reference::jobs::job;
use reference::level::{energy, level};
use reference::limits::uncut_levels;
use reference::listing::list;
use reference::record::{extent, read, Record};
use reference::road::{distance_term, ground_term, Receiver, Source};
use reference::stores::frame;
use std::collections::{BTreeMap, BTreeSet};

/// The levels that have to be met by name; all that are drawn are in the table.
const WANTED: [i64; 10] = [-6001, -6000, -1001, -1000, -999, -2, -1, 0, 1, 2];

fn listing_of(job: &[u8]) -> String {
    let mut listing = Vec::new();
    list(job, &mut listing);
    String::from_utf8(listing).unwrap()
}

#[test]
fn the_far_roads_are_as_worked_out() {
    // Q = 120000^2 + 350^2, r = 120000; the weather takes 192 by day, 96 in the evening
    assert_eq!(distance_term(14_400_122_500, 120_000), 5638);
    assert_eq!(ground_term(450, 120_000), 474);
    let nights = [
        0, -1, -2, -999, -1000, -1001, -2000, -2001, -2639, -5302, -6000, -6001,
    ];
    let shares = [
        1_000_000, 997_700, 995_405, 100_230, 100_000, 99_770, 10_000, 9977, 2296, 4, 1, 0,
    ];
    for road in 0..FAR_ROADS.len() {
        let night = nights[road];
        let levels = [night - 192, night - 96, night].map(Some);
        assert_eq!(uncut_levels(&far_source(road), &example_receiver()), levels);
        let mut book = Book::cleared();
        book.place_receiver(5, &example_receiver()).unwrap();
        book.place_source(0, &far_source(road)).unwrap();
        let sums = book.accounts[5].unwrap().sums;
        assert_eq!(sums[2], shares[road], "{night}");
        assert_eq!(sums, [night - 192, night - 96, night].map(energy));
    }
}

#[test]
fn one_far_road_is_quiet_and_300_are_not() {
    // sums of one: 641209 (Z[807] = 6412096), 799834 (Z[903] = 7998343) and 997700
    // of two: levels 108, 204 and 300; of 300: 2284, 2380 and 2476
    assert_eq!(
        listing_of(&valley_example()),
        "3 R05 --.- --.-\n5 R05 9.1 3.0\n304 R05 30.9 24.8\n604 R05 --.- --.-\nEND 604\n"
    );
}

#[test]
fn a_million_is_heard_and_one_unit_less_is_not() {
    // 997700 + 2296 + 4, and then 997700 + 2296 + 4 times 1; day and evening stay quiet
    assert_eq!(
        listing_of(&verge_example()),
        "5 R05 5.2 0.0\n11 R05 --.- --.-\n13 R05 --.- --.-\n15 R05 --.- --.-\n17 R05 --.- --.-\n\
         19 R05 5.2 0.0\nEND 19\n"
    );
}

/// Does a job, and shows every record with the book after it and what it answered.
fn walk(mut job: &[u8], mut look: impl FnMut(&Record, &Book, Answer)) {
    let mut book = Book::cleared();
    while extent(job) > 0 {
        if let Ok((record, _)) = read(job) {
            let answer = book.apply(&record);
            look(&record, &book, answer);
        }
        job = &job[extent(job)..];
    }
}

/// The share level of an uncut source by night.
fn night_level(source: &Source, receiver: &Receiver) -> Option<i64> {
    match source.course {
        Course::Uncut { .. } => uncut_levels(source, receiver)[2],
        Course::Between { .. } => None,
    }
}

/// How often a level stood where one unit less, or one unit more, would have been answered otherwise.
#[derive(Default)]
struct Shown(BTreeMap<i64, [u64; 2]>);

impl Shown {
    /// Looks at the sources before a receiver that is asked, unless there are many.
    fn meet(&mut self, book: &Book, slot: i64) {
        let Some(account) = book.accounts[slot as usize] else {
            return;
        };
        let other = |step: i64| {
            let mut sums = account.sums;
            sums[2] = (sums[2] + step).max(0);
            indices(&sums).night != indices(&account.sums).night
        };
        let decides = [other(-1), other(1)];
        let standing: Vec<&Source> = book.sources.iter().flatten().collect();
        if decides == [false; 2] || standing.len() > 20 || !book.standing_walls().is_empty() {
            return;
        }
        for source in standing {
            if let Some(level) = night_level(source, &account.receiver) {
                let counts = self.0.entry(level).or_default();
                (0..2).for_each(|side| counts[side] += u64::from(decides[side]));
            }
        }
    }

    fn counts(&self, level: i64) -> [u64; 2] {
        self.0.get(&level).copied().unwrap_or_default()
    }
}

#[test]
fn jobs_meet_every_faint_level_where_one_unit_shows() {
    let mut shown = Shown::default();
    for job in (1..=1000).map(job) {
        walk(&job, |record, book, _| {
            if let Record::Ask(slot) = record {
                shown.meet(book, *slot);
            }
        });
    }
    for level in FAINT_LEVELS.into_iter().chain(WANTED) {
        let counts = shown.counts(level);
        assert!(
            counts.iter().all(|&count| count >= 5),
            "{level}: {counts:?}"
        );
    }
}

#[test]
fn fixed_jobs_meet_faint_levels_where_one_unit_shows() {
    let mut shown = Shown::default();
    for job in fixed_jobs() {
        walk(&job, |record, book, _| {
            if let Record::Ask(slot) = record {
                shown.meet(book, *slot);
            }
        });
    }
    for level in [-1, -2639, -6000, -6001] {
        let counts = shown.counts(level);
        assert!(counts.iter().all(|&count| count > 0), "{level}");
    }
    for level in [-1000, -5302] {
        assert!(shown.counts(level)[0] > 0, "{level}");
    }
}

/// The levels of an uncut source, by period, at a receiver without walls.
fn meet_levels(met: &mut BTreeSet<(usize, i64)>, source: &Source, receiver: &Receiver) {
    if let Course::Uncut { .. } = source.course {
        let levels = uncut_levels(source, receiver).into_iter().enumerate();
        met.extend(levels.filter_map(|(period, level)| Some((period, level?))));
    }
}

/// The levels of which the energies go into a sum that is stored, or come off it, by period.
fn stored_levels(frames: impl Iterator<Item = reference::probe::Frame>) -> BTreeSet<(usize, i64)> {
    let mut met = BTreeSet::new();
    for mut frame in frames {
        let (Some(book), Ok((record, _))) = (decode(&frame.image), read(&frame.record)) else {
            continue;
        };
        if frame.call().answer != Answer::Done || !book.standing_walls().is_empty() {
            continue;
        }
        let source = match record {
            Record::WithdrawSource(slot) => book.sources[slot as usize],
            _ => record.source(),
        };
        for account in book.accounts.iter().flatten() {
            let receiver = &account.receiver;
            source
                .iter()
                .for_each(|source| meet_levels(&mut met, source, receiver));
        }
        if let Record::PlaceReceiver(_, receiver) = record {
            let standing = book.sources.iter().flatten();
            standing.for_each(|source| meet_levels(&mut met, source, &receiver));
        }
    }
    met
}

#[test]
fn stored_states_meet_every_faint_level() {
    let met = stored_levels((1..=10_000).map(frame));
    for level in FAINT_LEVELS.into_iter().chain(WANTED) {
        for period in 0..3 {
            assert!(met.contains(&(period, level)), "{level} in period {period}");
        }
    }
    let met = stored_levels(fixed_frames().into_iter());
    for level in WANTED.into_iter().filter(|&level| level <= 0) {
        assert!(met.contains(&(2, level)), "{level}");
    }
}

/// How often a hundred sources or more, none of which is heard alone, came to be heard, and came to
/// be heard no more.
#[derive(Debug, Default)]
struct Together {
    heard: u64,
    quiet_again: u64,
    jobs: u64,
}

/// Whether every source is below zero by night, all in all.
fn all_faint(book: &Book, receiver: &Receiver) -> bool {
    let levels = book.sources.iter().flatten();
    let mut levels = levels.map(|source| night_level(source, receiver));
    levels.all(|level| level < Some(0))
}

impl Together {
    fn meet_job(&mut self, job: &[u8]) {
        let mut before: BTreeMap<i64, bool> = BTreeMap::new();
        let mut found = false;
        walk(job, |record, book, answer| {
            let (Record::Ask(slot), Answer::Levels(levels)) = (record, answer) else {
                return;
            };
            let heard = levels.night.is_some();
            let turned = before
                .insert(*slot, heard)
                .is_some_and(|before| before != heard);
            let account = book.accounts[*slot as usize].unwrap();
            let many = book.sources.iter().flatten().count() >= 100;
            if turned && many && all_faint(book, &account.receiver) {
                assert_eq!(heard, level(account.sums[2]).is_some());
                *if heard {
                    &mut self.heard
                } else {
                    &mut self.quiet_again
                } += 1;
                found = true;
            }
        });
        self.jobs += u64::from(found);
    }
}

#[test]
fn jobs_meet_hundreds_of_far_roads_that_are_heard_together() {
    let mut together = Together::default();
    (1..=1200).for_each(|seed| together.meet_job(&job(seed)));
    let Together {
        heard,
        quiet_again,
        jobs,
    } = together;
    assert!(
        heard >= 10 && quiet_again >= 10 && jobs >= 10,
        "{together:?}"
    );
}
