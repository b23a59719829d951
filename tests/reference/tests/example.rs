// The example jobs that are handed out, held against their listings.
// Whoever changes one of the two has to make the other anew.

use reference::book::{Answer, Book};
use reference::course::{pieces, Course};
use reference::limits::uncut_levels;
use reference::listing::list;
use reference::record::{extent, listed_kinds, read, Record};
use std::collections::BTreeSet;
use std::path::Path;

fn example(name: &str) -> Vec<u8> {
    let folder = Path::new(env!("CARGO_MANIFEST_DIR")).join("../../examples");
    std::fs::read(folder.join(name)).unwrap()
}

/// The records of an example job.
fn records(name: &str) -> Vec<Record> {
    let job = example(name);
    let mut rest = job.as_slice();
    let mut records = Vec::new();
    while !rest.is_empty() {
        records.push(read(rest).unwrap().0);
        rest = &rest[extent(rest)..];
    }
    records
}

#[test]
fn the_bypass_has_its_listing() {
    let mut listing = Vec::new();
    let tally = list(&example("bypass.job"), &mut listing);
    assert_eq!(listing, example("bypass.listing"));
    let [on_the_road, second_wall] = [10, 14].map(|number| tally.refusals[number]);
    assert_eq!((on_the_road, second_wall), (1, 1));
    assert_eq!(tally.refusals.iter().sum::<u64>(), 2);
}

#[test]
fn the_bypass_has_records_of_every_kind() {
    let kinds: BTreeSet<u8> = records("bypass.job").iter().map(Record::kind).collect();
    assert_eq!(kinds, BTreeSet::from_iter(listed_kinds()));
}

/// Every answer to a receiver of the bypass, for L_DEN in tenths.
fn answers_to(receiver: i64) -> Vec<i64> {
    let mut book = Book::cleared();
    let mut answers = Vec::new();
    for record in records("bypass.job") {
        if let Answer::Levels(levels) = book.apply(&record) {
            answers.extend(levels.den.filter(|_| record.slot() == receiver));
        }
    }
    answers
}

#[test]
fn the_village_hears_less_behind_the_wall_and_least_behind_the_higher_one() {
    for answers in [3, 4, 5].map(answers_to) {
        let [.., open, low, high, again] = answers[..] else {
            panic!("each is asked before, after and without both: {answers:?}");
        };
        assert!(high < low && low < open && again == open, "{answers:?}");
    }
}

#[test]
fn the_village_hears_less_with_each_road_that_is_repaved() {
    let answers = answers_to(4);
    let [before, one, two, ..] = answers[..] else {
        panic!("it is asked before and after each: {answers:?}");
    };
    assert!(two < one && one < before, "{answers:?}");
}

#[test]
fn the_bypass_is_edited_in_its_slots() {
    let mut book = Book::cleared();
    let (mut edited, mut refused) = (Vec::new(), Vec::new());
    for record in records("bypass.job") {
        let used = book.exchanges(&record);
        let before = book.clone();
        match book.apply(&record) {
            Answer::Done if used => edited.push(record.kind()),
            Answer::Refused(refusal) if used => {
                refused.push((record.kind(), refusal.number));
                assert_eq!(book, before);
            }
            _ => {}
        }
    }
    assert_eq!((edited, refused), (vec![7, 7, 1, 8], vec![(1, 10)]));
}

#[test]
fn every_road_of_the_bypass_is_cut_before_some_receiver_and_whole_before_another() {
    let records = records("bypass.job");
    let receivers: Vec<_> = records
        .iter()
        .filter_map(|record| match record {
            Record::PlaceReceiver(_, receiver) => Some(*receiver),
            _ => None,
        })
        .collect();
    let sources = records.iter().filter_map(|record| record.source());
    let courses = sources.map(|source| source.course);
    let roads: Vec<Course> = courses
        .filter(|course| matches!(course, Course::Between { .. }))
        .collect();
    assert!(roads.len() >= 10);
    for road in roads {
        let counts = receivers.iter().map(|here| pieces(&road, here).len());
        let counts: BTreeSet<usize> = counts.collect();
        assert!(counts.contains(&1) && counts.len() > 1, "{road:?}");
    }
}

#[test]
fn the_valley_is_quiet_then_heard_and_quiet_again() {
    let mut listing = Vec::new();
    let tally = list(&example("valley.job"), &mut listing);
    assert_eq!(listing, example("valley.listing"));
    assert_eq!(tally.refusals.iter().sum::<u64>(), 0);
    let listing = String::from_utf8(listing).unwrap();
    let heard: Vec<bool> = listing
        .lines()
        .map(|line| !line.ends_with("--.- --.-"))
        .collect();
    assert_eq!(heard, [false, true, true, true, false, true], "{listing}");
}

#[test]
fn no_segment_of_the_valley_has_a_level_by_itself() {
    let records = records("valley.job");
    let Record::PlaceReceiver(_, farm) = records[0] else {
        panic!("the farm comes first");
    };
    let sources = records.iter().filter_map(|record| record.source());
    let levels: Vec<i64> = sources
        .flat_map(|source| uncut_levels(&source, &farm))
        .flatten()
        .collect();
    assert_eq!(levels.len(), 3 * 300);
    assert_eq!(levels.iter().max(), Some(&-400));
    assert_eq!(levels.iter().step_by(3).min(), Some(&-1110));
}
