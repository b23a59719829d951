// Every figure worked out by hand, the two records given as bytes and the listing given whole.
// Also what the rules say of refusals, on the smallest books that show it.

use reference::book::{clear, decode, encode, Answer, Book, Levels, TOP};
use reference::course::{pieces, Course};
use reference::daily::Daily;
use reference::fields::{Field, GRADIENT, HEIGHT, RECEIVERS, SOURCES, SURFACE};
use reference::fixed::{example, example_receiver, example_source};
use reference::level::{energy, entry, level, lv};
use reference::limits::uncut_levels;
use reference::listing::list;
use reference::record::{length_of, listed_kinds, read, write, Record};
use reference::road::{
    car_level, distance_term, gradient_term, ground_term, parallel_term, root, speed_term,
    traffic_term, truck_excess, truck_level, Receiver, Refusal, Source, Traffic, GREATEST_SHARE,
    LOUDEST,
};
use reference::store::{
    field_at, receiver_at, source_at, source_index, wall_at, RECEIVER_BYTES, RECEIVER_SIZE,
    SOURCE_BYTES, SOURCE_SIZE, STORE_SIZE, SUMS, WALL_SIZE,
};

/// The last slot of a source.
const LAST: i64 = SOURCES as i64 - 1;

fn speeds(car_speed: i64, truck_speed: i64) -> Source {
    Source {
        car_speed,
        truck_speed,
        ..example_source()
    }
}

fn walled(parallel_walls: i64, parallel_height: i64, parallel_spacing: i64) -> Source {
    Source {
        parallel_walls,
        parallel_height,
        parallel_spacing,
        ..example_source()
    }
}

fn at(x: i64, length: i64) -> Source {
    Source {
        course: Course::uncut(x, 100_000, length),
        ..example_source()
    }
}

fn levels_of(source: &Source) -> [Option<i64>; 3] {
    uncut_levels(source, &example_receiver())
}

fn with_receiver() -> Book {
    let mut book = Book::cleared();
    book.place_receiver(5, &example_receiver()).unwrap();
    book
}

fn refused(number: u8, place: u16) -> Result<(), Refusal> {
    Err(Refusal { number, place })
}

#[test]
fn table_entries() {
    let found = [0, 1, 500, 999].map(entry);
    assert_eq!(found, [1_000_000, 1_002_305, 3_162_278, 9_977_001]);
}

#[test]
fn levels_of_whole_numbers() {
    assert_eq!([lv(1), lv(2), lv(1000)], [0, 301, 3000]);
    assert_eq!(level(999_999), None);
}

#[test]
fn levels_of_one_vehicle() {
    assert_eq!(car_level(&speeds(100, 80)), 3724);
    assert_eq!(car_level(&speeds(50, 80)), 3071);
    assert_eq!(truck_level(&speeds(100, 80)), 4688);
    assert_eq!(truck_level(&speeds(100, 100)), 4688);
    assert_eq!(truck_excess(&speeds(130, 30)), 118);
}

#[test]
fn trucks_are_never_quieter_than_cars() {
    for car in 1..=250 {
        for truck in 1..=250 {
            assert!(truck_excess(&speeds(car, truck)) >= 118);
        }
    }
}

#[test]
fn corrections_for_speed() {
    let road = speeds(100, 80);
    let term = |trucks| speed_term(car_level(&road), truck_excess(&road), trucks);
    assert_eq!([term(0), term(200)], [-6, -7]);
}

#[test]
fn levels_of_traffic() {
    let day = |trucks| Traffic {
        vehicles: 1_000_000,
        trucks,
    };
    assert_eq!(traffic_term(day(0), false), Some(6730));
    assert_eq!(traffic_term(day(0), true), Some(6428));
    assert_eq!(traffic_term(day(200), false), Some(7151));
    assert_eq!(traffic_term(Traffic::default(), false), None);
}

#[test]
fn gradients_and_parallel_walls() {
    assert_eq!([50, 51, 120].map(gradient_term), [0, 6, 420]);
    assert_eq!([178, 179, 248].map(gradient_term), [0, 6, 420]);
    assert_eq!(parallel_term(&walled(1, 600, 1200)), 200);
    assert_eq!(parallel_term(&walled(1, 1200, 1200)), 320);
    assert_eq!(parallel_term(&walled(2, 1200, 1200)), 160);
    assert_eq!(parallel_term(&walled(3, 1200, 1200)), 0);
}

#[test]
fn the_case_at_25_m() {
    let source = example_source();
    let square = pieces(&source.course, &example_receiver())[0].in_space;
    assert_eq!(square, 6_372_500);
    assert_eq!(root(square), 2524);
    assert_eq!(distance_term(square, 2524), 1696);
    assert_eq!(ground_term(450, 2524), 0);
    assert_eq!(levels_of(&source), [Some(6028), Some(6028), Some(5028)]);
}

#[test]
fn the_case_at_25_m_once_and_twice() {
    let mut book = with_receiver();
    book.place_source(0, &example_source()).unwrap();
    let once = Levels {
        den: Some(616),
        night: Some(503),
    };
    assert_eq!(book.ask(5), Ok(once));
    book.place_source(1, &example_source()).unwrap();
    let night = book.accounts[5].unwrap().sums[2];
    assert_eq!(night, 2 * energy(5028));
    assert_eq!(level(night), Some(5329));
}

#[test]
fn the_case_at_100_m() {
    let source = at(110_000, 1000);
    let square = pieces(&source.course, &example_receiver())[0].in_space;
    assert_eq!(root(square), 10_006);
    assert_eq!(distance_term(square, 10_006), 2930);
    assert_eq!(ground_term(450, 10_006), 391);
    assert_eq!(levels_of(&source), [Some(4293), Some(4348), Some(3403)]);
}

#[test]
fn longest_and_nearest() {
    let place = |source| with_receiver().place_source(0, &source);
    assert_eq!(place(at(102_500, 1262)), Ok(()));
    assert_eq!(place(at(102_500, 1263)), refused(12, 5));
    assert_eq!(place(at(100_357, 100)), refused(10, 5));
    assert_eq!(place(at(100_358, 100)), Ok(()));
}

#[test]
fn records_given_as_bytes() {
    let place = Record::PlaceReceiver(5, example_receiver());
    let bytes = [0x11, 0x40, 0x61, 0xa8, 0x00, 0x61, 0xa8, 0x32, 0x00];
    assert_eq!(place.bytes(), bytes);
    assert_eq!(read(&bytes), Ok((place, 9)));
    assert_eq!(Record::Ask(5).bytes(), [0x51, 0x40]);
    assert_eq!(read(&[0x51, 0x40]), Ok((Record::Ask(5), 2)));
}

#[test]
fn the_listing_given_whole() {
    let mut listing = Vec::new();
    list(&example(), &mut listing);
    assert_eq!(listing, b"3 R05 61.6 50.3\n4 E09\nEND 4\n");
    listing.clear();
    list(&[], &mut listing);
    assert_eq!(listing, b"END 0\n");
}

#[test]
fn quiet_and_faint_levels_in_the_listing() {
    let mut source = example_source();
    source.traffic = [Traffic::default(); 3];
    let mut job = Record::PlaceReceiver(5, example_receiver()).bytes();
    job.extend(Record::PlaceSource(0, source).bytes());
    job.extend(Record::Ask(5).bytes());
    job.push(0xa0);
    let mut listing = Vec::new();
    list(&job, &mut listing);
    assert_eq!(listing, b"3 R05 --.- --.-\n4 E03\nEND 4\n");
}

#[test]
fn the_reader_says_the_lowest_number() {
    let number = |bytes: &[u8]| read(bytes).map_err(|refusal| (refusal.number, refusal.place));
    assert_eq!(number(&[]), Err((2, 0)));
    assert_eq!(number(&[0x11]), Err((2, 0)));
    assert_eq!(number(&[0xa1]), Err((3, 0)));
    assert_eq!(number(&[0x51, 0x41]), Err((4, 0)));
    let low = Receiver {
        height: HEIGHT.least() - 1,
        ..example_receiver()
    };
    let mut bytes = Record::PlaceReceiver(5, low).bytes();
    assert_eq!(number(&bytes), Err((5, 4)));
    bytes[8] |= 1;
    assert_eq!(number(&bytes), Err((4, 0)));
    let slow = Source {
        surface: 5,
        car_speed: 60,
        ..example_source()
    };
    assert_eq!(number(&Record::PlaceSource(0, slow).bytes()), Err((6, 0)));
}

#[test]
fn the_writer_says_a_short_output_last() {
    let mut out = [7; 12];
    let place = Record::PlaceReceiver(5, example_receiver());
    assert_eq!(write(&place, &mut out), Ok(9));
    assert_eq!(out[8..], [0, 7, 7, 7]);
    let unchanged = out;
    let short = write(&place, &mut out[..8]).unwrap_err();
    assert_eq!((short.number, short.place), (2, 0));
    let nowhere = write(&Record::Ask(RECEIVERS as i64), &mut out[..0]).unwrap_err();
    assert_eq!((nowhere.number, nowhere.place), (5, 1));
    assert_eq!(out, unchanged);
}

/// The limits of a source's fields as they are on paper, but the gradient's: the number, the
/// bits, the least and the greatest value.
const SOURCE_PAPER: [(u16, u32, i64, i64); 18] = [
    (1, 9, 0, 511),
    (2, 24, 0, 16_777_215),
    (3, 24, 0, 16_777_215),
    (4, 17, 1, 100_000),
    (5, 1, 0, 1),
    (6, 8, 1, 250),
    (7, 8, 1, 250),
    (8, 4, 1, 9),
    (10, 3, 0, 4),
    (11, 2, 0, 3),
    (12, 12, 1, 4000),
    (13, 14, 1, 16_383),
    (14, 24, 0, 10_000_000),
    (15, 10, 0, 1000),
    (16, 24, 0, 10_000_000),
    (17, 10, 0, 1000),
    (18, 24, 0, 10_000_000),
    (19, 10, 0, 1000),
];

/// How many of these a source by its daily figure has as well, and those of its own.
const SHARED: usize = 12;
const DAILY_PAPER: [(u16, u32, i64, i64); 2] = [(14, 2, 0, 3), (15, 18, 1, 160_000)];

/// The same of a receiver.
const RECEIVER_PAPER: [(u16, u32, i64, i64); 4] = [
    (1, 6, 0, 63),
    (2, 24, 0, 16_777_215),
    (3, 24, 0, 16_777_215),
    (4, 9, 380, 420),
];

/// Whether a record with one field at a value is refused for this field.
fn named(record: &Record, number: u16, value: i64) -> bool {
    let field = record.fields()[usize::from(number) - 1];
    let mut book = Book::cleared();
    book.apply(&record.with(&field, value)) == Answer::Refused(refused(5, number).unwrap_err())
}

#[test]
fn limits_are_those_on_paper() {
    let source = Record::PlaceSource(0, walled(1, 600, 1200));
    let daily = Record::PlaceDaily(0, Daily::new(walled(1, 600, 1200), 1, 12_000));
    let receiver = Record::PlaceReceiver(0, example_receiver());
    let daily_paper = [&SOURCE_PAPER[..SHARED], &DAILY_PAPER].concat();
    for (record, paper) in [
        (source, &SOURCE_PAPER[..]),
        (daily, &daily_paper),
        (receiver, &RECEIVER_PAPER),
    ] {
        for &(number, bits, least, most) in paper {
            let field = record.fields()[usize::from(number) - 1];
            assert_eq!((field.number, field.bits), (number, bits));
            let refused = [least - 1, least, most, most + 1].map(|v| named(&record, number, v));
            assert_eq!(refused, [true, false, false, true], "{}", field.name);
        }
    }
    for record in [source, daily] {
        let gradient = |value| named(&record, 9, value);
        let refused = [-1, 0, 120, 121, 127, 128, 129, 248, 249].map(gradient);
        let paper = [true, false, false, true, true, true, false, false, true];
        assert_eq!((GRADIENT.bits, refused), (8, paper));
    }
}

#[test]
fn parallel_walls_and_their_sizes_hang_together() {
    let place = |parallel_walls, height, spacing| {
        let outcome = Book::cleared().place_source(0, &walled(parallel_walls, height, spacing));
        outcome.err().map(|refusal| (refusal.number, refusal.place))
    };
    assert_eq!(place(0, 0, 0), None);
    assert_eq!(place(0, 1, 0), Some((5, 12)));
    assert_eq!(place(0, 0, 1), Some((5, 13)));
    for parallel_walls in 1..=3 {
        assert_eq!(place(parallel_walls, 0, 0), Some((5, 12)));
        assert_eq!(place(parallel_walls, 1, 0), Some((5, 13)));
        assert_eq!(place(parallel_walls, 1, 1), None);
    }
}

#[test]
fn slots_stand_before_the_other_fields() {
    let mut book = Book::cleared();
    let low = Receiver::default();
    assert_eq!(book.place_receiver(RECEIVERS as i64, &low), refused(5, 1));
    assert_eq!(book.place_receiver(0, &low), refused(5, 4));
    assert_eq!(book.withdraw_receiver(RECEIVERS as i64), refused(5, 1));
    assert_eq!(book.withdraw_source(SOURCES as i64), refused(5, 1));
    assert_eq!(book.ask(-1).map(|_| ()), refused(5, 1));
}

#[test]
fn sizes_come_out_as_on_paper() {
    let lengths: Vec<_> = listed_kinds().into_iter().map(length_of).collect();
    assert_eq!(lengths, [9, 2, 30, 2, 2, 20, 34, 15, 2].map(Some));
    assert_eq!((SOURCE_SIZE, RECEIVER_SIZE, WALL_SIZE), (40, 33, 15));
    assert_eq!((receiver_at(0), wall_at(0)), (20_480, 22_592));
    assert_eq!(STORE_SIZE, 23_552);
    assert_eq!(TOP, 512 * 10i64.pow(15));
    assert_eq!(energy(LOUDEST), GREATEST_SHARE);
}

#[test]
fn a_source_brings_and_takes_its_share_wherever_it_comes_in() {
    let mut early = with_receiver();
    early.place_source(3, &example_source()).unwrap();
    early.place_source(LAST, &at(110_000, 1000)).unwrap();
    let mut late = Book::cleared();
    late.place_source(LAST, &at(110_000, 1000)).unwrap();
    late.place_source(3, &example_source()).unwrap();
    late.place_receiver(5, &example_receiver()).unwrap();
    assert_eq!(early, late);
    assert_eq!(early.place_source(3, &at(110_000, 1000)), Ok(()));
    let two = [4293, 4348, 3403].map(|level| 2 * energy(level));
    assert_eq!(early.accounts[5].unwrap().sums, two);
    assert_eq!(early.place_source(3, &example_source()), Ok(()));
    assert_eq!(early, late);
    early.withdraw_source(LAST).unwrap();
    early.withdraw_source(3).unwrap();
    assert_eq!(early, with_receiver());
    assert_eq!(early.withdraw_source(3), refused(9, 0));
}

#[test]
fn pairs_are_tried_before_the_late_damage() {
    let mut book = with_receiver();
    book.accounts[5].as_mut().unwrap().sums[1] = TOP - energy(6028) + 1;
    let before = book.clone();
    assert_eq!(book.place_source(0, &example_source()), refused(1, 0));
    let close = Receiver {
        x: 102_500,
        ..example_receiver()
    };
    let last = RECEIVERS as u16 - 1;
    book.place_receiver(last.into(), &close).unwrap();
    assert_eq!(book.place_source(0, &example_source()), refused(10, last));
    book.withdraw_receiver(last.into()).unwrap();
    assert_eq!(book, before);
    book.accounts[5].as_mut().unwrap().sums[1] -= 1;
    assert_eq!(book.place_source(0, &example_source()), Ok(()));
    assert_eq!(book.accounts[5].unwrap().sums[1], TOP);
}

#[test]
fn a_withdrawal_that_no_history_has_is_late_damage() {
    let mut book = with_receiver();
    book.place_source(0, &example_source()).unwrap();
    let sound = book.clone();
    book.accounts[5].as_mut().unwrap().sums[2] -= 1;
    assert_eq!(book.withdraw_source(0), refused(1, 0));
    book = sound.clone();
    book.sources[0] = Some(at(102_500, 1263));
    book.accounts[5].as_mut().unwrap().sums = [TOP; 3];
    assert_eq!(book.withdraw_source(0), refused(1, 0));
    book.withdraw_receiver(5).unwrap();
    assert_eq!(book.withdraw_source(0), Ok(()));
    assert_eq!(book, Book::cleared());
}

#[test]
fn stored_states_come_back_and_damage_is_seen() {
    let mut book = with_receiver();
    book.place_source(LAST, &example_source()).unwrap();
    let image = encode(&book);
    assert_eq!(image.len(), STORE_SIZE);
    assert_eq!(decode(&image), Some(book));
    assert_eq!(decode(&image[1..]), None);
    let damaged = |at: usize, byte: u8| {
        let mut image = image.clone();
        image[at] = byte;
        decode(&image).is_none()
    };
    let last = source_at(LAST as usize);
    let field = |field: &Field| field_at(last, &SOURCE_BYTES, source_index(field));
    let sum = field_at(receiver_at(5), &RECEIVER_BYTES, SUMS);
    assert!(damaged(0, 1) && damaged(0, 2) && damaged(SOURCE_SIZE - 1, 1));
    assert!(damaged(last, 0) && damaged(field(&SURFACE), 0) && damaged(field(&GRADIENT), 128));
    assert!(damaged(receiver_at(5), 2) && damaged(sum, 8));
    assert!(!damaged(sum, 7) && !damaged(last + 2, 9));
}

#[test]
fn clearing_refuses_only_the_wrong_length() {
    let mut image = vec![255; STORE_SIZE];
    assert_eq!(clear(&mut image), Answer::Done);
    assert_eq!(decode(&image), Some(Book::cleared()));
    let damaged = Refusal {
        number: 1,
        place: 0,
    };
    assert_eq!(clear(&mut image[1..]), Answer::Refused(damaged));
}
