// Sources by their daily figure: the table worked out by hand, row by row, a record given as bytes,
// every refusal with its place, and the bytes of a call to write one.

use reference::book::{apply_stored, encode, Answer, Book, TOP};
use reference::course::Course;
use reference::daily::Daily;
use reference::fields::{CLASS, DTV, PARALLEL_HEIGHT, PARALLEL_SPACING, SOURCE_SLOT, SURFACE};
use reference::fixed::{example_receiver, example_source};
use reference::record::{read, write, Record};
use reference::road::{Refusal, Source, Traffic};
use reference::writing::Writing;

/// A street with a value of its own in every field.
fn street() -> Source {
    Source {
        course: Course::uncut(102_500, 100_000, 1000),
        several_lanes: 1,
        car_speed: 50,
        truck_speed: 30,
        surface: 2,
        gradient: 131,
        reflection: 1,
        parallel_walls: 2,
        parallel_height: 600,
        parallel_spacing: 1200,
        ..Source::default()
    }
}

/// The street in slot 7, of class 3 and with 1500 vehicles a day.
fn place_street() -> Record {
    Record::PlaceDaily(7, Daily::new(street(), 3, 1500))
}

/// Its bytes.
const STREET: [u8; 20] = [
    0x60, 0x38, 0x0c, 0x83, 0x20, 0x0c, 0x35, 0x00, 0x0f, 0xa2, 0x64, 0x3c, 0x50, 0x66, 0x25, 0x81,
    0x2c, 0x30, 0x17, 0x70,
];

/// M and p by day, in the evening and at night.
type Periods = [(i64, i64); 3];

/// Classes and daily figures, and the traffic that they stand for.
const WORKED: [(i64, i64, Periods); 12] = [
    (0, 1, [(62, 250), (42, 350), (14, 450)]),
    (1, 1, [(62, 200), (42, 200), (11, 200)]),
    (2, 1, [(62, 200), (42, 150), (8, 100)]),
    (3, 1, [(62, 100), (42, 65), (11, 30)]),
    (
        0,
        70_001,
        [(4_340_062, 250), (2_940_042, 350), (980_014, 450)],
    ),
    (1, 12_345, [(765_390, 200), (518_490, 200), (135_795, 200)]),
    (2, 4_321, [(267_902, 200), (181_482, 150), (34_568, 100)]),
    (3, 1_500, [(93_000, 100), (63_000, 65), (16_500, 30)]),
    (
        0,
        160_000,
        [(9_920_000, 250), (6_720_000, 350), (2_240_000, 450)],
    ),
    (
        1,
        160_000,
        [(9_920_000, 200), (6_720_000, 200), (1_760_000, 200)],
    ),
    (
        2,
        160_000,
        [(9_920_000, 200), (6_720_000, 150), (1_280_000, 100)],
    ),
    (
        3,
        160_000,
        [(9_920_000, 100), (6_720_000, 65), (1_760_000, 30)],
    ),
];

fn with_receiver() -> Book {
    let mut book = Book::cleared();
    book.place_receiver(5, &example_receiver()).unwrap();
    book
}

fn refused(number: u8, place: u16) -> Refusal {
    Refusal { number, place }
}

/// The stored state after a record that is taken.
fn stored(mut image: Vec<u8>, record: &Record) -> Vec<u8> {
    assert_eq!(apply_stored(&mut image, &record.bytes()), Answer::Done);
    image
}

#[test]
fn every_row_of_the_table() {
    for (class, dtv, periods) in WORKED {
        let traffic = periods.map(|(vehicles, trucks)| Traffic { vehicles, trucks });
        let told = Record::PlaceSource(
            7,
            Source {
                traffic,
                ..street()
            },
        );
        let by_day = Record::PlaceDaily(7, Daily::new(street(), class, dtv));
        let before = encode(&with_receiver());
        let after = stored(before.clone(), &told);
        assert_eq!(stored(before.clone(), &by_day), after, "{class} {dtv}");
        assert_eq!(stored(after, &Record::WithdrawSource(7)), before);
    }
}

#[test]
fn a_record_given_as_bytes_comes_back() {
    assert_eq!(place_street().bytes(), STREET);
    assert_eq!(read(&STREET), Ok((place_street(), 20)));
    let mut out = [7; 21];
    assert_eq!(write(&place_street(), &mut out), Ok(20));
    assert_eq!((&out[..20], out[20]), (&STREET[..], 7));
    assert_eq!(write(&place_street(), &mut out[..19]), Err(refused(2, 0)));
}

#[test]
fn leftover_bits_and_cuts_are_refused() {
    for leftover in [1, 2, 3] {
        let mut bytes = STREET;
        bytes[19] |= leftover;
        assert_eq!(read(&bytes), Err(refused(4, 0)));
    }
    for length in 0..STREET.len() {
        assert_eq!(read(&STREET[..length]), Err(refused(2, 0)));
    }
}

/// What the writer, the book and, where a record can say it, the reader refuse a record for.
fn judged(record: &Record) -> Option<(u8, u16)> {
    let written = write(record, &mut [0; 20]).err();
    let placed = match with_receiver().apply(record) {
        Answer::Refused(refusal) => Some(refusal),
        _ => None,
    };
    assert_eq!(written, placed);
    let fits = |(value, bits): (i64, u32)| (0..1 << bits).contains(&value);
    let bits = record.fields().iter().map(|field| field.bits);
    if record.values().into_iter().zip(bits).all(fits) {
        assert_eq!(read(&record.bytes()).err(), written);
    }
    written.map(|refusal| (refusal.number, refusal.place))
}

#[test]
fn class_and_figure_are_judged() {
    let class = |value| judged(&place_street().with(&CLASS, value));
    assert_eq!([0, 1, 2, 3].map(class), [None; 4]);
    assert_eq!([-1, 4, 255].map(class), [Some((5, 14)); 3]);
    let figure = |value| judged(&place_street().with(&DTV, value));
    assert_eq!([1, 2, 159_999, 160_000].map(figure), [None; 4]);
    let wrong = [-1, 0, 160_001, (1 << 18) - 1, 1 << 18, (1 << 32) - 1];
    assert_eq!(wrong.map(figure), [Some((5, 15)); 6]);
}

#[test]
fn fields_come_in_their_order_and_before_the_surface_for_faster_roads() {
    let mut record = place_street().with(&SURFACE, 5);
    assert_eq!(judged(&record), Some((6, 0)));
    let wrong = [
        (DTV, 0),
        (CLASS, 4),
        (PARALLEL_SPACING, 0),
        (PARALLEL_HEIGHT, 0),
        (SURFACE, 0),
        (SOURCE_SLOT, 512),
    ];
    for (field, value) in wrong {
        record = record.with(&field, value);
        assert_eq!(judged(&record), Some((5, field.number)));
    }
}

#[test]
fn parallel_walls_are_judged_as_for_any_source() {
    let place = |source| judged(&Record::PlaceDaily(7, Daily::new(source, 3, 1500)));
    let unwalled = Source {
        parallel_walls: 0,
        parallel_height: 0,
        parallel_spacing: 0,
        ..street()
    };
    assert_eq!(place(unwalled), None);
    let high = Source {
        parallel_height: 1,
        ..unwalled
    };
    assert_eq!(place(high), Some((5, 12)));
    let wide = Source {
        parallel_spacing: 1,
        ..unwalled
    };
    assert_eq!(place(wide), Some((5, 13)));
}

/// A road so near and busy that only its length is still allowed.
fn loud_road() -> Source {
    Source {
        course: Course::uncut(100_358, 100_000, 250),
        car_speed: 130,
        truck_speed: 80,
        surface: 4,
        gradient: 120,
        parallel_walls: 1,
        parallel_height: 2000,
        parallel_spacing: 1500,
        ..Source::default()
    }
}

#[test]
fn the_book_refuses_it_as_any_source() {
    let place = |source, dtv| with_receiver().place_daily(0, &Daily::new(source, 0, dtv));
    let near = loud_road().moved(100_357, 100_000);
    let far = loud_road().moved(400_000, 100_000);
    let long = loud_road().uncut(251);
    assert_eq!(place(near, 1), Err(refused(10, 5)));
    assert_eq!(place(far, 1), Err(refused(11, 5)));
    assert_eq!(place(long, 1), Err(refused(12, 5)));
    assert_eq!(place(loud_road(), 160_000), Err(refused(13, 5)));
    assert_eq!(place(loud_road(), 1), Ok(()));
}

#[test]
fn it_is_exchanged_as_any_source() {
    let mut book = with_receiver();
    assert_eq!(book.apply(&place_street()), Answer::Done);
    let street_alone = book.clone();
    let again = Record::PlaceSource(7, example_source());
    assert_eq!(book.apply(&again), Answer::Done);
    let mut example_alone = with_receiver();
    example_alone.place_source(7, &example_source()).unwrap();
    assert_eq!(book, example_alone);
    assert_eq!(book.apply(&place_street()), Answer::Done);
    assert_eq!(book, street_alone);
    // itself by its daily figure, and itself with its traffic told
    assert_eq!(book.apply(&place_street()), Answer::Done);
    let told = place_street().source().unwrap();
    assert_eq!(book.place_source(7, &told), Ok(()));
    assert_eq!(book, street_alone);
    book.withdraw_source(7).unwrap();
    assert_eq!(book, with_receiver());
}

#[test]
fn sums_are_looked_at_as_for_any_source() {
    let mut book = with_receiver();
    book.place_source(7, &example_source()).unwrap();
    book.accounts[5].as_mut().unwrap().sums[2] = TOP;
    let late = Answer::Refused(refused(1, 0));
    let free = place_street().with(&SOURCE_SLOT, 8);
    assert_eq!(book.apply(&free), late);
    // in place of a louder one there is room for it, and then none for the louder one with a unit more
    let [loud, street] = [example_source(), place_street().source().unwrap()].map(|source| {
        let mut book = with_receiver();
        book.place_source(0, &source).unwrap();
        book.accounts[5].unwrap().sums[2]
    });
    assert!(street < loud);
    assert_eq!(book.apply(&place_street()), Answer::Done);
    assert_eq!(book.accounts[5].unwrap().sums[2], TOP - loud + street);
    book.accounts[5].as_mut().unwrap().sums[2] += 1;
    let again = Record::PlaceSource(7, example_source());
    assert_eq!(book.apply(&again), late);
}

#[test]
fn a_call_to_write_has_all_the_bytes_of_the_types() {
    let record = place_street()
        .with(&CLASS, 0xfe)
        .with(&DTV, 0xfedc_ba98)
        .with(&SOURCE_SLOT, 0x1234);
    let mut frame = Vec::new();
    Writing { record, room: 32 }.put(&mut frame);
    let (head, call) = frame.split_at(4);
    assert_eq!((head, call.len()), (&[0, 1, 0, 32][..], 48));
    assert_eq!(call[..3], [6, 0x12, 0x34]);
    let road = [
        0, 1, 0x90, 0x64, 0, 1, 0x86, 0xa0, 0, 0, 3, 0xe8, 1, 50, 30, 2, 131, 1, 2, 2, 0x58, 4,
        0xb0,
    ];
    assert_eq!(call[3..26], road);
    assert_eq!(call[26..31], [0xfe, 0xfe, 0xdc, 0xba, 0x98]);
    assert_eq!(call[31..], [0xff; 17]);
}
