// Roads between two ends: pieces, shares and answers worked out by hand, a record, a slot and a
// call to write given as bytes, and every refusal with its place.

use reference::book::{apply_stored, decode, encode, Answer, Book, Levels, TOP};
use reference::course::{pieces, Course};
use reference::cuts::MAKERS;
use reference::fields::{
    Field, CAR_SPEED, FIRST_X, FIRST_Y, LANES, PARALLEL_SPACING, SECOND_X, SECOND_Y, SOURCE_SLOT,
    SURFACE,
};
use reference::fixed::{example_receiver, example_source};
use reference::level::{energy, level};
use reference::record::{fields_of, read, write, Record};
use reference::road::{Receiver, Refusal, Source, Traffic, GREATEST_SHARE};
use reference::store::source_at;
use reference::writing::Writing;

/// The road of the worked case, elsewhere.
fn on(course: Course) -> Source {
    Source {
        course,
        ..example_source()
    }
}

/// A road of the worked case from south to north.
fn northward(x: i64, south: i64, north: i64) -> Source {
    on(Course::between(x, south, x, north))
}

/// A road of the worked case from west to east, through the receiver's own y.
fn eastward(west: i64, east: i64) -> Source {
    on(Course::between(west, 100_000, east, 100_000))
}

fn with_receiver() -> Book {
    let mut book = Book::cleared();
    book.place_receiver(5, &example_receiver()).unwrap();
    book
}

fn refused(number: u8, place: u16) -> Refusal {
    Refusal { number, place }
}

fn placed(source: &Source) -> Result<(), Refusal> {
    with_receiver().place_source(0, source)
}

fn reversed(source: &Source) -> Source {
    Source {
        course: source.course.reversed(),
        ..*source
    }
}

/// Lengths and squared distances in space of the pieces before the receiver of the worked case.
fn cut(source: &Source) -> Vec<(i64, i64)> {
    let pieces = pieces(&source.course, &example_receiver());
    let told = pieces.iter().map(|piece| (piece.length, piece.in_space));
    told.collect()
}

/// The sums and the answer at the receiver of the worked case.
fn heard(source: &Source) -> ([i64; 3], Levels) {
    let mut book = with_receiver();
    book.place_source(0, source).unwrap();
    (book.accounts[5].unwrap().sums, book.ask(5).unwrap())
}

fn tenths(den: i64, night: i64) -> Levels {
    Levels {
        den: Some(den),
        night: Some(night),
    }
}

#[test]
fn the_case_at_25_m_between_two_ends() {
    let road = northward(102_500, 99_500, 100_500);
    assert_eq!(cut(&road), [(1000, 6_372_500)]);
    let shares = [6028, 6028, 5028].map(energy);
    assert_eq!(heard(&road), (shares, tenths(616, 503)));
    assert_eq!(heard(&road), heard(&example_source()));
    assert_eq!(heard(&reversed(&road)), heard(&road));
}

#[test]
fn the_case_at_25_m_is_cut_where_it_was_refused_12() {
    // 4 * 1262^2 = 6370576 is at most Q = 6372500
    assert_eq!(cut(&northward(102_500, 99_369, 100_631)).len(), 1);
    // 4 * 1263^2 = 6380676 is above it: cut at y 100000 (100000.5 down). The halves have their
    // middles at y 99684 (99684.5 down) and 100316, both 316 off: Q = 2500^2 + 316^2 + 350^2
    let road = northward(102_500, 99_369, 100_632);
    assert_eq!(cut(&road), [(631, 6_472_356), (632, 6_472_356)]);
    // lv(631) = lv(632) = 2800; Ds = 6811 - 4000 + 12 - 1120 = 1703, ground and weather 0;
    // by day 6730 - 6 + 800 - 1703 = 5821, at night 1000 less
    let shares = [5821, 5821, 4821].map(|level| 2 * energy(level));
    // levels 6122, 6122, 5122; L_DEN is the level of (5 E(6122) + E(6622)) / 6, 6255
    assert_eq!(heard(&road), (shares, tenths(626, 512)));
    assert_eq!(level(shares[2]), Some(5122));
    assert_eq!(heard(&reversed(&road)), heard(&road));
    // as an uncut one it is refused as ever
    assert_eq!(placed(&road.uncut(1263)), Err(refused(12, 5)));
}

#[test]
fn a_road_of_just_half_its_distance_is_not_cut() {
    // 1200^2 + 350^2 = 1250^2, and the half of 1250 is 625
    let road = northward(101_200, 99_688, 100_313);
    assert_eq!(cut(&road), [(625, 1_562_500)]);
    assert_eq!(heard(&road), heard(&road.uncut(625)));
    // one longer: halves of 313 with their middles at y 99843 (99843.5 down) and 100156
    let road = northward(101_200, 99_687, 100_313);
    assert_eq!(cut(&road), [(313, 1_587_149), (313, 1_586_836)]);
}

#[test]
fn a_road_at_10_m_is_cut_into_four() {
    // l 1999, middle at y 100000 (100000.5 down), Q 1122500: cut. South: y 99001 to 100000, l 999,
    // middle 99500, Q 1372500: cut, into l 499 with its middle at 99250 and l 500 at 99750.
    // North: y 100000 to 101000, l 1000, middle 100500: cut, into two of 500 at 100250 and 100750
    let road = northward(101_000, 99_001, 101_000);
    let found = [
        (499, 1_685_000),
        (500, 1_185_000),
        (500, 1_185_000),
        (500, 1_685_000),
    ];
    assert_eq!(cut(&road), found);
    // lv(499) = lv(500) = 2698. Q 1685000: Ds = 6226 - 4000 + 6 - 1120 = 1112, level 6310.
    // Q 1185000: Ds = 6073 - 4000 + 5 - 1120 = 958, level 6464. Ground and weather 0
    let by_day = 2 * energy(6310) + 2 * energy(6464);
    let at_night = 2 * energy(5310) + 2 * energy(5464);
    assert_eq!(heard(&road).0, [by_day, by_day, at_night]);
    let mut found = found.to_vec();
    found.reverse();
    assert_eq!(cut(&reversed(&road)), found);
}

#[test]
fn means_and_lengths_are_taken_down_in_slanting_roads() {
    // from (101001, 99000) to (102000, 100001): dx 999, dy 1001, l 1414 (1414.21); the middle is
    // (101500, 99500), both .5 down: Q = 1500^2 + 500^2 + 350^2 = 2622500, 4 l^2 = 7997584: cut.
    // (101001, 99000) to (101500, 99500): 499, 500, l 706 (706.4), middle (101250, 99250), x .5
    // down: Q = 1250^2 + 750^2 + 350^2 = 2247500 and 4 l^2 = 1993744: not cut.
    // (101500, 99500) to (102000, 100001): 500, 501, l 707 (707.8), middle (101750, 99750), y .5
    // down: Q = 1750^2 + 250^2 + 350^2 = 3247500
    let road = on(Course::between(101_001, 99_000, 102_000, 100_001));
    assert_eq!(cut(&road), [(706, 2_247_500), (707, 3_247_500)]);
    assert_eq!(cut(&reversed(&road)), [(707, 3_247_500), (706, 2_247_500)]);
}

#[test]
fn pieces_of_250_are_not_cut() {
    // at x 100340, the middle is too near (Q = 340^2 + 350^2 = 238100), and so is the only piece
    let road = northward(100_340, 99_875, 100_125);
    assert_eq!(cut(&road), [(250, 238_100)]);
    assert_eq!(placed(&road), Err(refused(10, 5)));
    // one more, and it is cut: at y 100000, with middles at 99937 and 100063, both 63 off
    let road = northward(100_340, 99_875, 100_126);
    assert_eq!(cut(&road), [(125, 242_069), (126, 242_069)]);
    assert_eq!(placed(&road), Err(refused(10, 5)));
    // 251 at a distance at which 4 * 251^2 = 252004 is not above Q is not cut
    let road = northward(100_360, 99_875, 100_126);
    assert_eq!(cut(&road), [(251, 252_100)]);
    assert_eq!(placed(&road), Ok(()));
}

#[test]
fn only_uncut_pieces_can_be_too_near() {
    // 500 long, its own middle at Q 238100; the halves of 250 have theirs 125 off: 253725
    let road = northward(100_340, 99_750, 100_250);
    assert_eq!(cut(&road), [(250, 253_725); 2]);
    assert_eq!(placed(&road), Ok(()));
    assert_eq!(placed(&road.uncut(250)), Err(refused(10, 5)));
    // at x 100335 it is 112225 + 122500 + 15625 = 250350, at 100334 it is 249681
    assert_eq!(placed(&northward(100_335, 99_750, 100_250)), Ok(()));
    let near = northward(100_334, 99_750, 100_250);
    assert_eq!(placed(&near), Err(refused(10, 5)));
}

#[test]
fn a_road_away_from_the_receiver_is_too_near_by_its_first_piece() {
    // 2000 long and halved three times on the near side; the first piece has its middle 125 from
    // the end: 357 away with Q 249949, or 358 away with Q 250664
    let near = eastward(100_232, 102_232);
    assert_eq!(cut(&near)[0], (250, 249_949));
    let far_enough = eastward(100_233, 102_233);
    assert_eq!(cut(&far_enough)[0], (250, 250_664));
    for (road, verdict) in [(near, Err(refused(10, 5))), (far_enough, Ok(()))] {
        assert_eq!(placed(&road), verdict);
        assert_eq!(placed(&reversed(&road)), verdict);
    }
}

#[test]
fn a_road_at_2_km_is_too_far_by_one_of_its_halves() {
    // 1000 m with its middle at 1900 m: 4 l^2 = 40000000000 is above Q = 36100122500, so it is cut,
    // and the far half is at 2150 m
    let road = eastward(240_000, 340_000);
    assert_eq!(
        cut(&road),
        [(50_000, 27_225_122_500), (50_000, 46_225_122_500)]
    );
    for road in [road, reversed(&road)] {
        assert_eq!(placed(&road), Err(refused(11, 5)));
    }
    // 900 m at the same middle: 4 l^2 = 32400000000 is not above Q, so it is heard whole
    let road = eastward(245_000, 335_000);
    assert_eq!(cut(&road), [(90_000, 36_100_122_500)]);
    assert_eq!(placed(&road), Ok(()));
}

/// A road 340 away with two pieces at Q 253725, as loud as its length, surface, gradient and walls
/// can make it, on which something drives in the evening.
fn loud_road(vehicles: i64) -> Source {
    let mut source = Source {
        course: Course::between(100_340, 99_750, 100_340, 100_250),
        car_speed: 130,
        truck_speed: 80,
        surface: 4,
        gradient: 120,
        parallel_walls: 1,
        parallel_height: 2000,
        parallel_spacing: 1500,
        ..Source::default()
    };
    source.traffic[1].vehicles = vehicles;
    source
}

#[test]
fn all_pieces_together_may_bring_10_to_the_15() {
    // LP = 2770 + 7268 - 6000 = 4038, Dv = 308; surface 600, gradient 420, walls 320, length 397,
    // Ds = 5404 - 4000 + 2 - 1120 = 286, ground and weather 0. For a share level of 8699, L25 is
    // 6940 and lv(M) 6210, and Z[210] is 1621810: one vehicle's thousandth less makes it 8698
    let sums = |vehicles| {
        let mut book = with_receiver();
        book.place_source(0, &loud_road(vehicles))?;
        Ok(book.accounts[5].unwrap().sums)
    };
    assert_eq!(sums(1_621_809), Ok([0, 2 * energy(8698), 0]));
    assert!(2 * energy(8698) <= GREATEST_SHARE && 2 * energy(8699) > GREATEST_SHARE);
    assert_eq!(sums(1_621_810), Err(refused(13, 5)));
    // a single one of the pieces is not too loud
    let half = Course::between(100_340, 99_750, 100_340, 100_000);
    let half = Source {
        course: half,
        ..loud_road(1_621_810)
    };
    assert_eq!(cut(&half), [(250, 253_725)]);
    assert_eq!(placed(&half), Ok(()));
}

#[test]
fn too_near_comes_before_too_loud_wherever_it_is() {
    let busy = |course| Source {
        course,
        ..loud_road(10_000_000)
    };
    let loud = busy(eastward(100_233, 102_233).course);
    let loud_and_near = busy(eastward(100_232, 102_232).course);
    for (road, number) in [(loud, 13), (loud_and_near, 10)] {
        assert_eq!(placed(&road), Err(refused(number, 5)));
        assert_eq!(placed(&reversed(&road)), Err(refused(number, 5)));
    }
}

#[test]
fn silent_roads_are_judged_all_the_same() {
    let silent = |road: Source| Source {
        traffic: [Traffic::default(); 3],
        ..road
    };
    let near = silent(eastward(100_232, 102_232));
    assert_eq!(placed(&near), Err(refused(10, 5)));
    let far = silent(eastward(240_000, 340_000));
    assert_eq!(placed(&far), Err(refused(11, 5)));
    let quiet = Levels {
        den: None,
        night: None,
    };
    assert_eq!(heard(&silent(eastward(100_233, 102_233))), ([0; 3], quiet));
    // where nothing drives at night, the other two periods are as they were
    let road = northward(101_000, 99_001, 101_000);
    let mut day_only = road;
    day_only.traffic[2].vehicles = 0;
    let [day, evening, _] = heard(&road).0;
    assert_eq!(heard(&day_only).0, [day, evening, 0]);
}

#[test]
fn lengths_are_judged_by_their_roots() {
    let place = |dx: i64, dy: i64| {
        let course = Course::between(100_000, 100_000, 100_000 + dx, 100_000 - dy);
        let placed = Book::cleared().place_source(0, &on(course));
        placed.err().map(|refusal| (refusal.number, refusal.place))
    };
    let long = Some((5, 4));
    assert_eq!(place(0, 0), long);
    assert_eq!([place(1, 0), place(0, 1), place(1, 1)], [None; 3]);
    assert_eq!([place(100_000, 0), place(0, 100_000)], [None; 2]);
    assert_eq!([place(100_001, 0), place(60_001, 80_001)], [long; 2]);
    // 100000^2 + 447^2 is below 100001^2 = 100000^2 + 200001, 100000^2 + 448^2 is not
    assert_eq!([place(60_000, 80_000), place(100_000, 447)], [None; 2]);
    assert_eq!(place(100_000, 448), long);
}

#[test]
fn the_greatest_coordinates_are_allowed() {
    let corner = 16_777_215;
    for (course, x, y) in [
        (Course::between(0, 0, 0, 1), 1000, 0),
        (Course::between(60_000, 80_000, 0, 0), 0, 20_000),
        (
            Course::between(corner, corner, corner, corner - 100_000),
            corner - 50_000,
            corner,
        ),
        (Course::between(corner - 1, 0, corner, 0), corner, 1000),
    ] {
        let height = 400;
        let mut book = Book::cleared();
        book.place_source(511, &on(course)).unwrap();
        book.place_receiver(63, &Receiver { x, y, height }).unwrap();
        assert!(book.ask(63).unwrap().den.is_some());
        assert_eq!(decode(&encode(&book)), Some(book));
    }
}

/// A street with a value of its own in every field, 1500 long, in slot 7.
fn street() -> Record {
    let traffic = [(93_000, 100), (63_000, 65), (16_500, 30)];
    Record::PlaceSource(
        7,
        Source {
            course: Course::between(102_500, 99_500, 103_400, 100_700),
            several_lanes: 1,
            car_speed: 50,
            truck_speed: 30,
            surface: 2,
            gradient: 131,
            reflection: 1,
            parallel_walls: 2,
            parallel_height: 600,
            parallel_spacing: 1200,
            traffic: traffic.map(|(vehicles, trucks)| Traffic { vehicles, trucks }),
        },
    )
}

/// Its bytes.
const STREET: [u8; 34] = [
    0x70, 0x38, 0x0c, 0x83, 0x20, 0x0c, 0x25, 0x60, 0x0c, 0x9f, 0x40, 0x0c, 0x4a, 0xe4, 0xc8, 0x78,
    0xa0, 0xcc, 0x4b, 0x02, 0x58, 0x00, 0xb5, 0xa4, 0x0c, 0x80, 0x1e, 0xc3, 0x02, 0x08, 0x02, 0x03,
    0xa0, 0x3c,
];

#[test]
fn fields_after_the_ends_are_those_of_any_source() {
    let fields = street().fields();
    let numbers = fields.iter().map(|field| field.number);
    assert!(numbers.eq([1, 2, 3, 2, 3].into_iter().chain(5..=19)));
    assert!(fields[1..5].iter().all(|field| field.bits == 24));
    assert_eq!(fields[5..], fields_of(3).unwrap()[4..]);
}

#[test]
fn a_record_given_as_bytes_comes_back() {
    assert_eq!(street().bytes(), STREET);
    assert_eq!(read(&STREET), Ok((street(), 34)));
    let mut out = [7; 35];
    assert_eq!(write(&street(), &mut out), Ok(34));
    assert_eq!((&out[..34], out[34]), (&STREET[..], 7));
    let unchanged = out;
    assert_eq!(write(&street(), &mut out[..33]), Err(refused(2, 0)));
    assert_eq!(out, unchanged);
}

#[test]
fn the_leftover_bit_and_cuts_are_refused() {
    let mut bytes = STREET;
    bytes[33] |= 1;
    assert_eq!(read(&bytes), Err(refused(4, 0)));
    for length in 0..STREET.len() {
        assert_eq!(read(&STREET[..length]), Err(refused(2, 0)));
    }
}

#[test]
fn a_slot_given_as_bytes_comes_back() {
    let mut image = encode(&Book::cleared());
    assert_eq!(apply_stored(&mut image, &STREET), Answer::Done);
    let slot = [
        1, 1, 0x01, 0x90, 0x64, 0x01, 0x84, 0xac, 0x01, 0x93, 0xe8, 0x01, 0x89, 0x5c, 1, 50, 30, 2,
        131, 1, 2, 0x02, 0x58, 0x04, 0xb0, 0x01, 0x6b, 0x48, 0, 100, 0, 0xf6, 0x18, 0, 65, 0, 0x40,
        0x74, 0, 30,
    ];
    assert_eq!(image[280..320], slot);
    let mut uncut = slot;
    uncut[1] = 0;
    uncut[8..14].copy_from_slice(&[0, 0x05, 0xdc, 0, 0, 0]);
    let Record::PlaceSource(slot, source) = street() else {
        unreachable!("a street is placed");
    };
    let mut book = Book::cleared();
    let as_piece = source.moved(102_500, 99_500).uncut(1500);
    book.place_source(slot, &as_piece).unwrap();
    assert_eq!(encode(&book)[280..320], uncut);
}

#[test]
fn damage_of_a_course_is_seen() {
    let mut book = with_receiver();
    book.place_source(0, &eastward(100_233, 102_233)).unwrap();
    book.place_source(1, &example_source()).unwrap();
    let image = encode(&book);
    let damaged = |slot: usize, at: usize, bytes: &[u8]| {
        let mut image = image.clone();
        let from = source_at(slot) + at;
        image[from..from + bytes.len()].copy_from_slice(bytes);
        decode(&image).is_none()
    };
    for told in [2, 3, 128, 255] {
        assert!(damaged(0, 1, &[told]) && damaged(1, 1, &[told]));
    }
    // two ends taken for a middle and a length, and the other way round: both are too long
    assert!(damaged(0, 1, &[0]) && damaged(1, 1, &[1]));
    // a number more than a middle and a length need
    for at in 11..14 {
        assert!(damaged(1, at, &[1]));
    }
    // ends at one place, ends 1, 100000 and 100001 apart
    let second_x = |x: i64| damaged(0, 8, &x.to_be_bytes()[5..]);
    let far = [0, 1, 100_000, 100_001].map(|length| second_x(100_233 + length));
    assert_eq!(far, [true, false, false, true]);
    // a surface that is not, and one for faster roads
    assert!(damaged(0, 17, &[0]) && damaged(0, 15, &[60, 80, 5]));
    assert!(!damaged(0, 15, &[61, 80, 5]));
}

/// What the writer, the book and, where a record can say it, the reader refuse a record for.
fn judged(record: &Record) -> Option<(u8, u16)> {
    let written = write(record, &mut [0; 34]).err();
    let placed = match Book::cleared().apply(record) {
        Answer::Refused(refusal) => Some(refusal),
        _ => None,
    };
    assert_eq!(written, placed);
    let fits = |(value, bits): (i64, u32)| (0..1 << bits).contains(&value);
    let bits = record.fields().iter().map(|field| field.bits);
    if record.values().into_iter().zip(bits).all(fits) {
        assert_eq!(read(&record.bytes()).err(), written);
    }
    written.map(|refusal| (refusal.number, refusal.place))
}

#[test]
fn ends_off_the_map_are_named_before_the_length() {
    let beyond = 1 << 24;
    for (field, place) in [(FIRST_X, 2), (FIRST_Y, 3), (SECOND_X, 2), (SECOND_Y, 3)] {
        for value in [-1, beyond, beyond + 102_500, (1 << 32) - 1] {
            let record = street().with(&field, value);
            assert_eq!(judged(&record), Some((5, place)), "{} {value}", field.name);
        }
    }
    // in the order of the record: the y of the first end before the x of the second
    let wrong = |fields: [Field; 2]| {
        let [a, b] = fields;
        judged(&street().with(&a, beyond).with(&b, beyond))
    };
    assert_eq!(wrong([FIRST_Y, SECOND_X]), Some((5, 3)));
    assert_eq!(wrong([FIRST_X, FIRST_Y]), Some((5, 2)));
    assert_eq!(wrong([SECOND_X, SECOND_Y]), Some((5, 2)));
}

#[test]
fn fields_come_in_their_order_with_the_length_after_the_ends() {
    let mut record = street().with(&SURFACE, 5);
    assert_eq!(judged(&record), Some((6, 0)));
    let night_trucks = record.fields()[19];
    let wrong = [
        (night_trucks, 1001, 19),
        (PARALLEL_SPACING, 0, 13),
        (SURFACE, 0, 8),
        (CAR_SPEED, 0, 6),
        (LANES, 2, 5),
        (SECOND_X, 300_000, 4),
        (SECOND_Y, 1 << 24, 3),
        (SECOND_X, 1 << 24, 2),
        (FIRST_Y, 1 << 24, 3),
        (FIRST_X, 1 << 24, 2),
        (SOURCE_SLOT, 512, 1),
    ];
    for (field, value, place) in wrong {
        record = record.with(&field, value);
        assert_eq!(judged(&record), Some((5, place)));
    }
}

#[test]
fn a_call_to_write_has_the_last_number_at_its_end() {
    let record = street()
        .with(&FIRST_X, 0x0123_4567)
        .with(&FIRST_Y, 0x89ab_cdef)
        .with(&SECOND_X, 0x1122_3344)
        .with(&SECOND_Y, 0x5566_7788)
        .with(&SOURCE_SLOT, 0x1234);
    let mut frame = Vec::new();
    Writing { record, room: 34 }.put(&mut frame);
    let (head, call) = frame.split_at(4);
    assert_eq!((head, call.len()), (&[0, 1, 0, 34][..], 48));
    assert_eq!(call[..3], [7, 0x12, 0x34]);
    let ends = [
        0x01, 0x23, 0x45, 0x67, 0x89, 0xab, 0xcd, 0xef, 0x11, 0x22, 0x33, 0x44,
    ];
    assert_eq!(call[3..15], ends);
    let road = [
        1, 50, 30, 2, 131, 1, 2, 0x02, 0x58, 0x04, 0xb0, 0, 0x01, 0x6b, 0x48, 0, 100, 0, 0, 0xf6,
        0x18, 0, 65, 0, 0, 0x40, 0x74, 0, 30,
    ];
    assert_eq!(call[15..44], road);
    assert_eq!(call[44..], [0x55, 0x66, 0x77, 0x88]);
    let mut rest = frame.as_slice();
    assert_eq!(Writing::take(&mut rest), Some(Writing { record, room: 34 }));
}

#[test]
fn receivers_that_come_late_hear_the_same_pieces() {
    let roads = [
        northward(101_000, 99_001, 101_000),
        eastward(100_233, 102_233),
        northward(102_500, 99_369, 100_632),
    ];
    let mut early = with_receiver();
    let mut late = Book::cleared();
    for (slot, road) in (0..).zip(&roads) {
        early.place_source(slot, road).unwrap();
        late.place_source(511 - slot, road).unwrap();
    }
    late.place_receiver(5, &example_receiver()).unwrap();
    assert_eq!(early.accounts, late.accounts);
    let on_the_road = Receiver {
        x: 101_000,
        ..example_receiver()
    };
    let taken = late.place_receiver(6, &on_the_road);
    assert_eq!(taken, Err(refused(10, 510)));
    for slot in 0..3 {
        early.withdraw_source(slot).unwrap();
    }
    assert_eq!(early, with_receiver());
}

#[test]
fn sums_that_do_not_hold_all_pieces_are_late_damage() {
    let road = northward(101_000, 99_001, 101_000);
    let shares = heard(&road).0;
    for (period, share) in shares.into_iter().enumerate() {
        let mut book = with_receiver();
        book.place_source(0, &road).unwrap();
        book.accounts[5].as_mut().unwrap().sums[period] -= 1;
        assert_eq!(book.withdraw_source(0), Err(refused(1, 0)));
        let mut book = with_receiver();
        book.accounts[5].as_mut().unwrap().sums[period] = TOP - share + 1;
        assert_eq!(book.place_source(0, &road), Err(refused(1, 0)));
        book.accounts[5].as_mut().unwrap().sums[period] -= 1;
        assert_eq!(book.place_source(0, &road), Ok(()));
    }
}

#[test]
fn a_pair_that_no_history_has_is_late_damage() {
    for road in [eastward(100_232, 102_232), eastward(240_000, 340_000)] {
        let mut book = with_receiver();
        book.accounts[5].as_mut().unwrap().sums = [TOP; 3];
        book.sources[0] = Some(road);
        assert_eq!(book.withdraw_source(0), Err(refused(1, 0)));
    }
}

#[test]
fn pieces_make_up_the_road_from_either_end() {
    let chance = &mut reference::chance::Chance::new(7);
    let mut cut = 0;
    for maker in MAKERS.into_iter().cycle().take(900) {
        let (receiver, source) = maker(chance);
        let found = pieces(&source.course, &receiver);
        let mut reversed = pieces(&source.course.reversed(), &receiver);
        reversed.reverse();
        assert_eq!(found, reversed);
        let total: i64 = found.iter().map(|piece| piece.length).sum();
        let loss = source.course.length() - total;
        assert!((-2..=2 * found.len() as i64).contains(&loss), "{loss}");
        assert!(found
            .iter()
            .all(|piece| piece.length <= 250 || !piece.is_long()));
        assert!(found.len() <= 512);
        cut += u64::from(found.len() > 1);
    }
    assert!(cut >= 400, "{cut}");
}
