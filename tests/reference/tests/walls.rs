// Noise walls: which of them count and what one takes, worked out by hand; a record, a slot and a
// call to write given as bytes; every refusal with its place; and what calls on walls do to sums.

use reference::book::{apply_stored, decode, encode, Account, Answer, Book, TOP};
use reference::course::{Course, Piece, Point};
use reference::fields::{FIRST_X, FIRST_Y, WALL_HEIGHT, WALL_SECOND_X, WALL_SECOND_Y, WALL_SLOT};
use reference::fixed::{as_loud_as_can_be, example_receiver, example_source, walled_example};
use reference::level::energy;
use reference::listing::list;
use reference::record::{read, write, Record};
use reference::road::{Receiver, Refusal, Source, Traffic};
use reference::store::wall_at;
use reference::wall::{Fraction, Screen, Wall};
use reference::writing::Writing;

/// The source of the worked case, 100 m from its receiver.
fn far_source() -> Source {
    example_source().moved(110_000, 100_000)
}

/// A wall across the way, at an x and of a height.
fn upright(x: i64, height: i64) -> Wall {
    Wall::new(x, 99_000, x, 101_000, height)
}

/// The wall halfway.
fn halfway(height: i64) -> Wall {
    upright(105_000, height)
}

fn refused(number: u8, place: u16) -> Refusal {
    Refusal { number, place }
}

/// A book with the receiver in slot 5 and the source in slot 7.
fn worked() -> Book {
    let mut book = Book::cleared();
    book.place_receiver(5, &example_receiver()).unwrap();
    book.place_source(7, &far_source()).unwrap();
    book
}

fn sums(book: &Book) -> [i64; 3] {
    book.accounts[5].unwrap().sums
}

/// Where a wall counts on the way of the worked case.
fn crossing(wall: Wall) -> Option<Fraction> {
    let from = far_source().course.middle();
    wall.crossing(from, example_receiver().place())
}

/// The figures of a wall at an x and of a height before a source so far to the east.
fn screen(away: i64, x: i64, height: i64) -> Screen {
    let receiver = example_receiver();
    let middle = Point {
        x: receiver.x + away,
        y: receiver.y,
    };
    let piece = Piece::new(middle, 1000, &receiver);
    let wall = upright(x, height);
    let at = wall.crossing(middle, receiver.place()).unwrap();
    Screen::new(&wall, at, &piece, &receiver)
}

#[test]
fn a_wall_of_4_m_halfway_at_100_m() {
    let screen = screen(10_000, 105_000, 400);
    // 100 Q0 = 100000^2; 100 Q = 10012250000 is above 100061^2 = 10012203721
    assert_eq!((screen.s0, screen.s), (100_000, 100_061));
    assert_eq!((screen.a, screen.b), (50_000, 50_000));
    // 500 + 50000 * 3500 / 100000
    assert_eq!(screen.straight(), 2250);
    // 50000^2 * 100061 / (2000000 * 100000) = 1250.7; 1250 * 100061 / 100000 = 1250.7
    assert_eq!(screen.lift(), 1250);
    // A 50122 (up 3500), B 50000; A' 50089 (up 3000), B' 50002 (down 500)
    assert_eq!(screen.detour(), 31);
    // lv(4860) = 3686
    assert_eq!(screen.taken(), 686);
}

#[test]
fn an_edge_at_the_straight_ray_takes_and_one_below_does_not() {
    // A and B 50030 each (1750 up and down): z = 100060 - 100091, lv(1140) = 3056
    let level = screen(10_000, 105_000, 225);
    assert_eq!((level.straight(), level.detour()), (2250, -31));
    assert_eq!(level.taken(), 56);
    // A 50030 (up 1740), B 50030 (down 1760): the detour is the same, and nothing is taken
    let below = screen(10_000, 105_000, 224);
    assert_eq!((below.detour(), below.taken()), (-31, 0));
    // far below, the detour is positive again: A 50002 (down 490), B 50158 (up 3990)
    let low = screen(10_000, 105_000, 1);
    assert_eq!((low.detour(), low.taken()), (69, 0));
}

#[test]
fn long_rays_bend_less() {
    // s0 200000, s 200030 (40012250000 is above its square 40012000900), gamma 8 s = 1600240:
    // 100000^2 * 200030 / (3200480 * 200000) = 3125, times 200030 / 200000 is 3125.4
    let screen_of = |height| screen(20_000, 110_000, height);
    let five = screen_of(500);
    assert_eq!((five.s0, five.s), (200_000, 200_030));
    assert_eq!((five.straight(), five.lift()), (2250, 3125));
    // A' 100118 (up 4875), B' 100009 (up 1375); A 100101, B 100004; lv(1680) = 3225
    assert_eq!((five.detour(), five.taken()), (-22, 225));
    // A 100091 (up 4280), B 100003 (up 780); one lower B is 100002 (up 770)
    let (barely, not) = (screen_of(478), screen_of(477));
    assert_eq!((barely.detour(), barely.taken()), (-33, 8));
    assert_eq!((not.detour(), not.taken()), (-34, 0));
}

#[test]
fn the_longest_short_ray_has_125_m() {
    // 8 * 125000 is 1000000, so that both rules agree there
    let ray = |s: i64| Screen {
        s0: 124_950,
        s,
        a: 62_475,
        b: 62_475,
        edge: 4000,
        ear: 4000,
    };
    // 62475^2 * 125000 / (2000000 * 124950) = 1952.3, times 125000 / 124950 is 1952.7
    assert_eq!(ray(125_000).lift(), 1952);
    // 8 * 125001 = 1000008: 62475^2 * 125001 / (2000016 * 124950) = 1952.3
    assert_eq!(ray(125_001).lift(), 1952);
    // at 250 m the bend is 2000000, and the lift is half as much as with 1000000
    let longer = Screen {
        s0: 250_000,
        s: 250_000,
        a: 125_000,
        b: 125_000,
        ..ray(0)
    };
    assert_eq!(longer.lift(), 3906);
}

#[test]
fn crossings_are_exact() {
    let at = |wall: Wall| crossing(wall).map(|at| (at.part as f64) / (at.whole as f64));
    assert_eq!(at(halfway(1)), Some(0.5));
    assert_eq!(
        at(Wall::new(104_000, 99_000, 106_000, 101_000, 1)),
        Some(0.5)
    );
    // at x 103333.5, so a is 66665
    let slanting = Wall::new(103_333, 99_000, 103_334, 101_000, 400);
    assert_eq!(at(slanting), Some(0.66665));
    let receiver = example_receiver();
    let piece = Piece::new(far_source().course.middle(), 1000, &receiver);
    let screen = Screen::new(&slanting, crossing(slanting).unwrap(), &piece, &receiver);
    assert_eq!((screen.a, screen.b), (66_665, 33_335));
    // the ends in the other order make no difference
    let turned = Wall {
        first: slanting.second,
        second: slanting.first,
        ..slanting
    };
    assert_eq!(crossing(turned), crossing(slanting));
}

#[test]
fn walls_count_that_meet_the_way_in_one_point_between_its_ends() {
    let counts = |x1, y1, x2, y2| crossing(Wall::new(x1, y1, x2, y2, 400)).is_some();
    // with an end on the way, and one step off it
    assert!(counts(105_000, 100_000, 105_000, 101_000));
    assert!(counts(105_000, 99_000, 105_000, 100_000));
    assert!(!counts(105_000, 100_001, 105_000, 101_000));
    assert!(!counts(105_000, 99_000, 105_000, 99_999));
    // one step from the source's middle and from the receiver, and through them
    assert!(counts(109_999, 99_000, 109_999, 101_000));
    assert!(counts(100_001, 99_000, 100_001, 101_000));
    assert!(!counts(110_000, 99_000, 110_000, 101_000));
    assert!(!counts(110_000, 100_000, 110_000, 101_000));
    assert!(!counts(100_000, 99_000, 100_000, 101_000));
    assert!(!counts(99_000, 101_000, 100_000, 100_000));
    assert!(!counts(110_001, 99_000, 110_001, 101_000));
    assert!(!counts(99_999, 99_000, 99_999, 101_000));
    // along the way: within it, over all of it, at its end; and beside it
    assert!(!counts(103_000, 100_000, 107_000, 100_000));
    assert!(!counts(90_000, 100_000, 120_000, 100_000));
    assert!(!counts(107_000, 100_000, 120_000, 100_000));
    assert!(!counts(90_000, 100_001, 120_000, 100_001));
    // nearly along it: meets it at 105000
    assert!(counts(90_000, 99_999, 120_000, 100_001));
    // from end to end of the map
    assert!(counts(105_000, 0, 105_000, 16_777_215));
    assert!(!counts(0, 0, 16_777_215, 16_777_215));
}

#[test]
fn the_larger_of_ground_and_wall_is_taken_off() {
    let mut book = worked();
    let open = [4293, 4348, 3403].map(energy);
    assert_eq!(sums(&book), open);
    // the ground takes 391, the wall of 4 m 686
    book.place_wall(0, &halfway(400)).unwrap();
    assert_eq!(sums(&book), [3998, 4053, 3108].map(energy));
    book.withdraw_wall(0).unwrap();
    assert_eq!(book, worked());
    // at 225 the wall takes 56, at 224 nothing
    for height in [225, 224, 1] {
        book.place_wall(63, &halfway(height)).unwrap();
        assert_eq!(sums(&book), open);
        book.withdraw_wall(63).unwrap();
    }
    // a wall that does not count takes nothing
    book.place_wall(0, &upright(100_000, 2000)).unwrap();
    assert_eq!(sums(&book), open);
}

#[test]
fn walls_count_wherever_they_come_in() {
    let mut walled = worked();
    walled.place_wall(9, &halfway(400)).unwrap();
    let mut first = Book::cleared();
    first.place_wall(9, &halfway(400)).unwrap();
    let mut second = first.clone();
    first.place_receiver(5, &example_receiver()).unwrap();
    first.place_source(7, &far_source()).unwrap();
    second.place_source(7, &far_source()).unwrap();
    second.place_receiver(5, &example_receiver()).unwrap();
    assert_eq!(first, walled);
    assert_eq!(second, walled);
    walled.withdraw_source(7).unwrap();
    assert_eq!(sums(&walled), [0; 3]);
}

/// A wall in slot 5, from (105000, 99000) to (105000, 101000), 400 high.
fn record() -> Record {
    Record::PlaceWall(5, halfway(400))
}

/// Its bytes: kind 1000, slot 000101, four times 24 bits, height 00110010000, three bits left over.
const BYTES: [u8; 15] = [
    0x81, 0x40, 0x66, 0x8a, 0x00, 0x60, 0xae, 0x00, 0x66, 0x8a, 0x00, 0x62, 0xa2, 0x0c, 0x80,
];

#[test]
fn records_given_as_bytes_come_back() {
    assert_eq!(record().bytes(), BYTES);
    assert_eq!(read(&BYTES), Ok((record(), 15)));
    let mut out = [7; 16];
    assert_eq!(write(&record(), &mut out), Ok(15));
    assert_eq!((&out[..15], out[15]), (&BYTES[..], 7));
    assert_eq!(write(&record(), &mut out[..14]), Err(refused(2, 0)));
    assert_eq!(read(&[0x91, 0x40]), Ok((Record::WithdrawWall(5), 2)));
    assert_eq!(Record::WithdrawWall(5).bytes(), [0x91, 0x40]);
}

#[test]
fn leftover_bits_and_cuts_are_refused() {
    for bit in 0..3 {
        let mut bytes = BYTES;
        bytes[14] |= 1 << bit;
        assert_eq!(read(&bytes), Err(refused(4, 0)));
    }
    for bit in 0..6 {
        assert_eq!(read(&[0x91, 0x40 | 1 << bit]), Err(refused(4, 0)));
    }
    for length in 0..BYTES.len() {
        assert_eq!(read(&BYTES[..length]), Err(refused(2, 0)));
    }
    assert_eq!(read(&[0x91]), Err(refused(2, 0)));
}

#[test]
fn a_slot_given_as_bytes_comes_back() {
    let mut image = encode(&Book::cleared());
    assert_eq!(apply_stored(&mut image, &BYTES), Answer::Done);
    let slot = [
        1, 0x01, 0x9a, 0x28, 0x01, 0x82, 0xb8, 0x01, 0x9a, 0x28, 0x01, 0x8a, 0x88, 0x01, 0x90,
    ];
    assert_eq!(image[22_667..22_682], slot);
    assert_eq!(wall_at(5), 22_667);
    let all: u64 = image.iter().map(|&byte| u64::from(byte)).sum();
    let own: u64 = slot.iter().map(|&byte| u64::from(byte)).sum();
    assert_eq!(all, own);
    assert_eq!(apply_stored(&mut image, &[0x91, 0x40]), Answer::Done);
    assert_eq!(image, encode(&Book::cleared()));
}

#[test]
fn damage_of_a_wall_is_seen() {
    let mut book = Book::cleared();
    book.place_wall(63, &halfway(400)).unwrap();
    let image = encode(&book);
    let damaged = |slot: usize, at: usize, bytes: &[u8]| {
        let mut image = image.clone();
        let from = wall_at(slot) + at;
        image[from..from + bytes.len()].copy_from_slice(bytes);
        decode(&image).is_none()
    };
    assert_eq!(decode(&image), Some(book));
    assert!(damaged(63, 0, &[0]) && damaged(63, 0, &[2]) && damaged(0, 0, &[1]));
    assert!((1..15).all(|at| damaged(0, at, &[1]) && damaged(62, at, &[128])));
    // heights 0, 1, 2000, 2001 and 65535
    let heights = [[0, 0], [0, 1], [0x07, 0xd0], [0x07, 0xd1], [255, 255]];
    let found = heights.map(|height| damaged(63, 13, &height));
    assert_eq!(found, [true, false, false, true, true]);
    // the second end at the first, and one step beside it
    assert!(damaged(63, 10, &[0x01, 0x82, 0xb8]));
    assert!(!damaged(63, 10, &[0x01, 0x82, 0xb9]));
    assert!(decode(&image[..image.len() - 1]).is_none());
}

/// What the writer, the book and, where a record can say it, the reader refuse a record for.
fn judged(record: &Record) -> Option<(u8, u16)> {
    let written = write(record, &mut [0; 15]).err();
    let placed = match Book::cleared().apply(record) {
        Answer::Refused(refusal) => Some(refusal),
        _ => None,
    };
    assert_eq!(written, placed);
    let fits = |(value, bits): (i64, u32)| (0..1 << bits).contains(&value);
    let bits = record.fields().iter().map(|field| field.bits);
    if record.values().into_iter().zip(bits).all(fits) {
        assert_eq!(read(&record.bytes()).err(), written);
    }
    written.map(|refusal| (refusal.number, refusal.place))
}

#[test]
fn fields_come_in_their_order_with_equal_ends_before_the_height() {
    let mut record = record();
    assert_eq!(judged(&record), None);
    for height in [1, 2000] {
        assert_eq!(judged(&record.with(&WALL_HEIGHT, height)), None);
    }
    let wrong = [
        (WALL_HEIGHT, 2001, 6),
        (WALL_HEIGHT, 0, 6),
        (WALL_SECOND_Y, 99_000, 4),
        (WALL_SECOND_Y, 1 << 24, 5),
        (WALL_SECOND_X, 1 << 24, 4),
        (FIRST_Y, 1 << 24, 3),
        (FIRST_X, 1 << 24, 2),
        (WALL_SLOT, 64, 1),
    ];
    for (field, value, place) in wrong {
        record = record.with(&field, value);
        assert_eq!(judged(&record), Some((5, place)), "{}", field.name);
    }
    // ends off the map at one place: the first of their fields is named
    let off = Wall::new(1 << 24, 0, 1 << 24, 0, 400);
    assert_eq!(judged(&Record::PlaceWall(0, off)), Some((5, 2)));
    for record in [Record::WithdrawWall(64), Record::WithdrawWall(-1)] {
        assert_eq!(write(&record, &mut [0; 2]), Err(refused(5, 1)));
        assert_eq!(worked().apply(&record), Answer::Refused(refused(5, 1)));
    }
}

#[test]
fn a_call_to_write_has_a_wall_where_a_source_has_its_ends() {
    let record = record()
        .with(&WALL_SLOT, 0x1234)
        .with(&FIRST_X, 0x0123_4567)
        .with(&FIRST_Y, 0x89ab_cdef)
        .with(&WALL_SECOND_X, 0x1122_3344)
        .with(&WALL_SECOND_Y, 0x5566_7788)
        .with(&WALL_HEIGHT, 0x9abc);
    let mut frame = Vec::new();
    Writing { record, room: 15 }.put(&mut frame);
    let (head, call) = frame.split_at(4);
    assert_eq!((head, call.len()), (&[0, 1, 0, 15][..], 48));
    let front = [
        8, 0x12, 0x34, 0x01, 0x23, 0x45, 0x67, 0x89, 0xab, 0xcd, 0xef, 0x11, 0x22, 0x33, 0x44,
    ];
    assert_eq!(call[..15], front);
    assert_eq!(call[22..24], [0x9a, 0xbc]);
    assert_eq!(call[44..], [0x55, 0x66, 0x77, 0x88]);
    let mut rest = frame.as_slice();
    assert_eq!(Writing::take(&mut rest), Some(Writing { record, room: 15 }));
    // what the other bytes say is of no account
    for at in (15..22).chain(24..44) {
        let mut other = frame.clone();
        other[4 + at] = 1;
        let taken = Writing::take(&mut other.as_slice());
        assert_eq!(taken.map(|writing| writing.record), Some(record));
    }
}

#[test]
fn slots_that_are_used_or_not() {
    let mut book = worked();
    assert_eq!(book.withdraw_wall(9), Err(refused(9, 0)));
    book.place_wall(9, &halfway(300)).unwrap();
    let low = book.clone();
    // a higher one in its place, which in another slot would be one too many
    assert_eq!(book.place_wall(8, &halfway(400)), Err(refused(14, 5)));
    assert_eq!(book.place_wall(9, &halfway(400)), Ok(()));
    let mut high = worked();
    high.place_wall(9, &halfway(400)).unwrap();
    assert_eq!(book, high);
    assert!((0..3).all(|period| sums(&high)[period] < sums(&low)[period]));
    // one that is not allowed leaves it
    assert_eq!(book.place_wall(9, &halfway(0)), Err(refused(5, 6)));
    assert_eq!(book, high);
    assert_eq!(book.place_wall(9, &halfway(300)), Ok(()));
    assert_eq!(book, low);
    book.withdraw_wall(9).unwrap();
    assert_eq!(book, worked());
}

#[test]
fn two_walls_are_one_too_many_whoever_comes_last() {
    let [first, second] = [halfway(400), upright(102_000, 1)];
    let mut book = worked();
    book.place_wall(0, &first).unwrap();
    let before = book.clone();
    assert_eq!(book.place_wall(1, &second), Err(refused(14, 5)));
    assert_eq!(book, before);
    let mut walls = Book::cleared();
    walls.place_wall(0, &first).unwrap();
    walls.place_wall(1, &second).unwrap();
    let mut late_source = walls.clone();
    late_source.place_receiver(5, &example_receiver()).unwrap();
    let refusal = late_source.place_source(7, &far_source());
    assert_eq!(refusal, Err(refused(14, 5)));
    let mut late_receiver = walls.clone();
    late_receiver.place_source(7, &far_source()).unwrap();
    let refusal = late_receiver.place_receiver(5, &example_receiver());
    assert_eq!(refusal, Err(refused(14, 7)));
    // the same wall twice, and a silent source
    assert_eq!(book.place_wall(1, &first), Err(refused(14, 5)));
    let silent = Source {
        traffic: [Traffic::default(); 3],
        ..far_source()
    };
    assert_eq!(late_source.place_source(7, &silent), Err(refused(14, 5)));
    // one of them gone, it can come
    late_source.withdraw_wall(1).unwrap();
    late_source.place_source(7, &far_source()).unwrap();
    assert_eq!(sums(&late_source), sums(&book));
}

#[test]
fn fourteen_comes_after_twelve_and_before_thirteen() {
    let mut book = Book::cleared();
    book.place_receiver(5, &example_receiver()).unwrap();
    book.place_wall(0, &upright(100_300, 1)).unwrap();
    book.place_wall(1, &upright(100_301, 1)).unwrap();
    let near = example_source().moved(100_400, 100_000);
    assert_eq!(book.place_source(0, &near.uncut(300)), Err(refused(12, 5)));
    assert_eq!(book.place_source(0, &near.uncut(200)), Err(refused(14, 5)));
    let nearer = near.moved(100_350, 100_000).uncut(300);
    assert_eq!(book.place_source(0, &nearer), Err(refused(10, 5)));
    let far = near.moved(400_000, 100_000);
    assert_eq!(book.place_source(0, &far), Err(refused(11, 5)));
    // the loudest there is: 14 while both walls stand, then 13
    let loud = as_loud_as_can_be(near.uncut(250));
    assert_eq!(book.place_source(0, &loud), Err(refused(14, 5)));
    book.withdraw_wall(1).unwrap();
    assert_eq!(book.place_source(0, &loud), Err(refused(13, 5)));
}

#[test]
fn every_piece_is_judged_by_its_distance_before_walls_are() {
    // a road to the east, cut many times, whose nearest piece is too near: from either end, although
    // two walls are before the others
    let mut book = Book::cleared();
    book.place_receiver(5, &example_receiver()).unwrap();
    book.place_wall(0, &upright(100_500, 300)).unwrap();
    book.place_wall(1, &upright(100_501, 300)).unwrap();
    let road = |west: i64, east: i64| Source {
        course: Course::between(west, 100_000, east, 100_000),
        ..example_source()
    };
    for (west, east, number) in [
        (100_232, 102_232, 10),
        (102_232, 100_232, 10),
        (100_233, 102_233, 14),
        (102_233, 100_233, 14),
    ] {
        let refusal = book.place_source(0, &road(west, east));
        assert_eq!(refusal, Err(refused(number, 5)));
    }
    // with one wall the pieces behind it are screened and those before it are not
    book.withdraw_wall(1).unwrap();
    book.place_source(0, &road(100_233, 102_233)).unwrap();
    let screened = sums(&book);
    book.withdraw_wall(0).unwrap();
    assert!((0..3).all(|period| 0 < screened[period] && screened[period] < sums(&book)[period]));
}

#[test]
fn a_wall_that_a_loud_road_needs_cannot_go() {
    let source = as_loud_as_can_be(example_source().moved(100_600, 100_000).uncut(250));
    let mut book = Book::cleared();
    book.place_receiver(5, &example_receiver()).unwrap();
    assert_eq!(book.place_source(0, &source), Err(refused(13, 5)));
    book.place_wall(8, &upright(100_300, 2000)).unwrap();
    book.place_source(0, &source).unwrap();
    let before = book.clone();
    assert_eq!(book.withdraw_wall(8), Err(refused(13, 5)));
    assert_eq!(book, before);
    book.withdraw_source(0).unwrap();
    assert_eq!(book.withdraw_wall(8), Ok(()));
}

#[test]
fn calls_on_walls_work_every_sum_out_afresh() {
    let mut book = worked();
    let other = Receiver {
        y: 101_000,
        ..example_receiver()
    };
    book.place_receiver(63, &other).unwrap();
    let right = book.clone();
    // sums that no history has, above all shares and below them
    for sums in [[TOP; 3], [0, 1, 2]] {
        for account in book.accounts.iter_mut().flatten() {
            account.sums = sums;
        }
        book.place_wall(0, &upright(100_000, 2000)).unwrap();
        assert_eq!(book.accounts, right.accounts);
        book.accounts[63].as_mut().unwrap().sums = sums;
        book.withdraw_wall(0).unwrap();
        assert_eq!(book, right);
    }
}

#[test]
fn calls_on_walls_name_the_receiver_of_the_first_barred_pair() {
    let at = |x: i64| Account {
        receiver: Receiver {
            x,
            ..example_receiver()
        },
        sums: [0; 3],
    };
    let mut book = Book::cleared();
    book.sources[3] = Some(far_source());
    book.sources[9] = Some(far_source().moved(120_000, 100_000));
    book.walls[2] = Some(upright(50_000, 400));
    // receiver 7 is too near to source 9, receiver 40 to source 3, receiver 50 too far from both
    book.accounts[7] = Some(at(120_001));
    book.accounts[40] = Some(at(110_001));
    book.accounts[50] = Some(at(900_000));
    let far = upright(5_000_000, 100);
    for (slot, number) in [(7, 10), (40, 10), (50, 11)] {
        let before = book.clone();
        assert_eq!(book.place_wall(0, &far), Err(refused(number, slot)));
        assert_eq!(book.withdraw_wall(2), Err(refused(number, slot)));
        assert_eq!(book, before);
        book.accounts[usize::from(slot)] = None;
    }
    assert_eq!(book.withdraw_wall(2), Ok(()));
    // in one pair 12 comes before 14 and 14 before 13
    book.accounts[1] = Some(at(109_400));
    book.walls[0] = Some(upright(109_700, 400));
    book.walls[1] = Some(upright(109_701, 400));
    book.sources[3] = Some(far_source().uncut(400));
    assert_eq!(book.place_wall(5, &far), Err(refused(12, 1)));
    book.sources[3] = Some(as_loud_as_can_be(far_source().uncut(250)));
    assert_eq!(book.place_wall(5, &far), Err(refused(14, 1)));
    // with one of the two gone the other one takes enough, or not
    book.walls[0] = Some(upright(109_700, 1));
    book.walls[1] = Some(upright(109_701, 2000));
    book.sources[9] = None;
    assert_eq!(book.withdraw_wall(1), Err(refused(13, 1)));
    assert_eq!(book.withdraw_wall(0), Ok(()));
}

#[test]
fn a_source_behind_two_walls_is_late_damage_when_withdrawn() {
    let mut book = worked();
    book.accounts[5].as_mut().unwrap().sums = [TOP; 3];
    book.walls[0] = Some(halfway(400));
    book.walls[1] = Some(upright(103_000, 400));
    assert_eq!(book.withdraw_source(7), Err(refused(1, 0)));
    book.walls[1] = None;
    assert_eq!(book.withdraw_source(7), Ok(()));
}

#[test]
fn a_share_is_taken_off_as_the_walls_make_it() {
    // the sum without the wall is enough, the one with it is not for what is taken without it
    let mut book = worked();
    book.place_wall(0, &halfway(400)).unwrap();
    let mut open = book.clone();
    open.walls[0] = None;
    assert_eq!(open.withdraw_source(7), Err(refused(1, 0)));
    assert_eq!(book.withdraw_source(7), Ok(()));
}

#[test]
fn the_worked_case_with_a_wall_has_its_listing() {
    // at 25 m and halfway: s0 25000, s 25243, a and b 12500, hD 2250, lift 78 (156250000 * 25243 /
    // 50000000000 = 78.8); A 12980 (up 3500), B 12500, A' 12632 (up 1828), B' 12611 (down 1672)
    let screen = screen(2500, 101_250, 400);
    assert_eq!((screen.s0, screen.s, screen.a), (25_000, 25_243, 12_500));
    assert_eq!((screen.straight(), screen.lift()), (2250, 78));
    // z = 25480 - 25243, lv(17220) = 4236; the ground takes nothing there
    assert_eq!((screen.detour(), screen.taken()), (237, 1236));
    // shares 4792, 4792, 3792; L_DEN is the level of (5 E(4792) + E(5292)) / 6, 4925
    let mut listing = Vec::new();
    list(&walled_example(), &mut listing);
    let lines = [
        "3 R05 61.6 50.3",
        "4 E09",
        "6 R05 49.3 37.9",
        "7 E14",
        "9 R05 61.6 50.3",
        "10 E09",
        "END 10\n",
    ];
    assert_eq!(String::from_utf8(listing).unwrap(), lines.join("\n"));
}
