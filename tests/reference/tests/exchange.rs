// Exchanges: what is placed into a used slot takes the place of what stands there, in one call. Shares
// and rooms worked out by hand, every refusal with its place, and states that no history has.

use reference::book::{apply_stored, decode, encode, Account, Answer, Book, TOP};
use reference::course::Course;
use reference::daily::Daily;
use reference::fields::{CAR_SPEED, HEIGHT, SURFACE, WALL_HEIGHT};
use reference::fixed::{as_loud_as_can_be, example_receiver, example_source, HALFWAY_WALL};
use reference::fixed_exchanges::exchange_example;
use reference::level::energy;
use reference::listing::list;
use reference::record::Record;
use reference::road::{Receiver, Refusal, Source};
use reference::wall::Wall;

/// The share levels of the source of the worked case, and of the same at 100 m.
const AT_25_M: [i64; 3] = [6028, 6028, 5028];
const AT_100_M: [i64; 3] = [4293, 4348, 3403];

fn far_source() -> Source {
    example_source().moved(110_000, 100_000)
}

/// The source of the worked case between two ends.
fn between() -> Source {
    Source {
        course: Course::between(102_500, 99_500, 102_500, 100_500),
        ..example_source()
    }
}

/// The same source as loud as there is, 6 m from the receiver.
fn loud_source() -> Source {
    Source {
        course: Course::uncut(100_600, 100_000, 250),
        ..as_loud_as_can_be(example_source())
    }
}

/// A wall across the way, at an x and of a height.
fn upright(x: i64, height: i64) -> Wall {
    Wall::new(x, 99_000, x, 101_000, height)
}

/// The receiver of the worked case so far to the east.
fn receiver(away: i64) -> Receiver {
    Receiver {
        x: 100_000 + away,
        ..example_receiver()
    }
}

fn with_receiver() -> Book {
    let mut book = Book::cleared();
    book.place_receiver(5, &example_receiver()).unwrap();
    book
}

/// A book with the receiver in slot 5 and a source in slot 7.
fn with_source(source: &Source) -> Book {
    let mut book = with_receiver();
    book.place_source(7, source).unwrap();
    book
}

fn refused(number: u8, place: u16) -> Result<(), Refusal> {
    Err(Refusal { number, place })
}

fn sums(book: &Book) -> [i64; 3] {
    book.accounts[5].unwrap().sums
}

/// The same book with one sum of the receiver in slot 5 so much.
fn with_sum(book: &Book, period: usize, sum: i64) -> Book {
    let mut book = book.clone();
    book.accounts[5].as_mut().unwrap().sums[period] = sum;
    book
}

/// What a record is answered that a book refuses, which stays as it is, as does every byte of its
/// stored state.
fn refusal_of(book: &Book, record: &Record) -> Result<(), Refusal> {
    let mut image = encode(book);
    let Answer::Refused(refusal) = apply_stored(&mut image, &record.bytes()) else {
        return Ok(());
    };
    assert_eq!(image, encode(book));
    let mut same = book.clone();
    assert_eq!(same.apply(record), Answer::Refused(refusal));
    assert_eq!(&same, book);
    Err(refusal)
}

/// The book after a record that a stored state takes.
fn after(book: &Book, record: &Record) -> Book {
    let mut image = encode(book);
    let answer = apply_stored(&mut image, &record.bytes());
    assert_eq!(answer, Answer::Done, "{record:?}");
    decode(&image).unwrap()
}

#[test]
fn old_shares_come_off_and_new_ones_are_put_on() {
    let old = with_source(&example_source());
    assert_eq!(sums(&old), AT_25_M.map(energy));
    let new = after(&old, &Record::PlaceSource(7, far_source()));
    assert_eq!(sums(&new), AT_100_M.map(energy));
    assert_eq!(new, with_source(&far_source()));
    assert_eq!(after(&new, &Record::PlaceSource(7, example_source())), old);
    // between two ends, at the same place, it brings the same
    let cut = after(&new, &Record::PlaceSource(7, between()));
    assert_eq!(sums(&cut), AT_25_M.map(energy));
    assert_eq!(cut.sources[7], Some(between()));
    // by a daily figure it is the source with that traffic
    let daily = Daily::new(far_source(), 1, 12_000);
    let by_day = after(&cut, &Record::PlaceDaily(7, daily));
    assert_eq!(by_day, with_source(&daily.source()));
    assert_eq!(after(&by_day, &Record::WithdrawSource(7)), with_receiver());
}

#[test]
fn other_entries_stay_as_they_are() {
    let mut book = with_source(&example_source());
    book.place_source(0, &far_source()).unwrap();
    book.place_receiver(63, &receiver(-1000)).unwrap();
    let before = book.clone();
    book.place_source(7, &far_source()).unwrap();
    assert_eq!(sums(&book), AT_100_M.map(|level| 2 * energy(level)));
    book.place_source(0, &example_source()).unwrap();
    let both = [0, 1, 2].map(|period| energy(AT_25_M[period]) + energy(AT_100_M[period]));
    assert_eq!((sums(&book), sums(&before)), (both, both));
    assert_eq!(book.accounts, before.accounts);
    assert_eq!(book.sources[0], before.sources[7]);
    assert_eq!(book.sources[7], before.sources[0]);
}

#[test]
fn the_very_same_entry_changes_no_byte() {
    let mut book = with_source(&example_source());
    book.place_source(0, &between()).unwrap();
    book.place_wall(9, &HALFWAY_WALL).unwrap();
    for record in [
        Record::PlaceSource(7, example_source()),
        Record::PlaceSource(0, between()),
        Record::PlaceReceiver(5, example_receiver()),
        Record::PlaceWall(9, HALFWAY_WALL),
    ] {
        assert_eq!(encode(&after(&book, &record)), encode(&book));
    }
}

#[test]
fn a_refused_source_leaves_the_old_one() {
    let mut book = with_source(&example_source());
    book.place_wall(0, &upright(100_300, 2000)).unwrap();
    book.place_wall(1, &Wall::new(99_000, 100_300, 101_000, 100_300, 300))
        .unwrap();
    book.place_wall(2, &Wall::new(99_000, 100_301, 101_000, 100_301, 300))
        .unwrap();
    let place = |source| Record::PlaceSource(7, source);
    let north = example_source().moved(100_000, 102_500);
    let loud = loud_source().moved(99_400, 100_000);
    for (record, number, slot) in [
        (place(example_source()).with(&SURFACE, 10), 5, 8),
        (
            place(example_source())
                .with(&SURFACE, 5)
                .with(&CAR_SPEED, 60),
            6,
            0,
        ),
        (place(example_source().moved(100_357, 100_000)), 10, 5),
        (place(example_source().moved(400_000, 100_000)), 11, 5),
        (place(example_source().uncut(1263)), 12, 5),
        (place(loud), 13, 5),
        (place(north), 14, 5),
        (Record::PlaceDaily(7, Daily::new(north, 1, 1000)), 14, 5),
        (Record::PlaceDaily(7, Daily::new(loud, 0, 160_000)), 13, 5),
    ] {
        assert_eq!(refusal_of(&book, &record), refused(number, slot));
    }
    let on_the_road = Source {
        course: Course::between(100_100, 99_000, 100_100, 101_000),
        ..example_source()
    };
    assert_eq!(refusal_of(&book, &place(on_the_road)), refused(10, 5));
}

#[test]
fn a_refused_receiver_leaves_the_old_one() {
    let mut book = with_source(&example_source());
    book.place_source(3, &example_source().moved(100_000, 110_000))
        .unwrap();
    let place = |receiver| Record::PlaceReceiver(5, receiver);
    let high = place(example_receiver()).with(&HEIGHT, 421);
    assert_eq!(refusal_of(&book, &high), refused(5, 4));
    assert_eq!(refusal_of(&book, &place(receiver(2400))), refused(10, 7));
    let far = refusal_of(&book, &place(receiver(400_000)));
    assert_eq!(far, refused(11, 3));
    assert_eq!(refusal_of(&book, &place(receiver(600))), refused(12, 7));
    // it has no walls before it where it stands, but two where it is to come
    book.place_wall(0, &upright(99_500, 300)).unwrap();
    book.place_wall(1, &upright(99_501, 300)).unwrap();
    let crowded = refusal_of(&book, &place(receiver(-1000)));
    assert_eq!(crowded, refused(14, 7));
    // and it would hear the loudest source at 6 m
    book.place_source(7, &loud_source().moved(110_000, 100_000))
        .unwrap();
    assert_eq!(refusal_of(&book, &place(receiver(9400))), refused(13, 7));
}

#[test]
fn a_receiver_in_its_own_slot_hears_what_there_is_at_its_new_place() {
    let mut book = with_source(&far_source());
    let before = book.clone();
    book.place_receiver(5, &receiver(7500)).unwrap();
    assert_eq!(sums(&book), AT_25_M.map(energy));
    assert_eq!(book.accounts[5].unwrap().receiver, receiver(7500));
    book.place_receiver(5, &receiver(0)).unwrap();
    assert_eq!(book, before);
    // what its sums were does not count
    for sum in [0, TOP] {
        let mut book = before.clone();
        book.accounts[5].as_mut().unwrap().sums = [sum; 3];
        assert_eq!(book.place_receiver(5, &receiver(0)), Ok(()));
        assert_eq!(book, before);
    }
}

#[test]
fn there_is_room_once_the_old_share_is_off() {
    // in place of a louder one there is room under the greatest sum
    let [loud, quiet] = [AT_25_M, AT_100_M].map(|levels| levels.map(energy));
    let full = with_sum(&with_source(&example_source()), 1, TOP);
    let book = after(&full, &Record::PlaceSource(7, far_source()));
    assert_eq!(sums(&book), [quiet[0], TOP - loud[1] + quiet[1], quiet[2]]);
    // in place of itself as well
    let same = after(&full, &Record::PlaceSource(7, example_source()));
    assert_eq!(same, full);
    // in a free slot there is none
    let free = Record::PlaceSource(8, far_source());
    assert_eq!(refusal_of(&full, &free), refused(1, 0));
    // in place of a quieter one there is just enough, and one unit less is not
    let place = Record::PlaceSource(7, example_source());
    for period in 0..3 {
        let most = TOP - loud[period] + quiet[period];
        let book = with_sum(&with_source(&far_source()), period, most);
        assert_eq!(sums(&after(&book, &place))[period], TOP);
        let book = with_sum(&book, period, most + 1);
        assert_eq!(refusal_of(&book, &place), refused(1, 0));
    }
}

#[test]
fn a_sum_below_the_old_share_is_late_damage() {
    let sound = with_source(&example_source());
    for (period, share) in AT_25_M.map(energy).into_iter().enumerate() {
        for place in [far_source(), example_source(), between()] {
            let place = Record::PlaceSource(7, place);
            let short = with_sum(&sound, period, share - 1);
            assert_eq!(refusal_of(&short, &place), refused(1, 0));
            // just enough is enough
            after(&with_sum(&sound, period, share), &place);
        }
    }
    // also where what comes brings more than what is missing, and another receiver holds enough
    let mut book = with_source(&far_source());
    book.place_receiver(6, &receiver(-1000)).unwrap();
    let short = with_sum(&book, 0, 0);
    let place = Record::PlaceSource(7, example_source());
    assert_eq!(refusal_of(&short, &place), refused(1, 0));
}

#[test]
fn an_old_source_that_is_barred_is_late_damage() {
    let place = Record::PlaceSource(7, far_source());
    let mut sound = with_receiver();
    sound.accounts[5].as_mut().unwrap().sums = [TOP / 2; 3];
    for old in [
        example_source().moved(100_357, 100_000),
        example_source().moved(400_000, 100_000),
        example_source().uncut(1263),
        loud_source(),
        Source {
            course: Course::between(100_100, 99_000, 100_100, 101_000),
            ..example_source()
        },
    ] {
        let mut book = sound.clone();
        book.sources[7] = Some(old);
        assert_eq!(refusal_of(&book, &place), refused(1, 0));
        // the very same is barred as what comes, which is said first
        let again = refusal_of(&book, &Record::PlaceSource(7, old)).unwrap_err();
        assert!((10..=14).contains(&again.number) && again.place == 5);
        // at no receiver it is barred by none
        book.accounts[5] = None;
        assert_eq!(after(&book, &place).sources[7], Some(far_source()));
    }
    // two walls before what goes, none before what comes
    let mut book = sound.clone();
    book.sources[7] = Some(example_source());
    book.walls[0] = Some(HALFWAY_WALL);
    book.walls[1] = Some(upright(101_000, 1));
    let north = Record::PlaceSource(7, example_source().moved(100_000, 102_500));
    assert_eq!(refusal_of(&book, &north), refused(1, 0));
    book.walls[1] = None;
    assert_eq!(after(&book, &north).sources[7], north.source());
}

#[test]
fn what_bars_the_new_source_is_said_before_the_late_damage() {
    // the receiver in slot 5 holds less than the old share; what comes is barred by the one in slot 40
    let mut book = with_sum(&with_source(&example_source()), 2, 0);
    let near_40 = example_source().moved(97_900, 100_000);
    let place = Record::PlaceSource(7, near_40);
    assert_eq!(refusal_of(&book, &place), refused(1, 0));
    book.accounts[40] = Some(Account {
        receiver: receiver(-2000),
        sums: [TOP / 2; 3],
    });
    assert_eq!(refusal_of(&book, &place), refused(10, 40));
    // so where the pair with the old source is barred in slot 5, or there is no room
    book.sources[7] = Some(example_source().moved(100_100, 100_000));
    assert_eq!(refusal_of(&book, &place), refused(10, 40));
    book.sources[7] = Some(far_source());
    let full = with_sum(&book, 0, TOP);
    assert_eq!(refusal_of(&full, &place), refused(10, 40));
    // and of two receivers that bar what comes the lower slot is named
    book.accounts[39] = Some(Account {
        receiver: receiver(-2100),
        sums: [0; 3],
    });
    assert_eq!(refusal_of(&book, &place), refused(10, 39));
    // without either the late damage is left
    book.accounts[39] = None;
    book.accounts[40] = None;
    assert_eq!(refusal_of(&with_sum(&book, 2, 0), &place), refused(1, 0));
}

#[test]
fn a_wall_is_judged_without_the_one_that_it_replaces() {
    let mut book = with_source(&example_source());
    book.place_wall(9, &HALFWAY_WALL).unwrap();
    // the two together are one too many, but one comes as the other goes
    let beside = upright(101_000, 400);
    let second = Record::PlaceWall(10, beside);
    assert_eq!(refusal_of(&book, &second), refused(14, 5));
    let mut expected = with_source(&example_source());
    expected.place_wall(9, &beside).unwrap();
    assert_eq!(after(&book, &Record::PlaceWall(9, beside)), expected);
    // with a third one it is one too many in any slot
    let far = Wall::new(200_000, 99_000, 200_000, 101_000, 300);
    book.place_wall(10, &far).unwrap();
    assert_eq!(refusal_of(&book, &second), refused(14, 5));
    let away = after(&book, &Record::PlaceWall(9, far));
    assert_eq!(sums(&away), AT_25_M.map(energy));
    assert_eq!(after(&away, &second).walls[10], Some(beside));
    let low = Record::PlaceWall(9, HALFWAY_WALL).with(&WALL_HEIGHT, 0);
    assert_eq!(refusal_of(&book, &low), refused(5, 6));
}

#[test]
fn a_wall_that_a_loud_road_needs_can_be_exchanged() {
    let mut book = with_receiver();
    book.place_wall(8, &upright(100_300, 2000)).unwrap();
    book.place_source(7, &loud_source()).unwrap();
    assert_eq!(
        refusal_of(&book, &Record::WithdrawWall(8)),
        refused(13, 5),
        "without any wall it is too loud"
    );
    let beside = Record::PlaceWall(8, upright(100_301, 2000));
    assert_eq!(after(&book, &beside).walls[8], Some(upright(100_301, 2000)));
    // but not for one that takes too little, or that is nowhere near
    for wall in [upright(100_300, 1), upright(300_000, 2000)] {
        let place = Record::PlaceWall(8, wall);
        assert_eq!(refusal_of(&book, &place), refused(13, 5));
    }
}

#[test]
fn an_exchange_of_walls_works_every_sum_out_afresh() {
    let mut right = with_source(&example_source());
    right.place_wall(9, &HALFWAY_WALL).unwrap();
    for sum in [0, TOP] {
        let mut book = with_source(&example_source());
        book.place_wall(9, &upright(101_000, 2000)).unwrap();
        book.accounts[5].as_mut().unwrap().sums = [sum; 3];
        assert_eq!(after(&book, &Record::PlaceWall(9, HALFWAY_WALL)), right);
    }
    // a barred pair is met, by the receiver of the first one
    let mut book = right.clone();
    book.sources[3] = Some(example_source().moved(100_100, 100_000));
    let place = Record::PlaceWall(9, HALFWAY_WALL);
    assert_eq!(refusal_of(&book, &place), refused(10, 5));
}

#[test]
fn the_worked_case_with_exchanges_has_its_listing() {
    // at 100 m: (3 E(4293) + E(4848) + 2 E(4403)) / 6 has level 4477
    // 24 m away: Q = 2400^2 + 350^2, r 2425, Ds = 6769 - 4000 + 12 - 1120 = 1661, share levels 6063,
    // 6063 and 5063
    let mut listing = Vec::new();
    list(&exchange_example(), &mut listing);
    let lines = [
        "3 R05 61.6 50.3",
        "5 R05 61.6 50.3",
        "7 R05 44.8 34.0",
        "9 R05 61.6 50.3",
        "10 E10",
        "11 R05 61.6 50.3",
        "13 R05 62.0 50.6",
        "14 E10",
        "15 R05 62.0 50.6",
        "17 R05 61.6 50.3",
        "19 R05 49.3 37.9",
        "21 R05 61.6 50.3",
        "23 R05 61.6 50.3",
        "25 R05 --.- --.-",
        "END 25\n",
    ];
    assert_eq!(String::from_utf8(listing).unwrap(), lines.join("\n"));
}
