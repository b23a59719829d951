// Exchanges that are tried every time: in the worked case, where each step can be told by hand, and in
// stored states that have one thing wrong with what goes or with what comes.

use crate::book::{encode, Account, Book, TOP};
use crate::fields::HEIGHT;
use crate::fixed::{
    bytes_of, cut_source, example_image, example_receiver, example_source, far_source, frames_on,
    loudest_source, with_ends, FAR_WALL, HALFWAY_WALL, SECOND_WALL,
};
use crate::inconsistent::heard_of;
use crate::probe::Frame;
use crate::record::Record;
use crate::road::{Receiver, Source};
use crate::wall::Wall;

/// The receiver of the worked case so far to the east.
fn receiver(away: i64) -> Receiver {
    Receiver {
        x: example_receiver().x + away,
        ..example_receiver()
    }
}

/// A job in which the source of the worked case, its receiver and a wall between them are exchanged,
/// for others, for themselves and for such as cannot come.
pub fn exchange_example() -> Vec<u8> {
    let ask = Record::Ask(5);
    let hear = |receiver| Record::PlaceReceiver(5, receiver);
    let sound = |source| Record::PlaceSource(0, source);
    let screen = |wall| Record::PlaceWall(0, wall);
    let records = [
        sound(example_source()),
        // the same again, at 100 m, at 25 m between two ends, and too near
        sound(example_source()),
        sound(example_source().moved(110_000, 100_000)),
        sound(with_ends(example_source())),
        sound(example_source().moved(100_357, 100_000)),
        // the receiver 1 m nearer, on the road, and back
        hear(receiver(100)),
        hear(receiver(2400)),
        hear(receiver(0)),
        // a wall, one in its place that could not stand together with it, and one far away
        screen(HALFWAY_WALL),
        screen(SECOND_WALL),
        screen(FAR_WALL),
        // nothing is left of any source
        Record::WithdrawSource(0),
    ];
    let asked = records.into_iter().flat_map(|record| [record, ask]);
    let job: Vec<Record> = [hear(receiver(0))].into_iter().chain(asked).collect();
    bytes_of(&job)
}

/// Sums that leave room for a share more and a share less.
const AMPLE: [i64; 3] = [TOP / 2; 3];

/// A book with the receiver of the worked case in slot 5, one 10 m to the west of it in slot 40, and a
/// source in slot 0.
fn two_receivers(source: Source) -> Book {
    let mut book = Book::cleared();
    for (slot, away) in [(5, 0), (40, -1000)] {
        book.accounts[slot] = Some(Account {
            receiver: receiver(away),
            sums: AMPLE,
        });
    }
    book.sources[0] = Some(source);
    book
}

/// Sources that one of the two bars, or both: too near, too far, too long or too loud.
fn barred_sources() -> [Source; 6] {
    let west = receiver(-1000).x;
    [
        example_source().moved(100_100, 100_000),
        example_source().moved(400_000, 100_000),
        example_source().uncut(1263),
        loudest_source().moved(100_600, 100_000).uncut(250),
        example_source().moved(west - 100, 100_000).uncut(100),
        with_ends(example_source()).moved(west - 300, 100_000),
    ]
}

/// Sources that both accept.
fn accepted_sources() -> [Source; 4] {
    [
        example_source(),
        example_source().moved(110_000, 100_000),
        cut_source(),
        far_source(0),
    ]
}

/// Probes of exchanges of sources: each of these for each, and, where both accept what goes, with tight
/// sums.
fn source_exchanges() -> Vec<Frame> {
    let sources = [&accepted_sources()[..], &barred_sources()].concat();
    let mut frames = Vec::new();
    for (at, &goes) in sources.iter().enumerate() {
        for &comes in &sources {
            let mut books = vec![two_receivers(goes)];
            if at < accepted_sources().len() {
                books.extend(tight_books(&books[0], (5, 2), &comes));
                books.extend(tight_books(&books[0], (40, 1), &comes));
            }
            let place = [Record::PlaceSource(0, comes)];
            let images = books.iter().map(encode);
            frames.extend(images.flat_map(|image| frames_on(&image, &place)));
        }
    }
    frames
}

/// The same book with the sum of one receiver and one period at the top, just enough for what goes from
/// slot 0 or just not, and with just the room, or just not, for what comes once that is off.
fn tight_books(book: &Book, (slot, period): (usize, usize), comes: &Source) -> Vec<Book> {
    let receiver = book.accounts[slot].expect("it stands").receiver;
    let goes = book.sources[0].expect("it stands");
    let [off, on] = [&goes, comes].map(|source| heard_of(source, &receiver, &[])[period]);
    let room = TOP - on + off;
    let sums = [TOP, off - 1, off, room, room + 1].into_iter();
    let with_sum = |sum| {
        let mut tight = book.clone();
        tight.accounts[slot].as_mut().expect("it stands").sums[period] = sum;
        tight
    };
    let possible = sums.filter(|sum| (0..=TOP).contains(sum));
    possible.map(with_sum).collect()
}

/// Probes of exchanges behind walls: what goes, or what comes, has two walls before it; a wall comes in
/// place of one with which it could not stand, or which a loud road needs; and what comes is what goes.
fn wall_exchanges() -> Vec<Frame> {
    let near = |x, height| Wall::new(x, 99_000, x, 101_000, height);
    let walls = [
        near(100_300, 2000),
        near(100_301, 2000),
        near(100_300, 1),
        FAR_WALL,
        HALFWAY_WALL,
    ];
    let open = example_source().moved(100_000, 102_500);
    let loud = loudest_source().moved(100_600, 100_000).uncut(250);
    let mut frames = Vec::new();
    for source in [loud, example_source(), cut_source()] {
        let mut calls = [1, 0]
            .map(|slot| walls.map(|wall| Record::PlaceWall(slot, wall)))
            .concat();
        calls.extend([open, source].map(|comes| Record::PlaceSource(0, comes)));
        let mut book = two_receivers(source);
        book.accounts[40] = None;
        book.walls[1] = Some(walls[0]);
        frames.extend(frames_on(&encode(&book), &calls));
        book.walls[2] = Some(near(100_310, 2000));
        frames.extend(frames_on(&encode(&book), &calls));
    }
    frames
}

/// Probes of exchanges of receivers: for one elsewhere, for one that a source bars, for one that is not
/// allowed, and for the very same, whose sums are worked out afresh.
fn receiver_exchanges() -> Vec<Frame> {
    let mut book = two_receivers(example_source());
    book.sources[7] = Some(far_source(0));
    let mut records = Vec::new();
    for slot in [5, 40] {
        let ways = [0, 1, -1000, 2400, 400_000, -90_000];
        records.extend(ways.map(|way| Record::PlaceReceiver(slot, receiver(way))));
    }
    let same = Record::PlaceReceiver(5, receiver(0));
    records.push(same.with(&HEIGHT, HEIGHT.most() + 1));
    let mut frames = frames_on(&encode(&book), &records);
    frames.extend(frames_on(&example_image(), &[same]));
    frames
}

/// Probes of exchanges.
pub(crate) fn exchange_frames() -> Vec<Frame> {
    let mut frames = source_exchanges();
    frames.extend(wall_exchanges());
    frames.extend(receiver_exchanges());
    frames
}
