// The inputs that the programs job and probe are tried on each time they are built.
// The files stdin of their crates hold just these bytes, and stdout what has to come of them.

use crate::course::Point;
use crate::daily::Daily;
use crate::fields::{
    Field, CLASS, DTV, FARTHEST, FIRST_X, FIRST_Y, HEIGHT, LENGTH, RECEIVERS, RECEIVER_SLOT,
    SECOND_X, SECOND_Y, SOURCE_SLOT, VEHICLES, WALLS, WALL_HEIGHT, WALL_SECOND_X, WALL_SECOND_Y,
    WALL_SLOT,
};
use crate::fixed::{example_receiver, example_source, walled_example, with_ends, HALFWAY_WALL};
use crate::probe::Frame;
use crate::record::{kind_byte, Record, LONGEST};
use crate::road::{Receiver, Source, FAST_ABOVE, FAST_SURFACE};
use crate::wall::Wall;
use crate::writing::Writing;

/// The input of the job program: the job whose listing is worked out on paper, and walls after it.
pub fn job_input() -> Vec<u8> {
    walled_example()
}

/// The input of the probing program: stored states, then calls to write, then a broken frame.
pub fn probe_input() -> Vec<u8> {
    let mut input = Vec::new();
    stored_states()
        .iter()
        .for_each(|frame| frame.put(&mut input));
    writings()
        .iter()
        .for_each(|writing| writing.put(&mut input));
    input.extend(broken_off());
    input
}

fn place_receiver() -> Record {
    Record::PlaceReceiver(5, example_receiver())
}

fn place_source() -> Record {
    Record::PlaceSource(0, example_source())
}

/// The source of the example between two ends.
fn place_between() -> Record {
    Record::PlaceSource(0, with_ends(example_source()))
}

fn place_daily(class: i64, dtv: i64) -> Record {
    Record::PlaceDaily(0, Daily::new(example_source(), class, dtv))
}

fn place_wall() -> Record {
    Record::PlaceWall(WALL_SLOT.most(), HALFWAY_WALL)
}

fn frame(image: &[u8], record: &[u8]) -> Frame {
    Frame {
        image: image.to_vec(),
        record: record.to_vec(),
    }
}

/// Stored states that are all too short, so that every one is damaged and comes back as it is,
/// with records of which the reader would take some and refuse others.
fn stored_states() -> [Frame; 13] {
    let ask = Record::Ask(5).bytes();
    let place = place_receiver().bytes();
    let two_records = [place_source().bytes(), ask.clone()].concat();
    let mut leftover = Record::WithdrawSource(SOURCE_SLOT.most()).bytes();
    leftover[1] |= 0b111;
    let between = place_between().bytes();
    let wall = place_wall().bytes();
    [
        // nothing at all
        frame(&[], &[]),
        // three bytes, asked
        frame(&[1; 3], &ask),
        // no bytes, and a receiver to place
        frame(&[], &place),
        // a kind that is not listed
        frame(&[0], &[kind_byte(15)]),
        // a record that lacks its last byte
        frame(&[2, 3], &place[..place.len() - 1]),
        // a source to place, and a record after it that is not looked at
        frame(&[0xff; 5], &two_records),
        // the last source to withdraw, with every leftover bit set
        frame(&[0; 4], &leftover),
        // the last receiver to withdraw
        frame(
            &[7],
            &Record::WithdrawReceiver(RECEIVER_SLOT.most()).bytes(),
        ),
        // a source between two ends to place, and one that lacks its last byte
        frame(&[1, 1], &between),
        frame(&[1, 0], &between[..between.len() - 1]),
        // a wall to place, one that lacks its last byte, and the last one to withdraw
        frame(&[8], &wall),
        frame(&[8, 0], &wall[..wall.len() - 1]),
        frame(&[9; 2], &Record::WithdrawWall(WALL_SLOT.most()).bytes()),
    ]
}

fn writing(record: Record, room: usize) -> Writing {
    Writing { record, room }
}

/// The same with more in a coordinate than a record has bits for.
fn beyond(field: &Field) -> Record {
    let place = place_between();
    place.with(field, FARTHEST + 1 + place.value(field))
}

/// The same with its ends so far apart.
fn apart(length: i64) -> Record {
    let place = place_between();
    place.with(&SECOND_Y, place.value(&FIRST_Y) + length)
}

/// The wall of the example with more in a coordinate than a record has bits for.
fn wall_beyond(field: &Field) -> Record {
    let place = place_wall();
    place.with(field, FARTHEST + 1 + place.value(field))
}

/// The wall of the example with its second end elsewhere, and too high.
fn high_wall(second: Point) -> Record {
    let height = WALL_HEIGHT.most() + 1;
    Record::PlaceWall(
        0,
        Wall {
            second,
            height,
            ..HALFWAY_WALL
        },
    )
}

/// The same and too low.
fn low_wall(second: Point) -> Record {
    high_wall(second).with(&WALL_HEIGHT, WALL_HEIGHT.least() - 1)
}

/// Calls to write, with more room than the record takes, just enough, and too little.
fn writings() -> [Writing; 33] {
    let receiver = |receiver| Record::PlaceReceiver(5, receiver);
    let far = Receiver {
        x: FARTHEST + 1 + example_receiver().x,
        ..example_receiver()
    };
    let high = Receiver {
        height: HEIGHT.most() + 1,
        ..example_receiver()
    };
    let slow = Source {
        car_speed: FAST_ABOVE,
        surface: FAST_SURFACE,
        ..example_source()
    };
    let mut busy = example_source();
    busy.traffic[0].vehicles = VEHICLES.most() + 1;
    let place = place_receiver().bytes().len();
    let source = place_source().bytes().len();
    let ask = Record::Ask(5).bytes().len();
    let wall = place_wall().bytes().len();
    [
        writing(Record::Ask(5), ask + 1),
        writing(Record::Ask(5), ask - 1),
        // a slot past the last: said before that there is no room
        writing(Record::Ask(RECEIVERS as i64), 0),
        writing(place_receiver(), place),
        // an x that would be the example's if only a record's bits counted
        writing(receiver(far), place),
        writing(receiver(high), place),
        writing(place_source(), source + 1),
        writing(place_source(), source - 1),
        // a surface for faster roads, and more vehicles than there may be
        writing(Record::PlaceSource(0, slow), LONGEST),
        writing(Record::PlaceSource(0, busy), LONGEST),
        writing(Record::WithdrawSource(SOURCE_SLOT.most()), ask),
        writing(Record::WithdrawReceiver(RECEIVER_SLOT.most()), ask),
        // a daily figure, and a class and a figure past the last
        writing(place_daily(CLASS.most(), DTV.most()), LONGEST),
        writing(place_daily(CLASS.most() + 1, DTV.most() + 1), LONGEST),
        writing(place_daily(CLASS.most(), DTV.most() + 1), LONGEST),
        // a source between two ends, and an end that would be the example's if only a record's bits
        // counted
        writing(place_between(), LONGEST + 1),
        writing(place_between(), LONGEST - 1),
        writing(beyond(&SECOND_X), LONGEST),
        writing(beyond(&SECOND_Y), LONGEST),
        // both ends at one place, as far apart as they may be, and farther
        writing(apart(0), LONGEST),
        writing(apart(LENGTH.most()), LONGEST),
        writing(apart(LENGTH.most() + 1), LONGEST),
        // a wall, and ends that would be the example's if only a record's bits counted
        writing(place_wall(), wall + 1),
        writing(place_wall(), wall - 1),
        writing(wall_beyond(&FIRST_X), wall),
        writing(wall_beyond(&FIRST_Y), wall),
        writing(wall_beyond(&WALL_SECOND_X), wall),
        writing(wall_beyond(&WALL_SECOND_Y), wall),
        // heights past the most and the least, and both ends at one place, which is said before
        writing(high_wall(HALFWAY_WALL.second), wall),
        writing(low_wall(HALFWAY_WALL.second), wall),
        writing(low_wall(HALFWAY_WALL.first), wall),
        writing(Record::WithdrawWall(WALL_SLOT.most()), ask),
        writing(Record::WithdrawWall(WALLS as i64), ask),
    ]
}

/// A frame that says five bytes of a stored state and ends after two: it is not answered.
fn broken_off() -> Vec<u8> {
    let mut bytes = Vec::new();
    frame(&[1; 5], &[]).put(&mut bytes);
    bytes.truncate(4 + 2);
    bytes
}
