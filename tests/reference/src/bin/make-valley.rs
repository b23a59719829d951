// Prints a second example job: a farm in a valley and a lane far away, entered in 300 segments. None of
// them has a level at the farm by itself; together they have one.

use reference::course::Course;
use reference::record::Record;
use reference::road::{Receiver, Source, Traffic};
use std::io::{self, Write};

const SEGMENTS: i64 = 300;

/// The length of a segment.
const SEGMENT: i64 = 1000;

const FARM: Receiver = Receiver {
    x: 500_000,
    y: 500_000,
    height: 400,
};

/// How far away the lane passes.
const AWAY: i64 = 130_000;

/// A segment of the lane: 20 vehicles an hour by day, 10 in the evening and 2 at night, 100 km/h, mastic
/// asphalt. The farm lies abreast of the lane's middle.
fn lane(number: i64) -> Source {
    let along = SEGMENT * (2 * number + 1 - SEGMENTS) / 2;
    let traffic = [20, 10, 2].map(|vehicles| Traffic {
        vehicles: 1000 * vehicles,
        trucks: 0,
    });
    Source {
        course: Course::uncut(FARM.x + along, FARM.y + AWAY, SEGMENT),
        car_speed: 100,
        truck_speed: 80,
        surface: 1,
        traffic,
        ..Source::default()
    }
}

/// The segments from the middle of the lane outwards.
fn outwards() -> impl Iterator<Item = i64> {
    (0..SEGMENTS / 2).flat_map(|n| [SEGMENTS / 2 - 1 - n, SEGMENTS / 2 + n])
}

/// After how many segments the farm is asked.
const ASKED: [i64; 4] = [1, 10, 100, SEGMENTS];

/// The farm is asked once more when all segments but the nearest have gone again.
fn job() -> Vec<Record> {
    let mut job = vec![Record::PlaceReceiver(0, FARM)];
    for (count, number) in (1..).zip(outwards()) {
        job.push(Record::PlaceSource(number, lane(number)));
        if ASKED.contains(&count) {
            job.push(Record::Ask(0));
        }
    }
    job.extend(outwards().skip(1).map(Record::WithdrawSource));
    job.push(Record::Ask(0));
    job
}

fn main() -> io::Result<()> {
    let bytes: Vec<u8> = job().iter().flat_map(Record::bytes).collect();
    io::stdout().lock().write_all(&bytes)
}
