// Prints the example job: a bypass that bends around a village, in ten roads which the book cuts, a
// side street and a noise wall. Roads, a receiver and the wall are edited in their slots. A receiver that
// would come to stand on the road (10) and a second wall (14) are refused.

use reference::course::Course;
use reference::daily::Daily;
use reference::fields::HEIGHT;
use reference::record::Record;
use reference::road::{Receiver, Source, Traffic};
use reference::wall::Wall;
use std::io::{self, Write};

const ROADS: i64 = 10;
const FIRST_SLOT: i64 = 100;

/// Lengths of 20 m along the bend, and how many of them a road has.
const STEP: i64 = 2000;
const ROAD_STEPS: i64 = 6;

/// Where the bend is after so many steps; it is flattest in the middle.
fn bend(steps: i64) -> (i64, i64) {
    let from_middle = steps - ROADS * ROAD_STEPS / 2;
    (
        400_000 + STEP * steps,
        500_000 + 10 * from_middle * from_middle,
    )
}

/// A federal road of 12000 vehicles a day, 100 km/h, mastic asphalt.
fn federal(course: Course) -> Source {
    let traffic = [62, 42, 11].map(|thousandths| Traffic {
        vehicles: 12_000 * thousandths,
        trucks: 200,
    });
    Source {
        course,
        car_speed: 100,
        truck_speed: 80,
        surface: 1,
        traffic,
        ..Source::default()
    }
}

/// A road of the bypass, between two nodes of the bend.
fn bypass(number: i64) -> Source {
    let (x1, y1) = bend(ROAD_STEPS * number);
    let (x2, y2) = bend(ROAD_STEPS * (number + 1));
    federal(Course::between(x1, y1, x2, y2))
}

/// A receiver beside the bend after so many steps, so far below it on the map.
fn beside(steps: i64, away: i64, height: i64) -> Receiver {
    let (x, y) = bend(steps);
    Receiver {
        x,
        y: y - away,
        height,
    }
}

fn receivers() -> [Receiver; 12] {
    [
        beside(3, 5_000, 400),
        beside(8, 8_000, 400),
        beside(13, 12_000, 400),
        beside(18, 20_000, HEIGHT.least()),
        beside(23, 35_000, 400),
        beside(28, 60_000, 400),
        beside(33, 100_000, 400),
        beside(38, 150_000, 400),
        beside(43, -25_000, HEIGHT.most()),
        beside(48, -10_000, 400),
        beside(53, -6_000, 400),
        beside(58, -4_500, 400),
    ]
}

/// The roads nearest to the village get open-pored asphalt.
fn repaved(number: i64) -> Source {
    Source {
        surface: 8,
        ..bypass(number)
    }
}

/// A house front across the road mirrors a short piece of it, which is entered by its middle and
/// its length.
fn mirrored(steps: i64) -> Source {
    let (x, y) = bend(steps);
    Source {
        reflection: 1,
        ..federal(Course::uncut(x, y + 9_000, STEP))
    }
}

/// A piece of a side street of the village, of which only the daily figure is known: a municipal
/// street of 1500 vehicles a day, 50 km/h, mastic asphalt.
fn street(number: i64) -> Daily {
    let piece = Source {
        course: Course::uncut(452_000 + STEP * number, 435_000, STEP),
        car_speed: 50,
        truck_speed: 50,
        surface: 1,
        ..Source::default()
    };
    Daily::new(piece, 3, 1500)
}

/// The receivers of the village, the nearest to the bypass first.
const VILLAGE: std::ops::RangeInclusive<i64> = 3..=5;

/// A wall of 380 m between the bypass and the village, 12 to 20 m from the road.
fn wall(height: i64) -> Wall {
    Wall::new(428_000, 500_500, 466_000, 498_000, height)
}

/// A wall at the edge of the village, behind the other one.
fn second_wall() -> Wall {
    Wall::new(430_000, 484_000, 450_000, 484_000, 300)
}

fn job() -> Vec<Record> {
    let mut job = Vec::new();
    for (slot, receiver) in (0..).zip(receivers()) {
        job.push(Record::PlaceReceiver(slot, receiver));
    }
    for number in 0..ROADS {
        job.push(Record::PlaceSource(FIRST_SLOT + number, bypass(number)));
    }
    job.push(Record::PlaceSource(0, mirrored(10)));
    job.extend([Record::Ask(0), Record::Ask(4)]);
    for number in 3..5 {
        job.push(Record::PlaceSource(FIRST_SLOT + number, repaved(number)));
        job.push(Record::Ask(4));
    }
    job.push(Record::WithdrawSource(0));
    job.push(Record::PlaceReceiver(11, beside(30, 0, 400)));
    job.push(Record::Ask(11));
    job.push(Record::PlaceReceiver(11, beside(58, 4_500, 400)));
    for number in 0..5 {
        job.push(Record::PlaceDaily(1 + number, street(number)));
    }
    job.extend((0..12).map(Record::Ask));
    job.push(Record::PlaceWall(0, wall(300)));
    job.extend(VILLAGE.map(Record::Ask));
    job.push(Record::PlaceWall(1, second_wall()));
    job.push(Record::PlaceWall(0, wall(500)));
    job.extend(VILLAGE.map(Record::Ask));
    job.push(Record::WithdrawWall(0));
    job.push(Record::WithdrawReceiver(7));
    job.extend(VILLAGE.map(Record::Ask));
    job
}

fn main() -> io::Result<()> {
    let bytes: Vec<u8> = job().iter().flat_map(Record::bytes).collect();
    io::stdout().lock().write_all(&bytes)
}
