// Towns by chance: roads and receivers with every allowed value of every field.
// A town is a square of a certain size somewhere on the map.

use crate::book::{Answer, Book};
use crate::chance::Chance;
use crate::course::{Course, Point};
use crate::cuts::{span, spanned, within};
use crate::daily::Daily;
use crate::fields::{
    Field, CAR_SPEED, CLASS, DTV, FARTHEST, HEIGHT, LANES, LENGTH, MINUS, PARALLEL_HEIGHT,
    PARALLEL_SPACING, PARALLEL_WALLS, RECEIVERS, RECEIVER_SLOT, REFLECTION, SOURCES, STEEPEST,
    SURFACE, TRUCKS, TRUCK_SPEED, VEHICLES, WALLS, WALL_HEIGHT,
};
use crate::limits::TURNING_SPEEDS;
use crate::record::Record;
use crate::road::{
    Receiver, Source, Traffic, FARTHEST_SQUARE, FAST_ABOVE, FAST_SURFACE, FLAT, SOURCE_HEIGHT,
};
use crate::wall::Wall;

/// The width of a town in which no two points are too far apart.
pub const WIDE: i64 = 140_000;
const RISE: i64 = HEIGHT.most() - SOURCE_HEIGHT;
const _: () = assert!(2 * WIDE * WIDE + RISE * RISE <= FARTHEST_SQUARE);

/// Slots of walls that a town mostly uses.
const FEW_WALLS: usize = 4;

/// The greatest surface of a road for cars of this speed.
pub const fn surfaces_at(car_speed: i64) -> i64 {
    if car_speed > FAST_ABOVE {
        SURFACE.most()
    } else {
        FAST_SURFACE - 1
    }
}

/// Where a town lies and how wide it is.
#[derive(Clone, Copy)]
pub struct Town {
    pub x: i64,
    pub y: i64,
    pub width: i64,
}

impl Town {
    /// A town of a width by chance, anywhere on the map.
    pub fn anywhere(chance: &mut Chance) -> Town {
        let width = chance.pick(&[2_000, 10_000, 40_000, WIDE, WIDE, 400_000]);
        Town::of_width(chance, width)
    }

    pub fn of_width(chance: &mut Chance, width: i64) -> Town {
        Town {
            x: chance.edge(0, FARTHEST - width),
            y: chance.edge(0, FARTHEST - width),
            width,
        }
    }

    fn spot(&self, chance: &mut Chance) -> (i64, i64) {
        let x = self.x + chance.edge(0, self.width);
        let y = self.y + chance.between(0, self.width);
        (x, y)
    }

    pub fn receiver(&self, chance: &mut Chance) -> Receiver {
        let (x, y) = self.spot(chance);
        let height = chance.edge_in(&HEIGHT);
        Receiver { x, y, height }
    }

    /// A source that is uncut or, every third time, between two ends.
    pub fn source(&self, chance: &mut Chance) -> Source {
        if chance.one_in(3) {
            return self.between(chance);
        }
        let (x, y) = self.spot(chance);
        road(chance).moved(x, y)
    }

    /// A source between two ends in this town.
    pub fn between(&self, chance: &mut Chance) -> Source {
        let (x, y) = self.spot(chance);
        let length = chance.magnitude(LENGTH.most());
        let (dx, dy) = span(chance, length);
        let u = within(x, dx, (self.x, self.x + self.width));
        let v = within(y, dy, (self.y, self.y + self.width));
        Source {
            course: Course::between(x, y, u, v),
            ..road(chance)
        }
    }

    /// A record that places a source, told in any way.
    pub fn placing(&self, chance: &mut Chance, slot: i64) -> Record {
        let source = self.source(chance);
        placing(chance, slot, source)
    }

    /// A wall in this town.
    pub fn wall(&self, chance: &mut Chance) -> Wall {
        let (x, y) = self.spot(chance);
        let length = chance.magnitude(self.width);
        let (dx, dy) = span(chance, length);
        let u = within(x, dx, (self.x, self.x + self.width));
        let v = within(y, dy, (self.y, self.y + self.width));
        let most = chance.pick(&[600, WALL_HEIGHT.most()]);
        Wall::new(x, y, u, v, chance.edge(WALL_HEIGHT.least(), most))
    }

    /// A record that places or withdraws a wall, mostly on one of a few slots.
    pub fn wall_record(&self, chance: &mut Chance) -> Record {
        let slot = slot(chance, FEW_WALLS, WALLS);
        match chance.between(0, 2) {
            0 => Record::WithdrawWall(slot),
            _ => Record::PlaceWall(slot, self.wall(chance)),
        }
    }

    /// A record of any kind, on slots below the given counts.
    pub fn record(&self, chance: &mut Chance, sources: usize, receivers: usize) -> Record {
        if chance.one_in(12) {
            self.wall_record(chance)
        } else {
            self.road_record(chance, sources, receivers)
        }
    }

    /// The same without walls, on which a book with many slots in use works long.
    pub fn road_record(&self, chance: &mut Chance, sources: usize, receivers: usize) -> Record {
        let source_slot = slot(chance, sources, SOURCES);
        let receiver_slot = slot(chance, receivers, RECEIVERS);
        match chance.between(0, 19) {
            0..=2 => Record::PlaceReceiver(receiver_slot, self.receiver(chance)),
            3 => Record::WithdrawReceiver(receiver_slot),
            4..=12 => self.placing(chance, source_slot),
            13..=14 => Record::WithdrawSource(source_slot),
            _ => Record::Ask(receiver_slot),
        }
    }

    /// A book with some history in this town.
    pub fn history(&self, chance: &mut Chance, records: i64) -> Book {
        let mut book = Book::cleared();
        for _ in 0..records {
            book.apply(&self.record(chance, SOURCES, RECEIVERS));
        }
        book
    }
}

/// A slot below a count, seldom the last there is.
fn slot(chance: &mut Chance, count: usize, all: usize) -> i64 {
    if chance.one_in(16) {
        all as i64 - 1
    } else {
        chance.index(count) as i64
    }
}

fn speed(chance: &mut Chance, field: &Field) -> i64 {
    if chance.one_in(2) {
        chance.pick(&TURNING_SPEEDS)
    } else {
        chance.within(field)
    }
}

fn gradient(chance: &mut Chance) -> i64 {
    let steepness = if chance.one_in(2) {
        chance.pick(&[0, 1, FLAT - 1, FLAT, FLAT + 1, STEEPEST - 1, STEEPEST])
    } else {
        chance.between(0, STEEPEST)
    };
    if steepness > 0 && chance.one_in(2) {
        steepness + MINUS
    } else {
        steepness
    }
}

/// Traffic of one period; sometimes none at all, sometimes as much as there can be.
pub fn traffic(chance: &mut Chance) -> Traffic {
    let vehicles = match chance.between(0, 9) {
        0 => 0,
        1 => VEHICLES.most(),
        2..=4 => chance.magnitude(VEHICLES.most()),
        _ => chance.between(1_000, 4_000_000),
    };
    let trucks = chance.edge_in(&TRUCKS);
    Traffic { vehicles, trucks }
}

fn parallel_walls(chance: &mut Chance) -> (i64, i64, i64) {
    let kind = chance.within(&PARALLEL_WALLS);
    let sizes = match (kind, chance.between(0, 3)) {
        (0, _) => (0, 0),
        (_, 0) => (
            chance.edge_in(&PARALLEL_HEIGHT),
            chance.edge_in(&PARALLEL_SPACING),
        ),
        _ => (chance.between(1, 1500), chance.between(800, 4000)),
    };
    (kind, sizes.0, sizes.1)
}

/// An allowed road at no place in particular.
pub fn road(chance: &mut Chance) -> Source {
    let car_speed = speed(chance, &CAR_SPEED);
    let (parallel_walls, parallel_height, parallel_spacing) = parallel_walls(chance);
    Source {
        course: Course::uncut(0, 0, chance.magnitude(6000)),
        several_lanes: chance.within(&LANES),
        car_speed,
        truck_speed: speed(chance, &TRUCK_SPEED),
        surface: chance.between(SURFACE.least(), surfaces_at(car_speed)),
        gradient: gradient(chance),
        reflection: chance.within(&REFLECTION),
        parallel_walls,
        parallel_height,
        parallel_spacing,
        traffic: std::array::from_fn(|_| traffic(chance)),
    }
}

/// An allowed road around no place in particular: uncut or, every third time, between two ends.
pub fn any_road(chance: &mut Chance) -> Source {
    let road = road(chance);
    if !chance.one_in(3) {
        return road;
    }
    let length = chance.magnitude(LENGTH.most());
    let course = spanned(Point::default(), span(chance, length));
    Source { course, ..road }
}

/// A road with any class and daily figure in place of its traffic.
pub fn by_day(chance: &mut Chance, road: Source) -> Daily {
    let class = chance.within(&CLASS);
    let dtv = match chance.between(0, 3) {
        0 => chance.edge_in(&DTV),
        1 => chance.magnitude(DTV.most()),
        _ => chance.between(200, 40_000),
    };
    Daily::new(road, class, dtv)
}

/// A record that places a source as it is, or, one that is not cut, every third time with a daily
/// figure in place of its traffic.
pub fn placing(chance: &mut Chance, slot: i64, source: Source) -> Record {
    let uncut = matches!(source.course, Course::Uncut { .. });
    if uncut && chance.one_in(3) {
        Record::PlaceDaily(slot, by_day(chance, source))
    } else {
        Record::PlaceSource(slot, source)
    }
}

/// A job in the making, with the book as it stands after it.
#[derive(Default)]
pub struct Draft {
    pub bytes: Vec<u8>,
    pub starts: Vec<usize>,
    pub book: Book,
}

impl Draft {
    /// Adds a record whatever the book says to it.
    pub fn put(&mut self, record: Record) -> Answer {
        let answer = self.book.apply(&record);
        self.add(record);
        answer
    }

    /// Adds a record only if the book takes it.
    pub fn put_if_taken(&mut self, record: Record) -> bool {
        let taken = !matches!(self.book.apply(&record), Answer::Refused(_));
        if taken {
            self.add(record);
        }
        taken
    }

    fn add(&mut self, record: Record) {
        self.starts.push(self.bytes.len());
        self.bytes.extend(record.bytes());
    }

    /// Asks every receiver that stands, and one that may not.
    pub fn ask_all(&mut self, chance: &mut Chance) {
        for slot in 0..RECEIVERS {
            if self.book.accounts[slot].is_some() {
                self.put(Record::Ask(slot as i64));
            }
        }
        self.put(Record::Ask(chance.within(&RECEIVER_SLOT)));
    }
}
