// Jobs and probes that are tried every time, whatever the seed is.
// They go through what can be listed in full: cuts, kinds, limits of fields, marks, lengths.

use crate::book::{decode, encode, Account, Book, TOP};
use crate::chance::Chance;
use crate::course::Course;
use crate::cuts::{corner_roads, stretched_roads};
use crate::daily::Daily;
use crate::fields::{
    Field, BETWEEN_COURSE, CAR_SPEED, FARTHEST, GRADIENT, LENGTH, MINUS, PARALLEL_HEIGHT,
    PARALLEL_SPACING, PARALLEL_WALLS, RECEIVERS, RECEIVER_FIELDS, SOURCES, SOURCE_SLOT, STEEPEST,
    SURFACE, TRUCKS, TRUCK_SPEED, VEHICLES, WALLS, WALL_FIELDS, WALL_HEIGHT,
};
use crate::fixed_exchanges::{exchange_example, exchange_frames};
use crate::level::FAINTEST;
use crate::limits::{trial_values, PAPER_LENGTHS, TURNING_SPEEDS};
use crate::probe::{Frame, LONGEST_IMAGE};
use crate::record::{kind_byte, spare_bits, unlisted_kinds, Record};
use crate::road::{Receiver, Source, Traffic, FAST_ABOVE, FAST_SURFACE};
use crate::store::{
    receiver_at, receiver_index, set_field, source_at, source_index, wall_at, wall_index,
    BETWEEN_SLOT, RECEIVER_BYTES, RECEIVER_SIZE, SOURCE_BYTES, SOURCE_SIZE, STORE_SIZE, SUMS,
    UNCUT_SLOT, WALL_BYTES, WALL_SIZE,
};
use crate::wall::Wall;

/// The receiver of the worked case at 25 m.
pub fn example_receiver() -> Receiver {
    Receiver {
        x: 100_000,
        y: 100_000,
        height: 400,
    }
}

/// The source of the worked case at 25 m.
pub fn example_source() -> Source {
    let mut source = Source {
        course: Course::uncut(102_500, 100_000, 1000),
        car_speed: 100,
        truck_speed: 80,
        surface: 1,
        ..Source::default()
    };
    source.traffic[0].vehicles = 1_000_000;
    source.traffic[1].vehicles = 1_000_000;
    source.traffic[2].vehicles = 100_000;
    source
}

/// The same source between parallel walls, so that every field of it counts.
fn walled_source() -> Source {
    Source {
        parallel_walls: 1,
        parallel_height: 600,
        parallel_spacing: 1200,
        ..example_source()
    }
}

/// The same source between two ends, south and north of its middle.
pub(crate) fn with_ends(source: Source) -> Source {
    let (middle, length) = (source.course.middle(), source.course.length());
    let south = middle.y - length / 2;
    let course = Course::between(middle.x, south, middle.x, south + length);
    Source { course, ..source }
}

/// A source between two ends that is cut before the receiver of the worked case.
pub(crate) fn cut_source() -> Source {
    with_ends(walled_source().uncut(2600))
}

/// A wall between the receiver and the source of the worked case, halfway and about as high as the
/// receiver; where it stands; and a wall that is far from both.
pub const HALFWAY_WALL: Wall = Wall::new(101_250, 99_000, 101_250, 101_000, 400);
const STANDING: i64 = 2;
pub(crate) const FAR_WALL: Wall = Wall::new(5_000_000, 6_000_000, 5_003_000, 6_004_000, 250);

/// A low wall that cannot stand together with the wall halfway.
pub(crate) const SECOND_WALL: Wall = Wall::new(101_000, 99_000, 101_000, 101_000, 1);

/// Records that place a source: with its traffic, by a daily figure as a federal road has it, and
/// between two ends.
fn every_way(source: Source) -> [Record; 3] {
    [
        Record::PlaceSource(1, source),
        Record::PlaceDaily(2, Daily::new(source, 1, 12_000)),
        Record::PlaceSource(3, with_ends(source)),
    ]
}

pub(crate) fn bytes_of(records: &[Record]) -> Vec<u8> {
    records.iter().flat_map(Record::bytes).collect()
}

/// The job whose listing is worked out on paper.
pub fn example() -> Vec<u8> {
    bytes_of(&[
        Record::PlaceReceiver(5, example_receiver()),
        Record::PlaceSource(0, example_source()),
        Record::Ask(5),
        Record::Ask(6),
    ])
}

/// The same job with a wall halfway that comes and goes, and a second one that cannot come.
pub fn walled_example() -> Vec<u8> {
    let walls = bytes_of(&[
        Record::PlaceWall(0, HALFWAY_WALL),
        Record::Ask(5),
        Record::PlaceWall(1, SECOND_WALL),
        Record::WithdrawWall(0),
        Record::Ask(5),
        Record::WithdrawWall(0),
    ]);
    [example(), walls].concat()
}

/// One record of each kind, all fit for the worked case.
pub(crate) fn one_of_each() -> [Record; 9] {
    let [place_source, place_daily, place_between] = every_way(example_source());
    [
        Record::PlaceReceiver(6, example_receiver()),
        Record::WithdrawReceiver(5),
        place_source,
        Record::WithdrawSource(0),
        Record::Ask(5),
        place_daily,
        place_between,
        Record::PlaceWall(3, FAR_WALL),
        Record::WithdrawWall(STANDING),
    ]
}

/// Every record broken off after every byte but its last.
fn cut_records() -> Vec<Vec<u8>> {
    let records = one_of_each().map(|record| record.bytes());
    let cuts = |bytes: &Vec<u8>| (1..bytes.len()).map(|cut| bytes[..cut].to_vec()).collect();
    records.iter().flat_map::<Vec<_>, _>(cuts).collect()
}

/// Records of every kind not listed, as short as can be and long enough for any.
fn unlisted_records() -> Vec<Vec<u8>> {
    let kinds = unlisted_kinds().into_iter().map(kind_byte);
    let short = kinds.clone().map(|byte| vec![byte]);
    let long = kinds.map(|byte| vec![byte | 5; 40]);
    short.chain(long).collect()
}

/// Every bit after the last field set alone, in every kind of record that has such bits.
fn leftover_records() -> Vec<Vec<u8>> {
    let mut broken = Vec::new();
    for record in one_of_each() {
        for spare in 0..spare_bits(record.kind()) {
            let mut bytes = record.bytes();
            *bytes.last_mut().expect("no record is empty") |= 1 << spare;
            broken.push(bytes);
        }
    }
    broken
}

/// Every kind of record with one field after the other, the slot among them, at every value
/// worth trying in as many bits as it is to have, and with more than one field wrong.
pub(crate) fn trial_records(bits: impl Fn(&Field) -> u32) -> Vec<Record> {
    let mut records = Vec::new();
    let walled = every_way(walled_source());
    for record in one_of_each().into_iter().chain(walled) {
        for field in record.fields() {
            for value in trial_values(&mut Chance::new(0), field, bits(field)) {
                records.push(record.with(field, value));
            }
        }
    }
    let slow = |place: Record| {
        place
            .with(&SURFACE, FAST_SURFACE)
            .with(&CAR_SPEED, FAST_ABOVE)
    };
    for record in walled.map(slow) {
        records.extend(wrong_from_each(record, &bits));
    }
    records.extend(laid_records());
    let wall = Record::PlaceWall(3, FAR_WALL);
    records.extend(wrong_from_each(wall, &bits));
    records.extend(pointed_records());
    records
}

/// Records that place a wall with both ends at one place: anywhere, at the corners of the map, and
/// with a height that is not allowed.
fn pointed_records() -> Vec<Record> {
    let mut records = Vec::new();
    for place in [1, 100_000, 0, FARTHEST] {
        for height in WALL_HEIGHT.edges(WALL_HEIGHT.bits) {
            let wall = Wall::new(place, FARTHEST - place, place, FARTHEST - place, height);
            records.push(Record::PlaceWall(3, wall));
        }
    }
    records
}

/// Sources between two ends of every length at which they are treated otherwise, and from every
/// corner of the map.
fn laid_sources() -> Vec<Source> {
    let chance = &mut Chance::new(0);
    let mut roads = stretched_roads(chance, walled_source());
    roads.extend(corner_roads(chance, walled_source()));
    roads
}

/// Records that place such sources; those of a length that is not allowed also with all later
/// fields wrong.
fn laid_records() -> Vec<Record> {
    let mut records = Vec::new();
    for road in laid_sources() {
        let record = Record::PlaceSource(3, road);
        records.push(record);
        if !LENGTH.allows(road.course.length()) {
            let later = &record.fields()[1 + BETWEEN_COURSE.len()..];
            records.extend(wrong_from(record, later, |field| field.bits));
        }
    }
    records
}

/// Ends of roads beside the receiver of the worked case: cut or just not, heard or just not.
const WORKED_ENDS: [[i64; 4]; 18] = [
    // at 25 m, where an uncut one would be refused 12 or just not
    [102_500, 99_369, 102_500, 100_631],
    [102_500, 99_369, 102_500, 100_632],
    // just half as long as their distance, 1250, and one longer
    [101_200, 99_688, 101_200, 100_313],
    [101_200, 99_687, 101_200, 100_313],
    // with odd sums of coordinates, upright and slanting
    [101_000, 99_001, 101_000, 101_000],
    [101_001, 99_000, 102_000, 100_001],
    // just so short that they are not cut
    [100_340, 99_875, 100_340, 100_125],
    [100_340, 99_875, 100_340, 100_126],
    [100_360, 99_875, 100_360, 100_126],
    // the same with their middle so near that it matters
    [100_357, 99_875, 100_357, 100_125],
    [100_357, 99_875, 100_357, 100_126],
    // with their own middle too near and with halves that are not, or just are
    [100_340, 99_750, 100_340, 100_250],
    [100_335, 99_750, 100_335, 100_250],
    [100_334, 99_750, 100_334, 100_250],
    // with an end too near, or just not
    [100_232, 100_000, 102_232, 100_000],
    [100_233, 100_000, 102_233, 100_000],
    // with an end too far, and not cut
    [240_000, 100_000, 340_000, 100_000],
    [245_000, 100_000, 335_000, 100_000],
];

/// A source as loud as there is.
pub(crate) fn loudest_source() -> Source {
    let mut source = Source {
        car_speed: CAR_SPEED.most(),
        truck_speed: TRUCK_SPEED.most(),
        surface: FAST_SURFACE - 1,
        gradient: STEEPEST,
        parallel_height: PARALLEL_HEIGHT.most(),
        ..walled_source()
    };
    source.traffic = [Traffic {
        vehicles: VEHICLES.most(),
        trucks: TRUCKS.most(),
    }; 3];
    source
}

/// A source made as loud as there is, where it lies.
pub fn as_loud_as_can_be(source: Source) -> Source {
    Source {
        course: source.course,
        ..loudest_source()
    }
}

/// Records that place such roads, from either end, as the worked case has them, as loud as there
/// is, and with nothing on them.
fn worked_records() -> Vec<Record> {
    let silent = Source {
        traffic: [Traffic::default(); 3],
        ..walled_source()
    };
    let mut records = Vec::new();
    for [x1, y1, x2, y2] in WORKED_ENDS {
        let course = Course::between(x1, y1, x2, y2);
        for road in [walled_source(), loudest_source(), silent] {
            for course in [course, course.reversed()] {
                records.push(Record::PlaceSource(3, Source { course, ..road }));
            }
        }
    }
    records
}

/// Walls about the way of 100 m from a source at (110000, 100000) to the receiver of the worked case.
/// There s0 is 100000 and halfway hD is 2250.
const WORKED_WALLS: [Wall; 28] = [
    // halfway, in either direction, slanting, and at heights about hD and about the receiver's
    Wall::new(105_000, 99_000, 105_000, 101_000, 400),
    Wall::new(105_000, 101_000, 105_000, 99_000, 400),
    Wall::new(104_000, 99_000, 106_000, 101_000, 400),
    Wall::new(105_000, 99_000, 105_000, 101_000, 224),
    Wall::new(105_000, 99_000, 105_000, 101_000, 225),
    Wall::new(105_000, 99_000, 105_000, 101_000, 226),
    Wall::new(105_000, 99_000, 105_000, 101_000, 1),
    Wall::new(105_000, 99_000, 105_000, 101_000, 2000),
    // at other parts of the way, the first and the last that there are among them
    Wall::new(109_999, 99_999, 109_999, 100_001, 400),
    Wall::new(100_001, 99_999, 100_001, 100_001, 400),
    Wall::new(103_333, 99_000, 103_334, 101_000, 400),
    Wall::new(106_667, 90_000, 106_666, 190_000, 300),
    // with an end on the way, and one step off it
    Wall::new(105_000, 100_000, 105_000, 101_000, 400),
    Wall::new(105_000, 99_000, 105_000, 100_000, 400),
    Wall::new(105_000, 100_001, 105_000, 101_000, 400),
    Wall::new(105_000, 99_000, 105_000, 99_999, 400),
    // through the source's middle and the receiver, and one step beyond them
    Wall::new(110_000, 99_000, 110_000, 101_000, 400),
    Wall::new(110_000, 100_000, 110_000, 101_000, 400),
    Wall::new(100_000, 99_000, 100_000, 101_000, 400),
    Wall::new(100_000, 100_000, 99_000, 101_000, 400),
    Wall::new(110_001, 99_000, 110_001, 101_000, 400),
    Wall::new(99_999, 99_000, 99_999, 101_000, 400),
    // along the way, over all of it, and beside it
    Wall::new(103_000, 100_000, 107_000, 100_000, 400),
    Wall::new(90_000, 100_000, 120_000, 100_000, 400),
    Wall::new(90_000, 100_001, 120_000, 100_001, 400),
    // from one end of the map to the other, and nearly along the way
    Wall::new(105_000, 0, 105_000, FARTHEST, 400),
    Wall::new(0, 0, FARTHEST, FARTHEST, 400),
    Wall::new(90_000, 99_999, 120_000, 100_001, 400),
];

/// Records that place every one of these walls into one slot, with each of two others in a second one,
/// and those of the worked case at every height.
fn walls_in_place() -> Vec<Record> {
    let far = example_source().moved(110_000, 100_000);
    let mut records = vec![Record::PlaceSource(0, far)];
    for wall in WORKED_WALLS {
        records.push(Record::PlaceWall(0, wall));
        records.extend([WORKED_WALLS[7], FAR_WALL].map(|other| Record::PlaceWall(1, other)));
    }
    records.push(Record::PlaceSource(0, example_source()));
    let halfway = halfway_walls().into_iter();
    records.extend(halfway.map(|wall| Record::PlaceWall(0, wall)));
    records
}

/// The wall halfway in the worked case, where hD is 2250 and the ground takes nothing, at heights about
/// hD and all others worth trying.
fn halfway_walls() -> Vec<Wall> {
    let mut heights = WALL_HEIGHT.inner_edges();
    heights.extend([224, 225, 226, 250, 400]);
    let with_height = |height| Wall {
        height,
        ..HALFWAY_WALL
    };
    heights.into_iter().map(with_height).collect()
}

/// A job in which such walls come and go before the source of the worked case in every kind.
fn halfway_job() -> Vec<u8> {
    let mut job = vec![Record::PlaceReceiver(5, example_receiver())];
    for source in every_way(example_source()) {
        job.push(source);
        for wall in halfway_walls() {
            job.extend([Record::PlaceWall(0, wall), Record::Ask(5)]);
            job.push(Record::WithdrawWall(0));
        }
        job.push(Record::WithdrawSource(source.slot()));
    }
    bytes_of(&job)
}

/// A job in which roads between two ends come before two walls that count for some of their pieces,
/// while others of their pieces are too near or too far, or are not, and uncut ones which are too long,
/// just not, or too loud; and again before one of the walls.
fn crowded_job() -> Vec<u8> {
    let wall = |slot, x| Record::PlaceWall(slot, Wall::new(x, 99_000, x, 101_000, 300));
    let mut job = vec![Record::PlaceReceiver(5, example_receiver())];
    job.extend([wall(0, 100_500), wall(1, 100_501)]);
    let uncut = [
        example_source().uncut(PAPER_LENGTHS[1]),
        example_source().uncut(PAPER_LENGTHS[2]),
        loudest_source().moved(100_600, 100_000).uncut(250),
        loudest_source().moved(100_600, 100_000).uncut(400),
    ];
    let uncut = uncut.map(|source| Record::PlaceSource(3, source));
    let roads = worked_records().into_iter().chain(uncut);
    let tried = roads.flat_map(|road| {
        let leave = Record::WithdrawSource(road.slot());
        [road, Record::Ask(5), leave]
    });
    job.extend(tried.clone());
    job.push(Record::WithdrawWall(1));
    job.extend(tried);
    bytes_of(&job)
}

/// A job in which these walls come and go, one alone and with the one after it, between the receiver
/// of the worked case and sources at 100 m of every kind.
fn walled_job() -> Vec<u8> {
    let mut job = vec![Record::PlaceReceiver(5, example_receiver())];
    let ask = Record::Ask(5);
    for source in every_way(example_source().moved(110_000, 100_000)) {
        let leave = Record::WithdrawSource(source.slot());
        job.extend([source, ask]);
        for (at, &wall) in WORKED_WALLS.iter().enumerate() {
            let next = WORKED_WALLS[(at + 1) % WORKED_WALLS.len()];
            job.extend([Record::PlaceWall(0, wall), ask, leave, source, ask]);
            job.extend([
                Record::PlaceWall(63, next),
                ask,
                Record::WithdrawWall(0),
                ask,
            ]);
            job.extend([
                Record::PlaceWall(0, wall),
                leave,
                Record::PlaceWall(0, wall),
                source,
            ]);
            job.extend([Record::WithdrawWall(63), Record::WithdrawWall(0), source]);
        }
        job.push(leave);
    }
    bytes_of(&job)
}

/// Roads 1200 m east of the receiver of the worked case: their length, their vehicles in every period,
/// whether they have several lanes, and their reflection code. By night their share levels are
pub const FAR_ROADS: [[i64; 4]; 12] = [
    // 0, -1, -2,
    [1000, 24_450, 0, 0],
    [1000, 24_400, 0, 0],
    [1000, 24_350, 0, 0],
    // -999, -1000, -1001,
    [100, 24_500, 0, 0],
    [100, 24_450, 0, 0],
    [100, 24_400, 0, 0],
    // -2000, -2001,
    [10, 24_450, 0, 0],
    [10, 24_400, 0, 0],
    // -2639, -5302,
    [10, 5615, 0, 0],
    [1, 770, 0, 4],
    // -6000 and -6001
    [1, 309, 1, 4],
    [1, 308, 1, 4],
];

/// Of these, those of which a hundred together are heard, or just not.
const HEARD_TOGETHER: usize = 8;

/// The one of these at -1, two that bring it to just a million together, and the last two.
const JUST_BELOW: usize = 1;
const MAKES_UP: [usize; 2] = [8, 9];
const ONE_UNIT: usize = 10;
const NO_UNIT: usize = 11;

/// One of these roads.
pub fn far_source(road: usize) -> Source {
    let [length, vehicles, several_lanes, reflection] = FAR_ROADS[road];
    let trucks = 0;
    Source {
        course: Course::uncut(220_000, 100_000, length),
        several_lanes,
        reflection,
        traffic: [Traffic { vehicles, trucks }; 3],
        ..example_source()
    }
}

fn place_far(slot: i64, road: usize) -> Record {
    Record::PlaceSource(slot, far_source(road))
}

/// A job in which a road at -0.01 dB by night comes, a second one, and 298 more; then all but one go.
pub fn valley_example() -> Vec<u8> {
    let ask = Record::Ask(5);
    let mut job = vec![Record::PlaceReceiver(5, example_receiver())];
    job.extend([place_far(0, JUST_BELOW), ask, place_far(1, JUST_BELOW), ask]);
    job.extend((2..300).map(|slot| place_far(slot, JUST_BELOW)));
    job.push(ask);
    job.extend((1..300).map(Record::WithdrawSource));
    job.push(ask);
    bytes_of(&job)
}

/// A job in which far roads come to just a million by night: the one at -0.01 dB with two others, and
/// with four that bring one unit each in place of the second. Four that bring none change nothing.
pub fn verge_example() -> Vec<u8> {
    let ask = Record::Ask(5);
    let [second, third] = MAKES_UP;
    let mut job = vec![
        Record::PlaceReceiver(5, example_receiver()),
        place_far(0, JUST_BELOW),
        place_far(1, second),
        place_far(2, third),
        ask,
        Record::WithdrawSource(2),
    ];
    job.extend((2..6).map(|slot| place_far(slot, NO_UNIT)));
    job.push(ask);
    job.extend((6..10).flat_map(|slot| [place_far(slot, ONE_UNIT), ask]));
    bytes_of(&job)
}

/// A job in which a hundred and one of the same far road come and go one by one, for each of which a
/// hundred can be heard together.
fn together_job() -> Vec<u8> {
    let ask = Record::Ask(5);
    let mut job = vec![Record::PlaceReceiver(5, example_receiver())];
    for road in 0..HEARD_TOGETHER {
        job.extend((0..=100).flat_map(|slot| [place_far(slot, road), ask]));
        job.extend((0..=100).flat_map(|slot| [Record::WithdrawSource(slot), ask]));
    }
    bytes_of(&job)
}

/// A record with all fields wrong from one on that can be, for one field after the other.
fn wrong_from_each(record: Record, bits: impl Fn(&Field) -> u32) -> Vec<Record> {
    wrong_from(record, record.fields(), bits)
}

/// The same for some of its fields, which are the last.
fn wrong_from(mut record: Record, fields: &[Field], bits: impl Fn(&Field) -> u32) -> Vec<Record> {
    let mut records = Vec::new();
    for field in fields.iter().rev() {
        for wrong in field.outer_edges(bits(field)) {
            record = record.with(field, wrong);
            records.push(record);
        }
    }
    records
}

/// Every surface at the speeds at which it may count otherwise.
fn surfaced_sources() -> Vec<Source> {
    let at_speed = |&car_speed: &i64| {
        (SURFACE.least()..=SURFACE.most()).map(move |surface| Source {
            car_speed,
            surface,
            ..example_source()
        })
    };
    TURNING_SPEEDS.iter().flat_map(at_speed).collect()
}

/// A job that tries one record after the other beside the receiver of the worked case.
/// What it places it asks about and takes away again; that receiver is placed anew where it may
/// have gone.
fn parade(records: &[Record]) -> Vec<u8> {
    let stays = Record::PlaceReceiver(5, example_receiver());
    let mut job = vec![stays];
    for &record in records {
        job.push(record);
        match record {
            Record::PlaceSource(slot, _) | Record::PlaceDaily(slot, _) => {
                job.extend([Record::Ask(5), Record::WithdrawSource(slot)]);
            }
            Record::PlaceReceiver(slot, _) => {
                job.extend([Record::Ask(slot), Record::WithdrawReceiver(slot), stays]);
            }
            Record::PlaceWall(slot, _) => {
                job.extend([Record::Ask(5), Record::WithdrawWall(slot)]);
            }
            Record::WithdrawReceiver(_) => job.push(stays),
            _ => {}
        }
    }
    bytes_of(&job)
}

/// A job that tries one record after the other in the worked case, each in place of the one before,
/// and asks the receiver after it. What is withdrawn is placed anew.
fn parade_in_place(records: &[Record]) -> Vec<u8> {
    let ask = Record::Ask(5);
    let stays = [
        Record::PlaceReceiver(5, example_receiver()),
        Record::PlaceSource(0, example_source()),
        Record::PlaceWall(STANDING, FAR_WALL),
    ];
    let mut job = stays.to_vec();
    for &record in records {
        job.extend([record, ask]);
        match record {
            Record::WithdrawReceiver(_) | Record::PlaceReceiver(5, _) => job.push(stays[0]),
            Record::WithdrawSource(_) => job.push(stays[1]),
            Record::WithdrawWall(_) => job.push(stays[2]),
            Record::PlaceReceiver(slot, _) => job.push(Record::Ask(slot)),
            _ => {}
        }
    }
    bytes_of(&job)
}

/// Records that place such sources into the last slot.
pub(crate) fn surfaced_records() -> Vec<Record> {
    let places = surfaced_sources().into_iter().flat_map(every_way);
    let last = |place: Record| place.with(&SOURCE_SLOT, SOURCE_SLOT.most());
    places.map(last).collect()
}

/// Jobs that are tried every time.
pub fn fixed_jobs() -> Vec<Vec<u8>> {
    let after_example = |bytes: &Vec<u8>| [example(), bytes.clone()].concat();
    let mut jobs = vec![
        Vec::new(),
        example(),
        walled_example(),
        valley_example(),
        verge_example(),
        together_job(),
        parade(&trial_records(|field| field.bits)),
        parade(&surfaced_records()),
        parade(&worked_records()),
        exchange_example(),
        parade_in_place(&trial_records(|field| field.bits)),
        parade_in_place(&surfaced_records()),
        parade_in_place(&worked_records()),
        parade_in_place(&walls_in_place()),
        walled_job(),
        halfway_job(),
        crowded_job(),
        [example(), leftover_records().concat()].concat(),
    ];
    jobs.extend(cut_records().iter().map(after_example));
    jobs.extend(unlisted_records().iter().map(after_example));
    jobs.extend(unlisted_records());
    jobs
}

/// The stored state of the worked case, with a source more that is cut and a wall before both.
pub(crate) fn example_image() -> Vec<u8> {
    let mut book = Book::cleared();
    let placed = book
        .place_receiver(5, &example_receiver())
        .and_then(|()| book.place_source(0, &walled_source()))
        .and_then(|()| book.place_source(4, &cut_source()))
        .and_then(|()| book.place_wall(STANDING, &HALFWAY_WALL));
    assert!(placed.is_ok(), "the worked case is accepted");
    encode(&book)
}

/// Probes of records: every one that can be broken in one way, on a sound state and a bad one.
fn record_frames() -> Vec<Frame> {
    let mut records = vec![Vec::new()];
    records.extend(one_of_each().map(|record| record.bytes()));
    records.extend(cut_records());
    records.extend(unlisted_records());
    records.extend(leftover_records());
    let tried = trial_records(|field| field.bits).into_iter();
    records.extend(tried.chain(surfaced_records()).map(|record| record.bytes()));
    let mut frames = Vec::new();
    for record in records {
        for image in [example_image(), vec![1; 3]] {
            let record = record.clone();
            frames.push(Frame { image, record });
        }
    }
    frames
}

/// A stored state with one record after the other.
pub(crate) fn frames_on(image: &[u8], records: &[Record]) -> Vec<Frame> {
    let frame = |record: &Record| Frame {
        image: image.to_vec(),
        record: record.bytes(),
    };
    records.iter().map(frame).collect()
}

/// The worked case with one field of a slot set to a value.
fn image_with(slot_at: usize, widths: &[usize], field: usize, value: u64) -> Vec<u8> {
    let mut image = example_image();
    set_field(&mut image, slot_at, widths, field, value);
    image
}

/// Probes of fields: each of the standing sources, the receiver and the wall at every value worth
/// trying, with a question and withdrawals; and each sum, with one record of every kind.
fn field_frames() -> Vec<Frame> {
    let mut frames = Vec::new();
    for (slot, fields) in [(0, &UNCUT_SLOT), (4, &BETWEEN_SLOT)] {
        let at = source_at(slot);
        for field in fields {
            let images = images_with(at, &SOURCE_BYTES, source_index(field), field);
            frames.extend(images.iter().flat_map(|image| looks(image, slot)));
        }
    }
    for field in &RECEIVER_FIELDS[1..] {
        let at = receiver_at(5);
        let images = images_with(at, &RECEIVER_BYTES, receiver_index(field), field);
        frames.extend(images.iter().flat_map(|image| looks(image, 4)));
    }
    for field in &WALL_FIELDS[1..] {
        let at = wall_at(STANDING as usize);
        let images = images_with(at, &WALL_BYTES, wall_index(field), field);
        frames.extend(images.iter().flat_map(|image| looks(image, 4)));
    }
    for sum in sum_edges() {
        for field in SUMS..RECEIVER_BYTES.len() {
            let image = image_with(receiver_at(5), &RECEIVER_BYTES, field, sum);
            frames.extend(frames_on(&image, &one_of_each()));
        }
    }
    frames
}

/// The worked case with one field of a slot at every value worth trying.
fn images_with(slot_at: usize, widths: &[usize], index: usize, field: &Field) -> Vec<Vec<u8>> {
    let values = trial_values(&mut Chance::new(0), field, field.stored_bits()).into_iter();
    values
        .map(|value| image_with(slot_at, widths, index, value as u64))
        .collect()
}

/// Probes of a stored state by a question, and by the withdrawal of a source and of the wall.
fn looks(image: &[u8], slot: usize) -> Vec<Frame> {
    let leave = Record::WithdrawSource(slot as i64);
    let fall = Record::WithdrawWall(STANDING);
    frames_on(image, &[Record::Ask(5), leave, fall])
}

/// Probes of walls: those of the worked way placed and standing, alone, with another one and with
/// both ends at one place, while the sums are anything and the source stands or not.
fn wall_frames() -> Vec<Frame> {
    let mut book = Book::cleared();
    book.accounts[5] = Some(Account {
        receiver: example_receiver(),
        sums: [TOP, 0, FAINTEST],
    });
    let source = example_source().moved(110_000, 100_000);
    let enter = Record::PlaceSource(0, source);
    let mut frames = Vec::new();
    for wall in WORKED_WALLS {
        book.walls[0] = None;
        book.sources[0] = Some(source);
        let place = Record::PlaceWall(0, wall);
        frames.extend(frames_on(&encode(&book), &[place, Record::WithdrawWall(0)]));
        book.walls[0] = Some(wall);
        let again = Record::PlaceWall(1, WORKED_WALLS[0]);
        let leave = Record::WithdrawSource(0);
        let calls = [again, place, Record::WithdrawWall(0), leave];
        frames.extend(frames_on(&encode(&book), &calls));
        book.sources[0] = None;
        frames.extend(frames_on(&encode(&book), &[enter, again]));
    }
    for record in pointed_records() {
        let mut image = encode(&book);
        let values = record.values();
        for (index, &value) in values[1..].iter().enumerate() {
            set_field(&mut image, wall_at(0), &WALL_BYTES, index, value as u64);
        }
        frames.extend(frames_on(&image, &[Record::Ask(5)]));
    }
    frames
}

/// Probes of far roads: each placed beside the receiver of the worked case, there when it is placed,
/// and withdrawn where its sums are just enough for it, or one of them is not.
fn far_frames() -> Vec<Frame> {
    let receiver = example_receiver();
    let (leave, stays) = (
        Record::WithdrawSource(0),
        Record::PlaceReceiver(5, receiver),
    );
    let mut frames = Vec::new();
    for road in 0..FAR_ROADS.len() {
        let mut book = Book::cleared();
        book.apply(&stays);
        let place = place_far(0, road);
        frames.extend(frames_on(&encode(&book), &[place]));
        book.apply(&place);
        frames.extend(frames_on(&encode(&book), &[leave, Record::Ask(5)]));
        for period in 0..3 {
            let mut short = book.clone();
            let account = short.accounts[5].as_mut().expect("the receiver stands");
            account.sums[period] = (account.sums[period] - 1).max(0);
            frames.extend(frames_on(&encode(&short), &[leave]));
        }
        book.apply(&Record::WithdrawReceiver(5));
        frames.extend(frames_on(&encode(&book), &[stays]));
    }
    frames
}

/// Probes of courses: sources between two ends placed and standing, and every byte that may say how
/// four numbers are to be taken, where they can be taken in either way.
fn course_frames() -> Vec<Frame> {
    let mut frames = frames_on(&example_image(), &worked_records());
    for source in laid_sources() {
        let mut book = decode(&example_image()).expect("the worked case is sound");
        book.sources[4] = Some(source);
        frames.extend(looks(&encode(&book), 4));
    }
    for told in [0, 1, 2, 3, 127, 128, 254, 255] {
        for last in [0, 1, 256, 65_536] {
            let mut image = example_image();
            for (index, value) in [told, 2000, 3000, 1000, last].into_iter().enumerate() {
                set_field(&mut image, source_at(4), &SOURCE_BYTES, index, value);
            }
            frames.extend(looks(&image, 4));
        }
    }
    frames
}

/// Sums worth trying: the greatest and those beside it, and the ends of what the bytes hold.
pub(crate) fn sum_edges() -> [u64; 8] {
    let (top, half) = (TOP as u64, 1 << 63);
    [0, 1, top - 1, top, top + 1, half - 1, half, u64::MAX]
}

/// Probes of pairs of fields that hang together, in both standing sources: surface and speed, walls
/// and their sizes.
fn paired_frames() -> Vec<Frame> {
    let mut frames = Vec::new();
    let mut add = |settings: &[(Field, i64)]| {
        for slot in [0, 4] {
            let mut image = example_image();
            for (field, value) in settings {
                let index = source_index(field);
                set_field(
                    &mut image,
                    source_at(slot),
                    &SOURCE_BYTES,
                    index,
                    *value as u64,
                );
            }
            let record = Record::Ask(5).bytes();
            frames.push(Frame { image, record });
        }
    };
    for source in surfaced_sources() {
        add(&[(CAR_SPEED, source.car_speed), (SURFACE, source.surface)]);
    }
    for parallel_walls in PARALLEL_WALLS.least()..=PARALLEL_WALLS.most() + 1 {
        for height in PARALLEL_HEIGHT.edges(PARALLEL_HEIGHT.stored_bits()) {
            for spacing in PARALLEL_SPACING.edges(PARALLEL_SPACING.stored_bits()) {
                add(&[
                    (PARALLEL_WALLS, parallel_walls),
                    (PARALLEL_HEIGHT, height),
                    (PARALLEL_SPACING, spacing),
                ]);
            }
        }
    }
    add(&[(GRADIENT, MINUS)]);
    frames
}

/// Probes of single bytes: use marks, and every byte of slots that are not in use.
fn byte_frames() -> Vec<Frame> {
    let mut places = Vec::new();
    let sources = [0, 1, 4, SOURCES - 1].map(source_at);
    let receivers = [0, 5, 6, RECEIVERS - 1].map(receiver_at);
    let walls = [0, STANDING as usize, WALLS - 1].map(wall_at);
    for mark in sources.into_iter().chain(receivers).chain(walls) {
        places.extend([0, 1, 2, 3, 127, 128, 255].map(|byte| (mark, byte)));
    }
    for slot_at in [1, SOURCES - 1].map(source_at) {
        places.extend((1..SOURCE_SIZE).map(|at| (slot_at + at, 1)));
    }
    for slot_at in [0, RECEIVERS - 1].map(receiver_at) {
        places.extend((1..RECEIVER_SIZE).map(|at| (slot_at + at, 128)));
    }
    for slot_at in [0, WALLS - 1].map(wall_at) {
        places.extend((1..WALL_SIZE).map(|at| (slot_at + at, 1)));
    }
    let frame = |(at, byte): (usize, u8)| {
        let mut image = example_image();
        image[at] = byte;
        let record = Record::Ask(5).bytes();
        Frame { image, record }
    };
    places.into_iter().map(frame).collect()
}

/// Probes of lengths, each with one record of every kind.
fn length_frames() -> Vec<Frame> {
    let mut frames = Vec::new();
    for length in [
        0,
        1,
        STORE_SIZE - 1,
        STORE_SIZE,
        STORE_SIZE + 1,
        LONGEST_IMAGE,
    ] {
        let mut image = example_image();
        image.resize(length, 0);
        frames.extend(frames_on(&image, &one_of_each()));
    }
    frames
}

/// Probes that are tried every time.
pub fn fixed_frames() -> Vec<Frame> {
    let mut frames = record_frames();
    frames.extend(field_frames());
    frames.extend(course_frames());
    frames.extend(wall_frames());
    frames.extend(far_frames());
    frames.extend(exchange_frames());
    frames.extend(paired_frames());
    frames.extend(byte_frames());
    frames.extend(length_frames());
    frames
}
