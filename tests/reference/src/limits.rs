// Roads and receivers tight against the limits: exact distances, exact share levels.
// What lies on a limit is searched for, so that one step further lies beyond it.

use crate::chance::Chance;
use crate::course::{Course, Piece};
use crate::daily::Daily;
use crate::fields::{
    widest, Field, CAR_SPEED, CLASS, DTV, FARTHEST, GRADIENT, HEIGHT, LENGTH, MINUS, REFLECTION,
    STEEPEST, TRUCK_SPEED, VEHICLES,
};
use crate::road::{
    brought, emission, heard, root, PeriodLevels, Receiver, Source, Traffic, CAR_SPEEDS,
    FARTHEST_SQUARE, FAST_ABOVE, FAST_SURFACE, FLAT, NEAREST_SQUARE, SOURCE_HEIGHT,
    SURFACE_COLUMNS, TRUCK_SPEEDS,
};
use std::sync::LazyLock;

/// How a source lies from a receiver of a certain height.
#[derive(Clone, Copy, Debug)]
pub struct Way {
    pub dx: i64,
    pub dy: i64,
    pub height: i64,
}

/// Steps from the limits of squared distances to those nearest to them that there are.
pub static NEAR_STEPS: LazyLock<Vec<i64>> = LazyLock::new(|| steps_around(NEAREST_SQUARE));
pub static FAR_STEPS: LazyLock<Vec<i64>> = LazyLock::new(|| steps_around(FARTHEST_SQUARE));

/// Half of the nearest distance.
pub const HALF_NEAREST: i64 = 250;
const _: () = assert!(4 * HALF_NEAREST * HALF_NEAREST == NEAREST_SQUARE);

/// Lengths whose double can be a distance, from nearly the least to nearly the greatest.
pub const HALVES: [i64; 6] = [
    HALF_NEAREST + 1,
    HALF_NEAREST + 2,
    1000,
    1263,
    9999,
    LENGTH.most() - 1,
];

/// Distances and lengths of which one or two are refused, as worked out on paper for the
/// receiver of the example and, the lengths, for a distance of 25 m.
pub const PAPER_WAYS: [i64; 3] = [0, 357, 358];
pub const PAPER_LENGTHS: [i64; 4] = [1261, 1262, 1263, 1264];

/// So far along both axes no pair is too near.
pub const APART: i64 = 360;
const _: () = assert!(2 * APART * APART >= NEAREST_SQUARE);

/// Room on the map, enough for every distance that is accepted and some that are not.
pub const ROOM: i64 = 500_000;
const _: () = assert!(ROOM * ROOM > 2 * FARTHEST_SQUARE);

/// Speeds at which something changes, for cars or for trucks, and those beside them.
pub static TURNING_SPEEDS: LazyLock<Vec<i64>> = LazyLock::new(turning_speeds);

fn turning_speeds() -> Vec<i64> {
    let ends = [CAR_SPEEDS.0, CAR_SPEEDS.1, TRUCK_SPEEDS.0, TRUCK_SPEEDS.1];
    let turns = ends.into_iter().chain(SURFACE_COLUMNS).chain([FAST_ABOVE]);
    let mut speeds: Vec<i64> = turns.flat_map(|turn| [turn - 1, turn, turn + 1]).collect();
    speeds.extend(CAR_SPEED.inner_edges());
    speeds.extend(TRUCK_SPEED.inner_edges());
    speeds.sort_unstable();
    speeds.dedup();
    speeds
}

/// Steps to the two squared distances nearest below a limit and the two nearest above it, and
/// to the limit itself if any way has it.
fn steps_around(limit: i64) -> Vec<i64> {
    let steps = |sign: i64| {
        let mut chance = Chance::new(0);
        let there = move |step: &i64| way_of_square(&mut chance, limit + step).is_some();
        let steps = (1..100).map(move |step| sign * step);
        steps.filter(there).take(2)
    };
    let own = way_of_square(&mut Chance::new(0), limit).map(|_| 0);
    steps(-1).chain(own).chain(steps(1)).collect()
}

/// A way whose squared distance in space is exactly the given one, if there is any.
pub fn way_of_square(chance: &mut Chance, square: i64) -> Option<Way> {
    let heights = HEIGHT.most() - HEIGHT.least() + 1;
    let first = chance.between(0, heights - 1);
    for turn in 0..heights {
        let height = HEIGHT.least() + (first + turn) % heights;
        let rise = height - SOURCE_HEIGHT;
        let on_map = square - rise * rise;
        if let Some((dx, dy)) = two_squares(chance, on_map) {
            return Some(turned(chance, Way { dx, dy, height }));
        }
    }
    None
}

/// Whether a number is surely no sum of two squares, from the primes that such a sum
/// can only have an even number of times.
fn hopeless(sum: i64) -> bool {
    let odd_times = |prime: i64| sum % prime == 0 && sum % (prime * prime) != 0;
    sum < 0 || sum % 4 == 3 || [3, 7, 11, 19, 23, 31, 43, 47].into_iter().any(odd_times)
}

fn two_squares(chance: &mut Chance, sum: i64) -> Option<(i64, i64)> {
    if hopeless(sum) {
        return None;
    }
    let widest = root(sum);
    let first = chance.between(0, widest);
    (0..=widest)
        .map(|turn| (first + turn) % (widest + 1))
        .map(|dx| (dx, root(sum - dx * dx)))
        .find(|(dx, dy)| dx * dx + dy * dy == sum)
}

/// The same way to another side.
fn turned(chance: &mut Chance, way: Way) -> Way {
    let (a, b) = if chance.one_in(2) {
        (way.dx, way.dy)
    } else {
        (way.dy, way.dx)
    };
    Way {
        dx: a * chance.pick(&[-1, 1]),
        dy: b * chance.pick(&[-1, 1]),
        height: way.height,
    }
}

/// A way to any side, from the nearest to the given distance along both axes.
pub fn any_way(chance: &mut Chance, farthest: i64) -> Way {
    Way {
        dx: chance.between(APART, farthest) * chance.pick(&[-1, 1]),
        dy: chance.between(APART, farthest) * chance.pick(&[-1, 1]),
        height: chance.edge_in(&HEIGHT),
    }
}

impl Way {
    /// A receiver with room around it.
    pub fn receiver(&self, chance: &mut Chance) -> Receiver {
        Receiver {
            x: chance.between(ROOM, FARTHEST - ROOM),
            y: chance.between(ROOM, FARTHEST - ROOM),
            height: self.height,
        }
    }

    /// The source moved to where this way leads from the receiver.
    pub fn place(&self, source: Source, receiver: &Receiver) -> Source {
        source.moved(receiver.x + self.dx, receiver.y + self.dy)
    }
}

/// A road as loud as can be, but for its traffic and length.
pub fn loud_road(chance: &mut Chance) -> Source {
    Source {
        course: Course::uncut(0, 0, chance.between(150, HALF_NEAREST)),
        several_lanes: chance.between(0, 1),
        car_speed: chance.between(100, CAR_SPEED.most()),
        truck_speed: chance.between(60, TRUCK_SPEED.most()),
        surface: FAST_SURFACE - 1,
        gradient: chance.pick(&[STEEPEST, MINUS + STEEPEST]),
        parallel_walls: 1,
        parallel_height: 2000,
        parallel_spacing: 1500,
        traffic: [Traffic::default(); 3],
        reflection: REFLECTION.least(),
    }
}

/// The share levels of an uncut source without walls.
pub fn uncut_levels(source: &Source, receiver: &Receiver) -> PeriodLevels {
    let piece = Piece::new(source.course.middle(), source.course.length(), receiver);
    heard(&emission(source), &piece, receiver, 0)
}

/// The share level of one period with the given traffic; none without any.
fn level_with(source: &Source, receiver: &Receiver, period: usize, vehicles: i64) -> Option<i64> {
    let mut source = *source;
    source.traffic[period].vehicles = vehicles;
    uncut_levels(&source, receiver)[period]
}

/// The least traffic that lifts one period's share level to the given one, if any does.
pub fn tuned(source: &Source, receiver: &Receiver, period: usize, level: i64) -> Option<i64> {
    let lifts = |vehicles| level_with(source, receiver, period, vehicles) >= Some(level);
    least(VEHICLES.most(), lifts)
}

/// The least traffic that brings one period's share level to just the given one, if any does.
pub fn tuned_to(source: &Source, receiver: &Receiver, period: usize, level: i64) -> Option<i64> {
    let vehicles = tuned(source, receiver, period, level)?;
    let found = level_with(source, receiver, period, vehicles);
    (found == Some(level)).then_some(vehicles)
}

/// The least traffic that lifts one period's share to the given one at least, if any does.
pub fn tuned_share(source: &Source, receiver: &Receiver, period: usize, share: i64) -> Option<i64> {
    let enough = |vehicles| {
        let mut source = *source;
        source.traffic[period].vehicles = vehicles;
        let shares = brought(&source, &emission(&source), receiver, &[]);
        shares.is_ok_and(|shares| shares[period] >= share)
    };
    least(VEHICLES.most(), enough)
}

/// A road whose daily figure is just enough, or just not, to lift one period's share level to the
/// given one; the greatest figure where none is enough.
pub fn tuned_by_day(
    chance: &mut Chance,
    road: Source,
    receiver: &Receiver,
    period: usize,
    level: i64,
) -> Daily {
    let class = chance.within(&CLASS);
    let lifts = |dtv| {
        let source = Daily::new(road, class, dtv).source();
        uncut_levels(&source, receiver)[period] >= Some(level)
    };
    let dtv = least(DTV.most(), lifts).map(|dtv| dtv - chance.between(0, 1));
    Daily::new(road, class, dtv.unwrap_or(DTV.most()))
}

/// The least number above 0, up to the most there is, from which on something holds.
fn least(most: i64, holds: impl Fn(i64) -> bool) -> Option<i64> {
    let (mut low, mut high) = (0, most);
    if !holds(high) {
        return None;
    }
    while high - low > 1 {
        let middle = (low + high) / 2;
        if holds(middle) {
            high = middle;
        } else {
            low = middle;
        }
    }
    Some(high)
}

/// Values at which a term changes, of the fields that have such.
fn turns(field: &Field) -> Vec<i64> {
    if field == &GRADIENT {
        return vec![FLAT, FLAT + 1, MINUS + FLAT, MINUS + FLAT + 1];
    }
    if field == &CAR_SPEED || field == &TRUCK_SPEED {
        return TURNING_SPEEDS.clone();
    }
    Vec::new()
}

/// A value worth trying for a field in so many bits, every other time one just past its edges.
pub fn trial_value(chance: &mut Chance, field: &Field, bits: u32) -> i64 {
    let past = field.outer_edges(bits);
    if past.is_empty() || chance.one_in(2) {
        let values = trial_values(chance, field, bits);
        chance.pick(&values)
    } else {
        chance.pick(&past)
    }
}

/// Values worth trying for a field in so many bits, allowed or not, and one by chance.
pub fn trial_values(chance: &mut Chance, field: &Field, bits: u32) -> Vec<i64> {
    let mut values = field.edges(bits);
    values.extend(turns(field));
    values.push(chance.between(0, widest(bits)));
    values
}
