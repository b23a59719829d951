// Roads between two ends by chance, beside a receiver: in all directions, and tight against the
// limits of lengths, of distances, of cutting and of what all pieces together may bring.

use crate::chance::Chance;
use crate::course::{Course, Point, SHORT};
use crate::fields::{FARTHEST, HEIGHT, LENGTH, VEHICLES};
use crate::level::FAINTEST;
use crate::limits::{
    loud_road, tuned_share, way_of_square, Way, FAR_STEPS, HALF_NEAREST, HALVES, NEAR_STEPS,
};
use crate::road::{
    root, Receiver, Source, Traffic, FARTHEST_SQUARE, GREATEST_SHARE, NEAREST_SQUARE, SOURCE_HEIGHT,
};
use crate::town::{road, traffic};

/// How far the second end is from the first, to the east and to the north.
pub type Span = (i64, i64);

/// What makes one kind of pair.
type Maker = fn(&mut Chance) -> (Receiver, Source);

/// Makers of pairs, each for limits of its own.
pub const MAKERS: [Maker; 10] = [
    passing, leading, over, near, far, halved, stretched, loud, faint, silent,
];

/// Lengths at which a road between two ends is treated otherwise, and those beside them.
pub const TURNING_LENGTHS: [i64; 9] = [
    LENGTH.least() - 1,
    LENGTH.least(),
    LENGTH.least() + 1,
    SHORT - 1,
    SHORT,
    SHORT + 1,
    LENGTH.most() - 1,
    LENGTH.most(),
    LENGTH.most() + 1,
];

/// A road of any such kind, and its receiver.
pub fn pair(chance: &mut Chance) -> (Receiver, Source) {
    let maker = chance.pick(&MAKERS);
    maker(chance)
}

/// A span of a length in any direction, along an axis or aslant; the root is taken down, so that
/// a slanting one may be nearly one longer.
pub fn span(chance: &mut Chance, length: i64) -> Span {
    let diagonal = root(length * length / 2);
    let any = chance.between(0, length);
    let across = chance.pick(&[0, length, diagonal, any, any]);
    let most = root((length + 1) * (length + 1) - 1 - across * across);
    let least = root(length * length - across * across);
    let exact = least * least + across * across == length * length;
    let along = chance.edge(if exact { least } else { least + 1 }, most);
    let (dx, dy) = if chance.one_in(2) {
        (across, along)
    } else {
        (along, across)
    };
    (dx * chance.pick(&[-1, 1]), dy * chance.pick(&[-1, 1]))
}

/// The course of a span that has its middle at a place.
pub fn spanned(middle: Point, (dx, dy): Span) -> Course {
    let (x, y) = (middle.x - dx.div_euclid(2), middle.y - dy.div_euclid(2));
    Course::between(x, y, x + dx, y + dy)
}

/// A course made twice as long at its second end: halved, it has the old one as its first half,
/// also where the mean of its ends is taken down.
fn doubled(chance: &mut Chance, course: Course) -> Course {
    let Course::Between { first, second } = course else {
        return course;
    };
    let beyond = Point {
        x: 2 * second.x - first.x + chance.between(0, 1),
        y: 2 * second.y - first.y + chance.between(0, 1),
    };
    Course::Between {
        first,
        second: beyond,
    }
}

/// A course made twice as long so often, on either side, as far as lengths are allowed.
fn grown(chance: &mut Chance, mut course: Course, times: i64) -> Course {
    for _ in 0..times {
        let longer = doubled(chance, course);
        if !LENGTH.allows(longer.length()) {
            return course;
        }
        course = chance.pick(&[longer, longer.reversed()]);
    }
    course
}

/// A receiver with room around it.
fn somewhere(chance: &mut Chance) -> Receiver {
    let way = Way {
        dx: 0,
        dy: 0,
        height: chance.edge_in(&HEIGHT),
    };
    way.receiver(chance)
}

/// The way on the map at which a piece is just too near, for a receiver's height.
fn nearest_on_map(receiver: &Receiver) -> i64 {
    let rise = receiver.height - SOURCE_HEIGHT;
    root(NEAREST_SQUARE - rise * rise)
}

/// A road of any kind, often one as loud as can be.
fn some_road(chance: &mut Chance) -> Source {
    if chance.one_in(3) {
        busy(chance)
    } else {
        road(chance)
    }
}

/// A road as loud as can be.
fn busy(chance: &mut Chance) -> Source {
    let mut road = loud_road(chance);
    road.traffic = [(); 3].map(|()| Traffic {
        vehicles: VEHICLES.most(),
        ..traffic(chance)
    });
    road
}

fn on(course: Course, road: Source) -> Source {
    Source { course, ..road }
}

/// The place beside a road at some part of its length, so far away.
fn beside(chance: &mut Chance, course: &Course, away: i64) -> Point {
    let Course::Between { first, second } = *course else {
        return course.middle();
    };
    let (dx, dy) = (second.x - first.x, second.y - first.y);
    let length = course.length().max(1);
    let part = chance.edge(0, length);
    let away = away * chance.pick(&[-1, 1]);
    Point {
        x: first.x + (dx * part - dy * away) / length,
        y: first.y + (dy * part + dx * away) / length,
    }
}

/// A receiver at such a place, or where the map ends.
pub fn receiver_beside(chance: &mut Chance, course: &Course, away: i64) -> Receiver {
    let here = beside(chance, course, away);
    Receiver {
        x: here.x.clamp(0, FARTHEST),
        y: here.y.clamp(0, FARTHEST),
        height: chance.edge_in(&HEIGHT),
    }
}

/// The course of a road of a length past the receiver, so far away.
fn past(chance: &mut Chance, receiver: &Receiver, length: i64, away: i64) -> Course {
    let course = spanned(Point::default(), span(chance, length));
    let here = beside(chance, &course, away);
    course.moved(receiver.x - here.x, receiver.y - here.y)
}

/// A road past the receiver, at just about the nearest way, somewhat farther, or anywhere.
fn passing(chance: &mut Chance) -> (Receiver, Source) {
    let receiver = somewhere(chance);
    let nearest = nearest_on_map(&receiver);
    let away = match chance.between(0, 2) {
        0 => chance.between(nearest - 2, nearest + 3),
        1 => nearest + chance.magnitude(1000),
        _ => nearest + chance.magnitude(90_000),
    };
    let length = chance.magnitude(LENGTH.most());
    let course = past(chance, &receiver, length, away);
    (receiver, on(course, some_road(chance)))
}

/// A road that leads straight to the receiver or away from it, and ends near or past the nearest.
fn leading(chance: &mut Chance) -> (Receiver, Source) {
    let receiver = somewhere(chance);
    let length = chance.between(1, 400) + chance.magnitude(LENGTH.most() - 400);
    let (dx, dy) = span(chance, length);
    let gap = nearest_on_map(&receiver) + chance.between(-200, 60);
    let (x, y) = (
        receiver.x + dx * gap / length,
        receiver.y + dy * gap / length,
    );
    let course = Course::between(x, y, x + dx, y + dy);
    let course = chance.pick(&[course, course.reversed()]);
    (receiver, on(course, some_road(chance)))
}

/// A road abreast of the receiver whose middle is too near although its halves are not, or are as
/// well, or that is just so short that it has no halves.
fn over(chance: &mut Chance) -> (Receiver, Source) {
    let receiver = somewhere(chance);
    let nearest = nearest_on_map(&receiver);
    let length = match chance.between(0, 2) {
        0 => chance.between(SHORT - 1, SHORT + 2),
        _ => chance.between(2 * SHORT - 40, 2 * SHORT + 3),
    };
    let (dx, dy) = span(chance, length);
    let away = nearest + 2 - chance.magnitude(40);
    let middle = Point {
        x: receiver.x - dy * away / length,
        y: receiver.y + dx * away / length,
    };
    (receiver, on(spanned(middle, (dx, dy)), some_road(chance)))
}

/// A piece whose squared distance is the given one, part of a longer road.
fn part(chance: &mut Chance, square: i64, length: i64, times: i64) -> (Receiver, Source) {
    let fallback = Way {
        dx: root(square),
        dy: 0,
        height: HEIGHT.least(),
    };
    let way = way_of_square(chance, square).unwrap_or(fallback);
    let receiver = way.receiver(chance);
    let middle = Point {
        x: receiver.x + way.dx,
        y: receiver.y + way.dy,
    };
    let span = span(chance, length);
    let course = grown(chance, spanned(middle, span), times);
    (receiver, on(course, some_road(chance)))
}

/// A piece just at the nearest distance, or one step beside it, mostly of a longer road.
fn near(chance: &mut Chance) -> (Receiver, Source) {
    let square = NEAREST_SQUARE + chance.pick(&NEAR_STEPS);
    let length = chance.between(HALF_NEAREST / 2, HALF_NEAREST);
    let times = chance.between(0, 8);
    part(chance, square, length, times)
}

/// A piece just at the farthest distance, or one step beside it, mostly of a longer road.
fn far(chance: &mut Chance) -> (Receiver, Source) {
    let square = FARTHEST_SQUARE + chance.pick(&FAR_STEPS);
    let length = chance.between(LENGTH.most() / 2 - 500, LENGTH.most() / 2 - 1);
    part(chance, square, length, 1)
}

/// A piece just so long that it is cut, or just not, alone or as part of a longer road; or just so
/// short that it is not although it is long for its distance.
fn halved(chance: &mut Chance) -> (Receiver, Source) {
    let half = chance.pick(&HALVES);
    let length = chance.pick(&[half, half, SHORT, SHORT + 1]);
    let square = 4 * length * length + chance.between(-3, 1);
    let times = chance.pick(&[0, 0, 1, 2]);
    part(chance, square, length, times)
}

/// A road of a length at which it is treated otherwise, near enough to be cut if it can be.
fn stretched(chance: &mut Chance) -> (Receiver, Source) {
    let receiver = somewhere(chance);
    let length = chance.pick(&TURNING_LENGTHS);
    let away = nearest_on_map(&receiver) + chance.magnitude(100);
    let course = past(chance, &receiver, length, away);
    (receiver, on(course, some_road(chance)))
}

/// A road whose pieces together bring just as much as they may in one period or in all, or just
/// more.
fn loud(chance: &mut Chance) -> (Receiver, Source) {
    let receiver = somewhere(chance);
    let length = chance.between(300, 1000) + chance.magnitude(5000);
    let away = nearest_on_map(&receiver) + chance.between(1, 200);
    let course = past(chance, &receiver, length, away);
    let mut source = on(course, loud_road(chance));
    let special = chance.between(0, 3) as usize;
    for period in 0..3 {
        source.traffic[period] = traffic(chance);
        let share = if period == special || special == 3 {
            GREATEST_SHARE + 1
        } else {
            GREATEST_SHARE / 10
        };
        if let Some(vehicles) = tuned_share(&source, &receiver, period, share) {
            source.traffic[period].vehicles = vehicles - chance.between(0, 1);
        }
    }
    (receiver, source)
}

/// A road whose pieces together bring just so much that it is heard in one period or in all, or just
/// not; most of them are below zero, and often all.
fn faint(chance: &mut Chance) -> (Receiver, Source) {
    let receiver = somewhere(chance);
    let length = chance.between(10_000, LENGTH.most());
    let away = chance.between(length / 8, length);
    let course = past(chance, &receiver, length, away);
    let mut source = on(course, road(chance));
    for period in 0..3 {
        let share = chance.pick(&[FAINTEST, FAINTEST, FAINTEST / 10, FAINTEST / 1000]);
        if let Some(vehicles) = tuned_share(&source, &receiver, period, share) {
            source.traffic[period].vehicles = vehicles - chance.between(0, 1);
        }
    }
    (receiver, source)
}

/// A road on which nothing drives, in some periods or in all; its pieces are judged all the same.
fn silent(chance: &mut Chance) -> (Receiver, Source) {
    let maker = chance.pick(&[passing, leading, over, near, far]);
    let (receiver, mut source) = maker(chance);
    let quiet = chance.between(0, 8) as usize;
    for period in 0..3 {
        if period == quiet || quiet >= 3 {
            source.traffic[period].vehicles = 0;
        }
    }
    (receiver, source)
}

/// Where a step leads from a place between two borders: the other way if it would cross one, and
/// no farther than to the other.
pub fn within(from: i64, step: i64, (least, most): (i64, i64)) -> i64 {
    let to = from + step;
    if least <= to && to <= most {
        to
    } else {
        (from - step).clamp(least, most)
    }
}

/// A course between a place on the map and another, which a span leads to.
fn course_from(first: Point, (dx, dy): Span) -> Course {
    let second = Point {
        x: within(first.x, dx, (0, FARTHEST)),
        y: within(first.y, dy, (0, FARTHEST)),
    };
    Course::Between { first, second }
}

/// Roads from every corner of the map, with either end there.
pub fn corner_roads(chance: &mut Chance, road: Source) -> Vec<Source> {
    let mut roads = Vec::new();
    for (x, y) in [(0, 0), (FARTHEST, 0), (0, FARTHEST), (FARTHEST, FARTHEST)] {
        let length = chance.within(&LENGTH);
        let there = course_from(Point { x, y }, span(chance, length));
        roads.extend([there, there.reversed()].map(|course| on(course, road)));
    }
    roads
}

/// Roads from the middle of a road, of every length at which a road is treated otherwise.
pub fn stretched_roads(chance: &mut Chance, road: Source) -> Vec<Source> {
    let first = road.course.middle();
    let lengths = TURNING_LENGTHS.into_iter();
    lengths
        .map(|length| on(course_from(first, span(chance, length)), road))
        .collect()
}
