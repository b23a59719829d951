// Walls by chance, aimed at the way from a piece of road to a receiver: across it, at its ends,
// along it, just past it, and so high that one step decides whether they take something.

use crate::chance::Chance;
use crate::course::{pieces, Course, Piece, Point};
use crate::cuts::{pair, span, spanned, within};
use crate::fields::{FARTHEST, HEIGHT, LENGTH, WALL_HEIGHT};
use crate::limits::{any_way, loud_road, tuned, way_of_square, Way, APART};
use crate::road::{root, Receiver, Source, LOUDEST, SOURCE_HEIGHT};
use crate::town::{road, traffic, WIDE};
use crate::wall::{Screen, Wall, LEAST_DETOUR, LONG_BEND, SHORT_BEND, SHORT_RAY};

/// The way from the middle of a piece to a receiver, on the map.
#[derive(Clone, Copy, Debug)]
pub struct Line {
    pub from: Point,
    pub to: Point,
}

/// What aims a wall in one manner: its two ends.
type Aim = fn(&mut Chance, &Line) -> [Point; 2];

/// Manners of aiming; across is the most usual.
const AIMS: [Aim; 13] = [
    across, across, across, across, across, across, touching, brushing, at_an_end, along, beside,
    beyond, vast,
];

/// The longest way on the map from a wall's end to where it is aimed.
const REACH: i64 = 30_000;

/// How far a wall's end is beside a point that it just misses.
const STEPS: [(i64, i64); 4] = [(1, 0), (-1, 0), (0, 1), (0, -1)];

fn shifted(point: Point, (dx, dy): (i64, i64)) -> Point {
    Point {
        x: point.x + dx,
        y: point.y + dy,
    }
}

fn common_divisor(a: i64, b: i64) -> i64 {
    if b == 0 {
        a.abs()
    } else {
        common_divisor(b, a % b)
    }
}

impl Line {
    fn way(&self) -> (i64, i64) {
        (self.to.x - self.from.x, self.to.y - self.from.y)
    }

    /// The point after so much of the way, as near to it as there is.
    fn point(&self, part: i64, whole: i64) -> Point {
        let (dx, dy) = self.way();
        shifted(self.from, (dx * part / whole, dy * part / whole))
    }

    /// Steps of the way from one point that lies just on it to the next.
    fn steps(&self) -> i64 {
        let (dx, dy) = self.way();
        common_divisor(dx, dy).max(1)
    }

    /// A point between the two, just on the way if there is such a one.
    fn inner(&self, chance: &mut Chance) -> Point {
        match self.steps() {
            1 => self.point(chance.between(1, 99), 100),
            steps => self.point(chance.edge(1, steps - 1), steps),
        }
    }
}

/// Ends on both sides of a point, or nearly.
fn around(chance: &mut Chance, point: Point) -> [Point; 2] {
    let length = chance.magnitude(REACH);
    let (dx, dy) = span(chance, length);
    let eighths = chance.between(1, 16);
    let back = (-dx * eighths / 8, -dy * eighths / 8);
    let back = shifted(shifted(point, back), chance.pick(&STEPS));
    [shifted(point, (dx, dy)), back]
}

/// An end at a point and another one anywhere.
fn from_point(chance: &mut Chance, point: Point) -> [Point; 2] {
    let length = chance.magnitude(REACH);
    [point, shifted(point, span(chance, length))]
}

fn across(chance: &mut Chance, line: &Line) -> [Point; 2] {
    let point = line.point(chance.between(1, 99), 100);
    around(chance, point)
}

/// With an end just on the way.
fn touching(chance: &mut Chance, line: &Line) -> [Point; 2] {
    let point = line.inner(chance);
    from_point(chance, point)
}

/// With an end one step beside the way.
fn brushing(chance: &mut Chance, line: &Line) -> [Point; 2] {
    let point = shifted(line.inner(chance), chance.pick(&STEPS));
    from_point(chance, point)
}

/// Through the middle of the piece or the receiver, or one step beside it.
fn at_an_end(chance: &mut Chance, line: &Line) -> [Point; 2] {
    let mut point = chance.pick(&[line.from, line.to]);
    if chance.one_in(3) {
        point = shifted(point, chance.pick(&STEPS));
    }
    let length = chance.magnitude(REACH);
    let (dx, dy) = span(chance, length);
    let times = chance.pick(&[0, 1, 2]);
    [
        shifted(point, (dx, dy)),
        shifted(point, (-times * dx, -times * dy)),
    ]
}

/// Along the way: within it, past it, or with an end one step beside.
fn along(chance: &mut Chance, line: &Line) -> [Point; 2] {
    let steps = line.steps();
    let [first, mut second] = [(); 2].map(|()| line.point(chance.edge(-steps, 2 * steps), steps));
    if chance.one_in(4) {
        second = shifted(second, chance.pick(&STEPS));
    }
    [first, second]
}

/// Beside the way, in its direction.
fn beside(chance: &mut Chance, line: &Line) -> [Point; 2] {
    let away = chance.magnitude(100);
    let aside = span(chance, away);
    [shifted(line.from, aside), shifted(line.to, aside)]
}

/// Across the line that the way would be if it were longer.
fn beyond(chance: &mut Chance, line: &Line) -> [Point; 2] {
    let part = chance.between(1, 120);
    let part = chance.pick(&[-part, 100 + part]);
    let point = line.point(part, 100);
    around(chance, point)
}

/// From a border of the map across the way, often to where the map ends.
fn vast(chance: &mut Chance, line: &Line) -> [Point; 2] {
    let point = line.inner(chance);
    let (border, any) = (chance.pick(&[0, FARTHEST]), chance.edge(0, FARTHEST));
    let (x, y) = chance.pick(&[(border, any), (any, border)]);
    let times = chance.pick(&[1, 1, 2, 8, 1000]);
    let back = ((point.x - x) * times, (point.y - y) * times);
    [Point { x, y }, shifted(point, back)]
}

/// A place, or where the map ends.
fn on_the_map(point: Point) -> Point {
    Point {
        x: point.x.clamp(0, FARTHEST),
        y: point.y.clamp(0, FARTHEST),
    }
}

/// Another place than this one, so far away.
fn elsewhere(point: Point, (dx, dy): (i64, i64)) -> Point {
    Point {
        x: within(point.x, dx, (0, FARTHEST)),
        y: within(point.y, dy, (0, FARTHEST)),
    }
}

/// A wall aimed at the way from a piece to a receiver; its ends are on the map and not the same.
pub fn aimed(chance: &mut Chance, piece: &Piece, receiver: &Receiver) -> Wall {
    let line = Line {
        from: piece.middle,
        to: receiver.place(),
    };
    let aim = chance.pick(&AIMS);
    let [first, mut second] = aim(chance, &line).map(on_the_map);
    if first == second {
        second = elsewhere(first, chance.pick(&STEPS));
    }
    let (first, second) = chance.pick(&[(first, second), (second, first)]);
    let mut wall = Wall {
        first,
        second,
        height: chance.edge_in(&WALL_HEIGHT),
    };
    if let Some(at) = wall.crossing(line.from, line.to) {
        let screen = Screen::new(&wall, at, piece, receiver);
        wall.height = telling_height(chance, &screen);
    }
    wall
}

/// A height for a wall that counts: any, or such that one step decides.
fn telling_height(chance: &mut Chance, screen: &Screen) -> i64 {
    let straight = screen.straight() / 10;
    let height = match chance.between(0, 6) {
        0 => chance.edge_in(&WALL_HEIGHT),
        1 => chance.magnitude(WALL_HEIGHT.most()),
        2 | 3 => straight + chance.between(-1, 1),
        4 | 5 => barely_taking(chance, screen),
        _ => chance.between(200, 900),
    };
    height.clamp(WALL_HEIGHT.least(), WALL_HEIGHT.most())
}

/// A height at which the detour is about the least for which something is taken, if there is such.
fn barely_taking(chance: &mut Chance, screen: &Screen) -> i64 {
    let lowest = (screen.straight() + 9) / 10;
    let highest = lowest + screen.lift() / 10 + 1;
    let near = |height: &i64| {
        let edge = 10 * height;
        (Screen { edge, ..*screen }.detour() - LEAST_DETOUR).abs() <= 2
    };
    let heights: Vec<i64> = (lowest..=highest).filter(near).take(50).collect();
    match heights.as_slice() {
        [] => chance.between(lowest, highest),
        near => chance.pick(near),
    }
}

/// A way of just about the longest ray that bends as the short ones do.
fn short_ray(chance: &mut Chance) -> Way {
    let s = SHORT_RAY + chance.between(-1, 1);
    let least = (s * s + 99) / 100;
    let most = ((s + 1) * (s + 1) - 1) / 100;
    let square = chance.edge(least, most);
    let fallback = Way {
        dx: root(square),
        dy: 0,
        height: HEIGHT.least(),
    };
    way_of_square(chance, square).unwrap_or(fallback)
}

/// A way on which many points lie just between receiver and source.
fn stepped(chance: &mut Chance) -> Way {
    let steps = chance.between(2, 40);
    let most = 20_000 / steps;
    let sides = [(); 2].map(|()| steps * chance.magnitude(most));
    let (dx, dy) = chance.pick(&[(sides[0], sides[1]), (sides[0], 0), (0, sides[1])]);
    Way {
        dx: (dx + APART * dx.signum()) / steps * steps * chance.pick(&[-1, 1]),
        dy: (dy + APART * dy.signum()) / steps * steps * chance.pick(&[-1, 1]),
        height: chance.pick(&[400, HEIGHT.least(), HEIGHT.most()]),
    }
}

/// A receiver and a source for walls to be aimed between: uncut or between two ends, on a way of
/// any kind; sometimes nothing drives there.
pub fn screened_pair(chance: &mut Chance) -> (Receiver, Source) {
    if chance.one_in(6) {
        return pair(chance);
    }
    let way = match chance.between(0, 4) {
        0 | 1 => stepped(chance),
        2 => short_ray(chance),
        _ => {
            let farthest = chance.pick(&[2000, 12_000, 20_000, WIDE]);
            any_way(chance, farthest)
        }
    };
    let receiver = way.receiver(chance);
    let apart = root(way.dx * way.dx + way.dy * way.dy);
    let half = (apart / 2).clamp(1, LENGTH.most());
    let mut source = way.place(road(chance).uncut(chance.magnitude(half)), &receiver);
    if chance.one_in(3) {
        let length = chance.magnitude((6 * half).min(LENGTH.most()));
        source.course = spanned(source.course.middle(), span(chance, length));
    }
    if chance.one_in(8) {
        source
            .traffic
            .iter_mut()
            .for_each(|period| period.vehicles = 0);
    }
    (receiver, source)
}

/// A wall aimed at the way from some piece of a course to a receiver.
pub fn wall_before(chance: &mut Chance, course: &Course, receiver: &Receiver) -> Wall {
    let piece = chance.pick(&pieces(course, receiver));
    aimed(chance, &piece, receiver)
}

/// How far from the longest short ray a wall may still tell how the ray bends.
const TELLING: i64 = 100;

/// A way of about the longest short ray, within so many mm of it, if one is found.
fn nearly_short_ray(chance: &mut Chance) -> Option<Way> {
    let height = chance.edge_in(&HEIGHT);
    let rise = height - SOURCE_HEIGHT;
    let s = SHORT_RAY + chance.between(-TELLING, TELLING);
    let on_map = s * s / 100 - rise * rise;
    let dx = chance.between(0, root(on_map));
    let dy = root(on_map - dx * dx);
    let found = root(100 * (dx * dx + dy * dy + rise * rise));
    ((found - SHORT_RAY).abs() <= TELLING).then_some(Way { dx, dy, height })
}

/// Whether a screen takes something else where its ray bends by the other rule.
fn tells_the_bend(screen: &Screen) -> bool {
    let other = if screen.s <= SHORT_RAY {
        LONG_BEND * screen.s
    } else {
        SHORT_BEND
    };
    screen.detour() > 0 && screen.detour() != screen.detour_by(screen.lift_by(other))
}

/// A receiver, a source at about the longest short ray from it, and a wall between them that takes
/// something else where the ray bends by the other rule, if such a one is found.
pub fn turning_ray(chance: &mut Chance) -> (Receiver, Source, Wall) {
    let length = chance.between(100, 3000);
    let (receiver, mut source) = screened_pair(chance);
    source = source.uncut(length);
    let mut wall = wall_before(chance, &source.course, &receiver);
    for _ in 0..2000 {
        let Some(way) = nearly_short_ray(chance) else {
            continue;
        };
        let receiver = Receiver {
            height: way.height,
            ..receiver
        };
        source = way.place(source, &receiver);
        let piece = Piece::new(source.course.middle(), length, &receiver);
        let line = Line {
            from: piece.middle,
            to: receiver.place(),
        };
        let [first, second] = across(chance, &line).map(on_the_map);
        let height = chance.between(500, WALL_HEIGHT.most());
        wall = Wall {
            first,
            second,
            height,
        };
        let at = wall.crossing(line.from, line.to);
        let screen = at.map(|at| Screen::new(&wall, at, &piece, &receiver));
        if screen.is_some_and(|screen| tells_the_bend(&screen)) {
            return (receiver, source, wall);
        }
    }
    (receiver, source, wall)
}

/// A receiver, a source that is too loud for it, mostly just so, and a wall that takes enough or
/// just not.
pub fn loud_behind_a_wall(chance: &mut Chance) -> (Receiver, Source, Wall) {
    let way = any_way(chance, 900);
    let receiver = way.receiver(chance);
    let mut source = way.place(loud_road(chance), &receiver);
    let special = chance.index(3);
    for period in 0..3 {
        source.traffic[period] = traffic(chance);
        let excess = chance.between(-100, 800);
        let level = LOUDEST + if period == special { excess } else { -600 };
        if let Some(vehicles) = tuned(&source, &receiver, period, level) {
            source.traffic[period].vehicles = vehicles - chance.between(0, 1);
        }
    }
    let piece = Piece::new(source.course.middle(), source.course.length(), &receiver);
    let line = Line {
        from: piece.middle,
        to: receiver.place(),
    };
    let [first, second] = across(chance, &line);
    let height = chance.between(300, WALL_HEIGHT.most());
    let wall = Wall {
        first,
        second,
        height,
    };
    (receiver, source, wall)
}
