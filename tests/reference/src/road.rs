// Sources and receivers: their fields, which of them are allowed, and every term of the method.
// Lengths are whole centimetres, levels whole hundredths of a decibel, all in signed 64 bits.

use crate::course::{cut, Course, Piece, Point};
use crate::fields::{Field, COMMON_FIELDS, LENGTH, MINUS, RECEIVER_FIELDS};
use crate::level::{energy, lv, FAINTEST, STEPS};
use crate::wall::{screening, Wall, CROWDED};

/// A number for the caller, with the field or slot it speaks of (0 where there is none).
#[derive(Clone, Copy, Debug, PartialEq, Eq)]
pub struct Refusal {
    pub number: u8,
    pub place: u16,
}

/// The numbers that there are, 0 for what is done among them.
pub const NUMBERS: usize = 15;

/// A refusal that names no field and no slot.
pub const fn refusal(number: u8) -> Refusal {
    Refusal { number, place: 0 }
}

/// Traffic of one period: M in thousandths of a vehicle per hour, p in tenths of a percent.
#[derive(Clone, Copy, Debug, Default, PartialEq, Eq)]
pub struct Traffic {
    pub vehicles: i64,
    pub trucks: i64,
}

/// One straight road, its slot apart. The gradient is held as it is coded.
#[derive(Clone, Copy, Debug, Default, PartialEq, Eq)]
pub struct Source {
    pub course: Course,
    pub several_lanes: i64,
    pub car_speed: i64,
    pub truck_speed: i64,
    pub surface: i64,
    pub gradient: i64,
    pub reflection: i64,
    pub parallel_walls: i64,
    pub parallel_height: i64,
    pub parallel_spacing: i64,
    pub traffic: [Traffic; 3],
}

/// A point at which levels are asked for, its slot apart.
#[derive(Clone, Copy, Debug, Default, PartialEq, Eq)]
pub struct Receiver {
    pub x: i64,
    pub y: i64,
    pub height: i64,
}

/// The loudest share level that is accepted, in whole ten decibels, and its energy.
pub const LOUDEST: i64 = 9000;
pub const GREATEST_SHARE: i64 = FAINTEST * 10i64.pow((LOUDEST / STEPS) as u32);

/// Speeds of cars and of trucks that count; what is slower or faster is brought to the nearest.
pub const CAR_SPEEDS: (i64, i64) = (30, 130);
pub const TRUCK_SPEEDS: (i64, i64) = (30, 80);

/// The first surface that is only for faster roads, and the speed that they pass.
pub const FAST_SURFACE: i64 = 5;
pub const FAST_ABOVE: i64 = 60;

/// The steepness that a gradient has to pass to count.
pub const FLAT: i64 = 50;

/// Height of a source above the road.
pub const SOURCE_HEIGHT: i64 = 50;

/// Squared distances between which a pair is accepted.
pub const NEAREST_SQUARE: i64 = 250_000;
pub const FARTHEST_SQUARE: i64 = 40_000_000_000;

/// The correction for the weather by day, evening and night.
const WEATHER: [i64; 3] = [200, 100, 0];

/// The speeds from which the second and the third column of the surfaces count.
pub const SURFACE_COLUMNS: [i64; 2] = [40, 50];

/// The correction for the surfaces 1 to 9, in three columns of speeds.
const SURFACES: [[i64; 3]; 9] = [
    [0, 0, 0],
    [100, 150, 200],
    [200, 250, 300],
    [300, 450, 600],
    [100, 100, 100],
    [-200, -200, -200],
    [-200, -200, -200],
    [-400, -400, -400],
    [-500, -500, -500],
];

const REFLECTIONS: [i64; 5] = [0, -100, -200, -400, -800];

impl Source {
    /// The fields after the slot, in their order.
    pub fn fields(&self) -> Vec<i64> {
        let mut fields = self.course.values();
        fields.extend(self.common_fields());
        fields
    }

    /// The fields 5 to 19, in their order.
    pub fn common_fields(&self) -> [i64; 15] {
        let [day, evening, night] = self.traffic;
        [
            self.several_lanes,
            self.car_speed,
            self.truck_speed,
            self.surface,
            self.gradient,
            self.reflection,
            self.parallel_walls,
            self.parallel_height,
            self.parallel_spacing,
            day.vehicles,
            day.trucks,
            evening.vehicles,
            evening.trucks,
            night.vehicles,
            night.trucks,
        ]
    }

    /// A source from where it runs and its fields 5 to 19.
    pub fn of_fields(course: Course, f: [i64; 15]) -> Source {
        let period = |at: usize| Traffic {
            vehicles: f[at],
            trucks: f[at + 1],
        };
        Source {
            course,
            several_lanes: f[0],
            car_speed: f[1],
            truck_speed: f[2],
            surface: f[3],
            gradient: f[4],
            reflection: f[5],
            parallel_walls: f[6],
            parallel_height: f[7],
            parallel_spacing: f[8],
            traffic: [period(9), period(11), period(13)],
        }
    }

    /// The same source with its middle elsewhere.
    pub fn moved(self, x: i64, y: i64) -> Source {
        let course = self.course.moved(x, y);
        Source { course, ..self }
    }

    /// The same source as an uncut piece of the given length.
    pub fn uncut(self, length: i64) -> Source {
        let middle = self.course.middle();
        let course = Course::Uncut { middle, length };
        Source { course, ..self }
    }

    fn bounded_car_speed(&self) -> i64 {
        self.car_speed.clamp(CAR_SPEEDS.0, CAR_SPEEDS.1)
    }

    fn bounded_truck_speed(&self) -> i64 {
        self.truck_speed.clamp(TRUCK_SPEEDS.0, TRUCK_SPEEDS.1)
    }

    /// Whether a field may have a value; without parallel walls their sizes are 0.
    pub fn allows(&self, field: &Field, value: i64) -> bool {
        if self.parallel_walls == 0 && field.of_parallel_walls() {
            value == 0
        } else {
            field.allows(value)
        }
    }
}

impl Receiver {
    /// The fields 2 to 4, in their order.
    pub fn fields(&self) -> [i64; 3] {
        [self.x, self.y, self.height]
    }

    /// Its place on the map.
    pub fn place(&self) -> Point {
        let (x, y) = (self.x, self.y);
        Point { x, y }
    }

    /// A receiver from its fields 2 to 4.
    pub fn of_fields([x, y, height]: [i64; 3]) -> Receiver {
        Receiver { x, y, height }
    }
}

/// The refusal of a field that is not allowed.
pub const fn wrong_field(place: u16) -> Refusal {
    Refusal { number: 5, place }
}

/// Judges the value of one field: refusal 5.
pub fn judge_value(value: i64, field: &Field) -> Result<(), Refusal> {
    judge_fields(&[*field], &[value], Field::allows)
}

/// Judges the values of fields: refusal 5 for the first that is not allowed.
pub fn judge_fields(
    fields: &[Field],
    values: &[i64],
    allows: impl Fn(&Field, i64) -> bool,
) -> Result<(), Refusal> {
    let mut judged = fields.iter().zip(values);
    match judged.find(|&(field, &value)| !allows(field, value)) {
        Some((field, _)) => Err(wrong_field(field.number)),
        None => Ok(()),
    }
}

/// Judges where a source runs: refusal 5 for its fields, and then for its length.
fn judge_course(course: &Course) -> Result<(), Refusal> {
    judge_fields(course.fields(), &course.values(), Field::allows)?;
    judge_value(course.length(), &LENGTH)
}

/// Judges the fields of a source after its slot: refusals 5, 6 and 7.
pub fn judge_source(source: &Source) -> Result<(), Refusal> {
    judge_course(&source.course)?;
    judge_fields(&COMMON_FIELDS, &source.common_fields(), |field, value| {
        source.allows(field, value)
    })?;
    if source.surface >= FAST_SURFACE && source.car_speed <= FAST_ABOVE {
        return Err(refusal(6));
    }
    if truck_excess(source) < 0 {
        return Err(refusal(7));
    }
    Ok(())
}

/// Judges the fields 2 to 4 of a receiver: refusal 5.
pub fn judge_receiver(receiver: &Receiver) -> Result<(), Refusal> {
    judge_fields(&RECEIVER_FIELDS[1..], &receiver.fields(), Field::allows)
}

/// L25 of one period; none where nothing drives.
pub fn traffic_term(traffic: Traffic, several_lanes: bool) -> Option<i64> {
    let n = traffic.vehicles * (10_000 + 82 * traffic.trucks);
    if n == 0 {
        return None;
    }
    Some(if several_lanes {
        3730 + lv(5 * n) - 8000
    } else {
        3730 + lv(n) - 7000
    })
}

/// LP, the level of one car.
pub fn car_level(source: &Source) -> i64 {
    let v = source.bounded_car_speed();
    2770 + lv(1_000_000 + 8 * v * v * v) - 6000
}

/// LT, the level of one truck.
pub fn truck_level(source: &Source) -> i64 {
    let u = source.bounded_truck_speed();
    2310 + lv(u.pow(5)).div_euclid(4)
}

/// D, by how much a truck is louder than a car.
pub fn truck_excess(source: &Source) -> i64 {
    truck_level(source) - car_level(source)
}

/// Dv for a share of trucks, from LP and D, which must not be negative.
pub fn speed_term(car: i64, excess: i64, trucks: i64) -> i64 {
    let mixed = 1_000_000_000 + (energy(excess) - 1_000_000) * trucks;
    car - 3730 + lv(mixed) - lv(100_000 + 823 * trucks) - 4000
}

/// The correction for the surface at the speed of the cars.
pub fn surface_term(source: &Source) -> i64 {
    let speed = source.bounded_car_speed();
    let column = SURFACE_COLUMNS
        .iter()
        .filter(|&&from| from <= speed)
        .count();
    SURFACES[source.surface as usize - 1][column]
}

/// The addition for a steep road, uphill or downhill.
pub fn gradient_term(code: i64) -> i64 {
    let steepness = code % MINUS;
    if steepness > FLAT {
        6 * steepness - 300
    } else {
        0
    }
}

/// The addition for parallel walls.
pub fn parallel_term(source: &Source) -> i64 {
    let (height, spacing) = (source.parallel_height, source.parallel_spacing);
    match source.parallel_walls {
        1 => (400 * height).div_euclid(spacing).min(320),
        2 => (200 * height).div_euclid(spacing).min(160),
        _ => 0,
    }
}

/// The correction for the length of a piece.
pub fn length_term(length: i64) -> i64 {
    lv(length) - 2000
}

/// Ds for a squared distance and its root.
pub fn distance_term(square: i64, root: i64) -> i64 {
    lv(square) - 4000 + root.div_euclid(200) - 1120
}

/// What the ground takes, for the sum H of both heights and the distance.
pub fn ground_term(heights: i64, root: i64) -> i64 {
    let taken = (heights * (1700 * root + 3_000_000)).div_euclid(root * root);
    (480 - taken).max(0)
}

/// The correction for the weather, for its strength C, H and the distance on the map.
pub fn weather_term(strength: i64, heights: i64, root: i64) -> i64 {
    if root <= 10 * heights {
        return 0;
    }
    -(strength * (root - 10 * heights)).div_euclid(root)
}

/// The whole root of a whole number, down.
pub fn root(square: i64) -> i64 {
    let mut guess = (square as f64).sqrt() as i64;
    while guess * guess > square {
        guess -= 1;
    }
    while (guess + 1) * (guess + 1) <= square {
        guess += 1;
    }
    guess
}

/// Levels by day, evening and night; none where nothing drives.
pub type PeriodLevels = [Option<i64>; 3];

/// What a source sends out, whoever hears it: every term that hangs on the source alone. The
/// length is among them where the source is not cut; otherwise each piece has its own.
pub fn emission(source: &Source) -> PeriodLevels {
    let car = car_level(source);
    let excess = truck_level(source) - car;
    let length = match source.course {
        Course::Uncut { length, .. } => length_term(length),
        Course::Between { .. } => 0,
    };
    let fixed = surface_term(source)
        + gradient_term(source.gradient)
        + REFLECTIONS[source.reflection as usize]
        + length
        + parallel_term(source);
    source.traffic.map(|traffic| {
        let l25 = traffic_term(traffic, source.several_lanes == 1)?;
        Some(l25 + speed_term(car, excess, traffic.trucks) + fixed)
    })
}

/// Judges how far a piece is from its receiver: refusals 10 and 11.
fn judge_distance(piece: &Piece) -> Result<(), u8> {
    if piece.in_space < NEAREST_SQUARE {
        return Err(10);
    }
    if piece.in_space > FARTHEST_SQUARE {
        return Err(11);
    }
    Ok(())
}

/// What is left at a receiver of the levels that a piece sends out, for the three periods. Ground
/// and wall do not both take of it, but the one that takes more.
pub fn heard(
    sent: &PeriodLevels,
    piece: &Piece,
    receiver: &Receiver,
    screened: i64,
) -> PeriodLevels {
    let heights = receiver.height + SOURCE_HEIGHT;
    let far = root(piece.in_space);
    let lost = distance_term(piece.in_space, far) + ground_term(heights, far).max(screened);
    let map_way = root(piece.on_map);
    std::array::from_fn(|period| {
        let weather = weather_term(WEATHER[period], heights, map_way);
        sent[period].map(|level| level - lost + weather)
    })
}

/// Energies of day, evening and night.
pub type Shares = [i64; 3];

/// The energy of a share level of either sign; none where nothing drives.
fn share(level: Option<i64>) -> i64 {
    level.map_or(0, energy)
}

/// What an uncut source brings to a receiver, however loud; or refusal 10, 11, 12 or 14.
fn whole(
    sent: &PeriodLevels,
    piece: &Piece,
    receiver: &Receiver,
    walls: &[Wall],
) -> Result<Shares, u8> {
    judge_distance(piece)?;
    if piece.is_long() {
        return Err(12);
    }
    let screened = screening(piece, receiver, walls)?;
    Ok(heard(sent, piece, receiver, screened).map(share))
}

/// What the pieces between two ends bring to a receiver, however loud; or refusal 10 or 11 of the
/// first piece that has one; or 14 where no piece has these and one has more than one wall.
fn summed(
    sent: &PeriodLevels,
    (first, second): (Point, Point),
    receiver: &Receiver,
    walls: &[Wall],
) -> Result<Shares, u8> {
    let mut sums = [0; 3];
    let mut crowded = false;
    cut(first, second, receiver, &mut |piece| {
        judge_distance(piece)?;
        let Ok(screened) = screening(piece, receiver, walls) else {
            crowded = true;
            return Ok(());
        };
        let length = length_term(piece.length);
        let levels = heard(sent, piece, receiver, screened);
        for (sum, level) in sums.iter_mut().zip(levels) {
            *sum += share(level.map(|level| level + length));
        }
        Ok(())
    })?;
    if crowded {
        return Err(CROWDED);
    }
    Ok(sums)
}

/// What a source brings to a receiver past the walls, however loud, or refusal 10, 11, 12 or 14 of
/// the pair.
pub fn brought(
    source: &Source,
    sent: &PeriodLevels,
    receiver: &Receiver,
    walls: &[Wall],
) -> Result<Shares, u8> {
    match source.course {
        Course::Uncut { middle, length } => {
            let piece = Piece::new(middle, length, receiver);
            whole(sent, &piece, receiver, walls)
        }
        Course::Between { first, second } => summed(sent, (first, second), receiver, walls),
    }
}

/// What a source brings to a receiver past the walls, or the refusal of the pair, 10 to 14.
pub fn shares(
    source: &Source,
    sent: &PeriodLevels,
    receiver: &Receiver,
    walls: &[Wall],
) -> Result<Shares, u8> {
    let shares = brought(source, sent, receiver, walls)?;
    if shares.iter().any(|&share| share > GREATEST_SHARE) {
        return Err(13);
    }
    Ok(shares)
}
