// Noise walls: which of them count between a piece of road and a receiver, and what one takes.
// Every number is whole and exact, also the roots: no floating point is used here.

use crate::course::{Piece, Point};
use crate::fields::{Field, WALL_ENDS, WALL_HEIGHT, WALL_SECOND_X};
use crate::level::lv;
use crate::road::{judge_fields, judge_value, wrong_field, Receiver, Refusal, SOURCE_HEIGHT};

/// A noise wall, its slot apart.
#[derive(Clone, Copy, Debug, Default, PartialEq, Eq)]
pub struct Wall {
    pub first: Point,
    pub second: Point,
    pub height: i64,
}

/// A part of a whole, less than all of it and more than nothing.
#[derive(Clone, Copy, Debug, PartialEq, Eq)]
pub struct Fraction {
    pub part: i64,
    pub whole: i64,
}

/// Millimetres of a centimetre.
const MM: i64 = 10;

/// The longest ray that bends as the short ones do, and how these bend (gamma), in mm; of a longer
/// ray gamma is so many times its length.
pub const SHORT_RAY: i64 = 125_000;
pub const SHORT_BEND: i64 = 1_000_000;
pub const LONG_BEND: i64 = 8;

/// The least detour for which a wall takes something.
pub const LEAST_DETOUR: i64 = -33;

/// The number of a pair that has more than one wall before a piece.
pub const CROWDED: u8 = 14;

fn from_to(a: Point, b: Point) -> (i64, i64) {
    (b.x - a.x, b.y - a.y)
}

fn cross(a: (i64, i64), b: (i64, i64)) -> i64 {
    a.0 * b.1 - a.1 * b.0
}

fn root(square: i64) -> i64 {
    square.isqrt()
}

impl Wall {
    pub const fn new(x1: i64, y1: i64, x2: i64, y2: i64, height: i64) -> Wall {
        Wall {
            first: Point { x: x1, y: y1 },
            second: Point { x: x2, y: y2 },
            height,
        }
    }

    /// The fields 2 to 6, in their order.
    pub fn fields(&self) -> [i64; 5] {
        let Wall { first, second, .. } = self;
        [first.x, first.y, second.x, second.y, self.height]
    }

    /// A wall from its fields 2 to 6.
    pub fn of_fields([x1, y1, x2, y2, height]: [i64; 5]) -> Wall {
        Wall::new(x1, y1, x2, y2, height)
    }

    /// Where on the way between two places the wall is met; none unless it is met in one point,
    /// which is neither of the two places.
    pub fn crossing(&self, from: Point, to: Point) -> Option<Fraction> {
        let way = from_to(from, to);
        let (first, second) = (from_to(from, self.first), from_to(from, self.second));
        let (side, other_side) = (cross(way, first), cross(way, second));
        if side.signum() == other_side.signum() {
            return None;
        }
        let turn = (other_side - side).signum();
        let part = turn * cross(first, second);
        let whole = turn * (other_side - side);
        (0 < part && part < whole).then_some(Fraction { part, whole })
    }
}

/// Judges the fields 2 to 6 of a wall: refusal 5, after the ends also where both are one place.
pub fn judge_wall(wall: &Wall) -> Result<(), Refusal> {
    judge_fields(&WALL_ENDS, &wall.fields(), Field::allows)?;
    if wall.first == wall.second {
        return Err(wrong_field(WALL_SECOND_X.number));
    }
    judge_value(wall.height, &WALL_HEIGHT)
}

/// A wall that counts, between a piece and a receiver, by the letters of the VBUS and in mm: the
/// distances of the two on the map and in space, those of the wall from either, and the heights of
/// the wall's edge and of the receiver.
#[derive(Clone, Copy, Debug, PartialEq, Eq)]
pub struct Screen {
    pub s0: i64,
    pub s: i64,
    pub a: i64,
    pub b: i64,
    pub edge: i64,
    pub ear: i64,
}

const SOURCE: i64 = MM * SOURCE_HEIGHT;

impl Screen {
    pub fn new(wall: &Wall, at: Fraction, piece: &Piece, receiver: &Receiver) -> Screen {
        let s0 = root(MM * MM * piece.on_map);
        let a = i128::from(at.part) * i128::from(s0) / i128::from(at.whole);
        let a = i64::try_from(a).expect("a part of the way is no longer than the way");
        Screen {
            s0,
            s: root(MM * MM * piece.in_space),
            a,
            b: s0 - a,
            edge: MM * wall.height,
            ear: MM * receiver.height,
        }
    }

    /// hD, the height in which a straight ray passes the wall.
    pub fn straight(&self) -> i64 {
        SOURCE + self.a * (self.ear - SOURCE) / self.s0
    }

    /// By how much higher a bent ray passes it.
    pub fn lift(&self) -> i64 {
        self.lift_by(if self.s <= SHORT_RAY {
            SHORT_BEND
        } else {
            LONG_BEND * self.s
        })
    }

    /// The same for a bend.
    pub fn lift_by(&self, bend: i64) -> i64 {
        let once = self.a * self.b * self.s / (2 * bend * self.s0);
        once * self.s / self.s0
    }

    /// The way from the source to the receiver over a point of such a height above the crossing;
    /// each half is taken down.
    fn way_over(&self, height: i64) -> i64 {
        let (up, down) = (height - SOURCE, self.ear - height);
        root(self.a * self.a + up * up) + root(self.b * self.b + down * down)
    }

    /// z, by how much the way over the edge is longer than the ray's.
    pub fn detour(&self) -> i64 {
        self.detour_by(self.lift())
    }

    /// The same for a lift.
    pub fn detour_by(&self, lift: i64) -> i64 {
        self.way_over(self.edge) - self.way_over(self.straight() + lift)
    }

    /// Dz, what the wall takes.
    pub fn taken(&self) -> i64 {
        if self.edge < self.straight() {
            return 0;
        }
        match self.detour() {
            z if z >= LEAST_DETOUR => lv(3000 + 60 * z) - 3000,
            _ => 0,
        }
    }
}

/// The walls that count between a piece and a receiver.
pub fn screens<'a>(
    piece: &'a Piece,
    receiver: &'a Receiver,
    walls: &'a [Wall],
) -> impl Iterator<Item = Screen> + 'a {
    let met = |wall: &'a Wall| {
        let at = wall.crossing(piece.middle, receiver.place())?;
        Some(Screen::new(wall, at, piece, receiver))
    };
    walls.iter().filter_map(met)
}

/// What the walls take between a piece and a receiver; refusal 14 where more than one counts.
pub fn screening(piece: &Piece, receiver: &Receiver, walls: &[Wall]) -> Result<i64, u8> {
    let mut screens = screens(piece, receiver, walls);
    let Some(screen) = screens.next() else {
        return Ok(0);
    };
    match screens.next() {
        Some(_) => Err(CROWDED),
        None => Ok(screen.taken()),
    }
}
