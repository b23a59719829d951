// Where a source runs: an uncut middle and length, or two ends between which it is cut.
// Cutting goes by the receiver: a piece is halved while it is long for its distance.

use crate::fields::{Field, BETWEEN_COURSE, UNCUT_COURSE};
use crate::road::{root, Receiver, SOURCE_HEIGHT};

/// A place on the map.
#[derive(Clone, Copy, Debug, Default, PartialEq, Eq)]
pub struct Point {
    pub x: i64,
    pub y: i64,
}

/// Where a source runs, in one of two ways to tell it.
#[derive(Clone, Copy, Debug, PartialEq, Eq)]
pub enum Course {
    Uncut { middle: Point, length: i64 },
    Between { first: Point, second: Point },
}

/// Pieces between two ends that are no longer than this are not halved.
pub const SHORT: i64 = 250;

/// The mean of two places, each coordinate down.
fn mean(a: Point, b: Point) -> Point {
    Point {
        x: (a.x + b.x).div_euclid(2),
        y: (a.y + b.y).div_euclid(2),
    }
}

/// The distance of two places on the map, squared.
fn square_between(a: Point, b: Point) -> i64 {
    let (dx, dy) = (a.x - b.x, a.y - b.y);
    dx * dx + dy * dy
}

/// The distance of two places on the map, down.
fn distance(a: Point, b: Point) -> i64 {
    root(square_between(a, b))
}

impl Default for Course {
    fn default() -> Self {
        Course::uncut(0, 0, 0)
    }
}

impl Course {
    pub const fn uncut(x: i64, y: i64, length: i64) -> Course {
        let middle = Point { x, y };
        Course::Uncut { middle, length }
    }

    pub const fn between(x1: i64, y1: i64, x2: i64, y2: i64) -> Course {
        Course::Between {
            first: Point { x: x1, y: y1 },
            second: Point { x: x2, y: y2 },
        }
    }

    /// The fields that tell it.
    pub fn fields(&self) -> &'static [Field] {
        match self {
            Course::Uncut { .. } => &UNCUT_COURSE,
            Course::Between { .. } => &BETWEEN_COURSE,
        }
    }

    /// The values of these fields.
    pub fn values(&self) -> Vec<i64> {
        match *self {
            Course::Uncut { middle, length } => vec![middle.x, middle.y, length],
            Course::Between { first, second } => vec![first.x, first.y, second.x, second.y],
        }
    }

    /// The middle, which of two ends is their mean.
    pub fn middle(&self) -> Point {
        match *self {
            Course::Uncut { middle, .. } => middle,
            Course::Between { first, second } => mean(first, second),
        }
    }

    /// The length; ends must be on the map.
    pub fn length(&self) -> i64 {
        match *self {
            Course::Uncut { length, .. } => length,
            Course::Between { first, second } => distance(first, second),
        }
    }

    /// The same course from its other end.
    pub fn reversed(self) -> Course {
        match self {
            Course::Uncut { .. } => self,
            Course::Between { first, second } => Course::Between {
                first: second,
                second: first,
            },
        }
    }

    /// The same course with its middle elsewhere.
    pub fn moved(&self, x: i64, y: i64) -> Course {
        let from = self.middle();
        let along = |point: &Point| Point {
            x: point.x - from.x + x,
            y: point.y - from.y + y,
        };
        match self {
            Course::Uncut { length, .. } => Course::uncut(x, y, *length),
            Course::Between { first, second } => Course::Between {
                first: along(first),
                second: along(second),
            },
        }
    }
}

/// A piece of road before a receiver: its middle and length, and the squared distances from its
/// middle, on the map and in space.
#[derive(Clone, Copy, Debug, PartialEq, Eq)]
pub struct Piece {
    pub middle: Point,
    pub length: i64,
    pub on_map: i64,
    pub in_space: i64,
}

impl Piece {
    pub fn new(middle: Point, length: i64, receiver: &Receiver) -> Piece {
        let on_map = square_between(middle, receiver.place());
        let rise = receiver.height - SOURCE_HEIGHT;
        Piece {
            middle,
            length,
            on_map,
            in_space: on_map + rise * rise,
        }
    }

    /// Whether it is longer than half its distance.
    pub fn is_long(&self) -> bool {
        4 * self.length * self.length > self.in_space
    }
}

/// Hands over the uncut pieces between two ends, from the first end on, until one is refused.
pub fn cut(
    first: Point,
    second: Point,
    receiver: &Receiver,
    take: &mut impl FnMut(&Piece) -> Result<(), u8>,
) -> Result<(), u8> {
    let middle = mean(first, second);
    let piece = Piece::new(middle, distance(first, second), receiver);
    if piece.is_long() && piece.length > SHORT {
        cut(first, middle, receiver, take)?;
        cut(middle, second, receiver, take)
    } else {
        take(&piece)
    }
}

/// The uncut pieces of a course before a receiver, from its first end on.
pub fn pieces(course: &Course, receiver: &Receiver) -> Vec<Piece> {
    let mut pieces = Vec::new();
    let keep = &mut |piece: &Piece| {
        pieces.push(*piece);
        Ok(())
    };
    let all = match *course {
        Course::Uncut { middle, length } => keep(&Piece::new(middle, length, receiver)),
        Course::Between { first, second } => cut(first, second, receiver, keep),
    };
    assert_eq!(all, Ok(()), "no piece is refused");
    pieces
}
