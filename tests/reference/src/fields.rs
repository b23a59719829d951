// The fields of sources, receivers and walls, and the slots there are: every limit of them, said once.
// Judging, reading, writing and storing go by these tables, and so do the edges that are tried.

/// Slots of the book.
pub const SOURCES: usize = 512;
pub const RECEIVERS: usize = 64;
pub const WALLS: usize = 64;

/// A field: its number and name, its bits in a record, and the ranges that are allowed.
#[derive(Clone, Copy, Debug, PartialEq, Eq)]
pub struct Field {
    pub number: u16,
    pub name: &'static str,
    pub bits: u32,
    pub allowed: &'static [(i64, i64)],
}

pub const fn field(
    number: u16,
    name: &'static str,
    bits: u32,
    allowed: &'static [(i64, i64)],
) -> Field {
    Field {
        number,
        name,
        bits,
        allowed,
    }
}

/// The greatest number that so many bits hold.
pub const fn widest(bits: u32) -> i64 {
    (1 << bits) - 1
}

/// In a coded gradient, the bit that says downhill, and the steepest there is.
pub const MINUS: i64 = 128;
pub const STEEPEST: i64 = 120;

/// The bits of a coordinate, all of whose values are allowed, and the greatest of them.
const MAP: u32 = 24;
pub const FARTHEST: i64 = widest(MAP);

pub const SOURCE_SLOT: Field = field(1, "slot", 9, &[(0, SOURCES as i64 - 1)]);
pub const RECEIVER_SLOT: Field = field(1, "slot", 6, &[(0, RECEIVERS as i64 - 1)]);
pub const WALL_SLOT: Field = field(1, "slot", 6, &[(0, WALLS as i64 - 1)]);
pub const X: Field = field(2, "x", MAP, &[(0, FARTHEST)]);
pub const Y: Field = field(3, "y", MAP, &[(0, FARTHEST)]);
pub const FIRST_X: Field = field(2, "x of the first end", MAP, &[(0, FARTHEST)]);
pub const FIRST_Y: Field = field(3, "y of the first end", MAP, &[(0, FARTHEST)]);
pub const SECOND_X: Field = field(2, "x of the second end", MAP, &[(0, FARTHEST)]);
pub const SECOND_Y: Field = field(3, "y of the second end", MAP, &[(0, FARTHEST)]);
pub const HEIGHT: Field = field(4, "height", 9, &[(380, 420)]);
pub const LENGTH: Field = field(4, "length", 17, &[(1, 100_000)]);
pub const LANES: Field = field(5, "several lanes", 1, &[(0, 1)]);
pub const CAR_SPEED: Field = field(6, "car speed", 8, &[(1, 250)]);
pub const TRUCK_SPEED: Field = field(7, "truck speed", 8, &[(1, 250)]);
pub const SURFACE: Field = field(8, "surface", 4, &[(1, 9)]);
pub const GRADIENT: Field = field(
    9,
    "gradient",
    8,
    &[(0, STEEPEST), (MINUS + 1, MINUS + STEEPEST)],
);
pub const REFLECTION: Field = field(10, "reflection", 3, &[(0, 4)]);
pub const PARALLEL_WALLS: Field = field(11, "parallel walls", 2, &[(0, 3)]);

/// The sizes of parallel walls, where there are any; where there are none both are 0.
pub const PARALLEL_HEIGHT: Field = field(12, "height of parallel walls", 12, &[(1, 4000)]);
pub const PARALLEL_SPACING: Field = field(13, "spacing of parallel walls", 14, &[(1, 16_383)]);

/// Traffic by day; evening and night have the same limits.
pub const VEHICLES: Field = vehicles(14);
pub const TRUCKS: Field = trucks(15);

const fn vehicles(number: u16) -> Field {
    field(number, "M", 24, &[(0, 10_000_000)])
}

const fn trucks(number: u16) -> Field {
    field(number, "p", 10, &[(0, 1000)])
}

/// The class of a road, by the rows of the table of traffic, and the vehicles of a day.
pub const CLASS: Field = field(14, "class", 2, &[(0, 3)]);
pub const DTV: Field = field(15, "DTV", 18, &[(1, 160_000)]);

/// The second end of a wall, which has numbers of its own, and how high its edge is.
pub const WALL_SECOND_X: Field = field(4, "x of the wall's second end", MAP, &[(0, FARTHEST)]);
pub const WALL_SECOND_Y: Field = field(5, "y of the wall's second end", MAP, &[(0, FARTHEST)]);
pub const WALL_HEIGHT: Field = field(6, "height of the wall", 11, &[(1, 2000)]);

/// Where a source runs: by its middle and length, which is not cut, or by its two ends.
pub static UNCUT_COURSE: [Field; 3] = [X, Y, LENGTH];
pub static BETWEEN_COURSE: [Field; 4] = [FIRST_X, FIRST_Y, SECOND_X, SECOND_Y];

/// What every source is like, wherever it runs and whatever drives there.
const ROAD_FIELDS: [Field; 9] = [
    LANES,
    CAR_SPEED,
    TRUCK_SPEED,
    SURFACE,
    GRADIENT,
    REFLECTION,
    PARALLEL_WALLS,
    PARALLEL_HEIGHT,
    PARALLEL_SPACING,
];

/// The traffic of a source, period by period.
const TRAFFIC_FIELDS: [Field; 6] = [
    VEHICLES,
    TRUCKS,
    vehicles(16),
    trucks(17),
    vehicles(18),
    trucks(19),
];

/// The fields 5 to 19, which every source has in the book.
pub static COMMON_FIELDS: [Field; 15] = joined(&[&ROAD_FIELDS, &TRAFFIC_FIELDS]);

/// The fields of a source in their order: by its middle and length, by its two ends, and by its
/// middle and length and its daily figure.
pub static SOURCE_FIELDS: [Field; 19] = joined(&[&[SOURCE_SLOT], &UNCUT_COURSE, &COMMON_FIELDS]);
pub static BETWEEN_FIELDS: [Field; 20] = joined(&[&[SOURCE_SLOT], &BETWEEN_COURSE, &COMMON_FIELDS]);
pub static DAILY_FIELDS: [Field; 15] =
    joined(&[&[SOURCE_SLOT], &UNCUT_COURSE, &ROAD_FIELDS, &[CLASS, DTV]]);

/// Tables of fields one after the other.
pub const fn joined<const N: usize>(tables: &[&[Field]]) -> [Field; N] {
    let mut fields = [SOURCE_SLOT; N];
    let (mut table, mut at, mut taken) = (0, 0, 0);
    while taken < N {
        if at < tables[table].len() {
            fields[taken] = tables[table][at];
            at += 1;
            taken += 1;
        } else {
            table += 1;
            at = 0;
        }
    }
    assert!(table + 1 == tables.len() && at == tables[table].len());
    fields
}

/// The fields of a receiver in their order.
pub static RECEIVER_FIELDS: [Field; 4] = [RECEIVER_SLOT, X, Y, HEIGHT];

/// Where a wall stands, and the fields of a wall in their order.
pub static WALL_ENDS: [Field; 4] = [FIRST_X, FIRST_Y, WALL_SECOND_X, WALL_SECOND_Y];
pub static WALL_FIELDS: [Field; 6] = joined(&[&[WALL_SLOT], &WALL_ENDS, &[WALL_HEIGHT]]);

impl Field {
    /// The least value that is allowed.
    pub const fn least(&self) -> i64 {
        self.allowed[0].0
    }

    /// The greatest value that is allowed.
    pub const fn most(&self) -> i64 {
        self.allowed[self.allowed.len() - 1].1
    }

    /// Whether a value is allowed, as far as the field itself says.
    pub fn allows(&self, value: i64) -> bool {
        let mut ranges = self.allowed.iter();
        ranges.any(|&(first, last)| first <= value && value <= last)
    }

    /// Whether the field is a size of parallel walls.
    pub fn of_parallel_walls(&self) -> bool {
        [PARALLEL_HEIGHT.number, PARALLEL_SPACING.number].contains(&self.number)
    }

    /// Where the field is in a table that has it.
    pub fn index_in(&self, fields: &[Field]) -> usize {
        let index = fields.iter().position(|field| field == self);
        index.expect("the table has the field")
    }

    /// Bytes of the field in the store: whole ones, as few as its bits need.
    pub const fn bytes(&self) -> usize {
        self.bits.div_ceil(8) as usize
    }

    /// Bits of the field in the store.
    pub const fn stored_bits(&self) -> u32 {
        8 * self.bytes() as u32
    }

    /// Bytes of the field's type in a call.
    pub const fn type_bytes(&self) -> usize {
        self.bytes().next_power_of_two()
    }

    /// The first and the last value of each allowed range.
    pub fn inner_edges(&self) -> Vec<i64> {
        let ends = |&(first, last): &(i64, i64)| [first, last];
        self.allowed.iter().flat_map(ends).collect()
    }

    /// The values just past the allowed ranges that so many bits hold.
    pub fn outer_edges(&self, bits: u32) -> Vec<i64> {
        let past = |&(first, last): &(i64, i64)| [first - 1, last + 1];
        let past = self.allowed.iter().flat_map(past);
        past.filter(|&value| fits(value, bits)).collect()
    }

    /// All values worth trying in so many bits: the edges on both sides, one step further in,
    /// the most that a record's bits hold and one more, and the least and most of these bits.
    pub fn edges(&self, bits: u32) -> Vec<i64> {
        let steps = |&(first, last): &(i64, i64)| [first + 1, last - 1];
        let mut values: Vec<i64> = self.allowed.iter().flat_map(steps).collect();
        values.extend(self.inner_edges());
        values.extend(self.outer_edges(bits));
        values.extend([0, widest(self.bits), widest(self.bits) + 1, widest(bits)]);
        values.retain(|&value| fits(value, bits));
        values.sort_unstable();
        values.dedup();
        values
    }
}

/// Whether so many bits hold a value.
fn fits(value: i64, bits: u32) -> bool {
    (0..=widest(bits)).contains(&value)
}
