// Chance from a seed: the same seed always makes the same jobs and stored states.
// The generator is splitmix64, so that neighbouring seeds have nothing in common.

use crate::fields::Field;

pub struct Chance {
    state: u64,
}

impl Chance {
    pub fn new(seed: u64) -> Chance {
        Chance { state: seed }
    }

    pub fn draw(&mut self) -> u64 {
        self.state = self.state.wrapping_add(0x9e37_79b9_7f4a_7c15);
        let mut z = self.state;
        z = (z ^ (z >> 30)).wrapping_mul(0xbf58_476d_1ce4_e5b9);
        z = (z ^ (z >> 27)).wrapping_mul(0x94d0_49bb_1331_11eb);
        z ^ (z >> 31)
    }

    /// A whole number from `least` to `most`, both among them.
    pub fn between(&mut self, least: i64, most: i64) -> i64 {
        let span = (most - least) as u64 + 1;
        least + (self.draw() % span) as i64
    }

    /// An index below a count, which must not be zero.
    pub fn index(&mut self, count: usize) -> usize {
        self.between(0, count as i64 - 1) as usize
    }

    pub fn one_in(&mut self, count: i64) -> bool {
        self.between(1, count) == 1
    }

    pub fn pick<T: Copy>(&mut self, from: &[T]) -> T {
        from[self.index(from.len())]
    }

    /// Like `between`, but often at one of the ends.
    pub fn edge(&mut self, least: i64, most: i64) -> i64 {
        match self.between(0, 7) {
            0 => least,
            1 => most,
            _ => self.between(least, most),
        }
    }

    /// An allowed value of a field of one range.
    pub fn within(&mut self, field: &Field) -> i64 {
        self.between(field.least(), field.most())
    }

    /// Like `within`, but often the least or the greatest.
    pub fn edge_in(&mut self, field: &Field) -> i64 {
        self.edge(field.least(), field.most())
    }

    /// Like `between` from one, but small numbers are as likely as great ones.
    pub fn magnitude(&mut self, most: i64) -> i64 {
        let bits = self.between(0, i64::from(most.ilog2()));
        self.between(1, (1 << (bits + 1)) - 1).min(most)
    }
}
