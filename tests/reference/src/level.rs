// Levels and energies: the table Z, the energy of a level of either sign and the level of an energy.
// Levels are whole hundredths of a decibel; the energy of level 0 is one million.

use std::sync::LazyLock;

/// Entries of the table: one for each hundredth of a decibel in ten decibels.
pub const STEPS: i64 = 1000;

/// The energy of level 0, below which there is no level.
pub const FAINTEST: i64 = 1_000_000;

/// Powers of ten that fit the energies.
const TENS: [i64; 19] = powers_of_ten();

/// The table, filled at first use. A test holds every entry against the exact rule.
static Z: LazyLock<[i64; STEPS as usize]> = LazyLock::new(fill);

const fn powers_of_ten() -> [i64; 19] {
    let mut tens = [1; 19];
    let mut i = 1;
    while i < tens.len() {
        tens[i] = tens[i - 1] * 10;
        i += 1;
    }
    tens
}

fn fill() -> [i64; STEPS as usize] {
    std::array::from_fn(|k| (1e6 * 10f64.powf(k as f64 / 1000.0)).round() as i64)
}

/// One entry of the table, `k` from 0 to 999.
pub fn entry(k: usize) -> i64 {
    Z[k]
}

/// The energy of a level of either sign.
pub fn energy(level: i64) -> i64 {
    if level < 0 {
        return faint_energy(level);
    }
    Z[(level % STEPS) as usize] * TENS[(level / STEPS) as usize]
}

/// The energy of a level below 0: that of the level so many whole ten decibels above it that is not
/// below 0 any more, divided by as many tens, down.
fn faint_energy(level: i64) -> i64 {
    let decades = (STEPS - 1 - level) / STEPS;
    match TENS.get(decades as usize) {
        Some(tens) => Z[(level + STEPS * decades) as usize] / tens,
        None => 0,
    }
}

/// The greatest level whose energy is at most the given one; none below a million.
pub fn level(energy: i64) -> Option<i64> {
    if energy < FAINTEST {
        return None;
    }
    let decade = energy.ilog10() as usize - 6;
    let lead = energy / TENS[decade];
    let above = Z.partition_point(|&z| z <= lead) as i64;
    Some(STEPS * decade as i64 + above - 1)
}

/// The level of a whole number of millions, which must be at least one.
pub fn lv(n: i64) -> i64 {
    level(n * FAINTEST).expect("a whole number of at least one has a level")
}

#[cfg(test)]
mod tests {
    use super::*;
    use crate::power::nearest;

    #[test]
    fn every_entry_keeps_the_rule() {
        for k in 0..STEPS as usize {
            assert!(nearest(entry(k), k), "entry {k}");
        }
        assert!(!nearest(entry(1) - 1, 1));
        assert!(!nearest(entry(1) + 1, 1));
    }

    #[test]
    fn energies_of_levels_below_0() {
        let worked = [
            (0, 1_000_000),
            // Z[999] = 9977001, a tenth of it down
            (-1, 997_700),
            // Z[1] = 1002305
            (-999, 100_230),
            (-1000, 100_000),
            (-1001, 99_770),
            (-2000, 10_000),
            (-5999, 1),
            (-6000, 1),
            // Z[999] again, which is less than ten million
            (-6001, 0),
            (-7000, 0),
            (-18_000, 0),
            (-18_001, 0),
            (-100_000, 0),
        ];
        for (level, expected) in worked {
            assert_eq!(energy(level), expected, "{level}");
        }
    }

    #[test]
    fn a_louder_level_never_has_less_energy() {
        for level in -7000..9000 {
            assert!(energy(level) <= energy(level + 1), "{level}");
        }
    }

    #[test]
    fn ten_decibels_below_are_a_tenth() {
        for level in -7000..9000 {
            assert_eq!(energy(level) / 10, energy(level - 1000), "{level}");
        }
    }

    #[test]
    fn a_level_is_the_greatest_that_fits() {
        for l in 0..=12_900 {
            assert_eq!(level(energy(l)), Some(l));
            assert_eq!(level(energy(l + 1) - 1), Some(l));
        }
        assert_eq!(level(FAINTEST - 1), None);
        assert_eq!(level(0), None);
        assert_eq!(level(i64::MAX), Some(12_964));
    }
}
