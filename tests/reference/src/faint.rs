// Faint roads by chance: share levels just where the energy of one below zero turns, and roads that
// together come to a sum of which one unit decides what is answered.

use crate::chance::Chance;
use crate::course::Point;
use crate::fields::{LENGTH, SOURCES, VEHICLES};
use crate::level::{energy, level, FAINTEST};
use crate::limits::{any_way, tuned_to, uncut_levels};
use crate::road::{root, Receiver, Source};
use crate::town::{road, WIDE};

/// Share levels around zero, below it around whole tens of decibels, and around the last that has an
/// energy.
pub const FAINT_LEVELS: [i64; 22] = [
    -6001, -6000, -5999, -5001, -5000, -4000, -3999, -3001, -2001, -2000, -1999, -1001, -1000,
    -999, -2, -1, -1, 0, 0, 1, 2, 700,
];

/// The last level that has an energy.
const LAST: i64 = -6000;

/// How far below zero the roads of a valley are: from just below it to where all slots together just
/// come to it.
const DEPTHS: [i64; 8] = [1, 10, 500, 1000, 1500, 2050, 2200, 2400];

/// Roads that are tried until one can be brought to a level.
const TRIES: usize = 60;

/// Traffic may be so many hundredths of a decibel below the most and still goes up in small steps.
const FINE: i64 = 3500;

/// A length with which this road, at most that long, comes to a share level with traffic that goes up
/// in small steps; or as near to it as there is.
fn length_for(
    chance: &mut Chance,
    road: Source,
    receiver: &Receiver,
    level: i64,
    most: i64,
) -> i64 {
    let mut shortest = road.uncut(LENGTH.least());
    shortest.traffic[2].vehicles = VEHICLES.most();
    let loudest = uncut_levels(&shortest, receiver)[2].unwrap_or(0);
    let missing = level - loudest + chance.between(0, FINE);
    (energy(missing) / FAINTEST).clamp(LENGTH.least(), most)
}

/// A road somewhere before a receiver with the given share level in every period, if one is found.
pub fn road_of_level(chance: &mut Chance, receiver: &Receiver, level: i64) -> Option<Source> {
    (0..TRIES).find_map(|_| {
        let way = any_way(chance, WIDE);
        let half = root(way.dx * way.dx + way.dy * way.dy) / 2;
        let mut source = way.place(road(chance), receiver);
        let most = half.min(LENGTH.most());
        source = source.uncut(length_for(chance, source, receiver, level, most));
        for period in 0..3 {
            source.traffic[period].vehicles = tuned_to(&source, receiver, period, level)?;
        }
        Some(source)
    })
}

/// Levels whose energies come to just the given one together, the loudest first.
pub fn made_up(mut rest: i64) -> Vec<i64> {
    let mut levels = Vec::new();
    while rest > 0 {
        let fits = |level: &i64| (1..=rest).contains(&energy(*level));
        let faint = || (LAST..0).rev().find(fits);
        let greatest = level(rest).or_else(faint);
        let greatest = greatest.expect("the last level has one unit");
        rest -= energy(greatest);
        levels.push(greatest);
    }
    levels
}

/// A sum at which an answer changes, or one unit less, that leaves room for a share of this level: it
/// is mostly the least that is not quiet.
fn verge(chance: &mut Chance, level: i64) -> i64 {
    let tenths = 10 * chance.between(70, 300) + 5;
    let step = if level < 0 {
        chance.pick(&[0, 0, tenths])
    } else {
        tenths
    };
    energy(step) - chance.between(0, 1)
}

/// Roads before a receiver, the first with one of the faint levels, that come to such a sum together
/// in every period, if such are found.
pub fn roads_on_the_verge(chance: &mut Chance, receiver: &Receiver) -> Option<Vec<Source>> {
    let level = chance.pick(&FAINT_LEVELS);
    let rest = verge(chance, level) - energy(level);
    let levels = [level].into_iter().chain(made_up(rest));
    levels
        .map(|level| road_of_level(chance, receiver, level))
        .collect()
}

/// A few receivers that stand together, and hundreds of far roads of which each is below zero there.
pub struct Valley {
    pub receivers: Vec<Receiver>,
    pub roads: Vec<Source>,
}

/// A valley of which the roads are about as far below zero as each other, in every period.
pub fn valley(chance: &mut Chance) -> Valley {
    let receiver = any_way(chance, WIDE).receiver(chance);
    let depth = chance.pick(&DEPTHS);
    let spread = chance.pick(&[0, 1, 500]);
    let kinds: Vec<Source> = (0..chance.between(1, 20))
        .filter_map(|_| {
            let level = -depth - chance.between(0, spread);
            road_of_level(chance, &receiver, level)
        })
        .collect();
    assert!(!kinds.is_empty(), "a road can be so far below zero");
    let mut receivers = vec![receiver];
    for _ in 0..chance.between(0, 2) {
        let (x, y) = nearby(chance, receiver.place());
        receivers.push(Receiver { x, y, ..receiver });
    }
    let roads = chance.between(150, SOURCES as i64);
    let road = |_| {
        let road = chance.pick(&kinds);
        let (x, y) = nearby(chance, road.course.middle());
        road.moved(x, y)
    };
    let roads = (0..roads).map(road).collect();
    Valley { receivers, roads }
}

/// The same place every other time, or one some steps from it.
fn nearby(chance: &mut Chance, place: Point) -> (i64, i64) {
    let steps = chance.pick(&[0, 100]);
    let x = place.x + chance.between(-steps, steps);
    let y = place.y + chance.between(-steps, steps);
    (x, y)
}

#[cfg(test)]
mod tests {
    use super::*;

    #[test]
    fn levels_make_up_a_sum() {
        // 2300 is 2296 (Z[361] = 2296149, three tens down) and 4 (Z[698] = 4988845, six tens down)
        assert_eq!(made_up(1_000_000 - 997_700), [-2639, -5302]);
        assert_eq!(made_up(1_000_000), [0]);
        assert_eq!(made_up(0), []);
        for sum in (0..2_000_000).step_by(997) {
            let levels = made_up(sum);
            assert_eq!(levels.into_iter().map(energy).sum::<i64>(), sum);
        }
    }

    #[test]
    fn roads_are_found_for_every_faint_level() {
        let chance = &mut Chance::new(1);
        for level in FAINT_LEVELS {
            let mut found = 0;
            for _ in 0..20 {
                let receiver = any_way(chance, WIDE).receiver(chance);
                if let Some(source) = road_of_level(chance, &receiver, level) {
                    assert_eq!(uncut_levels(&source, &receiver), [Some(level); 3]);
                    found += 1;
                }
            }
            assert!(found >= 8, "{level}: {found}");
        }
    }
}
