// Numbers to take roots of: by chance, of many kinds, and those that are tried every time.
// A seed stands for one number; its remainder by the number of kinds says which kind it is.

use crate::chance::Chance;
use crate::longhand::{pairs, parts};

/// What makes one kind of number.
type Maker = fn(&mut Chance) -> u64;

/// The kinds; squares and what lies beside them are the most.
const KINDS: [Maker; 14] = [
    any, square, beside, of_length, beside, distance, continued, any, square, beside, of_length,
    beside, power, continued,
];

/// The number a seed stands for.
pub fn number(seed: u64) -> u64 {
    let kind = KINDS[(seed % KINDS.len() as u64) as usize];
    kind(&mut Chance::new(seed))
}

/// The greatest root there is, and the most that a side of a distance has.
const GREATEST: u64 = u32::MAX as u64;
const SIDE: i64 = 1 << 24;

fn any(chance: &mut Chance) -> u64 {
    chance.draw()
}

/// So many binary digits that every length is as likely.
fn of_length(chance: &mut Chance) -> u64 {
    let above = chance.index(64);
    (1 << 63 | chance.draw()) >> above
}

/// A root of any length.
fn some_root(chance: &mut Chance) -> u64 {
    chance.magnitude(GREATEST as i64) as u64
}

fn square(chance: &mut Chance) -> u64 {
    some_root(chance).pow(2)
}

/// The numbers beside a square and halfway to the next, where a root or its rounding changes.
fn all_beside(root: u64) -> [u64; 5] {
    let square = root * root;
    [
        square - 1,
        square + 1,
        square + root,
        square + root + 1,
        square + 2 * root,
    ]
}

fn beside(chance: &mut Chance) -> u64 {
    let root = some_root(chance);
    chance.pick(&all_beside(root))
}

/// A square or a number beside one, and after it any pairs of digits, as many as there is room
/// for or fewer: so a step in the middle is as close as one at the end.
fn continued(chance: &mut Chance) -> u64 {
    let front = if chance.one_in(2) {
        square(chance)
    } else {
        beside(chance)
    };
    let room = front.leading_zeros() as usize / 2;
    let later = 2 * chance.index(room.min(31) + 1);
    front << later | chance.draw() & ((1 << later) - 1)
}

/// The square of a distance on a map.
fn distance(chance: &mut Chance) -> u64 {
    let [across, along] = [(); 2].map(|()| chance.magnitude(SIDE) as u64);
    across * across + along * along
}

/// A power of two, one beside it, or the sum or the difference of two such powers.
fn power(chance: &mut Chance) -> u64 {
    let [one, other] = [(); 2].map(|()| 1u64 << chance.index(64));
    match chance.index(5) {
        0 => one,
        1 => one - 1,
        2 => one + 1,
        3 => one | other,
        _ => one.abs_diff(other),
    }
}

/// The numbers that are tried every time, whatever the seed is.
pub fn fixed_numbers() -> Vec<u64> {
    let mut numbers: Vec<u64> = (0..=4096).collect();
    for power in (0..64).map(|digit| 1u64 << digit) {
        numbers.extend([power - 1, power, power + 1]);
    }
    for root in (0..32).map(|digit| GREATEST >> digit) {
        numbers.push(root * root);
        numbers.extend(all_beside(root));
    }
    numbers.extend([u64::MAX - 1, u64::MAX]);
    numbers.extend(close_in_the_middle());
    numbers
}

/// For every step of every length: a trial that just fits, and one that is one too great.
fn close_in_the_middle() -> Vec<u64> {
    let mut numbers = Vec::new();
    for (digits, root) in (1..=32).map(|digits| (digits, GREATEST >> (32 - digits))) {
        for later in (0..=32 - digits).map(|pairs| 2 * pairs) {
            let ones = (1 << later) - 1;
            numbers.push((root * root) << later);
            numbers.push((root * root - 1) << later | ones);
        }
    }
    numbers
}

/// What numbers there were: how many, with how many lines, and which of them are squares, lie
/// beside one, or lie where a root that is rounded to the nearest changes.
#[derive(Debug, Default, PartialEq, Eq)]
pub struct Tally {
    numbers: u64,
    lines: u64,
    squares: u64,
    one_less: u64,
    one_more: u64,
    halfway: u64,
}

impl Tally {
    pub fn count(&mut self, number: u64) {
        let (root, left) = parts(number);
        self.numbers += 1;
        self.lines += pairs(number) as u64 + 2;
        match left {
            0 => self.squares += 1,
            _ if left == 2 * root => self.one_less += 1,
            1 => self.one_more += 1,
            _ if left == root || left == root + 1 => self.halfway += 1,
            _ => {}
        }
    }

    pub fn summary(&self) -> String {
        format!(
            "{} roots agree, line by line: {} lines, {} squares, {} one less, {} one more, \
             {} halfway to the next",
            self.numbers, self.lines, self.squares, self.one_less, self.one_more, self.halfway
        )
    }
}
