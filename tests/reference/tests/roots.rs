// Roots by hand: the sheets worked out on paper, the step that leads from each line to the next,
// what the numbers by chance meet, and whether a sheet that differs is noticed.

use reference::longhand::{pairs, parts, put_sheet, put_sheets, root};
use reference::road;
use reference::roots::{fixed_numbers, number};
use reference::sheets::{compare_sheets, Asked};
use std::collections::BTreeSet;
use std::ops::RangeInclusive;

/// As many as the shortest comparison draws.
const SEEDS: RangeInclusive<u64> = 1..=1500;

const THOUSAND: &str = "    1111101000
11  10          1
11   110        11
10    1101      111
10     11001    1111
00      100111  11111
31 x 31 + 39 = 1000
";

/// All numbers that are tried.
fn numbers() -> impl Iterator<Item = u64> {
    SEEDS.map(number).chain(fixed_numbers())
}

fn sheet(number: u64) -> String {
    let mut out = Vec::new();
    put_sheet(number, &mut out);
    String::from_utf8(out).unwrap()
}

/// The root and what is left after so many pairs of a number.
fn after(pair: usize, number: u64) -> (u64, u64) {
    let later = 2 * (pairs(number) - pair) as u32;
    parts(number.checked_shr(later).unwrap_or(0))
}

#[test]
fn sheets_are_those_on_paper() {
    assert_eq!(sheet(1000), THOUSAND);
    assert_eq!(sheet(0), "    \n0 x 0 + 0 = 0\n");
    assert_eq!(sheet(1), "    01\n01   0  1\n1 x 1 + 0 = 1\n");
    assert_eq!(sheet(3), "    11\n11  10  1\n1 x 1 + 2 = 3\n");
    assert_eq!(
        sheet(4),
        "    0100\n01   0    1\n00     0  10\n2 x 2 + 0 = 4\n"
    );
}

#[test]
fn the_greatest_number_has_the_longest_sheet() {
    let text = sheet(u64::MAX);
    let lines: Vec<&str> = text.lines().collect();
    assert_eq!(lines.len(), 34);
    assert_eq!(lines[0], format!("    {}", "1".repeat(64)));
    for (line, found) in (1..=32).zip(&lines[1..]) {
        let left = format!("{}0", "1".repeat(line));
        let gap = " ".repeat(64 - 2 * line + 2);
        let root = "1".repeat(line);
        let columns = 2 * line;
        assert_eq!(*found, format!("11  {left:>columns$}{gap}{root}"));
    }
    assert_eq!(
        lines[33],
        "4294967295 x 4294967295 + 8589934590 = 18446744073709551615"
    );
}

#[test]
fn sheets_stop_at_a_line_that_is_no_number() {
    for (line, input) in [
        ("12a", "16\n12a\n25\n"),
        ("18446744073709551616", "16\n18446744073709551616\n"),
        ("+1", "16\n+1\n"),
        ("", "16\n\n25\n"),
    ] {
        let mut out = Vec::new();
        assert_eq!(put_sheets(input, &mut out), Err(line));
        assert_eq!(out, sheet(16).into_bytes());
    }
    let mut out = Vec::new();
    assert_eq!(put_sheets("16\n1000\n", &mut out), Ok(()));
    assert_eq!(out, (sheet(16) + THOUSAND).into_bytes());
}

#[test]
fn roots_are_the_greatest_whose_squares_fit() {
    let square_of = |root: u64| u128::from(root) * u128::from(root);
    for number in numbers() {
        let found = root(number);
        assert!(square_of(found) <= u128::from(number), "{number}");
        assert!(square_of(found + 1) > u128::from(number), "{number}");
    }
}

/// Distances stay far below 2^62, where the book's root still squares one more than it.
#[test]
fn the_roots_of_distances_are_these_roots() {
    for number in numbers().filter(|number| *number < 1 << 62) {
        assert_eq!(road::root(number as i64) as u64, root(number), "{number}");
    }
}

#[test]
fn roots_change_at_squares_alone() {
    let greatest = u64::from(u32::MAX);
    let steps = (1..=2000).chain((1..=2000).map(|step| step * 2_147_483));
    for found in steps.chain(greatest - 2000..=greatest) {
        let square = found * found;
        assert_eq!(root(square - 1), found - 1, "below {found}");
        assert_eq!(root(square), found);
        assert_eq!(root(square + 2 * found), found, "above {found}");
    }
}

#[test]
fn every_line_follows_from_the_one_before() {
    for number in numbers() {
        for pair in 1..=pairs(number) {
            let (root, left) = after(pair - 1, number);
            let down = number >> (2 * (pairs(number) - pair)) & 3;
            let (brought, trial) = (4 * left + down, 4 * root + 1);
            let next = if trial <= brought {
                (2 * root + 1, brought - trial)
            } else {
                (2 * root, brought)
            };
            assert_eq!(after(pair, number), next, "pair {pair} of {number}");
        }
    }
}

#[test]
fn numbers_of_every_length_are_drawn() {
    let mut met = [0; 65];
    SEEDS.for_each(|seed| met[(64 - number(seed).leading_zeros()) as usize] += 1);
    assert!(met[1..].iter().all(|&count| count >= 5), "{met:?}");
}

/// How the last step to a root went: the digit, and by how much it was decided where that is
/// least: a trial that just fits, or one that is one too great.
fn last_step(number: u64) -> (u64, bool) {
    let (root, left) = parts(number);
    let closest = if root % 2 == 1 { 0 } else { 2 * root };
    (root % 2, left == closest)
}

#[test]
fn every_step_goes_both_ways_as_closely_as_it_can() {
    let mut met = BTreeSet::new();
    for number in numbers().filter(|&number| number > 0) {
        for pair in 1..=pairs(number) {
            let later = 2 * (pairs(number) - pair);
            met.insert((pairs(number), pair, last_step(number >> later)));
        }
    }
    for all in 1..=32 {
        for pair in 2..=all {
            for step in [(0, false), (0, true), (1, false), (1, true)] {
                assert!(
                    met.contains(&(all, pair, step)),
                    "{pair} of {all}: {step:?}"
                );
            }
        }
    }
}

/// Numbers of several lengths, and what a program has to print for them.
fn batch() -> (Vec<Asked>, Vec<u8>) {
    let asked = |number: u64| Asked {
        name: format!("number-{number}"),
        number,
    };
    let batch: Vec<Asked> = [5, 0, 1000, u64::MAX].map(asked).into();
    let text: String = batch.iter().map(|asked| sheet(asked.number)).collect();
    (batch, text.into_bytes())
}

/// At which number an output differs, if it does.
fn noticed(batch: &[Asked], output: &[u8]) -> Option<usize> {
    let difference = compare_sheets(&mut &output[..], batch).unwrap()?;
    let name = &batch[difference.at].name;
    assert!(difference.report.contains(name), "{}", difference.report);
    Some(difference.at)
}

#[test]
fn every_byte_of_a_sheet_counts() {
    let (batch, output) = batch();
    assert_eq!(noticed(&batch, &output), None);
    let mut ends = Vec::new();
    for asked in &batch {
        ends.push(ends.last().unwrap_or(&0) + sheet(asked.number).len());
    }
    for at in 0..output.len() {
        let here = ends.iter().position(|&end| at < end);
        let mut changed = output.clone();
        changed[at] ^= 1;
        assert_eq!(noticed(&batch, &changed), here, "byte {at} changed");
        changed.remove(at);
        assert!(noticed(&batch, &changed).is_some(), "byte {at} missing");
        assert_eq!(noticed(&batch, &output[..at]), here, "ended at {at}");
    }
}

#[test]
fn more_than_the_sheets_is_noticed() {
    let (batch, output) = batch();
    for more in ["\n", " ", "0", "    \n0 x 0 + 0 = 0\n"] {
        let longer = [&output, more.as_bytes()].concat();
        assert_eq!(noticed(&batch, &longer), Some(batch.len() - 1));
    }
}

#[test]
fn a_difference_names_the_number_and_the_line() {
    let (batch, output) = batch();
    let text = String::from_utf8(output).unwrap();
    let changed = text.replace("10     11001    1111\n", "10     11001    1110\n");
    let difference = compare_sheets(&mut changed.as_bytes(), &batch).unwrap();
    assert_eq!(
        difference.unwrap().report,
        "the root of 1000 (number-1000) differs\nline 5: the reference has \
         \"10     11001    1111\\n\", the program \"10     11001    1110\\n\""
    );
}
