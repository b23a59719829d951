// Roots worked by hand in binary: the sheet of a number, of which every line is found for itself.
// Nothing is carried from line to line; a line's root is that of all digits brought down so far.

use std::io::Write;

/// The greatest root of a number of 64 binary digits.
const GREATEST: u64 = u32::MAX as u64;

/// The whole root of a whole number, down: a guess, brought to where the exact squares say.
pub fn root(square: u64) -> u64 {
    let mut guess = ((square as f64).sqrt() as u64).min(GREATEST);
    while guess * guess > square {
        guess -= 1;
    }
    while guess < GREATEST && (guess + 1) * (guess + 1) <= square {
        guess += 1;
    }
    guess
}

/// The root of a number, and what is left of the number without its square.
pub fn parts(number: u64) -> (u64, u64) {
    let root = root(number);
    (root, number - root * root)
}

/// The pairs of binary digits of a number, from the highest that is not zero.
pub fn pairs(number: u64) -> usize {
    (u64::BITS - number.leading_zeros()).div_ceil(2) as usize
}

/// Puts the sheet of a number: its digits, a line for each pair of them, and the sum.
pub fn put_sheet(number: u64, out: &mut Vec<u8>) {
    let pairs = pairs(number);
    let digits = format!("{number:064b}");
    let digits = &digits[64 - 2 * pairs..];
    put(out, format_args!("    {digits}\n"));
    for line in 1..=pairs {
        let down = &digits[2 * line - 2..2 * line];
        let later = 2 * (pairs - line);
        let (root, left) = parts(number >> later);
        let (columns, gap) = (2 * line, later + 2);
        put(
            out,
            format_args!("{down}  {left:>columns$b}{:gap$}{root:0line$b}\n", ""),
        );
    }
    let (root, left) = parts(number);
    put(out, format_args!("{root} x {root} + {left} = {number}\n"));
}

fn put(out: &mut Vec<u8>, text: std::fmt::Arguments) {
    out.write_fmt(text).expect("memory takes every line");
}

/// The number that a line stands for; none where it has other signs than digits, or is too great.
fn number_of(line: &str) -> Option<u64> {
    let all_digits = line.bytes().all(|sign| sign.is_ascii_digit());
    line.parse().ok().filter(|_| all_digits)
}

/// Puts the sheets of numbers, each on a line. It stops at the first line that is none, and gives
/// that line.
pub fn put_sheets<'a>(numbers: &'a str, out: &mut Vec<u8>) -> Result<(), &'a str> {
    for line in numbers.lines() {
        put_sheet(number_of(line).ok_or(line)?, out);
    }
    Ok(())
}
