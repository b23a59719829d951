// Compares the sheets of a program that takes roots by hand with the reference's, line by line.
// Every number stands for a seed, and a seed alone with a count of 1 makes that number again.

use reference::compare::{run, Order};
use reference::roots::{fixed_numbers, number, Tally};
use reference::sheets::{compare_batch, compare_refused, Asked};
use std::process::ExitCode;

/// Numbers for one run of the program.
const AT_ONCE: usize = 10_000;

/// Inputs in which a line is not a number below 2^64: a sign behind digits, the number 2^64
/// itself, and two greater ones of which the lowest 64 binary digits are a 1 and a 0.
const REFUSED: [&str; 4] = [
    "16\n12a\n25\n",
    "18446744073709551616\n",
    "9\n36893488147419103233\n25\n",
    "184467440737095516160\n",
];

fn main() -> ExitCode {
    run("compare-roots PROGRAM COUNT [SEED]", compare)
}

fn compare(order: &Order) -> Result<String, String> {
    let mut tally = Tally::default();
    let asked = |name, number| Asked { name, number };
    let fixed = fixed_numbers().into_iter().enumerate();
    let fixed = fixed.map(|(at, number)| asked(format!("fixed-{at}"), number));
    let drawn = |seed| asked(format!("seed-{seed}"), number(seed));
    let mut numbers = fixed.chain(order.seeds().map(drawn));
    loop {
        let batch: Vec<Asked> = numbers.by_ref().take(AT_ONCE).collect();
        if batch.is_empty() {
            break;
        }
        compare_batch(&order.program, &batch)?;
        batch.iter().for_each(|asked| tally.count(asked.number));
    }
    for input in REFUSED {
        compare_refused(&order.program, input)?;
    }
    Ok(format!(
        "{}, {} inputs refused",
        tally.summary(),
        REFUSED.len()
    ))
}
