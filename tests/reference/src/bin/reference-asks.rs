// Asks every receiver of a stored state, over and over, and prints the least seconds of one round.
// It is what bench/asks.c is timed against.

use reference::fields::RECEIVERS;
use reference::viewer::{ask, OUTPUT_SIZE};
use std::hint::black_box;
use std::process::ExitCode;
use std::time::Instant;

const ROUNDS: usize = 200;

fn main() -> ExitCode {
    let Some(name) = std::env::args().nth(1) else {
        eprintln!("usage: reference-asks STORE");
        return ExitCode::FAILURE;
    };
    match std::fs::read(&name) {
        Ok(store) => {
            let least = (0..ROUNDS).map(|_| round(&store)).fold(f64::MAX, f64::min);
            println!("{least:.6}");
            ExitCode::SUCCESS
        }
        Err(error) => {
            eprintln!("{name}: {error}");
            ExitCode::FAILURE
        }
    }
}

/// Seconds of one round.
fn round(store: &[u8]) -> f64 {
    let begun = Instant::now();
    for slot in 0..RECEIVERS as u64 {
        let mut output = [0; OUTPUT_SIZE];
        ask(black_box(store), slot, &mut output).expect("a receiver in every slot");
        black_box(output);
    }
    begun.elapsed().as_secs_f64()
}
