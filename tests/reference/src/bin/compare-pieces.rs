// Compares the listings of a job program with the reference's, on jobs that come through a pipe in pieces.
// Every delivery stands for a seed, and a seed alone with a count of 1 makes that delivery again.

use reference::compare::{difference, keep, run, Order};
use reference::listing::{list, Tally};
use reference::pieces::{delivery, output_in_pieces, Delivery, BUFFER};
use std::process::ExitCode;

fn main() -> ExitCode {
    run("compare-pieces PROGRAM COUNT [SEED]", compare)
}

fn compare(order: &Order) -> Result<String, String> {
    let mut tally = Tally::default();
    let (mut pieces, mut longer_in, mut longer_out) = (0, 0, 0);
    for seed in order.seeds() {
        let delivery = delivery(seed);
        let (listed, length) = compare_delivery(order, seed, &delivery)?;
        tally.add(&listed);
        pieces += delivery.sizes.len();
        longer_in += u64::from(delivery.job.len() > BUFFER);
        longer_out += u64::from(length > BUFFER);
    }
    Ok(format!(
        "{} jobs in {pieces} pieces agree: {} records, {} asks answered, {} ended by 2, {} by 3; \
         {longer_in} jobs and {longer_out} listings longer than a buffer",
        order.count, tally.records, tally.asks, tally.refusals[2], tally.refusals[3]
    ))
}

/// The tally of a delivery's listing, and the listing's length.
fn compare_delivery(
    order: &Order,
    seed: u64,
    delivery: &Delivery,
) -> Result<(Tally, usize), String> {
    let mut expected = Vec::new();
    let tally = list(&delivery.job, &mut expected);
    let report = match output_in_pieces(&order.program, delivery) {
        Ok(found) if found == expected => return Ok((tally, expected.len())),
        Ok(found) => difference(&expected, &found),
        Err(error) => error.to_string(),
    };
    let kept = keep(&format!("pieces-{seed}.job"), &delivery.job);
    let first: Vec<&usize> = delivery.sizes.iter().take(5).collect();
    Err(format!(
        "delivery {seed}, in pieces of {first:?}.., differs\n{report}\n{kept}"
    ))
}
