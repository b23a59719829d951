// Compares how a probing program writes records, and reads them back, with the reference.
// Every probe stands for a seed, and a seed alone with a count of 1 makes that probe again.

use reference::book::Answer;
use reference::compare::{compare_probes, run, Order, Probe};
use reference::road::NUMBERS;
use reference::writing::{fixed_writings, writing};
use std::process::ExitCode;

fn main() -> ExitCode {
    run("compare-records PROGRAM COUNT [SEED]", compare)
}

fn compare(order: &Order) -> Result<String, String> {
    let mut written = 0;
    let mut refusals = [0u64; NUMBERS];
    let mut kinds = [0u64; 9];
    let fixed = fixed_writings().into_iter().enumerate();
    let fixed = fixed.map(|(number, writing)| (format!("fixed-{number}-record"), writing));
    let drawn = |seed| (format!("seed-{seed}-record"), writing(seed));
    let probes = fixed
        .chain(order.seeds().map(drawn))
        .map(|(name, writing)| {
            kinds[usize::from(writing.record.kind()) - 1] += 1;
            match writing.call().0.answer {
                Answer::Refused(refusal) => refusals[usize::from(refusal.number)] += 1,
                _ => written += 1,
            }
            let mut input = Vec::new();
            writing.put(&mut input);
            Probe {
                name,
                input,
                expected: writing.answered(),
            }
        });
    compare_probes(&order.program, probes)?;
    let [receivers_in, receivers_out, sources_in, sources_out, asks, daily_in, between_in, walls_in, walls_out] =
        kinds;
    Ok(format!(
        "{} writings agree: {written} written, refusals 2:{} 5:{} 6:{} 7:{}; kinds \
         place-receiver:{receivers_in} withdraw-receiver:{receivers_out} \
         place-source:{sources_in} withdraw-source:{sources_out} ask:{asks} \
         place-daily:{daily_in} place-between:{between_in} place-wall:{walls_in} \
         withdraw-wall:{walls_out}",
        kinds.iter().sum::<u64>(),
        refusals[2],
        refusals[5],
        refusals[6],
        refusals[7],
    ))
}
