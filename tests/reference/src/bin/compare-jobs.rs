// Compares the listings of a job program with the reference's, on jobs by chance.
// Every job stands for a seed, and a seed alone with a count of 1 makes that job again.

use reference::compare::{difference, keep, output_of, refusal_counts, run, Order};
use reference::fixed::fixed_jobs;
use reference::jobs::job;
use reference::listing::{list, Tally};
use std::process::ExitCode;

fn main() -> ExitCode {
    run("compare-jobs PROGRAM COUNT [SEED]", compare)
}

fn compare(order: &Order) -> Result<String, String> {
    let mut tally = Tally::default();
    let fixed = fixed_jobs();
    for (number, job) in fixed.iter().enumerate() {
        tally.add(&compare_job(order, &format!("fixed-{number}"), job)?);
    }
    for seed in order.seeds() {
        tally.add(&compare_job(order, &format!("seed-{seed}"), &job(seed))?);
    }
    Ok(format!(
        "{} jobs and {} fixed ones agree: {} records, {} asks answered, refusals {}",
        order.count,
        fixed.len(),
        tally.records,
        tally.asks,
        refusal_counts(&tally.refusals, 2)
    ))
}

fn compare_job(order: &Order, name: &str, job: &[u8]) -> Result<Tally, String> {
    let mut expected = Vec::new();
    let tally = list(job, &mut expected);
    let report = match output_of(&order.program, job) {
        Ok(found) if found == expected => return Ok(tally),
        Ok(found) => difference(&expected, &found),
        Err(error) => error.to_string(),
    };
    let kept = keep(&format!("{name}.job"), job);
    Err(format!("job {name} differs\n{report}\n{kept}"))
}
