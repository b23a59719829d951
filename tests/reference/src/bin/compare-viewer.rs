// Compares what a driver of the map viewer's calls gives with the reference's, on calls by chance.
// Every call stands for a seed, and a seed alone with a count of 1 makes that call again.

use reference::book::decode;
use reference::compare::{keep, output_of, refusal_counts, run, Order};
use reference::record::extent;
use reference::road::NUMBERS;
use reference::viewer::{compare as compare_calls, unpacked, Call, Trial, QUIET};
use reference::views::{fixed_views, kind_name, view};
use std::collections::BTreeMap;
use std::process::ExitCode;

/// What the calls met: how many there are of each kind and of each of the three, each number, the 1s
/// that are late, why a 2 was given, and of what was written the indices that are quiet.
#[derive(Default)]
struct Tally {
    kinds: BTreeMap<&'static str, u64>,
    clears: u64,
    applies: u64,
    asks: u64,
    numbers: [u64; NUMBERS],
    late: u64,
    cut: u64,
    followed: u64,
    no_room: u64,
    written: u64,
    quiet: [u64; 2],
}

impl Tally {
    fn count(&mut self, kind: &'static str, trial: &Trial) {
        *self.kinds.entry(kind).or_default() += 1;
        let number = unpacked(trial.result).0;
        self.numbers[number as usize] += 1;
        match &trial.after.call {
            Call::Clear => self.clears += 1,
            Call::Apply { record } => {
                self.applies += 1;
                self.late += u64::from(number == 1 && decode(&trial.view.store).is_some());
                self.cut += u64::from(number == 2 && extent(record) == 0);
                self.followed += u64::from(number == 2 && extent(record) > 0);
            }
            Call::Ask { output, .. } => {
                self.asks += 1;
                self.no_room += u64::from(number == 2);
                if number == 0 {
                    self.count_written(output);
                }
            }
        }
    }

    fn count_written(&mut self, output: &[u8]) {
        self.written += 1;
        for (quiet, index) in self.quiet.iter_mut().zip(output.chunks_exact(2)) {
            *quiet += u64::from(index == QUIET.to_le_bytes());
        }
    }

    fn summary(&self) -> String {
        let kinds = self.kinds.iter();
        let kinds: Vec<String> = kinds
            .map(|(kind, count)| format!("{kind}:{count}"))
            .collect();
        let [den, night] = self.quiet;
        format!(
            "{} viewer calls agree: {} clears, {} applies, {} asks; results {}, of the 1s late {}, \
             of the 2s cut {}, followed {}, output {}; {} outputs written, quiet L_DEN {den}, \
             L_Night {night}; kinds {}",
            self.clears + self.applies + self.asks,
            self.clears,
            self.applies,
            self.asks,
            refusal_counts(&self.numbers, 0),
            self.late,
            self.cut,
            self.followed,
            self.no_room,
            self.written,
            kinds.join(" ")
        )
    }
}

fn main() -> ExitCode {
    run("compare-viewer PROGRAM COUNT [SEED]", compare)
}

fn compare(order: &Order) -> Result<String, String> {
    let mut tally = Tally::default();
    let fixed = fixed_views().into_iter().enumerate();
    let fixed = fixed.map(|(number, view)| (format!("fixed-{number}"), "fixed", view));
    let drawn = |seed| (format!("seed-{seed}"), kind_name(seed), view(seed));
    let trials = fixed
        .chain(order.seeds().map(drawn))
        .map(|(name, kind, view)| {
            let trial = Trial::new(format!("{name}-{kind}"), view);
            tally.count(kind, &trial);
            trial
        });
    let driver = |input: &[u8]| output_of(&order.program, input);
    compare_calls(trials, driver).map_err(|difference| {
        let kept = keep(&format!("{}.call", difference.name), &difference.input);
        format!("{}\n{kept}", difference.report)
    })?;
    Ok(tally.summary())
}
