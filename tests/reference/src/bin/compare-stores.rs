// Compares the answers of a probing program with the reference's, on stored states by chance.
// Every probe stands for a seed, and a seed alone with a count of 1 makes that probe again.

use reference::book::{decode, Answer};
use reference::compare::{compare_probes, refusal_counts, run, Order, Probe};
use reference::fixed::fixed_frames;
use reference::probe::Frame;
use reference::record::kind_in;
use reference::road::NUMBERS;
use reference::stores::{frame, kind_name};
use std::collections::BTreeMap;
use std::process::ExitCode;

/// What the probes met: how many there are of each kind, calls done, questions answered,
/// each refusal, and the late 1 apart, on placing and on withdrawing.
#[derive(Default)]
struct Tally {
    kinds: BTreeMap<&'static str, u64>,
    done: u64,
    asks: u64,
    refusals: [u64; NUMBERS],
    late_placing: u64,
    late_withdrawing: u64,
}

impl Tally {
    fn count(&mut self, kind: &'static str, frame: &Frame, answer: Answer) {
        *self.kinds.entry(kind).or_default() += 1;
        match answer {
            Answer::Done => self.done += 1,
            Answer::Levels(_) => self.asks += 1,
            Answer::Refused(refusal) => {
                self.refusals[usize::from(refusal.number)] += 1;
                if refusal.number == 1 && decode(&frame.image).is_some() {
                    self.count_late(&frame.record);
                }
            }
        }
    }

    fn count_late(&mut self, record: &[u8]) {
        match kind_in(record[0]) {
            3 | 6 | 7 => self.late_placing += 1,
            _ => self.late_withdrawing += 1,
        }
    }

    fn summary(&self) -> String {
        let kinds: Vec<String> = self
            .kinds
            .iter()
            .map(|(kind, count)| format!("{kind}:{count}"))
            .collect();
        format!(
            "{} stored states agree: {} done, {} asks answered, refusals {}, of the 1s late {} \
             placing and {} withdrawing; kinds {}",
            self.kinds.values().sum::<u64>(),
            self.done,
            self.asks,
            refusal_counts(&self.refusals, 1),
            self.late_placing,
            self.late_withdrawing,
            kinds.join(" ")
        )
    }
}

fn main() -> ExitCode {
    run("compare-stores PROGRAM COUNT [SEED]", compare)
}

fn compare(order: &Order) -> Result<String, String> {
    let mut tally = Tally::default();
    let fixed = fixed_frames().into_iter().enumerate();
    let fixed = fixed.map(|(number, frame)| (format!("fixed-{number}"), "fixed", frame));
    let drawn = |seed| (format!("seed-{seed}"), kind_name(seed), frame(seed));
    let probes = fixed
        .chain(order.seeds().map(drawn))
        .map(|(name, kind, frame)| {
            let mut after = frame.clone();
            let deed = after.call();
            tally.count(kind, &frame, deed.answer);
            let mut input = Vec::new();
            frame.put(&mut input);
            Probe {
                name: format!("{name}-{kind}"),
                input,
                expected: after.answered(deed),
            }
        });
    compare_probes(&order.program, probes)?;
    Ok(tally.summary())
}
