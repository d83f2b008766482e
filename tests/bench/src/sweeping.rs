//! Sweeps: how the runs of every small term end.

use crate::small_runs::{self, Told};
use crate::table::Table;
use second::finishing::Outcome;

/// How the runs ended: finished, spent and without room, and the steps of the finished ones.
#[derive(Default)]
struct Ended {
    runs: [u64; 3],
    steps: u64,
}

impl Told for Ended {
    const PROGRAM: &'static str = "sweep";

    fn add(&mut self, _: &[u8], outcome: Outcome, steps: u64) {
        match outcome {
            Outcome::Finished => {
                self.runs[0] += 1;
                self.steps += steps;
            }
            Outcome::Spent => self.runs[1] += 1,
            Outcome::NoRoom => self.runs[2] += 1,
        }
    }

    fn line(&self, size: usize) -> Vec<u8> {
        let (runs, steps) = (self.runs.map(|runs| runs.to_string()).join("\t"), self.steps);
        format!("{size}\t{runs}\t{steps}\t{}\t{}\n", steps / self.runs[0], steps % self.runs[0]).into_bytes()
    }
}

pub fn table() -> Table {
    small_runs::table::<Ended>()
}
