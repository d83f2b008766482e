//! The program sweep: the small terms of one size, each run once, and how their runs ended.

use crate::finish_line::refused;
use crate::finishing::Outcome;
use crate::small_runs::{asked, finish_fresh, SmallRuns};
use crate::small_terms::texts_of_size;
use crate::stepping::Reducer;

/// How many runs ended in each way, and the steps of those that finished.
#[derive(Default)]
struct Ended {
    finished: u64,
    spent: u64,
    no_room: u64,
    steps: u64,
}

fn run_all<R: Reducer>(runs: &SmallRuns) -> Ended {
    let mut ended = Ended::default();
    for text in texts_of_size(runs.size as usize) {
        match finish_fresh::<R>(&text, runs) {
            (Outcome::Finished, count) => {
                ended.finished += 1;
                ended.steps += count;
            }
            (Outcome::Spent, _) => ended.spent += 1,
            (Outcome::NoRoom, _) => ended.no_room += 1,
        }
    }
    ended
}

/// What the program prints.
pub fn sweep_program<R: Reducer>(input: &[u8]) -> Vec<u8> {
    let runs = match asked(input) {
        Ok(runs) => runs,
        Err(refusal) => return refused(refusal),
    };
    let Ended { finished, spent, no_room, steps } = run_all::<R>(&runs);
    // Of each size there are terms without a full stop, and these finish.
    let (quotient, remainder) = (steps / finished, steps % finished);
    let columns = [runs.size, finished, spent, no_room, steps, quotient, remainder];
    format!("{}\n", columns.map(|column| column.to_string()).join("\t")).into_bytes()
}
