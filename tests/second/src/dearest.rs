//! The program dearest: of the small terms of one size, the earliest whose run finishes with the most steps.

use crate::finish_line::refused;
use crate::finishing::Outcome;
use crate::small_runs::{asked, finish_fresh, SmallRuns};
use crate::small_terms::texts_of_size;
use crate::stepping::Reducer;

/// A small term whose run finishes, and the steps of that run.
struct Finished {
    text: Vec<u8>,
    count: u64,
}

/// Runs a term, with one of the reducers.
type Run = fn(&[u8], &SmallRuns) -> (Outcome, u64);

/// The terms whose runs finish, in byte order.
fn all_finished(runs: &SmallRuns, run: Run) -> Vec<Finished> {
    let finished = |text: Vec<u8>| match run(&text, runs) {
        (Outcome::Finished, count) => Some(Finished { text, count }),
        (Outcome::Spent | Outcome::NoRoom, _) => None,
    };
    texts_of_size(runs.size as usize).into_iter().filter_map(finished).collect()
}

/// The first with the most steps: of each size there are terms without a full stop, and these finish.
fn dearest(runs: &SmallRuns, run: Run) -> Finished {
    let mut finished = all_finished(runs, run);
    let most = finished.iter().map(|one| one.count).max().expect("some run finishes");
    let place = finished.iter().position(|one| one.count == most).expect("it is among them");
    finished.swap_remove(place)
}

/// What the program prints, with this way to run a term.
fn printed(input: &[u8], run: Run) -> Vec<u8> {
    let runs = match asked(input) {
        Ok(runs) => runs,
        Err(refusal) => return refused(refusal),
    };
    let Finished { text, count } = dearest(&runs, run);
    [&text[..], format!("\t{count}\n").as_bytes()].concat()
}

/// What the program prints.
pub fn dearest_program<R: Reducer>(input: &[u8]) -> Vec<u8> {
    printed(input, finish_fresh::<R>)
}
