//! The dearest small term: the first of those whose runs finish with the most steps.

use crate::small_runs::{self, Told};
use crate::table::Table;
use second::finishing::Outcome;

/// The dearest term so far, and its steps; no text before one has finished.
#[derive(Default)]
struct Dearest {
    text: Vec<u8>,
    steps: u64,
}

impl Told for Dearest {
    const PROGRAM: &'static str = "dearest";

    fn add(&mut self, text: &[u8], outcome: Outcome, steps: u64) {
        if outcome == Outcome::Finished && (self.text.is_empty() || steps > self.steps) {
            *self = Dearest { text: text.to_vec(), steps };
        }
    }

    fn line(&self, _: usize) -> Vec<u8> {
        [&self.text[..], format!("\t{}\n", self.steps).as_bytes()].concat()
    }
}

pub fn table() -> Table {
    small_runs::table::<Dearest>()
}
