//! A run by single calls of stepping, each on the term that the one before left.

use crate::reducing::{areas, Areas};
use crate::terms::{Case, AREA};
use crate::timing::shortest;
use engine::Linked;
use harness::reply::{code, size, STEPPED};
use harness::subject::Controller;
use second::finishing::run;
use second::machine::Machine;
use second::stepping::Reducer;

/// A run of more steps is not made in whole: pieces of it are timed, spread evenly over it, so that they are made at
/// the sizes that its terms have.
const MOST_STEPS: u64 = 20_000;
const PIECES: u64 = 40;
const PIECE: u64 = 100;

/// Makes so many steps, or as many as there are.
pub fn steps_from(lent: &mut Areas, length: usize, steps: u64) {
    let mut length = length;
    for _ in 0..steps {
        let reply = Linked.step(&mut lent.0, length, &mut lent.1);
        if code(reply) != STEPPED {
            return;
        }
        length = size(reply);
    }
}

/// Nanoseconds of so many steps from this term on.
fn time_of(text: &[u8], steps: u64) -> f64 {
    shortest(|| areas(text), |lent| steps_from(lent, text.len(), steps))
}

/// The terms of a run at which the pieces begin.
fn pieces(case: &Case, steps: u64) -> Vec<Vec<u8>> {
    let mut reducer = Machine::start(&case.text);
    let each = (steps - PIECE) / (PIECES - 1);
    let mut text = |piece| {
        run(&mut reducer, AREA, if piece == 0 { 0 } else { each }, |_| ());
        reducer.text()
    };
    (0..PIECES).map(|piece| text(piece)).collect()
}

/// Nanoseconds a step of a run that makes so many: of the whole run where it is short, with the call that answers
/// normal; else of its pieces.
pub fn time(case: &Case, steps: u64) -> f64 {
    if steps <= MOST_STEPS {
        return time_of(&case.text, steps + 1) / steps.max(1) as f64;
    }
    let times = pieces(case, steps).iter().map(|text| time_of(text, PIECE)).sum::<f64>();
    times / (PIECES * PIECE) as f64
}
