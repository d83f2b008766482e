//! Every small term over the seven letters and bells: each step on the way, and whole runs.

use crate::lent::agree;
use crate::random::Random;
use crate::step_tests::{call_on, follow};
use crate::subject::Controller;
use crate::suite::{Outcome, Suite};
use crate::terms::{texts_of_size, ALL_BELLS, TWO_BELLS};

/// Which terms are taken, and the bytes behind each in its area.
struct Every {
    name: &'static str,
    ends: &'static str,
    sizes: &'static [usize],
    rooms: &'static [usize],
}

const TESTS: [Every; 3] = [
    Every {
        name: "every term of up to 6 letters, bells 1 and T among them",
        ends: TWO_BELLS,
        sizes: &[1, 2, 3, 4, 5, 6],
        rooms: &[0, 1, 3, 4, 5, 30],
    },
    Every {
        name: "every term of 7 letters, bells 1 and T among them",
        ends: TWO_BELLS,
        sizes: &[7],
        rooms: &[0, 4, 30],
    },
    Every {
        name: "every term of up to 5 letters, all bells among them",
        ends: ALL_BELLS,
        sizes: &[1, 2, 3, 4, 5],
        rooms: &[4],
    },
];

/// The most that is tried, of the engine alone.
const LARGEST: [Every; 1] = [Every {
    name: "every term of 8 letters, bells 1 and T among them",
    ends: TWO_BELLS,
    sizes: &[8],
    rooms: &[30],
}];

fn step_by_step(subject: &dyn Controller, every: &Every) -> Outcome {
    each(every, |random, text, area| follow(subject, random, text, area, 40))
}

fn whole_runs(subject: &dyn Controller, every: &Every) -> Outcome {
    each(every, |random, text, area| {
        [1, 2, 40].into_iter().try_for_each(|fuel| agree(subject, &call_on(random, text, area), Some(fuel)))
    })
}

/// Tries each of the terms in each of the areas.
fn each(every: &Every, mut trial: impl FnMut(&mut Random, &[u8], usize) -> Outcome) -> Outcome {
    let mut random = Random::new(81);
    for &size in every.sizes {
        for text in texts_of_size(size, every.ends) {
            for room in every.rooms {
                trial(&mut random, &text, size + room)?;
            }
        }
    }
    Ok(())
}

fn test(suite: &mut Suite, label: &str, subject: impl Controller, tests: &[Every]) {
    for every in tests {
        suite.test(&format!("{label} stepping: {}, step by step", every.name), || step_by_step(&subject, every));
        suite.test(&format!("{label} finishing: {}", every.name), || whole_runs(&subject, every));
    }
}

/// Terms whose replies the plain reducer predicts.
pub fn predicted(suite: &mut Suite, label: &str, subject: impl Controller) {
    test(suite, label, subject, &TESTS);
}

/// The same, of more terms than the others together.
pub fn largest(suite: &mut Suite, label: &str, subject: impl Controller) {
    test(suite, label, subject, &LARGEST);
}
