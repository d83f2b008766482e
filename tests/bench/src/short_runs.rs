//! Calls of finishing that make fewer than ten steps, on small terms and on large ones.

use crate::batched;
use crate::reducing::Areas;
use crate::repeating::steps_from;
use crate::table::{number, Table};
use crate::terms::{AREA, SHORT_RUNS, SHORT_SIZES};
use engine::Linked;
use harness::reply::{code, value, FINISHED};
use harness::runs::room_for;
use harness::subject::{Controller, Second};
use second::finishing::MAX_FUEL;
use second::machine::Machine;

/// Nanoseconds of one call that finishes in so many steps.
fn time(subject: impl Controller, text: &[u8], area: usize, steps: u64) -> f64 {
    let finish = |lent: &mut Areas| {
        let reply = subject.finish(&mut lent.0, text.len(), &mut lent.1, MAX_FUEL);
        assert_eq!((code(reply), value(reply)), (FINISHED, steps), "a short run comes to its end");
    };
    batched::time(text, area, finish)
}

/// Nanoseconds of the same run by calls of stepping, with the one that answers normal.
fn stepping(text: &[u8], area: usize, steps: u64) -> f64 {
    batched::time(text, area, |lent| steps_from(lent, text.len(), steps + 1))
}

fn row(name: &str, text: &[u8], steps: u64) -> Vec<String> {
    let area = room_for(text, MAX_FUEL);
    let (engine, arena) = (time(Linked, text, area, steps), time(Second::<Machine>::new(), text, area, steps));
    let by_steps = stepping(text, area, steps);
    let times = [engine, by_steps, by_steps / engine, arena, engine / arena, time(Linked, text, AREA, steps)];
    let words = [name.to_string(), text.len().to_string(), steps.to_string(), area.to_string()];
    words.into_iter().chain(times.map(number)).collect()
}

pub fn table() -> Table {
    let rows = SHORT_RUNS.iter().flat_map(|&((name, text), steps)| {
        let fits = move |letters: &usize| room_for(&text(*letters), MAX_FUEL) <= AREA;
        SHORT_SIZES.into_iter().filter(fits).map(move |letters| row(name, &text(letters), steps))
    });
    Table::new(
        "Nanoseconds of one call of finishing that makes fewer than ten steps, in an area with just room for the run and \
         in 16,384 bytes, calls timed in batches",
        &[
            "term",
            "letters",
            "steps",
            "area",
            "engine",
            "stepping",
            "stepping/engine",
            "Rust arena",
            "engine/arena",
            "engine in 16,384 bytes",
        ],
        rows.collect(),
    )
}
