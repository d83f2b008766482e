//! One call of stepping on small terms, each in an area of its own size.

use crate::batched;
use crate::reducing::Areas;
use crate::table::{number, Table};
use crate::terms::{SMALL_SHAPES, SMALL_SIZES};
use engine::Linked;
use harness::reply::{code, STEPPED};
use harness::subject::{Controller, Second};
use second::machine::Machine;

/// Nanoseconds of one call.
fn time(subject: impl Controller, text: &[u8]) -> f64 {
    let step = |lent: &mut Areas| {
        let reply = subject.step(&mut lent.0, text.len(), &mut lent.1);
        assert_eq!(code(reply), STEPPED, "a small term makes a step");
    };
    batched::time(text, text.len(), step)
}

fn row(name: &str, text: &[u8]) -> Vec<String> {
    let (engine, arena) = (time(Linked, text), time(Second::<Machine>::new(), text));
    vec![name.to_string(), text.len().to_string(), number(engine), number(arena), number(engine / arena)]
}

pub fn table() -> Table {
    let rows = SMALL_SHAPES.iter().flat_map(|(name, text)| SMALL_SIZES.map(|size| row(name, &text(size))));
    Table::new(
        "Nanoseconds of one call of stepping in an area of the term's own size, calls timed in batches",
        &["term", "letters", "engine", "Rust arena", "engine/arena"],
        rows.collect(),
    )
}
