//! What counting by rule costs: nanoseconds a step of whole runs, without counts and with them.

use crate::reducing::{areas, Areas};
use crate::table::{number, Table};
use crate::terms::{case, programs, Case};
use crate::timing::shortest;
use engine::Linked;
use harness::reply::value;
use harness::subject::{Controller, Second};
use harness::terms::{joined, repeated};
use second::counting::COUNTS_SIZE;
use second::machine::Machine;
use second::plain::Plain;

/// A short run, a run of many short steps, and the programs that finish.
fn cases() -> Vec<Case> {
    let short = case("example 2", b".BII.JRJ".to_vec());
    let many = case("(H.II)^k J, 1000", joined(&[&repeated("H.II", 250), b"J"]));
    [short, many].into_iter().chain(programs().into_iter().take(3)).collect()
}

/// Nanoseconds of a whole run, without counts and with them, and the steps that it makes.
fn times(subject: &dyn Controller, case: &Case) -> ([f64; 2], u64) {
    let size = case.text.len();
    let (mut counts, mut steps) = ([0; COUNTS_SIZE], [0; 2]);
    let plain = |lent: &mut Areas| steps[0] = value(subject.finish(&mut lent.0, size, &mut lent.1, case.fuel));
    let without = shortest(|| areas(&case.text), plain);
    let counted = |lent: &mut Areas| {
        steps[1] = value(subject.finish_counted(&mut lent.0, size, &mut lent.1, case.fuel, &mut counts));
    };
    let with = shortest(|| areas(&case.text), counted);
    assert_eq!(steps[0], steps[1], "{}: as many steps are made", case.name);
    ([without, with], steps[0])
}

fn row(case: &Case) -> Vec<String> {
    let subjects: [&dyn Controller; 3] = [&Linked, &Second::<Plain>::new(), &Second::<Machine>::new()];
    let timed = subjects.map(|subject| times(subject, case));
    let steps = timed[0].1;
    let each = timed.iter().flat_map(|([without, with], _)| {
        [number(without / steps as f64), number(with / steps as f64), number(with / without)]
    });
    [case.name.clone(), case.text.len().to_string(), steps.to_string()].into_iter().chain(each).collect()
}

pub fn table() -> Table {
    Table::new(
        "Counting by rule: nanoseconds a step of whole runs, and counted divided by not counted",
        &[
            "term",
            "letters",
            "steps",
            "engine",
            "counted",
            "ratio",
            "Rust tree",
            "counted",
            "ratio",
            "Rust arena",
            "counted",
            "ratio",
        ],
        cases().iter().map(row).collect(),
    )
}
