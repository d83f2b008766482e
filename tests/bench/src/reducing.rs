//! Nanoseconds a step, in whole runs by finishing and by stepping, and in single calls of stepping.

use crate::repeating;
use crate::table::{number, Table};
use crate::terms::{bells, nested, nested_name, programs, Case, AREA, LARGE, NESTED, SMALL};
use crate::timing::shortest;
use engine::Linked;
use harness::reply::value;
use harness::subject::Controller;
use second::finishing;
use second::machine::Machine;
use second::plain::Plain;
use second::stepping::{self, Reducer};

/// The times of one case, in nanoseconds.
pub struct Timed {
    pub case: Case,
    pub steps: u64,
    /// For each step of a whole run: by finishing, and by single calls of stepping.
    pub engine: f64,
    pub stepping: f64,
    pub tree: f64,
    pub arena: f64,
    /// For a call of stepping on the first term.
    pub engine_step: f64,
    pub arena_step: f64,
}

/// A term area and a work area.
pub type Areas = (Vec<u8>, Vec<u8>);

/// Areas of the largest size.
pub fn areas(text: &[u8]) -> Areas {
    areas_of(text, AREA)
}

/// Areas of this size.
pub fn areas_of(text: &[u8], size: usize) -> Areas {
    let mut area = text.to_vec();
    area.resize(size, 0);
    (area, vec![0; size])
}

fn run_of<R: Reducer>(case: &Case) -> finishing::Run {
    let (mut area, mut work) = areas(&case.text);
    finishing::finish::<R>(&mut area, case.text.len(), &mut work, case.fuel).expect("a case is not refused")
}

fn second_finish<R: Reducer>(case: &Case) -> f64 {
    let call = |areas: &mut Areas| {
        finishing::finish::<R>(&mut areas.0, case.text.len(), &mut areas.1, case.fuel)
            .expect("a case is not refused");
    };
    shortest(|| areas(&case.text), call)
}

fn engine_finish(case: &Case, steps: u64) -> f64 {
    let call = |areas: &mut Areas| {
        let reply = Linked.finish(&mut areas.0, case.text.len(), &mut areas.1, case.fuel);
        assert_eq!(value(reply), steps, "{}: the engine makes as many steps", case.name);
    };
    shortest(|| areas(&case.text), call)
}

/// One call of stepping in an area of this size.
pub fn engine_step(text: &[u8], area: usize) -> f64 {
    let call = |areas: &mut Areas| {
        Linked.step(&mut areas.0, text.len(), &mut areas.1);
    };
    shortest(|| areas_of(text, area), call)
}

fn arena_step(case: &Case) -> f64 {
    let call = |areas: &mut Areas| {
        stepping::step::<Machine>(&mut areas.0, case.text.len(), &mut areas.1).expect("a case is not refused");
    };
    shortest(|| areas(&case.text), call)
}

pub fn time(case: &Case) -> Timed {
    let steps = run_of::<Machine>(case).count;
    let each = |time: f64| time / steps.max(1) as f64;
    Timed {
        case: case.clone(),
        steps,
        engine: each(engine_finish(case, steps)),
        stepping: repeating::time(case, steps),
        tree: each(second_finish::<Plain>(case)),
        arena: each(second_finish::<Machine>(case)),
        engine_step: engine_step(&case.text, AREA),
        arena_step: arena_step(case),
    }
}

/// The timed case of a nested shape at a size.
pub fn at_size<'a>(nested: &'a [Timed], name: &str, letters: usize) -> &'a Timed {
    let full = nested_name(name, letters);
    nested.iter().find(|timed| timed.case.name == full).expect("each nested case was timed")
}

fn row(timed: &Timed) -> Vec<String> {
    vec![
        timed.case.name.clone(),
        timed.case.text.len().to_string(),
        timed.steps.to_string(),
        number(timed.engine),
        number(timed.stepping),
        number(timed.stepping / timed.engine),
        number(timed.tree),
        number(timed.arena),
        number(timed.engine / timed.tree),
        number(timed.engine / timed.arena),
        number(timed.engine_step),
        number(timed.arena_step),
    ]
}

const HEADS: [&str; 12] = [
    "term",
    "letters",
    "steps",
    "engine",
    "stepping",
    "stepping/engine",
    "Rust tree",
    "Rust arena",
    "engine/tree",
    "engine/arena",
    "one call: engine",
    "Rust arena",
];

fn table_of<'a>(timed: impl Iterator<Item = &'a Timed>) -> Table {
    Table::new(
        "Nanoseconds a step: whole runs in an area of 16,384 bytes (engine: by finishing; stepping: by its calls of \
         stepping), and one call of stepping",
        &HEADS,
        timed.map(row).collect(),
    )
}

pub fn table(programs: &[Timed], nested: &[Timed], bells: &[Timed]) -> Table {
    let large = NESTED.iter().flat_map(|(name, _)| [SMALL, LARGE].map(|letters| at_size(nested, name, letters)));
    table_of(programs.iter().chain(large).chain(bells))
}

/// The rows whose names have this word, of all sizes.
pub fn rows_with(word: &str) -> Table {
    let cases = [programs(), nested(), bells()].concat();
    let timed: Vec<Timed> = cases.iter().filter(|case| case.name.contains(word)).map(time).collect();
    table_of(timed.iter())
}
