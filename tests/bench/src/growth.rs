//! How long a step takes at 4,000 letters and at 16,000: in whole runs, and in one call of stepping.

use crate::reducing::{at_size, engine_step, time, Timed};
use crate::table::{number, Table};
use crate::terms::{nested, Case, Shape, AREA, LARGE, NESTED, ONE_STEP, SMALL};

/// Nanoseconds of one call at both sizes and how they grow, in the area that a term of so many letters gets.
fn calls(text: fn(usize) -> Vec<u8>, area: fn(usize) -> usize) -> [String; 3] {
    let [small, large] = [SMALL, LARGE].map(|letters| {
        let text = text(letters);
        engine_step(&text, area(text.len()))
    });
    [number(small), number(large), number(large / small)]
}

/// Milliseconds of a whole run of finishing.
fn whole(timed: &Timed) -> f64 {
    timed.engine * timed.steps as f64 / 1e6
}

/// Whole runs of finishing at both sizes and how they grow; and how a step does, in finishing, by calls of stepping,
/// in the tree and in the arena.
fn runs(nested: &[Timed], name: &str) -> [f64; 7] {
    let (small, large) = (at_size(nested, name, SMALL), at_size(nested, name, LARGE));
    let growth = |time: fn(&Timed) -> f64| time(large) / time(small);
    [
        whole(small),
        whole(large),
        growth(whole),
        growth(|timed| timed.engine),
        growth(|timed| timed.stepping),
        growth(|timed| timed.tree),
        growth(|timed| timed.arena),
    ]
}

fn row((name, text): &Shape, runs: [String; 7]) -> Vec<String> {
    let calls = [calls(*text, |_| AREA), calls(*text, |letters| letters)].concat();
    [name.to_string()].into_iter().chain(runs).chain(calls).collect()
}

/// The table by itself: only the two sizes are timed.
pub fn alone() -> Table {
    let cases: Vec<Case> = nested().into_iter().filter(|case| case.text.len() > SMALL).collect();
    table(&cases.iter().map(time).collect::<Vec<_>>())
}

pub fn table(nested: &[Timed]) -> Table {
    let no_runs = || ["-"; 7].map(str::to_string);
    let rows = NESTED.iter().map(|shape| row(shape, runs(nested, shape.0).map(number)));
    Table::new(
        "Growth from 4,000 to 16,000 letters: whole runs of finishing in milliseconds, a step of whole runs (engine: by \
         finishing; stepping: by its calls of stepping), and one call of stepping in nanoseconds",
        &[
            "term",
            "whole run: 4,000",
            "16,000",
            "growth",
            "a step: engine",
            "stepping",
            "Rust tree",
            "Rust arena",
            "one call in 16,384 bytes: 4,000",
            "16,000",
            "growth",
            "in its own size: 4,000",
            "16,000",
            "growth",
        ],
        rows.chain([row(&ONE_STEP, no_runs())]).collect(),
    )
}
