//! Runs that may be dear: long ones, of every size, with every kind of part around them.

use crate::terms::{dear_run, AREA};
use harness::end_tests::PLACES;
use harness::machine_runs::OMEGA;
use harness::runs::*;
use harness::terms::{joined, repeated, twice_nested};
use second::finishing::MAX_FUEL;

/// A run's name and its term.
pub type Dear = (String, Vec<u8>);

fn dear(name: &str, text: Vec<u8>) -> Dear {
    (name.to_string(), text)
}

/// n closures around a term, each of which uses the next k + 1 times.
fn nested(k: usize, n: usize, x: &[u8]) -> Vec<u8> {
    (0..n).fold(x.to_vec(), |x, _| uses(k, &x))
}

/// Terms of few letters that come to `I` in about 2m steps: every second step builds three cells, or two.
fn pairs_built(m: usize) -> Vec<u8> {
    joined(&[&repeated(".", m), b".BII", &repeated("B", m), &repeated("I", m + 1), &repeated("J", m)])
}

fn closures_entered(m: usize) -> Vec<u8> {
    joined(&[&repeated(".AI", m), b"J", &repeated("I", m)])
}

/// One that does in m steps which build nothing.
fn nothing_built(m: usize) -> Vec<u8> {
    joined(&[&repeated(".B", m), b"I", &repeated("IJ", m)])
}

/// Runs of more than a million steps that have few letters.
fn motors() -> [Dear; 6] {
    [
        dear("rules 8, 6 and 5", nested_uses(3, 10)),
        dear("rules 11 and 6", nested(9, 5, &pairs_built(10))),
        dear("rules 4 and 10", nested(9, 5, &closures_entered(10))),
        dear("rules 9, 4 and 6", nested(9, 6, b"..BIIAIJI")),
        dear("rule 6", nested(9, 5, &nothing_built(20))),
        dear("a closure used twice, 16 times", twice_nested(16)),
    ]
}

/// Fewer letters do not go around a run.
const LEAST_AROUND: usize = 8;

/// Each of these in each place, so that the whole comes to so many letters at most.
fn surrounded(sizes: &[usize]) -> Vec<Dear> {
    let mut runs = vec![];
    for (motor, text) in motors() {
        let own = room_for(&text, MAX_FUEL);
        for &size in sizes.iter().filter(|&&size| own + LEAST_AROUND <= size) {
            for (place, around) in PLACES {
                let [before, behind] = around(size - own);
                runs.push((format!("{motor}, {place}, up to {size}"), joined(&[&before, &text, &behind])));
            }
        }
    }
    runs
}

/// Terms with a part of p letters that is copied and dropped again and again: from p and some 260 letters up to five
/// times as many, across the borders of arenas.
fn swinging() -> Vec<Dear> {
    let sizes = [20, 100, 240, 260, 500, 1_000, 1_700, 1_800, 2_500, 3_000];
    let of_size = |p: usize| dear(&format!("{p} letters copied and dropped"), nested(30, 4, &inert(p)));
    let large = |p: usize| dear(&format!("{p} letters copied three times"), swings(1_000, &inert(p)));
    sizes.into_iter().map(of_size).chain([1_000, 3_000, 4_000].map(large)).collect()
}

/// Terms that grow, those that end without room, and those whose front is final long before their end.
fn others() -> Vec<Dear> {
    let short = nested_uses(3, 3);
    vec![
        dear(".AIHJJAIHJJ", OMEGA.to_vec()),
        dear("beside a large pair", dear_run()),
        dear("500 runs beside each other", beside_each_other(500, &short)),
        dear("500 pending runs", all_pending(500, &short)),
        dear("a run in 2,000 pairs", in_pairs(2_000, &nested_uses(5, 4))),
        dear("every rule in pairs", in_pairs(100, &every_rule(5))),
        dear("no room after 961,000 steps", joined(&[b"B", &nested_uses(3, 9), &swings(9, &inert(6_000))])),
        dear("no room behind 8,000 letters", joined(&[&repeated("R", 8_000), &nested(99, 3, &inert(3_800))])),
        dear(
            "a run behind 7,500 full stops",
            joined(&[&repeated(".", 7_500), &nested_uses(3, 10), &repeated("J", 7_500)]),
        ),
    ]
}

/// All that are tried.
pub fn all() -> Vec<Dear> {
    [surrounded(&[600, 2_000, 4_096, AREA]), swinging(), others()].concat()
}
