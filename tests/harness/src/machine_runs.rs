//! Long runs, which fill an arena of cells again and again.

use crate::end_tests::PLACES;
use crate::runs::*;
use crate::terms::{index, joined, repeated, twice_nested};
use second::finishing::MAX_FUEL;
use second::stepping::MAX_AREA;

pub const OMEGA: &[u8] = b".AIHJJAIHJJ";

/// A term in an area of some size, with some fuel.
pub struct LongRun {
    pub name: String,
    pub text: Vec<u8>,
    pub area: usize,
    pub fuel: u64,
}

/// A run in the largest area, with the whole fuel.
fn ample(name: &str, text: Vec<u8>) -> LongRun {
    LongRun { name: name.to_string(), text, area: MAX_AREA, fuel: MAX_FUEL }
}

fn in_area(name: &str, text: Vec<u8>, area: usize) -> LongRun {
    LongRun { area, ..ample(name, text) }
}

fn with_fuel(name: &str, text: Vec<u8>, fuel: u64) -> LongRun {
    LongRun { fuel, ..ample(name, text) }
}

/// Terms that stay between two sizes.
fn steady() -> Vec<LongRun> {
    vec![
        in_area("207 steps in 59 bytes", nested_uses(7, 2), 59),
        in_area("104 steps in 53 bytes", nested_uses(2, 3), 53),
        ample("191,906 steps of up to 305 letters", nested_uses(8, 5)),
        in_area("191,906 steps in 305 bytes", nested_uses(8, 5), 305),
        with_fuel("300,000 steps of up to 455 letters", nested_uses(3, 9), 300_000),
        ample("131,058 steps of up to 2,575 letters", twice_nested(13)),
        in_area("131,058 steps, one byte short", twice_nested(13), 2_574),
    ]
}

/// Terms that grow, in areas in which they come to an end, and in the largest.
fn growing() -> Vec<LongRun> {
    let ended = [64, 256, 1_024, 2_048, 3_000]
        .map(|area| in_area(&format!("no end in {area} bytes"), OMEGA.to_vec(), area));
    [with_fuel("250,000 steps without an end", OMEGA.to_vec(), 250_000)].into_iter().chain(ended).collect()
}

/// Terms that become smaller: runs beside each other, each of which leaves a letter.
fn shrinking() -> Vec<LongRun> {
    let short = nested_uses(3, 2);
    vec![
        ample("700 runs beside each other", beside_each_other(700, &short)),
        ample("700 pending runs", all_pending(700, &short)),
        in_area("40 pending runs in 1,000 bytes", all_pending(40, &short), 1_000),
        ample("4,000 pending redexes", all_pending(4_000, b".IJ")),
    ]
}

/// Terms about half as large as an arena, of which a part is copied and dropped, so that they swing past its end.
fn swinging() -> Vec<LongRun> {
    let mut runs = vec![];
    for arena in [64, 256, 1_024, 4_096, 16_384_usize] {
        let times = (arena / 64).min(100);
        for letters in [arena / 2 - 2, arena / 2, arena / 2 + 2, arena / 3] {
            let text = swings(times, &inert(letters - swings(times, &inert(0)).len()));
            let name = format!("{letters} letters that swing {times} times");
            runs.push(ample(&format!("{name}, each of three"), swings(1, &text)));
            runs.push(ample(&name, text));
        }
    }
    runs
}

/// Parts that are used again and again, each time stepping on their own.
fn sharing() -> Vec<LongRun> {
    let pairs = in_pairs(3, &nested_uses(2, 2));
    vec![
        ample("a run used in 100 pairs", in_pairs(100, &nested_uses(3, 3))),
        ample("every rule used in 60 pairs", in_pairs(60, &every_rule(3))),
        ample("pairs of runs used in pairs", in_pairs(20, &in_pairs(20, &nested_uses(2, 2)))),
        ample("pairs used as functions", uses(30, &pairs)),
        ample("pairs used as functions in pairs", in_pairs(30, &uses(5, &pairs))),
        ample("2,000 letters used 1,000 times", uses(1_000, &inert(2_000))),
        ample("6,000 letters used 300 times", uses(300, &inert(6_000))),
    ]
}

/// A run in each place, with so many letters around it that the whole is of each size.
fn surrounded() -> Vec<LongRun> {
    let mut runs = vec![];
    for (place, around) in PLACES {
        for (room, text) in [(30, nested_uses(2, 3)), (600, nested_uses(5, 5)), (3_000, nested_uses(8, 4))] {
            let [before, behind] = around(room);
            let text = joined(&[&before, &text, &behind]);
            runs.push(ample(&format!("a run {place}, {room} letters around it"), text));
        }
        let [before, behind] = around(15_000);
        let text = joined(&[&before, &nested_uses(8, 4), &behind]);
        runs.push(with_fuel(&format!("a run {place}, 15,000 letters around it"), text, 22_000));
    }
    runs
}

/// Runs behind letters that are final, before such letters, and between them.
fn in_front_and_behind() -> Vec<LongRun> {
    let long = nested_uses(5, 5);
    let front = |letters: &str| joined(&[&repeated(letters, 2_000), &long]);
    vec![
        ample("behind 2,000 letters R", front("R")),
        ample("behind 2,000 letters H", front("H1")),
        ample("behind 2,000 closures", front("AI")),
        ample("before an index of 3,000", joined(&[b"H", &long, &index(3_000)])),
        ample("before and behind 600 pairs", joined(&[b"B", &long, &repeated("BJ", 600), &long])),
        ample("behind letters of each run before", in_pairs(60, &joined(&[b"HR", &nested_uses(3, 3), b"AIJ"]))),
    ]
}

/// Long runs of every kind.
pub fn long_runs() -> Vec<LongRun> {
    let kinds = [steady(), growing(), shrinking(), swinging(), sharing(), surrounded(), in_front_and_behind()];
    kinds.into_iter().flatten().collect()
}
