//! Derivation files of nearly 65,536 bytes: how long their checking takes.

use crate::table::{number, Table};
use crate::timing::shortest;
use engine::Linked;
use harness::check_tests::{dear, doubling, lines_of};
use harness::damage::split;
use harness::derivations::{file_of_all, some, some_without_bells, Derivation, Layout};
use harness::random::Random;
use harness::reply::{pack, ACCEPTED};
use harness::subject::Controller;

const LAYOUT: Layout = Layout { shared: true, second_first: false };

/// Makes so many derivations.
type Make = fn(&mut Random, usize) -> Vec<Derivation>;

/// Generated derivations, one behind the other: nearly 64,000 bytes in at most 1,024 lines.
fn many_lines(make: Make) -> Vec<u8> {
    let mut random = Random::new(71);
    let mut kept: Vec<Derivation> = vec![];
    let mut file = vec![];
    while file.len() < 60_000 {
        kept.extend(make(&mut random, 1));
        let longer = file_of_all(&kept, LAYOUT);
        // Long lines only, so that the limit on lines is not met before that on bytes.
        if longer.len() <= 64_000 && longer.len() > 64 * lines_of(&longer) {
            file = longer;
        } else {
            kept.pop();
        }
    }
    file
}

/// Terms that double from line to line, and a last line that applies the last to the one before.
fn large_terms() -> Vec<u8> {
    let file = doubling(14);
    let lines = split(&file);
    let added = [b"1\t.", &lines[13][1][..], &lines[12][1], b"\t1\ts\t14\t13\n"].concat();
    [&file[..], &added].concat()
}

fn row(name: &str, file: &[u8]) -> Vec<String> {
    let second = shortest(|| (), |_| drop(second::checking::check(file).expect("the file is accepted")));
    let accepted = pack(ACCEPTED, lines_of(file) as u64, 0);
    let engine = shortest(|| (), |_| assert_eq!(Linked.check(file), accepted, "the engine accepts the file"));
    let milliseconds = |time: f64| number(time / 1e6);
    let megabytes = |time: f64| number(file.len() as f64 / time * 1e3);
    vec![
        name.to_string(),
        file.len().to_string(),
        lines_of(file).to_string(),
        milliseconds(engine),
        milliseconds(second),
        megabytes(engine),
        megabytes(second),
    ]
}

pub fn table() -> Table {
    Table::new(
        "Checking: milliseconds a file, and megabytes a second",
        &["derivation file", "bytes", "lines", "engine, ms", "Rust, ms", "engine, MB/s", "Rust, MB/s"],
        vec![
            row("generated derivations", &many_lines(some_without_bells)),
            row("terms that double", &large_terms()),
            row("short lines that cite two long ones", &dear()),
            row("generated derivations with bells", &many_lines(some)),
        ],
    )
}
