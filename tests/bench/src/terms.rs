//! The terms that are timed.

use harness::machine_runs::OMEGA;
use harness::runs::{inert, uses};
use harness::terms::{index, joined, repeated, twice_nested, BELLS};

pub const AREA: usize = 16_384;

#[derive(Clone)]
pub struct Case {
    pub name: String,
    pub text: Vec<u8>,
    pub fuel: u64,
}

pub fn case(name: &str, text: Vec<u8>) -> Case {
    Case { name: name.to_string(), text, fuel: 1_000_000 }
}

/// A closure whose body applies an identity n times to its argument, one after the other, applied to `J`.
fn iterator(times: usize) -> Vec<u8> {
    joined(&[b".ABAIJI", &repeated("HRJ", times), b"J", b"J"])
}

/// `B` t1 `B` t2 .. `I`.
fn chain(terms: impl Iterator<Item = Vec<u8>>) -> Vec<u8> {
    let mut text: Vec<u8> = terms.flat_map(|term| joined(&[b"B", &term])).collect();
    text.push(b'I');
    text
}

/// A twelve-place substitution that moves each place by `shift`.
fn change(shift: usize) -> Vec<u8> {
    chain((0..12).map(|place| index((place + shift) % 12)))
}

/// 288 pairs, the rows of 24 changes of twelve bells, under one substitution.
fn long_chain() -> Vec<u8> {
    joined(&[b".", &change(5), &chain((0..288).map(|place| index(place * 7 % 12)))])
}

/// A change of a change of .. of the first row. On the way the changes stand there twice, so 60 have room.
fn nested_changes(times: usize) -> Vec<u8> {
    let functions: Vec<u8> = (1..=times).flat_map(|shift| joined(&[b".", &change(shift)])).collect();
    joined(&[&functions, &change(0)])
}

/// Terms of the kind that pieces are.
pub fn programs() -> Vec<Case> {
    vec![
        case("an iterator of 1,000 uses", iterator(1_000)),
        case("288 pairs under 12 places", long_chain()),
        case("60 changes, nested", nested_changes(60)),
        Case { fuel: 100_000, ..case(".AIHJJAIHJJ", OMEGA.to_vec()) },
        case(".AIHJJAIHJJ, a million steps", OMEGA.to_vec()),
    ]
}

/// 288 pairs, 24 rows of twelve bells, under a substitution that changes none of them.
fn rows_of_bells() -> Vec<u8> {
    joined(&[b".", &change(5), &chain((0..288).map(|place| vec![BELLS[place * 7 % 12]]))])
}

/// 288 pairs of indices under a row of twelve bells, which takes their places.
fn bells_by_index() -> Vec<u8> {
    let row = chain(BELLS.iter().map(|&bell| vec![bell]));
    joined(&[b".", &row, &chain((0..288).map(|place| index(place * 7 % 12)))])
}

/// Terms with bells, in whose runs rules 12 and 13 are used most.
pub fn bells() -> Vec<Case> {
    vec![
        case("288 bells under 12 places", rows_of_bells()),
        case("288 pairs under 12 bells", bells_by_index()),
        case("right, (.1)^k T, 16000", joined(&[&repeated(".1", 8_000), b"T"])),
        case("left, .^k 1^(k+1), 16000", joined(&[&repeated(".", 8_000), &repeated("1", 8_001)])),
        case("(.BJI)^k T, 16000", joined(&[&repeated(".BJI", 4_000), b"T"])),
    ]
}

/// A shape's name, and its text by the number of letters.
pub type Shape = (&'static str, fn(usize) -> Vec<u8>);

/// Terms nested to the left or to the right, of so many letters and one more.
pub const NESTED: [Shape; 6] = [
    ("left, .^k I^(k+1)", |letters| joined(&[&repeated(".", letters / 2), &repeated("I", letters / 2 + 1)])),
    ("left, .^k J^(k+1)", |letters| joined(&[&repeated(".", letters / 2), &repeated("J", letters / 2 + 1)])),
    ("right, (.I)^k J", |letters| joined(&[&repeated(".I", letters / 2), b"J"])),
    ("right, (.J)^k J", |letters| joined(&[&repeated(".J", letters / 2), b"J"])),
    ("B^k I (.IJ)^k", |letters| joined(&[&repeated("B", letters / 4), b"I", &repeated(".IJ", letters / 4)])),
    ("(.BII)^k J", |letters| joined(&[&repeated(".BII", letters / 4), b"J"])),
];

/// A redex at the end of an index, of so many letters and one more: its whole run is one step.
pub const ONE_STEP: Shape = ("R^k .IJ", |letters| behind_an_index(letters + 1));

fn behind_an_index(letters: usize) -> Vec<u8> {
    joined(&[&repeated("R", letters - 3), b".IJ"])
}

/// Terms of so many letters: a redex behind an index, under full stops, and with an index in its pair.
pub const SMALL_SHAPES: [Shape; 3] = [
    ("R^k .IJ", behind_an_index),
    ("left, .^k J^k and J or RJ", |letters| {
        let stops = (letters - 1) / 2;
        joined(&[&repeated(".", stops), &repeated("J", stops), &index((letters - 1) % 2)])
    }),
    (".B R^k J IRJ", |letters| joined(&[b".B", &index(letters - 6), b"IRJ"])),
];

/// The sizes of these terms; the engine's table of ends is longer from 33, from 257 and from 2,049 letters on.
pub const SMALL_SIZES: [usize; 10] = [6, 11, 32, 33, 100, 256, 257, 1_000, 2_048, 2_049];

/// Runs of fewer than ten steps with so many letters, each with its steps: behind an index, under full stops, with an
/// index that is looked at, and with one that is copied.
pub const SHORT_RUNS: [(Shape, u64); 6] = [
    (("R^k .IJ", behind_an_index), 1),
    (("R^k .BII.JRJ", |letters| joined(&[&repeated("R", letters - 8), b".BII.JRJ"])), 6),
    (("....J R^k J JJJ", |letters| joined(&[b"....J", &index(letters - 9), b"JJJ"])), 4),
    ((".B R^k J IRJ", |letters| joined(&[b".B", &index(letters - 6), b"IRJ"])), 2),
    ((".AIRJ R^k J", |letters| joined(&[b".AIRJ", &index(letters - 6)])), 3),
    ((".AIHJJ .BI R^k J J", |letters| uses(1, &inert(letters - 11))), 7),
];

/// The sizes of these terms.
pub const SHORT_SIZES: [usize; 11] = [11, 20, 32, 33, 64, 65, 99, 200, 1_000, 4_000, 16_000];

/// The sizes of the nested terms: all of them in the chart, the last two in the tables.
pub const SIZES: [usize; 5] = [64, 256, 1_000, SMALL, LARGE];
pub const SMALL: usize = 4_000;
pub const LARGE: usize = 16_000;

pub fn nested_name(name: &str, letters: usize) -> String {
    format!("{name}, {letters}")
}

pub fn nested() -> Vec<Case> {
    let of_size = |letters| NESTED.map(|(name, text)| case(&nested_name(name, letters), text(letters)));
    SIZES.into_iter().flat_map(of_size).collect()
}

/// More than a million steps beside a pair that each of them looks through: an index of 11,000 in it, and a
/// closure used twice, 16 times around an identity, which takes up to 4,000 letters.
pub fn dear_run() -> Vec<u8> {
    joined(&[b".B", &index(11_000), b"I", &twice_nested(16)])
}
