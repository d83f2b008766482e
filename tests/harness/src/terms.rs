//! Terms to test with: every small one, random ones, and those of special shapes.

use crate::random::Random;
use second::bell::Bell;
use second::term::{a, apply, b, h, parse, r, Term};

/// The letters of terms.
pub const LETTERS: &[u8; 19] = b"JRHAIB.1234567890ET";
/// The letters of bells one to twelve.
pub const BELLS: &[u8; 12] = b"1234567890ET";

/// The letters in which small terms may end: without bells, with two of them, and with all.
pub const NO_BELLS: &str = "JI";
pub const TWO_BELLS: &str = "JI1T";
pub const ALL_BELLS: &str = "JI1234567890ET";

/// The text of every term of exactly this size whose letters that take no term are among these.
pub fn texts_of_size(size: usize, ends: &str) -> Vec<Vec<u8>> {
    let mut by_size: Vec<Vec<Vec<u8>>> = vec![vec![], ends.bytes().map(|letter| vec![letter]).collect()];
    for now in 2..=size {
        let next = texts_from_smaller(now, &by_size);
        by_size.push(next);
    }
    by_size.swap_remove(size)
}

fn texts_from_smaller(size: usize, by_size: &[Vec<Vec<u8>>]) -> Vec<Vec<u8>> {
    let mut found: Vec<Vec<u8>> = by_size[size - 1].iter().map(|t| joined(&[b"R", t])).collect();
    for first in 1..size - 1 {
        for x in &by_size[first] {
            for y in &by_size[size - 1 - first] {
                found.extend(b"HAB.".map(|letter| joined(&[&[letter], x, y])));
            }
        }
    }
    found
}

/// The terms with these texts.
pub fn all_of_size(size: usize, ends: &str) -> Vec<Term> {
    let term = |text: Vec<u8>| parse(&text).expect("the text of a term");
    texts_of_size(size, ends).into_iter().map(term).collect()
}

/// How often each letter is taken: (letter, weight).
type Weights = [(u8, usize)];

/// Letters at every rate, applications often.
const MIXED: &Weights = &[(b'.', 5), (b'B', 4), (b'H', 3), (b'A', 2), (b'R', 3)];
/// Pairs and applications, so that substitutions go deep.
const PAIRS: &Weights = &[(b'.', 4), (b'B', 6), (b'H', 2), (b'R', 2)];
/// Closures applied to closures, so that runs go on.
const CLOSURES: &Weights = &[(b'.', 4), (b'A', 5), (b'H', 5), (b'B', 1), (b'R', 1)];

fn letter(random: &mut Random, weights: &Weights) -> u8 {
    let mut left = random.below(weights.iter().map(|(_, weight)| weight).sum());
    for &(letter, weight) in weights {
        if left < weight {
            return letter;
        }
        left -= weight;
    }
    unreachable!("the weights cover the number")
}

fn random_leaf(random: &mut Random) -> Term {
    match random.below(4) {
        0 => Term::K(*random.pick(&Bell::all())),
        1 => Term::I,
        _ => Term::J,
    }
}

/// A random term of exactly this size.
pub fn random_of_size(random: &mut Random, size: usize) -> Term {
    let weights = *random.pick(&[MIXED, PAIRS, CLOSURES]);
    weighted(random, size, weights)
}

fn weighted(random: &mut Random, size: usize, weights: &Weights) -> Term {
    match size {
        1 => random_leaf(random),
        2 => r(weighted(random, 1, weights)),
        _ => larger(random, size, weights),
    }
}

fn larger(random: &mut Random, size: usize, weights: &Weights) -> Term {
    let letter = letter(random, weights);
    if letter == b'R' {
        return r(weighted(random, size - 1, weights));
    }
    let first = random.between(1, size - 2);
    let x = weighted(random, first, weights);
    let y = weighted(random, size - 1 - first, weights);
    match letter {
        b'H' => h(x, y),
        b'A' => a(x, y),
        b'B' => b(x, y),
        _ => apply(x, y),
    }
}

/// `unit` written `times` times.
pub fn repeated(unit: &str, times: usize) -> Vec<u8> {
    unit.as_bytes().repeat(times)
}

/// The pieces of a text, one behind the other.
pub fn joined(pieces: &[&[u8]]) -> Vec<u8> {
    pieces.concat()
}

/// Index i: i letters `R` and then `J`.
pub fn index(i: usize) -> Vec<u8> {
    joined(&[&repeated("R", i), b"J"])
}

/// The closure that uses its argument twice, n times around an identity, on `J`: more than 2^n steps.
pub fn twice_nested(times: usize) -> Vec<u8> {
    joined(&[b".", &repeated(".AIABJIHRJHRJJ", times), b"AIJ", b"J"])
}
