//! Terms whose runs are long for their size, and what room a run needs.

use crate::terms::{index, joined, repeated};
use second::machine::Machine;
use second::stepping::{Next, Reducer, MAX_AREA};

/// A closure that uses its argument k times as a function, and once more in the last place, on x. Where x comes to
/// `I` in m steps, this does in 3k + 2 + (k + 1)m: rules 4 and 6, and for each use as a function 8, 6 and 5.
pub fn uses(k: usize, x: &[u8]) -> Vec<u8> {
    joined(&[b".AI", &repeated("HJ", k), b"J", x])
}

/// n such closures, each on the next and the last on `I`.
pub fn nested_uses(k: usize, n: usize) -> Vec<u8> {
    (0..n).fold(b"I".to_vec(), |x, _| uses(k, &x))
}

/// How often one of the n closures is entered in the run of `nested_uses`: 1 + (k + 1) + .. + (k + 1)^(n - 1).
pub fn entered(k: usize, n: usize) -> usize {
    (0..n).fold(0, |so_far, _| 1 + (k + 1) * so_far)
}

/// A closure that uses its argument 2k + 1 times on x: before each two uses x stands there three times.
pub fn swings(k: usize, x: &[u8]) -> Vec<u8> {
    joined(&[b".AI", &repeated("HHJJ", k), b"J", x])
}

/// A closure that puts its argument into k pairs, on x: each x comes to its own end behind what is final.
pub fn in_pairs(k: usize, x: &[u8]) -> Vec<u8> {
    joined(&[b".AI", &repeated("BJ", k), b"I", x])
}

/// k times x, each the first of a pair.
pub fn beside_each_other(k: usize, x: &[u8]) -> Vec<u8> {
    joined(&[&joined(&[b"B", x]).repeat(k), b"I"])
}

/// k times x behind as many letters that take two terms, so that all but the first are pending at once.
pub fn all_pending(k: usize, x: &[u8]) -> Vec<u8> {
    joined(&[&repeated("B", k), b"I", &x.repeat(k)])
}

/// A term of p + 5 letters that rule 6 turns into `I`.
pub fn inert(p: usize) -> Vec<u8> {
    joined(&[b".BI", &index(p), b"J"])
}

/// A term in whose run this rule is used m times, one after the other where it can be.
pub fn stretch(rule: usize, m: usize) -> Vec<u8> {
    let (unit, last) = match rule {
        1 => ("B.JJ", b"I".to_vec()),
        2 => ("B.RJJ", b"I".to_vec()),
        3 => ("B.HJJJ", b"I".to_vec()),
        4 => (".AI", joined(&[b"J", &repeated("1", m)])),
        5 => (".I", b"J".to_vec()),
        6 => (".B", joined(&[b"1", &repeated("IJ", m)])),
        7 => return joined(&[b".", &repeated("B1", m), b"BTI", &index(m)]),
        8 => return joined(&[b".BII", &repeated("H", m), &repeated("1", m + 1)]),
        9 => return joined(&[b".BII", &repeated("A", m), b"I", &repeated("J", m)]),
        10 => (".BII", b"I".to_vec()),
        11 => return joined(&[b".BII", &repeated("B", m), &repeated("1", m + 1)]),
        12 => (".1", b"T".to_vec()),
        _ => (".BJI", b"1".to_vec()),
    };
    joined(&[&repeated(unit, m), &last])
}

/// A term whose run uses each of the thirteen rules m times or more.
pub fn every_rule(m: usize) -> Vec<u8> {
    let parts: Vec<u8> = (1..=13).flat_map(|rule| joined(&[b"B", &stretch(rule, m)])).collect();
    joined(&[&parts, b"I"])
}

/// The smallest area in which the first `fuel` steps have room; one byte past the largest where none has.
pub fn room_for(text: &[u8], fuel: u64) -> usize {
    let mut reducer = Machine::start(text);
    let (mut area, mut made) = (text.len(), 0);
    while area <= MAX_AREA {
        match reducer.next(made == fuel, area) {
            Next::Stepped(_) => made += 1,
            Next::NoRoom => area += 1,
            Next::Normal | Next::Spent => return area,
        }
    }
    area
}
