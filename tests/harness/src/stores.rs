//! Stores as the results that they are made of, and results by the hundred.

use crate::random::Random;
use crate::terms::{index, joined, random_of_size, repeated, texts_of_size, TWO_BELLS};

/// The bytes of a store.
pub const STORE: usize = 67_584;
/// Where the texts stand in it.
pub const TEXTS: usize = 2_048;
/// The bytes of each result in front of the texts.
pub const FRONT: usize = 8;
pub const MOST_RESULTS: usize = 256;
pub const MOST_LETTERS: usize = 65_536;

pub fn fingerprint(text: &[u8]) -> u32 {
    text.iter().fold(0, |so_far: u32, &byte| so_far.wrapping_mul(31).wrapping_add(byte.into()))
}

/// A store with these numbers, a fingerprint and a size for each result, and these letters, however they go together.
pub fn store_with(fronts: &[(u32, u32)], letters: &[u8]) -> Vec<u8> {
    let mut store = vec![0; STORE];
    for (place, &(fingerprint, size)) in store.chunks_mut(FRONT).zip(fronts) {
        place[..4].copy_from_slice(&fingerprint.to_le_bytes());
        place[4..].copy_from_slice(&size.to_le_bytes());
    }
    store[TEXTS..TEXTS + letters.len()].copy_from_slice(letters);
    store
}

/// The store of the results with these texts.
pub fn store_of<T: AsRef<[u8]>>(texts: &[T]) -> Vec<u8> {
    let front = |text: &T| (fingerprint(text.as_ref()), text.as_ref().len() as u32);
    let fronts: Vec<(u32, u32)> = texts.iter().map(front).collect();
    store_with(&fronts, &texts.iter().flat_map(|text| text.as_ref().to_vec()).collect::<Vec<u8>>())
}

/// A new store.
pub fn empty() -> Vec<u8> {
    vec![0; STORE]
}

/// So many texts of results, the smallest first: each term of one letter to five, bells one and twelve among them.
pub fn small_results(count: usize) -> Vec<Vec<u8>> {
    let all = (1..=5).flat_map(|size| texts_of_size(size, TWO_BELLS));
    all.filter(|text| !text.contains(&b'.')).take(count).collect()
}

/// Texts of so many letters and one fingerprint, as many as there are, which differ in their last few letters or,
/// where these come first, in their first: `H0T` and `H15` in pairs, and an index for the rest.
pub fn alike(count: usize, size: usize, first: bool) -> Vec<Vec<u8>> {
    let blocks = (0..).find(|&blocks| 1 << blocks >= count).unwrap_or(0);
    let rest = size - 4 * blocks;
    let text = |number: usize| -> Vec<u8> {
        let block = |place| if number >> place & 1 == 0 { b"BH0T" } else { b"BH15" };
        let differing: Vec<u8> = (0..blocks).flat_map(block).copied().collect();
        match first {
            true => joined(&[&differing, &index(rest - 1)]),
            false => joined(&[&repeated("R", rest - 1), &differing, b"I"]),
        }
    };
    (0..count).map(text).collect()
}

/// The text of a random normal term of this size: each letter that takes two terms but the full stop stands for it.
pub fn random_result(random: &mut Random, size: usize) -> Vec<u8> {
    let mut text = random_of_size(random, size).text();
    for letter in text.iter_mut().filter(|letter| **letter == b'.') {
        *letter = *random.pick(b"HAB");
    }
    text
}
