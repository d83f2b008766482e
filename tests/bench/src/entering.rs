//! An entry into a catalogue as a Rust program would make it: the store is gone through once, with a fingerprint and a
//! slice of each result kept in a vector, and results are compared where their fingerprints are the same.

use crate::rows::read;
use harness::stores::{FRONT, MOST_LETTERS, MOST_RESULTS, STORE, TEXTS};
use second::refusal::*;

/// A result in a store.
struct Held<'a> {
    fingerprint: u32,
    text: &'a [u8],
}

fn fingerprint(text: &[u8]) -> u32 {
    text.iter().fold(0, |so_far: u32, &byte| so_far.wrapping_mul(31).wrapping_add(byte.into()))
}

/// Reading, and no full stop.
fn read_result(text: &[u8]) -> Result<(), Refusal> {
    read(text)?;
    match text.contains(&b'.') {
        true => Err(without_place(NOT_NORMAL)),
        false => Ok(()),
    }
}

/// Whether bytes are all zeros: one after the other up to the first that is none, as most would write it.
pub fn one_by_one(bytes: &[u8]) -> bool {
    bytes.iter().all(|&byte| byte == 0)
}

/// The same without a look at each, which the compiler makes of whole registers.
pub fn at_once(bytes: &[u8]) -> bool {
    bytes.iter().fold(0, |so_far, &byte| so_far | byte) == 0
}

/// The fingerprint and the size in front of the texts.
fn front_of(front: &[u8]) -> (u32, usize) {
    let word =
        |place: usize| u32::from_le_bytes([front[place], front[place + 1], front[place + 2], front[place + 3]]);
    (word(0), word(4) as usize)
}

/// Where a result stands among those held.
fn place_of(held: &[Held], fingerprint: u32, text: &[u8]) -> Option<usize> {
    held.iter().position(|other| other.fingerprint == fingerprint && other.text == text)
}

/// The results of a store, or nothing where no entries leave it.
fn held_in(store: &[u8], all_zeros: impl Fn(&[u8]) -> bool) -> Option<Vec<Held<'_>>> {
    let (fronts, mut texts) = store.split_at(TEXTS);
    let mut held: Vec<Held> = Vec::with_capacity(MOST_RESULTS);
    for front in fronts.chunks_exact(FRONT) {
        let (given, size) = front_of(front);
        if size == 0 {
            break;
        }
        let text = texts.get(..size)?;
        read_result(text).ok()?;
        if fingerprint(text) != given || place_of(&held, given, text).is_some() {
            return None;
        }
        held.push(Held { fingerprint: given, text });
        texts = &texts[size..];
    }
    (all_zeros(&fronts[FRONT * held.len()..]) && all_zeros(texts)).then_some(held)
}

/// The number of a term in the catalogue of a store, into which it is written where it is new.
pub fn plainly(all_zeros: impl Fn(&[u8]) -> bool, term: &[u8], lent: &mut [u8]) -> Result<usize, Refusal> {
    let store = lent.get_mut(..STORE).ok_or(without_place(LENT_TOO_SHORT))?;
    let held = held_in(store, all_zeros).ok_or(without_place(NO_CATALOGUE))?;
    read_result(term)?;
    let fingerprint = fingerprint(term);
    if let Some(place) = place_of(&held, fingerprint, term) {
        return Ok(place + 1);
    }
    let (count, letters) = (held.len(), held.iter().map(|result| result.text.len()).sum::<usize>());
    if count == MOST_RESULTS || term.len() > MOST_LETTERS - letters {
        return Err(without_place(CATALOGUE_FULL));
    }
    let front = &mut store[FRONT * count..][..FRONT];
    front[..4].copy_from_slice(&fingerprint.to_le_bytes());
    front[4..].copy_from_slice(&(term.len() as u32).to_le_bytes());
    store[TEXTS + letters..][..term.len()].copy_from_slice(term);
    Ok(count + 1)
}
