//! The catalogue: results in the order of their first entries, kept in a store of bytes.

use crate::refusal::*;
use crate::term::{parse, Term};
use std::collections::BTreeMap;

pub const STORE_SIZE: usize = 67_584;
pub const MOST_ENTRIES: usize = 256;
pub const MOST_LETTERS: usize = 65_536;
/// The bytes that each result has in front of the texts: four for its fingerprint, four for its size.
const FRONT: usize = 8;

/// Each result with its number.
#[derive(Default)]
struct Catalogue {
    numbers: BTreeMap<Term, usize>,
    letters: usize,
}

impl Catalogue {
    /// The number of a result; 29 for a term that is none, 30 for a new one where there is no room.
    fn enter(&mut self, term: Term) -> Result<usize, Refusal> {
        if !term.is_normal() {
            return Err(without_place(NOT_NORMAL));
        }
        if let Some(&number) = self.numbers.get(&term) {
            return Ok(number);
        }
        let (number, letters) = (self.numbers.len() + 1, self.letters + term.size());
        if number > MOST_ENTRIES || letters > MOST_LETTERS {
            return Err(without_place(CATALOGUE_FULL));
        }
        self.letters = letters;
        self.numbers.insert(term, number);
        Ok(number)
    }

    /// The texts of the results, number 1 first.
    fn texts(&self) -> Vec<Vec<u8>> {
        let mut numbered: Vec<(usize, Vec<u8>)> =
            self.numbers.iter().map(|(term, &number)| (number, term.text())).collect();
        numbered.sort();
        numbered.into_iter().map(|(_, text)| text).collect()
    }

    /// The bytes of its store.
    fn store(&self) -> Vec<u8> {
        let texts = self.texts();
        let mut store: Vec<u8> = texts.iter().flat_map(|text| front_of(text)).collect();
        store.resize(FRONT * MOST_ENTRIES, 0);
        store.extend(texts.concat());
        store.resize(STORE_SIZE, 0);
        store
    }

    /// The catalogue that this store holds: its terms, entered into an empty one, leave the store again.
    fn held_in(store: &[u8]) -> Option<Catalogue> {
        let mut catalogue = Catalogue::default();
        for term in terms_in(store)? {
            catalogue.enter(term).ok()?;
        }
        (catalogue.store() == store).then_some(catalogue)
    }
}

/// Each byte makes it 31 times what it was and the byte more, in 32 bits.
fn fingerprint(text: &[u8]) -> u32 {
    text.iter().fold(0u64, |so_far, &byte| (31 * so_far + u64::from(byte)) % (1 << 32)) as u32
}

fn front_of(text: &[u8]) -> Vec<u8> {
    [fingerprint(text), text.len() as u32].map(u32::to_le_bytes).concat()
}

/// The terms of which a store tells the sizes, up to the first that has none; nothing where one is no term.
fn terms_in(store: &[u8]) -> Option<Vec<Term>> {
    let (fronts, mut texts) = store.split_at(FRONT * MOST_ENTRIES);
    let size = |front: &[u8]| front[4..].iter().rev().fold(0, |so_far, &byte| 256 * so_far + usize::from(byte));
    let mut terms = vec![];
    for size in fronts.chunks(FRONT).map(size).take_while(|&size| size > 0) {
        terms.push(parse(texts.get(..size)?).ok()?);
        texts = &texts[size..];
    }
    Some(terms)
}

/// Enters the term with this text into the catalogue of a store; its number, or 2, 28, the refusal of the text, 29 or
/// 30.
pub fn enter(text: &[u8], lent: &mut [u8]) -> Result<usize, Refusal> {
    let store = lent.get_mut(..STORE_SIZE).ok_or(without_place(LENT_TOO_SHORT))?;
    let mut catalogue = Catalogue::held_in(store).ok_or(without_place(NO_CATALOGUE))?;
    let number = catalogue.enter(parse(text)?)?;
    store.copy_from_slice(&catalogue.store());
    Ok(number)
}
