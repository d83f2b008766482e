//! Rows: the bells of a chain, so many at a time, stored as numbers for the hammers.

use crate::refusal::*;
use crate::term::{parse, Term};

pub const FEWEST_BELLS: usize = 2;
pub const MOST_BELLS: usize = 12;
pub const MOST_ROWS: usize = 1_000;
/// The bytes that each row has in the table.
pub const PLACES: usize = 12;

/// How many rows there are, and how many of them are different.
#[derive(Clone, Copy, Debug, PartialEq, Eq)]
pub struct Rung {
    pub rows: usize,
    pub different: usize,
}

/// The numbers of a chain's bells; nothing for a term that is no chain.
fn bells_of(mut term: &Term) -> Option<Vec<u8>> {
    let mut bells = vec![];
    loop {
        match term {
            Term::I => return Some(bells),
            Term::B(first, behind) => {
                let Term::K(bell) = **first else { return None };
                bells.push(bell.number());
                term = behind;
            }
            _ => return None,
        }
    }
}

/// Do these bells, put in order, count from one up?
fn is_row(bells: &[u8]) -> bool {
    let mut sorted = bells.to_vec();
    sorted.sort();
    sorted.into_iter().eq((1..).take(bells.len()))
}

/// How many are left when the rows are put in order and each is kept once.
fn different(rows: &[&[u8]]) -> usize {
    let mut sorted = rows.to_vec();
    sorted.sort();
    sorted.dedup();
    sorted.len()
}

/// Stores each row in its twelve bytes; every other byte is zero.
fn store(rows: &[&[u8]], table: &mut [u8]) {
    table.fill(0);
    for (places, row) in table.chunks_exact_mut(PLACES).zip(rows) {
        places[..row.len()].copy_from_slice(row);
    }
}

/// Stores the piece with this text as rows of `n` bells, or answers the refusal of the text, 20, 21 or 22.
pub fn ring(text: &[u8], n: usize, table: &mut [u8]) -> Result<Rung, Refusal> {
    let term = parse(text)?;
    if !(FEWEST_BELLS..=MOST_BELLS).contains(&n) {
        return Err(without_place(NO_CHAIN));
    }
    let bells = bells_of(&term).ok_or(without_place(NO_CHAIN))?;
    let rows: Vec<&[u8]> = bells.chunks_exact(n).collect();
    let room = MOST_ROWS.min(table.len() / PLACES);
    if bells.len() % n > 0 || rows.len() > room {
        return Err(without_place(NO_TABLE));
    }
    if let Some(before) = rows.iter().position(|row| !is_row(row)) {
        return Err(at(BAD_ROW, before + 1));
    }
    store(&rows, table);
    Ok(Rung { rows: rows.len(), different: different(&rows) })
}
