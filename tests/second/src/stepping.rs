//! Stepping: one step of a term in a lent area.

use crate::reading::read;
use crate::refusal::*;

pub const MAX_AREA: usize = 16_384;

/// What comes next for a term, tested in this order.
#[derive(Clone, Copy, Debug, PartialEq, Eq)]
pub enum Next {
    Normal,
    Spent,
    NoRoom,
    /// One step was made, by this rule.
    Stepped(u8),
}

/// A term under reduction.
pub trait Reducer {
    /// Starts from a text that reading accepts.
    fn start(text: &[u8]) -> Self;
    /// Makes one step, unless the term is normal, or the fuel is spent, or there is no room.
    fn next(&mut self, spent: bool, area: usize) -> Next;
    /// The text of the term reached.
    fn text(&self) -> Vec<u8>;
}

/// The answer of stepping, with the length of the term now in the area.
#[derive(Clone, Copy, Debug, PartialEq, Eq)]
pub struct Stepped {
    pub next: Next,
    pub length: usize,
}

/// The refusals 1, 2 and 3.
pub fn refuse_lengths(area: usize, term: usize, work: usize) -> Result<(), Refusal> {
    if area > MAX_AREA {
        return Err(without_place(AREA_TOO_LARGE));
    }
    if work < area {
        return Err(without_place(LENT_TOO_SHORT));
    }
    if term > area {
        return Err(without_place(LENGTH_TOO_LARGE));
    }
    Ok(())
}

/// Stores the text with zeros behind it.
pub fn store(text: &[u8], area: &mut [u8]) {
    area.fill(0);
    area[..text.len()].copy_from_slice(text);
}

/// One step of the term in the first `length` bytes of the area.
pub fn step<R: Reducer>(area: &mut [u8], length: usize, work: &mut [u8]) -> Result<Stepped, Refusal> {
    refuse_lengths(area.len(), length, work.len())?;
    read(&area[..length])?;
    let mut reducer = R::start(&area[..length]);
    let next = reducer.next(false, area.len());
    let text = reducer.text();
    store(&text, area);
    work.fill(0);
    Ok(Stepped { next, length: text.len() })
}
