//! Reading: is a slice the text of a term?

use crate::refusal::*;
use crate::term::arity;

/// The size of the term that the whole slice holds, or 5, 6 or 7 with its place.
pub fn read(slice: &[u8]) -> Result<usize, Refusal> {
    let mut owed = 1;
    for (place, &byte) in slice.iter().enumerate() {
        if owed == 0 {
            return Err(at(ALREADY_WHOLE, place));
        }
        let Some(arity) = arity(byte) else { return Err(at(NOT_A_LETTER, place)) };
        owed = owed - 1 + arity;
    }
    if owed > 0 {
        return Err(at(NOT_WHOLE, slice.len()));
    }
    Ok(slice.len())
}
