//! Finishing with counts: how often each of the thirteen rules was used.

use crate::finishing::{finish_unrefused, refuse, Run};
use crate::refusal::*;
use crate::stepping::Reducer;

pub const RULES: usize = 13;
/// Four bytes for each rule.
pub const COUNTS_SIZE: usize = 4 * RULES;

/// How often each rule was used, rule 1 first.
pub type Counts = [u32; RULES];

/// Finishes, and counts the steps by their rules.
pub fn finish_by_rule<R: Reducer>(
    area: &mut [u8],
    length: usize,
    work: &mut [u8],
    fuel: u64,
) -> Result<(Run, Counts), Refusal> {
    refuse(area, length, work.len(), fuel)?;
    let mut counts = [0; RULES];
    let run = finish_unrefused::<R>(area, length, fuel, |rule| counts[usize::from(rule) - 1] += 1);
    work.fill(0);
    Ok((run, counts))
}

/// Stores each count in four bytes, low byte first; the bytes behind them stay.
fn store(counts: Counts, lent: &mut [u8]) {
    for (place, count) in lent.chunks_exact_mut(4).zip(counts) {
        place.copy_from_slice(&count.to_le_bytes());
    }
}

/// Finishes, and stores the counts in a lent buffer; one that is too short for them is refused first.
pub fn finish_counted<R: Reducer>(
    area: &mut [u8],
    length: usize,
    work: &mut [u8],
    fuel: u64,
    lent: &mut [u8],
) -> Result<Run, Refusal> {
    if lent.len() < COUNTS_SIZE {
        return Err(without_place(LENT_TOO_SHORT));
    }
    let (run, counts) = finish_by_rule::<R>(area, length, work, fuel)?;
    store(counts, lent);
    Ok(run)
}
