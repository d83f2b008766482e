//! What the programs sweep and dearest have in common: the line that they read, its refusals, and the run of one small
//! term.

use crate::finish_line::number;
use crate::finishing::{finish, Outcome, MAX_FUEL};
use crate::refusal::*;
use crate::stepping::{Reducer, MAX_AREA};

/// The largest of the small terms.
pub const MAX_SIZE: u64 = 7;

/// The size of the terms, and the fuel and the area size of each run.
pub struct SmallRuns {
    pub size: u64,
    fuel: u64,
    area: u64,
}

/// The numbers of an input that is one line, with tabs between them.
fn numbers(input: &[u8]) -> Option<Vec<u64>> {
    input.strip_suffix(b"\n")?.split(|&byte| byte == b'\t').map(number).collect()
}

/// What the input asks for, or the first refusal that strikes it.
pub fn asked(input: &[u8]) -> Result<SmallRuns, Refusal> {
    let numbers = numbers(input).ok_or(without_place(BAD_SWEEP))?;
    let [size, fuel, area] = numbers.try_into().map_err(|_| without_place(BAD_SWEEP))?;
    let refusals = [
        (size == 0 || size > MAX_SIZE, BAD_SWEEP),
        (fuel > MAX_FUEL, FUEL_TOO_LARGE),
        (area > MAX_AREA as u64, AREA_TOO_LARGE),
        (area < size, LENGTH_TOO_LARGE),
    ];
    match refusals.into_iter().find(|(strikes, _)| *strikes) {
        Some((_, number)) => Err(without_place(number)),
        None => Ok(SmallRuns { size, fuel, area }),
    }
}

/// Finishes a term in an area of its own.
pub fn finish_fresh<R: Reducer>(text: &[u8], runs: &SmallRuns) -> (Outcome, u64) {
    let size = runs.area as usize;
    let mut area = text.to_vec();
    area.resize(size, 0);
    let run = finish::<R>(&mut area, text.len(), &mut vec![0; size], runs.fuel);
    let run = run.expect("nothing strikes a small term in an area that has room for it");
    (run.outcome, run.count)
}
