//! Finishing: steps until the term is normal, the fuel is spent, or there is no room.

use crate::reading::read;
use crate::refusal::*;
use crate::stepping::{refuse_lengths, store, Next, Reducer};

pub const MAX_FUEL: u64 = 1_000_000;

#[derive(Clone, Copy, Debug, PartialEq, Eq)]
pub enum Outcome {
    Finished,
    Spent,
    NoRoom,
}

/// The record of a run, with the length of the term now in the area.
#[derive(Clone, Copy, Debug, PartialEq, Eq)]
pub struct Run {
    pub outcome: Outcome,
    pub count: u64,
    pub length: usize,
}

/// The refusals of finishing, in their order.
pub fn refuse(area: &[u8], length: usize, work: usize, fuel: u64) -> Result<(), Refusal> {
    refuse_lengths(area.len(), length, work)?;
    if fuel > MAX_FUEL {
        return Err(without_place(FUEL_TOO_LARGE));
    }
    read(&area[..length])?;
    Ok(())
}

/// Reduces until a run ends; answers its outcome and the number of steps made, and tells the rule of each.
pub fn run<R: Reducer>(reducer: &mut R, area: usize, fuel: u64, mut used: impl FnMut(u8)) -> (Outcome, u64) {
    let mut count = 0;
    loop {
        match reducer.next(count == fuel, area) {
            Next::Normal => return (Outcome::Finished, count),
            Next::Spent => return (Outcome::Spent, count),
            Next::NoRoom => return (Outcome::NoRoom, count),
            Next::Stepped(rule) => {
                used(rule);
                count += 1;
            }
        }
    }
}

/// Finishes the term in the first `length` bytes of an area that no refusal strikes.
pub fn finish_unrefused<R: Reducer>(area: &mut [u8], length: usize, fuel: u64, used: impl FnMut(u8)) -> Run {
    let mut reducer = R::start(&area[..length]);
    let (outcome, count) = run(&mut reducer, area.len(), fuel, used);
    let text = reducer.text();
    store(&text, area);
    Run { outcome, count, length: text.len() }
}

pub fn finish<R: Reducer>(area: &mut [u8], length: usize, work: &mut [u8], fuel: u64) -> Result<Run, Refusal> {
    refuse(area, length, work.len(), fuel)?;
    let run = finish_unrefused::<R>(area, length, fuel, |_| ());
    work.fill(0);
    Ok(run)
}
