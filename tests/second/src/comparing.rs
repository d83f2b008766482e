//! Comparing: are the results of two terms the same?

use crate::finishing::{finish_unrefused, refuse, Outcome};
use crate::refusal::Refusal;
use crate::stepping::Reducer;

#[derive(Clone, Copy, Debug, PartialEq, Eq)]
pub enum Verdict {
    Same,
    Different,
    Undecided,
}

/// A term in a lent area.
pub struct Lent<'a> {
    pub area: &'a mut [u8],
    pub length: usize,
}

pub fn compare<R: Reducer>(first: Lent, second: Lent, work: &mut [u8], fuel: u64) -> Result<Verdict, Refusal> {
    refuse(first.area, first.length, work.len(), fuel)?;
    refuse(second.area, second.length, work.len(), fuel)?;
    let one = finish_unrefused::<R>(first.area, first.length, fuel, |_| ());
    let two = finish_unrefused::<R>(second.area, second.length, fuel, |_| ());
    work.fill(0);
    if one.outcome != Outcome::Finished || two.outcome != Outcome::Finished {
        return Ok(Verdict::Undecided);
    }
    let same = first.area[..one.length] == second.area[..two.length];
    Ok(if same { Verdict::Same } else { Verdict::Different })
}
