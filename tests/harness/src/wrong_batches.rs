//! An engine of the tests' own that finishes in batches of steps, with a slip planted in them.

use crate::reply::{of_run, of_verdict};
use crate::subject::{Controller, Second};
use crate::wrong_batch::{Batch, Bounds, End, Slip};
use second::comparing::{Lent, Verdict};
use second::counting::{Counts, COUNTS_SIZE, RULES};
use second::finishing::{refuse, Outcome, Run, MAX_FUEL};
use second::machine::Machine;
use second::refusal::{without_place, Refusal, LENT_TOO_SHORT};

/// The slips, each with its name.
pub const SLIPS: [(&str, Slip); 12] = [
    ("a step more than the fuel in a batch", Slip::StepPastTheFuel),
    ("a step more than is counted where an arena is full", Slip::StepPastTheArena),
    ("a shared cell rewritten", Slip::SharedCellRewritten),
    ("room tested against what a rule gives alone", Slip::RoomForTheRedexAlone),
    ("room tested without the letters already shed", Slip::RoomWithoutShedLetters),
    ("a final letter shed before its step", Slip::LetterShedTooEarly),
    ("terms behind the part in focus written in the other order", Slip::PendingInTheOtherOrder),
    ("no room where a term outgrows its arena", Slip::ArenaTakenForTheArea),
    ("counts by rule of the last batch alone", Slip::CountsOfTheLastBatch),
    ("steps of the last batch alone", Slip::StepsOfTheLastBatch),
    ("the whole fuel given to each batch", Slip::FuelForEachBatch),
    ("letters of a longer term left behind the last one", Slip::LettersLeftBehind),
];

/// The letters that each arena is for.
const ARENAS: [usize; 5] = [64, 256, 1_024, 4_096, 16_384];

/// The letters of the smallest arena for a term that may become so large.
fn arena_for(letters: usize) -> usize {
    ARENAS.into_iter().find(|&arena| letters <= arena).unwrap_or(ARENAS[4])
}

/// The record of a run, its counts by rule, the term reached, and the most letters that were written back.
struct Ran {
    outcome: Outcome,
    count: u64,
    counts: Counts,
    text: Vec<u8>,
    longest: usize,
}

impl Ran {
    fn start(text: &[u8]) -> Self {
        let (text, longest) = (text.to_vec(), text.len());
        Ran { outcome: Outcome::Finished, count: 0, counts: [0; RULES], text, longest }
    }
}

#[derive(Clone, Copy)]
pub struct Batches {
    pub slip: Slip,
}

impl Batches {
    /// One batch more of a run: it ends the run, or leaves a term to go on with.
    fn batch(&self, ran: &mut Ran, area: usize, fuel: u64) -> End {
        let before = match self.slip {
            Slip::FuelForEachBatch => 0,
            _ => ran.count,
        };
        let letters = arena_for(area.min(2 * ran.text.len()));
        let mut batch = Batch::load(&ran.text, self.slip);
        if self.slip == Slip::CountsOfTheLastBatch {
            ran.counts = [0; RULES];
        }
        let (end, made) = batch.run(&Bounds { fuel: fuel - before, area, letters }, &mut ran.counts);
        ran.text = batch.text();
        ran.longest = ran.longest.max(ran.text.len());
        ran.count = match self.slip {
            Slip::StepsOfTheLastBatch if made > 0 => made,
            _ => ran.count + made,
        };
        match made {
            0 if end == End::Full || end == End::Outgrown => End::Run(Outcome::NoRoom),
            _ => end,
        }
    }

    fn run(&self, text: &[u8], area: usize, fuel: u64) -> Ran {
        let mut ran = Ran::start(text);
        loop {
            if let End::Run(outcome) = self.batch(&mut ran, area, fuel) {
                ran.outcome = outcome;
                return ran;
            }
        }
    }

    /// How many steps are made before the end of each batch but the last.
    pub fn ends(&self, text: &[u8], area: usize) -> Vec<usize> {
        let mut ran = Ran::start(text);
        let mut ends = vec![];
        while !matches!(self.batch(&mut ran, area, MAX_FUEL), End::Run(_)) {
            ends.push(ran.count as usize);
        }
        ends
    }

    /// Finishes the term in an area that no refusal strikes.
    fn finish_unrefused(&self, area: &mut [u8], term: usize, fuel: u64) -> (Run, Counts) {
        let mut ran = self.run(&area[..term], area.len(), fuel);
        ran.text.truncate(area.len());
        let length = ran.text.len();
        let kept = match self.slip {
            Slip::LettersLeftBehind => ran.longest.clamp(length, area.len()),
            _ => length,
        };
        area[..length].copy_from_slice(&ran.text);
        area[kept..].fill(0);
        (Run { outcome: ran.outcome, count: ran.count, length }, ran.counts)
    }

    fn finish_by_rule(
        &self,
        area: &mut [u8],
        term: usize,
        work: &mut [u8],
        fuel: u64,
    ) -> Result<(Run, Counts), Refusal> {
        refuse(area, term, work.len(), fuel)?;
        work.fill(0);
        Ok(self.finish_unrefused(area, term, fuel))
    }

    fn compared(&self, one: Lent, two: Lent, work: &mut [u8], fuel: u64) -> Result<Verdict, Refusal> {
        refuse(one.area, one.length, work.len(), fuel)?;
        refuse(two.area, two.length, work.len(), fuel)?;
        let first = self.finish_unrefused(one.area, one.length, fuel).0;
        let second = self.finish_unrefused(two.area, two.length, fuel).0;
        work.fill(0);
        let finished = [first, second].iter().all(|run| run.outcome == Outcome::Finished);
        Ok(match one.area[..first.length] == two.area[..second.length] {
            _ if !finished => Verdict::Undecided,
            true => Verdict::Same,
            false => Verdict::Different,
        })
    }
}

impl Controller for Batches {
    fn read(&self, slice: &[u8]) -> u64 {
        Second::<Machine>::new().read(slice)
    }

    fn step(&self, area: &mut [u8], term: usize, work: &mut [u8]) -> u64 {
        Second::<Machine>::new().step(area, term, work)
    }

    fn finish(&self, area: &mut [u8], term: usize, work: &mut [u8], fuel: u64) -> u64 {
        of_run(self.finish_by_rule(area, term, work, fuel).map(|(run, _)| run))
    }

    fn finish_counted(&self, area: &mut [u8], term: usize, work: &mut [u8], fuel: u64, counts: &mut [u8]) -> u64 {
        if counts.len() < COUNTS_SIZE {
            return of_run(Err(without_place(LENT_TOO_SHORT)));
        }
        of_run(self.finish_by_rule(area, term, work, fuel).map(|(run, by_rule)| {
            let bytes: Vec<u8> = by_rule.into_iter().flat_map(u32::to_le_bytes).collect();
            counts[..COUNTS_SIZE].copy_from_slice(&bytes);
            run
        }))
    }

    fn compare(&self, first: Lent, second: Lent, work: &mut [u8], fuel: u64) -> u64 {
        of_verdict(self.compared(first, second, work, fuel))
    }

    fn join(&self, f: &[u8], g: &[u8], area: &mut [u8]) -> u64 {
        Second::<Machine>::new().join(f, g, area)
    }

    fn rows(&self, term: &[u8], bells: usize, table: &mut [u8]) -> u64 {
        Second::<Machine>::new().rows(term, bells, table)
    }

    fn enter(&self, term: &[u8], store: &mut [u8]) -> u64 {
        Second::<Machine>::new().enter(term, store)
    }

    fn book(&self, book: &[u8], area: &mut [u8], work: &mut [u8], store: &mut [u8], fuel: u64) -> u64 {
        Second::<Machine>::new().book(book, area, work, store, fuel)
    }

    fn check(&self, file: &[u8]) -> u64 {
        Second::<Machine>::new().check(file)
    }

    fn match_claims(&self, first: &[u8], second: &[u8]) -> u64 {
        Second::<Machine>::new().match_claims(first, second)
    }
}
