//! The program sweep: its rows, what its lines add up to, and what the second implementation predicts.

use crate::program_tests::{printed, with_line_feed};
use crate::small_lines::{by_finish, line, random_lines, short_inputs, small_runs};
use crate::subject::{Programs, Second};
use crate::suite::{equal, shown, Outcome, Suite};
use crate::table::sweeping::{sweep_rows, TERMS};
use crate::terms::{texts_of_size, NO_BELLS};
use second::finishing::Outcome as End;
use second::plain::Plain;

/// The seven numbers that are printed for a sweep, in their order.
#[derive(Clone, Copy)]
pub struct Columns {
    pub n: u64,
    pub finished: u64,
    pub spent: u64,
    pub no_room: u64,
    pub steps: u64,
    pub quotient: u64,
    pub remainder: u64,
}

/// The numbers in the one line that was printed; none for a refusal or anything else.
pub fn columns(printed: &[u8]) -> Option<Columns> {
    let line = std::str::from_utf8(printed).ok()?.strip_suffix('\n')?;
    let numbers: Option<Vec<u64>> = line.split('\t').map(|field| field.parse().ok()).collect();
    let [n, finished, spent, no_room, steps, quotient, remainder] = numbers?.try_into().ok()?;
    Some(Columns { n, finished, spent, no_room, steps, quotient, remainder })
}

/// The numbers that the subject prints for a sweep.
pub fn swept(subject: &dyn Programs, n: usize, fuel: u64, area: usize) -> Result<Columns, String> {
    let printed = subject.sweep(&line(n, fuel, area))?;
    columns(&printed).ok_or(format!("{n}, {fuel}, {area} prints {}", shown(&printed)))
}

/// Every term of the size is in one of the first three columns, and the last two divide the steps.
fn adds_up(subject: &dyn Programs, n: usize, fuel: u64, area: usize) -> Outcome {
    let told = swept(subject, n, fuel, area)?;
    let what = format!("{n}, {fuel}, {area}");
    equal(&format!("{what}: size"), told.n, n as u64)?;
    equal(&format!("{what}: terms"), told.finished + told.spent + told.no_room, TERMS[n - 1])?;
    equal(&format!("{what}: the steps divided"), told.quotient * told.finished + told.remainder, told.steps)?;
    equal(&format!("{what}: remainder below the finished runs"), told.remainder < told.finished, true)
}

/// The sweep's first five columns are what the finishing program says of each term, added up.
fn beside_finish(subject: &dyn Programs, n: usize, fuel: u64, area: usize) -> Outcome {
    let mut wanted = [n as u64, 0, 0, 0, 0];
    for text in texts_of_size(n, NO_BELLS) {
        match by_finish(subject, fuel, area, &text)? {
            (End::Finished, count) => {
                wanted[1] += 1;
                wanted[4] += count;
            }
            (End::Spent, _) => wanted[2] += 1,
            (End::NoRoom, _) => wanted[3] += 1,
        }
    }
    let told = swept(subject, n, fuel, area)?;
    let got = [told.n, told.finished, told.spent, told.no_room, told.steps];
    equal(&format!("{n}, {fuel}, {area} beside the runs one by one"), got, wanted)
}

/// Does the subject print what the plain reducer predicts?
fn agree(subject: &dyn Programs, input: &[u8]) -> Outcome {
    printed(subject.sweep(input), &Second::<Plain>::new().sweep(input)?, input)
}

/// Inputs whose output is written by hand.
pub fn known(suite: &mut Suite, label: &str, subject: impl Programs) {
    for row in sweep_rows() {
        let name = format!("{label} sweep program: {}", row.name);
        suite.test(&name, || printed(subject.sweep(&row.input), &with_line_feed(&row.printed), &row.input));
    }
}

/// What the lines add up to, of every size; beside the finishing program, of terms of up to so many letters.
pub fn made(suite: &mut Suite, label: &str, subject: impl Programs, largest: usize) {
    for n in 1..=TERMS.len() {
        suite.test(&format!("{label} sweep program: the columns of size {n} add up"), || {
            let sweeps = [(0, n), (1, n), (2, n + 1), (3, 11), (5, 12), (1_000_000, 16_384)];
            sweeps.into_iter().try_for_each(|(fuel, area)| adds_up(&subject, n, fuel, area))
        });
    }
    for n in 1..=largest {
        suite.test(&format!("{label} sweep program: the runs of size {n} one by one, by finish"), || {
            let sweeps = [(0, n), (1, n), (2, n + 1), (10, 16_384)];
            sweeps.into_iter().try_for_each(|(fuel, area)| beside_finish(&subject, n, fuel, area))
        });
    }
}

/// Sweeps that the plain reducer predicts.
pub fn predicted(suite: &mut Suite, label: &str, subject: impl Programs) {
    for n in 1..=TERMS.len() {
        suite.test(&format!("{label} sweep program: size {n} with every small fuel and area"), || {
            small_runs(n).try_for_each(|(fuel, area)| agree(&subject, &line(n, fuel, area)))
        });
    }
    suite.test(&format!("{label} sweep program: random lines"), || {
        random_lines(91, |input| agree(&subject, input))
    });
    suite.test(&format!("{label} sweep program: short inputs"), || {
        short_inputs(92, |input| agree(&subject, input))
    });
}
