//! Programs with one bug planted in what sweep reads, counts, prints or refuses: each must turn the tests red.

use crate::subject::Programs;
use crate::sweep_tests::{columns, Columns};
use crate::terms::all_of_size;
use crate::wrong_small_lines::{self, line, numbers, Asked};
use second::finishing::{run, Outcome};
use second::plain::Plain;

/// Where the bug is.
#[derive(Clone, Copy)]
enum Planted {
    /// In what dearest does too.
    InLine(&'static wrong_small_lines::Bug),
    /// The columns of a sweep are others; the last two are then made anew.
    Counted(fn(Asked, Columns) -> Columns),
    /// The columns of a sweep are printed as others.
    Shown(fn(Columns) -> Columns),
    /// Something else is printed.
    Printed(fn(Vec<u8>) -> Vec<u8>),
}

pub struct Bug {
    pub name: String,
    planted: Planted,
}

/// The line of these columns.
fn shown(own: Columns) -> Vec<u8> {
    line(&[own.n, own.finished, own.spent, own.no_room, own.steps, own.quotient, own.remainder])
}

/// The last two columns made anew.
fn divided(own: Columns) -> Columns {
    let by = own.finished.max(1);
    Columns { quotient: own.steps / by, remainder: own.steps % by, ..own }
}

/// The runs of all terms that end in these letters.
fn over(ends: &str, [n, fuel, area]: Asked) -> Columns {
    let mut own = Columns { n: n as u64, finished: 0, spent: 0, no_room: 0, steps: 0, quotient: 0, remainder: 0 };
    for term in all_of_size(n as usize, ends) {
        match run(&mut Plain { term }, area as usize, fuel as u64, |_| ()) {
            (Outcome::Finished, steps) => {
                own.finished += 1;
                own.steps += steps;
            }
            (Outcome::Spent, _) => own.spent += 1,
            (Outcome::NoRoom, _) => own.no_room += 1,
        }
    }
    own
}

/// The steps that the spent runs made.
fn spent_steps(own: Columns, [_, fuel, _]: Asked) -> u64 {
    own.spent * fuel as u64
}

use Planted::*;

/// Bugs in what is counted and printed.
static COUNTS: [(&str, Planted); 19] = [
    ("a term left out", Counted(|_, own| Columns { finished: own.finished - 1, ..own })),
    ("a term twice", Counted(|_, own| Columns { finished: own.finished + 1, ..own })),
    (
        "a normal term of size 7 in place of one that makes a step",
        Counted(|_, own| match own.n {
            7 => Columns { steps: own.steps.saturating_sub(1), ..own },
            _ => own,
        }),
    ),
    ("a bell among the letters", Counted(|asked, _| over("JI1", asked))),
    ("J not among the letters", Counted(|asked, _| over("I", asked))),
    (
        "spent counted as finished",
        Counted(|asked, own| {
            let steps = own.steps + spent_steps(own, asked);
            Columns { finished: own.finished + own.spent, spent: 0, steps, ..own }
        }),
    ),
    (
        "steps of spent runs in the total",
        Counted(|asked, own| Columns { steps: own.steps + spent_steps(own, asked), ..own }),
    ),
    (
        "a step of each run without room in the total",
        Counted(|_, own| Columns { steps: own.steps + own.no_room, ..own }),
    ),
    ("no room counted as spent", Counted(|_, own| Columns { spent: own.spent + own.no_room, no_room: 0, ..own })),
    (
        "no room counted as finished",
        Counted(|_, own| Columns { finished: own.finished + own.no_room, no_room: 0, ..own }),
    ),
    ("spent and no room exchanged", Counted(|_, own| Columns { spent: own.no_room, no_room: own.spent, ..own })),
    (
        "runs without fuel counted as finished",
        Counted(|[_, fuel, _], own| match fuel {
            0 => Columns { finished: own.finished + own.spent, spent: 0, ..own },
            _ => own,
        }),
    ),
    ("the fuel printed for n", Counted(|[_, fuel, _], own| Columns { n: fuel as u64, ..own })),
    (
        "quotient and remainder exchanged",
        Shown(|own| Columns { quotient: own.remainder, remainder: own.quotient, ..own }),
    ),
    ("the quotient rounded up", Shown(|own| Columns { quotient: own.steps.div_ceil(own.finished), ..own })),
    ("no remainder", Shown(|own| Columns { remainder: 0, ..own })),
    (
        "all terms printed for the finished",
        Shown(|own| Columns { finished: own.finished + own.spent + own.no_room, ..own }),
    ),
    (
        "a header printed",
        Printed(|printed| [b"n\tfinished\tspent\tno room\tsteps\tmean\tremainder\n", &printed[..]].concat()),
    ),
    (
        "the last column left out",
        Printed(|printed| match columns(&printed) {
            Some(own) => line(&[own.n, own.finished, own.spent, own.no_room, own.steps, own.quotient]),
            None => printed,
        }),
    ),
];

pub fn bugs() -> impl Iterator<Item = Bug> {
    let in_line = wrong_small_lines::bugs().map(|bug| (bug.what, InLine(bug)));
    COUNTS.into_iter().chain(in_line).map(|(what, planted)| Bug { name: format!("sweep: {what}"), planted })
}

/// The programs with the bug.
pub struct Wrong<'a, P> {
    pub programs: P,
    pub bug: &'a Bug,
}

impl<P: Programs> Wrong<'_, P> {
    /// What is printed, with these columns in place of those of a sweep.
    fn recounted(&self, input: &[u8], columns_of: impl FnOnce(Columns) -> Columns) -> Result<Vec<u8>, String> {
        let printed = self.programs.sweep(input)?;
        Ok(columns(&printed).map_or(printed, |own| shown(columns_of(own))))
    }
}

impl<P: Programs> Programs for Wrong<'_, P> {
    fn finish(&self, input: &[u8]) -> Result<Vec<u8>, String> {
        self.programs.finish(input)
    }

    fn rule_mix(&self, input: &[u8]) -> Result<Vec<u8>, String> {
        self.programs.rule_mix(input)
    }

    fn check_file(&self, input: &[u8]) -> Result<Vec<u8>, String> {
        self.programs.check_file(input)
    }

    fn sweep(&self, input: &[u8]) -> Result<Vec<u8>, String> {
        match (self.bug.planted, numbers(input)) {
            (InLine(bug), _) => bug.in_program(|input| self.programs.sweep(input), input),
            (Printed(other), _) => self.programs.sweep(input).map(other),
            (Shown(other), _) => self.recounted(input, other),
            (Counted(other), Some(asked)) => self.recounted(input, |own| divided(other(asked, own))),
            (Counted(_), None) => self.programs.sweep(input),
        }
    }

    fn dearest(&self, input: &[u8]) -> Result<Vec<u8>, String> {
        self.programs.dearest(input)
    }

    fn play_book(&self, input: &[u8]) -> Result<Vec<u8>, String> {
        self.programs.play_book(input)
    }
}
