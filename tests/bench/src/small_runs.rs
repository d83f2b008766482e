//! The programs that run every small term of one size: milliseconds of such a program, beside Rust that does the same,
//! and the time that a process takes to start.
//!
//! They are no functions of the engine's archive, so the program is started anew for each call, with its line on
//! standard input, and the call ends with the process.

use crate::table::{number, Table};
use crate::terms::AREA;
use crate::timing::shortest;
use second::finishing::{finish, run, Outcome};
use second::machine::Machine;
use second::stepping::Reducer;
use std::io::{Read, Write};
use std::process::{Command, Stdio};

/// What a program tells of the runs.
pub trait Told: Default {
    /// Proved and built by `./bench`.
    const PROGRAM: &'static str;

    /// The run of one more term, in byte order.
    fn add(&mut self, text: &[u8], outcome: Outcome, steps: u64);

    /// The line printed.
    fn line(&self, size: usize) -> Vec<u8>;
}

/// What one line asks for.
#[derive(Clone, Copy)]
struct SmallRuns {
    size: usize,
    fuel: u64,
    area: usize,
}

/// The letters in byte order, each with the number of terms that it takes.
const LETTERS: [(u8, usize); 7] = [(b'.', 2), (b'A', 2), (b'B', 2), (b'H', 2), (b'I', 0), (b'J', 0), (b'R', 1)];

/// Writes every text of `owed` terms in the letters from `place` on, in byte order, and hands each on.
fn each_text(text: &mut [u8], place: usize, owed: usize, found: &mut impl FnMut(&[u8])) {
    let behind = text.len() - place;
    if behind == 0 {
        return found(text);
    }
    for (letter, takes) in LETTERS {
        let owed = owed - 1 + takes;
        if owed < behind && (owed > 0) == (behind > 1) {
            text[place] = letter;
            each_text(text, place + 1, owed, found);
        }
    }
}

impl SmallRuns {
    fn input(self) -> Vec<u8> {
        format!("{}\t{}\t{}\n", self.size, self.fuel, self.area).into_bytes()
    }

    fn each_text(self, mut found: impl FnMut(&[u8])) {
        each_text(&mut vec![0; self.size], 0, 1, &mut found);
    }

    /// Each term finished in the area, with zeros behind it, and a work area of that size; both are made once.
    fn in_an_area<T: Told>(self) -> Vec<u8> {
        let (mut area, mut work) = (vec![0; self.area], vec![0; self.area]);
        let (mut told, mut left) = (T::default(), 0);
        self.each_text(|text| {
            area[..left].fill(0);
            area[..text.len()].copy_from_slice(text);
            let run = finish::<Machine>(&mut area, text.len(), &mut work, self.fuel);
            let run = run.expect("a small term is not refused");
            left = run.length;
            told.add(text, run.outcome, run.count);
        });
        told.line(self.size)
    }

    /// Each term run with no bytes but its own: the area is a bound and nothing more.
    fn in_no_area<T: Told>(self) -> Vec<u8> {
        let mut told = T::default();
        self.each_text(|text| {
            let (outcome, steps) = run(&mut Machine::start(text), self.area, self.fuel, |_| ());
            told.add(text, outcome, steps);
        });
        told.line(self.size)
    }

    /// What the program prints, in a process of its own.
    fn by_program<T: Told>(self) -> Vec<u8> {
        let mut command = Command::new(format!("target/bin/{}", T::PROGRAM));
        let command = command.stdin(Stdio::piped()).stdout(Stdio::piped());
        let mut child = command.spawn().expect("the program is built");
        child.stdin.take().expect("a pipe").write_all(&self.input()).expect("the program reads");
        let mut printed = vec![];
        child.stdout.take().expect("a pipe").read_to_end(&mut printed).expect("the program prints");
        child.wait().expect("the program ends");
        printed
    }

    /// Nanoseconds of one call, which prints what the program prints.
    fn time<T: Told>(self, call: impl Fn(SmallRuns) -> Vec<u8>) -> f64 {
        let printed = self.by_program::<T>();
        shortest(|| (), |_| assert_eq!(call(self), printed, "size {}: one line", self.size))
    }

    /// The ratios are left out where the work is shorter than the start, which is then not known well enough.
    fn row<T: Told>(self, start: f64) -> Vec<String> {
        let mut terms = 0;
        self.each_text(|_| terms += 1);
        let program = self.time::<T>(SmallRuns::by_program::<T>);
        let work = (program - start).max(0.0);
        let [rust, bare] =
            [self.time::<T>(SmallRuns::in_an_area::<T>), self.time::<T>(SmallRuns::in_no_area::<T>)];
        let milliseconds = |time: f64| number(time / 1e6);
        let ratio = |to: f64| if work < start { "-".to_string() } else { number(work / to) };
        vec![
            format!("size {}, fuel {}, area {}", self.size, self.fuel, self.area),
            terms.to_string(),
            milliseconds(program),
            milliseconds(work),
            ratio(1e3 * terms as f64),
            milliseconds(rust),
            ratio(rust),
            milliseconds(bare),
            ratio(bare),
        ]
    }
}

/// The table of the program that tells this.
pub fn table<T: Told>() -> Table {
    let start = SmallRuns { size: 1, fuel: 0, area: 1 }.time::<T>(SmallRuns::by_program::<T>);
    let largest = (1..=7).map(|size| SmallRuns { size, fuel: 10, area: AREA });
    let all = largest.chain([SmallRuns { size: 7, fuel: 10, area: 7 }]);
    let title = format!(
        "Milliseconds of the program {}, from its start to its end, and work, which is that without the {} ms of \
         size 1 with no fuel in an area of 1; beside Rust in this process, with each term in an area of bytes, and with \
         none; ratios where the work is longer than the start",
        T::PROGRAM,
        number(start / 1e6)
    );
    let heads = [
        T::PROGRAM,
        "terms",
        "program",
        "work",
        "µs a term",
        "Rust",
        "work/Rust",
        "Rust, no area",
        "work/no area",
    ];
    Table::new(&title, &heads, all.map(|runs| runs.row::<T>(start)).collect())
}
