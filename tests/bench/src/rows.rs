//! Rows for the hammers: microseconds of a call beside one that stores and compares rows the way a Rust program does,
//! and the part of it that reading alone takes.

use crate::batched;
use crate::table::{number, Table};
use engine::Linked;
use harness::chains::{piece, row_at, Row, PLACES};
use harness::reply::{of_rows, pack, placed, RUNG, WHOLE};
use harness::subject::Controller;
use second::refusal::*;
use second::rows::{Rung, FEWEST_BELLS, MOST_BELLS, MOST_ROWS};

/// Is the slice the text of one term?
pub fn read(term: &[u8]) -> Result<(), Refusal> {
    let mut owed = 1usize;
    for (place, byte) in term.iter().enumerate() {
        if owed == 0 {
            return Err(at(ALREADY_WHOLE, place));
        }
        match byte {
            b'J' | b'I' | b'0'..=b'9' | b'E' | b'T' => owed -= 1,
            b'R' => (),
            b'H' | b'A' | b'B' | b'.' => owed += 1,
            _ => return Err(at(NOT_A_LETTER, place)),
        }
    }
    match owed {
        0 => Ok(()),
        _ => Err(at(NOT_WHOLE, term.len())),
    }
}

fn number_of(letter: u8) -> Option<u8> {
    match letter {
        b'1'..=b'9' => Some(letter - b'0'),
        b'0' => Some(10),
        b'E' => Some(11),
        b'T' => Some(12),
        _ => None,
    }
}

/// The bells of a chain.
fn bells_of(term: &[u8]) -> Option<Vec<u8>> {
    let pairs = term.strip_suffix(b"I")?.chunks(2);
    pairs.map(|pair| if let [b'B', bell] = pair { number_of(*bell) } else { None }).collect()
}

/// The row of these bells, if each of them is in it once.
fn row_of(bells: &[u8]) -> Option<[u8; PLACES]> {
    let (mut row, mut seen) = ([0; PLACES], [false; PLACES + 1]);
    for (place, &bell) in bells.iter().enumerate() {
        if usize::from(bell) > bells.len() || seen[usize::from(bell)] {
            return None;
        }
        seen[usize::from(bell)] = true;
        row[place] = bell;
    }
    Some(row)
}

/// Rows as a Rust program would have them: an array for each, in a vector, and each compared with all before it.
fn plainly(term: &[u8], n: usize, table: &mut [u8]) -> Result<Rung, Refusal> {
    read(term)?;
    if !(FEWEST_BELLS..=MOST_BELLS).contains(&n) {
        return Err(without_place(NO_CHAIN));
    }
    let bells = bells_of(term).ok_or(without_place(NO_CHAIN))?;
    let count = bells.len() / n;
    if bells.len() % n > 0 || count > MOST_ROWS || count > table.len() / PLACES {
        return Err(without_place(NO_TABLE));
    }
    let mut rows: Vec<[u8; PLACES]> = Vec::with_capacity(count);
    let mut different = 0;
    for bells in bells.chunks(n) {
        let row = row_of(bells).ok_or(at(BAD_ROW, rows.len() + 1))?;
        different += usize::from(!rows.contains(&row));
        rows.push(row);
    }
    let (held, behind) = table.split_at_mut(PLACES * count);
    held.chunks_exact_mut(PLACES).zip(&rows).for_each(|(places, row)| places.copy_from_slice(row));
    behind.fill(0);
    Ok(Rung { rows: count, different })
}

/// A piece of rows, in a table of their own size.
struct Case {
    name: &'static str,
    bells: usize,
    rows: usize,
    different: usize,
    term: Vec<u8>,
}

/// The times of one case in nanoseconds: the engine, Rust, and reading alone in the engine.
#[derive(Clone, Copy)]
struct Times {
    engine: f64,
    rust: f64,
    reading: f64,
}

impl Case {
    fn new(name: &'static str, rows: Vec<Row>, different: usize) -> Case {
        Case { name, bells: rows[0].len(), rows: rows.len(), different, term: piece(&rows) }
    }

    /// Nanoseconds of one call.
    fn time(&self, ring: impl Fn(&[u8], usize, &mut [u8]) -> u64) -> f64 {
        let reply = pack(RUNG, self.rows as u64, self.different);
        batched::time(b"", PLACES * self.rows, |lent| {
            assert_eq!(ring(&self.term, self.bells, &mut lent.0), reply, "{}: the piece is rung", self.name);
        })
    }

    fn times(&self) -> Times {
        self.leave_the_same();
        let whole = placed(WHOLE, self.term.len());
        Times {
            engine: self.time(|term, n, table| Linked.rows(term, n, table)),
            rust: self.time(|term, n, table| of_rows(plainly(term, n, table))),
            reading: batched::time(b"", PLACES * self.rows, |_| {
                assert_eq!(Linked.read(&self.term), whole, "{}: the piece is read", self.name);
            }),
        }
    }

    /// Both leave the same bytes, whatever the table held, and refuse alike where a bell is left out.
    fn leave_the_same(&self) {
        let size = PLACES * self.rows + 5;
        let broken = [&self.term[..self.term.len() - 3], b"I"].concat();
        for term in [&self.term, &broken] {
            let mut tables = [vec![b'#'; size], vec![b'#'; size]];
            let engine = Linked.rows(term, self.bells, &mut tables[0]);
            assert_eq!(of_rows(plainly(term, self.bells, &mut tables[1])), engine, "{}: one reply", self.name);
            assert_eq!(tables[0], tables[1], "{}: both leave the same bytes", self.name);
        }
    }
}

/// Rows of twelve bells by their numbers, so many of them.
type Make = fn(usize) -> (Vec<Row>, usize);

/// Numbers so far apart that the first rows differ in their first bells; those side by side have five bells alike.
const FAR: usize = 479_001;

const SHAPES: [(&str, Make); 3] = [
    ("all different", |count| ((0..count).map(|number| row_at(12, FAR * number)).collect(), count)),
    ("all different, the first five bells alike", |count| {
        ((0..count).map(|number| row_at(12, number)).collect(), count)
    }),
    ("all equal", |count| (vec![row_at(12, FAR); count], 1)),
];

/// So many rows of each shape.
const COUNTS: [usize; 3] = [250, 500, 1_000];

fn row(case: &Case, now: Times, half: Option<Times>) -> Vec<String> {
    let microseconds = |time: f64| number(time / 1e3);
    let growth = |time: fn(Times) -> f64| half.map_or("-".to_string(), |half| number(time(now) / time(half)));
    vec![
        case.name.to_string(),
        case.bells.to_string(),
        case.rows.to_string(),
        case.term.len().to_string(),
        case.different.to_string(),
        microseconds(now.engine),
        microseconds(now.rust),
        number(now.engine / now.rust),
        microseconds(now.reading),
        number(now.reading / now.engine),
        growth(|times| times.engine),
        growth(|times| times.rust),
    ]
}

/// A shape with 250, 500 and 1,000 rows, and how the time grows from one to the next.
fn rows_of((name, make): (&'static str, Make)) -> Vec<Vec<String>> {
    let mut half = None;
    let mut rows = vec![];
    for count in COUNTS {
        let (all, different) = make(count);
        let case = Case::new(name, all, different);
        let times = case.times();
        rows.push(row(&case, times, half.replace(times)));
    }
    rows
}

pub fn table() -> Table {
    let small = [
        Case::new("one row", vec![row_at(8, 7)], 1),
        Case::new("each once", (0..24).map(|number| row_at(4, number)).collect(), 24),
    ];
    let small = small.into_iter().map(|case| row(&case, case.times(), None));
    Table::new(
        "Microseconds of one call for rows beside Rust that keeps them in a vector and compares each with all before it, \
         and of reading the piece alone; growth is from half as many rows",
        &[
            "rows",
            "bells",
            "number",
            "letters",
            "different",
            "engine",
            "Rust",
            "engine/Rust",
            "reading",
            "reading/engine",
            "growth: engine",
            "Rust",
        ],
        small.chain(SHAPES.into_iter().flat_map(rows_of)).collect(),
    )
}
