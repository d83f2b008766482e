//! Joins: nanoseconds of a call beside one that copies bytes the way a Rust program does, and beside the second
//! implementation, which builds the join as a tree.

use crate::batched;
use crate::table::{number, Table};
use crate::terms::{AREA, LARGE, SMALL};
use engine::Linked;
use harness::reply::{pack, JOINED};
use harness::subject::Controller;
use harness::terms::{index, joined, repeated};
use second::joining::join_texts;
use second::reading::read;
use second::refusal::{without_place, Refusal, JOIN_TOO_LARGE};

/// The letters of a join beside those of its two terms.
const FRAME: usize = 12;

/// Joining as a Rust program would have it: both texts are read, room is looked for, and the pieces are copied.
fn copying(f: &[u8], g: &[u8], area: &mut [u8]) -> Result<usize, Refusal> {
    read(f)?;
    read(g)?;
    let size = f.len().checked_add(g.len()).and_then(|size| size.checked_add(FRAME));
    let Some(size) = size.filter(|&size| size <= area.len()) else { return Err(without_place(JOIN_TOO_LARGE)) };
    let mut place = 0;
    for piece in [b"AB", f, b"B", g, b"IHRJHRRJJ"] {
        area[place..place + piece.len()].copy_from_slice(piece);
        place += piece.len();
    }
    area[size..].fill(0);
    Ok(size)
}

/// Two terms to join, in an area of this size.
struct Case {
    name: &'static str,
    f: Vec<u8>,
    g: Vec<u8>,
    area: usize,
}

impl Case {
    fn size(&self) -> usize {
        self.f.len() + self.g.len() + FRAME
    }

    /// Nanoseconds of one call.
    fn time(&self, join: impl Fn(&[u8], &[u8], &mut [u8]) -> u64) -> f64 {
        let reply = pack(JOINED, 0, self.size());
        batched::time(b"", self.area, |lent| {
            assert_eq!(join(&self.f, &self.g, &mut lent.0), reply, "{}: the terms are joined", self.name);
        })
    }

    /// The times of the engine, of copying and of the tree.
    fn times(&self) -> [f64; 3] {
        self.leave_the_same();
        let told = |size: Result<usize, Refusal>| pack(JOINED, 0, size.expect("a case is not refused"));
        [
            self.time(|f, g, area| Linked.join(f, g, area)),
            self.time(|f, g, area| told(copying(f, g, area))),
            self.time(|f, g, area| told(join_texts(f, g, area))),
        ]
    }

    fn leave_the_same(&self) {
        let mut areas = [vec![b'#'; self.area], vec![b'#'; self.area]];
        Linked.join(&self.f, &self.g, &mut areas[0]);
        copying(&self.f, &self.g, &mut areas[1]).expect("a case is not refused");
        assert_eq!(areas[0], areas[1], "{}: both leave the same bytes", self.name);
    }
}

/// A term of so many letters, which is an odd number where its letters come in twos.
type Make = fn(usize) -> Vec<u8>;

const SHAPES: [(&str, Make); 4] = [
    ("R^k J", |letters| index(letters - 1)),
    ("(HJ)^k J", |letters| joined(&[&repeated("HJ", letters / 2), b"J"])),
    ("H^k J^(k+1)", |letters| joined(&[&repeated("H", letters / 2), &repeated("J", letters / 2 + 1)])),
    (".1 .2 .3 .., T", |letters| joined(&[&repeated(".1.2.3.4.5.6.7.8.9.0.E.T", letters / 24), b"T"])),
];

/// Small terms, in an area of the join's own size and in the largest that finishing takes.
fn small() -> Vec<Case> {
    let pairs =
        [("1 and 2", "1", "2"), ("AIJ and AIHJJ", "AIJ", "AIHJJ"), (".BII.JRJ twice", ".BII.JRJ", ".BII.JRJ")];
    let case = |(name, f, g): (&'static str, &str, &str), area: Option<usize>| {
        let (f, g) = (f.as_bytes().to_vec(), g.as_bytes().to_vec());
        Case { name, area: area.unwrap_or(f.len() + g.len() + FRAME), f, g }
    };
    pairs.into_iter().flat_map(|pair| [case(pair, None), case(pair, Some(AREA))]).collect()
}

/// A term of so many letters or nearly so, joined with itself.
fn with_itself(name: &'static str, make: Make, letters: usize, area: Option<usize>) -> Case {
    let text = make(letters);
    Case { name, area: area.unwrap_or(2 * text.len() + FRAME), g: text.clone(), f: text }
}

fn row(case: &Case, [engine, copying, tree]: [f64; 3], growth: [String; 2]) -> Vec<String> {
    let words = [case.name.to_string(), case.size().to_string(), case.area.to_string()];
    let times = [engine, copying, engine / copying, tree].map(number);
    words.into_iter().chain(times).chain(growth).collect()
}

fn none() -> [String; 2] {
    ["-", "-"].map(str::to_string)
}

/// A join of some 4,000 letters, one of some 16,000 with how the time grows, and two terms of 8,000 in 16,384 bytes.
fn rows_of((name, make): (&'static str, Make)) -> Vec<Vec<String>> {
    let [less, more] = [SMALL, LARGE].map(|letters| with_itself(name, make, (letters - FRAME) / 2, None));
    let two = with_itself(name, make, 8_000, Some(AREA));
    let (of_less, of_more) = (less.times(), more.times());
    let growth = [0, 1].map(|place| number(of_more[place] / of_less[place]));
    vec![row(&less, of_less, none()), row(&more, of_more, growth), row(&two, two.times(), none())]
}

pub fn table() -> Table {
    let small = small().into_iter().map(|case| row(&case, case.times(), none()));
    Table::new(
        "Nanoseconds of one call of joining beside Rust that copies bytes and Rust that builds a tree, calls timed in \
         batches; growth is from 4,000 letters to 16,000",
        &["terms", "letters", "area", "engine", "Rust", "engine/Rust", "Rust tree", "growth: engine", "Rust"],
        small.chain(SHAPES.into_iter().flat_map(rows_of)).collect(),
    )
}
