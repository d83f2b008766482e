//! Books: lines that give names to terms, in which uses of earlier lines stand; played from the first to the last.

use crate::finish_line::refused;
use crate::finishing::{run, Outcome, MAX_FUEL};
use crate::refusal::*;
use crate::stepping::{store, Reducer, MAX_AREA};
use crate::term::{arity, node, parse, Term};
use std::collections::BTreeMap;

pub const MAX_BOOK: usize = 65_536;
pub const MAX_LINES: usize = 256;
pub const STORE_SIZE: usize = 65_536;
pub const LONGEST_NAME: usize = 8;

type Name = Vec<u8>;
type Results = BTreeMap<Name, Term>;

/// The term of a line: a tree like any term, with uses among its leaves.
enum Piece {
    Use(Name),
    /// A letter, and what it takes.
    Node(u8, Vec<Piece>),
}

struct Line {
    name: Name,
    piece: Piece,
}

/// How a book ended: at which line, and the size of the result that it leaves.
#[derive(Clone, Copy, Debug, PartialEq, Eq)]
pub struct Played {
    pub outcome: Outcome,
    pub line: usize,
    pub length: usize,
}

impl Piece {
    /// The piece that starts these bytes, and what is behind it.
    fn first_of(bytes: &[u8]) -> Option<(Piece, &[u8])> {
        let (&first, behind) = bytes.split_first()?;
        if first == b'(' {
            let end = behind.iter().position(|&byte| byte == b')')?;
            return Some((Piece::Use(name(&behind[..end])?), &behind[end + 1..]));
        }
        let (mut parts, mut left) = (vec![], behind);
        for _ in 0..arity(first)? {
            let (part, behind) = Piece::first_of(left)?;
            parts.push(part);
            left = behind;
        }
        Some((Piece::Node(first, parts), left))
    }

    /// Is every name that it uses a known one?
    fn uses_only(&self, known: &dyn Fn(&Name) -> bool) -> bool {
        match self {
            Piece::Use(name) => known(name),
            Piece::Node(_, parts) => parts.iter().all(|part| part.uses_only(known)),
        }
    }

    /// The size of the term that it becomes.
    fn size(&self, results: &Results) -> usize {
        match self {
            Piece::Use(name) => results[name].size(),
            Piece::Node(_, parts) => 1 + parts.iter().map(|part| part.size(results)).sum::<usize>(),
        }
    }

    /// The term that it becomes, a result in the place of each use.
    fn replaced(&self, results: &Results) -> Term {
        match self {
            Piece::Use(name) => results[name].clone(),
            Piece::Node(letter, parts) => {
                let mut terms: Vec<Term> = parts.iter().rev().map(|part| part.replaced(results)).collect();
                node(*letter, &mut terms)
            }
        }
    }
}

/// The name that these bytes are.
fn name(bytes: &[u8]) -> Option<Name> {
    let good = (1..=LONGEST_NAME).contains(&bytes.len()) && bytes.iter().all(u8::is_ascii_lowercase);
    good.then(|| bytes.to_vec())
}

/// A name, a tab and a piece.
fn line(bytes: &[u8]) -> Option<Line> {
    let tab = bytes.iter().position(|&byte| byte == b'\t')?;
    let (piece, behind) = Piece::first_of(&bytes[tab + 1..])?;
    behind.is_empty().then_some(Line { name: name(&bytes[..tab])?, piece })
}

/// A line behind these, or the number of its first fault.
fn good_line(bytes: &[u8], earlier: &[Line]) -> Result<Line, u8> {
    let known = |name: &Name| earlier.iter().any(|line| line.name == *name);
    let line = line(bytes).filter(|_| earlier.len() < MAX_LINES).ok_or(BAD_BOOK_LINE)?;
    if known(&line.name) {
        return Err(NAME_TAKEN);
    }
    if !line.piece.uses_only(&known) {
        return Err(NAME_UNKNOWN);
    }
    Ok(line)
}

/// The lines of a book, or 10, 11, 12, or 25, 26 or 27 at the first line at fault.
fn lines_of(book: &[u8]) -> Result<Vec<Line>, Refusal> {
    if book.len() > MAX_BOOK {
        return Err(without_place(FILE_TOO_LARGE));
    }
    let Some((&last, all)) = book.split_last() else { return Err(without_place(FILE_EMPTY)) };
    if last != b'\n' {
        return Err(without_place(NO_LAST_LINE_FEED));
    }
    let mut lines = vec![];
    for bytes in all.split(|&byte| byte == b'\n') {
        let line = good_line(bytes, &lines).map_err(|number| at(number, lines.len() + 1))?;
        lines.push(line);
    }
    Ok(lines)
}

/// The refusals 1, 2 and 4.
fn refuse_lent(area: usize, work: usize, store: usize, fuel: u64) -> Result<(), Refusal> {
    if area > MAX_AREA {
        return Err(without_place(AREA_TOO_LARGE));
    }
    if work < area || store < STORE_SIZE {
        return Err(without_place(LENT_TOO_SHORT));
    }
    if fuel > MAX_FUEL {
        return Err(without_place(FUEL_TOO_LARGE));
    }
    Ok(())
}

/// The result of a piece in an area of this size, or how it ended without one.
fn result_of<R: Reducer>(piece: &Piece, results: &Results, area: usize, fuel: u64) -> Result<Term, Outcome> {
    if piece.size(results) > area {
        return Err(Outcome::NoRoom);
    }
    let mut reducer = R::start(&piece.replaced(results).text());
    match run(&mut reducer, area, fuel, |_| ()) {
        (Outcome::Finished, _) => Ok(parse(&reducer.text()).expect("a result is a term")),
        (other, _) => Err(other),
    }
}

/// The result of the last line; or the first line without a result that fits, and how it ended.
fn play_lines<R: Reducer>(lines: &[Line], area: usize, fuel: u64) -> Result<Term, (Outcome, usize)> {
    let (mut results, mut letters, mut last) = (Results::new(), 0, Term::J);
    for (number, line) in (1..).zip(lines) {
        last = result_of::<R>(&line.piece, &results, area, fuel).map_err(|outcome| (outcome, number))?;
        letters += last.size();
        if letters > STORE_SIZE {
            return Err((Outcome::NoRoom, number));
        }
        results.insert(line.name.clone(), last.clone());
    }
    Ok(last)
}

/// Plays a book. What is kept of it until the end is kept apart from what is lent, which is zeros but for the result.
pub fn play<R: Reducer>(
    book: &[u8],
    area: &mut [u8],
    work: &mut [u8],
    lent: &mut [u8],
    fuel: u64,
) -> Result<Played, Refusal> {
    refuse_lent(area.len(), work.len(), lent.len(), fuel)?;
    let lines = lines_of(book)?;
    let played = play_lines::<R>(&lines, area.len(), fuel);
    work.fill(0);
    lent[..STORE_SIZE].fill(0);
    let text = played.as_ref().map_or(vec![], Term::text);
    store(&text, area);
    let (outcome, line) = played.map_or_else(|ended| ended, |_| (Outcome::Finished, lines.len()));
    Ok(Played { outcome, line, length: text.len() })
}

/// What the playing program prints.
pub fn play_program<R: Reducer>(input: &[u8]) -> Vec<u8> {
    let (mut area, mut work, mut lent) = (vec![0; MAX_AREA], vec![0; MAX_AREA], vec![0; STORE_SIZE]);
    let played = match play::<R>(input, &mut area, &mut work, &mut lent, MAX_FUEL) {
        Ok(played) => played,
        Err(refusal) => return refused(refusal),
    };
    let line = played.line;
    match played.outcome {
        Outcome::Finished => [format!("finished\t{line}\t").as_bytes(), &area[..played.length], b"\n"].concat(),
        Outcome::Spent => format!("spent\t{line}\n").into_bytes(),
        Outcome::NoRoom => format!("no room\t{line}\n").into_bytes(),
    }
}
