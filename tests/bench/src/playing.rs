//! A book as a Rust program would play it: a map from names to lines, the parts of each line in a vector, and results one
//! behind the other in another. Each name is looked up once; a line without a full stop is its own result. In the place
//! of the map a vector may stand that is searched from its start, as the engine searches.

use second::book::{Played, LONGEST_NAME, MAX_BOOK, MAX_LINES, STORE_SIZE};
use second::finishing::{run, Outcome, MAX_FUEL};
use second::machine::Machine;
use second::refusal::*;
use second::stepping::{store, Reducer, MAX_AREA};
use std::collections::HashMap;

/// Letters between uses, and the line that a use stands for, if there is one.
enum Part<'a> {
    Letters(&'a [u8]),
    Use(Option<usize>),
}

type Line<'a> = Vec<Part<'a>>;

/// The names of the lines so far.
pub trait Names<'a>: Default {
    fn line_of(&self, name: &[u8]) -> Option<usize>;
    fn give(&mut self, name: &'a [u8], line: usize);
}

pub type Mapped<'a> = HashMap<&'a [u8], usize>;

impl<'a> Names<'a> for Mapped<'a> {
    fn line_of(&self, name: &[u8]) -> Option<usize> {
        self.get(name).copied()
    }

    fn give(&mut self, name: &'a [u8], line: usize) {
        self.insert(name, line);
    }
}

/// Each name as a number, in the order of the lines.
pub type Searched = Vec<u64>;

fn as_number(name: &[u8]) -> u64 {
    name.iter().fold(0, |number, &letter| number << 8 | u64::from(letter))
}

impl Names<'_> for Searched {
    fn line_of(&self, name: &[u8]) -> Option<usize> {
        let wanted = as_number(name);
        self.iter().position(|&number| number == wanted)
    }

    fn give(&mut self, name: &[u8], _line: usize) {
        self.push(as_number(name));
    }
}

fn is_name(bytes: &[u8]) -> bool {
    (1..=LONGEST_NAME).contains(&bytes.len()) && bytes.iter().all(u8::is_ascii_lowercase)
}

/// The name in front of the first closing bracket.
fn closed_name(bytes: &[u8]) -> Option<&[u8]> {
    let end = bytes.iter().take(LONGEST_NAME + 1).position(|&byte| byte == b')')?;
    Some(&bytes[..end]).filter(|name| is_name(name))
}

/// The parts of one whole term with uses.
fn parts_of<'a>(piece: &'a [u8], names: &impl Names<'a>) -> Option<Line<'a>> {
    let (mut parts, mut owed, mut place, mut start) = (vec![], 1usize, 0, 0);
    while place < piece.len() {
        if owed == 0 {
            return None;
        }
        match piece[place] {
            b'(' => {
                let name = closed_name(&piece[place + 1..])?;
                parts.extend([Part::Letters(&piece[start..place]), Part::Use(names.line_of(name))]);
                place += name.len() + 1;
                start = place + 1;
                owed -= 1;
            }
            b'J' | b'I' | b'0'..=b'9' | b'E' | b'T' => owed -= 1,
            b'R' => (),
            b'H' | b'A' | b'B' | b'.' => owed += 1,
            _ => return None,
        }
        place += 1;
    }
    parts.push(Part::Letters(&piece[start..]));
    (owed == 0).then_some(parts)
}

/// The name and the parts of a line behind so many, or the number of its first fault.
fn read_line<'a>(bytes: &'a [u8], count: usize, names: &impl Names<'a>) -> Result<(&'a [u8], Line<'a>), u8> {
    let tab = bytes.iter().position(|&byte| byte == b'\t').ok_or(BAD_BOOK_LINE)?;
    let (name, piece) = (&bytes[..tab], &bytes[tab + 1..]);
    if count == MAX_LINES || !is_name(name) {
        return Err(BAD_BOOK_LINE);
    }
    let parts = parts_of(piece, names).ok_or(BAD_BOOK_LINE)?;
    if names.line_of(name).is_some() {
        return Err(NAME_TAKEN);
    }
    match parts.iter().any(|part| matches!(part, Part::Use(None))) {
        true => Err(NAME_UNKNOWN),
        false => Ok((name, parts)),
    }
}

fn read_book<'a, N: Names<'a>>(book: &'a [u8]) -> Result<Vec<Line<'a>>, Refusal> {
    if book.len() > MAX_BOOK {
        return Err(without_place(FILE_TOO_LARGE));
    }
    let Some((&last, all)) = book.split_last() else { return Err(without_place(FILE_EMPTY)) };
    if last != b'\n' {
        return Err(without_place(NO_LAST_LINE_FEED));
    }
    let (mut names, mut lines) = (N::default(), vec![]);
    for bytes in all.split(|&byte| byte == b'\n') {
        let (name, line) = read_line(bytes, lines.len(), &names).map_err(|number| at(number, lines.len() + 1))?;
        names.give(name, lines.len());
        lines.push(line);
    }
    Ok(lines)
}

/// The results so far, one behind the other, and where each ends.
struct Results {
    letters: Vec<u8>,
    ends: Vec<usize>,
}

impl Results {
    fn of(&self, line: usize) -> &[u8] {
        let start = if line == 0 { 0 } else { self.ends[line - 1] };
        &self.letters[start..self.ends[line]]
    }

    /// The term that a line becomes, if it has room.
    fn replaced(&self, line: &Line, area: usize) -> Option<Vec<u8>> {
        let mut text = vec![];
        for part in line {
            let letters = match part {
                Part::Letters(letters) => letters,
                Part::Use(used) => self.of(used.expect("a line that was read")),
            };
            if letters.len() > area - text.len() {
                return None;
            }
            text.extend_from_slice(letters);
        }
        Some(text)
    }
}

/// The result of a term, by the fast reducer where it has a full stop.
fn result_of(text: Vec<u8>, area: usize, fuel: u64) -> Result<Vec<u8>, Outcome> {
    if !text.contains(&b'.') {
        return Ok(text);
    }
    let mut machine = Machine::start(&text);
    match run(&mut machine, area, fuel, |_| ()) {
        (Outcome::Finished, _) => Ok(machine.text()),
        (other, _) => Err(other),
    }
}

/// The result of the last line, or the first line that did not finish and how it ended.
fn play_lines(lines: &[Line], area: usize, fuel: u64) -> Result<Vec<u8>, (Outcome, usize)> {
    let mut results = Results { letters: vec![], ends: vec![] };
    let mut last = vec![];
    for (number, line) in (1..).zip(lines) {
        let text = results.replaced(line, area).ok_or((Outcome::NoRoom, number))?;
        last = result_of(text, area, fuel).map_err(|outcome| (outcome, number))?;
        if last.len() > STORE_SIZE - results.letters.len() {
            return Err((Outcome::NoRoom, number));
        }
        results.letters.extend_from_slice(&last);
        results.ends.push(results.letters.len());
    }
    Ok(last)
}

pub fn plainly<'a, N: Names<'a>>(
    book: &'a [u8],
    area: &mut [u8],
    work: &mut [u8],
    lent: &mut [u8],
    fuel: u64,
) -> Result<Played, Refusal> {
    if area.len() > MAX_AREA {
        return Err(without_place(AREA_TOO_LARGE));
    }
    if work.len() < area.len() || lent.len() < STORE_SIZE {
        return Err(without_place(LENT_TOO_SHORT));
    }
    if fuel > MAX_FUEL {
        return Err(without_place(FUEL_TOO_LARGE));
    }
    let lines = read_book::<N>(book)?;
    let played = play_lines(&lines, area.len(), fuel);
    work.fill(0);
    lent[..STORE_SIZE].fill(0);
    store(played.as_deref().unwrap_or(&[]), area);
    let length = played.as_ref().map_or(0, Vec::len);
    let (outcome, line) = played.map_or_else(|ended| ended, |_| (Outcome::Finished, lines.len()));
    Ok(Played { outcome, line, length })
}
