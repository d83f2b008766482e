//! A batch of steps on cells, with a slip planted: the term is loaded, reduced and written back.
//!
//! A cell is written once. Letters in front of the outermost application are shed as they become final. A batch ends
//! where its arena is full, where the term would have more letters than the arena is for, and where the run ends.

use second::counting::Counts;
use second::finishing::Outcome;
use second::term::arity;

/// What is wrong with a batch, or with how batches make up a run.
#[derive(Clone, Copy, PartialEq, Eq)]
pub enum Slip {
    Nothing,
    StepPastTheFuel,
    StepPastTheArena,
    SharedCellRewritten,
    RoomForTheRedexAlone,
    RoomWithoutShedLetters,
    LetterShedTooEarly,
    PendingInTheOtherOrder,
    ArenaTakenForTheArea,
    CountsOfTheLastBatch,
    StepsOfTheLastBatch,
    FuelForEachBatch,
    LettersLeftBehind,
}

#[derive(Clone, Copy)]
struct Cell {
    letter: u8,
    first: usize,
    second: usize,
    size: usize,
}

/// What stands around the part in focus, or behind it.
#[derive(Clone, Copy)]
enum Link {
    Behind(usize),
    /// The part is the function of the application in the first cell, the second its argument.
    Function(usize, usize),
    /// The part is the argument of the application in the first cell, the second its function, a pair.
    Argument(usize, usize),
}

/// The cells of an application, of its function and of its argument.
#[derive(Clone, Copy)]
struct Redex {
    whole: usize,
    f: usize,
    x: usize,
}

/// Why a batch ends.
#[derive(Clone, Copy, PartialEq)]
pub enum End {
    Run(Outcome),
    Full,
    Outgrown,
}

/// What bounds a batch: the fuel, the bytes of the area, and the letters that the arena is for.
pub struct Bounds {
    pub fuel: u64,
    pub area: usize,
    pub letters: usize,
}

impl Bounds {
    /// The cells that may be taken: five of eight, where four are for each letter.
    fn cells(&self) -> usize {
        self.letters * 4 / 8 * 5
    }
}

pub struct Batch {
    slip: Slip,
    cells: Vec<Cell>,
    links: Vec<Link>,
    /// The cells taken by links: those of a link that is gone stay taken.
    linked: usize,
    focus: Option<usize>,
    shed: Vec<u8>,
    size: usize,
}

impl Batch {
    pub fn load(text: &[u8], slip: Slip) -> Self {
        let size = text.len();
        let (cells, links, shed) = (vec![], vec![], vec![]);
        let mut batch = Batch { slip, cells, links, linked: 0, focus: None, shed, size };
        let mut parts = vec![];
        for &letter in text.iter().rev() {
            let arity = arity(letter).unwrap_or(0);
            let first = if arity > 0 { parts.pop() } else { None };
            let second = if arity > 1 { parts.pop() } else { None };
            parts.push(batch.cell(letter, first, second));
        }
        batch.focus = parts.pop();
        batch
    }

    fn cell(&mut self, letter: u8, first: Option<usize>, second: Option<usize>) -> usize {
        let size = 1 + [first, second].into_iter().flatten().map(|part| self.cells[part].size).sum::<usize>();
        self.cells.push(Cell { letter, first: first.unwrap_or(0), second: second.unwrap_or(0), size });
        self.cells.len() - 1
    }

    /// The cell of a letter that takes two terms.
    fn node(&mut self, letter: u8, first: usize, second: usize) -> usize {
        self.cell(letter, Some(first), Some(second))
    }

    fn link(&mut self, link: Link) {
        self.links.push(link);
        self.linked += 1;
    }

    /// Puts the first letter of a part behind those shed; the part behind it comes into focus.
    fn shed(&mut self, part: usize) {
        let cell = self.cells[part];
        self.shed.push(cell.letter);
        self.focus = Some(cell.first);
        match arity(cell.letter) {
            Some(1) => {}
            Some(2) => self.link(Link::Behind(cell.second)),
            _ => {
                self.focus = match self.links.pop() {
                    Some(Link::Behind(next)) => Some(next),
                    _ => None,
                }
            }
        }
    }

    /// Moves to the next redex; none is left in a normal term.
    fn redex(&mut self) -> Option<Redex> {
        loop {
            let part = self.focus?;
            let cell = self.cells[part];
            match self.links.last().copied() {
                _ if cell.letter == b'.' => {
                    self.link(Link::Function(part, cell.second));
                    self.focus = Some(cell.first);
                }
                Some(Link::Function(whole, x)) if cell.letter == b'B' && self.cells[x].letter == b'.' => {
                    self.links.pop();
                    self.link(Link::Argument(whole, part));
                    self.focus = Some(x);
                }
                Some(Link::Function(whole, x)) => return Some(Redex { whole, f: part, x }),
                Some(Link::Argument(whole, f)) => return Some(Redex { whole, f, x: part }),
                _ => self.shed(part),
            }
        }
    }

    /// By how many letters a step makes the term larger.
    fn growth(&self, redex: Redex) -> usize {
        let [f, x] = [redex.f, redex.x].map(|part| self.cells[part]);
        match f.letter == b'B' && matches!(x.letter, b'H' | b'B') {
            true => 1 + f.size,
            false => 0,
        }
    }

    /// The letters after a step, as the room that they need is reckoned.
    fn letters_after(&self, redex: Redex) -> usize {
        let own = 1 + self.cells[redex.f].size + self.cells[redex.x].size;
        let now = match self.slip {
            Slip::RoomForTheRedexAlone => own,
            Slip::RoomWithoutShedLetters => self.size - self.shed.len(),
            _ => self.size,
        };
        now + self.growth(redex)
    }

    /// What ends the batch before this step, if anything does.
    fn end(&self, redex: Redex, made: u64, bounds: &Bounds) -> Option<End> {
        if made == bounds.fuel {
            return Some(End::Run(Outcome::Spent));
        }
        if self.letters_after(redex) > bounds.area {
            return Some(End::Run(Outcome::NoRoom));
        }
        if self.size + self.growth(redex) > bounds.letters {
            return Some(match self.slip {
                Slip::ArenaTakenForTheArea => End::Run(Outcome::NoRoom),
                _ => End::Outgrown,
            });
        }
        (self.cells.len() + self.linked >= bounds.cells()).then_some(End::Full)
    }

    /// Makes steps until the batch ends; answers why, and how many.
    pub fn run(&mut self, bounds: &Bounds, counts: &mut Counts) -> (End, u64) {
        let mut made = 0;
        loop {
            let Some(redex) = self.redex() else { return (End::Run(Outcome::Finished), made) };
            if let Some(end) = self.end(redex, made, bounds) {
                let past = match self.slip {
                    Slip::StepPastTheFuel => end == End::Run(Outcome::Spent),
                    Slip::StepPastTheArena => end == End::Full,
                    _ => false,
                };
                if past && self.letters_after(redex) <= bounds.area {
                    self.step(redex);
                }
                return (end, made);
            }
            counts[self.step(redex) - 1] += 1;
            made += 1;
        }
    }

    /// Makes the step at this redex; answers the rule's number.
    fn step(&mut self, redex: Redex) -> usize {
        let own = 1 + self.cells[redex.f].size + self.cells[redex.x].size;
        let (rule, result) = self.contract(redex.f, redex.x);
        self.links.pop();
        self.focus = Some(result);
        self.size = (self.size + self.cells[result].size).saturating_sub(own);
        if self.slip == Slip::SharedCellRewritten {
            self.cells[redex.whole] = self.cells[result];
        }
        rule
    }

    /// What the rule for an application gives, with the rule's number.
    fn contract(&mut self, f: usize, x: usize) -> (usize, usize) {
        let Cell { letter, first, second, .. } = self.cells[f];
        match letter {
            b'A' => {
                let pair = self.node(b'B', x, first);
                (4, self.node(b'.', pair, second))
            }
            b'I' => (5, x),
            b'B' => self.substitute(f, x),
            b'J' => (1, self.node(b'H', f, x)),
            b'R' => (2, self.node(b'H', f, x)),
            b'H' => (3, self.node(b'H', f, x)),
            _ => (12, self.node(b'H', f, x)),
        }
    }

    /// Rules 6 to 11, and 13, of a pair.
    fn substitute(&mut self, pair: usize, x: usize) -> (usize, usize) {
        let (u, s) = (self.cells[pair].first, self.cells[pair].second);
        let Cell { letter, first, second, .. } = self.cells[x];
        match letter {
            b'J' => (6, u),
            b'R' => (7, self.node(b'.', s, first)),
            b'H' | b'B' => {
                let (one, two) = (self.node(b'.', pair, first), self.node(b'.', pair, second));
                match letter {
                    b'H' => (8, self.node(b'.', one, two)),
                    _ => (11, self.node(b'B', one, two)),
                }
            }
            b'A' => {
                let environment = self.node(b'.', pair, first);
                (9, self.node(b'A', environment, second))
            }
            b'I' => (10, x),
            _ => (13, x),
        }
    }

    /// The letter of the innermost application around a part.
    fn closing_letter(&self, part: usize) -> u8 {
        let outermost = matches!(self.links.last(), None | Some(Link::Behind(_)));
        let freezes = !matches!(self.cells[part].letter, b'A' | b'I' | b'B' | b'.');
        match self.slip == Slip::LetterShedTooEarly && outermost && freezes {
            true => b'H',
            false => b'.',
        }
    }

    /// The text of the term reached: what was shed, the part in focus with what is around it, and what is behind.
    pub fn text(mut self) -> Vec<u8> {
        let mut parts = vec![];
        while let Some(link) = self.links.pop() {
            let part = self.focus.expect("a part stands before a link");
            self.focus = Some(match link {
                Link::Function(_, x) => {
                    let letter = self.closing_letter(part);
                    self.node(letter, part, x)
                }
                Link::Argument(_, f) => self.node(b'.', f, part),
                Link::Behind(next) => {
                    parts.push(part);
                    next
                }
            });
        }
        parts.extend(self.focus);
        if let (Slip::PendingInTheOtherOrder, Some(behind)) = (self.slip, parts.get_mut(1..)) {
            behind.reverse();
        }
        let mut text = std::mem::take(&mut self.shed);
        parts.into_iter().for_each(|part| self.write(part, &mut text));
        text
    }

    fn write(&self, part: usize, text: &mut Vec<u8>) {
        let mut left = vec![part];
        while let Some(part) = left.pop() {
            let cell = self.cells[part];
            text.push(cell.letter);
            match arity(cell.letter) {
                Some(1) => left.push(cell.first),
                Some(2) => left.extend([cell.second, cell.first]),
                _ => {}
            }
        }
    }
}
