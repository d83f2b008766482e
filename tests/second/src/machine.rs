//! The fast reducer: it stays at the place of the last step instead of searching from the root.
//!
//! Nodes are never changed once made, so parts may be shared: a step rewrites one part only.

use crate::stepping::{Next, Reducer};
use crate::term::arity;

type Id = u32;

#[derive(Clone, Copy)]
struct Node {
    letter: u8,
    size: u32,
    first: Id,
    second: Id,
}

/// One application around the place of the next step.
#[derive(Clone, Copy)]
enum Frame {
    /// The place is the function; this is the argument.
    Function(Id),
    /// The place is the argument; this is the function, a pair.
    Argument(Id),
}

/// What stands at the place.
#[derive(Clone, Copy)]
enum Focus {
    /// Nothing is left at this place.
    Nothing,
    /// A term that was not looked at.
    Term(Id),
    /// An application to which a rule fits: its function and its argument.
    Redex(Id, Id),
}

/// The term is: `done`, the frames around the focus, then `pending` from its end to its start.
pub struct Machine {
    nodes: Vec<Node>,
    done: Vec<u8>,
    frames: Vec<Frame>,
    focus: Focus,
    pending: Vec<Id>,
    size: usize,
    most_nodes: usize,
}

/// With this many nodes for each letter at the start, the term is built again from its text.
const MANY: usize = 8;
/// A text shorter than this counts as one of this length.
const SHORT: usize = 256;

impl Machine {
    fn letter(&self, id: Id) -> u8 {
        self.nodes[id as usize].letter
    }

    fn size_of(&self, id: Id) -> usize {
        self.nodes[id as usize].size as usize
    }

    fn parts(&self, id: Id) -> (Id, Id) {
        let node = self.nodes[id as usize];
        (node.first, node.second)
    }

    fn node(&mut self, letter: u8, size: usize, first: Id, second: Id) -> Id {
        self.nodes.push(Node { letter, size: size as u32, first, second });
        (self.nodes.len() - 1) as Id
    }

    /// A node that takes two terms.
    fn pair(&mut self, letter: u8, first: Id, second: Id) -> Id {
        let size = 1 + self.size_of(first) + self.size_of(second);
        self.node(letter, size, first, second)
    }

    /// Builds the nodes of a text, from its end to its start.
    fn build(&mut self, text: &[u8]) -> Id {
        let mut terms = Vec::new();
        for &letter in text.iter().rev() {
            let id = match arity(letter) {
                Some(0) => self.node(letter, 1, 0, 0),
                Some(1) => {
                    let t = terms.pop().expect("a part");
                    self.node(letter, 1 + self.size_of(t), t, t)
                }
                _ => {
                    let x = terms.pop().expect("a first part");
                    let y = terms.pop().expect("a second part");
                    self.pair(letter, x, y)
                }
            };
            terms.push(id);
        }
        terms.pop().expect("one term")
    }

    /// The focus on the application of f to x: moves down until a rule fits.
    fn enter(&mut self, mut f: Id, mut x: Id) -> Focus {
        loop {
            if self.letter(f) == b'.' {
                self.frames.push(Frame::Function(x));
                (f, x) = self.parts(f);
            } else if self.letter(f) == b'B' && self.letter(x) == b'.' {
                self.frames.push(Frame::Argument(f));
                (f, x) = self.parts(x);
            } else {
                return Focus::Redex(f, x);
            }
        }
    }

    /// Moves up from a term that is no application.
    fn leave(&mut self, id: Id) -> Focus {
        match self.frames.pop() {
            Some(Frame::Function(x)) => self.enter(id, x),
            Some(Frame::Argument(f)) => Focus::Redex(f, id),
            None => {
                self.emit(id);
                Focus::Nothing
            }
        }
    }

    /// Puts a first letter, which no later step changes, behind those done.
    fn emit(&mut self, id: Id) {
        let letter = self.letter(id);
        let (first, second) = self.parts(id);
        self.done.push(letter);
        match arity(letter) {
            Some(1) => self.pending.push(first),
            Some(2) => self.pending.extend([second, first]),
            _ => {}
        }
    }

    /// Moves to the next redex; none is left in a normal term.
    fn settle(&mut self) -> Option<(Id, Id)> {
        loop {
            self.focus = match self.focus {
                Focus::Redex(f, x) => return Some((f, x)),
                Focus::Term(id) if self.letter(id) == b'.' => {
                    let (f, x) = self.parts(id);
                    self.enter(f, x)
                }
                Focus::Term(id) => self.leave(id),
                Focus::Nothing => Focus::Term(self.pending.pop()?),
            };
        }
    }

    /// Rewrites the redex, in room that is known to suffice; answers the rule's number.
    fn contract(&mut self, f: Id, x: Id) -> u8 {
        let (first, second) = self.parts(f);
        match self.letter(f) {
            b'J' => self.freeze(f, x, 1),
            b'R' => self.freeze(f, x, 2),
            b'H' => self.freeze(f, x, 3),
            b'A' => {
                let substitution = self.pair(b'B', x, first);
                self.focus = self.enter(substitution, second);
                4
            }
            b'I' => {
                self.size -= 2;
                self.focus = Focus::Term(x);
                5
            }
            b'B' => self.substitute(f, x),
            _ => self.freeze(f, x, 12),
        }
    }

    /// Rules 1 to 3, and 12.
    fn freeze(&mut self, f: Id, x: Id, rule: u8) -> u8 {
        let frozen = self.pair(b'H', f, x);
        self.focus = Focus::Term(frozen);
        rule
    }

    /// Rules 6 to 11, and 13, of a pair f.
    fn substitute(&mut self, f: Id, x: Id) -> u8 {
        let (u, s) = self.parts(f);
        let (first, second) = self.parts(x);
        match self.letter(x) {
            b'J' => {
                self.size -= 3 + self.size_of(s);
                self.focus = Focus::Term(u);
                6
            }
            b'R' => {
                self.size -= 2 + self.size_of(u);
                self.focus = self.enter(s, first);
                7
            }
            b'H' => {
                self.size += 1 + self.size_of(f);
                let argument = self.pair(b'.', f, second);
                self.frames.push(Frame::Function(argument));
                self.focus = self.enter(f, first);
                8
            }
            b'A' => {
                let environment = self.pair(b'.', f, first);
                let closure = self.pair(b'A', environment, second);
                self.focus = Focus::Term(closure);
                9
            }
            b'I' => {
                self.size -= 1 + self.size_of(f);
                self.focus = Focus::Term(x);
                10
            }
            b'B' => {
                self.size += 1 + self.size_of(f);
                let (one, two) = (self.pair(b'.', f, first), self.pair(b'.', f, second));
                let whole = self.pair(b'B', one, two);
                self.focus = Focus::Term(whole);
                11
            }
            _ => {
                self.size -= 1 + self.size_of(f);
                self.focus = Focus::Term(x);
                13
            }
        }
    }

    /// Does the rule for this redex make the term larger than the area?
    fn is_without_room(&self, f: Id, x: Id, area: usize) -> bool {
        self.letter(f) == b'B' && matches!(self.letter(x), b'H' | b'B') && self.size + 1 + self.size_of(f) > area
    }

    fn write(&self, id: Id, text: &mut Vec<u8>) {
        let mut left = vec![id];
        while let Some(id) = left.pop() {
            let letter = self.letter(id);
            let (first, second) = self.parts(id);
            text.push(letter);
            match arity(letter) {
                Some(1) => left.push(first),
                Some(2) => left.extend([second, first]),
                _ => {}
            }
        }
    }

    fn write_focus(&self, text: &mut Vec<u8>) {
        match self.focus {
            Focus::Nothing => {}
            Focus::Term(id) => self.write(id, text),
            Focus::Redex(f, x) => {
                text.push(b'.');
                self.write(f, text);
                self.write(x, text);
            }
        }
    }
}

impl Reducer for Machine {
    fn start(text: &[u8]) -> Self {
        let (nodes, done) = (Vec::with_capacity(text.len()), Vec::with_capacity(text.len()));
        let (frames, pending, focus) = (Vec::new(), Vec::new(), Focus::Nothing);
        let (size, most_nodes) = (text.len(), MANY * text.len().max(SHORT));
        let mut machine = Machine { nodes, done, frames, focus, pending, size, most_nodes };
        let root = machine.build(text);
        machine.focus = Focus::Term(root);
        machine
    }

    fn next(&mut self, spent: bool, area: usize) -> Next {
        let Some((f, x)) = self.settle() else { return Next::Normal };
        if spent {
            return Next::Spent;
        }
        if self.is_without_room(f, x, area) {
            return Next::NoRoom;
        }
        let rule = self.contract(f, x);
        if self.nodes.len() > self.most_nodes {
            *self = Machine::start(&self.text());
        }
        Next::Stepped(rule)
    }

    fn text(&self) -> Vec<u8> {
        let mut text = self.done.clone();
        for frame in &self.frames {
            text.push(b'.');
            if let Frame::Argument(f) = frame {
                self.write(*f, &mut text);
            }
        }
        self.write_focus(&mut text);
        for frame in self.frames.iter().rev() {
            if let Frame::Function(x) = frame {
                self.write(*x, &mut text);
            }
        }
        for id in self.pending.iter().rev() {
            self.write(*id, &mut text);
        }
        text
    }
}
