//! Terms as trees, and their text in prefix form.

use crate::bell::Bell;
use crate::reading::read;
use crate::refusal::Refusal;

#[derive(Clone, Debug, PartialEq, Eq, PartialOrd, Ord)]
pub enum Term {
    J,
    R(Box<Term>),
    H(Box<Term>, Box<Term>),
    /// A closure: environment, then body.
    A(Box<Term>, Box<Term>),
    I,
    B(Box<Term>, Box<Term>),
    /// A bell, written with its own letter.
    K(Bell),
    /// An application, written with a full stop.
    Apply(Box<Term>, Box<Term>),
}

use Term::*;

/// How many terms a letter takes; none for a byte that is no letter.
pub fn arity(letter: u8) -> Option<usize> {
    match letter {
        b'J' | b'I' => Some(0),
        b'R' => Some(1),
        b'H' | b'A' | b'B' | b'.' => Some(2),
        _ => Bell::of(letter).map(|_| 0),
    }
}

pub fn r(t: Term) -> Term {
    R(Box::new(t))
}
pub fn h(r: Term, t: Term) -> Term {
    H(Box::new(r), Box::new(t))
}
pub fn a(s: Term, t: Term) -> Term {
    A(Box::new(s), Box::new(t))
}
pub fn b(u: Term, s: Term) -> Term {
    B(Box::new(u), Box::new(s))
}
pub fn apply(f: Term, x: Term) -> Term {
    Apply(Box::new(f), Box::new(x))
}

impl Term {
    /// The term's first letter.
    pub fn letter(&self) -> u8 {
        match self {
            J => b'J',
            R(_) => b'R',
            H(..) => b'H',
            A(..) => b'A',
            I => b'I',
            B(..) => b'B',
            K(bell) => bell.letter(),
            Apply(..) => b'.',
        }
    }

    /// The terms that the first letter takes, from left to right.
    pub fn parts(&self) -> [Option<&Term>; 2] {
        match self {
            J | I | K(_) => [None, None],
            R(t) => [Some(t), None],
            H(x, y) | A(x, y) | B(x, y) | Apply(x, y) => [Some(x), Some(y)],
        }
    }

    /// The part on the given side, to be changed where it stands.
    pub fn part_mut(&mut self, second: bool) -> Option<&mut Term> {
        match self {
            J | I | K(_) => None,
            R(t) => (!second).then_some(t),
            H(x, y) | A(x, y) | B(x, y) | Apply(x, y) => Some(if second { y } else { x }),
        }
    }

    /// The number of letters.
    pub fn size(&self) -> usize {
        1 + self.parts().into_iter().flatten().map(Term::size).sum::<usize>()
    }

    /// Is there no full stop in the term?
    pub fn is_normal(&self) -> bool {
        self.letter() != b'.' && self.parts().into_iter().flatten().all(Term::is_normal)
    }

    pub fn is_application(&self) -> bool {
        self.letter() == b'.'
    }

    /// Adds the term's text behind `text`.
    pub fn write(&self, text: &mut Vec<u8>) {
        text.push(self.letter());
        for part in self.parts().into_iter().flatten() {
            part.write(text);
        }
    }

    pub fn text(&self) -> Vec<u8> {
        let mut text = Vec::new();
        self.write(&mut text);
        text
    }
}

/// The term of which `text` is the text.
pub fn parse(text: &[u8]) -> Result<Term, Refusal> {
    read(text)?;
    let mut terms = Vec::new();
    for &letter in text.iter().rev() {
        let whole = node(letter, &mut terms);
        terms.push(whole);
    }
    Ok(terms.pop().expect("a text that was read holds one term"))
}

/// The term with this first letter whose parts stand last in `terms`, the first part on top.
pub fn node(letter: u8, terms: &mut Vec<Term>) -> Term {
    let mut part = || terms.pop().expect("a text that was read holds each letter's parts");
    match letter {
        b'J' => J,
        b'R' => r(part()),
        b'H' => h(part(), part()),
        b'A' => a(part(), part()),
        b'I' => I,
        b'B' => b(part(), part()),
        b'.' => apply(part(), part()),
        _ => K(Bell::of(letter).expect("a text that was read has no other letters")),
    }
}
