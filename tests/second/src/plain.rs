//! The plain reducer: a tree, searched from its root for each step.

use crate::order::{next_place, part_at, Way};
use crate::rules::{contract, growth, rule_of};
use crate::stepping::{Next, Reducer};
use crate::term::parse;
use crate::term::Term::{self, *};

pub struct Plain {
    pub term: Term,
}

/// Rewrites the application at the end of the way, and answers the rule's number.
pub fn rewrite_at(term: &mut Term, way: &[bool]) -> Option<u8> {
    let part = part_at(term, way);
    let Apply(f, x) = part else { return None };
    let rule = rule_of(f, x)?;
    let Apply(f, x) = std::mem::replace(part, J) else { return None };
    *part = contract(*f, *x);
    Some(rule)
}

impl Plain {
    /// The size of the term after a step at the end of the way, if that is a larger one.
    fn size_if_larger(&mut self, way: &Way) -> usize {
        let Apply(f, x) = part_at(&mut self.term, way) else { return 0 };
        let more = growth(f, x);
        if more == 0 {
            return 0;
        }
        self.term.size() + more
    }
}

impl Reducer for Plain {
    fn start(text: &[u8]) -> Self {
        Plain { term: parse(text).expect("the text was read") }
    }

    fn next(&mut self, spent: bool, area: usize) -> Next {
        let Some(way) = next_place(&self.term) else { return Next::Normal };
        if spent {
            return Next::Spent;
        }
        if self.size_if_larger(&way) > area {
            return Next::NoRoom;
        }
        let rule = rewrite_at(&mut self.term, &way);
        Next::Stepped(rule.expect("a rule fits at the next place"))
    }

    fn text(&self) -> Vec<u8> {
        self.term.text()
    }
}
