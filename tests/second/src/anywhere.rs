//! Rules used anywhere, in any order: what one use makes of a term, and the fewest uses that lead to a normal one.

use crate::rules::{contract, rule_of};
use crate::term::Term::{self, *};
use crate::term::{a, apply, b, h, r};
use std::collections::HashSet;

/// Every term that one use of a rule makes of this one, by the full stops that it is used at, leftmost first.
pub fn successors(term: &Term) -> Vec<Term> {
    let mut found: Vec<Term> = at_the_term(term).into_iter().collect();
    match term {
        J | I | K(_) => {}
        R(t) => found.extend(successors(t).into_iter().map(r)),
        H(x, y) => found.extend(below(x, y, h)),
        A(x, y) => found.extend(below(x, y, a)),
        B(x, y) => found.extend(below(x, y, b)),
        Apply(x, y) => found.extend(below(x, y, apply)),
    }
    found
}

/// What a rule makes of the whole term, if one fits.
fn at_the_term(term: &Term) -> Option<Term> {
    let Apply(f, x) = term else { return None };
    rule_of(f, x).map(|_| contract((**f).clone(), (**x).clone()))
}

/// The node of these two terms, after one use of a rule in the first or in the second.
fn below(x: &Term, y: &Term, node: fn(Term, Term) -> Term) -> Vec<Term> {
    let first = successors(x).into_iter().map(|x| node(x, y.clone()));
    let second = successors(y).into_iter().map(|y| node(x.clone(), y));
    first.chain(second).collect()
}

/// A normal term, and the fewest uses of rules that lead to it.
#[derive(Debug, PartialEq, Eq)]
pub struct Nearest {
    pub term: Term,
    pub changes: u64,
}

/// The normal term that the fewest uses of rules lead to, over terms of at most this size; the search is given
/// up where it has seen more terms than these.
pub fn nearest_normal(start: &Term, size: usize, terms: usize) -> Option<Nearest> {
    let mut seen = HashSet::from([start.text()]);
    let mut reached = vec![start.clone()];
    let mut changes = 0;
    while !reached.is_empty() && seen.len() <= terms {
        if let Some(term) = reached.iter().find(|term| term.is_normal()) {
            return Some(Nearest { term: term.clone(), changes });
        }
        let next = reached.iter().flat_map(successors).filter(|term| term.size() <= size);
        reached = next.filter(|term| seen.insert(term.text())).collect();
        changes += 1;
    }
    None
}
