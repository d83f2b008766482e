//! The order: where the next step of a term is.

use crate::term::Term::{self, *};

/// The way from a term down to one of its parts; at each node, is it the second part?
pub type Way = Vec<bool>;

/// The way to the part that the next step rewrites; none for a normal term.
pub fn next_place(term: &Term) -> Option<Way> {
    let mut way = Vec::new();
    find(term, &mut way).then_some(way)
}

fn find(term: &Term, way: &mut Way) -> bool {
    match term {
        J | I | K(_) => false,
        R(t) => down(t, false, way),
        H(x, y) | A(x, y) | B(x, y) => down(x, false, way) || down(y, true, way),
        Apply(f, _) if f.is_application() => down(f, false, way),
        Apply(f, x) if matches!(**f, B(..)) && x.is_application() => down(x, true, way),
        Apply(..) => true,
    }
}

/// Looks for the next step in the part on this side.
fn down(part: &Term, second: bool, way: &mut Way) -> bool {
    way.push(second);
    let found = find(part, way);
    if !found {
        way.pop();
    }
    found
}

/// The part to which the way leads.
pub fn part_at<'a>(term: &'a mut Term, way: &[bool]) -> &'a mut Term {
    let mut part = term;
    for &second in way {
        part = part.part_mut(second).expect("the way leads to a part");
    }
    part
}
