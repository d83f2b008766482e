//! Joining: two terms as one that, applied, does the second first and the first on what comes of that.

use crate::refusal::*;
use crate::stepping::store;
use crate::term::{a, b, h, parse, r, Term};

/// Index i.
fn index(i: usize) -> Term {
    (0..i).fold(Term::J, |below, _| r(below))
}

/// A closure that finds `f` and `g` in its environment, behind its argument.
pub fn join(f: Term, g: Term) -> Term {
    let environment = b(f, b(g, Term::I));
    let [argument, first, second] = [0, 1, 2].map(index);
    a(environment, h(first, h(second, argument)))
}

/// Stores the join of the terms with these texts; its size, or the refusal of the first text, of the second, or 31.
pub fn join_texts(f: &[u8], g: &[u8], area: &mut [u8]) -> Result<usize, Refusal> {
    let f = parse(f)?;
    let g = parse(g)?;
    let text = join(f, g).text();
    if text.len() > area.len() {
        return Err(without_place(JOIN_TOO_LARGE));
    }
    store(&text, area);
    Ok(text.len())
}
