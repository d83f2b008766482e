//! The small terms: every term of one size over the seven letters without bells.

use crate::term::{a, apply, b, h, r, Term};

/// The terms of this size, by the sizes of their parts: a letter that takes no term, `R` before a term, or one of the
/// letters that take two.
fn of_size(size: usize) -> Vec<Term> {
    match size {
        0 => vec![],
        1 => vec![Term::J, Term::I],
        _ => of_size(size - 1).into_iter().map(r).chain(of_two_parts(size - 1)).collect(),
    }
}

/// The terms whose first letter takes two, and whose parts have so many letters together.
fn of_two_parts(letters: usize) -> Vec<Term> {
    let mut found = vec![];
    for first in 1..letters {
        let (firsts, seconds) = (of_size(first), of_size(letters - first));
        for (x, y) in firsts.iter().flat_map(|x| seconds.iter().map(move |y| (x, y))) {
            found.extend([h, a, b, apply].map(|node| node(x.clone(), y.clone())));
        }
    }
    found
}

/// The texts of the terms of this size in byte order; none comes twice.
pub fn texts_of_size(size: usize) -> Vec<Vec<u8>> {
    let mut texts: Vec<Vec<u8>> = of_size(size).iter().map(Term::text).collect();
    texts.sort();
    let twice = texts.windows(2).find(|two| two[0] == two[1]);
    assert_eq!(twice, None, "a term comes once");
    texts
}
