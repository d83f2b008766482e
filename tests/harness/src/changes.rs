//! One change, as 'Turning' says: a part that is either side of a rule becomes the other side.

use crate::random::Random;
use crate::terms::random_of_size;
use second::order::{part_at, Way};
use second::plain::rewrite_at;
use second::term::Term::{self, *};
use second::term::{a, apply, b, h, r};

/// The way to every part of a term, the term itself first.
pub fn ways(term: &Term) -> Vec<Way> {
    let mut found = vec![];
    let mut left = vec![(term, vec![])];
    while let Some((part, way)) = left.pop() {
        for (side, inner) in part.parts().into_iter().enumerate() {
            let Some(inner) = inner else { continue };
            let mut longer = way.clone();
            longer.push(side == 1);
            left.push((inner, longer));
        }
        found.push(way);
    }
    found
}

/// Uses a rule forwards on a random part, if one fits anywhere.
pub fn forwards(random: &mut Random, term: &mut Term) -> bool {
    let mut ways = ways(term);
    random.shuffle(&mut ways);
    ways.iter().any(|way| rewrite_at(term, way).is_some())
}

/// Uses a rule backwards on a random part.
pub fn backwards(random: &mut Random, term: &mut Term) {
    let ways = ways(term);
    let way: &Way = random.pick(&ways);
    let part = part_at(term, way);
    let before = left_sides(random, part);
    *part = random.pick(&before).clone();
}

fn small(random: &mut Random) -> Term {
    let size = random.between(1, 4);
    random_of_size(random, size)
}

/// Left sides of rules whose right side is this term, with small terms put for what the rule drops.
fn left_sides(random: &mut Random, term: &Term) -> Vec<Term> {
    let mut found = vec![apply(I, term.clone()), apply(b(term.clone(), small(random)), J)];
    match term {
        H(f, x) if matches!(**f, J | R(_) | H(..) | K(_)) => found.push(Apply(f.clone(), x.clone())),
        I | K(_) => found.push(apply(b(small(random), small(random)), term.clone())),
        A(s, t) => found.extend(before_closure(s, t)),
        B(x, y) => found.extend(before_distribution(x, y, b)),
        Apply(x, y) => {
            found.push(apply(b(small(random), (**x).clone()), r((**y).clone())));
            found.extend(before_distribution(x, y, h));
            found.extend(before_substitution(x, y));
        }
        _ => {}
    }
    found
}

/// Rule 4 backwards.
fn before_substitution(function: &Term, t: &Term) -> Option<Term> {
    let B(u, s) = function else { return None };
    Some(apply(a((**s).clone(), t.clone()), (**u).clone()))
}

/// Rule 9 backwards.
fn before_closure(environment: &Term, body: &Term) -> Option<Term> {
    let Apply(pair, r) = environment else { return None };
    matches!(**pair, B(..)).then(|| apply((**pair).clone(), a((**r).clone(), body.clone())))
}

/// Rules 8 and 11 backwards.
fn before_distribution(x: &Term, y: &Term, node: fn(Term, Term) -> Term) -> Option<Term> {
    let (Apply(one, r), Apply(two, t)) = (x, y) else { return None };
    let fits = one == two && matches!(**one, B(..));
    fits.then(|| apply((**one).clone(), node((**r).clone(), (**t).clone())))
}
