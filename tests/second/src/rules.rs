//! The thirteen rules with their numbers (REQUIREMENTS, Rules).

use crate::term::Term::{self, *};
use crate::term::{a, apply, b, h};

/// The number of the rule that fits the application of `f` to `x`, if one does.
pub fn rule_of(f: &Term, x: &Term) -> Option<u8> {
    match (f, x) {
        (J, _) => Some(1),
        (R(_), _) => Some(2),
        (H(..), _) => Some(3),
        (A(..), _) => Some(4),
        (I, _) => Some(5),
        (B(..), J) => Some(6),
        (B(..), R(_)) => Some(7),
        (B(..), H(..)) => Some(8),
        (B(..), A(..)) => Some(9),
        (B(..), I) => Some(10),
        (B(..), B(..)) => Some(11),
        (K(_), _) => Some(12),
        (B(..), K(_)) => Some(13),
        (B(..), Apply(..)) | (Apply(..), _) => None,
    }
}

/// By how many letters the rule that fits makes the term larger; 0 if it does not.
pub fn growth(f: &Term, x: &Term) -> usize {
    match rule_of(f, x) {
        Some(8 | 11) => 1 + f.size(),
        _ => 0,
    }
}

/// What the rule that fits gives; the application itself where none fits.
pub fn contract(f: Term, x: Term) -> Term {
    match (f, x) {
        (J, t) => h(J, t),
        (R(t), u) => h(R(t), u),
        (H(r, t), u) => h(H(r, t), u),
        (A(s, t), u) => apply(b(u, *s), *t),
        (I, t) => t,
        (B(u, _), J) => *u,
        (B(_, s), R(t)) => apply(*s, *t),
        (B(u, s), H(r, t)) => apply(apply(B(u.clone(), s.clone()), *r), apply(B(u, s), *t)),
        (B(u, s), A(r, t)) => a(apply(B(u, s), *r), *t),
        (B(..), I) => I,
        (B(u, s), B(r, t)) => b(apply(B(u.clone(), s.clone()), *r), apply(B(u, s), *t)),
        (K(k), t) => h(K(k), t),
        (B(..), K(k)) => K(k),
        (f, x) => apply(f, x),
    }
}
