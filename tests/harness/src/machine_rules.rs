//! Finishing where a batch of steps begins or ends with one rule.

use crate::lent::{call, demand_counted, predict_counted, Counted};
use crate::runs::{in_pairs, nested_uses, stretch, uses};
use crate::subject::Controller;
use crate::suite::{equal, Outcome, Suite};
use crate::terms::{joined, repeated};
use crate::wrong_batch::Slip;
use crate::wrong_batches::Batches;
use second::counting::{COUNTS_SIZE, RULES};
use second::finishing::MAX_FUEL;
use second::machine::Machine;
use second::stepping::{Next, Reducer, MAX_AREA};

/// For each rule a term in whose run it is used and whose result is `I`; a bell has none, since it stays.
const RETURNING: [&str; 11] = [
    ".BII.JJ",
    ".BIBII.RJJ",
    ".BII.HJJJ",
    ".AIJI",
    ".II",
    ".BIIJ",
    ".BJBIIRJ",
    ".BIIHJJ",
    "..BIIAIJI",
    ".BIII",
    "..BIIBJIJ",
];

/// The rule among other runs again and again, in front of it each time more or fewer letters: these are loaded too,
/// and so move the ends of batches.
fn texts(rule: usize) -> Vec<Vec<u8>> {
    let mut texts = vec![];
    let mut moved = |fronts: std::ops::Range<usize>, text: Vec<u8>| {
        texts.extend(fronts.map(|front| joined(&[&repeated("R", front), &text])));
    };
    if let Some(x) = RETURNING.get(rule - 1) {
        for (k, n) in [(2, 3), (9, 4), (3, 6)] {
            moved(0..13, uses(k, &uses(n, &uses(n, x.as_bytes()))));
        }
    }
    for (k, m) in [(6, 1), (9, 2), (12, 3), (7, 12)] {
        moved(0..13, in_pairs(k, &in_pairs(k, &stretch(rule, m))));
    }
    let run = joined(&[b"B", &nested_uses(5, 3), b"B", &stretch(rule, 20)]);
    moved(0..60, joined(&[&run.repeat(3), b"I"]));
    texts
}

fn one_rule(subject: &dyn Controller, rule: usize) -> Outcome {
    for text in texts(rule) {
        let counted = Counted { call: call(&text, MAX_AREA), fuel: MAX_FUEL, counts: vec![b'c'; COUNTS_SIZE] };
        demand_counted(subject, &counted, &predict_counted::<Machine>(&counted))?;
    }
    Ok(())
}

/// The rule of each step of a run.
fn rules_of(text: &[u8]) -> Vec<usize> {
    let mut reducer = Machine::start(text);
    let next = || match reducer.next(false, MAX_AREA) {
        Next::Stepped(rule) => Some(rule.into()),
        _ => None,
    };
    std::iter::from_fn(next).collect()
}

/// In the tests' own engine this rule is the last step of a batch, and the first of one, in one of the texts.
fn begins_and_ends(rule: usize) -> Outcome {
    let (mut first, mut last) = (0, 0);
    for text in texts(rule) {
        let rules = rules_of(&text);
        for made in (Batches { slip: Slip::Nothing }).ends(&text, MAX_AREA) {
            last += usize::from(rules[made - 1] == rule);
            first += usize::from(rules[made] == rule);
        }
    }
    equal(&format!("{first} batches begin with it and {last} end"), first > 0 && last > 0, true)
}

/// Calls whose replies the fast reducer predicts.
pub fn predicted(suite: &mut Suite, label: &str, subject: impl Controller) {
    for rule in 1..=RULES {
        let name = format!("{label} finishing: rule {rule} at the ends of batches");
        suite.test(&name, || one_rule(&subject, rule));
    }
}

/// What the terms are made for.
pub fn made(suite: &mut Suite) {
    for rule in 1..=RULES {
        let name = format!("self: rule {rule} begins and ends batches");
        suite.test(&name, || begins_and_ends(rule));
    }
}
