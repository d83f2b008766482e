//! What joins do: 12 letters more; applied, one term after the other, in either grouping, and no more with `I`; not
//! applied, nothing.

use crate::join_tests::FRAME;
use crate::lent::{call, demand, demand_join, demand_read, Expected, Join};
use crate::random::Random;
use crate::reply::*;
use crate::result_tests::{demand_result, random_of_sizes};
use crate::step_tests::padded;
use crate::subject::Controller;
use crate::suite::{equal, equal_bytes, shown, Outcome, Suite};
use crate::terms::{joined, BELLS};
use second::anywhere::nearest_normal;
use second::comparing::Lent;
use second::finishing::MAX_FUEL;
use second::stepping::MAX_AREA;
use second::term::{a, apply, parse, Term};

/// The join of two texts as the subject itself makes it, in an area with some bytes more.
fn made_by(subject: &dyn Controller, f: &[u8], g: &[u8]) -> Result<Vec<u8>, String> {
    let size = f.len() + g.len() + FRAME;
    let mut area = vec![b'#'; size + 5];
    let reply = subject.join(f, g, &mut area);
    equal("reply", in_words(reply), in_words(pack(JOINED, 0, size)))?;
    equal_bytes("behind the join", &area[size..], &[0; 5])?;
    area.truncate(size);
    Ok(area)
}

/// The join has 12 letters more than its two terms, and reading finds it whole; in a byte less it has no room.
fn length(subject: &dyn Controller) -> Outcome {
    let mut random = Random::new(121);
    for _ in 0..4_000 {
        let [f, g] = [0; 2].map(|_| random_of_sizes(&mut random, 1, 60).text());
        let join = made_by(subject, &f, &g)?;
        demand_read(subject, &join, placed(WHOLE, f.len() + g.len() + FRAME))?;
        let short = Join { area: random.rubbish(join.len() - 1), f, g };
        demand_join(subject, &short, &(from_words("31@0", 0), short.area.clone()))?;
    }
    Ok(())
}

/// The text of a join applied to a term.
pub fn applied(join: &[u8], t: &[u8]) -> Vec<u8> {
    joined(&[b".", join, t])
}

/// Four small terms, among them many closures and many of one or two letters, so that most have a result.
pub fn some_terms(random: &mut Random) -> [Term; 4] {
    [0; 4].map(|_| match random.below(3) {
        0 => random_of_sizes(random, 1, 7),
        1 => a(random_of_sizes(random, 1, 3), random_of_sizes(random, 1, 5)),
        _ => random_of_sizes(random, 1, 2),
    })
}

/// The normal term that rules in any order lead to from `f` on `g` on .. `t`, if the search finds one.
pub fn result_of(terms: &[&Term]) -> Option<Term> {
    let (t, functions) = terms.split_last()?;
    let whole = functions.iter().rev().fold((*t).clone(), |so_far, f| apply((*f).clone(), so_far));
    nearest_normal(&whole, 400, 300).map(|found| found.term)
}

/// Tries a law on random terms; it says whether they have a result, and four in five of them must have one.
fn of_random_terms(seed: u64, tries: usize, law: impl Fn([Term; 4]) -> Result<bool, String>) -> Outcome {
    let mut random = Random::new(seed);
    let mut decided = 0;
    for _ in 0..tries {
        let terms = some_terms(&mut random);
        let texts = terms.each_ref().map(|term| shown(&term.text()));
        decided += usize::from(law(terms).map_err(|what| format!("{what}; of {texts:?}"))?);
    }
    equal(&format!("{decided} of {tries} have a result, four in five"), 5 * decided > 4 * tries, true)
}

/// The join of `f` and `g` on `t` is finished as `.f.gt`.
fn one_after_the_other(subject: &dyn Controller, [f, g, _, t]: [Term; 4]) -> Result<bool, String> {
    let Some(normal) = result_of(&[&f, &g, &t]) else { return Ok(false) };
    let join = made_by(subject, &f.text(), &g.text())?;
    demand_result(subject, &applied(&join, &t.text()), &normal, 0)?;
    Ok(true)
}

/// Both groupings of three terms, as the subject joins them.
pub fn groupings(subject: &dyn Controller, [f, g, h]: [&[u8]; 3]) -> Result<[Vec<u8>; 2], String> {
    let left = made_by(subject, &made_by(subject, f, g)?, h)?;
    let right = made_by(subject, f, &made_by(subject, g, h)?)?;
    Ok([left, right])
}

/// Both groupings on `t` are finished as `.f.g.ht`.
fn grouped_in_two_ways(subject: &dyn Controller, [f, g, h, t]: [Term; 4]) -> Result<bool, String> {
    let Some(normal) = result_of(&[&f, &g, &h, &t]) else { return Ok(false) };
    let [left, right] = groupings(subject, [&f.text(), &g.text(), &h.text()])?;
    demand_result(subject, &applied(&left, &t.text()), &normal, 0)?;
    demand_result(subject, &applied(&right, &t.text()), &normal, 0)?;
    Ok(true)
}

/// The joins of `f` with `I`, on either side, on `t` are finished as `.ft`.
fn with_identity(subject: &dyn Controller, [f, _, _, t]: [Term; 4]) -> Result<bool, String> {
    let Some(normal) = result_of(&[&f, &t]) else { return Ok(false) };
    for join in [made_by(subject, &f.text(), b"I")?, made_by(subject, b"I", &f.text())?] {
        demand_result(subject, &applied(&join, &t.text()), &normal, 0)?;
    }
    Ok(true)
}

/// What comparing two terms answers, with all the fuel and the room that there may be.
fn compared(subject: &dyn Controller, one: &[u8], two: &[u8]) -> u64 {
    let (mut first, mut second, mut work) = (padded(one, MAX_AREA), padded(two, MAX_AREA), vec![0; MAX_AREA]);
    let first = Lent { area: &mut first, length: one.len() };
    let second = Lent { area: &mut second, length: two.len() };
    subject.compare(first, second, &mut work, MAX_FUEL)
}

/// Demands what comparing answers.
fn demand_compared(subject: &dyn Controller, one: &[u8], two: &[u8], words: &str) -> Outcome {
    let found = equal("reply", in_words(compared(subject, one, two)), in_words(from_words(words, 0)));
    found.map_err(|what| format!("{what}; comparing {} and {}", shown(one), shown(two)))
}

/// Terms that differ in the grouping alone, or in joins with `I`, are the same by comparing once they are applied.
fn same_when_applied(subject: &dyn Controller, [f, g, h, t]: [Term; 4]) -> Result<bool, String> {
    if result_of(&[&f, &g, &h, &t]).is_none() {
        return Ok(false);
    }
    let [f, g, h, t] = [f, g, h, t].map(|term| term.text());
    let [left, right] = groupings(subject, [&f, &g, &h])?.map(|join| applied(&join, &t));
    demand_compared(subject, &left, &right, "same")?;
    let on_h = made_by(subject, &made_by(subject, &f, &g)?, &made_by(subject, &h, b"I")?)?;
    demand_compared(subject, &applied(&on_h, &t), &right, "same")?;
    Ok(true)
}

/// A random normal term.
fn random_normal(random: &mut Random) -> Vec<u8> {
    loop {
        let term = random_of_sizes(random, 1, 9);
        if term.is_normal() {
            return term.text();
        }
    }
}

/// Joins of normal terms are normal; so the groupings are different results, and so are a term and its joins with `I`.
fn different_unapplied(subject: &dyn Controller) -> Outcome {
    let mut random = Random::new(126);
    for _ in 0..500 {
        let [f, g, h] = [0; 3].map(|_| random_normal(&mut random));
        let [left, right] = groupings(subject, [&f, &g, &h])?;
        demand_compared(subject, &left, &right, "different")?;
        demand_compared(subject, &f, &made_by(subject, &f, b"I")?, "different")?;
        demand_compared(subject, &f, &made_by(subject, b"I", &f)?, "different")?;
        demand_compared(subject, &left, &left, "same")?;
        let call = call(&left, left.len());
        let expected =
            Expected { reply: pack(FINISHED, 0, left.len()), area: left, work: vec![0; call.work.len()] };
        demand(subject, &call, Some(0), &expected)?;
    }
    Ok(())
}

/// Bells one after another, joined from the left and from the right, on bell twelve: each is struck on the next.
fn many_bells(subject: &dyn Controller) -> Outcome {
    for count in [2, 3, 12, 30] {
        let bells: Vec<u8> = BELLS.iter().copied().cycle().take(count).collect();
        let (mut left, mut right) = (vec![bells[0]], vec![bells[count - 1]]);
        for place in 1..count {
            left = made_by(subject, &left, &bells[place..=place])?;
            right = made_by(subject, &bells[count - 1 - place..count - place], &right)?;
        }
        let struck: Vec<u8> = bells.iter().flat_map(|&bell| [b'H', bell]).chain([b'T']).collect();
        let normal = parse(&struck).expect("the text of a term");
        demand_result(subject, &applied(&left, b"T"), &normal, 0)?;
        demand_result(subject, &applied(&right, b"T"), &normal, 0)?;
    }
    Ok(())
}

/// What follows from what a join is, of joins that the subject itself makes.
pub fn made(suite: &mut Suite, label: &str, subject: impl Controller) {
    suite.test(&format!("{label} joining: 12 letters more, and read back whole"), || length(&subject));
    suite.test(&format!("{label} joining: g first, then f, searched in every order"), || {
        of_random_terms(122, 1_000, |terms| one_after_the_other(&subject, terms))
    });
    suite.test(&format!("{label} joining: both groupings applied, searched in every order"), || {
        of_random_terms(123, 1_000, |terms| grouped_in_two_ways(&subject, terms))
    });
    suite.test(&format!("{label} joining: with I on either side, searched in every order"), || {
        of_random_terms(124, 1_000, |terms| with_identity(&subject, terms))
    });
    suite.test(&format!("{label} joining: both groupings applied are the same by comparing"), || {
        of_random_terms(125, 300, |terms| same_when_applied(&subject, terms))
    });
    suite.test(&format!("{label} joining: normal terms not applied are different by comparing"), || {
        different_unapplied(&subject)
    });
    suite.test(&format!("{label} joining: up to 30 bells from the left and from the right"), || {
        many_bells(&subject)
    });
}
