//! No result is overlooked: where rules in any order lead to a normal term, finishing does, with the fuel and the
//! area that the order's way to it takes and with any more.

use crate::changes::{backwards, forwards};
use crate::finish_tests::by_hand;
use crate::lent::{call, demand, predict_plain, Expected, Guarded};
use crate::random::Random;
use crate::reply::{code, in_words, pack, size, value, FINISHED, NO_ROOM, SPENT};
use crate::runs::{every_rule, in_pairs, nested_uses, swings};
use crate::step_tests::padded;
use crate::subject::Controller;
use crate::suite::{equal, shown, Outcome, Suite};
use crate::table::finishing::{no_result, results};
use crate::terms::{all_of_size, index, joined, random_of_size, repeated, twice_nested, TWO_BELLS};
use second::anywhere::nearest_normal;
use second::finishing::MAX_FUEL;
use second::plain::Plain;
use second::stepping::{Next, Reducer, MAX_AREA};
use second::term::{a, apply, b, parse, Term};

/// Fuels and areas of every size, none of which finishes `.AIHJJAIHJJ`.
fn never_finished(subject: &dyn Controller) -> Outcome {
    for area in [11, 12, 18, 19, 26, 27, 100, 1_000, MAX_AREA] {
        for fuel in [0, 1, 2, 3, 4, 5, 10, 100, 10_000, MAX_FUEL] {
            by_hand(subject, &no_result(area, fuel))?;
        }
    }
    Ok(())
}

/// Demands that the term is finished, with all fuel and room, as this normal term in no fewer steps than these.
pub fn demand_result(subject: &dyn Controller, text: &[u8], normal: &Term, fewest: u64) -> Outcome {
    let (call, normal) = (call(text, MAX_AREA), normal.text());
    let (mut area, mut work) = (Guarded::new(&call.area), Guarded::new(&call.work));
    let reply = subject.finish(area.area(), call.term, work.area(), MAX_FUEL);
    let (steps, finished) = (value(reply), pack(FINISHED, value(reply), normal.len()));
    let found = equal("reply", in_words(reply), in_words(finished))
        .and_then(|()| equal(&format!("{steps} steps are {fewest} or more"), steps >= fewest, true))
        .and_then(|()| area.expect("term area", &padded(&normal, MAX_AREA)))
        .and_then(|()| work.expect("work area", &[0; MAX_AREA]));
    found.map_err(|what| format!("{what}; on {}", shown(text)))
}

/// Each of the terms for which a search in every order finds a normal term is finished as that; how many are.
fn searched(subject: &dyn Controller, terms: impl Iterator<Item = Term>) -> Result<usize, String> {
    let mut decided = 0;
    for term in terms {
        let Some(found) = nearest_normal(&term, MAX_AREA, 300) else { continue };
        decided += 1;
        demand_result(subject, &term.text(), &found.term, found.changes)?;
    }
    Ok(decided)
}

/// None of the terms is without a normal one; how many there are is reckoned by hand.
fn small_terms(subject: &dyn Controller) -> Outcome {
    let decided = searched(subject, (1..=7).flat_map(|size| all_of_size(size, TWO_BELLS)))?;
    equal("terms decided, all of them", decided, 127_196)
}

fn larger_terms(subject: &dyn Controller) -> Outcome {
    let mut random = Random::new(91);
    let decided = searched(subject, (0..2_000).map(|_| random_of_sizes(&mut random, 8, 20)))?;
    equal("more than 1,800 terms were decided", decided > 1_800, true)
}

/// A random term with `.AIHJJAIHJJ`, which has no result, in a pair or as an argument: it may be dropped.
fn beside_no_result(random: &mut Random) -> Term {
    let endless = || parse(b".AIHJJAIHJJ").expect("the text of a term");
    let (s, t) = (random_of_sizes(random, 1, 4), random_of_sizes(random, 1, 8));
    match random.below(3) {
        0 => apply(b(endless(), s), t),
        1 => apply(b(s, endless()), t),
        _ => apply(a(s, t), endless()),
    }
}

fn parts_without_result(subject: &dyn Controller) -> Outcome {
    let mut random = Random::new(92);
    let decided = searched(subject, (0..300).map(|_| beside_no_result(&mut random)))?;
    equal("more than 100 terms were decided", decided > 100, true)
}

/// A random term of a size between these.
pub fn random_of_sizes(random: &mut Random, low: usize, high: usize) -> Term {
    let size = random.between(low, high);
    random_of_size(random, size)
}

/// The normal term that rules at random places lead to, if they soon do.
fn at_random(random: &mut Random, start: &Term) -> Option<Term> {
    let mut term = start.clone();
    let mut left = 60;
    while left > 0 && term.size() < 500 && forwards(random, &mut term) {
        left -= 1;
    }
    term.is_normal().then_some(term)
}

/// Random terms are finished as the normal term that rules at random places lead to.
fn in_any_order(subject: &dyn Controller) -> Outcome {
    let mut random = Random::new(93);
    let mut decided = 0;
    for _ in 0..4_000 {
        let start = random_of_sizes(&mut random, 3, 20);
        let Some(normal) = at_random(&mut random, &start).filter(|_| !start.is_normal()) else { continue };
        decided += 1;
        demand_result(subject, &start.text(), &normal, 1)?;
    }
    equal("more than 2,000 terms were decided", decided > 2_000, true)
}

/// A term that can be turned into this one, by rules used backwards and now and then forwards.
pub fn turned(random: &mut Random, normal: &Term) -> Term {
    let mut term = normal.clone();
    for _ in 0..random.between(1, 12) {
        match random.once_in(4) {
            true => drop(forwards(random, &mut term)),
            false => backwards(random, &mut term),
        }
    }
    term
}

/// A term turned from a normal one is finished as that one.
fn turned_from_normal(subject: &dyn Controller) -> Outcome {
    let mut random = Random::new(98);
    let mut tried = 0;
    for _ in 0..4_000 {
        let normal = random_of_sizes(&mut random, 1, 12);
        if normal.is_normal() {
            let text = turned(&mut random, &normal).text();
            demand_result(subject, &text, &normal, 0)?;
            tried += 1;
        }
    }
    equal("more than 1,000 terms were tried", tried > 1_000, true)
}

/// The fuel and the area of a call.
#[derive(Clone, Copy)]
struct Bounds {
    fuel: u64,
    area: usize,
}

/// What a run ends with: its outcome's code, its steps, and the term reached.
struct End {
    code: u64,
    steps: u64,
    term: Vec<u8>,
}

impl End {
    fn reply(&self) -> u64 {
        pack(self.code, self.steps, self.term.len())
    }
}

/// Demands that a run ends so, and every lent byte.
fn demand_end(subject: &dyn Controller, text: &[u8], bounds: Bounds, end: &End) -> Outcome {
    let call = call(text, bounds.area);
    let (area, work) = (padded(&end.term, bounds.area), vec![0; bounds.area]);
    demand(subject, &call, Some(bounds.fuel), &Expected { reply: end.reply(), area, work })
}

/// What a run of the plain reducer ends with.
fn plain_end(text: &[u8], bounds: Bounds) -> End {
    let Expected { reply, mut area, .. } = predict_plain(&call(text, bounds.area), Some(bounds.fuel));
    area.truncate(size(reply));
    End { code: code(reply), steps: value(reply), term: area }
}

/// The order's way from a term to its result: the text of each term on it, the first and the last among them.
struct Way {
    texts: Vec<Vec<u8>>,
}

impl Way {
    /// The way from this term, if it is one of at most 2,000 steps over terms of at most 2,000 letters.
    fn from(term: Term) -> Option<Self> {
        let mut plain = Plain { term };
        let mut texts = vec![plain.text()];
        while texts.len() <= 2_001 {
            match plain.next(false, 2_000) {
                Next::Normal => return Some(Way { texts }),
                Next::Stepped(_) => texts.push(plain.text()),
                _ => return None,
            }
        }
        None
    }

    fn first(&self) -> &[u8] {
        &self.texts[0]
    }

    /// The count of its steps, and the least area for them: room for each of its terms.
    fn takes(&self) -> Bounds {
        let area = self.texts.iter().map(Vec::len).max().unwrap_or(0);
        Bounds { fuel: self.texts.len() as u64 - 1, area }
    }

    /// A run that ends with this code after these steps.
    fn end(&self, code: u64, steps: u64) -> End {
        End { code, steps, term: self.texts[steps as usize].clone() }
    }
}

/// Finished with the fuel and the area that the way takes, and in the same way with any more.
fn enough(subject: &dyn Controller, random: &mut Random, way: &Way) -> Outcome {
    let Bounds { fuel, area } = way.takes();
    let end = way.end(FINISHED, fuel);
    for fuel in [fuel, fuel + 1, fuel + random.between(2, 50) as u64, MAX_FUEL] {
        for area in [area, area + 1, area + random.between(2, 300)] {
            demand_end(subject, way.first(), Bounds { fuel, area }, &end)?;
        }
    }
    demand_end(subject, way.first(), Bounds { fuel, area: MAX_AREA }, &end)
}

/// Spent with less fuel than the way takes, in every area that has room for it.
fn too_little_fuel(subject: &dyn Controller, random: &mut Random, way: &Way) -> Outcome {
    let Bounds { fuel, area } = way.takes();
    for fuel in [fuel - 1, random.below(fuel as usize) as u64] {
        for area in [area, area + 1, area + random.between(2, 300)] {
            demand_end(subject, way.first(), Bounds { fuel, area }, &way.end(SPENT, fuel))?;
        }
    }
    Ok(())
}

/// No room in an area that is a byte short, ahead of the first term that it has no room for; spent as long as the
/// fuel does not go so far.
fn too_little_room(subject: &dyn Controller, random: &mut Random, way: &Way) -> Outcome {
    let Bounds { fuel, area } = way.takes();
    let before = way.texts.iter().position(|text| text.len() == area).unwrap_or(0) as u64 - 1;
    for fuel in [before + 1, fuel, fuel + random.between(1, 50) as u64, MAX_FUEL] {
        demand_end(subject, way.first(), Bounds { fuel, area: area - 1 }, &way.end(NO_ROOM, before))?;
    }
    demand_end(subject, way.first(), Bounds { fuel: before, area: area - 1 }, &way.end(SPENT, before))
}

/// The fuel and the area that the way takes, more, and less of either; does the term grow?
fn about(subject: &dyn Controller, random: &mut Random, way: &Way) -> Result<bool, String> {
    let grows = way.takes().area > way.first().len();
    enough(subject, random, way)?;
    too_little_fuel(subject, random, way)?;
    if grows {
        too_little_room(subject, random, way)?;
    }
    Ok(grows)
}

fn random_ways(subject: &dyn Controller) -> Outcome {
    let mut random = Random::new(94);
    let (mut ways, mut growing) = (0, 0);
    for _ in 0..4_000 {
        let term = random_of_sizes(&mut random, 3, 60);
        let Some(way) = Way::from(term).filter(|way| way.takes().fuel > 0) else { continue };
        growing += usize::from(about(subject, &mut random, &way)?);
        ways += 1;
    }
    equal("more than 2,000 terms have a result", ways > 2_000, true)?;
    equal("more than 300 of them grow", growing > 300, true)
}

/// A pair pushed into k frozen applications: the term grows by its letters k times.
fn pushed_in(k: usize) -> Vec<u8> {
    joined(&[b".B", &index(20), b"I", &repeated("H", k), &repeated("1", k + 1)])
}

/// Terms that take hundreds of steps, or many times the room of the first term.
fn long_ways(subject: &dyn Controller) -> Outcome {
    let mut random = Random::new(97);
    let nested = [twice_nested(2), twice_nested(5), nested_uses(2, 5), swings(9, &nested_uses(1, 4))];
    let wide = [in_pairs(40, &nested_uses(1, 3)), every_rule(9), pushed_in(5), pushed_in(40), pushed_in(70)];
    for text in nested.into_iter().chain(wide) {
        let term = parse(&text).expect("the text of a term");
        let way = Way::from(term).ok_or_else(|| format!("{} has no way", shown(&text)))?;
        about(subject, &mut random, &way)?;
    }
    Ok(())
}

/// More of what did not run out.
fn with_more(random: &mut Random, bounds: Bounds, code: u64) -> Vec<Bounds> {
    let more = |fuel, area| Bounds { fuel: bounds.fuel + fuel as u64, area: bounds.area + area };
    let (fuel, area) = (random.between(1, 60), random.between(1, 600));
    match code {
        SPENT => vec![more(0, 1), more(0, area), Bounds { area: MAX_AREA, ..bounds }],
        NO_ROOM => vec![more(1, 0), more(fuel, 0), Bounds { fuel: MAX_FUEL, ..bounds }],
        _ => vec![more(1, 0), more(0, 1), more(fuel, area), Bounds { fuel: MAX_FUEL, area: MAX_AREA }],
    }
}

/// A random term of up to 60 letters, and bounds of which either may be short for it.
fn random_run(random: &mut Random) -> (Vec<u8>, Bounds) {
    let text = random_of_sizes(random, 3, 60).text();
    let (fuel, room) = (random.below(12) as u64, *random.pick(&[0, 1, 4, 8, 30, 200]));
    let area = text.len() + room;
    (text, Bounds { fuel, area })
}

/// More of what did not run out changes nothing.
fn more_of_what_is_left(subject: &dyn Controller) -> Outcome {
    let mut random = Random::new(95);
    let mut ended = [0; 3];
    for _ in 0..5_000 {
        let (text, bounds) = random_run(&mut random);
        let end = plain_end(&text, bounds);
        demand_end(subject, &text, bounds, &end)?;
        for bounds in with_more(&mut random, bounds, end.code) {
            demand_end(subject, &text, bounds, &end)?;
        }
        ended[(end.code - FINISHED) as usize] += 1;
    }
    equal("each outcome more than 300 times", ended.iter().all(|&runs| runs > 300), true)
}

/// A run's term, moved into a larger area with the fuel that is left, ends as one run in that area, counts added.
fn moved_into_larger_areas(subject: &dyn Controller) -> Outcome {
    let mut random = Random::new(96);
    let mut gone_on = [0; 3];
    for _ in 0..4_000 {
        let (text, few) = random_run(&mut random);
        let many = Bounds { fuel: few.fuel + random.below(200) as u64, area: few.area + random.below(1_000) };
        let (first, whole) = (plain_end(&text, few), plain_end(&text, many));
        demand_end(subject, &text, few, &first)?;
        demand_end(subject, &text, many, &whole)?;
        let rest = End { steps: whole.steps - first.steps, ..whole };
        demand_end(subject, &first.term, Bounds { fuel: many.fuel - first.steps, ..many }, &rest)?;
        gone_on[(first.code - FINISHED) as usize] += usize::from(rest.steps > 0 && rest.code == FINISHED);
    }
    equal("more than 100 spent runs went on to a result", gone_on[1] > 100, true)?;
    equal("more than 100 runs without room went on to a result", gone_on[2] > 100, true)
}

/// Runs whose ends are written by hand.
pub fn known(suite: &mut Suite, label: &str, subject: impl Controller) {
    for row in results() {
        suite.test(&format!("{label} results: {}", row.name), || by_hand(&subject, &row));
    }
    suite.test(&format!("{label} results: .AIHJJAIHJJ has none, whatever the fuel and the area"), || {
        never_finished(&subject)
    });
}

/// Terms whose results follow from rules used in any order.
pub fn made(suite: &mut Suite, label: &str, subject: impl Controller) {
    suite.test(&format!("{label} results: every term of up to 7 letters, searched in every order"), || {
        small_terms(&subject)
    });
    suite.test(&format!("{label} results: random terms, searched in every order"), || larger_terms(&subject));
    suite.test(&format!("{label} results: beside parts without a result, searched in every order"), || {
        parts_without_result(&subject)
    });
    suite.test(&format!("{label} results: random terms, in random orders"), || in_any_order(&subject));
    suite.test(&format!("{label} results: terms turned from normal ones"), || turned_from_normal(&subject));
}

/// Runs whose fuel and area the plain reducer predicts.
pub fn predicted(suite: &mut Suite, label: &str, subject: impl Controller) {
    suite.test(&format!("{label} results: random terms at the fuel and the area that they take"), || {
        random_ways(&subject)
    });
    suite.test(&format!("{label} results: long ways at the fuel and the area that they take"), || {
        long_ways(&subject)
    });
    suite.test(&format!("{label} results: more of what did not run out"), || more_of_what_is_left(&subject));
    suite.test(&format!("{label} results: terms moved into larger areas"), || moved_into_larger_areas(&subject));
}
