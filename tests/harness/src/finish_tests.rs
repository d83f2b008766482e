//! Finishing: the table, every small term, random and damaged ones, in several areas and fuels.

use crate::damage::damaged;
use crate::lent::{agree, demand, predict_fast, predict_plain, Call, Expected, Guarded};
use crate::random::Random;
use crate::reply::{code, from_words, in_words, pack, size, value, SPENT};
use crate::step_tests::{call_on, padded};
use crate::subject::Controller;
use crate::suite::{equal, shown, Outcome, Suite};
use crate::table::finishing::{examples, long_rows, refused_rows, rows, RefusedRow, Row};
use crate::terms::{random_of_size, texts_of_size, twice_nested, LETTERS, NO_BELLS};

/// Demands what a row says, and every lent byte.
pub fn by_hand(subject: &dyn Controller, row: &Row) -> Outcome {
    let mut area = row.term.clone();
    area.resize(row.area, b'#');
    let call = Call { term: row.term.len(), work: vec![b'w'; area.len() + 2], area };
    let reply = from_words(&row.reply, row.after.len());
    let expected = match row.reply.contains('@') {
        true => Expected { reply, area: call.area.clone(), work: call.work.clone() },
        false => Expected { reply, area: padded(&row.after, call.area.len()), work: vec![0; call.work.len()] },
    };
    demand(subject, &call, Some(row.fuel), &expected)
}

fn refused_by_hand(subject: &dyn Controller, row: &RefusedRow) -> Outcome {
    let call = Call { area: row.area.clone(), term: row.term, work: vec![b'w'; row.work] };
    let expected = Expected { reply: from_words(row.reply, 0), area: call.area.clone(), work: call.work.clone() };
    demand(subject, &call, Some(row.fuel), &expected)
}

fn small_terms(subject: &dyn Controller) -> Outcome {
    let mut random = Random::new(11);
    for size in 1..=6 {
        for text in texts_of_size(size, NO_BELLS) {
            for room in [0, 1, 4, 5, 6, 30] {
                for fuel in [0, 1, 2, 3, 5, 40] {
                    agree(subject, &call_on(&mut random, &text, size + room), Some(fuel))?;
                }
            }
        }
    }
    Ok(())
}

/// Random terms, each with every fuel from 0 to 39.
fn every_fuel(subject: &dyn Controller) -> Outcome {
    let mut random = Random::new(12);
    for _ in 0..400 {
        let size = random.between(5, 40);
        let text = random_of_size(&mut random, size).text();
        let room = *random.pick(&[0, 6, 20, 200]);
        for fuel in 0..40 {
            agree(subject, &call_on(&mut random, &text, size + room), Some(fuel))?;
        }
    }
    Ok(())
}

fn random_terms(subject: &dyn Controller) -> Outcome {
    let mut random = Random::new(13);
    for _ in 0..6_000 {
        let size = random.between(3, 120);
        let text = random_of_size(&mut random, size).text();
        let room = *random.pick(&[0, 7, 30, 100, 1_000]);
        let fuel = *random.pick(&[1, 10, 100, 1_000]);
        agree(subject, &call_on(&mut random, &text, size + room), Some(fuel))?;
    }
    Ok(())
}

fn large_terms(subject: &dyn Controller) -> Outcome {
    let mut random = Random::new(14);
    for _ in 0..40 {
        let size = random.between(1_000, 16_300);
        let text = random_of_size(&mut random, size).text();
        let fuel = random.between(1, 100) as u64;
        agree(subject, &call_on(&mut random, &text, 16_384), Some(fuel))?;
    }
    Ok(())
}

/// Runs of many steps on terms of a few thousand letters.
fn long_runs(subject: &dyn Controller, runs: &[(usize, u64)]) -> Outcome {
    for &(times, fuel) in runs {
        let mut area = twice_nested(times);
        let term = area.len();
        area.resize(5_000, b'#');
        let call = Call { area, term, work: vec![b'w'; 5_000] };
        demand(subject, &call, Some(fuel), &predict_fast(&call, Some(fuel)))?;
    }
    Ok(())
}

fn damaged_terms(subject: &dyn Controller) -> Outcome {
    let mut random = Random::new(15);
    for _ in 0..20_000 {
        let size = random.between(1, 40);
        let mut text = random_of_size(&mut random, size).text();
        for _ in 0..random.between(1, 2) {
            text = damaged(&mut random, &text, LETTERS);
        }
        let room = random.below(12);
        let fuel = *random.pick(&[0, 1, 20, 1_000_001]);
        agree(subject, &call_on(&mut random, &text, text.len() + room), Some(fuel))?;
    }
    Ok(())
}

/// Every mixture of area sizes, lengths, work sizes, fuels and bytes near the limits.
fn edges(subject: &dyn Controller) -> Outcome {
    for area in [0, 1, 2, 3, 256, 16_384, 16_385] {
        for work in [0, 1, area.max(1) - 1, area, area + 1] {
            for term in [0, 1, 2, area, area + 1, 1 << 32, usize::MAX] {
                for fuel in [0, 1, 1_000_000, 1_000_001, 1 << 32, u64::MAX] {
                    for letter in [b'J', b'R', b'x'] {
                        let call = Call { area: vec![letter; area], term, work: vec![9; work] };
                        agree(subject, &call, Some(fuel))?;
                    }
                }
            }
        }
    }
    Ok(())
}

/// A run in calls of at most `piece` steps, each on the term that the one before left: the last reply and all
/// steps made, set against one call with the whole fuel.
fn taken_up(subject: &dyn Controller, call: &Call, fuel: u64, piece: u64, expected: &Expected) -> Outcome {
    let (mut area, mut work) = (Guarded::new(&call.area), Guarded::new(&call.work));
    let (mut term, mut made) = (call.term, 0);
    let last = loop {
        let reply = subject.finish(area.area(), term, work.area(), piece.min(fuel - made));
        (term, made) = (size(reply), made + value(reply));
        if code(reply) != SPENT || made == fuel {
            break code(reply);
        }
    };
    let found = equal("reply", in_words(pack(last, made, term)), in_words(expected.reply))
        .and_then(|()| area.expect("term area", &expected.area))
        .and_then(|()| work.expect("work area", &expected.work));
    found.map_err(|what| format!("{what}; in calls of {piece} steps on {}", shown(&call.area[..call.term])))
}

/// Runs whose end is worked out by hand, taken up again and again.
fn taken_up_by_hand(subject: &dyn Controller) -> Outcome {
    let rows = examples().into_iter().chain(long_rows());
    for row in rows.filter(|row| !row.reply.contains('@')) {
        let area = padded(&row.term, row.area);
        let call = Call { term: row.term.len(), work: vec![b'w'; area.len()], area };
        let reply = from_words(&row.reply, row.after.len());
        let expected = Expected { reply, area: padded(&row.after, row.area), work: vec![0; row.area] };
        let calls = |piece: &u64| value(reply) / piece;
        for piece in [1, 7, 1_000].into_iter().filter(|piece| calls(piece) < 100) {
            taken_up(subject, &call, row.fuel, piece, &expected)?;
        }
    }
    Ok(())
}

/// Random runs, taken up again and again.
fn taken_up_at_random(subject: &dyn Controller) -> Outcome {
    let mut random = Random::new(16);
    for _ in 0..1_500 {
        let size = random.between(3, 120);
        let text = random_of_size(&mut random, size).text();
        let room = *random.pick(&[0, 30, 300, 2_000]);
        let call = call_on(&mut random, &text, size + room);
        let (fuel, piece) = (*random.pick(&[1, 100, 400]), *random.pick(&[1, 2, 13, 150]));
        taken_up(subject, &call, fuel, piece, &predict_plain(&call, Some(fuel)))?;
    }
    Ok(())
}

/// Calls whose replies are written by hand.
pub fn known(suite: &mut Suite, label: &str, subject: impl Controller) {
    for row in examples() {
        suite.test(&format!("{label} finishing, example: {}", row.name), || by_hand(&subject, &row));
    }
    for row in rows() {
        suite.test(&format!("{label} finishing: {}", row.name), || by_hand(&subject, &row));
    }
    for row in refused_rows() {
        suite.test(&format!("{label} finishing refuses: {}", row.name), || refused_by_hand(&subject, &row));
    }
}

/// Runs of many steps whose end follows from how the term is made.
pub fn made(suite: &mut Suite, label: &str, subject: impl Controller) {
    for row in long_rows() {
        suite.test(&format!("{label} finishing: {}", row.name), || by_hand(&subject, &row));
    }
    suite.test(&format!("{label} finishing: spent runs taken up again"), || taken_up_by_hand(&subject));
}

/// Calls whose replies the plain reducer predicts.
pub fn predicted(suite: &mut Suite, label: &str, subject: impl Controller) {
    suite.test(&format!("{label} finishing: refusals at their edges"), || edges(&subject));
    suite.test(&format!("{label} finishing: every term of up to 6 letters without bells"), || {
        small_terms(&subject)
    });
    suite.test(&format!("{label} finishing: random terms with every fuel"), || every_fuel(&subject));
    suite.test(&format!("{label} finishing: random terms"), || random_terms(&subject));
    suite.test(&format!("{label} finishing: large random terms"), || large_terms(&subject));
    suite.test(&format!("{label} finishing: damaged terms"), || damaged_terms(&subject));
    suite.test(&format!("{label} finishing: random runs taken up again"), || taken_up_at_random(&subject));
}

/// Runs of many steps, predicted by the fast reducer: up to a million for the engine.
pub fn long(suite: &mut Suite, label: &str, subject: impl Controller, runs: &[(usize, u64)]) {
    suite.test(&format!("{label} finishing: long runs"), || long_runs(&subject, runs));
}

pub const THOUSANDS_OF_STEPS: &[(usize, u64)] = &[(8, 1_000_000), (9, 8_177), (9, 8_178), (9, 8_179)];
pub const MILLION_STEPS: &[(usize, u64)] =
    &[(12, 1_000_000), (16, 65_535), (16, 65_536), (16, 65_537), (16, 1_000_000)];
