//! Stepping: the table, every small term, random and damaged ones, each step on the way.

use crate::damage::damaged;
use crate::lent::{agree, demand, predict_plain, Call, Expected};
use crate::random::Random;
use crate::reply::{code, from_words, pack, size, NORMAL, STEPPED};
use crate::subject::Controller;
use crate::suite::{equal_bytes, Outcome, Suite};
use crate::table::finishing::EXAMPLE_2_RULES;
use crate::table::{reading, stepping};
use crate::terms::{random_of_size, texts_of_size, LETTERS, NO_BELLS};

/// The text with zeros up to the size of its area.
pub fn padded(text: &[u8], size: usize) -> Vec<u8> {
    let mut area = text.to_vec();
    area.resize(size, 0);
    area
}

fn by_hand(subject: &dyn Controller, row: &stepping::Row) -> Outcome {
    let call = Call { area: row.area.clone(), term: row.term, work: row.work.clone() };
    let reply = from_words(&row.reply, row.after.len());
    let expected = match row.reply.contains('@') {
        true => Expected { reply, area: call.area.clone(), work: call.work.clone() },
        false => Expected { reply, area: padded(&row.after, call.area.len()), work: vec![0; call.work.len()] },
    };
    demand(subject, &call, None, &expected)
}

/// A slice that reading refuses, as the term of a step.
fn read_by_hand(subject: &dyn Controller, row: &reading::Row) -> Outcome {
    let call = Call { area: row.slice.clone(), term: row.slice.len(), work: vec![b'w'; row.slice.len() + 3] };
    let expected = Expected { reply: from_words(&row.reply, 0), area: call.area.clone(), work: call.work.clone() };
    demand(subject, &call, None, &expected)
}

/// The second example: rules 1, 8, 6, 5, 7, 5.
fn example_2(subject: &dyn Controller) -> Outcome {
    let mut area = padded(b".BII.JRJ", 30);
    let mut length = 8;
    for (rule, after) in EXAMPLE_2_RULES {
        let call = Call { area, term: length, work: vec![7; 30] };
        let reply = pack(STEPPED, rule.into(), after.len());
        let expected = Expected { reply, area: padded(after.as_bytes(), 30), work: vec![0; 30] };
        demand(subject, &call, None, &expected)?;
        (area, length) = (expected.area, after.len());
    }
    let call = Call { area: area.clone(), term: 1, work: vec![7; 30] };
    demand(subject, &call, None, &Expected { reply: pack(NORMAL, 0, 1), area, work: vec![0; 30] })
}

/// A call on a term in an area of this size, with rubbish behind the term and in the work area.
pub fn call_on(random: &mut Random, text: &[u8], area: usize) -> Call {
    let mut bytes = random.rubbish(area);
    bytes[..text.len()].copy_from_slice(text);
    let longer = if random.once_in(4) { random.below(40) } else { 0 };
    Call { area: bytes, term: text.len(), work: random.rubbish(area + longer) }
}

/// Steps a term until it is normal or has no room, at most `limit` times.
pub fn follow(subject: &dyn Controller, random: &mut Random, text: &[u8], area: usize, limit: usize) -> Outcome {
    let mut text = text.to_vec();
    for _ in 0..limit {
        let call = call_on(random, &text, area);
        let expected = predict_plain(&call, None);
        demand(subject, &call, None, &expected)?;
        if code(expected.reply) != STEPPED {
            return Ok(());
        }
        text = expected.area[..size(expected.reply)].to_vec();
    }
    Ok(())
}

fn small_terms(subject: &dyn Controller) -> Outcome {
    let mut random = Random::new(1);
    for size in 1..=6 {
        for text in texts_of_size(size, NO_BELLS) {
            for room in [0, 1, 3, 4, 5, 6, 8, 30] {
                follow(subject, &mut random, &text, size + room, 40)?;
            }
        }
    }
    Ok(())
}

fn random_terms(subject: &dyn Controller) -> Outcome {
    let mut random = Random::new(2);
    for _ in 0..3_000 {
        let size = random.between(3, 60);
        let text = random_of_size(&mut random, size).text();
        let room = *random.pick(&[0, 5, 10, 50, 400]);
        follow(subject, &mut random, &text, size + room, 60)?;
    }
    Ok(())
}

fn large_terms(subject: &dyn Controller) -> Outcome {
    let mut random = Random::new(3);
    for _ in 0..60 {
        let size = random.between(1_000, 16_000);
        let text = random_of_size(&mut random, size).text();
        follow(subject, &mut random, &text, random_area(size), 20)?;
    }
    Ok(())
}

fn random_area(size: usize) -> usize {
    (size + 300).min(16_384)
}

fn damaged_terms(subject: &dyn Controller) -> Outcome {
    let mut random = Random::new(4);
    for _ in 0..20_000 {
        let size = random.between(1, 40);
        let mut text = random_of_size(&mut random, size).text();
        for _ in 0..random.between(1, 2) {
            text = damaged(&mut random, &text, LETTERS);
        }
        let room = random.below(12);
        agree(subject, &call_on(&mut random, &text, text.len() + room), None)?;
    }
    Ok(())
}

fn random_bytes(subject: &dyn Controller) -> Outcome {
    let mut random = Random::new(5);
    for _ in 0..20_000 {
        let length = random.below(30);
        let bytes: Vec<u8> = match random.below(2) {
            0 => (0..length).map(|_| *random.pick(b"..BBHAIJRJIJ1T")).collect(),
            _ => (0..length).map(|_| random.byte()).collect(),
        };
        let term = random.below(length + 3);
        let (work, fill) = (random.below(40), random.byte());
        agree(subject, &Call { area: bytes, term, work: vec![fill; work] }, None)?;
    }
    Ok(())
}

/// Every mixture of area sizes, lengths, work sizes and bytes near the limits.
fn edges(subject: &dyn Controller) -> Outcome {
    for area in [0, 1, 2, 3, 255, 256, 16_383, 16_384, 16_385, 20_000] {
        for work in [0, 1, 2, area.max(1) - 1, area, area + 1, area + 300] {
            for term in [0, 1, 2, 3, area.max(1) - 1, area, area + 1, 1 << 32, usize::MAX] {
                for letter in [b'J', b'R', b'x', b'.'] {
                    let call = Call { area: vec![letter; area], term, work: vec![9; work] };
                    agree(subject, &call, None)?;
                }
            }
        }
    }
    Ok(())
}

/// Two calls with the same bytes answer the same: nothing is kept between calls.
fn repeated_calls(subject: &dyn Controller) -> Outcome {
    let call = Call { area: b".BII.JRJ####".to_vec(), term: 8, work: vec![3; 12] };
    for _ in 0..3 {
        let mut area = call.area.clone();
        subject.step(&mut area, 8, &mut call.work.clone());
        equal_bytes("term area", &area, b".BIIHJRJ\0\0\0\0")?;
    }
    Ok(())
}

/// Calls whose replies are written by hand.
pub fn known(suite: &mut Suite, label: &str, subject: impl Controller) {
    for row in stepping::rows() {
        suite.test(&format!("{label} stepping: {}", row.name), || by_hand(&subject, &row));
    }
    for row in reading::rows().into_iter().filter(|row| row.reply.contains('@')) {
        suite.test(&format!("{label} stepping reads: {}", row.name), || read_by_hand(&subject, &row));
    }
    suite.test(&format!("{label} stepping: example 2, rules 1 8 6 5 7 5"), || example_2(&subject));
    suite.test(&format!("{label} stepping: the same call three times"), || repeated_calls(&subject));
}

/// Calls whose replies the plain reducer predicts.
pub fn predicted(suite: &mut Suite, label: &str, subject: impl Controller) {
    suite.test(&format!("{label} stepping: refusals at their edges"), || edges(&subject));
    suite.test(&format!("{label} stepping: every term of up to 6 letters without bells, step by step"), || {
        small_terms(&subject)
    });
    suite.test(&format!("{label} stepping: random terms, step by step"), || random_terms(&subject));
    suite.test(&format!("{label} stepping: large random terms"), || large_terms(&subject));
    suite.test(&format!("{label} stepping: damaged terms"), || damaged_terms(&subject));
    suite.test(&format!("{label} stepping: random bytes"), || random_bytes(&subject));
}
