//! Finishing on random terms of many sizes and shapes, with random fuel and areas.

use crate::end_tests::{PLACES, REDEX};
use crate::lent::{demand, demand_counted, predict_counted, predict_fast, Counted};
use crate::random::Random;
use crate::runs::{beside_each_other, in_pairs, room_for, swings, uses};
use crate::step_tests::call_on;
use crate::subject::Controller;
use crate::suite::{Outcome, Suite};
use crate::terms::{joined, random_of_size};
use second::counting::COUNTS_SIZE;
use second::machine::Machine;
use second::stepping::MAX_AREA;

/// How many terms are tried, by their letters at most.
const SIZES: [(usize, usize); 4] = [(20, 8_000), (80, 8_000), (400, 4_000), (3_000, 400)];

/// A random term in a random place of up to so many letters.
fn surrounded(random: &mut Random, text: &[u8], most: usize) -> Vec<u8> {
    let room = random.between(REDEX + 1, REDEX + 1 + most);
    let [before, behind] = (random.pick(&PLACES).1)(room);
    joined(&[&before, text, &behind])
}

/// A term of up to so many letters, and what is made of it: used again and again, or set among others.
fn made_of(random: &mut Random, most: usize) -> Vec<u8> {
    let (size, times) = (random.between(1, most), random.between(1, 12));
    let mut term = |size| random_of_size(random, size).text();
    let (text, body) = (term(size), term(1 + size / 3));
    match random.below(8) {
        0 => in_pairs(times, &text),
        1 => uses(times, &text),
        2 => swings(times, &text),
        3 => beside_each_other(times, &text),
        4 => joined(&[b".AI", &body, &text]),
        5 => surrounded(random, &text, most),
        6 => joined(&[b".B", &body, b"I", &text]),
        _ => text,
    }
}

/// An area with just room for the run, one byte less, a little more than the term, or the largest.
fn area_for(random: &mut Random, text: &[u8], fuel: u64) -> usize {
    let area = match random.below(4) {
        0 => room_for(text, fuel),
        1 => room_for(text, fuel) - 1,
        2 => text.len() + random.below(100),
        _ => MAX_AREA,
    };
    area.clamp(text.len(), MAX_AREA)
}

/// A random call, and in turn the same with counts.
fn one_call(subject: &dyn Controller, random: &mut Random, most: usize) -> Outcome {
    let text = made_of(random, most);
    if text.len() > MAX_AREA {
        return Ok(());
    }
    let fuels = [random.below(10), random.below(100), random.below(1_000), 2_000];
    let fuel = *random.pick(&fuels) as u64;
    let area = area_for(random, &text, fuel);
    let call = call_on(random, &text, area);
    if random.once_in(2) {
        return demand(subject, &call, Some(fuel), &predict_fast(&call, Some(fuel)));
    }
    let counted = Counted { call, fuel, counts: random.rubbish(COUNTS_SIZE) };
    demand_counted(subject, &counted, &predict_counted::<Machine>(&counted))
}

/// Calls whose replies the fast reducer predicts.
pub fn predicted(suite: &mut Suite, label: &str, subject: impl Controller) {
    for (most, calls) in SIZES {
        let name = format!("{label} finishing: {calls} random runs on parts of up to {most} letters");
        suite.test(&name, || {
            let mut random = Random::new(131);
            (0..calls).try_for_each(|_| one_call(&subject, &mut random, most))
        });
    }
}
