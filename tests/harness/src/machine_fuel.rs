//! Finishing with fuel that ends at every place of a run, so that it also ends where a batch of steps does.

use crate::lent::{call, demand_counted, AfterCounted, Call, Counted};
use crate::random::Random;
use crate::reply::of_run;
use crate::runs::{every_rule, in_pairs, nested_uses, swings};
use crate::step_tests::padded;
use crate::subject::Controller;
use crate::suite::{Outcome, Suite};
use crate::terms::{joined, repeated, twice_nested};
use second::counting::{COUNTS_SIZE, RULES};
use second::finishing::{run, Run};
use second::machine::Machine;
use second::stepping::{Reducer, MAX_AREA};

/// What the call replies and leaves with each of these fuels, the smallest first: one run, looked at on its way.
fn on_its_way(call: &Call, fuels: &[u64], mut look: impl FnMut(u64, AfterCounted) -> Outcome) -> Outcome {
    let mut reducer = Machine::start(&call.area[..call.term]);
    let (mut counts, mut made) = ([0u32; RULES], 0);
    for &fuel in fuels {
        let (outcome, more) =
            run(&mut reducer, call.area.len(), fuel - made, |rule| counts[usize::from(rule) - 1] += 1);
        made += more;
        let text = reducer.text();
        let reply = of_run(Ok(Run { outcome, count: made, length: text.len() }));
        let stored = counts.into_iter().flat_map(u32::to_le_bytes).collect();
        look(fuel, (reply, [padded(&text, call.area.len()), vec![0; call.work.len()], stored]))?;
    }
    Ok(())
}

/// Which fuels are tried.
enum Fuels {
    Every(u64),
    /// The first and the last ones of a run of at most so many steps, and so many random ones between.
    Some(u64, usize),
}

/// A run with the fuels that are tried on it.
struct Tried {
    name: &'static str,
    text: Vec<u8>,
    area: usize,
    fuels: Fuels,
}

fn tried(name: &'static str, text: Vec<u8>, area: usize, fuels: Fuels) -> Tried {
    Tried { name, text, area, fuels }
}

/// Runs with few letters, with every fuel up to their end or past several batches of steps.
fn short_runs() -> Vec<Tried> {
    let few = nested_uses(7, 2);
    vec![
        tried("207 steps in 64 bytes", few.clone(), 64, Fuels::Every(210)),
        tried("207 steps of few letters", few, MAX_AREA, Fuels::Every(210)),
        tried("731 steps of up to 89 letters", nested_uses(5, 3), MAX_AREA, Fuels::Every(735)),
        tried("every rule in turn", in_pairs(8, &every_rule(2)), 1_500, Fuels::Every(1_200)),
        tried(".AIHJJAIHJJ", b".AIHJJAIHJJ".to_vec(), MAX_AREA, Fuels::Every(1_200)),
        tried(".AIHJJAIHJJ in 256 bytes", b".AIHJJAIHJJ".to_vec(), 256, Fuels::Every(600)),
        tried("a part copied again and again", swings(40, &nested_uses(1, 2)), 1_024, Fuels::Every(1_500)),
    ]
}

/// Runs that fill larger arenas.
fn long_runs() -> Vec<Tried> {
    let behind = |front: &str, times| joined(&[&repeated(front, times), &nested_uses(3, 6)]);
    vec![
        tried("21,320 steps of up to 205 letters", nested_uses(8, 4), MAX_AREA, Fuels::Some(21_320, 300)),
        tried("2,034 steps of up to 799 letters", twice_nested(7), MAX_AREA, Fuels::Some(2_034, 300)),
        tried("16,370 steps in 1,561 bytes", twice_nested(10), 1_561, Fuels::Some(16_370, 40)),
        tried("no room after many steps", twice_nested(10), 1_560, Fuels::Some(16_370, 40)),
        tried("20,000 steps of .AIHJJAIHJJ", b".AIHJJAIHJJ".to_vec(), MAX_AREA, Fuels::Some(20_000, 80)),
        tried("15,015 steps behind 1,500 letters R", behind("R", 1_500), MAX_AREA, Fuels::Some(15_015, 80)),
        tried("15,015 steps behind 7,500 pairs", behind("B1", 7_500), MAX_AREA, Fuels::Some(15_015, 8)),
    ]
}

fn fuels_of(random: &mut Random, fuels: &Fuels) -> Vec<u64> {
    match *fuels {
        Fuels::Every(most) => (0..=most).collect(),
        Fuels::Some(last, between) => {
            let mut all: Vec<u64> = (0..=20).chain(last - 2..=last + 2).collect();
            all.extend((0..between).map(|_| random.between(21, last as usize) as u64));
            all.sort();
            all
        }
    }
}

fn with_fuels(subject: &dyn Controller, tried: &Tried) -> Outcome {
    let mut random = Random::new(121);
    let call = call(&tried.text, tried.area);
    on_its_way(&call, &fuels_of(&mut random, &tried.fuels), |fuel, expected| {
        let counted = Counted { call: call.clone(), fuel, counts: vec![b'c'; COUNTS_SIZE] };
        demand_counted(subject, &counted, &expected)
    })
}

/// Calls whose replies the fast reducer predicts.
pub fn predicted(suite: &mut Suite, label: &str, subject: impl Controller) {
    for tried in short_runs() {
        suite.test(&format!("{label} finishing with every fuel: {}", tried.name), || with_fuels(&subject, &tried));
    }
    for tried in long_runs() {
        suite.test(&format!("{label} finishing with many fuels: {}", tried.name), || with_fuels(&subject, &tried));
    }
}
