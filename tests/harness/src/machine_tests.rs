//! Finishing on runs so long that an engine makes them in batches, each in an arena of cells.

use crate::count_tests::{run_by_hand, taken_up};
use crate::deep::on_advised_stack;
use crate::lent::*;
use crate::machine_runs::{long_runs, LongRun, OMEGA};
use crate::reply::{code, DIFFERENT, SAME, UNDECIDED};
use crate::runs::*;
use crate::subject::Controller;
use crate::suite::{equal, Outcome, Suite};
use crate::table::counting::stored;
use crate::table::finishing::{self, ran};
use crate::terms::{joined, twice_nested};
use crate::{machine_borders, machine_fuel, machine_random, machine_rules};
use second::counting::COUNTS_SIZE;
use second::finishing::MAX_FUEL;
use second::machine::Machine;
use second::stepping::MAX_AREA;

/// A counted call on a text in an area of this size.
fn counted(text: &[u8], area: usize, fuel: u64) -> Counted {
    Counted { call: call(text, area), fuel, counts: vec![b'c'; COUNTS_SIZE] }
}

/// Demands the reply, the counts by rule and every lent byte of a run.
fn whole_run(subject: &dyn Controller, run: &LongRun) -> Outcome {
    let counted = counted(&run.text, run.area, run.fuel);
    demand_counted(subject, &counted, &predict_counted::<Machine>(&counted))
}

/// Runs in calls of so many steps, each on what the one before left.
fn in_pieces(subject: &dyn Controller) -> Outcome {
    let texts = [nested_uses(5, 3), in_pairs(8, &every_rule(3)), twice_nested(7), swings(20, &inert(500))];
    for text in texts {
        for piece in [1, 2, 49, 50, 51, 160, 500] {
            let counted = counted(&text, 2_400, 2_500);
            taken_up(subject, &counted, piece, &predict_counted::<Machine>(&counted))?;
        }
    }
    Ok(())
}

/// Two long runs, each in an area of its own, with one fuel; their verdict is reckoned by hand.
struct Two {
    name: &'static str,
    texts: [Vec<u8>; 2],
    areas: [usize; 2],
    fuel: u64,
    verdict: u64,
}

fn two(name: &'static str, texts: [&[u8]; 2], areas: [usize; 2], fuel: u64, verdict: u64) -> Two {
    Two { name, texts: texts.map(<[u8]>::to_vec), areas, fuel, verdict }
}

fn pairs() -> Vec<Two> {
    let (one, other, twice) = (&nested_uses(8, 4)[..], &nested_uses(5, 5)[..], &twice_nested(11)[..]);
    let [eleven, twelve] = ["E", "T"].map(|bell| joined(&[b".", one, bell.as_bytes()]));
    let rules = &in_pairs(60, &every_rule(3))[..];
    let large = [MAX_AREA; 2];
    vec![
        two("both to `I`", [one, other], large, MAX_FUEL, SAME),
        two("to different bells", [&eleven, &twelve], large, MAX_FUEL, DIFFERENT),
        two("to `J` and to `I`", [twice, other], [2_000, 300], MAX_FUEL, DIFFERENT),
        two("the first without room", [twice, other], [1_870, 300], MAX_FUEL, UNDECIDED),
        two("the second without room", [other, twice], [215, 1_870], MAX_FUEL, UNDECIDED),
        two("the first one step short", [other, one], large, 26_434, UNDECIDED),
        two("the second one step short", [one, other], large, 26_434, UNDECIDED),
        two("every rule in both", [rules, rules], large, MAX_FUEL, SAME),
        two("neither with an end", [OMEGA, OMEGA], [MAX_AREA, 512], 30_000, UNDECIDED),
    ]
}

fn compared(subject: &dyn Controller, two: &Two) -> Outcome {
    let [one, other] = [0, 1].map(|place| call(&two.texts[place], two.areas[place]));
    let work = vec![b'w'; two.areas[0].max(two.areas[1])];
    let (first_term, second_term) = (one.term, other.term);
    let pair = Pair { first: one.area, first_term, second: other.area, second_term, work, fuel: two.fuel };
    let expected = predict_pair_by::<Machine>(&pair);
    equal("verdict", code(expected.0), two.verdict)?;
    demand_pair(subject, &pair, &expected)
}

/// Closures that use their argument, with steps and counts reckoned by hand: for each one that is entered rule 4 is
/// used once, rules 5 and 8 are used k times each, and rule 6 k + 1 times.
fn by_hand(subject: &dyn Controller, k: usize, n: usize) -> Outcome {
    let times = entered(k, n);
    let used = [(4, times), (5, k * times), (6, (k + 1) * times), (8, k * times)];
    let used = used.map(|(rule, count)| (rule, count as u32));
    let row = ran(String::new(), nested_uses(k, n), (3 * k + 2) * times, b"I".to_vec());
    run_by_hand(subject, &finishing::Row { area: 4_000, ..row }, &stored(&used), COUNTS_SIZE)
}

/// Runs whose ends are reckoned by hand.
fn known(suite: &mut Suite, label: &str, subject: impl Controller) {
    for (k, n) in [(1, 1), (1, 3), (7, 2), (5, 3), (3, 6), (8, 4), (12, 4), (1, 15), (5, 6)] {
        let steps = (3 * k + 2) * entered(k, n);
        let name = format!("{label} finishing: {n} closures that use their argument {k} + 1 times, {steps} steps");
        suite.test(&name, || by_hand(&subject, k, n));
    }
}

/// Runs that the fast reducer predicts, on the stack that docs/FIRMWARE.md advises.
fn predicted(suite: &mut Suite, label: &str, subject: impl Controller + Sync + Copy) {
    for run in long_runs() {
        let name = format!("{label} finishing, long: {}", run.name);
        suite.test(&name, || on_advised_stack(|| whole_run(&subject, &run)));
    }
    suite.test(&format!("{label} finishing: long runs taken up again"), || in_pieces(&subject));
    for two in pairs() {
        let name = format!("{label} comparing long runs: {}", two.name);
        suite.test(&name, || on_advised_stack(|| compared(&subject, &two)));
    }
}

pub fn all(suite: &mut Suite, label: &str, subject: impl Controller + Sync + Copy) {
    known(suite, label, subject);
    machine_borders::predicted(suite, label, subject);
    machine_fuel::predicted(suite, label, subject);
    machine_rules::predicted(suite, label, subject);
    predicted(suite, label, subject);
    machine_random::predicted(suite, label, subject);
}
