//! Finishing with counts: the tables, sizes of the buffer, random and damaged terms, runs in several calls.

use crate::damage::damaged;
use crate::lent::*;
use crate::random::Random;
use crate::reply::{code, from_words, in_words, pack, size, value, SPENT};
use crate::step_tests::{call_on, padded};
use crate::subject::Controller;
use crate::suite::{equal, equal_bytes, shown, Outcome, Suite};
use crate::table::counting::{long_rows, rows, stored, Row, CYCLES_400, EXAMPLE_2};
use crate::table::finishing::{self, refused_rows, self_application, RefusedRow};
use crate::terms::{random_of_size, texts_of_size, twice_nested, LETTERS, TWO_BELLS};
use second::machine::Machine;
use second::plain::Plain;

/// The bytes of thirteen counts.
const SIZE: usize = 52;
/// Sizes of a buffer that is too short, and of one that is long enough.
const SHORT: [usize; 3] = [0, 1, SIZE - 1];
const ENOUGH: [usize; 4] = [SIZE, SIZE + 1, 64, 100];

/// The counts with what stood behind them in a buffer of this size.
fn in_buffer(counts: &[u8], size: usize) -> Vec<u8> {
    [counts, &vec![b'c'; size - SIZE]].concat()
}

/// A run in an area and a work area with other bytes in them, and a buffer of this size.
fn call_of(run: &finishing::Row, size: usize) -> Counted {
    let mut area = run.term.clone();
    area.resize(run.area, b'#');
    let call = Call { term: run.term.len(), work: vec![b'w'; run.area + 2], area };
    Counted { call, fuel: run.fuel, counts: vec![b'c'; size] }
}

/// Demands a run's reply and term, and these counts.
pub fn run_by_hand(subject: &dyn Controller, run: &finishing::Row, counts: &[u8], size: usize) -> Outcome {
    let lent = [padded(&run.after, run.area), vec![0; run.area + 2], in_buffer(counts, size)];
    demand_counted(subject, &call_of(run, size), &(from_words(&run.reply, run.after.len()), lent))
}

fn by_hand(subject: &dyn Controller, row: &Row) -> Outcome {
    run_by_hand(subject, &row.run, &stored(&row.used), SIZE + 3)
}

/// Demands a refusal that leaves every lent byte.
fn refused(subject: &dyn Controller, counted: &Counted, reply: &str) -> Outcome {
    let lent = [counted.call.area.clone(), counted.call.work.clone(), counted.counts.clone()];
    demand_counted(subject, counted, &(from_words(reply, 0), lent))
}

/// A call that finishing refuses, with a buffer of this size.
fn refused_by_hand(subject: &dyn Controller, row: &RefusedRow, size: usize, reply: &str) -> Outcome {
    let call = Call { area: row.area.clone(), term: row.term, work: vec![b'w'; row.work] };
    refused(subject, &Counted { call, fuel: row.fuel, counts: vec![b'c'; size] }, reply)
}

/// Each run of the table with a buffer of this size, which is too short.
fn short_buffer(subject: &dyn Controller, size: usize) -> Outcome {
    rows().iter().try_for_each(|row| refused(subject, &call_of(&row.run, size), "2@0"))
}

/// Each run of the table with a buffer of this size, which is long enough.
fn long_buffer(subject: &dyn Controller, size: usize) -> Outcome {
    rows().iter().try_for_each(|row| run_by_hand(subject, &row.run, &stored(&row.used), size))
}

/// Calls whose replies and counts are written by hand.
pub fn known(suite: &mut Suite, label: &str, subject: impl Controller) {
    suite.test(&format!("{label} counting: example 2, byte by byte"), || {
        let run = finishing::row(".BII.JRJ", 12, 6, "finished 6", "J");
        run_by_hand(&subject, &run, &EXAMPLE_2.concat(), SIZE)
    });
    for row in rows() {
        suite.test(&format!("{label} counting: {}", row.name()), || by_hand(&subject, &row));
    }
    for size in SHORT {
        let name = format!("{label} counting refuses: a buffer of {size} bytes");
        suite.test(&name, || short_buffer(&subject, size));
    }
    for size in ENOUGH {
        suite.test(&format!("{label} counting: a buffer of {size} bytes"), || long_buffer(&subject, size));
    }
    for row in refused_rows() {
        suite.test(&format!("{label} counting refuses: {}", row.name), || {
            ENOUGH.iter().try_for_each(|&size| refused_by_hand(&subject, &row, size, row.reply))
        });
        suite.test(&format!("{label} counting refuses: a short buffer before {}", row.name), || {
            SHORT.iter().try_for_each(|&size| refused_by_hand(&subject, &row, size, "2@0"))
        });
    }
}

/// Demands that a counted call replies and leaves what the same call does without counts.
fn as_finishing(subject: &dyn Controller, counted: &Counted) -> Outcome {
    let Counted { call, fuel, mut counts } = counted.clone();
    let (mut area, mut work) = (call.area.clone(), call.work.clone());
    let reply = subject.finish(&mut area, call.term, &mut work, fuel);
    let (mut other_area, mut other_work) = (call.area, call.work);
    let other = subject.finish_counted(&mut other_area, call.term, &mut other_work, fuel, &mut counts);
    let found = equal("reply", in_words(other), in_words(reply))
        .and_then(|()| equal_bytes("term area", &other_area, &area))
        .and_then(|()| equal_bytes("work area", &other_work, &work))
        .and_then(|()| demand_sum(reply, &counts));
    found.map_err(|what| format!("{what}; on {} fuel {fuel}", shown(&counted.call.area)))
}

/// A random term, damaged once in three times, with a buffer that is long enough.
fn random_call(random: &mut Random) -> Counted {
    let size = random.between(1, 80);
    let mut text = random_of_size(random, size).text();
    if random.once_in(3) {
        text = damaged(random, &text, LETTERS);
    }
    let room = *random.pick(&[0, 5, 30, 300]);
    let call = call_on(random, &text, text.len() + room);
    let fuel = *random.pick(&[0, 1, 2, 9, 100, 1_000_001]);
    let longer = *random.pick(&[0, 0, 1, 30]);
    Counted { call, fuel, counts: random.rubbish(SIZE + longer) }
}

fn finishing_agrees(subject: &dyn Controller) -> Outcome {
    let mut random = Random::new(111);
    (0..6_000).try_for_each(|_| as_finishing(subject, &random_call(&mut random)))
}

/// The counts of a buffer, and those of another added to them.
fn added(one: &[u8], two: &[u8]) -> Vec<u8> {
    let number = |bytes: &[u8]| u32::from_le_bytes(bytes.try_into().expect("four bytes"));
    let sums = one.chunks(4).zip(two.chunks(4)).map(|(x, y)| number(x) + number(y));
    sums.flat_map(u32::to_le_bytes).collect()
}

/// A run in calls of at most `piece` steps, each on the term that the one before left: the counts of all calls
/// add up to those of one call with the whole fuel.
pub fn taken_up(subject: &dyn Controller, counted: &Counted, piece: u64, expected: &AfterCounted) -> Outcome {
    let Counted { call, fuel, counts } = counted.clone();
    let (mut area, mut work, mut term, mut made) = (call.area, call.work, call.term, 0);
    let (mut sums, mut buffer) = (vec![0; SIZE], counts);
    let last = loop {
        let reply = subject.finish_counted(&mut area, term, &mut work, piece.min(fuel - made), &mut buffer);
        sums = added(&sums, &buffer[..SIZE]);
        (term, made) = (size(reply), made + value(reply));
        if code(reply) != SPENT || made == fuel {
            break code(reply);
        }
    };
    let found = equal("reply", in_words(pack(last, made, term)), in_words(expected.0))
        .and_then(|()| equal_bytes("term area", &area, &expected.1[0]))
        .and_then(|()| equal_bytes("sums of the counts", &sums, &expected.1[2][..SIZE]));
    found.map_err(|what| format!("{what}; in calls of {piece} steps on {}", shown(&counted.call.area)))
}

/// Runs whose counts are worked out by hand, taken up again and again.
fn taken_up_by_hand(subject: &dyn Controller) -> Outcome {
    for row in rows() {
        let lent = [padded(&row.run.after, row.run.area), vec![], stored(&row.used)];
        let expected = (from_words(&row.run.reply, row.run.after.len()), lent);
        for piece in [1, 2, 7] {
            taken_up(subject, &call_of(&row.run, SIZE), piece, &expected)?;
        }
    }
    Ok(())
}

/// Runs of many steps, worked out by hand; what finishing does on the same calls; runs in several calls.
pub fn made(suite: &mut Suite, label: &str, subject: impl Controller) {
    suite.test(&format!("{label} counting: 400 cycles of .AIHJJAIHJJ, byte by byte"), || {
        run_by_hand(&subject, &self_application(400), &CYCLES_400.concat(), SIZE)
    });
    for row in long_rows() {
        suite.test(&format!("{label} counting: {}", row.name()), || by_hand(&subject, &row));
    }
    suite.test(&format!("{label} counting: replies and areas are finishing's"), || finishing_agrees(&subject));
    suite.test(&format!("{label} counting: counts of spent runs taken up add up"), || taken_up_by_hand(&subject));
}

/// Every mixture of area sizes, lengths, work sizes, fuels, bytes and buffer sizes near the limits.
fn edges(subject: &dyn Controller) -> Outcome {
    for area in [0, 1, 3, 16_384, 16_385] {
        for work in [area.max(1) - 1, area] {
            for term in [0, 1, area, area + 1, 1 << 32, usize::MAX] {
                for fuel in [0, 1_000_000, 1_000_001, u64::MAX] {
                    for letter in [b'J', b'x'] {
                        for size in [0, SIZE - 1, SIZE, SIZE + 1] {
                            let call = Call { area: vec![letter; area], term, work: vec![9; work] };
                            agree_counted(subject, &Counted { call, fuel, counts: vec![7; size] })?;
                        }
                    }
                }
            }
        }
    }
    Ok(())
}

fn small_terms(subject: &dyn Controller) -> Outcome {
    let mut random = Random::new(112);
    for size in 1..=6 {
        for text in texts_of_size(size, TWO_BELLS) {
            for room in [0, 4, 30] {
                for fuel in [1, 2, 40] {
                    let call = call_on(&mut random, &text, size + room);
                    agree_counted(subject, &Counted { call, fuel, counts: random.rubbish(SIZE + 1) })?;
                }
            }
        }
    }
    Ok(())
}

/// Random terms, each with every fuel from 0 to 39.
fn every_fuel(subject: &dyn Controller) -> Outcome {
    let mut random = Random::new(113);
    for _ in 0..200 {
        let size = random.between(5, 40);
        let text = random_of_size(&mut random, size).text();
        let room = *random.pick(&[0, 6, 20, 200]);
        for fuel in 0..40 {
            let call = call_on(&mut random, &text, size + room);
            agree_counted(subject, &Counted { call, fuel, counts: random.rubbish(SIZE) })?;
        }
    }
    Ok(())
}

fn random_terms(subject: &dyn Controller) -> Outcome {
    let mut random = Random::new(114);
    for _ in 0..3_000 {
        let size = random.between(3, 120);
        let text = random_of_size(&mut random, size).text();
        let room = *random.pick(&[0, 7, 30, 100, 1_000]);
        let fuel = *random.pick(&[10, 100, 1_000]);
        let call = call_on(&mut random, &text, size + room);
        let longer = random.below(9);
        agree_counted(subject, &Counted { call, fuel, counts: random.rubbish(SIZE + longer) })?;
    }
    Ok(())
}

fn large_terms(subject: &dyn Controller) -> Outcome {
    let mut random = Random::new(115);
    for _ in 0..20 {
        let size = random.between(1_000, 16_300);
        let text = random_of_size(&mut random, size).text();
        let fuel = random.between(1, 100) as u64;
        let call = call_on(&mut random, &text, 16_384);
        agree_counted(subject, &Counted { call, fuel, counts: random.rubbish(SIZE) })?;
    }
    Ok(())
}

/// Damaged terms, with buffers of every size near that of the counts.
fn damaged_terms(subject: &dyn Controller) -> Outcome {
    let mut random = Random::new(116);
    for _ in 0..10_000 {
        let size = random.between(1, 40);
        let text = random_of_size(&mut random, size).text();
        let text = damaged(&mut random, &text, LETTERS);
        let room = random.below(12);
        let call = call_on(&mut random, &text, text.len() + room);
        let fuel = *random.pick(&[0, 1, 20, 1_000_001]);
        let size = *random.pick(&[SIZE - 1, SIZE, SIZE, SIZE + 1, 4 * SIZE]);
        agree_counted(subject, &Counted { call, fuel, counts: random.rubbish(size) })?;
    }
    Ok(())
}

/// Random runs, taken up again and again.
fn taken_up_at_random(subject: &dyn Controller) -> Outcome {
    let mut random = Random::new(117);
    for _ in 0..600 {
        let size = random.between(3, 120);
        let text = random_of_size(&mut random, size).text();
        let room = *random.pick(&[0, 30, 300, 2_000]);
        let call = call_on(&mut random, &text, size + room);
        let (fuel, piece) = (*random.pick(&[1, 100, 400]), *random.pick(&[1, 2, 13, 150]));
        let counted = Counted { call, fuel, counts: random.rubbish(SIZE) };
        taken_up(subject, &counted, piece, &predict_counted::<Plain>(&counted))?;
    }
    Ok(())
}

/// Calls whose replies and counts the plain reducer predicts.
pub fn predicted(suite: &mut Suite, label: &str, subject: impl Controller) {
    suite.test(&format!("{label} counting: refusals at their edges"), || edges(&subject));
    suite.test(&format!("{label} counting: every term of up to 6 letters, bells 1 and T among them"), || {
        small_terms(&subject)
    });
    suite.test(&format!("{label} counting: random terms with every fuel"), || every_fuel(&subject));
    suite.test(&format!("{label} counting: random terms"), || random_terms(&subject));
    suite.test(&format!("{label} counting: large random terms"), || large_terms(&subject));
    suite.test(&format!("{label} counting: damaged terms"), || damaged_terms(&subject));
    suite.test(&format!("{label} counting: random runs taken up again"), || taken_up_at_random(&subject));
}

/// A run of many steps on terms of a few thousand letters, predicted by the fast reducer.
pub fn long(suite: &mut Suite, label: &str, subject: impl Controller, times: usize, fuel: u64) {
    suite.test(&format!("{label} counting: a long run"), || {
        let mut area = twice_nested(times);
        let term = area.len();
        area.resize(5_000, b'#');
        let call = Call { area, term, work: vec![b'w'; 5_000] };
        let counted = Counted { call, fuel, counts: vec![b'c'; SIZE] };
        demand_counted(&subject, &counted, &predict_counted::<Machine>(&counted))
    });
}
