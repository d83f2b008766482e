//! Joining: the table, every small pair, random and damaged texts, in areas about the join's size.

use crate::damage::damaged;
use crate::lent::*;
use crate::random::Random;
use crate::reply::*;
use crate::result_tests::random_of_sizes;
use crate::step_tests::padded;
use crate::subject::Controller;
use crate::suite::{equal, equal_bytes, Outcome, Suite};
use crate::table::joining::{one_buffer, rows, Row, Run, RUNS};
use crate::table::reading;
use crate::terms::{joined, random_of_size, texts_of_size, BELLS, LETTERS, TWO_BELLS};

/// The letters of a join beside those of its two terms.
pub const FRAME: usize = 12;

/// What an area may hold before: no letter, no byte of ASCII, letters, zeros.
const FILLINGS: [u8; 4] = [b'#', 255, b'J', 0];

/// Calls on a row with this in the area, and what is demanded of them.
fn filled(row: &Row, filling: u8) -> (Join, Joined) {
    let join = Join { f: row.f.clone(), g: row.g.clone(), area: vec![filling; row.area] };
    let after = match row.reply.contains('@') {
        true => join.area.clone(),
        false => padded(&row.after, row.area),
    };
    (join, (from_words(row.reply, row.after.len()), after))
}

fn by_hand(subject: &dyn Controller, row: &Row) -> Outcome {
    FILLINGS.iter().try_for_each(|&filling| {
        let (join, expected) = filled(row, filling);
        demand_join(subject, &join, &expected)
    })
}

fn by_hand_in_one_buffer(subject: &dyn Controller, row: &Row) -> Outcome {
    FILLINGS.iter().try_for_each(|&filling| {
        let (join, expected) = filled(row, filling);
        demand_join(subject, &join, &expected)?;
        demand_join_in_one_buffer(subject, &join, &expected)
    })
}

/// Demands a refusal, in areas of several sizes, that leaves every byte.
fn refused(subject: &dyn Controller, f: &[u8], g: &[u8], reply: &str) -> Outcome {
    for area in [0, 1, 13, 14, 100] {
        let join = Join { f: f.to_vec(), g: g.to_vec(), area: vec![b'#'; area] };
        demand_join(subject, &join, &(from_words(reply, 0), join.area.clone()))?;
    }
    Ok(())
}

/// The rows of reading that are refused: each is refused so as `f`, whatever `g` is, and as `g` behind a term.
fn unreadable(subject: &dyn Controller) -> Outcome {
    let rows: Vec<reading::Row> = reading::rows().into_iter().filter(|row| row.reply.contains('@')).collect();
    for row in &rows {
        for other in ["J", ".1.2T"] {
            refused(subject, &row.slice, other.as_bytes(), &row.reply)?;
            refused(subject, other.as_bytes(), &row.slice, &row.reply)?;
        }
        rows.iter().try_for_each(|other| refused(subject, &row.slice, &other.slice, &row.reply))?;
    }
    equal("texts that reading refuses", rows.len(), 47)
}

/// Each two of the twelve bells.
fn bells(subject: &dyn Controller) -> Outcome {
    for &f in BELLS {
        for &g in BELLS {
            let after = padded(&joined(&[b"AB", &[f], b"B", &[g], b"IHRJHRRJJ"]), 15);
            let join = Join { f: vec![f], g: vec![g], area: vec![b'#'; 15] };
            demand_join(subject, &join, &(from_words("joined", 14), after))?;
        }
    }
    Ok(())
}

/// The rules of a run, step by step, and the term that it ends with.
fn step_by_step(subject: &dyn Controller, run: &Run) -> Outcome {
    let (mut area, mut work, mut term) = (padded(run.term.as_bytes(), 100), vec![7; 100], run.term.len());
    for (step, &rule) in run.rules.iter().enumerate() {
        let reply = subject.step(&mut area, term, &mut work);
        term = size(reply);
        let stepped = pack(STEPPED, rule.into(), term);
        equal(&format!("step {}", step + 1), in_words(reply), in_words(stepped))?;
    }
    let reply = subject.step(&mut area, term, &mut work);
    equal("after the last step", in_words(reply), in_words(pack(NORMAL, 0, run.after.len())))?;
    equal_bytes("term area", &area, &padded(run.after.as_bytes(), 100))
}

/// Joins whose replies are written by hand.
pub fn known(suite: &mut Suite, label: &str, subject: impl Controller) {
    for row in rows() {
        suite.test(&format!("{label} joining: {}", row.name), || by_hand(&subject, &row));
    }
    for row in one_buffer() {
        let name = format!("{label} joining, one buffer: {}", row.name);
        suite.test(&name, || by_hand_in_one_buffer(&subject, &row));
    }
    suite.test(&format!("{label} joining: every text that reading refuses, as f and as g"), || {
        unreadable(&subject)
    });
    suite.test(&format!("{label} joining: each two bells"), || bells(&subject));
    for run in RUNS {
        suite.test(&format!("{label} joining: {} by its rules", run.term), || step_by_step(&subject, &run));
    }
}

/// Joins in areas of this size less two to this size and two more, as far as there is a size.
fn about(random: &mut Random, f: &[u8], g: &[u8], size: usize) -> Vec<Join> {
    let areas = size.saturating_sub(2)..=size + 2;
    areas.map(|area| Join { f: f.to_vec(), g: g.to_vec(), area: random.rubbish(area) }).collect()
}

fn all_agree(subject: &dyn Controller, joins: Vec<Join>) -> Outcome {
    joins.iter().try_for_each(|join| agree_join(subject, join))
}

/// Every pair of terms of up to three letters, bells 1 and T among them.
fn small_pairs(subject: &dyn Controller) -> Outcome {
    let mut random = Random::new(127);
    let texts: Vec<Vec<u8>> = (1..=3).flat_map(|size| texts_of_size(size, TWO_BELLS)).collect();
    for f in &texts {
        for g in &texts {
            all_agree(subject, about(&mut random, f, g, f.len() + g.len() + FRAME))?;
        }
    }
    Ok(())
}

/// Every pair of slices of up to two of these bytes, which are terms or not.
fn short_slices(subject: &dyn Controller) -> Outcome {
    let bytes = b"JRHI.T\0x";
    let ones = bytes.map(|byte| vec![byte]);
    let twos = bytes.iter().flat_map(|&one| bytes.map(|two| vec![one, two]));
    let slices: Vec<Vec<u8>> = [vec![]].into_iter().chain(ones).chain(twos).collect();
    for f in &slices {
        for g in &slices {
            for area in [0, 13, 14, 15, 16, 17] {
                agree_join(subject, &Join { f: f.clone(), g: g.clone(), area: vec![b'#'; area] })?;
            }
        }
    }
    Ok(())
}

fn random_terms(subject: &dyn Controller) -> Outcome {
    let mut random = Random::new(128);
    for _ in 0..3_000 {
        let [f, g] = [0; 2].map(|_| random_of_sizes(&mut random, 1, 100).text());
        let size = f.len() + g.len() + FRAME;
        all_agree(subject, about(&mut random, &f, &g, size))?;
        let area = random.below(3 * size);
        let area = random.rubbish(area);
        agree_join(subject, &Join { f: f.clone(), g, area })?;
        let area = random.rubbish(2 * f.len() + FRAME + 1);
        agree_join(subject, &Join { g: f.clone(), f, area })?;
    }
    Ok(())
}

/// Terms of up to 40,000 letters, also in areas that no other call takes.
fn large_terms(subject: &dyn Controller) -> Outcome {
    let mut random = Random::new(129);
    for _ in 0..25 {
        let [f, g] = [0; 2].map(|_| {
            let largest = *random.pick(&[3, 8_000, 40_000]);
            let size = random.between(1, largest);
            random_of_size(&mut random, size).text()
        });
        let size = f.len() + g.len() + FRAME;
        all_agree(subject, about(&mut random, &f, &g, size))?;
        let area = random.below(100_000);
        let area = random.rubbish(area);
        agree_join(subject, &Join { f, g, area })?;
    }
    Ok(())
}

/// One text or both damaged, in areas about the size of what would be their join.
fn damaged_texts(subject: &dyn Controller) -> Outcome {
    let mut random = Random::new(130);
    for _ in 0..6_000 {
        let mut texts = [0; 2].map(|_| random_of_sizes(&mut random, 1, 30).text());
        let place = random.below(2);
        texts[place] = damaged(&mut random, &texts[place].clone(), LETTERS);
        if random.once_in(3) {
            texts[1 - place] = damaged(&mut random, &texts[1 - place].clone(), LETTERS);
        }
        let size = texts[0].len() + texts[1].len() + FRAME;
        let area = *random.pick(&[0, 13, size - 1, size, size + 1, 200]);
        let [f, g] = texts;
        agree_join(subject, &Join { f, g, area: random.rubbish(area) })?;
    }
    Ok(())
}

/// Joins whose replies the second implementation predicts.
pub fn predicted(suite: &mut Suite, label: &str, subject: impl Controller) {
    suite.test(&format!("{label} joining: every pair of terms of up to 3 letters"), || small_pairs(&subject));
    suite.test(&format!("{label} joining: every pair of slices of up to two bytes"), || short_slices(&subject));
    suite.test(&format!("{label} joining: random terms"), || random_terms(&subject));
    suite.test(&format!("{label} joining: large random terms"), || large_terms(&subject));
    suite.test(&format!("{label} joining: damaged texts"), || damaged_texts(&subject));
}
