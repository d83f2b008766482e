//! Matching claims: the table, and pairs of generated and damaged files.

use crate::check_tests::{within_limits, LAYOUTS};
use crate::damage::{damaged, with_field_damaged, with_field_of_other_line};
use crate::derivations::{after_step, file_of, some};
use crate::lent::demand_match;
use crate::random::Random;
use crate::reply::{from_words, pack, MATCH};
use crate::subject::{Controller, Second};
use crate::suite::{Outcome, Suite};
use crate::table::matching::rows;
use second::plain::Plain;

fn agree(subject: &dyn Controller, files: [&[u8]; 2]) -> Outcome {
    demand_match(subject, files, Second::<Plain>::new().match_claims(files[0], files[1]))
}

fn files(seed: u64, count: usize) -> Vec<Vec<u8>> {
    let mut random = Random::new(seed);
    let made = some(&mut random, count);
    let made = made.iter().map(|derivation| file_of(derivation, *random.pick(&LAYOUTS)));
    made.filter(|file| within_limits(file)).collect()
}

/// Every two of some files, each also with itself.
fn generated(subject: &dyn Controller) -> Outcome {
    let files = files(41, 50);
    for first in &files {
        demand_match(subject, [first, first], pack(MATCH, 0, 0))?;
        for second in &files {
            agree(subject, [first, second])?;
        }
    }
    Ok(())
}

/// The claims on a term before and after a step match.
fn stepped(subject: &dyn Controller) -> Outcome {
    let mut random = Random::new(42);
    for derivation in some(&mut random, 600) {
        let Some(next) = after_step(&derivation) else { continue };
        let layout = *random.pick(&LAYOUTS);
        let files = [file_of(&derivation, layout), file_of(&next, layout)];
        if files.iter().all(|file| within_limits(file)) {
            demand_match(subject, [&files[0], &files[1]], pack(MATCH, 0, 0))?;
        }
    }
    Ok(())
}

fn damaged_files(subject: &dyn Controller) -> Outcome {
    let mut random = Random::new(43);
    let files = files(43, 150);
    for _ in 0..4_000 {
        let mut chosen = [random.pick(&files).clone(), random.pick(&files).clone()];
        let (side, field) = (random.below(2), random.below(6));
        let file = &chosen[side].clone();
        chosen[side] = match random.below(3) {
            0 => damaged(&mut random, file, b"\t\n-1ab>*JI.K"),
            1 => with_field_damaged(&mut random, file, field),
            _ => with_field_of_other_line(&mut random, file, field),
        };
        agree(subject, [&chosen[0], &chosen[1]])?;
    }
    Ok(())
}

/// Files whose replies are written by hand.
pub fn known(suite: &mut Suite, label: &str, subject: impl Controller) {
    for row in rows() {
        let name = format!("{label} matching: {}", row.name);
        suite.test(&name, || demand_match(&subject, [&row.files[0], &row.files[1]], from_words(row.reply, 0)));
    }
}

/// Files that match because of how they are made.
pub fn made(suite: &mut Suite, label: &str, subject: impl Controller) {
    suite.test(&format!("{label} matching: claims before and after a step"), || stepped(&subject));
}

/// Files whose replies the second checker predicts.
pub fn predicted(suite: &mut Suite, label: &str, subject: impl Controller) {
    suite.test(&format!("{label} matching: generated files"), || generated(&subject));
    suite.test(&format!("{label} matching: damaged files"), || damaged_files(&subject));
}
