//! Comparing: the table, refusals of both terms, random pairs, and pairs joined by changes.

use crate::changes::{backwards, forwards};
use crate::damage::damaged;
use crate::lent::{demand_pair, predict_pair, Pair};
use crate::random::Random;
use crate::reply::{code, from_words, DIFFERENT, SAME};
use crate::step_tests::padded;
use crate::subject::Controller;
use crate::suite::{Outcome, Suite};
use crate::table::comparing::{rows, Row};
use crate::terms::{random_of_size, texts_of_size, BELLS, LETTERS, TWO_BELLS};
use second::term::Term;

/// The term in an area of the given size, cut where it is longer.
fn in_area(term: &str, size: usize) -> Vec<u8> {
    let mut area = term.as_bytes().to_vec();
    area.resize(size, b'#');
    area
}

fn by_hand(subject: &dyn Controller, row: &Row) -> Outcome {
    let [first, second] = [0, 1].map(|place| in_area(row.terms[place], row.areas[place]));
    let (first_term, second_term) = (row.terms[0].len(), row.terms[1].len());
    let pair = Pair { first, first_term, second, second_term, work: vec![b'w'; row.work], fuel: row.fuel };
    let lent = match row.reply.contains('@') {
        true => [pair.first.clone(), pair.second.clone(), pair.work.clone()],
        false => [
            padded(row.after[0].as_bytes(), row.areas[0]),
            padded(row.after[1].as_bytes(), row.areas[1]),
            vec![0; row.work],
        ],
    };
    demand_pair(subject, &pair, &(from_words(row.reply, 0), lent))
}

fn agree(subject: &dyn Controller, pair: &Pair) -> Outcome {
    demand_pair(subject, pair, &predict_pair(pair))
}

fn pair_of(random: &mut Random, first: &[u8], second: &[u8], rooms: [usize; 2], fuel: u64) -> Pair {
    let mut area = |text: &[u8], room| [text, &random.rubbish(room)].concat();
    let (one, two) = (area(first, rooms[0]), area(second, rooms[1]));
    let work = random.rubbish(one.len().max(two.len()) + rooms[1] % 3);
    Pair { first: one, first_term: first.len(), second: two, second_term: second.len(), work, fuel }
}

/// Every pair of terms of up to three letters, bells 1 and T among them.
fn small_pairs(subject: &dyn Controller) -> Outcome {
    let mut random = Random::new(21);
    let texts: Vec<Vec<u8>> = (1..=3).flat_map(|size| texts_of_size(size, TWO_BELLS)).collect();
    for first in &texts {
        for second in &texts {
            for fuel in [0, 1, 10] {
                agree(subject, &pair_of(&mut random, first, second, [3, 2], fuel))?;
            }
        }
    }
    Ok(())
}

/// A term and one joined with it by a few changes, forwards or backwards.
fn joined_terms(random: &mut Random) -> [Term; 2] {
    let size = random.between(3, 14);
    let first = random_of_size(random, size);
    let mut second = first.clone();
    for _ in 0..random.between(1, 6) {
        if second.size() > 200 || random.once_in(2) {
            forwards(random, &mut second);
        } else {
            backwards(random, &mut second);
        }
    }
    [first, second]
}

/// Terms that can be turned into each other are never different.
fn joined_pairs(subject: &dyn Controller) -> Outcome {
    let mut random = Random::new(22);
    let mut same = 0;
    for _ in 0..4_000 {
        let [first, second] = joined_terms(&mut random).map(|term| term.text());
        let pair = pair_of(&mut random, &first, &second, [300, 300], 400);
        let expected = predict_pair(&pair);
        if code(expected.0) == DIFFERENT {
            return Err("the second reducer calls joined terms different".to_string());
        }
        same += usize::from(code(expected.0) == SAME);
        demand_pair(subject, &pair, &expected)?;
    }
    if same < 1_000 {
        return Err(format!("only {same} pairs were decided"));
    }
    Ok(())
}

fn random_pairs(subject: &dyn Controller) -> Outcome {
    let mut random = Random::new(23);
    for _ in 0..6_000 {
        let [first, second] = [0; 2].map(|_| {
            let size = random.between(1, 30);
            random_of_size(&mut random, size).text()
        });
        let rooms = [random.below(40), random.below(40)];
        let fuel = *random.pick(&[0, 1, 5, 100]);
        agree(subject, &pair_of(&mut random, &first, &second, rooms, fuel))?;
    }
    Ok(())
}

fn damaged_pairs(subject: &dyn Controller) -> Outcome {
    let mut random = Random::new(24);
    for _ in 0..10_000 {
        let mut texts = [0; 2].map(|_| {
            let size = random.between(1, 20);
            random_of_size(&mut random, size).text()
        });
        let place = random.below(2);
        texts[place] = damaged(&mut random, &texts[place].clone(), LETTERS);
        if random.once_in(3) {
            texts[1 - place] = damaged(&mut random, &texts[1 - place].clone(), LETTERS);
        }
        let fuel = *random.pick(&[5, 5, 5, 1_000_001]);
        agree(subject, &pair_of(&mut random, &texts[0], &texts[1], [4, 5], fuel))?;
    }
    Ok(())
}

/// Every mixture of sizes, lengths, fuels and letters near the limits, for both terms.
fn edges(subject: &dyn Controller) -> Outcome {
    let good = [(1, 1, b'J'), (3, 1, b'J'), (16_384, 1, b'J')];
    let bad_lengths = [(3, 4, b'J'), (16_385, 1, b'J'), (3, usize::MAX, b'J')];
    let bad_texts = [(3, 2, b'x'), (0, 0, b'J'), (2, 2, b'R'), (2, 2, b'J')];
    let sides = [&good[..], &bad_lengths, &bad_texts].concat();
    for &(first_size, first_term, one) in &sides {
        for &(second_size, second_term, two) in &sides {
            for work in [0, 2, 3, 16_383, 16_384, 16_385] {
                for fuel in [5, 1_000_000, 1_000_001, u64::MAX] {
                    let (first, second) = (vec![one; first_size], vec![two; second_size]);
                    let work = vec![9; work];
                    agree(subject, &Pair { first, first_term, second, second_term, work, fuel })?;
                }
            }
        }
    }
    Ok(())
}

/// Each two of the twelve bells: the same exactly when their letters are, also as results of runs.
fn bells(subject: &dyn Controller) -> Outcome {
    for &one in BELLS {
        for &two in BELLS {
            let (first, second) = (vec![one], [b".BJI", &[two][..]].concat());
            let lent = [vec![one], padded(&[two], 5), vec![0; 6]];
            let pair = Pair { first, first_term: 1, second, second_term: 5, work: vec![b'w'; 6], fuel: 1 };
            let reply = if one == two { "same" } else { "different" };
            demand_pair(subject, &pair, &(from_words(reply, 0), lent))?;
        }
    }
    Ok(())
}

/// Pairs whose replies are written by hand.
pub fn known(suite: &mut Suite, label: &str, subject: impl Controller) {
    for row in rows() {
        suite.test(&format!("{label} comparing: {}", row.name), || by_hand(&subject, &row));
    }
    suite.test(&format!("{label} comparing: each two bells"), || bells(&subject));
}

/// Pairs whose replies the plain reducer predicts.
pub fn predicted(suite: &mut Suite, label: &str, subject: impl Controller) {
    suite.test(&format!("{label} comparing: refusals at their edges"), || edges(&subject));
    suite.test(&format!("{label} comparing: every pair of terms of up to 3 letters"), || small_pairs(&subject));
    suite.test(&format!("{label} comparing: terms joined by changes"), || joined_pairs(&subject));
    suite.test(&format!("{label} comparing: random pairs"), || random_pairs(&subject));
    suite.test(&format!("{label} comparing: damaged pairs"), || damaged_pairs(&subject));
}
