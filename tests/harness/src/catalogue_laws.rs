//! What the catalogue is for: pieces have one number exactly if they can be turned into each other. Numbers are those
//! of first entries, and never change; the store is all that there is.

use crate::join_laws::{applied, groupings, result_of, some_terms};
use crate::lent::{demand_entry, Entry};
use crate::random::Random;
use crate::reply::*;
use crate::result_tests::{random_of_sizes, turned};
use crate::row_tests::Test;
use crate::step_tests::padded;
use crate::stores::*;
use crate::subject::Controller;
use crate::suite::{equal, equal_bytes, shown, Outcome, Suite};
use crate::terms::joined;
use second::finishing::MAX_FUEL;
use second::stepping::MAX_AREA;
use second::term::{parse, Term};
use std::collections::HashMap;

/// A catalogue as the subject keeps it, and the results in it with their numbers, by a map.
struct Kept<'a> {
    subject: &'a dyn Controller,
    store: Vec<u8>,
    texts: Vec<Vec<u8>>,
    numbers: HashMap<Vec<u8>, u64>,
}

impl<'a> Kept<'a> {
    fn new(subject: &'a dyn Controller) -> Self {
        Kept { subject, store: empty(), texts: vec![], numbers: HashMap::new() }
    }

    /// Enters a result.
    fn enter(&mut self, text: &[u8]) -> Outcome {
        self.enter_as(text, text)
    }

    /// Enters a text that must be this normal term's, of which the number is that of its first entry.
    fn enter_as(&mut self, text: &[u8], normal: &[u8]) -> Outcome {
        let next = self.texts.len() as u64 + 1;
        let number = *self.numbers.entry(normal.to_vec()).or_insert(next);
        if number == next {
            self.texts.push(normal.to_vec());
        }
        let reply = self.subject.enter(text, &mut self.store);
        let wanted = pack(ENTERED, number, 0);
        equal(&format!("number of {}", shown(text)), in_words(reply), in_words(wanted))
    }

    /// Tries to enter what is refused so.
    fn refuse(&mut self, text: &[u8], words: &str) -> Outcome {
        let reply = self.subject.enter(text, &mut self.store);
        equal(&format!("reply to {}", shown(text)), in_words(reply), in_words(from_words(words, 0)))
    }

    /// Demands that the store holds these results and no more.
    fn expect(&self) -> Outcome {
        equal_bytes("store", &self.store, &store_of(&self.texts))
    }
}

/// Random results, most of them small, with refused calls in between; then each again, in another order.
fn numbered_by_a_map(subject: &dyn Controller) -> Outcome {
    let mut random = Random::new(161);
    for _ in 0..30 {
        let mut kept = Kept::new(subject);
        for _ in 0..random.between(1, 150) {
            let size = if random.once_in(10) { random.between(6, 200) } else { random.between(1, 5) };
            let text = random_result(&mut random, size);
            kept.enter(&text)?;
            match random.below(12) {
                0 => kept.refuse(&joined(&[b"H.II", &text]), "29@0")?,
                1 => kept.refuse(&joined(&[&text, b"J"]), &format!("7@{size}"))?,
                2 => kept.refuse(&joined(&[b"R", &text, b"x"]), &format!("7@{}", size + 1))?,
                3 => kept.refuse(&text[..size - 1], &format!("6@{}", size - 1))?,
                _ => {}
            }
        }
        kept.expect()?;
        let mut again = kept.texts.clone();
        random.shuffle(&mut again);
        again.iter().try_for_each(|text| kept.enter(text))?;
        kept.expect()?;
    }
    Ok(())
}

/// Results put into a store by the tests' own hand have their numbers there, and entries leave the same bytes.
fn put_together(subject: &dyn Controller) -> Outcome {
    let mut random = Random::new(162);
    for _ in 0..60 {
        let sizes = (0..random.between(1, 60)).map(|_| random.between(1, 9)).collect::<Vec<_>>();
        let mut texts: Vec<Vec<u8>> = sizes.into_iter().map(|size| random_result(&mut random, size)).collect();
        texts.sort();
        texts.dedup();
        random.shuffle(&mut texts);
        let store = store_of(&texts);
        for (text, number) in texts.iter().zip(1..) {
            let entry = Entry { term: text.clone(), store: store.clone() };
            demand_entry(subject, &entry, &(pack(ENTERED, number, 0), store.clone()))?;
        }
        let mut kept = Kept::new(subject);
        texts.iter().try_for_each(|text| kept.enter(text))?;
        equal_bytes("store", &kept.store, &store)?;
    }
    Ok(())
}

/// A store is copied away in the middle, into other memory with bytes behind it; both go on with the same entries in
/// turn, and others go on in between.
fn copied_away(subject: &dyn Controller) -> Outcome {
    let mut random = Random::new(163);
    for _ in 0..40 {
        let mut texts: Vec<Vec<u8>> = (0..60)
            .map(|_| {
                let size = random.between(1, 4);
                random_result(&mut random, size)
            })
            .collect();
        let (mut first, mut other) = (Kept::new(subject), Kept::new(subject));
        texts[..30].iter().try_for_each(|text| first.enter(text))?;
        let more = random.between(1, 90);
        let mut copy = [vec![b'#'; more], first.store.clone(), vec![b'#'; more]].concat();
        texts.rotate_left(15);
        for text in &texts {
            let reply = subject.enter(text, &mut copy[more..]);
            other.enter(&joined(&[b"R", text]))?;
            first.enter(text)?;
            equal("number in the copy", in_words(reply), in_words(pack(ENTERED, first.numbers[text], 0)))?;
        }
        equal_bytes("the copy", &copy[more..more + STORE], &first.store)?;
        let around = [&copy[..more], &copy[more + STORE..]].concat();
        equal_bytes("around the copy", &around, &vec![b'#'; 2 * more])?;
        first.expect().and(other.expect())?;
    }
    Ok(())
}

/// The result of a term by the subject's own run of it, entered into the catalogue as the normal term that it must be.
fn finished_and_entered(kept: &mut Kept, text: &[u8], normal: &[u8]) -> Outcome {
    let (mut area, mut work) = (padded(text, MAX_AREA), vec![0; MAX_AREA]);
    let reply = kept.subject.finish(&mut area, text.len(), &mut work, MAX_FUEL);
    equal("outcome", code(reply), FINISHED)
        .and_then(|()| kept.enter_as(&area[..size(reply)], normal))
        .map_err(|what| format!("{what}; of {}, turned from {}", shown(text), shown(normal)))
}

/// Terms turned from normal ones, finished and entered: those from one normal term have one number, and no others.
fn turned_pieces(subject: &dyn Controller) -> Outcome {
    let mut random = Random::new(164);
    for _ in 0..20 {
        let mut kept = Kept::new(subject);
        let normals: Vec<Term> = (0..12)
            .map(|_| {
                let size = random.between(1, 6);
                parse(&random_result(&mut random, size)).expect("the text of a term")
            })
            .collect();
        for _ in 0..40 {
            let normal = random.pick(&normals).clone();
            let piece = turned(&mut random, &normal).text();
            if piece.contains(&b'.') {
                kept.refuse(&piece, "29@0")?;
            }
            finished_and_entered(&mut kept, &piece, &normal.text())?;
        }
        kept.expect()?;
    }
    Ok(())
}

/// Joins in either grouping, applied, have one number: that of the normal term which a search in every order finds.
fn joined_pieces(subject: &dyn Controller) -> Outcome {
    let mut random = Random::new(165);
    let mut kept = Kept::new(subject);
    let mut decided = 0;
    for _ in 0..150 {
        let [f, g, h, t] = some_terms(&mut random);
        let Some(normal) = result_of(&[&f, &g, &h, &t]) else { continue };
        let normal = normal.text();
        if kept.texts.len() == MOST_RESULTS || normal.len() > 200 {
            continue;
        }
        decided += 1;
        let groupings = groupings(subject, [&f.text(), &g.text(), &h.text()])?;
        for join in &groupings {
            finished_and_entered(&mut kept, &applied(join, &t.text()), &normal)?;
        }
    }
    kept.expect()?;
    equal("more than 100 were decided", decided > 100, true)
}

/// Terms of few letters, run and entered: as many numbers as there are different results of a search in every order.
fn small_pieces(subject: &dyn Controller) -> Outcome {
    let mut random = Random::new(166);
    let mut kept = Kept::new(subject);
    while kept.texts.len() < 200 {
        let term = random_of_sizes(&mut random, 3, 9);
        let Some(normal) = result_of(&[&term]) else { continue };
        finished_and_entered(&mut kept, &term.text(), &normal.text())?;
    }
    kept.expect()
}

/// 256 results of one fingerprint and one size, which differ at their ends or at their beginnings alone: each has its
/// number, and again; then the catalogue is full, where they have 256 letters each in both ways.
fn alike_to_the_last(subject: &dyn Controller) -> Outcome {
    for (size, first) in [(256, false), (40, true)] {
        let texts = alike(256, size, first);
        let prints: Vec<u32> = texts.iter().map(|text| fingerprint(text)).collect();
        equal("one fingerprint", prints.iter().all(|print| *print == prints[0]), true)?;
        let mut kept = Kept::new(subject);
        texts.iter().try_for_each(|text| kept.enter(text))?;
        kept.expect()?;
        texts.iter().rev().step_by(9).try_for_each(|text| kept.enter(text))?;
        kept.refuse(b"J", "30@0")?;
        kept.refuse(&alike(256, size, !first)[7], "30@0")?;
        kept.refuse(&[&texts[0][..], b"J"].concat(), &format!("7@{size}"))?;
        kept.expect()?;
    }
    Ok(())
}

/// What follows from what a catalogue is, of stores that the subject itself leaves.
pub fn made(suite: &mut Suite, label: &str, subject: impl Controller) {
    let tests: [Test; 7] = [
        ("numbers by a map, refused calls in between, and each again", numbered_by_a_map),
        ("stores put together by hand", put_together),
        ("a store copied away, and both go on", copied_away),
        ("terms turned from normal ones, finished", turned_pieces),
        ("joins in either grouping, finished", joined_pieces),
        ("terms searched in every order, finished", small_pieces),
        ("256 results of one fingerprint and one size", alike_to_the_last),
    ];
    for (name, test) in tests {
        suite.test(&format!("{label} catalogue: {name}"), || test(&subject));
    }
}
