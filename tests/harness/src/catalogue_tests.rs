//! The catalogue: the table, stores of every size, every byte of a store another, random entries, damaged stores, full
//! ones.

use crate::catalogue_laws;
use crate::damage::damaged;
use crate::lent::*;
use crate::random::Random;
use crate::reply::{from_words, in_words, is_refusal};
use crate::row_tests::Test;
use crate::stores::*;
use crate::subject::{Controller, Second};
use crate::suite::{equal, equal_bytes, Outcome, Suite};
use crate::table::catalogue::{rows, Row, BYTES};
use crate::table::reading;
use crate::terms::{random_of_size, LETTERS};
use second::plain::Plain;
use std::collections::HashSet;

/// The reply that a row names: a refusal, or a number in the catalogue.
fn reply(words: &str) -> u64 {
    match words.contains('@') {
        true => from_words(words, 0),
        false => from_words(&format!("entered {words}"), 0),
    }
}

/// A row written by hand: the store holds the results that were new, in their order, and nothing else.
fn by_hand(subject: &dyn Controller, row: &Row) -> Outcome {
    let (mut held, mut store) = (row.held.clone(), row.store.clone());
    for (text, words) in &row.entries {
        let mut after = store.clone();
        if words.parse() == Ok(held.len() + 1) {
            held.push(text.clone());
            after = store_of(&held);
        }
        demand_entry(subject, &Entry { term: text.clone(), store }, &(reply(words), after.clone()))?;
        store = after;
    }
    Ok(())
}

/// Entries into zeros, and the bytes of the store as they are written by hand.
fn bytes_by_hand(subject: &dyn Controller) -> Outcome {
    for (texts, first, letters) in BYTES {
        let mut store = empty();
        for (text, number) in texts.iter().zip(1..) {
            let got = subject.enter(&text.as_bytes().to_vec(), &mut store);
            equal("reply", in_words(got), in_words(reply(&number.to_string())))?;
        }
        let mut wanted = empty();
        wanted[..first.len()].copy_from_slice(first);
        wanted[TEXTS..TEXTS + letters.len()].copy_from_slice(letters);
        equal_bytes(&format!("the store of {texts:?}"), &store, &wanted)?;
        equal_bytes(&format!("the tests' own store of {texts:?}"), &store_of(texts), &wanted)?;
    }
    Ok(())
}

/// Demands a refusal that leaves every byte.
fn demand_refused(subject: &dyn Controller, term: &[u8], store: &[u8], words: &str) -> Outcome {
    let entry = Entry { term: term.to_vec(), store: store.to_vec() };
    demand_entry(subject, &entry, &(reply(words), entry.store.clone()))
}

/// Terms that are entered, refused for themselves, and none: a store that is too short is refused ahead of them.
const TEXTS_OF_ALL_KINDS: [&str; 6] = ["J", "HJJ", ".II", "Jx", "x", ""];

/// Stores of too few bytes, whatever they hold: nothing, a part of a catalogue, or what is none.
fn short_stores(subject: &dyn Controller) -> Outcome {
    let whole = [empty(), store_of(&["J", "HJJ"]), vec![b'#'; STORE], vec![255; STORE]];
    for size in [0, 1, 7, 8, 9, 2_047, 2_048, 2_049, 16_384, 65_536, 67_576, 67_582, 67_583] {
        for store in &whole {
            TEXTS_OF_ALL_KINDS
                .iter()
                .try_for_each(|text| demand_refused(subject, text.as_bytes(), &store[..size], "2@0"))?;
        }
    }
    Ok(())
}

/// What may stand behind a store: zeros, letters, bytes that are none, another store, one that is none.
fn tails(size: usize) -> Vec<Vec<u8>> {
    let another = [store_of(&["J", "I"]), vec![0; size]].concat();
    let mixed = (0..size).map(|place| (place as u8).wrapping_mul(89)).collect();
    [
        vec![vec![0; size], another[..size].to_vec(), mixed],
        [1, b'J', b'#', 255].map(|byte| vec![byte; size]).into(),
    ]
    .concat()
}

/// Stores with bytes behind them, which stay as they are and matter to nothing.
fn long_stores(subject: &dyn Controller) -> Outcome {
    let (before, after) = (store_of(&["J"]), store_of(&["J", "A0T"]));
    for size in [0, 1, 2, 7, 8, 512, 5_000, STORE, 200_000] {
        for tail in tails(size) {
            let [before, after] = [&before, &after].map(|store| [&store[..], &tail].concat());
            let entry = |term: &str, store: &[u8]| Entry { term: term.into(), store: store.to_vec() };
            demand_entry(subject, &entry("A0T", &before), &(reply("2"), after.clone()))?;
            demand_entry(subject, &entry("A0T", &after), &(reply("2"), after.clone()))?;
            demand_entry(subject, &entry("J", &after), &(reply("1"), after.clone()))?;
            demand_refused(subject, b".II", &after, "29@0")?;
            demand_refused(subject, b"Jx", &after, "7@1")?;
            let mut bad = after;
            bad[STORE - 1] = 1;
            demand_refused(subject, b"J", &bad, "28@0")?;
        }
    }
    Ok(())
}

/// The rows of reading that are refused: each is refused so by a catalogue, by 28 where there is none and by 2 where
/// the store is too short.
fn unreadable(subject: &dyn Controller) -> Outcome {
    let mut none = store_of(&["J"]);
    none[STORE - 1] = 1;
    let full = [store_of(&small_results(MOST_RESULTS)), store_of(&alike(256, 256, true))];
    let good = [empty(), store_of(&["J", "A0T", "A15"])].into_iter().chain(full).collect::<Vec<_>>();
    for row in reading::rows().into_iter().filter(|row| row.reply.contains('@')) {
        for store in &good {
            demand_refused(subject, &row.slice, store, &row.reply)?;
        }
        demand_refused(subject, &row.slice, &none, "28@0")?;
        demand_refused(subject, &row.slice, &good[0][1..], "2@0")?;
    }
    Ok(())
}

/// Some results of several sizes, two pairs of them with one fingerprint.
const SOME: [&str; 7] = ["J", "RRJ", "A0T", "BARJIAJJ", "A15", "ABIB1IHRJHRRJJ", "ARJRRRHII"];

/// Every byte that no result uses another than zero: no store is one then.
fn every_unused_byte(subject: &dyn Controller) -> Outcome {
    let (used, letters) = (FRONT * SOME.len(), TEXTS + SOME.concat().len());
    let base = store_of(&SOME);
    let mut lent = Guarded::new(&base);
    for place in (used..TEXTS).chain(letters..STORE) {
        let byte = [1, b'J', b'R', 255, b'.', 16, 128, b'I', b'#'][place % 9];
        lent.area()[place] = byte;
        let got = subject.enter(b"J", lent.area());
        equal(&format!("reply with byte {place} {byte}"), in_words(got), in_words(reply("28@0")))?;
        equal("that byte afterwards", lent.area()[place], byte)?;
        lent.area()[place] = 0;
    }
    lent.expect("the store at last", &base)
}

/// Entries whose replies are written by hand: first what is quick.
pub fn known(suite: &mut Suite, label: &str, subject: impl Controller) {
    let quick: [Test; 3] = [
        ("the bytes of stores", bytes_by_hand),
        ("stores of too few bytes", short_stores),
        ("bytes behind the store", long_stores),
    ];
    for (name, test) in quick {
        suite.test(&format!("{label} catalogue: {name}"), || test(&subject));
    }
    for row in rows() {
        suite.test(&format!("{label} catalogue: {}", row.name), || by_hand(&subject, &row));
    }
    let tests: [Test; 2] = [
        ("every text that reading refuses", unreadable),
        ("every byte that no result uses another", every_unused_byte),
    ];
    for (name, test) in tests {
        suite.test(&format!("{label} catalogue: {name}"), || test(&subject));
    }
}

/// A store lent again and again with one thing in it changed, beside the second implementation's.
struct Beside<'a> {
    subject: &'a dyn Controller,
    base: Vec<u8>,
    lent: Guarded,
    predicted: Vec<u8>,
}

impl<'a> Beside<'a> {
    fn new(subject: &'a dyn Controller, base: Vec<u8>) -> Self {
        Beside { subject, lent: Guarded::new(&base), predicted: base.clone(), base }
    }

    /// Enters a text with this byte in this place; the store is then as before.
    fn with_byte(&mut self, text: &[u8], place: usize, byte: u8) -> Outcome {
        self.lent.area()[place] = byte;
        self.predicted[place] = byte;
        let got = self.subject.enter(text, self.lent.area());
        let wanted = Second::<Plain>::new().enter(text, &mut self.predicted);
        equal("reply", in_words(got), in_words(wanted))
            .and_then(|()| equal_bytes("store", self.lent.area(), &self.predicted))
            .map_err(|what| format!("{what}; with byte {place} {byte}"))?;
        if is_refusal(got) {
            self.lent.area()[place] = self.base[place];
            self.predicted[place] = self.base[place];
        } else {
            self.lent.area().copy_from_slice(&self.base);
            self.predicted.copy_from_slice(&self.base);
        }
        Ok(())
    }
}

/// Every letter, bytes next to letters, small numbers and large ones.
const MANY: &[u8] =
    b"JRHAIB.1234567890ETxKCGQS/:\0\x01\x02\x03\x07\x08\x09\x0e\x0f\x10\x1f \x7f\x80\xc0\xca\xfe\xff";

/// Every byte of the fronts and of the texts of a store another, by many values, and some of those behind them.
fn every_byte(subject: &dyn Controller) -> Outcome {
    let mut random = Random::new(157);
    let mut beside = Beside::new(subject, store_of(&SOME));
    let used = TEXTS + SOME.concat().len();
    for place in 0..STORE {
        let held = beside.base[place];
        let values: Vec<u8> = match place {
            _ if place < FRONT * (SOME.len() + 1) => [MANY, &[held ^ 1, held ^ 2, held ^ 128]].concat(),
            _ if place < TEXTS => vec![1, 128, 255],
            _ if place < used + 8 => MANY.to_vec(),
            _ if place % 61 == 0 || place > STORE - 3 => vec![*random.pick(MANY), 255],
            _ => vec![],
        };
        for value in values.into_iter().filter(|&value| value != held) {
            beside.with_byte(b"J", place, value)?;
        }
    }
    beside.lent.expect("the store at last", &beside.base)
}

/// Every byte of the front of a store of 256 results another, and some of the letters of one that is full of letters.
fn bytes_of_full_stores(subject: &dyn Controller) -> Outcome {
    let mut random = Random::new(151);
    let mut most = Beside::new(subject, store_of(&small_results(MOST_RESULTS)));
    for place in 0..TEXTS {
        let held = most.base[place];
        most.with_byte(b"T", place, held.wrapping_add(*random.pick(&[1, 2, 31, 128, 255])))?;
    }
    let long = vec![random_result(&mut random, 40_000), random_result(&mut random, 25_536)];
    let mut letters = Beside::new(subject, store_of(&long));
    for place in [0, 1, 39_998, 39_999, 40_000, 40_001, 65_534, 65_535].map(|place| TEXTS + place) {
        for value in *b"JR.\0" {
            letters.with_byte(&long[1], place, value)?;
        }
    }
    for _ in 0..20 {
        letters.with_byte(&long[0], TEXTS + random.below(MOST_LETTERS), *random.pick(LETTERS))?;
    }
    Ok(())
}

/// A text to enter: small normal terms, so that many come again, terms with full stops, damaged texts.
fn some_text(random: &mut Random) -> Vec<u8> {
    let size = random.between(1, 5);
    match random.below(10) {
        0 => random_of_size(random, size).text(),
        1 => {
            let text = random_result(random, size);
            damaged(random, &text, LETTERS)
        }
        2 => {
            let size = random.between(6, 60);
            random_result(random, size)
        }
        _ => random_result(random, size),
    }
}

/// Random entries one after the other into one store, with bytes behind it now and then.
fn random_entries(subject: &dyn Controller) -> Outcome {
    let mut random = Random::new(152);
    for _ in 0..100 {
        let more = if random.once_in(3) { random.between(1, 400) } else { 0 };
        let mut store = [empty(), random.rubbish(more)].concat();
        for _ in 0..random.between(5, 70) {
            let term = some_text(&mut random);
            store = agree_entry(subject, &Entry { term, store })?;
        }
    }
    Ok(())
}

/// Every term of up to three letters, all bells among them, into one store and then another.
fn small_terms(subject: &dyn Controller) -> Outcome {
    let all = (1..=3).flat_map(|size| crate::terms::texts_of_size(size, crate::terms::ALL_BELLS));
    let mut store = empty();
    for term in all {
        store = agree_entry(subject, &Entry { term, store })?;
    }
    Ok(())
}

/// One change to a store, of which some leave it a catalogue.
fn damage(random: &mut Random, store: &mut [u8], results: usize) {
    let front = |random: &mut Random| FRONT * random.below(results + 2);
    let letter = |random: &mut Random| TEXTS + random.below(40);
    match random.below(9) {
        0 => store[random.below(STORE)] = random.byte(),
        1 => store[letter(random)] = *random.pick(LETTERS),
        2 => {
            let (one, two) = (letter(random), letter(random));
            store.swap(one, two);
        }
        3 => {
            let place = front(random) + 4 * random.below(2);
            store[place] = store[place].wrapping_add(*random.pick(&[1, 2, 31, 255]));
        }
        4 => {
            let (place, word) = (front(random) + 4 * random.below(2), random.rubbish(4));
            store[place..place + 4].copy_from_slice(&word);
        }
        5 => {
            let (one, two) = (front(random), front(random));
            (0..FRONT).for_each(|byte| store.swap(one + byte, two + byte));
        }
        6 => {
            let place = front(random);
            store[place..place + FRONT].fill(0);
        }
        7 => {
            let place = letter(random);
            store[place..TEXTS + 80].rotate_left(1);
        }
        _ => {
            let (from, to) = (front(random), front(random));
            store.copy_within(from..from + FRONT, to);
        }
    }
}

/// Stores of a few results, changed in one place or in several.
fn damaged_stores(subject: &dyn Controller) -> Outcome {
    let mut random = Random::new(153);
    for _ in 0..3_000 {
        let count = random.between(1, 9);
        let mut texts: Vec<Vec<u8>> = (0..count).map(|_| some_text(&mut random)).collect();
        if random.once_in(2) {
            texts.sort();
            texts.dedup();
            texts.retain(|text| !text.contains(&b'.'));
        }
        let mut store = store_of(&texts);
        for _ in 0..random.below(3) {
            damage(&mut random, &mut store, texts.len());
        }
        let term = if random.once_in(2) { random.pick(&SOME).as_bytes().to_vec() } else { some_text(&mut random) };
        agree_entry(subject, &Entry { term, store })?;
    }
    Ok(())
}

/// Results exchanged, left out and put in twice, with everything else of the store as it then must be: all but the
/// last are catalogues.
fn rearranged_stores(subject: &dyn Controller) -> Outcome {
    let mut random = Random::new(154);
    for _ in 0..600 {
        let mut texts: Vec<Vec<u8>> = SOME.iter().map(|text| text.as_bytes().to_vec()).collect();
        let (one, two) = (random.below(texts.len()), random.below(texts.len()));
        match random.below(3) {
            0 => texts.swap(one, two),
            1 => drop(texts.remove(one)),
            _ => texts.insert(one, texts[two].clone()),
        }
        let term = some_text(&mut random);
        agree_entry(subject, &Entry { term, store: store_of(&texts) })?;
    }
    Ok(())
}

/// So many results of these sizes by hand, and then entries until the catalogue is full, and some more; known ones in
/// between.
fn filled(subject: &dyn Controller, count: usize, low: usize, high: usize) -> Outcome {
    let mut random = Random::new(155 + low as u64);
    let result = |random: &mut Random| {
        let size = random.between(low, high);
        random_result(random, size)
    };
    let mut texts: Vec<Vec<u8>> = (0..count).map(|_| result(&mut random)).collect();
    equal("different results", texts.iter().collect::<HashSet<_>>().len(), count)?;
    let (mut store, mut refused) = (store_of(&texts), 0);
    while refused < 4 {
        let term = result(&mut random);
        let after = agree_entry(subject, &Entry { term: term.clone(), store: store.clone() })?;
        refused += usize::from(after == store);
        texts.push(term);
        let known = random.pick(&texts).clone();
        store = agree_entry(subject, &Entry { term: known, store: after })?;
    }
    for size in [1, 2, 3, low] {
        let term = random_result(&mut random, size);
        store = agree_entry(subject, &Entry { term, store })?;
    }
    Ok(())
}

fn filled_stores(subject: &dyn Controller) -> Outcome {
    let kinds = [(230, 20, 60), (245, 255, 258), (10, 1_500, 4_000), (0, 9_000, 30_000), (0, 60_000, 66_000)];
    kinds.into_iter().try_for_each(|(count, low, high)| filled(subject, count, low, high))
}

/// Results of one fingerprint and one size that differ at their ends alone, or at their beginnings.
fn alike_one_by_one(subject: &dyn Controller) -> Outcome {
    let mut random = Random::new(156);
    for (count, size, first) in [(32, 21, false), (32, 21, true), (64, 900, false)] {
        let mut texts = alike(count, size, first);
        random.shuffle(&mut texts);
        let mut store = empty();
        for term in texts.iter().chain(&texts) {
            store = agree_entry(subject, &Entry { term: term.clone(), store })?;
        }
    }
    Ok(())
}

/// Entries whose replies the second implementation predicts.
pub fn predicted(suite: &mut Suite, label: &str, subject: impl Controller) {
    let tests: [Test; 8] = [
        ("every term of up to 3 letters", small_terms),
        ("random entries", random_entries),
        ("damaged stores", damaged_stores),
        ("results exchanged, left out and put in twice", rearranged_stores),
        ("results of one fingerprint and one size", alike_one_by_one),
        ("stores filled by results of many sizes", filled_stores),
        ("some bytes of full stores another", bytes_of_full_stores),
        ("every byte of fronts and texts another", every_byte),
    ];
    for (name, test) in tests {
        suite.test(&format!("{label} catalogue: {name}"), || test(&subject));
    }
}

/// Every test of the catalogue.
pub fn all(suite: &mut Suite, label: &str, subject: impl Controller + Copy) {
    known(suite, label, subject);
    catalogue_laws::made(suite, label, subject);
    predicted(suite, label, subject);
}
