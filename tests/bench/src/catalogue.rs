//! Entries into a catalogue: microseconds of a call beside one that keeps slices in a vector the way a Rust program
//! does, and the part of it that the test of the store alone takes.

use crate::entering::{at_once, one_by_one, plainly};
use crate::table::{number, Table};
use crate::timing::shortest;
use engine::Linked;
use harness::chains::chain;
use harness::random::Random;
use harness::reply::{in_words, of_enter, pack, placed, ENTERED};
use harness::stores::{alike, random_result, store_of, FRONT, MOST_LETTERS, MOST_RESULTS, STORE, TEXTS};
use harness::subject::Controller;
use harness::terms::{joined, texts_of_size};
use second::refusal::{CATALOGUE_FULL, NOT_NORMAL, NO_CATALOGUE};

type Text = Vec<u8>;

/// The letters of a result of which 256 nearly fill a store.
const USUAL: usize = 254;

/// A chain of so many letters, its last three bells by its number and the others at random; an even number of letters
/// begins with `R`.
fn piece_of(letters: usize, number: usize) -> Text {
    let mut random = Random::new(number as u64);
    let mut bells: Vec<u8> = (0..(letters - 1) / 2).map(|_| random.between(1, 12) as u8).collect();
    let last = [number / 144, number / 12, number].map(|digit| (digit % 12 + 1) as u8);
    let free = bells.len().saturating_sub(last.len());
    let digits = bells.len() - free;
    bells[free..].copy_from_slice(&last[last.len() - digits..]);
    joined(&[if letters % 2 == 0 { b"R" } else { b"" }, &chain(&bells)])
}

fn pieces(letters: usize, count: usize) -> Vec<Text> {
    (0..count).map(|number| piece_of(letters, number)).collect()
}

fn random_results(count: usize) -> Vec<Text> {
    let mut random = Random::new(9);
    (0..count).map(|_| random_result(&mut random, USUAL)).collect()
}

/// Results of one letter to four, as many of each size as there are, the smallest first.
fn small_results(count: usize) -> Vec<Text> {
    let all = (1..=4).flat_map(|size| texts_of_size(size, "JI12T"));
    all.filter(|text| !text.contains(&b'.')).take(count).collect()
}

/// A term to enter into a store.
struct Entry {
    name: &'static str,
    results: usize,
    letters: usize,
    store: Vec<u8>,
    term: Text,
    reply: u64,
}

/// The times of one entry in nanoseconds: the engine, Rust that tests zeros one by one, and Rust that tests them at
/// once.
#[derive(Clone, Copy)]
struct Times {
    engine: f64,
    rust: f64,
    faster: f64,
}

impl Times {
    /// In microseconds, and the engine's divided by those of Rust.
    fn cells(self) -> [String; 5] {
        let Times { engine, rust, faster } = self;
        [engine / 1e3, rust / 1e3, engine / rust, faster / 1e3, engine / faster].map(number)
    }
}

fn refused(number: u8) -> u64 {
    placed(number.into(), 0)
}

impl Entry {
    fn new(name: &'static str, results: &[Text], term: &[u8], reply: u64) -> Entry {
        let letters = results.iter().map(Vec::len).sum();
        Entry { name, results: results.len(), letters, store: store_of(results), term: term.to_vec(), reply }
    }

    /// The test of the store and hardly more: the term has three letters and is refused.
    fn test(results: &[Text]) -> Entry {
        Entry::new("29: .II", results, b".II", refused(NOT_NORMAL))
    }

    fn known(name: &'static str, results: &[Text], place: usize) -> Entry {
        Entry::new(name, results, &results[place], pack(ENTERED, place as u64 + 1, 0))
    }

    /// Nanoseconds of one call, each on a store filled anew.
    fn time(&self, enter: impl Fn(&[u8], &mut [u8]) -> u64) -> f64 {
        shortest(
            || self.store.clone(),
            |store| assert_eq!(enter(&self.term, store), self.reply, "{}: one reply", self.name),
        )
    }

    /// The engine and Rust are timed in turn.
    fn times(&self) -> Times {
        self.leave_the_same();
        let mut times = Times { engine: f64::INFINITY, rust: f64::INFINITY, faster: f64::INFINITY };
        for _ in 0..TURNS {
            times.engine = times.engine.min(self.time(|term, store| Linked.enter(term, store)));
            times.rust = times.rust.min(self.time(|term, store| of_enter(plainly(one_by_one, term, store))));
            times.faster = times.faster.min(self.time(|term, store| of_enter(plainly(at_once, term, store))));
        }
        times
    }

    /// All reply as expected and leave the same bytes, and the same in stores with a byte damaged.
    fn leave_the_same(&self) {
        assert_eq!(replies_alike(&self.term, &self.store), self.reply, "{}: the reply", self.name);
        let mut random = Random::new(self.letters as u64);
        for _ in 0..DAMAGES {
            let mut store = self.store.clone();
            let bound = *random.pick(&[FRONT * self.results + FRONT, TEXTS, TEXTS + self.letters + 1, STORE]);
            store[random.below(bound.min(STORE))] ^= *random.pick(&[1, 2, 128, 255]);
            replies_alike(&self.term, &store);
        }
    }
}

/// How often the shortest of some calls is looked for.
const TURNS: usize = 5;
/// Stores with a damaged byte that are tried for each entry.
const DAMAGES: usize = 50;

/// The one reply of all three, which leave the same bytes in the store and behind it.
fn replies_alike(term: &[u8], store: &[u8]) -> u64 {
    let lent = joined(&[store, b"#####"]);
    let mut stores = [lent.clone(), lent.clone(), lent];
    let engine = Linked.enter(term, &mut stores[0]);
    let rust = of_enter(plainly(one_by_one, term, &mut stores[1]));
    let faster = of_enter(plainly(at_once, term, &mut stores[2]));
    assert_eq!([rust, faster].map(in_words), [engine, engine].map(in_words), "one reply");
    assert!(stores[0] == stores[1] && stores[0] == stores[2], "all leave the same bytes");
    engine
}

/// Stores that entries do not leave though each of their results has its fingerprint, and one that is too short.
fn refuse_alike() {
    let wrong: [&[&[u8]]; 7] = [
        &[b"J", b"I", b"J"],
        &[b"A0T", b"A15", b"A0T"],
        &[b".II"],
        &[b"J", b"H"],
        &[b"JJ"],
        &[b"J", b"x"],
        &[b"J", b"", b"I"],
    ];
    for results in wrong {
        assert_eq!(replies_alike(b"J", &store_of(results)), refused(NO_CATALOGUE), "a store that is refused");
    }
    replies_alike(b"J", &[0; STORE - 6]);
    for term in [&b"Jx"[..], b"x", b"", b"H", b"H.", b"H.JJJJ", b"..II"] {
        replies_alike(term, &store_of(&[b"J", b"I"]));
    }
}

/// The results of a store, and one more where there is a number left.
struct Case {
    name: &'static str,
    results: Vec<Text>,
    next: Option<Text>,
}

impl Case {
    /// The last of these results is not in the store, unless there are 256 without it.
    fn new(name: &'static str, mut results: Vec<Text>) -> Case {
        let next = results.pop();
        Case { name, results, next }
    }

    fn full(name: &'static str, results: Vec<Text>) -> Case {
        assert_eq!(results.len(), MOST_RESULTS, "{name}: a store of as many results as there may be");
        Case { name, results, next: None }
    }

    fn letters(&self) -> usize {
        self.results.iter().map(Vec::len).sum()
    }

    /// A new result; where the store has 256, the last of them, and the store is that of the others.
    fn new_result(&self) -> Entry {
        let (before, term) = match &self.next {
            Some(next) => (&self.results[..], next),
            None => (&self.results[..MOST_RESULTS - 1], &self.results[MOST_RESULTS - 1]),
        };
        Entry::new("new", before, term, pack(ENTERED, before.len() as u64 + 1, 0))
    }

    /// A result for which there is no number left, or one letter too few.
    fn without_room(&self) -> Entry {
        let letters = if self.next.is_none() { USUAL } else { MOST_LETTERS - self.letters() + 1 };
        Entry::new("30: no room", &self.results, &piece_of(letters, 999), refused(CATALOGUE_FULL))
    }

    /// The first result, if there is one, in a store whose last byte is no zero.
    fn stray(&self) -> Entry {
        let term: &[u8] = self.results.first().map_or(b"J", |result| result);
        let mut entry = Entry::new("28: a stray last byte", &self.results, term, refused(NO_CATALOGUE));
        entry.store[STORE - 1] = 1;
        entry
    }

    fn entries(&self) -> Vec<Entry> {
        let known = [("known, the first", 0), ("known, the last", self.results.len().saturating_sub(1))];
        let known = known.into_iter().take(self.results.len());
        let known = known.map(|(name, place)| Entry::known(name, &self.results, place));
        let others = [self.new_result(), self.without_room(), self.stray(), Entry::test(&self.results)];
        known.chain(others).collect()
    }

    fn rows(&self) -> Vec<Vec<String>> {
        let test = Entry::test(&self.results).times();
        let row = |entry: Entry| {
            let times = if entry.reply == refused(NOT_NORMAL) { test } else { entry.times() };
            let words = [self.name, entry.name].map(str::to_string);
            let sizes = [entry.results, entry.letters, entry.term.len()].map(|size| size.to_string());
            let part = match entry.reply == refused(NO_CATALOGUE) {
                true => "-".to_string(),
                false => number(test.engine / times.engine),
            };
            words.into_iter().chain(sizes).chain(times.cells()).chain([part]).collect()
        };
        self.entries().into_iter().map(row).collect()
    }
}

fn cases() -> Vec<Case> {
    vec![
        Case::new("empty", pieces(USUAL, 1)),
        Case::new("1 of 254 letters", pieces(USUAL, 2)),
        Case::new("16 of 254 letters", pieces(USUAL, 17)),
        Case::new("64 of 254 letters", pieces(USUAL, 65)),
        Case::full("256 of 254 letters", pieces(USUAL, MOST_RESULTS)),
        Case::full("256 of 254 letters, random", random_results(MOST_RESULTS)),
        Case::full("256 of 1 to 4 letters", small_results(MOST_RESULTS)),
        Case::new("1 of 65,000 letters", vec![piece_of(65_000, 1), piece_of(USUAL, 2)]),
        Case::full("256 of 254 letters, one fingerprint", alike(MOST_RESULTS, USUAL, false)),
    ]
}

pub fn table() -> Table {
    refuse_alike();
    Table::new(
        "Microseconds of one entry into a catalogue beside Rust that keeps slices in a vector and tests zeros one by one \
         or at once; test/engine is the part of a call refused by 29, which tests the store and reads three letters",
        &[
            "store",
            "entry",
            "results",
            "letters",
            "term",
            "engine",
            "Rust",
            "engine/Rust",
            "at once",
            "engine/at once",
            "test/engine",
        ],
        cases().iter().flat_map(Case::rows).collect(),
    )
}

/// A store that grows: what it is made of so many times.
type Make = fn(usize) -> Vec<Text>;

const GROWING: [(&str, &[usize], Make); 4] = [
    ("64 results, more letters", &[16, 64, 256, 1_016], |letters| pieces(letters, 64)),
    ("65,024 letters, more results", &[1, 4, 16, 64, 256], |count| pieces(65_024 / count, count)),
    ("2,048 letters, more results", &[1, 4, 16, 64, 256], |count| pieces(2_048 / count, count)),
    ("one fingerprint, more results of 254", &[16, 64, 256], |count| alike(count, USUAL, false)),
];

/// The test of the store, and how its time grows from one store to the next.
fn growing((name, sizes, make): (&str, &[usize], Make)) -> Vec<Vec<String>> {
    let mut before = None;
    let row = |&size: &usize| {
        let test = Entry::test(&make(size));
        let now = test.times();
        let before = before.replace(now);
        let grown =
            |time: fn(Times) -> f64| before.map_or("-".to_string(), |before| number(time(now) / time(before)));
        let words = [name.to_string(), test.results.to_string(), test.letters.to_string()];
        let growth = [grown(|times| times.engine), grown(|times| times.rust), grown(|times| times.faster)];
        words.into_iter().chain(now.cells()).chain(growth).collect()
    };
    sizes.iter().map(row).collect()
}

pub fn growth() -> Table {
    Table::new(
        "Microseconds of the test of a store (an entry refused by 29) as stores grow; growth is from the row before, \
         which has a quarter of the letters or of the results",
        &[
            "store",
            "results",
            "letters",
            "engine",
            "Rust",
            "engine/Rust",
            "at once",
            "engine/at once",
            "growth: engine",
            "Rust",
            "at once",
        ],
        GROWING.into_iter().flat_map(growing).collect(),
    )
}
