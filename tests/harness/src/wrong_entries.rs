//! A subject with one slip in its catalogue: in what it tells, which refusal it gives, and what it writes.

use crate::reply::*;
use crate::stores::{FRONT, MOST_LETTERS, MOST_RESULTS, STORE, TEXTS};
use crate::subject::Controller;
use crate::wrong_catalogue::*;
use second::comparing::Lent;
use std::sync::atomic::{AtomicU64, Ordering};

/// The tests' own catalogue, without a slip.
pub static NONE: Slip = slip("", |_, lent| RIGHT.enter(lent));

/// The subject, but for its catalogue.
#[derive(Clone, Copy)]
pub struct Wrong<C> {
    pub subject: C,
    pub slip: &'static Slip,
}

impl<C: Controller> Controller for Wrong<C> {
    fn read(&self, slice: &[u8]) -> u64 {
        self.subject.read(slice)
    }

    fn step(&self, area: &mut [u8], term: usize, work: &mut [u8]) -> u64 {
        self.subject.step(area, term, work)
    }

    fn finish(&self, area: &mut [u8], term: usize, work: &mut [u8], fuel: u64) -> u64 {
        self.subject.finish(area, term, work, fuel)
    }

    fn finish_counted(&self, area: &mut [u8], term: usize, work: &mut [u8], fuel: u64, counts: &mut [u8]) -> u64 {
        self.subject.finish_counted(area, term, work, fuel, counts)
    }

    fn compare(&self, first: Lent, second: Lent, work: &mut [u8], fuel: u64) -> u64 {
        self.subject.compare(first, second, work, fuel)
    }

    fn join(&self, f: &[u8], g: &[u8], area: &mut [u8]) -> u64 {
        self.subject.join(f, g, area)
    }

    fn rows(&self, term: &[u8], bells: usize, table: &mut [u8]) -> u64 {
        self.subject.rows(term, bells, table)
    }

    fn enter(&self, term: &[u8], store: &mut [u8]) -> u64 {
        (self.slip.enter)(&self.subject, Entering { term, store })
    }

    fn book(&self, book: &[u8], area: &mut [u8], work: &mut [u8], store: &mut [u8], fuel: u64) -> u64 {
        self.subject.book(book, area, work, store, fuel)
    }

    fn check(&self, file: &[u8]) -> u64 {
        self.subject.check(file)
    }

    fn match_claims(&self, first: &[u8], second: &[u8]) -> u64 {
        self.subject.match_claims(first, second)
    }
}

// Ways to change what a subject replies to an entry, and what it leaves.

/// Another reply in the place of those with this code.
fn replied(subject: &dyn Controller, lent: Entering, from: u64, to: impl Fn(u64) -> u64) -> u64 {
    let reply = subject.enter(lent.term, lent.store);
    match code(reply) == from {
        true => to(reply),
        false => reply,
    }
}

/// The reply that a call comes to on a copy of the store, so that a slip may still give another.
fn tried(subject: &dyn Controller, lent: &Entering) -> u64 {
    subject.enter(lent.term, &mut lent.store.to_vec())
}

/// This reply where the call comes to one with such a code, and the store is left.
fn instead(subject: &dyn Controller, lent: Entering, codes: &[u64], other: Option<u64>) -> u64 {
    match other {
        Some(other) if codes.contains(&code(tried(subject, &lent))) => other,
        _ => subject.enter(lent.term, lent.store),
    }
}

/// Something is written after a reply with one of these codes.
fn written(subject: &dyn Controller, lent: Entering, codes: &[u64], write: fn(&[u8], &mut [u8])) -> u64 {
    let reply = subject.enter(lent.term, &mut *lent.store);
    if codes.contains(&code(reply)) {
        write(lent.term, lent.store);
    }
    reply
}

/// An entry of a known result writes.
fn known_writes(subject: &dyn Controller, lent: Entering, write: fn(&[u8], &mut [u8])) -> u64 {
    let before = lent.store.to_vec();
    let reply = subject.enter(lent.term, &mut *lent.store);
    if code(reply) == ENTERED && before == lent.store {
        write(lent.term, lent.store);
    }
    reply
}

/// The text of a term once more behind the letters, without a front.
fn text_behind(term: &[u8], store: &mut [u8]) {
    let (_, letters) = told(store);
    store[TEXTS..STORE].iter_mut().skip(letters).zip(term).for_each(|(place, letter)| *place = *letter);
}

/// A front with this size behind the last.
fn front_behind(term: &[u8], store: &mut [u8]) {
    let (results, _) = told(store);
    if results < MOST_RESULTS {
        store[FRONT * results] = term.len() as u8 | 1;
    }
}

fn reading_first(subject: &dyn Controller, lent: Entering, codes: &[u64]) -> u64 {
    let read = subject.read(lent.term);
    instead(subject, lent, codes, is_refusal(read).then_some(read))
}

fn stop_first(subject: &dyn Controller, lent: Entering, codes: &[u64]) -> u64 {
    let stopped = lent.term.contains(&b'.').then_some(placed(NOT_NORMAL, 0));
    instead(subject, lent, codes, stopped)
}

/// Is a store of this length told to be full for the term?
fn full(lent: &Entering) -> bool {
    let (results, letters) = told(lent.store);
    results == MOST_RESULTS || letters + lent.term.len() > MOST_LETTERS
}

/// The halves of each front change places.
fn exchange_halves(store: &mut [u8]) {
    let fronts = TEXTS.min(store.len());
    store[..fronts].chunks_exact_mut(FRONT).for_each(|front| front.rotate_left(4));
}

/// The number of results is kept outside of the store.
fn counted_outside(subject: &dyn Controller, lent: Entering) -> u64 {
    static RESULTS: AtomicU64 = AtomicU64::new(0);
    let before = told(lent.store).0 as u64;
    let reply = subject.enter(lent.term, lent.store);
    match code(reply) == ENTERED && value(reply) > before {
        true => pack(ENTERED, RESULTS.fetch_add(1, Ordering::Relaxed) % 256 + 1, 0),
        false => reply,
    }
}

/// A new result becomes number 1, and the others move up.
fn put_in_front(subject: &dyn Controller, lent: Entering) -> u64 {
    let (results, letters) = match lent.store.len() < STORE {
        true => (0, 0),
        false => told(lent.store),
    };
    let reply = subject.enter(lent.term, &mut *lent.store);
    if code(reply) == ENTERED && value(reply) as usize > results {
        lent.store[..FRONT * (results + 1)].rotate_right(FRONT);
        lent.store[TEXTS..TEXTS + letters + lent.term.len()].rotate_right(lent.term.len());
        return pack(ENTERED, 1, 0);
    }
    reply
}

/// A known result is moved to the end, and has the last number.
fn moved_to_the_end(subject: &dyn Controller, lent: Entering) -> u64 {
    let reply = subject.enter(lent.term, &mut *lent.store);
    if code(reply) != ENTERED || value(reply) as usize == told(lent.store).0 {
        return reply;
    }
    let (results, letters) = told(lent.store);
    let (place, size) = (value(reply) as usize - 1, lent.term.len());
    let before = told(&lent.store[..FRONT * place]).1;
    lent.store[FRONT * place..FRONT * results].rotate_left(FRONT);
    lent.store[TEXTS + before..TEXTS + letters].rotate_left(size);
    pack(ENTERED, results as u64, 0)
}

/// A term is finished before it is entered.
fn finished_first(subject: &dyn Controller, lent: Entering) -> u64 {
    if code(tried(subject, &lent)) != NOT_NORMAL || lent.term.len() > 1_000 {
        return subject.enter(lent.term, lent.store);
    }
    let (mut area, mut work) = (lent.term.to_vec(), vec![0; lent.term.len()]);
    let reply = subject.finish(&mut area, lent.term.len(), &mut work, 1_000);
    subject.enter(&area[..size(reply)], lent.store)
}

/// The bytes behind a store are tested to be zeros.
fn tail_tested(subject: &dyn Controller, lent: Entering) -> u64 {
    let dirty = lent.store.iter().skip(STORE).any(|&byte| byte != 0);
    instead(subject, lent, &[ENTERED, NOT_NORMAL, FULL, 5, 6, 7], dirty.then_some(placed(NO_CATALOGUE, 0)))
}

/// What was lent to be read alone is written.
fn term_written(subject: &dyn Controller, lent: Entering) -> u64 {
    let term = lent.term;
    replied(subject, lent, ENTERED, |reply| {
        unsafe { term.as_ptr().cast_mut().write_volatile(b'x') };
        reply
    })
}

const ANSWERS: &[u64] = &[ENTERED];

/// Slips in what a subject tells and writes.
static WRAPPED: &[Slip] = &[
    // what is told
    slip("entered answered by 151", |s, lent| replied(s, lent, ENTERED, |reply| reply + 1)),
    slip("results numbered from 0", |s, lent| replied(s, lent, ENTERED, |reply| reply - (1 << 8))),
    slip("results numbered in 8 bits", |s, lent| replied(s, lent, ENTERED, |reply| reply & 0xffff)),
    slip("a size told beside the number", |s, lent| {
        let size = lent.term.len();
        replied(s, lent, ENTERED, |reply| reply | (size as u64) << 32)
    }),
    slip("a new result told in the size", |s, lent| {
        let before = told(lent.store).0 as u64;
        replied(s, lent, ENTERED, |reply| reply | u64::from(value(reply) > before) << 32)
    }),
    slip("the number of results told for a known one", |s, lent| {
        let before = told(lent.store).0.max(1) as u64;
        replied(s, lent, ENTERED, |reply| pack(ENTERED, before.max(value(reply)), 0))
    }),
    slip("the place of its letters told for a result's number", |s, lent| {
        let letters = told(lent.store).1 as u64;
        replied(s, lent, ENTERED, |reply| pack(ENTERED, value(reply).max(letters), 0))
    }),
    slip("2 at the number of bytes there are", |s, lent| {
        let size = lent.store.len();
        replied(s, lent, TOO_SHORT, |_| placed(TOO_SHORT, size))
    }),
    slip("28 at the number of results told", |s, lent| {
        let results = told(lent.store).0;
        replied(s, lent, NO_CATALOGUE, |_| placed(NO_CATALOGUE, results))
    }),
    slip("29 at the full stop", |s, lent| {
        let place = lent.term.iter().position(|&letter| letter == b'.').unwrap_or(0);
        replied(s, lent, NOT_NORMAL, |_| placed(NOT_NORMAL, place))
    }),
    slip("30 at the number of results", |s, lent| {
        let results = told(lent.store).0;
        replied(s, lent, FULL, |_| placed(FULL, results))
    }),
    slip("28 answered as 2", |s, lent| replied(s, lent, NO_CATALOGUE, |_| placed(TOO_SHORT, 0))),
    slip("2 answered as 28", |s, lent| replied(s, lent, TOO_SHORT, |_| placed(NO_CATALOGUE, 0))),
    slip("29 answered as 20", |s, lent| replied(s, lent, NOT_NORMAL, |_| placed(20, 0))),
    slip("30 answered as 31", |s, lent| replied(s, lent, FULL, |_| placed(31, 0))),
    slip("6 told as 5 by an entry", |s, lent| replied(s, lent, 6, |reply| reply - 1)),
    slip("7 at 0 by an entry", |s, lent| replied(s, lent, 7, |_| placed(7, 0))),
    // how many there may be
    slip("a 256th result refused", |s, lent| {
        let last = told(lent.store).0 == 255;
        let before = lent.store.to_vec();
        let store = lent.store;
        let reply = s.enter(lent.term, &mut *store);
        match last && value(reply) == 256 && code(reply) == ENTERED {
            true => {
                store.copy_from_slice(&before);
                placed(FULL, 0)
            }
            false => reply,
        }
    }),
    slip("65,536 letters for each result", |s, lent| {
        let fits = lent.term.len() <= MOST_LETTERS && told(lent.store).0 < MOST_RESULTS;
        let number = told(lent.store).0 as u64 + 1;
        instead(s, lent, &[FULL], fits.then(|| pack(ENTERED, number, 0)))
    }),
    slip("a result of more than 16,384 letters refused", |s, lent| {
        let large = lent.term.len() > 16_384;
        instead(s, lent, ANSWERS, large.then_some(placed(FULL, 0)))
    }),
    slip("a result that takes the last letter refused", |s, lent| {
        let last = told(lent.store).1 + lent.term.len() == MOST_LETTERS;
        instead(s, lent, ANSWERS, last.then_some(placed(FULL, 0)))
    }),
    slip("a known result refused where there are 256", |s, lent| {
        let most = told(lent.store).0 == MOST_RESULTS;
        instead(s, lent, ANSWERS, most.then_some(placed(FULL, 0)))
    }),
    slip("a known result refused where no letters are left for it", |s, lent| {
        let none = lent.store.len() >= STORE && told(lent.store).1 + lent.term.len() > MOST_LETTERS;
        instead(s, lent, ANSWERS, none.then_some(placed(FULL, 0)))
    }),
    slip("a store of 256 results taken for none", |s, lent| {
        let most = told(lent.store).0 == MOST_RESULTS;
        instead(s, lent, &[ENTERED, FULL, NOT_NORMAL], most.then_some(placed(NO_CATALOGUE, 0)))
    }),
    slip("a store of 65,536 letters taken for none", |s, lent| {
        let most = told(lent.store).1 == MOST_LETTERS;
        instead(s, lent, &[ENTERED, FULL, NOT_NORMAL], most.then_some(placed(NO_CATALOGUE, 0)))
    }),
    slip("a new store taken for none", |s, lent| {
        let new = lent.store.iter().take(STORE).all(|&byte| byte == 0);
        instead(s, lent, ANSWERS, new.then_some(placed(NO_CATALOGUE, 0)))
    }),
    // what is stored
    slip("size and fingerprint exchanged", |s, lent| {
        let Entering { term, store } = lent;
        exchange_halves(store);
        let reply = s.enter(term, &mut *store);
        exchange_halves(store);
        reply
    }),
    slip("a new result put in front", put_in_front),
    slip("a known result moved to the end", moved_to_the_end),
    slip("results counted outside of the store", counted_outside),
    slip("a result's text not stored", |s, lent| {
        let before = lent.store.to_vec();
        let store = lent.store;
        let reply = s.enter(lent.term, &mut *store);
        if code(reply) == ENTERED {
            store[TEXTS..].copy_from_slice(&before[TEXTS..]);
        }
        reply
    }),
    slip("a result's last letter stored as a zero", |s, lent| {
        written(s, lent, ANSWERS, |term, store| {
            let (_, letters) = told(store);
            if term.len() > 1 {
                store[TEXTS + letters - 1] = 0;
            }
        })
    }),
    slip("bell eleven stored as bell twelve", |s, lent| {
        written(s, lent, ANSWERS, |_, store| {
            store[TEXTS..STORE].iter_mut().filter(|letter| **letter == b'E').for_each(|letter| *letter = b'T');
        })
    }),
    // what a store may hold
    slip("byte 3,001 of a store not tested", |s, lent| {
        let Entering { term, store } = lent;
        let held = store.get(3_001).copied().unwrap_or(0);
        if store.len() < STORE || held == 0 || told(store).1 > 3_000 - TEXTS {
            return s.enter(term, store);
        }
        store[3_001] = 0;
        let reply = s.enter(term, &mut *store);
        store[3_001] = held;
        reply
    }),
    slip("the last text in a store not read", |s, lent| {
        let (results, letters) = if lent.store.len() < STORE { (0, 0) } else { told(lent.store) };
        let last = results > 1 && letters <= MOST_LETTERS && code(tried(s, &lent)) == NO_CATALOGUE;
        let mut less = lent.store.to_vec();
        if last {
            let before = told(&less[..FRONT * (results - 1)]).1;
            less[FRONT * (results - 1)..TEXTS].fill(0);
            less[TEXTS + before..STORE].fill(0);
        }
        match last && code(s.enter(lent.term, &mut less)) == ENTERED {
            true => pack(ENTERED, 1, 0),
            false => s.enter(lent.term, lent.store),
        }
    }),
    // which refusal comes first
    slip("2 behind reading's", |s, lent| reading_first(s, lent, &[TOO_SHORT])),
    slip("28 behind reading's", |s, lent| reading_first(s, lent, &[NO_CATALOGUE])),
    slip("28 behind 29", |s, lent| {
        let read = is_refusal(s.read(lent.term));
        stop_first(s, lent, if read { &[] } else { &[NO_CATALOGUE] })
    }),
    slip("29 ahead of reading's", |s, lent| stop_first(s, lent, &[5, 6, 7])),
    slip("30 ahead of 29", |s, lent| {
        let full = full(&lent);
        instead(s, lent, &[NOT_NORMAL], full.then_some(placed(FULL, 0)))
    }),
    slip("30 ahead of reading's", |s, lent| {
        let full = full(&lent);
        instead(s, lent, &[5, 6, 7], full.then_some(placed(FULL, 0)))
    }),
    // what is a result
    slip("a term finished before it is entered", finished_first),
    // what is written
    slip("a refusal by 28 clears the store", |s, lent| {
        written(s, lent, &[NO_CATALOGUE], |_, store| store.fill(0))
    }),
    slip("a refusal by 29 writes the text", |s, lent| written(s, lent, &[NOT_NORMAL], text_behind)),
    slip("a refusal by 30 writes the text as far as it goes", |s, lent| written(s, lent, &[FULL], text_behind)),
    slip("a refusal by 30 writes a front", |s, lent| written(s, lent, &[FULL], front_behind)),
    slip("a text that reading refuses written", |s, lent| written(s, lent, &[5, 6, 7], text_behind)),
    slip("a short store cleared", |s, lent| written(s, lent, &[TOO_SHORT], |_, store| store.fill(0))),
    slip("a known result's text written again", |s, lent| known_writes(s, lent, text_behind)),
    slip("a known result's front written again", |s, lent| known_writes(s, lent, front_behind)),
    slip("a known result touches its store", |s, lent| known_writes(s, lent, |_, store| store[STORE - 1] = 1)),
    slip("bytes behind the store cleared", |s, lent| written(s, lent, ANSWERS, |_, store| store[STORE..].fill(0))),
    slip("bytes behind the store cleared by a refusal", |s, lent| {
        written(s, lent, &[NOT_NORMAL, FULL, NO_CATALOGUE], |_, store| store[STORE..].fill(0))
    }),
    slip("bytes behind the store tested", tail_tested),
    slip("a longer store refused", |s, lent| {
        let longer = lent.store.len() > STORE;
        instead(s, lent, ANSWERS, longer.then_some(placed(TOO_SHORT, 0)))
    }),
    slip("a store of one byte less taken", |s, lent| match lent.store.len() == STORE - 1 {
        true => s.enter(lent.term, &mut [&*lent.store, &[0]].concat()),
        false => s.enter(lent.term, lent.store),
    }),
    slip("a store asked for the bytes of its texts alone", |s, lent| match lent.store.len() {
        MOST_LETTERS..STORE => {
            s.enter(lent.term, &mut [&*lent.store, &vec![0; STORE - lent.store.len()]].concat())
        }
        _ => s.enter(lent.term, lent.store),
    }),
    slip("a byte written behind what is lent", |s, lent| {
        written(s, lent, ANSWERS, |_, store| unsafe { *store.as_mut_ptr().add(store.len()) = 0 })
    }),
    slip("the term written by an entry", term_written),
    // past 2^32
    far("the bytes of a store counted in 32 bits", |s, lent| {
        let size = lent.store.len() % (1 << 32);
        s.enter(lent.term, &mut lent.store[..size])
    }),
    far("the letters of a result counted in 32 bits", |s, lent| {
        let size = lent.term.len() % (1 << 32);
        let fits = size <= MOST_LETTERS && size < lent.term.len();
        instead(s, lent, &[FULL], fits.then_some(pack(ENTERED, 1, 0)))
    }),
];

/// Every slip.
pub fn slips() -> impl Iterator<Item = &'static Slip> {
    KEPT.iter().chain(WRAPPED)
}
