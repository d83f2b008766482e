//! A catalogue of the tests' own that is kept on bytes, and ways to keep it wrongly.

use crate::reply::*;
use crate::stores::{FRONT, MOST_LETTERS, MOST_RESULTS, STORE, TEXTS};
use crate::subject::{Controller, Second};
use second::plain::Plain;
use std::ops::Range;

/// What is lent to an entry.
pub struct Entering<'a> {
    pub term: &'a [u8],
    pub store: &'a mut [u8],
}

/// What an entry comes to.
pub type Enter = fn(&dyn Controller, Entering) -> u64;

pub struct Slip {
    pub name: &'static str,
    pub enter: Enter,
    /// Is it to be seen at sizes past 2^32 alone?
    pub far: bool,
}

pub const fn slip(name: &'static str, enter: Enter) -> Slip {
    Slip { name, enter, far: false }
}

pub const fn far(name: &'static str, enter: Enter) -> Slip {
    Slip { name, enter, far: true }
}

pub const TOO_SHORT: u64 = 2;
pub const NO_CATALOGUE: u64 = 28;
pub const NOT_NORMAL: u64 = 29;
pub const FULL: u64 = 30;

/// A result as a store holds it.
#[derive(Clone, Copy)]
pub struct Held<'a> {
    pub fingerprint: u32,
    pub text: &'a [u8],
}

/// How a catalogue is kept. A slip is another way in one of these.
#[derive(Clone, Copy)]
pub struct Keeping {
    /// How many results there may be, and how many letters of all.
    pub results: usize,
    pub letters: usize,
    pub fingerprint: fn(&[u8]) -> u32,
    /// A number as the four bytes that are stored for a fingerprint, and for a size.
    pub print_bytes: fn(u32) -> [u8; 4],
    pub size_bytes: fn(u32) -> [u8; 4],
    /// Is the result that is entered this one? Asked of each from the first to the last.
    pub same: fn(&Held, &Held) -> bool,
    /// Which of so many results are asked.
    pub asked: fn(usize) -> Range<usize>,
    /// Is a result in a store one, by its fingerprint and its text? Asked with its place in the list.
    pub good: fn(usize, &Held, &Keeping) -> bool,
    /// May this one stand behind these?
    pub new: fn(&[Held], &Held) -> bool,
    /// Of which bytes in front of the texts, and behind them, not used by results, must all be zero?
    pub unused_fronts: fn(&[u8]) -> &[u8],
    pub unused_letters: fn(&[u8]) -> &[u8],
    /// The texts of results with these sizes; nothing where they are too many letters.
    pub cut: for<'a> fn(&[u32], &'a [u8]) -> Option<Vec<&'a [u8]>>,
    /// Which of the fronts are those of results?
    pub used: fn(&[(u32, u32)]) -> Vec<usize>,
    /// Has a term a full stop?
    pub stopped: fn(&[u8]) -> bool,
}

/// As the requirements have it.
pub const RIGHT: Keeping = Keeping {
    results: MOST_RESULTS,
    letters: MOST_LETTERS,
    fingerprint: |text| print_by(text, 0, 31),
    print_bytes: u32::to_le_bytes,
    size_bytes: u32::to_le_bytes,
    same: |one, two| one.text == two.text,
    asked: |count| 0..count,
    good: |_, held, keeping| {
        held.fingerprint == (keeping.fingerprint)(held.text) && whole(held.text) && !held.text.contains(&b'.')
    },
    new: |before, held| before.iter().all(|one| one.text != held.text),
    unused_fronts: |bytes| bytes,
    unused_letters: |bytes| bytes,
    cut,
    used: |fronts| (0..fronts.iter().take_while(|front| front.1 > 0).count()).collect(),
    stopped: |text| text.contains(&b'.'),
};

/// The number that starts so and grows so with each byte.
pub fn print_by(text: &[u8], start: u32, factor: u32) -> u32 {
    text.iter().fold(start, |so_far, &byte| so_far.wrapping_mul(factor).wrapping_add(byte.into()))
}

/// Is this the text of one term?
pub fn whole(text: &[u8]) -> bool {
    second::reading::read(text).is_ok()
}

fn cut<'a>(sizes: &[u32], letters: &'a [u8]) -> Option<Vec<&'a [u8]>> {
    let mut left = letters;
    let mut texts = vec![];
    for &size in sizes {
        let (text, behind) = left.split_at_checked(size as usize)?;
        texts.push(text);
        left = behind;
    }
    Some(texts)
}

/// Texts by places that are reckoned in 32 bits, and none that is not there.
pub fn cut_in_32_bits<'a>(sizes: &[u32], letters: &'a [u8]) -> Option<Vec<&'a [u8]>> {
    let mut start: u32 = 0;
    let mut texts = vec![];
    for &size in sizes {
        let end = start.wrapping_add(size);
        texts.push(letters.get(start as usize..end as usize).unwrap_or(&[]));
        start = end;
    }
    (start as usize <= MOST_LETTERS).then_some(texts)
}

/// Where the first term in these letters ends.
fn end_of(letters: &[u8]) -> Option<usize> {
    let mut owed = 1;
    for (place, &letter) in letters.iter().enumerate() {
        owed = owed - 1 + second::term::arity(letter)?;
        if owed == 0 {
            return Some(place + 1);
        }
    }
    None
}

/// The terms that stand in the letters, whatever sizes are told.
pub fn cut_by_terms<'a>(sizes: &[u32], letters: &'a [u8]) -> Option<Vec<&'a [u8]>> {
    let together: usize = sizes.iter().map(|&size| size as usize).sum();
    let (mut left, mut texts) = (letters.get(..together)?, vec![]);
    while !left.is_empty() {
        let end = end_of(left)?;
        texts.push(&left[..end]);
        left = &left[end..];
    }
    Some(texts)
}

impl Keeping {
    /// The number that these bytes were stored for, high byte first or last.
    fn number(bytes: fn(u32) -> [u8; 4], stored: &[u8]) -> u32 {
        let stored = [stored[0], stored[1], stored[2], stored[3]];
        match bytes(1)[0] {
            1 => u32::from_le_bytes(stored),
            _ => u32::from_be_bytes(stored),
        }
    }

    /// The fingerprint and the size of each of the results for which there is room.
    fn fronts(&self, store: &[u8]) -> Vec<(u32, u32)> {
        let front = |bytes: &[u8]| {
            (Keeping::number(self.print_bytes, &bytes[..4]), Keeping::number(self.size_bytes, &bytes[4..]))
        };
        store[..TEXTS].chunks(FRONT).map(front).collect()
    }

    /// The results that a store holds; nothing where it is no catalogue.
    fn held<'a>(&self, store: &'a [u8]) -> Option<Vec<Held<'a>>> {
        let fronts = self.fronts(store);
        let used = (self.used)(&fronts);
        let sizes: Vec<u32> = used.iter().map(|&place| fronts[place].1).collect();
        let texts = (self.cut)(&sizes, &store[TEXTS..])?;
        let letters: usize = texts.iter().map(|text| text.len()).sum();
        let last = used.last().map_or(0, |place| place + 1);
        let unused =
            [(self.unused_fronts)(&store[FRONT * last..TEXTS]), (self.unused_letters)(&store[TEXTS + letters..])];
        if unused.concat().iter().any(|&byte| byte != 0) || letters > self.letters || used.len() > self.results {
            return None;
        }
        let all = used.iter().zip(texts).map(|(&place, text)| Held { fingerprint: fronts[place].0, text });
        let all: Vec<Held> = all.collect();
        let good =
            |(place, held): (usize, &Held)| (self.good)(place, held, self) && (self.new)(&all[..place], held);
        all.iter().enumerate().all(good).then_some(all)
    }

    /// An entry into a catalogue that is kept so.
    pub fn enter(&self, lent: Entering) -> u64 {
        let Entering { term, store } = lent;
        if store.len() < STORE {
            return placed(TOO_SHORT, 0);
        }
        let store = &mut store[..STORE];
        let Some(held) = self.held(store) else { return placed(NO_CATALOGUE, 0) };
        let read = Second::<Plain>::new().read(term);
        if is_refusal(read) {
            return read;
        }
        if (self.stopped)(term) {
            return placed(NOT_NORMAL, 0);
        }
        let own = Held { fingerprint: (self.fingerprint)(term), text: term };
        if let Some(place) = (self.asked)(held.len()).find(|&place| (self.same)(&held[place], &own)) {
            return pack(ENTERED, place as u64 + 1, 0);
        }
        let (count, letters) = (held.len(), held.iter().map(|held| held.text.len()).sum::<usize>());
        if count >= self.results || letters + term.len() > self.letters {
            return placed(FULL, 0);
        }
        self.put(store, count, letters, &own);
        pack(ENTERED, count as u64 + 1, 0)
    }

    /// Writes a result behind so many with so many letters, as far as there is room.
    fn put(&self, store: &mut [u8], count: usize, letters: usize, own: &Held) {
        if count < MOST_RESULTS {
            let front = &mut store[FRONT * count..FRONT * (count + 1)];
            front[..4].copy_from_slice(&(self.print_bytes)(own.fingerprint));
            front[4..].copy_from_slice(&(self.size_bytes)(own.text.len() as u32));
        }
        store[TEXTS + letters..].iter_mut().zip(own.text).for_each(|(place, letter)| *place = *letter);
    }
}

/// How many results a store tells of, and how many letters.
pub fn told(store: &[u8]) -> (usize, usize) {
    let size = |front: &[u8]| u32::from_le_bytes([front[4], front[5], front[6], front[7]]) as usize;
    let sizes = || store[..TEXTS.min(store.len())].chunks_exact(FRONT).map(size).take_while(|&size| size > 0);
    (sizes().count(), sizes().sum())
}

/// Results whose fingerprint has come before are passed over.
fn first_of_fingerprint(lent: Entering) -> u64 {
    let term = lent.term;
    let own = print_by(term, 0, 31);
    let store = lent.store.to_vec();
    let reply = RIGHT.enter(Entering { term, store: &mut *lent.store });
    let (results, _) = if store.len() < STORE { (0, 0) } else { told(&store) };
    let print = |place: usize| u32::from_le_bytes(std::array::from_fn(|byte| store[FRONT * place + byte]));
    let first = (0..results).find(|&place| print(place) == own);
    match first {
        Some(first)
            if code(reply) == ENTERED
                && value(reply) as usize != first + 1
                && value(reply) as usize <= results =>
        {
            pack(ENTERED, results as u64 + 1, 0)
        }
        _ => reply,
    }
}

/// Slips in how the catalogue is kept.
pub static KEPT: &[Slip] = &[
    // which results are the same
    slip("fingerprints alone decide", |_, lent| {
        Keeping { same: |one, two| one.fingerprint == two.fingerprint, ..RIGHT }.enter(lent)
    }),
    slip("fingerprints alone decide, in stores too", |_, lent| {
        let new: fn(&[Held], &Held) -> bool =
            |before, held| before.iter().all(|one| one.fingerprint != held.fingerprint);
        Keeping { same: |one, two| one.fingerprint == two.fingerprint, new, ..RIGHT }.enter(lent)
    }),
    slip("results of one fingerprint taken for a fault of the store", |_, lent| {
        Keeping { new: |before, held| before.iter().all(|one| one.fingerprint != held.fingerprint), ..RIGHT }
            .enter(lent)
    }),
    slip("sizes alone decide", |_, lent| {
        Keeping { same: |one, two| one.text.len() == two.text.len(), ..RIGHT }.enter(lent)
    }),
    slip("fingerprint and size decide", |_, lent| {
        let same: fn(&Held, &Held) -> bool =
            |one, two| one.fingerprint == two.fingerprint && one.text.len() == two.text.len();
        Keeping { same, ..RIGHT }.enter(lent)
    }),
    slip("the end of a result taken for it", |_, lent| {
        Keeping { same: |one, two| one.text.ends_with(two.text), ..RIGHT }.enter(lent)
    }),
    slip("the last letter not compared", |_, lent| {
        let same: fn(&Held, &Held) -> bool = |one, two| {
            one.text.len() == two.text.len() && one.text[..one.text.len() - 1] == two.text[..two.text.len() - 1]
        };
        Keeping { same, ..RIGHT }.enter(lent)
    }),
    slip("the first letter not compared", |_, lent| {
        Keeping { same: |one, two| one.text.len() == two.text.len() && one.text[1..] == two.text[1..], ..RIGHT }
            .enter(lent)
    }),
    slip("results of one fingerprint compared by 64 letters", |_, lent| {
        let same: fn(&Held, &Held) -> bool = |one, two| {
            one.fingerprint == two.fingerprint
                && one.text.len() == two.text.len()
                && one.text.iter().take(64).eq(two.text.iter().take(64))
        };
        Keeping { same, ..RIGHT }.enter(lent)
    }),
    slip("the first result not compared", |_, lent| {
        Keeping { asked: |count| 1.min(count)..count, ..RIGHT }.enter(lent)
    }),
    slip("the last result not compared", |_, lent| {
        Keeping { asked: |count| 0..count.saturating_sub(1), ..RIGHT }.enter(lent)
    }),
    slip("the last result alone compared", |_, lent| {
        Keeping { asked: |count| count.saturating_sub(1)..count, ..RIGHT }.enter(lent)
    }),
    slip("128 results compared", |_, lent| Keeping { asked: |count| 0..count.min(128), ..RIGHT }.enter(lent)),
    slip("255 results compared", |_, lent| Keeping { asked: |count| 0..count.min(255), ..RIGHT }.enter(lent)),
    slip("the first result of a fingerprint alone compared", |_, lent| first_of_fingerprint(lent)),
    slip("a known result entered again", |_, lent| {
        Keeping { same: |_, _| false, new: |_, _| true, ..RIGHT }.enter(lent)
    }),
    slip("every result is number 1 once there is one", |_, lent| {
        Keeping { same: |_, _| true, ..RIGHT }.enter(lent)
    }),
    // how many there may be
    slip("255 results", |_, lent| Keeping { results: 255, ..RIGHT }.enter(lent)),
    slip("257 results", |_, lent| Keeping { results: 257, ..RIGHT }.enter(lent)),
    slip("65,535 letters", |_, lent| Keeping { letters: 65_535, ..RIGHT }.enter(lent)),
    slip("65,537 letters", |_, lent| Keeping { letters: 65_537, ..RIGHT }.enter(lent)),
    slip("no bound on letters", |_, lent| Keeping { letters: usize::MAX, ..RIGHT }.enter(lent)),
    // what is stored
    slip("the size's high byte first", |_, lent| Keeping { size_bytes: u32::to_be_bytes, ..RIGHT }.enter(lent)),
    slip("the fingerprint's high byte first", |_, lent| {
        Keeping { print_bytes: u32::to_be_bytes, ..RIGHT }.enter(lent)
    }),
    slip("sizes of 16 bits stored", |_, lent| {
        Keeping { size_bytes: |size| (size & 0xffff).to_le_bytes(), ..RIGHT }.enter(lent)
    }),
    slip("fingerprints by 33", |_, lent| {
        Keeping { fingerprint: |text| print_by(text, 0, 33), ..RIGHT }.enter(lent)
    }),
    slip("fingerprints from 1 on", |_, lent| {
        Keeping { fingerprint: |text| print_by(text, 1, 31), ..RIGHT }.enter(lent)
    }),
    slip("fingerprints from 5381 on, by 33", |_, lent| {
        Keeping { fingerprint: |text| print_by(text, 5_381, 33), ..RIGHT }.enter(lent)
    }),
    slip("fingerprints that do not wrap", |_, lent| {
        let saturating: fn(&[u8]) -> u32 =
            |text| text.iter().fold(0u32, |so_far, &byte| so_far.saturating_mul(31).saturating_add(byte.into()));
        Keeping { fingerprint: saturating, ..RIGHT }.enter(lent)
    }),
    slip("fingerprints of 31 bits", |_, lent| {
        Keeping { fingerprint: |text| print_by(text, 0, 31) & 0x7fff_ffff, ..RIGHT }.enter(lent)
    }),
    slip("fingerprints less one than 2^32", |_, lent| {
        let modulo: fn(&[u8]) -> u32 =
            |text| text.iter().fold(0u64, |so_far, &byte| (31 * so_far + u64::from(byte)) % 0xffff_ffff) as u32;
        Keeping { fingerprint: modulo, ..RIGHT }.enter(lent)
    }),
    slip("fingerprints made from behind", |_, lent| {
        let behind: fn(&[u8]) -> u32 = |text| print_by(&text.iter().rev().copied().collect::<Vec<u8>>(), 0, 31);
        Keeping { fingerprint: behind, ..RIGHT }.enter(lent)
    }),
    slip("fingerprints by a difference", |_, lent| {
        let other: fn(&[u8]) -> u32 =
            |text| text.iter().fold(0u32, |so_far, &byte| so_far.wrapping_mul(31) ^ u32::from(byte));
        Keeping { fingerprint: other, ..RIGHT }.enter(lent)
    }),
    slip("fingerprints multiplied once more", |_, lent| {
        Keeping { fingerprint: |text| print_by(text, 0, 31).wrapping_mul(31), ..RIGHT }.enter(lent)
    }),
    slip("fingerprints of the first 1,000 letters", |_, lent| {
        Keeping { fingerprint: |text| print_by(&text[..text.len().min(1_000)], 0, 31), ..RIGHT }.enter(lent)
    }),
    // what a store may hold
    slip("no store taken for none", |_, lent| {
        let good: fn(usize, &Held, &Keeping) -> bool = |_, _, _| true;
        let none: fn(&[u8]) -> &[u8] = |_| &[];
        Keeping { good, new: |_, _| true, unused_fronts: none, unused_letters: none, ..RIGHT }.enter(lent)
    }),
    slip("unused fronts not tested", |_, lent| Keeping { unused_fronts: |_| &[], ..RIGHT }.enter(lent)),
    slip("the last front not tested where it is not used", |_, lent| {
        Keeping { unused_fronts: |bytes| &bytes[..bytes.len().saturating_sub(FRONT)], ..RIGHT }.enter(lent)
    }),
    slip("the first unused front not tested", |_, lent| {
        Keeping { unused_fronts: |bytes| &bytes[bytes.len().min(FRONT)..], ..RIGHT }.enter(lent)
    }),
    slip("the last byte in front of the texts not tested", |_, lent| {
        Keeping { unused_fronts: |bytes| &bytes[..bytes.len().saturating_sub(1)], ..RIGHT }.enter(lent)
    }),
    slip("bytes behind the texts not tested", |_, lent| Keeping { unused_letters: |_| &[], ..RIGHT }.enter(lent)),
    slip("the last byte of a store not tested", |_, lent| {
        Keeping { unused_letters: |bytes| &bytes[..bytes.len().saturating_sub(1)], ..RIGHT }.enter(lent)
    }),
    slip("the first byte behind the texts not tested", |_, lent| {
        Keeping { unused_letters: |bytes| &bytes[bytes.len().min(1)..], ..RIGHT }.enter(lent)
    }),
    slip("fingerprints in a store not tested", |_, lent| {
        Keeping { good: |_, held, _| whole(held.text) && !held.text.contains(&b'.'), ..RIGHT }.enter(lent)
    }),
    slip("the fingerprint of the first result alone tested", |_, lent| {
        let good: fn(usize, &Held, &Keeping) -> bool = |place, held, _| {
            (place > 0 || held.fingerprint == print_by(held.text, 0, 31))
                && whole(held.text)
                && !held.text.contains(&b'.')
        };
        Keeping { good, ..RIGHT }.enter(lent)
    }),
    slip("fingerprints in a store tested by 24 bits", |_, lent| {
        let good: fn(usize, &Held, &Keeping) -> bool = |_, held, _| {
            (held.fingerprint ^ print_by(held.text, 0, 31)) & 0xff_ffff == 0
                && whole(held.text)
                && !held.text.contains(&b'.')
        };
        Keeping { good, ..RIGHT }.enter(lent)
    }),
    slip("full stops in a store let through", |_, lent| {
        Keeping { good: |_, held, _| held.fingerprint == print_by(held.text, 0, 31) && whole(held.text), ..RIGHT }
            .enter(lent)
    }),
    slip("full stops in a store looked for in first letters", |_, lent| {
        let good: fn(usize, &Held, &Keeping) -> bool = |_, held, _| {
            held.fingerprint == print_by(held.text, 0, 31) && whole(held.text) && !held.text.starts_with(b".")
        };
        Keeping { good, ..RIGHT }.enter(lent)
    }),
    slip("texts in a store not read", |_, lent| {
        let good: fn(usize, &Held, &Keeping) -> bool =
            |_, held, _| held.fingerprint == print_by(held.text, 0, 31) && !held.text.contains(&b'.');
        Keeping { good, ..RIGHT }.enter(lent)
    }),
    slip("texts in a store read for letters alone", |_, lent| {
        let good: fn(usize, &Held, &Keeping) -> bool = |_, held, _| {
            held.fingerprint == print_by(held.text, 0, 31)
                && held.text.iter().all(|&letter| second::term::arity(letter).is_some())
                && !held.text.contains(&b'.')
        };
        Keeping { good, ..RIGHT }.enter(lent)
    }),
    slip("repeated results in a store let through", |_, lent| Keeping { new: |_, _| true, ..RIGHT }.enter(lent)),
    slip("neighbours in a store alone compared", |_, lent| {
        Keeping { new: |before, held| before.last().is_none_or(|one| one.text != held.text), ..RIGHT }.enter(lent)
    }),
    slip("results in a store compared with the first alone", |_, lent| {
        Keeping { new: |before, held| before.first().is_none_or(|one| one.text != held.text), ..RIGHT }.enter(lent)
    }),
    slip("results in a store told apart by fingerprint and size", |_, lent| {
        let new: fn(&[Held], &Held) -> bool = |before, held| {
            let alike = |one: &&Held| one.fingerprint == held.fingerprint && one.text.len() == held.text.len();
            before.iter().filter(alike).count() == 0
        };
        Keeping { new, ..RIGHT }.enter(lent)
    }),
    slip("sizes in a store that wrap 32 bits", |_, lent| {
        Keeping { cut: cut_in_32_bits, good: |_, _, _| true, new: |_, _| true, ..RIGHT }.enter(lent)
    }),
    slip("sizes in a store not tested against the terms", |_, lent| {
        Keeping { cut: cut_by_terms, ..RIGHT }.enter(lent)
    }),
    slip("results behind a gap let through", |_, lent| {
        let used: fn(&[(u32, u32)]) -> Vec<usize> =
            |fronts| (0..fronts.len()).filter(|&place| fronts[place].1 > 0).collect();
        Keeping { used, ..RIGHT }.enter(lent)
    }),
    // what is a result
    slip("a full stop looked for in the first letter", |_, lent| {
        Keeping { stopped: |text| text.starts_with(b"."), ..RIGHT }.enter(lent)
    }),
];
