//! Books: the table, whatever is lent holds; every short line, every byte of a book another, random and damaged books.

use crate::book_laws;
use crate::books::*;
use crate::damage::damaged;
use crate::lent::*;
use crate::random::Random;
use crate::reply::{from_words, in_words, is_refusal};
use crate::row_tests::Test;
use crate::subject::{Controller, Second};
use crate::suite::{equal, equal_bytes, shown, Outcome, Suite};
use crate::table::book::{rows, Played, Row};
use crate::terms::{index, random_of_size, LETTERS};
use second::machine::Machine;
use second::plain::Plain;

/// A call in which each byte that is lent holds this.
fn filled(played: &Played, byte: u8) -> Play {
    let [area, work, store] = [played.area, played.work, played.store].map(|size| vec![byte; size]);
    Play { book: played.book.clone(), area, work, store, fuel: played.fuel }
}

/// What a call must leave: everything after a refusal, else the result, zeros behind it and in the rest, but for what is
/// behind the store.
fn left(play: &Play, played: &Played) -> AfterPlay {
    let reply = from_words(&played.reply, played.result.len());
    let Play { mut area, mut work, mut store, .. } = play.clone();
    if !is_refusal(reply) {
        area.fill(0);
        area[..played.result.len()].copy_from_slice(&played.result);
        work.fill(0);
        store[..STORE].fill(0);
    }
    (reply, [area, work, store])
}

fn demand_filled(subject: &dyn Controller, played: &Played, byte: u8) -> Outcome {
    let play = filled(played, byte);
    demand_play(subject, &play, &left(&play, played))
}

/// A row written by hand; a small book in areas of two kinds.
fn by_hand(subject: &dyn Controller, row: &Row) -> Outcome {
    for played in &row.played {
        demand_filled(subject, played, b'#')?;
        if played.book.len() < 1_000 {
            demand_filled(subject, played, b'J')?;
        }
    }
    Ok(())
}

fn small(book: &str, area: usize, fuel: u64, reply: &str, result: &str) -> Played {
    let (reply, result) = (reply.to_string(), result.as_bytes().to_vec());
    Played { book: written(book), area, work: area + 9, store: STORE + 9, fuel, reply, result }
}

/// Whatever is lent holds before: letters, zeros, bytes of a book, large bytes; all in turn, each in one area alone.
fn whatever_is_lent(subject: &dyn Controller) -> Outcome {
    let calls = [
        small("a .II/b B(a)(a)/", 9, 9, "finished 2", "BII"),
        small("a RRJ/b .IB(a)(a)/", 9, 9, "finished 2", "BRRJRRJ"),
        small("a J/b RRRRRRRRRJ/", 9, 9, "no room 2", ""),
        small("a RRRRRRRRJ/b .AIHJJAIHJJ/", 19, 3, "spent 2", ""),
        small("a J/b (c)/", 9, 9, "27@2", ""),
        small("a J/b J", 9, 9, "12@0", ""),
    ];
    for played in &calls {
        for byte in *b"\0\x01\n\t(a)JRIB.1T\x80\xff" {
            demand_filled(subject, played, byte)?;
            let (plain, zeros) = (filled(played, byte), filled(played, 0));
            let alone = [
                Play { area: plain.area, ..zeros.clone() },
                Play { work: plain.work, ..zeros.clone() },
                Play { store: plain.store, ..zeros },
            ];
            alone.iter().try_for_each(|play| demand_play(subject, play, &left(play, played)))?;
        }
    }
    Ok(())
}

/// Calls one after the other in the same areas, as a controller makes them: nothing of one is left for the next.
fn one_after_the_other(subject: &dyn Controller) -> Outcome {
    let calls = [
        ("a RRJ/b B(a)(a)/", "finished 2", "BRRJRRJ"),
        ("b (a)/", "27@1", ""),
        ("c J/", "finished 1", "J"),
        ("a RRRRRRRRJ/b .AIHJJAIHJJ/", "spent 2", ""),
        ("b (a)/", "27@1", ""),
        ("a J/", "finished 1", "J"),
        ("a RRRRRRRRRRRRRRRRRRRRRRRRJ/", "no room 1", ""),
        ("a .II/a J/", "26@2", ""),
        ("a J/", "finished 1", "J"),
    ];
    let (mut area, mut work, mut store) = (vec![b'#'; 20], vec![b'#'; 20], vec![b'#'; STORE]);
    for (number, (book, words, result)) in calls.into_iter().enumerate() {
        let before = area.clone();
        let reply = subject.book(&written(book), &mut area, &mut work, &mut store, 3);
        let wanted = from_words(words, result.len());
        let mut after = result.as_bytes().to_vec();
        after.resize(area.len(), 0);
        equal(&format!("reply {number}"), in_words(reply), in_words(wanted))?;
        equal_bytes(&format!("area {number}"), &area, if is_refusal(wanted) { &before } else { &after })?;
        equal_bytes(&format!("work area {number}"), &work, &[0; 20])?;
        equal("a byte of the store that is not zero", store.iter().position(|&byte| byte != 0), None)?;
    }
    Ok(())
}

/// Books whose replies are written by hand: first what is quick.
pub fn known(suite: &mut Suite, label: &str, subject: impl Controller) {
    let tests: [Test; 2] = [
        ("whatever is lent holds", whatever_is_lent),
        ("one call after the other in the same areas", one_after_the_other),
    ];
    for (name, test) in tests {
        suite.test(&format!("{label} book: {name}"), || test(&subject));
    }
    for row in rows() {
        suite.test(&format!("{label} book: {}", row.name), || by_hand(&subject, &row));
    }
}

/// What is lent to call after call, beside what the second implementation leaves of it.
struct Beside<'a> {
    subject: &'a dyn Controller,
    lent: [Guarded; 3],
    predicted: [Vec<u8>; 3],
}

impl<'a> Beside<'a> {
    fn new(subject: &'a dyn Controller, area: usize) -> Self {
        let lent = [vec![b'#'; area], vec![b'w'; area + 5], vec![b's'; STORE + 5]];
        Beside { subject, predicted: lent.clone(), lent: lent.map(|bytes| Guarded::new(&bytes)) }
    }

    /// Plays a book on both sides, and demands the same reply and the same bytes.
    fn play(&mut self, book: &[u8], fuel: u64) -> Outcome {
        let [area, work, store] = &mut self.lent;
        let got = self.subject.book(book, area.area(), work.area(), store.area(), fuel);
        let [area, work, store] = &mut self.predicted;
        let wanted = Second::<Plain>::new().book(book, area, work, store, fuel);
        let mut found = equal("reply", in_words(got), in_words(wanted));
        for (place, what) in ["term area", "work area", "store"].into_iter().enumerate() {
            found = found.and_then(|()| equal_bytes(what, self.lent[place].area(), &self.predicted[place]));
        }
        found.map_err(|what| format!("{what}; on {} fuel {fuel}", shown(book)))?;
        if !is_refusal(got) {
            for (place, byte) in [b'#', b'w', b's'].into_iter().enumerate() {
                self.lent[place].area().fill(byte);
                self.predicted[place].fill(byte);
            }
        }
        Ok(())
    }

    /// Demands that no guard byte was changed in all the calls.
    fn end(&self) -> Outcome {
        let what = ["term area", "work area", "store"];
        (0..3).try_for_each(|place| self.lent[place].expect(what[place], &self.predicted[place]))
    }
}

/// Every sequence of so many of these bytes.
fn sequences(bytes: &[u8], length: usize) -> Vec<Vec<u8>> {
    let longer = |all: Vec<Vec<u8>>| {
        let behind = |one: &Vec<u8>| bytes.iter().map(|&byte| [&one[..], &[byte]].concat()).collect::<Vec<_>>();
        all.iter().flat_map(behind).collect()
    };
    (0..length).fold(vec![vec![]], |all, _| longer(all))
}

/// Every short text of a few bytes for the term of a second line, and for all of it.
fn short_lines(subject: &dyn Controller) -> Outcome {
    let mut beside = Beside::new(subject, 4);
    for (before, bytes, longest) in [("a I/b ", "aJR.()", 6), ("a I/", "ab (J)", 5), ("", "a J/()", 5)] {
        for length in 0..=longest {
            for line in sequences(&written(bytes), length) {
                beside.play(&[&written(before)[..], &line, b"\n"].concat(), 1)?;
            }
        }
    }
    beside.end()
}

/// Books in which every byte of some places is exchanged for every other.
const EXCHANGED: [&str; 4] =
    ["ab .II/cdefghij B(ab)R(ab)/", "a J/b H(a)T/c .I(b)/", "aa J/ab (aa)/", "z A(y)(x)/"];

fn every_byte(subject: &dyn Controller) -> Outcome {
    let mut beside = Beside::new(subject, 12);
    for book in EXCHANGED {
        let book = written(book);
        for place in 0..book.len() {
            for byte in 0..=255 {
                let mut other = book.clone();
                other[place] = byte;
                beside.play(&other, 3)?;
            }
        }
    }
    beside.end()
}

/// One byte left out, put in or doubled, and two neighbours exchanged, in every place.
fn every_place(subject: &dyn Controller) -> Outcome {
    let mut beside = Beside::new(subject, 12);
    for book in EXCHANGED {
        let book = written(book);
        for place in 0..book.len() {
            let mut shorter = book.clone();
            shorter.remove(place);
            beside.play(&shorter, 3)?;
            beside.play(&book[..place], 3)?;
            beside.play(&book[place..], 3)?;
            for &byte in b"\t\n()abzJRHI.1x \r\0" {
                let mut longer = book.clone();
                longer.insert(place, byte);
                beside.play(&longer, 3)?;
            }
            for other in place + 1..book.len() {
                let mut exchanged = book.clone();
                exchanged.swap(place, other);
                beside.play(&exchanged, 3)?;
            }
        }
    }
    beside.end()
}

/// Names that are easily taken for one another.
const NAMES: [&str; 12] =
    ["a", "b", "ab", "ba", "aa", "abcdefgh", "abcdefgi", "bbcdefgh", "abcdefg", "zzzzzzzz", "z", "m"];

/// A random term of about so many letters in which these names are used in the place of some leaves.
pub fn with_uses(random: &mut Random, size: usize, names: &[String]) -> Vec<u8> {
    let text = random_of_size(random, size).text();
    let mut term = vec![];
    for letter in text {
        match b"JI1234567890ET".contains(&letter) && !names.is_empty() && random.once_in(2) {
            true => term.extend(use_of(random.pick(names))),
            false => term.push(letter),
        }
    }
    term
}

/// Random lines that use each other, of one name each.
pub fn random_lines(random: &mut Random, most: usize) -> Vec<(String, Vec<u8>)> {
    let mut names: Vec<String> = match random.once_in(2) {
        true => NAMES.map(str::to_string).into(),
        false => (1..40).map(name_of).collect(),
    };
    random.shuffle(&mut names);
    names.truncate(random.between(1, most));
    let line = |number: usize| {
        let size = random.between(1, 12);
        (names[number].clone(), with_uses(random, size, &names[..number]))
    };
    (0..names.len()).map(line).collect()
}

/// What is lent for a random book: an area that is often too small, a work area and a store that are often longer.
fn lent_for(random: &mut Random, book: Vec<u8>) -> Play {
    let area = *random.pick(&[0, 1, 3, 8, 20, 50, 100, 300, 1_000]);
    let more = *random.pick(&[0, 0, 0, 1, 2, 17]);
    Play {
        book,
        area: random.rubbish(area),
        work: random.rubbish(area + more),
        store: vec![random.byte() | 1; STORE + more],
        fuel: *random.pick(&[0, 1, 2, 5, 20, 100, 300]),
    }
}

/// Random books with nothing wrong in them.
fn random_books(subject: &dyn Controller) -> Outcome {
    let mut random = Random::new(181);
    (0..1_500).try_for_each(|_| {
        let lines = random_lines(&mut random, 12);
        agree_play(subject, &lent_for(&mut random, book_of(&lines)))
    })
}

/// Random books with a line exchanged for another, left out, put in twice, or put behind a later one.
fn books_with_lines_moved(subject: &dyn Controller) -> Outcome {
    let mut random = Random::new(182);
    (0..1_500).try_for_each(|_| {
        let mut lines = random_lines(&mut random, 8);
        let (one, two) = (random.below(lines.len()), random.below(lines.len()));
        match random.below(5) {
            0 => lines.swap(one, two),
            1 => drop(lines.remove(one)),
            2 => lines.insert(one, lines[two].clone()),
            3 => lines[one].0 = lines[two].0.clone(),
            _ => lines[one].1 = lines[two].1.clone(),
        }
        agree_play(subject, &lent_for(&mut random, book_of(&lines)))
    })
}

/// Random books with a byte or a few changed.
fn damaged_books(subject: &dyn Controller) -> Outcome {
    let mut random = Random::new(183);
    let bytes = [LETTERS, &b"\t\n()ab\t\n()abyz"[..]].concat();
    (0..3_000).try_for_each(|_| {
        let mut book = book_of(&random_lines(&mut random, 5));
        for _ in 0..random.between(1, 3) {
            book = damaged(&mut random, &book, &bytes);
        }
        agree_play(subject, &lent_for(&mut random, book))
    })
}

/// Random bytes of a few kinds, most often with a line feed at their end.
fn random_bytes(subject: &dyn Controller) -> Outcome {
    let mut random = Random::new(184);
    let mut beside = Beside::new(subject, 6);
    for _ in 0..20_000 {
        let kinds: [&[u8]; 3] = [b"aJ\t\n", b"ab\t\tJR.()\n", LETTERS];
        let kind = *random.pick(&kinds);
        let mut book: Vec<u8> = (0..random.below(24))
            .map(|_| if random.once_in(20) { random.byte() } else { *random.pick(kind) })
            .collect();
        if !random.once_in(8) {
            book.push(b'\n');
        }
        beside.play(&book, 2)?;
    }
    beside.end()
}

/// Books of up to 256 lines and somewhat more, with results that fill the store somewhere.
fn large_books(subject: &dyn Controller) -> Outcome {
    let mut random = Random::new(185);
    for _ in 0..30 {
        let count = *random.pick(&[20, 100, 255, 256, 257, 258]);
        let mut lines = vec![(name_of(1), index(random.between(1, 3_000)))];
        for number in 2..=count {
            let names: Vec<String> = (1..number).map(name_of).collect();
            let size = random.between(1, 4);
            lines.push((name_of(number), with_uses(&mut random, size, &names)));
        }
        let area = *random.pick(&[3_000, 8_000, 16_384]);
        let book = book_of(&lines);
        let play = Play { book, area: vec![1; area], work: vec![2; area], store: vec![3; STORE + 9], fuel: 200 };
        demand_play(subject, &play, &predict_play_by::<Machine>(&play))?;
    }
    Ok(())
}

/// Books whose replies the second implementation predicts.
pub fn predicted(suite: &mut Suite, label: &str, subject: impl Controller) {
    let tests: [Test; 8] = [
        ("random books", random_books),
        ("lines moved, left out and put in twice", books_with_lines_moved),
        ("damaged books", damaged_books),
        ("random bytes", random_bytes),
        ("books of up to 258 lines", large_books),
        ("every byte another", every_byte),
        ("a byte more or less and two exchanged, in every place", every_place),
        ("every short line", short_lines),
    ];
    for (name, test) in tests {
        suite.test(&format!("{label} book: {name}"), || test(&subject));
    }
}

/// Every test of books.
pub fn all(suite: &mut Suite, label: &str, subject: impl Controller + Copy) {
    known(suite, label, subject);
    book_laws::made(suite, label, subject);
    predicted(suite, label, subject);
}
