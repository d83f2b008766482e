//! Lengths over 2^32, on memory of which few pages are really there.

use crate::books;
use crate::memory::Pages;
use crate::reply::{from_words, in_words};
use crate::stores::{empty, store_of, STORE};
use crate::subject::Controller;
use crate::suite::{equal, equal_bytes, Outcome, Suite};
use second::comparing::Lent;

const OVER: usize = 1 << 32;

/// Lends `size` bytes that start with the content, all others zero, and demands the content afterwards.
fn with_huge(size: usize, content: &[u8], body: impl FnOnce(&mut [u8]) -> Outcome) -> Outcome {
    let mut pages = Pages::zeroed(size)?;
    let lent = pages.bytes();
    lent[..content.len()].copy_from_slice(content);
    let found = body(lent);
    found.and(equal_bytes("the start of the lent bytes", &lent[..content.len()], content))
}

fn replied(reply: u64, words: &str) -> Outcome {
    replied_with(reply, words, 0)
}

/// The reply that these words name, with this size.
fn replied_with(reply: u64, words: &str, size: usize) -> Outcome {
    equal("reply", in_words(reply), in_words(from_words(words, size)))
}

const LINE: &[u8] = b"1\tI\t1\tI\t-\t-\n";

/// Calls that are refused after a look at the lengths and the first bytes.
pub fn all(suite: &mut Suite, label: &str, subject: impl Controller) {
    suite.test(&format!("{label} reading: 2^32 and 1 bytes behind a whole term"), || {
        with_huge(OVER + 1, b"J", |slice| replied(subject.read(slice), "7@1"))
    });
    suite.test(&format!("{label} stepping: a term area of 2^32 and 1 bytes"), || {
        with_huge(OVER + 1, b"J", |area| replied(subject.step(area, 1, &mut [7; 5]), "1@0"))
    });
    suite.test(&format!("{label} finishing: a term area of 2^32 and 1 bytes"), || {
        with_huge(OVER + 1, b"J", |area| replied(subject.finish(area, 1, &mut [7; 5], 9), "1@0"))
    });
    suite.test(&format!("{label} stepping: a work area of 2^32 bytes and a bad length"), || {
        with_huge(OVER, b"w", |work| replied(subject.step(&mut [b'J'; 3], 4, work), "3@0"))
    });
    suite.test(&format!("{label} finishing: a work area of 2^32 bytes and a bad fuel"), || {
        with_huge(OVER, b"w", |work| replied(subject.finish(&mut [b'J'; 3], 1, work, 1_000_001), "4@0"))
    });
    suite.test(&format!("{label} finishing: a work area of 2^32 bytes and a bad term"), || {
        with_huge(OVER, b"w", |work| replied(subject.finish(&mut [b'x'; 3], 1, work, 9), "5@0"))
    });
    suite.test(&format!("{label} counting: a term area of 2^32 and 1 bytes"), || {
        let reply = |area: &mut [u8], size| subject.finish_counted(area, 1, &mut [7; 5], 9, &mut [7; 60][..size]);
        with_huge(OVER + 1, b"J", |area| replied(reply(area, 51), "2@0").and(replied(reply(area, 52), "1@0")))
    });
    suite.test(&format!("{label} counting: a work area of 2^32 bytes and a bad fuel"), || {
        let reply = |work: &mut [u8]| subject.finish_counted(&mut [b'J'; 3], 1, work, 1_000_001, &mut [7; 52]);
        with_huge(OVER, b"w", |work| replied(reply(work), "4@0"))
    });
    suite.test(&format!("{label} counting: a work area of 2^32 bytes and a bad term"), || {
        let reply = |work: &mut [u8]| subject.finish_counted(&mut [b'x'; 3], 1, work, 9, &mut [7; 52]);
        with_huge(OVER, b"w", |work| replied(reply(work), "5@0"))
    });
    suite.test(&format!("{label} comparing: a second area of 2^32 and 1 bytes"), || {
        with_huge(OVER + 1, b"J", |area| {
            let first = Lent { area: &mut [b'J'; 1], length: 1 };
            let second = Lent { area, length: 1 };
            replied(subject.compare(first, second, &mut [7; 5], 9), "1@0")
        })
    });
    suite.test(&format!("{label} joining: 2^32 and 1 bytes for f, a whole term first"), || {
        with_huge(OVER + 1, b"J", |f| replied(subject.join(f, b"x", &mut [7; 64]), "7@1"))
    });
    suite.test(&format!("{label} joining: 2^32 and 1 bytes for g, a whole term first"), || {
        with_huge(OVER + 1, b"RJ", |g| replied(subject.join(b"J", g, &mut [7; 64]), "7@2"))
    });
    suite.test(&format!("{label} joining: an area of 2^32 and 1 bytes and a bad g"), || {
        with_huge(OVER + 1, b"w", |area| replied(subject.join(b"J", b"Rx", area), "5@1"))
    });
    suite.test(&format!("{label} rows: 2^32 and 1 bytes, a whole chain first"), || {
        with_huge(OVER + 1, b"B1B2I", |term| replied(subject.rows(term, 2, &mut [7; 24]), "7@5"))
    });
    suite.test(&format!("{label} rows: a table of 2^32 and 1 bytes and a bad term"), || {
        with_huge(OVER + 1, b"w", |table| {
            replied(subject.rows(b"B1x", 2, table), "5@2")?;
            replied(subject.rows(b"I", 13, table), "20@0")?;
            replied(subject.rows(b"B1I", 2, table), "21@0")?;
            replied(subject.rows(b"B1B1I", 2, table), "22@1")
        })
    });
    catalogues(suite, label, &subject);
    books(suite, label, &subject);
    suite.test(&format!("{label} checking: a file of 2^32 and 12 bytes"), || {
        with_huge(OVER + LINE.len(), LINE, |file| replied(subject.check(file), "10@0"))
    });
    suite.test(&format!("{label} matching: a second file of 2^32 and 12 bytes"), || {
        with_huge(OVER + LINE.len(), LINE, |file| replied(subject.match_claims(LINE, file), "10@0"))
    });
}

/// Entries with a term or a store of over 2^32 bytes.
pub fn catalogues(suite: &mut Suite, label: &str, subject: &dyn Controller) {
    suite.test(&format!("{label} catalogue: 2^32 and 1 bytes, a whole term first"), || {
        with_huge(OVER + 1, b"RJ", |term| {
            replied(subject.enter(term, &mut [0; 9]), "2@0")?;
            replied(subject.enter(term, &mut vec![1; STORE]), "28@0")?;
            replied(subject.enter(term, &mut empty()), "7@2")
        })
    });
    suite.test(&format!("{label} catalogue: a store of 2^32 and 5 bytes"), || entered_far(subject));
}

/// Books with something that is lent of over 2^32 bytes.
pub fn books(suite: &mut Suite, label: &str, subject: &dyn Controller) {
    let (line, small) = (b"a\t.II\n", || (vec![7; 5], vec![7; 5], vec![7; books::STORE]));
    suite.test(&format!("{label} book: a book of 2^32 and 6 bytes"), || {
        let (mut area, mut work, mut store) = small();
        with_huge(OVER + line.len(), line, |book| {
            replied(subject.book(book, &mut area, &mut work, &mut store, 1_000_001), "4@0")?;
            replied(subject.book(book, &mut area, &mut work, &mut store, 9), "10@0")
        })
    });
    suite.test(&format!("{label} book: a term area of 2^32 and 1 bytes"), || {
        let (_, mut work, mut store) = small();
        with_huge(OVER + 1, b"J", |area| replied(subject.book(line, area, &mut work, &mut store, 9), "1@0"))
    });
    suite.test(&format!("{label} book: a work area of 2^32 bytes and a bad book"), || {
        let (mut area, _, mut store) = small();
        with_huge(OVER, b"w", |work| {
            replied(subject.book(line, &mut area, work, &mut store, 1_000_001), "4@0")?;
            replied(subject.book(b"a\tx\n", &mut area, work, &mut store, 9), "25@1")
        })
    });
    suite.test(&format!("{label} book: a store of 2^32 and 5 bytes"), || played_far(subject));
}

/// A book with a store of 2^32 and 5 bytes. Its pages are one piece again and again; behind the store they stay.
fn played_far(subject: &dyn Controller) -> Outcome {
    let mut pages = Pages::folded(PIECE, OVER / PIECE + 1)?;
    let store = &mut pages.bytes()[..OVER + 5];
    let (mut area, mut work) = ([7; 5], [7; 5]);
    for (book, words, size) in [("a .II/b B(a)(a)/", "finished 2", 3), ("a RRRRRJ/", "no room 1", 0)] {
        store[..PIECE].fill(b'#');
        replied_with(subject.book(&books::written(book), &mut area, &mut work, store, 9), words, size)?;
        equal("a byte that is not zero", store[..books::STORE].iter().position(|&byte| byte != 0), None)?;
        let behind = store[books::STORE..PIECE].iter().position(|&byte| byte != b'#');
        equal("a byte behind it that changed", behind, None)?;
    }
    replied(subject.book(b"a\tx\n", &mut area, &mut work, store, 9), "25@1")
}

/// A book with a work area of 2^32 and 5 bytes, all of which are zeros then. Its pages are one piece again and again.
fn worked_far(subject: &dyn Controller) -> Outcome {
    let mut pages = Pages::folded(PIECE, OVER / PIECE + 1)?;
    let work = &mut pages.bytes()[..OVER + 5];
    work[..PIECE].fill(b'#');
    let (mut area, mut store) = ([7; 5], vec![7; books::STORE]);
    let reply = subject.book(b"a\t.II\nb\tB(a)(a)\n", &mut area, work, &mut store, 9);
    replied_with(reply, "finished 2", 3)?;
    equal_bytes("the area", &area, b"BII\0\0")?;
    equal("a byte that is not zero", work[..PIECE].iter().position(|&byte| byte != 0), None)
}

/// So many letters at a time make up what is longer than 2^32.
const PIECE: usize = 64 << 20;

/// 2^32 and 5 letters `R` and one byte that is no letter: a place that no 32 bits hold.
fn read_far(subject: &dyn Controller) -> Outcome {
    let mut pages = Pages::repeated(&vec![b'R'; PIECE], OVER / PIECE + 1)?;
    let slice = &mut pages.bytes()[..OVER + 6];
    slice[OVER + 5] = b'x';
    replied(subject.read(slice), "5@4294967301")
}

/// An index of 2^32 and 6 letters as `f` and as `g`: its join with `J` has no room in 64 bytes. Then a byte that is no
/// letter stands in the place of its last letter.
fn join_far(subject: &dyn Controller) -> Outcome {
    let mut pages = Pages::repeated(&vec![b'R'; PIECE], OVER / PIECE + 1)?;
    let index = &mut pages.bytes()[..OVER + 6];
    let mut area = [7; 64];
    index[OVER + 5] = b'J';
    replied(subject.join(index, b"J", &mut area), "31@0")?;
    index[OVER + 5] = b'x';
    replied(subject.join(b"J", index, &mut area), "5@4294967301")?;
    equal_bytes("the area", &area, &[7; 64])
}

/// A join of 2^32 and 2^26 letters, whose reply has the lowest 32 bits of its size. The area's pages are one
/// piece again and again, so that it takes no more memory than that; what they hold in the end is not looked at.
fn joined_far(subject: &dyn Controller) -> Outcome {
    let mut pages = Pages::repeated(&vec![b'R'; PIECE], OVER / PIECE + 1)?;
    let mut area = Pages::folded(PIECE, OVER / PIECE + 1)?;
    let index = &mut pages.bytes()[..OVER + PIECE - 13];
    index[OVER + PIECE - 14] = b'J';
    replied_with(subject.join(index, b"J", area.bytes()), "joined", PIECE)
}

/// One row in a table of 2^32 and 8 bytes, whose number of bytes is past 2^32 by fewer than a row takes. Its pages are
/// one piece again and again; behind the row's own bytes all of it is zeros afterwards.
fn rung_far(subject: &dyn Controller) -> Outcome {
    let mut pages = Pages::folded(PIECE, OVER / PIECE + 1)?;
    let table = &mut pages.bytes()[..OVER + 8];
    table[..PIECE].fill(b'#');
    replied_with(subject.rows(b"B1B2I", 2, table), "rung 1", 1)?;
    equal("a byte that is not zero", table[12..PIECE].iter().position(|&byte| byte != 0), None)
}

/// Entries into a store of 2^32 and 5 bytes. Its pages are one piece again and again; behind the store they stay.
fn entered_far(subject: &dyn Controller) -> Outcome {
    let mut pages = Pages::folded(PIECE, OVER / PIECE + 1)?;
    let store = &mut pages.bytes()[..OVER + 5];
    store[STORE..PIECE].fill(b'#');
    for (term, words) in
        [("J", "entered 1"), ("A0T", "entered 2"), ("J", "entered 1"), (".II", "29@0"), ("Jx", "7@1")]
    {
        replied(subject.enter(term.as_bytes(), store), words)?;
    }
    equal_bytes("the store", &store[..STORE], &store_of(&["J", "A0T"]))?;
    equal("a byte behind it that changed", store[STORE..PIECE].iter().position(|&byte| byte != b'#'), None)?;
    store[STORE - 1] = 1;
    replied(subject.enter(b"J", store), "28@0")
}

/// An index of 2^32 and 6 letters: there is no room for it, and none is asked for where there is no catalogue.
fn index_entered(subject: &dyn Controller) -> Outcome {
    let mut pages = Pages::repeated(&vec![b'R'; PIECE], OVER / PIECE + 1)?;
    let index = &mut pages.bytes()[..OVER + 6];
    index[OVER + 5] = b'J';
    let mut store = store_of(&["J"]);
    replied(subject.enter(index, &mut store), "30@0")?;
    equal_bytes("the store", &store, &store_of(&["J"]))?;
    replied(subject.enter(index, &mut vec![1; STORE]), "28@0")
}

/// Reading of over 2^32 letters.
pub fn far(suite: &mut Suite, label: &str, subject: impl Controller) {
    suite.test(&format!("{label} reading: 2^32 and 5 letters R, and x"), || read_far(&subject));
}

/// Joining of over 2^32 letters.
pub fn far_joins(suite: &mut Suite, label: &str, subject: impl Controller) {
    suite.test(&format!("{label} joining: a size of more than 32 bits"), || joined_far(&subject));
    suite.test(&format!("{label} joining: an index of 2^32 and 6 letters, and one that is none"), || {
        join_far(&subject)
    });
}

/// Rows in a table of over 2^32 bytes.
pub fn far_rows(suite: &mut Suite, label: &str, subject: impl Controller) {
    suite.test(&format!("{label} rows: a table of 2^32 and 8 bytes"), || rung_far(&subject));
}

/// An entry of over 2^32 letters.
pub fn far_catalogue(suite: &mut Suite, label: &str, subject: impl Controller) {
    suite.test(&format!("{label} catalogue: an index of 2^32 and 6 letters"), || index_entered(&subject));
}

/// A book with a work area of over 2^32 bytes.
pub fn far_books(suite: &mut Suite, label: &str, subject: impl Controller) {
    suite.test(&format!("{label} book: a work area of 2^32 and 5 bytes"), || worked_far(&subject));
}
