//! A subject with one slip in its books: in what it tells, and in what it writes.

use crate::books::{MOST_LINES, STORE};
use crate::reply::*;
use crate::subject::Controller;
use crate::wrong_book::*;
use second::comparing::Lent;
use std::sync::atomic::{AtomicU64, Ordering};

/// The subject, but for its books.
#[derive(Clone, Copy)]
pub struct Wrong<C> {
    pub subject: C,
    pub slip: &'static Slip,
}

impl<C: Controller> Controller for Wrong<C> {
    fn read(&self, slice: &[u8]) -> u64 {
        self.subject.read(slice)
    }

    fn step(&self, area: &mut [u8], term: usize, work: &mut [u8]) -> u64 {
        self.subject.step(area, term, work)
    }

    fn finish(&self, area: &mut [u8], term: usize, work: &mut [u8], fuel: u64) -> u64 {
        self.subject.finish(area, term, work, fuel)
    }

    fn finish_counted(&self, area: &mut [u8], term: usize, work: &mut [u8], fuel: u64, counts: &mut [u8]) -> u64 {
        self.subject.finish_counted(area, term, work, fuel, counts)
    }

    fn compare(&self, first: Lent, second: Lent, work: &mut [u8], fuel: u64) -> u64 {
        self.subject.compare(first, second, work, fuel)
    }

    fn join(&self, f: &[u8], g: &[u8], area: &mut [u8]) -> u64 {
        self.subject.join(f, g, area)
    }

    fn rows(&self, term: &[u8], bells: usize, table: &mut [u8]) -> u64 {
        self.subject.rows(term, bells, table)
    }

    fn enter(&self, term: &[u8], store: &mut [u8]) -> u64 {
        self.subject.enter(term, store)
    }

    fn book(&self, book: &[u8], area: &mut [u8], work: &mut [u8], store: &mut [u8], fuel: u64) -> u64 {
        (self.slip.play)(&self.subject, Playing { book, area, work, store, fuel })
    }

    fn check(&self, file: &[u8]) -> u64 {
        self.subject.check(file)
    }

    fn match_claims(&self, first: &[u8], second: &[u8]) -> u64 {
        self.subject.match_claims(first, second)
    }
}

// Ways to change what a subject replies to a book, and what it leaves.

fn asked(subject: &dyn Controller, lent: &mut Playing) -> u64 {
    subject.book(lent.book, lent.area, lent.work, lent.store, lent.fuel)
}

/// Another reply in the place of those with one of these codes.
fn replied(subject: &dyn Controller, mut lent: Playing, from: &[u64], to: impl Fn(u64, &Playing) -> u64) -> u64 {
    let reply = asked(subject, &mut lent);
    match from.contains(&code(reply)) {
        true => to(reply, &lent),
        false => reply,
    }
}

/// What is lent, before a call and after it, with the reply.
struct After<'a, 'b> {
    reply: u64,
    area: Vec<u8>,
    work: Vec<u8>,
    store: Vec<u8>,
    now: &'a mut Playing<'b>,
}

/// Something is written after a reply with one of these codes.
fn written(subject: &dyn Controller, mut lent: Playing, codes: &[u64], write: impl Fn(After)) -> u64 {
    let (area, work, store) = (lent.area.to_vec(), lent.work.to_vec(), lent.store.to_vec());
    let reply = asked(subject, &mut lent);
    if codes.contains(&code(reply)) {
        write(After { reply, area, work, store, now: &mut lent });
    }
    reply
}

/// Reply and bytes as the tests' own book has them, which are right, and then something else is written.
fn own(subject: &dyn Controller, lent: Playing, write: impl Fn(&Came, &mut Playing)) -> u64 {
    RIGHT.play_and(subject, lent, write)
}

const ANSWERS: &[u64] = &[FINISHED, SPENT, NO_ROOM];
const UNFINISHED: &[u64] = &[SPENT, NO_ROOM];
const REFUSALS: &[u64] =
    &[AREA_TOO_LARGE, TOO_SHORT, FUEL_TOO_LARGE, TOO_LARGE, EMPTY, NO_LINE_FEED, BAD_LINE, TAKEN, UNKNOWN];
const LINES: &[u64] = &[BAD_LINE, TAKEN, UNKNOWN];

fn line_of(reply: u64) -> usize {
    (reply >> 8) as usize
}

/// A call in which the store, or the work area, is cut to the bits that are counted.
fn in_32_bits(size: usize) -> usize {
    size % (1 << 32)
}

/// Books are counted outside of what is lent, and every seventh is refused.
fn counted_outside(subject: &dyn Controller, mut lent: Playing) -> u64 {
    static BOOKS: AtomicU64 = AtomicU64::new(0);
    let reply = asked(subject, &mut lent);
    let before = BOOKS.fetch_add(1, Ordering::Relaxed);
    if !is_refusal(reply) && before % 7 == 6 {
        return pack(NO_ROOM, value(reply), 0);
    }
    reply
}

/// Slips in what a subject tells and writes.
static WRAPPED: &[Slip] = &[
    // what is told
    slip("a finished book answered by 116", |s, lent| replied(s, lent, &[FINISHED], |reply, _| reply + 6)),
    slip("spent and no room exchanged for books", |s, lent| {
        replied(s, lent, UNFINISHED, |reply, _| pack(SPENT + NO_ROOM - code(reply), value(reply), 0))
    }),
    slip("no room told as spent for books", |s, lent| {
        replied(s, lent, &[NO_ROOM], |reply, _| pack(SPENT, value(reply), 0))
    }),
    slip("the lines of a book told where it did not finish", |s, lent| {
        let lines = lent.book.iter().filter(|&&byte| byte == b'\n').count() as u64;
        replied(s, lent, UNFINISHED, |reply, _| pack(code(reply), lines, 0))
    }),
    slip("the last line that finished told", |s, lent| replied(s, lent, UNFINISHED, |reply, _| reply - (1 << 8))),
    slip("lines of an answer numbered from 0", |s, lent| replied(s, lent, ANSWERS, |reply, _| reply - (1 << 8))),
    slip("no line told where a book finished", |s, lent| {
        replied(s, lent, &[FINISHED], |reply, _| pack(FINISHED, 0, size(reply)))
    }),
    slip("lines told in 8 bits", |s, lent| {
        replied(s, lent, ANSWERS, |reply, _| pack(code(reply), value(reply) & 255, size(reply)))
    }),
    slip("lines of refusals told in 8 bits", |s, lent| {
        replied(s, lent, LINES, |reply, _| placed(code(reply), line_of(reply) & 255))
    }),
    slip("no size told where a book finished", |s, lent| {
        replied(s, lent, &[FINISHED], |reply, _| pack(FINISHED, value(reply), 0))
    }),
    slip("the size of the area told", |s, lent| {
        replied(s, lent, &[FINISHED], |reply, lent| pack(FINISHED, value(reply), lent.area.len()))
    }),
    slip("a size told where a book did not finish", |s, lent| {
        replied(s, lent, UNFINISHED, |reply, _| pack(code(reply), value(reply), 1))
    }),
    slip("the letters of all results told", |s, lent| {
        let held = RIGHT.tried(s, &lent).map_or(0, |came| came.held.len());
        replied(s, lent, &[FINISHED], |reply, _| pack(FINISHED, value(reply), held))
    }),
    slip("25 answered as 14", |s, lent| replied(s, lent, &[BAD_LINE], |reply, _| placed(14, line_of(reply)))),
    slip("26 answered as 27", |s, lent| replied(s, lent, &[TAKEN], |reply, _| placed(UNKNOWN, line_of(reply)))),
    slip("27 answered as 26", |s, lent| replied(s, lent, &[UNKNOWN], |reply, _| placed(TAKEN, line_of(reply)))),
    slip("27 answered as 25", |s, lent| replied(s, lent, &[UNKNOWN], |reply, _| placed(BAD_LINE, line_of(reply)))),
    slip("26 at the line that has the name", |s, lent| replied(s, lent, &[TAKEN], |_, _| placed(TAKEN, 1))),
    slip("25 at 0", |s, lent| replied(s, lent, &[BAD_LINE], |_, _| placed(BAD_LINE, 0))),
    slip("27 at 0", |s, lent| replied(s, lent, &[UNKNOWN], |_, _| placed(UNKNOWN, 0))),
    slip("25 at the byte where its line starts", |s, lent| {
        replied(s, lent, &[BAD_LINE], |reply, lent| {
            let lines = lent.book.split(|&byte| byte == b'\n').take(line_of(reply) - 1);
            placed(BAD_LINE, lines.map(|line| line.len() + 1).sum())
        })
    }),
    slip("10 at the number of bytes", |s, lent| {
        replied(s, lent, &[TOO_LARGE], |_, lent| placed(TOO_LARGE, lent.book.len()))
    }),
    slip("11 at line 1", |s, lent| replied(s, lent, &[EMPTY], |_, _| placed(EMPTY, 1))),
    slip("12 at the last line", |s, lent| {
        replied(s, lent, &[NO_LINE_FEED], |_, lent| {
            placed(NO_LINE_FEED, 1 + lent.book.iter().filter(|&&byte| byte == b'\n').count())
        })
    }),
    slip("2 answered as 31 for a book", |s, lent| replied(s, lent, &[TOO_SHORT], |_, _| placed(31, 0))),
    slip("4 told as 1 by a book", |s, lent| replied(s, lent, &[FUEL_TOO_LARGE], |_, _| placed(AREA_TOO_LARGE, 0))),
    slip("a book of one line refused", |s, mut lent| {
        let one = lent.book.iter().filter(|&&byte| byte == b'\n').count() == 1;
        match one && RIGHT.tried(s, &lent).is_ok() {
            true => placed(BAD_LINE, 1),
            false => asked(s, &mut lent),
        }
    }),
    slip("a book of 256 lines refused", |s, mut lent| {
        let most = lent.book.iter().filter(|&&byte| byte == b'\n').count() == MOST_LINES;
        match most && RIGHT.tried(s, &lent).is_ok() {
            true => placed(BAD_LINE, MOST_LINES),
            false => asked(s, &mut lent),
        }
    }),
    slip("a book without uses refused", |s, mut lent| {
        let none = !lent.book.contains(&b'(');
        match none && RIGHT.tried(s, &lent).is_ok() {
            true => placed(UNKNOWN, 1),
            false => asked(s, &mut lent),
        }
    }),
    slip("an area of no bytes refused", |s, mut lent| {
        match lent.area.is_empty() && RIGHT.tried(s, &lent).is_ok() {
            true => placed(TOO_SHORT, 0),
            false => asked(s, &mut lent),
        }
    }),
    slip("a longer store refused for a book", |s, mut lent| {
        match lent.store.len() > STORE && RIGHT.tried(s, &lent).is_ok() {
            true => placed(TOO_SHORT, 0),
            false => asked(s, &mut lent),
        }
    }),
    slip("a store that is not zeros refused", |s, mut lent| {
        match lent.store.iter().any(|&byte| byte != 0) && RIGHT.tried(s, &lent).is_ok() {
            true => placed(28, 0),
            false => asked(s, &mut lent),
        }
    }),
    slip("books counted outside of what is lent", counted_outside),
    // what is left
    slip("the area not cleared where a book is spent", |s, lent| {
        written(s, lent, &[SPENT], |after| after.now.area.copy_from_slice(&after.area))
    }),
    slip("the area not cleared where there is no room", |s, lent| {
        written(s, lent, &[NO_ROOM], |after| after.now.area.copy_from_slice(&after.area))
    }),
    slip("the term reached left in the area", |s, lent| {
        own(s, lent, |came, lent| {
            if came.code != FINISHED {
                lent.area.iter_mut().zip(&came.text).for_each(|(place, letter)| *place = *letter);
            }
        })
    }),
    slip("the last result left in the area of a book that did not finish", |s, lent| {
        own(s, lent, |came, lent| {
            if came.code != FINISHED {
                let from = came.held.len().saturating_sub(lent.area.len());
                lent.area.iter_mut().zip(&came.held[from..]).for_each(|(place, letter)| *place = *letter);
            }
        })
    }),
    slip("bytes behind a book's result kept", |s, lent| {
        written(s, lent, &[FINISHED], |after| {
            let size = size(after.reply);
            after.now.area[size..].copy_from_slice(&after.area[size..]);
        })
    }),
    slip("a letter behind a book's result", |s, lent| {
        written(s, lent, &[FINISHED], |after| {
            if let Some(behind) = after.now.area.get_mut(size(after.reply)) {
                *behind = b'J';
            }
        })
    }),
    slip("a line feed behind a book's result", |s, lent| {
        written(s, lent, &[FINISHED], |after| {
            if let Some(behind) = after.now.area.get_mut(size(after.reply)) {
                *behind = b'\n';
            }
        })
    }),
    slip("the work area of a book not cleared", |s, lent| {
        written(s, lent, ANSWERS, |after| after.now.work.copy_from_slice(&after.work))
    }),
    slip("the work area cleared as far as the term area goes", |s, lent| {
        written(s, lent, ANSWERS, |after| {
            let size = after.area.len();
            after.now.work[size..].copy_from_slice(&after.work[size..]);
        })
    }),
    slip("the work area not cleared where a book did not finish", |s, lent| {
        written(s, lent, UNFINISHED, |after| after.now.work.copy_from_slice(&after.work))
    }),
    slip("the work area not cleared where a line is too large", |s, lent| {
        written(s, lent, &[NO_ROOM], |after| after.now.work.copy_from_slice(&after.work))
    }),
    slip("the store of a book not cleared", |s, lent| {
        written(s, lent, ANSWERS, |after| after.now.store.copy_from_slice(&after.store))
    }),
    slip("results left in the store", |s, lent| {
        own(s, lent, |came, lent| {
            lent.store[..STORE].iter_mut().zip(&came.held).for_each(|(place, letter)| *place = *letter);
        })
    }),
    slip("results left in the store of a book that did not finish", |s, lent| {
        own(s, lent, |came, lent| {
            if came.code != FINISHED {
                lent.store[..STORE].iter_mut().zip(&came.held).for_each(|(place, letter)| *place = *letter);
            }
        })
    }),
    slip("the store cleared as far as results went", |s, lent| {
        let before = lent.store.to_vec();
        own(s, lent, |came, lent| {
            let used = came.held.len().min(STORE);
            lent.store[used..].copy_from_slice(&before[used..]);
        })
    }),
    slip("the store not cleared where a book did not finish", |s, lent| {
        written(s, lent, UNFINISHED, |after| after.now.store.copy_from_slice(&after.store))
    }),
    slip("the last byte of a book's store not cleared", |s, lent| {
        written(s, lent, ANSWERS, |after| after.now.store[STORE - 1] = after.store[STORE - 1])
    }),
    slip("the first byte of a book's store not cleared", |s, lent| {
        written(s, lent, ANSWERS, |after| after.now.store[0] = after.store[0])
    }),
    slip("a longer store cleared to its end", |s, lent| {
        written(s, lent, ANSWERS, |after| after.now.store[STORE..].fill(0))
    }),
    slip("one byte behind the store cleared", |s, lent| {
        written(s, lent, ANSWERS, |after| {
            after.now.store.iter_mut().skip(STORE).take(1).for_each(|byte| *byte = 0)
        })
    }),
    slip("a longer store cleared where a book did not finish", |s, lent| {
        written(s, lent, UNFINISHED, |after| after.now.store[STORE..].fill(0))
    }),
    slip("a refused book clears the area", |s, lent| written(s, lent, REFUSALS, |after| after.now.area.fill(0))),
    slip("a refused book clears the work area", |s, lent| {
        written(s, lent, REFUSALS, |after| after.now.work.fill(0))
    }),
    slip("a refused book clears the store", |s, lent| written(s, lent, REFUSALS, |after| after.now.store.fill(0))),
    slip("a bad line clears the area", |s, lent| written(s, lent, &[BAD_LINE], |after| after.now.area.fill(0))),
    slip("an unknown name clears the store", |s, lent| {
        written(s, lent, &[UNKNOWN], |after| after.now.store.fill(0))
    }),
    slip("a name that is taken writes to the store", |s, lent| {
        written(s, lent, &[TAKEN], |after| after.now.store[0] = b'a')
    }),
    slip("a book without a line feed clears the work area", |s, lent| {
        written(s, lent, &[NO_LINE_FEED], |after| after.now.work.fill(0))
    }),
    slip("a short store of a book cleared", |s, lent| {
        written(s, lent, &[TOO_SHORT], |after| after.now.store.fill(0))
    }),
    slip("too much fuel clears the area of a book", |s, lent| {
        written(s, lent, &[FUEL_TOO_LARGE], |after| after.now.area.fill(0))
    }),
    slip("lines played before all are tested", |s, lent| {
        written(s, lent, LINES, |after| {
            if line_of(after.reply) > 1 {
                after.now.area.iter_mut().take(1).for_each(|byte| *byte = 0);
            }
        })
    }),
    slip("a byte written behind the area of a book", |s, lent| {
        written(s, lent, &[FINISHED], |after| {
            let area = &mut after.now.area;
            unsafe { *area.as_mut_ptr().add(area.len()) = 0 }
        })
    }),
    slip("a byte written behind the store of a book", |s, lent| {
        written(s, lent, ANSWERS, |after| {
            let store = &mut after.now.store;
            unsafe { *store.as_mut_ptr().add(store.len()) = 0 }
        })
    }),
    slip("a byte written behind the work area of a book", |s, lent| {
        written(s, lent, ANSWERS, |after| {
            let work = &mut after.now.work;
            unsafe { *work.as_mut_ptr().add(work.len()) = 0 }
        })
    }),
    slip("the book written", |s, lent| {
        written(s, lent, ANSWERS, |after| unsafe { after.now.book.as_ptr().cast_mut().write_volatile(b'x') })
    }),
    // past 2^32
    far("the bytes of a book counted in 32 bits", |s, lent| {
        let book = &lent.book[..in_32_bits(lent.book.len())];
        s.book(book, lent.area, lent.work, lent.store, lent.fuel)
    }),
    far("the bytes of a book's store counted in 32 bits", |s, lent| {
        let size = in_32_bits(lent.store.len());
        s.book(lent.book, lent.area, lent.work, &mut lent.store[..size], lent.fuel)
    }),
    far("the bytes of a book's work area counted in 32 bits", |s, lent| {
        let size = in_32_bits(lent.work.len());
        s.book(lent.book, lent.area, &mut lent.work[..size], lent.store, lent.fuel)
    }),
    far("the bytes of a book's area counted in 32 bits", |s, lent| {
        let size = in_32_bits(lent.area.len());
        s.book(lent.book, &mut lent.area[..size], lent.work, lent.store, lent.fuel)
    }),
    slip("the fuel of a book counted in 32 bits", |s, lent| {
        s.book(lent.book, lent.area, lent.work, lent.store, lent.fuel & 0xffff_ffff)
    }),
];

/// Every slip.
pub fn slips() -> impl Iterator<Item = &'static Slip> {
    READ.iter().chain(PLAYED).chain(WRAPPED)
}
