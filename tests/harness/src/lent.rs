//! Lent areas with guard bytes on both sides, and calls whose every lent byte is predicted.

use crate::reply::{in_words, is_refusal, value};
use crate::subject::{Controller, Second};
use crate::suite::{equal, equal_bytes, shown, Outcome};
use second::comparing::Lent;
use second::plain::Plain;
use second::stepping::Reducer;
use std::cell::Cell;

const GUARD: usize = 48;
const ALIGNED: usize = 16;

thread_local! {
    static TURN: Cell<usize> = const { Cell::new(0) };
}

/// The numbers 0 to 16 in turn: their count is odd, so that the two areas of a call take each of them.
fn turn() -> usize {
    TURN.replace((TURN.get() + 1) % (ALIGNED + 1))
}

/// A lent area with guard bytes around it; areas start at each distance from a multiple of 16 in turn.
pub struct Guarded {
    bytes: Vec<u8>,
    start: usize,
    length: usize,
}

fn guard_byte(place: usize) -> u8 {
    (place as u8).wrapping_mul(37) | 0x80
}

impl Guarded {
    pub fn new(content: &[u8]) -> Self {
        let whole = GUARD + 2 * ALIGNED + content.len() + GUARD;
        let mut bytes: Vec<u8> = (0..whole).map(guard_byte).collect();
        let start = GUARD + bytes[GUARD..].as_ptr().align_offset(ALIGNED) + turn();
        bytes[start..start + content.len()].copy_from_slice(content);
        Guarded { bytes, start, length: content.len() }
    }

    pub fn area(&mut self) -> &mut [u8] {
        &mut self.bytes[self.start..self.start + self.length]
    }

    /// Demands the content, and that no guard byte was changed.
    pub fn expect(&self, what: &str, content: &[u8]) -> Outcome {
        let end = self.start + self.length;
        equal_bytes(what, &self.bytes[self.start..end], content)?;
        let outside = (0..self.start).chain(end..self.bytes.len());
        match outside.into_iter().find(|&place| self.bytes[place] != guard_byte(place)) {
            None => Ok(()),
            Some(place) => Err(format!("{what}: guard byte {} changed", place as isize - self.start as isize)),
        }
    }
}

/// A term with what lies behind it in its area, and a work area.
#[derive(Clone)]
pub struct Call {
    pub area: Vec<u8>,
    pub term: usize,
    pub work: Vec<u8>,
}

/// A call on a term in an area of this size, with `#` behind the term and `w` in the work area.
pub fn call(text: &[u8], area: usize) -> Call {
    let mut bytes = text.to_vec();
    bytes.resize(area, b'#');
    Call { area: bytes, term: text.len(), work: vec![b'w'; area] }
}

/// What a call must answer and leave.
pub struct Expected {
    pub reply: u64,
    pub area: Vec<u8>,
    pub work: Vec<u8>,
}

/// What a reducer predicts of stepping (no fuel) or finishing.
pub type Predict = fn(&Call, Option<u64>) -> Expected;

fn predict<R: Reducer>(call: &Call, fuel: Option<u64>) -> Expected {
    let (mut area, mut work) = (call.area.clone(), call.work.clone());
    let second = Second::<R>::new();
    let reply = match fuel {
        None => second.step(&mut area, call.term, &mut work),
        Some(fuel) => Controller::finish(&second, &mut area, call.term, &mut work, fuel),
    };
    Expected { reply, area, work }
}

/// The prediction of the plain reducer.
pub fn predict_plain(call: &Call, fuel: Option<u64>) -> Expected {
    predict::<Plain>(call, fuel)
}

/// The prediction of the fast reducer, for runs that are long for the plain one.
pub fn predict_fast(call: &Call, fuel: Option<u64>) -> Expected {
    predict::<second::machine::Machine>(call, fuel)
}

/// Calls stepping (no fuel) or finishing, and demands the reply and every lent byte.
pub fn demand(subject: &dyn Controller, call: &Call, fuel: Option<u64>, expected: &Expected) -> Outcome {
    let (mut area, mut work) = (Guarded::new(&call.area), Guarded::new(&call.work));
    let reply = match fuel {
        None => subject.step(area.area(), call.term, work.area()),
        Some(fuel) => subject.finish(area.area(), call.term, work.area(), fuel),
    };
    let found = equal("reply", in_words(reply), in_words(expected.reply))
        .and_then(|()| area.expect("term area", &expected.area))
        .and_then(|()| work.expect("work area", &expected.work));
    found.map_err(|what| format!("{what}; on {}", described(call, fuel)))
}

fn described(call: &Call, fuel: Option<u64>) -> String {
    let held = &call.area[..call.term.min(call.area.len())];
    let (area, work) = (call.area.len(), call.work.len());
    format!("term {} length {} area {area} work {work} fuel {fuel:?}", shown(held), call.term)
}

/// Demands that a call replies as the plain reducer predicts.
pub fn agree(subject: &dyn Controller, call: &Call, fuel: Option<u64>) -> Outcome {
    demand(subject, call, fuel, &predict_plain(call, fuel))
}

/// A call of finishing with a buffer for the counts.
#[derive(Clone)]
pub struct Counted {
    pub call: Call,
    pub fuel: u64,
    pub counts: Vec<u8>,
}

/// What a counted call replies, and the bytes of the area, the work area and the buffer afterwards.
pub type AfterCounted = (u64, [Vec<u8>; 3]);

/// What the second implementation replies to a counted call, with one of its reducers.
pub fn predict_counted<R: Reducer>(counted: &Counted) -> AfterCounted {
    let Counted { call, fuel, counts } = counted.clone();
    let (mut area, mut work, mut counts) = (call.area, call.work, counts);
    let reply = Second::<R>::new().finish_counted(&mut area, call.term, &mut work, fuel, &mut counts);
    (reply, [area, work, counts])
}

/// Demands of an answer that its steps are what the thirteen counts make up, four bytes each, low byte first.
pub fn demand_sum(reply: u64, counts: &[u8]) -> Outcome {
    if is_refusal(reply) {
        return Ok(());
    }
    let count = |bytes: &[u8]| bytes.iter().rev().fold(0, |so_far, &byte| 256 * so_far + u64::from(byte));
    equal("steps by the counts", counts[..52].chunks(4).map(count).sum(), value(reply))
}

/// Calls finishing with counts, and demands the reply, every lent byte, and that the counts make up the steps.
pub fn demand_counted(subject: &dyn Controller, counted: &Counted, expected: &AfterCounted) -> Outcome {
    let Counted { call, fuel, counts } = counted;
    let mut lent = [&call.area, &call.work, counts].map(|bytes| Guarded::new(bytes));
    let [area, work, buffer] = &mut lent;
    let reply = subject.finish_counted(area.area(), call.term, work.area(), *fuel, buffer.area());
    let mut found = equal("reply", in_words(reply), in_words(expected.0));
    found = found.and_then(|()| demand_sum(reply, lent[2].area()));
    for (place, what) in ["term area", "work area", "counts"].into_iter().enumerate() {
        found = found.and_then(|()| lent[place].expect(what, &expected.1[place]));
    }
    found.map_err(|what| format!("{what}; on {} counts {}", described(call, Some(*fuel)), counts.len()))
}

/// Demands that a counted call replies as the plain reducer predicts.
pub fn agree_counted(subject: &dyn Controller, counted: &Counted) -> Outcome {
    demand_counted(subject, counted, &predict_counted::<Plain>(counted))
}

/// Two terms in their areas, a work area and a fuel.
#[derive(Clone)]
pub struct Pair {
    pub first: Vec<u8>,
    pub first_term: usize,
    pub second: Vec<u8>,
    pub second_term: usize,
    pub work: Vec<u8>,
    pub fuel: u64,
}

/// What comparing replies, and the bytes of the two areas and the work area afterwards.
pub type Compared = (u64, [Vec<u8>; 3]);

/// What the second implementation replies to a pair, with its plain reducer.
pub fn predict_pair(pair: &Pair) -> Compared {
    predict_pair_by::<Plain>(pair)
}

/// What it replies with one of its reducers.
pub fn predict_pair_by<R: Reducer>(pair: &Pair) -> Compared {
    let (mut first, mut second, mut work) = (pair.first.clone(), pair.second.clone(), pair.work.clone());
    let subject = Second::<R>::new();
    let (one, two) =
        (Lent { area: &mut first, length: pair.first_term }, Lent { area: &mut second, length: pair.second_term });
    let reply = subject.compare(one, two, &mut work, pair.fuel);
    (reply, [first, second, work])
}

/// Calls comparing, and demands the reply and every lent byte.
pub fn demand_pair(subject: &dyn Controller, pair: &Pair, expected: &Compared) -> Outcome {
    let mut areas = [&pair.first, &pair.second, &pair.work].map(|bytes| Guarded::new(bytes));
    let [first, second, work] = &mut areas;
    let one = Lent { area: first.area(), length: pair.first_term };
    let two = Lent { area: second.area(), length: pair.second_term };
    let reply = subject.compare(one, two, work.area(), pair.fuel);
    let mut found = equal("reply", in_words(reply), in_words(expected.0));
    for (place, what) in ["first area", "second area", "work area"].into_iter().enumerate() {
        found = found.and_then(|()| areas[place].expect(what, &expected.1[place]));
    }
    let held = |area: &[u8], term: usize| shown(&area[..term.min(area.len())]);
    let (one, two) = (held(&pair.first, pair.first_term), held(&pair.second, pair.second_term));
    found.map_err(|what| format!("{what}; on {one} and {two}, fuel {}", pair.fuel))
}

/// Two texts, and an area for their join.
#[derive(Clone)]
pub struct Join {
    pub f: Vec<u8>,
    pub g: Vec<u8>,
    pub area: Vec<u8>,
}

/// What joining replies, and the bytes of the area afterwards; the two texts stay as they are.
pub type Joined = (u64, Vec<u8>);

/// What the second implementation replies to a join.
pub fn predict_join(join: &Join) -> Joined {
    let mut area = join.area.clone();
    (Second::<Plain>::new().join(&join.f, &join.g, &mut area), area)
}

/// Calls joining, and demands the reply and every lent byte.
pub fn demand_join(subject: &dyn Controller, join: &Join, expected: &Joined) -> Outcome {
    let mut lent = [&join.f, &join.g, &join.area].map(|bytes| Guarded::new(bytes));
    let [f, g, area] = &mut lent;
    let reply = subject.join(f.area(), g.area(), area.area());
    let found = equal("reply", in_words(reply), in_words(expected.0))
        .and_then(|()| lent[0].expect("f", &join.f))
        .and_then(|()| lent[1].expect("g", &join.g))
        .and_then(|()| lent[2].expect("area", &expected.1));
    found.map_err(|what| format!("{what}; on {}", joined_in_words(join)))
}

/// The same with one buffer for both texts, which are equal.
pub fn demand_join_in_one_buffer(subject: &dyn Controller, join: &Join, expected: &Joined) -> Outcome {
    let (mut text, mut area) = (Guarded::new(&join.f), Guarded::new(&join.area));
    let both: &[u8] = text.area();
    let reply = subject.join(both, both, area.area());
    let found = equal("reply", in_words(reply), in_words(expected.0))
        .and_then(|()| text.expect("f and g", &join.g))
        .and_then(|()| area.expect("area", &expected.1));
    found.map_err(|what| format!("{what}; in one buffer, on {}", joined_in_words(join)))
}

fn joined_in_words(join: &Join) -> String {
    format!("f {} g {} area {}", shown(&join.f), shown(&join.g), join.area.len())
}

/// Demands that joining replies as the second implementation does, also with one buffer where the texts are equal.
pub fn agree_join(subject: &dyn Controller, join: &Join) -> Outcome {
    let expected = predict_join(join);
    demand_join(subject, join, &expected)?;
    match join.f == join.g {
        true => demand_join_in_one_buffer(subject, join, &expected),
        false => Ok(()),
    }
}

/// A text, the number of bells of a row, and a table.
#[derive(Clone)]
pub struct Rows {
    pub term: Vec<u8>,
    pub bells: usize,
    pub table: Vec<u8>,
}

/// What a call for rows replies, and the bytes of the table afterwards; the text stays as it is.
pub type Rung = (u64, Vec<u8>);

/// What the second implementation replies to a call for rows.
pub fn predict_rows(rows: &Rows) -> Rung {
    let mut table = rows.table.clone();
    (Second::<Plain>::new().rows(&rows.term, rows.bells, &mut table), table)
}

/// Calls for rows, and demands the reply and every lent byte.
pub fn demand_rows(subject: &dyn Controller, rows: &Rows, expected: &Rung) -> Outcome {
    let (mut term, mut table) = (Guarded::new(&rows.term), Guarded::new(&rows.table));
    let reply = subject.rows(term.area(), rows.bells, table.area());
    let found = equal("reply", in_words(reply), in_words(expected.0))
        .and_then(|()| term.expect("term", &rows.term))
        .and_then(|()| table.expect("table", &expected.1));
    let (bells, size) = (rows.bells, rows.table.len());
    found.map_err(|what| format!("{what}; on {} bells {bells} table {size}", shown(&rows.term)))
}

/// Demands that a call for rows replies as the second implementation does.
pub fn agree_rows(subject: &dyn Controller, rows: &Rows) -> Outcome {
    demand_rows(subject, rows, &predict_rows(rows))
}

/// A text, and a store with what lies behind it.
#[derive(Clone)]
pub struct Entry {
    pub term: Vec<u8>,
    pub store: Vec<u8>,
}

/// What an entry replies, and the bytes of the store afterwards; the text stays as it is.
pub type Entered = (u64, Vec<u8>);

/// What the second implementation replies to an entry.
pub fn predict_entry(entry: &Entry) -> Entered {
    let mut store = entry.store.clone();
    (Second::<Plain>::new().enter(&entry.term, &mut store), store)
}

/// Enters, and demands the reply and every lent byte.
pub fn demand_entry(subject: &dyn Controller, entry: &Entry, expected: &Entered) -> Outcome {
    let (mut term, mut store) = (Guarded::new(&entry.term), Guarded::new(&entry.store));
    let reply = subject.enter(term.area(), store.area());
    let found = equal("reply", in_words(reply), in_words(expected.0))
        .and_then(|()| term.expect("term", &entry.term))
        .and_then(|()| store.expect("store", &expected.1));
    found.map_err(|what| format!("{what}; entering {} into {} bytes", shown(&entry.term), entry.store.len()))
}

/// Demands that an entry replies as the second implementation does; what the store holds afterwards.
pub fn agree_entry(subject: &dyn Controller, entry: &Entry) -> Result<Vec<u8>, String> {
    let expected = predict_entry(entry);
    demand_entry(subject, entry, &expected)?;
    Ok(expected.1)
}

/// A book, what is lent for it, and a fuel.
#[derive(Clone)]
pub struct Play {
    pub book: Vec<u8>,
    pub area: Vec<u8>,
    pub work: Vec<u8>,
    pub store: Vec<u8>,
    pub fuel: u64,
}

/// What playing replies, and the bytes of the area, the work area and the store afterwards; the book stays as it is.
pub type AfterPlay = (u64, [Vec<u8>; 3]);

/// What the second implementation replies to a book, with its plain reducer.
pub fn predict_play(play: &Play) -> AfterPlay {
    predict_play_by::<Plain>(play)
}

/// What it replies with one of its reducers.
pub fn predict_play_by<R: Reducer>(play: &Play) -> AfterPlay {
    let Play { book, mut area, mut work, mut store, fuel } = play.clone();
    let reply = Second::<R>::new().book(&book, &mut area, &mut work, &mut store, fuel);
    (reply, [area, work, store])
}

/// Plays, and demands the reply and every lent byte.
pub fn demand_play(subject: &dyn Controller, play: &Play, expected: &AfterPlay) -> Outcome {
    let mut lent = [&play.area, &play.work, &play.store].map(|bytes| Guarded::new(bytes));
    let mut book = Guarded::new(&play.book);
    let [area, work, store] = &mut lent;
    let reply = subject.book(book.area(), area.area(), work.area(), store.area(), play.fuel);
    let mut found = equal("reply", in_words(reply), in_words(expected.0));
    for (place, what) in ["term area", "work area", "store"].into_iter().enumerate() {
        found = found.and_then(|()| lent[place].expect(what, &expected.1[place]));
    }
    let found = found.and_then(|()| book.expect("book", &play.book));
    let (area, work, store) = (play.area.len(), play.work.len(), play.store.len());
    found.map_err(|what| {
        format!("{what}; on {} area {area} work {work} store {store} fuel {}", shown(&play.book), play.fuel)
    })
}

/// Demands that a book is played as the second implementation plays it.
pub fn agree_play(subject: &dyn Controller, play: &Play) -> Outcome {
    demand_play(subject, play, &predict_play(play))
}

/// Calls checking on guarded bytes, and demands the reply and that no byte was changed.
pub fn demand_check(subject: &dyn Controller, file: &[u8], reply: u64) -> Outcome {
    let mut lent = Guarded::new(file);
    let got = subject.check(lent.area());
    let found = equal("reply", in_words(got), in_words(reply)).and_then(|()| lent.expect("file", file));
    found.map_err(|what| format!("{what}; on {}", shown(file)))
}

/// Demands that checking replies as the second checker does.
pub fn agree_check(subject: &dyn Controller, file: &[u8]) -> Outcome {
    demand_check(subject, file, Second::<Plain>::new().check(file))
}

/// Calls reading on guarded bytes, and demands the reply and that no byte was changed.
pub fn demand_read(subject: &dyn Controller, slice: &[u8], reply: u64) -> Outcome {
    let mut lent = Guarded::new(slice);
    let got = subject.read(lent.area());
    let found = equal("reply", in_words(got), in_words(reply)).and_then(|()| lent.expect("slice", slice));
    found.map_err(|what| format!("{what}; on {}", shown(slice)))
}

/// Calls matching on guarded bytes, and demands the reply and that no byte was changed.
pub fn demand_match(subject: &dyn Controller, files: [&[u8]; 2], reply: u64) -> Outcome {
    let mut lent = files.map(Guarded::new);
    let [first, second] = &mut lent;
    let got = subject.match_claims(first.area(), second.area());
    let found = equal("reply", in_words(got), in_words(reply))
        .and_then(|()| lent[0].expect("first file", files[0]))
        .and_then(|()| lent[1].expect("second file", files[1]));
    found.map_err(|what| format!("{what}; on {} and {}", shown(files[0]), shown(files[1])))
}
