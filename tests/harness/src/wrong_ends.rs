//! Stepping that looks up in a table where parts end, with a bug planted in the table.

use crate::reply::{code, pack, STEPPED};
use crate::subject::Controller;
use second::stepping::{store, MAX_AREA};
use second::term::arity;

/// What becomes of the ends of the parts of a text.
pub type Damage = fn(&[u8], &mut [usize]);

/// For each letter of a text the index behind the part that begins there.
fn ends_of(text: &[u8]) -> Vec<usize> {
    let mut ends = vec![0; text.len()];
    for (place, &letter) in text.iter().enumerate().rev() {
        ends[place] = match arity(letter) {
            Some(1) => ends[place + 1],
            Some(2) => ends[ends[place + 1]],
            _ => place + 1,
        };
    }
    ends
}

/// The place of the redex, by these ends.
fn redex(text: &[u8], ends: &[usize]) -> Option<usize> {
    let mut place = text.iter().position(|&letter| letter == b'.')?;
    loop {
        let function = place + 1;
        let argument = ends[function];
        place = match text[function] {
            b'.' => function,
            b'B' if argument > function && text.get(argument) == Some(&b'.') => argument,
            _ => return Some(place),
        };
    }
}

/// The rule and the next term, by these ends, where the rule looks at them.
fn rewritten(text: &[u8], ends: &[usize], place: usize) -> Option<(u64, Vec<u8>)> {
    let (function, first) = (place + 1, place + 2);
    match text[function] {
        b'A' => {
            let end = ends[function];
            let argument = &text[end..ends[end]];
            let pieces = [&text[..function], b"B", argument, &text[first..end], &text[ends[end]..]];
            Some((4, pieces.concat()))
        }
        b'B' => Some(substituted(text, ends, place)),
        _ => None,
    }
}

/// Rules 6 to 11, and 13.
fn substituted(text: &[u8], ends: &[usize], place: usize) -> (u64, Vec<u8>) {
    let (function, first) = (place + 1, place + 2);
    let (middle, end) = (ends[first], ends[ends[first]]);
    let inner = end + 1;
    let (before, pair) = (&text[..place], &text[place..end]);
    let spread = |letter: &[u8], again: &[u8]| {
        let third = ends[inner];
        [before, letter, pair, &text[inner..third], again, &text[third..]].concat()
    };
    match text[end] {
        b'J' => (6, [before, &text[first..middle], &text[inner..]].concat()),
        b'R' => (7, [&text[..function], &text[middle..end], &text[inner..]].concat()),
        b'H' => (8, spread(b".", pair)),
        b'A' => (9, spread(b"A", b"")),
        b'I' => (10, [before, &text[end..]].concat()),
        b'B' => (11, spread(b"B", pair)),
        _ => (13, [before, &text[end..]].concat()),
    }
}

/// A step of the subject, made once more by damaged ends where its rule looks at them.
pub fn step(subject: &dyn Controller, area: &mut [u8], term: usize, work: &mut [u8], damage: Damage) -> u64 {
    let text = area[..term.min(area.len())].to_vec();
    let reply = subject.step(area, term, work);
    if code(reply) != STEPPED {
        return reply;
    }
    let mut ends = ends_of(&text);
    damage(&text, &mut ends);
    let next = redex(&text, &ends).and_then(|place| rewritten(&text, &ends, place));
    next.map_or(reply, |(rule, mut text)| {
        text.truncate(area.len());
        store(&text, area);
        pack(STEPPED, rule, text.len())
    })
}

pub fn short_past_the_middle(text: &[u8], ends: &mut [usize]) {
    ends[text.len() / 2..].iter_mut().for_each(|end| *end -= 1);
}

pub fn last_entry_left_out(_: &[u8], ends: &mut [usize]) {
    ends.iter_mut().skip(MAX_AREA - 1).for_each(|end| *end = 0);
}

pub fn largest_end_as_0(_: &[u8], ends: &mut [usize]) {
    ends.iter_mut().for_each(|end| *end %= MAX_AREA);
}
