//! Stepping where parts end: terms about each power of two, their large parts on either side of the middle.

use crate::lent::{call, demand, Predict};
use crate::reply::{code, size, value, STEPPED};
use crate::subject::Controller;
use crate::suite::{equal, Outcome, Suite};
use crate::terms::{joined, repeated, BELLS};
use second::stepping::MAX_AREA;

/// The powers of two about which the sizes of the terms lie.
const POWERS: [usize; 9] = [16, 64, 128, 256, 512, 1_024, 2_048, 4_096, 8_192];

fn sizes() -> Vec<usize> {
    let about = POWERS.into_iter().flat_map(|power| [power - 1, power, power + 1]);
    about.chain([MAX_AREA - 1, MAX_AREA]).collect()
}

/// The rules that look at where parts end, each with its redex: an `x` is a part.
const REDEXES: [(u8, &str); 8] = [
    (4, ".Axxx"),
    (6, ".BxxJ"),
    (7, ".BxxRx"),
    (8, ".BxxHxx"),
    (9, ".BxxAxx"),
    (10, ".BxxI"),
    (11, ".BxxBxx"),
    (13, ".Bxx5"),
];

/// The letters of the largest of these redexes.
pub const REDEX: usize = 7;

/// Bells in turn, so that no two neighbours are alike.
fn leaf(place: usize) -> u8 {
    BELLS[place % BELLS.len()]
}

fn leaves(number: usize) -> Vec<u8> {
    (0..number).map(leaf).collect()
}

/// In how many ways a part is nested.
pub const WAYS: usize = 4;

/// A term of so many letters without a full stop, nested in one of these ways.
fn part(size: usize, way: usize) -> Vec<u8> {
    let pairs = (size - 1) / 2;
    let odd = repeated("R", (size - 1) % 2);
    match way % WAYS {
        0 => joined(&[&repeated("R", size - 1), &[leaf(size)]]),
        1 => joined(&[&odd, &repeated("H", pairs), &leaves(pairs + 1)]),
        2 => joined(&[&odd, &to_the_right(pairs), &[leaf(pairs)]]),
        _ => halved(size),
    }
}

/// Pairs, each the second part of the one before; the last lacks its second part.
fn to_the_right(pairs: usize) -> Vec<u8> {
    (0..pairs).flat_map(|place| [b'B', leaf(place)]).collect()
}

/// Closures whose two parts are as large as each other.
fn halved(size: usize) -> Vec<u8> {
    match size {
        1 => leaves(1),
        2 => joined(&[b"R", &leaves(1)]),
        _ => joined(&[b"A", &halved((size - 1) / 2), &halved(size / 2)]),
    }
}

/// Which of a pattern's parts is as large as can be, the others being one letter; or all alike.
#[derive(Clone, Copy)]
enum Large {
    One(usize),
    All,
}

fn parts_of(pattern: &str) -> usize {
    pattern.matches('x').count()
}

/// The pattern with parts in the places of its `x`, of so many letters in all.
fn filled(pattern: &str, size: usize, large: Large, way: usize) -> Vec<u8> {
    let parts = parts_of(pattern);
    let room = size - pattern.len();
    let more = |place: usize| match large {
        Large::One(one) if place == one => room,
        Large::One(_) => 0,
        Large::All => room / parts + usize::from(place < room % parts),
    };
    let mut places = 0..parts;
    let mut piece = |letter: u8| match letter {
        b'x' => places.next().map_or(vec![], |place| part(1 + more(place), way + place)),
        _ => vec![letter],
    };
    pattern.bytes().flat_map(|letter| piece(letter)).collect()
}

/// What stands before a redex and behind it, of so many letters in all, which are more than the redex has.
pub type Around = fn(usize) -> [Vec<u8>; 2];

pub const PLACES: [(&str, Around); 8] = [
    ("behind R", |room| [repeated("R", room), vec![]]),
    ("behind pairs", |room| [joined(&[&repeated("R", room % 2), &repeated("BI", room / 2)]), vec![]]),
    ("behind a part", |room| around("Bx_", room)),
    ("before a part", |room| around("H_x", room)),
    ("in a function", |room| [repeated(".", room / 2), joined(&[&repeated("R", room % 2), &leaves(room / 2)])]),
    ("in an argument", |room| around(".Bxx_", room)),
    ("in an argument in a function", |room| around("..Bxx_x", room)),
    ("in nested arguments", |room| {
        [joined(&[&repeated(".B1T", room / 4 - 1), b".B1", &part(1 + room % 4, 0)]), vec![]]
    }),
];

/// The pattern with parts in the places of its `x`, as it stands before and behind `_`.
fn around(pattern: &str, room: usize) -> [Vec<u8>; 2] {
    let text = filled(pattern, room + 1, Large::All, room);
    let hole = text.iter().position(|&letter| letter == b'_').expect("a pattern with a place for a redex");
    [text[..hole].to_vec(), text[hole + 1..].to_vec()]
}

/// Two steps, one after the other, or as many as there are.
fn two_steps(subject: &dyn Controller, text: &[u8], area: usize, predict: Predict) -> Outcome {
    let mut text = text.to_vec();
    for _ in 0..2 {
        let call = call(&text, area);
        let expected = predict(&call, None);
        demand(subject, &call, None, &expected)?;
        if code(expected.reply) != STEPPED {
            return Ok(());
        }
        text = expected.area[..size(expected.reply)].to_vec();
    }
    Ok(())
}

/// Steps in areas of the term's size, of one byte more, of the largest size, and where the next term has just
/// room or just none; the first step is by this rule.
fn in_areas(subject: &dyn Controller, text: &[u8], rule: u8, predict: Predict) -> Outcome {
    let largest = predict(&call(text, MAX_AREA), None).reply;
    let mut areas = vec![text.len(), text.len() + 1, MAX_AREA];
    if code(largest) == STEPPED {
        equal("rule", value(largest), rule.into())?;
        areas.extend([size(largest) - 1, size(largest)]);
    }
    areas.retain(|area| (text.len()..=MAX_AREA).contains(area));
    areas.sort();
    areas.dedup();
    areas.into_iter().try_for_each(|area| two_steps(subject, text, area, predict))
}

/// A redex that is the whole text, with each of its parts large in turn.
fn large_parts(subject: &dyn Controller, (rule, pattern): (u8, &str), ways: usize, predict: Predict) -> Outcome {
    let splits: Vec<Large> = (0..parts_of(pattern)).map(Large::One).chain([Large::All]).collect();
    for size in sizes() {
        for (turn, &large) in splits.iter().enumerate() {
            for way in 0..ways {
                let text = filled(pattern, size, large, size + turn + way);
                equal("letters", text.len(), size)?;
                in_areas(subject, &text, rule, predict)?;
            }
        }
    }
    Ok(())
}

/// Redexes in one place: they are nearly the whole text, half of it, and a few letters.
fn in_place(subject: &dyn Controller, around: Around, ways: usize, predict: Predict) -> Outcome {
    for size in sizes() {
        for (turn, room) in [REDEX + 1, size / 2, size - REDEX].into_iter().enumerate() {
            let [before, behind] = around(room);
            for way in size + turn..size + turn + ways {
                let (rule, pattern) = REDEXES[way % REDEXES.len()];
                let redex = filled(pattern, size - room, Large::All, way);
                let text = joined(&[&before, &redex, &behind]);
                equal("letters", text.len(), size)?;
                in_areas(subject, &text, rule, predict)?;
            }
        }
    }
    Ok(())
}

/// Calls whose replies a reducer predicts, with so many ways to nest a part at each size.
pub fn predicted(suite: &mut Suite, label: &str, subject: impl Controller, ways: usize, predict: Predict) {
    for redex in REDEXES {
        let name = format!("{label} stepping: rule {}, large parts, about each power of two", redex.0);
        suite.test(&name, || large_parts(&subject, redex, ways, predict));
    }
    for (place, around) in PLACES {
        let name = format!("{label} stepping: a redex {place}, about each power of two");
        suite.test(&name, || in_place(&subject, around, ways, predict));
    }
}
