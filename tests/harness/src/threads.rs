//! Several threads that call at once, each on areas of its own: every reply and every lent byte is as alone.

use crate::book_tests::random_lines;
use crate::books::{book_of, STORE};
use crate::chains::{chain, random_row, Row, PLACES};
use crate::deep::ADVISED_STACK;
use crate::derivations::{file_of, some, Layout};
use crate::lent::*;
use crate::random::Random;
use crate::step_tests::call_on;
use crate::stores::{random_result, store_of};
use crate::subject::{Controller, Second};
use crate::suite::{Outcome, Suite};
use crate::terms::random_of_size;
use second::plain::Plain;
use std::sync::Barrier;

const THREADS: u64 = 4;
const ROUNDS: usize = 20;

/// A call with what the second implementation replies and leaves, worked out before any thread starts.
enum Asked {
    Run(Call, Option<u64>, Expected),
    Count(Counted, AfterCounted),
    Compare(Pair, Compared),
    Join(Join, Joined),
    Rows(Rows, Rung),
    Enter(Entry, Entered),
    Book(Play, AfterPlay),
    Read(Vec<u8>, u64),
    Check(Vec<u8>, u64),
    Match([Vec<u8>; 2], u64),
}

impl Asked {
    fn ask(&self, subject: &dyn Controller) -> Outcome {
        match self {
            Asked::Run(call, fuel, expected) => demand(subject, call, *fuel, expected),
            Asked::Count(counted, expected) => demand_counted(subject, counted, expected),
            Asked::Compare(pair, expected) => demand_pair(subject, pair, expected),
            Asked::Join(join, expected) => demand_join(subject, join, expected),
            Asked::Rows(rows, expected) => demand_rows(subject, rows, expected),
            Asked::Enter(entry, expected) => demand_entry(subject, entry, expected),
            Asked::Book(play, expected) => demand_play(subject, play, expected),
            Asked::Read(slice, reply) => demand_read(subject, slice, *reply),
            Asked::Check(file, reply) => demand_check(subject, file, *reply),
            Asked::Match(files, reply) => demand_match(subject, [&files[0], &files[1]], *reply),
        }
    }
}

fn run(random: &mut Random, text: &[u8], fuel: Option<u64>) -> Asked {
    let room = random.below(200);
    let call = call_on(random, text, text.len() + room);
    let expected = predict_plain(&call, fuel);
    Asked::Run(call, fuel, expected)
}

fn count(random: &mut Random, text: &[u8]) -> Asked {
    let call = call_on(random, text, text.len() + 100);
    let counted = Counted { call, fuel: 300, counts: random.rubbish(60) };
    let expected = predict_counted::<Plain>(&counted);
    Asked::Count(counted, expected)
}

fn compare(random: &mut Random, text: &[u8]) -> Asked {
    let area = [text, &random.rubbish(100)].concat();
    let work = random.rubbish(area.len());
    let (first, first_term) = (area.clone(), text.len());
    let pair = Pair { first, first_term, second: area, second_term: first_term, work, fuel: 50 };
    let expected = predict_pair(&pair);
    Asked::Compare(pair, expected)
}

fn join(random: &mut Random, text: &[u8]) -> Asked {
    let (more, area) = (random.below(100), 2 * text.len() + 12);
    let join = Join { f: text.to_vec(), g: text.to_vec(), area: random.rubbish(area + more) };
    let expected = predict_join(&join);
    Asked::Join(join, expected)
}

/// Some rows, every third piece with a bell too many.
fn rows(random: &mut Random) -> Asked {
    let (bells, count) = (random.between(2, 12), random.between(1, 40));
    let all: Vec<Row> = (0..count).map(|_| random_row(random, bells)).collect();
    let mut numbers = all.concat();
    if random.once_in(3) {
        numbers.push(1);
    }
    let rows = Rows { term: chain(&numbers), bells, table: random.rubbish(PLACES * count + 30) };
    let expected = predict_rows(&rows);
    Asked::Rows(rows, expected)
}

/// An entry into a store of a few results: of one of them, of another, or of the text.
fn enter(random: &mut Random, text: &[u8]) -> Asked {
    let held: Vec<Vec<u8>> = (5..9).map(|size| random_result(random, size)).collect();
    let term = match random.below(3) {
        0 => random.pick(&held).clone(),
        1 => random_result(random, 10),
        _ => text.to_vec(),
    };
    let more = random.below(20);
    let entry = Entry { term, store: [store_of(&held), random.rubbish(more)].concat() };
    let expected = predict_entry(&entry);
    Asked::Enter(entry, expected)
}

/// A book of a few lines, some of them long, every third with a line that uses what is not there.
fn book(random: &mut Random, text: &[u8]) -> Asked {
    let mut lines = random_lines(random, 6);
    lines.push(("text".to_string(), text.to_vec()));
    if random.once_in(3) {
        lines.push(("last".to_string(), b"R(first)".to_vec()));
    }
    let area = random.rubbish(500);
    let play = Play { book: book_of(&lines), work: area.clone(), area, store: vec![7; STORE + 3], fuel: 100 };
    let expected = predict_play(&play);
    Asked::Book(play, expected)
}

/// One thread's calls: all eleven functions in turn.
fn calls(seed: u64) -> Vec<Asked> {
    let mut random = Random::new(seed);
    let second = Second::<Plain>::new();
    let mut asked = vec![];
    for derivation in some(&mut random, 25) {
        let size = random.between(5, 400);
        let text = random_of_size(&mut random, size).text();
        let file = file_of(&derivation, Layout { shared: true, second_first: false });
        asked.push(run(&mut random, &text, None));
        asked.push(run(&mut random, &text, Some(300)));
        asked.push(count(&mut random, &text));
        asked.push(compare(&mut random, &text));
        asked.push(join(&mut random, &text));
        asked.push(rows(&mut random));
        asked.push(enter(&mut random, &text));
        asked.push(book(&mut random, &text));
        asked.push(Asked::Read(text.clone(), second.read(&text)));
        asked.push(Asked::Check(file.clone(), second.check(&file)));
        let reply = second.match_claims(&file, &file);
        asked.push(Asked::Match([file.clone(), file], reply));
    }
    asked
}

/// Each thread asks its calls again and again, and all of them start together.
fn together(subject: impl Controller + Sync) -> Outcome {
    let all: Vec<Vec<Asked>> = (0..THREADS).map(|thread| calls(91 + thread)).collect();
    let start = Barrier::new(all.len());
    let (subject, start) = (&subject, &start);
    let ask_all = |asked: &Vec<Asked>| {
        start.wait();
        (0..ROUNDS).try_for_each(|_| asked.iter().try_for_each(|asked| asked.ask(subject)))
    };
    std::thread::scope(|scope| {
        let spawn = |asked| {
            let builder = std::thread::Builder::new().stack_size(ADVISED_STACK);
            builder.spawn_scoped(scope, move || ask_all(asked)).expect("a thread can be started")
        };
        let threads: Vec<_> = all.iter().map(spawn).collect();
        let joined = threads.into_iter().map(|thread| thread.join().unwrap_or(Err("a call panicked".to_string())));
        joined.collect::<Vec<Outcome>>().into_iter().collect()
    })
}

pub fn all(suite: &mut Suite, label: &str, subject: impl Controller + Sync) {
    suite.test(&format!("{label} all functions: {THREADS} threads at once, each on its own areas"), || {
        together(subject)
    });
}
