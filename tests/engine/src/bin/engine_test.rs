//! Sets the engine's functions against rows written by hand and against the second implementation.
//!
//!   engine_test              every test
//!   engine_test --batches    the long runs alone
//!   engine_test --bugs       the names of the bugs that can be planted in the engine's replies, of the slips in its
//!                            catalogue and its books, and of those in an engine of the tests' own that steps in
//!                            batches
//!   engine_test --bug NAME   every test on the engine with that bug; the catalogue's, those of books or the long runs
//!                            on the one with that slip; what is past 2^32 on the one whose bug shows there alone

use engine::Linked;
use harness::lent::predict_fast;
use harness::subject::Controller;
use harness::suite::Suite;
use harness::wrong::{bugs, Wrong};
use harness::wrong_batches::{Batches, SLIPS};
use harness::{
    book_laws, book_tests, catalogue_laws, catalogue_tests, check_tests, compare_tests, count_tests, deep,
    end_tests, finish_tests, huge, join_laws, join_tests, machine_tests, match_tests, read_tests, result_tests,
    row_laws, row_tests, small_tests, step_tests, threads,
};
use harness::{wrong_book, wrong_catalogue, wrong_entries, wrong_plays};

/// What was written by hand: quick, and enough to see most of the bugs that are planted.
fn known(suite: &mut Suite, subject: impl Controller + Copy) {
    read_tests::known(suite, "engine", subject);
    step_tests::known(suite, "engine", subject);
    finish_tests::known(suite, "engine", subject);
    result_tests::known(suite, "engine", subject);
    count_tests::known(suite, "engine", subject);
    compare_tests::known(suite, "engine", subject);
    join_tests::known(suite, "engine", subject);
    row_tests::known(suite, "engine", subject);
    catalogue_tests::known(suite, "engine", subject);
    book_tests::known(suite, "engine", subject);
    check_tests::known(suite, "engine", subject);
    match_tests::known(suite, "engine", subject);
    read_tests::made(suite, "engine", subject);
    check_tests::made(suite, "engine", subject);
    match_tests::made(suite, "engine", subject);
    join_laws::made(suite, "engine", subject);
    row_laws::made(suite, "engine", subject);
    catalogue_laws::made(suite, "engine", subject);
    book_laws::made(suite, "engine", subject);
    count_tests::made(suite, "engine", subject);
    finish_tests::made(suite, "engine", subject);
    result_tests::made(suite, "engine", subject);
}

/// What the second implementation predicts.
fn predicted(suite: &mut Suite, subject: impl Controller + Copy) {
    read_tests::predicted(suite, "engine", subject);
    step_tests::predicted(suite, "engine", subject);
    end_tests::predicted(suite, "engine", subject, end_tests::WAYS, predict_fast);
    finish_tests::predicted(suite, "engine", subject);
    result_tests::predicted(suite, "engine", subject);
    small_tests::predicted(suite, "engine", subject);
    small_tests::largest(suite, "engine", subject);
    finish_tests::long(suite, "engine", subject, finish_tests::MILLION_STEPS);
    count_tests::predicted(suite, "engine", subject);
    count_tests::long(suite, "engine", subject, 16, 65_537);
    compare_tests::predicted(suite, "engine", subject);
    join_tests::predicted(suite, "engine", subject);
    row_tests::predicted(suite, "engine", subject);
    catalogue_tests::predicted(suite, "engine", subject);
    book_tests::predicted(suite, "engine", subject);
    check_tests::predicted(suite, "engine", subject);
    match_tests::predicted(suite, "engine", subject);
}

fn tests(subject: impl Controller + Sync + Copy) -> i32 {
    let mut suite = Suite::new();
    known(&mut suite, subject);
    predicted(&mut suite, subject);
    deep::all(&mut suite, "engine", subject);
    huge::all(&mut suite, "engine", subject);
    huge::far(&mut suite, "engine", subject);
    huge::far_joins(&mut suite, "engine", subject);
    huge::far_rows(&mut suite, "engine", subject);
    huge::far_catalogue(&mut suite, "engine", subject);
    huge::far_books(&mut suite, "engine", subject);
    threads::all(&mut suite, "engine", subject);
    machine_tests::all(&mut suite, "engine", subject);
    suite.end()
}

/// Long runs alone.
fn batch_tests(subject: impl Controller + Sync + Copy) -> i32 {
    let mut suite = Suite::new();
    machine_tests::all(&mut suite, "engine", subject);
    suite.end()
}

/// Joins and rows past 2^32 alone.
fn far_tests(subject: impl Controller + Copy) -> i32 {
    let mut suite = Suite::new();
    huge::far_rows(&mut suite, "engine", subject);
    huge::far_joins(&mut suite, "engine", subject);
    suite.end()
}

/// The catalogue alone, or what of it is past 2^32, on the engine with a slip in it.
fn catalogue_with(slip: &'static wrong_catalogue::Slip) -> i32 {
    let mut suite = Suite::new();
    let wrong = wrong_entries::Wrong { subject: Linked, slip };
    match slip.far {
        true => {
            huge::catalogues(&mut suite, "engine", &wrong);
            huge::far_catalogue(&mut suite, "engine", wrong);
        }
        false => catalogue_tests::all(&mut suite, "engine", wrong),
    }
    suite.end()
}

/// Books alone, or what of them is past 2^32, on the engine with a slip in them.
fn books_with(slip: &'static wrong_book::Slip) -> i32 {
    let mut suite = Suite::new();
    let wrong = wrong_plays::Wrong { subject: Linked, slip };
    match slip.far {
        true => huge::books(&mut suite, "engine", &wrong),
        false => book_tests::all(&mut suite, "engine", wrong),
    }
    suite.end()
}

/// Every test on the engine with a bug; the catalogue or books alone where the slip is in them, long runs alone on the
/// one that has a slip in its batches, and joins and rows past 2^32 alone where the bug shows nowhere else.
fn with_bug(name: &str) -> i32 {
    if let Some(&(_, slip)) = SLIPS.iter().find(|slip| slip.0 == name) {
        return batch_tests(Batches { slip });
    }
    if let Some(slip) = wrong_entries::slips().find(|slip| slip.name == name) {
        return catalogue_with(slip);
    }
    if let Some(slip) = wrong_plays::slips().find(|slip| slip.name == name) {
        return books_with(slip);
    }
    let bug = bugs().iter().find(|bug| bug.name == name).expect("a bug of that name");
    let wrong = Wrong { subject: Linked, bug };
    if bug.far {
        return far_tests(wrong);
    }
    tests(wrong)
}

fn asked() -> i32 {
    let words: Vec<String> = std::env::args().skip(1).collect();
    match words.iter().map(String::as_str).collect::<Vec<_>>()[..] {
        [] => tests(Linked),
        ["--batches"] => batch_tests(Linked),
        ["--bugs"] => {
            let in_batches = SLIPS.iter().map(|(name, _)| *name);
            let in_entries = wrong_entries::slips().map(|slip| slip.name);
            let in_books = wrong_plays::slips().map(|slip| slip.name);
            let names = bugs().iter().map(|bug| bug.name).chain(in_entries).chain(in_books).chain(in_batches);
            names.for_each(|name| println!("{name}"));
            0
        }
        ["--bug", name] => with_bug(name),
        _ => panic!("usage: engine_test [--batches | --bugs | --bug NAME]"),
    }
}

fn main() {
    std::process::exit(second::on_deep_stack(asked));
}
