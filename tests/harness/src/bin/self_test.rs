//! Tests the second implementation alone: against the hand-written rows, and against itself.
//!
//!   self_test              every test
//!   self_test --bugs       the names of the slips that can be planted in its catalogue and in its books
//!   self_test --bug NAME   the catalogue's tests or those of books on it, with the slip of that name

use harness::subject::Second;
use harness::suite::Suite;
use harness::{
    book_tests, catalogue_tests, huge, self_tests, wrong_book, wrong_catalogue, wrong_entries, wrong_plays,
};
use second::machine::Machine;

fn tests() -> i32 {
    let mut suite = Suite::new();
    self_tests::all(&mut suite);
    suite.end()
}

/// The catalogue's tests with a slip in it.
fn catalogue_with(slip: &'static wrong_catalogue::Slip) -> i32 {
    let mut suite = Suite::new();
    let wrong = wrong_entries::Wrong { subject: Second::<Machine>::new(), slip };
    match slip.far {
        true => huge::catalogues(&mut suite, "second", &wrong),
        false => catalogue_tests::all(&mut suite, "second", wrong),
    }
    suite.end()
}

/// The tests of books with a slip in them.
fn books_with(slip: &'static wrong_book::Slip) -> i32 {
    let mut suite = Suite::new();
    let wrong = wrong_plays::Wrong { subject: Second::<Machine>::new(), slip };
    match slip.far {
        true => huge::books(&mut suite, "second", &wrong),
        false => book_tests::all(&mut suite, "second", wrong),
    }
    suite.end()
}

fn with_slip(name: &str) -> i32 {
    if let Some(slip) = wrong_plays::slips().find(|slip| slip.name == name) {
        return books_with(slip);
    }
    catalogue_with(wrong_entries::slips().find(|slip| slip.name == name).expect("a slip of that name"))
}

fn asked() -> i32 {
    let words: Vec<String> = std::env::args().skip(1).collect();
    match words.iter().map(String::as_str).collect::<Vec<_>>()[..] {
        [] => tests(),
        ["--bugs"] => {
            let names =
                wrong_entries::slips().map(|slip| slip.name).chain(wrong_plays::slips().map(|slip| slip.name));
            names.for_each(|name| println!("{name}"));
            0
        }
        ["--bug", name] => with_slip(name),
        _ => panic!("usage: self_test [--bugs | --bug NAME]"),
    }
}

fn main() {
    std::process::exit(second::on_deep_stack(asked));
}
