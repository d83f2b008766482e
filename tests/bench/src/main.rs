//! Times the engine and the second implementation side by side, in one run on one machine.
//!
//!   bench [PICTURE.svg]     every table, and a chart where a path is given
//!   bench --dear [STEPS]    every run of finishing that was tried to find the dearest, with so much fuel or with all
//!   bench --only TABLE      one table: growth, small, short, counting, joining, rows, catalogue, books, sweep,
//!                           dearest, checking, stack or dear
//!   bench --rows WORD       the rows of the first table whose names have this word
//!
//! Both are built for release. Each call starts from the term with zeros behind it and a zeroed work area. Built with
//! CONTROLLER_DIR set, it times the archive in that folder.

mod batched;
mod books;
mod catalogue;
mod chart;
mod checking;
mod counting;
mod dear;
mod dear_runs;
mod dearest;
mod entering;
mod growth;
mod joining;
mod playing;
mod reducing;
mod repeating;
mod rows;
mod short_runs;
mod small;
mod small_runs;
mod stack;
mod sweeping;
mod table;
mod terms;
mod timing;

use reducing::Timed;
use table::Table;

/// The tables behind the first two, each with its name; of some, two share one.
const TABLES: [(&str, fn() -> Table); 14] = [
    ("small", small::table),
    ("short", short_runs::table),
    ("counting", counting::table),
    ("joining", joining::table),
    ("rows", rows::table),
    ("catalogue", catalogue::table),
    ("catalogue", catalogue::growth),
    ("books", books::table),
    ("books", books::growth),
    ("sweep", sweeping::table),
    ("dearest", dearest::table),
    ("checking", checking::table),
    ("stack", stack::table),
    ("dear", dear::table),
];

fn everything(picture: Option<&str>) {
    let programs: Vec<Timed> = terms::programs().iter().map(reducing::time).collect();
    let nested: Vec<Timed> = terms::nested().iter().map(reducing::time).collect();
    let bells: Vec<Timed> = terms::bells().iter().map(reducing::time).collect();
    println!("{}", reducing::table(&programs, &nested, &bells).text());
    println!("{}", growth::table(&nested).text());
    TABLES.iter().for_each(|(_, table)| println!("{}", table().text()));
    if let Some(path) = picture {
        std::fs::write(path, chart::svg(&nested)).expect("the picture can be written");
        println!("picture: {path}");
    }
}

fn only(name: &str) {
    let tables = [("growth", growth::alone as fn() -> Table)].into_iter().chain(TABLES);
    let named: Vec<_> = tables.filter(|table| table.0 == name).collect();
    assert!(!named.is_empty(), "a table of that name");
    named.iter().for_each(|(_, table)| println!("{}", table().text()));
}

fn run() {
    if let Some(folder) = option_env!("CONTROLLER_DIR") {
        println!("the engine is the archive in {folder}");
    }
    println!("{}\n", timing::METHOD);
    let words: Vec<String> = std::env::args().skip(1).collect();
    match words.iter().map(String::as_str).collect::<Vec<_>>()[..] {
        ["--dear"] => println!("{}", dear::search_table(dear::MOST_STEPS).text()),
        ["--dear", steps] => println!("{}", dear::search_table(steps.parse().expect("a number of steps")).text()),
        ["--only", name] => only(name),
        ["--rows", word] => println!("{}", reducing::rows_with(word).text()),
        ref words => everything(words.first().copied()),
    }
}

fn main() {
    second::on_deep_stack(run);
}
