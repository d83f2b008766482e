//! Runs the six programs of the engine on every program row.
//!
//!   programs_test FOLDER              every test; FOLDER holds the programs
//!   programs_test FOLDER --bugs       the names of the bugs that can be planted in what rule_mix and play_book print,
//!                                     and in sweep and dearest
//!   programs_test FOLDER --bug NAME   the tests of that program with that bug

use harness::program_tests::*;
use harness::suite::Suite;
use harness::{dearest_tests, sweep_tests, wrong_dearest, wrong_played, wrong_print, wrong_sweep};

/// Terms of up to so many letters are run one by one beside sweep and dearest.
const ONE_BY_ONE: usize = 5;

fn tests(processes: &Processes) -> i32 {
    let mut suite = Suite::new();
    known_finishing(&mut suite, "engine", processes);
    known_mixing(&mut suite, "engine", processes);
    known_checking(&mut suite, "engine", processes);
    known_playing(&mut suite, "engine", processes);
    sweep_tests::known(&mut suite, "engine", processes);
    sweep_tests::made(&mut suite, "engine", processes, ONE_BY_ONE);
    dearest_tests::known(&mut suite, "engine", processes);
    dearest_tests::made(&mut suite, "engine", processes, ONE_BY_ONE);
    predicted_finishing(&mut suite, "engine", processes);
    predicted_mixing(&mut suite, "engine", processes);
    predicted_checking(&mut suite, "engine", processes);
    predicted_playing(&mut suite, "engine", processes);
    sweep_tests::predicted(&mut suite, "engine", processes);
    dearest_tests::predicted(&mut suite, "engine", processes);
    for program in ["finish", "rule_mix", "check_file", "sweep", "dearest", "play_book"] {
        slowly(&mut suite, "engine", program, processes);
        failing(&mut suite, "engine", program, processes);
    }
    suite.end()
}

/// The tests of rule_mix with this bug, or those of play_book, sweep or dearest.
fn tests_with_bug(programs: &Processes, name: &str) -> i32 {
    let mut suite = Suite::new();
    if let Some(bug) = wrong_print::bugs().iter().find(|bug| bug.name == name) {
        known_mixing(&mut suite, "engine", wrong_print::Wrong { programs, bug });
        predicted_mixing(&mut suite, "engine", wrong_print::Wrong { programs, bug });
    } else if let Some(bug) = wrong_played::bugs().iter().find(|bug| bug.name == name) {
        known_playing(&mut suite, "engine", wrong_played::Wrong { programs, bug });
    } else if let Some(bug) = &wrong_sweep::bugs().find(|bug| bug.name == name) {
        sweep_tests::known(&mut suite, "engine", wrong_sweep::Wrong { programs, bug });
        sweep_tests::predicted(&mut suite, "engine", wrong_sweep::Wrong { programs, bug });
    } else {
        let bug = &wrong_dearest::bugs().find(|bug| bug.name == name).expect("a bug of that name");
        dearest_tests::known(&mut suite, "engine", wrong_dearest::Wrong { programs, bug });
        dearest_tests::predicted(&mut suite, "engine", wrong_dearest::Wrong { programs, bug });
    }
    suite.end()
}

fn asked() -> i32 {
    let words: Vec<String> = std::env::args().skip(1).collect();
    match words.iter().map(String::as_str).collect::<Vec<_>>()[..] {
        [folder] => tests(&Processes { folder: folder.into() }),
        [_, "--bugs"] => {
            wrong_print::bugs().iter().for_each(|bug| println!("{}", bug.name));
            wrong_played::bugs().iter().for_each(|bug| println!("{}", bug.name));
            wrong_sweep::bugs().for_each(|bug| println!("{}", bug.name));
            wrong_dearest::bugs().for_each(|bug| println!("{}", bug.name));
            0
        }
        [folder, "--bug", name] => tests_with_bug(&Processes { folder: folder.into() }, name),
        _ => panic!("usage: programs_test FOLDER [--bugs | --bug NAME]"),
    }
}

fn main() {
    std::process::exit(second::on_deep_stack(asked));
}
