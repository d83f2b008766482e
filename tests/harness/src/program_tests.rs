//! The six programs, each input given to a process of its own.

use crate::book_tests;
use crate::books::book_of;
use crate::check_tests::{within_limits, LAYOUTS};
use crate::damage::damaged;
use crate::derivations::{file_of, some};
use crate::random::Random;
use crate::subject::{Programs, Second};
use crate::suite::{equal, equal_bytes, shown, Outcome, Suite};
use crate::table::dearest::dearest_rows;
use crate::table::playing::{play_rows, rows_of_books};
use crate::table::programs::{check_rows, finish_rows, mix_rows, Row};
use crate::table::sweeping::sweep_rows;
use crate::terms::random_of_size;
use second::machine::Machine;
use second::plain::Plain;
use std::io::{Read, Write};
use std::path::{Path, PathBuf};
use std::process::{Command, Stdio};
use std::time::Duration;

/// The programs as processes.
pub struct Processes {
    pub folder: PathBuf,
}

/// Gives the input in pieces, with a pause between two; a program may end before it has read all.
fn feed(mut to: impl Write, input: &[u8], piece: usize, pause: Duration) {
    for part in input.chunks(piece.max(1)) {
        if to.write_all(part).and_then(|()| to.flush()).is_err() {
            return;
        }
        if !pause.is_zero() {
            std::thread::sleep(pause);
        }
    }
}

impl Processes {
    /// What a program prints for its input; it must end by itself.
    fn run(&self, name: &str, input: &[u8], piece: usize, pause: Duration) -> Result<Vec<u8>, String> {
        let mut command = Command::new(self.folder.join(name));
        let command = command.stdin(Stdio::piped()).stdout(Stdio::piped());
        let mut child = command.spawn().map_err(|error| format!("{name}: {error}"))?;
        let (to, mut from) = (child.stdin.take().unwrap(), child.stdout.take().unwrap());
        let mut printed = vec![];
        std::thread::scope(|scope| {
            scope.spawn(|| feed(to, input, piece, pause));
            from.read_to_end(&mut printed)
        })
        .map_err(|error| error.to_string())?;
        let status = child.wait().map_err(|error| error.to_string())?;
        match status.code() {
            Some(_) => Ok(printed),
            None => Err(format!("{name} was ended by a signal: {status}")),
        }
    }
}

impl Programs for &Processes {
    fn finish(&self, input: &[u8]) -> Result<Vec<u8>, String> {
        self.run("finish", input, usize::MAX, Duration::ZERO)
    }

    fn rule_mix(&self, input: &[u8]) -> Result<Vec<u8>, String> {
        self.run("rule_mix", input, usize::MAX, Duration::ZERO)
    }

    fn check_file(&self, input: &[u8]) -> Result<Vec<u8>, String> {
        self.run("check_file", input, usize::MAX, Duration::ZERO)
    }

    fn sweep(&self, input: &[u8]) -> Result<Vec<u8>, String> {
        self.run("sweep", input, usize::MAX, Duration::ZERO)
    }

    fn dearest(&self, input: &[u8]) -> Result<Vec<u8>, String> {
        self.run("dearest", input, usize::MAX, Duration::ZERO)
    }

    fn play_book(&self, input: &[u8]) -> Result<Vec<u8>, String> {
        self.run("play_book", input, usize::MAX, Duration::ZERO)
    }
}

/// Demands that exactly this was printed.
pub fn printed(got: Result<Vec<u8>, String>, wanted: &[u8], input: &[u8]) -> Outcome {
    equal_bytes("printed", &got?, wanted).map_err(|what| format!("{what}; on {}", shown(input)))
}

pub fn with_line_feed(line: &[u8]) -> Vec<u8> {
    [line, b"\n"].concat()
}

fn agree_finish(subject: &dyn Programs, input: &[u8]) -> Outcome {
    printed(subject.finish(input), &Programs::finish(&Second::<Plain>::new(), input)?, input)
}

fn agree_mix(subject: &dyn Programs, input: &[u8]) -> Outcome {
    printed(subject.rule_mix(input), &Second::<Plain>::new().rule_mix(input)?, input)
}

/// The first line of rule_mix is what the finishing program prints; thirteen follow unless that is a refusal.
fn mix_of_finish(subject: &dyn Programs, input: &[u8]) -> Outcome {
    let (mixed, finished) = (subject.rule_mix(input)?, subject.finish(input)?);
    let lines: Vec<&[u8]> = mixed.split_inclusive(|&byte| byte == b'\n').collect();
    let wanted = if finished.starts_with(b"refused") { 1 } else { 14 };
    let found = equal("lines", lines.len(), wanted).and_then(|()| equal_bytes("first line", lines[0], &finished));
    found.map_err(|what| format!("{what}; on {}", shown(input)))
}

fn agree_check(subject: &dyn Programs, input: &[u8]) -> Outcome {
    printed(subject.check_file(input), &Second::<Plain>::new().check_file(input)?, input)
}

fn agree_play(subject: &dyn Programs, input: &[u8]) -> Outcome {
    printed(subject.play_book(input), &Second::<Machine>::new().play_book(input)?, input)
}

/// A line of the finishing program's shape.
fn random_line(random: &mut Random) -> Vec<u8> {
    let size = random.between(1, 40);
    let term = random_of_size(random, size).text();
    let area = (size + random.below(30)).saturating_sub(random.below(3));
    let fuel = *random.pick(&[0, 1, 2, 7, 50, 1_000, 1_000_000, 1_000_001]);
    [format!("{fuel}\t{area}\t").as_bytes(), &term, b"\n"].concat()
}

/// Tries so many random lines, and as many damaged ones.
fn random_lines(seed: u64, count: usize, trial: impl Fn(&[u8]) -> Outcome) -> Outcome {
    let mut random = Random::new(seed);
    for _ in 0..count {
        let line = random_line(&mut random);
        trial(&line)?;
        trial(&damaged(&mut random, &line, b"\t\n0159JRHAIB.ET"))?;
    }
    Ok(())
}

fn random_files(subject: &dyn Programs) -> Outcome {
    let mut random = Random::new(52);
    for derivation in some(&mut random, 200) {
        let file = file_of(&derivation, *random.pick(&LAYOUTS));
        if within_limits(&file) {
            agree_check(subject, &file)?;
            agree_check(subject, &damaged(&mut random, &file, b"\t\n-1ab>*JI.K"))?;
        }
    }
    Ok(())
}

/// Random books, and damaged ones; most of them finish.
fn random_books(subject: &dyn Programs) -> Outcome {
    let mut random = Random::new(55);
    for _ in 0..150 {
        let book = book_of(&book_tests::random_lines(&mut random, 6));
        agree_play(subject, &book)?;
        agree_play(subject, &damaged(&mut random, &book, b"\t\n()abJI.RT"))?;
    }
    Ok(())
}

/// Inputs of the finishing program whose output is written by hand.
pub fn known_finishing(suite: &mut Suite, label: &str, subject: impl Programs) {
    for row in finish_rows() {
        let name = format!("{label} finish program: {}", row.name);
        suite.test(&name, || printed(subject.finish(&row.input), &with_line_feed(&row.printed), &row.input));
    }
}

/// Lines whose output the plain reducer predicts.
pub fn predicted_finishing(suite: &mut Suite, label: &str, subject: impl Programs) {
    suite.test(&format!("{label} finish program: random lines"), || {
        random_lines(51, 400, |line| agree_finish(&subject, line))
    });
}

/// Inputs of rule_mix whose output is written by hand; short ones of the finishing program, set against it.
pub fn known_mixing(suite: &mut Suite, label: &str, subject: impl Programs) {
    for row in mix_rows() {
        let name = format!("{label} rule_mix program: {}", row.name);
        suite.test(&name, || printed(subject.rule_mix(&row.input), &with_line_feed(&row.printed), &row.input));
    }
    suite.test(&format!("{label} rule_mix program: its first line is the finishing program's"), || {
        let mut rows = finish_rows().into_iter().filter(|row| row.input.len() <= SHORT);
        rows.try_for_each(|row| mix_of_finish(&subject, &row.input))?;
        random_lines(53, 100, |line| mix_of_finish(&subject, line))
    });
}

/// Lines whose output the plain reducer predicts.
pub fn predicted_mixing(suite: &mut Suite, label: &str, subject: impl Programs) {
    suite.test(&format!("{label} rule_mix program: random lines"), || {
        random_lines(54, 300, |line| agree_mix(&subject, line))
    });
}

/// Inputs of the checking program whose output is written by hand.
pub fn known_checking(suite: &mut Suite, label: &str, subject: impl Programs) {
    for row in check_rows() {
        let name = format!("{label} check_file program: {}", row.name);
        suite.test(&name, || printed(subject.check_file(&row.input), &with_line_feed(&row.printed), &row.input));
    }
}

/// Files whose output the second checker predicts.
pub fn predicted_checking(suite: &mut Suite, label: &str, subject: impl Programs) {
    suite.test(&format!("{label} check_file program: random files"), || random_files(&subject));
}

/// Books whose output is written by hand, and those of the table of books that the program's limits allow.
pub fn known_playing(suite: &mut Suite, label: &str, subject: impl Programs) {
    for row in play_rows().into_iter().chain(rows_of_books()) {
        let name = format!("{label} play_book program: {}", row.name);
        suite.test(&name, || printed(subject.play_book(&row.input), &with_line_feed(&row.printed), &row.input));
    }
}

/// Books whose output the second implementation predicts.
pub fn predicted_playing(suite: &mut Suite, label: &str, subject: impl Programs) {
    suite.test(&format!("{label} play_book program: random books"), || random_books(&subject));
}

/// A program started by a shell with one of its streams redirected; what it prints and what it complains of.
fn redirected(program: &Path, redirection: &str, input: &[u8]) -> Result<[Vec<u8>; 2], String> {
    let mut command = Command::new("sh");
    let command = command.arg("-c").arg(format!("exec \"$0\" {redirection}")).arg(program);
    let command = command.stdin(Stdio::piped()).stdout(Stdio::piped()).stderr(Stdio::piped());
    let mut child = command.spawn().map_err(|error| error.to_string())?;
    feed(child.stdin.take().unwrap(), input, usize::MAX, Duration::ZERO);
    let ended = child.wait_with_output().map_err(|error| error.to_string())?;
    match ended.status.code() {
        Some(_) => Ok([ended.stdout, ended.stderr]),
        None => Err(format!("ended by a signal: {}", ended.status)),
    }
}

/// Nothing is printed, and one line on standard error says why.
fn complains(program: &Path, redirection: &str, input: &[u8], complaint: &str) -> Outcome {
    let [printed, complained] = redirected(program, redirection, input)?;
    equal_bytes("printed", &printed, b"")?;
    equal_bytes("on standard error", &complained, complaint.as_bytes())
}

/// Input that cannot be read, and output that cannot be written.
pub fn failing(suite: &mut Suite, label: &str, program: &str, processes: &Processes) {
    let inputs: [&[u8]; 2] = match program {
        "finish" | "rule_mix" => [b"6\t12\t.BII.JRJ\n", b"x"],
        "sweep" | "dearest" => [b"3\t10\t20\n", b"x"],
        "play_book" => [b"a\t.II\nb\tB(a)(a)\n", b"x"],
        _ => [b"1\tI\t1\tI\t-\t-\n", b"x"],
    };
    let streams = [
        ("input from a folder", "< /", "standard input could not be read"),
        ("input closed", "<&-", "standard input could not be read"),
        ("output to a full device", "> /dev/full", "standard output could not be written"),
        ("output closed", ">&-", "standard output could not be written"),
    ];
    for (name, redirection, what) in streams {
        suite.test(&format!("{label} {program} program: {name}"), || {
            let (path, complaint) = (processes.folder.join(program), format!("{program}: {what}\n"));
            inputs.iter().try_for_each(|input| complains(&path, redirection, input, &complaint))
        });
    }
}

/// The rows of a program.
fn rows_of(program: &str) -> Vec<Row> {
    match program {
        "finish" => finish_rows(),
        "rule_mix" => mix_rows(),
        "sweep" => sweep_rows(),
        "dearest" => dearest_rows(),
        "play_book" => play_rows(),
        _ => check_rows(),
    }
}

/// Rows whose input is short enough to be given slowly.
const SHORT: usize = 60;

/// The same rows, given to the process byte by byte, so that it is fed many short pieces.
pub fn slowly(suite: &mut Suite, label: &str, program: &str, processes: &Processes) {
    let rows = rows_of(program);
    suite.test(&format!("{label} {program} program: input byte by byte"), || {
        for row in rows.iter().filter(|row| row.input.len() <= SHORT) {
            let got = processes.run(program, &row.input, 1, Duration::from_micros(300));
            printed(got, &with_line_feed(&row.printed), &row.input)?;
        }
        Ok(())
    });
    suite.test(&format!("{label} {program} program: long input in pieces of odd length"), || {
        for row in rows.iter().filter(|row| row.input.len() > SHORT) {
            for piece in [4_095, 8_193, 65_535] {
                let got = processes.run(program, &row.input, piece, Duration::ZERO);
                printed(got, &with_line_feed(&row.printed), &row.input)?;
            }
        }
        Ok(())
    });
}
