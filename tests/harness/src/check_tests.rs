//! Checking: the table, generated derivations, and every kind of damage to them.

use crate::damage::*;
use crate::derivations::{after_step, file_of, some, Derivation, Layout};
use crate::lent::{agree_check, demand_check};
use crate::random::Random;
use crate::reply::{from_words, pack, ACCEPTED};
use crate::subject::Controller;
use crate::suite::{Outcome, Suite};
use crate::table::checking::rows;
use crate::terms::repeated;

pub const LAYOUTS: [Layout; 4] = [
    Layout { shared: false, second_first: false },
    Layout { shared: false, second_first: true },
    Layout { shared: true, second_first: false },
    Layout { shared: true, second_first: true },
];

/// Does the file keep within the limits 10 and 13?
pub fn within_limits(file: &[u8]) -> bool {
    file.len() <= 65_536 && lines_of(file) <= 1_024
}

pub fn lines_of(file: &[u8]) -> usize {
    file.iter().filter(|&&byte| byte == b'\n').count()
}

/// The files of a derivation that keep within the limits, in each layout.
fn files_of(derivation: &Derivation) -> Vec<Vec<u8>> {
    LAYOUTS.map(|layout| file_of(derivation, layout)).into_iter().filter(|file| within_limits(file)).collect()
}

/// Small files to damage: each kind of damage is tried at every line.
fn small_files(seed: u64, count: usize) -> Vec<Vec<u8>> {
    let mut random = Random::new(seed);
    let derivations = some(&mut random, count * 3);
    let files = derivations.iter().map(|derivation| file_of(derivation, *random.pick(&LAYOUTS)));
    let small = |file: &Vec<u8>| (2..=24).contains(&lines_of(file)) && file.len() < 2_000;
    files.filter(small).take(count).collect()
}

/// Each generated derivation is accepted, in each layout, with its number of lines.
fn generated(subject: &dyn Controller) -> Outcome {
    let mut random = Random::new(31);
    for derivation in some(&mut random, 1_000) {
        for file in files_of(&derivation) {
            demand_check(subject, &file, pack(ACCEPTED, lines_of(&file) as u64, 0))?;
        }
    }
    Ok(())
}

/// Each derivation of a term after a step is accepted with the same context and type.
fn stepped(subject: &dyn Controller) -> Outcome {
    let mut random = Random::new(32);
    for derivation in some(&mut random, 300) {
        let mut now = derivation;
        for _ in 0..20 {
            let Some(next) = after_step(&now) else { break };
            let file = file_of(&next, *random.pick(&LAYOUTS));
            if within_limits(&file) {
                demand_check(subject, &file, pack(ACCEPTED, lines_of(&file) as u64, 0))?;
            }
            now = next;
        }
    }
    Ok(())
}

fn all_agree(subject: &dyn Controller, files: impl IntoIterator<Item = Vec<u8>>) -> Outcome {
    files.into_iter().try_for_each(|file| agree_check(subject, &file))
}

fn each_damage(subject: &dyn Controller, damage: fn(&[u8]) -> Vec<Vec<u8>>, count: usize) -> Outcome {
    small_files(33, count).iter().try_for_each(|file| all_agree(subject, damage(file)))
}

/// Letters of each field in turn exchanged, put in or left out; fields taken from other lines.
fn damaged_fields(subject: &dyn Controller) -> Outcome {
    let mut random = Random::new(34);
    for file in small_files(34, 150) {
        for field in 0..6 {
            for _ in 0..12 {
                agree_check(subject, &with_field_damaged(&mut random, &file, field))?;
                agree_check(subject, &with_field_of_other_line(&mut random, &file, field))?;
            }
        }
    }
    Ok(())
}

/// Bytes anywhere in the file exchanged, put in or left out.
fn damaged_bytes(subject: &dyn Controller) -> Outcome {
    let mut random = Random::new(35);
    for file in small_files(35, 150) {
        for _ in 0..60 {
            agree_check(subject, &damaged(&mut random, &file, b"\t\n-1ab>*JI.AKET"))?;
        }
    }
    Ok(())
}

/// A file cut at every byte, and cut there with a line feed behind it.
fn cut(subject: &dyn Controller) -> Outcome {
    for file in small_files(36, 12) {
        for end in 0..file.len() {
            agree_check(subject, &file[..end])?;
            agree_check(subject, &[&file[..end], b"\n"].concat())?;
        }
    }
    Ok(())
}

fn random_bytes(subject: &dyn Controller) -> Outcome {
    let mut random = Random::new(37);
    for _ in 0..10_000 {
        let length = random.below(60);
        let mut file: Vec<u8> = match random.below(2) {
            0 => random.rubbish(length),
            _ => (0..length).map(|_| *random.pick(b"\t\t\t\n-1ab*>JI.sK")).collect(),
        };
        if random.once_in(2) {
            file.push(b'\n');
        }
        agree_check(subject, &file)?;
    }
    Ok(())
}

/// Every rule letter on every line of a file, with every mixture of premises.
fn rules_and_premises(subject: &dyn Controller) -> Outcome {
    for file in small_files(38, 25) {
        let lines = split(&file);
        let line = lines.len() - 1;
        for rule in b"JRHfAIBsK" {
            for first in 0..=lines.len() {
                for second in 0..=lines.len() {
                    let number = |n: usize| if n == 0 { b"-".to_vec() } else { n.to_string().into_bytes() };
                    let mut damaged = lines.clone();
                    damaged[line][3] = vec![*rule];
                    damaged[line][4] = number(first);
                    damaged[line][5] = number(second);
                    agree_check(subject, &join(&damaged))?;
                }
            }
        }
    }
    Ok(())
}

/// Line X_1 is `I`; line X_(n+1) is the application of X_n to itself, by rule s in the empty context.
pub fn doubling(lines: usize) -> Vec<u8> {
    let mut file = b"1\tI\t1\tI\t-\t-\n".to_vec();
    let mut term = b"I".to_vec();
    for line in 2..=lines {
        term = [b".", &term[..], &term[..]].concat();
        file.extend([b"1\t", &term[..], format!("\t1\ts\t{0}\t{0}\n", line - 1).as_bytes()].concat());
    }
    file
}

/// Terms that double from line to line, whole and with one letter of the last exchanged.
fn large_terms(subject: &dyn Controller) -> Outcome {
    let file = doubling(14);
    demand_check(subject, &file, from_words("accepted 14", 0))?;
    let last = file.len() - 12;
    for place in [last, last - 1, last - 5_000, last - 16_381] {
        let mut damaged = file.clone();
        damaged[place] = if damaged[place] == b'I' { b'J' } else { b'H' };
        demand_check(subject, &damaged, from_words("18@14", 0))?;
    }
    Ok(())
}

/// The most lines that a file may have, and nearly the most bytes: lines of 18 bytes, each of which cites
/// line 4, of the context type D, and line 5, in the context D. D has 11,781 letters, and each line looks at both.
pub fn dear() -> Vec<u8> {
    let simple = [repeated(">", 2_944), repeated("a", 2_945)].concat();
    let arrow = [b">", &simple[..], &simple].concat();
    let long: [&[&[u8]]; 5] = [
        &[b"1\tI\t1\tI\t-\t-\n"],
        &[b"*", &simple, b"1\tJ\t", &simple, b"\tJ\t-\t-\n"],
        &[b"1\tAIJ\t", &arrow, b"\tA\t1\t2\n"],
        &[b"1\tBAIJI\t*", &arrow, b"1\tB\t3\t1\n"],
        &[b"*", &arrow, b"1\tI\t1\tI\t-\t-\n"],
    ];
    let long: Vec<u8> = long.into_iter().flatten().copied().flatten().copied().collect();
    [long, repeated("1\t.BAIJII\t1\ts\t4\t5\n", 1_019)].concat()
}

/// The dear file, whole, with its long context changed in one letter, and with its last line changed.
fn dear_files(subject: &dyn Controller) -> Outcome {
    let file = dear();
    demand_check(subject, &file, from_words("accepted 1024", 0))?;
    let lines = split(&file);
    let mut other = lines.clone();
    let last_letter = other[4][0].len() - 2;
    other[4][0][last_letter] = b'b';
    demand_check(subject, &join(&other), from_words("18@6", 0))?;
    let mut other = lines.clone();
    other[1_023][5] = b"1".to_vec();
    demand_check(subject, &join(&other), from_words("18@1024", 0))?;
    let mut other = lines;
    other[1_023][5] = b"1024".to_vec();
    demand_check(subject, &join(&other), from_words("17@1024", 0))
}

/// A line whose premise numbers have one to four digits.
fn many_lines(subject: &dyn Controller) -> Outcome {
    for earlier in [1, 8, 9, 10, 11, 99, 100, 101, 999, 1_000, 1_001, 1_023] {
        let before = repeated("1\tI\t1\tI\t-\t-\n", earlier);
        for premise in [1, 9, 10, 99, 100, 999, 1_000, 1_023, earlier, earlier + 1] {
            let last = format!("1\t.II\t1\ts\t{premise}\t1\n");
            let file = [&before[..], last.as_bytes()].concat();
            let accepted = format!("accepted {}", earlier + 1);
            let refused = format!("17@{}", earlier + 1);
            let reply = if premise <= earlier { accepted } else { refused };
            demand_check(subject, &file, from_words(&reply, 0))?;
        }
    }
    Ok(())
}

/// Files whose replies are written by hand.
pub fn known(suite: &mut Suite, label: &str, subject: impl Controller) {
    for row in rows() {
        let name = format!("{label} checking: {}", row.name);
        suite.test(&name, || demand_check(&subject, &row.file, from_words(&row.reply, 0)));
    }
}

/// Files whose replies follow from how they are made: out of a derivation, or of many lines.
pub fn made(suite: &mut Suite, label: &str, subject: impl Controller) {
    let mut test = |name: &str, body: &dyn Fn(&dyn Controller) -> Outcome| {
        suite.test(&format!("{label} checking: {name}"), || body(&subject));
    };
    test("generated derivations are accepted", &generated);
    test("derivations after each step are accepted", &stepped);
    test("large terms", &large_terms);
    test("files that are dear to check", &dear_files);
    test("premise numbers of one to four digits", &many_lines);
}

/// Files whose replies the second checker predicts.
pub fn predicted(suite: &mut Suite, label: &str, subject: impl Controller) {
    let mut test = |name: &str, body: &dyn Fn(&dyn Controller) -> Outcome| {
        suite.test(&format!("{label} checking: {name}"), || body(&subject));
    };
    test("every field exchanged", &|subject| each_damage(subject, with_fields_exchanged, 12));
    test("premise numbers moved", &|subject| each_damage(subject, with_premises_moved, 80));
    test("line structure damaged", &|subject| each_damage(subject, with_lines_damaged, 80));
    test("every rule with every premises", &rules_and_premises);
    test("fields damaged", &damaged_fields);
    test("bytes damaged", &damaged_bytes);
    test("files cut at every byte", &cut);
    test("random bytes", &random_bytes);
}
