//! Programs with one bug planted in what rule_mix prints: each must turn the tests red.

use crate::subject::Programs;

pub struct Bug {
    pub name: &'static str,
    printed: fn(Vec<u8>) -> Vec<u8>,
}

/// The counts in the lines behind the first.
fn counts_in(printed: &[u8]) -> Vec<usize> {
    let count = |line: &str| line.split('\t').nth(1)?.parse().ok();
    let text = String::from_utf8_lossy(printed);
    text.lines().skip(1).map(|line| count(line).expect("a rule's line has its count")).collect()
}

/// The first line as it is, and each other made anew from the rule, its count and the largest count.
fn anew(printed: Vec<u8>, line: fn(usize, usize, usize) -> String) -> Vec<u8> {
    let counts = counts_in(&printed);
    let largest = counts.iter().copied().max().unwrap_or(0).max(1);
    let lines: String = (1..).zip(counts).map(|(rule, count)| line(rule, count, largest)).collect();
    let first = printed.split_inclusive(|&byte| byte == b'\n').next().unwrap_or(&[]);
    [first, lines.as_bytes()].concat()
}

fn line(rule: usize, count: usize, marks: usize) -> String {
    format!("{rule}\t{count}\t{}\n", "#".repeat(marks))
}

/// The lines of thirteen rules that were not used.
fn unused() -> Vec<u8> {
    (1..=13).map(|rule| line(rule, 0, 0)).collect::<String>().into_bytes()
}

fn rounded_down(printed: Vec<u8>) -> Vec<u8> {
    anew(printed, |rule, count, largest| line(rule, count, count * 40 / largest))
}

fn rounded_to_the_nearest(printed: Vec<u8>) -> Vec<u8> {
    anew(printed, |rule, count, largest| line(rule, count, (count * 80 + largest) / (2 * largest)))
}

fn one_mark_more(printed: Vec<u8>) -> Vec<u8> {
    anew(printed, |rule, count, largest| line(rule, count, count * 40 / largest + usize::from(count > 0)))
}

fn bars_of_39(printed: Vec<u8>) -> Vec<u8> {
    anew(printed, |rule, count, largest| line(rule, count, (count * 39).div_ceil(largest)))
}

fn bars_of_counts(printed: Vec<u8>) -> Vec<u8> {
    anew(printed, |rule, count, _| line(rule, count, count))
}

fn never_empty(printed: Vec<u8>) -> Vec<u8> {
    anew(printed, |rule, count, largest| line(rule, count, (count * 40).div_ceil(largest).max(1)))
}

fn unused_left_out(printed: Vec<u8>) -> Vec<u8> {
    anew(printed, |rule, count, largest| match count {
        0 => String::new(),
        _ => line(rule, count, (count * 40).div_ceil(largest)),
    })
}

fn behind_a_refusal(printed: Vec<u8>) -> Vec<u8> {
    match printed.starts_with(b"refused") {
        true => [printed, unused()].concat(),
        false => printed,
    }
}

fn nothing_without_a_step(printed: Vec<u8>) -> Vec<u8> {
    match printed.strip_suffix(&unused()[..]) {
        Some(first) => first.to_vec(),
        None => printed,
    }
}

fn without_the_first_line(printed: Vec<u8>) -> Vec<u8> {
    let first = printed.iter().position(|&byte| byte == b'\n').map_or(0, |place| place + 1);
    match printed.starts_with(b"refused") {
        true => printed,
        false => printed[first..].to_vec(),
    }
}

static BUGS: [Bug; 10] = [
    Bug { name: "bars rounded down", printed: rounded_down },
    Bug { name: "bars rounded to the nearest", printed: rounded_to_the_nearest },
    Bug { name: "bars rounded down and one mark more", printed: one_mark_more },
    Bug { name: "the longest bar has 39 marks", printed: bars_of_39 },
    Bug { name: "bars as long as their counts", printed: bars_of_counts },
    Bug { name: "a mark for a rule that is not used", printed: never_empty },
    Bug { name: "rules that are not used left out", printed: unused_left_out },
    Bug { name: "rules printed behind a refusal", printed: behind_a_refusal },
    Bug { name: "no rules printed where no step was made", printed: nothing_without_a_step },
    Bug { name: "rules printed without the first line", printed: without_the_first_line },
];

pub fn bugs() -> &'static [Bug] {
    &BUGS
}

/// The programs with the bug.
pub struct Wrong<P> {
    pub programs: P,
    pub bug: &'static Bug,
}

impl<P: Programs> Programs for Wrong<P> {
    fn finish(&self, input: &[u8]) -> Result<Vec<u8>, String> {
        self.programs.finish(input)
    }

    fn rule_mix(&self, input: &[u8]) -> Result<Vec<u8>, String> {
        self.programs.rule_mix(input).map(self.bug.printed)
    }

    fn check_file(&self, input: &[u8]) -> Result<Vec<u8>, String> {
        self.programs.check_file(input)
    }

    fn sweep(&self, input: &[u8]) -> Result<Vec<u8>, String> {
        self.programs.sweep(input)
    }

    fn dearest(&self, input: &[u8]) -> Result<Vec<u8>, String> {
        self.programs.dearest(input)
    }

    fn play_book(&self, input: &[u8]) -> Result<Vec<u8>, String> {
        self.programs.play_book(input)
    }
}
