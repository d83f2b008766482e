//! Programs with one bug planted in what dearest reads, chooses, prints or refuses: each must turn the tests red.

use crate::dearest_tests::{dearest_in, Dearest};
use crate::subject::Programs;
use crate::terms::{texts_of_size, NO_BELLS};
use crate::wrong_small_lines::{self, line, numbers, Asked};
use second::finishing::{run, Outcome};
use second::plain::Plain;
use second::stepping::Reducer;
use std::cmp::Reverse;

/// Where the bug is.
#[derive(Clone, Copy)]
enum Planted {
    /// In what sweep does too.
    InLine(&'static wrong_small_lines::Bug),
    /// Another run is chosen; where there is none, an empty term with no steps.
    Chosen(fn(Asked) -> Option<Ran>),
    /// The term and the count are printed as others.
    Shown(fn(Asked, Dearest) -> Dearest),
    /// Something else is printed of the term and the count.
    Printed(fn(Asked, &str, u64) -> Vec<u8>),
}

pub struct Bug {
    pub name: String,
    planted: Planted,
}

/// The run of a term.
struct Ran {
    text: Vec<u8>,
    outcome: Outcome,
    steps: u64,
    reached: Vec<u8>,
}

fn ran(text: Vec<u8>, [_, fuel, area]: Asked) -> Ran {
    let mut plain = Plain::start(&text);
    let (outcome, steps) = run(&mut plain, area as usize, fuel as u64, |_| ());
    Ran { text, outcome, steps, reached: plain.text() }
}

/// The runs of all terms that end in these letters, in byte order.
fn over(ends: &str, asked: Asked) -> Vec<Ran> {
    let mut texts = texts_of_size(asked[0] as usize, ends);
    texts.sort();
    texts.into_iter().map(|text| ran(text, asked)).collect()
}

/// Those of the runs that are as asked for, in byte order.
fn only(asked: Asked, wanted: impl Fn(&Ran) -> bool) -> Vec<Ran> {
    over(NO_BELLS, asked).into_iter().filter(wanted).collect()
}

fn is_finished(ran: &Ran) -> bool {
    ran.outcome == Outcome::Finished
}

/// The first of those with the most of this.
fn first_with_most<K: Ord>(runs: Vec<Ran>, of: impl Fn(&Ran) -> K) -> Option<Ran> {
    runs.into_iter().rev().max_by_key(of)
}

fn dearest(runs: Vec<Ran>) -> Option<Ran> {
    first_with_most(runs, |ran| ran.steps)
}

/// Of those that finish with the most steps the one that comes first by this, and not by its text.
fn dearest_by<K: Ord>(asked: Asked, key: impl Fn(&Ran) -> K) -> Option<Ran> {
    first_with_most(only(asked, is_finished), |ran| (ran.steps, Reverse(key(ran))))
}

/// The dearest of the terms in which this letter does not occur.
fn without(letter: u8, asked: Asked) -> Option<Ran> {
    dearest(only(asked, |ran| is_finished(ran) && !ran.text.contains(&letter)))
}

/// The places of a text's letters where the letters stand in this order.
fn places(ran: &Ran, letters: &str) -> Vec<Option<usize>> {
    ran.text.iter().map(|&byte| letters.bytes().position(|letter| letter == byte)).collect()
}

/// Those that finish with fewer steps than the dearest.
fn cheaper(asked: Asked) -> Vec<Ran> {
    let most = dearest(only(asked, is_finished)).map_or(0, |ran| ran.steps);
    only(asked, |ran| is_finished(ran) && ran.steps < most)
}

use Planted::*;

/// Bugs in what is chosen. That runs without room are looked at too is not among them: such a run has made two steps at
/// most, and with the fuel for one more there is a term that finishes with more.
static CHOICES: [(&str, Planted); 28] = [
    ("the latest of several", Chosen(|asked| dearest_by(asked, |ran| Reverse(ran.text.clone())))),
    (
        "the second of several",
        Chosen(|asked| {
            let most = dearest(only(asked, is_finished))?.steps;
            only(asked, |ran| is_finished(ran) && ran.steps == most).into_iter().nth(1)
        }),
    ),
    ("the second most steps", Chosen(|asked| dearest(cheaper(asked)))),
    ("the fewest steps", Chosen(|asked| first_with_most(only(asked, is_finished), |ran| Reverse(ran.steps)))),
    ("the first that finishes", Chosen(|asked| only(asked, is_finished).into_iter().next())),
    ("the first of all", Chosen(|asked| over(NO_BELLS, asked).into_iter().next())),
    ("spent runs too", Chosen(|asked| dearest(only(asked, |ran| ran.outcome != Outcome::NoRoom)))),
    ("every run, however it ends", Chosen(|asked| dearest(over(NO_BELLS, asked)))),
    (
        "the first of all until one makes a step",
        Chosen(|asked| match dearest(only(asked, is_finished)) {
            Some(ran) if ran.steps > 0 => Some(ran),
            _ => over(NO_BELLS, asked).into_iter().next(),
        }),
    ),
    (
        "terms that make no step left out",
        Chosen(|asked| dearest(only(asked, |ran| is_finished(ran) && ran.steps > 0))),
    ),
    (
        "runs that take all of the fuel left out",
        Chosen(|asked| dearest(only(asked, |ran| is_finished(ran) && u128::from(ran.steps) < asked[1]))),
    ),
    (
        "nothing looked at behind a run that does not finish",
        Chosen(|asked| dearest(over(NO_BELLS, asked).into_iter().take_while(is_finished).collect())),
    ),
    (
        "the first of all left out",
        Chosen(|asked| dearest(over(NO_BELLS, asked).into_iter().skip(1).filter(is_finished).collect())),
    ),
    (
        "a bell among the letters",
        Chosen(|asked| dearest(over("JI1", asked).into_iter().filter(is_finished).collect())),
    ),
    ("I not among the letters", Chosen(|asked| without(b'I', asked))),
    ("J not among the letters", Chosen(|asked| without(b'J', asked))),
    ("R not among the letters", Chosen(|asked| without(b'R', asked))),
    ("A not among the letters", Chosen(|asked| without(b'A', asked))),
    ("B not among the letters", Chosen(|asked| without(b'B', asked))),
    ("H not among the letters", Chosen(|asked| without(b'H', asked))),
    (
        "the earliest from its last letter on",
        Chosen(|asked| dearest_by(asked, |ran| ran.text.iter().rev().copied().collect::<Vec<u8>>())),
    ),
    (
        "the earliest in the order of the requirements",
        Chosen(|asked| dearest_by(asked, |ran| places(ran, "JRHAIB."))),
    ),
    ("the full stop behind the letters", Chosen(|asked| dearest_by(asked, |ran| places(ran, "ABHIJR.")))),
    ("J ahead of I", Chosen(|asked| dearest_by(asked, |ran| places(ran, ".ABHJIR")))),
    ("the shortest result", Chosen(|asked| dearest_by(asked, |ran| ran.reached.len()))),
    ("the earliest result", Chosen(|asked| dearest_by(asked, |ran| ran.reached.clone()))),
    (
        "smaller terms too",
        Chosen(|[n, fuel, area]| {
            let mut runs: Vec<Ran> = (1..=n).flat_map(|n| only([n, fuel, area], is_finished)).collect();
            runs.sort_by(|one, two| one.text.cmp(&two.text));
            dearest(runs)
        }),
    ),
    ("terms of one letter less", Chosen(|[n, fuel, area]| dearest(only([n - 1, fuel, area], is_finished)))),
];

/// Bugs in what is printed of the term and the count.
static SHOWN: [(&str, Planted); 14] = [
    ("the count one too large", Shown(|_, own| Dearest { count: own.count + 1, ..own })),
    ("the fuel printed for the count", Shown(|[_, fuel, _], own| Dearest { count: fuel as u64, ..own })),
    (
        "the fuel that is left printed",
        Shown(|[_, fuel, _], own| Dearest { count: fuel as u64 - own.count, ..own }),
    ),
    ("the result printed for the term", Shown(|asked, own| Dearest { text: ran(own.text, asked).reached, ..own })),
    ("the term without its first letter", Shown(|_, own| Dearest { text: own.text[1..].to_vec(), ..own })),
    (
        "the term with zeros behind it",
        Shown(|_, mut own| {
            own.text.resize(7, 0);
            own
        }),
    ),
    ("no tab", Printed(|_, text, count| format!("{text}{count}\n").into_bytes())),
    ("two tabs", Printed(|_, text, count| line(&[text, "", &count.to_string()]))),
    ("the count ahead of the term", Printed(|_, text, count| line(&[&count.to_string(), text]))),
    ("the term alone", Printed(|_, text, _| line(&[text]))),
    ("n ahead of the term", Printed(|[n, _, _], text, count| line(&[&n.to_string(), text, &count.to_string()]))),
    ("printed as finish does", Printed(|_, text, count| line(&["finished", &count.to_string(), text]))),
    ("a header printed", Printed(|_, text, count| format!("term\tsteps\n{text}\t{count}\n").into_bytes())),
    (
        "all of the dearest printed",
        Printed(|asked, _, count| {
            let all = only(asked, |ran| is_finished(ran) && ran.steps == count);
            let count = count.to_string();
            all.iter().flat_map(|ran| line(&[&String::from_utf8_lossy(&ran.text), &count[..]])).collect()
        }),
    ),
];

pub fn bugs() -> impl Iterator<Item = Bug> {
    let in_line = wrong_small_lines::bugs().map(|bug| (bug.what, InLine(bug)));
    let own = CHOICES.into_iter().chain(SHOWN);
    own.chain(in_line).map(|(what, planted)| Bug { name: format!("dearest: {what}"), planted })
}

/// The programs with the bug.
pub struct Wrong<'a, P> {
    pub programs: P,
    pub bug: &'a Bug,
}

fn shown(own: &Dearest) -> Vec<u8> {
    [&own.text[..], format!("\t{}\n", own.count).as_bytes()].concat()
}

/// What is printed for these numbers, of which the program chose this.
fn wrong(planted: Planted, asked: Asked, own: Dearest) -> Vec<u8> {
    match planted {
        InLine(_) => shown(&own),
        Chosen(other) => match other(asked) {
            Some(ran) => shown(&Dearest { text: ran.text, count: ran.steps }),
            None => shown(&Dearest { text: vec![], count: 0 }),
        },
        Shown(other) => shown(&other(asked, own)),
        Printed(other) => other(asked, &String::from_utf8_lossy(&own.text), own.count),
    }
}

impl<P: Programs> Programs for Wrong<'_, P> {
    fn finish(&self, input: &[u8]) -> Result<Vec<u8>, String> {
        self.programs.finish(input)
    }

    fn rule_mix(&self, input: &[u8]) -> Result<Vec<u8>, String> {
        self.programs.rule_mix(input)
    }

    fn check_file(&self, input: &[u8]) -> Result<Vec<u8>, String> {
        self.programs.check_file(input)
    }

    fn sweep(&self, input: &[u8]) -> Result<Vec<u8>, String> {
        self.programs.sweep(input)
    }

    fn dearest(&self, input: &[u8]) -> Result<Vec<u8>, String> {
        if let InLine(bug) = self.bug.planted {
            return bug.in_program(|input| self.programs.dearest(input), input);
        }
        let printed = self.programs.dearest(input)?;
        match (numbers(input), dearest_in(&printed)) {
            (Some(asked), Some(own)) => Ok(wrong(self.bug.planted, asked, own)),
            _ => Ok(printed),
        }
    }

    fn play_book(&self, input: &[u8]) -> Result<Vec<u8>, String> {
        self.programs.play_book(input)
    }
}
