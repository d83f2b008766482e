//! The program dearest: its rows, what finish and sweep say of its terms, and what the second implementation predicts.

use crate::program_tests::{printed, with_line_feed};
use crate::small_lines::{by_finish, line, random_lines, short_inputs, small_runs};
use crate::subject::{Programs, Second};
use crate::suite::{equal, shown, Outcome, Suite};
use crate::sweep_tests::swept;
use crate::table::dearest::{dearest_of, dearest_rows, DEAREST};
use crate::terms::{texts_of_size, NO_BELLS};
use second::finishing::Outcome as End;
use second::plain::Plain;

/// The term and the count that are printed for small terms.
#[derive(Clone, Debug, PartialEq)]
pub struct Dearest {
    pub text: Vec<u8>,
    pub count: u64,
}

/// The two in the one line that was printed; none for a refusal or anything else.
pub fn dearest_in(printed: &[u8]) -> Option<Dearest> {
    let line = std::str::from_utf8(printed).ok()?.strip_suffix('\n')?;
    let (text, count) = line.split_once('\t')?;
    Some(Dearest { text: text.into(), count: count.parse().ok()? })
}

/// The term and the count that the subject prints.
fn told(subject: &dyn Programs, n: usize, fuel: u64, area: usize) -> Result<Dearest, String> {
    let printed = subject.dearest(&line(n, fuel, area))?;
    dearest_in(&printed).ok_or(format!("{n}, {fuel}, {area} prints {}", shown(&printed)))
}

/// The finishing program finishes the term with that count, with this fuel in this area.
fn finishes(subject: &dyn Programs, n: usize, fuel: u64, area: usize) -> Outcome {
    let Dearest { text, count } = told(subject, n, fuel, area)?;
    let what = format!("{n}, {fuel}, {area}: {}", shown(&text));
    equal(&format!("{what}, letters"), text.len(), n)?;
    equal(&format!("{what}, letters that are no bells"), text.iter().all(|byte| b".ABHIJR".contains(byte)), true)?;
    equal(&format!("{what}, by finish"), by_finish(subject, fuel, area, &text)?, (End::Finished, count))
}

/// With the count for its fuel a sweep finishes as many runs as with all of the fuel; with one less it finishes fewer.
fn least_fuel(subject: &dyn Programs, n: usize, fuel: u64, area: usize) -> Outcome {
    let count = told(subject, n, fuel, area)?.count;
    let finished = |fuel| swept(subject, n, fuel, area).map(|columns| columns.finished);
    let (what, all) = (format!("{n}, {fuel}, {area}"), finished(fuel)?);
    equal(&format!("{what}: finished with {count} for the fuel"), finished(count)?, all)?;
    let fewer = count == 0 || finished(count - 1)? < all;
    equal(&format!("{what}: fewer finished with less than {count}"), fewer, true)
}

/// Of the terms that the finishing program finishes none makes more steps than the printed one, which is among them, and
/// none ahead of it makes as many.
fn beside_finish(subject: &dyn Programs, n: usize, fuel: u64, area: usize) -> Outcome {
    let told = told(subject, n, fuel, area)?;
    let what = format!("{n}, {fuel}, {area}: {} with {}", shown(&told.text), told.count);
    let mut there = false;
    for text in texts_of_size(n, NO_BELLS) {
        let (End::Finished, count) = by_finish(subject, fuel, area, &text)? else { continue };
        let beside = || format!("{what} beside {} with {count}", shown(&text));
        equal(&format!("{}, more steps", beside()), count > told.count, false)?;
        equal(&format!("{}, earlier", beside()), count == told.count && text < told.text, false)?;
        there |= text == told.text && count == told.count;
    }
    equal(&format!("{what} among those that finish"), there, true)
}

/// The printed line is the one that is known for these numbers.
fn as_known(subject: &dyn Programs, n: usize, fuel: u64, area: usize) -> Outcome {
    let (term, steps) = dearest_of(n, fuel, area);
    let input = line(n, fuel, area);
    printed(subject.dearest(&input), format!("{term}\t{steps}\n").as_bytes(), &input)
}

/// Does the subject print what the plain reducer predicts?
fn agree(subject: &dyn Programs, input: &[u8]) -> Outcome {
    printed(subject.dearest(input), &Second::<Plain>::new().dearest(input)?, input)
}

/// Inputs whose output is written by hand.
pub fn known(suite: &mut Suite, label: &str, subject: impl Programs) {
    for row in dearest_rows() {
        let name = format!("{label} dearest program: {}", row.name);
        suite.test(&name, || printed(subject.dearest(&row.input), &with_line_feed(&row.printed), &row.input));
    }
    for n in 1..=DEAREST.len() {
        suite.test(&format!("{label} dearest program: size {n} with every small fuel and area"), || {
            small_runs(n).try_for_each(|(fuel, area)| as_known(&subject, n, fuel, area))
        });
    }
}

/// Beside the two other programs that run terms, of every size; beside each run, of terms of up to so many letters.
pub fn made(suite: &mut Suite, label: &str, subject: impl Programs, largest: usize) {
    let numbers = |n: usize| [(0, n), (1, n), (2, n + 1), (3, 11), (5, 12), (10, 10), (1_000_000, 16_384)];
    for n in 1..=DEAREST.len() {
        suite.test(&format!("{label} dearest program: the term of size {n} finishes so"), || {
            numbers(n).into_iter().try_for_each(|(fuel, area)| finishes(&subject, n, fuel, area))
        });
        suite.test(&format!("{label} dearest program: no less fuel for all of size {n} that finish"), || {
            numbers(n).into_iter().try_for_each(|(fuel, area)| least_fuel(&subject, n, fuel, area))
        });
    }
    for n in 1..=largest {
        suite.test(&format!("{label} dearest program: the runs of size {n} one by one, by finish"), || {
            let numbers = [(0, n), (1, n), (2, n + 1), (10, 16_384)];
            numbers.into_iter().try_for_each(|(fuel, area)| beside_finish(&subject, n, fuel, area))
        });
    }
}

/// Lines that the plain reducer predicts.
pub fn predicted(suite: &mut Suite, label: &str, subject: impl Programs) {
    suite.test(&format!("{label} dearest program: random lines"), || {
        random_lines(93, |input| agree(&subject, input))
    });
    suite.test(&format!("{label} dearest program: short inputs"), || {
        short_inputs(94, |input| agree(&subject, input))
    });
}
