//! The program dearest: standard input, and the one line printed.
//!
//! Nothing here was taken from a program: the runs were made by hand, with the rules of docs/REQUIREMENTS.md. Six rows
//! are the request's and its issue's own (`named_rows`), and the others agree with them. How many terms of a size make
//! how many steps stands in `sweeping.rs`.

use super::programs::{row, Row};
use super::small_lines::refused_rows;

/// The area from which on every small term has room: `.BusHrt` becomes `..Busr.Bust`, and `.BusBrt` becomes
/// `B.Busr.Bust`.
const ROOM: usize = 11;

/// The most steps where there is less room: all terms that make more use one of these two rules.
const STEPS_WITHOUT_ROOM: usize = 3;

/// Of each size, from 1 on, the earliest term whose run finishes with 0, 1, 2 .. steps, up to the most that a term of
/// that size makes. With so much fuel it is the dearest, since no run makes more steps than it has fuel; with more fuel
/// than that the last is.
///
/// From three letters on the first normal term begins with `A`, which comes next behind the full stop. A step by rules 1,
/// 2, 3, 5, 6 or 10 takes a full stop away and makes none. Of the other rules only 4 fits in five letters, and only 4 and
/// 7 in six; where they do, each other letter is `I`, `J` or `R`, so the one full stop stays one.
pub const DEAREST: [&[&str]; 7] = [
    &["I"],
    &["RI"],
    // `.II` is the first of all, and one full stop with two letters behind it makes one step.
    &["AII", ".II"],
    // Behind the first letter is no room for another that takes two terms: `I` stands there, and `RI` fills the rest.
    &["AIRI", ".IRI"],
    // `..III` is the first of all; two full stops make two steps. `.Astu` makes two, by rule 4 and then by 6 or 10. So
    // one step is made first by a term that begins with `.B`, by rule 10.
    &["AAIII", ".BIII", "..III"],
    // `..IIRI` is the first of all; two full stops make two steps. `.Astu` makes two and more: three where `t` is `R` and
    // a letter, by rules 4 and 7 and then at `s`, and of these `.AIRII` is the first. `.Bus` before `R` and a letter
    // makes two, and the first of the others that begin with `.B` makes one, by rule 10.
    &["AAIIRI", ".BIRII", "..IIRI", ".AIRII"],
    // `...IIII` is the first of all; three full stops, and no `A` or `B`, make three steps. `..A` makes three, by rules 4
    // and 6 or 10 and at the first full stop, and `..BIIII` two, by rules 10 and 5. What begins with `..` or `.A` makes
    // two and more; `.B.IIII` makes one, by rule 10, which drops what it has not run. Four steps are made by `.AsBrtu`
    // (rules 4 and 11, then at `r` and `t`) and `.BusHrt` (rule 8, at `r`, at the full stop, at `t`), 32 terms together;
    // five by `.AsHrtu` (rule 4, and those) and `.Bus.Jt` (rule 1, and those), 24; six by `.As.Jtu` (both), 8. That is
    // as many as there are.
    &["AAAIIII", ".B.IIII", "..BIIII", "...IIII", ".AIBIII", ".AIHIII", ".AI.JII"],
];

/// The dearest term of size n with this fuel in this area, and its steps.
pub fn dearest_of(n: usize, fuel: u64, area: usize) -> (&'static str, usize) {
    let most = match (n, area) {
        (7, ..ROOM) => STEPS_WITHOUT_ROOM,
        _ => DEAREST[n - 1].len() - 1,
    };
    let steps = most.min(usize::try_from(fuel).unwrap_or(usize::MAX));
    (DEAREST[n - 1][steps], steps)
}

/// Every row of dearest.
pub fn dearest_rows() -> Vec<Row> {
    [named_rows(), refused_rows(), at_each_fuel(), at_limits()].into_iter().flatten().collect()
}

/// The request's row, and those of its issue.
fn named_rows() -> Vec<Row> {
    vec![
        row("3\t10\t20\n", ".II\t1"),
        row("1\t0\t1\n", "I\t0"),
        row("3\t0\t3\n", "AII\t0"),
        row("7\t6\t16384\n", ".AI.JII\t6"),
        row("7\t10\t7\n", "...IIII\t3"),
        row("6\t10\t6\n", ".AIRII\t3"),
    ]
}

/// The row for these numbers.
fn known(n: usize, fuel: u64, area: usize) -> Row {
    let (term, steps) = dearest_of(n, fuel, area);
    row(&format!("{n}\t{fuel}\t{area}\n"), &format!("{term}\t{steps}"))
}

/// Each size with each fuel up to one more than its terms take, in an area of their size and in those about the room
/// that the dearest of seven letters take.
fn at_each_fuel() -> Vec<Row> {
    let of_size = |n: usize| {
        let fuels = 0..=DEAREST[n - 1].len() as u64;
        fuels.flat_map(move |fuel| [n, ROOM - 1, ROOM].map(|area| known(n, fuel, area)))
    };
    (1..=7).flat_map(of_size).collect()
}

/// Each size with no fuel in the largest area, with the most fuel in areas at their limits, and numbers that are 3 in 8
/// or 16 bits.
fn at_limits() -> Vec<Row> {
    let of_size = |n: usize| {
        let numbers = [(0, 16_384), (1_000_000, n), (1_000_000, 16_383), (1_000_000, 16_384)];
        numbers.map(|(fuel, area)| known(n, fuel, area))
    };
    let others = ["3\t10\t259\n", "3\t259\t20\n", "3\t65539\t20\n"].map(|input| row(input, ".II\t1"));
    (1..=7).flat_map(of_size).chain(others).collect()
}
