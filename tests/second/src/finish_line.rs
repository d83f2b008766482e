//! Three of the six programs: what each prints for its input; what sweep, dearest and play_book print has a file each.

use crate::checking;
use crate::counting::{finish_by_rule, Counts};
use crate::finishing::Outcome;
use crate::refusal::*;
use crate::stepping::{Reducer, MAX_AREA};

/// A decimal number without leading zeros; one too large for its type is the largest of it.
pub fn number(field: &[u8]) -> Option<u64> {
    let leading_zero = field.len() > 1 && field[0] == b'0';
    if field.is_empty() || leading_zero || !field.iter().all(u8::is_ascii_digit) {
        return None;
    }
    let next = |so_far: u64, digit: &u8| so_far.saturating_mul(10).saturating_add(u64::from(digit - b'0'));
    Some(field.iter().fold(0, next))
}

/// Fuel, area size and term of an input of the right shape.
fn line(input: &[u8]) -> Option<(u64, usize, &[u8])> {
    let (&last, line) = input.split_last()?;
    if last != b'\n' || line.contains(&b'\n') {
        return None;
    }
    let fields: Vec<&[u8]> = line.split(|&byte| byte == b'\t').collect();
    let [fuel, area, term] = fields.try_into().ok()?;
    let area = usize::try_from(number(area)?).ok()?;
    (1..=MAX_AREA).contains(&area).then_some((number(fuel)?, area, term))
}

/// The line that says what was refused.
pub fn refused(refusal: Refusal) -> Vec<u8> {
    format!("refused\t{}\t{}\n", refusal.number, refusal.place).into_bytes()
}

/// Finishes the term in an area of its own; a term longer than the area is refused with 3. Answers the line
/// that says how the run ended, and how often each rule was used.
fn finish_fresh<R: Reducer>(fuel: u64, size: usize, term: &[u8]) -> Result<(Vec<u8>, Counts), Refusal> {
    let mut area = vec![0; size];
    let held = term.len().min(size);
    area[..held].copy_from_slice(&term[..held]);
    let (run, counts) = finish_by_rule::<R>(&mut area, term.len(), &mut vec![0; size], fuel)?;
    let outcome = match run.outcome {
        Outcome::Finished => "finished",
        Outcome::Spent => "spent",
        Outcome::NoRoom => "no room",
    };
    let mut printed = format!("{outcome}\t{}\t", run.count).into_bytes();
    printed.extend_from_slice(&area[..run.length]);
    printed.push(b'\n');
    Ok((printed, counts))
}

/// Finishes what the input says, if it has the right shape.
fn finish_input<R: Reducer>(input: &[u8]) -> Result<(Vec<u8>, Counts), Refusal> {
    let (fuel, size, term) = line(input).ok_or(without_place(BAD_LINE_OF_INPUT))?;
    finish_fresh::<R>(fuel, size, term)
}

/// What the finishing program prints.
pub fn finish_program<R: Reducer>(input: &[u8]) -> Vec<u8> {
    finish_input::<R>(input).map_or_else(refused, |(printed, _)| printed)
}

/// The marks of the longest bar.
const WIDEST: u32 = 40;

/// A rule's number, its count and its bar, whose length is in proportion to the count, rounded up.
fn bar(rule: usize, count: u32, largest: u32) -> String {
    let marks = (count * WIDEST).div_ceil(largest.max(1));
    format!("{rule}\t{count}\t{}\n", "#".repeat(marks as usize))
}

/// What the program rule_mix prints: the finishing program's line, and a line for each rule.
pub fn rule_mix_program<R: Reducer>(input: &[u8]) -> Vec<u8> {
    let (mut printed, counts) = match finish_input::<R>(input) {
        Ok(finished) => finished,
        Err(refusal) => return refused(refusal),
    };
    let largest = counts.into_iter().max().unwrap_or(0);
    for (rule, count) in (1..).zip(counts) {
        printed.extend_from_slice(bar(rule, count, largest).as_bytes());
    }
    printed
}

/// What the checking program prints.
pub fn check_program(input: &[u8]) -> Vec<u8> {
    match checking::check(input) {
        Ok(lines) => format!("accepted\t{}\n", lines.len()).into_bytes(),
        Err(refusal) => refused(refusal),
    }
}
