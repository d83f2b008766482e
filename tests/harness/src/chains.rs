//! Pieces as the rows that they are made of: their text, and what a table then holds.

use crate::random::Random;
use crate::terms::BELLS;

/// A row, its bells by their numbers.
pub type Row = Vec<u8>;

/// The bytes that each row has in a table.
pub const PLACES: usize = 12;

/// The text of the chain of these bells.
pub fn chain(bells: &[u8]) -> Vec<u8> {
    bells.iter().flat_map(|&bell| [b'B', BELLS[usize::from(bell) - 1]]).chain([b'I']).collect()
}

/// The text of the chain of these rows.
pub fn piece(rows: &[Row]) -> Vec<u8> {
    chain(&rows.concat())
}

/// What a table of this size holds of these rows.
pub fn table_of(rows: &[Row], size: usize) -> Vec<u8> {
    let mut table = vec![0; size];
    for (number, row) in rows.iter().enumerate() {
        table[PLACES * number..][..row.len()].copy_from_slice(row);
    }
    table
}

/// The row in which the bells count up.
pub fn rounds(bells: usize) -> Row {
    (1..).take(bells).collect()
}

/// The row of this number among all of so many bells, as they follow each other in order; rounds is number 0.
pub fn row_at(bells: usize, number: usize) -> Row {
    let (mut left, mut row, mut number) = (rounds(bells), vec![], number);
    for others in (0..bells).rev() {
        let ways: usize = (1..=others).product();
        row.push(left.remove(number / ways));
        number %= ways;
    }
    row
}

/// Every row of so many bells, rounds first.
pub fn every_row(bells: usize) -> Vec<Row> {
    (0..(1..=bells).product()).map(|number| row_at(bells, number)).collect()
}

pub fn random_row(random: &mut Random, bells: usize) -> Row {
    let mut row = rounds(bells);
    random.shuffle(&mut row);
    row
}

/// A row with two of its bells exchanged, by their places from 0.
pub fn swapped(row: &[u8], one: usize, two: usize) -> Row {
    let mut row = row.to_vec();
    row.swap(one, two);
    row
}
