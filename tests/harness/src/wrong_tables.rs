//! Slips in rows for the hammers: what the table holds, and how many rows are called different.

use crate::reply::*;
use crate::subject::Controller;
use crate::terms::BELLS;
use crate::wrong_rows::*;
use std::collections::HashSet;

/// Every byte of the table from this place on is that of before.
fn left_from(subject: &dyn Controller, lent: Ringing, place: fn(usize, usize) -> usize) -> u64 {
    let (before, size) = (lent.table.to_vec(), lent.table.len());
    let reply = subject.rows(lent.term, lent.bells, &mut *lent.table);
    let start = place(PLACES * value(reply) as usize, size);
    if code(reply) == RUNG && start < size {
        lent.table[start..].copy_from_slice(&before[start..]);
    }
    reply
}

pub fn bytes_behind_left(subject: &dyn Controller, lent: Ringing) -> u64 {
    left_from(subject, lent, |rows, _| rows)
}

pub fn last_few_bytes_left(subject: &dyn Controller, lent: Ringing) -> u64 {
    left_from(subject, lent, |_, size| size - size % PLACES)
}

pub fn bytes_far_behind_left(subject: &dyn Controller, lent: Ringing) -> u64 {
    left_from(subject, lent, |_, _| LARGEST_TABLE)
}

pub fn next_row_alone_cleared(subject: &dyn Controller, lent: Ringing) -> u64 {
    left_from(subject, lent, |rows, _| rows + PLACES)
}

/// What becomes of the places of each row, by how many bells it has and what stood there before.
fn changed(subject: &dyn Controller, lent: Ringing, change: impl Fn(&mut [u8], &[u8])) -> u64 {
    let before = lent.table.to_vec();
    let reply = subject.rows(lent.term, lent.bells, &mut *lent.table);
    if code(reply) == RUNG {
        let each = lent.table.chunks_exact_mut(PLACES).zip(before.chunks_exact(PLACES));
        each.take(value(reply) as usize).for_each(|(row, before)| change(row, before));
    }
    reply
}

pub fn unused_places_left(subject: &dyn Controller, lent: Ringing) -> u64 {
    let bells = lent.bells;
    changed(subject, lent, |row, before| row[bells..].copy_from_slice(&before[bells..]))
}

/// Behind the bells of a row stand those that it has not.
pub fn unused_places_numbered(subject: &dyn Controller, lent: Ringing) -> u64 {
    let bells = lent.bells;
    changed(subject, lent, |row, _| (bells..PLACES).for_each(|place| row[place] = place as u8 + 1))
}

pub fn bell_ten_stored_as_0(subject: &dyn Controller, lent: Ringing) -> u64 {
    changed(subject, lent, |row, _| row.iter_mut().filter(|bell| **bell == 10).for_each(|bell| *bell = 0))
}

pub fn eleven_and_twelve_exchanged(subject: &dyn Controller, lent: Ringing) -> u64 {
    changed(subject, lent, |row, _| row.iter_mut().filter(|bell| **bell > 10).for_each(|bell| *bell = 23 - *bell))
}

pub fn letters_stored(subject: &dyn Controller, lent: Ringing) -> u64 {
    let letter = |bell: &mut u8| *bell = BELLS[usize::from(*bell) - 1];
    changed(subject, lent, |row, _| row.iter_mut().filter(|bell| **bell > 0).for_each(letter))
}

pub fn bells_stored_from_0(subject: &dyn Controller, lent: Ringing) -> u64 {
    changed(subject, lent, |row, _| row.iter_mut().filter(|bell| **bell > 0).for_each(|bell| *bell -= 1))
}

pub fn rows_stored_backwards(subject: &dyn Controller, lent: Ringing) -> u64 {
    let bells = lent.bells;
    changed(subject, lent, |row, _| row[..bells].reverse())
}

/// Each row stands close behind the one before it.
pub fn rows_stored_close(subject: &dyn Controller, lent: Ringing) -> u64 {
    let reply = subject.rows(lent.term, lent.bells, &mut *lent.table);
    if code(reply) == RUNG {
        let bells = bells_in(lent.term);
        lent.table.fill(0);
        lent.table[..bells.len()].copy_from_slice(&bells);
    }
    reply
}

/// The last row is stored first.
pub fn last_row_first(subject: &dyn Controller, lent: Ringing) -> u64 {
    let reply = subject.rows(lent.term, lent.bells, &mut *lent.table);
    if code(reply) == RUNG {
        let bells: Vec<u8> = bells_in(lent.term).chunks(lent.bells).rev().flatten().copied().collect();
        stored(&bells, lent.bells, lent.table, in_a_set);
    }
    reply
}

/// The rows before a bad one are stored, and then it is refused.
pub fn stored_up_to_a_bad_row(subject: &dyn Controller, lent: Ringing) -> u64 {
    let reply = subject.rows(lent.term, lent.bells, &mut *lent.table);
    if code(reply) == BAD_ROW {
        let rows = bells_in(lent.term);
        let good = rows.chunks(lent.bells).take((reply >> 8) as usize - 1);
        let each = lent.table.chunks_exact_mut(PLACES).zip(good);
        each.for_each(|(places, row)| places[..row.len()].copy_from_slice(row));
    }
    reply
}

/// A bad row is stored, and then refused.
pub fn bad_row_stored(subject: &dyn Controller, lent: Ringing) -> u64 {
    let reply = subject.rows(lent.term, lent.bells, &mut *lent.table);
    if code(reply) == BAD_ROW {
        let (bells, before) = (bells_in(lent.term), (reply >> 8) as usize - 1);
        let row = &bells[before * lent.bells..][..lent.bells];
        lent.table[PLACES * before..][..row.len()].copy_from_slice(row);
    }
    reply
}

pub fn cleared_by_a_refusal(subject: &dyn Controller, lent: Ringing) -> u64 {
    let reply = subject.rows(lent.term, lent.bells, &mut *lent.table);
    if is_refusal(reply) {
        lent.table.fill(0);
    }
    reply
}

/// The rows for which a table has room are stored, and then it is refused.
pub fn stored_as_far_as_it_goes(subject: &dyn Controller, lent: Ringing) -> u64 {
    let reply = subject.rows(lent.term, lent.bells, &mut *lent.table);
    if code(reply) == NO_TABLE {
        stored(&bells_in(lent.term), lent.bells, lent.table, in_a_set);
    }
    reply
}

/// The tests' tables have guard bytes around them.
pub fn byte_behind_the_table(subject: &dyn Controller, lent: Ringing) -> u64 {
    let reply = subject.rows(lent.term, lent.bells, &mut *lent.table);
    if code(reply) == RUNG {
        unsafe { *lent.table.as_mut_ptr().add(lent.table.len()) = 0 };
    }
    reply
}

/// What was lent to be read alone is written.
pub fn term_written(subject: &dyn Controller, lent: Ringing) -> u64 {
    let term = lent.term;
    let reply = rows(subject, lent);
    if code(reply) == RUNG {
        unsafe { term.as_ptr().cast_mut().write_volatile(b'x') };
    }
    reply
}

/// Another way to count the different rows of an answer.
fn counted(subject: &dyn Controller, lent: Ringing, different: impl Fn(&[&[u8]]) -> usize) -> u64 {
    let (term, bells) = (lent.term, lent.bells);
    let reply = rows(subject, lent);
    match code(reply) == RUNG {
        true => pack(RUNG, value(reply), different(&bells_in(term).chunks(bells).collect::<Vec<_>>())),
        false => reply,
    }
}

pub fn every_row_different(subject: &dyn Controller, lent: Ringing) -> u64 {
    counted(subject, lent, |rows| rows.len())
}

pub fn neighbours_compared(subject: &dyn Controller, lent: Ringing) -> u64 {
    counted(subject, lent, |rows| {
        let changes = rows.windows(2).filter(|two| two[0] != two[1]).count();
        if rows.is_empty() {
            0
        } else {
            changes + 1
        }
    })
}

/// Rows are different where a part of their bells is.
fn by_part(subject: &dyn Controller, lent: Ringing, part: fn(&[u8]) -> &[u8]) -> u64 {
    counted(subject, lent, |rows| rows.iter().map(|row| part(row)).collect::<HashSet<_>>().len())
}

pub fn first_bells_compared(subject: &dyn Controller, lent: Ringing) -> u64 {
    by_part(subject, lent, |row| &row[..row.len() - 2])
}

pub fn last_bells_compared(subject: &dyn Controller, lent: Ringing) -> u64 {
    by_part(subject, lent, |row| &row[2..])
}

pub fn eight_bells_compared(subject: &dyn Controller, lent: Ringing) -> u64 {
    by_part(subject, lent, |row| &row[..row.len().min(8)])
}

pub fn first_bell_compared(subject: &dyn Controller, lent: Ringing) -> u64 {
    by_part(subject, lent, |row| &row[..1])
}

/// Each row is compared with the first alone.
pub fn first_row_compared(subject: &dyn Controller, lent: Ringing) -> u64 {
    counted(subject, lent, |rows| {
        rows.iter().filter(|row| *row != &rows[0]).count() + usize::from(!rows.is_empty())
    })
}

/// Rows that come once are counted, and no other.
pub fn single_rows_counted(subject: &dyn Controller, lent: Ringing) -> u64 {
    counted(subject, lent, |rows| {
        rows.iter().filter(|row| rows.iter().filter(|other| other == row).count() == 1).count()
    })
}

/// Pairs of equal rows are taken off the number of rows.
pub fn equal_pairs_taken_off(subject: &dyn Controller, lent: Ringing) -> u64 {
    counted(subject, lent, |rows| {
        let pairs = (0..rows.len()).map(|place| rows[..place].iter().filter(|row| **row == rows[place]).count());
        rows.len().saturating_sub(pairs.sum())
    })
}

/// Two rows are the same where their bells make up one number in eight bits.
pub fn sums_compared(subject: &dyn Controller, lent: Ringing) -> u64 {
    let sum = |row: &[u8]| row.iter().fold(0u8, |sum, bell| sum.wrapping_mul(31).wrapping_add(*bell));
    counted(subject, lent, |rows| rows.iter().map(|row| sum(row)).collect::<HashSet<_>>().len())
}
