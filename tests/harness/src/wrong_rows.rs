//! Slips in rows for the hammers: which terms, rows and tables are taken, and which refusal is given.

use crate::reply::*;
use crate::subject::Controller;
use crate::terms::BELLS;
use std::collections::HashSet;

/// What is lent to a call for rows.
pub struct Ringing<'a> {
    pub term: &'a [u8],
    pub bells: usize,
    pub table: &'a mut [u8],
}

pub type Slip = fn(&dyn Controller, Ringing) -> u64;

/// What a subject replies to a call for rows.
pub fn rows(subject: &dyn Controller, lent: Ringing) -> u64 {
    subject.rows(lent.term, lent.bells, lent.table)
}

const NO_CHAIN: u64 = 20;
pub const NO_TABLE: u64 = 21;
pub const BAD_ROW: u64 = 22;
pub const PLACES: usize = 12;
const LARGEST_AREA: usize = 16_384;
pub const LARGEST_TABLE: usize = 12_000;

/// The numbers of the bells in a text, wherever they stand.
pub fn bells_in(term: &[u8]) -> Vec<u8> {
    let number = |letter: &u8| BELLS.iter().position(|bell| bell == letter);
    term.iter().filter_map(number).map(|place| place as u8 + 1).collect()
}

/// A reply to rows that are stored as they are, as far as the table goes, so many of them different.
pub fn stored(bells: &[u8], n: usize, table: &mut [u8], different: fn(&[&[u8]]) -> usize) -> u64 {
    let all: Vec<&[u8]> = bells.chunks(n).collect();
    table.fill(0);
    for (places, row) in table.chunks_mut(PLACES).zip(&all) {
        places.iter_mut().zip(*row).for_each(|(place, bell)| *place = *bell);
    }
    pack(RUNG, all.len() as u64, different(&all))
}

/// How many different rows there are.
pub fn in_a_set(rows: &[&[u8]]) -> usize {
    rows.iter().collect::<HashSet<_>>().len()
}

/// Is each bell from one to their number among these bells?
fn is_row(bells: &[u8]) -> bool {
    (1..).take(bells.len()).all(|bell| bells.contains(&bell))
}

/// The rows of a text are stored where the subject refuses them by this number and they pass this test.
fn taken(subject: &dyn Controller, lent: Ringing, number: u64, test: impl Fn(&[u8]) -> bool) -> u64 {
    let reply = subject.rows(lent.term, lent.bells, &mut *lent.table);
    let bells = bells_in(lent.term);
    match code(reply) == number && test(&bells) {
        true => stored(&bells, lent.bells, lent.table, in_a_set),
        false => reply,
    }
}

/// A call of the subject on a copy of the table, so that a slip may still refuse.
fn tried(subject: &dyn Controller, lent: &Ringing) -> u64 {
    subject.rows(lent.term, lent.bells, &mut lent.table.to_vec())
}

// Which rows are taken.

pub fn bell_twice_taken(subject: &dyn Controller, lent: Ringing) -> u64 {
    let most = lent.bells as u8;
    taken(subject, lent, BAD_ROW, |bells| bells.iter().all(|&bell| bell <= most))
}

pub fn bell_above_taken(subject: &dyn Controller, lent: Ringing) -> u64 {
    let n = lent.bells;
    taken(subject, lent, BAD_ROW, |bells| bells.chunks(n).all(|row| row.iter().collect::<HashSet<_>>().len() == n))
}

/// What the bells of a row make up is reckoned, and nothing else.
pub fn sums_tested(subject: &dyn Controller, lent: Ringing) -> u64 {
    let n = lent.bells;
    let sum = |row: &[u8]| row.iter().map(|&bell| usize::from(bell)).sum::<usize>();
    taken(subject, lent, BAD_ROW, |bells| bells.chunks(n).all(|row| 2 * sum(row) == n * (n + 1)))
}

pub fn first_row_tested_alone(subject: &dyn Controller, lent: Ringing) -> u64 {
    let first = tried(subject, &lent);
    match first == placed(BAD_ROW, 1) {
        true => first,
        false => taken(subject, lent, BAD_ROW, |_| true),
    }
}

pub fn last_row_not_tested(subject: &dyn Controller, lent: Ringing) -> u64 {
    let (refused, last) = (tried(subject, &lent), lent.term.len() / 2 / lent.bells.max(1));
    match refused == placed(BAD_ROW, last) {
        true => taken(subject, lent, BAD_ROW, |_| true),
        false => rows(subject, lent),
    }
}

pub fn more_rows_taken(subject: &dyn Controller, lent: Ringing) -> u64 {
    let (n, room) = (lent.bells, lent.table.len() / PLACES);
    taken(subject, lent, NO_TABLE, |bells| bells.len() == 1_001 * n && room > 1_000)
}

pub fn thousand_rows_refused(subject: &dyn Controller, lent: Ringing) -> u64 {
    let reply = tried(subject, &lent);
    match code(reply) == RUNG && value(reply) == 1_000 {
        true => placed(NO_TABLE, 0),
        false => rows(subject, lent),
    }
}

/// A table of fewer bytes than the rows take is taken for one of a row more.
pub fn table_rounded_up(subject: &dyn Controller, lent: Ringing) -> u64 {
    let (n, room) = (lent.bells, lent.table.len().div_ceil(PLACES));
    taken(subject, lent, NO_TABLE, |bells| bells.len() % n == 0 && bells.len() / n <= room.min(1_000))
}

/// A table is asked for as many bytes as there are bells.
pub fn table_of_bells(subject: &dyn Controller, lent: Ringing) -> u64 {
    let (n, room) = (lent.bells, lent.table.len());
    taken(subject, lent, NO_TABLE, |bells| bells.len() % n == 0 && bells.len() <= room.min(1_000 * n))
}

pub fn full_table_refused(subject: &dyn Controller, lent: Ringing) -> u64 {
    let reply = tried(subject, &lent);
    match code(reply) == RUNG && value(reply) > 0 && PLACES * value(reply) as usize == lent.table.len() {
        true => placed(NO_TABLE, 0),
        false => rows(subject, lent),
    }
}

/// Bells behind the last whole row are left out.
pub fn last_bells_left_out(subject: &dyn Controller, lent: Ringing) -> u64 {
    let reply = tried(subject, &lent);
    let bells = bells_in(lent.term);
    match code(reply) == NO_TABLE && bells.len() % lent.bells > 0 && bells.len() < 1_000 {
        true => {
            let whole = bells.len() - bells.len() % lent.bells;
            subject.rows(&crate::chains::chain(&bells[..whole]), lent.bells, lent.table)
        }
        false => rows(subject, lent),
    }
}

pub fn large_term_refused(subject: &dyn Controller, lent: Ringing) -> u64 {
    match code(tried(subject, &lent)) == RUNG && lent.term.len() > LARGEST_AREA {
        true => placed(NO_TABLE, 0),
        false => rows(subject, lent),
    }
}

pub fn large_table_refused(subject: &dyn Controller, lent: Ringing) -> u64 {
    match code(tried(subject, &lent)) == RUNG && lent.table.len() > LARGEST_TABLE {
        true => placed(NO_TABLE, 0),
        false => rows(subject, lent),
    }
}

// Which terms and which numbers of bells are taken.

/// A term that is no chain and passes this test is rung as the chain of its bells.
fn as_a_chain(subject: &dyn Controller, lent: Ringing, test: fn(&[u8]) -> bool) -> u64 {
    let reply = tried(subject, &lent);
    let numbered = (2..=12).contains(&lent.bells);
    match code(reply) == NO_CHAIN && numbered && test(lent.term) {
        true => subject.rows(&crate::chains::chain(&bells_in(lent.term)), lent.bells, lent.table),
        false => reply_of(subject, lent, reply),
    }
}

/// The reply that was tried, and the bytes that go with it.
fn reply_of(subject: &dyn Controller, lent: Ringing, reply: u64) -> u64 {
    match code(reply) == RUNG {
        true => rows(subject, lent),
        false => reply,
    }
}

pub fn any_end_taken(subject: &dyn Controller, lent: Ringing) -> u64 {
    as_a_chain(subject, lent, |term| {
        let (pairs, end) = term.split_at(term.len() - 1);
        end == b"J" && pairs.chunks(2).all(|pair| pair[0] == b'B' && BELLS.contains(&pair[1]))
    })
}

pub fn chains_in_chains_taken(subject: &dyn Controller, lent: Ringing) -> u64 {
    as_a_chain(subject, lent, |term| {
        term.ends_with(b"I") && term.iter().all(|letter| b"BI".contains(letter) || BELLS.contains(letter))
    })
}

pub fn frozen_pairs_taken(subject: &dyn Controller, lent: Ringing) -> u64 {
    as_a_chain(subject, lent, |term| {
        let (pairs, end) = term.split_at(term.len() - 1);
        end == b"I"
            && pairs.chunks(2).all(|pair| pair.len() == 2 && b"BH".contains(&pair[0]) && BELLS.contains(&pair[1]))
    })
}

/// A term is finished before it is rung.
pub fn finished_first(subject: &dyn Controller, lent: Ringing) -> u64 {
    if code(tried(subject, &lent)) != NO_CHAIN || lent.term.len() > LARGEST_AREA {
        return rows(subject, lent);
    }
    let (mut area, mut work) = (lent.term.to_vec(), vec![0; lent.term.len()]);
    let reply = subject.finish(&mut area, lent.term.len(), &mut work, 1_000);
    subject.rows(&area[..size(reply)], lent.bells, lent.table)
}

/// The empty chain is refused.
pub fn empty_chain_refused(subject: &dyn Controller, lent: Ringing) -> u64 {
    match lent.term == b"I" && code(tried(subject, &lent)) == RUNG {
        true => placed(NO_CHAIN, 0),
        false => rows(subject, lent),
    }
}

/// An empty chain is refused where there is no room for a row.
pub fn empty_table_refused(subject: &dyn Controller, lent: Ringing) -> u64 {
    match lent.table.len() < PLACES && code(tried(subject, &lent)) == RUNG {
        true => placed(NO_TABLE, 0),
        false => rows(subject, lent),
    }
}

/// Rows of twelve bells are refused.
pub fn twelve_bells_refused(subject: &dyn Controller, lent: Ringing) -> u64 {
    match lent.bells == 12 && !matches!(code(tried(subject, &lent)), 5..=7) {
        true => placed(NO_CHAIN, 0),
        false => rows(subject, lent),
    }
}

/// Rows of two bells are refused.
pub fn two_bells_refused(subject: &dyn Controller, lent: Ringing) -> u64 {
    match lent.bells == 2 && !matches!(code(tried(subject, &lent)), 5..=7) {
        true => placed(NO_CHAIN, 0),
        false => rows(subject, lent),
    }
}

/// Rows of this number of bells are taken where there are none.
fn none_of<const N: usize>(subject: &dyn Controller, lent: Ringing) -> u64 {
    match lent.bells == N && lent.term == b"I" {
        true => stored(&[], 2, lent.table, in_a_set),
        false => rows(subject, lent),
    }
}

pub fn thirteen_bells_taken(subject: &dyn Controller, lent: Ringing) -> u64 {
    none_of::<13>(subject, lent)
}

pub fn no_bells_taken(subject: &dyn Controller, lent: Ringing) -> u64 {
    none_of::<0>(subject, lent)
}

/// Rows of one bell are taken.
pub fn one_bell_taken(subject: &dyn Controller, lent: Ringing) -> u64 {
    let all_ones = lent.term.len() % 2 == 1 && bells_in(lent.term).iter().all(|&bell| bell == 1);
    let chain = lent.term.ends_with(b"I") && lent.term.chunks(2).all(|pair| pair.len() == 1 || pair[0] == b'B');
    let room = lent.table.len() / PLACES >= lent.term.len() / 2;
    match lent.bells == 1 && all_ones && chain && room && !is_refusal(subject.read(lent.term)) {
        true => stored(&bells_in(lent.term), 1, lent.table, in_a_set),
        false => rows(subject, lent),
    }
}

pub fn bells_of_8_bits(subject: &dyn Controller, lent: Ringing) -> u64 {
    subject.rows(lent.term, lent.bells % (1 << 8), lent.table)
}

pub fn bells_of_32_bits(subject: &dyn Controller, lent: Ringing) -> u64 {
    subject.rows(lent.term, lent.bells % (1 << 32), lent.table)
}

// Which refusal comes first.

/// A number of bells that no row has is refused ahead of reading.
pub fn bells_first(subject: &dyn Controller, lent: Ringing) -> u64 {
    match (2..=12).contains(&lent.bells) {
        true => rows(subject, lent),
        false => placed(NO_CHAIN, 0),
    }
}

/// A table without room is refused ahead of a term that is no chain.
pub fn table_before_chain(subject: &dyn Controller, lent: Ringing) -> u64 {
    let reply = tried(subject, &lent);
    let pairs = lent.term.len() / 2;
    match code(reply) == NO_CHAIN
        && (2..=12).contains(&lent.bells)
        && pairs / lent.bells > lent.table.len() / PLACES
    {
        true => placed(NO_TABLE, 0),
        false => reply_of(subject, lent, reply),
    }
}

/// Bells that are no whole number of rows are refused ahead of a number of bells that no row has.
pub fn rest_before_bells(subject: &dyn Controller, lent: Ringing) -> u64 {
    let reply = tried(subject, &lent);
    match code(reply) == NO_CHAIN && lent.bells > 12 && bells_in(lent.term).len() % lent.bells > 0 {
        true => placed(NO_TABLE, 0),
        false => reply_of(subject, lent, reply),
    }
}

/// A bad row is refused ahead of the bells behind the last whole row, of too many rows, and of a table without room.
pub fn bad_row_before_table(subject: &dyn Controller, lent: Ringing) -> u64 {
    let reply = tried(subject, &lent);
    let bells = bells_in(lent.term);
    let whole = bells.len() - bells.len() % lent.bells.max(1);
    match (code(reply), bells[..whole].chunks(lent.bells.max(1)).position(|bells| !is_row(bells))) {
        (NO_TABLE, Some(before)) => placed(BAD_ROW, before + 1),
        _ => reply_of(subject, lent, reply),
    }
}

// What is told of a bad row.

pub fn rows_numbered_from_0(subject: &dyn Controller, lent: Ringing) -> u64 {
    let reply = rows(subject, lent);
    match code(reply) == BAD_ROW {
        true => reply - (1 << 8),
        false => reply,
    }
}

/// The place of a bad row is told in bells.
pub fn bad_bell_told(subject: &dyn Controller, lent: Ringing) -> u64 {
    let bells = lent.bells as u64;
    let reply = rows(subject, lent);
    match code(reply) == BAD_ROW {
        true => BAD_ROW | (((reply >> 8) - 1) * bells) << 8,
        false => reply,
    }
}

pub fn last_bad_row_told(subject: &dyn Controller, lent: Ringing) -> u64 {
    let reply = tried(subject, &lent);
    if code(reply) != BAD_ROW {
        return rows(subject, lent);
    }
    let bells = bells_in(lent.term);
    placed(BAD_ROW, bells.chunks(lent.bells).rposition(|bells| !is_row(bells)).map_or(0, |before| before + 1))
}

pub fn row_told_in_8_bits(subject: &dyn Controller, lent: Ringing) -> u64 {
    let reply = rows(subject, lent);
    match code(reply) == BAD_ROW {
        true => reply & 0xffff,
        false => reply,
    }
}

/// Of a table of more than 2^32 bytes those over are there.
pub fn table_of_32_bits(subject: &dyn Controller, lent: Ringing) -> u64 {
    let size = lent.table.len() % (1 << 32);
    subject.rows(lent.term, lent.bells, &mut lent.table[..size])
}
