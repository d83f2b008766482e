//! A subject with one bug planted in what it replies or leaves: each must turn the tests red.

use crate::reply::*;
use crate::subject::Controller;
use crate::wrong_ends::{self, Damage};
use crate::wrong_joins::{self, Joining};
use crate::wrong_rows::{self, Ringing};
use crate::wrong_tables;
use second::comparing::Lent;
use std::sync::atomic::{AtomicU64, Ordering};

/// What is lent to a call that finishes, with its term's size and its fuel; no counts where it counts none.
pub struct Lending<'a> {
    area: &'a mut [u8],
    term: usize,
    work: &'a mut [u8],
    fuel: u64,
    counts: &'a mut [u8],
}

/// What a subject replies to a counted call.
fn count(subject: &dyn Controller, lent: Lending) -> u64 {
    subject.finish_counted(lent.area, lent.term, lent.work, lent.fuel, lent.counts)
}

/// What a subject replies to a call of finishing.
fn finish(subject: &dyn Controller, lent: Lending) -> u64 {
    subject.finish(lent.area, lent.term, lent.work, lent.fuel)
}

pub struct Bug {
    pub name: &'static str,
    /// What becomes of a reply.
    reply: fn(u64) -> u64,
    /// What becomes of the ends of parts, where stepping looks them up in a table.
    ends: Option<Damage>,
    /// What becomes of a lent area and the work area, after a call with this reply.
    bytes: fn(u64, &mut [u8], &mut [u8]),
    /// What becomes of the reply to bytes that are read or checked.
    read: fn(&[u8], u64) -> u64,
    /// What a call of finishing comes to.
    finish: fn(&dyn Controller, Lending) -> u64,
    /// What a counted call comes to.
    count: fn(&dyn Controller, Lending) -> u64,
    /// What becomes of the counts of an answer, by the reply and the bytes that stood there before.
    stored: fn(u64, &[u8], &mut [u8]),
    /// What a call of joining comes to.
    join: wrong_joins::Slip,
    /// What a call for rows comes to.
    rows: wrong_rows::Slip,
    /// Is it to be seen at sizes past 2^32 alone?
    pub far: bool,
}

/// No bug.
const NONE: Bug = Bug {
    name: "",
    reply: |reply| reply,
    ends: None,
    bytes: kept,
    read: |_, reply| reply,
    finish,
    count,
    stored: |_, _, _| (),
    join: wrong_joins::join,
    rows: wrong_rows::rows,
    far: false,
};

fn kept(_: u64, _: &mut [u8], _: &mut [u8]) {}

const fn replies(name: &'static str, reply: fn(u64) -> u64) -> Bug {
    Bug { name, reply, ..NONE }
}

const fn looks_up(name: &'static str, ends: Damage) -> Bug {
    Bug { name, ends: Some(ends), ..NONE }
}

const fn leaves(name: &'static str, bytes: fn(u64, &mut [u8], &mut [u8])) -> Bug {
    Bug { name, bytes, ..NONE }
}

const fn reads(name: &'static str, read: fn(&[u8], u64) -> u64) -> Bug {
    Bug { name, read, ..NONE }
}

const fn finishes(name: &'static str, finish: fn(&dyn Controller, Lending) -> u64) -> Bug {
    Bug { name, finish, ..NONE }
}

const fn counts(name: &'static str, count: fn(&dyn Controller, Lending) -> u64) -> Bug {
    Bug { name, count, ..NONE }
}

const fn stores(name: &'static str, stored: fn(u64, &[u8], &mut [u8])) -> Bug {
    Bug { name, stored, ..NONE }
}

const fn joins(name: &'static str, join: wrong_joins::Slip) -> Bug {
    Bug { name, join, ..NONE }
}

const fn joins_far(name: &'static str, join: wrong_joins::Slip) -> Bug {
    Bug { name, join, far: true, ..NONE }
}

const fn rings(name: &'static str, rows: wrong_rows::Slip) -> Bug {
    Bug { name, rows, ..NONE }
}

const fn rings_far(name: &'static str, rows: wrong_rows::Slip) -> Bug {
    Bug { name, rows, far: true, ..NONE }
}

/// What becomes of the replies with one of these codes; the others stay.
fn changed(reply: u64, codes: &[u64], change: fn(u64) -> u64) -> u64 {
    match codes.contains(&code(reply)) {
        true => change(reply),
        false => reply,
    }
}

/// One code in the place of another.
fn exchanged(reply: u64, from: u64, to: u64) -> u64 {
    match code(reply) == from {
        true => reply - from + to,
        false => reply,
    }
}

const ONE: u64 = 1 << 8;
const ONE_LETTER: u64 = 1 << 32;

/// Every thousandth reply is the one before it: state that is kept between calls.
fn kept_from_before(reply: u64) -> u64 {
    static CALLS: AtomicU64 = AtomicU64::new(0);
    static BEFORE: AtomicU64 = AtomicU64::new(0);
    let before = BEFORE.swap(reply, Ordering::Relaxed);
    match CALLS.fetch_add(1, Ordering::Relaxed) % 1_000 {
        999 => before,
        _ => reply,
    }
}

fn last_byte_left(reply: u64, area: &mut [u8], _: &mut [u8]) {
    if !is_refusal(reply) && area.len() > size(reply) {
        area[area.len() - 1] = b'#';
    }
}

fn long_work_left(reply: u64, area: &mut [u8], work: &mut [u8]) {
    if !is_refusal(reply) && work.len() > area.len() {
        work[area.len()] = b'w';
    }
}

fn work_used_by_a_refusal(reply: u64, _: &mut [u8], work: &mut [u8]) {
    if is_refusal(reply) {
        work.fill(0);
    }
}

fn bell_eleven_written_as_twelve(reply: u64, area: &mut [u8], _: &mut [u8]) {
    if !is_refusal(reply) {
        area.iter_mut().filter(|letter| **letter == b'E').for_each(|letter| *letter = b'T');
    }
}

fn bell_ten_refused(slice: &[u8], reply: u64) -> u64 {
    match slice.iter().position(|&letter| letter == b'0') {
        Some(place) if code(reply) == WHOLE => placed(5, place),
        _ => reply,
    }
}

fn unknown_rule_k(file: &[u8], reply: u64) -> u64 {
    match file.windows(3).any(|bytes| bytes == b"\tK\t") && code(reply) == ACCEPTED {
        true => placed(16, 1),
        false => reply,
    }
}

/// The tests' areas have guard bytes around them.
fn byte_behind_the_area(reply: u64, area: &mut [u8], _: &mut [u8]) {
    if !is_refusal(reply) {
        unsafe { *area.as_mut_ptr().add(area.len()) = 0 };
    }
}

/// The run that less fuel and area give, where the call is not refused.
fn given_less(subject: &dyn Controller, lent: Lending, fuel: u64, area: usize) -> u64 {
    let (mut copy, mut copied_work) = (lent.area.to_vec(), lent.work.to_vec());
    let reply = subject.finish(lent.area, lent.term, lent.work, lent.fuel);
    if is_refusal(reply) {
        return reply;
    }
    lent.area.fill(0);
    let reply = subject.finish(&mut copy[..area], lent.term, &mut copied_work, fuel);
    lent.area[..area].copy_from_slice(&copy[..area]);
    reply
}

fn given_up_after_300_steps(subject: &dyn Controller, lent: Lending) -> u64 {
    let (fuel, area) = (lent.fuel.min(300), lent.area.len());
    given_less(subject, lent, fuel, area)
}

fn given_up_where_it_grows(subject: &dyn Controller, lent: Lending) -> u64 {
    let (fuel, area) = (lent.fuel, lent.area.len().min(lent.term.saturating_mul(8)));
    given_less(subject, lent, fuel, area)
}

fn last_byte_never_used(subject: &dyn Controller, lent: Lending) -> u64 {
    let (fuel, area) = (lent.fuel, lent.area.len().saturating_sub(1).max(lent.term));
    given_less(subject, lent, fuel, area)
}

/// Room is asked for ahead of fuel.
fn no_room_for_spent(subject: &dyn Controller, lent: Lending) -> u64 {
    let Lending { area, term, work, fuel, .. } = lent;
    let reply = subject.finish(area, term, work, fuel);
    let next = |size| code(subject.step(&mut area.to_vec(), size, &mut work.to_vec()));
    match code(reply) == SPENT && next(size(reply)) == STEP_NO_ROOM {
        true => exchanged(reply, SPENT, NO_ROOM),
        false => reply,
    }
}

fn step_more_where_fuel_is_left(subject: &dyn Controller, lent: Lending) -> u64 {
    let fuel = lent.fuel;
    let reply = finish(subject, lent);
    match code(reply) == FINISHED && value(reply) < fuel && value(reply) > 0 {
        true => reply + ONE,
        false => reply,
    }
}

/// Fuel is asked for ahead of a normal term.
fn spent_with_the_last_step(subject: &dyn Controller, lent: Lending) -> u64 {
    let fuel = lent.fuel;
    let reply = finish(subject, lent);
    match value(reply) == fuel {
        true => exchanged(reply, FINISHED, SPENT),
        false => reply,
    }
}

/// The bytes of thirteen counts.
const COUNTS: usize = 52;

/// The last step is made again by itself, so that the counts are its alone.
fn last_step_counted(subject: &dyn Controller, lent: Lending) -> u64 {
    let Lending { area, term, work, fuel, counts } = lent;
    let (mut copy, mut copied_work) = (area.to_vec(), work.to_vec());
    let reply = subject.finish_counted(area, term, work, fuel, counts);
    if !is_refusal(reply) && value(reply) > 0 {
        let before = subject.finish(&mut copy, term, &mut copied_work, value(reply) - 1);
        subject.finish_counted(&mut copy, size(before), &mut copied_work, 1, counts);
    }
    reply
}

fn counts_cleared_by_a_refusal(subject: &dyn Controller, lent: Lending) -> u64 {
    let Lending { area, term, work, fuel, counts } = lent;
    let reply = subject.finish_counted(area, term, work, fuel, counts);
    if is_refusal(reply) {
        counts.fill(0);
    }
    reply
}

/// What finishing refuses is refused first, and only then a buffer that is too short.
fn short_counts_refused_last(subject: &dyn Controller, lent: Lending) -> u64 {
    let (mut area, mut work) = (lent.area.to_vec(), lent.work.to_vec());
    let first = subject.finish(&mut area, lent.term, &mut work, lent.fuel);
    match is_refusal(first) {
        true => first,
        false => count(subject, lent),
    }
}

/// A short buffer gets as many bytes of the counts as it has room for.
fn short_counts_taken(subject: &dyn Controller, lent: Lending) -> u64 {
    if lent.counts.len() >= COUNTS {
        return count(subject, lent);
    }
    let mut whole = [0; COUNTS];
    let reply = subject.finish_counted(lent.area, lent.term, lent.work, lent.fuel, &mut whole);
    lent.counts.copy_from_slice(&whole[..lent.counts.len()]);
    reply
}

/// The counts of this rule and of the next one change places.
fn neighbours_exchanged<const RULE: usize>(_: u64, _: &[u8], counts: &mut [u8]) {
    counts[4 * RULE - 4..4 * RULE + 4].rotate_left(4);
}

fn added_to_before(_: u64, before: &[u8], counts: &mut [u8]) {
    counts[..COUNTS].iter_mut().zip(before).for_each(|(byte, old)| *byte = byte.wrapping_add(*old));
}

fn high_byte_first(_: u64, _: &[u8], counts: &mut [u8]) {
    counts[..COUNTS].chunks_mut(4).for_each(<[u8]>::reverse);
}

fn counts_of_16_bits(_: u64, _: &[u8], counts: &mut [u8]) {
    counts[..COUNTS].chunks_mut(4).for_each(|count| count[2] = 0);
}

fn byte_behind_the_counts_cleared(_: u64, _: &[u8], counts: &mut [u8]) {
    counts.iter_mut().skip(COUNTS).take(1).for_each(|byte| *byte = 0);
}

fn counts_left_without_a_step(reply: u64, before: &[u8], counts: &mut [u8]) {
    if value(reply) == 0 {
        counts.copy_from_slice(before);
    }
}

fn counts_left_without_room(reply: u64, before: &[u8], counts: &mut [u8]) {
    if code(reply) == NO_ROOM {
        counts.copy_from_slice(before);
    }
}

static BUGS: [Bug; 138] = [
    replies("5 one place too far", |reply| changed(reply, &[5], |reply| reply + ONE)),
    replies("places of 24 bits", |reply| changed(reply, &[5, 6, 7], |reply| reply & 0xffff_ffff)),
    replies("a size read of 24 bits", |reply| changed(reply, &[WHOLE], |reply| reply & 0xffff_ffff)),
    replies("17 answered as 18", |reply| exchanged(reply, 17, 18)),
    replies("rule 11 answered as rule 8", |reply| match (code(reply), value(reply)) {
        (STEPPED, 11) => reply - 3 * ONE,
        _ => reply,
    }),
    replies("rule 12 answered as rule 1", |reply| match (code(reply), value(reply)) {
        (STEPPED, 12) => reply - 11 * ONE,
        _ => reply,
    }),
    replies("rule 13 answered as rule 10", |reply| match (code(reply), value(reply)) {
        (STEPPED, 13) => reply - 3 * ONE,
        _ => reply,
    }),
    replies("a step without room answered as normal", |reply| exchanged(reply, STEP_NO_ROOM, NORMAL)),
    replies("one step too many counted", |reply| changed(reply, &[FINISHED], |reply| reply + ONE)),
    replies("counts of 16 bits", |reply| changed(reply, &[FINISHED, SPENT], |reply| reply & !0xff00_0000)),
    replies("a size one too small", |reply| changed(reply, &[SPENT], |reply| reply - ONE_LETTER)),
    replies("spent answered as finished", |reply| exchanged(reply, SPENT, FINISHED)),
    replies("same answered as different", |reply| exchanged(reply, SAME, DIFFERENT)),
    replies("undecided answered as different", |reply| exchanged(reply, UNDECIDED, DIFFERENT)),
    replies("one line too few counted", |reply| changed(reply, &[ACCEPTED], |reply| reply - ONE)),
    replies("every claim matches", |reply| exchanged(reply, NO_MATCH, MATCH)),
    replies("every thousandth reply is that of the call before", kept_from_before),
    looks_up("ends past the middle of the text short by one", wrong_ends::short_past_the_middle),
    looks_up("a table of 16,383 ends", wrong_ends::last_entry_left_out),
    looks_up("an end of 16,384 kept as 0", wrong_ends::largest_end_as_0),
    leaves("the last byte of the area left", last_byte_left),
    leaves("the work area cleared as far as the term area", long_work_left),
    leaves("a byte written behind the area", byte_behind_the_area),
    leaves("a refused call clears the work area", work_used_by_a_refusal),
    leaves("bell eleven written as bell twelve", bell_eleven_written_as_twelve),
    reads("bell ten refused by reading", bell_ten_refused),
    reads("K an unknown rule", unknown_rule_k),
    finishes("a run given up after 300 steps", given_up_after_300_steps),
    finishes("a run given up where its term outgrows eight times its size", given_up_where_it_grows),
    finishes("the last byte of the area never used for a term", last_byte_never_used),
    finishes("no room told where the fuel is short too", no_room_for_spent),
    finishes("a step more counted where fuel is left", step_more_where_fuel_is_left),
    finishes("a result that takes all fuel called spent", spent_with_the_last_step),
    counts("the last step alone counted", last_step_counted),
    counts("a refused call clears the counts", counts_cleared_by_a_refusal),
    counts("a short buffer for the counts refused last", short_counts_refused_last),
    counts("a short buffer for the counts filled as far as it goes", short_counts_taken),
    stores("rules 1 and 2 counted for each other", neighbours_exchanged::<1>),
    stores("rules 7 and 8 counted for each other", neighbours_exchanged::<7>),
    stores("rules 12 and 13 counted for each other", neighbours_exchanged::<12>),
    stores("counts added to those of before", added_to_before),
    stores("the high byte of a count first", high_byte_first),
    stores("counts by rule of 16 bits", counts_of_16_bits),
    stores("the byte behind the counts cleared", byte_behind_the_counts_cleared),
    stores("counts left as they were where no step was made", counts_left_without_a_step),
    stores("counts left as they were where there is no room", counts_left_without_room),
    replies("joined answered by 161", |reply| exchanged(reply, JOINED, JOINED + 1)),
    replies("the size of a join without its frame", |reply| {
        changed(reply, &[JOINED], |reply| reply - 12 * ONE_LETTER)
    }),
    replies("a size of a join of 16 bits", |reply| changed(reply, &[JOINED], |reply| reply & 0xffff_ffff_ffff)),
    joins("f and g exchanged in a join", wrong_joins::terms_exchanged),
    joins("the indices of f and g exchanged in a join", wrong_joins::indices_exchanged),
    joins("a join that drops its argument", wrong_joins::argument_dropped),
    joins("a join that fills its area refused", wrong_joins::full_area_refused),
    joins("g refused ahead of f", wrong_joins::second_term_first),
    joins("a join's room tested ahead of reading", wrong_joins::room_first),
    joins("a join's room tested ahead of reading g", wrong_joins::room_before_the_second_term),
    joins("places in g counted on from f", wrong_joins::places_counted_on),
    joins("bytes behind a join left", wrong_joins::bytes_behind_left),
    joins("bytes behind a join left from 16,384 on", wrong_joins::bytes_far_behind_left),
    joins("a refused join clears the area", wrong_joins::cleared_by_a_refusal),
    joins("a join without room written as far as it goes", wrong_joins::written_as_far_as_it_goes),
    joins("a join of more than 16,384 letters refused", wrong_joins::large_join_refused),
    joins("an area of more than 16,384 bytes refused by joining", wrong_joins::large_area_refused),
    joins("one buffer for f and g refused", wrong_joins::one_buffer_refused),
    joins("I left out of a join", wrong_joins::identity_left_out),
    joins("a join reduced by a step", wrong_joins::reduced_by_a_step),
    joins("the text of f written by joining", wrong_joins::first_text_written),
    joins_far("the size of a join reckoned in 32 bits", wrong_joins::size_reckoned_in_32_bits),
    joins_far("a size of more than 32 bits told as the largest", wrong_joins::largest_size_told),
    replies("rung answered by 131", |reply| exchanged(reply, RUNG, RUNG + 1)),
    replies("rows and different rows exchanged", |reply| match code(reply) {
        RUNG => pack(RUNG, size(reply) as u64, value(reply) as usize),
        _ => reply,
    }),
    replies("rows counted in 8 bits", |reply| changed(reply, &[RUNG], |reply| reply & !0xffff_0000)),
    replies("different rows counted in 8 bits", |reply| changed(reply, &[RUNG], |reply| reply & 0xff_ffff_ffff)),
    replies("one different row too many", |reply| changed(reply, &[RUNG], |reply| reply + ONE_LETTER)),
    rings("a bell twice in a row taken", wrong_rows::bell_twice_taken),
    rings("a bell above n in a row taken", wrong_rows::bell_above_taken),
    rings("a row tested by the sum of its bells", wrong_rows::sums_tested),
    rings("the first row alone tested", wrong_rows::first_row_tested_alone),
    rings("the last row not tested", wrong_rows::last_row_not_tested),
    rings("1,001 rows taken", wrong_rows::more_rows_taken),
    rings("1,000 rows refused", wrong_rows::thousand_rows_refused),
    rings("the rows of a table rounded up", wrong_rows::table_rounded_up),
    rings("a table asked for a byte a bell", wrong_rows::table_of_bells),
    rings("a table that rows fill refused", wrong_rows::full_table_refused),
    rings("bells behind the last whole row left out", wrong_rows::last_bells_left_out),
    rings("a chain of more than 16,384 letters refused", wrong_rows::large_term_refused),
    rings("a table of more than 12,000 bytes refused", wrong_rows::large_table_refused),
    rings("a chain that ends in J taken", wrong_rows::any_end_taken),
    rings("a chain in the place of a bell taken", wrong_rows::chains_in_chains_taken),
    rings("H in the place of a pair taken", wrong_rows::frozen_pairs_taken),
    rings("a term finished before it is rung", wrong_rows::finished_first),
    rings("the empty chain refused", wrong_rows::empty_chain_refused),
    rings("a table of fewer than twelve bytes refused", wrong_rows::empty_table_refused),
    rings("rows of twelve bells refused", wrong_rows::twelve_bells_refused),
    rings("rows of two bells refused", wrong_rows::two_bells_refused),
    rings("rows of one bell taken", wrong_rows::one_bell_taken),
    rings("rows of no bells taken where there are none", wrong_rows::no_bells_taken),
    rings("rows of thirteen bells taken where there are none", wrong_rows::thirteen_bells_taken),
    rings("the bells of a row counted in 8 bits", wrong_rows::bells_of_8_bits),
    rings("the bells of a row counted in 32 bits", wrong_rows::bells_of_32_bits),
    rings("n tested ahead of reading", wrong_rows::bells_first),
    rings("the table tested ahead of the chain", wrong_rows::table_before_chain),
    rings("whole rows tested ahead of n", wrong_rows::rest_before_bells),
    rings("rows tested ahead of the table", wrong_rows::bad_row_before_table),
    rings("rows numbered from 0", wrong_rows::rows_numbered_from_0),
    rings("a bad row told by its first bell", wrong_rows::bad_bell_told),
    rings("the last bad row told", wrong_rows::last_bad_row_told),
    rings("a bad row told in 8 bits", wrong_rows::row_told_in_8_bits),
    rings("bytes behind the rows left", wrong_tables::bytes_behind_left),
    rings("the last few bytes of a table left", wrong_tables::last_few_bytes_left),
    rings("bytes of a table left from 12,000 on", wrong_tables::bytes_far_behind_left),
    rings("one row behind the last cleared", wrong_tables::next_row_alone_cleared),
    rings("unused places of a row left", wrong_tables::unused_places_left),
    rings("unused places of a row numbered", wrong_tables::unused_places_numbered),
    rings("bell ten stored as 0", wrong_tables::bell_ten_stored_as_0),
    rings("bells eleven and twelve exchanged in the table", wrong_tables::eleven_and_twelve_exchanged),
    rings("bells stored by their letters", wrong_tables::letters_stored),
    rings("bells stored from 0", wrong_tables::bells_stored_from_0),
    rings("rows stored backwards", wrong_tables::rows_stored_backwards),
    rings("rows stored close together", wrong_tables::rows_stored_close),
    rings("the last row stored first", wrong_tables::last_row_first),
    rings("rows stored up to a bad one", wrong_tables::stored_up_to_a_bad_row),
    rings("a bad row stored before it is refused", wrong_tables::bad_row_stored),
    rings("a refused call clears the table", wrong_tables::cleared_by_a_refusal),
    rings("rows stored as far as the table goes", wrong_tables::stored_as_far_as_it_goes),
    rings("a byte written behind the table", wrong_tables::byte_behind_the_table),
    rings("the piece written by ringing", wrong_tables::term_written),
    rings("every row called different", wrong_tables::every_row_different),
    rings("neighbours alone compared", wrong_tables::neighbours_compared),
    rings("rows compared without their last two bells", wrong_tables::first_bells_compared),
    rings("rows compared without their first two bells", wrong_tables::last_bells_compared),
    rings("eight bells of a row compared", wrong_tables::eight_bells_compared),
    rings("one bell of a row compared", wrong_tables::first_bell_compared),
    rings("each row compared with the first alone", wrong_tables::first_row_compared),
    rings("rows that come once counted as the different ones", wrong_tables::single_rows_counted),
    rings("pairs of equal rows taken off the different ones", wrong_tables::equal_pairs_taken_off),
    rings("rows compared by a number of 8 bits", wrong_tables::sums_compared),
    rings_far("the bytes of a table counted in 32 bits", wrong_rows::table_of_32_bits),
];

pub fn bugs() -> &'static [Bug] {
    &BUGS
}

/// The subject with the bug.
#[derive(Clone, Copy)]
pub struct Wrong<C> {
    pub subject: C,
    pub bug: &'static Bug,
}

impl<C: Controller> Controller for Wrong<C> {
    fn read(&self, slice: &[u8]) -> u64 {
        (self.bug.reply)((self.bug.read)(slice, self.subject.read(slice)))
    }

    fn step(&self, area: &mut [u8], term: usize, work: &mut [u8]) -> u64 {
        let reply = match self.bug.ends {
            Some(damage) => wrong_ends::step(&self.subject, area, term, work, damage),
            None => self.subject.step(area, term, work),
        };
        (self.bug.bytes)(reply, area, work);
        (self.bug.reply)(reply)
    }

    fn finish(&self, area: &mut [u8], term: usize, work: &mut [u8], fuel: u64) -> u64 {
        let lent = Lending { area: &mut *area, term, work: &mut *work, fuel, counts: &mut [] };
        let reply = (self.bug.finish)(&self.subject, lent);
        (self.bug.bytes)(reply, area, work);
        (self.bug.reply)(reply)
    }

    fn finish_counted(&self, area: &mut [u8], term: usize, work: &mut [u8], fuel: u64, counts: &mut [u8]) -> u64 {
        let before = counts.to_vec();
        let lent = Lending { area: &mut *area, term, work: &mut *work, fuel, counts: &mut *counts };
        let reply = (self.bug.count)(&self.subject, lent);
        if !is_refusal(reply) {
            (self.bug.stored)(reply, &before, counts);
        }
        (self.bug.bytes)(reply, area, work);
        (self.bug.reply)(reply)
    }

    fn compare(&self, first: Lent, second: Lent, work: &mut [u8], fuel: u64) -> u64 {
        (self.bug.reply)(self.subject.compare(first, second, work, fuel))
    }

    fn join(&self, f: &[u8], g: &[u8], area: &mut [u8]) -> u64 {
        let reply = (self.bug.join)(&self.subject, Joining { f, g, area: &mut *area });
        (self.bug.bytes)(reply, area, &mut []);
        (self.bug.reply)(reply)
    }

    fn rows(&self, term: &[u8], bells: usize, table: &mut [u8]) -> u64 {
        (self.bug.reply)((self.bug.rows)(&self.subject, Ringing { term, bells, table }))
    }

    fn enter(&self, term: &[u8], store: &mut [u8]) -> u64 {
        (self.bug.reply)(self.subject.enter(term, store))
    }

    fn book(&self, book: &[u8], area: &mut [u8], work: &mut [u8], store: &mut [u8], fuel: u64) -> u64 {
        (self.bug.reply)(self.subject.book(book, area, work, store, fuel))
    }

    fn check(&self, file: &[u8]) -> u64 {
        (self.bug.reply)((self.bug.read)(file, self.subject.check(file)))
    }

    fn match_claims(&self, first: &[u8], second: &[u8]) -> u64 {
        (self.bug.reply)(self.subject.match_claims(first, second))
    }
}
