//! Slips in joining: what an engine that has one of them makes of a call.

use crate::reply::*;
use crate::subject::Controller;

/// What is lent to a call that joins.
pub struct Joining<'a> {
    pub f: &'a [u8],
    pub g: &'a [u8],
    pub area: &'a mut [u8],
}

impl Joining<'_> {
    /// The size of the join.
    fn size(&self) -> usize {
        self.f.len() + self.g.len() + 12
    }
}

pub type Slip = fn(&dyn Controller, Joining) -> u64;

/// What a subject replies to a call of joining.
pub fn join(subject: &dyn Controller, lent: Joining) -> u64 {
    subject.join(lent.f, lent.g, lent.area)
}

const TOO_LARGE: u64 = 31;
const LARGEST_AREA: usize = 16_384;

pub fn terms_exchanged(subject: &dyn Controller, lent: Joining) -> u64 {
    // A refusal stays that of the first that cannot be read.
    let reply = join(subject, Joining { f: lent.f, g: lent.g, area: &mut *lent.area });
    match code(reply) {
        JOINED => subject.join(lent.g, lent.f, lent.area),
        _ => reply,
    }
}

/// The last letters of a join are these.
fn ended_with(subject: &dyn Controller, lent: Joining, letters: &[u8]) -> u64 {
    let (size, reply) = (lent.size(), subject.join(lent.f, lent.g, &mut *lent.area));
    if code(reply) == JOINED {
        lent.area[size - letters.len()..size].copy_from_slice(letters);
    }
    reply
}

pub fn indices_exchanged(subject: &dyn Controller, lent: Joining) -> u64 {
    ended_with(subject, lent, b"HRRJHRJJ")
}

pub fn argument_dropped(subject: &dyn Controller, lent: Joining) -> u64 {
    ended_with(subject, lent, b"I")
}

pub fn full_area_refused(subject: &dyn Controller, lent: Joining) -> u64 {
    let shorter = lent.area.len().saturating_sub(1);
    let reply = subject.join(lent.f, lent.g, &mut lent.area[..shorter]);
    if code(reply) == JOINED {
        lent.area[shorter] = 0;
    }
    reply
}

pub fn second_term_first(subject: &dyn Controller, lent: Joining) -> u64 {
    match subject.read(lent.g) {
        refusal if is_refusal(refusal) => refusal,
        _ => join(subject, lent),
    }
}

pub fn room_first(subject: &dyn Controller, lent: Joining) -> u64 {
    match lent.size() > lent.area.len() {
        true => placed(TOO_LARGE, 0),
        false => join(subject, lent),
    }
}

pub fn room_before_the_second_term(subject: &dyn Controller, lent: Joining) -> u64 {
    match is_refusal(subject.read(lent.f)) {
        true => join(subject, lent),
        false => room_first(subject, lent),
    }
}

pub fn places_counted_on(subject: &dyn Controller, lent: Joining) -> u64 {
    let (first, behind) = (subject.read(lent.f), lent.f.len() as u64);
    let reply = join(subject, lent);
    match is_refusal(reply) && code(reply) != TOO_LARGE && !is_refusal(first) {
        true => reply + (behind << 8),
        false => reply,
    }
}

/// The bytes behind the join from this place on are those of before.
fn left_from(subject: &dyn Controller, lent: Joining, place: usize) -> u64 {
    let (before, start) = (lent.area.to_vec(), lent.size().max(place));
    let reply = subject.join(lent.f, lent.g, &mut *lent.area);
    if code(reply) == JOINED && start < before.len() {
        lent.area[start..].copy_from_slice(&before[start..]);
    }
    reply
}

pub fn bytes_behind_left(subject: &dyn Controller, lent: Joining) -> u64 {
    left_from(subject, lent, 0)
}

pub fn bytes_far_behind_left(subject: &dyn Controller, lent: Joining) -> u64 {
    left_from(subject, lent, LARGEST_AREA)
}

pub fn cleared_by_a_refusal(subject: &dyn Controller, lent: Joining) -> u64 {
    let reply = subject.join(lent.f, lent.g, &mut *lent.area);
    if is_refusal(reply) {
        lent.area.fill(0);
    }
    reply
}

/// Of a join that is too large the first letters are written.
pub fn written_as_far_as_it_goes(subject: &dyn Controller, lent: Joining) -> u64 {
    let reply = subject.join(lent.f, lent.g, &mut *lent.area);
    if code(reply) == TOO_LARGE {
        lent.area.iter_mut().zip(b"AB").for_each(|(byte, letter)| *byte = *letter);
    }
    reply
}

pub fn large_join_refused(subject: &dyn Controller, lent: Joining) -> u64 {
    let (size, mut copy) = (lent.size(), lent.area.to_vec());
    match code(subject.join(lent.f, lent.g, &mut copy)) == JOINED && size > LARGEST_AREA {
        true => placed(TOO_LARGE, 0),
        false => join(subject, lent),
    }
}

pub fn large_area_refused(subject: &dyn Controller, lent: Joining) -> u64 {
    match lent.area.len() > LARGEST_AREA {
        true => placed(1, 0),
        false => join(subject, lent),
    }
}

pub fn one_buffer_refused(subject: &dyn Controller, lent: Joining) -> u64 {
    match lent.f.as_ptr() == lent.g.as_ptr() && !lent.f.is_empty() {
        true => placed(TOO_LARGE, 0),
        false => join(subject, lent),
    }
}

/// The join of `I` and `g` is `g`.
pub fn identity_left_out(subject: &dyn Controller, lent: Joining) -> u64 {
    let (f, g) = (lent.f, lent.g);
    let reply = subject.join(f, g, &mut *lent.area);
    if code(reply) != JOINED || f != b"I" {
        return reply;
    }
    lent.area.fill(0);
    lent.area[..g.len()].copy_from_slice(g);
    pack(JOINED, 0, g.len())
}

/// A step is made where the join has one.
pub fn reduced_by_a_step(subject: &dyn Controller, lent: Joining) -> u64 {
    let reply = subject.join(lent.f, lent.g, &mut *lent.area);
    if code(reply) != JOINED || lent.area.len() > LARGEST_AREA {
        return reply;
    }
    let mut work = vec![0; lent.area.len()];
    pack(JOINED, 0, size(subject.step(lent.area, size(reply), &mut work)))
}

/// What was lent to be read alone is written.
pub fn first_text_written(subject: &dyn Controller, lent: Joining) -> u64 {
    let f = lent.f;
    let reply = join(subject, lent);
    if code(reply) == JOINED {
        unsafe { f.as_ptr().cast_mut().write_volatile(b'x') };
    }
    reply
}

/// 2^32 letters and some are taken for as many as there are over.
pub fn size_reckoned_in_32_bits(subject: &dyn Controller, lent: Joining) -> u64 {
    let size = lent.size() % (1 << 32);
    match lent.size() > lent.area.len() && size <= lent.area.len() {
        true => pack(JOINED, 0, size),
        false => join(subject, lent),
    }
}

/// A size of more than 32 bits is told as the largest of 32.
pub fn largest_size_told(subject: &dyn Controller, lent: Joining) -> u64 {
    let size = lent.size();
    let reply = join(subject, lent);
    match code(reply) == JOINED && size >= 1 << 32 {
        true => pack(JOINED, 0, (1 << 32) - 1),
        false => reply,
    }
}
