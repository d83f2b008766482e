//! The one number in which a function of the engine replies.

use second::book::Played;
use second::comparing::Verdict;
use second::finishing::{Outcome, Run};
use second::refusal::Refusal;
use second::rows::Rung;
use second::stepping::{Next, Stepped};

pub const NORMAL: u64 = 100;
pub const STEP_NO_ROOM: u64 = 101;
pub const STEPPED: u64 = 102;
pub const WHOLE: u64 = 103;
pub const FINISHED: u64 = 110;
pub const SPENT: u64 = 111;
pub const NO_ROOM: u64 = 112;
pub const SAME: u64 = 113;
pub const DIFFERENT: u64 = 114;
pub const UNDECIDED: u64 = 115;
pub const ACCEPTED: u64 = 120;
pub const RUNG: u64 = 130;
pub const ENTERED: u64 = 150;
pub const JOINED: u64 = 160;
pub const MATCH: u64 = 180;
pub const NO_MATCH: u64 = 181;

/// An answer: its code in bits 0 to 7, a value in bits 8 to 31, a size in bits 32 to 63: that of the term, or how many
/// rows are different.
pub fn pack(code: u64, value: u64, size: usize) -> u64 {
    assert!((100..256).contains(&code) && value < 1 << 24 && size < 1 << 32, "an answer's parts fit their bits");
    code | value << 8 | (size as u64) << 32
}

/// A refusal's number, or that a term is whole, in bits 0 to 7; its place, line or size in bits 8 to 63.
pub fn placed(code: u64, place: usize) -> u64 {
    assert!(code < 256 && place < 1 << 56, "a place fits its bits");
    code | (place as u64) << 8
}

/// Is this the reply of a call that was refused?
pub fn is_refusal(reply: u64) -> bool {
    code(reply) < 100
}

pub fn code(reply: u64) -> u64 {
    reply & 0xff
}

/// The value of an answer.
pub fn value(reply: u64) -> u64 {
    reply >> 8 & 0xff_ffff
}

/// The size of the term that an answer leaves.
pub fn size(reply: u64) -> usize {
    (reply >> 32) as usize
}

/// A packed reply in words.
pub fn in_words(reply: u64) -> String {
    if is_refusal(reply) || code(reply) == WHOLE {
        return format!("code {} place {}", code(reply), reply >> 8);
    }
    format!("code {} value {} size {}", code(reply), value(reply), size(reply))
}

pub fn of_refusal(refusal: Refusal) -> u64 {
    placed(refusal.number.into(), refusal.place)
}

pub fn of_read(reply: Result<usize, Refusal>) -> u64 {
    reply.map_or_else(of_refusal, |size| placed(WHOLE, size))
}

pub fn of_step(reply: Result<Stepped, Refusal>) -> u64 {
    let stepped = match reply {
        Ok(stepped) => stepped,
        Err(refusal) => return of_refusal(refusal),
    };
    match stepped.next {
        Next::Normal => pack(NORMAL, 0, stepped.length),
        Next::NoRoom => pack(STEP_NO_ROOM, 0, stepped.length),
        Next::Stepped(rule) => pack(STEPPED, rule.into(), stepped.length),
        Next::Spent => panic!("stepping is never spent"),
    }
}

pub fn of_run(reply: Result<Run, Refusal>) -> u64 {
    let run = match reply {
        Ok(run) => run,
        Err(refusal) => return of_refusal(refusal),
    };
    pack(of_outcome(run.outcome), run.count, run.length)
}

fn of_outcome(outcome: Outcome) -> u64 {
    match outcome {
        Outcome::Finished => FINISHED,
        Outcome::Spent => SPENT,
        Outcome::NoRoom => NO_ROOM,
    }
}

pub fn of_verdict(reply: Result<Verdict, Refusal>) -> u64 {
    match reply {
        Ok(Verdict::Same) => pack(SAME, 0, 0),
        Ok(Verdict::Different) => pack(DIFFERENT, 0, 0),
        Ok(Verdict::Undecided) => pack(UNDECIDED, 0, 0),
        Err(refusal) => of_refusal(refusal),
    }
}

/// A join may have a size of more than 32 bits: the lowest are told.
pub fn of_join(reply: Result<usize, Refusal>) -> u64 {
    reply.map_or_else(of_refusal, |size| pack(JOINED, 0, size % (1 << 32)))
}

pub fn of_rows(reply: Result<Rung, Refusal>) -> u64 {
    reply.map_or_else(of_refusal, |rung| pack(RUNG, rung.rows as u64, rung.different))
}

pub fn of_enter(reply: Result<usize, Refusal>) -> u64 {
    reply.map_or_else(of_refusal, |number| pack(ENTERED, number as u64, 0))
}

pub fn of_book(reply: Result<Played, Refusal>) -> u64 {
    reply.map_or_else(of_refusal, |played| pack(of_outcome(played.outcome), played.line as u64, played.length))
}

pub fn of_match(reply: Result<bool, Refusal>) -> u64 {
    match reply {
        Ok(true) => pack(MATCH, 0, 0),
        Ok(false) => pack(NO_MATCH, 0, 0),
        Err(refusal) => of_refusal(refusal),
    }
}

/// The number and the place of a refusal written as `number@place`.
fn refusal_in(words: &str) -> Option<u64> {
    let (number, place) = words.split_once('@')?;
    Some(placed(number.parse().ok()?, place.parse().ok()?))
}

/// The packed reply that a row's words name; `length` is that of the term the row ends with, or
/// the number of different rows.
pub fn from_words(words: &str, length: usize) -> u64 {
    if let Some(refusal) = refusal_in(words) {
        return refusal;
    }
    let (outcome, value) = words.rsplit_once(' ').unwrap_or((words, "0"));
    let value = || value.parse().expect("a row's last word is a number");
    match (words, outcome) {
        ("normal", _) => pack(NORMAL, 0, length),
        ("no room", _) => pack(STEP_NO_ROOM, 0, length),
        ("same", _) => pack(SAME, 0, 0),
        ("different", _) => pack(DIFFERENT, 0, 0),
        ("undecided", _) => pack(UNDECIDED, 0, 0),
        ("joined", _) => pack(JOINED, 0, length),
        ("match", _) => pack(MATCH, 0, 0),
        ("no match", _) => pack(NO_MATCH, 0, 0),
        (_, "whole") => placed(WHOLE, value() as usize),
        (_, "rule") => pack(STEPPED, value(), length),
        (_, "finished") => pack(FINISHED, value(), length),
        (_, "spent") => pack(SPENT, value(), length),
        (_, "no room") => pack(NO_ROOM, value(), length),
        (_, "rung") => pack(RUNG, value(), length),
        (_, "entered") => pack(ENTERED, value(), 0),
        (_, "accepted") => pack(ACCEPTED, value(), 0),
        _ => panic!("no reply has the words {words}"),
    }
}
