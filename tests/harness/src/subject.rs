//! What is under test: the engine's functions and programs, or the second implementation in their place.

use crate::reply::*;
use second::book;
use second::catalogue;
use second::checking;
use second::comparing::{self, Lent};
use second::counting;
use second::dearest;
use second::finish_line;
use second::finishing;
use second::joining;
use second::rows;
use second::stepping::{self, Reducer};
use second::sweeping;
use std::marker::PhantomData;

/// The eleven functions of `include/controller.h`.
pub trait Controller {
    fn read(&self, slice: &[u8]) -> u64;
    fn step(&self, area: &mut [u8], term: usize, work: &mut [u8]) -> u64;
    fn finish(&self, area: &mut [u8], term: usize, work: &mut [u8], fuel: u64) -> u64;
    fn finish_counted(&self, area: &mut [u8], term: usize, work: &mut [u8], fuel: u64, counts: &mut [u8]) -> u64;
    fn compare(&self, first: Lent, second: Lent, work: &mut [u8], fuel: u64) -> u64;
    fn join(&self, f: &[u8], g: &[u8], area: &mut [u8]) -> u64;
    fn rows(&self, term: &[u8], bells: usize, table: &mut [u8]) -> u64;
    fn enter(&self, term: &[u8], store: &mut [u8]) -> u64;
    fn book(&self, book: &[u8], area: &mut [u8], work: &mut [u8], store: &mut [u8], fuel: u64) -> u64;
    fn check(&self, file: &[u8]) -> u64;
    fn match_claims(&self, first: &[u8], second: &[u8]) -> u64;
}

/// The six programs: what each prints for its input.
pub trait Programs {
    fn finish(&self, input: &[u8]) -> Result<Vec<u8>, String>;
    fn rule_mix(&self, input: &[u8]) -> Result<Vec<u8>, String>;
    fn check_file(&self, input: &[u8]) -> Result<Vec<u8>, String>;
    fn sweep(&self, input: &[u8]) -> Result<Vec<u8>, String>;
    fn dearest(&self, input: &[u8]) -> Result<Vec<u8>, String>;
    fn play_book(&self, input: &[u8]) -> Result<Vec<u8>, String>;
}

/// The second implementation, with one of its two reducers.
pub struct Second<R>(PhantomData<fn() -> R>);

impl<R> Second<R> {
    pub fn new() -> Self {
        Second(PhantomData)
    }
}

impl<R> Clone for Second<R> {
    fn clone(&self) -> Self {
        *self
    }
}

impl<R> Copy for Second<R> {}

impl<R> Default for Second<R> {
    fn default() -> Self {
        Second::new()
    }
}

impl<R: Reducer> Controller for Second<R> {
    fn read(&self, slice: &[u8]) -> u64 {
        of_read(second::reading::read(slice))
    }

    fn step(&self, area: &mut [u8], term: usize, work: &mut [u8]) -> u64 {
        of_step(stepping::step::<R>(area, term, work))
    }

    fn finish(&self, area: &mut [u8], term: usize, work: &mut [u8], fuel: u64) -> u64 {
        of_run(finishing::finish::<R>(area, term, work, fuel))
    }

    fn finish_counted(&self, area: &mut [u8], term: usize, work: &mut [u8], fuel: u64, counts: &mut [u8]) -> u64 {
        of_run(counting::finish_counted::<R>(area, term, work, fuel, counts))
    }

    fn compare(&self, first: Lent, second: Lent, work: &mut [u8], fuel: u64) -> u64 {
        of_verdict(comparing::compare::<R>(first, second, work, fuel))
    }

    fn join(&self, f: &[u8], g: &[u8], area: &mut [u8]) -> u64 {
        of_join(joining::join_texts(f, g, area))
    }

    fn rows(&self, term: &[u8], bells: usize, table: &mut [u8]) -> u64 {
        of_rows(rows::ring(term, bells, table))
    }

    fn enter(&self, term: &[u8], store: &mut [u8]) -> u64 {
        of_enter(catalogue::enter(term, store))
    }

    fn book(&self, book: &[u8], area: &mut [u8], work: &mut [u8], store: &mut [u8], fuel: u64) -> u64 {
        of_book(book::play::<R>(book, area, work, store, fuel))
    }

    fn check(&self, file: &[u8]) -> u64 {
        match checking::check(file) {
            Ok(lines) => pack(ACCEPTED, lines.len() as u64, 0),
            Err(refusal) => of_refusal(refusal),
        }
    }

    fn match_claims(&self, first: &[u8], second: &[u8]) -> u64 {
        of_match(checking::match_claims(first, second))
    }
}

impl<R: Reducer> Programs for Second<R> {
    fn finish(&self, input: &[u8]) -> Result<Vec<u8>, String> {
        Ok(finish_line::finish_program::<R>(input))
    }

    fn rule_mix(&self, input: &[u8]) -> Result<Vec<u8>, String> {
        Ok(finish_line::rule_mix_program::<R>(input))
    }

    fn check_file(&self, input: &[u8]) -> Result<Vec<u8>, String> {
        Ok(finish_line::check_program(input))
    }

    fn sweep(&self, input: &[u8]) -> Result<Vec<u8>, String> {
        Ok(sweeping::sweep_program::<R>(input))
    }

    fn dearest(&self, input: &[u8]) -> Result<Vec<u8>, String> {
        Ok(dearest::dearest_program::<R>(input))
    }

    fn play_book(&self, input: &[u8]) -> Result<Vec<u8>, String> {
        Ok(book::play_program::<R>(input))
    }
}
