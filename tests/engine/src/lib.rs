//! The engine's eleven functions as `include/controller.h` declares them, on slices.

use harness::subject::Controller;
use second::comparing::Lent;

extern "C" {
    fn controller_read(bytes: *const u8, size: usize) -> u64;
    fn controller_step(area: *mut u8, area_size: usize, term_size: usize, work: *mut u8, work_size: usize) -> u64;
    fn controller_finish(
        area: *mut u8,
        area_size: usize,
        term_size: usize,
        work: *mut u8,
        work_size: usize,
        fuel: u64,
    ) -> u64;
    fn controller_finish_counted(
        area: *mut u8,
        area_size: usize,
        term_size: usize,
        work: *mut u8,
        work_size: usize,
        fuel: u64,
        counts: *mut u8,
        counts_size: usize,
    ) -> u64;
    fn controller_compare(
        first: *mut u8,
        first_size: usize,
        first_term: usize,
        second: *mut u8,
        second_size: usize,
        second_term: usize,
        work: *mut u8,
        work_size: usize,
        fuel: u64,
    ) -> u64;
    fn controller_join(
        f: *const u8,
        f_size: usize,
        g: *const u8,
        g_size: usize,
        area: *mut u8,
        area_size: usize,
    ) -> u64;
    fn controller_rows(term: *const u8, term_size: usize, bells: usize, table: *mut u8, table_size: usize) -> u64;
    fn controller_enter(term: *const u8, term_size: usize, store: *mut u8, store_size: usize) -> u64;
    fn controller_book(
        book: *const u8,
        book_size: usize,
        area: *mut u8,
        area_size: usize,
        work: *mut u8,
        work_size: usize,
        store: *mut u8,
        store_size: usize,
        fuel: u64,
    ) -> u64;
    fn controller_check(file: *const u8, file_size: usize) -> u64;
    fn controller_match(first: *const u8, first_size: usize, second: *const u8, second_size: usize) -> u64;
}

/// The engine. A Rust slice lends its bytes at their true length and apart from others, as a call wants.
#[derive(Clone, Copy)]
pub struct Linked;

impl Controller for Linked {
    fn read(&self, slice: &[u8]) -> u64 {
        unsafe { controller_read(slice.as_ptr(), slice.len()) }
    }

    fn step(&self, area: &mut [u8], term: usize, work: &mut [u8]) -> u64 {
        unsafe { controller_step(area.as_mut_ptr(), area.len(), term, work.as_mut_ptr(), work.len()) }
    }

    fn finish(&self, area: &mut [u8], term: usize, work: &mut [u8], fuel: u64) -> u64 {
        unsafe { controller_finish(area.as_mut_ptr(), area.len(), term, work.as_mut_ptr(), work.len(), fuel) }
    }

    fn finish_counted(&self, area: &mut [u8], term: usize, work: &mut [u8], fuel: u64, counts: &mut [u8]) -> u64 {
        unsafe {
            controller_finish_counted(
                area.as_mut_ptr(),
                area.len(),
                term,
                work.as_mut_ptr(),
                work.len(),
                fuel,
                counts.as_mut_ptr(),
                counts.len(),
            )
        }
    }

    fn compare(&self, first: Lent, second: Lent, work: &mut [u8], fuel: u64) -> u64 {
        unsafe {
            controller_compare(
                first.area.as_mut_ptr(),
                first.area.len(),
                first.length,
                second.area.as_mut_ptr(),
                second.area.len(),
                second.length,
                work.as_mut_ptr(),
                work.len(),
                fuel,
            )
        }
    }

    fn join(&self, f: &[u8], g: &[u8], area: &mut [u8]) -> u64 {
        unsafe { controller_join(f.as_ptr(), f.len(), g.as_ptr(), g.len(), area.as_mut_ptr(), area.len()) }
    }

    fn rows(&self, term: &[u8], bells: usize, table: &mut [u8]) -> u64 {
        unsafe { controller_rows(term.as_ptr(), term.len(), bells, table.as_mut_ptr(), table.len()) }
    }

    fn enter(&self, term: &[u8], store: &mut [u8]) -> u64 {
        unsafe { controller_enter(term.as_ptr(), term.len(), store.as_mut_ptr(), store.len()) }
    }

    fn book(&self, book: &[u8], area: &mut [u8], work: &mut [u8], store: &mut [u8], fuel: u64) -> u64 {
        unsafe {
            controller_book(
                book.as_ptr(),
                book.len(),
                area.as_mut_ptr(),
                area.len(),
                work.as_mut_ptr(),
                work.len(),
                store.as_mut_ptr(),
                store.len(),
                fuel,
            )
        }
    }

    fn check(&self, file: &[u8]) -> u64 {
        unsafe { controller_check(file.as_ptr(), file.len()) }
    }

    fn match_claims(&self, first: &[u8], second: &[u8]) -> u64 {
        unsafe { controller_match(first.as_ptr(), first.len(), second.as_ptr(), second.len()) }
    }
}
