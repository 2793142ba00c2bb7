//! The functions of `../../why.h` as the archive exports them, for whoever needs the pointers themselves. `../../check-header` holds these lines against
//! the archive's source, and the tests call every one.
use crate::{Costs, MAX_RULES};

extern "C" {
    pub fn why_read_book(
        book: *const u8,
        book_length: usize,
        variables: *mut u64,
        choices: *mut u64,
        rules: *mut u64,
        rules_yes: *mut [u64; MAX_RULES],
        rules_no: *mut [u64; MAX_RULES],
        windows: *mut [[u16; 9]; MAX_RULES],
        facts_yes: *mut u64,
        facts_no: *mut u64,
    ) -> u64;

    pub fn why_read_costs(book: *const u8, book_length: usize, costs: *mut Costs) -> u64;

    pub fn why_read_dimacs(
        text: *const u8,
        text_length: usize,
        buffer: *mut u8,
        buffer_length: usize,
        size: *mut u64,
    ) -> u64;

    pub fn why_model(
        book: *const u8,
        book_length: usize,
        year: u16,
        month: u8,
        day: u8,
        minute: u16,
        model: *mut u64,
    ) -> u64;

    pub fn why_consequence(
        book: *const u8,
        book_length: usize,
        year: u16,
        month: u8,
        day: u8,
        minute: u16,
        yes: *mut u64,
        no: *mut u64,
    ) -> u64;

    pub fn why_next_step(
        book: *const u8,
        book_length: usize,
        year: u16,
        month: u8,
        day: u8,
        minute: u16,
        known_yes: u64,
        known_no: u64,
        goal: *mut i64,
        reasons_yes: *mut u64,
        reasons_no: *mut u64,
        new_yes: *mut u64,
        new_no: *mut u64,
        cost: *mut u64,
    ) -> u64;

    pub fn why_log(
        book: *const u8,
        book_length: usize,
        year: u16,
        month: u8,
        day: u8,
        minute: u16,
        buffer: *mut u8,
        buffer_length: usize,
        size: *mut u64,
        steps: *mut u64,
        total: *mut u64,
    ) -> u64;

    pub fn why_resume_log(
        book: *const u8,
        book_length: usize,
        year: u16,
        month: u8,
        day: u8,
        minute: u16,
        buffer: *mut u8,
        buffer_length: usize,
        written: usize,
        size: *mut u64,
        steps: *mut u64,
        total: *mut u64,
    ) -> u64;
}
