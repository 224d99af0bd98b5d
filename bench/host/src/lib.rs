//! The proved calls, linked from `crates/host/out/libhost.a`, as safe functions.
//!
//! Each call lays its answer into a lent slice of numbers: the number of the
//! refusal or 0, its place or 0, and then the values that were given. It returns
//! whether they fitted; into a slice that is too short nothing is laid.
//!
//! To the calls a slice is a pointer and a length, one after the other. Nothing is
//! asked of a caller but that the slices are slices and those written to are apart
//! from the others, which Rust's references say.

mod store;

pub use store::{feed, finish, read_document, Store};

/// Room enough for the answer of every call.
pub const ANSWER: usize = 8;

/// The numbers and tables that the writer is given.
#[derive(Clone, Copy, Debug)]
pub struct Tables<'a> {
    pub n: u8,
    pub initial: u8,
    pub tree_start: u8,
    pub k: u16,
    pub letter_moves: &'a [u8],
    pub tree_moves: &'a [u8],
    pub classes: &'a [u8],
}

mod exported {
    unsafe extern "C" {
        pub fn venticapro_check_rule(
            file: *const u8,
            file_length: usize,
            answer: *mut u64,
            answer_length: usize,
        ) -> bool;

        pub fn venticapro_write_rule(
            states: u8,
            initial: u8,
            tree_start: u8,
            letters: u16,
            letter_moves: *const u8,
            letter_moves_length: usize,
            tree_moves: *const u8,
            tree_moves_length: usize,
            classes: *const u8,
            classes_length: usize,
            output: *mut u8,
            output_length: usize,
            answer: *mut u64,
            answer_length: usize,
        ) -> bool;

        pub fn venticapro_open(
            file: *const u8,
            file_length: usize,
            book: *mut u64,
            book_length: usize,
            answer: *mut u64,
            answer_length: usize,
        ) -> bool;
    }
}

/// The rule check. Values: n, initial state, tree start, k.
pub fn check_rule(file: &[u8], answer: &mut [u64]) -> bool {
    // SAFETY: see the head of this file.
    unsafe {
        exported::venticapro_check_rule(
            file.as_ptr(),
            file.len(),
            answer.as_mut_ptr(),
            answer.len(),
        )
    }
}

/// The writer. Value: the count of bytes.
pub fn write_rule(tables: Tables, output: &mut [u8], answer: &mut [u64]) -> bool {
    // SAFETY: see the head of this file.
    unsafe {
        exported::venticapro_write_rule(
            tables.n,
            tables.initial,
            tables.tree_start,
            tables.k,
            tables.letter_moves.as_ptr(),
            tables.letter_moves.len(),
            tables.tree_moves.as_ptr(),
            tables.tree_moves.len(),
            tables.classes.as_ptr(),
            tables.classes.len(),
            output.as_mut_ptr(),
            output.len(),
            answer.as_mut_ptr(),
            answer.len(),
        )
    }
}

/// Opening, which fills the book. Values: how many states are still, then the fresh
/// reading: state, stored depth, skip depth, events taken, looks.
pub fn open(file: &[u8], book: &mut [u64], answer: &mut [u64]) -> bool {
    // SAFETY: see the head of this file.
    unsafe {
        exported::venticapro_open(
            file.as_ptr(),
            file.len(),
            book.as_mut_ptr(),
            book.len(),
            answer.as_mut_ptr(),
            answer.len(),
        )
    }
}
