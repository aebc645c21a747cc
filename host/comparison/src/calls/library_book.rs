//! The library's calls of a tender, as include/optes_book.h declares them, on slices.
//!
//! A slice is never null and holds as many elements as its length says, nothing writes it while it
//! is lent, and a slice that is lent for writing overlaps no other: all that the header asks.
#![allow(unsafe_code)]

use crate::calls::book::Book;

#[rustfmt::skip] // Each pointer stands beside its length.
extern "C" {
    fn optes_words_open(
        words: *mut u64, count: usize, m: *const u8, n: usize, codes: *const u32, admitted: usize,
        limits: *const u64, limited: usize,
    ) -> u64;
    fn optes_words_receive(
        words: *mut u64, count: usize, m: *const u8, n: usize, date: u64, time: u64,
        space: *mut u8, room: usize, told: *mut u64, numbers: usize,
    ) -> u64;
    fn optes_words_close(words: *mut u64, count: usize, date: u64, time: u64) -> u64;
    fn optes_words_allot(
        words: *mut u64, count: usize, awards: *mut u64, places: usize,
        told: *mut u64, numbers: usize,
    ) -> u64;
    fn optes_words_preview(
        words: *const u64, count: usize, awards: *mut u64, places: usize,
        told: *mut u64, numbers: usize,
    ) -> u64;
    fn optes_words_revoke(words: *mut u64, count: usize) -> u64;
    fn optes_words_state(words: *const u64, count: usize) -> u64;
    fn optes_words_terms(
        words: *const u64, count: usize, told: *mut u64, numbers: usize,
    ) -> u64;
    fn optes_words_codes(
        words: *const u64, count: usize, told: *mut u64, numbers: usize,
    ) -> u64;
    fn optes_words_limits(
        words: *const u64, count: usize, told: *mut u64, numbers: usize,
    ) -> u64;
    fn optes_words_held(
        words: *const u64, count: usize, code: u64, told: *mut u64, numbers: usize,
    ) -> u64;
}

/// The library.
pub struct LibraryBook;

#[rustfmt::skip] // Each pointer stands beside its length.
impl Book for LibraryBook {
    fn open(words: &mut [u64], message: &[u8], codes: &[u32], limits: &[u64]) -> u64 {
        unsafe {
            optes_words_open(
                words.as_mut_ptr(), words.len(), message.as_ptr(), message.len(),
                codes.as_ptr(), codes.len(), limits.as_ptr(), limits.len(),
            )
        }
    }

    fn receive(
        words: &mut [u64],
        message: &[u8],
        (date, time): (u64, u64),
        space: &mut [u8],
        told: &mut [u64],
    ) -> u64 {
        unsafe {
            optes_words_receive(
                words.as_mut_ptr(), words.len(), message.as_ptr(), message.len(), date, time,
                space.as_mut_ptr(), space.len(), told.as_mut_ptr(), told.len(),
            )
        }
    }

    fn close(words: &mut [u64], (date, time): (u64, u64)) -> u64 {
        unsafe { optes_words_close(words.as_mut_ptr(), words.len(), date, time) }
    }

    fn allot(words: &mut [u64], awards: &mut [u64], told: &mut [u64]) -> u64 {
        unsafe {
            optes_words_allot(
                words.as_mut_ptr(), words.len(), awards.as_mut_ptr(), awards.len(),
                told.as_mut_ptr(), told.len(),
            )
        }
    }

    fn preview(words: &mut [u64], awards: &mut [u64], told: &mut [u64]) -> u64 {
        unsafe {
            optes_words_preview(
                words.as_mut_ptr(), words.len(), awards.as_mut_ptr(), awards.len(),
                told.as_mut_ptr(), told.len(),
            )
        }
    }

    fn revoke(words: &mut [u64]) -> u64 {
        unsafe { optes_words_revoke(words.as_mut_ptr(), words.len()) }
    }

    fn state(words: &[u64]) -> u64 {
        unsafe { optes_words_state(words.as_ptr(), words.len()) }
    }

    fn terms(words: &[u64], told: &mut [u64]) -> u64 {
        unsafe {
            optes_words_terms(words.as_ptr(), words.len(), told.as_mut_ptr(), told.len())
        }
    }

    fn codes(words: &[u64], told: &mut [u64]) -> u64 {
        unsafe {
            optes_words_codes(words.as_ptr(), words.len(), told.as_mut_ptr(), told.len())
        }
    }

    fn limits(words: &[u64], told: &mut [u64]) -> u64 {
        unsafe {
            optes_words_limits(words.as_ptr(), words.len(), told.as_mut_ptr(), told.len())
        }
    }

    fn held(words: &[u64], code: u64, told: &mut [u64]) -> u64 {
        unsafe {
            optes_words_held(words.as_ptr(), words.len(), code, told.as_mut_ptr(), told.len())
        }
    }
}
