//! The library's calls, as include/optes.h declares them, on slices.
//!
//! A slice is never null and holds as many bytes as its length says, nothing writes it while it is
//! lent, and a space that is lent for writing overlaps no text: all that the header asks of a caller.
#![allow(unsafe_code)]

use crate::interface::{with_forms, with_numbers, Fields, Interface};

#[rustfmt::skip] // The numbers and lengths stand as in include/optes.h.
extern "C" {
    fn optes_6g1_read(m: *const u8, n: usize) -> u32;
    fn optes_6g1_numbers(m: *const u8, n: usize, numbers: *mut u64, count: usize) -> u32;
    fn optes_6g1_has_field(m: *const u8, n: usize, field: u32) -> u32;
    fn optes_6g1_start(m: *const u8, n: usize, field: u32) -> usize;
    fn optes_6g1_length(m: *const u8, n: usize, field: u32) -> usize;
    fn optes_6g1_has_number(m: *const u8, n: usize, field: u32) -> u32;
    fn optes_6g1_number(m: *const u8, n: usize, field: u32) -> u64;
    fn optes_6g1_has_place(m: *const u8, n: usize, place: u32) -> u32;
    fn optes_6g1_rate(m: *const u8, n: usize, place: u32) -> u32;
    fn optes_6g1_amount(m: *const u8, n: usize, place: u32) -> u64;
    fn optes_6g1_write(
        sender: u64, recipient: u64, cro: u64, date: u64, time: u64, check: u64,
        rate0: u64, rate1: u64, rate2: u64, rate3: u64, rate4: u64,
        rate5: u64, rate6: u64, rate7: u64, rate8: u64, rate9: u64,
        amount0: u64, amount1: u64, amount2: u64, amount3: u64, amount4: u64,
        amount5: u64, amount6: u64, amount7: u64, amount8: u64, amount9: u64,
        kind: *const u8, kind_length: usize,
        identifier: *const u8, identifier_length: usize,
        name: *const u8, name_length: usize,
        space: *mut u8, n: usize,
    ) -> u32;
    fn optes_6g1_write_addresses(
        sender: u64, sender_length: u64, sender_branch: u64,
        recipient: u64, recipient_length: u64, recipient_branch: u64,
        cro: u64, date: u64, time: u64, check: u64,
        rate0: u64, rate1: u64, rate2: u64, rate3: u64, rate4: u64,
        rate5: u64, rate6: u64, rate7: u64, rate8: u64, rate9: u64,
        amount0: u64, amount1: u64, amount2: u64, amount3: u64, amount4: u64,
        amount5: u64, amount6: u64, amount7: u64, amount8: u64, amount9: u64,
        sender_text: *const u8, sender_text_length: usize,
        recipient_text: *const u8, recipient_text_length: usize,
        kind: *const u8, kind_length: usize,
        identifier: *const u8, identifier_length: usize,
        name: *const u8, name_length: usize,
        space: *mut u8, n: usize,
    ) -> u32;
}

/// The library.
pub struct Library;

impl Interface for Library {
    #[inline(always)]
    fn read(message: &[u8]) -> u32 {
        unsafe { optes_6g1_read(message.as_ptr(), message.len()) }
    }

    #[inline(always)]
    #[rustfmt::skip] // Each pointer stands beside its length.
    fn numbers(message: &[u8], space: &mut [u64]) -> u32 {
        unsafe {
            optes_6g1_numbers(
                message.as_ptr(), message.len(),
                space.as_mut_ptr(), space.len()
            )
        }
    }

    #[inline(always)]
    fn has_field(message: &[u8], field: u32) -> u32 {
        unsafe { optes_6g1_has_field(message.as_ptr(), message.len(), field) }
    }

    #[inline(always)]
    fn start(message: &[u8], field: u32) -> usize {
        unsafe { optes_6g1_start(message.as_ptr(), message.len(), field) }
    }

    #[inline(always)]
    fn length(message: &[u8], field: u32) -> usize {
        unsafe { optes_6g1_length(message.as_ptr(), message.len(), field) }
    }

    #[inline(always)]
    fn has_number(message: &[u8], field: u32) -> u32 {
        unsafe { optes_6g1_has_number(message.as_ptr(), message.len(), field) }
    }

    #[inline(always)]
    fn number(message: &[u8], field: u32) -> u64 {
        unsafe { optes_6g1_number(message.as_ptr(), message.len(), field) }
    }

    #[inline(always)]
    fn has_place(message: &[u8], place: u32) -> u32 {
        unsafe { optes_6g1_has_place(message.as_ptr(), message.len(), place) }
    }

    #[inline(always)]
    fn rate(message: &[u8], place: u32) -> u32 {
        unsafe { optes_6g1_rate(message.as_ptr(), message.len(), place) }
    }

    #[inline(always)]
    fn amount(message: &[u8], place: u32) -> u64 {
        unsafe { optes_6g1_amount(message.as_ptr(), message.len(), place) }
    }

    #[inline(always)]
    #[rustfmt::skip] // Each pointer stands beside its length.
    fn write(fields: &Fields, space: &mut [u8]) -> u32 {
        let Fields { numbers, kind, identifier, name, .. } = fields;
        unsafe {
            with_numbers!(
                optes_6g1_write, numbers,
                kind.as_ptr(), kind.len(),
                identifier.as_ptr(), identifier.len(),
                name.as_ptr(), name.len(),
                space.as_mut_ptr(), space.len()
            )
        }
    }
    #[inline(always)]
    #[rustfmt::skip] // Each pointer stands beside its length.
    fn write_addresses(fields: &Fields, space: &mut [u8]) -> u32 {
        let Fields { numbers, forms, kind, identifier, name } = fields;
        unsafe {
            with_forms!(
                optes_6g1_write_addresses, numbers, forms,
                forms[0].text.as_ptr(), forms[0].text.len(),
                forms[1].text.as_ptr(), forms[1].text.len(),
                kind.as_ptr(), kind.len(),
                identifier.as_ptr(), identifier.len(),
                name.as_ptr(), name.len(),
                space.as_mut_ptr(), space.len()
            )
        }
    }
}
