//! Compares all that the calls tell of a tender without changing it.

use crate::calls::book::{
    Book, CODES_NUMBERS, HELD_NUMBERS, LIMITS_NUMBERS, NO_TENDER, OK, TERMS_NUMBERS,
};
use crate::calls::independent_book::{codes_numbers, held_numbers, limits_numbers};
use crate::calls::layout;
use crate::difference::{same, Difference};
use independent::tender::Tender;

/// What stands in an array before it is told numbers, and past them after.
const BEFORE: u64 = 0xbeef_0000_0000_beef;
/// How many entries past the numbers are watched.
const PAST: usize = 2;

/// Compares the state, the terms, the codes, their limits and what is held for each code.
pub fn compare<L: Book>(library: &[u64], expected: &[u64]) -> Result<(), Difference> {
    let tender = layout::tender_of(expected);
    let state = tender.as_ref().map_or(NO_TENDER, |tender| tender.state as u64);
    same(L::state(library), state, || "the state after the call".to_string())?;
    match tender {
        Some(tender) => compare_tender::<L>(library, &tender),
        None => compare_none::<L>(library),
    }
}

fn compare_tender<L: Book>(words: &[u64], tender: &Tender) -> Result<(), Difference> {
    let terms = layout::terms_numbers(&tender.terms);
    compare_told(terms, |told| L::terms(words, told), || "the terms".to_string())?;
    let codes = codes_numbers(tender);
    compare_told(codes, |told| L::codes(words, told), || "the codes".to_string())?;
    let limits = limits_numbers(tender);
    compare_told(limits, |told| L::limits(words, told), || "the limits".to_string())?;
    let first = u64::from(tender.book[0].code);
    let last = u64::from(tender.book[tender.book.len() - 1].code);
    let admitted = tender.book.iter().map(|holding| u64::from(holding.code));
    for code in admitted.chain([last + 1, first + (1 << 32), u64::MAX]) {
        let held = held_numbers(tender, code);
        let what = || format!("what is held for {code:05}");
        compare_told(held, |told| L::held(words, code, told), what)?;
    }
    Ok(())
}

/// Compares the numbers that a call tells, and whether the entries past them stay.
fn compare_told<const N: usize>(
    expected: [u64; N],
    call: impl FnOnce(&mut [u64]) -> u64,
    what: impl Fn() -> String,
) -> Result<(), Difference> {
    let mut told = [BEFORE; CODES_NUMBERS + PAST];
    let result = call(&mut told[..N]);
    same(result, OK, || format!("{} after the call, the result", what()))?;
    same(&told[..N], &expected[..], || format!("{} after the call", what()))?;
    same(&told[N..N + PAST], &[BEFORE; PAST], || format!("the entries past {}", what()))
}

fn compare_none<L: Book>(words: &[u64]) -> Result<(), Difference> {
    let mut told = [BEFORE; CODES_NUMBERS];
    let results = [
        L::terms(words, &mut told[..TERMS_NUMBERS]),
        L::codes(words, &mut told[..CODES_NUMBERS]),
        L::limits(words, &mut told[..LIMITS_NUMBERS]),
        L::held(words, 90_001, &mut told[..HELD_NUMBERS]),
    ];
    let what = || "terms, codes, limits and what is held, of words without a tender".to_string();
    same(results, [NO_TENDER; 4], what)?;
    same(told, [BEFORE; CODES_NUMBERS], what)
}
