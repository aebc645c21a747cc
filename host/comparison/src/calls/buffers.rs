//! Compares what stands in buffers and words after calls.

use crate::calls::layout;
use crate::calls::padded::Padded;
use crate::calls::step::Given;
use crate::difference::{hex, same, Difference};
use std::fmt::Debug;

/// How many bytes of a space are shown from the first that differs on.
const SHOWN: usize = 24;

/// Nothing where calls returned the same and left the same in their buffers.
pub fn same_given(library: &Given, expected: &Given) -> Result<(), Difference> {
    same(library.result, expected.result, || "what the call returns".to_string())?;
    same_elements("a number of the array", &library.told, &expected.told)?;
    same_elements("an award", &library.awards, &expected.awards)?;
    let Some((index, _, _)) = library.space.differs(&expected.space) else { return Ok(()) };
    Err(Difference {
        call: format!("the bytes of the space from index {index} on"),
        library: hex(library.space.from(index, SHOWN)),
        expected: hex(expected.space.from(index, SHOWN)),
    })
}

/// Nothing where all elements are equal, also those around what was lent.
fn same_elements<T: Copy + PartialEq + Debug>(
    what: &str,
    library: &Padded<T>,
    expected: &Padded<T>,
) -> Result<(), Difference> {
    let Some((index, own, others)) = library.differs(expected) else { return Ok(()) };
    same(own, others, || format!("{what}, index {index}"))
}

/// Nothing where all words are equal.
pub fn same_words(
    when: &str,
    library: &Padded<u64>,
    expected: &Padded<u64>,
) -> Result<(), Difference> {
    let Some((index, own, others)) = library.differs(expected) else { return Ok(()) };
    same(own, others, || format!("word {index}, {}, {when}", layout::name(index)))
}
