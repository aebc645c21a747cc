//! A space that a message is written to, with bytes around it that must stay.

use crate::difference::{hex, same, Difference};
use crate::interface::{Fields, Independent, Interface};
use crate::library::Library;
use independent::application::SHORTEST;

/// How many bytes before and after the space are watched.
const MARGIN: usize = 16;

/// What a write gave: its answer, and the bytes of the space.
pub struct Written {
    pub answer: u32,
    pub space: Vec<u8>,
}

/// A call that writes.
type Write = fn(&Fields, &mut [u8]) -> u32;

/// Writes the fields to a space of this length by both, in the short form and in their own forms,
/// and compares answers and all bytes; what is given back is that of their own forms.
pub fn write(fields: &Fields, length: usize) -> Result<Written, Difference> {
    let calls: [Write; 2] = [Library::write, Independent::write];
    compare("write", calls, fields, (length, SHORTEST))?;
    let calls: [Write; 2] = [Library::write_addresses, Independent::write_addresses];
    // Where the forms have other lengths nothing is written.
    let own = fields.forms.iter().all(|form| matches!(form.length, 5 | 14));
    compare("write_addresses", calls, fields, (length, if own { fields.length() } else { 0 }))
}

/// Compares a call that writes so many bytes, where it writes, to a space of this length.
fn compare(
    name: &str,
    [library, independent]: [Write; 2],
    fields: &Fields,
    (length, message): (usize, usize),
) -> Result<Written, Difference> {
    let before = pattern(length + 2 * MARGIN);
    let (mut own, mut expected) = (before.clone(), before.clone());
    let answers = (
        library(fields, &mut own[MARGIN..MARGIN + length]),
        independent(fields, &mut expected[MARGIN..MARGIN + length]),
    );
    let call = |what: &str| format!("{name} to {length} bytes, {what}: {}", text(fields));
    same(answers.0, answers.1, || call("the answer"))?;
    if own != expected {
        let call = call("the bytes of the space, with 16 on either side");
        return Err(Difference { call, library: hex(&own), expected: hex(&expected) });
    }
    let written = if answers.0 == 0 { message } else { 0 };
    same(stay(&own, &before, written), true, || call("whether the other bytes stay"))?;
    Ok(Written { answer: answers.0, space: own[MARGIN..MARGIN + length].to_vec() })
}

/// Bytes that differ from their neighbours, so that a moved byte is seen.
fn pattern(length: usize) -> Vec<u8> {
    (0..length).map(|index| (index * 37 + 11) as u8).collect()
}

/// Whether nothing but the first so many bytes of the space changed.
fn stay(after: &[u8], before: &[u8], written: usize) -> bool {
    let end = MARGIN + written;
    after[..MARGIN] == before[..MARGIN] && after[end..] == before[end..]
}

/// The fields as text, with the bytes of the texts in hexadecimal.
fn text(fields: &Fields) -> String {
    let Fields { numbers, forms, kind, identifier, name } = fields;
    let texts = [kind, identifier, name].map(|text| hex(text));
    format!("numbers {numbers:?}, forms {forms:?}, type, identifier and name {texts:?}")
}
