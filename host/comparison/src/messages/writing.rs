//! The comparison of the call that writes, and what a written message promises.

use crate::difference::{hex, same, Difference};
use crate::interface::{AddressForm, Fields, NUMBERS};
use crate::library::Library;
use crate::messages::generate::{FormParts, Parts, WIDTHS};
use crate::messages::reading::{fields, is_well_formed};
use crate::messages::space::{write, Written};
use crate::messages::tally::{Outcome, Tally, TEXT_PARTS};
use crate::random::Random;
use independent::address::{LONG, SHORT, TEXT_BYTES};
use independent::application::{is_identifier, LONGEST, SHORTEST};

/// The parts that can be unfit: each number, the length of each text, the identifier's form, and the
/// length, the second number and the text of each address.
pub const UNFIT_PARTS: usize = NUMBERS + TEXT_PARTS.len();

/// Lengths that no address has, also some that would seem to be one if they were cut.
const ODD_LENGTHS: [u64; 10] =
    [0, 4, 6, 13, 15, 28, 0x105, (1 << 32) + 5, (1 << 32) + LONG as u64, u64::MAX];

/// Writes a readable message from its own fields to spaces of several lengths.
pub fn compare_own(
    random: &mut Random,
    message: &[u8],
    tally: &mut Tally,
) -> Result<(), Difference> {
    let own = fields::<Library>(message);
    let whole = message.len();
    for length in [whole, whole - 1, 0, whole + 1 + random.index(80)] {
        let written = write_and_count(&own, length, tally)?;
        if is_well_formed::<Library>(message) && length >= whole {
            same(hex(&written.space[..whole]), hex(message), || {
                "write from the fields of a well-formed message".to_string()
            })?;
        }
    }
    Ok(())
}

/// Writes other fields, of which some are unfit, to a space that is sometimes short.
pub fn compare_others(random: &mut Random, tally: &mut Tally) -> Result<(), Difference> {
    let mut parts = Parts::sound(random);
    let whole = parts.fields().length();
    let unfit = (random.below(4) > 0).then(|| random.index(UNFIT_PARTS));
    if let Some(part) = unfit {
        make_unfit(random, &mut parts, part);
    }
    if unfit.is_some() && random.one_in(6) {
        let another = random.index(UNFIT_PARTS);
        make_unfit(random, &mut parts, another);
    } else if let Some(part) = unfit {
        tally.add(Outcome::UnfitPart(part));
    }
    let length = room(random, whole);
    let written = write_and_count(&parts.fields(), length, tally)?;
    let expected = match (unfit, length >= whole) {
        (Some(_), _) => 17,
        (None, false) => 18,
        (None, true) => 0,
    };
    same(written.answer, expected, || format!("write of {unfit:?} unfit to {length} bytes"))
}

/// The length of a space for a message of this length, often one of another form's.
fn room(random: &mut Random, whole: usize) -> usize {
    let short = random.index(whole);
    let form = random.pick(&[338, 339, 347, 348, 356, 357]);
    random.pick(&[whole, whole, whole - 1, 0, whole + 1, whole + 80, short, form])
}

/// Compares a write, counts its answer and reads a written message back.
fn write_and_count(
    given: &Fields,
    length: usize,
    tally: &mut Tally,
) -> Result<Written, Difference> {
    let written = write(given, length)?;
    match written.answer {
        0 => {
            let seen = Fields { forms: given.forms.map(|form| form.seen()), ..*given };
            count_written(given, tally);
            let message = &written.space[..given.length()];
            same(fields::<Library>(message), seen, || format!("read of {}", hex(message)))?;
            same(is_well_formed::<Library>(message), true, || {
                "read of what was written".to_string()
            })?;
        }
        17 => {
            tally.add(Outcome::Unfit);
            if length < SHORTEST {
                tally.add(Outcome::UnfitBeforeRoom);
            }
        }
        _ => tally.add(Outcome::NoRoom),
    }
    Ok(written)
}

/// Counts a written message.
fn count_written(given: &Fields, tally: &mut Tally) {
    tally.add(Outcome::Written);
    tally.add(Outcome::WrittenLength(given.length()));
    let is_unseen = |form: &AddressForm| {
        form.length == SHORT as u64 && form.branch > 99_999 && form.text.len() != TEXT_BYTES
    };
    if given.forms.iter().any(is_unseen) {
        tally.add(Outcome::Unseen);
    }
}

fn make_unfit(random: &mut Random, parts: &mut Parts, part: usize) {
    match part {
        0..=25 => parts.numbers[part] = wide(random, WIDTHS[part]),
        26 => change_length(random, &mut parts.kind, 3),
        27 => change_length(random, &mut parts.identifier, 11),
        28 => change_length(random, &mut parts.name, 15),
        29 => spoil_identifier(random, &mut parts.identifier),
        30..=32 => spoil_form(random, &mut parts.forms[0], part - 30),
        _ => spoil_form(random, &mut parts.forms[1], part - 33),
    }
}

/// Makes the length of an address, or the second number or the text of the long form, unfit.
fn spoil_form(random: &mut Random, form: &mut FormParts, part: usize) {
    *form = FormParts::long(random);
    match part {
        0 => form.length = random.pick(&ODD_LENGTHS),
        1 => form.branch = wide(random, 5),
        _ => change_length(random, &mut form.text, TEXT_BYTES),
    }
}

/// A number with more digits than these, also one that would fit if it were cut to 32 bits.
fn wide(random: &mut Random, width: u32) -> u64 {
    let bound = 10u64.pow(width);
    let cut = (1 << random.pick(&[32, 40, 53, 63])) + random.below(10_000);
    let more = bound + random.below(9 * bound);
    random.pick(&[bound, bound, bound + 1, 10 * bound, u64::MAX, 1 << 63, cut.max(bound), more])
}

/// Gives the text another length than the one that it must have.
fn change_length(random: &mut Random, text: &mut Vec<u8>, whole: usize) {
    match random.below(5) {
        0 => text.clear(),
        1 => drop(text.pop()),
        2 => text.push(b'0'),
        3 => text.extend_from_within(..),
        _ => text.resize(LONGEST, b' '),
    }
    // Two changes can undo one another.
    if text.len() == whole {
        text.push(b'0');
    }
}

fn spoil_identifier(random: &mut Random, identifier: &mut [u8]) {
    while !identifier.is_empty() && is_identifier(identifier) {
        let index = random.index(identifier.len());
        identifier[index] = random.pick(b"/:t.T 0A\0\xff\xb0");
    }
}
