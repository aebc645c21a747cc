//! Reading and writing a 6G1 through the calls of include/optes.h, on slices.
//!
//! Each call looks at the raw bytes anew, as a call from C does, and none is inlined, so that the
//! calls can be compared and measured one by one. Digits are read and written eight at a time.

mod reading;
mod words;
mod writing;

use crate::address::SHORT;
use crate::application::{Field, Form, SHORTEST};
use crate::envelope::{self, HEADER};

pub use reading::{
    amount, has_field, has_number, has_place, length, number, numbers, rate, read, start,
};
pub use writing::{write, write_addresses};

/// What a call returns: done, or the number of its refusal.
pub const OK: u32 = 0;
pub const UNREADABLE: u32 = 12;
pub const UNFIT: u32 = 17;
pub const NO_ROOM: u32 = 18;

/// How many numbers a whole message is read into.
pub const NUMBERS: usize = 51;

/// The bytes of a 6G1 from the field after its addresses on, which are the same in every form.
const TAIL: usize = SHORTEST - (SHORT_FORM.start(Field::Cro) - HEADER);
const SHORT_FORM: Form = Form::new(SHORT, SHORT);

/// Where the contents of a field after the addresses start in the tail.
const fn start_in_tail(field: Field) -> usize {
    SHORT_FORM.start(field) + TAIL - SHORTEST
}

/// The tag and the length of a field other than the addresses.
const fn head(field: Field) -> [u8; HEADER] {
    let (tag, length) = SHORT_FORM.head(field);
    envelope::header(tag, length)
}

/// The fields of the tail.
const TAIL_FIELDS: [Field; 7] = {
    let [_type, _sender, _recipient, tail @ ..] = Field::ALL;
    tail
};
