//! The replies to a message: a confirmation of one that is accepted, RE01 for one with errors.

use crate::announcement::TREASURY;
use crate::application::{self, Application, Field};
use crate::calendar::Time;
use crate::digits;
use crate::envelope::{self, HEADER};
use crate::errors::{Errors, LONGEST_TEXT};

const WRONG: &[u8] = b"*** MESSAGGIO ERRATO ***";
const ERRORS: u8 = 0x98;

/// The bytes of the longest reply, RE01 with five errors for a message with two long addresses.
pub const LONGEST: usize = application::LONGEST + HEADER + WRONG.len() + HEADER + LONGEST_TEXT;

/// Bytes that are put one after another from the start of a space.
struct Writer<'a> {
    space: &'a mut [u8],
    length: usize,
}

impl<'a> Writer<'a> {
    fn new(space: &'a mut [u8]) -> Writer<'a> {
        Writer { space, length: 0 }
    }

    fn put(&mut self, bytes: &[u8]) {
        self.space[self.length..self.length + bytes.len()].copy_from_slice(bytes);
        self.length += bytes.len();
    }

    fn put_field(&mut self, tag: u8, contents: &[u8]) {
        self.put(&envelope::header(tag, contents.len()));
        self.put(contents);
    }

    /// Puts the errors as field 098 shows them.
    fn put_errors(&mut self, errors: Errors) {
        let start = self.length;
        self.put(&envelope::header(ERRORS, 0));
        for (index, text) in errors.shown().enumerate() {
            if index > 0 {
                self.put(b"/");
            }
            self.put(text);
        }
        let header = envelope::header(ERRORS, self.length - start - HEADER);
        self.space[start..start + HEADER].copy_from_slice(&header);
    }
}

/// Confirms an application that was accepted at this time and gives the reply's length.
pub fn confirm(application: &Application, received: Time, space: &mut [u8]) -> usize {
    let mut time = [0; 6];
    digits::fill(&mut time, received.number());
    let mut reply = Writer::new(space);
    reply.put_field(0x01, b"6G2");
    reply.put_field(0x04, TREASURY);
    reply.put_field(0x05, application.field(Field::Sender));
    reply.put_field(0x22, application.field(Field::Cro));
    reply.put_field(0x60, &time);
    reply.put_field(0x70, application.field(Field::Identifier));
    reply.length
}

/// Sends a message back with its errors, as RE01, and gives the reply's length.
pub fn send_back(message: &[u8], errors: Errors, space: &mut [u8]) -> usize {
    let mut reply = Writer::new(space);
    reply.put(message);
    reply.put_field(ERRORS, WRONG);
    reply.put_errors(errors);
    reply.length
}
