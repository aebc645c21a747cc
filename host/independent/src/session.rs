//! The Friday log: a session's fields go in, its lines come out.

use std::io::{self, ErrorKind, Read, Write};
use std::ops::ControlFlow;

use crate::calendar::Moment;
use crate::digits;
use crate::envelope::{self, HEADER};
use crate::refusal::Refusal;
use crate::reply;
use crate::tender::{Award, Reception, Tender};

pub const ADMITTED: u8 = 0xa0;
pub const ANNOUNCEMENT: u8 = 0xa1;
pub const RECEPTION: u8 = 0xa2;
pub const CLOSING: u8 = 0xa3;
pub const REVOCATION: u8 = 0xa4;
pub const ALLOTMENT: u8 = 0xa5;

const CODE_DIGITS: usize = 5;
const DATE_DIGITS: usize = 8;
const CLOCK_BYTES: usize = 14;

/// What a log knows between two fields.
#[derive(Clone, Debug, Default)]
pub struct Journal {
    codes: Vec<u32>,
    tender: Option<Tender>,
}

impl Journal {
    pub fn new() -> Journal {
        Journal::default()
    }

    /// Takes a field and appends its lines; a field that is not in order ends the log.
    pub fn step(&mut self, tag: u8, contents: &[u8], lines: &mut Vec<u8>) -> ControlFlow<()> {
        match (tag, contents.len()) {
            (ADMITTED, _) => return self.admit(contents),
            (ANNOUNCEMENT, _) => self.announce(contents, lines),
            (RECEPTION, CLOCK_BYTES..) => self.receive(contents, lines),
            (CLOSING, CLOCK_BYTES) => self.close(contents, lines),
            (REVOCATION, 0) => self.revoke(lines),
            (ALLOTMENT, 0) => self.allot(lines),
            _ => return ControlFlow::Break(()),
        }
        ControlFlow::Continue(())
    }

    fn admit(&mut self, contents: &[u8]) -> ControlFlow<()> {
        if contents.len() % CODE_DIGITS != 0 || !digits::are_digits(contents) {
            return ControlFlow::Break(());
        }
        let codes = contents.chunks_exact(CODE_DIGITS).filter_map(digits::number);
        self.codes.clear();
        self.codes.extend(codes.map(|code| code as u32));
        ControlFlow::Continue(())
    }

    fn announce(&mut self, contents: &[u8], lines: &mut Vec<u8>) {
        // A log has no credit limits.
        match Tender::open(contents, &self.codes, &vec![0; self.codes.len()]) {
            Ok(tender) => self.tender = Some(tender),
            Err(refusal) => push_refusal(lines, refusal),
        }
    }

    fn receive(&mut self, contents: &[u8], lines: &mut Vec<u8>) {
        let Some(tender) = &mut self.tender else { return };
        let (clock, message) = contents.split_at(CLOCK_BYTES);
        let mut space = [0; reply::LONGEST];
        match tender.receive(message, Moment::of_text(clock), &mut space) {
            Ok(reception) => push_reception(lines, clock, &reception),
            Err(refusal) => push_refusal(lines, refusal),
        }
    }

    fn close(&mut self, contents: &[u8], lines: &mut Vec<u8>) {
        let Some(tender) = &mut self.tender else { return };
        if let Err(refusal) = tender.close(Moment::of_text(contents)) {
            push_refusal(lines, refusal);
        }
    }

    fn revoke(&mut self, lines: &mut Vec<u8>) {
        let Some(tender) = &mut self.tender else { return };
        if let Err(refusal) = tender.revoke() {
            push_refusal(lines, refusal);
        }
    }

    fn allot(&mut self, lines: &mut Vec<u8>) {
        let Some(tender) = &mut self.tender else { return };
        match tender.allot() {
            Ok(allotment) => {
                tender.awards(&allotment).for_each(|award| push_award(lines, &award));
            }
            Err(refusal) => push_refusal(lines, refusal),
        }
    }
}

fn push_refusal(lines: &mut Vec<u8>, refusal: Refusal) {
    lines.extend_from_slice(b"R ----- ");
    digits::push(lines, refusal.number(), 2);
    lines.push(b'\n');
}

fn push_reception(lines: &mut Vec<u8>, clock: &[u8], reception: &Reception) {
    let accepted = reception.errors.is_empty();
    let (date, time) = clock.split_at(DATE_DIGITS);
    lines.push(if accepted { b'C' } else { b'R' });
    for part in [date, time, reception.sender] {
        lines.push(b' ');
        lines.extend_from_slice(part);
    }
    if !accepted {
        lines.push(b' ');
        reception.errors.push_text(lines);
    }
    lines.push(b'\n');
}

fn push_award(lines: &mut Vec<u8>, award: &Award) {
    lines.extend_from_slice(b"W ");
    digits::push(lines, u64::from(award.code), CODE_DIGITS);
    lines.push(b' ');
    digits::push(lines, award.place as u64, 2);
    lines.push(b' ');
    digits::push(lines, u64::from(award.bid.rate.0), 8);
    lines.push(b' ');
    digits::push(lines, award.cents, 15);
    lines.push(b'\n');
}

/// The log of a session, and how many of its bytes were taken before the log ended.
pub fn log_with_end(session: &[u8]) -> (Vec<u8>, usize) {
    let mut journal = Journal::new();
    let mut lines = Vec::new();
    let mut rest = session;
    while let Some((tag, contents, after)) = envelope::split_field(rest) {
        if journal.step(tag, contents, &mut lines).is_break() {
            break;
        }
        rest = after;
    }
    (lines, session.len() - rest.len())
}

/// The log of a session.
pub fn log(session: &[u8]) -> Vec<u8> {
    log_with_end(session).0
}

/// Lines are written when there are so many bytes of them.
const ENOUGH_LINES: usize = 1 << 16;

/// Reads a session to its end, or to the end of its log, and writes the log.
pub fn stream<R: Read, W: Write>(input: R, mut output: W) -> io::Result<()> {
    let mut lines = Vec::with_capacity(2 * ENOUGH_LINES);
    let read = stream_lines(input, &mut output, &mut lines);
    output.write_all(&lines)?;
    output.flush()?;
    read
}

fn stream_lines<R: Read, W: Write>(
    input: R,
    output: &mut W,
    lines: &mut Vec<u8>,
) -> io::Result<()> {
    let mut fields = FieldReader::new(input);
    let mut journal = Journal::new();
    while let Some((tag, contents)) = fields.next_field()? {
        if journal.step(tag, contents, lines).is_break() {
            break;
        }
        if lines.len() >= ENOUGH_LINES {
            output.write_all(lines)?;
            lines.clear();
        }
    }
    Ok(())
}

const BUFFER_BYTES: usize = 1 << 18;

/// Reads fields one after another through a buffer that holds the longest.
struct FieldReader<R> {
    input: R,
    buffer: Vec<u8>,
    start: usize,
    end: usize,
}

impl<R: Read> FieldReader<R> {
    fn new(input: R) -> FieldReader<R> {
        FieldReader { input, buffer: vec![0; BUFFER_BYTES], start: 0, end: 0 }
    }

    /// The next field's tag and contents, or none where no whole field is left.
    fn next_field(&mut self) -> io::Result<Option<(u8, &[u8])>> {
        if !self.hold(HEADER)? {
            return Ok(None);
        }
        let held = &self.buffer[self.start..self.end];
        let length = HEADER + envelope::told_length(held).unwrap_or(0);
        if !self.hold(length)? {
            return Ok(None);
        }
        let field = &self.buffer[self.start..self.start + length];
        self.start += length;
        Ok(Some((field[0], &field[HEADER..])))
    }

    /// Reads until so many bytes are held, and tells whether they are.
    fn hold(&mut self, wanted: usize) -> io::Result<bool> {
        while self.end - self.start < wanted {
            if self.start + wanted > self.buffer.len() {
                self.buffer.copy_within(self.start..self.end, 0);
                self.end -= self.start;
                self.start = 0;
            }
            match self.input.read(&mut self.buffer[self.end..]) {
                Ok(0) => return Ok(false),
                Ok(count) => self.end += count,
                Err(error) if error.kind() == ErrorKind::Interrupted => {}
                Err(error) => return Err(error),
            }
        }
        Ok(true)
    }
}
