//! Sessions for tests and comparisons, beginning from document 01's worked one.

use crate::address::Address;
use crate::announcement::TREASURY;
use crate::application::{Draft, PLACES};
use crate::award::Side;
use crate::digits;
use crate::envelope::push_field;
use crate::session::{ADMITTED, ALLOTMENT, ANNOUNCEMENT, CLOSING, RECEPTION, REVOCATION};

/// What a 6G0 is written from.
#[derive(Clone, Copy, Debug)]
pub struct Announcement {
    pub identifier: [u8; 11],
    pub side: Side,
    /// Y or N.
    pub letter: u8,
    pub reference: u64,
    pub execution: u64,
    pub spot: u64,
    pub forward: u64,
    pub cut_off: u64,
    pub most_bids: u64,
    pub offered: u64,
    pub minimum: u64,
    pub increment: u64,
    pub maximum: u64,
    pub minimum_allocation: u64,
    pub limit: u64,
}

impl Announcement {
    /// The announcement of the worked session.
    pub fn worked() -> Announcement {
        Announcement {
            identifier: *b"T/2012/0001",
            side: Side::Invests,
            letter: b'Y',
            reference: 12_032_012,
            execution: 12_032_012,
            spot: 14_032_012,
            forward: 15_032_012,
            cut_off: 110_000,
            most_bids: 3,
            offered: 100_000,
            minimum: 10_000,
            increment: 10_000,
            maximum: 0,
            minimum_allocation: 0,
            limit: 100_000,
        }
    }

    /// The 6G0's bytes.
    pub fn write(&self) -> Vec<u8> {
        let mut out = Vec::new();
        push_field(&mut out, 0x01, b"6G0");
        push_field(&mut out, 0x04, TREASURY);
        push_field(&mut out, 0x05, b"90001");
        push_field(&mut out, 0x02, b"00000000001");
        push_field(&mut out, 0x31, &text(self.reference, 8));
        push_field(&mut out, 0x60, b"093000");
        push_field(&mut out, 0x70, &self.identifier);
        push_field(&mut out, 0x71, &self.operation_type());
        push_field(&mut out, 0x72, &self.characteristics());
        push_field(&mut out, 0x73, &text(self.spot, 8));
        push_field(&mut out, 0x74, &text(self.forward, 8));
        push_field(&mut out, 0x75, &text(self.cut_off, 6));
        out
    }

    fn operation_type(&self) -> [u8; 18] {
        let mut text = match self.side {
            Side::Collects => *b"NC/FD/LA/R/Y/VR/MR",
            Side::Invests => *b"NC/FD/LP/R/Y/VR/MR",
        };
        text[11] = self.letter;
        text
    }

    fn characteristics(&self) -> Vec<u8> {
        let amounts =
            [self.offered, self.minimum, self.increment, self.maximum, self.minimum_allocation];
        let mut parts = vec![text(self.execution, 8), text(self.most_bids, 2)];
        parts.extend(amounts.map(|amount| text(amount, 15)));
        parts.push(text(self.limit, 8));
        parts.join(&b'/')
    }
}

fn text(number: u64, width: usize) -> Vec<u8> {
    let mut out = Vec::new();
    digits::push(&mut out, number, width);
    out
}

/// An application to the worked session's tender with short addresses, and with bids from its first
/// place on.
pub fn draft(sender: u64, time: u64, bids: &[(u64, u64)]) -> Draft<'static> {
    let mut places = [(0, 0); PLACES];
    places[..bids.len()].copy_from_slice(bids);
    Draft {
        kind: b"6G1",
        sender: Address::short(sender),
        recipient: Address::short(1000),
        cro: 1,
        date: 12_032_012,
        time,
        check_digit: 0,
        identifier: b"T/2012/0001",
        places,
        name: b"CONTACT NAME   ",
    }
}

/// The bytes of an application whose draft fits.
pub fn written(draft: &Draft) -> Vec<u8> {
    let mut message = vec![0; draft.length()];
    draft.write(&mut message).expect("the draft fits a 6G1");
    message
}

/// The bytes of a session, step after step.
#[derive(Clone, Debug, Default)]
pub struct Session {
    pub bytes: Vec<u8>,
}

impl Session {
    pub fn new() -> Session {
        Session::default()
    }

    pub fn field(&mut self, tag: u8, contents: &[u8]) -> &mut Session {
        push_field(&mut self.bytes, tag, contents);
        self
    }

    pub fn admit(&mut self, codes: &[u64]) -> &mut Session {
        let texts: Vec<_> = codes.iter().map(|&code| text(code, 5)).collect();
        self.field(ADMITTED, &texts.concat())
    }

    pub fn announce(&mut self, announcement: &Announcement) -> &mut Session {
        self.field(ANNOUNCEMENT, &announcement.write())
    }

    pub fn receive(&mut self, date: u64, time: u64, message: &[u8]) -> &mut Session {
        self.field(RECEPTION, &[&text(date, 8), &text(time, 6), message].concat())
    }

    pub fn close(&mut self, date: u64, time: u64) -> &mut Session {
        self.field(CLOSING, &[text(date, 8), text(time, 6)].concat())
    }

    pub fn revoke(&mut self) -> &mut Session {
        self.field(REVOCATION, b"")
    }

    pub fn allot(&mut self) -> &mut Session {
        self.field(ALLOTMENT, b"")
    }
}
