//! An application apart from its addresses, whose lengths move all that follows them.

use crate::calls::script::keys::{self, CODE};
use crate::calls::script::line::Word;
use independent::address::{Address, LONG, SHORT};
use independent::application::{Application, Field};
use independent::envelope::push_field;
use std::ops::Range;

/// Where the addresses of the worked example stand, with their heads.
const ADDRESSES: Range<usize> = 6..22;

/// An application with the addresses of the worked example, so that each key has its place, and the
/// addresses that it has itself.
#[derive(Clone)]
pub struct Parted {
    pub message: Vec<u8>,
    pub sender: Vec<u8>,
    pub recipient: Vec<u8>,
}

impl Parted {
    /// The application that keys change.
    pub fn worked() -> Parted {
        Parted::of(&keys::application()).expect("the worked application is readable")
    }

    /// The parts of a message, or none where it is not readable.
    pub fn of(message: &[u8]) -> Option<Parted> {
        let read = Application::read(message).ok()?;
        let after = read.range(Field::Recipient).end;
        let worked = &keys::application()[ADDRESSES];
        Some(Parted {
            message: [&message[..ADDRESSES.start], worked, &message[after..]].concat(),
            sender: read.field(Field::Sender).to_vec(),
            recipient: read.field(Field::Recipient).to_vec(),
        })
    }

    /// The message with its own addresses.
    pub fn joined(&self) -> Vec<u8> {
        let mut message = self.message[..ADDRESSES.start].to_vec();
        push_field(&mut message, 0x04, &self.sender);
        push_field(&mut message, 0x05, &self.recipient);
        message.extend_from_slice(&self.message[ADDRESSES.end..]);
        message
    }
}

/// The bytes of an address: up to five characters as they are filled up, or CODE/NUMBER/TEXT.
pub fn address_of(value: &Word) -> Result<Vec<u8>, String> {
    if value.text.len() > SHORT {
        let wrong = || format!("{} is not CODE/NUMBER/TEXT", value.text);
        return long_of(&value.text).ok_or_else(wrong);
    }
    let mut message = keys::application();
    CODE.put(&mut message, value)?;
    Ok(message[CODE.start..CODE.start + CODE.width].to_vec())
}

fn long_of(text: &str) -> Option<Vec<u8>> {
    let (code, rest) = text.split_once('/')?;
    let (number, text) = rest.split_once('/')?;
    let address = Address::long(digits_of(code)?, digits_of(number)?, text.as_bytes());
    let mut bytes = vec![0; LONG];
    address.fits().then(|| address.fill(&mut bytes))?;
    Some(bytes)
}

fn digits_of(text: &str) -> Option<u64> {
    text.parse().ok().filter(|_| text.bytes().all(|byte| byte.is_ascii_digit()))
}

/// An address as a word, or none where a script cannot write it.
pub fn address_text(address: &[u8]) -> Option<String> {
    if address.len() == LONG {
        Address::read(address)?;
    }
    keys::printed(address)
}
