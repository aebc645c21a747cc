//! Reading a 6G1, writing one, and the trip there and back.

use independent::application::{Application, Draft, Field, SHORTEST};
use independent::award::{Amount, Bid, Rate};
use independent::compose::{draft, written};
use independent::refusal::Refusal;

fn full() -> Draft<'static> {
    let mut message = draft(99_999, 999_999, &[]);
    message.kind = b"\0x\xff";
    message.recipient.code = 7;
    message.cro = 99_999_999_999;
    message.date = 99_999_999;
    message.check_digit = 12_345;
    for (place, numbers) in message.places.iter_mut().enumerate() {
        *numbers = (99_999_999 - place as u64, 999_999_999_999_999 - place as u64);
    }
    message
}

#[test]
fn a_read_message_gives_bytes_and_numbers() {
    let message = written(&draft(90001, 102_900, &[(150_000, 60_000)]));
    let read = Application::read(&message).unwrap();
    assert_eq!(message.len(), 339);
    assert_eq!(read.field(Field::Type), b"6G1");
    assert_eq!(read.field(Field::ReferenceTime), b"102900");
    assert_eq!(read.field(Field::Bids).len(), 240);
    assert_eq!(read.field(Field::Name), b"CONTACT NAME   ");
    assert_eq!(read.number(Field::Sender), Some(90001));
    assert_eq!(read.number(Field::Recipient), Some(1000));
    assert_eq!(read.number(Field::Cro), Some(1));
    assert_eq!(read.number(Field::ReferenceDate), Some(12_032_012));
    assert_eq!(read.number(Field::Name), None);
    assert_eq!(read.place(0), Some(Bid { rate: Rate(150_000), amount: Amount(60_000) }));
    assert_eq!(read.place(9), Some(Bid::ZERO));
}

#[test]
fn a_field_or_place_without_digits_has_none_by_itself() {
    let mut message = written(&full());
    message[9] = b' ';
    message[81 + 24 + 8] = b':';
    let read = Application::read(&message).unwrap();
    assert_eq!(read.number(Field::Sender), None);
    assert_eq!(read.number(Field::CheckDigit), Some(12_345));
    assert_eq!(read.place(1), None);
    assert!(read.place(0).is_some() && read.place(2).is_some());
    assert!(read.places().is_none() && Draft::of(&read).is_none());
}

#[test]
fn other_envelopes_are_not_read() {
    let message = written(&full());
    for length in [0, 1, 338] {
        assert_eq!(Application::read(&message[..length]).unwrap_err(), Refusal::Unreadable);
    }
    for start in [0, 1, 2, 6, 14, 22, 36, 47, 56, 64, 78, 79, 80, 321] {
        let mut other = message.clone();
        other[start] ^= 1;
        assert_eq!(Application::read(&other).unwrap_err(), Refusal::Unreadable);
    }
}

#[test]
fn a_message_makes_the_trip_there_and_back() {
    for first in [written(&full()), written(&draft(0, 0, &[])), written(&draft(1, 2, &[(3, 4)]))] {
        let read = Application::read(&first).unwrap();
        assert_eq!(written(&Draft::of(&read).unwrap()), first);
    }
}

#[test]
fn bytes_past_a_written_message_stay() {
    let mut space = [0xee; SHORTEST + 4];
    full().write(&mut space).unwrap();
    assert_eq!(space[SHORTEST..], [0xee; 4]);
    assert_eq!(space[..SHORTEST], written(&full()));
}

#[test]
fn r17_what_does_not_fit() {
    let refused = |change: &dyn Fn(&mut Draft)| {
        let mut message = full();
        change(&mut message);
        let mut space = [0xee; 10];
        assert_eq!(message.write(&mut space), Err(Refusal::Unfit));
        assert_eq!(space, [0xee; 10]);
    };
    refused(&|message| message.sender.code = 100_000);
    refused(&|message| message.recipient.code = 100_000);
    refused(&|message| message.cro = 100_000_000_000);
    refused(&|message| message.date = 100_000_000);
    refused(&|message| message.time = 1_000_000);
    refused(&|message| message.check_digit = u64::MAX);
    refused(&|message| message.kind = b"6G");
    refused(&|message| message.name = b"sixteen letters.");
    refused(&|message| message.identifier = b"T-2012/0001");
    refused(&|message| message.identifier = b"T/2012/001");
    refused(&|message| message.places[9].0 = 100_000_000);
    refused(&|message| message.places[9].1 = 1_000_000_000_000_000);
}

#[test]
fn r18_too_little_space() {
    let mut space = [0xee; SHORTEST - 1];
    assert_eq!(full().write(&mut space), Err(Refusal::OutputShort));
    assert_eq!(space, [0xee; SHORTEST - 1]);
}
