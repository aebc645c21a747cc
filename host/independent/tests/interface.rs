//! The calls of the C interface against the plain form of reading and writing.

use independent::address::{Address, LONG, SHORT};
use independent::application::{Application, Draft, Field, LONGEST, PLACES, SHORTEST};
use independent::compose::{draft, written};
use independent::interface as calls;

/// The worked draft with bids of many digits, and with these addresses.
fn drafted(sender: Address<'static>, recipient: Address<'static>) -> Draft<'static> {
    let bids: Vec<_> = (0..10).map(|k| (12_345_678 + k, 876_543_210_987_654 - k)).collect();
    Draft { sender, recipient, ..draft(0, 123_456, &bids) }
}

/// A message of each form: 339, 348 in two ways, and 357 bytes.
fn messages() -> [Vec<u8>; 4] {
    let senders = [Address::short(90_210), Address::long(90_210, 54_321, b"/\0")];
    let recipients = [Address::short(1000), Address::long(1000, 9, b"\xff7")];
    let all = [(0, 0), (1, 0), (0, 1), (1, 1)];
    all.map(|(sender, recipient)| written(&drafted(senders[sender], recipients[recipient])))
}

/// Holds every call to what the plain form gives.
fn assert_same(message: &[u8]) {
    let read = Application::read(message).ok();
    assert_eq!(calls::read(message), if read.is_some() { 0 } else { 12 });
    for number in 0..12 {
        let field = read.zip(Field::ALL.get(number as usize).copied());
        let text = field.map(|(read, field)| read.field(field));
        let value = field.and_then(|(read, field)| read.number(field));
        let start = text.map_or(0, |text| text.as_ptr() as usize - message.as_ptr() as usize);
        assert_eq!(calls::has_field(message, number), u32::from(text.is_some()));
        assert_eq!(calls::start(message, number), start);
        assert_eq!(calls::length(message, number), text.map_or(0, <[u8]>::len));
        assert_eq!(calls::has_number(message, number), u32::from(value.is_some()));
        assert_eq!(calls::number(message, number), value.unwrap_or(0));
        let place = read.filter(|_| number < 10).and_then(|read| read.place(number as usize));
        assert_eq!(calls::has_place(message, number), u32::from(place.is_some()));
        assert_eq!(calls::rate(message, number), place.map_or(0, |bid| bid.rate.0));
        assert_eq!(calls::amount(message, number), place.map_or(0, |bid| bid.amount.0));
    }
    assert_same_numbers(message);
}

/// Holds the numbers of a whole message to those of the single calls, in arrays of every length.
fn assert_same_numbers(message: &[u8]) {
    let numbers = expected_numbers(message);
    for length in 0..=calls::NUMBERS + 5 {
        let mut array = vec![7; length];
        let answer = calls::numbers(message, &mut array);
        let given = if answer == 0 { length.min(calls::NUMBERS) } else { 0 };
        assert_eq!(answer, calls::read(message));
        assert_eq!(array[..given], numbers[..given]);
        assert!(array[given..].iter().all(|&entry| entry == 7));
    }
}

fn expected_numbers(message: &[u8]) -> Vec<u64> {
    let mut expected = Vec::new();
    for field in 1..7 {
        expected.push(calls::number(message, field));
        expected.push(u64::from(calls::has_number(message, field)));
    }
    for place in 0..PLACES as u32 {
        expected.push(u64::from(calls::rate(message, place)));
        expected.push(calls::amount(message, place));
        expected.push(u64::from(calls::has_place(message, place)));
    }
    expected.extend([0, 7, 9].map(|field| calls::start(message, field) as u64));
    let read = Application::read(message).ok();
    let addresses = read.map_or([None; 2], |read| [read.sender(), read.recipient()]);
    for (address, field) in addresses.into_iter().zip([1, 2]) {
        let branch = address.and_then(|address| address.branch);
        let text = calls::start(message, field) as u64 + 12;
        expected.extend(branch.map_or([0; 3], |branch| [1, branch.number, text]));
    }
    assert_eq!(expected.len(), calls::NUMBERS);
    expected
}

#[test]
fn every_byte_is_read_as_in_the_plain_form() {
    for message in messages() {
        assert_same(&message);
        for index in 0..message.len() {
            for byte in *b"09/: A\0\x05\x0e\x7f\x80\xb0\xff" {
                let mut changed = message.clone();
                changed[index] = byte;
                assert_same(&changed);
            }
        }
    }
}

#[test]
fn every_other_length_is_unreadable() {
    for message in messages() {
        let twice = message.repeat(2);
        for length in (0..twice.len()).filter(|&length| length != message.len()) {
            assert_eq!(calls::read(&twice[..length]), 12);
        }
        for length in [0, 5, 22, 316, 317, message.len() - 9, message.len() + 9] {
            assert_same(&twice[..length]);
        }
    }
}

#[test]
fn the_numbers_of_long_addresses_come_last() {
    let [short, sender, recipient, both] = messages().map(|message| {
        let mut numbers = [7; calls::NUMBERS];
        assert_eq!(calls::numbers(&message, &mut numbers), 0);
        assert_eq!(numbers[..4], [90_210, 1, 1000, 1]);
        numbers[45..].to_vec()
    });
    assert_eq!(short, [0, 0, 0, 0, 0, 0]);
    assert_eq!(sender, [1, 54_321, 21, 0, 0, 0]);
    assert_eq!(recipient, [0, 0, 0, 1, 9, 29]);
    assert_eq!(both, [1, 54_321, 21, 1, 9, 38]);
}

#[rustfmt::skip] // The numbers stand as in include/optes.h.
fn write(draft: &Draft, space: &mut [u8]) -> u32 {
    let p = draft.places;
    calls::write(
        draft.sender.code, draft.recipient.code,
        draft.cro, draft.date, draft.time, draft.check_digit,
        p[0].0, p[1].0, p[2].0, p[3].0, p[4].0, p[5].0, p[6].0, p[7].0, p[8].0, p[9].0,
        p[0].1, p[1].1, p[2].1, p[3].1, p[4].1, p[5].1, p[6].1, p[7].1, p[8].1, p[9].1,
        draft.kind, draft.identifier, draft.name, space,
    )
}

/// Writes with a length, a number and a text for each address, whatever its draft has.
#[rustfmt::skip] // The numbers stand as in include/optes.h.
fn write_addresses(draft: &Draft, branches: [(u64, u64, &[u8]); 2], space: &mut [u8]) -> u32 {
    let (p, [sender, recipient]) = (draft.places, branches);
    calls::write_addresses(
        draft.sender.code, sender.0, sender.1, draft.recipient.code, recipient.0, recipient.1,
        draft.cro, draft.date, draft.time, draft.check_digit,
        p[0].0, p[1].0, p[2].0, p[3].0, p[4].0, p[5].0, p[6].0, p[7].0, p[8].0, p[9].0,
        p[0].1, p[1].1, p[2].1, p[3].1, p[4].1, p[5].1, p[6].1, p[7].1, p[8].1, p[9].1,
        sender.2, recipient.2, draft.kind, draft.identifier, draft.name, space,
    )
}

/// The length, number and text of an address; what the short form does not look at is unfit.
fn branch_of<'a>(address: &Address<'a>) -> (u64, u64, &'a [u8]) {
    let unfit = (SHORT as u64, u64::MAX, &b"unfit"[..]);
    address.branch.map_or(unfit, |branch| (LONG as u64, branch.number, branch.text))
}

/// Holds a write to what the plain form gives, every byte of the space included.
fn assert_same_write(draft: &Draft, length: usize) -> u32 {
    let (mut space, mut expected) = (vec![0xee; length], vec![0xee; length]);
    let branches = [&draft.sender, &draft.recipient].map(branch_of);
    let answer = write_addresses(draft, branches, &mut space);
    let refusal = draft.write(&mut expected).err();
    assert_eq!(u64::from(answer), refusal.map_or(0, |refusal| refusal.number()));
    assert_eq!(space, expected);
    if draft.length() == SHORTEST {
        let mut short = vec![0xee; length];
        assert_eq!(write(draft, &mut short), answer);
        assert_eq!(short, expected);
    }
    answer
}

#[test]
fn a_written_message_is_that_of_the_plain_form() {
    for value in [0, 1, 9, 10, 99_999, 12_345] {
        let mut sound = draft(value, value, &[(value, value); PLACES]);
        sound.cro = 99_999_999_999 - value;
        sound.places[9] = (99_999_999 - value, 999_999_999_999_999 - value);
        assert_eq!(assert_same_write(&sound, SHORTEST), 0);
        assert_eq!(assert_same_write(&sound, SHORTEST + 7), 0);
        assert_eq!(assert_same_write(&sound, SHORTEST - 1), 18);
        assert_eq!(assert_same_write(&sound, 0), 18);
    }
}

#[test]
fn writing_needs_the_length_of_what_it_writes() {
    let short = Address::short(90_001);
    let long = Address::long(90_001, 99_999, b"\0/");
    for (sender, recipient, least) in
        [(short, short, 339), (long, short, 348), (short, long, 348), (long, long, 357)]
    {
        let draft = drafted(sender, recipient);
        for room in [0, 338, 339, 347, 348, 356, 357, 358] {
            assert_eq!(assert_same_write(&draft, room), if room < least { 18 } else { 0 });
        }
    }
}

#[test]
fn r17_what_an_address_cannot_be_written_from() {
    let sound = (14, 99_999, &b"AB"[..]);
    let short = (5, 100_000, &b""[..]);
    let draft = drafted(Address::short(1), Address::short(2));
    for unfit in [
        (14, 100_000, &b"AB"[..]),
        (14, u64::MAX, b"AB"),
        (14, 0, b""),
        (14, 0, b"A"),
        (14, 0, b"ABC"),
        (0, 0, b"AB"),
        (4, 0, b"AB"),
        (6, 0, b"AB"),
        (13, 0, b"AB"),
        (15, 0, b"AB"),
        ((1 << 32) + 5, 0, b"AB"),
        ((1 << 32) + 14, 0, b"AB"),
        (u64::MAX, 0, b"AB"),
    ] {
        for room in [0, LONGEST] {
            let mut space = vec![0xee; room];
            for branches in [[unfit, sound], [sound, unfit], [unfit, short], [short, unfit]] {
                assert_eq!(write_addresses(&draft, branches, &mut space), 17);
            }
            assert_eq!(space, vec![0xee; room]);
        }
    }
    assert_eq!(write_addresses(&draft, [sound, short], &mut [0; 348]), 0);
    assert_eq!(write_addresses(&draft, [short, sound], &mut [0; 348]), 0);
    assert_eq!(write_addresses(&draft, [sound, sound], &mut [0; 356]), 18);
}

#[test]
fn what_does_not_fit_is_refused_as_in_the_plain_form() {
    let refused = |change: &dyn Fn(&mut Draft)| {
        let mut unfit = draft(1, 1, &[]);
        change(&mut unfit);
        assert_eq!(assert_same_write(&unfit, SHORTEST), 17);
        assert_eq!(assert_same_write(&unfit, 5), 17);
    };
    refused(&|draft| draft.sender.code = 100_000);
    refused(&|draft| draft.recipient.code = 100_000);
    refused(&|draft| draft.cro = 100_000_000_000);
    refused(&|draft| draft.date = 100_000_000);
    refused(&|draft| draft.time = 1_000_000);
    refused(&|draft| draft.check_digit = 100_000);
    for place in 0..PLACES {
        refused(&|draft| draft.places[place].0 = 100_000_000);
        refused(&|draft| draft.places[place].1 = 1_000_000_000_000_000);
        refused(&|draft| draft.places[place].0 = u64::MAX);
    }
    refused(&|draft| draft.kind = b"6G");
    refused(&|draft| draft.name = b"");
    refused(&|draft| draft.identifier = b"T/2012/00010");
    for identifier in
        [b"U/2012/0001", b"T:2012/0001", b"T/201:/0001", b"T/2012.0001", b"T/2012/000/"]
    {
        refused(&|draft| draft.identifier = identifier);
    }
}
