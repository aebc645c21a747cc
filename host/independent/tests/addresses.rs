//! Branch addresses: either address of a 6G1 short or long, read, answered, held and written.

mod common;

use common::{log, worked as session, DAY};
use independent::address::Address;
use independent::application::{Application, Draft, Field};
use independent::calendar::Moment;
use independent::compose::{draft, written, Announcement};
use independent::refusal::Refusal;
use independent::session as logs;
use independent::tender::Tender;

const BID: (u64, u64) = (150_000, 10_000);
const BRANCH: Address = Address::long(90001, 12_345, b"AB");
const TREASURY_BRANCH: Address = Address::long(1000, 678, b"\0/");
/// What stands in a space before a call.
const MARK: u8 = 0xa5;

/// A sound application with these addresses.
fn drafted<'a>(sender: Address<'a>, recipient: Address<'a>) -> Draft<'a> {
    Draft { sender, recipient, ..draft(0, 100_000, &[BID]) }
}

/// A sound application of each form: 339, 348 in two ways, and 357 bytes.
fn forms() -> [Vec<u8>; 4] {
    let (code, treasury) = (Address::short(90001), Address::short(1000));
    [(code, treasury), (BRANCH, treasury), (code, TREASURY_BRANCH), (BRANCH, TREASURY_BRANCH)]
        .map(|(sender, recipient)| written(&drafted(sender, recipient)))
}

/// The message of 357 bytes with these bytes as sender or recipient.
fn with(field: Field, bytes: &[u8; 14]) -> Vec<u8> {
    let mut message = written(&drafted(BRANCH, TREASURY_BRANCH));
    let range = Application::read(&message).unwrap().range(field);
    message[range].copy_from_slice(bytes);
    message
}

fn tender() -> Tender {
    let announcement = Announcement::worked().write();
    Tender::open(&announcement, &[90001, 90002], &[0; 2]).expect("the tender opens")
}

/// The codes of the errors and the reply that a message gets.
fn receive(tender: &mut Tender, message: &[u8]) -> (Vec<u64>, Vec<u8>) {
    let mut space = [MARK; 500];
    let clock = Moment::of_numbers(DAY, 103_000);
    let given = tender.receive(message, clock, &mut space).expect("the call is not refused");
    assert!(space[given.length..].iter().all(|&byte| byte == MARK), "bytes past a reply stay");
    (given.errors.codes().collect(), space[..given.length].to_vec())
}

fn errors_of(message: &[u8]) -> Vec<u64> {
    receive(&mut tender(), message).0
}

#[test]
fn each_address_is_short_or_long_by_itself() {
    let lengths = [(339, 5, 5), (348, 14, 5), (348, 5, 14), (357, 14, 14)];
    for (message, (whole, sender, recipient)) in forms().into_iter().zip(lengths) {
        let read = Application::read(&message).unwrap();
        assert_eq!(message.len(), whole);
        assert_eq!(read.field(Field::Sender).len(), sender);
        assert_eq!(read.field(Field::Recipient).len(), recipient);
        assert_eq!(read.number(Field::Sender), Some(90001));
        assert_eq!(read.number(Field::Recipient), Some(1000));
        assert_eq!(read.field(Field::Name), b"CONTACT NAME   ");
        assert_eq!(read.place(0).map(|bid| bid.amount.0), Some(10_000));
        assert_eq!(written(&Draft::of(&read).unwrap()), message);
        assert_eq!(errors_of(&message), []);
    }
}

#[test]
fn heads_and_length_must_agree() {
    let refused = |message: &[u8]| Application::read(message).err() == Some(Refusal::Unreadable);
    let [short, sender, recipient, both] = forms();
    let told = |message: &[u8], sender: u8, recipient_head: usize, recipient: u8| {
        let mut changed = message.to_vec();
        changed[8] = sender;
        changed[recipient_head + 2] = recipient;
        changed
    };
    assert!(refused(&told(&sender, 5, 23, 5)), "348 bytes whose heads say 5 and 5");
    assert!(refused(&told(&sender, 5, 23, 14)));
    assert!(refused(&told(&recipient, 14, 14, 5)));
    assert!(refused(&told(&recipient, 5, 14, 5)));
    assert!(refused(&told(&short, 14, 14, 5)), "339 bytes with a 14 in a head");
    assert!(refused(&told(&short, 5, 14, 14)));
    assert!(refused(&told(&both, 14, 23, 5)));
    for length in [0, 4, 6, 13, 15] {
        assert!(refused(&told(&both, length, 23, 14)));
        assert!(refused(&told(&both, 14, 23, length)));
    }
    for message in [&short, &sender, &recipient, &both] {
        assert!(refused(&message[..message.len() - 1]));
        assert!(refused(&[&message[..], b"0"].concat()));
    }
}

#[test]
fn every_byte_of_a_long_sender_counts_but_its_text() {
    for index in 0..14 {
        for byte in *b"09/: A\0\n\x7f\x80\xb0\xff" {
            let mut sender = *b"90001/12345/AB";
            sender[index] = byte;
            let given = errors_of(&with(Field::Sender, &sender));
            let is_digit = byte.is_ascii_digit();
            let expected: &[u64] = match index {
                0..=4 if is_digit && sender[..5] != *b"90001" => &[300],
                0..=4 | 6..=10 if !is_digit => &[309],
                5 | 11 if byte != b'/' => &[309],
                _ => &[],
            };
            assert_eq!(given, expected, "{byte:#x} at {index}");
        }
    }
}

#[test]
fn a_misplaced_slash_hides_that_a_sender_is_not_admitted() {
    assert_eq!(errors_of(&with(Field::Sender, b"99999/12345/AB")), [300]);
    assert_eq!(errors_of(&with(Field::Sender, b"99999/1234x/AB")), [309]);
    assert_eq!(errors_of(&with(Field::Sender, b"99999012345/AB")), [309]);
    assert_eq!(errors_of(&with(Field::Sender, b"9000/112345/AB")), [309]);
}

#[test]
fn a_long_recipient_is_right_by_its_first_five() {
    for bytes in [
        b"01000/12345/AB",
        b"01000xxxxxxxxx",
        b"01000\0\0\0\0\0\0\0\0\0",
        b"01000/1234x/AB",
        b"01000         ",
    ] {
        assert_eq!(errors_of(&with(Field::Recipient, bytes)), []);
    }
    for bytes in [b"01001/12345/AB", b"0100x/12345/AB", b"/01000/12345/A", b"1000//12345/AB"] {
        assert_eq!(errors_of(&with(Field::Recipient, bytes)), [599]);
    }
}

#[test]
fn a_recipient_may_be_accepted_and_read_as_none() {
    let message = with(Field::Recipient, b"01000xxxxxxxxx");
    let read = Application::read(&message).unwrap();
    assert_eq!(read.recipient(), None);
    assert_eq!(read.number(Field::Recipient), None);
    assert_eq!(read.field(Field::Recipient), b"01000xxxxxxxxx");
    assert!(Draft::of(&read).is_none());
    assert_eq!(errors_of(&message), []);
}

#[test]
fn a_long_address_is_read_as_a_whole_or_not_at_all() {
    let message = with(Field::Sender, b"90001/12345/\0\xff");
    let sender = Application::read(&message).unwrap().sender();
    assert_eq!(sender, Some(Address::long(90001, 12_345, b"\0\xff")));
    for bytes in [b"90001/1234x/AB", b"90001-12345/AB", b"90001/12345-AB", b"9000x/12345/AB"] {
        let message = with(Field::Sender, bytes);
        let read = Application::read(&message).unwrap();
        assert_eq!((read.sender(), read.number(Field::Sender)), (None, None));
        assert_eq!(read.field(Field::Sender), bytes);
    }
}

#[test]
fn branches_of_one_code_are_one_counterparty() {
    let mut tender = tender();
    let at = |sender, time| written(&Draft { time, ..drafted(sender, TREASURY_BRANCH) });
    let other = Address::long(90001, 54_321, b"ZZ");
    assert_eq!(receive(&mut tender, &at(BRANCH, 100_000)).0, []);
    assert_eq!(receive(&mut tender, &at(other, 100_000)).0, [302]);
    assert_eq!(receive(&mut tender, &at(Address::short(90001), 95_959)).0, [302]);
    assert_eq!(receive(&mut tender, &at(other, 100_001)).0, []);
    let held = tender.held(90001).unwrap();
    assert_eq!(held.time.map(|time| time.number()), Some(100_001));
    assert_eq!(held.bids.iter().filter(|bid| bid.is_filled()).count(), 1);
    assert_eq!(receive(&mut tender, &at(Address::long(90002, 12_345, b"AB"), 0)).0, []);
}

#[test]
fn a_confirmation_repeats_the_sender_whole() {
    let [short, sender, recipient, both] = forms();
    let confirmed = |message: &[u8]| receive(&mut tender(), message).1;
    let fields = |length: u8, sender: &[u8]| {
        [
            b"\x01\0\x036G2\x04\0\x0501000\x05\0",
            &[length][..],
            sender,
            b"\x22\0\x0b00000000001\x60\0\x06103000\x70\0\x0bT/2012/0001",
        ]
        .concat()
    };
    let (code, branch) = (fields(5, b"90001"), fields(14, b"90001/12345/AB"));
    assert_eq!((code.len(), branch.len()), (59, 68));
    assert_eq!([confirmed(&short), confirmed(&recipient)], [code.clone(), code]);
    assert_eq!([confirmed(&sender), confirmed(&both)], [branch.clone(), branch]);
}

#[test]
fn re01_returns_a_long_message_unchanged_in_436_bytes() {
    let mut message = drafted(Address::long(1, 2, b"\xff\0"), Address::long(3, 4, b"//"));
    message.kind = b"XXX";
    message.date = 1;
    message.time = 240_000;
    let message = written(&message);
    let (errors, reply) = receive(&mut tender(), &message);
    assert_eq!(errors, [900, 300, 599, 502, 503]);
    let text = b"001 - 900/040 - 300/050 - 599/D31 - 502/601 - 503";
    let wrong = b"\x98\0\x18*** MESSAGGIO ERRATO ***\x98\0\x31";
    assert_eq!(reply, [&message[..], wrong, text].concat());
    assert_eq!(reply.len(), 436);
}

#[test]
fn r11_needs_436_bytes_whatever_the_form() {
    let clock = Moment::of_numbers(DAY, 103_000);
    for message in forms() {
        let mut tender = tender();
        let before = tender.clone();
        let given = tender.receive(&message, clock, &mut [MARK; 435]).err();
        assert_eq!(given, Some(Refusal::ReplySpaceShort));
        assert_eq!(tender, before);
        assert!(tender.receive(&message, clock, &mut [MARK; 436]).is_ok());
    }
}

#[test]
fn r18_writing_needs_the_length_of_what_it_writes() {
    for message in forms() {
        let read = Application::read(&message).unwrap();
        let draft = Draft::of(&read).unwrap();
        assert_eq!(draft.length(), message.len());
        for room in [338, 339, 347, 348, 356, 357, 360] {
            let mut space = vec![MARK; room];
            let given = draft.write(&mut space);
            if room < message.len() {
                assert_eq!(given, Err(Refusal::OutputShort));
                assert_eq!(space, vec![MARK; room]);
            } else {
                assert_eq!(given, Ok(()));
                assert_eq!(space[..message.len()], message);
                assert!(space[message.len()..].iter().all(|&byte| byte == MARK));
            }
        }
    }
}

#[test]
fn r17_comes_before_r18_for_addresses_too() {
    let short = Address::short(1);
    for unfit in [
        Address::short(100_000),
        Address::long(100_000, 0, b"AB"),
        Address::long(0, 100_000, b"AB"),
        Address::long(0, 0, b"A"),
        Address::long(0, 0, b"ABC"),
    ] {
        for draft in [drafted(unfit, short), drafted(short, unfit)] {
            let mut space = [MARK; 357];
            assert_eq!(draft.write(&mut space[..338]), Err(Refusal::Unfit));
            assert_eq!(draft.write(&mut space), Err(Refusal::Unfit));
            assert_eq!(space, [MARK; 357]);
        }
    }
}

#[test]
fn r01_an_announcement_stays_at_five() {
    let worked = Announcement::worked().write();
    let long = |head: usize, address: &[u8; 14]| {
        let mut message = worked.clone();
        message[head + 2] = 14;
        message.splice(head + 3..head + 8, *address);
        Tender::open(&message, &[90001], &[0]).err()
    };
    assert_eq!(Tender::open(&worked, &[90001], &[0]).err(), None);
    assert_eq!(long(6, b"01000/12345/AB"), Some(Refusal::NotAnnouncement));
    assert_eq!(long(14, b"90001/12345/AB"), Some(Refusal::NotAnnouncement));
}

#[test]
fn the_log_shows_the_first_five_bytes() {
    let mut session = session();
    for message in forms() {
        session.receive(DAY, 103_000, &message);
    }
    session.close(DAY, 110_001).allot();
    let old = "R 12032012 103000 90001 601 - 302\n".repeat(3);
    let award = "W 90001 01 00150000 000000000010000\n";
    assert_eq!(log(&session), format!("C 12032012 103000 90001\n{old}{award}"));
    let mut session = common::worked();
    session.receive(DAY, 103_000, &with(Field::Sender, b"9\0\n01/\xff2345/AB"));
    let given = logs::log(&session.bytes);
    assert_eq!(given, b"R 12032012 103000 9\0\n01 040 - 309\n");
}
