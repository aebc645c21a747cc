//! The 6G1, an application of a counterparty with ten places for bids.

use crate::address::{Address, LONG, SHORT};
use crate::award::{Amount, Bid, Rate};
use crate::digits;
use crate::envelope::{self, HEADER};
use crate::refusal::Refusal;
use std::ops::Range;

/// The places of an application.
pub const PLACES: usize = 10;
pub(crate) const PLACE_BYTES: usize = 24;
const RATE_DIGITS: usize = 8;
const AMOUNT_DIGITS: usize = 15;
const ZERO_PLACE: &[u8; PLACE_BYTES] = b"00000000/000000000000000";

const FIELDS: usize = 10;

/// Where the fields of a 6G1 stand, which depends on the lengths of its two addresses.
#[derive(Debug)]
pub(crate) struct Form {
    layout: [(u8, usize); FIELDS],
    starts: [usize; FIELDS],
}

impl Form {
    /// The form with these lengths of the sender and of the recipient.
    pub(crate) const fn new(sender: usize, recipient: usize) -> Form {
        let layout = [
            (0x01, 3),
            (0x04, sender),
            (0x05, recipient),
            (0x02, 11),
            (0x31, 8),
            (0x60, 6),
            (0x10, 5),
            (0x70, 11),
            (0x76, PLACES * PLACE_BYTES),
            (0x7f, 15),
        ];
        let mut starts = [0; FIELDS];
        let mut index = 0;
        while index < FIELDS {
            starts[index] = envelope::contents_start(&layout, index);
            index += 1;
        }
        Form { layout, starts }
    }

    /// The tag and the length of a field.
    pub(crate) const fn head(&self, field: Field) -> (u8, usize) {
        self.layout[field as usize]
    }

    /// Where the contents of a field start.
    pub(crate) const fn start(&self, field: Field) -> usize {
        self.starts[field as usize]
    }

    /// The length of the whole message.
    pub(crate) const fn whole(&self) -> usize {
        envelope::whole(&self.layout)
    }

    /// Where the contents of a field are.
    #[inline]
    fn contents(&self, field: Field) -> Range<usize> {
        const OTHERS: [(u8, usize); FIELDS] = Form::new(SHORT, SHORT).layout;
        // Only the lengths of addresses are not constants.
        let length = match field {
            Field::Sender | Field::Recipient => self.layout[field as usize].1,
            _ => OTHERS[field as usize].1,
        };
        let start = self.start(field);
        start..start + length
    }
}

/// The forms that there are; each address is short or long by itself.
static BOTH_SHORT: Form = Form::new(SHORT, SHORT);
static SENDER_LONG: Form = Form::new(LONG, SHORT);
static RECIPIENT_LONG: Form = Form::new(SHORT, LONG);
static BOTH_LONG: Form = Form::new(LONG, LONG);

/// The form that the message has, or none where it is not readable.
fn form_of(message: &[u8]) -> Option<&'static Form> {
    // Each form is looked at by itself, so that its heads are constants.
    if envelope::has_layout(message, &BOTH_SHORT.layout) {
        Some(&BOTH_SHORT)
    } else if envelope::has_layout(message, &SENDER_LONG.layout) {
        Some(&SENDER_LONG)
    } else if envelope::has_layout(message, &RECIPIENT_LONG.layout) {
        Some(&RECIPIENT_LONG)
    } else if envelope::has_layout(message, &BOTH_LONG.layout) {
        Some(&BOTH_LONG)
    } else {
        None
    }
}

/// The bytes of the shortest and of the longest 6G1.
pub const SHORTEST: usize = Form::new(SHORT, SHORT).whole();
pub const LONGEST: usize = Form::new(LONG, LONG).whole();

/// The fields of a 6G1, in their order.
#[derive(Clone, Copy, Debug, PartialEq, Eq)]
pub enum Field {
    Type,
    Sender,
    Recipient,
    Cro,
    ReferenceDate,
    ReferenceTime,
    CheckDigit,
    Identifier,
    Bids,
    Name,
}

impl Field {
    /// The fields in their order.
    pub const ALL: [Field; FIELDS] = [
        Field::Type,
        Field::Sender,
        Field::Recipient,
        Field::Cro,
        Field::ReferenceDate,
        Field::ReferenceTime,
        Field::CheckDigit,
        Field::Identifier,
        Field::Bids,
        Field::Name,
    ];
}

/// A message that is readable as a 6G1 envelope.
#[derive(Clone, Copy, Debug)]
pub struct Application<'a> {
    message: &'a [u8],
    form: &'static Form,
}

impl<'a> Application<'a> {
    /// Reads a message; it is refused where its tags, order or lengths are not a 6G1's.
    pub fn read(message: &'a [u8]) -> Result<Application<'a>, Refusal> {
        let form = form_of(message).ok_or(Refusal::Unreadable)?;
        Ok(Application { message, form })
    }

    /// Where a field's bytes are in the message.
    #[inline]
    pub fn range(&self, field: Field) -> Range<usize> {
        self.form.contents(field)
    }

    /// A field's bytes.
    #[inline]
    pub fn field(&self, field: Field) -> &'a [u8] {
        &self.message[self.range(field)]
    }

    /// The sender, or none where a digit or slash of it is out of place.
    pub fn sender(&self) -> Option<Address<'a>> {
        Address::read(self.field(Field::Sender))
    }

    /// The recipient, or none where a digit or slash of it is out of place.
    pub fn recipient(&self) -> Option<Address<'a>> {
        Address::read(self.field(Field::Recipient))
    }

    /// A digit field's number, that of an address its code, or none where it is not digits or the
    /// field is a text.
    pub fn number(&self, field: Field) -> Option<u64> {
        match field {
            Field::Type | Field::Identifier | Field::Bids | Field::Name => None,
            Field::Sender => self.sender().map(|address| address.code),
            Field::Recipient => self.recipient().map(|address| address.code),
            _ => digits::number(self.field(field)),
        }
    }

    /// The rate and amount at a place from 0 to 9, or none where the place is malformed.
    pub fn place(&self, place: usize) -> Option<Bid> {
        let start = place * PLACE_BYTES;
        read_place(&self.field(Field::Bids)[start..start + PLACE_BYTES])
    }

    /// All ten places, or none where one of them is malformed.
    pub fn places(&self) -> Option<[Bid; PLACES]> {
        let mut bids = [Bid::ZERO; PLACES];
        for (bid, text) in bids.iter_mut().zip(self.field(Field::Bids).chunks_exact(PLACE_BYTES)) {
            *bid = read_place(text)?;
        }
        Some(bids)
    }
}

fn read_place(text: &[u8]) -> Option<Bid> {
    if text == ZERO_PLACE {
        return Some(Bid::ZERO);
    }
    let (rate, rest) = text.split_at(RATE_DIGITS);
    let rate = Rate(digits::number(rate)? as u32);
    let amount = Amount(digits::number(&rest[1..])?);
    (rest[0] == b'/').then_some(Bid { rate, amount })
}

/// Whether a text is `T/yyyy/nnnn` with any digits.
pub fn is_identifier(text: &[u8]) -> bool {
    text.len() == 11
        && text[..2] == *b"T/"
        && digits::are_digits(&text[2..6])
        && text[6] == b'/'
        && digits::are_digits(&text[7..])
}

/// What a 6G1 is written from: addresses, numbers for the other digit fields and the places, text for
/// the rest.
#[derive(Clone, Copy, Debug)]
pub struct Draft<'a> {
    pub kind: &'a [u8],
    pub sender: Address<'a>,
    pub recipient: Address<'a>,
    pub cro: u64,
    pub date: u64,
    pub time: u64,
    pub check_digit: u64,
    pub identifier: &'a [u8],
    pub places: [(u64, u64); PLACES],
    pub name: &'a [u8],
}

impl<'a> Draft<'a> {
    /// The draft that writes an application again, or none where it has a field without numbers.
    pub fn of(application: &Application<'a>) -> Option<Draft<'a>> {
        let places = application.places()?;
        Some(Draft {
            kind: application.field(Field::Type),
            sender: application.sender()?,
            recipient: application.recipient()?,
            cro: application.number(Field::Cro)?,
            date: application.number(Field::ReferenceDate)?,
            time: application.number(Field::ReferenceTime)?,
            check_digit: application.number(Field::CheckDigit)?,
            identifier: application.field(Field::Identifier),
            places: places.map(|bid| (u64::from(bid.rate.0), bid.amount.0)),
            name: application.field(Field::Name),
        })
    }

    /// Writes the 6G1 at the start of the space and leaves the bytes past it.
    pub fn write(&self, space: &mut [u8]) -> Result<(), Refusal> {
        Refusal::Unfit.if_so(!self.fits())?;
        let form = self.form();
        Refusal::OutputShort.if_so(space.len() < form.whole())?;
        for field in Field::ALL {
            let (start, (tag, length)) = (form.start(field), form.head(field));
            space[start - HEADER..start].copy_from_slice(&envelope::header(tag, length));
        }
        self.sender.fill(&mut space[form.contents(Field::Sender)]);
        self.recipient.fill(&mut space[form.contents(Field::Recipient)]);
        self.fill_others(form, space);
        write_places(&mut space[form.contents(Field::Bids)], &self.places);
        Ok(())
    }

    /// Fills the fields that are neither addresses nor bids.
    fn fill_others(&self, form: &Form, space: &mut [u8]) {
        self.numbers()
            .into_iter()
            .for_each(|(field, number)| digits::fill(&mut space[form.contents(field)], number));
        self.texts()
            .into_iter()
            .for_each(|(field, text)| space[form.contents(field)].copy_from_slice(text));
    }

    /// How many bytes the written message has.
    pub fn length(&self) -> usize {
        self.form().whole()
    }

    fn form(&self) -> &'static Form {
        match (self.sender.length(), self.recipient.length()) {
            (SHORT, SHORT) => &BOTH_SHORT,
            (LONG, SHORT) => &SENDER_LONG,
            (SHORT, _) => &RECIPIENT_LONG,
            _ => &BOTH_LONG,
        }
    }

    fn numbers(&self) -> [(Field, u64); 4] {
        [
            (Field::Cro, self.cro),
            (Field::ReferenceDate, self.date),
            (Field::ReferenceTime, self.time),
            (Field::CheckDigit, self.check_digit),
        ]
    }

    fn texts(&self) -> [(Field, &'a [u8]); 3] {
        [(Field::Type, self.kind), (Field::Identifier, self.identifier), (Field::Name, self.name)]
    }

    fn fits(&self) -> bool {
        let form = self.form();
        let width = |field: Field| form.head(field).1;
        self.sender.fits()
            && self.recipient.fits()
            && self.numbers().iter().all(|&(field, number)| digits::has_room(number, width(field)))
            && self.texts().iter().all(|&(field, text)| text.len() == width(field))
            && is_identifier(self.identifier)
            && self.places.iter().all(|&(rate, amount)| {
                digits::has_room(rate, RATE_DIGITS) && digits::has_room(amount, AMOUNT_DIGITS)
            })
    }
}

fn write_places(space: &mut [u8], places: &[(u64, u64); PLACES]) {
    for (place, &(rate, amount)) in space.chunks_exact_mut(PLACE_BYTES).zip(places) {
        digits::fill(&mut place[..RATE_DIGITS], rate);
        place[RATE_DIGITS] = b'/';
        digits::fill(&mut place[RATE_DIGITS + 1..], amount);
    }
}
