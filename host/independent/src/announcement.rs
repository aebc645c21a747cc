//! The 6G0, an announcement of the Treasury, and the terms of the tender that it opens.

use crate::application::is_identifier;
use crate::award::{Amount, Offer, Rate, Side};
use crate::calendar::{Date, Moment, Time};
use crate::digits;
use crate::envelope;
use crate::refusal::Refusal;

const LAYOUT: [(u8, usize); 12] = [
    (0x01, 3),
    (0x04, 5),
    (0x05, 5),
    (0x02, 11),
    (0x31, 8),
    (0x60, 6),
    (0x70, 11),
    (0x71, 18),
    (0x72, 100),
    (0x73, 8),
    (0x74, 8),
    (0x75, 6),
];

/// The bytes of a whole 6G0.
pub const LENGTH: usize = envelope::whole(&LAYOUT);

/// The code that the Treasury sends and receives under.
pub const TREASURY: &[u8; 5] = b"01000";

/// The fields of a 6G0, in their order.
#[derive(Clone, Copy)]
enum Field {
    Type,
    Sender,
    Recipient,
    Cro,
    ReferenceDate,
    ReferenceTime,
    Identifier,
    OperationType,
    Characteristics,
    SpotDate,
    ForwardDate,
    CutOff,
}

/// What a tender was announced with.
#[derive(Clone, Debug, PartialEq, Eq)]
pub struct Terms {
    pub identifier: [u8; 11],
    pub execution: Date,
    pub cut_off: Moment,
    pub most_bids: usize,
    pub minimum: Amount,
    pub increment: Amount,
    pub maximum: Option<Amount>,
    pub minimum_allocation: Amount,
    pub offer: Offer,
}

/// The parts of the characteristics.
struct Characteristics {
    execution: Date,
    most_bids: u64,
    offered: u64,
    minimum: u64,
    increment: u64,
    maximum: u64,
    minimum_allocation: u64,
    limit: u64,
}

/// The dates and the time of an announcement.
struct Dates {
    reference: Date,
    spot: Date,
    forward: Date,
    cut_off: Time,
}

impl Terms {
    /// Reads an announcement, which conditions 1 to 6 may refuse.
    pub fn read(message: &[u8]) -> Result<Terms, Refusal> {
        Refusal::NotAnnouncement.if_so(!envelope::has_layout(message, &LAYOUT))?;
        let field = |field| field_of(message, field);
        let is_origin = field(Field::Type) == b"6G0" && field(Field::Sender) == TREASURY;
        Refusal::OtherOrigin.if_so(!is_origin)?;
        Refusal::Malformed.if_so(!has_well_formed_heading(message))?;
        let dates = read_dates(message).ok_or(Refusal::Malformed)?;
        let told = read_characteristics(field(Field::Characteristics)).ok_or(Refusal::Malformed)?;
        let side = read_side(field(Field::OperationType)).ok_or(Refusal::UnknownType)?;
        Refusal::Impossible.if_so(!told.is_possible())?;
        Refusal::Disordered.if_so(!dates.are_ordered(told.execution))?;
        let mut identifier = [0; 11];
        identifier.copy_from_slice(field(Field::Identifier));
        Ok(told.terms(identifier, dates.cut_off, side))
    }
}

fn field_of(message: &[u8], field: Field) -> &[u8] {
    let start = envelope::contents_start(&LAYOUT, field as usize);
    &message[start..start + LAYOUT[field as usize].1]
}

fn has_well_formed_heading(message: &[u8]) -> bool {
    digits::are_digits(field_of(message, Field::Recipient))
        && digits::are_digits(field_of(message, Field::Cro))
        && Time::of_text(field_of(message, Field::ReferenceTime)).is_some()
        && is_identifier(field_of(message, Field::Identifier))
}

fn read_dates(message: &[u8]) -> Option<Dates> {
    Some(Dates {
        reference: Date::of_text(field_of(message, Field::ReferenceDate))?,
        spot: Date::of_text(field_of(message, Field::SpotDate))?,
        forward: Date::of_text(field_of(message, Field::ForwardDate))?,
        cut_off: Time::of_text(field_of(message, Field::CutOff))?,
    })
}

impl Dates {
    fn are_ordered(&self, execution: Date) -> bool {
        self.reference <= execution && execution <= self.spot && self.spot < self.forward
    }
}

fn read_side(text: &[u8]) -> Option<Side> {
    let side = match &text[6..8] {
        b"LA" => Side::Collects,
        b"LP" => Side::Invests,
        _ => return None,
    };
    let has_form = text.starts_with(b"NC/FD/")
        && text[8..11] == *b"/R/"
        && matches!(text[11], b'Y' | b'N')
        && text.ends_with(b"/VR/MR");
    has_form.then_some(side)
}

fn read_characteristics(text: &[u8]) -> Option<Characteristics> {
    let mut rest = text;
    let execution = Date::of_text(next_part(&mut rest, 8)?)?;
    let most_bids = digits::number(next_part(&mut rest, 2)?)?;
    let mut amounts = [0; 5];
    for amount in &mut amounts {
        *amount = digits::number(next_part(&mut rest, 15)?)?;
    }
    let limit = digits::number(rest)?;
    let [offered, minimum, increment, maximum, minimum_allocation] = amounts;
    Some(Characteristics {
        execution,
        most_bids,
        offered,
        minimum,
        increment,
        maximum,
        minimum_allocation,
        limit,
    })
}

/// Takes a part of this width and the slash after it, or gives none where no slash stands there.
fn next_part<'a>(rest: &mut &'a [u8], width: usize) -> Option<&'a [u8]> {
    let (part, after) = rest.split_at(width);
    *rest = after.strip_prefix(b"/")?;
    Some(part)
}

impl Characteristics {
    fn is_possible(&self) -> bool {
        (1..=10).contains(&self.most_bids)
            && self.offered > 0
            && self.minimum > 0
            && self.increment > 0
            && (self.maximum == 0 || self.maximum >= self.minimum)
    }

    fn terms(&self, identifier: [u8; 11], cut_off: Time, side: Side) -> Terms {
        Terms {
            identifier,
            execution: self.execution,
            cut_off: Moment { date: self.execution, time: cut_off },
            most_bids: self.most_bids as usize,
            minimum: Amount(self.minimum),
            increment: Amount(self.increment),
            maximum: (self.maximum > 0).then_some(Amount(self.maximum)),
            minimum_allocation: Amount(self.minimum_allocation),
            offer: Offer { side, amount: Amount(self.offered), limit: Rate(self.limit as u32) },
        }
    }
}
