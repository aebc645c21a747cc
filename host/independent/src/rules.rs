//! What the terms of a tender ask of an application.

use crate::announcement::{Terms, TREASURY};
use crate::application::{Application, Field, PLACES};
use crate::award::{Bid, Rate};
use crate::calendar::{Date, Moment, Time};
use crate::digits;
use crate::errors::{ApplicationError as E, Errors};

/// Adds the errors of the type, the recipient, the CRO, the check digit and the identifier.
pub fn check_texts(terms: &Terms, application: &Application, errors: &mut Errors) {
    let field = |field| application.field(field);
    errors.add_if(E::OtherType, field(Field::Type) != b"6G1");
    errors.add_if(E::OtherRecipient, !field(Field::Recipient).starts_with(TREASURY));
    errors.add_if(E::CroNotDigits, !digits::are_digits(field(Field::Cro)));
    errors.add_if(E::CheckDigitNotDigits, !digits::are_digits(field(Field::CheckDigit)));
    errors.add_if(E::OtherIdentifier, field(Field::Identifier) != terms.identifier);
}

/// Adds the errors of the reference date.
pub fn check_date(terms: &Terms, application: &Application, errors: &mut Errors) {
    match Date::of_text(application.field(Field::ReferenceDate)) {
        None => errors.add_if(E::NoDate, true),
        Some(date) => errors.add_if(E::OtherDate, date != terms.execution),
    }
}

/// The reference time, or none with its error added.
pub fn check_time(application: &Application, errors: &mut Errors) -> Option<Time> {
    let time = Time::of_text(application.field(Field::ReferenceTime));
    errors.add_if(E::NoTime, time.is_none());
    time
}

/// The ten places, or none with the error added that one of them is malformed.
pub fn check_bids(
    terms: &Terms,
    application: &Application,
    errors: &mut Errors,
) -> Option<[Bid; PLACES]> {
    let places = application.places();
    match &places {
        None => errors.add_if(E::PlaceMalformed, true),
        Some(bids) => check_filled(terms, bids, errors),
    }
    places
}

fn check_filled(terms: &Terms, bids: &[Bid; PLACES], errors: &mut Errors) {
    let mut filled = 0;
    let mut total = 0;
    for (place, bid) in bids.iter().enumerate() {
        if bid.is_filled() {
            errors.add_if(E::Gap, filled < place);
            check_bid(terms, bid, errors);
            filled += 1;
            total += bid.amount.0;
        }
    }
    errors.add_if(E::TooManyBids, filled > terms.most_bids);
    errors.add_if(E::AboveMaximum, terms.maximum.is_some_and(|maximum| total > maximum.0));
}

fn check_bid(terms: &Terms, bid: &Bid, errors: &mut Errors) {
    errors.add_if(E::FineRate, is_fine(bid.rate));
    match bid.amount.0.checked_sub(terms.minimum.0) {
        None => errors.add_if(E::BelowMinimum, true),
        Some(above) => errors.add_if(E::OffIncrement, above % terms.increment.0 != 0),
    }
}

/// Whether one of a rate's last three digits is not zero.
fn is_fine(rate: Rate) -> bool {
    rate.0 % 1000 != 0
}

/// Adds the error that the application was received later than the cut-off.
pub fn check_reception(terms: &Terms, received: Moment, errors: &mut Errors) {
    errors.add_if(E::Late, received > terms.cut_off);
}
