//! What the compared messages showed.

use crate::interface::NUMBERS;
use crate::messages::damage;
use crate::messages::reading::LONGEST_ARRAY;
use crate::messages::writing::UNFIT_PARTS;
use independent::address::{LONG, SHORT};
use independent::application::PLACES;
use std::collections::BTreeMap;

/// The digit fields, by their numbers.
pub const DIGIT_FIELDS: std::ops::RangeInclusive<u32> = 1..=6;

/// What a message or a call of it can show.
#[derive(Clone, Copy, Debug, PartialEq, Eq, PartialOrd, Ord)]
pub enum Outcome {
    /// A message readable or not after this damage.
    Damaged(&'static str),
    Readable,
    Unreadable,
    WellFormed,
    MalformedIdentifier,
    Number(u32),
    NoNumber(u32),
    /// A message whose sender and recipient have these lengths.
    Lengths(usize, usize),
    /// A long address that is read, or is not.
    Branch(u32),
    NoBranch(u32),
    Place(u32),
    NoPlace(u32),
    /// All numbers read into an array of this length.
    Array(usize),
    /// Writing from a message's fields or from others: done, or refused.
    Written,
    /// Written to a message of this length.
    WrittenLength(usize),
    /// Written though a short form had a number and a text that a long one could not have.
    Unseen,
    Unfit,
    NoRoom,
    /// Writing refused where only this part is unfit.
    UnfitPart(usize),
    /// Writing refused as unfit where the space is short too.
    UnfitBeforeRoom,
}

/// How often each outcome was seen.
#[derive(Default)]
pub struct Tally(BTreeMap<Outcome, u64>);

impl Tally {
    pub fn add(&mut self, outcome: Outcome) {
        *self.0.entry(outcome).or_default() += 1;
    }

    pub fn of(&self, outcome: Outcome) -> u64 {
        self.0.get(&outcome).copied().unwrap_or(0)
    }

    /// The outcomes that no message showed.
    pub fn missing(&self) -> Vec<Outcome> {
        all().into_iter().flatten().filter(|&outcome| self.of(outcome) == 0).collect()
    }

    /// The counts, a line for each group of outcomes.
    pub fn text(&self) -> String {
        let count = |outcome| format!("{}: {}", name(outcome), self.of(outcome));
        let line = |group: Vec<_>| group.into_iter().map(count).collect::<Vec<_>>().join(", ");
        all().into_iter().map(line).collect::<Vec<_>>().join("\n")
    }
}

/// Every outcome that there is, in groups.
fn all() -> Vec<Vec<Outcome>> {
    use Outcome::*;
    let places = 0..PLACES as u32;
    let lengths = [(SHORT, SHORT), (LONG, SHORT), (SHORT, LONG), (LONG, LONG)];
    vec![
        vec![Readable, Unreadable, WellFormed, MalformedIdentifier],
        damage::KINDS.iter().map(|&(kind, _)| Damaged(kind)).collect(),
        DIGIT_FIELDS.flat_map(|field| [Number(field), NoNumber(field)]).collect(),
        lengths.map(|(sender, recipient)| Lengths(sender, recipient)).to_vec(),
        [1, 2].into_iter().flat_map(|field| [Branch(field), NoBranch(field)]).collect(),
        places.clone().map(Place).collect(),
        places.map(NoPlace).collect(),
        (0..=LONGEST_ARRAY).map(Array).collect(),
        vec![Written, Unseen, Unfit, NoRoom, UnfitBeforeRoom],
        [339, 348, 357].map(WrittenLength).to_vec(),
        (0..UNFIT_PARTS).map(UnfitPart).collect(),
    ]
}

fn field_name(field: u32) -> &'static str {
    ["01", "040", "050", "020", "D31", "601", "010", "6G0", "6G6", "6GG"][field as usize]
}

/// The parts after the numbers that can be unfit.
pub const TEXT_PARTS: [&str; 10] = [
    "type's length",
    "identifier's length",
    "name's length",
    "identifier's form",
    "040's length",
    "040's second number",
    "040's text",
    "050's length",
    "050's second number",
    "050's text",
];

fn part_name(part: usize) -> String {
    match part {
        0..=5 => field_name(part as u32 + 1).to_string(),
        6..=15 => format!("rate {}", part - 5),
        16..=25 => format!("amount {}", part - 15),
        _ => TEXT_PARTS[part - NUMBERS].to_string(),
    }
}

fn name(outcome: Outcome) -> String {
    match outcome {
        Outcome::Damaged(kind) => kind.to_string(),
        Outcome::Readable => "readable".to_string(),
        Outcome::Unreadable => "unreadable".to_string(),
        Outcome::WellFormed => "well formed".to_string(),
        Outcome::MalformedIdentifier => "malformed identifier".to_string(),
        Outcome::Number(field) => format!("{} a number", field_name(field)),
        Outcome::NoNumber(field) => format!("{} none", field_name(field)),
        Outcome::Lengths(sender, recipient) => format!("040 of {sender} and 050 of {recipient}"),
        Outcome::Branch(field) => format!("{} a branch", field_name(field)),
        Outcome::NoBranch(field) => format!("{} long without a branch", field_name(field)),
        Outcome::Place(place) => format!("place {} well formed", place + 1),
        Outcome::NoPlace(place) => format!("place {} malformed", place + 1),
        Outcome::Array(length) => format!("array of {length}"),
        Outcome::Written => "written".to_string(),
        Outcome::WrittenLength(length) => format!("written {length} bytes"),
        Outcome::Unseen => "written past an unfit branch of a short form".to_string(),
        Outcome::Unfit => "17".to_string(),
        Outcome::NoRoom => "18".to_string(),
        Outcome::UnfitBeforeRoom => "17 with a short space".to_string(),
        Outcome::UnfitPart(part) => format!("17 for {}", part_name(part)),
    }
}
