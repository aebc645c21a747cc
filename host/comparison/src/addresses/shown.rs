//! What the addresses of received messages showed.

use super::{is_wrong_by_second_five, is_wrong_by_slash};
use independent::address::{first_five, LONG, SHORT};
use independent::application::{Application, Field};
use independent::envelope::split_field;
use std::collections::BTreeMap;
use std::iter::successors;

const NOT_IN_PLACE: u64 = 309;
const NOT_LATER: u64 = 302;

/// What addresses can show.
pub const NAMES: [&str; 8] = [
    "both addresses long",
    "a long sender confirmed",
    "a long recipient confirmed",
    "a malformed recipient confirmed",
    "309 for the second five",
    "309 for a slash",
    "302 for another branch",
    "a long address returned",
];

/// How many long addresses a message has that is as long as an announcement with them.
pub fn long_addresses(message: &[u8]) -> usize {
    let fields = successors(split_field(message), |(_, _, rest)| split_field(rest));
    let addresses = fields.skip(1).take(2);
    let long = addresses.filter(|(_, address, _)| address.len() == LONG).count();
    let whole = independent::announcement::LENGTH + long * (LONG - SHORT);
    if message.len() == whole {
        long
    } else {
        0
    }
}

/// The sender of the last accepted application of each code of a tender.
#[derive(Default)]
pub struct Shown {
    accepted: BTreeMap<Vec<u8>, Vec<u8>>,
}

impl Shown {
    /// Forgets the applications of the tender before.
    pub fn open(&mut self) {
        self.accepted.clear();
    }

    /// Which of the names an application with these errors shows; without any it is confirmed.
    pub fn of(&mut self, application: &Application, errors: &[u64]) -> [bool; NAMES.len()] {
        let sender = application.field(Field::Sender);
        let recipient = application.field(Field::Recipient);
        let [long_sender, long_recipient] =
            [sender, recipient].map(|address| address.len() == LONG);
        let is_confirmed = errors.is_empty();
        let has = |code| errors.contains(&code);
        let last = self.accepted.get(first_five(sender));
        let is_other = last.is_some_and(|last| last != sender);
        if is_confirmed {
            self.accepted.insert(first_five(sender).to_vec(), sender.to_vec());
        }
        [
            long_sender && long_recipient,
            is_confirmed && long_sender,
            is_confirmed && long_recipient,
            is_confirmed && application.recipient().is_none(),
            has(NOT_IN_PLACE) && is_wrong_by_second_five(sender),
            has(NOT_IN_PLACE) && is_wrong_by_slash(sender),
            has(NOT_LATER) && is_other,
            !is_confirmed && (long_sender || long_recipient),
        ]
    }
}
