//! Keys of announcements and applications: where their values stand in the worked example's bytes.

use crate::calls::script::line::Word;
use independent::application::PLACES;
use independent::compose::{draft, written, Announcement};

/// A key, where its value starts and how many bytes it has.
pub struct Key {
    pub name: &'static str,
    pub start: usize,
    pub width: usize,
}

const fn key(name: &'static str, start: usize, width: usize) -> Key {
    Key { name, start, width }
}

pub const ANNOUNCEMENT: [Key; 20] = [
    key("type", 3, 3),
    key("sender", 9, 5),
    key("recipient", 17, 5),
    key("cro", 25, 11),
    key("date", 39, 8),
    key("time", 50, 6),
    key("identifier", 59, 11),
    key("side", 79, 2),
    key("letter", 84, 1),
    key("execution", 94, 8),
    key("most", 103, 2),
    key("offered", 106, 15),
    key("minimum", 122, 15),
    key("increment", 138, 15),
    key("maximum", 154, 15),
    key("allocation", 170, 15),
    key("limit", 186, 8),
    key("spot", 197, 8),
    key("forward", 208, 8),
    key("cutoff", 219, 6),
];

/// The keys of an application but for its recipient, whose length moves them.
pub const APPLICATION: [Key; 6] = [
    key("cro", 25, 11),
    key("date", 39, 8),
    key("check", 59, 5),
    key("type", 3, 3),
    key("identifier", 67, 11),
    key("name", 324, 15),
];

/// The keys whose digits are written with the zeros before them.
const WHOLE: [&str; 9] =
    ["sender", "recipient", "date", "time", "execution", "spot", "forward", "cutoff", "name"];

/// The key of an application's recipient.
pub const RECIPIENT: &str = "recipient";
pub const CODE: Key = key("code", 9, 5);
pub const REFERENCE_TIME: Key = key("reference time", 50, 6);

/// The keys of a place's rate and amount.
pub fn place(index: usize) -> (Key, Key) {
    let start = 81 + 24 * index;
    (key("rate", start, 8), key("amount", start + 9, 15))
}

/// The announcement that keys change.
pub fn announcement() -> Vec<u8> {
    Announcement::worked().write()
}

/// The application, without bids, that keys change.
pub fn application() -> Vec<u8> {
    written(&draft(0, 0, &[]))
}

impl Key {
    /// Puts a value into a message.
    pub fn put(&self, message: &mut [u8], value: &Word) -> Result<(), String> {
        let text = value.text.as_bytes();
        let space = &mut message[self.start..self.start + self.width];
        let is_number = !value.quoted && text.iter().all(u8::is_ascii_digit);
        if text.len() > self.width || (text.len() < self.width && !value.quoted && !is_number) {
            return Err(format!("{} does not fit {}", value.text, self.name));
        }
        let left = self.width - text.len();
        let (start, filling) = if is_number { (left, b'0') } else { (0, b' ') };
        space.fill(filling);
        space[start..start + text.len()].copy_from_slice(text);
        Ok(())
    }

    /// The value in a message as a word, or none where a script cannot write it.
    pub fn value(&self, message: &[u8]) -> Option<String> {
        let text = std::str::from_utf8(&message[self.start..self.start + self.width]).ok()?;
        if text.bytes().all(|byte| byte.is_ascii_digit()) {
            let is_whole = WHOLE.contains(&self.name);
            let number = if is_whole { text } else { text.trim_start_matches('0') };
            return Some(if number.is_empty() { "0" } else { number }.to_string());
        }
        printed(text.as_bytes())
    }
}

/// A text as a word, in double quotes where it has blanks, or none where a script cannot write it.
pub fn printed(text: &[u8]) -> Option<String> {
    let text = std::str::from_utf8(text).ok()?;
    let is_written = text.bytes().all(|byte| (b' '..=b'~').contains(&byte) && byte != b'"');
    is_written.then(|| if text.contains(' ') { format!("\"{text}\"") } else { text.to_string() })
}

/// A place with its rate, its slash and its amount.
pub fn whole_place(index: usize) -> Key {
    key("place", 81 + 24 * index, 24)
}

/// Puts a bid, RATE/AMOUNT, at a place of an application.
pub fn put_bid(message: &mut [u8], index: usize, word: &Word) -> Result<(), String> {
    if index == PLACES {
        return Err("an application has at most ten bids".to_string());
    }
    let wrong = || format!("{} is not RATE/AMOUNT", word.text);
    let (rate, amount) = word.text.split_once('/').ok_or_else(wrong)?;
    let (rate_key, amount_key) = place(index);
    for (key, text) in [(rate_key, rate), (amount_key, amount)] {
        let is_number = !text.is_empty() && text.bytes().all(|byte| byte.is_ascii_digit());
        if !is_number || word.quoted {
            return Err(wrong());
        }
        key.put(message, &Word { text: text.to_string(), quoted: false })?;
    }
    Ok(())
}
