//! Reads a script.

use crate::calls::book::WORDS;
use crate::calls::layout::{AMOUNTS, CODES, COUNT, FORM, LIMITS, OFFERED, STATE};
use crate::calls::padded::MARGIN;
use crate::calls::script::keys::{self, Key};
use crate::calls::script::line::{words, Word, Words};
use crate::calls::script::parted::{address_of, Parted};
use crate::calls::script::SPACE;
use crate::calls::step::{Call, Step};
use crate::sessions::plan::MOST_AMOUNT;
use independent::award::POSITIONS;
use independent::tender::MOST_CODES;

/// What the openings that follow are given: the admitted codes and their limits.
#[derive(Default)]
struct Admission {
    codes: Vec<u32>,
    limits: Vec<u64>,
}

/// The steps of a script, or what is wrong with which of its lines.
pub fn steps(script: &str) -> Result<Vec<Step>, String> {
    let mut steps = Vec::new();
    let mut admitted = Admission::default();
    for (index, line) in script.lines().enumerate() {
        let step = step_of(line, &mut admitted);
        steps.extend(step.map_err(|wrong| format!("line {}: {wrong}", index + 1))?);
    }
    Ok(steps)
}

/// The step of a line; a comment has none, and codes and limits change the admission alone.
fn step_of(line: &str, admitted: &mut Admission) -> Result<Option<Step>, String> {
    let line = words(line)?;
    let mut words = Words::new(&line);
    let Some(name) = words.next() else { return Ok(None) };
    if name.is("admit") {
        admitted.codes = numbers_of(&mut words)?;
        admitted.limits = vec![0; admitted.codes.len()];
        return Ok(None);
    }
    if name.is("limits") {
        admitted.limits = numbers_of(&mut words)?;
        return Ok(None);
    }
    let mut step = Step::new(call_of(&name.text, &mut words, admitted)?);
    while let Some(word) = words.next() {
        let value = words.next().ok_or_else(|| format!("{} has no value", word.text));
        put_key(&mut step, &word.text, value)?;
    }
    Ok(Some(step))
}

/// The numbers up to the end of the line.
fn numbers_of<T: std::str::FromStr>(words: &mut Words) -> Result<Vec<T>, String> {
    let mut numbers = Vec::new();
    while let Some(word) = words.next() {
        numbers.push(word.number()?);
    }
    Ok(numbers)
}

fn call_of(name: &str, words: &mut Words, admitted: &Admission) -> Result<Call, String> {
    let Admission { codes, limits } = admitted;
    let opened = |message| Call::Open { codes: codes.clone(), limits: limits.clone(), message };
    Ok(match name {
        "announce" => opened(message_of(words, keys::announcement(), &keys::ANNOUNCEMENT)?),
        "open" => opened(bytes_of(words)?),
        "apply" => {
            let clock = clock_of(words)?;
            Call::Receive { clock, message: application_of(words)?, space: SPACE }
        }
        "receive" => {
            let clock = clock_of(words)?;
            Call::Receive { clock, message: bytes_of(words)?, space: SPACE }
        }
        "close" => Call::Close { clock: clock_of(words)? },
        "allot" => Call::Allot { places: POSITIONS },
        "preview" => Call::Preview { places: POSITIONS },
        "revoke" => Call::Revoke,
        "state" => Call::State,
        "terms" => Call::Terms,
        "codes" => Call::Codes,
        "caps" => Call::Limits,
        "held" => Call::Held { code: words.number("a code")? },
        _ => return Err(format!("{name} is not known")),
    })
}

fn clock_of(words: &mut Words) -> Result<(u64, u64), String> {
    Ok((words.number("a date")?, words.number("a time")?))
}

/// A message with the values of the keys that come next.
fn message_of(words: &mut Words, mut message: Vec<u8>, keys: &[Key]) -> Result<Vec<u8>, String> {
    while let Some(key) = words.peek().and_then(|word| keys.iter().find(|key| word.is(key.name))) {
        words.next();
        let value = words.next().ok_or_else(|| format!("{} has no value", key.name))?;
        key.put(&mut message, value)?;
    }
    Ok(message)
}

fn application_of(words: &mut Words) -> Result<Vec<u8>, String> {
    let mut parted = Parted::worked();
    parted.sender = address_of(words.next().ok_or("a code is needed")?)?;
    let time = words.next().ok_or("a reference time is needed")?;
    keys::REFERENCE_TIME.put(&mut parted.message, time)?;
    let mut index = 0;
    while let Some(word) = words.peek().filter(|word| !starts_key(word)) {
        words.next();
        keys::put_bid(&mut parted.message, index, word)?;
        index += 1;
    }
    put_application_keys(words, &mut parted)?;
    Ok(parted.joined())
}

/// Puts the values of the keys that come next, the recipient among them or not.
fn put_application_keys(words: &mut Words, parted: &mut Parted) -> Result<(), String> {
    let message = std::mem::take(&mut parted.message);
    parted.message = message_of(words, message, &keys::APPLICATION)?;
    if !words.peek().is_some_and(|word| word.is(keys::RECIPIENT)) {
        return Ok(());
    }
    words.next();
    let value = words.next().ok_or_else(|| format!("{} has no value", keys::RECIPIENT))?;
    parted.recipient = address_of(value)?;
    put_application_keys(words, parted)
}

fn starts_key(word: &Word) -> bool {
    !word.quoted && word.text.starts_with(|letter: char| letter.is_ascii_lowercase())
}

/// The bytes up to the first key.
fn bytes_of(words: &mut Words) -> Result<Vec<u8>, String> {
    let mut bytes = Vec::new();
    while let Some(word) = words.peek().filter(|word| !KEYS.iter().any(|key| word.is(key))) {
        words.next();
        if word.quoted {
            bytes.extend_from_slice(word.text.as_bytes());
        } else {
            push_hexadecimal(&mut bytes, &word.text)?;
        }
    }
    Ok(bytes)
}

fn push_hexadecimal(bytes: &mut Vec<u8>, text: &str) -> Result<(), String> {
    let wrong = || format!("{text} is not pairs of hexadecimal digits");
    for pair in text.as_bytes().chunks(2) {
        let digits = std::str::from_utf8(pair).ok().filter(|digits| digits.len() == 2);
        let is_digits = pair.iter().all(u8::is_ascii_hexdigit);
        let byte = digits.filter(|_| is_digits).and_then(|pair| u8::from_str_radix(pair, 16).ok());
        bytes.push(byte.ok_or_else(wrong)?);
    }
    Ok(())
}

/// The keys that every step may have.
const KEYS: [&str; 5] = ["space", "places", "numbers", "words", "set"];
/// More than any call has use for.
const MOST: usize = 4096;

fn put_key(step: &mut Step, key: &str, value: Result<&Word, String>) -> Result<(), String> {
    match (key, &mut step.call) {
        ("space", Call::Receive { space, .. }) => *space = at_most(key, value?, MOST)?,
        ("places", Call::Allot { places } | Call::Preview { places }) => {
            *places = at_most(key, value?, MOST)?;
        }
        ("numbers", call) if call.told() > 0 => step.numbers = at_most(key, value?, MOST)?,
        ("words", _) => step.words = at_most(key, value?, WORDS + MARGIN)?,
        ("set", _) => step.sets.push(set_of(value?)?),
        _ => return Err(format!("{key} is not a key of this step")),
    }
    Ok(())
}

fn at_most(key: &str, value: &Word, most: usize) -> Result<usize, String> {
    let number = value.number()?;
    if number > most {
        return Err(format!("{key} {number} is more than {most}"));
    }
    Ok(number)
}

/// A word and its value; the other words have values that no tender ever has.
fn set_of(word: &Word) -> Result<(usize, u64), String> {
    let wrong = || format!("{} is not WORD/VALUE", word.text);
    let (index, value) = word.text.split_once('/').ok_or_else(wrong)?;
    let index = index.parse().map_err(|_| wrong())?;
    let value = value.parse().map_err(|_| wrong())?;
    let can_be_set = [FORM, STATE, COUNT].contains(&index)
        || index == OFFERED && value <= MOST_AMOUNT
        || (CODES..CODES + MOST_CODES).contains(&index) && value <= 99_999
        || (AMOUNTS..AMOUNTS + POSITIONS).contains(&index)
        || (LIMITS..LIMITS + MOST_CODES).contains(&index);
    can_be_set.then_some((index, value)).ok_or_else(|| format!("word {index} cannot be set"))
}
