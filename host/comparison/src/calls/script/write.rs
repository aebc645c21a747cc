//! Writes a script.

use crate::calls::book::WORDS;
use crate::calls::script::keys::{self, Key};
use crate::calls::script::parted::{address_text, Parted};
use crate::calls::script::{read, SPACE};
use crate::calls::step::{Call, Step};
use crate::damage::fields_of;
use independent::address::LONG;
use independent::application::PLACES;
use independent::award::POSITIONS;
use independent::digits;
use independent::envelope::HEADER;

/// The steps as a script.
pub fn text(steps: &[Step]) -> String {
    let mut lines = String::new();
    let (mut admitted, mut capped) = (Vec::new(), Vec::new());
    for step in steps {
        if let Call::Open { codes, limits, .. } = &step.call {
            if *codes != admitted {
                let words: Vec<_> = codes.iter().map(|code| format!(" {code:05}")).collect();
                lines += &format!("admit{}\n", words.concat());
                admitted.clone_from(codes);
                capped = vec![0; codes.len()];
            }
            if *limits != capped {
                let words: Vec<_> = limits.iter().map(|limit| format!(" {limit}")).collect();
                lines += &format!("limits{}\n", words.concat());
                capped.clone_from(limits);
            }
        }
        lines += &format!("{}{}\n", call_text(&step.call), keys_text(step));
    }
    lines
}

fn call_text(call: &Call) -> String {
    match call {
        Call::Open { message, .. } => announcement_text(message),
        Call::Receive { clock, message, .. } => reception_text(*clock, message),
        Call::Close { clock } => format!("close {}", clock_text(*clock)),
        Call::Limits => "caps".to_string(),
        Call::Held { code } => format!("held {code:05}"),
        _ => call.kind().to_string(),
    }
}

fn clock_text((date, time): (u64, u64)) -> String {
    format!("{date:08} {time:06}")
}

/// The keys that every step may have, where they differ from what holds without them.
fn keys_text(step: &Step) -> String {
    let mut text = String::new();
    let mut add = |key: &str, value: usize, without: usize| {
        if value != without {
            text += &format!(" {key} {value}");
        }
    };
    match step.call {
        Call::Receive { space, .. } => add("space", space, SPACE),
        Call::Allot { places } | Call::Preview { places } => add("places", places, POSITIONS),
        _ => (),
    }
    add("numbers", step.numbers, step.call.told());
    add("words", step.words, WORDS);
    for (word, value) in &step.sets {
        text += &format!(" set {word}/{value}");
    }
    text
}

/// An announcement by its keys where they can give it, else by its bytes.
fn announcement_text(message: &[u8]) -> String {
    let by_keys = differing(message, &keys::announcement(), &keys::ANNOUNCEMENT)
        .map(|keys| format!("announce{keys}"));
    let is_exact = |line: &String| {
        matches!(read::steps(line).as_deref(),
            Ok([Step { call: Call::Open { message: read, .. }, .. }]) if read == message)
    };
    by_keys.filter(is_exact).unwrap_or_else(|| format!("open{}", bytes_text(message)))
}

/// A reception by the keys of its application where they can give it, else by its bytes.
fn reception_text(clock: (u64, u64), message: &[u8]) -> String {
    let clock = clock_text(clock);
    let by_keys = application_text(message).map(|text| format!("apply {clock} {text}"));
    let is_exact = |line: &String| {
        matches!(read::steps(line).as_deref(),
            Ok([Step { call: Call::Receive { message: read, .. }, .. }]) if read == message)
    };
    by_keys.filter(is_exact).unwrap_or_else(|| format!("receive {clock}{}", bytes_text(message)))
}

/// The keys whose values differ from those of the message, or none where one cannot be written.
fn differing(message: &[u8], worked: &[u8], keys: &[Key]) -> Option<String> {
    if message.len() != worked.len() {
        return None;
    }
    let mut text = String::new();
    for key in keys {
        let bytes = key.start..key.start + key.width;
        if message[bytes.clone()] != worked[bytes] {
            text += &format!(" {} {}", key.name, key.value(message)?);
        }
    }
    Some(text)
}

fn application_text(message: &[u8]) -> Option<String> {
    let worked = Parted::worked();
    let Parted { message, sender, recipient } = Parted::of(message)?;
    let time = &message[keys::REFERENCE_TIME.start..][..keys::REFERENCE_TIME.width];
    let is_sender = sender.len() == LONG || digits::are_digits(&sender);
    if !is_sender || !digits::are_digits(time) {
        return None;
    }
    let mut text = format!("{} {}", address_text(&sender)?, keys::printed(time)?);
    text += &bids_text(&message, &worked.message)?;
    if recipient != worked.recipient {
        text += &format!(" {} {}", keys::RECIPIENT, address_text(&recipient)?);
    }
    Some(text + &differing(&message, &worked.message, &keys::APPLICATION)?)
}

/// The bids up to the last that is filled.
fn bids_text(message: &[u8], worked: &[u8]) -> Option<String> {
    let is_zero = |index: &usize| {
        let start = keys::place(*index).0.start;
        message[start..start + 24] == worked[start..start + 24]
    };
    let filled = (0..PLACES).rev().find(|index| !is_zero(index)).map_or(0, |last| last + 1);
    let mut text = String::new();
    for index in 0..filled {
        let (rate, amount) = keys::place(index);
        text += &format!(" {}/{}", rate.value(message)?, amount.value(message)?);
    }
    Some(text)
}

/// Any bytes, field by field as far as they have fields: heads in hexadecimal digits, then texts.
fn bytes_text(message: &[u8]) -> String {
    let mut text = String::new();
    for field in fields_of(message) {
        let (head, contents) = field.split_at(HEADER.min(field.len()));
        text += &format!(" {}", hexadecimal(head));
        // The places of an application have 24 bytes each, and no other field is longer than these.
        for part in contents.chunks(if contents.len() == 240 { 24 } else { usize::MAX }) {
            text += &part_text(part);
        }
    }
    text
}

fn part_text(part: &[u8]) -> String {
    let is_text = part.iter().all(|&byte| (b' '..=b'~').contains(&byte) && byte != b'"');
    match std::str::from_utf8(part) {
        Ok(text) if is_text => format!(" \"{text}\""),
        _ => format!(" {}", hexadecimal(part)),
    }
}

fn hexadecimal(bytes: &[u8]) -> String {
    bytes.iter().map(|byte| format!("{byte:02X}")).collect()
}
