//! What the compared calls showed.

use crate::addresses::shown::{Shown, NAMES};
use crate::calls::book::{ANSWER_NUMBERS, NO_TENDER, OK};
use crate::calls::cuts;
use crate::calls::previews;
use crate::calls::run::Seen;
use crate::calls::step::{Call, Step, KINDS};
use independent::application::Application;
use std::collections::BTreeMap;

/// Every error code of a message, in the order in which errors are collected.
const ERRORS: [u64; 19] =
    [900, 309, 300, 599, 521, 502, 522, 503, 908, 303, 901, 902, 903, 904, 905, 906, 907, 301, 302];
/// The refusals of calls on a tender that document 01 numbers, and those of the limits.
const LAST_REFUSAL: u64 = 16;
const LIMIT_REFUSALS: [u64; 2] = [19, 20];

/// How often each kind of call, each refusal, each error and what addresses, limits and previews can
/// show was seen.
#[derive(Default)]
pub struct Tally {
    pub sequences: u64,
    pub calls: u64,
    addresses: Shown,
    counts: BTreeMap<String, u64>,
}

fn refusal_name(refusal: u64) -> String {
    format!("refusal {refusal}")
}

fn error_name(code: u64) -> String {
    format!("error {code}")
}

impl Tally {
    /// Counts a call and what it gave.
    pub fn count(&mut self, step: &Step, seen: &Seen) {
        self.calls += 1;
        self.add(step.call.kind().to_string());
        let is_state = matches!(step.call, Call::State) && seen.result != NO_TENDER;
        if seen.result != 0 && !is_state {
            self.add(refusal_name(seen.result));
        }
        seen.errors.iter().for_each(|&code| self.add(error_name(code)));
        seen.cuts.iter().for_each(|name| self.add(name.to_string()));
        self.add(seen.preview.to_string());
        self.count_addresses(step, seen);
    }

    /// Counts what the addresses of a reception show whose errors were all told.
    fn count_addresses(&mut self, step: &Step, seen: &Seen) {
        match &step.call {
            Call::Open { .. } if seen.result == OK => self.addresses.open(),
            Call::Receive { message, .. }
                if seen.result == OK && step.numbers >= ANSWER_NUMBERS =>
            {
                let Ok(application) = Application::read(message) else { return };
                let shown = self.addresses.of(&application, &seen.errors);
                let names = NAMES.into_iter().zip(shown).filter(|&(_, is_so)| is_so);
                names.for_each(|(name, _)| self.add(name.to_string()));
            }
            _ => (),
        }
    }

    fn add(&mut self, name: String) {
        *self.counts.entry(name).or_default() += 1;
    }

    /// How often this was seen.
    pub fn of(&self, name: &str) -> u64 {
        self.counts.get(name).copied().unwrap_or(0)
    }

    /// The names of what no call showed.
    pub fn missing(&self) -> Vec<String> {
        all().into_iter().filter(|name| self.of(name) == 0).collect()
    }

    /// The counts in one line.
    pub fn text(&self) -> String {
        let totals = format!("sequences: {}, calls: {}", self.sequences, self.calls);
        let counts = all().into_iter().map(|name| format!("{name}: {}", self.of(&name)));
        std::iter::once(totals).chain(counts).collect::<Vec<_>>().join(", ")
    }
}

/// The names of all kinds of call, of refusals, of errors and of what addresses, limits and previews
/// can show.
fn all() -> Vec<String> {
    let kinds = KINDS.iter().map(|kind| kind.to_string());
    let refusals = (1..=LAST_REFUSAL).chain(LIMIT_REFUSALS).chain([NO_TENDER]).map(refusal_name);
    let errors = ERRORS.into_iter().map(error_name);
    let shown = NAMES.into_iter().chain(cuts::names()).chain(previews::names());
    let shown = shown.map(str::to_string);
    kinds.chain(refusals).chain(errors).chain(shown).collect()
}
