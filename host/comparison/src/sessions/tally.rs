//! What the compared logs showed.

use std::collections::BTreeMap;

/// Everything that a log can show: accepted messages, awards, refusals and errors.
pub const SHOWN: [&str; 36] = [
    "C",
    "W",
    "----- 01",
    "----- 02",
    "----- 03",
    "----- 04",
    "----- 05",
    "----- 06",
    "----- 07",
    "----- 08",
    "----- 09",
    "----- 10",
    "----- 12",
    "----- 13",
    "----- 14",
    "----- 15",
    "001 - 900",
    "040 - 309",
    "040 - 300",
    "050 - 599",
    "020 - 521",
    "D31 - 502",
    "D31 - 522",
    "601 - 503",
    "010 - 908",
    "6G0 - 303",
    "6G6 - 901",
    "6G6 - 902",
    "6G6 - 903",
    "6G6 - 904",
    "6G6 - 905",
    "6G6 - 906",
    "6G6 - 907",
    "6G5 - 301",
    "601 - 302",
    "999 - 999",
];

/// How often each thing was shown.
#[derive(Default)]
pub struct Tally(BTreeMap<String, u64>);

impl Tally {
    /// Counts what the lines of a log show; of a sender with a line feed only a part is counted.
    pub fn count(&mut self, log: &[u8]) {
        for line in log.split(|&byte| byte == b'\n') {
            let text = String::from_utf8_lossy(line);
            match text.get(..2) {
                Some("R ") if text.starts_with("R -----") => self.add(&text[2..]),
                Some("R ") => text.get(24..).into_iter().for_each(|errors| {
                    errors.split('/').for_each(|error| self.add(error));
                }),
                Some(kind) => self.add(kind.trim_end()),
                None => (),
            }
        }
    }

    fn add(&mut self, shown: &str) {
        if SHOWN.contains(&shown) {
            *self.0.entry(shown.to_string()).or_default() += 1;
        }
    }

    /// What a log can show and none did.
    pub fn missing(&self) -> Vec<&'static str> {
        SHOWN.into_iter().filter(|&shown| !self.0.contains_key(shown)).collect()
    }

    pub fn of(&self, shown: &str) -> u64 {
        self.0.get(shown).copied().unwrap_or(0)
    }

    /// The counts in one text.
    pub fn text(&self) -> String {
        let counts = SHOWN.iter().map(|shown| format!("{shown}: {}", self.of(shown)));
        counts.collect::<Vec<_>>().join(", ")
    }
}
