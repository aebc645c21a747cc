//! A call that two implementations answer differently, or a promise that an answer breaks.

use std::fmt::{self, Debug, Display, Formatter};

/// What was called and what it gave.
#[derive(Debug)]
pub struct Difference {
    pub call: String,
    pub library: String,
    pub expected: String,
}

impl Display for Difference {
    fn fmt(&self, out: &mut Formatter) -> fmt::Result {
        writeln!(out, "call: {}", self.call)?;
        writeln!(out, "the library: {}", self.library)?;
        write!(out, "by document 01: {}", self.expected)
    }
}

/// Nothing where the two answers are equal.
pub fn same<T: PartialEq + Debug>(
    library: T,
    expected: T,
    call: impl FnOnce() -> String,
) -> Result<(), Difference> {
    if library == expected {
        return Ok(());
    }
    let (library, expected) = (format!("{library:?}"), format!("{expected:?}"));
    Err(Difference { call: call(), library, expected })
}

/// The bytes in hexadecimal digits.
pub fn hex(bytes: &[u8]) -> String {
    bytes.iter().map(|byte| format!("{byte:02x}")).collect()
}
