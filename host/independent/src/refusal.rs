//! The conditions under which a call is refused.

/// A refusal, with its number in document 01 or 02 as its value.
#[derive(Clone, Copy, Debug, PartialEq, Eq, PartialOrd, Ord)]
pub enum Refusal {
    NotAnnouncement = 1,
    OtherOrigin = 2,
    Malformed = 3,
    UnknownType = 4,
    Impossible = 5,
    Disordered = 6,
    BadCodes = 7,
    Revoked = 8,
    Over = 9,
    ClockInvalid = 10,
    ReplySpaceShort = 11,
    Unreadable = 12,
    BeforeCutOff = 13,
    StillOpen = 14,
    Announced = 15,
    BidsExceed = 16,
    Unfit = 17,
    OutputShort = 18,
    LimitsMiscounted = 19,
    LimitTooLong = 20,
}

impl Refusal {
    /// The number of the refusal.
    pub fn number(self) -> u64 {
        self as u64
    }

    /// Refuses where the condition holds.
    pub fn if_so(self, condition: bool) -> Result<(), Refusal> {
        if condition {
            Err(self)
        } else {
            Ok(())
        }
    }
}
