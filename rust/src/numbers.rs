//! Numbers that cannot be taken for one another.
//!
//! Any number can be made one of these: the unit judges it in every call and refuses what is too high, so that the rule stands once.

use std::fmt;

/// A console's number, 0 to 15; [`Refusal::ConsoleTooHigh`](crate::Refusal::ConsoleTooHigh) above.
#[derive(Clone, Copy, Debug, PartialEq, Eq, PartialOrd, Ord, Hash)]
pub struct Console(pub u8);

/// A strip's number, 0 to 31; [`Refusal::StripTooHigh`](crate::Refusal::StripTooHigh) above.
#[derive(Clone, Copy, Debug, PartialEq, Eq, PartialOrd, Ord, Hash)]
pub struct Strip(pub u8);

/// A version's number. It is the unit's to give: no call takes one.
#[derive(Clone, Copy, Debug, PartialEq, Eq, PartialOrd, Ord, Hash)]
pub struct Version(pub u16);

impl fmt::Display for Console {
    fn fmt(&self, out: &mut fmt::Formatter) -> fmt::Result {
        self.0.fmt(out)
    }
}

impl fmt::Display for Strip {
    fn fmt(&self, out: &mut fmt::Formatter) -> fmt::Result {
        self.0.fmt(out)
    }
}

impl fmt::Display for Version {
    fn fmt(&self, out: &mut fmt::Formatter) -> fmt::Result {
        self.0.fmt(out)
    }
}

impl Console {
    pub(crate) fn number(self) -> u32 {
        u32::from(self.0)
    }
}

impl Version {
    /// Of a call's count, which is below the capacity where it is a version.
    pub(crate) fn of_count(count: u32) -> Version {
        Version(count as u16)
    }
}
