//! The twenty refusals.

use std::fmt;

/// Why a call is refused; the value is the refusal's number.
#[derive(Clone, Copy, PartialEq, Eq, PartialOrd, Ord, Hash, Debug)]
#[repr(u8)]
pub enum Cause {
    Length = 1,
    Check = 2,
    Heading = 3,
    Count = 4,
    Stray = 5,
    Site = 6,
    Line = 7,
    Tree = 8,
    Reach = 9,
    Room = 10,
    Spoilt = 11,
    Nobody = 12,
    OneSelf = 13,
    WrongLine = 14,
    Channel = 15,
    NoSite = 16,
    Unfit = 17,
    Private = 18,
    Full = 19,
    Spent = 20,
}

impl Cause {
    /// The refusal's number.
    pub fn number(self) -> u8 {
        self as u8
    }

    /// The refusal without places.
    pub fn plain(self) -> Refusal {
        self.at(0, 0)
    }

    /// The refusal at a place.
    pub fn at(self, first: usize, second: usize) -> Refusal {
        Refusal { cause: self, first: first as u32, second: second as u32 }
    }
}

/// A refusal with its two places: block and 0 for 1 to 5, box and record
/// for 6 to 9, else 0 and 0.
#[derive(Clone, Copy, PartialEq, Eq, Hash, Debug)]
pub struct Refusal {
    pub cause: Cause,
    pub first: u32,
    pub second: u32,
}

/// Prints number and places: `6 1 0`.
impl fmt::Display for Refusal {
    fn fmt(&self, f: &mut fmt::Formatter<'_>) -> fmt::Result {
        write!(f, "{} {} {}", self.cause.number(), self.first, self.second)
    }
}
