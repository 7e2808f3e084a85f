//! The numbered refusals (01, "What is returned, and for what", and 02, 2.3, 2.4
//! and 2.7).

use std::fmt;

/// Why something was refused. The discriminants are the papers' numbers.
#[derive(Clone, Copy, Debug, PartialEq, Eq, Hash, PartialOrd, Ord)]
#[repr(u32)]
pub enum Refusal {
    /// Unsound set-up, wrong policy for a seat, or an ill-formed board or seat state.
    Unsound = 1,
    /// The bytes end inside a number or record.
    Ended = 2,
    /// Number too long or not shortest, or a value beyond its kind.
    Value = 3,
    /// Unknown call code or head.
    Unknown = 4,
    /// Field count not 1 to 6, undefined field in an entry, unused part not zero.
    Shape = 5,
    /// Seat 0 or above n.
    Seat = 6,
    /// The policy does not permit the call, and neither 12 nor 13 says why.
    Denied = 7,
    /// No place for another tuple.
    Full = 8,
    /// The script is above 65,536 bytes.
    TooLong = 9,
    /// The lent buffer is shorter than what is to be written.
    Buffer = 10,
    /// The answer handed to a seat does not fit.
    Unfit = 11,
    /// In the place of 7: a seat's second proposal in a round.
    Second = 12,
    /// In the place of 7: the set of a decision does not bear its offset.
    Unborne = 13,
    /// No script at all ends in the board that is to be written back.
    Unreached = 14,
    /// The board that is to be written back is of policy 5.
    Unwritten = 15,
}

impl Refusal {
    /// The papers' number.
    pub const fn number(self) -> u32 {
        self as u32
    }
}

impl fmt::Display for Refusal {
    fn fmt(&self, f: &mut fmt::Formatter<'_>) -> fmt::Result {
        write!(f, "refused {}", self.number())
    }
}

impl std::error::Error for Refusal {}
