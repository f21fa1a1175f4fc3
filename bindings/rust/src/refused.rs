//! Why a stream or a message is refused.
use crate::ffi;
use std::error::Error;
use std::fmt;

/// The rule that a stream or a message breaks.
#[derive(Clone, Copy, Debug, PartialEq, Eq, Hash)]
#[repr(u8)]
#[allow(missing_docs)] // docs/RULES.md has them
#[non_exhaustive]
pub enum Reason {
    BadProtocol = 1,
    WrongInfoHash = 2,
    TooLong = 3,
    UnknownId = 4,
    NotNegotiated = 5,
    WrongLength = 6,
    BadIndex = 7,
    SpareBits = 8,
    Late = 9,
    Missing = 10,
    BadBencode = 11,
    Unsorted = 12,
    BadField = 13,
    BadBlock = 14,
    StreamFull = 15,
    EndInside = 16,
    BadExtLength = 17,
}

const REASONS: [Reason; 17] = [
    Reason::BadProtocol,
    Reason::WrongInfoHash,
    Reason::TooLong,
    Reason::UnknownId,
    Reason::NotNegotiated,
    Reason::WrongLength,
    Reason::BadIndex,
    Reason::SpareBits,
    Reason::Late,
    Reason::Missing,
    Reason::BadBencode,
    Reason::Unsorted,
    Reason::BadField,
    Reason::BadBlock,
    Reason::StreamFull,
    Reason::EndInside,
    Reason::BadExtLength,
];

impl Reason {
    pub(crate) fn of(number: u8) -> Reason {
        REASONS[usize::from(number) - 1]
    }
}

impl fmt::Display for Reason {
    /// Writes the name as `bt_tool` prints it.
    fn fmt(&self, to: &mut fmt::Formatter<'_>) -> fmt::Result {
        fmt::Debug::fmt(self, to)
    }
}

/// A refusal: of a stream that was read, or of a message that the peer would refuse.
#[derive(Clone, Copy, Debug, PartialEq, Eq)]
pub struct Refused {
    /// The number of the message; 0 is the handshake.
    pub message: u64,
    /// The offset on the stream.
    pub at: u64,
    /// The rule that is broken.
    pub reason: Reason,
}

impl Refused {
    pub(crate) fn by(item: &ffi::Item, message: u64) -> Refused {
        Refused { message, at: item.start + item.size, reason: Reason::of(item.reason) }
    }

    pub(crate) fn of(verdict: &ffi::Verdict) -> Refused {
        Refused { message: verdict.message, at: verdict.at, reason: Reason::of(verdict.reason) }
    }
}

impl fmt::Display for Refused {
    fn fmt(&self, to: &mut fmt::Formatter<'_>) -> fmt::Result {
        write!(to, "message {} refused at byte {}: {}", self.message, self.at, self.reason)
    }
}

impl Error for Refused {}
