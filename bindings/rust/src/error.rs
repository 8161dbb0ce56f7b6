//! Why a call did not do its work, and the ten refusals with their numbers.

use core::fmt;

/// Why a command is refused.
///
/// ```
/// use element::Refusal;
///
/// assert_eq!(Refusal::BoundaryExceeded.number(), 0x08);
/// assert_eq!(Refusal::from_number(0x0C), Some(Refusal::NotAvailable));
/// assert_eq!(Refusal::AccessDenied.to_string(), "07: the access condition does not hold");
/// ```
#[derive(Clone, Copy, Debug, PartialEq, Eq, Hash)]
#[repr(u8)]
pub enum Refusal {
    /// No such object.
    InvalidObject = 0x01,
    /// Unknown Param for this Cmd, a count of what is no counter, or an append or acknowledge of what is no queue.
    InvalidParam = 0x03,
    /// The command's length, or its InLen, is wrong.
    InvalidLength = 0x04,
    /// Metadata, life cycle value or application identifier not allowed; no fare present has the number (acknowledge).
    InvalidData = 0x05,
    /// The store is malformed, or LcsG or LcsA is no state.
    InternalError = 0x06,
    /// The access condition does not hold: a life cycle state, or a counter that is used up. Or a write to a queue.
    AccessDenied = 0x07,
    /// An offset past the bytes in use (get); past the maximum, or not all of a counter (write); at the threshold, or not at offset 0 (count); the fare
    /// does not fit behind the others (append).
    BoundaryExceeded = 0x08,
    /// Unknown Cmd.
    InvalidCommand = 0x0A,
    /// The application is closed, or terminated.
    NotAvailable = 0x0C,
    /// The response does not fit the room; no number is left (append).
    InsufficientBuffer = 0x0D,
}

impl Refusal {
    /// The number that the last error takes, if it is higher than the one that stands there.
    pub const fn number(self) -> u8 {
        self as u8
    }

    /// The refusal of a number, if it is one of the ten.
    pub const fn from_number(number: u8) -> Option<Refusal> {
        Some(match number {
            0x01 => Refusal::InvalidObject,
            0x03 => Refusal::InvalidParam,
            0x04 => Refusal::InvalidLength,
            0x05 => Refusal::InvalidData,
            0x06 => Refusal::InternalError,
            0x07 => Refusal::AccessDenied,
            0x08 => Refusal::BoundaryExceeded,
            0x0A => Refusal::InvalidCommand,
            0x0C => Refusal::NotAvailable,
            0x0D => Refusal::InsufficientBuffer,
            _ => return None,
        })
    }

    const fn text(self) -> &'static str {
        match self {
            Refusal::InvalidObject => "no such object",
            Refusal::InvalidParam => {
                "unknown Param for this Cmd, a count of what is no counter, or an append or acknowledge of what is no queue"
            }
            Refusal::InvalidLength => "the command's length, or its InLen, is wrong",
            Refusal::InvalidData => {
                "metadata, life cycle value or application identifier not allowed; no fare present has the number (acknowledge)"
            }
            Refusal::InternalError => "the store is malformed, or LcsG or LcsA is no state",
            Refusal::AccessDenied => "the access condition does not hold",
            Refusal::BoundaryExceeded => {
                "an offset past the bytes in use (get); past the maximum, or not all of a counter (write); at the threshold, or not at offset 0 (count); the fare does not fit behind the others (append)"
            }
            Refusal::InvalidCommand => "unknown Cmd",
            Refusal::NotAvailable => "the application is closed, or terminated",
            Refusal::InsufficientBuffer => {
                "the response does not fit the room; no number is left (append)"
            }
        }
    }
}

impl fmt::Display for Refusal {
    fn fmt(&self, out: &mut fmt::Formatter<'_>) -> fmt::Result {
        write!(out, "{:02X}: {}", self.number(), self.text())
    }
}

impl core::error::Error for Refusal {}

/// Why a call did not do its work.
#[derive(Clone, Copy, Debug, PartialEq, Eq, Hash)]
pub enum Error {
    /// The room is under [`LEAST_ROOM`](crate::LEAST_ROOM) bytes; nothing is changed.
    NoRoom,
    /// A buffer has not the size that the call needs, or what is to be written fits no command; nothing is changed. Or
    /// [`Element::counter`](crate::Element::counter) was given fewer bytes than a counter has, or [`Element::queue`](crate::Element::queue) bytes that
    /// are no queue: then the read is done, and has used up what the read expression names; all else is as before.
    WrongSize,
    /// The element refused the command, with this number of its own; of store and session only the last error is changed.
    Refused(Refusal),
}

impl fmt::Display for Error {
    fn fmt(&self, out: &mut fmt::Formatter<'_>) -> fmt::Result {
        match self {
            Error::NoRoom => out.write_str("the room is under 4 bytes"),
            Error::WrongSize => {
                out.write_str("a buffer has the wrong size, its bytes fit no command, or an object's data is no counter or no queue")
            }
            Error::Refused(refusal) => write!(out, "refused {refusal}"),
        }
    }
}

impl core::error::Error for Error {}
