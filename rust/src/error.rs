//! What a text or a filter is refused for.
use crate::sys;
use std::fmt::{self, Display, Formatter};
use std::io;

/// What a call refuses. Places are in bytes from the filter's base.
#[derive(Clone, Copy, Debug, PartialEq, Eq)]
#[non_exhaustive]
pub enum Error {
    /// The byte at `at` is ill-formed, in a character begun at `start`.
    IllFormed {
        /// The byte.
        at: u64,
        /// Where the character begins: `at`, or up to 3 bytes before.
        start: u64,
    },
    /// The text ends at `at`, within a character begun at `start`.
    Cut {
        /// Where the text ends.
        at: u64,
        /// Where the character begins.
        start: u64,
    },
    /// The character at `at` is not assigned, and the policy allows assigned ones alone.
    Unassigned {
        /// Where the character begins.
        at: u64,
    },
    /// The text has ended: it was finished, or had a fault.
    Spent,
    /// The offset would pass `u64::MAX`: nothing was read.
    TooLong,
    /// The bytes are no state of this library, or one of another version of Unicode.
    NoState,
}

impl Error {
    pub(crate) fn of(status: u32, moved: &sys::Moved) -> Error {
        let (at, start) = (moved.at, moved.start);
        match status {
            sys::BAD_BYTE => Error::IllFormed { at, start },
            sys::CUT => Error::Cut { at, start },
            sys::UNASSIGNED => Error::Unassigned { at },
            sys::SPENT => Error::Spent,
            sys::TOO_LONG => Error::TooLong,
            sys::NO_STATE => Error::NoState,
            _ => unreachable!("a status that this call does not answer: {status}"),
        }
    }
}

impl Display for Error {
    fn fmt(&self, f: &mut Formatter<'_>) -> fmt::Result {
        match self {
            Error::IllFormed { at, start } => write!(f, "ill-formed byte at {at}, character begun at {start}"),
            Error::Cut { at, start } => write!(f, "the text ends at {at} inside a character begun at {start}"),
            Error::Unassigned { at } => write!(f, "unassigned character at {at}"),
            Error::Spent => f.write_str("the text has ended"),
            Error::TooLong => f.write_str("the text is longer than offsets can count"),
            Error::NoState => f.write_str("this is no state of this library"),
        }
    }
}

impl std::error::Error for Error {}

/// The kind is `InvalidData` where the text is refused, and `InvalidInput` where the call is.
impl From<Error> for io::Error {
    fn from(error: Error) -> io::Error {
        let kind = match error {
            Error::IllFormed { .. } | Error::Cut { .. } | Error::Unassigned { .. } => io::ErrorKind::InvalidData,
            _ => io::ErrorKind::InvalidInput,
        };
        io::Error::new(kind, error)
    }
}

/// An error, and what the call had done before it.
#[derive(Clone, Copy, Debug, PartialEq, Eq)]
pub struct Fault {
    /// What was refused.
    pub error: Error,
    /// How many bytes of the input stand before the place.
    pub read: usize,
    /// How many bytes at the front of the output are what had settled before the place.
    pub written: usize,
}

impl Display for Fault {
    fn fmt(&self, f: &mut Formatter<'_>) -> fmt::Result {
        self.error.fmt(f)
    }
}

impl std::error::Error for Fault {}

impl From<Fault> for Error {
    fn from(fault: Fault) -> Error {
        fault.error
    }
}

impl From<Fault> for io::Error {
    fn from(fault: Fault) -> io::Error {
        fault.error.into()
    }
}
