//! UTF-8 that comes in pieces, made stream-safe (UAX #15, section 13) and brought into a normalization form, in bounded
//! memory: a safe interface to the library of `nfstream.h`.
//!
//! A [`Filter`] is plain data of 176 bytes. Nothing here allocates, but for the vectors that a caller hands in, and for what
//! an [`std::io::Error`] holds. Offsets are in bytes.
//!
//! ```
//! use nfstream::{Filter, Form};
//!
//! let mut out = Vec::new();
//! let mut filter = Filter::new(Form::Nfc);
//! filter.feed_to(b"Vie\xcc", &mut out)?; // a piece may end within a character
//! filter.feed_to(b"\x82\xcc\xa3t", &mut out)?;
//! filter.finish_to(&mut out)?;
//! assert_eq!(out, "Việt".as_bytes());
//! # Ok::<(), nfstream::Error>(())
//! ```
#![warn(missing_docs)]

mod error;
mod filter;
mod reader;
mod sys;
mod whole;
mod writer;

pub use error::{Error, Fault};
pub use filter::{Filter, Form, Moved, Policy, STATE_LEN};
pub use reader::Reader;
pub use whole::{bound, convert, find_change, find_unsafe, is_normalized, unicode_version};
pub use writer::Writer;

/// Room in which a call always gets on by a byte at least, and in which the end always fits, in bytes.
pub const LEAST_ROOM: usize = 256;

/// What README.md shows, as tests.
#[cfg(doctest)]
#[doc = include_str!("../README.md")]
struct Readme;
