//! A filter over text that comes in pieces.
use crate::error::{Error, Fault};
use crate::{sys, LEAST_ROOM};
use std::fmt::{self, Debug, Formatter};

/// How many bytes [`Filter::to_bytes`] gives.
pub const STATE_LEN: usize = std::mem::size_of::<sys::State>();

/// A normalization form.
#[derive(Clone, Copy, Debug, PartialEq, Eq, Hash)]
pub enum Form {
    /// Composed.
    Nfc = 1,
    /// Decomposed.
    Nfd = 2,
    /// Composed, with compatibility characters replaced.
    Nfkc = 3,
    /// Decomposed, with compatibility characters replaced.
    Nfkd = 4,
}

/// What becomes of ill-formed bytes and of unassigned characters.
#[derive(Clone, Copy, Debug, Default, PartialEq, Eq, Hash)]
pub struct Policy {
    /// Each maximal subpart of ill-formed bytes, and a character that the end cuts, is read as one U+FFFD.
    pub replace: bool,
    /// A character that Unicode has not assigned is refused.
    pub assigned: bool,
}

impl Policy {
    pub(crate) fn number(self) -> u32 {
        u32::from(self.replace) | u32::from(self.assigned) << 1
    }
}

/// What a call read and wrote.
#[derive(Clone, Copy, Debug, PartialEq, Eq)]
pub struct Moved {
    /// How many bytes of the input were read.
    pub read: usize,
    /// How many bytes were written to the front of the output. After them it may hold anything.
    pub written: usize,
    /// Whether the output was too small: go on with what was not read, and other room.
    pub is_full: bool,
}

/// A text that comes in pieces: what the calls write, one after the other, is the form of the whole, however it was cut.
///
/// A clone goes on by itself.
#[derive(Clone)]
pub struct Filter {
    state: sys::State,
}

impl Filter {
    /// A filter that refuses ill-formed bytes, and takes characters that are not assigned.
    pub fn new(form: Form) -> Filter {
        Filter::with_policy(form, Policy::default(), 0)
    }

    /// A filter whose first byte has the offset `base`.
    ///
    /// Panics where the library that was linked is of another version than this crate.
    pub fn with_policy(form: Form, policy: Policy, base: u64) -> Filter {
        sys::see_version();
        let mut state = sys::State::ZERO;
        // SAFETY: the state is memory of the layout that the header says.
        let status = unsafe { sys::nf_start(&mut state, form as u32, policy.number(), base) };
        assert!(status == sys::DONE);
        Filter { state }
    }

    /// The offset of the next byte: the base and how many bytes were read. Once the text has ended it says nothing.
    pub fn offset(&self) -> u64 {
        self.state.offset
    }

    /// How many U+034F were put so far. Once the text has ended it says nothing.
    pub fn joiners(&self) -> u64 {
        self.state.put
    }

    /// Reads `input` as far as `out` has room, and writes what that settles of the form to the front of `out`: whole
    /// characters. With [`LEAST_ROOM`] bytes of room a byte at least is read.
    ///
    /// At a fault what had settled before it was written, and the text has ended.
    pub fn feed(&mut self, input: &[u8], out: &mut [u8]) -> Result<Moved, Fault> {
        let mut moved = sys::Moved::default();
        // SAFETY: both slices are valid for their lengths, and borrows do not overlap.
        let status = unsafe {
            sys::nf_feed(&mut self.state, input.as_ptr(), input.len(), out.as_mut_ptr(), out.len(), &mut moved)
        };
        answer(status, &moved)
    }

    /// Reads all of `input`, and appends what that settles, with what room the vector has or grows to have.
    ///
    /// At a fault what had settled before it was appended, and the text has ended.
    pub fn feed_to(&mut self, mut input: &[u8], out: &mut Vec<u8>) -> Result<(), Error> {
        loop {
            let moved = append(out, input.len() + LEAST_ROOM, |room| self.feed(input, room))?;
            input = &input[moved.read..];
            if !moved.is_full {
                return Ok(());
            }
        }
    }

    /// Ends the text, and writes the rest of its form. Where `out` is too small nothing is written, and the text has not
    /// ended; [`LEAST_ROOM`] bytes are never too few.
    pub fn finish(&mut self, out: &mut [u8]) -> Result<Moved, Fault> {
        let mut moved = sys::Moved::default();
        // SAFETY: the slice is valid for its length.
        let status = unsafe { sys::nf_finish(&mut self.state, out.as_mut_ptr(), out.len(), &mut moved) };
        answer(status, &moved)
    }

    /// Ends the text, and appends the rest of its form.
    pub fn finish_to(&mut self, out: &mut Vec<u8>) -> Result<(), Error> {
        append(out, LEAST_ROOM, |room| self.finish(room)).map(drop)
    }

    /// The state as bytes, to be kept on this machine.
    pub fn to_bytes(&self) -> [u8; STATE_LEN] {
        // SAFETY: the state is plain numbers with no unnamed bytes between or after them.
        unsafe { std::mem::transmute(self.state) }
    }

    /// A filter from what [`Filter::to_bytes`] gave; `NoState` where the bytes are no state of this library.
    pub fn from_bytes(bytes: [u8; STATE_LEN]) -> Result<Filter, Error> {
        sys::see_version();
        // SAFETY: a state is plain numbers, and any bytes are such.
        let mut filter = Filter { state: unsafe { std::mem::transmute::<[u8; STATE_LEN], sys::State>(bytes) } };
        match filter.feed(&[], &mut []) {
            Err(Fault { error: Error::NoState, .. }) => Err(Error::NoState),
            _ => Ok(filter),
        }
    }
}

impl Debug for Filter {
    fn fmt(&self, f: &mut Formatter<'_>) -> fmt::Result {
        f.debug_struct("Filter").field("offset", &self.offset()).field("joiners", &self.joiners()).finish_non_exhaustive()
    }
}

fn answer(status: u32, moved: &sys::Moved) -> Result<Moved, Fault> {
    let (read, written) = (moved.read, moved.written);
    match status {
        sys::DONE | sys::FULL => Ok(Moved { read, written, is_full: status == sys::FULL }),
        _ => Err(Fault { error: Error::of(status, moved), read, written }),
    }
}

/// Appends to the vector what the call writes to `room` bytes after it.
pub(crate) fn append(
    out: &mut Vec<u8>,
    room: usize,
    call: impl FnOnce(&mut [u8]) -> Result<Moved, Fault>,
) -> Result<Moved, Error> {
    let len = out.len();
    out.resize(len + room, 0);
    let moved = call(&mut out[len..]);
    let written = match &moved {
        Ok(moved) => moved.written,
        Err(fault) => fault.written,
    };
    out.truncate(len + written);
    Ok(moved?)
}
