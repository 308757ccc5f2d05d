//! A writer that normalizes what it is given.
use crate::{Error, Filter, LEAST_ROOM};
use std::io::{self, Write};

/// Writes the form of what it is given to another writer. `N` is how many bytes that is given at most at once.
///
/// The text's end has to be told by [`Writer::finish`]: else what had not settled is lost. Where the other writer fails,
/// nothing is lost: what is due goes first at the next call. A text that is refused gives an error of the kind `InvalidData`
/// that holds an [`Error`], after all that had settled before the fault.
#[derive(Debug)]
pub struct Writer<W: Write, const N: usize = 8192> {
    inner: W,
    filter: Filter,
    room: [u8; N],
    at: usize,
    len: usize,
    has_ended: bool,
    refused: Option<Error>,
}

impl<W: Write> Writer<W> {
    /// A writer of what goes through the filter.
    pub fn new(inner: W, filter: Filter) -> Writer<W> {
        Writer::with_size(inner, filter)
    }
}

impl<W: Write, const N: usize> Writer<W, N> {
    /// As `new`, for another `N`, which is at least [`LEAST_ROOM`].
    pub fn with_size(inner: W, filter: Filter) -> Writer<W, N> {
        assert!(N >= LEAST_ROOM);
        Writer { inner, filter, room: [0; N], at: 0, len: 0, has_ended: false, refused: None }
    }

    /// Ends the text, writes the rest of its form, and flushes the other writer. It may be called again after an error of
    /// that.
    pub fn finish(&mut self) -> io::Result<()> {
        self.send()?;
        if let Some(error) = self.refused {
            return Err(error.into());
        }
        if !self.has_ended {
            let moved = self.filter.finish(&mut self.room);
            self.take(moved.map(|moved| moved.written).map_err(|fault| (fault.error, fault.written)))?;
            self.has_ended = true;
        }
        self.send()?;
        self.inner.flush()
    }

    /// The other writer.
    pub fn into_inner(self) -> W {
        self.inner
    }

    /// Takes what a call has written to the room; a refusal is told when what had settled is out.
    fn take(&mut self, done: Result<usize, (Error, usize)>) -> io::Result<()> {
        self.at = 0;
        match done {
            Ok(written) => {
                self.len = written;
                Ok(())
            }
            Err((error, written)) => {
                self.len = written;
                self.refused = Some(error);
                self.send()?;
                Err(error.into())
            }
        }
    }

    /// Writes what is due.
    fn send(&mut self) -> io::Result<()> {
        while self.at < self.len {
            match self.inner.write(&self.room[self.at..self.len]) {
                Ok(0) => return Err(io::ErrorKind::WriteZero.into()),
                Ok(some) => self.at += some,
                Err(error) if error.kind() == io::ErrorKind::Interrupted => {}
                Err(error) => return Err(error),
            }
        }
        Ok(())
    }
}

impl<W: Write, const N: usize> Write for Writer<W, N> {
    fn write(&mut self, piece: &[u8]) -> io::Result<usize> {
        self.send()?;
        if let Some(error) = self.refused {
            return Err(error.into());
        }
        if piece.is_empty() {
            return Ok(0);
        }
        let moved = self.filter.feed(piece, &mut self.room);
        let read = moved.map_or(0, |moved| moved.read);
        self.take(moved.map(|moved| moved.written).map_err(|fault| (fault.error, fault.written)))?;
        // What was read is read: an error of the other writer is told by the next call, which sends the rest again.
        let _ = self.send();
        Ok(read)
    }

    /// Writes what has settled, and flushes the other writer; what has not settled stays.
    fn flush(&mut self) -> io::Result<()> {
        self.send()?;
        self.inner.flush()
    }
}
