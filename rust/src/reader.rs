//! A reader of normalized text.
use crate::error::Error;
use crate::{Filter, LEAST_ROOM};
use std::io::{self, Read};

/// Reads another reader's text in its form. `N` is how many bytes are asked of that at once.
///
/// A text that is refused ends in an error of the kind `InvalidData` that holds an [`Error`], after all that had settled
/// before the fault; each later read answers that again. An error of the other reader loses nothing: read again.
#[derive(Debug)]
pub struct Reader<R, const N: usize = 8192> {
    inner: R,
    filter: Filter,
    piece: [u8; N],
    at: usize,
    len: usize,
    /// What was made for a buffer with less than the least room.
    room: [u8; LEAST_ROOM],
    room_at: usize,
    room_len: usize,
    ended: Option<Result<(), Error>>,
}

impl<R: Read> Reader<R> {
    /// A reader whose text goes through the filter.
    pub fn new(inner: R, filter: Filter) -> Reader<R> {
        Reader::with_size(inner, filter)
    }
}

impl<R: Read, const N: usize> Reader<R, N> {
    /// As `new`, for another `N`, which is not 0.
    pub fn with_size(inner: R, filter: Filter) -> Reader<R, N> {
        assert!(N > 0);
        Reader {
            inner,
            filter,
            piece: [0; N],
            at: 0,
            len: 0,
            room: [0; LEAST_ROOM],
            room_at: 0,
            room_len: 0,
            ended: None,
        }
    }

    /// The other reader. What was read of it, and not given yet, is lost.
    pub fn into_inner(self) -> R {
        self.inner
    }

    /// Writes what the next step settles to the output, which has the least room.
    fn step(&mut self, out: &mut [u8]) -> io::Result<usize> {
        if self.at == self.len {
            self.len = self.inner.read(&mut self.piece)?;
            self.at = 0;
        }
        let is_end = self.len == 0;
        let moved = if is_end {
            self.filter.finish(out)
        } else {
            self.filter.feed(&self.piece[self.at..self.len], out)
        };
        match moved {
            Ok(moved) => {
                self.at += moved.read;
                if is_end {
                    self.ended = Some(Ok(()));
                }
                Ok(moved.written)
            }
            Err(fault) => {
                self.ended = Some(Err(fault.error));
                Ok(fault.written)
            }
        }
    }

    /// As `step`, where the output has less room: through the room of this reader.
    fn step_by_room(&mut self, out: &mut [u8]) -> io::Result<usize> {
        let mut room = self.room;
        self.room_len = self.step(&mut room)?;
        self.room = room;
        self.room_at = 0;
        Ok(self.give(out))
    }

    fn give(&mut self, out: &mut [u8]) -> usize {
        let some = out.len().min(self.room_len - self.room_at);
        out[..some].copy_from_slice(&self.room[self.room_at..self.room_at + some]);
        self.room_at += some;
        some
    }
}

impl<R: Read, const N: usize> Read for Reader<R, N> {
    fn read(&mut self, out: &mut [u8]) -> io::Result<usize> {
        let mut some = self.give(out);
        while some == 0 && !out.is_empty() {
            if let Some(ended) = self.ended {
                return ended.map(|()| 0).map_err(io::Error::from);
            }
            some = if out.len() < LEAST_ROOM { self.step_by_room(out)? } else { self.step(out)? };
        }
        Ok(some)
    }
}
