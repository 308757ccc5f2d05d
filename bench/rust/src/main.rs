//! Rust's unicode-normalization beside nfstream: `peer FORM` and `peer stream-safe-FORM` write the form of standard input
//! (nfc, nfd, nfkc, nfkd).

use std::io::{self, Error, ErrorKind, Read, StdinLock, Write};
use unicode_normalization::UnicodeNormalization;

const BLOCK: usize = 1 << 16;

/// The characters of a reader, which is read and checked a block at a time.
struct Characters<R> {
    source: R,
    block: Vec<u8>,
    /// How many bytes at the block's front are a character that the last block cut.
    cut: usize,
    read: std::vec::IntoIter<char>,
}

impl<R: Read> Characters<R> {
    fn new(source: R) -> Self {
        Characters { source, block: vec![0; BLOCK], cut: 0, read: Vec::new().into_iter() }
    }

    /// Reads until there are characters, or none to come.
    #[cold]
    fn fill(&mut self) -> io::Result<Option<char>> {
        loop {
            let count = self.source.read(&mut self.block[self.cut..])?;
            if count == 0 {
                return if self.cut == 0 { Ok(None) } else { Err(ErrorKind::UnexpectedEof.into()) };
            }
            let end = self.cut + count;
            let (text, rest) = whole(&self.block[..end])?;
            self.read = text.chars().collect::<Vec<_>>().into_iter();
            self.cut = rest;
            self.block.copy_within(end - rest..end, 0);
            if let Some(c) = self.read.next() {
                return Ok(Some(c));
            }
        }
    }
}

impl<R: Read> Iterator for Characters<R> {
    type Item = char;

    #[inline]
    fn next(&mut self) -> Option<char> {
        self.read.next().or_else(|| self.fill().unwrap_or_else(|error| fail(error)))
    }
}

/// The text that the bytes begin with, and how many bytes of a cut character are after it.
fn whole(bytes: &[u8]) -> io::Result<(&str, usize)> {
    let invalid = |error| Error::new(ErrorKind::InvalidData, error);
    match std::str::from_utf8(bytes) {
        Err(error) if error.error_len().is_none() => {
            let end = error.valid_up_to();
            Ok((std::str::from_utf8(&bytes[..end]).map_err(invalid)?, bytes.len() - end))
        }
        text => Ok((text.map_err(invalid)?, 0)),
    }
}

fn fail(error: Error) -> ! {
    eprintln!("peer: {error}");
    std::process::exit(1)
}

fn write(text: impl Iterator<Item = char>) -> io::Result<()> {
    let mut output = io::stdout().lock();
    let mut block = vec![0; BLOCK];
    let mut end = 0;
    for c in text {
        if BLOCK - end < char::MAX.len_utf8() {
            output.write_all(&block[..end])?;
            end = 0;
        }
        end += c.encode_utf8(&mut block[end..]).len();
    }
    output.write_all(&block[..end])?;
    output.flush()
}

fn convert(word: &str, text: Characters<StdinLock>) -> io::Result<()> {
    match word {
        "nfc" => write(text.nfc()),
        "nfd" => write(text.nfd()),
        "nfkc" => write(text.nfkc()),
        "nfkd" => write(text.nfkd()),
        "stream-safe-nfc" => write(text.stream_safe().nfc()),
        "stream-safe-nfd" => write(text.stream_safe().nfd()),
        "stream-safe-nfkc" => write(text.stream_safe().nfkc()),
        "stream-safe-nfkd" => write(text.stream_safe().nfkd()),
        _ => Err(Error::new(ErrorKind::InvalidInput, "the word is a form, or stream-safe- and a form")),
    }
}

fn main() {
    let word = std::env::args().nth(1).unwrap_or_default();
    convert(&word, Characters::new(io::stdin().lock())).unwrap_or_else(|error| fail(error));
}
