//! The reader and the writer, over devices that give and take little, and that fail.
use nfstream::{Error, Filter, Form, Policy, Reader, Writer};
use std::io::{self, ErrorKind, Read, Write};

/// A device that goes by `size` bytes a call, of which every third is interrupted, and every seventh fails.
struct Slow {
    data: Vec<u8>,
    at: usize,
    size: usize,
    calls: usize,
    flushes: usize,
}

impl Slow {
    fn new(data: Vec<u8>, size: usize) -> Slow {
        Slow { data, at: 0, size, calls: 0, flushes: 0 }
    }

    fn call(&mut self) -> io::Result<()> {
        self.calls += 1;
        if self.calls % 7 == 0 {
            return Err(ErrorKind::WouldBlock.into());
        }
        if self.calls % 3 == 0 {
            return Err(ErrorKind::Interrupted.into());
        }
        Ok(())
    }
}

impl Read for Slow {
    fn read(&mut self, out: &mut [u8]) -> io::Result<usize> {
        self.call()?;
        let some = out.len().min(self.size).min(self.data.len() - self.at);
        out[..some].copy_from_slice(&self.data[self.at..self.at + some]);
        self.at += some;
        Ok(some)
    }
}

impl Write for Slow {
    fn write(&mut self, piece: &[u8]) -> io::Result<usize> {
        self.call()?;
        let some = piece.len().min(self.size);
        self.data.extend_from_slice(&piece[..some]);
        Ok(some)
    }

    fn flush(&mut self) -> io::Result<()> {
        self.flushes += 1;
        Ok(())
    }
}

fn text() -> String {
    format!("Vie\u{302}\u{323}t q{} \u{1112}\u{1161}\u{11ab}\n", "\u{301}".repeat(40)).repeat(300)
}

fn due() -> String {
    let marks = format!("{}\u{34f}{}", "\u{301}".repeat(30), "\u{301}".repeat(10));
    format!("Vi\u{1ec7}t q{} \u{d55c}\n", marks).repeat(300)
}

/// Reads to the end by buffers of this size, and again where that failed for a while.
fn read_all<R: Read>(reader: &mut R, size: usize) -> io::Result<Vec<u8>> {
    let (mut out, mut buffer) = (Vec::new(), vec![0; size]);
    loop {
        match reader.read(&mut buffer) {
            Ok(0) => return Ok(out),
            Ok(some) => out.extend_from_slice(&buffer[..some]),
            Err(error) if matches!(error.kind(), ErrorKind::Interrupted | ErrorKind::WouldBlock) => {}
            Err(error) => return Err(error),
        }
    }
}

#[test]
fn the_reader_reads_the_form() {
    for size in [1, 2, 7, 255, 256, 257, 10000] {
        for of_inner in [1, 5, 4096] {
            let inner = Slow::new(text().into_bytes(), of_inner);
            let got = read_all(&mut Reader::new(inner, Filter::new(Form::Nfc)), size).unwrap();
            assert_eq!(String::from_utf8(got).unwrap(), due(), "{size} {of_inner}");
        }
    }
    let mut out = String::new();
    let inner = text();
    let mut reader: Reader<_, 3> = Reader::with_size(inner.as_bytes(), Filter::new(Form::Nfc));
    reader.read_to_string(&mut out).unwrap();
    assert_eq!(out, due());
    assert_eq!(reader.read(&mut [0; 4]).unwrap(), 0);
    assert_eq!(reader.read(&mut []).unwrap(), 0);
}

#[test]
fn the_reader_tells_a_fault_after_what_had_settled() {
    for (data, error) in [
        (&b"abc\xff tail"[..], Error::IllFormed { at: 3, start: 3 }),
        (b"abc\xe2\x82", Error::Cut { at: 5, start: 3 }),
    ] {
        for size in [1, 300] {
            let mut reader = Reader::new(data, Filter::new(Form::Nfc));
            let mut buffer = vec![0; size];
            let mut out = Vec::new();
            let fault = loop {
                match reader.read(&mut buffer) {
                    Ok(some) => out.extend_from_slice(&buffer[..some]),
                    Err(fault) => break fault,
                }
            };
            assert!(out == b"ab" || out == b"abc", "{out:?}");
            assert_eq!(fault.kind(), ErrorKind::InvalidData);
            assert_eq!(fault.get_ref().unwrap().downcast_ref(), Some(&error));
            assert!(reader.read(&mut buffer).is_err());
        }
    }
}

/// Calls again where a call failed for a while.
fn again<T>(mut call: impl FnMut() -> io::Result<T>) -> io::Result<T> {
    loop {
        match call() {
            Err(error) if matches!(error.kind(), ErrorKind::WouldBlock | ErrorKind::Interrupted) => {}
            done => return done,
        }
    }
}

#[test]
fn the_writer_writes_the_form() {
    for size in [1, 2, 7, 1000, 100000] {
        for of_inner in [1, 5, 4096] {
            let mut writer = Writer::new(Slow::new(Vec::new(), of_inner), Filter::new(Form::Nfc));
            for piece in text().as_bytes().chunks(size) {
                let mut left = piece;
                while !left.is_empty() {
                    let some = again(|| writer.write(left)).unwrap();
                    assert!(some > 0);
                    left = &left[some..];
                }
            }
            again(|| writer.finish()).unwrap();
            again(|| writer.finish()).unwrap();
            let inner = writer.into_inner();
            assert!(inner.flushes > 0);
            assert_eq!(String::from_utf8(inner.data).unwrap(), due(), "{size} {of_inner}");
        }
    }
}

#[test]
fn a_flush_writes_what_has_settled() {
    let mut writer: Writer<Vec<u8>, 256> = Writer::with_size(Vec::new(), Filter::new(Form::Nfc));
    writer.write_all(b"abe").unwrap();
    writer.flush().unwrap();
    writer.write_all(b"\xcc\x81").unwrap();
    writer.finish().unwrap();
    assert!(writer.write(b"more").is_err());
    assert_eq!(writer.into_inner(), "ab\u{e9}".as_bytes());
}

#[test]
fn the_writer_tells_a_fault_after_what_had_settled() {
    let mut writer = Writer::new(Vec::new(), Filter::new(Form::Nfc));
    let fault = writer.write_all(b"abc\xff tail").unwrap_err();
    assert_eq!(fault.kind(), ErrorKind::InvalidData);
    assert_eq!(fault.get_ref().unwrap().downcast_ref(), Some(&Error::IllFormed { at: 3, start: 3 }));
    assert!(writer.write(b"more").is_err() && writer.finish().is_err());
    assert_eq!(writer.into_inner(), b"ab");
    let mut writer = Writer::new(Vec::new(), Filter::new(Form::Nfc));
    writer.write_all(b"abc\xe2\x82").unwrap();
    let fault = writer.finish().unwrap_err();
    assert_eq!(fault.get_ref().unwrap().downcast_ref(), Some(&Error::Cut { at: 5, start: 3 }));
    let replace = Policy { replace: true, assigned: false };
    let mut writer = Writer::new(Vec::new(), Filter::with_policy(Form::Nfc, replace, 0));
    writer.write_all(b"abc\xe2\x82").unwrap();
    writer.finish().unwrap();
    assert_eq!(writer.into_inner(), "abc\u{fffd}".as_bytes());
}
