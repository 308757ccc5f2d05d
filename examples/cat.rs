//! The filter of cat.c in Rust, from standard input to standard output: cat FORM, with FORM as nfc, nfd, nfkc or nfkd.
use std::fmt::{self, Display, Formatter};
use std::io::{self, Read, Write};
use std::process::ExitCode;

const DONE: u32 = 0;
const FULL: u32 = 3;

/// `struct nf_state`, whose fields are the library's to change.
#[repr(C, align(8))]
struct State([u8; 176]);

#[repr(C)]
#[derive(Default)]
struct Moved {
    read: usize,
    written: usize,
    at: u64,
    start: u64,
}

extern "C" {
    fn nf_start(state: *mut State, form: u32, policy: u32, base: u64) -> u32;
    fn nf_feed(
        state: *mut State,
        input: *const u8,
        len: usize,
        out: *mut u8,
        room: usize,
        moved: *mut Moved,
    ) -> u32;
    fn nf_finish(state: *mut State, out: *mut u8, room: usize, moved: *mut Moved) -> u32;
}

enum Fault {
    Text { status: u32, at: u64, start: u64 },
    Device(io::Error),
}

impl Display for Fault {
    fn fmt(&self, f: &mut Formatter<'_>) -> fmt::Result {
        match self {
            Fault::Text { status, at, start } => {
                write!(f, "status {status} at {at}, start {start}")
            }
            Fault::Device(error) => write!(f, "{error}"),
        }
    }
}

impl From<io::Error> for Fault {
    fn from(error: io::Error) -> Fault {
        Fault::Device(error)
    }
}

/// A filter, and room for what one call of it writes.
struct Filter {
    state: State,
    room: Vec<u8>,
}

impl Filter {
    /// `None` where the number is that of no form.
    fn new(form: u32) -> Option<Filter> {
        let mut state = State([0; 176]);
        // SAFETY: the state is memory of the size and alignment that nfstream.h says.
        let status = unsafe { nf_start(&mut state, form, 0, 0) };
        (status == DONE).then(|| Filter {
            state,
            room: vec![0; 65536],
        })
    }

    fn feed(&mut self, mut input: &[u8], out: &mut impl Write) -> Result<(), Fault> {
        while !input.is_empty() {
            let mut moved = Moved::default();
            // SAFETY: both slices are valid for their lengths, and do not overlap.
            let status = unsafe {
                nf_feed(
                    &mut self.state,
                    input.as_ptr(),
                    input.len(),
                    self.room.as_mut_ptr(),
                    self.room.len(),
                    &mut moved,
                )
            };
            out.write_all(&self.room[..moved.written])?;
            if status != DONE && status != FULL {
                return Err(Fault::Text {
                    status,
                    at: moved.at,
                    start: moved.start,
                });
            }
            input = &input[moved.read..];
        }
        Ok(())
    }

    fn finish(mut self, out: &mut impl Write) -> Result<(), Fault> {
        let mut moved = Moved::default();
        // SAFETY: as above.
        let status = unsafe {
            nf_finish(
                &mut self.state,
                self.room.as_mut_ptr(),
                self.room.len(),
                &mut moved,
            )
        };
        out.write_all(&self.room[..moved.written])?;
        out.flush()?;
        match status {
            DONE => Ok(()),
            _ => Err(Fault::Text {
                status,
                at: moved.at,
                start: moved.start,
            }),
        }
    }
}

fn pass(mut filter: Filter) -> Result<(), Fault> {
    let (mut input, mut out) = (io::stdin().lock(), io::stdout().lock());
    let mut block = vec![0; 65536];
    loop {
        match input.read(&mut block)? {
            0 => return filter.finish(&mut out),
            len => filter.feed(&block[..len], &mut out)?,
        }
    }
}

fn main() -> ExitCode {
    let word = std::env::args().nth(1).unwrap_or_default();
    let number = ["nfc", "nfd", "nfkc", "nfkd"]
        .iter()
        .zip(1..)
        .find(|(name, _)| **name == word);
    let Some(filter) = number.and_then(|(_, form)| Filter::new(form)) else {
        return ExitCode::from(2);
    };
    match pass(filter) {
        Ok(()) => ExitCode::SUCCESS,
        Err(fault) => {
            eprintln!("cat: {fault}");
            ExitCode::from(if matches!(fault, Fault::Text { .. }) {
                3
            } else {
                4
            })
        }
    }
}
