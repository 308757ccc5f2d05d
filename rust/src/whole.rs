//! Whole texts in memory.
use crate::error::{Error, Fault};
use crate::filter::{append, Filter, Form, Moved, Policy};
use crate::{sys, LEAST_ROOM};

/// The most bytes that the form of `len` bytes has; `None` where that is no `usize`. It was tested, not proved.
pub fn bound(form: Form, len: usize) -> Option<usize> {
    len.checked_mul(match form {
        Form::Nfc | Form::Nfd => 3,
        Form::Nfkc | Form::Nfkd => 11,
    })
}

/// Appends the form of the whole text `input`.
///
/// At a fault what had settled before it was appended.
pub fn convert(form: Form, policy: Policy, input: &[u8], out: &mut Vec<u8>) -> Result<(), Error> {
    sys::see_version();
    let len = out.len();
    let moved = append(out, input.len() + LEAST_ROOM, |room| {
        let mut moved = sys::Moved::default();
        // SAFETY: both slices are valid for their lengths, and borrows do not overlap.
        let status = unsafe {
            sys::nf_convert(
                form as u32,
                policy.number(),
                input.as_ptr(),
                input.len(),
                room.as_mut_ptr(),
                room.len(),
                &mut moved,
            )
        };
        let (read, written) = (moved.read, moved.written);
        match status {
            sys::DONE | sys::FULL => Ok(Moved { read, written, is_full: status == sys::FULL }),
            _ => Err(Fault { error: Error::of(status, &moved), read, written }),
        }
    })?;
    if moved.is_full {
        out.truncate(len);
        let mut filter = Filter::with_policy(form, policy, 0);
        filter.feed_to(input, out)?;
        filter.finish_to(out)?;
    }
    Ok(())
}

/// Where a run of non-starters becomes longer than 30, in bytes from 0: `None` where the whole text `input` is in the
/// Stream-Safe Text Format. An ill-formed part before such a place is an error.
pub fn find_unsafe(input: &[u8]) -> Result<Option<u64>, Error> {
    sys::see_version();
    let mut moved = sys::Moved::default();
    // SAFETY: the slice is valid for its length.
    let status = unsafe { sys::nf_check(input.as_ptr(), input.len(), &mut moved) };
    found(status, &moved)
}

/// Whether the whole text `input` is in the form and stream-safe: whether [`convert`] leaves it as it is.
///
/// `assigned` and the errors are those of [`find_change`].
pub fn is_normalized(form: Form, assigned: bool, input: &[u8]) -> Result<bool, Error> {
    Ok(find_change(form, assigned, input)?.is_none())
}

/// The first character that [`convert`] changes, in bytes from 0: `None` where the whole text `input` is in the form and
/// stream-safe.
///
/// An ill-formed part that comes before such a place is settled is an error; and so is a character that Unicode has not
/// assigned, with `assigned`.
pub fn find_change(form: Form, assigned: bool, input: &[u8]) -> Result<Option<u64>, Error> {
    sys::see_version();
    let policy = Policy { replace: false, assigned };
    let mut moved = sys::Moved::default();
    // SAFETY: the slice is valid for its length.
    let status = unsafe { sys::nf_check_form(form as u32, policy.number(), input.as_ptr(), input.len(), &mut moved) };
    found(status, &moved)
}

fn found(status: u32, moved: &sys::Moved) -> Result<Option<u64>, Error> {
    match status {
        sys::DONE => Ok(None),
        sys::UNSAFE | sys::NOT_NORMALIZED => Ok(Some(moved.at)),
        _ => Err(Error::of(status, moved)),
    }
}

/// The version of Unicode that the library's data is of.
pub fn unicode_version() -> (u32, u32, u32) {
    sys::see_version();
    // SAFETY: the call takes nothing and answers a number.
    let number = unsafe { sys::nf_unicode_version() };
    (number / 10000, number / 100 % 100, number % 100)
}
