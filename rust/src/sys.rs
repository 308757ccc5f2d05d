//! The calls of `nfstream.h`, and the layout of what they share.

pub(crate) const VERSION: u32 = 2;

pub(crate) const DONE: u32 = 0;
pub(crate) const FULL: u32 = 3;
pub(crate) const BAD_BYTE: u32 = 4;
pub(crate) const CUT: u32 = 5;
pub(crate) const UNASSIGNED: u32 = 6;
pub(crate) const SPENT: u32 = 7;
pub(crate) const NO_STATE: u32 = 8;
pub(crate) const TOO_LONG: u32 = 9;
pub(crate) const UNSAFE: u32 = 10;
pub(crate) const NOT_NORMALIZED: u32 = 11;

/// `struct nf_state`, with the bytes at its end that C leaves unnamed.
#[repr(C)]
#[derive(Clone, Copy)]
pub(crate) struct State {
    pub(crate) magic: u32,
    pub(crate) unicode: u32,
    pub(crate) base: u64,
    pub(crate) offset: u64,
    pub(crate) chars: u64,
    pub(crate) put: u64,
    pub(crate) starter: u32,
    pub(crate) marks: [u32; 30],
    pub(crate) held: [u8; 3],
    pub(crate) held_len: u8,
    pub(crate) marks_len: u8,
    pub(crate) count: u8,
    pub(crate) form: u8,
    pub(crate) policy: u8,
    pub(crate) spent: u8,
    pub(crate) unused: [u8; 3],
}

impl State {
    /// No state: memory for the library to fill.
    pub(crate) const ZERO: State = State {
        magic: 0,
        unicode: 0,
        base: 0,
        offset: 0,
        chars: 0,
        put: 0,
        starter: 0,
        marks: [0; 30],
        held: [0; 3],
        held_len: 0,
        marks_len: 0,
        count: 0,
        form: 0,
        policy: 0,
        spent: 0,
        unused: [0; 3],
    };
}

/// `struct nf_moved`.
#[repr(C)]
#[derive(Clone, Copy, Default)]
pub(crate) struct Moved {
    pub(crate) read: usize,
    pub(crate) written: usize,
    pub(crate) at: u64,
    pub(crate) start: u64,
}

const _: () = assert!(std::mem::size_of::<State>() == 176);
const _: () = assert!(std::mem::align_of::<State>() == 8);
const _: () = assert!(std::mem::size_of::<Moved>() == 2 * std::mem::size_of::<usize>() + 16);

extern "C" {
    pub(crate) fn nf_start(state: *mut State, form: u32, policy: u32, base: u64) -> u32;
    pub(crate) fn nf_feed(
        state: *mut State,
        input: *const u8,
        input_len: usize,
        out: *mut u8,
        out_len: usize,
        moved: *mut Moved,
    ) -> u32;
    pub(crate) fn nf_finish(state: *mut State, out: *mut u8, out_len: usize, moved: *mut Moved) -> u32;
    pub(crate) fn nf_convert(
        form: u32,
        policy: u32,
        input: *const u8,
        input_len: usize,
        out: *mut u8,
        out_len: usize,
        moved: *mut Moved,
    ) -> u32;
    pub(crate) fn nf_check(input: *const u8, input_len: usize, moved: *mut Moved) -> u32;
    pub(crate) fn nf_check_form(form: u32, policy: u32, input: *const u8, input_len: usize, moved: *mut Moved) -> u32;
    pub(crate) fn nf_version() -> u32;
    pub(crate) fn nf_unicode_version() -> u32;
}

/// Panics where the library that was linked is of another version than this crate.
pub(crate) fn see_version() {
    // SAFETY: the call takes nothing and answers a number.
    let version = unsafe { nf_version() };
    assert!(version == VERSION, "libnfstream.a is of version {version}, and this crate needs version {VERSION}");
}

#[cfg(test)]
mod tests {
    use super::State;
    use std::ptr::addr_of;

    #[test]
    fn fields_lie_where_the_header_says() {
        let state = State::ZERO;
        let begin = addr_of!(state) as usize;
        let offsets = [
            addr_of!(state.base) as usize,
            addr_of!(state.starter) as usize,
            addr_of!(state.marks) as usize,
            addr_of!(state.held) as usize,
            addr_of!(state.held_len) as usize,
            addr_of!(state.spent) as usize,
        ];
        assert_eq!(offsets.map(|it| it - begin), [8, 40, 44, 164, 167, 172]);
    }
}
