"""Makes an error of the status of a call."""

from __future__ import annotations

from . import _library as c
from ._errors import IllFormedError, NfstreamError, SpentError, StateError, TooLongError, UnassignedError


def ill_formed(status: int, data: bytes, start: int, end: int) -> IllFormedError:
    """`data[start:end]` as Python's decoders report it; an empty part is one byte that begins nothing."""
    if status == c.CUT:
        return IllFormedError("utf-8", data, start, end, "unexpected end of data")
    if start == end:
        return IllFormedError("utf-8", data, start, start + 1, "invalid start byte")
    return IllFormedError("utf-8", data, start, end, "invalid continuation byte")


def character(data: bytes, at: int) -> str:
    """The character that begins there, in well-formed text."""
    lead = data[at]
    size = 1 if lead < 0x80 else 2 if lead < 0xE0 else 3 if lead < 0xF0 else 4
    return data[at : at + size].decode()


def fault(status: int, moved: c.Moved, data: bytes, base: int, settled: bytes) -> NfstreamError:
    """The error of a status other than DONE and FULL, where `data` begins at the offset `base`."""
    error: NfstreamError
    if status in (c.BAD_BYTE, c.CUT):
        error = ill_formed(status, data, moved.start - base, moved.at - base)
        error.offset = moved.start
    elif status == c.UNASSIGNED:
        error = UnassignedError(character(data, moved.at - base), moved.at)
    elif status == c.SPENT:
        error = SpentError("the text has ended")
    elif status == c.TOO_LONG:
        error = TooLongError("the text is longer than offsets can count")
    elif status == c.NO_STATE:
        error = StateError("this is no state of this library")
    else:
        error = NfstreamError(f"status {status}")
    error.settled = settled
    return error
