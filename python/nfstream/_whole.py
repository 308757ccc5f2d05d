"""Whole texts in memory."""

from __future__ import annotations

import io
from typing import NamedTuple

from . import _library as c
from ._errors import IllFormedError
from ._faults import fault, ill_formed
from ._filter import _BLOCK, Data, Filter, form_number, policy_number

_SMALL = 4096
_CONTINUATIONS = bytes(range(0x80, 0xC0))


class Place(NamedTuple):
    """A character of a text: which it is, from 0, and its first byte, from 0."""

    character: int
    byte: int


def convert(data: Data, form: str = "nfc", *, replace: bool = False, assigned: bool = False) -> bytes:
    """Returns the form of the stream-safe text of `data`, UTF-8 for UTF-8.

    `form` is "nfc", "nfd", "nfkc" or "nfkd", in either case. With `replace` each ill-formed part (a maximal subpart, as in
    Python's own decoders) is read as U+FFFD. With `assigned` a character that Unicode has not assigned is refused. NFC and
    NFD take at most 3 times the bytes, NFKC and NFKD 11 times.

    Raises IllFormedError, a UnicodeDecodeError, whose `start` and `end` are those of `data.decode()`; UnassignedError; and
    FormError for another form. What had settled before the fault is in the error's `settled`.
    """
    number, policy, text = form_number(form), policy_number(replace, assigned), bytes(data)
    if len(text) <= _SMALL:
        room, moved = c.Room((3 if number <= 2 else 11) * len(text) + 1), c.Moved()
        status = c.library.nf_convert(number, policy, text, len(text), room.address, room.size, moved)
        if status == c.DONE:
            return room.front(moved.written)
        if status != c.FULL:
            raise fault(status, moved, text, 0, room.front(moved.written))
    filter, out = Filter(form, replace=replace, assigned=assigned), io.BytesIO()
    filter._feed(text, out)
    try:
        filter._finish(out)
    except IllFormedError as error:  # it tells of what was held
        whole = ill_formed(c.CUT, text, error.offset, len(text))
        whole.offset, whole.settled = error.offset, error.settled
        raise whole from None
    return out.getvalue()


def is_stream_safe(data: Data) -> bool:
    """Whether the text is in the Stream-Safe Text Format: no run of non-starters of its NFKD is longer than 30.

    Raises IllFormedError, a UnicodeDecodeError, where an ill-formed part stands before a run that is too long.
    """
    return _unsafe_byte(bytes(data)) is None


def find_unsafe(data: Data) -> Place | None:
    """The first character that makes a run of non-starters longer than 30, or None where the text is stream-safe.

    Raises IllFormedError, a UnicodeDecodeError, where an ill-formed part stands before that character.
    """
    text = bytes(data)
    return _place(text, _unsafe_byte(text))


def is_normalized(data: Data, form: str = "nfc", *, assigned: bool = False) -> bool:
    """Whether the text is in the form and stream-safe: whether `convert` leaves it as it is.

    `form` is "nfc", "nfd", "nfkc" or "nfkd", in either case. With `assigned` a character that Unicode has not assigned is
    refused.

    Raises IllFormedError, a UnicodeDecodeError, and UnassignedError, where such a fault comes before it is settled that the
    text is not in the form; and FormError for another form.
    """
    return _changed_byte(bytes(data), form, assigned) is None


def find_change(data: Data, form: str = "nfc", *, assigned: bool = False) -> Place | None:
    """The first character that `convert` changes, or None where the text is in the form and stream-safe.

    `form` and `assigned` are those of `is_normalized`, and so is what is raised.
    """
    text = bytes(data)
    return _place(text, _changed_byte(text, form, assigned))


def _unsafe_byte(text: bytes) -> int | None:
    moved = c.Moved()
    return _found_byte(c.library.nf_check(text, len(text), moved), moved, text)


def _changed_byte(text: bytes, form: str, assigned: bool) -> int | None:
    moved = c.Moved()
    status = c.library.nf_check_form(form_number(form), policy_number(False, assigned), text, len(text), moved)
    return _found_byte(status, moved, text)


def _found_byte(status: int, moved: c.Moved, text: bytes) -> int | None:
    if status in (c.UNSAFE, c.NOT_NORMALIZED):
        return int(moved.at)
    if status != c.DONE:
        raise fault(status, moved, text, 0, b"")
    return None


def _place(text: bytes, byte: int | None) -> Place | None:
    if byte is None:
        return None
    blocks = (text[at : min(at + _BLOCK, byte)] for at in range(0, byte, _BLOCK))
    return Place(sum(len(block.translate(None, _CONTINUATIONS)) for block in blocks), byte)


def unicode_version() -> str:
    """The version of Unicode that the library's data is of, as "18.0.0"."""
    number = c.library.nf_unicode_version()
    return f"{number // 10000}.{number // 100 % 100}.{number % 100}"
