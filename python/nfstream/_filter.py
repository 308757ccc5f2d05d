"""A filter over text that comes in pieces."""

from __future__ import annotations

import ctypes
import io
import threading
from types import TracebackType
from typing import Union

from . import _library as c
from ._errors import FormError, StateError, UnfinishedError
from ._faults import fault

Data = Union[bytes, bytearray, memoryview]

_BLOCK = 65536


def form_number(form: str) -> int:
    number = c.FORMS.get(form.lower())
    if number is None:
        raise FormError(f"no form {form!r}: it is one of {', '.join(c.FORMS)}")
    return number


def policy_number(replace: bool, assigned: bool) -> int:
    return c.REPLACE * bool(replace) | c.ASSIGNED * bool(assigned)


class Filter:
    """A text that comes in pieces, made stream-safe and brought into a normalization form.

    What the calls of `feed` and that of `finish` give, one after the other, is the form of the whole text, however it was
    cut. A filter holds at most 31 characters and 3 bytes of a begun one, whatever it reads, and nothing grows with the text.

    `form` is "nfc", "nfd", "nfkc" or "nfkd", in either case. With `replace` each ill-formed part is read as U+FFFD. With
    `assigned` a character that Unicode has not assigned is refused. The first byte has the offset `base`.

    A filter may be copied by `copy.copy` and pickled between two calls. Threads that share one take turns.

    Raises FormError for another form, and OverflowError where `base` is not from 0 to 2**64 - 1.
    """

    __slots__ = ("_state", "_lock", "__weakref__")

    def __init__(self, form: str = "nfc", *, replace: bool = False, assigned: bool = False, base: int = 0) -> None:
        if not 0 <= base < 1 << 64:
            raise OverflowError("base is from 0 to 2**64 - 1")
        self._state = c.State()
        self._lock = threading.Lock()
        status = c.library.nf_start(self._state, form_number(form), policy_number(replace, assigned), base)
        assert status == c.DONE

    @property
    def offset(self) -> int:
        """The offset of the next byte: the base and how many bytes were read. Once the text has ended it says nothing."""
        return int(self._state.offset)

    @property
    def joiners(self) -> int:
        """How many U+034F were put so far. Once the text has ended it says nothing."""
        return int(self._state.put)

    def feed(self, piece: Data) -> bytes:
        """Reads a piece, and returns what that settles of the form: UTF-8 of whole characters.

        A piece of another type than bytes is copied first.

        Raises IllFormedError, UnassignedError, TooLongError, or SpentError where the text has ended. At either of the first
        two what had settled before the fault is in the error's `settled`, and the text has ended.
        """
        data, out = bytes(piece), io.BytesIO()
        with self._lock:
            self._feed(data, out)
        return out.getvalue()

    def finish(self) -> bytes:
        """Ends the text, and returns the rest of the form.

        Raises IllFormedError where the text ends within a character, and SpentError where it has ended already.
        """
        out = io.BytesIO()
        with self._lock:
            self._finish(out)
        return out.getvalue()

    def _held(self) -> bytes:
        return bytes(self._state.held[: self._state.held_len])

    def _feed(self, data: bytes, out: io.BytesIO) -> None:
        held = self._held()
        base = self._state.offset - len(held)
        room, moved = c.Room(min(len(data), _BLOCK) + c.LEAST_ROOM), c.Moved()
        status = c.library.nf_feed(self._state, data, len(data), room.address, room.size, moved)
        out.write(room.front(moved.written))
        if status == c.FULL:
            first, at = c.address(data) or 0, 0
            while status == c.FULL:
                at += moved.read
                status = c.library.nf_feed(self._state, first + at, len(data) - at, room.address, room.size, moved)
                out.write(room.front(moved.written))
        if status != c.DONE:
            raise fault(status, moved, held + data, base, out.getvalue())

    def _finish(self, out: io.BytesIO) -> None:
        held = self._held()
        base = self._state.offset - len(held)
        room, moved = c.Room(c.LEAST_ROOM), c.Moved()
        status = c.library.nf_finish(self._state, room.address, room.size, moved)
        out.write(room.front(moved.written))
        if status != c.DONE:
            raise fault(status, moved, held, base, out.getvalue())

    def __enter__(self) -> Filter:
        return self

    def __exit__(
        self, kind: type[BaseException] | None, error: BaseException | None, trace: TracebackType | None
    ) -> None:
        """Raises UnfinishedError where text was read and not finished, so that its rest is not lost unseen."""
        if kind is None and not self._state.spent and self._state.offset != self._state.base:
            raise UnfinishedError("the filter was left before finish()")

    def __copy__(self) -> Filter:
        made = Filter.__new__(Filter)
        made.__setstate__(self.__getstate__())
        return made

    def __deepcopy__(self, memo: object) -> Filter:
        return self.__copy__()

    def __getstate__(self) -> bytes:
        with self._lock:
            return bytes(self._state)

    def __setstate__(self, state: bytes) -> None:
        """Takes a state that this library gave, of the same version of Unicode; raises StateError for any other."""
        if not isinstance(state, bytes) or len(state) != ctypes.sizeof(c.State):
            raise StateError("this is no state of this library")
        self._state = c.State.from_buffer_copy(state)
        self._lock = threading.Lock()
        status = c.library.nf_feed(self._state, None, 0, None, 0, c.Moved())
        if status not in (c.DONE, c.SPENT):
            raise StateError("this is no state of this library, or one of another version of Unicode")
