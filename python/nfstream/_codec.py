"""The codecs utf-8-nfc, utf-8-nfd, utf-8-nfkc and utf-8-nfkd: UTF-8 whose text is normalized as it is read."""

from __future__ import annotations

import codecs
import io
from typing import Any

from . import _library as c
from ._errors import IllFormedError, NfstreamError, SpentError
from ._filter import Filter
from ._whole import convert

_TAIL = 256
"""More bytes than those of which a filter ever holds the text."""

_MOST = 30
"""The most non-starters that stream-safe text has in a row."""

_MOST_CUT = 255
"""More bytes than one character gives before the part of it that is held."""


def _replaces(errors: str, name: str) -> bool:
    if errors not in ("strict", "replace"):
        raise NfstreamError(f"{name} takes errors='strict' or 'replace', and not {errors!r}")
    return errors == "replace"


class _Decoder(codecs.IncrementalDecoder):
    """Reads in bounded memory. What may be cut off after a line feed is: so a line comes out whole.

    A state is a place in the bytes, and a number: how many non-starters stand before the place, and how many bytes of what
    comes from there have been given. That a filter which begins there goes on as this one does is looked at for each state
    that is given, so `tell` and `seek` are right.
    """

    name = ""
    form = ""

    def __init__(self, errors: str = "strict") -> None:
        super().__init__(errors)
        self._replace = _replaces(errors, self.name)
        self._room = c.Room(16 * _TAIL)
        self._after: dict[int, tuple[bytes, int]] = {}
        self._calls = _Calls(self.name)
        self._begin(0, 0)

    def reset(self) -> None:
        self._calls.sees_set()
        self._begin(0, 0)

    def _begin(self, count: int, cut: int) -> None:
        """Stands after so many non-starters, of whose text nothing is to come, nor the first `cut` bytes."""
        self._begun = cut << 5 | count
        self._filter, before = self._filter_after(count)
        self._cut = before + cut
        self._tail = b""  # the last bytes that were read
        self._written = False  # whether something came out since

    def _filter_after(self, count: int) -> tuple[Filter, int]:
        """A filter after so many non-starters, and how many bytes of what it will write are theirs."""
        filter = Filter(self.form, replace=self._replace)
        if not count:
            return filter, 0
        before = b"0" + b"\xcc\xb4" * count  # a starter that composes with nothing, and U+0334: their own form in each form
        return filter, len(before) - len(filter.feed(before))

    def decode(self, input: Any, final: bool = False) -> str:
        self._calls.sees_decode()
        return self._decode(bytes(input), final)

    def _decode(self, data: bytes, final: bool) -> str:
        try:
            out = self._filter.feed(data)
            self._tail = data[-_TAIL:] if len(data) >= _TAIL else (self._tail + data)[-_TAIL:]
            ends = final or self._tail.endswith(b"\n")
            if ends:
                out += self._filter.finish()
        except IllFormedError as error:
            error.encoding = self.name
            raise
        if self._cut:
            cut = min(self._cut, len(out))
            out, self._cut = out[cut:], self._cut - cut
        self._written = self._written or bool(out)
        if ends:
            self._begin(0, 0)
        return out.decode()

    def getstate(self) -> tuple[bytes, int]:
        if self._filter._state.spent:
            raise SpentError("the text has ended")
        self._calls.sees_get()
        if not self._written:
            return self._tail, self._begun
        wanted = _standing(bytes(self._filter._state))
        for size in range(len(self._tail) + 1):
            tail = self._tail[len(self._tail) - size :]
            if not self._replace and tail and 0x80 <= tail[0] < 0xC0:
                continue
            standing, _ = self._try(0, tail)
            lacking = wanted[-1] - standing[-1]
            for count in (0, lacking, _MOST):
                if 0 <= count <= _MOST:
                    standing, cut = self._try(count, tail)
                    if standing == wanted and 0 <= cut <= _MOST_CUT:
                        return tail, cut << 5 | count
        return b"", _NOWHERE

    def _try(self, count: int, tail: bytes) -> tuple[tuple[bytes, bytes, int], int]:
        """How a filter stands that reads the tail after so many non-starters, and how much it gives of the tail."""
        if count not in self._after:
            filter, before = self._filter_after(count)
            self._after[count] = bytes(filter._state), before
        begin, before = self._after[count]
        state, moved = c.State.from_buffer_copy(begin), c.Moved()
        c.library.nf_feed(state, tail, len(tail), self._room.address, self._room.size, moved)
        return _standing(bytes(state)), moved.written - before

    def setstate(self, state: tuple[bytes, int]) -> None:
        data, number = state
        self._calls.sees_set()
        if not 0 <= number < _NOWHERE or number & 31 > _MOST:
            raise io.UnsupportedOperation(f"{self.name} cannot go back there")
        self._begin(number & 31, number >> 5)
        if data:
            self._decode(data, False)


_NOWHERE = (_MOST_CUT + 1) << 5
"""The state of a place to which nothing can go back."""

_STARTER, _MARKS, _HELD = c.State.starter.offset, c.State.marks.offset, c.State.held.offset
_HELD_LEN, _MARKS_LEN, _COUNT = c.State.held_len.offset, c.State.marks_len.offset, c.State.count.offset


def _standing(state: bytes) -> tuple[bytes, bytes, int]:
    """All on which it depends what a filter will write: what is pending, what is held, and the count."""
    pending = state[_STARTER : _MARKS + 4 * state[_MARKS_LEN]]
    return pending, state[_HELD : _HELD + state[_HELD_LEN]], state[_COUNT]


class _Calls:
    """Tells a `tell` that comes after a `seek`, with nothing read between, by the order of the calls, and refuses it.

    There CPython measures by the text that it read before the seek, and may look past the end of its own bytes. A `tell`
    gets the state and then sets others, to try them, until it sets that again; a `seek` sets one, and may decode a few bytes
    after it; a read gets the state and then decodes.
    """

    def __init__(self, name: str) -> None:
        self._name = name
        self._last = "decode"
        self._mode = "reading"  # or "trying", in a tell; or "sought", after a seek that has decoded

    def sees_get(self) -> None:
        if self._last == "set" and self._mode == "trying":
            self._mode = "reading"
        self._last = "get"

    def sees_decode(self) -> None:
        if self._last == "set" and self._mode == "reading":
            self._mode = "sought"
        elif self._last == "get" and self._mode == "sought":
            self._mode = "reading"
        self._last = "decode"

    def sees_set(self) -> None:
        last, self._last = self._last, "set"
        if last == "get" and self._mode == "sought":
            self._last = "refused"
            raise io.UnsupportedOperation(f"{self._name}: tell() right after seek() is refused: read on first")
        if last == "get" and self._mode == "reading":
            self._mode = "trying"
        elif last in ("set", "decode") and self._mode in ("trying", "sought"):
            self._mode = "reading" if last == "set" or self._mode == "sought" else "trying"


class _Encoder(codecs.IncrementalEncoder):
    """Refuses to write: text is written in pieces whose end nobody tells, so the last of it would be lost or not composed."""

    name = ""

    def encode(self, text: str, final: bool = False) -> bytes:
        if text:
            raise io.UnsupportedOperation(f"{self.name} is for reading and for whole texts: write what a Filter gives")
        return b""


class _Stream:
    """Refuses a StreamReader or StreamWriter, which are not told where the text ends."""

    name = ""

    def __init__(self, *given: object) -> None:
        raise io.UnsupportedOperation(f"{self.name} reads by open() or io.TextIOWrapper")


def _find(name: str) -> codecs.CodecInfo | None:
    word = name.lower().replace("-", "_")
    form = word[len("utf_8_") :]
    if not word.startswith("utf_8_") or form not in c.FORMS:
        return None
    public = f"utf-8-{form}"

    def encode(text: str, errors: str = "strict") -> tuple[bytes, int]:
        _replaces(errors, public)
        return convert(text.encode("utf-8", errors), form), len(text)

    def decode(data: Any, errors: str = "strict") -> tuple[str, int]:
        whole = bytes(data)
        try:
            return convert(whole, form, replace=_replaces(errors, public)).decode(), len(whole)
        except IllFormedError as error:
            error.encoding = public
            raise

    whole: tuple[Any, Any] = encode, decode
    named: dict[str, Any] = {"name": public, "form": form}
    make: Any = type
    stream = make("Stream", (_Stream,), named)
    return codecs.CodecInfo(
        *whole,
        streamreader=stream,
        streamwriter=stream,
        incrementalencoder=make("IncrementalEncoder", (_Encoder,), named),
        incrementaldecoder=make("IncrementalDecoder", (_Decoder,), named),
        name=public,
    )


codecs.register(_find)
