"""The shared library, and the layout of what it shares: that of nfstream.h, whose version it has to be of."""

from __future__ import annotations

import ctypes
import os

VERSION = 2

FORMS = {"nfc": 1, "nfd": 2, "nfkc": 3, "nfkd": 4}
REPLACE = 1
ASSIGNED = 2

DONE, NO_FORM, NO_POLICY, FULL, BAD_BYTE, CUT, UNASSIGNED, SPENT, NO_STATE, TOO_LONG, UNSAFE, NOT_NORMALIZED = range(12)

LEAST_ROOM = 256
"""Room in which a call always gets on, and in which the end always fits, in bytes."""


class State(ctypes.Structure):
    """`struct nf_state`: where a text stands."""

    _fields_ = [
        ("magic", ctypes.c_uint32),
        ("unicode", ctypes.c_uint32),
        ("base", ctypes.c_uint64),
        ("offset", ctypes.c_uint64),
        ("chars", ctypes.c_uint64),
        ("put", ctypes.c_uint64),
        ("starter", ctypes.c_uint32),
        ("marks", ctypes.c_uint32 * 30),
        ("held", ctypes.c_uint8 * 3),
        ("held_len", ctypes.c_uint8),
        ("marks_len", ctypes.c_uint8),
        ("count", ctypes.c_uint8),
        ("form", ctypes.c_uint8),
        ("policy", ctypes.c_uint8),
        ("spent", ctypes.c_uint8),
    ]


class Moved(ctypes.Structure):
    """`struct nf_moved`: what a call read and wrote, and the place of a fault."""

    _fields_ = [
        ("read", ctypes.c_size_t),
        ("written", ctypes.c_size_t),
        ("at", ctypes.c_uint64),
        ("start", ctypes.c_uint64),
    ]


assert ctypes.sizeof(State) == 176
assert (State.base.offset, State.starter.offset, State.marks.offset) == (8, 40, 44)
assert (State.held.offset, State.held_len.offset, State.spent.offset) == (164, 167, 172)
assert Moved.at.offset == 2 * ctypes.sizeof(ctypes.c_size_t)

_U32, _SIZE, _BYTES = ctypes.c_uint32, ctypes.c_size_t, ctypes.c_void_p
_STATE, _MOVED = ctypes.POINTER(State), ctypes.POINTER(Moved)

_CALLS = {
    "nf_start": [_STATE, _U32, _U32, ctypes.c_uint64],
    "nf_feed": [_STATE, _BYTES, _SIZE, _BYTES, _SIZE, _MOVED],
    "nf_finish": [_STATE, _BYTES, _SIZE, _MOVED],
    "nf_convert": [_U32, _U32, _BYTES, _SIZE, _BYTES, _SIZE, _MOVED],
    "nf_check": [_BYTES, _SIZE, _MOVED],
    "nf_check_form": [_U32, _U32, _BYTES, _SIZE, _MOVED],
    "nf_version": [],
    "nf_unicode_version": [],
}


def _open() -> ctypes.CDLL:
    named = os.environ.get("NFSTREAM_LIBRARY")
    names = [named] if named else ["libnfstream.so.1", "/usr/local/lib/libnfstream.so.1"]
    reasons = []
    for name in names:
        try:
            return ctypes.CDLL(name)
        except OSError as error:
            reasons.append(str(error))
    raise ImportError(
        "nfstream needs the shared library libnfstream.so.1, which install.sh of nfstream puts in place: let the loader "
        "find it, or name it by the environment's NFSTREAM_LIBRARY. " + "; ".join(reasons)
    )


def _load() -> ctypes.CDLL:
    library = _open()
    for name, types in _CALLS.items():
        try:
            call = getattr(library, name)
        except AttributeError:
            raise ImportError(f"the library of nfstream has no {name}: it is older than this package") from None
        call.argtypes = types
        call.restype = _U32
    version = library.nf_version()
    if version != VERSION:
        raise ImportError(f"the library of nfstream is of version {version}, and this package needs version {VERSION}")
    return library


library = _load()


def address(data: bytes) -> int | None:
    """Where the bytes lie, as long as they are kept."""
    return ctypes.cast(ctypes.c_char_p(data), ctypes.c_void_p).value


class Room:
    """Memory that a call writes to."""

    def __init__(self, size: int) -> None:
        self._bytes = bytearray(size)
        self.size = size
        self._held = ctypes.c_char.from_buffer(self._bytes)
        self.address = ctypes.addressof(self._held)

    def front(self, size: int) -> bytes:
        """The first bytes."""
        return ctypes.string_at(self.address, size)
