"""nfstream from Python: random texts in random pieces and through small outputs, with the state copied between calls, against
unicodedata. python3 examples/state.py LIBRARY [TEXTS]"""

import ctypes
import random
import sys
import unicodedata

FORMS = ("NFC", "NFD", "NFKC", "NFKD")
DONE, FULL, SPENT, NO_STATE = 0, 3, 7, 8


class State(ctypes.Structure):
    _fields_ = (
        [(name, ctypes.c_uint32) for name in ("magic", "unicode")]
        + [(name, ctypes.c_uint64) for name in ("base", "offset", "chars", "put")]
        + [("starter", ctypes.c_uint32), ("marks", ctypes.c_uint32 * 30), ("held", ctypes.c_uint8 * 3)]
        + [(name, ctypes.c_uint8) for name in ("held_len", "marks_len", "count", "form", "policy", "spent")]
    )


class Moved(ctypes.Structure):
    _fields_ = [("read", ctypes.c_size_t), ("written", ctypes.c_size_t), ("at", ctypes.c_uint64), ("start", ctypes.c_uint64)]


library = ctypes.CDLL(sys.argv[1])
library.nf_start.argtypes = [ctypes.POINTER(State), ctypes.c_uint32, ctypes.c_uint32, ctypes.c_uint64]
library.nf_feed.argtypes = [ctypes.POINTER(State), ctypes.c_char_p, ctypes.c_size_t, ctypes.c_char_p, ctypes.c_size_t, ctypes.POINTER(Moved)]
library.nf_finish.argtypes = [ctypes.POINTER(State), ctypes.c_char_p, ctypes.c_size_t, ctypes.POINTER(Moved)]
library.nf_convert.argtypes = [ctypes.c_uint32, ctypes.c_uint32, ctypes.c_char_p, ctypes.c_size_t, ctypes.c_char_p, ctypes.c_size_t, ctypes.POINTER(Moved)]
library.nf_check.argtypes = [ctypes.c_char_p, ctypes.c_size_t, ctypes.POINTER(Moved)]
assert ctypes.sizeof(State) == 176


def copied(state):
    """The state's bytes, as they might come from a file."""
    return State.from_buffer_copy(bytes(state))


def form_of(data, form, draw):
    state, moved, out = State(), Moved(), bytearray()
    assert library.nf_start(state, form, 0, 0) == DONE
    at = 0
    while at < len(data):
        piece = data[at : at + draw.randint(1, 40)]
        room = ctypes.create_string_buffer(draw.choice((256, 257, 300, 1000)))
        state = copied(state)
        status = library.nf_feed(state, piece, len(piece), room, len(room), moved)
        assert status in (DONE, FULL), status
        assert (status == DONE) == (moved.read == len(piece))
        out += room.raw[: moved.written]
        at += moved.read
    room = ctypes.create_string_buffer(256)
    state = copied(state)
    assert library.nf_finish(state, room, 256, moved) == DONE
    out += room.raw[: moved.written]
    assert library.nf_finish(state, room, 256, moved) == SPENT
    return bytes(out)


def character(draw):
    """One that is assigned in Python's version of Unicode, often a mark or one with a decomposition."""
    while True:
        low, high = draw.choice(((0x20, 0x7F), (0xA0, 0x250), (0x300, 0x370), (0x591, 0x660), (0x900, 0xE00), (0x1100, 0x1200), (0x1E00, 0x2000), (0xAC00, 0xD7A4), (0xF900, 0x10000), (0x1D100, 0x1D200), (0, 0x110000)))
        c = chr(draw.randrange(low, high))
        if unicodedata.category(c) not in ("Cn", "Cs"):
            return c


def longest_run(text):
    run = longest = 0
    for c in unicodedata.normalize("NFKD", text):
        run = run + 1 if unicodedata.combining(c) else 0
        longest = max(longest, run)
    return longest


def main():
    draw = random.Random(1)
    checked = 0
    for _ in range(int(sys.argv[2]) if len(sys.argv) > 2 else 2000):
        text = "".join(character(draw) for _ in range(draw.randint(0, 60)))
        if longest_run(text) > 30:
            continue
        for number, form in enumerate(FORMS, 1):
            due = unicodedata.normalize(form, text).encode()
            data = text.encode()
            assert form_of(data, number, draw) == due, (form, ascii(text))
            moved, room = Moved(), ctypes.create_string_buffer(len(due) + 1)
            assert library.nf_convert(number, 0, data, len(data), room, len(due), moved) == DONE
            assert room.raw[: moved.written] == due and moved.read == len(data)
            assert not due or library.nf_convert(number, 0, data, len(data), room, len(due) - 1, moved) == FULL
            assert library.nf_check(data, len(data), moved) == DONE
            checked += 1
    # A state of random bytes is refused, also after the words that mark a state: nothing else happens.
    fresh, refused = State(), 0
    assert library.nf_start(fresh, 1, 0, 0) == DONE and fresh.unicode == library.nf_unicode_version()
    for _ in range(20000):
        state, moved, room = State.from_buffer_copy(bytes(fresh)[:8] + draw.randbytes(168)), Moved(), ctypes.create_string_buffer(256)
        before = bytes(state)
        if library.nf_feed(state, b"a", 1, room, 256, moved) == NO_STATE:
            assert bytes(state) == before and moved.read == moved.written == 0
            refused += 1
    assert library.nf_feed(State(), b"a", 1, room, 256, moved) == NO_STATE
    # NULL with length 0 is taken.
    assert library.nf_feed(fresh, None, 0, None, 0, moved) == DONE and library.nf_finish(fresh, None, 0, moved) == DONE
    assert library.nf_convert(1, 0, None, 0, None, 0, moved) == DONE and library.nf_check(None, 0, moved) == DONE
    # Each character, assigned or not, finds room in 3 or 11 times its bytes, alone and among marks.
    for code in range(0, 0x110000, 1 if len(sys.argv) > 3 else 17):
        if 0xD800 <= code < 0xE000:
            continue
        data = chr(code).encode() * 3 + "\u0344".encode() * draw.randint(0, 20) + chr(code).encode() * 40
        for form in range(1, 5):
            bound = len(data) * (3 if form < 3 else 11)
            assert library.nf_convert(form, 0, data, len(data), ctypes.create_string_buffer(bound), bound, moved) == DONE, hex(code)
    # A real state with one bit changed is refused, or goes on from elsewhere within its room.
    stands = 0
    for _ in range(20000):
        real = State()
        library.nf_start(real, draw.randint(1, 4), draw.randint(0, 3), 5)
        text = "".join(character(draw) for _ in range(10)).encode()
        library.nf_feed(real, text, len(text) - 1, ctypes.create_string_buffer(1000), 1000, moved)
        changed = bytearray(bytes(real))
        changed[draw.randrange(176)] ^= 1 << draw.randrange(8)
        status = library.nf_feed(State.from_buffer_copy(changed), text, len(text), ctypes.create_string_buffer(2000), 2000, moved)
        assert moved.read <= len(text) and moved.written <= 2000
        stands += status != NO_STATE
    print(f"{stands} of 20000 states with one bit changed still say something")
    print(f"{checked} forms of random texts agree with unicodedata; {refused} of 20000 random states are refused")


main()
