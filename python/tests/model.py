"""What is due, by unicodedata: the Stream-Safe Text Process of UAX #15 (section 13) as it stands there, and then the form."""

from __future__ import annotations

import functools
import random
import unicodedata

FORMS = ("nfc", "nfd", "nfkc", "nfkd")

RANGES = (
    (0x0, 0x80), (0xA0, 0x250), (0x300, 0x370), (0x391, 0x590), (0x591, 0x660), (0x900, 0xE00), (0x1100, 0x1200),
    (0x1E00, 0x2000), (0x3040, 0x3100), (0xAC00, 0xD7A4), (0xF900, 0xFB50), (0xFDF0, 0xFE00), (0xFF65, 0xFFA0),
    (0x1D15E, 0x1D165), (0x1F600, 0x1F650), (0x0, 0x110000),
)


def is_known(character: str) -> bool:
    """Whether unicodedata knows the character, and it is no surrogate. The library's tables may be younger."""
    return unicodedata.category(character) not in ("Cn", "Cs")


@functools.lru_cache(maxsize=None)
def runs(character: str) -> tuple[int, int, int]:
    """How many characters its NFKD has, and how many non-starters that begins and ends with."""
    classes = [unicodedata.combining(it) for it in unicodedata.normalize("NFKD", character)]
    leading = next((i for i, it in enumerate(classes) if not it), len(classes))
    trailing = next((i for i, it in enumerate(reversed(classes)) if not it), len(classes))
    return len(classes), leading, trailing


def stream_safe(text: str) -> str:
    out, count = [], 0
    for character in text:
        size, leading, trailing = runs(character)
        if count + leading > 30:
            out.append("\u034f")
            count = 0
        out.append(character)
        count = count + size if leading == size else trailing
    return "".join(out)


def due(text: str, form: str) -> bytes:
    return unicodedata.normalize(form.upper(), stream_safe(text)).encode()


def any_character(draw: random.Random) -> str:
    while True:
        character = chr(draw.randrange(*draw.choice(RANGES)))
        if is_known(character):
            return character


def any_text(draw: random.Random, most: int = 40) -> str:
    """Characters of many scripts, one time in four with a run of marks, of which some are longer than 30."""
    text = "".join(any_character(draw) for _ in range(draw.randint(0, most)))
    if draw.random() < 0.25:
        marks = draw.choice(("\u0301", "\u0334\u0323\u0301", "\uff9e", "\u0344\u0301", "\u3099", "\u0f73\u0301"))
        text += draw.choice(("q", "e", "\u30ab", "")) + "".join(draw.choice(marks) for _ in range(draw.randint(1, 100)))
        text += "".join(any_character(draw) for _ in range(draw.randint(0, 5)))
    return text
