"""The texts that are measured: real ones, which corpora.sh made, and made ones."""

from dataclasses import dataclass
from pathlib import Path
from typing import Iterator
from unicodedata import normalize

from made import MADE, made, marked, shuffled

REAL = {
    "ascii": "ASCII",
    "french": "French",
    "vietnamese": "Vietnamese",
    "korean": "Korean",
    "japanese": "Japanese",
    "chinese": "Chinese",
    "russian": "Russian",
    "greek": "Greek",
    "hindi": "Hindi",
    "arabic": "Arabic",
    "hebrew": "Hebrew",
}
# Real texts into which vowels are put by chance: the name, the real text, its letters, and the first and the last vowel.
MARKED = {
    "vowels": ("Arabic with vowel signs", "arabic", "\u0621-\u064a", "\u064b", "\u0652"),
    "points": ("Hebrew with points", "hebrew", "\u05d0-\u05ea", "\u05b0", "\u05bc"),
}
MIXED = "mixed"
WORDS = [*REAL, *MARKED, MIXED, *MADE]


@dataclass
class Text:
    name: str
    state: str
    content: str


def front(folder: Path, word: str, size: int) -> str:
    """The front of a real text, of `size` bytes up to the end of a line."""
    with open(folder / "texts" / f"{word}.txt", "rb") as file:
        data = file.read(size)
    return data[:data.rindex(b"\n") + 1].decode()


def missing(folder: Path, words: list[str]) -> list[str]:
    """The real texts that the words ask for and that are not there."""
    named = [MARKED[word][1] if word in MARKED else word for word in words]
    needed = REAL if MIXED in named else [word for word in REAL if word in named]
    return [word for word in needed if not (folder / "texts" / f"{word}.txt").is_file()]


def states(name: str, content: str) -> Iterator[Text]:
    composed, decomposed = normalize("NFC", content), normalize("NFD", content)
    if composed == decomposed:
        yield Text(name, "either", composed)
    else:
        yield Text(name, "composed", composed)
        yield Text(name, "decomposed", decomposed)


def texts(folder: Path, words: list[str], size: int) -> Iterator[Text]:
    """Each text in turn, of about `size` bytes where it is composed: one at a time is in memory."""
    for word in words:
        if word in REAL:
            yield from states(REAL[word], front(folder, word, size))
        elif word in MARKED:
            name, source, *marks = MARKED[word]
            yield from states(name, marked(front(folder, source, 5 * size // 8), *marks))
        elif word == MIXED:
            share = size // len(REAL)
            yield from states("Mixed lines", shuffled([front(folder, name, share) for name in REAL]))
        else:
            yield Text(MADE[word][0], "as made", made(word, size))
