"""Texts made by chance from a fixed seed: characters of all kinds, and what costs a normalizer most.

Each begins with a starter, and ends with one but for the long runs, so that it can stand after itself.
"""

import re
from random import Random
from sys import maxunicode
from typing import Callable, Iterator
from unicodedata import category, combining, decomposition

SEED = 15
LETTERS = "abcdefghijklmnopqrstuvwxyz"
HALF_WIDTH_KANA = [chr(c) for c in range(0xFF66, 0xFF9E)]
HALF_WIDTH_MARKS = "\uff9e\uff9f"
FULL_WIDTH_LETTERS = [chr(c) for c in (*range(0xFF10, 0xFF1A), *range(0xFF21, 0xFF3B), *range(0xFF41, 0xFF5B))]
FULL_WIDTH_STOPS = "\u3000\uff0c\uff0e\uff08\uff09\uff01"
# Marks of class 0 whose decompositions are marks of classes 129 and 130, or 129 and 132.
TIBETAN_VOWELS = "\u0f73\u0f75\u0f81"
LEADS, VOWELS, TAILS = range(0x1100, 0x1160), range(0x1160, 0x11A8), range(0x11A8, 0x1200)


def marks() -> dict[int, list[str]]:
    """The characters that have a class and are their own decompositions, by class."""
    found: dict[int, list[str]] = {}
    for code in range(0x300, maxunicode + 1):
        c = chr(code)
        if combining(c) and not decomposition(c):
            found.setdefault(combining(c), []).append(c)
    return found


def assigned() -> list[str]:
    return [chr(code) for code in range(maxunicode + 1) if category(chr(code)) not in ("Cn", "Co", "Cs")]


class Maker:
    def __init__(self, seed: int):
        self.random = Random(seed)
        self.by_class = marks()
        self.classes = sorted(self.by_class)
        self.above_latin = [c for c in self.by_class[230] if c < "\u0370"]

    def mark(self) -> str:
        """A mark of any class: each class is as likely as another."""
        return self.random.choice(self.by_class[self.random.choice(self.classes)])

    def above(self) -> str:
        """A mark of Latin's that stands above."""
        return self.random.choice(self.above_latin)

    def group(self, least: int, most: int, mark: Callable[[], str]) -> str:
        letter = self.random.choice(LETTERS)
        return letter + "".join(mark() for _ in range(self.random.randint(least, most)))

    def groups(self, least: int, most: int, mark: Callable[[], str]) -> Iterator[str]:
        while True:
            yield self.group(least, most, mark)

    def one_class(self) -> Iterator[str]:
        return self.groups(1, 8, self.above)

    def mixed_classes(self) -> Iterator[str]:
        return self.groups(1, 8, self.mark)

    def thirty(self) -> Iterator[str]:
        return self.groups(30, 30, self.mark)

    def twelve_to_31(self) -> Iterator[str]:
        return self.groups(12, 31, self.mark)

    def tibetan(self) -> Iterator[str]:
        def mark() -> str:
            return self.random.choice(TIBETAN_VOWELS) if self.random.random() < 0.5 else self.mark()

        return self.groups(1, 8, mark)

    def half_width(self) -> Iterator[str]:
        while True:
            yield self.random.choice(HALF_WIDTH_KANA)
            yield "".join(self.random.choices(HALF_WIDTH_MARKS, k=self.random.randint(0, 3)))

    def full_width(self) -> Iterator[str]:
        """Words of full-width letters and digits, with full-width spaces and marks of punctuation between them."""
        while True:
            yield "".join(self.random.choices(FULL_WIDTH_LETTERS, k=self.random.randint(1, 9)))
            yield self.random.choice(FULL_WIDTH_STOPS)

    def jamo(self) -> Iterator[str]:
        """Letters of Hangul, modern and old, most of them in the order of a syllable."""
        while True:
            for part in LEADS, VOWELS, TAILS:
                if self.random.random() < 0.9:
                    modern = part[:21] if self.random.random() < 0.8 else part
                    yield chr(self.random.choice(modern))

    def any_assigned(self) -> Iterator[str]:
        characters = assigned()
        while True:
            yield self.random.choice(characters)

    def long_one_class(self) -> Iterator[str]:
        yield "q"
        while True:
            yield self.above()

    def long_mixed_classes(self) -> Iterator[str]:
        yield "q"
        while True:
            yield self.mark()


MADE = {
    "random": ("Characters by chance", Maker.any_assigned),
    "one-class": ("1 to 8 marks, one class", Maker.one_class),
    "mixed-classes": ("1 to 8 marks, mixed classes", Maker.mixed_classes),
    "thirty": ("30 marks, mixed classes", Maker.thirty),
    "twelve-to-31": ("12 to 31 marks, mixed classes", Maker.twelve_to_31),
    "u+0f73": ("U+0F73 and other marks", Maker.tibetan),
    "jamo": ("Jamo", Maker.jamo),
    "half-width": ("Half-width marks", Maker.half_width),
    "full-width": ("Full-width letters", Maker.full_width),
    "long-one-class": ("One run, one class", Maker.long_one_class),
    "long-mixed-classes": ("One run, mixed classes", Maker.long_mixed_classes),
}
WITHOUT_END = ("long-one-class", "long-mixed-classes")


def made(word: str, size: int) -> str:
    """The text of about `size` bytes that a word of MADE names."""
    taken, count = [], 0
    if word not in WITHOUT_END:
        taken.append(" ")
    for piece in MADE[word][1](Maker(SEED)):
        taken.append(piece)
        count += len(piece.encode())
        if count >= size:
            break
    if word not in WITHOUT_END:
        taken.append("\n")
    return "".join(taken)


def marked(text: str, letters: str, first: str, last: str) -> str:
    """The text with a mark by chance, of those from `first` to `last`, after two of three of its letters; at times two."""
    random = Random(SEED)
    marks = [chr(code) for code in range(ord(first), ord(last) + 1)]

    def after(letter: re.Match[str]) -> str:
        count = random.choices((0, 1, 2), (6, 11, 1))[0]
        return letter[0] + "".join(random.sample(marks, count))

    return re.sub(f"[{letters}]", after, text)


def shuffled(texts: list[str]) -> str:
    """The lines of all the texts, in an order by chance."""
    lines = [line for text in texts for line in text.splitlines(keepends=True)]
    Random(SEED).shuffle(lines)
    return "".join(lines)
