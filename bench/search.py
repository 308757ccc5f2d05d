#!/usr/bin/env python3
"""Searches for text on which a program is slow: units of 1 to 12 characters, or of bytes that are no text, again and again.

    python3 bench/search.py [--seed N] [--minutes N] [--forms F,..] [--top N] [PROGRAM]      (./nfstream where none is named)

Each unit is counted by callgrind, so that other work on the machine changes nothing: the instructions of a run over 16 KiB of
it, less what starting takes, by a byte of the input, or of the output where that is longer; with --assigned also those of half a
KiB of it before a character that is refused, where these are more. A search begins with pairs by chance, and goes on from the
worst that it has found: a character more, one less, another, twice as many. The table has the worst units of each command.
Wants valgrind; ten minutes are some 2,000 units on 4 processors."""

import argparse
import re
import sys
import time
from concurrent.futures import ThreadPoolExecutor
from dataclasses import dataclass
from os import cpu_count
from pathlib import Path
from random import Random
from subprocess import PIPE, run
from unicodedata import category, combining, decomposition, normalize

from hostile import is_text
from table import FORMS, line

SIZE = 1 << 14
# As much as the program replaces ill-formed bytes in at once, and a character that is refused, with an ill-formed byte after it.
SHORT, REFUSED = 1 << 9, "\u0378".encode() + b"\x80"
LONGEST = 12
KEPT = 24
BROKEN = [b"\x80", b"\xc3", b"\xe0", b"\xe0\xa0", b"\xed\xa0", b"\xf0", b"\xf0\x80", b"\xf0\x90\x80", b"\xf4\x90", b"\xff"]

Unit = tuple[bytes, ...]


@dataclass(frozen=True, order=True)
class Found:
    """What a unit takes for a byte of the longer of input and output, for one of the input, and the unit."""

    longer: float
    read: float
    unit: Unit


def seconds() -> set[str]:
    """The characters that stand second in a canonical decomposition: such a one may compose with what stands before it."""
    pairs = (decomposition(chr(code)).split() for code in range(sys.maxunicode + 1))
    return {chr(int(pair[1], 16)) for pair in pairs if len(pair) == 2 and not pair[0].startswith("<")}


def kinds(random: Random) -> list[bytes]:
    """A character of each kind, by chance: by its class, its length and that of its decompositions, what of it the forms
    leave, whether it may be second in a composite and whether it is assigned; and ill-formed bytes."""
    second = seconds()
    by_kind: dict[str, list[str]] = {}
    for code in range(sys.maxunicode + 1):
        c = chr(code)
        if category(c) == "Cs":
            continue
        forms = [normalize(form.upper(), c) for form in FORMS]
        left = [(len(form), form == c, combining(form[0])) for form in forms]
        by_kind.setdefault(repr((len(c.encode()), combining(c), left, c in second, category(c) == "Cn")), []).append(c)
    return [random.choice(found).encode() for found in by_kind.values()] + BROKEN


def counted(command: list[str], data: bytes) -> tuple[int, int]:
    """The instructions of a run, and how many bytes it writes."""
    valgrind = ["valgrind", "--tool=callgrind", "--callgrind-out-file=/dev/null", *command]
    done = run(valgrind, input=data, stdout=PIPE, stderr=PIPE)
    found = re.search(rb"Collected : (\d+)", done.stderr)
    if not found:
        sys.exit("search.py: callgrind said nothing: is valgrind there?")
    return int(found[1]), len(done.stdout)


def changed(random: Random, unit: Unit, others: list[bytes]) -> Unit:
    """Another unit that is near: one more, one less, another in a place, or a part of it twice."""
    at = random.randrange(len(unit))
    return random.choice([
        unit[:at] + (random.choice(others),) + unit[at:],
        unit[:at] + unit[at + 1 :] or unit,
        unit[:at] + (random.choice(others),) + unit[at + 1 :],
        unit[:at] + unit[at : at + 1] * random.randint(2, 6) + unit[at + 1 :],
    ])[:LONGEST]


class Search:
    """The units of one command that were counted."""

    def __init__(self, command: list[str], random: Random, others: list[bytes]):
        self.command, self.random = command, random
        # Without --replace nothing goes on after bytes that are no text, and check stops where it finds a place.
        self.others = others if "--replace" in command else [kind for kind in others if is_text(kind)]
        self.start = counted(command, b"")[0]
        self.found: dict[Unit, Found] = {}

    def count(self, unit: Unit) -> Found:
        again = b"".join(unit)
        texts = [again * (SIZE // len(again))]
        if "--assigned" in self.command:
            texts.append(again * (SHORT // len(again)) + REFUSED)
        return max(self.count_text(unit, text) for text in texts)

    def count_text(self, unit: Unit, data: bytes) -> Found:
        instructions, written = counted(self.command, data)
        instructions -= self.start
        return Found(instructions / max(len(data), written), instructions / len(data), unit)

    def worst(self, top: int) -> list[Found]:
        return sorted(self.found.values(), reverse=True)[:top]

    def next_units(self, many: int) -> list[Unit]:
        kept = [found.unit for found in self.worst(KEPT)]
        fresh = len(self.found) < 8 * KEPT
        return [
            (self.random.choice(self.others), self.random.choice(self.others))
            if fresh or self.random.random() < 0.2
            else changed(self.random, self.random.choice(kept), self.others)
            for _ in range(many)
        ]

    def go_on(self, pool: ThreadPoolExecutor, many: int) -> None:
        new = [unit for unit in dict.fromkeys(self.next_units(many)) if unit not in self.found]
        self.found.update({found.unit: found for found in pool.map(self.count, new)})


def told(unit: Unit) -> str:
    return " ".join(f"U+{ord(part.decode()):04X}" if is_text(part) else "byte " + part.hex(" ").upper() for part in unit)


def main() -> None:
    parser = argparse.ArgumentParser(prog="search.py")
    parser.add_argument("--seed", type=int, default=1)
    parser.add_argument("--minutes", type=float, default=10)
    parser.add_argument("--forms", default=",".join(FORMS))
    parser.add_argument("--top", type=int, default=3)
    parser.add_argument("program", nargs="?", type=Path, default=Path(__file__).parent.parent / "nfstream")
    words = parser.parse_args()
    flags: list[list[str]] = [[], ["--replace"], ["--replace", "--assigned"]]
    convert = [["convert", "--form", form, *flag] for form in words.forms.split(",") for flag in flags]
    random = Random(words.seed)
    others = kinds(random)
    program = str(words.program.resolve())
    searches = [Search([program, *command], random, others) for command in [*convert, ["check"], ["measure"]]]
    end = time.monotonic() + 60 * words.minutes
    with ThreadPoolExecutor(cpu_count()) as pool:
        while time.monotonic() < end:
            for search in searches:
                search.go_on(pool, 4 * (cpu_count() or 1))
    print(f"{len(others)} kinds, {sum(len(search.found) for search in searches)} units, seed {words.seed}\n")
    line(["Command", "Unit, again and again", "Instructions by byte, longer", "of input"])
    line(["---", "---", "---:", "---:"])
    for search in searches:
        for found in search.worst(words.top):
            line([f"`{' '.join(search.command[1:])}`", told(found.unit), f"{found.longer:.0f}", f"{found.read:.0f}"])


if __name__ == "__main__":
    main()
