"""Measures text that a sender chose to be slow beside friendly text of the same script, and prints a Markdown table:

    python3 bench/hostile.py [--corpora FOLDER] [--assigned] [--calls CALL,..] [PROGRAM]

of ./nfstream of the repository where none is named, and of all forms, `check` and `measure` where no calls are.

Both take turns, in short runs of some rounds. Speeds are the best of all, the first ratio is of the bytes read by second, the
median of what it is in each round, and the other of the bytes written. Where the first is below a quarter, or the other where a
form makes the text many times longer than its friend, both are named at the end, and the status is 1.
With `--assigned` each text that has no unassigned character, and is not read with that flag anyway, is read with it, and so is
its friend; each is read without the flag as well, in the same rounds, and a last column has what the first ratio is then. Where
one is below a quarter with the flag and is not without it, instructions are counted too (by valgrind), and the status is 1 where
the flag adds a larger share to those of the hostile text than to its friend's.
"""

import argparse
import subprocess
import sys
import tempfile
from dataclasses import dataclass, replace
from pathlib import Path
from statistics import median
from unicodedata import category, combining, normalize

from calls import counted
from measure import Effort, Input, speeds
from table import FORMS, cache, line, number
from texts import REAL, front, missing

MARK, BELOW = "\u0301", "\u0316"
SIZE = 4 << 20
BAR = 0.25
MANY = 4  # a text that becomes so many times longer than its friend is measured by what is written

# Where others use the machine, the best of runs that stand together is chance: so one of each, and again later.
OFTEN = Effort(size=SIZE, runs=1, least=0.02, most=20)
ROUNDS = 21


@dataclass
class Hostile:
    """What is said of it, its front, what stands after that again and again, the real text that is its friend, and whether both
    are read with `--assigned`."""

    title: str
    front: bytes
    again: bytes
    friend: str
    assigned: bool = False

    def calls(self) -> list[str]:
        """What is measured: forms for `convert`, and of text that is read without flags the calls that only ask; `check` of text
        that is in the Stream-Safe Text Format, since it reads other text no further than to the place."""
        if self.flags():
            return [*FORMS]
        return [*FORMS, "measure", *["check"] * is_stream_safe((self.front + self.again * 40).decode())]

    def ill_formed(self) -> bool:
        return not is_text(self.again)

    def content(self) -> bytes:
        return self.front + self.again * (SIZE // len(self.again))

    def flags(self) -> list[str]:
        return ["--replace"] * self.ill_formed() + ["--assigned"] * self.assigned

    def command(self, program: Path, call: str) -> list[str]:
        words = ["convert", "--form", call] if call in FORMS else [call]
        return [str(program), *words, *self.flags()]

    def friendly(self, text: str, form: str) -> tuple[str, bytes]:
        """The friend as the form changes it: decomposed where it composes, and else composed. Bytes that are no text stand
        beside text that is written as it was read."""
        composed = self.ill_formed() or form not in ("nfc", "nfkc")
        return ("composed", normalize("NFC", text).encode()) if composed else ("decomposed", normalize("NFD", text).encode())


def is_stream_safe(text: str) -> bool:
    marks = "".join("m" if combining(c) else " " for c in normalize("NFKD", text))
    return "m" * 31 not in marks


def is_assigned(data: bytes) -> bool:
    return all(category(c) != "Cn" for c in data.decode(errors="ignore"))


def is_text(data: bytes) -> bool:
    try:
        data.decode()
    except UnicodeDecodeError:
        return False
    return True


def again(title: str, text: str, friend: str, before: str = "") -> Hostile:
    return Hostile(title, before.encode(), text.encode(), friend)


HOSTILE = [
    again("a letter and marks of one class without an end", MARK * 64, "vietnamese", "q"),
    again("marks of four classes, none in its place", "\u0345\u0301\u0316\u05b0", "vietnamese"),
    again("a letter with 31 marks, and one with 12", "q" + MARK * 31 + "e" + BELOW * 12, "vietnamese"),
    again("U+034F alone", "\u034f", "vietnamese"),
    again("U+0F73, a starter that is two marks", "\u0f73", "vietnamese"),
    again("U+1FB7, three characters in NFD", "\u1fb7", "french"),
    again("U+FDFA, 18 characters in NFKC and NFKD", "\ufdfa", "arabic"),
    again("U+FF9E, a starter that is a mark in NFKD", "\uff9e", "japanese"),
    again("letters of Hangul that make syllables", "\u1112\u1161\u11ab", "korean"),
    again("vowels of Hangul alone", "\u1161", "korean"),
    again("U+00E9 and a, in turns", "\u00e9a", "french"),
    again("e with U+0301, and a, in turns", "e\u0301a", "french"),
    again("a syllable of Hangul and a, in turns", "\uac00a", "korean"),
    again("a full-width letter and a, in turns", "\uff21a", "japanese"),
    again("U+2192 and a, in turns", "\u2192a", "japanese"),
    again("U+FDFA and a, in turns", "\ufdfaa", "arabic"),
    Hostile("bytes 80 alone, `--replace`", b"", b"\x80", "french"),
    Hostile("F0 90 80, again and again, `--replace`", b"", b"\xf0\x90\x80", "french"),
    Hostile("bytes E0 alone, `--replace`", b"", b"\xe0", "french"),
    Hostile("a and 80, in turns, `--replace`", b"", b"a\x80", "french"),
    # What bench/search.py found.
    again("a, U+FDFA, U+0344", "a\ufdfa\u0344", "arabic"),
    again("U+FDFA and U+0344, in turns", "\ufdfa\u0344", "arabic"),
    again("U+3313, four kana in NFKC", "\u3313", "japanese"),
    again("a and U+0344, in turns", "a\u0344", "french"),
    again("a and U+0340, in turns", "a\u0340", "french"),
    again("a and U+01C4, in turns, D and Z with a mark in NFKC", "a\u01c4", "french"),
    again("a and U+1FD3, in turns", "a\u1fd3", "french"),
    again("U+FB2C, three characters in each form", "\ufb2c", "hebrew"),
    again("U+0958, two characters in each form", "\u0958", "hindi"),
    again("14 of U+0316, and aaa", BELOW * 14 + "aaa", "vietnamese"),
    again("a, and 13 of U+0316", "a" + BELOW * 13, "vietnamese"),
    again("k, 200 of U+09BE, U+0301, U+0316", "k" + "\u09be" * 200 + MARK + BELOW, "hindi"),
    Hostile("U+0344 and bytes F0 80, `--replace`", b"", "\u0344".encode() + b"\xf0\x80", "french"),
    Hostile("bytes 80 alone, `--replace --assigned`", b"", b"\x80", "french", True),
    Hostile("a and 80, in turns, `--replace --assigned`", b"", b"a\x80", "french", True),
    Hostile("bytes F0 alone, `--replace --assigned`", b"", b"\xf0", "french", True),
    again("0 and U+0653, in turns", "0\u0653", "arabic"),
    again("U+0378, unassigned", "\u0378", "greek"),
    again("U+1F600", "\U0001f600", "japanese"),
    again("U+F0000, for private use", "\U000f0000", "japanese"),
]


def read_with_assigned() -> list[Hostile]:
    return [replace(hostile, assigned=True) for hostile in HOSTILE if not hostile.assigned and is_assigned(hostile.again)]


def arguments() -> argparse.Namespace:
    parser = argparse.ArgumentParser(prog="hostile.py")
    parser.add_argument("--corpora", type=Path, default=cache(), metavar="FOLDER", help="where corpora.sh put the texts")
    parser.add_argument("--assigned", action="store_true", help="read the texts with --assigned")
    parser.add_argument("--calls", type=lambda word: word.split(","), metavar="CALL,..", help="what is measured: nfc, nfd, nfkc, nfkd, check, measure")
    parser.add_argument("program", nargs="?", type=Path, default=Path(__file__).parent.parent / "nfstream")
    words = parser.parse_args()
    absent = missing(words.corpora, sorted({hostile.friend for hostile in HOSTILE}))
    if absent:
        parser.error(f"{words.corpora} has no texts for {', '.join(absent)}: make them by 'bash bench/corpora.sh'")
    return words


def growth(command: list[str], content: bytes) -> float:
    """How many bytes are written for each that is read."""
    return len(subprocess.run(command, input=content, stdout=subprocess.PIPE, check=True).stdout) / len(content)


@dataclass
class Found:
    """Megabytes of input by second of processor time of a hostile text and of its friend, the best of all rounds, and the median of
    the ratios."""

    mine: float
    other: float
    ratio: float


def found_by(commands: list[list[str]], hostile: bytes, friendly: bytes) -> list[Found]:
    """What each of these commands makes of both."""
    named = {str(at): command for at, command in enumerate(commands)}
    with tempfile.TemporaryDirectory() as first, tempfile.TemporaryDirectory() as second:
        mine, other = Input(Path(first), hostile), Input(Path(second), friendly)
        rounds = [(speeds(named, mine, OFTEN), speeds(named, other, OFTEN)) for _ in range(ROUNDS)]
    return [Found(max(m[name] for m, _ in rounds), max(o[name] for _, o in rounds), median(m[name] / o[name] for m, o in rounds)) for name in named]


@dataclass
class Row:
    """What is told of a hostile text and a call."""

    hostile: Hostile
    call: str
    friend: str
    found: list[Found]  # and, where that is asked for, without --assigned
    written: float  # the ratio of the bytes written

    def cells(self) -> list[str]:
        name = self.call.upper() if self.call in FORMS else f"`{self.call}`"
        first, *plain = self.found
        ratios = [first.ratio, self.written, *(it.ratio for it in plain)]
        return [self.hostile.title, name, number(first.mine), self.friend, number(first.other), *(f"{ratio:.2f}" for ratio in ratios)]

    def is_below(self, at: int) -> bool:
        """Whether it is below a quarter, by the first or the last of what was found."""
        longer = self.written / self.found[0].ratio
        return self.found[at].ratio * (longer if longer >= MANY else 1) < BAR

    def below(self) -> str:
        """What is said of it at the end."""
        first, *plain = self.found
        without = "".join(f", {it.ratio:.2f} without the flag" for it in plain)
        return f"{self.hostile.title}, {self.call.upper()}: {first.ratio:.2f} ({self.written:.2f}){without}"


def measured(hostile: Hostile, call: str, program: Path, real: dict[str, str], without: bool) -> Row:
    state, text = hostile.friendly(real[hostile.friend], call)
    command, content = hostile.command(program, call), hostile.content()
    found = found_by([command, *[replace(hostile, assigned=False).command(program, call)] * without], content, text)
    written = found[0].ratio * growth(command, content) / growth(command, text) if call in FORMS else found[0].ratio
    return Row(hostile, call, f"{REAL[hostile.friend]}, {state}", found, written)


def share_of_flag(hostile: Hostile, call: str, program: Path, text: bytes) -> float:
    """What the flag adds to each instruction of a run without it, over the front of a text."""
    front = text[:1 << 16] if hostile.ill_formed() else text[:1 << 16].decode(errors="ignore").encode()
    taken = []
    for it in (hostile, replace(hostile, assigned=False)):
        own, *words = it.command(program, call)
        taken.append(counted(own, words, front) - counted(own, words, b""))
    return taken[0] / taken[1] - 1


def is_by_flag(row: Row, program: Path, real: dict[str, str]) -> bool:
    """Whether by instructions too, which other work on the machine does not touch, the flag makes it slower beside its friend."""
    friend = row.hostile.friendly(real[row.hostile.friend], row.call)[1]
    mine, other = (share_of_flag(row.hostile, row.call, program, text) for text in (row.hostile.content(), friend))
    print(f"\n{row.below()}; by instructions the flag adds {mine:.3f} to it, and {other:.3f} to its friend.")
    return mine > other


def main() -> int:
    words = arguments()
    program = words.program.resolve()
    real = {name: front(words.corpora, name, SIZE) for name in REAL}
    texts = read_with_assigned() if words.assigned else HOSTILE
    line(["Hostile", "To", "MB/s", "Friendly", "MB/s", "Ratio, read", "Ratio, written", *["Without"] * words.assigned])
    line(["---", "---", "---:", "---", "---:", "---:", "---:", *["---:"] * words.assigned])
    rows = []
    for hostile, call in [(hostile, call) for hostile in texts for call in hostile.calls() if not words.calls or call in words.calls]:
        rows.append(measured(hostile, call, program, real, words.assigned))
        line(rows[-1].cells())
    slow = [row for row in rows if row.is_below(0)]
    timed = [row for row in slow if not row.is_below(-1)]
    by_flag = [row for row in timed if is_by_flag(row, program, real)]
    alone = f", {len(timed)} of them not without the flag, and {len(by_flag)} of these by instructions too" * words.assigned
    print(f"\n{len(slow)} of {len(rows)} below a quarter{alone}{': ' * bool(slow)}{'; '.join(row.below() for row in slow)}.")
    return 1 if (by_flag if words.assigned else slow) else 0


if __name__ == "__main__":
    sys.exit(main())
