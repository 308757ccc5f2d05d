"""Measures programs beside others on the texts, and prints a Markdown table; bench/README.md tells the words."""

import argparse
import os
import sys
from dataclasses import dataclass
from pathlib import Path
from typing import Callable, Iterator

import answers
from measure import FULL, QUICK, Effort, Input, mistake, seconds, speeds
from texts import WORDS, Text, missing, texts

FORMS = ["nfc", "nfd", "nfkc", "nfkd"]
HEAD = ["text", "state", "form", "program", "role", "MB/s", "note"]


@dataclass
class Column:
    """A program; its role is `program` (it is measured), `peer` (it is measured against) or `floor` (it copies)."""

    title: str
    role: str
    answer: str
    command: Callable[[str], list[str]]


@dataclass
class Cell:
    """A speed; with the note `slow` a bound that it lies under; none where the program was wrong or refused."""

    speed: float | None
    note: str

    def shown(self) -> str:
        return self.note if self.speed is None else ("<" if self.note else "") + number(self.speed)


def number(value: float) -> str:
    return f"{value:.0f}" if value >= 10 else f"{value:.1f}" if value >= 1 else f"{value:.2f}"


def words_of(allowed: list[str]) -> Callable[[str], list[str]]:
    def words(value: str) -> list[str]:
        for word in value.split(","):
            if word not in allowed:
                raise argparse.ArgumentTypeError(f"{word!r} is none of {', '.join(allowed)}")
        return value.split(",")

    return words


def cache() -> Path:
    """Where corpora.sh puts the texts, unless it is told."""
    return Path(os.environ.get("XDG_CACHE_HOME") or Path.home() / ".cache") / "nfstream-bench"


def arguments() -> argparse.Namespace:
    parser = argparse.ArgumentParser(prog="run.sh")
    parser.add_argument("--quick", action="store_true", help="1 MiB of each text and the best of 3 runs")
    parser.add_argument("--forms", type=words_of(FORMS), default=FORMS[:2], metavar="FORM,..", help=", ".join(FORMS))
    parser.add_argument("--texts", type=words_of(WORDS), default=WORDS, metavar="TEXT,..", help=", ".join(WORDS))
    parser.add_argument("--corpora", type=Path, default=cache(), metavar="FOLDER", help="where corpora.sh put the texts")
    parser.add_argument("--data", type=Path, metavar="FILE", help="also write the figures as a table with tabs")
    parser.add_argument("--plan", action="store_true", help="say what would be measured, and measure nothing")
    parser.add_argument("--scratch", type=Path, help=argparse.SUPPRESS)
    parser.add_argument("--peer", action="append", default=[], metavar="TITLE=COMMAND", help="measure beside this as well")
    parser.add_argument("programs", nargs="*", metavar="[TITLE=]PROGRAM", help="./nfstream of the repository if there is none")
    words = parser.parse_args()
    absent = missing(words.corpora, words.texts)
    if absent:
        parser.error(f"{words.corpora} has no texts for {', '.join(absent)}: make them by 'bash bench/corpora.sh'")
    return words


def program(word: str) -> Column:
    title, _, path = word.rpartition("=")
    path = str(Path(path).resolve())
    return Column(title or Path(path).name, "program", "stream-safe", lambda form: [path, "convert", "--form", form])


def further(title: str, command: str) -> Column:
    """A peer that is there: its command is given the form as its last word, and normalizes what it reads."""
    return Column(title, "peer", "plain", lambda form: [*command.split(), form])


def columns(programs: list[str], peers: list[str]) -> list[Column]:
    found = [program(word) for word in programs]
    paths = dict(peer.split("=", 1) for peer in peers)
    if "rust" in paths:
        rust = paths["rust"]
        found.append(Column("Rust, stream-safe", "peer", "stream-safe", lambda form: [rust, "stream-safe-" + form]))
        found.append(Column("Rust", "peer", "plain", lambda form: [rust, form]))
    if "icu" in paths:
        found.append(Column("ICU", "peer", "plain", lambda form: [paths["icu"], form]))
    found += [further(title, command) for title, command in paths.items() if title not in ("rust", "icu")]
    return found + [Column("cat", "floor", "copy", lambda form: ["cat"])]


def right_answers(text: Text, safe: str, form: str) -> dict[str, bytes]:
    return {
        "plain": answers.plain(text.content, form),
        "stream-safe": answers.plain(safe, form),
        "copy": text.content.encode(),
    }


def row(found: list[Column], input: Input, right: dict[str, bytes], form: str, effort: Effort) -> dict[str, Cell]:
    notes = {c.title: mistake(c.command(form), input.path(), right[c.answer], effort.most) for c in found}
    timed = speeds({c.title: c.command(form) for c in found if notes[c.title] is None}, input, effort)
    bound = len(input.data) / 1e6 / effort.most
    slow = {title: Cell(bound, note) if note == "slow" else Cell(None, note or "") for title, note in notes.items()}
    return slow | {title: Cell(speed, "") for title, speed in timed.items()}


def ratio(speed: float, best: float) -> str:
    share = speed / best
    return f"{share:.3f}" if share < 0.1 else f"{share:.2f}"


def ratios(found: list[Column], cells: dict[str, Cell]) -> list[str]:
    """Each program's speed by that of the fastest peer, whichever it is."""
    peers = [cells[c.title] for c in found if c.role == "peer"]
    rivals = [peer.speed for peer in peers if peer.speed and not peer.note]
    own = [cells[c.title] for c in found if c.role == "program"]
    return [ratio(cell.speed, max(rivals)) if rivals and cell.speed and not cell.note else "" for cell in own]


def line(cells: list[str]) -> None:
    print("| " + " | ".join(cells) + " |", flush=True)


def empty_runs(found: list[Column], folder: Path, effort: Effort) -> str:
    """What a program costs before its first byte: the best of some runs on nothing."""
    path = folder / "nothing"
    path.touch()
    best = {column.title: min(seconds(column.command("nfd"), path) for _ in range(effort.runs)) for column in found}
    return ", ".join(f"{title} {1000 * time:.1f}" for title, time in best.items())


def measured(words: argparse.Namespace, found: list[Column], effort: Effort) -> Iterator[tuple[Text, str, dict[str, Cell]]]:
    """Each row in turn: its text, its form and its cells."""
    for text in texts(words.corpora, words.texts, effort.size):
        safe = answers.stream_safe(text.content)
        input = Input(words.scratch, text.content.encode())
        for form in words.forms:
            yield text, form, row(found, input, right_answers(text, safe, form), form, effort)


def data_line(text: Text, form: str, column: Column, cell: Cell) -> str:
    speed = "" if cell.speed is None else f"{cell.speed:.4g}"
    return "\t".join([text.name, text.state, form, column.title, column.role, speed, cell.note])


def table(words: argparse.Namespace, found: list[Column], effort: Effort) -> tuple[list[str], bool]:
    """Prints the table; answers its data, and whether a program was wrong."""
    compared = [f"{c.title} / best" for c in found if c.role == "program"]
    line(["Text", "Input", "To"] + [c.title for c in found] + compared)
    line(["---"] * 3 + ["---:"] * (len(found) + len(compared)))
    data = ["\t".join(HEAD)]
    wrong = False
    for text, form, cells in measured(words, found, effort):
        line([text.name, text.state, form.upper()] + [cells[c.title].shown() for c in found] + ratios(found, cells))
        data += [data_line(text, form, c, cells[c.title]) for c in found]
        wrong = wrong or any(cell.note == "wrong" for cell in cells.values())
    return data, wrong


def main() -> int:
    words = arguments()
    effort = QUICK if words.quick else FULL
    found = columns(words.programs, words.peer)
    if words.plan:
        print(f"{', '.join(words.texts)}; {', '.join(words.forms)}; {', '.join(c.title for c in found)}", file=sys.stderr)
        return 0
    data, wrong = table(words, found, effort)
    print(f"\nMilliseconds of processor time on empty input, part of every run: {empty_runs(found, words.scratch, effort)}.")
    if words.data:
        words.data.write_text("\n".join(data) + "\n")
    return 1 if wrong else 0


if __name__ == "__main__":
    sys.exit(main())
