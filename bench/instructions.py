#!/usr/bin/env python3
"""Instructions by byte of input, counted by callgrind, as a Markdown table: the same on a busy machine and on a quiet one.

    python3 bench/instructions.py [--corpora FOLDER] [--size BYTES] [--forms F,..] [--texts T,..] [TITLE=]PROGRAM..

What starting a program costs is measured by an empty input and taken off. With two programs the last column is the second by
the first. Ends with status 1 where the programs' answers differ."""

import re
import sys
from argparse import ArgumentParser
from concurrent.futures import ThreadPoolExecutor
from os import cpu_count
from pathlib import Path
from subprocess import PIPE, run

from texts import WORDS, Text, missing, texts

FORMS = ["nfc", "nfd", "nfkc", "nfkd"]
CACHE = Path.home() / ".cache" / "nfstream-bench"


def counted(program: str, form: str, data: bytes) -> tuple[int, bytes]:
    """The instructions that a run takes, and what it writes."""
    command = ["valgrind", "--tool=callgrind", "--callgrind-out-file=/dev/null", program, "convert", "--form", form]
    done = run(command, input=data, stdout=PIPE, stderr=PIPE, check=True)
    found = re.search(rb"Collected : (\d+)", done.stderr)
    if not found:
        sys.exit(f"instructions.py: callgrind said nothing of {program}")
    return int(found[1]), done.stdout


def row(text: Text, form: str, programs: list[str], starts: list[int]) -> tuple[str, bool]:
    """A row of the table, and whether all wrote the same."""
    data = text.content.encode()
    runs = [counted(program, form, data) for program in programs]
    by_byte = [(count - start) / len(data) for (count, _), start in zip(runs, starts)]
    cells = [text.name, text.state, form.upper(), *(f"{count:.2f}" for count in by_byte)]
    if len(by_byte) == 2:
        cells.append(f"{by_byte[1] / by_byte[0]:.2f}")
    return f"| {' | '.join(cells)} |", len({answer for _, answer in runs}) == 1


def main() -> None:
    options = ArgumentParser()
    options.add_argument("--corpora", type=Path, default=CACHE)
    options.add_argument("--size", type=int, default=1 << 16)
    options.add_argument("--forms", default=",".join(FORMS))
    options.add_argument("--texts", default=",".join(WORDS))
    options.add_argument("programs", nargs="+")
    given = options.parse_args()
    words = given.texts.split(",")
    if lacking := missing(given.corpora, words):
        sys.exit(f"instructions.py: no {', '.join(lacking)} in {given.corpora}: run bench/corpora.sh")
    titles, programs = zip(*(name.split("=", 1) if "=" in name else (name, name) for name in given.programs))
    starts = [counted(program, "nfc", b"")[0] for program in programs]
    more = [f"{titles[1]} / {titles[0]}"] if len(titles) == 2 else []
    print(f"| {' | '.join(['Text', 'Input', 'To', *titles, *more])} |")
    print("|---|---|---|" + "---:|" * (len(titles) + len(more)))
    same = True
    with ThreadPoolExecutor(cpu_count()) as pool:
        todo = [(text, form) for text in texts(given.corpora, words, given.size) for form in given.forms.split(",")]
        for line, agree in pool.map(lambda it: row(it[0], it[1], list(programs), starts), todo):
            print(line if agree else f"{line} different answers", flush=True)
            same = same and agree
    sys.exit(0 if same else 1)


if __name__ == "__main__":
    main()
