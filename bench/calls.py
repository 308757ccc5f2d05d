#!/usr/bin/env python3
"""Instructions by byte of input of each call, counted by callgrind, as a Markdown table: what converting a text costs beside what
it costs to ask of it.

    python3 bench/calls.py [--corpora FOLDER] [--size BYTES] [--form F] [--texts T,..] [--speed] PROGRAM

What starting a call costs is measured by an empty input and taken off. Each text is composed, decomposed or as it was made.
With `--speed` it is megabytes by second of processor time instead, of 4 MiB of real text, each beside what it is measured by."""

import re
import sys
import tempfile
from argparse import ArgumentParser
from concurrent.futures import ThreadPoolExecutor
from os import cpu_count
from pathlib import Path
from statistics import median
from subprocess import DEVNULL, PIPE, run
from typing import Sequence

from measure import Effort, Input, speeds
from texts import MARKED, REAL, WORDS, Text, missing, texts

CACHE = Path.home() / ".cache" / "nfstream-bench"


def calls(form: str) -> dict[str, list[str]]:
    """The words of each call, by its title."""
    return {
        f"convert {form}": ["convert", "--form", form],
        "with --assigned": ["convert", "--form", form, "--assigned"],
        f"check --form {form}": ["check", "--form", form],
        "check": ["check"],
        "measure": ["measure"],
    }


def counted(program: str, words: list[str], data: bytes) -> int:
    """The instructions that a run takes; a check that finds a place ends with status 1."""
    command = ["valgrind", "--tool=callgrind", "--callgrind-out-file=/dev/null", program, *words]
    done = run(command, input=data, stdout=DEVNULL, stderr=PIPE)
    found = re.search(rb"Collected : (\d+)", done.stderr)
    if not found or done.returncode > 1:
        sys.exit(f"calls.py: {' '.join(words)} ended with status {done.returncode}")
    return int(found[1])


def row(text: Text, program: str, starts: dict[str, int], form: str) -> str:
    data = text.content.encode()
    cells = [f"{(counted(program, words, data) - starts[title]) / len(data):.2f}" for title, words in calls(form).items()]
    return f"| {' | '.join([text.name, text.state, *cells])} |"


# Short runs, a few of each call in turns, and so of each text in each round: where others use the machine, some seconds or some
# minutes, the best of runs that stand together is chance, and so is what the best of two calls make of each other, each of them at
# another time. What they make in one round is not, in most.
OFTEN = Effort(size=4 << 20, runs=3, least=0.04, most=20)
ROUNDS = 15

# What each call is measured by: the call and its words, and what it should have at least of the speed of another.
GOALS = [("with --assigned", "convert nfc", 0.8), ("check", "convert nfd", 1.0), ("measure", "convert nfkd", 0.5), ("measure", "check", 0.6)]


def call_speeds(text: Text, program: str) -> dict[str, float]:
    """The megabytes by second of each call."""
    commands = {title: [program, *words] for title, words in calls("nfc").items() if title != "check --form nfc"}
    commands |= {f"convert {form}": [program, "convert", "--form", form] for form in ("nfd", "nfkd")}
    with tempfile.TemporaryDirectory() as folder:
        return speeds(commands, Input(Path(folder), text.content.encode()), OFTEN)


def speed_row(text: Text, found: Sequence[dict[str, float]]) -> str:
    """The best speed of each call, and what each that has a goal makes of the other in most rounds: with a star where that is less."""
    best = [max(one[title] for one in found) for title in found[0]]
    ratios = [(median(one[mine] / one[other] for one in found), least) for mine, other, least in GOALS]
    cells = [f"{speed:.0f}" for speed in best] + [f"{ratio:.2f}{'' if ratio >= least else ' *'}" for ratio, least in ratios]
    return f"| {' | '.join([text.name, text.state, *cells])} |"


def print_speeds(corpora: Path, words: list[str], program: str) -> None:
    """The best of all rounds, and the medians of what two calls make in each."""
    measured = list(texts(corpora, [word for word in words if word in REAL or word in MARKED], OFTEN.size))
    rounds = [[call_speeds(text, program) for text in measured] for _ in range(ROUNDS)]
    titles = [*rounds[0][0], *(f"{mine} / {other}, {least}" for mine, other, least in GOALS)]
    print(f"| {' | '.join(['Text', 'Input', *titles])} |")
    print("|---|---|" + "---:|" * len(titles))
    for text, *found in zip(measured, *rounds):
        print(speed_row(text, found))


def main() -> None:
    options = ArgumentParser()
    options.add_argument("--corpora", type=Path, default=CACHE)
    options.add_argument("--size", type=int, default=1 << 16)
    options.add_argument("--form", default="nfc")
    options.add_argument("--texts", default=",".join(WORDS))
    options.add_argument("--speed", action="store_true")
    options.add_argument("program")
    given = options.parse_args()
    words = given.texts.split(",")
    if lacking := missing(given.corpora, words):
        sys.exit(f"calls.py: no {', '.join(lacking)} in {given.corpora}: run bench/corpora.sh")
    if given.speed:
        return print_speeds(given.corpora, words, given.program)
    starts = {title: counted(given.program, call, b"") for title, call in calls(given.form).items()}
    print(f"| {' | '.join(['Text', 'Input', *starts])} |")
    print("|---|---|" + "---:|" * len(starts))
    with ThreadPoolExecutor(cpu_count()) as pool:
        for line in pool.map(lambda text: row(text, given.program, starts, given.form), texts(given.corpora, words, given.size)):
            print(line, flush=True)


if __name__ == "__main__":
    main()
