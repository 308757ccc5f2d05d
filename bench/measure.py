"""Runs a program over a text: whether its answer is right, and how fast it is."""

import os
import resource
import signal
import subprocess
import sys
from dataclasses import dataclass
from pathlib import Path

MOST_COPIES = 64


@dataclass
class Effort:
    """How much is measured: the best of `runs` runs of at least `least` seconds; none may take `most` for one text."""

    size: int
    runs: int
    least: float
    most: int


FULL = Effort(size=4 << 20, runs=5, least=0.1, most=20)
QUICK = Effort(size=1 << 20, runs=3, least=0.05, most=5)


class Input:
    """A text as a file, and the file of many copies of it."""

    def __init__(self, folder: Path, data: bytes):
        self.folder = folder
        self.data = data
        for old in folder.glob("text-*"):
            old.unlink()

    def path(self, copies: int = 1) -> Path:
        path = self.folder / f"text-{copies}"
        if not path.exists():
            with open(path, "wb") as file:
                for _ in range(copies):
                    file.write(self.data)
        return path


def seconds(command: list[str], path: Path) -> float:
    """Processor time of one run from a file to /dev/null."""
    files = [
        (os.POSIX_SPAWN_OPEN, 0, str(path), os.O_RDONLY, 0),
        (os.POSIX_SPAWN_OPEN, 1, os.devnull, os.O_WRONLY, 0),
    ]
    process = os.posix_spawnp(command[0], command, os.environ, file_actions=files)
    _, status, usage = os.wait4(process, 0)
    if status != 0:
        sys.exit(f"{' '.join(command)} failed")
    taken: float = usage.ru_utime + usage.ru_stime
    return taken


def mistake(command: list[str], path: Path, answer: bytes, most: int) -> str | None:
    """Why a program is not timed, if it isn't: `wrong`, `refused`, or `slow` where `most` seconds are not enough."""

    def limit() -> None:
        resource.setrlimit(resource.RLIMIT_CPU, (most, most + 1))

    with open(path, "rb") as file:
        run = subprocess.run(command, stdin=file, capture_output=True, preexec_fn=limit)
    if run.returncode == 0 and run.stdout == answer:
        return None
    if run.returncode in (-signal.SIGXCPU, -signal.SIGKILL):
        return "slow"
    print(f"{' '.join(command)}: status {run.returncode}, {len(run.stdout)} bytes", file=sys.stderr)
    return "refused" if run.returncode != 0 else "wrong"


def copies_for(time: float, least: float) -> int:
    """How many copies of a text, of which one takes `time`, make a run of `least`."""
    copies = 1
    while copies < MOST_COPIES and copies * time < least:
        copies *= 4
    return copies


def speeds(commands: dict[str, list[str]], text: Input, effort: Effort) -> dict[str, float]:
    """Megabytes by second of each command; they take turns, so that a busy moment meets them all."""
    copies = {name: copies_for(seconds(command, text.path()), effort.least) for name, command in commands.items()}
    best = dict.fromkeys(commands, float("inf"))
    for _ in range(effort.runs):
        for name, command in commands.items():
            best[name] = min(best[name], seconds(command, text.path(copies[name])) / copies[name])
    return {name: len(text.data) / 1e6 / time for name, time in best.items()}
