"""The right answers, by Python's own normalization."""

import re
from unicodedata import combining, decomposition, normalize

JOINER = "\u034f"
MOST_NON_STARTERS = 30
LONG_RUN = 64


def character_class(characters: list[str]) -> str:
    """The characters as a class of a regular expression; one that matches nothing where there are none."""
    return "[" + "".join(map(re.escape, characters)) + "]" if characters else "(?!)"


def in_order(text: str) -> str:
    """A canonical equivalent whose long runs of marks are in order, since Python's ordering takes the square of a run."""
    marks = character_class(sorted(c for c in set(text) if combining(c) and not decomposition(c)))
    return re.sub(f"{marks}{{{LONG_RUN},}}", lambda run: "".join(sorted(run[0], key=combining)), text)


def plain(text: str, form: str) -> bytes:
    """The form of a text."""
    return normalize(form.upper(), in_order(text)).encode()


def non_starters(c: str) -> tuple[int, int, bool]:
    """How many non-starters the character's NFKD begins with, how many it ends with, and whether it has a starter."""
    row = list(map(combining, normalize("NFKD", c)))
    if 0 not in row:
        return len(row), len(row), False
    return row.index(0), row[::-1].index(0), True


def joined(run: str, kinds: dict[str, tuple[int, int, bool]]) -> str:
    """The Stream-Safe Text Process (UAX #15, section 13) over a run, before which no non-starter stands."""
    taken, count = [], 0
    for c in run:
        lead, trail, starter = kinds[c]
        if count + lead > MOST_NON_STARTERS:
            taken.append(JOINER)
            count = 0
        taken.append(c)
        count = trail if starter else count + trail
    return "".join(taken)


def stream_safe(text: str) -> str:
    """The stream-safe text: only runs of characters with non-starters in their NFKD can be too long."""
    kinds = {c: non_starters(c) for c in set(text)}
    run = character_class(sorted(c for c, (lead, trail, _) in kinds.items() if lead or trail))
    return re.sub(f"{run}{{2,}}", lambda found: joined(found[0], kinds), text)
