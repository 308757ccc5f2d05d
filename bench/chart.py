"""Draws what run.sh measured as one bar chart: chart.py DATA [--program TITLE] [--peer TITLE] [--date WORDS] > chart.svg.

A bar is the speed of a program by that of the peer, or of the fastest of all peers on that text where none is named, on a scale
of powers; a bar to the right of 1 is faster.
"""

import argparse
import csv
import math
import sys
from dataclasses import dataclass
from html import escape
from pathlib import Path

FORMS = {"nfc": ("NFC", "#2166ac"), "nfd": ("NFD", "#e08214"), "nfkc": ("NFKC", "#92c5de"), "nfkd": ("NFKD", "#fdb863")}
BEST = "the fastest peer"
NAMES, PLOT, VALUES = 310, 520, 70
TOP, BOTTOM = 76, 30
BAR, GAP = 9, 8
MOST_TICKS = 9


@dataclass
class Bar:
    """A ratio; `least` says that it is only known to be at least that."""

    ratio: float
    least: bool

    def label(self) -> str:
        digits = 0 if self.ratio >= 10 else 1 if self.ratio >= 3 else 2 if self.ratio >= 0.1 else 3
        return ("> " if self.least else "") + f"{self.ratio:.{digits}f}"


def arguments() -> argparse.Namespace:
    parser = argparse.ArgumentParser(prog="chart.py")
    parser.add_argument("data", type=Path, help="the file that run.sh wrote by --data")
    parser.add_argument("--program", help="the program's title; the first where none is named")
    parser.add_argument("--peer", default=BEST, help="the peer's title; the fastest of each text where none is named")
    parser.add_argument("--date", default="", help="when it was measured")
    return parser.parse_args()


def rows_of(path: Path) -> list[dict[str, str]]:
    with open(path, newline="") as file:
        return list(csv.DictReader(file, delimiter="\t"))


def label(row: dict[str, str]) -> str:
    return row["text"] + (f", {row['state']}" if row["state"] in ("composed", "decomposed") else "")


def peers(rows: list[dict[str, str]]) -> list[str]:
    return list(dict.fromkeys(row["program"] for row in rows if row["role"] == "peer"))


def speeds(rows: list[dict[str, str]], titles: list[str]) -> dict[tuple[str, str], tuple[float, bool]]:
    """By label and form, the greatest speed of these programs and whether it is a bound."""
    found: dict[tuple[str, str], tuple[float, bool]] = {}
    for row in rows:
        if row["program"] in titles and row["MB/s"]:
            key = (label(row), row["form"])
            found[key] = max(found.get(key, (0.0, False)), (float(row["MB/s"]), bool(row["note"])))
    return found


def bars(rows: list[dict[str, str]], program: str, peer: str) -> dict[str, dict[str, Bar]]:
    """The bars of each label, by form; none where either was not timed."""
    own, other = speeds(rows, [program]), speeds(rows, peers(rows) if peer == BEST else [peer])
    found: dict[str, dict[str, Bar]] = {}
    for key, (speed, bound) in own.items():
        name, form = key
        if form in FORMS and key in other and not bound:
            found.setdefault(name, {})[form] = Bar(speed / other[key][0], other[key][1])
    return found


@dataclass
class Scale:
    low: float
    high: float

    def x(self, ratio: float) -> float:
        share = math.log(ratio / self.low) / math.log(self.high / self.low)
        return NAMES + PLOT * min(max(share, 0), 1)

    def ticks(self) -> list[float]:
        powers = range(math.floor(math.log10(self.low)), math.ceil(math.log10(self.high)) + 1)
        for digits in (1, 2, 5), (1, 3), (1,):
            ticks = [digit * 10.0**power for power in powers for digit in digits]
            ticks = [tick for tick in ticks if self.low <= tick <= self.high]
            if len(ticks) <= MOST_TICKS:
                break
        return ticks


def scale(found: dict[str, dict[str, Bar]]) -> Scale:
    """From a little under the least ratio to a little over the greatest, both those and 1 in it; bounds may reach out."""
    known = [bar.ratio for forms in found.values() for bar in forms.values() if not bar.least]
    return Scale(min(known + [0.5]) / 1.15, max(known + [2]) * 1.15)


def text(x: float, y: float, words: str, anchor: str = "start", extra: str = "") -> str:
    return f'<text x="{x:.1f}" y="{y:.1f}" text-anchor="{anchor}"{extra}>{escape(words)}</text>'


def rectangle(x: float, y: float, width: float, height: float, colour: str) -> str:
    return f'<rect x="{x:.1f}" y="{y:.1f}" width="{width:.1f}" height="{height:.1f}" fill="{colour}"/>'


def bar_parts(bar: Bar, form: str, y: float, on: Scale) -> list[str]:
    one, end = on.x(1), on.x(bar.ratio)
    left, right = min(one, end), max(one, end)
    beside = (right + 4, "start") if end >= one else (left - 4, "end")
    words = text(beside[0], y + BAR - 1, bar.label(), beside[1], ' font-size="9"')
    return [rectangle(left, y, max(right - left, 1), BAR, FORMS[form][1]), words]


def axis(on: Scale, bottom: float) -> list[str]:
    parts = []
    for tick in on.ticks():
        x = on.x(tick)
        colour = "#444" if tick == 1 else "#ddd"
        parts.append(f'<line x1="{x:.1f}" y1="{TOP - 6}" x2="{x:.1f}" y2="{bottom:.1f}" stroke="{colour}"/>')
        parts.append(text(x, bottom + 16, f"{tick:g}", "middle", ' fill="#666"'))
    return parts


def head(program: str, peer: str, names: list[str], date: str) -> list[str]:
    parts = [text(12, 22, f"{program}: its throughput by that of {peer}", extra=' font-size="15" font-weight="bold"')]
    words = f"MB of input by second of processor time; {peer} is 1, right of it is faster"
    parts.append(text(12, 40, words, extra=' fill="#666"'))
    beside = f"beside {', '.join(names)}" + (f"; {date}" if date else "")
    parts.append(text(12, 55, beside, extra=' fill="#666"'))
    x = NAMES + PLOT - 230
    for title, colour in FORMS.values():
        parts += [rectangle(x, 14, BAR, BAR, colour), text(x + BAR + 5, 22, title)]
        x += 70
    return parts


def chart(found: dict[str, dict[str, Bar]], title: list[str]) -> str:
    on = scale(found)
    step = len(FORMS) * BAR + GAP
    bottom = TOP + step * len(found)
    width, height = NAMES + PLOT + VALUES, bottom + BOTTOM
    parts = [
        f'<svg xmlns="http://www.w3.org/2000/svg" width="{width}" height="{height}" viewBox="0 0 {width} {height}"'
        ' font-family="sans-serif" font-size="11" fill="#222">',
        rectangle(0, 0, width, height, "white"),
        *title,
        *axis(on, bottom),
    ]
    for i, (name, forms) in enumerate(found.items()):
        y = TOP + i * step
        parts.append(text(NAMES - 48, y + 2 * BAR + 3, name, "end", ' font-size="12"'))
        for place, form in enumerate(FORMS):
            if form in forms:
                parts += bar_parts(forms[form], form, y + place * BAR, on)
    return "\n".join(parts + ["</svg>"])


def main() -> int:
    words = arguments()
    rows = rows_of(words.data)
    program = words.program or next((row["program"] for row in rows if row["role"] == "program"), "")
    found = bars(rows, program, words.peer)
    if not found:
        print(f"chart.py: {words.data} has no figures of {program} and {words.peer}", file=sys.stderr)
        return 2
    names = peers(rows) if words.peer == BEST else [words.peer]
    print(chart(found, head(program, words.peer, names, words.date)))
    return 0


if __name__ == "__main__":
    sys.exit(main())
