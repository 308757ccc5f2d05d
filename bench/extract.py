"""Takes the text alone out of unpacked packages: extract.py FOLDER.

FOLDER/unpacked/LANGUAGE/PACKAGE has the files of each package; FOLDER/texts/LANGUAGE.txt gets their lines, composed, each
line once, again and again up to SIZE bytes; FOLDER/sources.tsv tells where each text is from.
"""

import re
import struct
import sys
import zipfile
from html.parser import HTMLParser
from pathlib import Path
from typing import Iterator
from unicodedata import normalize

SIZE = 4 << 20
SHORTEST_LINE = 12
REFERENCE = "ascii"

# The letters of a script: a third of a line's letters is of them, or the line was not translated.
SCRIPTS = {
    "korean": "\uac00-\ud7a3",
    "japanese": "\u3040-\u30ff\u4e00-\u9fff",
    "chinese": "\u4e00-\u9fff",
    "arabic": "\u0600-\u06ff",
    "hebrew": "\u0590-\u05ff",
    "hindi": "\u0900-\u097f",
    "russian": "\u0400-\u04ff",
    "greek": "\u0370-\u03ff",
}


class Page(HTMLParser):
    """The paragraphs of a help page, without the frame that all pages share."""

    LINES = {"p", "h1", "h2", "h3", "h4", "h5", "h6", "li", "td", "th", "div", "pre", "br"}
    SILENT = {"script", "style", "header", "aside", "footer", "title"}

    def __init__(self) -> None:
        super().__init__()
        self.pieces: list[str] = []
        self.silent = 0

    def handle_starttag(self, tag: str, attributes: list[tuple[str, str | None]]) -> None:
        self.silent += tag in self.SILENT
        if tag in self.LINES:
            self.pieces.append("\n")

    def handle_endtag(self, tag: str) -> None:
        self.silent -= tag in self.SILENT
        if tag in self.LINES:
            self.pieces.append("\n")

    def handle_data(self, data: str) -> None:
        if not self.silent:
            self.pieces.append(data.replace("\n", " "))


def page(data: bytes) -> str:
    parser = Page()
    parser.feed(data.decode("utf-8", "ignore"))
    return "".join(parser.pieces)


def catalogue(data: bytes) -> str:
    """The translations of a message catalogue of gettext, without its head."""
    order = "<" if data[:4] == b"\xde\x12\x04\x95" else ">"
    count, originals, translations = struct.unpack(order + "3I", data[8:20])
    found = []
    for i in range(count):
        length, _ = struct.unpack(order + "2I", data[originals + 8 * i:originals + 8 * i + 8])
        size, place = struct.unpack(order + "2I", data[translations + 8 * i:translations + 8 * i + 8])
        if length > 0:
            found.append(data[place:place + size].decode("utf-8", "ignore").replace("\0", "\n"))
    return "\n".join(found)


def messages(data: bytes) -> str:
    """The values of lines `key = value`, and the lines that go on with one."""
    lines = data.decode("utf-8", "ignore").splitlines()
    return "\n".join(line.partition("=")[2] if "=" in line else line for line in lines if not line.startswith("#"))


def archive(path: Path) -> str:
    with zipfile.ZipFile(path) as files:
        names = sorted(name for name in files.namelist() if name.endswith((".ftl", ".properties")))
        return "\n".join(messages(files.read(name)) for name in names)


def content(path: Path) -> str:
    if path.suffix == ".xpi":
        return archive(path)
    reader = {".html": page, ".mo": catalogue}.get(path.suffix)
    return reader(path.read_bytes()) if reader else ""


def cleaned(text: str) -> Iterator[str]:
    """The lines without what is left of markup, each with single spaces."""
    for line in text.splitlines():
        line = re.sub(r"<[^<>]*>|\{[^{}]*\}|%[a-zA-Z0-9]+|\\[a-z]|[_~&](?=\w)", "", line)
        line = normalize("NFC", " ".join(line.split()))
        if len(line) >= SHORTEST_LINE:
            yield line


def translated(language: str, line: str) -> bool:
    if language == REFERENCE:
        return line.isascii()
    letters = sum(map(str.isalpha, line))
    script = SCRIPTS.get(language)
    return script is None or 3 * len(re.findall(f"[{script}]", line)) >= max(letters, 1)


def lines_of(package: Path, language: str, seen: set[str]) -> Iterator[str]:
    """The lines of a package that were not seen before, which are then seen."""
    for path in sorted(package.rglob("*")):
        if path.is_file() and not path.is_symlink():
            for line in cleaned(content(path)):
                if line not in seen and translated(language, line):
                    seen.add(line)
                    yield line


def filled(text: bytes) -> bytes:
    return text * -(-SIZE // len(text))


def corpus(folder: Path, language: str, seen: set[str]) -> list[tuple[str, str, int]]:
    """Writes the text of a language; answers what each package gave, in distinct bytes."""
    text = b""
    sources = []
    for package in sorted((folder / "unpacked" / language).iterdir()):
        given = "".join(line + "\n" for line in lines_of(package, language, seen)).encode()
        sources.append((language, package.name, len(given)))
        text += given
    if not text:
        sys.exit(f"extract.py: nothing of {language}")
    (folder / "texts" / f"{language}.txt").write_bytes(filled(text))
    return sources


def main() -> None:
    folder = Path(sys.argv[1])
    (folder / "texts").mkdir(exist_ok=True)
    english: set[str] = set()
    sources = corpus(folder, REFERENCE, english)
    for unpacked in sorted((folder / "unpacked").iterdir()):
        if unpacked.name != REFERENCE:
            sources += corpus(folder, unpacked.name, set(english))
    rows = ["text\tpackage\tdistinct bytes"] + ["\t".join(map(str, row)) for row in sources]
    (folder / "sources.tsv").write_text("\n".join(rows) + "\n")


if __name__ == "__main__":
    main()
