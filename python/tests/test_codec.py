"""The codecs, by open() and by io.TextIOWrapper, against the text that is read whole."""

import codecs
import csv
import io
import json
import random
import tempfile
import tracemalloc
import unittest

import nfstream
from tests.model import FORMS, any_text, due
from tests.test_filter import TEXTS


def reader(data: bytes, form: str = "nfc", errors: str = "strict", newline: str = "") -> io.TextIOWrapper:
    return io.TextIOWrapper(io.BytesIO(data), encoding=f"utf-8-{form}", errors=errors, newline=newline)


class Marks(io.RawIOBase):
    """A letter with a million accents."""

    def __init__(self) -> None:
        self.left = 2000001

    def readable(self) -> bool:
        return True

    def readinto(self, buffer: bytearray) -> int:  # type: ignore[override]
        some = min(self.left, len(buffer))
        marks = b"\xcc\x81" * (some // 2 + 1)
        if self.left == 2000001:
            buffer[:some] = (b"q" + marks)[:some]
        else:
            begin = self.left % 2
            buffer[:some] = marks[begin : begin + some]
        self.left -= some
        return some


class Reading(unittest.TestCase):
    def test_whole(self) -> None:
        for text in TEXTS:
            for form in FORMS:
                wanted = due(text, form).decode()
                self.assertEqual(text.encode().decode(f"utf-8-{form}"), wanted)
                self.assertEqual(text.encode(f"UTF_8_{form.upper()}"), due(text, form))
                self.assertEqual(reader(text.encode(), form).read(), wanted)

    def test_each_size(self) -> None:
        for text in TEXTS:
            for form in FORMS:
                wanted = due(text, form).decode()
                for size in (1, 2, 3, 7):
                    file = reader(text.encode(), form)
                    self.assertEqual("".join(iter(lambda: file.read(size), "")), wanted)
                    self.assertEqual(file.read(), "")

    def test_each_cut(self) -> None:
        for text in TEXTS:
            data = text.encode()
            for form in FORMS:
                for cut in range(len(data) + 1):
                    decoder = codecs.getincrementaldecoder(f"utf-8-{form}")()
                    got = decoder.decode(data[:cut]) + decoder.decode(data[cut:]) + decoder.decode(b"", True)
                    self.assertEqual(got, due(text, form).decode())

    def test_lines(self) -> None:
        draw = random.Random(1)
        text = "\n".join(any_text(draw).replace("\r", "") for _ in range(300))
        wanted = due(text, "nfd").decode()
        with tempfile.NamedTemporaryFile() as kept:
            kept.write(text.encode())
            kept.flush()
            with open(kept.name, encoding="utf-8-nfd", newline="\n") as file:
                self.assertEqual(list(file), io.StringIO(wanted, newline="\n").readlines())

    def test_newlines(self) -> None:
        text = "e\u0301\r\n\u0301b\rc\n\r\nd"
        for newline in (None, "", "\n", "\r", "\r\n"):
            wanted = io.TextIOWrapper(io.BytesIO(due(text, "nfc")), encoding="utf-8", newline=newline)
            got = io.TextIOWrapper(io.BytesIO(text.encode()), encoding="utf-8-nfc", newline=newline)
            self.assertEqual(got.readlines(), wanted.readlines())

    def test_a_line_comes_at_once(self) -> None:
        decoder = codecs.getincrementaldecoder("utf-8-nfc")()
        self.assertEqual(decoder.decode(b"ab\n"), "ab\n")

    def test_callers(self) -> None:
        rows = list(csv.reader(reader("Vie\u0302\u0323t,1\r\ne\u0301,2\r\n".encode())))
        self.assertEqual(rows, [["Vi\u1ec7t", "1"], ["\u00e9", "2"]])
        self.assertEqual(json.load(reader('{"e\u0301": "\ufb01"}'.encode(), "nfkc")), {"\u00e9": "fi"})

    def test_memory(self) -> None:
        file = io.TextIOWrapper(io.BufferedReader(Marks()), encoding="utf-8-nfc")
        tracemalloc.start()
        read = sum(len(some) for some in iter(lambda: file.read(4096), ""))
        most = tracemalloc.get_traced_memory()[1]
        tracemalloc.stop()
        self.assertEqual(read, 1000001 + (1000000 - 1) // 30)
        self.assertLess(most, 500000)


class Errors(unittest.TestCase):
    def test_strict(self) -> None:
        for data in (b"ab\xff", b"ab\xe2\x82", b"\xe2\x82a"):
            with self.assertRaises(UnicodeDecodeError) as caught:
                data.decode()
            wanted = caught.exception
            for read in (lambda: data.decode("utf-8-nfc"), lambda: reader(data).read()):
                with self.assertRaises(UnicodeDecodeError) as caught:
                    read()
                got = caught.exception
                self.assertEqual(got.encoding, "utf-8-nfc")
                self.assertEqual(got.object[got.start : got.end], data[wanted.start : wanted.end])
                self.assertEqual(got.reason, wanted.reason)

    def test_nothing_comes_after_a_fault(self) -> None:
        file = reader(b"ab\n" + b"\xff" + b"c\n" * 9000)
        with self.assertRaises(UnicodeDecodeError):
            file.readline()
        with self.assertRaises(nfstream.SpentError):
            file.readline()

    def test_replace(self) -> None:
        draw = random.Random(2)
        for _ in range(300):
            data = bytes(draw.choice((0x41, 0xCC, 0x81, 0xE2, 0x82, 0xFF, 0x0A, 0xF0)) for _ in range(draw.randint(0, 60)))
            wanted = due(data.decode(errors="replace"), "nfc").decode()
            self.assertEqual(data.decode("utf-8-nfc", "replace"), wanted)
            file = reader(data, errors="replace")
            self.assertEqual("".join(iter(lambda: file.read(3), "")), wanted)

    def test_refused(self) -> None:
        for errors in ("ignore", "surrogateescape", "backslashreplace"):
            with self.assertRaises(nfstream.NfstreamError):
                b"a".decode("utf-8-nfc", errors)
            with self.assertRaises(nfstream.NfstreamError):
                reader(b"a", errors=errors)
        with self.assertRaises(LookupError):
            b"a".decode("utf-8-nfx")
        for call in (codecs.getreader("utf-8-nfc"), codecs.getwriter("utf-8-nfc")):
            with self.assertRaises(io.UnsupportedOperation):
                call(io.BytesIO())
        with tempfile.NamedTemporaryFile() as kept:
            for mode in ("w", "a", "r+"):
                with open(kept.name, mode, encoding="utf-8-nfc") as file:
                    with self.assertRaises(io.UnsupportedOperation):
                        file.write("a")


class Places(unittest.TestCase):
    """Wherever tell() says a place, seek() goes on there as the text does."""

    def go_through(self, data: bytes, form: str, size: int, errors: str = "strict") -> None:
        with tempfile.NamedTemporaryFile() as kept:
            kept.write(data)
            kept.flush()
            with open(kept.name, encoding=f"utf-8-{form}", errors=errors, newline="") as file:
                file._CHUNK_SIZE = 37  # type: ignore[attr-defined]
                whole = due(data.decode(errors=errors), form).decode()
                places = []
                at = refused = 0
                while True:
                    places.append((file.tell(), at))
                    some = file.read(size)
                    self.assertEqual(some, whole[at : at + size])
                    if not some:
                        break
                    at += len(some)
                random.Random(3).shuffle(places)
                for place, at in places:
                    file.seek(place)
                    self.assertEqual(file.read(70), whole[at : at + 70], (form, at))
                    self.assertEqual(file.seek(place), place)
                    try:
                        self.assertEqual(file.tell(), place)
                    except io.UnsupportedOperation:
                        refused += 1
                    self.assertEqual(file.read(), whole[at:], (form, at))
                file.seek(0)
                self.assertEqual(file.read(), whole)

    def test_texts(self) -> None:
        for text in TEXTS:
            for form in FORMS:
                self.go_through(text.encode(), form, 1)

    def test_random_texts(self) -> None:
        draw = random.Random(4)
        for _ in range(60):
            text = "".join(any_text(draw) + draw.choice(("", "\n", "\r\n")) for _ in range(5))
            self.go_through(text.encode(), draw.choice(FORMS), draw.randint(1, 9))

    def test_replaced(self) -> None:
        draw = random.Random(5)
        for _ in range(15):
            data = bytes(draw.choice((0x41, 0xCC, 0x81, 0xE2, 0x82, 0xFF, 0x0A, 0xF0)) for _ in range(150))
            self.go_through(data, draw.choice(FORMS), draw.randint(1, 5), "replace")

    def test_lines(self) -> None:
        lines = [f"line {number} of e\u0301\u0323\n" for number in range(600)]
        with tempfile.NamedTemporaryFile() as kept:
            kept.write("".join(lines).encode())
            kept.flush()
            with open(kept.name, encoding="utf-8-nfc") as file:
                places = []
                for line in lines:
                    places.append(file.tell())
                    self.assertEqual(file.readline(), due(line, "nfc").decode())
                for number in (599, 3, 377):
                    file.seek(places[number])
                    self.assertEqual(file.tell(), places[number])
                    self.assertEqual(file.readline(), due(lines[number], "nfc").decode())

    def test_a_long_run(self) -> None:
        self.go_through(b"q" + b"\xcc\x81" * 300 + b"e\xcc\x81\n\xcc\x81", "nfc", 7)
        self.go_through(b"\xef\xbe\x9e" * 100 + b"\xcd\x84" * 50, "nfkd", 3)

    def test_no_such_place(self) -> None:
        decoder = codecs.getincrementaldecoder("utf-8-nfc")()
        for number in (-1, 31, 1 << 13):
            with self.assertRaises(io.UnsupportedOperation):
                decoder.setstate((b"", number))
