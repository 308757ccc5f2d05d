"""Whole texts: convert, is_stream_safe and find_unsafe, is_normalized and find_change."""

import bz2
import random
import unicodedata
import unittest
from pathlib import Path

import nfstream
from tests.model import FORMS, any_text, due, is_known, stream_safe

# The rows of Unicode's vectors, where Debian's package unicode-data is: each has a source, and its NFC, NFD, NFKC and NFKD.
VECTORS = Path("/usr/share/unicode/NormalizationTest.txt.bz2")


class Convert(unittest.TestCase):
    def test_by_hand(self) -> None:
        text = "Vie\u0302\u0323t \ufb01 \u2460".encode()
        self.assertEqual(nfstream.convert(text), "Vi\u1ec7t \ufb01 \u2460".encode())
        self.assertEqual(nfstream.convert(text, "NFD"), "Vie\u0323\u0302t \ufb01 \u2460".encode())
        self.assertEqual(nfstream.convert(text, form="nfkc"), "Vi\u1ec7t fi 1".encode())
        self.assertEqual(nfstream.convert(text, "nfkd"), "Vie\u0323\u0302t fi 1".encode())
        self.assertEqual(nfstream.convert(b""), b"")
        marks = b"q" + b"\xcc\x81" * 100
        self.assertEqual(nfstream.convert(marks), b"q" + (b"\xcc\x81" * 30 + b"\xcd\x8f") * 3 + b"\xcc\x81" * 10)

    def test_types(self) -> None:
        text = "e\u0301".encode()
        for data in (text, bytearray(text), memoryview(text), memoryview(bytearray(b"-".join(text[i : i + 1] for i in range(3))))[::2]):
            self.assertEqual(nfstream.convert(data), b"\xc3\xa9")
            self.assertTrue(nfstream.is_stream_safe(data))
            self.assertEqual(nfstream.Filter().feed(data), b"")
            self.assertFalse(nfstream.is_normalized(data))
        for call in (
            nfstream.convert, nfstream.is_stream_safe, nfstream.find_unsafe, nfstream.is_normalized, nfstream.find_change,
            nfstream.Filter().feed,
        ):
            with self.assertRaises(TypeError):
                call("text")  # type: ignore[arg-type]

    def test_each_character(self) -> None:
        known = [it for it in map(chr, range(0x110000)) if is_known(it)]
        self.assertGreater(len(known), 280000)
        for form in FORMS:
            for at in range(0, len(known), 1000):
                some = known[at : at + 1000]
                text = "\n".join(f"{it} a{it}\u0323{it}" for it in some)
                got = nfstream.convert(text.encode(), form)
                if got != due(text, form):
                    for it in some:
                        self.assertEqual(nfstream.convert(it.encode(), form), due(it, form), (form, ascii(it)))
                self.assertEqual(got, due(text, form), (form, hex(ord(some[0]))))

    def test_random_texts(self) -> None:
        draw = random.Random(1)
        for _ in range(3000):
            text = any_text(draw)
            for form in FORMS:
                self.assertEqual(nfstream.convert(text.encode(), form), due(text, form), (form, ascii(text)))

    def test_long_texts(self) -> None:
        draw = random.Random(2)
        text = "".join(any_text(draw) for _ in range(4000)) + "\ufdfa" * 30000
        for form in FORMS:
            self.assertEqual(nfstream.convert(text.encode(), form), due(text, form))

    def test_forms(self) -> None:
        for form in ("", "nfx", "utf-8"):
            with self.assertRaises(nfstream.FormError) as caught:
                nfstream.convert(b"", form)
            self.assertIsInstance(caught.exception, nfstream.NfstreamError)
            with self.assertRaises(ValueError):
                nfstream.Filter(form)

    def test_version(self) -> None:
        ours = tuple(map(int, nfstream.unicode_version().split(".")))
        self.assertGreaterEqual(ours, tuple(map(int, unicodedata.unidata_version.split("."))))


class IllFormed(unittest.TestCase):
    """Against Python's own decoder."""

    LEADS = (0x00, 0x41, 0x80, 0xBF, 0xC0, 0xC1, 0xC2, 0xDF, 0xE0, 0xE1, 0xED, 0xEF, 0xF0, 0xF1, 0xF4, 0xF5, 0xFF, 0x90, 0xA0)

    def compare(self, data: bytes) -> None:
        try:
            text = data.decode()
        except UnicodeDecodeError as error:
            wanted = error
            with self.assertRaises(UnicodeDecodeError) as caught:
                nfstream.convert(data)
            got = caught.exception
            self.assertIsInstance(got, nfstream.NfstreamError)
            self.assertEqual(
                (got.encoding, got.object, got.start, got.end, got.reason),
                (wanted.encoding, wanted.object, wanted.start, wanted.end, wanted.reason),
            )
            self.assertEqual(str(got), str(wanted))
        else:
            self.assertEqual(nfstream.convert(data), due(text, "nfc"))
        replaced = data.decode(errors="replace")
        self.assertEqual(nfstream.convert(data, "nfd", replace=True), due(replaced, "nfd"), data)

    def test_short(self) -> None:
        for a in self.LEADS:
            for b in self.LEADS:
                self.compare(bytes((a, b)))
                for c in self.LEADS:
                    self.compare(bytes((a, b, c)))
                    self.compare(bytes((0x61, a, b, c, 0x80)))

    def test_random(self) -> None:
        draw = random.Random(3)
        for _ in range(5000):
            data = bytearray(any_text(draw).encode())
            for _ in range(draw.randint(0, 3)):
                data.insert(draw.randint(0, len(data)), draw.choice(self.LEADS))
            self.compare(bytes(data))

    def test_long(self) -> None:
        front = "\u00e9".encode() * 20000
        for back in (b"\xff", b"\xe2\x82", b"\xe2\x82a"):
            self.compare(front + back)
            with self.assertRaises(nfstream.IllFormedError) as caught:
                nfstream.convert(front + b"a" + back)
            self.assertEqual(caught.exception.offset, len(front) + 1)
            self.assertEqual(caught.exception.settled[: len(front)], front)


class Assigned(unittest.TestCase):
    def test_unassigned(self) -> None:
        with self.assertRaises(nfstream.UnassignedError) as caught:
            nfstream.convert("ab\u0378c".encode(), assigned=True)
        error = caught.exception
        self.assertEqual((error.character, error.offset, error.settled), ("\u0378", 2, b"a"))
        self.assertEqual(str(error), "unassigned character U+0378 at byte 2")
        self.assertEqual(nfstream.convert("ab\u0378".encode()), "ab\u0378".encode())
        self.assertEqual(nfstream.convert("\ue000".encode(), assigned=True), "\ue000".encode())

    def test_assigned_by_both(self) -> None:
        text = "".join(it for it in map(chr, range(0x110000)) if is_known(it))
        self.assertEqual(nfstream.convert(text.encode(), assigned=True), due(text, "nfc"))


class StreamSafe(unittest.TestCase):
    def test_by_hand(self) -> None:
        self.assertIsNone(nfstream.find_unsafe(b"q" + b"\xcc\x81" * 30))
        self.assertEqual(nfstream.find_unsafe(b"q" + b"\xcc\x81" * 31), (31, 61))
        self.assertEqual(nfstream.find_unsafe("\u00e9q".encode() + b"\xcc\x81" * 31), nfstream.Place(character=32, byte=63))
        self.assertIsNone(nfstream.find_unsafe(b""))
        self.assertTrue(nfstream.is_stream_safe(b"plain"))
        self.assertFalse(nfstream.is_stream_safe(b"\xcc\x81" * 31))

    def test_random_texts(self) -> None:
        draw = random.Random(4)
        unsafe = 0
        for _ in range(5000):
            text = any_text(draw)
            safe = stream_safe(text)
            found = nfstream.find_unsafe(text.encode())
            self.assertEqual(nfstream.is_stream_safe(text.encode()), safe == text)
            if safe == text:
                self.assertIsNone(found)
                continue
            unsafe += 1
            at = next(i for i, (a, b) in enumerate(zip(text + "\0", safe)) if a != b)
            self.assertEqual(found, (at, len(text[:at].encode())), ascii(text))
        self.assertGreater(unsafe, 100)

    def test_far(self) -> None:
        front = "\u65e5" * 100000
        self.assertEqual(nfstream.find_unsafe((front + "\u0301" * 31).encode()), (100030, 300060))

    def test_ill_formed(self) -> None:
        for data in (b"a\xff", b"a\xe2\x82"):
            for call in (nfstream.is_stream_safe, nfstream.find_unsafe):
                with self.assertRaises(UnicodeDecodeError) as caught:
                    call(data)
                self.assertEqual((caught.exception.start, caught.exception.end), (1, len(data)))
        self.assertFalse(nfstream.is_stream_safe(b"\xcc\x81" * 31 + b"\xff"))


class Normalized(unittest.TestCase):
    def compare(self, text: str, form: str) -> bool:
        """Whether the text is its form, by unicodedata."""
        data, wanted = text.encode(), due(text, form).decode()
        place = None
        if text != wanted:
            at = next(i for i, (a, b) in enumerate(zip(text + "\0", wanted + "\0")) if a != b)
            place = (at, len(text[:at].encode()))
        self.assertEqual(nfstream.find_change(data, form), place, (form, ascii(text)))
        self.assertEqual(nfstream.is_normalized(data, form), place is None)
        return place is None

    def test_by_hand(self) -> None:
        text = "d\u00e9j\u00e0".encode()
        self.assertTrue(nfstream.is_normalized(text))
        self.assertFalse(nfstream.is_normalized(text, "nfd"))
        self.assertEqual(nfstream.find_change(text, "NFD"), nfstream.Place(character=1, byte=1))
        self.assertEqual(nfstream.find_change("\u00e9te\u0301".encode(), form="nfc"), (2, 3))
        self.assertEqual(nfstream.find_change("\u00e9 \ufb01".encode(), "nfkc"), (2, 3))
        self.assertIsNone(nfstream.find_change("\u00e9 \ufb01".encode(), "nfc"))
        self.assertEqual(nfstream.find_change(b"q" + b"\xcc\x81" * 31, "nfkd"), (31, 61))
        self.assertTrue(nfstream.is_normalized(b"q" + b"\xcc\x81" * 30, "nfkd"))
        for form in FORMS:
            self.assertTrue(nfstream.is_normalized(b"", form))

    def test_each_character(self) -> None:
        known = [it for it in map(chr, range(0x110000)) if is_known(it)]
        for form in FORMS:
            kept = [it for it in known if due(it, form) == it.encode()]
            self.assertTrue(nfstream.is_normalized("\n".join(kept).encode(), form))
            for it in set(known) - set(kept):
                self.assertEqual(nfstream.find_change(f"\u65e5\n{it}".encode(), form), (2, 4), (form, ascii(it)))

    @unittest.skipUnless(VECTORS.exists(), "no unicode-data")
    def test_vectors(self) -> None:
        rows = 0
        for line in bz2.open(VECTORS, "rt", encoding="utf-8"):
            if line[0] in "#@":
                continue
            columns = ["".join(chr(int(code, 16)) for code in column.split()) for column in line.split(";")[:5]]
            source, nfc, nfd, nfkc, nfkd = columns
            forms = {"nfc": [nfc] * 3 + [nfkc] * 2, "nfd": [nfd] * 3 + [nfkd] * 2, "nfkc": [nfkc] * 5, "nfkd": [nfkd] * 5}
            for form, wanted in forms.items():
                for column, its_form in zip(columns, wanted):
                    self.assertEqual(nfstream.is_normalized(column.encode(), form), column == its_form, (form, ascii(column), source))
            rows += 1
        self.assertGreater(rows, 15000)

    def test_random_texts(self) -> None:
        draw = random.Random(5)
        kept = 0
        for _ in range(3000):
            text = any_text(draw, 8)
            for form in FORMS:
                kept += self.compare(text, form)
                self.assertTrue(self.compare(due(text, form).decode(), form))
        self.assertTrue(1000 < kept < 11000, kept)

    def test_far(self) -> None:
        front = "\u65e5" * 100000
        self.assertEqual(nfstream.find_change((front + "e\u0301").encode(), "nfc"), (100000, 300000))

    def test_assigned(self) -> None:
        text = "ab\u0378\u00e9".encode()
        self.assertEqual(nfstream.find_change(text, "nfd"), (3, 4))
        for call in (nfstream.is_normalized, nfstream.find_change):
            with self.assertRaises(nfstream.UnassignedError) as caught:
                call(text, "nfd", assigned=True)
            self.assertEqual((caught.exception.character, caught.exception.offset), ("\u0378", 2))
        self.assertEqual(nfstream.find_change("\u00e9a\u0378".encode(), "nfd", assigned=True), (0, 0))

    def test_ill_formed(self) -> None:
        for data in (b"a\xff", b"a\xe2\x82"):
            for call in (nfstream.is_normalized, nfstream.find_change):
                with self.assertRaises(UnicodeDecodeError) as caught:
                    call(data)
                self.assertEqual((caught.exception.start, caught.exception.end), (1, len(data)))
            self.assertFalse(nfstream.is_normalized("\u00e9a".encode() + data, "nfd"))
        with self.assertRaises(nfstream.IllFormedError):  # what follows U+0301 may belong to it
            nfstream.is_normalized("e\u0301".encode() + b"\xff", "nfc")

    def test_forms(self) -> None:
        for call in (nfstream.is_normalized, nfstream.find_change):
            with self.assertRaises(nfstream.FormError):
                call(b"", "nfx")
