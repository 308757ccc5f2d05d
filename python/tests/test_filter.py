"""A text in pieces: cuts, copies, faults, threads and memory."""

import copy
import pickle
import random
import threading
import tracemalloc
import unittest
from typing import Iterable

import nfstream
from tests.model import FORMS, any_text, due

TEXTS = (
    "plain ASCII\r\nand more",
    "Vie\u0302\u0323t \ufb01\u2460 \u1112\u1161\u11ab \U0001f600\U0001d15e",
    "q" + "\u0301\u0323" * 40 + "e\u0301",
    "\u0301" * 35 + "\uff9e" * 70 + "\u0344" * 20,
    "\ufdfa\u30ab\u3099\uff76\uff9e\n\u0f73\u0f71\u05d9\u05b4",
)


def written(filter: nfstream.Filter, pieces: Iterable[bytes]) -> bytes:
    return b"".join([filter.feed(piece) for piece in pieces]) + filter.finish()


class Cuts(unittest.TestCase):
    def test_each_cut(self) -> None:
        for text in TEXTS:
            data = text.encode()
            for form in FORMS:
                for cut in range(len(data) + 1):
                    got = written(nfstream.Filter(form), (data[:cut], data[cut:]))
                    self.assertEqual(got, due(text, form), (form, cut, ascii(text)))

    def test_each_size(self) -> None:
        for text in TEXTS:
            data = text.encode()
            for form in FORMS:
                for size in (1, 2, 3, 5, 7, 11):
                    pieces = (data[at : at + size] for at in range(0, len(data), size))
                    self.assertEqual(written(nfstream.Filter(form), pieces), due(text, form))

    def test_random_pieces(self) -> None:
        draw = random.Random(1)
        for _ in range(1000):
            text = any_text(draw)
            data, at, pieces = text.encode(), 0, []
            while at < len(data):
                size = draw.randint(0, 9)
                pieces.append(data[at : at + size])
                at += size
            form = draw.choice(FORMS)
            self.assertEqual(written(nfstream.Filter(form), pieces), due(text, form), ascii(text))

    def test_whole_characters_come(self) -> None:
        filter = nfstream.Filter("nfkd")
        for byte in TEXTS[1].encode():
            filter.feed(bytes((byte,))).decode()


class State(unittest.TestCase):
    def test_copies(self) -> None:
        for text in TEXTS:
            data = text.encode()
            for form in FORMS:
                filter, out = nfstream.Filter(form, base=7), b""
                for at in range(len(data)):
                    for made in (copy.copy(filter), copy.deepcopy(filter), pickle.loads(pickle.dumps(filter))):
                        self.assertEqual(made.offset, 7 + at)
                        self.assertEqual(out + written(made, (data[at:],)), due(text, form))
                    out += filter.feed(data[at : at + 1])

    def test_counts(self) -> None:
        filter = nfstream.Filter(base=100)
        filter.feed(b"q" + b"\xcc\x81" * 61 + b"\xe2")
        self.assertEqual((filter.offset, filter.joiners), (100 + 124, 2))

    def test_no_state(self) -> None:
        draw = random.Random(2)
        filter = nfstream.Filter()
        for wrong in (b"", bytes(176), bytes(175), b"\xab" * 176, draw.randbytes(176), None, "text"):
            with self.assertRaises(nfstream.StateError):
                filter.__setstate__(wrong)  # type: ignore[arg-type]
        made = bytearray(nfstream.Filter().__getstate__())
        made[4:8] = (170000).to_bytes(4, "little")
        with self.assertRaises(nfstream.StateError):
            filter.__setstate__(bytes(made))

    def test_bases(self) -> None:
        for base in (-1, 1 << 64):
            with self.assertRaises(OverflowError):
                nfstream.Filter(base=base)
        filter = nfstream.Filter(base=(1 << 64) - 3)
        filter.feed(b"ab")
        with self.assertRaises(nfstream.TooLongError):
            filter.feed(b"c")
        self.assertEqual(filter.offset, (1 << 64) - 1)
        self.assertEqual(filter.finish(), b"b")


class Faults(unittest.TestCase):
    def test_places_do_not_depend_on_cuts(self) -> None:
        front, back = "Vie\u0302\u0323t ".encode(), b"tail"
        for part, reason in ((b"\xff", "start"), (b"\xe2\x82", "continuation"), (b"\xf0\x9f\x98", "continuation")):
            data = front + part + back
            for cut in range(len(data)):
                filter, out = nfstream.Filter(base=50), b""
                with self.assertRaises(nfstream.IllFormedError) as caught:
                    out += filter.feed(data[:cut])
                    out += filter.feed(data[cut:])
                error = caught.exception
                self.assertEqual(error.offset, 50 + len(front))
                self.assertEqual(error.object[error.start : error.end], part)
                self.assertIn(reason, error.reason)
                self.assertEqual(out + error.settled, "Vi\u1ec7t".encode())
                for call in (filter.finish, lambda: filter.feed(b"")):
                    with self.assertRaises(nfstream.SpentError):
                        call()

    def test_ends_within(self) -> None:
        for part in (b"\xc3", b"\xe2\x82", b"\xf0\x9f\x98"):
            filter = nfstream.Filter()
            out = filter.feed(b"ab" + part)
            with self.assertRaises(nfstream.IllFormedError) as caught:
                filter.finish()
            error = caught.exception
            self.assertEqual((error.offset, error.object, error.start, error.end), (2, part, 0, len(part)))
            self.assertEqual(error.reason, "unexpected end of data")
            self.assertIn(out + error.settled, (b"a", b"ab"))
            filter = nfstream.Filter(replace=True)
            self.assertEqual(written(filter, (b"ab" + part,)), b"ab\xef\xbf\xbd")

    def test_unassigned(self) -> None:
        data = "ab\u0378".encode()
        for cut in range(len(data)):
            filter = nfstream.Filter(assigned=True)
            with self.assertRaises(nfstream.UnassignedError) as caught:
                filter.feed(data[:cut])
                filter.feed(data[cut:])
            self.assertEqual((caught.exception.character, caught.exception.offset), ("\u0378", 2))

    def test_pickled_errors(self) -> None:
        for data in (b"ab\xff", "ab\u0378".encode()):
            with self.assertRaises(nfstream.NfstreamError) as caught:
                nfstream.convert(data, assigned=True)
            made = pickle.loads(pickle.dumps(caught.exception))
            self.assertEqual((type(made), str(made)), (type(caught.exception), str(caught.exception)))
            self.assertEqual((made.settled, made.offset), (b"a", 2))

    def test_finished(self) -> None:
        filter = nfstream.Filter()
        self.assertEqual(written(filter, (b"a",)), b"a")
        with self.assertRaises(nfstream.SpentError):
            filter.feed(b"b")
        with self.assertRaises(nfstream.SpentError):
            copy.copy(filter).finish()

    def test_with(self) -> None:
        with nfstream.Filter() as filter:
            self.assertEqual(filter.feed(b"ab") + filter.finish(), b"ab")
        with nfstream.Filter():
            pass
        with self.assertRaises(nfstream.UnfinishedError):
            with nfstream.Filter() as filter:
                filter.feed(b"ab")
        with self.assertRaises(KeyError):
            with nfstream.Filter() as filter:
                filter.feed(b"ab")
                raise KeyError


class Memory(unittest.TestCase):
    def test_a_million_marks(self) -> None:
        piece = "\u0301".encode() * 1000
        filter, read, out = nfstream.Filter(), 0, 0
        filter.feed(b"q")
        tracemalloc.start()
        for _ in range(1000):
            read += len(piece)
            out += len(filter.feed(piece))
        most = tracemalloc.get_traced_memory()[1]
        tracemalloc.stop()
        out += len(filter.finish())
        self.assertEqual((read, out), (2000000, 1 + 2000000 + 2 * ((1000000 - 1) // 30)))
        self.assertLess(most, 50000)

    def test_long_pieces(self) -> None:
        piece = b"\xef\xb7\xba" * 1000000
        self.assertEqual(nfstream.Filter("nfkc").feed(piece)[:33], due("\ufdfa", "nfkc"))


class Threads(unittest.TestCase):
    def run_all(self, calls: list[threading.Thread]) -> None:
        for it in calls:
            it.start()
        for it in calls:
            it.join()

    def test_a_filter_each(self) -> None:
        draw = random.Random(5)
        texts = ["".join(any_text(draw) for _ in range(300)) for _ in range(8)]
        got: dict[int, list[bytes]] = {}

        def work(number: int) -> None:
            data = texts[number].encode()
            pieces = [data[at : at + 997] for at in range(0, len(data), 997)]
            got[number] = [written(nfstream.Filter(form), pieces) for form in FORMS for _ in range(5)]

        self.run_all([threading.Thread(target=work, args=(number,)) for number in range(8)])
        for number, text in enumerate(texts):
            self.assertEqual(got[number], [due(text, form) for form in FORMS for _ in range(5)])

    def test_one_filter(self) -> None:
        filter, lens = nfstream.Filter("nfkc"), [0] * 8

        def work(number: int) -> None:
            for _ in range(300):
                lens[number] += len(filter.feed(b"\xef\xb7\xba" * 50))

        self.run_all([threading.Thread(target=work, args=(number,)) for number in range(8)])
        self.assertEqual(sum(lens) + len(filter.finish()), 8 * 300 * 50 * len(due("\ufdfa", "nfkc")))
