"""UTF-8 made stream-safe (UAX #15, section 13) and brought into a normalization form, in bounded memory.

`convert` takes a whole text, `Filter` one that comes in pieces, and `open(path, encoding="utf-8-nfc")` reads a file so:
utf-8-nfc, utf-8-nfd, utf-8-nfkc and utf-8-nfkd are codecs once this package is imported. `find_unsafe` and `is_stream_safe`,
`find_change` and `is_normalized` look at a text. Offsets are in bytes, from 0. What is refused raises an NfstreamError.
"""

from ._errors import (
    FormError,
    IllFormedError,
    NfstreamError,
    SpentError,
    StateError,
    TooLongError,
    UnassignedError,
    UnfinishedError,
)
from ._filter import Filter
from ._whole import Place, convert, find_change, find_unsafe, is_normalized, is_stream_safe, unicode_version
from . import _codec as _codec

__all__ = [
    "Filter",
    "FormError",
    "IllFormedError",
    "NfstreamError",
    "Place",
    "SpentError",
    "StateError",
    "TooLongError",
    "UnassignedError",
    "UnfinishedError",
    "convert",
    "find_change",
    "find_unsafe",
    "is_normalized",
    "is_stream_safe",
    "unicode_version",
]
