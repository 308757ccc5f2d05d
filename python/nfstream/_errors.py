"""What a text, a filter or an argument is refused for: each error is an NfstreamError."""

from __future__ import annotations


class NfstreamError(ValueError):
    """What nfstream refuses. `settled` is what the call had written of the form before the fault, where there is one."""

    settled: bytes = b""


class FormError(NfstreamError):
    """The name is that of no form."""


class IllFormedError(NfstreamError, UnicodeDecodeError):
    """Ill-formed UTF-8, or a text that ends within a character.

    `encoding`, `object`, `start`, `end` and `reason` are those that `bytes.decode` gives: `object[start:end]` is the
    ill-formed part, in bytes. In a filter `object` is what was held of a begun character and the piece after it, and
    `offset` is that of the part in the whole text.
    """

    offset: int


class UnassignedError(NfstreamError):
    """A character that Unicode has not assigned, where only assigned ones are allowed.

    `character` is the character, and `offset` where it begins, in bytes from the filter's base.
    """

    def __init__(self, character: str, offset: int) -> None:
        super().__init__(f"unassigned character U+{ord(character):04X} at byte {offset}")
        self.character = character
        self.offset = offset

    def __reduce__(self) -> tuple[type[UnassignedError], tuple[str, int], dict[str, object]]:
        return type(self), (self.character, self.offset), self.__dict__


class SpentError(NfstreamError):
    """The filter's text has ended: by `finish`, or by a fault."""


class UnfinishedError(NfstreamError):
    """A `with` was left in which a filter read text, and `finish` was not called for its rest."""


class TooLongError(NfstreamError):
    """The text's offsets would pass 2**64 - 1."""


class StateError(NfstreamError):
    """What was unpickled is no state of this library, or one of another version of Unicode."""
