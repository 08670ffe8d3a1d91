"""The editions of a sheet: which characters its rules have."""

from __future__ import annotations

import enum
from typing import Iterable

from ._signs import CHARACTERS, SPACE, sign, value

#: No edition has more characters.
MOST_CHARACTERS = 128

_FULL_ASCII = b"ED\x02"


class Edition(enum.IntEnum):
    """Which characters the rules of a sheet have. The value is its number.

    All else is the same in both: records, answers, steps and buffers. A rule of a catalogue has no edition; its characters are those of
    Code 39.
    """

    #: The 43 characters of Code 39, by value. It is that of a sheet without ``ED``.
    CODE_39 = 0
    #: The 128 characters of Full ASCII, by their ASCII code. It is that of a sheet that begins with ``ED`` and the byte 2.
    FULL_ASCII = 2

    @classmethod
    def of(cls, sheet: bytes) -> Edition:
        """The edition of a sheet, by how it begins."""
        return cls.FULL_ASCII if bytes(sheet[: len(_FULL_ASCII)]) == _FULL_ASCII else cls.CODE_39

    @property
    def characters(self) -> int:
        """How many characters it has. They are the values below this."""
        return CHARACTERS if self == Edition.CODE_39 else MOST_CHARACTERS

    @property
    def space(self) -> int:
        """The value of the space. Spaces at the end of a label are dropped."""
        return SPACE if self == Edition.CODE_39 else ord(" ")

    @property
    def codes(self) -> int:
        """The first byte that is no character but a code: the token of field 0 and, in a pattern, the empty text. The others follow it."""
        return 64 if self == Edition.CODE_39 else 192

    def sign(self, of: int) -> str:
        """The sign of a value. Raises :class:`ValueError` where there is none."""
        if self == Edition.CODE_39:
            return sign(of)
        if not 0 <= of < MOST_CHARACTERS:
            raise ValueError(f"{of} is no value of a character: they are 0 to {MOST_CHARACTERS - 1}")
        return chr(of)

    def value(self, of: str) -> int:
        """The value of a sign. Raises :class:`ValueError` where it is no character of this edition."""
        if self == Edition.CODE_39:
            return value(of)
        if len(of) != 1 or not of.isascii():
            raise ValueError(f"{of!r} is no character of Full ASCII")
        return ord(of)

    def values(self, text: str) -> bytes:
        """The values of a text's signs."""
        return bytes(self.value(one) for one in text)

    def signs(self, text: Iterable[int]) -> str:
        """The signs of a text's values."""
        return "".join(self.sign(one) for one in text)
