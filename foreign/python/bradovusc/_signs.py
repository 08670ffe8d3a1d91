"""The 43 characters of Code 39, by value and by sign."""

from __future__ import annotations

from typing import Iterable

#: The signs of the characters, by value.
SIGNS = "0123456789ABCDEFGHIJKLMNOPQRSTUVWXYZ-. $/+%"

#: There are so many characters.
CHARACTERS = len(SIGNS)

#: The value of the space. Spaces at the end of a label are dropped.
SPACE = SIGNS.index(" ")


def sign(value: int) -> str:
    """The sign of a value. Raises :class:`ValueError` where there is none."""
    if not 0 <= value < CHARACTERS:
        raise ValueError(f"{value} is no value of a character: they are 0 to {CHARACTERS - 1}")
    return SIGNS[value]


def value(sign: str) -> int:
    """The value of a sign. Raises :class:`ValueError` where it is no character of Code 39."""
    found = SIGNS.find(sign) if len(sign) == 1 else -1
    if found < 0:
        raise ValueError(f"{sign!r} is no character of Code 39")
    return found


def values(text: str) -> bytes:
    """The values of a text's signs."""
    return bytes(value(one) for one in text)


def signs(text: Iterable[int]) -> str:
    """The signs of a text's values."""
    return "".join(sign(one) for one in text)
