"""The bytes of patterns, sides and rules. Whether they are good is for the library to say."""

from __future__ import annotations

import re
from functools import reduce
from typing import Mapping, Optional

from ._editions import Edition


class Patterns:
    """Puts the bytes of patterns together, in the codes and the characters of an edition."""

    def __init__(self, edition: Edition) -> None:
        self.edition = edition
        self._empty, self._range, self._row, self._choice, self._many = (bytes([edition.codes + code]) for code in range(5))
        #: The pattern of a field that may hold any text, the empty one included. A field without a pattern holds one character or more.
        self.ANY = self._many + self._range + bytes([0, edition.characters - 1])

    def word(self, text: str) -> bytes:
        """The pattern of this one text, which may be empty."""
        return self.row(*(bytes([one]) for one in self.edition.values(text)))

    def between(self, low: str, high: str) -> bytes:
        """The pattern of one character, from the one to the other by value.

        In Code 39 these are the digits, letters, then ``-``, ``.``, space, ``$``, ``/``, ``+``, ``%``; in Full ASCII they go by ASCII.
        """
        return self._range + self.edition.values(low) + self.edition.values(high)

    def row(self, *patterns: bytes) -> bytes:
        """The pattern of one text of each of these, one behind the other."""
        return reduce(lambda behind, one: self._row + one + behind, patterns[-2::-1], patterns[-1]) if patterns else self._empty

    def choice(self, first: bytes, *others: bytes) -> bytes:
        """The pattern of the texts of any of these."""
        patterns = (first, *others)
        return reduce(lambda behind, one: self._choice + one + behind, patterns[-2::-1], patterns[-1])

    def many(self, pattern: bytes) -> bytes:
        """The pattern of any number of texts of this one, one behind the other; none included."""
        return self._many + pattern


_CODE_39 = Patterns(Edition.CODE_39)
#: The same functions for sheets of Full ASCII.
full_ascii = Patterns(Edition.FULL_ASCII)
ANY = _CODE_39.ANY
word, between, row, choice, many = _CODE_39.word, _CODE_39.between, _CODE_39.row, _CODE_39.choice, _CODE_39.many


def tokens(template: str, edition: Edition = Edition.CODE_39) -> bytes:
    """The tokens of a template, in which ``{0}`` is field 0, and ``{{`` and ``}}`` are the characters ``{`` and ``}``.

    What no byte can say is said by 255, which is no token.
    """
    said = bytearray()
    for field, doubled, other in re.findall(r"\{([0-9]+)\}|(\{\{|\}\})|(.)", template, re.DOTALL):
        if field:
            said.append(min(edition.codes + int(field), 255))
        elif other and other in "{}":
            raise ValueError(f"{other!r} stands alone in {template!r}")
        else:
            said.append(edition.value(doubled[:1] or other))
    return bytes(said)


def template(side: bytes, edition: Edition = Edition.CODE_39) -> str:
    """The template that these tokens are of a good side: :func:`tokens` gives them back."""
    field = "{{{}}}".format
    return "".join(field(one - edition.codes) if one >= edition.codes else edition.sign(one).replace("{", "{{").replace("}", "}}") for one in side)


def rule(template: str, patterns: Optional[Mapping[int, bytes]] = None) -> bytes:
    """A rule of a catalogue: a template as for :func:`sheet`, with fields ``{0}`` to ``{3}`` of its own.

    >>> rule("A{0}").hex(" ")
    '52 55 4c 45 02 0a 40'
    """
    rising = sorted((patterns or {}).items())
    records = b"".join(b"PA" + bytes([field, len(pattern)]) + pattern for field, pattern in rising)
    side = tokens(template)
    return b"RU" + records + b"LE" + bytes([len(side)]) + side
