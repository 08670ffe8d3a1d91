"""Sheets written by the library, from sides and patterns."""

from __future__ import annotations

from typing import Iterable, List, Mapping, Optional, Tuple

from ._answers import NotWritten, OutputTooShort, SheetWritten, Written, refused, shared_words
from ._build import template, tokens
from ._editions import Edition
from ._library import Lent, Numbers, Readable, Writable, call
from ._sheets import FIELDS, SHEET_BYTES, shared_fields, sides


def write(
    patterns: Readable, lengths: Iterable[int], left: Readable, right: Readable, out: Optional[Writable] = None, edition: int = Edition.CODE_39
) -> SheetWritten:
    """Writes the one sheet of an edition that says these sides and patterns.

    ``edition`` is an :class:`Edition` or its number; any other is ``Fault.WRONG_EDITION``. ``left`` and ``right`` are the tokens of the two sides. ``patterns`` are the bytes of all patterns one behind the other, by rising field,
    and ``lengths`` says how many of them each field has, by field number. A field has no pattern where its length is 0, and where no length
    is there for it. Bytes behind the last pattern are not looked at. It is proved that reading the sheet gives the same edition, the same
    sides and the same patterns, byte for byte.

    :class:`Refused` is the first fault that reading the sheet would meet: those of the patterns come first, by rising field, then those of
    the left side, then those of the right one, then ``Fault.STRAY_PATTERN``, for a pattern whose field stands in neither side. Its place is
    an offset in the sheet that would be written. A length that is not 0 for a field above 7 is ``Fault.WRONG_FIELD``; a pattern with fewer
    bytes than its length says is ``Fault.CUT_SHORT``.

    Only :class:`Written` changes the buffer, and only the bytes of the sheet. :data:`SHEET_BYTES` are always enough, and so many are taken
    where no buffer is lent. Raises :class:`OverflowError` for a length or an edition below 0, or above what 64 bits hold.
    """
    if not 0 <= edition < 1 << 64:
        raise OverflowError(f"{edition} is no number of an edition")
    lent = Lent(bytearray(SHEET_BYTES) if out is None else out)
    handed = bytes(patterns), Numbers(lengths), bytes(left), bytes(right)
    number, (_, place, written) = call("bradovusc_write_edition", int(edition), *handed, lent, told=3)
    if number == Written.number:
        return Written(lent.front(written))
    if number == OutputTooShort.number:
        return OutputTooShort()
    return refused(number, place)


class Sheet(bytes):
    """The bytes of a sheet. As a string it is the two rules, with the fields that both share."""

    @property
    def shared(self) -> Tuple[int, ...]:
        """The fields that stand on both sides. Each is one field, and holds the same text in both rules."""
        return shared_fields(self)

    def __str__(self) -> str:
        edition = Edition.of(self)
        left, right = (template(tokens, edition) for tokens in sides(self) or (b"", b""))
        return f"{left} and {right}{shared_words(self.shared)}"


def sheet(left: str, right: str, patterns: Optional[Mapping[int, bytes]] = None, edition: Edition = Edition.CODE_39) -> Sheet:
    """The sheet of two rules, with the patterns of their fields, as :func:`write` writes it.

    A template has the signs of the fixed characters, and ``{0}`` to ``{7}`` for the fields. A field without a pattern holds one character
    or more. **A number that stands on both sides is one field, shared by both rules:** ``sheet("A{0}", "{0}B")`` asks for one text that
    makes both the same label. Two rules with a field each have two numbers, ``sheet("A{0}", "{1}B")``; or ask by :func:`pair`, where the
    fields of a rule are its own. ``shared`` of the sheet names the fields of both sides, and so do the sheet and its answers as strings. In
    a sheet of Full ASCII the characters ``{`` and ``}`` are written twice, and the patterns are put together by :data:`full_ascii`.

    Raises :class:`NotWritten`, with the place of the fault, where no sheet says these rules, also where a field with a pattern stands in
    neither, and :class:`ValueError` for a sign that is no character, a field below 0, and a pattern of no byte.

    >>> from bradovusc import between, many
    >>> sheet("LT{0}", "{1}4", {0: many(between("0", "9"))}).hex(" ")
    '50 41 00 04 44 41 00 09 4c 45 03 15 1d 40 52 49 02 41 04'
    >>> from bradovusc import decide
    >>> print(decide(sheet("A{0}", "{0}B")))
    no clash, with field 0 shared: it holds the same text in both rules
    >>> print(decide(sheet("A{0}", "{1}B")))
    clash
    >>> from bradovusc import Edition, full_ascii
    >>> sheet("Box {0}", "{1}!", {0: full_ascii.word("ok!")}, Edition.FULL_ASCII)
    b'ED\\x02PA\\x00\\x05\\xc2o\\xc2k!LE\\x05Box \\xc0RI\\x02\\xc1!'
    """
    lengths: List[int] = []
    rising = sorted((patterns or {}).items())
    for field, pattern in rising:
        if field < 0 or not pattern:
            raise ValueError(f"field {field} can't have the pattern {pattern!r}")
        # every field above 7 is refused as field 8 is
        lengths += [0] * (min(field, FIELDS) - len(lengths))
        lengths.append(len(pattern))
    answer = write(b"".join(pattern for _, pattern in rising), lengths, tokens(left, edition), tokens(right, edition), edition=edition)
    if isinstance(answer, Written):
        return Sheet(answer.data)
    raise NotWritten(answer)
