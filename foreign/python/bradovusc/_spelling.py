"""Texts of Full ASCII spelt in Code 39 by the library, and read back."""

from __future__ import annotations

from typing import Optional

from ._answers import NotInTable, Spelt, SpeltTooShort, Written
from ._library import Lent, Readable, Writable, call


def spelt_bytes(characters: int) -> int:
    """So many bytes are always enough for the spelling of a text of so many characters."""
    return 2 * characters


def spell(text: Readable, out: Optional[Writable] = None) -> Spelt:
    """Spells a text of Full ASCII, bytes 0 to 127, in values of Code 39, one or two for each character.

    It is proved that no two different texts are spelt alike, and that :func:`read_spelt` of what was spelt gives the text.

    :class:`NotInTable`, for a byte above 127, comes before :class:`SpeltTooShort`. Only :class:`Written` changes the buffer, and only the
    bytes of the values. :func:`spelt_bytes` are always enough, and so many are taken where no buffer is lent.

    >>> from bradovusc import signs
    >>> signs(spell(b"Box $5").data)
    'B+O+X /D5'
    """
    text = bytes(text)
    return _called("bradovusc_spell", text, bytearray(spelt_bytes(len(text))) if out is None else out)


def read_spelt(spelt: Readable, out: Optional[Writable] = None) -> Spelt:
    """Reads a spelt text back, from the front: a value alone, or a shift sign and the value behind it.

    :class:`NotInTable` where a value is above 42, a shift sign (39 to 42, the signs ``$/+%``) is the last, or has a value behind it that it
    doesn't take, as in ``%X``; it comes before :class:`SpeltTooShort`. It is proved that :func:`spell` of what is read back gives the same
    values. Only :class:`Written` changes the buffer, and only the bytes of the characters. As many bytes as the spelt text has are always
    enough, and so many are taken where no buffer is lent.

    >>> from bradovusc import values
    >>> read_spelt(values("B+O+X /D5")).data
    b'Box $5'
    """
    spelt = bytes(spelt)
    return _called("bradovusc_read_spelt", spelt, bytearray(len(spelt)) if out is None else out)


def _called(name: str, given: bytes, out: Writable) -> Spelt:
    lent = Lent(out)
    number, (_, _, written) = call(name, given, lent, told=3)
    if number == Written.number:
        return Written(lent.front(written))
    return NotInTable() if number == NotInTable.number else SpeltTooShort()
