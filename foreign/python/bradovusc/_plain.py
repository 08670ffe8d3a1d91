"""The small engine for plain rules: those in which no field stands more than once."""

from __future__ import annotations

from typing import Optional

from ._answers import BitsTooShort, Clash, Needed, NoClash, NotPlain, PlainAnswer, PlainBytes, refused
from ._library import Lent, Readable, Writable, call

#: A bit buffer of so many bytes is long enough for every plain sheet.
PLAIN_BYTES = 9_731


def plain(sheet: Readable, bits: Optional[Writable] = None) -> PlainAnswer:
    """Can the two rules of the sheet make the same label, where no field stands more than once?

    The engine is lent one bit for each pair of a left and a right standing, and no situations. A standing is how far a side is read, with one
    place of the field in front. It is proved that it answers :class:`Clash` exactly if some texts solve the question, and :class:`NoClash`
    exactly if none do, of any length. So it agrees with :func:`clash` wherever that decides, and answers too where that has no room. It
    tells no texts, and its counts are 0.

    The bit buffer is all zero afterwards, but a sheet at fault leaves it unchanged. The sheet's own faults come first, then
    :class:`NotPlain`, then :class:`BitsTooShort`. :data:`PLAIN_BYTES` are always enough, and so many are taken where no buffer is lent.
    """
    lent = Lent(bytearray(PLAIN_BYTES) if bits is None else bits)
    number, (count, place) = call("bradovusc_plain", bytes(sheet), lent, told=2)
    if number == Clash.number:
        return Clash(count)
    if number == NoClash.number:
        return NoClash(count)
    if number == NotPlain.number:
        return NotPlain()
    if number == BitsTooShort.number:
        return BitsTooShort()
    return refused(number, place)


def plain_bytes(sheet: Readable) -> PlainBytes:
    """How long a bit buffer :func:`plain` needs for the sheet.

    With fewer bytes than :class:`Needed` says the answer is :class:`BitsTooShort`, with so many it is :class:`Clash` or :class:`NoClash`.
    """
    number, (_, place, needed) = call("bradovusc_plain_bytes", bytes(sheet), told=3)
    if number == Needed.number:
        return Needed(needed)
    if number == NotPlain.number:
        return NotPlain()
    return refused(number, place)
