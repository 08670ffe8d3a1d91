"""Two sides told apart by what is fixed in them."""

from __future__ import annotations

from ._editions import Edition
from ._library import Readable, call


def fronts_differ(left: Readable, right: Readable, edition: int = Edition.CODE_39) -> bool:
    """Whether the fixed fronts or ends of two sides show that they never make the same label.

    ``left`` and ``right`` are the tokens of the two sides, as :func:`write` takes them. Fixed are the characters before a side's first field
    and those behind its last one. The fronts differ if both sides have a character at some place, and the two are different. The ends are
    compared only where both sides end with a character that is not the space.

    It is proved that ``True`` comes only if no texts at all, whatever the fields may hold, make both sides the same label. ``False`` says
    nothing, also of bytes that are no tokens. ``edition`` is an :class:`Edition` or its number; of any other nothing is said. Raises
    :class:`OverflowError` for an edition below 0, or above what 64 bits hold.

    >>> from bradovusc import values
    >>> fronts_differ(values("LT") + b"\\x40", values("LU") + b"\\x40")
    True
    >>> fronts_differ(values("LT") + b"\\x40", b"\\x41" + values("4"))
    False
    """
    if not 0 <= edition < 1 << 64:
        raise OverflowError(f"{edition} is no number of an edition")
    number, _ = call("bradovusc_fronts_differ", int(edition), bytes(left), bytes(right))
    return number == 1
