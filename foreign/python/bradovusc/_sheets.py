"""Sheets answered, written out as scripts, carried over and mended."""

from __future__ import annotations

from typing import Iterator, Optional, Tuple, Union

from ._answers import (
    Answer,
    Clash,
    Decision,
    ForeignField,
    Mended,
    OutputTooShort,
    Scripted,
    ScriptTooShort,
    SpeltOpen,
    Text,
    Written,
    answer,
    refused,
)
from ._editions import Edition
from ._library import Lent, Readable, Writable, call

#: A situation of the search takes so many bytes of the working buffer.
SITUATION_BYTES = 184
#: Room is counted in whole situations, and there are at most so many.
MOST_SITUATIONS = 65_535
#: Where no working buffer is lent, there is room for so many situations.
DEFAULT_SITUATIONS = 356
#: A sheet has fields 0 to 7.
FIELDS = 8
#: A record of the answer buffer has so many bytes before its text.
RECORD_HEAD = 5
#: A good sheet has at most so many bytes, three fewer without ``ED``. An output buffer of so many is long enough for every sheet that is
#: written or carried over.
SHEET_BYTES = 1_625
#: A good rule of a catalogue has at most so many bytes.
RULE_BYTES = 813
#: An output buffer of so many bytes is long enough for the script of every sheet.
SCRIPT_BYTES = 280_000


def work_bytes(situations: int) -> int:
    """A working buffer of so many bytes has room for so many situations."""
    return SITUATION_BYTES * situations


def answer_bytes(situations: int) -> int:
    """An answer buffer of so many bytes is always long enough, where there is room for so many situations."""
    return FIELDS * (RECORD_HEAD + situations)


def lent_work(work: Optional[Writable]) -> Lent:
    """The working buffer, or one with room for :data:`DEFAULT_SITUATIONS`."""
    return Lent(bytearray(work_bytes(DEFAULT_SITUATIONS)) if work is None else work)


def texts(written: Readable, edition: Edition = Edition.CODE_39) -> Iterator[Text]:
    """The texts that a clash of a sheet of this edition has written: one for each field that stands in a side, by rising number.

    Bytes that are not a whole record end them.
    """
    rest = bytes(written)
    while len(rest) >= RECORD_HEAD and rest.startswith(b"VA"):
        end = RECORD_HEAD + int.from_bytes(rest[3:RECORD_HEAD], "little")
        if len(rest) < end:
            return
        yield Text(rest[2], rest[RECORD_HEAD:end], edition)
        rest = rest[end:]


def sides(sheet: Readable) -> Optional[Tuple[bytes, bytes]]:
    """The tokens of the two sides of a good sheet."""
    rest = bytes(sheet)
    if Edition.of(rest) == Edition.FULL_ASCII:
        rest = rest[3:]
    while rest.startswith(b"PA") and len(rest) > 3:
        rest = rest[4 + rest[3] :]
    if not rest.startswith(b"LE") or len(rest) < 3:
        return None
    left, rest = rest[3 : 3 + rest[2]], rest[3 + rest[2] :]
    return (left, rest[3:]) if rest.startswith(b"RI") else None


def shared_fields(sheet: Readable) -> Tuple[int, ...]:
    """The fields that stand on both sides of a good sheet. Each holds the same text in both rules."""
    codes, both = Edition.of(bytes(sheet)).codes, sides(sheet)
    return tuple(sorted({one - codes for one in set(both[0]) & set(both[1]) if one >= codes})) if both else ()


def _asked(name: str, told: int, sheet: Readable, work: Optional[Writable], into: Optional[Writable]) -> Tuple[Answer, int]:
    """Asks by this function: the answer, and the last number told."""
    lent = lent_work(work)
    room = min(lent.length // SITUATION_BYTES, MOST_SITUATIONS)
    records = Lent(bytearray(answer_bytes(room)) if into is None else into)
    number, numbers = call(name, bytes(sheet), lent, records, told=told)
    count, place, written = numbers[:3]
    found = tuple(texts(records.front(written), Edition.of(bytes(sheet)))) if number == Clash.number else ()
    return answer(number, count, place, written, found, shared_fields(sheet)), numbers[-1]


def clash(sheet: Readable, work: Optional[Writable] = None, answer: Optional[Writable] = None) -> Answer:
    """Can the two rules of the sheet make the same label? One search answers, in the room of the working buffer.

    The working buffer has room for one situation for each whole :data:`SITUATION_BYTES`, at most :data:`MOST_SITUATIONS`. It is all zero
    afterwards, but a sheet at fault leaves it unchanged. Only a clash changes the answer buffer, and only the bytes written. Where no
    working buffer is lent, there is room for :data:`DEFAULT_SITUATIONS`; where no answer buffer is lent, one that is long enough is made.
    """
    return _asked("bradovusc_clash", 3, sheet, work, answer)[0]


def decide(sheet: Readable, work: Optional[Writable] = None, answer: Optional[Writable] = None) -> Decision:
    """Can the two rules of the sheet make the same label? As :func:`clash`, but by up to seven attempts, until one decides.

    They are made one after the other in the same working buffer: (1) the search of ``clash``; (2) letters: where some character but the
    space can't stand as often on both sides, there is no clash; (3) every standing of a field apart, by the engine of :func:`plain`, whose
    "no clash" is one, and whose clash says nothing; (4) the search with the shortest text in each field that stands twice, whose clash is
    one, and whose end says nothing; (5) the same with texts of three characters or more; (6) the search over one character of each kind
    that the sheet tells apart; (7) the search over a few characters, whose clash is one, and whose end says nothing.

    Where ``clash`` decides, or refuses the sheet, this gives the same in every number and byte. Where no attempt decides, the answer is
    :class:`NoRoom` or :class:`SideTooLong`, as the first one had it: neither yes nor no. After :class:`AnswerTooShort` the attempt is
    told that found the texts. The count is that of all the searches made; (2) and (3) are none.
    """
    return Decision(*_asked("bradovusc_decide", 4, sheet, work, answer))


def script(sheet: Readable, out: Optional[Writable] = None) -> Scripted:
    """Writes the sheet out as a script for string solvers, such as z3 and cvc5.

    The script is ASCII text in SMT-LIB 2.6, and means the sheet's question: ``sat`` says that the rules clash, ``unsat`` that they don't.
    Only :class:`Written` changes the buffer, and only the bytes of the script. :data:`SCRIPT_BYTES` are always enough, and so many are
    taken where no buffer is lent.
    """
    lent = Lent(bytearray(SCRIPT_BYTES) if out is None else out)
    number, (_, place, written) = call("bradovusc_script", bytes(sheet), lent, told=3)
    if number == Written.number:
        return Written(lent.front(written))
    if number == ScriptTooShort.number:
        return ScriptTooShort()
    return refused(number, place)


def _written_new(name: str, old: Readable, out: Optional[Writable], enough: int) -> Union[SpeltOpen, Mended]:
    """The new sheet or rule, as this function writes it."""
    lent = Lent(bytearray(enough) if out is None else out)
    number, (_, place, written) = call(name, bytes(old), lent, told=3)
    if number == Written.number:
        return Written(lent.front(written))
    if number == ForeignField.number:
        return ForeignField()
    if number == OutputTooShort.number:
        return OutputTooShort()
    return refused(number, place)


def spell_open(sheet: Readable, out: Optional[Writable] = None) -> SpeltOpen:
    """Carries a sheet from before version 0.6 over.

    Up to version 0.5 a field without a pattern held any text, the empty one included; since 0.6 it holds one character or more. This
    writes the sheet with the pattern 68 65 0 42, behind ``ED`` 196 193 0 127, for each field that stands in a side and has none. All else stays byte for byte as it
    was. It is proved that the new sheet's question has exactly the solutions that the old meaning gave the old sheet.

    Carry a sheet over once, and only one from before 0.6: nothing in its bytes says for which version it was written, and a sheet for 0.6
    would get another meaning. One with stray patterns is refused: :func:`drop_strays` comes first. Only :class:`Written` changes the
    buffer. :data:`SHEET_BYTES` are always enough. A sheet never gets :class:`ForeignField`.
    """
    return _written_new("bradovusc_spell_open", sheet, out, SHEET_BYTES)


def spell_open_rule(rule: Readable, out: Optional[Writable] = None) -> SpeltOpen:
    """Carries a rule of a catalogue from before version 0.6 over, as :func:`spell_open` does a sheet.

    It is proved that the new rule makes exactly the labels that the old one made. :data:`RULE_BYTES` are always enough.
    """
    return _written_new("bradovusc_spell_open_rule", rule, out, RULE_BYTES)


def drop_strays(sheet: Readable, out: Optional[Writable] = None) -> Mended:
    """Drops the stray patterns of a sheet: those of fields that stand in neither side.

    Up to version 0.8 a sheet could have such patterns, and nothing depended on them. Now it is refused, as ``Fault.STRAY_PATTERN``. This
    reads it as it was read before and writes it without them. All else, ``ED`` included, stays byte for byte as it was, so a sheet without
    strays comes out unchanged, and it may be done again. It is proved that every answer about the new sheet is the one that was given about
    the old one, in every number and byte, by :func:`clash`, :func:`decide` and :func:`plain`.

    A sheet from before 0.6 loses its strays first, and is then carried over by :func:`spell_open`. Only :class:`Written` changes the buffer.
    :data:`SHEET_BYTES` are always enough. A sheet never gets :class:`ForeignField`, and ``Fault.STRAY_PATTERN`` never comes.

    >>> drop_strays(b"PA\\x07\\x01\\x04LE\\x01\\x04RI\\x01\\x05").data
    b'LE\\x01\\x04RI\\x01\\x05'
    """
    return _written_new("bradovusc_drop_strays", sheet, out, SHEET_BYTES)


def drop_strays_rule(rule: Readable, out: Optional[Writable] = None) -> Mended:
    """Drops the stray patterns of a rule of a catalogue, as :func:`drop_strays` does those of a sheet.

    It is proved that the new rule makes exactly the labels that the old one made. :class:`ForeignField` is told of a stray pattern's field
    too. :data:`RULE_BYTES` are always enough.
    """
    return _written_new("bradovusc_drop_strays_rule", rule, out, RULE_BYTES)
