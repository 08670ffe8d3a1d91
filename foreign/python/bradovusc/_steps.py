"""The steps on paper: the way to a clash, written down, that of given texts, and the player, which goes any such way."""

from __future__ import annotations

import enum
from dataclasses import dataclass
from typing import Iterable, Iterator, Optional

from ._answers import (
    AnswerTooShort,
    Clash,
    Found,
    NoSolution,
    NotFinished,
    Played,
    SideTooLong,
    StepNotAllowed,
    Stepped,
    StepsTooShort,
    Text,
    TooManySteps,
    WayFound,
    WrongStep,
    WrongTexts,
    answer as answered,
    refused,
)
from ._editions import Edition
from ._library import Lent, Readable, Writable, call
from ._sheets import MOST_SITUATIONS, SITUATION_BYTES, answer_bytes, lent_work, shared_fields, texts

#: The longest record of a step, that of a character, has so many bytes.
STEP_RECORD = 4
#: A way has at most so many steps, and so many records are played.
MOST_STEPS = 65_534

_MARK = b"ST"


class Kind(enum.IntEnum):
    """What a step does."""

    #: The left front, a field, is struck everywhere.
    LEFT_STRUCK = 0
    #: The right front, a field, is struck everywhere.
    RIGHT_STRUCK = 1
    #: A character is put before each front field wherever that stands. A front that is a character is this one.
    CHARACTER = 2


@dataclass(frozen=True)
class Step:
    """A step: how a child is made of a situation. As a string it says what is done."""

    kind: Kind
    #: The value of a character of the edition; none of the other kinds.
    value: Optional[int] = None
    #: That of the sheet.
    edition: Edition = Edition.CODE_39

    def __str__(self) -> str:
        if self.value is not None:
            return f"both read {self.edition.sign(self.value)!r}"
        return "the left front is struck" if self.kind == Kind.LEFT_STRUCK else "the right front is struck"


def steps_bytes(situations: int) -> int:
    """A steps buffer of so many bytes is always long enough, where there is room for so many situations: a way has fewer steps."""
    return STEP_RECORD * max(situations - 1, 0)


def way(records: Readable, edition: Edition = Edition.CODE_39) -> Iterator[Step]:
    """The steps of these records, of a sheet of this edition, the first one first. Bytes that are no record end them."""
    rest = bytes(records)
    while len(rest) >= 3 and rest.startswith(_MARK):
        if rest[2] in (Kind.LEFT_STRUCK, Kind.RIGHT_STRUCK):
            yield Step(Kind(rest[2]), None, edition)
            rest = rest[3:]
        elif rest[2] == Kind.CHARACTER and len(rest) >= STEP_RECORD and rest[3] < edition.characters:
            yield Step(Kind.CHARACTER, rest[3], edition)
            rest = rest[STEP_RECORD:]
        else:
            return


def step_records(steps: Iterable[Step]) -> bytes:
    """The records of these steps, one behind the other."""
    return b"".join(_MARK + bytes([step.kind] if step.value is None else [step.kind, step.value]) for step in steps)


def steps(
    sheet: Readable, work: Optional[Writable] = None, answer: Optional[Writable] = None, steps: Optional[Writable] = None
) -> Stepped:
    """Answers the sheet as :func:`clash` does, and writes the way of a clash into a third buffer.

    The way is a record for each step, the first one first. Where they don't fit, nothing is written, the texts neither: the answer is
    :class:`StepsTooShort`, after :class:`AnswerTooShort`. Only a clash changes the steps buffer, and only the bytes of the way. All else is
    as :func:`clash` says. Where a buffer is not lent, one that is long enough is made.
    """
    lent = lent_work(work)
    room = min(lent.length // SITUATION_BYTES, MOST_SITUATIONS)
    records = Lent(bytearray(answer_bytes(room)) if answer is None else answer)
    written_way = Lent(bytearray(steps_bytes(room)) if steps is None else steps)
    number, (count, place, written, length) = call("bradovusc_steps", bytes(sheet), lent, records, written_way, told=4)
    if number == StepsTooShort.number:
        return Stepped(StepsTooShort(count, shared_fields(sheet)), b"")
    found = tuple(texts(records.front(written), Edition.of(bytes(sheet)))) if number == Clash.number else ()
    return Stepped(answered(number, count, place, written, found, shared_fields(sheet)), bytes(written_way.front(length)))


def play(sheet: Readable, steps: Readable, answer: Optional[Writable] = None) -> Played:
    """Plays a way, from anywhere: makes each step as the search makes the children of a situation, and writes the texts at the end.

    ``steps`` are records, as :func:`steps` and :func:`step_records` write them. It is proved that the answer is :class:`Clash` or
    :class:`AnswerTooShort` exactly if they are a way to the finish; that the texts then solve the question; and that every way that
    :func:`steps` writes is accepted, and gives the same texts. The 48-token limit holds, but neither room nor what a search would have
    entered before counts. The counts are 0.

    The sheet's own faults come first. Then, record by record, :class:`TooManySteps`, :class:`WrongStep`, :class:`StepNotAllowed` and
    :class:`SideTooLong` are looked for in this order; then come :class:`NotFinished` and :class:`AnswerTooShort`. Only a clash changes the
    answer buffer. Where none is lent, one that is long enough is made.
    """
    records = bytes(steps)
    # a record has at least three bytes
    lent = Lent(bytearray(answer_bytes(len(records) // 3)) if answer is None else answer)
    number, (count, place, written) = call("bradovusc_play", bytes(sheet), records, lent, told=3)
    if number == Clash.number:
        return Clash(count, tuple(texts(lent.front(written), Edition.of(bytes(sheet)))), written, shared_fields(sheet))
    if number == SideTooLong.number:
        return SideTooLong(count, shared_fields(sheet))
    if number == AnswerTooShort.number:
        return AnswerTooShort(count, shared_fields(sheet))
    for kind in (WrongStep, StepNotAllowed, NotFinished, TooManySteps):
        if number == kind.number:
            return kind()
    return refused(number, place)


def text_records(found: Iterable[Text]) -> bytes:
    """The records of these texts, one behind the other, as an answer buffer has them after a clash."""
    return b"".join(b"VA" + bytes([text.field]) + len(text.values).to_bytes(2, "little") + bytes(text.values) for text in found)


def find_way(sheet: Readable, texts: Readable, steps: Optional[Writable] = None) -> Found:
    """Writes the steps that spell given texts: a front field whose text is used up is struck, the left one first; else the next character is put.

    ``texts`` are records as an answer buffer has them after a clash, and as :func:`text_records` writes them; so those that :func:`decide`
    found too. It is proved that the answer is :class:`WayFound` or :class:`StepsTooShort` exactly if they solve the question, no side passes
    48 tokens on the way and the way has at most :data:`MOST_STEPS` steps; and that :func:`play` accepts what is written and gives the texts
    back.

    The sheet's own faults come first, then :class:`WrongTexts`. Then, step by step, :class:`TooManySteps`, :class:`NoSolution` and
    :class:`SideTooLong` are looked for in this order; then comes :class:`StepsTooShort`. Only a way that is found changes the steps buffer.
    Where none is lent, one that is long enough is made.
    """
    records = bytes(texts)
    lent = Lent(bytearray(STEP_RECORD * MOST_STEPS) if steps is None else steps)
    number, (count, place, written) = call("bradovusc_way", bytes(sheet), records, lent, told=3)
    if number == WayFound.number:
        return WayFound(bytes(lent.front(written)), shared_fields(sheet))
    if number == SideTooLong.number:
        return SideTooLong(count, shared_fields(sheet))
    if number == StepsTooShort.number:
        return StepsTooShort(count, shared_fields(sheet))
    for kind in (WrongTexts, NoSolution, TooManySteps):
        if number == kind.number:
            return kind()
    return refused(number, place)
