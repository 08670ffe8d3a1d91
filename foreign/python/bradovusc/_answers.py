"""What the library answers: a class for each kind of answer, with its number and its words."""

from __future__ import annotations

import dataclasses
import enum
from dataclasses import dataclass
from typing import ClassVar, NoReturn, Tuple, Union

from ._editions import Edition


class Fault(enum.Enum):
    """What is wrong with a sheet or a rule. The value is its number.

    Its place is an offset in the sheet, in the rule from its ``RU``, or in the sheet that would be written: that of the byte itself. It is
    never above the length, but it can be the length, where no byte stands: with ``CUT_SHORT`` always, and with ``NOT_ONE_PATTERN`` if the
    code runs out where the bytes end.
    """

    #: It ends too early, or a pattern of a sheet that is to be written has fewer bytes than its length says. The place is its length: where
    #: the bytes end.
    CUT_SHORT = 11
    #: A mark that is unknown or not allowed here, or bytes behind the last side. The place is the first byte of the mark, or the first
    #: byte behind the side.
    WRONG_MARK = 12
    #: A pattern's field is above 7, or not above the field of the pattern before it. The place is the field byte.
    WRONG_FIELD = 13
    #: A pattern's length is not 1 to 192, or a side's is above 24. The place is the length byte.
    WRONG_LENGTH = 14
    #: The bytes of a pattern are not exactly one pattern. The place is, read from left to right, the first byte that is no code; the lo
    #: byte of a range if lo is no character, else the hi byte if that is no character or below lo; the first byte left over; where the
    #: code runs out, the offset behind the pattern's last byte.
    NOT_ONE_PATTERN = 15
    #: A pattern has more than 63 leaves. The place is the first byte of the 64th.
    TOO_MANY_LEAVES = 16
    #: A side holds a byte that is neither a character nor a field 0 to 7. The place is the first such byte.
    WRONG_TOKEN = 17
    #: A pattern is for a field that stands in neither side, or not in the rule. Nothing else is wrong with it. The place is the first byte
    #: of the first such pattern's mark. What is from before is mended by :func:`drop_strays`.
    STRAY_PATTERN = 22
    #: The byte behind ``ED``, or the edition of a sheet that is to be written, is none. The place is the edition byte, 2. A rule has no
    #: ``ED``, and never gets this.
    WRONG_EDITION = 44

    @property
    def number(self) -> int:
        """Its number, 11 to 17, 22 or 44."""
        return int(self.value)

    def __str__(self) -> str:
        return _FAULTS[self]


_FAULTS = {
    Fault.CUT_SHORT: "cut short",
    Fault.WRONG_MARK: "a wrong mark, or bytes behind the last side",
    Fault.WRONG_FIELD: "a wrong field number",
    Fault.WRONG_LENGTH: "a wrong length",
    Fault.NOT_ONE_PATTERN: "not one pattern",
    Fault.TOO_MANY_LEAVES: "a pattern with too many leaves",
    Fault.WRONG_TOKEN: "a wrong token",
    Fault.STRAY_PATTERN: "a stray pattern",
    Fault.WRONG_EDITION: "a wrong edition",
}


class NotAnswered(Exception):
    """Neither yes nor no: it is not decided whether the rules clash, or the sheet is at fault. ``answer`` says which."""

    def __init__(self, answer: Told) -> None:
        super().__init__(str(answer))
        self.answer = answer


class NotWritten(ValueError):
    """No sheet says these sides and patterns. ``answer`` says what is at fault, and where: the place is that in the sheet that would be written."""

    def __init__(self, answer: Told) -> None:
        super().__init__(str(answer))
        self.answer = answer


def shared_words(fields: Tuple[int, ...]) -> str:
    """That these fields are shared, behind what is told of a sheet."""
    if not fields:
        return ""
    if len(fields) == 1:
        return f", with field {fields[0]} shared: it holds the same text in both rules"
    return f", with fields {', '.join(map(str, fields))} shared: each holds the same text in both rules"


class Told:
    """An answer of any kind. It is no truth value, so that "not decided" is never taken for "no"."""

    #: Its words.
    _words: ClassVar[str]
    #: Its number, as in the tables of the rules.
    number: int

    #: The fields that stand on both sides of the sheet that was asked about: each holds one text in both rules.
    shared: Tuple[int, ...] = ()

    def __str__(self) -> str:
        return self._words + shared_words(self.shared)

    def __bool__(self) -> NoReturn:
        raise TypeError("an answer is neither true nor false: look at its class, its number, or clashes")


class _Yes(Told):
    """The rules clash."""

    @property
    def clashes(self) -> bool:
        """True."""
        return True


class _Open(Told):
    """Neither yes nor no."""

    @property
    def clashes(self) -> bool:
        """Raises :class:`NotAnswered`."""
        raise NotAnswered(self)


@dataclass(frozen=True)
class Text:
    """What a field holds on the label that a clash found. As a string it is the signs; :func:`spell` spells a text of Full ASCII."""

    field: int
    #: The characters by value, those of the edition.
    values: bytes
    #: That of the sheet.
    edition: Edition = Edition.CODE_39

    def __str__(self) -> str:
        return self.edition.signs(self.values)


@dataclass(frozen=True)
class Clash(_Yes):
    """0: a label can be made by both rules.

    ``texts`` has what each field holds on it, by rising field. With them one side may have spaces at its end that the other has not.
    Of a pair of a catalogue no texts are told, nor by :func:`plain`.
    """

    #: The situations that were entered.
    count: int
    texts: Tuple[Text, ...] = ()
    #: The bytes that were written to the answer buffer.
    written: int = 0
    shared: Tuple[int, ...] = dataclasses.field(default=(), compare=False, repr=False)
    number = 0
    _words = "clash"


@dataclass(frozen=True)
class NoClash(Told):
    """1: no label, however long, and with whatever spaces at its end, can be made by both rules."""

    #: The situations that were entered.
    count: int
    shared: Tuple[int, ...] = dataclasses.field(default=(), compare=False, repr=False)
    number = 1
    _words = "no clash"

    @property
    def clashes(self) -> bool:
        """False."""
        return False


@dataclass(frozen=True)
class Refused(_Open):
    """11 to 17, 22, 44: the sheet, or the rule, is at fault, or what a sheet is to be written of."""

    fault: Fault
    #: The offset of the byte at fault, as :class:`Fault` says.
    place: int

    @property
    def number(self) -> int:  # type: ignore[override]
        """The fault's number."""
        return self.fault.number

    def __str__(self) -> str:
        return f"{self.fault}, at offset {self.place}"


@dataclass(frozen=True)
class NoRoom(_Open):
    """18: neither yes nor no; the working buffer is full. Lend a longer one, though some questions fill any."""

    #: The situations that were entered.
    count: int
    shared: Tuple[int, ...] = dataclasses.field(default=(), compare=False, repr=False)
    number = 18
    _words = "not decided: no room for a situation"


@dataclass(frozen=True)
class SideTooLong(_Open):
    """19: neither yes nor no; a side grew above 48 tokens, the hidden field of spaces at its end counted."""

    #: The situations that were entered.
    count: int
    shared: Tuple[int, ...] = dataclasses.field(default=(), compare=False, repr=False)
    number = 19
    _words = "not decided: a side grew too long"


@dataclass(frozen=True)
class AnswerTooShort(_Yes):
    """20: the rules clash, but the answer buffer is too short for the texts."""

    #: The situations that were entered.
    count: int
    shared: Tuple[int, ...] = dataclasses.field(default=(), compare=False, repr=False)
    number = 20
    _words = "clash, but the answer buffer is too short for the texts"


#: The answer to a sheet. Each has ``clashes``: true, false, or :class:`NotAnswered` is raised.
Answer = Union[Clash, NoClash, Refused, NoRoom, SideTooLong, AnswerTooShort]


@dataclass(frozen=True)
class Decision(Told):
    """The answer to a sheet, and which attempt gave it."""

    #: Its count is that of all the searches made.
    answer: Answer
    #: The attempt that decided, 1 to 7; 0 where none did, or where the sheet is at fault.
    search: int

    @property
    def number(self) -> int:  # type: ignore[override]
        """The answer's number."""
        return self.answer.number

    @property
    def clashes(self) -> bool:
        """Whether the rules clash. Raises :class:`NotAnswered` where that is not decided, or the sheet is at fault."""
        return self.answer.clashes

    def __str__(self) -> str:
        return str(self.answer)


@dataclass(frozen=True)
class StepsTooShort(_Yes):
    """51: the rules clash, and the texts would fit, but the steps buffer is too short for the way. Neither is written.

    Of :func:`find_way`: the texts solve the question, but the steps buffer is too short for their way.
    """

    #: The situations that were entered.
    count: int
    shared: Tuple[int, ...] = dataclasses.field(default=(), compare=False, repr=False)
    number = 51
    _words = "clash, but the steps buffer is too short for the way"


@dataclass(frozen=True)
class Stepped(Told):
    """The answer to a sheet, and the way of a clash. As a string it is the answer's words."""

    #: As :func:`clash` gives it, or :class:`StepsTooShort`.
    answer: Union[Answer, StepsTooShort]
    #: The records of the way, of which :func:`way` gives the steps; none where the answer is not :class:`Clash`.
    records: bytes

    @property
    def number(self) -> int:  # type: ignore[override]
        """The answer's number."""
        return self.answer.number

    @property
    def clashes(self) -> bool:
        """Whether the rules clash. Raises :class:`NotAnswered` where that is not decided, or the sheet is at fault."""
        return self.answer.clashes

    def __str__(self) -> str:
        return str(self.answer)


@dataclass(frozen=True)
class WrongStep(_Open):
    """47: a record of a way is cut short, has another mark, a kind above 2 or a value that is no character."""

    number = 47
    _words = "a wrong record of a step"


@dataclass(frozen=True)
class StepNotAllowed(_Open):
    """48: a step is not allowed where it stands, or stands behind the finish."""

    number = 48
    _words = "a step that is not allowed"


@dataclass(frozen=True)
class NotFinished(_Open):
    """49: the records of a way end before the finish, or there are none."""

    number = 49
    _words = "the steps end before the finish"


@dataclass(frozen=True)
class TooManySteps(_Open):
    """50: there are more records than a way may have."""

    number = 50
    _words = "too many steps"


#: What the player answers. Each has ``clashes``: true, or :class:`NotAnswered` is raised, since steps that are no way say nothing. The counts
#: are 0.
Played = Union[Clash, Refused, SideTooLong, AnswerTooShort, WrongStep, StepNotAllowed, NotFinished, TooManySteps]


@dataclass(frozen=True)
class WayFound(_Yes):
    """0: the texts solve the question, and this is their way."""

    #: The records of the way, of which :func:`way` gives the steps.
    records: bytes
    shared: Tuple[int, ...] = dataclasses.field(default=(), compare=False, repr=False)
    number = 0
    _words = "clash"


@dataclass(frozen=True)
class WrongTexts(_Open):
    """47: the texts are no records, one for each field that stands, by rising number, or a value is no character."""

    number = 47
    _words = "no records of the texts"


@dataclass(frozen=True)
class NoSolution(_Open):
    """48: the texts don't make both sides the same label, or one is none that its field may hold."""

    number = 48
    _words = "the texts solve nothing"


#: What :func:`find_way` answers. Each has ``clashes``: true, or :class:`NotAnswered` is raised, since texts without a way say nothing. The
#: counts are 0.
Found = Union[WayFound, Refused, SideTooLong, WrongTexts, NoSolution, TooManySteps, StepsTooShort]


@dataclass(frozen=True)
class NotPlain(_Open):
    """42: a field stands more than once in the two sides together. Ask by :func:`clash` or :func:`decide`."""

    number = 42
    _words = "a field stands more than once"


@dataclass(frozen=True)
class BitsTooShort(_Open):
    """43: the bit buffer is too short. :func:`plain_bytes` says how many bytes will do."""

    number = 43
    _words = "the bit buffer is too short"


@dataclass(frozen=True)
class Needed(Told):
    """0: the shortest bit buffer that will do has so many bytes."""

    bytes: int
    number = 0
    _words = "done"


#: What the small engine for plain rules answers. Each has ``clashes``: true, false, or :class:`NotAnswered` is raised. The counts are 0.
PlainAnswer = Union[Clash, NoClash, Refused, NotPlain, BitsTooShort]
#: How long a bit buffer a sheet needs for it.
PlainBytes = Union[Needed, Refused, NotPlain]


@dataclass(frozen=True)
class Written(Told):
    """0: the sheet, the script, the new sheet or the new rule is written, or the text is spelt or read back. It stands in the front of the
    output buffer, too."""

    data: bytes
    number = 0
    _words = "done"


@dataclass(frozen=True)
class ScriptTooShort(Told):
    """40: the output buffer is too short for the script. Not a byte of it is written."""

    number = 40
    _words = "the output buffer is too short for the script"


@dataclass(frozen=True)
class OutputTooShort(Told):
    """41: the output buffer is too short for the sheet, or for the new sheet or rule. Not a byte of it is written."""

    number = 41
    _words = "the output buffer is too short for the sheet or the rule"


@dataclass(frozen=True)
class NotInTable(Told):
    """45: a byte that is to be spelt is above 127, or a spelt text is none that the table of Full ASCII gives."""

    number = 45
    _words = "not in the table of Full ASCII"


@dataclass(frozen=True)
class SpeltTooShort(Told):
    """46: the output buffer is too short for the spelling, or for the text that is read back. Not a byte of it is written."""

    number = 46
    _words = "the output buffer is too short for the text"


@dataclass(frozen=True)
class ForeignField(Told):
    """31: the rule names a field above 3. No place is told."""

    number = 31
    _words = "a field above 3"


@dataclass(frozen=True)
class Full(Told):
    """32: 32 rules are there, or the rule's bytes don't fit behind them; of carrying over, the new rules are longer than the buffer."""

    number = 32
    _words = "no room in the catalogue"


@dataclass(frozen=True)
class NoRule(Told):
    """33: no rule has that number."""

    number = 33
    _words = "no rule has that number"


@dataclass(frozen=True)
class NoCatalogue(Told):
    """34: the buffer is no catalogue. Nor is one from before in which a rule has a stray pattern: :func:`drop_strays_catalogue` mends it."""

    number = 34
    _words = "the buffer is no catalogue"


@dataclass(frozen=True)
class ListTooShort(Told):
    """35: the list buffer is too short for all the pairs. None is listed."""

    number = 35
    _words = "the list buffer is too short for the pairs"


@dataclass(frozen=True)
class Done(Told):
    """0: the rule is added or withdrawn, or every rule of the catalogue is carried over, or has no stray pattern."""

    number = 0
    _words = "done"


@dataclass(frozen=True)
class NotApart(Told):
    """30: the new rule clashes with one that is there, or that is not decided."""

    #: The number of the first such rule.
    rule: int
    #: The answer of the two: :class:`Clash`, of which no texts are told, :class:`NoRoom` or :class:`SideTooLong`.
    pair: Answer
    number = 30

    def __str__(self) -> str:
        return f"not apart from a rule of the catalogue: rule {self.rule}, {self.pair}"


@dataclass(frozen=True)
class Pair:
    """Two rules of a catalogue that can make the same label, or of which that is not decided."""

    #: The lower number of the two; this rule was the left side.
    lower: int
    higher: int
    #: :class:`Clash`, of which no texts are told, :class:`NoRoom` or :class:`SideTooLong`.
    answer: Answer

    def __str__(self) -> str:
        return f"rule {self.lower} and rule {self.higher}: {self.answer}"


@dataclass(frozen=True)
class Listed(Told):
    """0: these pairs are not answered 1, by the lower number, then the higher one.

    Where there are none, no two rules of the catalogue make the same label.
    """

    pairs: Tuple[Pair, ...]
    number = 0
    _words = "done"


@dataclass(frozen=True)
class AddedDecided(Told):
    """The answer to a rule that is to be added, and which attempt gave it. As a string it is the answer's words."""

    #: As :func:`add` gives it; the count of a pair is that of all the searches made for it.
    added: Added
    #: After :class:`NotApart` the attempt that found the clash, 1 or 4 to 7 (2 and 3 find none), or 0 where none decided; otherwise 0.
    search: int

    @property
    def number(self) -> int:  # type: ignore[override]
        """The answer's number."""
        return self.added.number

    def __str__(self) -> str:
        return str(self.added)


@dataclass(frozen=True)
class DecidedPair:
    """Two rules of a catalogue that can make the same label, or of which no attempt decides that."""

    #: The lower number of the two; this rule was the left side.
    lower: int
    higher: int
    #: :class:`Clash`, of which no texts are told, or what the first attempt gave, :class:`NoRoom` or :class:`SideTooLong`. Its count is
    #: that of all the searches made.
    answer: Answer
    #: The attempt that found the clash, 1 or 4 to 7 (2 and 3 find none), or 0 where none decided.
    search: int

    def __str__(self) -> str:
        return f"rule {self.lower} and rule {self.higher}: {self.answer}"


@dataclass(frozen=True)
class ListedDecided(Told):
    """0: these pairs are not answered 1, by the lower number, then the higher one.

    Where there are none, no two rules of the catalogue make the same label.
    """

    pairs: Tuple[DecidedPair, ...]
    number = 0
    _words = "done"


#: The answer to sides and patterns of which a sheet is to be written.
SheetWritten = Union[Written, Refused, OutputTooShort]
#: The answer to a sheet that is to be written out.
Scripted = Union[Written, Refused, ScriptTooShort]
#: The answer to a rule that is to be added.
Added = Union[Done, Refused, NotApart, ForeignField, Full, NoCatalogue]
#: The answer to a rule's number that is to be withdrawn.
Withdrawn = Union[Done, NoRule, NoCatalogue]
#: What checking a catalogue again answers.
Rechecked = Union[Listed, NoCatalogue, ListTooShort]
#: The same where pairs are decided.
RecheckedDecided = Union[ListedDecided, NoCatalogue, ListTooShort]
#: The answer to a sheet or a rule that is to be carried over.
SpeltOpen = Union[Written, Refused, ForeignField, OutputTooShort]
#: The answer to a text that is to be spelt, or a spelt text that is to be read back.
Spelt = Union[Written, NotInTable, SpeltTooShort]
#: The answer to a catalogue that is to be carried over.
CarriedOver = Union[Done, Full, NoCatalogue]
#: The answer to a sheet or a rule whose strays are to be dropped.
Mended = Union[Written, Refused, ForeignField, OutputTooShort]
#: The answer to a catalogue whose strays are to be dropped.
MendedCatalogue = Union[Done, NoCatalogue]


def refused(number: int, place: int) -> Refused:
    """The refusal with this number."""
    return Refused(Fault(number), place)


def answer(number: int, count: int, place: int, written: int = 0, texts: Tuple[Text, ...] = (), shared: Tuple[int, ...] = ()) -> Answer:
    """The answer with these numbers, to a sheet with these shared fields."""
    if number == Clash.number:
        return Clash(count, texts, written, shared)
    if number == NoClash.number:
        return NoClash(count, shared)
    if number == NoRoom.number:
        return NoRoom(count, shared)
    if number == SideTooLong.number:
        return SideTooLong(count, shared)
    if number == AnswerTooShort.number:
        return AnswerTooShort(count, shared)
    return refused(number, place)
