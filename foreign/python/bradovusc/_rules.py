"""Rules as text: two of them in parts, or all of a text, in the notation of the tool."""

from __future__ import annotations

import dataclasses
from dataclasses import dataclass
from typing import Any, Dict, List, Mapping, Optional, Tuple, Union

from ._answers import NotAnswered, Told, _Open, _Yes
from ._asking import request
from ._editions import Edition


@dataclass(frozen=True)
class Mistake:
    """What is wrong with rules, and where. Lines and columns count from 1. As a string it is what the tool shows, with a caret."""

    words: str
    file: str
    line: int
    column: int
    width: int
    #: What to write instead, where that can be guessed.
    hint: Optional[str]
    _shown: str = dataclasses.field(repr=False)

    def __str__(self) -> str:
        return self._shown


class WrongRules(ValueError):
    """Rules that are none. ``mistakes`` has each with its place; there is none where something else is at fault, which the words say."""

    def __init__(self, words: str, mistakes: Tuple[Mistake, ...] = ()) -> None:
        super().__init__(words)
        self.mistakes = mistakes


@dataclass(frozen=True)
class Band:
    """A part of a label, from ``start`` up to ``end``, and what reads it: a field, by its name, or fixed characters."""

    start: int
    end: int
    field: Optional[str]
    fixed: Optional[str]


class _OfTwo(Told):
    """What is said of two rules. As a string it is what the tool prints."""

    _shown: str

    def __str__(self) -> str:
        return self._shown


@dataclass(frozen=True)
class RulesClash(_OfTwo, _Yes):
    """0: both rules can make ``label``, with these texts in their fields."""

    #: The names of the two rules.
    left: str
    right: str
    #: The label, without spaces at its end.
    label: str
    #: What the fields of the two rules hold on it, by name. One rule may then have spaces at its end that the other has not.
    left_texts: Mapping[str, str]
    right_texts: Mapping[str, str]
    #: Which part of the label is read by which part of the rule. The spaces at the end, which are dropped, are in the bands.
    left_bands: Tuple[Band, ...]
    right_bands: Tuple[Band, ...]
    #: The label as it is spelt in Code 39, of rules of Full ASCII.
    spelt: Optional[str]
    number: int
    #: The attempt that decided, 1 to 7.
    search: int
    #: The situations that were entered, and for how many there was room.
    situations: int
    room: int
    _shown: str = dataclasses.field(repr=False)


@dataclass(frozen=True)
class RulesNoClash(_OfTwo):
    """1: no label, however long, and with whatever spaces at its end, can be made by both rules."""

    left: str
    right: str
    number: int
    #: The attempt that decided, 1 to 7; 0 where the fixed fronts or ends differ, and none was made.
    search: int
    situations: int
    room: int
    _shown: str = dataclasses.field(repr=False)

    @property
    def clashes(self) -> bool:
        """False."""
        return False


@dataclass(frozen=True)
class RulesNotDecided(_OfTwo, _Open):
    """18 or 19: neither yes nor no. The rules may well clash. As a string it says what may help."""

    left: str
    right: str
    number: int
    #: Which limit was met: ``"room"`` or ``"side"``.
    limit: Optional[str]
    situations: int
    room: int
    _shown: str = dataclasses.field(repr=False)


#: What is said of two rules. Each has ``clashes``: true, false, or :class:`NotAnswered` is raised.
RulesAnswer = Union[RulesClash, RulesNoClash, RulesNotDecided]


@dataclass(frozen=True)
class Checked(Told):
    """What is said of all pairs of some rules. As a string it is what the tool prints."""

    #: How many rules and pairs there are.
    rules: int
    all_pairs: int
    #: The pairs that clash, and those that are not decided, in their order.
    pairs: Tuple[Union[RulesClash, RulesNotDecided], ...]
    #: The tool's exit status: 0 no clash, 1 a clash, 2 something not decided and no clash known.
    number: int
    _shown: str = dataclasses.field(repr=False)

    @property
    def clashes(self) -> bool:
        """Whether any two of the rules clash. Raises :class:`NotAnswered` where none is known to, and something is not decided."""
        if self.number == 2:
            raise NotAnswered(self)
        return self.number == 1

    def __str__(self) -> str:
        return self._shown


def _bands(told: List[Dict[str, Any]]) -> Tuple[Band, ...]:
    return tuple(Band(band["from"], band["to"], band.get("field"), band.get("fixed")) for band in told)


def _answer(told: Dict[str, Any]) -> RulesAnswer:
    """The answer that an object tells."""
    names, spent, shown = (told["left"], told["right"]), (told["situations"], told["room"]), told["words"].rstrip("\n")
    if told["answer"] == "clash":
        texts = told["left_fields"], told["right_fields"]
        bands = _bands(told["left_bands"]), _bands(told["right_bands"])
        return RulesClash(*names, told["label"], *texts, *bands, told.get("spelt"), told["number"], told["search"], *spent, shown)
    if told["answer"] == "no clash":
        return RulesNoClash(*names, told["number"], told["search"], *spent, shown)
    return RulesNotDecided(*names, told["number"], told.get("limit"), *spent, shown)


def _asked(rules: Dict[str, Any], room: Optional[int], **more: Any) -> Tuple[int, List[Dict[str, Any]]]:
    """The objects of an answer. Raises :class:`WrongRules` where there is none."""
    asked = {**rules, **more, "words": True, "bands": True}
    if room is not None:
        asked["room"] = room
    status, objects = request(asked)
    mistakes = tuple(
        Mistake(one["mistake"], one["file"], one["line"], one["column"], one["width"], one.get("hint"), one["words"].rstrip("\n"))
        for one in objects
        if "mistake" in one
    )
    if mistakes:
        raise WrongRules("\n".join(map(str, mistakes)), mistakes)
    for one in objects:
        if "error" in one:
            raise WrongRules(one["error"])
    return status, objects


def pair(
    first: str,
    second: str,
    /,
    *,
    left: Optional[Mapping[str, str]] = None,
    right: Optional[Mapping[str, str]] = None,
    names: Tuple[str, str] = ("left", "right"),
    edition: Edition = Edition.CODE_39,
    room: Optional[int] = None,
) -> RulesAnswer:
    """Can two rules make the same label? They are templates in the tool's notation; ``left`` and ``right`` have the patterns of their fields.

    A field belongs to its rule: ``{n}`` on the left and ``{n}`` on the right are two fields. One without a pattern holds one character or
    more. ``names`` are those by which the rules are told. ``room`` is for so many situations, 1 to 65,535; where none is said, it grows
    while nothing is decided. Raises :class:`WrongRules`, with the place of each mistake.

    >>> answer = pair("LT{size}{finish}", "LT{set}C{turn}", left={"size": "[0-9]{2}", "finish": "BR|CH|SS"}, right={"set": "[0-9]+"})
    >>> answer.label, answer.left_texts, answer.right_texts
    ('LT00CH', {'size': '00', 'finish': 'CH'}, {'set': '00', 'turn': 'H'})
    >>> pair("A{x}", "B{x}").clashes
    False
    """
    texts = [(first, left), (second, right)]
    parts = [{"name": name, "template": template, "fields": dict(fields or {})} for name, (template, fields) in zip(names, texts)]
    said = {Edition.CODE_39: "code 39", Edition.FULL_ASCII: "full ascii"}[edition]
    _, objects = _asked({"left": parts[0], "right": parts[1], "edition": said}, room)
    return _answer(objects[0])


def check(rules: Union[str, Mapping[str, str]], *, room: Optional[int] = None) -> Checked:
    """Which of some rules can make the same label? They are a text in the tool's notation, or several by their files' names.

    ``room`` is as for :func:`pair`. Raises :class:`WrongRules`, with the place of each mistake.

    >>> said = check("mortice = LT{size}\\n  size = [0-9]{2}\\nlatch = LT{rest}\\nkeypad = KP{n}-{n}\\n")
    >>> [(pair.left, pair.right, pair.label) for pair in said.pairs]
    [('mortice', 'latch', 'LT00')]
    >>> print(said)
    mortice and latch clash: "LT00"
      mortice (rules:1): size = "00"
      latch (rules:3): rest = "00"
    3 rules, 3 pairs: 1 clash, 0 not decided, 2 without a clash
    """
    given = {"rules": rules} if isinstance(rules, str) else {"files": [{"name": name, "text": text} for name, text in rules.items()]}
    status, objects = _asked(given, room, summary=True, no_clash=False)
    *pairs, summary = objects
    told = tuple(_answer(one) for one in pairs)
    return Checked(summary["rules"], summary["pairs"], told, status, summary["words"].rstrip("\n"))  # type: ignore[arg-type]
