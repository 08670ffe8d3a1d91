"""A catalogue of rules in a lent buffer."""

from __future__ import annotations

from typing import Optional

from ._answers import (
    Added,
    AddedDecided,
    CarriedOver,
    DecidedPair,
    Done,
    ForeignField,
    Full,
    Listed,
    ListedDecided,
    ListTooShort,
    MendedCatalogue,
    NoCatalogue,
    NoRule,
    NotApart,
    Pair,
    Rechecked,
    RecheckedDecided,
    Withdrawn,
    answer,
    refused,
)
from ._library import Lent, Readable, Writable, call
from ._sheets import RULE_BYTES, lent_work

#: A catalogue has at most so many rules.
MOST_RULES = 32
#: A rule has fields of its own, 0 to 3.
RULE_FIELDS = 4
#: A listed pair takes so many bytes of the list buffer.
PAIR_BYTES = 5
#: A pair that was decided takes so many.
DECIDED_PAIR_BYTES = 7
# numbers of rules are C's size_t
_NUMBERS = 2**64


def catalogue_bytes(rules: int = MOST_RULES) -> int:
    """A buffer of so many bytes is always long enough for so many rules."""
    return RULE_BYTES * rules


def list_bytes(rules: int = MOST_RULES) -> int:
    """A list buffer of so many bytes is always long enough for the pairs of so many rules."""
    return PAIR_BYTES * (rules * max(rules - 1, 0) // 2)


def decided_list_bytes(rules: int = MOST_RULES) -> int:
    """A list buffer of so many bytes is always long enough for the decided pairs of so many rules."""
    return DECIDED_PAIR_BYTES * (rules * max(rules - 1, 0) // 2)


def _added(number: int, count: int, place: int, other: int, pair: int) -> Added:
    """The answer to an addition, from what was told."""
    if number == Done.number:
        return Done()
    if number == NotApart.number:
        return NotApart(other, answer(pair, count, 0))
    if number == ForeignField.number:
        return ForeignField()
    if number == Full.number:
        return Full()
    if number == NoCatalogue.number:
        return NoCatalogue()
    return refused(number, place)


def add(catalogue: Writable, rule: Readable, work: Optional[Writable] = None) -> Added:
    """Adds a rule behind the last one, if it clashes with none that is there.

    The rules that are there are tried by rising number, each pair in the whole working buffer, by one search; where one is not decided,
    the rule is not added. Only :class:`Done` changes the catalogue, and only the bytes where the rule then stands.

    A catalogue is rules one behind the other from the first byte on, and zeros behind them. One that began as zeros,
    ``bytearray(catalogue_bytes())``, and was changed by :func:`add`, :func:`add_decided`, :func:`withdraw` and
    :func:`drop_strays_catalogue` alone has no two rules that make the same label. Of one that was filled otherwise :func:`recheck` says
    which rules do. One in which a rule has a stray pattern, as versions up to 0.8 took it, is :class:`NoCatalogue`:
    :func:`drop_strays_catalogue` mends it, before all else.
    """
    number, told = call("bradovusc_add", Lent(catalogue), bytes(rule), lent_work(work), told=4)
    return _added(number, *told)


def add_decided(catalogue: Writable, rule: Readable, work: Optional[Writable] = None) -> AddedDecided:
    """Adds a rule behind the last one, if it clashes with none that is there. As :func:`add`, but each pair is asked as :func:`decide`
    asks: by up to seven attempts in the same working buffer, until one decides.

    So each rule that ``add`` enters is entered, with the same bytes, and some that it leaves open. A pair that no attempt decides is told
    as the first one gave it, :class:`NoRoom` or :class:`SideTooLong`. All else is as for ``add``.
    """
    number, told = call("bradovusc_add_decided", Lent(catalogue), bytes(rule), lent_work(work), told=5)
    return AddedDecided(_added(number, *told[:4]), told[4])


def withdraw(catalogue: Writable, number: int) -> Withdrawn:
    """Withdraws the rule with this number: those behind it move up, and the bytes freed at the end are zero.

    Only :class:`Done` changes the catalogue.
    """
    if not 0 <= number < _NUMBERS:
        raise ValueError(f"{number} is no number of a rule: they begin with 0")
    answered, _ = call("bradovusc_withdraw", Lent(catalogue), number)
    if answered == Done.number:
        return Done()
    return NoRule() if answered == NoRule.number else _no_catalogue(answered)


def recheck(catalogue: Readable, work: Optional[Writable] = None, list: Optional[Writable] = None) -> Rechecked:
    """Checks every pair of the catalogue's rules again, each in the whole working buffer, by one search.

    The pairs that are not answered 1 are listed: those that clash, and those that are not decided. Where none is, no two rules make the
    same label, wherever the catalogue is from. The catalogue is only read. Where no list buffer is lent, one that is long enough is made.
    """
    lent = Lent(bytearray(list_bytes()) if list is None else list)
    number, (pairs, written) = call("bradovusc_recheck", bytes(catalogue), lent_work(work), lent, told=2)
    if number == Listed.number:
        listed = lent.front(written)
        return Listed(tuple(_pair(listed[PAIR_BYTES * index : PAIR_BYTES * (index + 1)]) for index in range(pairs)))
    return ListTooShort() if number == ListTooShort.number else _no_catalogue(number)


def _pair(record: bytes) -> Pair:
    """A pair from its bytes in the list."""
    lower, higher, number = record[:3]
    return Pair(lower, higher, answer(number, int.from_bytes(record[3:], "little"), 0))


def recheck_decided(catalogue: Readable, work: Optional[Writable] = None, list: Optional[Writable] = None) -> RecheckedDecided:
    """Checks every pair of the catalogue's rules again. As :func:`recheck`, but each pair is asked as :func:`decide` asks.

    So no pair is listed that ``recheck`` doesn't list, and fewer that are not decided. A pair takes :data:`DECIDED_PAIR_BYTES` of the list
    buffer; :func:`decided_list_bytes` are always enough.
    """
    lent = Lent(bytearray(decided_list_bytes()) if list is None else list)
    number, (pairs, written) = call("bradovusc_recheck_decided", bytes(catalogue), lent_work(work), lent, told=2)
    if number == ListedDecided.number:
        listed, width = lent.front(written), DECIDED_PAIR_BYTES
        return ListedDecided(tuple(_decided_pair(listed[width * index : width * (index + 1)]) for index in range(pairs)))
    return ListTooShort() if number == ListTooShort.number else _no_catalogue(number)


def _decided_pair(record: bytes) -> DecidedPair:
    """A decided pair from its bytes in the list."""
    lower, higher, number = record[:3]
    return DecidedPair(lower, higher, answer(number, int.from_bytes(record[3:6], "little"), 0), record[6])


def spell_open_catalogue(catalogue: Writable) -> CarriedOver:
    """Carries every rule of a catalogue from before version 0.6 over, in its own buffer.

    Each rule keeps its number, and it is proved that it makes exactly the labels that it made before. Carry a catalogue over once, before
    any rule is added to it. A rule grows by eight bytes for each field that stands in it without a pattern; after :class:`Full` put the
    catalogue into a longer buffer, with zeros behind it: ``catalogue_bytes()`` are always enough. Only :class:`Done` changes it.

    A catalogue from before 0.4, and one to which a rule was added by 0.6 first, should be checked again after it. One with stray patterns
    is refused: :func:`drop_strays_catalogue` comes first.
    """
    number, _ = call("bradovusc_spell_open_catalogue", Lent(catalogue))
    if number == Done.number:
        return Done()
    return Full() if number == Full.number else _no_catalogue(number)


def drop_strays_catalogue(catalogue: Writable) -> MendedCatalogue:
    """Drops the stray patterns of every rule of a catalogue, in its own buffer.

    Each rule keeps its number, and it is proved that it makes exactly the labels that it made before, and that each pair keeps its answer
    and its count. The bytes freed at the end are zero. Every other call refuses a catalogue with strays, as :class:`NoCatalogue`; so one
    from before 0.6 loses them first, and is then carried over. Only :class:`Done` changes it.
    """
    number, _ = call("bradovusc_drop_strays_catalogue", Lent(catalogue))
    return Done() if number == Done.number else _no_catalogue(number)


def _no_catalogue(number: int) -> NoCatalogue:
    if number != NoCatalogue.number:
        raise RuntimeError(f"the library promises its numbers, and {number} is none of them")
    return NoCatalogue()
