"""Bradovusc: can two part-label rules make the same label?

A rule is fixed Code 39 characters with fields between them; a field may have a pattern. Two rules clash when one label can be read by
both. Spaces at the end of a label are dropped before it is read. Rules are written in the notation of the tool:

    >>> import bradovusc
    >>> print(bradovusc.pair("LT{size}{finish}", "LT{set}C{turn}", left={"size": "[0-9]{2}", "finish": "BR|CH|SS"}))
    left and right clash: "LT00CH"
      left (pair:1): size = "00", finish = "CH"
      right (pair:4): set = "00", turn = "H"

:func:`pair` asks of two rules, :func:`check` of all rules of a text. A field belongs to its rule, whatever those of another rule are called.
The answer to a pair has the label and the texts by name.

Below that are the sheets, bytes with numbered fields, for who wants to go without the notation. There a number that stands on both sides is
one field, shared by both rules:

    >>> from bradovusc import Clash, NoClash, between, choice, decide, sheet, word
    >>> asked = sheet("LT{0}{0}{1}", "LT{2}", {0: between("0", "9"), 1: choice(word("BR"), word("CH"))})
    >>> answer = decide(asked).answer
    >>> if isinstance(answer, Clash):
    ...     print("they clash:", *(f"{text.field}={text}" for text in answer.texts))
    ... elif isinstance(answer, NoClash):
    ...     print("no label can be made by both")
    ... else:
    ...     print("no answer:", answer)
    they clash: 0=0 1=BR 2=00BR

An answer is an object of one of a few classes, with its ``number`` as in the tables of the rules and, as a string, its words. It is no
truth value. ``clashes`` is true or false, and raises :class:`NotAnswered` where it is not decided: that is never to be read as "no".

A sheet may be one of Full ASCII, with 128 characters. Its edition is said where it is written, and :func:`spell` spells a text of it:

    >>> from bradovusc import Edition, full_ascii, signs, spell
    >>> asked = sheet("Box {0}", "Box {1}!", {0: full_ascii.many(full_ascii.between(" ", "~"))}, Edition.FULL_ASCII)
    >>> first = decide(asked).answer.texts[0]
    >>> print(repr(str(first)), signs(spell(first.values).data))
    ' !'  /A

The functions are those of the C header, called in the shared library ``libbradovusc.so``, which is for x86-64 Linux. They keep nothing from
one call to the next and touch nothing but the buffers that they are lent. The interpreter's lock is not held while they work, so that
threads can ask at the same time; none may touch a buffer that another one has lent. The functions are proved to do what the rules say.
This package is not: it is tested.

The library is looked for in the file that the environment variable ``BRADOVUSC_LIBRARY`` names; else in this package's folder, in the
nearest folder above it that is called ``lib``, and where the dynamic linker looks.
"""

from ._answers import (
    Added,
    AddedDecided,
    Answer,
    AnswerTooShort,
    BitsTooShort,
    CarriedOver,
    Clash,
    DecidedPair,
    Decision,
    Done,
    Fault,
    ForeignField,
    Found,
    Full,
    Listed,
    ListedDecided,
    ListTooShort,
    Mended,
    MendedCatalogue,
    Needed,
    NoCatalogue,
    NoClash,
    NoRoom,
    NoRule,
    NoSolution,
    NotAnswered,
    NotApart,
    NotFinished,
    NotInTable,
    NotPlain,
    NotWritten,
    OutputTooShort,
    Pair,
    PlainAnswer,
    PlainBytes,
    Played,
    Rechecked,
    RecheckedDecided,
    Refused,
    Scripted,
    ScriptTooShort,
    SheetWritten,
    SideTooLong,
    Spelt,
    SpeltOpen,
    SpeltTooShort,
    StepNotAllowed,
    Stepped,
    StepsTooShort,
    Text,
    Told,
    TooManySteps,
    WayFound,
    Withdrawn,
    Written,
    WrongStep,
    WrongTexts,
)
from ._asking import asking_library, request
from ._build import ANY, Patterns, between, choice, full_ascii, many, row, rule, word
from ._catalogue import (
    DECIDED_PAIR_BYTES,
    MOST_RULES,
    PAIR_BYTES,
    RULE_FIELDS,
    add,
    add_decided,
    catalogue_bytes,
    decided_list_bytes,
    drop_strays_catalogue,
    list_bytes,
    recheck,
    recheck_decided,
    spell_open_catalogue,
    withdraw,
)
from ._editions import MOST_CHARACTERS, Edition
from ._fronts import fronts_differ
from ._library import VERSION, LibraryMissing, library, version
from ._plain import PLAIN_BYTES, plain, plain_bytes
from ._rules import Band, Checked, Mistake, RulesAnswer, RulesClash, RulesNoClash, RulesNotDecided, WrongRules, check, pair
from ._sheets import (
    DEFAULT_SITUATIONS,
    FIELDS,
    MOST_SITUATIONS,
    RECORD_HEAD,
    RULE_BYTES,
    SCRIPT_BYTES,
    SHEET_BYTES,
    SITUATION_BYTES,
    answer_bytes,
    clash,
    decide,
    drop_strays,
    drop_strays_rule,
    script,
    shared_fields,
    spell_open,
    spell_open_rule,
    texts,
    work_bytes,
)
from ._signs import CHARACTERS, SIGNS, SPACE, sign, signs, value, values
from ._spelling import read_spelt, spell, spelt_bytes
from ._steps import MOST_STEPS, STEP_RECORD, Kind, Step, find_way, play, step_records, steps, steps_bytes, text_records, way
from ._written import Sheet, sheet, write

__version__ = VERSION

__all__ = [
    "ANY",
    "Added",
    "AddedDecided",
    "Answer",
    "AnswerTooShort",
    "Band",
    "BitsTooShort",
    "CHARACTERS",
    "CarriedOver",
    "Checked",
    "Clash",
    "DECIDED_PAIR_BYTES",
    "DEFAULT_SITUATIONS",
    "DecidedPair",
    "Decision",
    "Done",
    "Edition",
    "FIELDS",
    "Fault",
    "ForeignField",
    "Found",
    "Full",
    "Kind",
    "LibraryMissing",
    "ListTooShort",
    "Listed",
    "ListedDecided",
    "MOST_CHARACTERS",
    "MOST_RULES",
    "MOST_SITUATIONS",
    "MOST_STEPS",
    "Mended",
    "MendedCatalogue",
    "Mistake",
    "Needed",
    "NoCatalogue",
    "NoClash",
    "NoRoom",
    "NoRule",
    "NoSolution",
    "NotAnswered",
    "NotApart",
    "NotFinished",
    "NotInTable",
    "NotPlain",
    "NotWritten",
    "OutputTooShort",
    "PAIR_BYTES",
    "PLAIN_BYTES",
    "Pair",
    "Patterns",
    "PlainAnswer",
    "PlainBytes",
    "Played",
    "RECORD_HEAD",
    "RULE_BYTES",
    "RULE_FIELDS",
    "Rechecked",
    "RecheckedDecided",
    "Refused",
    "RulesAnswer",
    "RulesClash",
    "RulesNoClash",
    "RulesNotDecided",
    "SCRIPT_BYTES",
    "SHEET_BYTES",
    "SIGNS",
    "SITUATION_BYTES",
    "SPACE",
    "STEP_RECORD",
    "ScriptTooShort",
    "Scripted",
    "Sheet",
    "SheetWritten",
    "SideTooLong",
    "Spelt",
    "SpeltOpen",
    "SpeltTooShort",
    "Step",
    "StepNotAllowed",
    "Stepped",
    "StepsTooShort",
    "Text",
    "Told",
    "TooManySteps",
    "VERSION",
    "WayFound",
    "Withdrawn",
    "Written",
    "WrongRules",
    "WrongStep",
    "WrongTexts",
    "add",
    "add_decided",
    "answer_bytes",
    "asking_library",
    "between",
    "catalogue_bytes",
    "check",
    "choice",
    "clash",
    "decide",
    "decided_list_bytes",
    "drop_strays",
    "drop_strays_catalogue",
    "drop_strays_rule",
    "find_way",
    "fronts_differ",
    "full_ascii",
    "library",
    "list_bytes",
    "many",
    "pair",
    "plain",
    "plain_bytes",
    "play",
    "read_spelt",
    "recheck",
    "recheck_decided",
    "request",
    "row",
    "rule",
    "script",
    "shared_fields",
    "sheet",
    "sign",
    "signs",
    "spell",
    "spell_open",
    "spell_open_catalogue",
    "spell_open_rule",
    "spelt_bytes",
    "step_records",
    "steps",
    "steps_bytes",
    "text_records",
    "texts",
    "value",
    "values",
    "version",
    "way",
    "withdraw",
    "word",
    "work_bytes",
    "write",
]
