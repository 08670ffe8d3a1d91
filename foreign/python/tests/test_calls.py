"""The calls: their buffers, what is refused, what each answer is."""

import array
import contextlib
import doctest
import io
import re
import textwrap
import threading
import unittest

import bradovusc
from bradovusc import (
    ANY,
    AddedDecided,
    AnswerTooShort,
    Clash,
    DecidedPair,
    Decision,
    Done,
    Fault,
    ForeignField,
    Full,
    Listed,
    ListedDecided,
    ListTooShort,
    NoCatalogue,
    NoClash,
    NoRoom,
    NoRule,
    NotAnswered,
    NotApart,
    OutputTooShort,
    Pair,
    Refused,
    ScriptTooShort,
    Text,
    Written,
    rule,
    sheet,
    work_bytes,
)
from rules_page import TOP

DIGITS = bradovusc.many(bradovusc.between("0", "9"))
FOUR = sheet("{0}", "{1}", {0: DIGITS, 1: bradovusc.word("4")})


class Library(unittest.TestCase):
    def test_its_version(self):
        self.assertEqual(bradovusc.version(), bradovusc.VERSION)


class Sheets(unittest.TestCase):
    def test_a_clash(self):
        answer = bradovusc.clash(FOUR)
        self.assertEqual(answer, Clash(13, (Text(0, b"\4"), Text(1, b"\4")), 12))
        self.assertEqual([str(text) for text in answer.texts], ["4", "4"])
        self.assertIs(answer.clashes, True)
        self.assertEqual(str(answer), "clash")

    def test_no_clash(self):
        answer = bradovusc.clash(sheet("A", "B"))
        self.assertEqual((answer, answer.number), (NoClash(1), 1))
        self.assertIs(answer.clashes, False)

    def test_refused(self):
        answer = bradovusc.clash(FOUR + b"X")
        self.assertEqual(answer, Refused(Fault.WRONG_MARK, len(FOUR)))
        self.assertEqual(answer.number, 12)
        self.assertEqual(str(answer), f"a wrong mark, or bytes behind the last side, at offset {len(FOUR)}")

    def test_neither_yes_nor_no(self):
        answers = [bradovusc.clash(FOUR, bytearray()), bradovusc.clash(b""), bradovusc.decide(FOUR, bytearray())]
        self.assertEqual(answers, [NoRoom(0), Refused(Fault.CUT_SHORT, 0), Decision(NoRoom(0), 0)])
        for answer in answers:
            with self.assertRaises(NotAnswered) as raised:
                answer.clashes
            self.assertEqual(str(raised.exception), str(answer))
            with self.assertRaises(TypeError):
                bool(answer)
        for answer in (bradovusc.clash(FOUR), bradovusc.decide(sheet("A", "B")), bradovusc.withdraw(bytearray(), 0)):
            with self.assertRaises(TypeError):
                not answer

    def test_no_room_for_the_texts(self):
        answer = bytearray(11)
        self.assertEqual(bradovusc.clash(FOUR, answer=answer), AnswerTooShort(13))
        self.assertEqual(bradovusc.decide(FOUR, answer=answer), Decision(AnswerTooShort(13), 1))
        self.assertIs(AnswerTooShort(13).clashes, True)
        self.assertEqual(answer, bytearray(11))

    def test_buffers_of_several_kinds(self):
        work = memoryview(bytearray(work_bytes(20)))
        for given in (FOUR, bytearray(FOUR), memoryview(FOUR), memoryview(bytearray(b"X" + FOUR))[1:]):
            for lent in (work, array.array("Q", bytes(work_bytes(20))), None):
                self.assertEqual(bradovusc.clash(given, lent), bradovusc.clash(FOUR))
        both = bytearray(work_bytes(20) + 30)
        view = memoryview(both)
        answer = bradovusc.clash(FOUR, view[: work_bytes(20)], view[work_bytes(20) :])
        self.assertEqual(both[work_bytes(20) :], b"VA\0\1\0\4VA\1\1\0\4" + bytes(18))
        self.assertEqual(answer.written, 12)

    def test_buffers_that_are_refused(self):
        work = bytearray(work_bytes(20))
        view = memoryview(work)
        for lent in ((work, work), (view[:100], view[99:]), (view[50:60], view)):
            with self.assertRaises(ValueError):
                bradovusc.clash(FOUR, *lent)
        for lent in (b"", bytes(184), memoryview(bytes(184)), "work", 184, memoryview(work)[::2]):
            with self.assertRaises(TypeError):
                bradovusc.clash(FOUR, lent)
        self.assertEqual(work, bytearray(work_bytes(20)))

    def test_a_buffer_is_held_during_the_call_alone(self):
        work = bytearray(work_bytes(20))
        bradovusc.clash(FOUR, work)
        work.append(0)

    def test_overlapping_in_no_byte(self):
        work = bytearray(work_bytes(20))
        view = memoryview(work)
        self.assertEqual(bradovusc.clash(FOUR, work, view[7:7]), AnswerTooShort(13))

    def test_several_threads(self):
        answers = []

        def ask():
            answers.extend(bradovusc.decide(FOUR) for _ in range(20))

        threads = [threading.Thread(target=ask) for _ in range(4)]
        for thread in threads:
            thread.start()
        for thread in threads:
            thread.join()
        self.assertEqual(answers, [Decision(bradovusc.clash(FOUR), 1)] * 80)

    def test_scripts(self):
        said = bradovusc.script(FOUR)
        self.assertTrue(said.data.startswith(b"; Do two label rules clash?") and said.data.endswith(b"(check-sat)\n"))
        exact, short = bytearray(len(said.data)), bytearray(len(said.data) - 1)
        self.assertEqual(bradovusc.script(FOUR, exact), said)
        self.assertEqual(exact, said.data)
        self.assertEqual(bradovusc.script(FOUR, short), ScriptTooShort())
        self.assertEqual(short, bytearray(len(short)))
        self.assertEqual(bradovusc.script(b"LE"), Refused(Fault.CUT_SHORT, 2))

    def test_carried_over(self):
        old, new = sheet("{0}4", "4"), sheet("{0}4", "4", {0: ANY})
        self.assertEqual(bradovusc.spell_open(old), Written(new))
        self.assertEqual(bradovusc.spell_open(old, bytearray(len(new) - 1)), OutputTooShort())
        self.assertEqual(bradovusc.spell_open(new), Written(new))
        self.assertEqual(bradovusc.spell_open_rule(rule("{3}4")), Written(rule("{3}4", {3: ANY})))
        self.assertEqual(bradovusc.spell_open_rule(rule("{4}4")), ForeignField())
        self.assertEqual(bradovusc.spell_open_rule(b"RULE\1"), Refused(Fault.CUT_SHORT, 5))


class Catalogues(unittest.TestCase):
    def test_a_catalogue(self):
        catalogue = bytearray(bradovusc.catalogue_bytes())
        self.assertEqual(bradovusc.add(catalogue, rule("A")), Done())
        self.assertEqual(bradovusc.add(catalogue, rule("B{0}", {0: DIGITS})), Done())
        self.assertEqual(bradovusc.add(catalogue, rule("{0}")), NotApart(0, Clash(10)))
        self.assertEqual(bradovusc.add(catalogue, rule("{4}")), ForeignField())
        self.assertEqual(bradovusc.add(catalogue, rule("C"), bytearray()), NotApart(0, NoRoom(0)))
        self.assertEqual(bradovusc.add(catalogue, b"RULE\1"), Refused(Fault.CUT_SHORT, 5))
        self.assertEqual(bradovusc.recheck(catalogue), Listed(()))
        self.assertEqual(bytes(catalogue).rstrip(b"\0"), rule("A") + rule("B{0}", {0: DIGITS}))
        self.assertEqual(bradovusc.withdraw(catalogue, 2), NoRule())
        self.assertEqual(bradovusc.withdraw(catalogue, 2**64 - 1), NoRule())
        for number in (-1, 2**64):
            with self.assertRaises(ValueError):
                bradovusc.withdraw(catalogue, number)
        self.assertEqual(bradovusc.withdraw(catalogue, 0), Done())
        self.assertEqual(bytes(catalogue).rstrip(b"\0"), rule("B{0}", {0: DIGITS}))

    def test_words_of_not_apart(self):
        self.assertEqual(str(NotApart(3, NoRoom(7))), "not apart from a rule of the catalogue: rule 3, not decided: no room for a situation")

    def test_full_and_no_catalogue(self):
        short = bytearray(5)
        self.assertEqual(bradovusc.add(short, rule("A")), Full())
        for wrong in (bytearray(b"X"), bytearray(b"RULE\1\x0aX")):
            before = bytes(wrong)
            self.assertEqual(bradovusc.add(wrong, rule("A")), NoCatalogue())
            self.assertEqual(bradovusc.withdraw(wrong, 0), NoCatalogue())
            self.assertEqual(bradovusc.recheck(wrong), NoCatalogue())
            self.assertEqual(bradovusc.spell_open_catalogue(wrong), NoCatalogue())
            self.assertEqual(bytes(wrong), before)

    def test_checked_again(self):
        catalogue = rule("A") + rule("A ") + rule("B")
        self.assertEqual(bradovusc.recheck(catalogue), Listed((Pair(0, 1, Clash(6)),)))
        self.assertEqual(str(Pair(0, 1, Clash(6))), "rule 0 and rule 1: clash")
        self.assertEqual(bradovusc.recheck(catalogue, list=bytearray(4)), ListTooShort())
        # without room no pair is decided
        undecided = Listed(tuple(Pair(lower, higher, NoRoom(0)) for lower, higher in ((0, 1), (0, 2), (1, 2))))
        self.assertEqual(bradovusc.recheck(catalogue, bytearray(183)), undecided)

    def test_carried_over(self):
        catalogue = bytearray(rule("A{0}") + rule("B") + bytes(7))
        self.assertEqual(bradovusc.spell_open_catalogue(catalogue), Full())
        catalogue.append(0)
        self.assertEqual(bradovusc.spell_open_catalogue(catalogue), Done())
        self.assertEqual(catalogue, rule("A{0}", {0: ANY}) + rule("B"))

    def test_empty(self):
        self.assertEqual(bradovusc.recheck(b""), Listed(()))
        self.assertEqual(bradovusc.spell_open_catalogue(bytearray()), Done())
        self.assertEqual(bradovusc.withdraw(bytearray(), 0), NoRule())
        self.assertEqual(bradovusc.add(bytearray(), rule("A")), Full())


def serial(sign, digits=6):
    """A number of so many digits, a sign, the number again."""
    return rule(f"KP{{0}}{sign}{{0}}", {0: bradovusc.row(*[bradovusc.between("0", "9")] * digits)})


class DecidedCatalogues(unittest.TestCase):
    def test_a_number_that_stands_twice(self):
        digits = bradovusc.row(bradovusc.between("0", "9"), DIGITS)
        dashed, slashed = rule("KP{0}-{0}", {0: digits}), rule("KP{0}/{0}", {0: digits})
        ends_in_0 = rule("KP{0}-{0}", {0: bradovusc.row(DIGITS, bradovusc.word("0"))})
        catalogue = bytearray(bradovusc.catalogue_bytes())
        self.assertEqual(bradovusc.add_decided(catalogue, dashed), AddedDecided(Done(), 0))
        self.assertEqual(bradovusc.add(catalogue, slashed), NotApart(0, NoRoom(356)))
        self.assertEqual(bradovusc.add_decided(catalogue, slashed), AddedDecided(Done(), 0))
        refused = bradovusc.add_decided(catalogue, ends_in_0)
        self.assertEqual(refused, AddedDecided(NotApart(0, Clash(365)), 4))
        self.assertEqual((refused.number, str(refused)), (30, "not apart from a rule of the catalogue: rule 0, clash"))
        with self.assertRaises(TypeError):
            bool(refused)
        self.assertEqual(bytes(catalogue).rstrip(b"\0"), dashed + slashed)
        kept = dashed + slashed + ends_in_0
        pair = DecidedPair(0, 2, Clash(365), 4)
        self.assertEqual(len(bradovusc.recheck(kept).pairs), 3)
        self.assertEqual(bradovusc.recheck_decided(kept), ListedDecided((pair,)))
        self.assertEqual(str(pair), "rule 0 and rule 2: clash")
        self.assertEqual(bradovusc.recheck_decided(kept, list=bytearray(7)), ListedDecided((pair,)))
        self.assertEqual(bradovusc.recheck_decided(kept, list=bytearray(6)), ListTooShort())

    def test_twenty_rules(self):
        catalogue, work = bytearray(bradovusc.catalogue_bytes()), bytearray(work_bytes(356))
        for number, sign in enumerate("-/.+$%ABCDEFGHJKLMNP"):
            if number:
                self.assertEqual(bradovusc.add(catalogue, serial(sign), work), NotApart(0, NoRoom(356)))
            self.assertEqual(bradovusc.add_decided(catalogue, serial(sign), work), AddedDecided(Done(), 0))
        self.assertEqual(bradovusc.recheck_decided(catalogue, work), ListedDecided(()))
        self.assertEqual(len(bradovusc.recheck(catalogue, work).pairs), 190)

    def test_not_decided(self):
        catalogue = bytearray(rule("AA") + bytes(20))
        work = bytearray(work_bytes(3))
        self.assertEqual(bradovusc.add_decided(catalogue, rule("{0}"), work), AddedDecided(NotApart(0, NoRoom(13)), 0))
        undecided = ListedDecided((DecidedPair(0, 1, NoRoom(13), 0),))
        self.assertEqual(bradovusc.recheck_decided(rule("AA") + rule("{0}"), work), undecided)
        # two searches that fill room for 40,000 count more than two bytes hold
        any_text = bradovusc.many(bradovusc.between("0", "Z"))
        kept = rule("{0}/{1}-{1}", {0: any_text, 1: any_text}) + rule("{0}/{1}-{1}PK", {0: any_text, 1: any_text})
        (pair,) = bradovusc.recheck_decided(kept, bytearray(work_bytes(40_000))).pairs
        self.assertIsInstance(pair.answer, NoRoom)
        self.assertGreater(pair.answer.count, 65_535)

    def test_refused(self):
        catalogue = bytearray(rule("A") + bytes(20))
        for wrong, answer in (
            (b"RULE\1", Refused(Fault.CUT_SHORT, 5)),
            (rule("{4}"), ForeignField()),
            (rule("A" * 24), Full()),
        ):
            self.assertEqual(bradovusc.add_decided(catalogue, wrong), AddedDecided(answer, 0))
        for wrong in (bytearray(b"X"), bytearray(b"RULE\1\x0aX")):
            self.assertEqual(bradovusc.add_decided(wrong, rule("A")), AddedDecided(NoCatalogue(), 0))
            self.assertEqual(bradovusc.recheck_decided(wrong), NoCatalogue())
        self.assertEqual(bradovusc.recheck_decided(b""), ListedDecided(()))


class Examples(unittest.TestCase):
    def test_of_the_package(self):
        self.assertEqual(doctest.testmod(bradovusc).failed, 0)

    def test_of_the_page(self):
        page = (TOP / "foreign/README.md").read_text().partition("\n## Python\n")[2]
        examples = re.findall(r"((?:^    .*\n|^\n)+)prints(?: `(.*?)`|\n\n((?:    .*\n)+))", page, re.M)
        self.assertEqual(len(examples), 2)
        for code, line, lines in examples:
            with contextlib.redirect_stdout(io.StringIO()) as printed:
                exec(textwrap.dedent(code), {})
            self.assertEqual(printed.getvalue(), textwrap.dedent(lines) or line + "\n")


if __name__ == "__main__":
    unittest.main()
