"""Rules as text: what is answered, how it is printed, what is refused; and the sheets beside them, whose numbers may be shared."""

import doctest
import threading
import unittest

import bradovusc
from bradovusc import (
    Band,
    Checked,
    Clash,
    Edition,
    NoClash,
    NotAnswered,
    RulesClash,
    RulesNoClash,
    RulesNotDecided,
    WrongRules,
    _rules,
    check,
    clash,
    decide,
    full_ascii,
    pair,
    request,
    shared_fields,
    sheet,
    steps,
)

SIZE = {"size": "[0-9]{2}", "finish": "BR|CH|SS"}
SET = {"set": "[0-9]+", "turn": "H|K|T"}
LATCHES = """mortice = LT{size}{finish}
  size   = [0-9][0-9]
  finish = BR | CH | SS
rim     = LT{set}C{turn}     # with a cylinder
  set    = [0-9]+
  turn   = H | K | T
other   = X{n}
"""


class Pairs(unittest.TestCase):
    def test_a_clash(self):
        answer = pair("LT{size}{finish}", "LT{set}C{turn}", left=SIZE, right=SET)
        self.assertIsInstance(answer, RulesClash)
        self.assertIs(answer.clashes, True)
        self.assertEqual((answer.label, answer.number, answer.search, answer.room, answer.spelt), ("LT00CH", 0, 1, 356, None))
        self.assertEqual(answer.left_texts, {"size": "00", "finish": "CH"})
        self.assertEqual(answer.right_texts, {"set": "00", "turn": "H"})
        self.assertEqual(answer.left_bands, (Band(0, 2, None, "LT"), Band(2, 4, "size", None), Band(4, 6, "finish", None)))
        self.assertEqual([band.fixed or band.field for band in answer.right_bands], ["LT", "set", "C", "turn"])
        wanted = 'left and right clash: "LT00CH"\n  left (pair:1): size = "00", finish = "CH"\n  right (pair:4): set = "00", turn = "H"'
        self.assertEqual(str(answer), wanted)

    def test_fields_belong_to_their_rule(self):
        """What the natural call on one sheet is not: there the field is shared, and nothing makes both the same label."""
        answer = pair("A{0}", "{0}B")
        self.assertEqual((answer.label, answer.left_texts, answer.right_texts), ("AB", {"0": "B"}, {"0": "A"}))
        self.assertIsInstance(decide(sheet("A{0}", "{0}B")).answer, NoClash)
        same = pair("{n}-{n}", "{n}", left={"n": "[0-9]"}, right={"n": "7-."})
        self.assertEqual((same.label, same.left_texts, same.right_texts), ("7-7", {"n": "7"}, {"n": "7-7"}))

    def test_no_clash(self):
        answer = pair("A{x}", "B{x}", names=("first", "second"))
        self.assertIsInstance(answer, RulesNoClash)
        self.assertIs(answer.clashes, False)
        self.assertEqual((answer.left, answer.right, answer.number), ("first", "second", 1))
        self.assertTrue(str(answer).startswith("first and second: no clash: "))
        self.assertFalse(hasattr(answer, "label"))

    def test_not_decided(self):
        answer = pair("{x}A{y}", "{z}B{z}", room=3)
        self.assertIsInstance(answer, RulesNotDecided)
        self.assertEqual((answer.number, answer.limit, answer.room), (18, "room", 3))
        with self.assertRaises(NotAnswered) as raised:
            answer.clashes
        self.assertIs(raised.exception.answer, answer)
        self.assertTrue(str(answer).startswith("left and right: not decided: room for 3 was not enough"))

    def test_no_truth_value(self):
        for answer in (pair("A", "A"), pair("A", "B"), pair("{x}A{y}", "{z}B{z}", room=3), check("a = A\n")):
            with self.assertRaises(TypeError):
                bool(answer)
            with self.assertRaises(TypeError):
                print("yes" if answer else "no")

    def test_spaces_at_the_end(self):
        answer = pair("LT{x}", "L{y}", right={"y": "T"})
        self.assertEqual((answer.label, answer.left_texts, answer.left_bands[-1]), ("LT", {"x": " "}, Band(2, 3, "x", None)))

    def test_full_ascii(self):
        answer = pair(r"Box\s{n}", r"{kind}\s\#", edition=Edition.FULL_ASCII)
        self.assertEqual((answer.label, answer.spelt), ("Box #", "B+O+X /C"))

    def test_mistakes(self):
        with self.assertRaises(WrongRules) as raised:
            pair("LT{size", "LT{x}", right={"x": "[9-0]"})
        first, second = raised.exception.mistakes
        self.assertEqual((first.file, first.line, first.column, first.width), ("pair", 1, 10, 5))
        self.assertEqual((second.line, second.words), (3, "a range from '9' back to '0'"))
        self.assertIn("    left = LT{size\n             ^^^^^\n", str(raised.exception))
        self.assertIsInstance(raised.exception, ValueError)
        for words in (("A#", "A"), ("A\nb = C", "A"), ("é", "A"), ("A\udc80", "A"), ("", "A")):
            with self.assertRaises(WrongRules):
                pair(*words)
        with self.assertRaises(WrongRules) as raised:
            pair("{x}", "A", left={"y": "A"})
        self.assertIn("does not stand in its rule", str(raised.exception))
        for room in (0, 65_536, -1, "9", 1.5):
            with self.assertRaises(WrongRules):
                pair("A", "A", room=room)


class Checks(unittest.TestCase):
    def test_a_text(self):
        said = check(LATCHES)
        self.assertIsInstance(said, Checked)
        self.assertEqual((said.rules, said.all_pairs, said.number, said.clashes), (3, 3, 1, True))
        self.assertEqual([(one.left, one.right, one.label) for one in said.pairs], [("mortice", "rim", "LT00CH")])
        wanted = str(said.pairs[0]) + "\n3 rules, 3 pairs: 1 clash, 0 not decided, 2 without a clash"
        self.assertEqual(str(said), wanted)

    def test_several_files(self):
        said = check({"a.rules": "a = A{x}\n", "b.rules": "\nb = {x}B\n"})
        self.assertIn("a (a.rules:1): x", str(said))
        self.assertIn("b (b.rules:2): x", str(said))

    def test_none_and_open(self):
        said = check("a = A\nb = B\n")
        self.assertEqual((said.number, said.clashes, said.pairs), (0, False, ()))
        said = check("a = {x}A{y}\nb = {z}B{z}\n", room=3)
        self.assertEqual(said.number, 2)
        with self.assertRaises(NotAnswered):
            said.clashes
        self.assertIsInstance(said.pairs[0], RulesNotDecided)

    def test_mistakes(self):
        with self.assertRaises(WrongRules) as raised:
            check("a = A\nb = b\n")
        self.assertEqual([(one.file, one.line, one.column) for one in raised.exception.mistakes], [("rules", 2, 5)])
        with self.assertRaises(WrongRules) as raised:
            check("# nothing\n")
        self.assertEqual((str(raised.exception), raised.exception.mistakes), ("rules has no rule; a rule is NAME = TEMPLATE", ()))

    def test_threads(self):
        said = []
        threads = [threading.Thread(target=lambda: said.append(str(check(LATCHES)))) for _ in range(8)]
        for thread in threads:
            thread.start()
        for thread in threads:
            thread.join()
        self.assertEqual(said, [str(check(LATCHES))] * 8)


class Requests(unittest.TestCase):
    def test_as_it_is(self):
        status, objects = request({"rules": LATCHES, "pairs": [["rim", "mortice"]], "steps": True})
        self.assertEqual((status, len(objects), objects[0]["label"]), (1, 1, "LT00CH"))
        self.assertEqual(objects[0]["steps"][0]["kind"], "start")
        status, objects = request({"rules": LATCHES, "more": 7})
        self.assertEqual((status, objects), (3, [{"error": 'the request has a key that means nothing: "more"', "status": 3}]))

    def test_examples(self):
        self.assertEqual(doctest.testmod(_rules).failed, 0)
        self.assertEqual(doctest.testmod(bradovusc).failed, 0)


class Shared(unittest.TestCase):
    """A number that stands on both sides of a sheet."""

    def test_sheets(self):
        one, two = sheet("A{0}", "{0}B"), sheet("A{0}", "{1}B")
        self.assertEqual((one.shared, two.shared), ((0,), ()))
        self.assertEqual(str(one), "A{0} and {0}B, with field 0 shared: it holds the same text in both rules")
        self.assertEqual(str(two), "A{0} and {1}B")
        three = sheet("{1}{7}{0}-", "{0}{7}{2}", {7: bradovusc.word("A"), 0: bradovusc.word("B")})
        self.assertEqual(three.shared, (0, 7))
        self.assertIn("with fields 0, 7 shared: each holds", str(three))
        self.assertEqual(bytes(three), three)
        self.assertEqual(repr(sheet("", "")), repr(b"LE\0RI\0"))

    def test_full_ascii(self):
        one = sheet("{{{0}", "{0}}}", {0: full_ascii.word("@")}, Edition.FULL_ASCII)
        self.assertEqual((one.shared, str(one)[:17]), ((0,), "{{{0} and {0}}}, "))

    def test_answers(self):
        shared, two = sheet("A{0}", "{0}B"), sheet("A{0}", "{1}B")
        wanted = "no clash, with field 0 shared: it holds the same text in both rules"
        for answer in (clash(shared), decide(shared), decide(shared).answer, steps(shared).answer):
            self.assertEqual(str(answer), wanted)
        self.assertEqual([str(clash(two)), clash(two).shared, clash(shared).shared], ["clash", (), (0,)])
        # the same answer, whatever is shared
        self.assertEqual(clash(shared), NoClash(clash(shared).count))
        self.assertIn("shared", str(clash(sheet("{0}A", "{0}A"))))
        self.assertIsInstance(clash(sheet("{0}A", "{0}A")), Clash)

    def test_bytes_that_are_no_sheet(self):
        good = bytes(sheet("A{0}", "{0}B", {0: bradovusc.word("A")}))
        for length in range(len(good)):
            self.assertEqual(shared_fields(good[:length]), () if length < len(good) - 1 else (0,))
        for wrong in (b"", b"ED\2", b"PA", b"PA\0\xff", b"LE", b"LE\xff", b"RI\0"):
            self.assertEqual(shared_fields(wrong), ())


if __name__ == "__main__":
    unittest.main()
