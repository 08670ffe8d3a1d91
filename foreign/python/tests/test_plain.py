"""The small engine for plain rules: its answers, its refusals, and bit buffers around the right length."""

import random
import unittest

import bradovusc
from bradovusc import (
    PLAIN_BYTES,
    BitsTooShort,
    Clash,
    Fault,
    Needed,
    NoClash,
    NotAnswered,
    NotPlain,
    Refused,
    between,
    many,
    plain,
    plain_bytes,
    sheet,
    word,
)

DIGITS = many(between("0", "9"))
FOUR = sheet("{0}", "{1}", {0: DIGITS, 1: word("4")})
FILL = 90


class Plain(unittest.TestCase):
    def known(self, asked, needed, answer):
        """So many bytes are needed, and more will do."""
        self.assertEqual(plain_bytes(asked), Needed(needed))
        for length in (needed, needed + 1, PLAIN_BYTES):
            bits = bytearray([FILL]) * length
            self.assertEqual(plain(asked, bits), answer)
            self.assertEqual(bits, bytearray(length))
        for length in (0, needed - 1):
            bits = bytearray([FILL]) * length
            self.assertEqual(plain(asked, bits), BitsTooShort())
            self.assertEqual(bits, bytearray(length))
        self.assertEqual(plain(asked), answer)

    def test_answers(self):
        self.known(sheet("", ""), 2, Clash(0))
        self.known(sheet("A", "B"), 2, NoClash(0))
        self.known(sheet("A", "A  "), 3, Clash(0))
        self.known(FOUR, 4, Clash(0))
        self.known(sheet("{0}", "{1}", {0: DIGITS, 1: word("A")}), 4, NoClash(0))
        self.known(sheet("{0}A", "A"), 3, NoClash(0))
        self.known(sheet("{0}A", "A", {0: word("")}), 3, Clash(0))

    def test_the_most_bits(self):
        long = word("A" * 63)
        sides = "{0}{1}{2}{3}" + "A" * 20, "A" * 20 + "{4}{5}{6}{7}"
        self.known(sheet(*sides, {field: long for field in range(8)}), PLAIN_BYTES, Clash(0))

    def test_refused(self):
        for length in (0, 1, PLAIN_BYTES):
            bits = bytearray([FILL]) * length
            self.assertEqual(plain(b"", bits), Refused(Fault.CUT_SHORT, 0))
            self.assertEqual(plain(FOUR + b"X", bits), Refused(Fault.WRONG_MARK, len(FOUR)))
            self.assertEqual(plain(b"LE\2\x40\x40RI\1\x48", bits), Refused(Fault.WRONG_TOKEN, 8))
            self.assertEqual(plain(b"PA\1\1\4LE\2\x40\x40RI\0", bits), Refused(Fault.STRAY_PATTERN, 0))
            self.assertEqual(bits, bytearray([FILL]) * length)
        self.assertEqual(plain_bytes(b"LE"), Refused(Fault.CUT_SHORT, 2))

    def test_not_plain(self):
        for twice in (sheet("{0}A{0}", "B"), sheet("{7}", "{7}"), sheet("A", "{3}{3}")):
            for length in (0, 1, PLAIN_BYTES):
                bits = bytearray([FILL]) * length
                self.assertEqual(plain(twice, bits), NotPlain())
                self.assertEqual(bits, bytearray(length))
            self.assertEqual(plain_bytes(twice), NotPlain())

    def test_neither_yes_nor_no(self):
        self.assertIs(plain(FOUR).clashes, True)
        self.assertIs(plain(sheet("A", "B")).clashes, False)
        answers = [plain(FOUR, bytearray(3)), plain(sheet("{0}{0}", "")), plain(b"")]
        self.assertEqual(answers, [BitsTooShort(), NotPlain(), Refused(Fault.CUT_SHORT, 0)])
        self.assertEqual([answer.number for answer in answers], [43, 42, 11])
        for answer in answers:
            with self.assertRaises(NotAnswered):
                answer.clashes
        for answer in (*answers, plain(FOUR), plain_bytes(FOUR)):
            with self.assertRaises(TypeError):
                bool(answer)

    def test_words(self):
        self.assertEqual(str(NotPlain()), "a field stands more than once")
        self.assertEqual(str(BitsTooShort()), "the bit buffer is too short")
        self.assertEqual([str(plain(FOUR)), str(plain_bytes(FOUR))], ["clash", "done"])

    def test_buffers_that_are_refused(self):
        for lent in (b"", bytes(4), memoryview(bytes(4)), "bits", 4):
            with self.assertRaises(TypeError):
                plain(FOUR, lent)

    def test_as_the_search(self):
        dice = random.Random(7)
        said = {True: 0, False: 0}
        for _ in range(300):
            fields = dice.sample(range(8), dice.randrange(5))
            half = dice.randrange(len(fields) + 1)
            sides = [[*map("{{{}}}".format, own), *dice.choices("AB ", k=dice.randrange(5))] for own in (fields[:half], fields[half:])]
            for side in sides:
                dice.shuffle(side)
            patterns = {field: dice.choice([word("AB"), many(word("A")), many(between("A", "B")), word("")]) for field in fields if dice.randrange(3)}
            asked = sheet(*("".join(side) for side in sides), patterns)
            answer = bradovusc.clash(asked)
            if isinstance(answer, (Clash, NoClash)):
                self.assertIs(plain(asked).clashes, answer.clashes, asked)
                said[answer.clashes] += 1
        self.assertGreater(min(said.values()), 50)


if __name__ == "__main__":
    unittest.main()
