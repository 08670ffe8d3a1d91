"""Texts that are spelt and read back: known ones to the byte, all characters, and what the table doesn't give."""

import doctest
import random
import unittest

from bradovusc import NotInTable, SpeltTooShort, Written, _spelling, read_spelt, signs, spell, spelt_bytes, values

FILL = 0xA5


class Spelling(unittest.TestCase):
    def known(self, text, spelt):
        for call, given, made in ((spell, text, values(spelt)), (read_spelt, values(spelt), text)):
            self.assertEqual(call(given), Written(made))
            for length in range(len(made) + 3):
                out = bytearray([FILL] * length)
                expected = Written(made) if length >= len(made) else SpeltTooShort()
                self.assertEqual(call(given, out), expected)
                front = made if length >= len(made) else b""
                self.assertEqual(out, front + bytes([FILL] * (length - len(front))))

    def test_texts(self):
        self.known(b"", "")
        self.known(b"LT4-B. 7", "LT4-B. 7")
        self.known(b"Box $5", "B+O+X /D5")
        self.known(b"100%/+", "100/E/O/K")
        self.known(bytes([0, 1, 26, 27, 31, 127]), "%U$A$Z%A%E%T")

    def test_all_characters(self):
        spelt = [spell(bytes([character])).data for character in range(128)]
        self.assertEqual(len(set(spelt)), 128)
        self.assertEqual(sum(map(len, spelt)), 128 + 89)
        self.assertEqual(spell(bytes(range(128))), Written(b"".join(spelt)))
        self.assertEqual(read_spelt(b"".join(spelt)), Written(bytes(range(128))))
        # with a shift sign and without, as the page of the rules has them
        self.assertEqual("".join(sorted(signs(one) for one in spelt if len(one) == 1)), " -.0123456789ABCDEFGHIJKLMNOPQRSTUVWXYZ")

    def test_what_the_table_does_not_give(self):
        for length in (0, 1, 9):
            for byte in range(128, 256):
                out = bytearray([FILL] * length)
                self.assertEqual(spell(b"A" + bytes([byte]), out), NotInTable())
                self.assertEqual(read_spelt(bytes([10, byte]), out), NotInTable())
                self.assertEqual(out, bytes([FILL] * length))
        for wrong in ("$", "A/", "%X", "%Y", "%Z", "/M", "/N", "/P", "/Y", "+0", "%%", "$ "):
            self.assertEqual(read_spelt(values(wrong)), NotInTable())

    def test_there_and_back(self):
        dice = random.Random(10)
        for _ in range(2000):
            text = bytes(dice.randrange(128) for _ in range(dice.randrange(40)))
            spelt = spell(text).data
            self.assertLessEqual(len(spelt), spelt_bytes(len(text)))
            self.assertEqual(read_spelt(spelt), Written(text))
            any_values = bytes(dice.randrange(43) for _ in range(dice.randrange(6)))
            read = read_spelt(any_values)
            if isinstance(read, Written):
                self.assertEqual(spell(read.data), Written(any_values))

    def test_examples(self):
        self.assertEqual(doctest.testmod(_spelling).failed, 0)


if __name__ == "__main__":
    unittest.main()
