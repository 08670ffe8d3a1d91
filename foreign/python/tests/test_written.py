"""Sheets written by the library: known ones to the byte, what is refused and where, and those of tools/sheet."""

import doctest
import random
import subprocess
import sys
import unittest

from bradovusc import (
    SHEET_BYTES,
    Edition,
    Fault,
    NotWritten,
    OutputTooShort,
    Refused,
    Written,
    _written,
    between,
    choice,
    clash,
    decide,
    find_way,
    full_ascii,
    many,
    play,
    row,
    script,
    sheet,
    signs,
    spell,
    steps,
    text_records,
    way,
    word,
    write,
)
from rules_page import TOP

FILL = 0xA5
#: Sheet S of the rules: any digits in field 0, the digit 4 in field 1.
FOUR = bytes.fromhex("50410004444100095041010104 4C450140 52490141")


class Sheets(unittest.TestCase):
    def test_sheets(self):
        self.assertEqual(sheet("", ""), b"LE\0RI\0")
        self.assertEqual(sheet("LT4", "LT4 "), bytes.fromhex("4C 45 03 15 1D 04 52 49 04 15 1D 04 26"))
        self.assertEqual(sheet("{0}", "{1}", {1: word("4"), 0: many(between("0", "9"))}), FOUR)
        # fields without a pattern before and between
        self.assertEqual(sheet("{0}{1}", "{7}", {7: word(""), 1: word("A")}), b"PA\1\1\x0aPA\7\1\x40LE\2\x40\x41RI\1\x47")

    def test_what_is_no_text(self):
        for wrong in ("a", "{", "{x}", "A{0", "}", "{0}}"):
            for sides in ((wrong, ""), ("", wrong)):
                with self.assertRaises(ValueError) as raised:
                    sheet(*sides)
                self.assertNotIsInstance(raised.exception, NotWritten)

    def refused(self, fault, place, *words):
        with self.assertRaises(NotWritten) as raised:
            sheet(*words)
        self.assertEqual(raised.exception.answer, Refused(fault, place))
        self.assertEqual(str(raised.exception), f"{fault}, at offset {place}")

    def test_faults_by_their_places(self):
        self.refused(Fault.WRONG_TOKEN, 4, "A{8}", "")
        self.refused(Fault.WRONG_TOKEN, 7, "", "A{192}")
        self.refused(Fault.WRONG_LENGTH, 2, "A" * 25, "{8}")
        self.refused(Fault.WRONG_LENGTH, 6, "A", "A" * 256)
        self.refused(Fault.WRONG_LENGTH, 8, "{9}", "", {0: word("A"), 2: many(word("A")) * 128})
        self.refused(Fault.NOT_ONE_PATTERN, 5, "", "", {3: word("A") + word("B")})
        self.refused(Fault.TOO_MANY_LEAVES, 130, "", "", {0: word("A" * 64)})
        for field in (8, 9, 255, 256, 10**12):
            self.refused(Fault.WRONG_FIELD, 2, "", "", {field: word("A")})
            self.refused(Fault.WRONG_FIELD, 7, "{8}", "", {field: word("A"), 5: word("B"), field + 1: word("C")})
        # a field that doesn't stand: the first of two, and behind all other faults
        self.refused(Fault.STRAY_PATTERN, 5, "{0}", "{1}", {0: word("A"), 2: word("A"), 7: word("A")})
        self.refused(Fault.WRONG_TOKEN, 12, "{0}", "{8}", {7: word("A")})

    def test_patterns_that_no_field_has(self):
        # no byte is no pattern, and a length of 0 would say that the field has none
        for patterns in ({0: b""}, {-1: word("A")}):
            with self.assertRaises(ValueError) as raised:
                sheet("{0}", "", patterns)
            self.assertNotIsInstance(raised.exception, NotWritten)

    def test_examples(self):
        self.assertEqual(doctest.testmod(_written).failed, 0)


class Calls(unittest.TestCase):
    four = bytes([68, 65, 0, 9, 4]), [4, 1], bytes([64]), bytes([65])

    def test_written(self):
        for length in (len(FOUR), len(FOUR) + 1, SHEET_BYTES):
            out = bytearray([FILL]) * length
            self.assertEqual(write(*self.four, out), Written(FOUR))
            self.assertEqual(out, FOUR + bytes([FILL]) * (length - len(FOUR)))
        self.assertEqual(write(*self.four), Written(FOUR))
        self.assertEqual(write(b"", [], b"", b""), Written(b"LE\0RI\0"))

    def test_of_several_kinds(self):
        patterns, lengths, left, right = self.four
        views = bytearray(patterns), tuple(lengths), memoryview(left), memoryview(bytearray(b"X" + right))[1:]
        self.assertEqual(write(*views), Written(FOUR))
        self.assertEqual(write(patterns + b"\xff", (length for length in [4, 1, 0, 0, 0, 0, 0, 0, 0]), left, right), Written(FOUR))

    def test_too_short(self):
        for length in (0, len(FOUR) - 1):
            out = bytearray([FILL]) * length
            answer = write(*self.four, out)
            self.assertEqual((answer, answer.number), (OutputTooShort(), 41))
            self.assertEqual(out, bytearray([FILL]) * length)

    def test_refused(self):
        for out in (bytearray(), bytearray([FILL]) * SHEET_BYTES):
            before = bytes(out)
            self.assertEqual(write(b"\4", [2], b"\xff", b"", out), Refused(Fault.CUT_SHORT, 5))
            self.assertEqual(write(b"\4", [0] * 8 + [1], b"", b"", out), Refused(Fault.WRONG_FIELD, 2))
            for length in (193, 256 + 1, 2**32 + 1, 2**64 - 1):
                self.assertEqual(write(b"\4", [length], b"", b"", out), Refused(Fault.WRONG_LENGTH, 3))
            self.assertEqual(write(b"\4", [1], b"\4\x48", b"", out), Refused(Fault.WRONG_TOKEN, 9))
            self.assertEqual(write(b"\4", [0, 1], b"\4\x40", b"", out), Refused(Fault.STRAY_PATTERN, 0))
            self.assertEqual(bytes(out), before)

    def test_lengths_that_are_none(self):
        for wrong in ([-1], [2**64]):
            with self.assertRaises(OverflowError):
                write(b"", wrong, b"", b"")
        for wrong in (["1"], [1.0], [None], 4, None):
            with self.assertRaises(TypeError):
                write(b"", wrong, b"", b"")
        with self.assertRaises(TypeError):
            write(b"", [], b"", b"", bytes(SHEET_BYTES))

    def test_the_longest(self):
        longest = (bytes([68] * 191 + [0]) * 8, [192] * 8, bytes(range(64, 72)) * 3, bytes([42] * 24))
        self.assertEqual(len(write(*longest).data), SHEET_BYTES - 3)
        self.assertEqual(write(*longest, bytearray(SHEET_BYTES - 4)), OutputTooShort())
        longest = (bytes([196] * 191 + [0]) * 8, [192] * 8, bytes(range(192, 200)) * 3, bytes([42] * 24))
        self.assertEqual(len(write(*longest, edition=2).data), SHEET_BYTES)
        self.assertEqual(write(*longest, bytearray(SHEET_BYTES - 1), Edition.FULL_ASCII), OutputTooShort())

    def test_editions(self):
        self.assertEqual(write(b"@", [1], b"A\xc0", b"b", edition=Edition.FULL_ASCII), Written(b"ED\2PA\0\1@LE\2A\xc0RI\1b"))
        self.assertEqual(write(*self.four, edition=0), Written(FOUR))
        for number in (1, 3, 255, 256, 258, 2**32 + 2, 2**64 - 1):
            self.assertEqual(write(b"", [193], b"\xff", b"", edition=number), Refused(Fault.WRONG_EDITION, 2))
        self.assertEqual(write(*self.four, edition=2), Refused(Fault.NOT_ONE_PATTERN, 8))
        for wrong in (-1, 2**64):
            with self.assertRaises(OverflowError):
                write(b"", [], b"", b"", edition=wrong)


class FullAscii(unittest.TestCase):
    def test_sheets(self):
        for text, said in (("{{0}}", b"{0}"), ("}}{{", b"}{"), ("a\n\0\x7f", b"a\n\0\x7f"), ("{7}{0}", b"\xc7\xc0")):
            wanted = b"ED\2LE" + bytes([len(said)]) + said + b"RI\0"
            self.assertEqual(sheet(text, "", None, Edition.FULL_ASCII), wanted)
        for wrong in ("é", "{", "}", "{x}", "a{0", "{0}}", "{{{"):
            with self.assertRaises(ValueError) as raised:
                sheet(wrong, "", None, Edition.FULL_ASCII)
            self.assertNotIsInstance(raised.exception, NotWritten)
        with self.assertRaises(NotWritten) as raised:
            sheet("{8}", "", None, Edition.FULL_ASCII)
        self.assertEqual(raised.exception.answer, Refused(Fault.WRONG_TOKEN, 6))

    def test_patterns(self):
        self.assertEqual(full_ascii.ANY, bytes([196, 193, 0, 127]))
        self.assertEqual(full_ascii.word(""), bytes([192]))
        self.assertEqual(full_ascii.choice(full_ascii.word("ab"), full_ascii.between("0", "~")), b"\xc3\xc2ab\xc10~")

    def test_a_clash(self):
        asked = sheet("{0}@", "b@ ", {0: full_ascii.many(full_ascii.between("a", "z"))}, Edition.FULL_ASCII)
        for answer in (clash(asked), decide(asked).answer):
            self.assertEqual([(text.values, str(text)) for text in answer.texts], [(b"b", "b")])
            self.assertEqual(signs(spell(answer.texts[0].values).data), "+B")
        stepped = steps(asked)
        first = next(way(stepped.records, Edition.FULL_ASCII))
        self.assertEqual((first.value, str(first)), (ord("b"), "both read 'b'"))
        self.assertEqual(str(play(asked, stepped.records).texts[0]), "b")
        self.assertEqual(find_way(asked, text_records(stepped.answer.texts)).records, stepped.records)
        self.assertIn(b'"@"', script(asked).data)

    def test_a_wrong_edition(self):
        answer = clash(b"ED\3LE\0RI\0")
        self.assertEqual((answer, answer.number, str(answer)), (Refused(Fault.WRONG_EDITION, 2), 44, "a wrong edition, at offset 2"))
        self.assertEqual(clash(b"ED"), Refused(Fault.CUT_SHORT, 2))


class AsToolsSheet(unittest.TestCase):
    """tools/sheet puts sheets together by itself."""

    def pattern(self, dice, depth):
        """A pattern's bytes, and its text for tools/sheet."""
        kind = dice.randrange(4) if depth else 0
        if kind == 0:
            return dice.choice([(word("L"), "L"), (word("4"), "4"), (between("0", "9"), "[0-9]"), (between("A", "F"), "[A-F]")])
        parts = [self.pattern(dice, depth - 1) for _ in range(dice.randrange(1, 4))]
        codes, texts = [code for code, _ in parts], [text for _, text in parts]
        if kind == 1:
            return row(*codes), "(" + "".join(texts) + ")"
        if kind == 2:
            return choice(*codes), "(" + "|".join(texts) + ")"
        return many(row(*codes)), "(" + "".join(texts) + ")*"

    def test_the_same_bytes(self):
        dice = random.Random(5)
        for number in range(25):
            fields = range(8)
            sides = [[dice.choice([*"09AZ-. $/+%", *fields]) for _ in range(dice.randrange(25))] for _ in range(2)]
            standing = {one for side in sides for one in side if one in fields}
            chosen = {field: self.pattern(dice, 2) for field in standing if dice.randrange(3)}
            letters = "abcdefgh"
            words = ["".join(one if isinstance(one, str) else letters[one] for one in side) for side in sides]
            words += [f"{letters[field]}={text}" for field, (_, text) in chosen.items()]
            theirs = subprocess.run([sys.executable, str(TOP / "tools/sheet"), *words], capture_output=True)
            self.assertEqual(theirs.returncode, 0, (words, theirs.stderr))
            templates = ["".join(one if isinstance(one, str) else f"{{{one}}}" for one in side) for side in sides]
            ours = sheet(*templates, {field: code for field, (code, _) in chosen.items()})
            with self.subTest(number=number, words=words):
                self.assertEqual(ours, theirs.stdout)


if __name__ == "__main__":
    unittest.main()
