"""Sides told apart by what is fixed in them: known ones, bytes that are no tokens, and that it is never told of sides that clash."""

import doctest
import itertools
import unittest

from bradovusc import Edition, _fronts, decide, fronts_differ, write


def side(text, edition):
    """The tokens of signs; a small letter from `a` on is a field."""
    return bytes(edition.codes + ord(one) - ord("a") if one in "abcdefgh" else edition.value(one) for one in text)


class Fronts(unittest.TestCase):
    def told(self, left, right, edition):
        given = fronts_differ(left, right, edition)
        self.assertIs(fronts_differ(right, left, edition), given)
        return given

    def test_known(self):
        apart = ("A|B", "LT4|LT5", "LTa|LUa", "aA|bB", "AaB|AbC", "aAX|bBX", "A a|ABa", "LT4 |LT5", "a A|b BA")
        nothing = ("|", "|A", "A|A", "a|A", "a|b", "LT4|LT4 ", "LTa|LTAa", "LTa|LbA", "aA|bB ", "aB|bAB", "aA|bBc", "LT|LTAa")
        for edition in Edition:
            for pairs, expected in ((apart, True), (nothing, False)):
                for pair in pairs:
                    left, right = (side(text, edition) for text in pair.split("|"))
                    self.assertIs(self.told(left, right, edition), expected, pair)

    def test_no_tokens(self):
        for edition in Edition:
            codes, right = edition.codes, bytes([4, edition.codes, 5])
            for byte, at in itertools.product(range(256), range(4)):
                left = bytearray([1, codes, 2, 3])
                left[at] = byte
                token = byte < edition.characters or codes <= byte < codes + 8
                self.assertIs(self.told(left, right, edition), token, (byte, at))

    def test_editions(self):
        for edition in (0, 1, 2, 3, 255, 256, 258, 1 << 32, (1 << 32) + 2, (1 << 64) - 1):
            self.assertIs(fronts_differ(b"\x01", b"\x02", edition), edition in (0, 2))
        for edition in (-1, 1 << 64):
            with self.assertRaises(OverflowError):
                fronts_differ(b"", b"", edition)

    def test_never_of_sides_that_clash(self):
        for edition in Edition:
            tokens, field = (1, edition.space, edition.codes), bytes([edition.codes])
            sides = [bytes(one) for n in range(4) for one in itertools.product(tokens, repeat=n)]
            apart = 0
            for left, other in itertools.product(sides, repeat=2):
                right = other.replace(field, bytes([edition.codes + 1]))
                if self.told(left, right, edition):
                    apart += 1
                    asked = write(b"", (), left, right, edition=edition)
                    self.assertFalse(decide(asked.data).answer.clashes, (left, right))
            self.assertGreater(apart, 100)

    def test_examples(self):
        self.assertEqual(doctest.testmod(_fronts).failed, 0)


if __name__ == "__main__":
    unittest.main()
