"""Bytes of patterns, sides and rules. These tests call nothing of the library."""

import doctest
import unittest

import bradovusc
from bradovusc import ANY, _build, between, choice, many, row, rule, word


class Built(unittest.TestCase):
    def test_patterns(self):
        self.assertEqual(word(""), bytes([64]))
        self.assertEqual(word("A"), bytes([10]))
        self.assertEqual(word("AB4"), bytes([66, 10, 66, 11, 4]))
        self.assertEqual(row(word("A"), many(word("B"))), bytes([66, 10, 68, 11]))
        self.assertEqual(row(), bytes([64]))
        self.assertEqual(choice(word("A")), bytes([10]))
        self.assertEqual(choice(word("A"), word("BC"), word("")), bytes([67, 10, 67, 66, 11, 12, 64]))
        self.assertEqual(between("0", "9"), bytes([65, 0, 9]))
        self.assertEqual(ANY, bytes([68, 65, 0, 42]))
        self.assertEqual(many(between("0", "%")), ANY)

    def test_tokens(self):
        self.assertEqual(_build.tokens(""), b"")
        self.assertEqual(_build.tokens("LT4 "), bytes([21, 29, 4, 38]))
        self.assertEqual(_build.tokens("A{0}{7}B{00}"), bytes([10, 64, 71, 11, 64]))
        # no tokens, for the library to refuse
        self.assertEqual(_build.tokens("{8}{191}{192}{1000}"), bytes([72, 255, 255, 255]))

    def test_rules(self):
        self.assertEqual(rule("A{3}", {3: word("B")}), bytes.fromhex("5255 504103010B 4C45020A43"))
        self.assertEqual(bradovusc.rule(""), b"RULE\0")

    def test_what_is_no_text(self):
        for wrong in ("a", "{", "{x}", "A{0", "}", "{0}}"):
            with self.assertRaises(ValueError):
                rule(wrong)
        with self.assertRaises(ValueError):
            rule("A" * 256)
        with self.assertRaises(ValueError):
            rule("{0}", {0: many(word("A")) * 128})

    def test_examples(self):
        self.assertEqual(doctest.testmod(_build).failed, 0)


if __name__ == "__main__":
    unittest.main()
