"""Stray patterns: what refuses them, and sheets, rules and catalogues without them."""

import doctest
import unittest

import bradovusc
from bradovusc import (
    ANY,
    RULE_BYTES,
    SHEET_BYTES,
    Done,
    Fault,
    ForeignField,
    NoCatalogue,
    NoClash,
    NoRule,
    NotAnswered,
    OutputTooShort,
    Refused,
    Written,
    _sheets,
    drop_strays,
    drop_strays_catalogue,
    drop_strays_rule,
    rule,
    sheet,
    word,
)

FILL = 0xA5
#: A and B, and a pattern of field 7, which stands in neither side.
STRAY = b"PA\7\1\x0a" + sheet("A", "B")
#: The rule A, and the same pattern of field 3.
STRAY_RULE = b"RUPA\3\1\x0a" + rule("A")[2:]


class Refusals(unittest.TestCase):
    def test_sheets(self):
        refused = Refused(Fault.STRAY_PATTERN, 0)
        for function in (bradovusc.clash, bradovusc.plain, bradovusc.plain_bytes, bradovusc.script, bradovusc.spell_open):
            self.assertEqual(function(STRAY), refused)
        self.assertEqual((bradovusc.decide(STRAY).answer, bradovusc.decide(STRAY).search), (refused, 0))
        self.assertEqual((bradovusc.steps(STRAY).answer, bradovusc.play(STRAY, b"")), (refused, refused))
        self.assertEqual(bradovusc.find_way(STRAY, b""), refused)
        self.assertEqual((refused.number, str(refused)), (22, "a stray pattern, at offset 0"))
        with self.assertRaises(NotAnswered):
            bradovusc.clash(STRAY).clashes

    def test_behind_all_other_faults(self):
        self.assertEqual(bradovusc.clash(STRAY + b"X"), Refused(Fault.WRONG_MARK, len(STRAY)))
        self.assertEqual(bradovusc.clash(STRAY[:-1] + b"\x48"), Refused(Fault.WRONG_TOKEN, len(STRAY) - 1))
        self.assertEqual(bradovusc.clash(b"ED\2PA\0\1aLE\0RI\0"), Refused(Fault.STRAY_PATTERN, 3))
        self.assertEqual(bradovusc.clash(b"ED\3PA\0\1aLE\0RI\0"), Refused(Fault.WRONG_EDITION, 2))

    def test_rules(self):
        catalogue = bytearray(40)
        refused = Refused(Fault.STRAY_PATTERN, 2)
        foreign = b"RUPA\4\1\x0a" + rule("A")[2:]
        for stray in (STRAY_RULE, foreign):
            self.assertEqual(bradovusc.add(catalogue, stray), refused)
            self.assertEqual(bradovusc.add_decided(catalogue, stray).added, refused)
            self.assertEqual(bradovusc.spell_open_rule(stray), refused)
        self.assertEqual(bradovusc.add(catalogue, STRAY_RULE + b"X"), Refused(Fault.WRONG_MARK, len(STRAY_RULE)))
        self.assertEqual(catalogue, bytearray(40))

    def test_catalogues(self):
        kept = rule("B") + STRAY_RULE + bytes(20)
        catalogue = bytearray(kept)
        self.assertEqual(bradovusc.add(catalogue, rule("C")), NoCatalogue())
        self.assertEqual(bradovusc.add_decided(catalogue, rule("C")).added, NoCatalogue())
        self.assertEqual(bradovusc.withdraw(catalogue, 0), NoCatalogue())
        self.assertEqual(bradovusc.recheck(catalogue), NoCatalogue())
        self.assertEqual(bradovusc.recheck_decided(catalogue), NoCatalogue())
        self.assertEqual(bradovusc.spell_open_catalogue(catalogue), NoCatalogue())
        self.assertEqual(bytes(catalogue), kept)


class Mended(unittest.TestCase):
    def known(self, function, old, new):
        """In just enough bytes too, and not in one less. What is new has nothing to drop."""
        for given in (old, new):
            self.assertEqual(function(given), Written(new))
            for length in (len(new), len(old), SHEET_BYTES):
                out = bytearray([FILL]) * length
                self.assertEqual(function(given, out), Written(new))
                self.assertEqual(out, new + bytes([FILL]) * (length - len(new)))
            for length in (0, len(new) - 1):
                out = bytearray([FILL]) * length
                answer = function(given, out)
                self.assertEqual((answer, answer.number), (OutputTooShort(), 41))
                self.assertEqual(out, bytearray([FILL]) * length)

    def test_sheets(self):
        self.known(drop_strays, STRAY, sheet("A", "B"))
        # strays before, between and behind fields that stand, on the left only and on the right only
        patterns = {field: word("ABCDEFGH"[field]) for field in range(8)}
        records = [b"PA" + bytes([field, 1]) + patterns[field] for field in range(8)]
        sides = sheet("{2}4", "{5}4")
        self.known(drop_strays, b"".join(records) + sides, records[2] + records[5] + sides)
        self.known(drop_strays, b"".join(records[3:]) + sides, records[5] + sides)
        self.known(drop_strays, b"ED\2PA\0\1aPA\1\1bLE\1\xc1RI\0", b"ED\2PA\1\1bLE\1\xc1RI\0")
        self.assertEqual(bradovusc.clash(drop_strays(STRAY).data), NoClash(1))

    def test_rules(self):
        self.known(drop_strays_rule, STRAY_RULE, rule("A"))
        self.known(drop_strays_rule, rule("{0}", {0: word("A"), 3: word("B")}), rule("{0}", {0: word("A")}))
        long = bradovusc.many(word("A"))[:1] * 191 + word("A")
        longest = rule("{2}" * 24, {field: long for field in range(4)})
        self.assertEqual(len(longest), RULE_BYTES)
        self.assertEqual(drop_strays_rule(longest), Written(rule("{2}" * 24, {2: long})))

    def test_faults(self):
        for out in (bytearray(), bytearray([FILL]) * SHEET_BYTES):
            before = bytes(out)
            self.assertEqual(drop_strays(b"", out), Refused(Fault.CUT_SHORT, 0))
            self.assertEqual(drop_strays(STRAY + b"X", out), Refused(Fault.WRONG_MARK, len(STRAY)))
            self.assertEqual(drop_strays(b"ED\3" + STRAY, out), Refused(Fault.WRONG_EDITION, 2))
            self.assertEqual(drop_strays(STRAY_RULE, out), Refused(Fault.WRONG_MARK, 0))
            self.assertEqual(drop_strays_rule(STRAY_RULE + b"X", out), Refused(Fault.WRONG_MARK, len(STRAY_RULE)))
            # a field above 3, of a stray pattern too
            self.assertEqual(drop_strays_rule(rule("{4}"), out), ForeignField())
            self.assertEqual(drop_strays_rule(b"RUPA\4\1\x0a" + rule("A")[2:], out), ForeignField())
            self.assertEqual(bytes(out), before)

    def test_catalogues(self):
        last = rule("C{0}", {0: word("D"), 1: word("E")})
        old, new = STRAY_RULE + rule("B") + last, rule("A") + rule("B") + rule("C{0}", {0: word("D")})
        for zeros in (0, 1, 40):
            catalogue = bytearray(old + bytes(zeros))
            for _ in range(2):
                self.assertEqual(drop_strays_catalogue(catalogue), Done())
                self.assertEqual(catalogue, new + bytes(len(old) + zeros - len(new)))
            self.assertEqual(bradovusc.withdraw(catalogue, 3), NoRule())
        self.assertEqual(drop_strays_catalogue(bytearray()), Done())
        for wrong in (old[:-1], old + b"\0X", b"RUPA\4\1\x0a" + rule("A")[2:]):
            catalogue = bytearray(wrong)
            self.assertEqual(drop_strays_catalogue(catalogue), NoCatalogue())
            self.assertEqual(bytes(catalogue), wrong)

    def test_strays_first_then_carried_over(self):
        old = b"PA\7\1\x0a" + sheet("{0}4", "4")
        self.assertEqual(bradovusc.spell_open(drop_strays(old).data), Written(sheet("{0}4", "4", {0: ANY})))

    def test_buffers_that_are_refused(self):
        for lent in (b"", bytes(40), "out", 40):
            for function, given in ((drop_strays, STRAY), (drop_strays_rule, STRAY_RULE)):
                with self.assertRaises(TypeError):
                    function(given, lent)
        with self.assertRaises(TypeError):
            drop_strays_catalogue(bytes(40))

    def test_examples(self):
        self.assertEqual(doctest.testmod(_sheets).failed, 0)


if __name__ == "__main__":
    unittest.main()
