"""The steps on paper: the way of a clash, that of given texts, the player and its refusals, and buffers around the right lengths."""

import random
import unittest

import bradovusc
from bradovusc import (
    MOST_STEPS,
    AnswerTooShort,
    Clash,
    Fault,
    Kind,
    NoClash,
    NoRoom,
    NoSolution,
    NotAnswered,
    NotFinished,
    Refused,
    SideTooLong,
    Step,
    StepNotAllowed,
    Stepped,
    StepsTooShort,
    Text,
    TooManySteps,
    WayFound,
    WrongStep,
    WrongTexts,
    between,
    find_way,
    many,
    play,
    row,
    sheet,
    step_records,
    steps,
    steps_bytes,
    text_records,
    way,
    word,
)

DIGITS = many(between("0", "9"))
FOUR = sheet("{0}", "{1}", {0: DIGITS, 1: word("4")})
LEFT, RIGHT = Step(Kind.LEFT_STRUCK), Step(Kind.RIGHT_STRUCK)
FILL = 90


def put(sign):
    return Step(Kind.CHARACTER, bradovusc.value(sign))


WAY = [put("4"), LEFT, LEFT, RIGHT, RIGHT]
RECORDS = step_records(WAY)
TEXTS = (Text(0, b"\4"), Text(1, b"\4"))


class Steps(unittest.TestCase):
    def lent(self, work, answer, length):
        buffers = bytearray([FILL]) * (work * 184), bytearray([FILL]) * answer, bytearray([FILL]) * length
        return steps(FOUR, *buffers), buffers

    def test_a_way(self):
        said, (work, answer, lent) = self.lent(13, 15, 20)
        self.assertEqual(said, Stepped(Clash(13, TEXTS, 12), RECORDS))
        self.assertEqual([len(RECORDS), list(way(said.records))], [16, WAY])
        self.assertEqual(work, bytearray(13 * 184))
        self.assertEqual(lent, RECORDS + bytes([FILL]) * 4)
        self.assertEqual(answer[12:], bytearray([FILL]) * 3)
        self.assertEqual(steps(FOUR), said)
        self.assertIs(said.clashes, True)
        self.assertEqual((said.number, str(said)), (0, "clash"))

    def test_short_buffers(self):
        for answer in (0, 11, 12, 13):
            for length in (0, 1, 15, 16, 17):
                said, (work, answered, lent) = self.lent(13, answer, length)
                self.assertEqual(work, bytearray(13 * 184))
                if answer < 12:
                    self.assertEqual(said, Stepped(AnswerTooShort(13), b""))
                elif length < 16:
                    self.assertEqual(said, Stepped(StepsTooShort(13), b""))
                    self.assertIs(said.clashes, True)
                else:
                    self.assertEqual(said.records, RECORDS)
                    continue
                self.assertEqual([answered, lent], [bytearray([FILL]) * answer, bytearray([FILL]) * length])

    def test_other_answers(self):
        self.assertEqual(self.lent(12, 12, 16)[0], Stepped(NoRoom(12), b""))
        self.assertEqual(steps(sheet("A", "B")), Stepped(NoClash(1), b""))
        self.assertEqual(steps(b"LE"), Stepped(Refused(Fault.CUT_SHORT, 2), b""))
        with self.assertRaises(NotAnswered):
            steps(b"").clashes
        with self.assertRaises(TypeError):
            bool(steps(FOUR))

    def test_overlapping_buffers(self):
        buffer = bytearray(100)
        with self.assertRaises(ValueError):
            steps(FOUR, bytearray(13 * 184), buffer, buffer)
        with self.assertRaises(TypeError):
            steps(FOUR, None, None, bytes(16))


class Player(unittest.TestCase):
    def test_a_way(self):
        self.assertEqual(play(FOUR, RECORDS), Clash(0, TEXTS, 12))
        for length in range(12):
            answer = bytearray([FILL]) * length
            self.assertEqual(play(FOUR, RECORDS, answer), AnswerTooShort(0))
            self.assertEqual(answer, bytearray([FILL]) * length)
        # another way to the same finish
        self.assertEqual(play(FOUR, step_records([put("4"), RIGHT, RIGHT, LEFT, LEFT])), Clash(0, TEXTS, 12))

    def refused(self, asked, records, answer):
        for length in (0, 12, 40):
            lent = bytearray([FILL]) * length
            self.assertEqual(play(asked, records, lent), answer)
            self.assertEqual(lent, bytearray([FILL]) * length)
        self.assertEqual(play(asked, records), answer)
        with self.assertRaises(NotAnswered):
            answer.clashes

    def test_refusals(self):
        self.refused(FOUR, b"", NotFinished())
        self.refused(FOUR, RECORDS[:4], NotFinished())
        for wrong in (b"S", b"ST", b"ST\2", b"SU\0", b"ST\3", b"ST\2\x2b"):
            self.refused(FOUR, wrong, WrongStep())
            self.refused(FOUR, RECORDS + wrong, WrongStep())
        for wrong in ([RIGHT], [put("A")], WAY + [LEFT], WAY + [put("4")]):
            self.refused(FOUR, step_records(wrong), StepNotAllowed())
        self.refused(b"", RECORDS, Refused(Fault.CUT_SHORT, 0))
        self.refused(FOUR + b"X", b"X", Refused(Fault.WRONG_MARK, len(FOUR)))
        long = sheet("{0}" * 24, "{1}")
        self.refused(long, step_records([put("A")]), NotFinished())
        self.refused(long, step_records([put("A")] * 2), SideTooLong(0))

    def test_the_most_steps(self):
        endless = sheet("{0}", "{1}")
        puts = step_records([put("A")]) * MOST_STEPS
        self.assertEqual(play(endless, puts, bytearray()), NotFinished())
        self.assertEqual(play(endless, puts + b"X", bytearray()), TooManySteps())
        whole = puts[: -4 * 4] + step_records([LEFT, RIGHT, LEFT, RIGHT])
        self.assertEqual(play(endless, whole).written, 2 * (5 + MOST_STEPS - 4))

    def test_every_way_is_played(self):
        dice = random.Random(7)
        found = 0
        for _ in range(300):
            sides = ["".join(dice.choices(["{0}", "{1}", "A", "B", " "], k=dice.randrange(1, 6))) for _ in range(2)]
            patterns = {field: many(between("A", "B")) for field in range(2) if dice.randrange(2) and any(f"{{{field}}}" in side for side in sides)}
            asked = sheet(*sides, patterns)
            said = steps(asked)
            self.assertEqual(said.answer, bradovusc.clash(asked))
            if isinstance(said.answer, Clash):
                self.assertEqual(play(asked, said.records), Clash(0, said.answer.texts, said.answer.written))
                self.assertLessEqual(len(said.records), steps_bytes(said.answer.count))
                found += 1
        self.assertGreater(found, 60)


class WayOfTexts(unittest.TestCase):
    def test_a_way(self):
        self.assertEqual(find_way(FOUR, text_records(TEXTS)), WayFound(RECORDS))
        self.assertTrue(find_way(FOUR, text_records(TEXTS)).clashes)
        for length in range(len(RECORDS)):
            lent = bytearray([FILL]) * length
            self.assertEqual(find_way(FOUR, text_records(TEXTS), lent), StepsTooShort(0))
            self.assertEqual(lent, bytearray([FILL]) * length)

    def refused(self, asked, records, answer):
        lent = bytearray([FILL]) * 40
        self.assertEqual(find_way(asked, records, lent), answer)
        self.assertEqual(lent, bytearray([FILL]) * 40)
        self.assertEqual(find_way(asked, records), answer)
        with self.assertRaises(NotAnswered):
            answer.clashes

    def test_refusals(self):
        records = text_records(TEXTS)
        for length in range(len(records)):
            self.refused(FOUR, records[:length], WrongTexts())
            self.refused(FOUR, records[:length] + b"\x2b" + records[length + 1 :], WrongTexts())
        self.refused(FOUR, records + b"\0", WrongTexts())
        self.refused(FOUR, b"VA\0\1\0\5VA\1\1\0\4", NoSolution())
        self.refused(FOUR, b"VA\0\1\0\5VA\1\1\0\5", NoSolution())
        self.refused(b"", records, Refused(Fault.CUT_SHORT, 0))
        self.refused(b"LE\0RI\0\0", b"X", Refused(Fault.WRONG_MARK, 6))
        self.refused(sheet("{0}" * 24, "{1}"), b"VA\0\2\0\x0a\x0aVA\1\2\0\x0a\x0a", SideTooLong(0))

    def test_the_most_steps(self):
        open_sheet = sheet("{0}", "{1}")
        # each field is struck, and each hidden one
        longest = [Text(field, b"\x0a" * (MOST_STEPS - 4)) for field in (0, 1)]
        said = find_way(open_sheet, text_records(longest))
        self.assertEqual(list(way(said.records)), [put("A")] * (MOST_STEPS - 4) + [LEFT, LEFT, RIGHT, RIGHT])
        self.assertEqual(play(open_sheet, said.records).texts, tuple(longest))
        longer = [Text(field, b"\x0a" * (MOST_STEPS - 3)) for field in (0, 1)]
        self.refused(open_sheet, text_records(longer), TooManySteps())

    def test_a_field_that_stands_twice(self):
        asked = sheet("KP{0}-{0}", "KP{1}-{1}", {0: row(between("0", "9"), DIGITS), 1: row(DIGITS, word("0"))})
        decision = bradovusc.decide(asked)
        self.assertEqual((decision.answer.texts, decision.search), ((Text(0, b"\0"), Text(1, b"\0")), 4))
        said = find_way(asked, text_records(decision.answer.texts))
        self.assertEqual(list(way(said.records)), [put("0"), LEFT, RIGHT, LEFT, RIGHT])
        self.assertEqual(play(asked, said.records).texts, decision.answer.texts)

    def test_a_shared_field(self):
        asked = sheet("{0}A", "{0}{1}")
        said = find_way(asked, b"VA\0\1\0\1VA\1\1\0\x0a")
        self.assertEqual((said.shared, str(said)), ((0,), "clash, with field 0 shared: it holds the same text in both rules"))

    def test_what_is_decided_has_a_way(self):
        dice = random.Random(8)
        found = 0
        for _ in range(300):
            sides = ["".join(dice.choices(["{0}", "{1}", "A", "B", " "], k=dice.randrange(1, 6))) for _ in range(2)]
            asked = sheet(*sides)
            answer = bradovusc.decide(asked).answer
            if isinstance(answer, Clash):
                said = find_way(asked, text_records(answer.texts))
                self.assertIsInstance(said, WayFound)
                self.assertEqual(play(asked, said.records), Clash(0, answer.texts, answer.written))
                found += 1
        self.assertGreater(found, 60)


class Records(unittest.TestCase):
    def test_both_ways(self):
        self.assertEqual(list(way(RECORDS)), WAY)
        self.assertEqual(list(way(b"")), [])
        for end in range(len(RECORDS)):
            self.assertEqual(list(way(RECORDS[:end])), WAY[: 0 if end < 4 else 1 + (end - 4) // 3])
        for wrong in (b"SU\0", b"ST\3", b"ST\2\x2b", b"ST\2"):
            self.assertEqual(list(way(wrong)), [])

    def test_words(self):
        self.assertEqual([str(step) for step in WAY[:2]], ["both read '4'", "the left front is struck"])
        self.assertEqual(str(RIGHT), "the right front is struck")
        self.assertEqual(str(StepsTooShort(7)), "clash, but the steps buffer is too short for the way")


if __name__ == "__main__":
    unittest.main()
