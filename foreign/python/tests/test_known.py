"""Every example of docs/RULES.md, through the package."""

import unittest

import bradovusc
from bradovusc import AddedDecided, Clash, Decision, Listed, ListedDecided, NotApart, Refused
from rules_page import carried_over, in_bytes, lent, quoted, rows

FILL = 0xA5


def printed(answer, search=""):
    """The lines that the program `clash` prints, or `decide` with the attempt's number."""
    count, place = getattr(answer, "count", 0), getattr(answer, "place", 0)
    texts = answer.texts if isinstance(answer, Clash) else ()
    return [f"{answer.number} {count} {place}{search}", *(f"{text.field} {text}" for text in texts)]


def told(name, answer):
    """The lines that the program `catalogue` prints of a call."""
    if isinstance(answer, Listed):
        pairs = [f"pair {pair.lower} {pair.higher} {pair.answer.number} {pair.answer.count}" for pair in answer.pairs]
        return [f"{name} 0 {len(pairs)} {len(pairs) * bradovusc.PAIR_BYTES}", *pairs]
    if isinstance(answer, ListedDecided):
        pairs = [f"pair {pair.lower} {pair.higher} {pair.answer.number} {pair.answer.count} {pair.search}" for pair in answer.pairs]
        return [f"{name} 0 {len(pairs)} {len(pairs) * bradovusc.DECIDED_PAIR_BYTES}", *pairs]
    if isinstance(answer, AddedDecided):
        return [f"{line} {answer.search}" for line in told(name, answer.added)]
    if name in ("recheck", "recheck_decided"):
        return [f"{name} {answer.number} 0 0"]
    if name == "withdraw":
        return [f"{name} {answer.number}"]
    place = answer.place if isinstance(answer, Refused) else 0
    if isinstance(answer, NotApart):
        return [f"{name} 30 {answer.pair.count} 0 {answer.rule} {answer.pair.number}"]
    return [f"{name} {answer.number} 0 {place} 0 0"]


class Known(unittest.TestCase):
    def asked(self, function, row):
        """Asks of the row's sheet, and looks at both buffers afterwards."""
        length = lent(row)
        work, answer = bytearray([FILL]) * length["work"], bytearray([FILL]) * length["answer"]
        said = function(in_bytes(row["Sheet"]), work, answer)
        found = said.answer if isinstance(said, Decision) else said
        written = found.written if isinstance(found, Clash) else 0
        self.assertEqual(answer[written:], bytearray([FILL]) * (length["answer"] - written))
        self.assertEqual(set(work), set() if not work else {FILL if isinstance(found, Refused) else 0})
        if isinstance(found, Clash):
            self.assertEqual(tuple(bradovusc.texts(answer[:written])), found.texts)
        return said

    def test_sheets(self):
        examples = list(rows("Prints"))
        self.assertGreater(len(examples), 90)
        for number, row in examples:
            with self.subTest(line=number):
                self.assertEqual(printed(self.asked(bradovusc.clash, row)), quoted(row["Prints"]))

    def test_plain_rules(self):
        examples = list(rows("Answers"))
        self.assertGreater(len(examples), 25)
        for number, row in examples:
            with self.subTest(line=number):
                bits = bytearray([FILL]) * int(row["Bits"])
                said = bradovusc.plain(in_bytes(row["Sheet"]), bits)
                self.assertEqual(printed(said), quoted(row["Answers"]))
                self.assertEqual(set(bits), set() if not bits else {FILL if isinstance(said, Refused) else 0})
                needs = bradovusc.plain_bytes(in_bytes(row["Sheet"]))
                place, needed = getattr(needs, "place", 0), getattr(needs, "bytes", 0)
                self.assertEqual([f"{needs.number} {place} {needed}"], quoted(row["Needs"]))

    def test_steps(self):
        examples = list(rows("Steps told"))
        self.assertGreater(len(examples), 8)
        for number, row in examples:
            with self.subTest(line=number):
                length = lent(row)
                work, answer, steps = (bytearray([FILL]) * length[word] for word in ("work", "answer", "steps"))
                said = bradovusc.steps(in_bytes(row["Sheet"]), work, answer, steps)
                found = said.answer
                count, place, written = (getattr(found, word, 0) for word in ("count", "place", "written"))
                self.assertEqual([f"{said.number} {count} {place} {written} {len(said.records)}"], quoted(row["Steps told"]))
                self.assertEqual(said.records, in_bytes(row["Way"]))
                self.assertEqual(steps, said.records + bytes([FILL]) * (length["steps"] - len(said.records)))
                self.assertEqual(answer[written:], bytearray([FILL]) * (length["answer"] - written))
                self.assertEqual(set(work), set() if not work else {FILL if isinstance(found, Refused) else 0})

    def test_the_player(self):
        examples = list(rows("Player tells"))
        self.assertGreater(len(examples), 20)
        for number, row in examples:
            with self.subTest(line=number):
                answer = bytearray([FILL]) * lent(row)["answer"]
                said = bradovusc.play(in_bytes(row["Sheet"]), in_bytes(row["Way"]), answer)
                count, place, written = (getattr(said, word, 0) for word in ("count", "place", "written"))
                self.assertEqual([f"{said.number} {count} {place} {written}"], quoted(row["Player tells"]))
                self.assertEqual(answer[:written], in_bytes(row["Texts"]))
                self.assertEqual(answer[written:], bytearray([FILL]) * (len(answer) - written))

    def test_ways_of_given_texts(self):
        examples = list(rows("Way tells"))
        self.assertGreater(len(examples), 20)
        for number, row in examples:
            with self.subTest(line=number):
                steps = bytearray([FILL]) * lent(row)["steps"]
                said = bradovusc.find_way(in_bytes(row["Sheet"]), in_bytes(row["Texts"]), steps)
                written = getattr(said, "records", b"")
                self.assertEqual([f"{said.number} 0 {getattr(said, 'place', 0)} {len(written)}"], quoted(row["Way tells"]))
                self.assertEqual(written, in_bytes(row["Way"]))
                self.assertEqual(steps, written + bytes([FILL]) * (lent(row)["steps"] - len(written)))

    def test_sheets_without_lent_buffers(self):
        small = [(number, row) for number, row in rows("Prints") if not row.get("Lent") and len(row["Sheet"]) < 200]
        for number, row in small:
            lines = quoted(row["Prints"])
            # what needs more room than 356 situations differs
            if not lines[0].startswith(("18 ", "19 ")):
                with self.subTest(line=number):
                    self.assertEqual(printed(bradovusc.clash(in_bytes(row["Sheet"]))), lines)

    def test_decisions(self):
        examples = list(rows("Decides"))
        self.assertGreater(len(examples), 10)
        for number, row in examples:
            with self.subTest(line=number):
                said = self.asked(bradovusc.decide, row)
                self.assertEqual(printed(said.answer, f" {said.search}"), quoted(row["Decides"]))

    def test_where_clash_decides_so_does_decide(self):
        for number, row in rows("Prints"):
            if len(row["Sheet"]) < 100:
                sheet, work = in_bytes(row["Sheet"]), bytearray(184 * 60)
                first, decided = bradovusc.clash(sheet, work), bradovusc.decide(sheet, work)
                if first.number not in (18, 19):
                    with self.subTest(line=number):
                        search = 0 if isinstance(first, Refused) else 1
                        self.assertEqual(decided, Decision(first, search))

    def test_calls_of_a_catalogue(self):
        examples = list(rows("Tells"))
        self.assertGreater(len(examples), 20)
        for number, row in examples:
            with self.subTest(line=number):
                catalogue = bytearray(in_bytes(row["Catalogue"]) + bytes(int(row["Zeros"])))
                before = bytes(catalogue)
                # the first word is the name of the function
                name = quoted(row["Tells"])[0].split()[0]
                call = getattr(bradovusc, name)
                if "Number" in row:
                    said = told(name, call(catalogue, int(row["Number"])))
                elif "List" in row:
                    pairs = bytearray([FILL]) * int(row["List"])
                    said = told(name, call(catalogue, bytearray(int(row["Work"])), pairs))
                else:
                    said = told(name, call(catalogue, in_bytes(row["Rule"]), bytearray(int(row["Work"]))))
                self.assertEqual(said, quoted(row["Tells"]))
                after = in_bytes(row["Afterwards"]) + bytes(int(row["Zeros then"])) if "Afterwards" in row else before
                self.assertEqual(bytes(catalogue), after)

    def test_scripts(self):
        examples = list(rows("Says"))
        self.assertGreater(len(examples), 8)
        for number, row in examples:
            with self.subTest(line=number):
                said = bradovusc.script(in_bytes(row["Sheet"]))
                if isinstance(said, Refused):
                    self.assertEqual([f"{said.number} {said.place}"], quoted(row["Says"]))
                else:
                    lines = iter(said.data.decode("ascii").splitlines())
                    for line in quoted(row["Says"]):
                        self.assertIn(line, lines)

    def test_carried_over(self):
        examples = carried_over()
        self.assertGreater(len(examples), 0)
        for number, old, new in examples:
            with self.subTest(line=number):
                self.assertEqual(bradovusc.spell_open(old), bradovusc.Written(new))


if __name__ == "__main__":
    unittest.main()
