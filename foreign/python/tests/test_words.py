"""Constants, numbers and words are those of the C header. These tests call nothing of the library."""

import re
import unittest

import bradovusc
from bradovusc import Clash, Done, Edition, Fault, Told, WayFound
from rules_page import TOP

HEADER = (TOP / "foreign/c/bradovusc.h").read_text()
ENUM = re.search(r"^enum bradovusc_number \{$(.*?)^\};$", HEADER, re.M | re.S)[1]
NUMBERS = {name: int(number) for name, number in re.findall(r"^    BRADOVUSC_([A-Z_]+) = ([0-9]+),?$", ENUM, re.M)}
WORDS = dict(re.findall(r'case BRADOVUSC_([A-Z_]+):\s+return "([^"]*)";', HEADER))
# those that a number has beside these
WORDS.update(re.findall(r'number == BRADOVUSC_([A-Z_]+)\s+\? "([^"]*)"', HEADER))


def defined(name):
    """What the header defines."""
    return re.search(rf"^#define BRADOVUSC_{name} (.*)$", HEADER, re.M)[1].strip('"')


class Words(unittest.TestCase):
    def test_version(self):
        self.assertEqual(bradovusc.VERSION, defined("VERSION"))
        self.assertEqual(bradovusc.__version__, defined("VERSION"))

    def test_faults(self):
        for fault in Fault:
            self.assertEqual((fault.number, str(fault)), (NUMBERS[fault.name], WORDS[fault.name]))
        self.assertEqual([fault.number for fault in Fault], [*range(11, 18), 22, 44])

    def test_answers(self):
        """Each class has its number and its words; those of faults are tried above."""
        seen = set()
        for name in bradovusc.__all__:
            kind = getattr(bradovusc, name)
            if isinstance(kind, type) and issubclass(kind, Told) and isinstance(getattr(kind, "number", None), int):
                upper = re.sub(r"(?<=[a-z])(?=[A-Z])", "_", name).upper()
                number = NUMBERS.get(upper, 0)
                self.assertEqual(kind.number, number, name)
                if name not in ("NotApart", "Written", "Listed", "ListedDecided", "Needed", "WayFound"):
                    self.assertEqual(kind._words, WORDS[upper], name)
                seen.add(kind.number)
        self.assertEqual(seen | {fault.number for fault in Fault}, set(NUMBERS[name] for name in WORDS))

    def test_done(self):
        self.assertEqual([str(Done()), str(Clash(0)), str(WayFound(b""))], ["done", "clash", "clash"])

    def test_constants(self):
        plain = {
            "CHARACTERS": bradovusc.CHARACTERS,
            "MOST_CHARACTERS": bradovusc.MOST_CHARACTERS,
            "SHEET_BYTES": bradovusc.SHEET_BYTES,
            "SITUATION_BYTES": bradovusc.SITUATION_BYTES,
            "MOST_SITUATIONS": bradovusc.MOST_SITUATIONS,
            "FIELDS": bradovusc.FIELDS,
            "RECORD_HEAD": bradovusc.RECORD_HEAD,
            "SCRIPT_BYTES": bradovusc.SCRIPT_BYTES,
            "RULES": bradovusc.MOST_RULES,
            "RULE_FIELDS": bradovusc.RULE_FIELDS,
            "RULE_BYTES": bradovusc.RULE_BYTES,
            "PAIR_BYTES": bradovusc.PAIR_BYTES,
            "PLAIN_BYTES": bradovusc.PLAIN_BYTES,
            "STEP_RECORD": bradovusc.STEP_RECORD,
            "MOST_STEPS": bradovusc.MOST_STEPS,
            "DECIDED_PAIR_BYTES": bradovusc.DECIDED_PAIR_BYTES,
        }
        self.assertEqual({name: int(defined(name)) for name in plain}, plain)

    def test_lengths(self):
        self.assertEqual([bradovusc.work_bytes(356), bradovusc.answer_bytes(507)], [65_504, 4_096])
        self.assertEqual([bradovusc.catalogue_bytes(), bradovusc.catalogue_bytes(2)], [26_016, 1_626])
        self.assertEqual([bradovusc.list_bytes(rules) for rules in (0, 1, 2, 3, 32)], [0, 0, 5, 15, 2_480])
        self.assertEqual(bradovusc.list_bytes(), 2_480)
        self.assertEqual([bradovusc.decided_list_bytes(rules) for rules in (0, 1, 2, 3, 32)], [0, 0, 7, 21, 3_472])
        self.assertEqual(bradovusc.decided_list_bytes(), 3_472)
        self.assertEqual([bradovusc.steps_bytes(room) for room in (0, 1, 2, 356)], [0, 0, 4, 1_420])

    def test_signs(self):
        self.assertEqual(re.search(r'bradovusc_signs\[.*\] = "(.*)";', HEADER)[1], bradovusc.SIGNS)
        for number, sign in enumerate(bradovusc.SIGNS):
            self.assertEqual((bradovusc.sign(number), bradovusc.value(sign)), (sign, number))
        self.assertEqual(bradovusc.signs(bradovusc.values("LT 4$")), "LT 4$")
        self.assertEqual(bradovusc.sign(bradovusc.SPACE), " ")
        for wrong in (-1, 43, 255):
            with self.assertRaises(ValueError):
                bradovusc.sign(wrong)
        for wrong in ("", "a", "*", "01", "É"):
            with self.assertRaises(ValueError):
                bradovusc.value(wrong)

    def test_editions(self):
        editions = re.search(r"^enum bradovusc_edition \{ (.*) \};$", HEADER, re.M)[1]
        named = dict(re.findall(r"BRADOVUSC_([A-Z_0-9]+) = ([0-9]+)", editions))
        self.assertEqual({name: int(number) for name, number in named.items()}, {one.name: int(one) for one in Edition})
        for edition in Edition:
            for number in range(edition.characters):
                self.assertEqual(edition.value(edition.sign(number)), number)
            self.assertEqual(edition.sign(edition.space), " ")
            for wrong in (-1, edition.characters, 255):
                with self.assertRaises(ValueError):
                    edition.sign(wrong)
            for wrong in ("", "01", "É"):
                with self.assertRaises(ValueError):
                    edition.value(wrong)
        self.assertEqual([Edition.of(sheet) for sheet in (b"ED\2LE", b"ED\3LE", b"ED", b"LE\0RI\0")], [2, 0, 0, 0])
        self.assertEqual(Edition.FULL_ASCII.signs(Edition.FULL_ASCII.values("a{\n\x7f")), "a{\n\x7f")

    def test_all_functions_of_the_header(self):
        from bradovusc import _library

        self.assertEqual(set(re.findall(r"^uint32_t (bradovusc_[a-z_]+)\(", HEADER, re.M)), set(_library._FUNCTIONS))

    def test_all_names_are_there(self):
        self.assertEqual(sorted(bradovusc.__all__), sorted(set(bradovusc.__all__)))
        for name in bradovusc.__all__:
            self.assertTrue(hasattr(bradovusc, name), name)


if __name__ == "__main__":
    unittest.main()
