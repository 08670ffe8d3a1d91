"""The examples of docs/RULES.md."""

import re
from pathlib import Path

TOP = Path(__file__).resolve().parents[3]
LENT = {"work": 65_520, "answer": 4_096, "steps": 1_420}


def _cells(line):
    return [cell.strip() for cell in line.strip().strip("|").split("|")]


def rows(column):
    """(line number, cells by column) for each row of the tables with this column."""
    columns = None
    for number, line in enumerate((TOP / "docs/RULES.md").read_text().splitlines(), 1):
        if not line.startswith("|"):
            columns = None
        elif columns is None:
            columns = _cells(line)
        elif not line.startswith("|---") and column in columns:
            yield number, dict(zip(columns, _cells(line)))


def quoted(cell):
    """What stands in backquotes in a cell."""
    return re.findall(r"`([^`]*)`", cell)


def in_bytes(cell):
    return bytes.fromhex(cell.replace("none", "").strip("`"))


def lent(row):
    """The bytes of work, of answer and of steps that a row lends."""
    said = {word: int(number) for word, number in re.findall(r"(work|answer|steps) (\d+)", row.get("Lent", ""))}
    return {**LENT, **said}


def carried_over():
    """(line number, old bytes, new bytes) for each example of carrying over."""
    examples = list(rows("Bytes"))
    old, new = ([example for example in examples if example[1].get("") == word] for word in ("old", "new"))
    return [(number, in_bytes(row["Bytes"]), in_bytes(then["Bytes"])) for (number, row), (_, then) in zip(old, new)]
