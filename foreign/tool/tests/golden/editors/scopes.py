"""scopes.py GRAMMAR SAMPLE: for what a TextMate grammar takes each part of a text.

Prints a line for each part: the number of its line, its kind, the part. Reads as much of such grammars as ours uses: patterns with `match`,
or with `begin` and `end`, captures of `begin`, `contentName`, and `include` of the repository.
"""
import json
import re
import sys

grammar = json.load(open(sys.argv[1], encoding="utf-8"))


def resolved(patterns):
    for pattern in patterns:
        if "include" in pattern:
            yield from resolved([grammar["repository"][pattern["include"].lstrip("#")]])
        else:
            yield pattern


def earliest(patterns, line, at):
    """The pattern that matches first from here on; of several at one place the first one."""
    found = []
    for order, pattern in enumerate(resolved(patterns)):
        match = re.compile(pattern.get("match", pattern.get("begin"))).search(line, at)
        if match:
            found.append((match.start(), order, match, pattern))
    return min(found, key=lambda each: each[:2], default=None)


def captured(match, pattern, kinds):
    """Marks what a begin has matched."""
    mark(kinds, match.start(), match.end(), pattern.get("name"))
    for group, capture in pattern.get("beginCaptures", {}).items():
        mark(kinds, *match.span(int(group)), capture["name"])


def mark(kinds, start, end, name):
    if name:
        kinds[start:end] = [name] * (end - start)


def scan(patterns, line, at, end, kinds):
    """Marks a line from here to where `end` matches; gives the place behind that."""
    while True:
        closing = re.compile(end).search(line, at) if end else None
        first = earliest(patterns, line, at)
        if closing and (not first or closing.start() <= first[0]):
            return closing
        if not first:
            return None
        _, _, match, pattern = first
        at = match.end()
        if "match" in pattern:
            mark(kinds, match.start(), at, pattern.get("name"))
            continue
        captured(match, pattern, kinds)
        inside = kinds[:]
        closed = scan(pattern["patterns"], line, at, pattern["end"], inside)
        stop = closed.end() if closed else len(line)
        name = pattern.get("contentName", pattern.get("name"))
        kinds[at:stop] = [kind or name for kind in inside[at:stop]]
        at = stop
        if match.end() == stop == len(line):
            return None


for number, line in enumerate(open(sys.argv[2], encoding="utf-8").read().splitlines(), 1):
    kinds = [None] * len(line)
    scan(grammar["patterns"], line, 0, None, kinds)
    start = 0
    for place in range(1, len(line) + 1):
        if place == len(line) or kinds[place] != kinds[start]:
            print(f"{number} {kinds[start] or 'none'}: {line[start:place]}")
            start = place
