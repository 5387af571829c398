#!/usr/bin/env python3
"""Holds rules of what never is against the journal behind a script, from standard input, and prints for each rule `kept`, or the number
of the first entry that breaks it. It was written from docs/interlocks.md, and shares nothing with the program.

    cat SCRIPT JOURNAL | python3 -B examples/interlocks/monitor.py RULES"""
import sys

TESTS = {
    "equal": lambda a, b: a == b,
    "not": lambda a, b: a != b,
    "below": lambda a, b: a < b,
    "above": lambda a, b: a > b,
}


class Part:
    """An object, and the tests that one number has to pass."""

    def __init__(self, words):
        self.object, rest = words[0], words[1:]
        self.tests = list(zip(rest[::2], map(int, rest[1::2])))

    def fits(self, number):
        return all(TESTS[test](number, bound) for test, bound in self.tests)

    def may_fit(self, places):
        return any(self.fits(number) for number in places[self.object])


class Rule:
    """A line that begins with `never`."""

    def __init__(self, line):
        groups = [it.split() for it in line.split("#")[0].split("never", 1)[1].split(",")]
        self.when = groups[0][0] if groups[0][0] in ("asked", "moved") else None
        self.asked = Part(groups.pop(0)[1:]) if self.when else None
        self.parts = [Part(it) for it in groups]

    def all_may_fit(self, places):
        return all(it.may_fit(places) for it in self.parts)

    def asks(self, name, value, places):
        """Whether a put of this value is one of which the rule speaks, where the objects may be at these places before."""
        if not self.when or self.asked.object != name or not self.asked.fits(value):
            return False
        return self.when == "asked" or places[name] != {value}


def rules_of(text):
    """The rules of a file, with the numbers of their lines."""
    return [(number, Rule(line)) for number, line in enumerate(text.splitlines(), 1) if line.split()[:1] == ["never"]]


def put_of(words):
    """The object and the value of a put or restore, and whether the device took it; nothing for other entries."""
    if words[0] in ("write", "putfault"):
        return words[3], int(words[4]), words[0] == "write"
    if words[0] == "restore":
        return words[3], int(words[4]), words[5] == "well"
    return None


def first_break(rule, first, entries):
    """The number of the first entry that breaks a rule, 0 where the first values do, and none where nothing does."""
    places = {name: {value} for name, value in first.items()}
    if not rule.when and rule.all_may_fit(places):
        return 0
    for number, words in enumerate(entries, 1):
        put = put_of(words)
        if not put:
            continue
        name, value, is_taken = put
        if rule.asks(name, value, places) and rule.all_may_fit(places):
            return number
        places[name] = {value} if is_taken else places[name] | {value}
        if not rule.when and rule.all_may_fit(places):
            return number
    return None


def parted(text):
    """The first values of a script, and the entries of the journal behind it."""
    lines = [line.split() for line in text.splitlines() if line.split()]
    start = lines.index(["journal"])
    first = {words[1]: int(words[2]) for words in lines[:start] if words[0] == "object"}
    entries = []
    for words in lines[start + 1:]:
        if words[0] in ("object", "outcome", "seen"):
            break
        entries.append(words)
    return first, entries


def main():
    with open(sys.argv[1], encoding="ascii") as file:
        rules = rules_of(file.read())
    first, entries = parted(sys.stdin.read())
    for number, rule in rules:
        found = first_break(rule, first, entries)
        print(f"{number}: " + ("kept" if found is None else f"entry {found}"))


if __name__ == "__main__":
    main()
