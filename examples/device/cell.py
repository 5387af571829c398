#!/usr/bin/env python3
"""A small simulated cell: it answers on standard output the lines that it is asked by on standard input.

`lay NUMBER NAME VALUE ..` names the objects and brings them to these values, `put NUMBER NAME VALUE` brings one object to a value, and
`restore NUMBER NAME VALUE` brings it back. The cell answers `well NUMBER`, or `failed NUMBER` where it refuses, which it does by chance,
by word, name and value, or from a line on. After `stop`, and at the end of its input, it takes its machine to rest: no object is brought anywhere
any longer. `--wrong` makes it answer one line wrongly, in one of the ways that a link can go wrong.
"""
import argparse
import os
import random
import signal
import sys

WRONGS = {
    "dies": "it leaves without an answer",
    "half": "it leaves within its answer",
    "doubles": "it answers twice",
    "late": "something that watches the clock answers `failed` for it, and its own `well` comes with the next answer",
    "garbage": "it answers with something else",
    "long": "it answers with a line that is too long",
    "number": "it answers with the number before",
    "ready": "it says READY before its answer",
}


class Cell:
    """The values of a cell's objects, and its answers."""

    def __init__(self, seed=0, refuse=0, refuse_from=0, refused=()):
        self.chance = random.Random(seed)
        self.refuse = refuse
        self.refuse_from = refuse_from
        self.refused = set(refused)
        self.values = {}
        self.is_stopped = False

    def takes(self, verb, number, words):
        """Whether the cell does what it is asked."""
        if verb == "lay":
            self.values = dict(zip(words[::2], map(int, words[1::2])))
            return True
        name, value = words
        if self.chance.random() * 100 < self.refuse or 0 < self.refuse_from <= number or f"{verb} {name} {value}" in self.refused:
            return False
        self.values[name] = int(value)
        return True

    def answer(self, line):
        """What the cell answers to a line; nothing to `stop`."""
        if line == "stop\n":
            self.is_stopped = True
            return ""
        verb, number, *words = line.split()
        return f"{'well' if self.takes(verb, int(number), words) else 'failed'} {number}\n"


class WrongCell(Cell):
    """A cell that answers one line wrongly, and all others well."""

    def __init__(self, way, at, **words):
        super().__init__(**words)
        self.way = way
        self.at = at
        self.late = ""

    def is_wrong_at(self, line):
        """Whether this is the line that it answers wrongly."""
        return line != "stop\n" and int(line.split()[1]) == self.at

    def answer(self, line):
        """What the cell answers to a line, and whether it leaves then."""
        late, self.late = self.late, ""
        if not self.is_wrong_at(line):
            return late + super().answer(line), False
        right = super().answer(line)
        if self.way == "late":
            self.late = right
        return {
            "dies": ("", True),
            "half": (right[:-2], True),
            "doubles": (right * 2, False),
            "late": (f"failed {self.at}\n", False),
            "garbage": ("w\x00rks\n", False),
            "long": ("well " + "0" * 2000 + right[5:], False),
            "number": (f"well {self.at - 1}\n", False),
            "ready": ("READY\n" + right, False),
        }[self.way]


def main():
    parser = argparse.ArgumentParser(description=__doc__.splitlines()[0])
    parser.add_argument("--seed", type=int, default=0, help="which puts are refused (default: %(default)s)")
    parser.add_argument("--refuse", type=float, default=0, metavar="PERCENT", help="how many of 100 puts are refused")
    parser.add_argument("--refuse-from", type=int, default=0, metavar="NUMBER", help="refuse this line and each behind it")
    parser.add_argument("--refused", action="append", default=[], metavar="'WORD NAME VALUE'", help="refuse these, as 'restore arc 0'")
    parser.add_argument("--wrong", choices=WRONGS, default="dies", help="how it answers one line wrongly (default: %(default)s)")
    parser.add_argument("--at", type=int, default=-1, metavar="NUMBER", help="the number of that line; 0 is that of lay")
    words = parser.parse_args()
    cell = WrongCell(words.wrong, words.at, seed=words.seed, refuse=words.refuse, refuse_from=words.refuse_from, refused=words.refused)
    for line in iter(sys.stdin.readline, ""):
        answer, leaves = cell.answer(line)
        print(answer, end="", flush=True)
        if leaves:
            os.kill(os.getpid(), signal.SIGKILL)
    print(f"the cell: it was {'stopped' if cell.is_stopped else 'left'}", file=sys.stderr)
    for name, value in cell.values.items():
        print(f"the cell: {name} is at {value}", file=sys.stderr)


if __name__ == "__main__":
    main()
