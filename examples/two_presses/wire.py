#!/usr/bin/env python3
"""The cell of cell.py as a program: it answers on standard output the lines by which caa_bridge asks it on standard input.

At the end of its input it tells on standard error where each blank is. Where a stroke breaks a rule of safety it tells there which
and how, doesn't answer, and ends with the status of that rule, 11 for the first to 16 for the sixth.
"""
import argparse
import random
import sys

from cell import Cell, RuleBroken
from faults import KINDS, Faults, drawn


def answer(cell, line):
    """What the cell answers to a line. This is all that knows how lines and answers look."""
    verb, number, *words = line.split()
    if verb == "lay":
        done = cell.lay(dict(zip(words[::2], map(int, words[1::2]))))
    else:
        done = cell.put(words[0], int(words[1]))
    return f"{'well' if done else 'failed'} {number}"


def main():
    parser = argparse.ArgumentParser(description=__doc__.splitlines()[0])
    parser.add_argument("--blanks", type=int, default=4, help="how many blanks wait outside (default: %(default)s)")
    parser.add_argument("--fault", action="append", default=[], metavar="KIND:NAME@NUMBER", help="a fault (see faults.py)")
    parser.add_argument("--drawn", type=int, default=0, metavar="COUNT", help="how many more faults are drawn by the seed")
    parser.add_argument("--chance", type=float, default=0, metavar="PERCENT", help="how many of 100 strokes fail by chance")
    parser.add_argument("--seed", type=int, default=0, help="which faults are drawn, and which come by chance")
    words = parser.parse_args()
    chance = random.Random(words.seed)
    more = [drawn(kind, chance, chance.randint(1, words.blanks)) for kind in chance.sample(KINDS, words.drawn)]
    cell = Cell(words.blanks, Faults(words.fault + more, words.chance, words.seed))
    for fault in words.fault + more:
        print(f"the cell: its fault is {fault}", file=sys.stderr)
    try:
        for line in iter(sys.stdin.readline, ""):
            if line != "stop\n":
                print(answer(cell, line), flush=True)
    except RuleBroken as broken:
        print(f"the cell: {broken}", file=sys.stderr)
        return broken.rule
    for line in cell.told():
        print(f"the cell: {line}", file=sys.stderr)
    return 0


if __name__ == "__main__":
    sys.exit(main())
