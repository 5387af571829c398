#!/usr/bin/env python3
"""Lets the cell of cell.py follow a journal behind its script, from standard input, and watches over the rules of safety.

    caa sim 1 < four_blanks > journal
    cat four_blanks journal | python3 -B follow.py

What the journal says was put is done at the cell; what it says was refused isn't. So this needs no device that answers, and
refusals are those of the script's `drill` lines. At the first stroke that breaks a rule it tells the line of the journal, and ends
with the status of that rule, 11 for the first to 16 for the sixth; else it tells where the blanks are.
"""
import sys

from cell import Cell, RuleBroken


def put_by(words):
    """The object and the value that an entry brings to the machine, if it does."""
    if words[0] == "write" or (words[0] == "restore" and words[-1] == "well"):
        return words[3], int(words[4])
    return None


def main():
    lines = [line.split() or [""] for line in sys.stdin]
    if ["journal"] not in lines:
        print("there is no journal behind the script")
        return 1
    start = lines.index(["journal"])
    cell, puts = Cell(), 0
    cell.lay({words[1]: int(words[2]) for words in lines[:start] if words[0] == "object"})
    for number, words in enumerate(lines[start:], 1):
        put = put_by(words)
        if not put:
            continue
        puts += 1
        try:
            cell.put(*put)
        except RuleBroken as broken:
            print(f"line {number} of the journal, {' '.join(words)}: {broken}")
            return broken.rule
    for line in cell.told():
        print(line)
    print(f"{puts} puts, and no rule of safety is broken")
    return 0


if __name__ == "__main__":
    sys.exit(main())
