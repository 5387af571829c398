#!/usr/bin/env python3
"""Holds what `caa_show interlock` tells against a monitor of its own: each journal that is named is printed by `playing`, and the entry
of the printed number has to be the first that breaks the rule, with the printed line. The scripts of two_presses with a mistake have
to be found broken, by journals that its simulated cell refuses, too.

    python3 -B examples/interlocks/compare.py CAA_SHOW [PLAYS]"""
import os
import re
import subprocess
import sys

import monitor

HERE = os.path.dirname(os.path.abspath(__file__))
EXAMPLES = os.path.dirname(HERE)
CELL = os.path.join(EXAMPLES, "two_presses")
HEAD = re.compile(r".*:(\d+): (broken|not seen in \d+ plays): never .*")
FOUND = re.compile(r"  entry (\d+) of `caa_show playing (\S+ \d+ bare[^`]*)`: (.*)")

# Scripts, their rules, and the lines that a hunt of the usual length finds broken.
CASES = [
    ("cases/production_cell", "interlocks/production_cell", {10, 14, 17}),
    ("rehearsed/welding_station", "interlocks/stations", {9, 12, 16, 19}),
    ("rehearsed/mended_station", "interlocks/stations", {9, 12, 19}),
    ("two_presses/four_blanks", "two_presses/rules", set()),
    ("two_presses/mistakes/turns_with_an_arm_out", "two_presses/mistake_rules/turns_with_an_arm_out", {2}),
    ("two_presses/mistakes/forges_with_an_arm_in_it", "two_presses/mistake_rules/forges_with_an_arm_in_it", {2}),
    ("two_presses/mistakes/table_leaves_under_the_arm", "two_presses/mistake_rules/table_leaves_under_the_arm", {2}),
    ("two_presses/mistakes/turns_before_it_is_clear", "two_presses/mistake_rules/turns_before_it_is_clear", {2, 3}),
    ("two_presses/mistakes/undo_lets_the_blank_go", "two_presses/mistake_rules/undo_lets_the_blank_go", {2}),
]


def output(*words, **more):
    done = subprocess.run(words, stdout=subprocess.PIPE, check=False, **more)
    return done.returncode, done.stdout.decode()


def told(text):
    """What is told of each rule, by the number of its line: nothing where it wasn't seen broken, else the entry, the play and the line."""
    found, number = {}, None
    for line in text.splitlines():
        head, play = HEAD.fullmatch(line), FOUND.fullmatch(line)
        if head:
            number = int(head[1])
            found[number] = None
        elif play:
            found[number] = int(play[1]), play[2].split(), play[3]
    return found


def wrong_play(show, rule, found):
    """What is wrong with a journal that is said to break a rule, if anything is, and that journal with its script before it."""
    entry, words, line = found
    _, text = output(show, "playing", *words)
    first, entries = monitor.parted(text)
    if monitor.first_break(rule, first, entries) != entry or " ".join(entries[entry - 1]) != line:
        return f"entry {entry} of playing {' '.join(words)} isn't the first that breaks it", text
    return None, text


def compare(show, script, rules, wanted, plays):
    """What is wrong with what is told of a script."""
    script, rules = (os.path.join(EXAMPLES, it) for it in (script, rules))
    status, text = output(show, "interlock", script, rules, *plays)
    with open(rules, encoding="ascii") as file:
        parsed = dict(monitor.rules_of(file.read()))
    all_told = told(text)
    broken = {number for number, found in all_told.items() if found}
    if all_told.keys() != parsed.keys() or status != (1 if broken else 0):
        yield f"{script}: status {status}, rules {sorted(all_told)}"
    if broken != wanted:
        yield f"{script}: broken are {sorted(broken)}, and wanted {sorted(wanted)}"
    for number in sorted(broken):
        wrong, journal = wrong_play(show, parsed[number], all_told[number])
        if wrong:
            yield f"{script}, rule {number}: {wrong}"
        if "mistakes" in script:
            status, _ = output(sys.executable, "-B", os.path.join(CELL, "follow.py"), input=journal.encode())
            if not 11 <= status <= 16:
                yield f"{script}, rule {number}: the cell breaks no rule of safety by this journal"


def main():
    show, plays = os.path.abspath(sys.argv[1]), sys.argv[2:]
    faults = 0
    for script, rules, wanted in CASES:
        for fault in compare(show, script, rules, wanted, plays):
            faults += 1
            print(fault)
    print(f"{len(CASES)} scripts with rules, {faults} not as they should be")
    return 1 if faults else 0


if __name__ == "__main__":
    sys.exit(main())
