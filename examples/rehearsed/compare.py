#!/usr/bin/env python3
"""Holds the counts of `caa_show rehearse` against the journals that `playing` prints for the same numbers, and has `caa audit` judge each
of these, and the lines of `caa_show faults` against the journals of their schedules and drills, as faults.py tells; then looks for what
docs/rehearse.md says comes among the first orders of slow_press.

    python3 -B examples/rehearsed/compare.py CAA_SHOW CAA COUNT [SCRIPT ..]

Without scripts it takes slow_press, mended_station and two of the examples that are played."""
import collections
import concurrent.futures
import csv
import os
import subprocess
import sys

HERE = os.path.dirname(os.path.abspath(__file__))
sys.path.insert(0, os.path.dirname(HERE))
import faults  # noqa: E402
import play_by_rules  # noqa: E402

FAULT_ORDERS = 2
SCRIPTS = [os.path.join(HERE, it) for it in ("slow_press", "mended_station")]
SCRIPTS += [os.path.join(os.path.dirname(HERE), "cases", it) for it in ("jam_and_slip", "spare_gripper")]


def output(*words, **more):
    return subprocess.run(words, stdout=subprocess.PIPE, check=False, **more).stdout.decode()


def path_of(place):
    """The path of a place: the action of its play, and the uses down from there."""
    if place.parent is None:
        return place.action.name
    name = next(name for name, places in place.parent.inner.items() if place in places)
    return path_of(place.parent) + "/" + name + (f".{place.alternate + 1}" if place.alternate else "")


def facts_of(script, journal):
    """What a journal shows, as the rows of the table say it."""
    facts = set()
    for line in journal.splitlines():
        word, *rest = line.split()
        if word == "object":
            facts.add(("object", rest[0], rest[1]))
        elif word in ("start", "resolve", "handle", "end"):
            place = script.places[int(rest[0])]
            what = " ".join(rest[2:])
            if word == "handle":
                what = f"{place.roles[rest[1]]} {what}"
            facts.add((word, path_of(place), what))
    return facts


def play(show, caa, path, number):
    """The journal of an order, and what `audit` says of it."""
    text = output(show, "playing", path, str(number))
    return text.split("\njournal\n")[1], output(caa, "audit", input=text.encode())


def compare(show, caa, path, count):
    with open(path, encoding="ascii") as file:
        script = play_by_rules.Script(file.read())
    with concurrent.futures.ThreadPoolExecutor() as pool:
        played = list(pool.map(lambda number: play(show, caa, path, number), range(1, count + 1)))
    seen, first, wrong = collections.Counter(), {}, 0
    for number, (journal, judged) in enumerate(played, 1):
        if not judged.startswith("legal "):
            print(f"{os.path.basename(path)}: order {number}: {judged.strip()}")
            wrong += 1
        for fact in facts_of(script, journal):
            seen[fact] += 1
            first.setdefault(fact, number)
    wanted = {(*fact, str(seen[fact]), str(count), str(first[fact])) for fact in seen}
    rows = {tuple(row) for row in csv.reader(output(show, "rehearse", path, str(count), "csv").splitlines()[1:])}
    for row in sorted(wanted ^ rows):
        print(f"{os.path.basename(path)}: {'no row' if row in wanted else 'a row'} {' '.join(row)}")
        wrong += 1
    return wrong


def main():
    show, caa, count, *scripts = sys.argv[1:]
    scripts = scripts or SCRIPTS
    wrong = sum(compare(show, caa, path, int(count)) for path in scripts)
    late = output(show, "rehearse", os.path.join(HERE, "slow_press"), "10", "csv")
    if "\nresolve,take_out,plate_open," not in late:
        print("slow_press: the late robot isn't among the first ten orders")
        wrong += 1
    lines = 0
    for path in scripts:
        more, mistakes = faults.compare(output, show, caa, path, FAULT_ORDERS)
        lines, wrong = lines + more, wrong + mistakes
    print(f"{len(scripts)} scripts, {len(scripts) * int(count)} orders, {lines} lines of faults, {wrong} wrong")
    sys.exit(1 if wrong else 0)


if __name__ == "__main__":
    main()
