#!/usr/bin/env python3
"""Makes the graph of sets for every number of primitives and of members that fits into a graph, and checks what was made.

usage: graphs.py PROGRAM

For each of the 178 pairs the text is compared with one that is written here from the rules of docs/program.md, and `check` has to
accept it. This isn't part of the gate: it starts the program some 360 times.
"""
import itertools
import subprocess
import sys


def sets(primitives, most):
    """The sets by their size, and those of one size as ascending lists."""
    numbers = range(1, primitives + 1)
    return [members for size in range(1, most + 1) for members in itertools.combinations(numbers, size)]


def made(primitives, most):
    """The text of the graph of all sets of at most so many of the primitives e1, e2 and so on."""
    all_sets = sets(primitives, most)
    names = {members: "e%d" % members[0] if len(members) == 1 else "-".join(["s"] + [str(m) for m in members]) for members in all_sets}
    lines = ["graph g"] + ["exception " + names[members] for members in all_sets]
    for members in all_sets:
        if len(members) > 1:
            lower = [other for other in all_sets if len(other) == len(members) - 1 and set(other) < set(members)]
            lines += ["cover %s %s" % (names[members], names[other]) for other in lower]
    return "\n".join(lines + ["end"]) + "\n"


def run(program, words, text):
    done = subprocess.run([program] + words, input=text, capture_output=True, text=True)
    return done.returncode, done.stdout


def main():
    program = sys.argv[1]
    pairs = [(n, k) for k in range(1, 8) for n in range(1, 128) if len(sets(n, min(k, 2))) <= 127 and len(sets(n, k)) <= 127]
    wrong = 0
    for primitives, most in pairs:
        script = "graph g\n" + "".join("exception e%d\n" % i for i in range(1, primitives + 1)) + "end\n"
        status, text = run(program, ["graph", str(most)], script)
        checked = run(program, ["check"], text)
        if (status, text) != (0, made(primitives, most)) or checked != (0, "ok participants 0 objects 0 places 0 bound 0\n"):
            print("wrong: %d primitives, %d members" % (primitives, most))
            wrong += 1
    print("%d graphs made and checked, %d wrong" % (len(pairs), wrong))
    sys.exit(1 if wrong else 0)


main()
