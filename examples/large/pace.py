"""How long an entry takes: `sim` and `audit` of plays of many entries, and `run` and `pool` of sixteen participants.

    python3 examples/large/pace.py PROGRAM

Each call is made 7 times. The least time is told, less that of `check` for the same script, and what that is for each entry.

Seen last, on four processors: an entry of `sim` took 188 nanoseconds in 52,200 entries and 206 in 522,000, one of `audit` 208 and 198;
with sixteen participants one of `sim` took 372, one of `pool 4` 814 and one of `run` 2,077.
"""

import subprocess
import sys
import time

CALLS = 7


def works(plays):
    """One participant works 256 times in each play."""
    return ["participant p", "action a", "roles r", "body r", *["work 0"] * 256, "end", *["play a p"] * plays]


def wide(roles):
    """So many participants work 256 times each, in one play."""
    numbers = range(roles)
    bodies = [line for n in numbers for line in [f"body r{n}", *["work 0"] * 256]]
    return [*[f"participant p{n}" for n in numbers], "action a", "roles " + " ".join(f"r{n}" for n in numbers), *bodies, "end",
            "play a " + " ".join(f"p{n}" for n in numbers)]


def least(program, words, given):
    """The least time of a call, in seconds, and its text."""
    times = []
    for _ in range(CALLS):
        begun = time.perf_counter()
        text = subprocess.run([program, *words], input=given, capture_output=True, check=True).stdout
        times.append(time.perf_counter() - begun)
    return min(times), text


def tell(program, what, lines, commands):
    script = "".join(line + "\n" for line in lines).encode()
    checked = least(program, ["check"], script)[0]
    for words in commands:
        taken, text = least(program, words, script)
        entries = sum(not line.startswith((b"journal", b"object", b"outcome")) for line in text.splitlines())
        show(f"{' '.join(words)}: {what}", entries, taken - checked)
        if words[0] == "sim":
            show(f"audit: {what}", entries, least(program, ["audit"], script + text)[0] - checked)


def show(name, entries, taken):
    print(f"{name:45} {entries:7} entries {taken * 1e3:8.1f} ms {taken / entries * 1e9:8.0f} ns an entry")


def main(program):
    tell(program, "200 plays of 256 works", works(200), [["sim", "1"]])
    tell(program, "2,000 plays of 256 works", works(2000), [["sim", "1"]])
    tell(program, "16 participants, 256 works each", wide(16), [["sim", "1"], ["run"], ["pool", "4"]])


main(sys.argv[1])
