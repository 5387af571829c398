"""Audits journals that were worked out by hand, and the same with lines changed, checks scripts that are cut behind each of their
lines, and plays a script over a device that refuses puts; compares what the program answers.

    python3 examples/worked/compare.py PROGRAM
"""

import os
import subprocess
import sys

FOLDER = os.path.dirname(os.path.abspath(__file__))

# Each stands here behind its script, and has so many entries.
LEGAL = {
    "two_watches": 10,
    "informed_at_exit": 17,
    "ended_not_all_left": 22,
    "withdrawn": 15,
    "raised_while_undoing": 20,
    "three_levels": 27,
    "two_siblings": 15,
}


def all_but(kept, count):
    return {number: None for number in range(1, count + 1) if number not in kept}


# A journal; what stands in the place of some lines, or None where they are left out; and the line that is named, or None where the
# journal is legal. The line `journal` has the number 0; what stands past the last line is added.
CHANGED = [
    # ---- lines that stand in no text
    ("two_watches", {1: ""}, 1),
    ("two_watches", {1: "arrive 2 ann"}, 1),
    ("two_watches", {1: "arrive 00 ann"}, 1),
    ("two_watches", {1: "arrive  0 ann"}, 1),
    ("two_watches", {1: "arrive 0 ann\r"}, 1),
    ("two_watches", {1: "arrive 0 ann "}, 1),
    ("two_watches", {3: "start 0 carl"}, 3),
    ("two_watches", {4: "work 0 bob 02 1406932606"}, 4),
    ("two_watches", {5: "verdict 0 bob don"}, 5),
    ("two_watches", {6: "read 0 ann x 1000000000001"}, 6),
    ("two_watches", {6: "read 0 ann x -0"}, 6),
    ("two_watches", {11: "object x 3"}, 11),
    ("two_watches", {11: "object y 5"}, 11),
    ("two_watches", {13: "outcome 0 look none"}, 13),
    ("two_watches", {13: "outcome 0 looks commit"}, 13),
    ("two_watches", all_but([], 13), 1),
    # nobody has this name
    ("informed_at_exit", {1: "arrive 0 cid"}, 1),
    # the text comes before the entries
    ("two_watches", {6: "verdict 0 ann done", 7: "read 0 ann x 5"}, 6),
    ("two_watches", {6: "verdict 0 ann done", 7: "read 0 ann x 5", 11: "object x 3"}, 11),
    # ---- what was seen
    ("two_watches", {14: "seen x 0 5\nseen x 1 5\nseen y 1 0"}, None),
    ("two_watches", {14: "seen x 1 5\nseen x 0 5\nseen y 1 0"}, 15),
    ("two_watches", {14: "seen x 0 5\nseen y 1 0"}, 14),
    ("two_watches", {14: "seen x 1 5"}, 15),
    ("two_watches", {14: "seen x 1 5\nseen y 1 4"}, 15),
    ("two_watches", {14: "seen y 1 0"}, 14),
    ("two_watches", {14: "seen y 1 0\nseen x 1 5"}, 15),
    ("two_watches", {14: "seen x 01 5"}, 14),
    ("two_watches", {14: "seen z 1 5"}, 14),
    ("two_watches", {14: ""}, 14),
]

# The same, with entries that may not come where they stand, though the text is one of a journal.
FORBIDDEN = [
    # another value than the step's
    ("informed_at_exit", {4: "write 0 ann x 2", 18: "object x 2"}, 4),
    # the value before the write
    ("informed_at_exit", {6: "read 0 bob x 0"}, 6),
    # nobody informs ann
    ("informed_at_exit", {8: None}, 8),
    # resolved to universal, where a lesser exception covers all
    ("informed_at_exit", {9: "resolve 0 ann universal"}, 9),
    # the handler's verdict is a signal
    ("informed_at_exit", {14: "verdict 0 bob done"}, 14),
    # what was signalled goes outside
    ("informed_at_exit", {15: "end 0 bob commit", 20: "outcome 0 duo commit"}, 15),
    # bob doesn't leave
    ("informed_at_exit", {17: None}, 17),
    # the outer place is aborted before the inner one
    ("three_levels", {10: "abort 1 ann bad"}, 10),
    # an abort that names nothing, where the role names an exception
    ("three_levels", {10: "abort 2 ann"}, 10),
    # the value that was written is no value to restore
    ("three_levels", {12: "restore 2 ann x 3 well"}, 12),
    # no restore
    ("three_levels", {12: None}, 12),
    # an exception is carried into a doomed place
    ("three_levels", {14: "leave 2 ann universal"}, 14),
    # a cover that isn't the least of left and right
    ("two_siblings", {6: "resolve 0 ann universal"}, 6),
    # the exception of one of the two
    ("two_siblings", {6: "resolve 0 ann left"}, 6),
    # bob handles another exception than ann
    ("two_siblings", {9: "handle 0 bob right"}, 9),
    # nothing was played
    ("withdrawn", {**all_but([16, 17, 18], 18), 17: "outcome 0 outer none"}, 1),
]

# Bytes that are cut off the end of a journal, and the line that is named.
CUT = [("two_watches", 1, 13), ("two_watches", 4, 13)]

# Scripts that are cut behind each of their lines. Behind the lines that are named a cut ends at the top, with so many participants,
# objects and places, and this bound; everywhere else it ends inside a block, and the line that would come next is refused.
# The two places of the first have 2 * (8 + 2) + 1 + 4 and 2 * (8 + 1) + 1 + 4 entries at most, and the three of the second
# 2 * (8 + 1) + 1 + 4, and twice 1 * (8 + 1) + 1 + 4.
CUT_SCRIPTS = {
    "ended_not_all_left": {
        0: (0, 0, 0, 0), 1: (1, 0, 0, 0), 2: (2, 0, 0, 0), 3: (2, 1, 0, 0),
        6: (2, 1, 0, 0), 12: (2, 1, 0, 0), 25: (2, 1, 0, 0), 26: (2, 1, 2, 25 + 23),
    },
    "three_levels": {
        0: (0, 0, 0, 0), 1: (1, 0, 0, 0), 2: (2, 0, 0, 0), 3: (2, 1, 0, 0),
        10: (2, 1, 0, 0), 13: (2, 1, 0, 0), 21: (2, 1, 0, 0), 30: (2, 1, 0, 0), 43: (2, 1, 0, 0), 44: (2, 1, 3, 23 + 14 + 14),
    },
}

# The inner action puts 5 into x, which is 1, and the outer one asks for undo.
UNDONE = """participant ann
object x 1
{drills}action inner
use x
roles r
body r
put x 5
end
action outer
use x
roles s
nest n inner s
body s
enter n
undo
end
play outer ann
"""

# Which puts of x the device refuses; how many entries the journal has; how places 0 and 1 end, what is restored in places 1 and 0,
# and what x holds at the end.
REFUSED = [
    ([], 13, "undone", "commit", [None, "well"], 1),
    ([1], 17, "undone", "undone", ["well", "well"], 1),
    ([2], 13, "failed", "commit", [None, "failed"], 5),
    ([1, 2], 17, "undone", "failed", ["failed", "well"], 1),
    ([1, 3], 17, "failed", "undone", ["well", "failed"], 1),
    ([3], 13, "undone", "commit", [None, "well"], 1),
]


def parts_of(name):
    """The lines of a script, and those of the journal behind it."""
    with open(os.path.join(FOLDER, name), encoding="ascii") as file:
        lines = file.read().splitlines()
    cut = lines.index("journal")
    return lines[:cut], lines[cut:]


def with_changes(lines, changes):
    changed = [changes.get(number, line) for number, line in enumerate(lines)]
    changed += [line for number, line in changes.items() if number >= len(lines)]
    return [line for line in changed if line is not None]


def answer_of(program, words, text):
    run = subprocess.run([program, *words], input=text.encode("ascii"), capture_output=True, check=False, timeout=60)
    return run.stdout.decode("ascii"), run.returncode


def compare(what, found, wanted):
    if found != wanted:
        print(f"{what}: wanted {wanted}, found {found}")
        return 1
    return 0


def spoiled(name, changes):
    script, journal = parts_of(name)
    return "".join(line + "\n" for line in script + with_changes(journal, changes))


def audited(program, name, changes, cut, wanted):
    text = spoiled(name, changes)
    found = answer_of(program, ["audit"], text[: len(text) - cut])
    if wanted is None:
        answer = (f"legal {LEGAL[name]}\n", 0)
    else:
        answer = (f"illegal {len(parts_of(name)[0]) + 1 + wanted}\n", 7)
    return compare(f"audit of {name} with {changes}, {cut} cut", found, answer)


def checked(program, name, kept):
    text = "".join(line + "\n" for line in parts_of(name)[0][:kept])
    counts = CUT_SCRIPTS[name].get(kept)
    if counts is None:
        answer = (f"refused {kept + 1} 1 bad-line\n", 4)
    else:
        answer = ("ok participants {} objects {} places {} bound {}\n".format(*counts), 0)
    return compare(f"check of {name}, cut behind line {kept}", answer_of(program, ["check"], text), answer)


def played(program, puts, entries, outer, inner, restores, value):
    script = UNDONE.format(drills="".join(f"drill x {put}\n" for put in puts))
    text, status = answer_of(program, ["sim", "1"], script)
    lines = text.splitlines()
    found = (
        sum(line.split()[0] not in ("journal", "object", "outcome") for line in lines),
        [line for line in lines if line.split()[0] in ("restore", "end", "object")],
        status,
    )
    inside = [f"restore 1 ann x 1 {restores[0]}"] if restores[0] else []
    wanted = (
        entries,
        inside + [f"end 1 ann {inner}", f"restore 0 ann x 1 {restores[1]}", f"end 0 ann {outer}", f"object x {value}"],
        1 if outer == "failed" else 0,
    )
    return compare(f"sim with the refused puts {puts}", found, wanted)


def main(program):
    legal = [(name, {}, None) for name in LEGAL]
    answers = [audited(program, name, changes, 0, wanted) for name, changes, wanted in legal + CHANGED + FORBIDDEN]
    answers += [audited(program, name, {}, cut, wanted) for name, cut, wanted in CUT]
    answers += [checked(program, name, kept) for name in CUT_SCRIPTS for kept in range(len(parts_of(name)[0]) + 1)]
    answers += [played(program, *row) for row in REFUSED]
    wrong = sum(answers)
    print(f"worked journals: {len(answers) - wrong} of {len(answers)} as wanted")
    return 1 if wrong else 0


if __name__ == "__main__":
    sys.exit(main(*sys.argv[1:]))
