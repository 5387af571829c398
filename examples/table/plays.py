#!/usr/bin/env python3
"""Plays scripts in many orders and with many refusals of the device, and looks into each journal for what `caa_show table` says can't come:
an exception that is resolved where its row says `never`, or a place that ends otherwise than its row says.

    python3 -B examples/table/plays.py CAA_SHOW CAA PLAYS [SCRIPT ..]

Without scripts it takes those of the examples that are played."""
import concurrent.futures
import os
import random
import re
import subprocess
import sys

HERE = os.path.dirname(os.path.abspath(__file__))
sys.path.insert(0, os.path.dirname(HERE))
import play_by_rules  # noqa: E402

CASES = os.path.join(os.path.dirname(HERE), "cases")


def output(program, word, text, *more):
    run = subprocess.run([program, word, *more], input=text.encode(), stdout=subprocess.PIPE, stderr=subprocess.DEVNULL, check=False)
    return run.stdout.decode()


class Table:
    """What `table` says of each action: by its exceptions how a place ends, and whether a handler can turn that into an undo."""

    def __init__(self, text):
        self.rows, action, columns = {}, None, None
        for line in text.splitlines():
            if line.startswith("action "):
                action, columns = line.split()[1], None
                self.rows[action] = {}
            elif line.startswith("  note:") or not line.startswith("  "):
                continue
            elif columns is None:
                columns = [it.start() for it in re.finditer(r"\S+(?: \S+)*", line)]
            else:
                cells = [line[a:b].strip() for a, b in zip([2, *columns], [*columns, None])]
                self.rows[action][cells[0]] = cells[-2], any(it.endswith(" +") for it in cells[1:-2])


def places_of(text):
    """The action of each place, in the order of their numbers."""
    return [it.action.name for it in play_by_rules.Script(text).places]


def wrong_in(table, places, journal):
    """The first entry of a journal that the table rules out."""
    resolved = {}
    for line in journal.splitlines():
        word, *rest = line.split()
        if word == "resolve":
            place, exception = int(rest[0]), rest[2]
            resolved[place] = exception
            if table.rows[places[place]][exception][0] == "never":
                return line
        if word == "end" and int(rest[0]) in resolved:
            way, can_fail = table.rows[places[int(rest[0])]][resolved[int(rest[0])]]
            ended = " ".join(rest[2:])
            good = {"all set back"} if ended in ("undone", "failed", "aborted") else {ended}
            if way not in good and not (can_fail and ended in ("undone", "failed")) and ended != "aborted":
                return line
    return None


def drilled(text, draw):
    """A script with refusals drawn at random in the place of its own."""
    lines = [it for it in text.splitlines() if it.split()[:1] != ["drill"]]
    objects = [it.split()[1] for it in lines if it.split()[:1] == ["object"]]
    drills = {(it, draw.randint(1, 6)) for it in objects for _ in range(draw.choice([0, 0, 0, 1, 2]))}
    return "\n".join(lines + [f"drill {it} {number}" for it, number in sorted(drills)]) + "\n"


def try_script(program, player, name, text, plays):
    """How many plays of a script were looked into, how many exceptions were resolved in them, and what was wrong."""
    table, places, draw, wrong, resolved = Table(output(program, "table", text)), places_of(text), random.Random(name), [], 0
    for number in range(1, plays + 1):
        script = drilled(text, draw)
        journal = output(player, "sim", script, str(draw.randint(0, 2147483647)))
        if not journal.startswith("journal\n"):
            wrong.append(f"{name}: play {number} isn't played")
            break
        resolved += journal.count("\nresolve ")
        line = wrong_in(table, places, journal)
        if line:
            wrong.append(f"{name}, play {number}: {line}")
    return plays, resolved, wrong


def main():
    program, player, plays, *files = sys.argv[1:]
    program, player = os.path.abspath(program), os.path.abspath(player)
    if not files:
        files = [os.path.join(CASES, it[:-5]) for it in sorted(os.listdir(CASES)) if it.endswith(".args")]
    scripts = {}
    for file in files:
        with open(file, encoding="utf-8") as it:
            text = it.read()
        if re.search("^play ", text, re.M) and "\njournal\n" not in text and output(program, "table", text).startswith("action "):
            scripts[os.path.basename(file)] = text
    with concurrent.futures.ThreadPoolExecutor(2) as threads:
        found = list(threads.map(lambda it: try_script(program, player, *it, int(plays)), scripts.items()))
    wrong = [line for _, _, lines in found for line in lines]
    print("".join(f"{it}\n" for it in wrong), end="")
    print(f"{len(scripts)} scripts, {sum(it[0] for it in found)} plays, {sum(it[1] for it in found)} exceptions resolved, {len(wrong)} wrong")
    sys.exit(1 if wrong or not scripts else 0)


main()
