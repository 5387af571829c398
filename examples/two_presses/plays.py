#!/usr/bin/env python3
"""Plays four_blanks over the cell of cell.py, with faults and without, and prints how each fault ends.

    python3 -B examples/two_presses/plays.py CAA_BRIDGE CAA [--sim 1000] [--run 200] [--jobs 2]

One play in twenty has no fault, as many as a third have one, each kind in turn, one in twenty has faults by chance, and all others
have two faults, the pairs in turn. In each play no stroke may break a rule of safety, `audit` must accept the journal, the journal
must tell the values that the cell has, and each blank must be where the book of the script says that it is, or be lost from there.
At last the scripts of mistakes/ are played, each of which has to break one rule. The status is 0 where all this holds.
"""
import argparse
import collections
import itertools
import multiprocessing
import os
import random
import subprocess
import sys
import tempfile
import threading

from cell import RULES, TURN, Cell, RuleBroken
from faults import KINDS, LOST_BY, Faults, drawn
from wire import answer

HERE = os.path.dirname(os.path.abspath(__file__))
SCRIPT = os.path.join(HERE, "four_blanks")
MISTAKES = os.path.join(HERE, "mistakes")
BLANKS = 4
SECONDS = 300

# The lines of the book that say where a blank is, and the places of the cell.
BOOK = {
    "on_feed_belt": ("feed_belt",),
    "on_table": ("table",),
    "on_arm_1": ("arm_1",),
    "in_press_1": ("press_1",),
    "in_press_2": ("press_2",),
    "on_arm_2": ("arm_2",),
    "on_deposit_belt": ("deposit_belt", "end_of_deposit"),
    "delivered": ("delivered",),
}

Wish = collections.namedtuple("Wish", "group words faults chance seed")
Seen = collections.namedtuple("Seen", "wish wrong delivered lost unnoticed inside told entries refused")


def played(bridge, words, script, journal, cell):
    """Plays a script over a cell. Gives the status of the program, and the rule that was broken, if one was."""
    program = subprocess.Popen(
        [bridge, "--go-on", *words, script, journal],
        stdin=subprocess.PIPE, stdout=subprocess.PIPE, stderr=subprocess.DEVNULL, text=True)
    clock = threading.Timer(SECONDS, program.kill)
    clock.start()
    broken = None
    try:
        for line in program.stdout:
            program.stdin.write(answer(cell, line) + "\n")
            program.stdin.flush()
    except RuleBroken as it:
        broken = it
        program.stdin.close()
        program.stdout.read()
    status = program.wait()
    clock.cancel()
    for stream in (program.stdin, program.stdout):
        stream.close()
    return status, broken


def audited(caa, script, journal):
    """What `audit` says of a journal."""
    with open(script, "rb") as first, open(journal, "rb") as second:
        done = subprocess.run([caa, "audit"], input=first.read() + second.read(), stdout=subprocess.PIPE, timeout=SECONDS)
    return done.stdout.decode().strip()


def lines_of(journal):
    with open(journal, encoding="ascii") as text:
        return [line.split() for line in text]


def values_told(lines):
    """The values that a journal tells at its end."""
    return {words[1]: int(words[2]) for words in lines if words[0] == "object"}


def signals_told(lines, script):
    """What the plays told outside, and how those ended that weren't undone nor committed."""
    with open(script, encoding="ascii") as text:
        plays = {line.split()[1] for line in text if line.startswith("play ")}
    ends = [words[3:] for words in lines if words[0] == "outcome" and words[2] in plays]
    return sorted({words[-1] for words in ends if words[0] in ("signal", "failed")})


def differs(values, cell):
    """Where the values of a journal aren't those of the cell; a drive that stopped halfway stands nowhere that it was told to."""
    for name, value in values.items():
        has = cell.stands.get(name, cell.book.get(name, value))
        if has != value and name not in cell.halfway:
            return f"the journal tells {name} {value}, and the cell has {has}"
    return None


def accounts(values, cell):
    """How many blanks were lost without the book's knowing, and what is wrong with the book, if anything is."""
    places = collections.Counter(it.place for it in cell.blanks)
    unnoticed = 0
    for line, where in BOOK.items():
        said = min(values[line], 1) if line != "delivered" else values[line]
        there = sum(places[place] for place in where)
        if there > said or (there < said and not set(where) & set(LOST_BY)):
            return unnoticed, f"the book says {line} {said}, and the cell has {there} there"
        unnoticed += said - there
    if places["lost"] != values["lost"] + unnoticed or len(cell.blanks) - places["outside"] != values["inserted"]:
        return unnoticed, f"the book says lost {values['lost']} and inserted {values['inserted']}, and the cell has {dict(places)}"
    raw = [it.number for it in cell.blanks if it.place == "delivered" and not it.forged]
    return unnoticed, f"blanks {raw} were delivered and not forged" if raw else None


def seen(bridge, caa, wish):
    """Plays once, and looks at all that has to hold."""
    cell = Cell(BLANKS, Faults(wish.faults, wish.chance, wish.seed))
    with tempfile.TemporaryDirectory() as folder:
        journal = os.path.join(folder, "journal")
        status, broken = played(bridge, wish.words, SCRIPT, journal, cell)
        if broken:
            return Seen(wish, str(broken), 0, 0, 0, 0, [], 0, 0)
        if status not in (0, 1):
            return Seen(wish, f"status {status}", 0, 0, 0, 0, [], 0, 0)
        verdict, lines = audited(caa, SCRIPT, journal), lines_of(journal)
    values = values_told(lines)
    unnoticed, wrong = accounts(values, cell)
    wrong = (None if verdict.startswith("legal") else f"audit says {verdict}") or differs(values, cell) or wrong
    places = collections.Counter(it.place for it in cell.blanks)
    inside = BLANKS - places["outside"] - places["delivered"] - places["lost"]
    refused = sum(words[0] == "putfault" or words[-1] == "failed" and words[0] == "restore" for words in lines)
    told = signals_told(lines, SCRIPT)
    return Seen(wish, wrong, places["delivered"], places["lost"], unnoticed, inside, told, len(lines), refused)


def wishes(plays, words_of):
    """What is to be played: without a fault, with each kind of fault in turn, by chance, and with each pair of kinds in turn."""
    chance = random.Random(plays)
    pairs = list(itertools.combinations(KINDS, 2))
    chance.shuffle(pairs)
    none, by_chance = max(1, plays // 20), plays // 20
    single = min(max(len(KINDS), plays // 3), plays - none)
    those = [("none", ())] * none
    those += [(kind, (kind,)) for kind in (KINDS[number * 7 % len(KINDS)] for number in range(single))]
    those += [("by chance", ())] * by_chance
    those += [("two faults", pairs[number % len(pairs)]) for number in range(plays)]
    for seed, (group, kinds) in enumerate(those[:plays], 1):
        blank = chance.randint(1, BLANKS)
        faults = [drawn(kind, chance, blank if chance.random() < 0.7 else chance.randint(1, BLANKS)) for kind in kinds]
        yield Wish(group, words_of(seed), faults, 2 if group == "by chance" else 0, seed)


def spread(numbers):
    """The least and the greatest of some numbers."""
    least, most = min(numbers), max(numbers)
    return str(least) if least == most else f"{least}-{most}"


def table(all_seen):
    """The lines of the table that says how each fault ends."""
    groups = {}
    for it in all_seen:
        groups.setdefault(it.wish.group, []).append(it)
    order = ["none", *KINDS, "two faults", "by chance"]
    yield f"{'fault':18} {'plays':>5} {'all out':>7} {'delivered':>9} {'lost':>5} {'inside':>6}  what the plays told"
    for group in sorted(groups, key=order.index):
        them = groups[group]
        told = collections.Counter(word for it in them for word in it.told)
        whole = sum(it.delivered + it.lost == BLANKS for it in them)
        words = ", ".join(f"{word} {count}" for word, count in told.most_common())
        delivered, lost, inside = (spread([getattr(it, what) for it in them]) for what in ("delivered", "lost", "inside"))
        yield f"{group:18} {len(them):5} {whole:7} {delivered:>9} {lost:>5} {inside:>6}  {words or '-'}"


def bitten(bridge, script):
    """By which seeds a script with a mistake breaks its rule, what was broken first, and what else went wrong."""
    rule = next(int(line.split()[2].rstrip(".")) for line in open(script, encoding="ascii")) + TURN - 1
    seeds, first, wrong = [], None, None
    for seed in range(1, 11):
        with tempfile.TemporaryDirectory() as folder:
            _, broken = played(bridge, ["sim", str(seed)], script, os.path.join(folder, "journal"), Cell(BLANKS))
        if broken and broken.rule != rule:
            wrong = f"{broken}"
        elif broken:
            seeds.append(seed)
            first = first or broken
    return seeds, first, wrong or (None if seeds else f"rule {rule - TURN + 1} was never broken")


def tell_mistakes(bridge):
    """Plays each script with a mistake, tells what it broke, and gives how many didn't do what they should."""
    faults, rules = 0, set()
    for name in sorted(os.listdir(MISTAKES)):
        seeds, first, wrong = bitten(bridge, os.path.join(MISTAKES, name))
        faults += wrong is not None
        if first:
            rules.add(first.rule)
        print(f"{name}: {wrong or f'{first} ({len(seeds)} of 10 seeds)'}")
    for rule in RULES.keys() - rules:
        print(f"no mistake breaks rule {rule - TURN + 1}")
    return faults + len(RULES.keys() - rules)


def tell_plays(title, all_seen):
    """Tells how plays ended, and gives how many weren't as they should be."""
    entries, refused, unnoticed = (sum(getattr(it, what) for it in all_seen) for what in ("entries", "refused", "unnoticed"))
    print(f"{title}: {len(all_seen)} plays, {entries} lines of journals, {refused} refused puts")
    print(f"{unnoticed} blanks were lost from where the book still has them, since nothing came to feel for them")
    print("\n".join(table(all_seen)), flush=True)
    wrong = [it for it in all_seen if it.wrong]
    for it in wrong:
        wish = it.wish
        print(f"WRONG: {' '.join(wish.words)}, faults {wish.faults}, chance {wish.chance}, seed {wish.seed}: {it.wrong}")
    return len(wrong)


def look(job):
    return seen(*job)


def play_all(pool, title, jobs):
    """Makes all plays of a kind, and says on standard error how far it is."""
    all_seen = []
    for it in pool.imap(look, jobs):
        all_seen.append(it)
        if len(all_seen) % 50 == 0:
            print(f"{title}: {len(all_seen)} of {len(jobs)} plays", file=sys.stderr, flush=True)
    return tell_plays(title, all_seen) if jobs else 0


def main():
    parser = argparse.ArgumentParser(description=__doc__.splitlines()[0])
    parser.add_argument("bridge", metavar="CAA_BRIDGE")
    parser.add_argument("caa", metavar="CAA")
    parser.add_argument("--sim", type=int, default=1000, help="plays by the schedule of a seed (default: %(default)s)")
    parser.add_argument("--run", type=int, default=200, help="plays in threads (default: %(default)s)")
    parser.add_argument("--jobs", type=int, default=2, help="plays at the same time (default: %(default)s)")
    words = parser.parse_args()
    bridge, caa = map(os.path.abspath, (words.bridge, words.caa))
    wrong = 0
    with multiprocessing.Pool(words.jobs) as pool:
        for title, plays, words_of in (
            ("sim", words.sim, lambda seed: ["sim", str(seed)]),
            ("run", words.run, lambda _: ["run"]),
        ):
            wrong += play_all(pool, title, [(bridge, caa, wish) for wish in wishes(plays, words_of)])
    wrong += tell_mistakes(bridge)
    rest = "no rule of safety is broken, each journal is legal, and each blank is accounted for"
    print(f"{wrong} not as they should be" if wrong else rest)
    return 1 if wrong else 0


if __name__ == "__main__":
    sys.exit(main())
