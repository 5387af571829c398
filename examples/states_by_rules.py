#!/usr/bin/env python3
"""Compares where everybody stands, as `caa_show where` tells it and `caa_show chart` draws it, with the rules as play_by_rules.py reads
them: at each entry of a journal who may do what, and who has to wait. The journals are plays of the examples, by seeds and with
refusals of the device that are drawn at random; each third has two entries changed about, and is compared as far as it is legal.
It also cuts journals behind a line or within one: every view has to show what is left.

    python3 -B examples/states_by_rules.py CAA_SHOW JOURNALS CUTS

CUTS is how many cuts of each journal are tried, at random; `all` tries each of them."""
import os
import random
import re
import subprocess
import sys
import tempfile

import play_by_rules

HERE = os.path.dirname(os.path.abspath(__file__))
STEPS = ("read", "work", "write", "putfault", "check", "raise")
WORDS = {
    "wait": "has to wait",
    "body": "may make the next step of its body",
    "handler": "may make the next step of its handler",
    "turn": "may go on",
}
BAR = re.compile(r'<rect class="(\w+)" x="\d+" y="(\d+)" width="\d+" height="(\d+)"><title>([^ <]+) ([^<]*)</title>')


def shown(program, view, text, *numbers):
    """The status and the output of a view of a text."""
    with tempfile.NamedTemporaryFile("w", encoding="utf-8") as both:
        both.write(text)
        both.flush()
        run = subprocess.run([program, view, both.name, *numbers], capture_output=True, check=False)
    return run.returncode, run.stdout.decode()


# What is told and drawn.
def standing(line):
    """The participant of a line, and what it may do, or None where it has to wait or is over."""
    name = line.split()[1]
    if " may: " not in line:
        return name, None
    return name, line.split(" may: ")[1].split(" or, where the device refuses: ")


def told(text):
    """For each moment who may do what."""
    moments = []
    for line in text.splitlines():
        if line.startswith("behind entry "):
            moments.append({})
        elif line.startswith("  = "):
            name, may = standing(line)
            moments[-1][name] = may
    return moments


def levels_of(rows):
    """The moment at each height of a picture with so many rows."""
    heights = [148 + row * 20 + row // 40 * 24 for row in range(rows + 1)]
    return {138: 0, **{height: row + 1 for row, height in enumerate(heights)}}


def drawn(text, rows):
    """For each moment what the stretches say that each participant does."""
    levels = levels_of(rows)
    moments = [{} for _ in range(rows + 1)]
    for class_name, top, height, name, words in BAR.findall(text):
        if class_name not in WORDS:
            continue
        assert WORDS[class_name] == words, f"{class_name} is called {words}"
        for moment in range(levels[int(top)], levels[int(top) + int(height)]):
            assert name not in moments[moment], f"two stretches of {name} behind entry {moment}"
            moments[moment][name] = class_name
    return moments


# What is so by the rules.
def may_come(play, entry):
    """The entries that the participant of an entry may make there, whether or not the device takes a put."""
    found = play.may(entry.by)
    if not found:
        return []
    if found.kind in ("write", "putfault"):
        return [play_by_rules.Entry(kind, found.place, found.by, *found.more).text() for kind in ("write", "putfault")]
    if found.kind == "restore":
        return [play_by_rules.Entry("restore", found.place, found.by, *found.more[:-1], how).text() for how in ("well", "failed")]
    return [found.text()]


def looks_as(play, who, entry):
    """How a stretch of a participant looks whose next entry is this one; None where it is in no place or is over."""
    inside = play.inside(who)
    if not inside:
        return None
    if not entry:
        return "wait"
    place = inside[-1]
    in_handler = play.begun(place, who) is not None
    if entry.kind in STEPS or entry.kind == "verdict" and (in_handler or not play.raises(place)):
        return "handler" if in_handler else "body"
    return "body" if entry.kind == "arrive" else "turn"


def differing(script, journal, moments, picture):
    """The first participant that is told of or drawn otherwise than by the rules, with the number of the entry; None where all is by
    the rules. The journal is one of this script, and has its places."""
    play = play_by_rules.Play(script)
    for number in range(len(journal) + 1):
        if number >= len(moments):
            return f"{len(moments)} moments, and by the rules more"
        for who in script.participants:
            entry = play.may(who)
            may = entry.text() if entry else None
            said = moments[number][who]
            if (may is None) != (said is None) or (may and may not in said):
                return f"behind entry {number} {who}: {said}, and by the rules {may}"
            looks = looks_as(play, who, entry)
            if looks != picture[number].get(who):
                return f"behind entry {number} {who} is drawn {picture[number].get(who)}, and by the rules {looks}"
        if number == len(journal):
            break
        if journal[number].text() not in may_come(play, journal[number]):
            if any(picture[number + 1 :]):
                return f"stretches behind entry {number}, the last that is legal"
            break
        play.past.append(journal[number])
    return None if len(moments) == number + 1 else f"{len(moments)} moments, and by the rules {number + 1}"


# Journals at random.
def scripts():
    """The scripts of the examples that are played by `sim` and aren't long."""
    found = []
    for name in sorted(os.listdir(os.path.join(HERE, "cases"))):
        if not name.endswith(".args"):
            continue
        case = os.path.join(HERE, "cases", name[:-5])
        output = play_by_rules.text_of(case + ".stdout")
        if play_by_rules.text_of(case + ".args").startswith("sim") and output.startswith("journal\n") and len(output) < 6000:
            found.append((name[:-5], play_by_rules.text_of(case)))
    return found


def with_drills(chance, text):
    """A script with up to three refusals of the device more."""
    script = play_by_rules.Script(text)
    drills = set()
    for _ in range(chance.randrange(4) if script.objects else 0):
        drills.add((chance.choice(sorted(script.objects)), chance.randrange(1, 6)))
    return text + "".join(f"drill {thing} {number}\n" for thing, number in sorted(drills - script.drills))


def entries_of(script, seed):
    """The entries of a play of a script."""
    play, state = play_by_rules.Play(script), seed
    count = len(script.participants)
    while True:
        state = (1103515245 * state + 12345) % 2147483648
        first = state // 65536 % max(count, 1)
        asked = [script.participants[(first + it) % count] for it in range(count)]
        found = next(filter(None, map(play.may, asked)), None)
        if not found:
            return play.past
        play.past.append(found)


def cuts_of(journal):
    """The text of a journal, cut behind each of its lines but the last, and within each."""
    at, found = 0, []
    for line in journal.splitlines(keepends=True):
        at += len(line)
        found += [journal[: at - len(line) // 2], journal[:at]]
    return found[1:-1]


def is_cut_shown(program, script, part):
    """Whether each view shows a journal that was cut off."""
    if shown(program, "explain", script + part)[1].count("breaks off") != 1:
        return False
    status, page = shown(program, "page", script + part)
    if status != 7 or not page.startswith("<!doctype html>") or "breaks off" not in page:
        return False
    return all(shown(program, view, script + part)[0] == 0 for view in ("story", "chart", "where", "trace"))


def main():
    program, count, most_cuts = sys.argv[1], int(sys.argv[2]), sys.argv[3]
    chance, found, wrong, moments, cuts = random.Random(57), scripts(), [], 0, 0
    for number in range(count):
        name, script = found[number % len(found)]
        script, seed = with_drills(chance, script), chance.randrange(1, 1000000)
        read = play_by_rules.Script(script)
        journal, text = entries_of(read, seed), play_by_rules.journal_of(script, seed)
        where = f"{name}, journal {number}"
        if most_cuts == "all" and number < len(found) or most_cuts != "all":
            parts = cuts_of(text)
            parts = parts if most_cuts == "all" else chance.sample(parts, min(int(most_cuts), len(parts)))
            cuts += len(parts)
            wrong += [f"{where}: cut to {len(it)} bytes it isn't shown" for it in parts if not is_cut_shown(program, script, it)]
        if number % 3 == 2 and len(journal) > 1:
            at = chance.randrange(len(journal) - 1)
            journal[at : at + 2] = [journal[at + 1], journal[at]]
        text = "".join(f"{line}\n" for line in ["journal", *[it.text() for it in journal]])
        told_of = told(shown(program, "where", script + text, "0", "1000000")[1])
        picture = drawn(shown(program, "chart", script + text)[1], len(journal))
        fault = differing(read, journal, told_of, picture)
        moments += len(told_of) * len(read.participants)
        wrong += [f"{where}, seed {seed}: {fault}"] if fault else []
    print(f"{count} journals, {moments} moments of participants, {cuts} cut journals, {len(wrong)} wrong")
    print("".join(f"{it}\n" for it in wrong), end="")
    sys.exit(1 if wrong or not moments else 0)


if __name__ == "__main__":
    main()
