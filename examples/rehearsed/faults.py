"""Holds each line of `caa_show faults .. pairs csv` against the journal that `playing` prints for its schedule and drills: `caa audit`
finds it legal; it is the journal without a fault up to the first put that it refuses, which stands at the line; it refuses what the mode
says and nothing else; and what is raised, resolved and left, and how the place and the play end, is what the line says. Called by
compare.py."""
import collections
import csv
import os

import play_by_rules

PUTS = ("write", "putfault", "restore")
COLUMNS = ("raised", "resolved", "place", "play", "away", "short", "class")


def step_lines(text):
    """The numbers of the lines of the steps of each body and handler, by action, role and exception."""
    found, action, steps = {}, None, []
    for number, line in enumerate(text.split("\n"), 1):
        word, *rest = line.split() or ["#"]
        if word == "action":
            action = rest[0]
        elif word in ("body", "handler"):
            steps = found[action, rest[0], rest[1] if rest[1:] else None] = []
        elif word in play_by_rules.STEPS:
            steps.append(number)
    return found


class Told:
    """A script, and what its plays come to without a fault."""

    def __init__(self, text):
        self.script, self.lines, self.text = play_by_rules.Script(text), step_lines(text), text.split("\n")
        self.counted = {line.split()[1] for line in self.text if line.split()[:1] == ["add"]}
        self.bases, self.usual, self.ways = {}, collections.defaultdict(set), collections.defaultdict(set)

    def add_base(self, number, journal):
        self.bases[number] = base = self.entries(journal)
        for play in self.script.plays:
            self.ways[play].add(end_of(base, play))
            for thing, value in self.values_at_end(base, play).items():
                self.usual[play, thing].add(value)

    def entries(self, journal):
        rows = [line.split() for line in journal.splitlines()]
        return [play_by_rules.Entry(kind, self.script.places[int(rest[0])], *rest[1:]) for kind, *rest in rows if kind not in ("object", "outcome")]

    def values_at_end(self, entries, play):
        """The values of the objects of a play when it ended."""
        values = {thing: str(value) for thing, value in self.script.objects.items()}
        for entry in entries:
            if entry.kind == "write" or entry.kind == "restore" and entry.more[-1] == "well":
                values[entry.more[0]] = entry.more[1]
            if entry.kind == "end" and entry.place is play:
                break
        return {thing: values[thing] for thing in self.script.objects if thing in play.action.uses}

    def begun(self, entries, index):
        """The exception whose handler the maker of an entry had begun, or None."""
        entry = entries[index]
        found = [it.more[0] for it in entries[:index] if it.kind == "handle" and it.place is entry.place and it.by == entry.by]
        return found[0] if found else None

    def spot(self, entries, index):
        """Where a put stands, as the first columns say it."""
        entry = entries[index]
        if entry.kind == "restore":
            return "", f"set back {entry.more[0]}", entry.place.action.name, ""
        before = play_by_rules.Play(self.script)
        before.past = entries[:index]
        role = entry.place.roles[entry.by]
        number = self.lines[entry.place.action.name, role, self.begun(entries, index)][before.position(entry.place, entry.by)]
        return str(number), " ".join(self.text[number - 1].split()), entry.place.action.name, role

    def effect(self, entries, index):
        """What comes of a put, as the columns from `raised` to `class` say it."""
        place = entries[index].place
        around = [place, *place.round()]
        play = around[-1]
        raised = "-" if entries[index].kind == "restore" else "(undo)" if self.begun(entries, index) else place.action.fault
        later = {it.place: it.more[0] for it in entries[index:] if it.kind == "resolve"}
        resolved = " > ".join(later[it] for it in around if it in later) or "-"
        strange = {thing: value for thing, value in self.values_at_end(entries, play).items() if value not in self.usual[play, thing]}
        first = {thing: str(value) for thing, value in self.script.objects.items()}
        away = [f"{it}={value}" for it, value in strange.items() if value != first[it] and it not in self.counted]
        short = [f"{it}={value}" for it, value in strange.items() if value == first[it]]
        how = end_of(entries, play)
        kind = "undone" if how == "undone" else "failed" if how.split()[0] not in ("commit", "signal") else "left" if away else (
            "told" if short or how not in self.ways[play] else "same")
        return raised, resolved, end_of(entries, place), how, " ".join(away), " ".join(short), kind


def end_of(entries, place):
    return next((" ".join(it.more) for it in entries if it.kind == "end" and it.place is place), "none")


def puts_of(entries):
    """Each put: the index of its entry, its object, which put of that object and of all it is, and whether it was refused."""
    found, nth = [], collections.Counter()
    for index, it in enumerate(entries):
        if it.kind in PUTS:
            nth[it.more[0]] += 1
            found.append((index, it.more[0], nth[it.more[0]], len(found) + 1, it.kind == "putfault" or it.more[-1] == "failed"))
    return found


def wants(drills):
    """Whether drills, as `playing` takes them, refuse a put: a test of the object and both numbers."""
    words = drills.split()
    if words[0] == "from":
        return lambda thing, nth, count: count >= int(words[1])
    if words[-1] == "on":
        return lambda thing, nth, count: thing == words[0] and nth >= int(words[1])
    named = set(zip(words[::2], map(int, words[1::2])))
    return lambda thing, nth, count: (thing, nth) in named


def mistakes_of(told, row, journal, judged):
    """What is wrong with a line of the table, by the journal of its schedule and drills."""
    entries = told.entries(journal)
    puts, refuse = puts_of(entries), wants(row["drills"])
    refused = [it for it in puts if it[-1]]
    if not judged.startswith("legal "):
        yield judged.strip()
    if refused != [it for it in puts if refuse(*it[1:4])] or not refused:
        yield f"refused {refused}"
        return
    if row["mode"] == "once" and len(refused) != 1 or row["mode"] in ("pair", "and restore") and len(refused) != 2:
        yield f"{len(refused)} puts refused"
    first, base = refused[0][0], told.bases[int(row["schedule"])]
    if [it.text() for it in entries[:first]] != [it.text() for it in base[:first]]:
        yield "another way before the put"
    spot = told.spot(entries, first)
    if spot != (row["line"], row["item"], row["action"], row["role"]):
        yield f"stands at {spot}"
    shown = tuple(row[it] for it in COLUMNS)
    effect = told.effect(entries, refused[-1][0] if row["mode"] == "pair" else first)
    if effect != shown:
        yield f"comes to {effect}"


def counted(told, rows):
    """Rows of which the table doesn't count as many puts as the journals without a fault have, and those it leaves out."""
    wanted, tried, seen = collections.Counter(), {}, collections.Counter()
    for entries in told.bases.values():
        wanted.update(told.spot(entries, index) for index, *_, is_refused in puts_of(entries) if not is_refused)
    for row in rows:
        spot = row["line"], row["item"], row["action"], row["role"]
        tried[spot] = int(row["tried"])
        seen[spot] += int(row["seen"]) if row["mode"] == "once" else 0
    return [spot for spot in {*wanted, *tried} if not wanted[spot] == tried.get(spot) == seen[spot]]


def compare(run, show, caa, path, schedules):
    """Prints what is wrong with the table of a script by so many schedules: how many lines it has, and how many are wrong."""
    with open(path, encoding="ascii") as file:
        told = Told(file.read())
    for number in range(1, schedules + 1):
        told.add_base(number, run(show, "playing", path, str(number), "bare").split("\njournal\n")[1])
    rows = list(csv.DictReader(run(show, "faults", path, str(schedules), "pairs", "csv").splitlines()))
    wrong = 0
    for row in rows:
        text = run(show, "playing", path, row["schedule"], "bare", *row["drills"].split())
        for mistake in mistakes_of(told, row, text.split("\njournal\n")[1], run(caa, "audit", input=text.encode())):
            print(f"{os.path.basename(path)}: {','.join(row.values())}: {mistake}")
            wrong += 1
    for spot in counted(told, rows):
        print(f"{os.path.basename(path)}: not as many puts as the journals have at {spot}")
        wrong += 1
    return len(rows), wrong
