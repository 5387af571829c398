#!/usr/bin/env python3
"""Hunts for journals that break rules as docs/interlocks.md says, and prints what `caa_show interlock` has to print. The journals are
those of play_by_rules.py, in the orders of docs/rehearse.md; it shares nothing with the program, and is slow.

    python3 -B examples/interlocks/hunt.py RULES [PLAYS] < SCRIPT"""
import itertools
import os
import sys

import monitor

sys.path.insert(0, os.path.dirname(os.path.dirname(os.path.abspath(__file__))))
import play_by_rules  # noqa: E402

WORD = 2**64
WAKE_NOBODY = ("start", "read", "work", "write", "check", "resolve", "handle", "undo", "restore")
LATER = ((), (1,), (2,), (3,), (1, 2), (1, 3), (2, 3), (1, 2, 3))


class Draws:
    """SplitMix64."""

    def __init__(self, start):
        self.state = start

    def below(self, count):
        self.state = (self.state + 11400714819323198485) % WORD
        mixed = (self.state ^ self.state >> 30) * 13787848793156543929 % WORD
        mixed = (mixed ^ mixed >> 27) * 10723151780598845931 % WORD
        return (mixed ^ mixed >> 31) % count


class Fair:
    """Each of those who are awake is as likely to be asked as the others."""

    def __init__(self, number):
        self.draws = Draws(number)

    def pick(self, awake):
        return awake[self.draws.below(len(awake))]

    def went(self, _):
        pass


class Ranked:
    """The highest rank of those who are awake is asked."""

    def __init__(self, number, participants, length):
        draws, falls = Draws(number), (0, 1, 2, 4)[number // 2 % 4]
        ranks = [falls + index for index in range(len(participants))]
        for index in range(1, len(ranks)):
            other = draws.below(index + 1)
            ranks[index], ranks[other] = ranks[other], ranks[index]
        self.ranks, self.turn = dict(zip(participants, ranks)), 0
        self.falls = [draws.below(max(length, 1)) for _ in range(falls)]

    def pick(self, awake):
        return max(awake, key=self.ranks.get)

    def went(self, who):
        for rank, turn in enumerate(self.falls):
            if turn == self.turn:
                self.ranks[who] = rank
        self.turn += 1


def entries_of(text, order_of, refused):
    """The entries of a journal, as lists of words: played in an order, with these puts refused and no others."""
    script = play_by_rules.Script(text)
    script.drills = set(refused)
    play, order, awake = play_by_rules.Play(script), order_of(script.participants), list(script.participants)
    while awake:
        who = order.pick(awake)
        found = play.may(who)
        if not found:
            awake.remove(who)
            continue
        play.past.append(found)
        order.went(who)
        if found.kind not in WAKE_NOBODY:
            awake = list(script.participants)
    return [e.text().split() for e in play.past]


class Hunt:
    """The journals of a script, one after the other, and the rules that they break."""

    def __init__(self, text, rules_text, most):
        self.text, self.most, self.plays = text, most, 0
        lines = [line.split("#")[0].split() for line in rules_text.splitlines()]
        self.taken = [name for words in lines if words[:1] == ["taken"] for name in words[1:]]
        self.lines = rules_text.splitlines()
        self.first = {words[1]: int(words[2]) for words in map(str.split, text.splitlines()) if words[:1] == ["object"]}
        self.open, self.found = dict(monitor.rules_of(rules_text)), {}
        self.length = len(entries_of(text, lambda _: Fair(0), ()))

    def play(self, number, refused):
        """Plays once, unless it is over, and judges the journal."""
        if not self.open or self.plays >= self.most:
            return None
        fair = number % 2 == 1
        entries = entries_of(self.text, lambda who: Fair(number) if fair else Ranked(number, who, self.length), refused)
        self.plays += 1
        for line, rule in list(self.open.items()):
            entry = monitor.first_break(rule, self.first, entries)
            if entry is not None:
                self.found[line] = number, refused, entry, entries
                del self.open[line]
        return entries

    def puts(self, entries):
        """The puts of a journal that may be refused, each with its number among those of its object."""
        counts = {}
        for put in filter(None, map(monitor.put_of, entries)):
            counts[put[0]] = counts.get(put[0], 0) + 1
            if put[0] not in self.taken:
                yield put[0], counts[put[0]]

    def run(self):
        bases = {number: list(self.puts(self.play(number, ()) or ())) for number in range(1, 21)}
        for later, number in itertools.product(LATER, range(1, 5)):
            for name, nth in bases[number]:
                self.play(number, ((name, nth), *((name, nth + more) for more in later)))

    def places(self, name, entries):
        """Where an object may be after these entries: where it may have come last stands first."""
        found = []
        for put in filter(None, map(monitor.put_of, reversed(entries))):
            if put[0] == name and put[1] not in found:
                found.append(put[1])
            if put[0] == name and put[2]:
                return found
        return found + [self.first[name]] * (self.first[name] not in found)

    def told(self, script="-", file="<stdin>"):
        """What is told of each rule."""
        rules = dict(monitor.rules_of("\n".join(self.lines)))
        for line, rule in rules.items():
            words = " ".join(self.lines[line - 1].split("#")[0].replace(",", " , ").split()).replace(" ,", ",")
            if line in self.found:
                number, refused, entry, entries = self.found[line]
                yield f"{file}:{line}: broken: {words}"
                call = " ".join(["caa_show playing", script, str(number), "bare", *(f"{name} {nth}" for name, nth in refused)])
                yield f"  entry {entry} of `{call}`: {' '.join(entries[entry - 1])}" if entry else "  the first values break it"
                before = entries[: entry - 1 if rule.when else entry]
                names = dict.fromkeys(([rule.asked.object] if rule.when == "moved" else []) + [it.object for it in rule.parts])
                if names:
                    yield "  " + ", ".join(f"{name} may be {' or '.join(map(str, self.places(name, before)))}" for name in names)
            else:
                yield f"{file}:{line}: not seen in {self.plays} plays: {words}"
        if self.taken:
            yield f"in journals where the device takes each put of {' '.join(self.taken)}"


def main():
    with open(sys.argv[1], encoding="ascii") as file:
        hunt = Hunt(sys.stdin.read(), file.read(), int(sys.argv[2]) if sys.argv[2:] else 2000)
    hunt.run()
    print("\n".join(hunt.told(file=sys.argv[1])))


if __name__ == "__main__":
    main()
