"""The rules of plays in which nothing is nested and nothing is raised, for inputs too large to work out by hand.

All of them stand in docs/journal.md, docs/program.md and docs/script.md. It shares nothing with the program.
"""

MODULUS = 2147483648
MOST_VALUE = 1000000000000


def mixed(number, rounds=1):
    for _ in range(rounds):
        number = (1103515245 * number + 12345) % MODULUS
    return number


class Role:
    """A role: its steps, each a list of words, and its verdict."""

    def __init__(self, name, steps, verdict="done"):
        self.name, self.steps, self.verdict = name, steps, verdict


class Action:
    """An action without nested uses. `handler` is the number of steps of its longest handler, which is never begun."""

    def __init__(self, name, objects, roles, handler=0):
        self.name, self.objects, self.roles, self.handler = name, objects, roles, handler

    def bound(self):
        longest = max(len(role.steps) for role in self.roles)
        return len(self.roles) * (8 + longest + self.handler) + len(self.objects) + 4


class Place:
    """A play while it goes on: who is inside, whether it has started and ended, and who has given a verdict."""

    def __init__(self, number, action, who):
        self.number, self.action, self.who = number, action, who
        self.inside, self.started, self.ended, self.given = set(), False, False, set()
        self.position = {name: 0 for name in who}
        self.register = {name: 0 for name in who}

    def role(self, name):
        return self.action.roles[self.who.index(name)]

    def outcome(self):
        signals = [role.verdict for role in self.action.roles if role.verdict != "done"]
        return signals[0] if signals else "commit"


class Play:
    """All plays of a script, entry by entry."""

    def __init__(self, participants, values, plays):
        self.participants, self.values = participants, dict(values)
        self.places = [Place(number, action, who) for number, (action, who) in enumerate(plays)]
        self.entries = []

    def place_of(self, name):
        """The first play of a participant that it hasn't left."""
        return next((p for p in self.places if name in p.who and not (p.ended and name not in p.inside)), None)

    def is_free(self, thing):
        return not any(p.started and not p.ended and thing in p.action.objects for p in self.places)

    def write(self, place, name, *words):
        self.entries.append(" ".join([words[0], str(place.number), name] + [str(word) for word in words[1:]]))
        return True

    def step(self, place, name, words):
        register = place.register
        place.position[name] += 1
        if words[0] == "check":
            return self.write(place, name, "check")
        if words[0] == "work":
            register[name] = mixed(register[name] % MODULUS, int(words[1]))
            return self.write(place, name, "work", words[1], register[name])
        thing = words[1]
        if words[0] == "read":
            register[name] = self.values[thing]
            return self.write(place, name, "read", thing, register[name])
        value = int(words[2]) + (register[name] if words[0] == "add" else 0)
        register[name] = self.values[thing] = max(-MOST_VALUE, min(MOST_VALUE, value))
        return self.write(place, name, "write", thing, register[name])

    def go(self, name):
        """Makes the one entry of a participant that may come, if there is one."""
        place = self.place_of(name)
        if place is None:
            return False
        if name not in place.inside:
            place.inside.add(name)
            return self.write(place, name, "arrive")
        if not place.started:
            place.started = len(place.inside) == len(place.who) and all(map(self.is_free, place.action.objects))
            return place.started and self.write(place, name, "start")
        if place.ended:
            place.inside.remove(name)
            return self.write(place, name, "leave")
        if name not in place.given:
            role = place.role(name)
            if place.position[name] < len(role.steps):
                return self.step(place, name, role.steps[place.position[name]])
            place.given.add(name)
            return self.write(place, name, "verdict", role.verdict)
        if len(place.given) == len(place.who):
            place.ended = True
            return self.write(place, name, "end", place.outcome())
        return False

    def play(self, seed):
        """Plays to the end by the schedule of the seed, and gives the text of the journal."""
        state, many = seed, len(self.participants)
        while any(self.place_of(name) for name in self.participants):
            state = mixed(state)
            first = state // 65536 % many
            next(True for turn in range(many) if self.go(self.participants[(first + turn) % many]))
        return self.text(self.entries)

    def text(self, entries):
        objects = [f"object {name} {value}" for name, value in self.values.items()]
        outcomes = [f"outcome {p.number} {p.action.name} {p.outcome()}" for p in self.places]
        return lines(["journal"] + entries + objects + outcomes)


def lines(texts):
    return "".join(text + "\n" for text in texts)


def said(action, more=()):
    """The lines of an action."""
    said_lines = [f"action {action.name}", *more, "use " + " ".join(action.objects), "roles " + " ".join(role.name for role in action.roles)]
    for role in action.roles:
        said_lines += [f"body {role.name}"] + [" ".join(step) for step in role.steps] + [role.verdict]
    return said_lines
