"""Runs the program on inputs near its limits, with a watch, and with faults outside, and compares what it prints and how it ends.

    python3 examples/large/compare.py PROGRAM
"""

import os
import resource
import subprocess
import sys

from rules import Action, Play, Role, lines, said

SEED = 2147483647
MOST_AUDITED = 1_000_000
EXAMPLES = os.path.join(os.path.dirname(os.path.abspath(__file__)), "..")
CASES = os.path.join(EXAMPLES, "cases")
WORKED = os.path.join(EXAMPLES, "worked")

# ---- a script of about 100,000 bytes with each kind of line

WALKERS = [f"p{n}" for n in range(8)]
VALUES = {f"o{n}": 7 * n - 40 for n in range(40)}
COMMENT = "# " + "-" * 500

UNIT = """graph faults{k}
exception jam
exception slip
exception stop
cover stop jam
cover stop slip
end
graph told{k}
exception lost
end
action small{k}
interface told{k}
use o1 o2
roles a b
body a
read o1
add o1 1
put o2 -5
work 3
signal lost
body b
check above 100 universal
done
handler b universal
read o2
abort a above 3 lost
abort b lost
end
action other{k}
interface told{k}
use o1
roles a b
end
action large{k}
internal faults{k}
interface told{k}
fault jam
use o3 o2 o1
roles x y
nest n small{k} x y
alternate n other{k}
map n lost stop
mapundo n slip
mapfailure n stop
body x
enter n
raise jam
body y
enter n
check equal 0 slip
undo
handler x jam
put o3 1
undo
handler y stop
read o3
signal lost
end
""" + COMMENT + "\n"


def walk(number):
    """An action that is played: its roles read, mix, add, test and put."""
    first, second = f"o{3 * number}", f"o{3 * number + 1}"
    steps = [["read", first], ["work", str(number)], ["check", "below", "-1", "universal"], ["put", second, str(-number)], ["read", first], ["add", first, "3"]]
    return Action(f"walk{number}", [first, second], [Role("lead", steps), Role("follow", steps[1:3] * 2), Role("last", [], "signal lost")], 1)


def all_kinds():
    """The script, what `check` prints of it, and what `sim` prints."""
    actions = [walk(number) for number in range(12)]
    plays = [(action, [WALKERS[(number + turn) % 8] for turn in (0, 3, 5)]) for number, action in enumerate(actions)]
    script = [f"participant {name}" for name in WALKERS] + [f"object {name} {value}" for name, value in VALUES.items()]
    script += [f"watch o{n}" for n in range(16)] + [f"drill o{n} 1000" for n in range(40)]
    script += [line for k in range(79) for line in UNIT.format(k=k).splitlines()]
    for action in actions:
        script += said(action, ["interface told0"]) + ["handler lead universal", "work 1", "end"]
    script += [f"play {action.name} " + " ".join(who) for action, who in plays]
    counts = f"ok participants 8 objects 40 places {len(plays)} bound {sum(action.bound() for action in actions)}"
    return lines(script), counts + "\n", Play(WALKERS, VALUES, plays).play(SEED)


# ---- a journal of nearly 5,000 entries, and one past the limit

def long_journal():
    """A script, and a play of it."""
    who = [f"p{n}" for n in range(16)]
    values = {f"o{n}": n for n in range(16)}
    plays = []
    for number, steps in enumerate((256, 48)):
        roles = []
        for n in range(16):
            turn = [["read", f"o{n}"], ["add", f"o{n}", "2"], ["check", "equal", "-1", "universal"], ["work", "1"]]
            roles.append(Role(f"r{n}", (turn * 64)[:steps]))
        plays.append((Action(f"long{number}", list(values), roles), who))
    script = [f"participant {name}" for name in who] + [f"object {name} {value}" for name, value in values.items()]
    for action, _ in plays:
        script += said(action) + ["end"]
    script += [f"play {action.name} " + " ".join(who) for action, who in plays]
    play = Play(who, values, plays)
    play.play(SEED)
    return script, play


def with_other_work(entries):
    """The entries with a wrong result in the last `work`, and the index of that."""
    index = max(index for index, entry in enumerate(entries) if entry.startswith("work"))
    return entries[:index] + [entries[index] + "0"] + entries[index + 1:], index


def audits():
    """Inputs of `audit`, with the status and the text that each is to be answered with."""
    script, play = long_journal()
    front, many = lines(script), len(play.entries)
    other, index = with_other_work(play.entries)
    past = ["arrive 0 p0"] * (MOST_AUDITED + 1)
    return [
        ("a long journal", front + play.text(play.entries), 0, f"legal {many}\n"),
        ("a wrong entry near its end", front + play.text(other), 7, f"illegal {len(script) + index + 2}\n"),
        ("the script alone", front, 7, f"illegal {len(script) + 1}\n"),
        ("without its last line", front + play.text(play.entries)[: -len("outcome 1 long1 commit\n")], 7, f"illegal {front.count(chr(10)) + play.text(play.entries).count(chr(10))}\n"),
        ("too many entries", front + play.text(past), 4, f"refused {len(script) + MOST_AUDITED + 2} 19 limit\n"),
    ]


# ---- scripts at their limits, and journals of nearly a million entries

def nesting(name, lower, uses):
    """The lines of an action of one role, which enters so many uses of another action, one after another."""
    body = ["body r"] if uses else []
    return ([f"action {name}", "roles r"] + [f"nest n{n} {lower} r" for n in range(uses)] + body
            + [f"enter n{n}" for n in range(uses)] + ["end"])


def own_bound(steps):
    """The entries of a place with one role of so many steps, and without handlers and objects."""
    return 8 + steps + 4


def places(uses):
    """A play with so many uses of an action that has 256 uses of a third one."""
    return ["participant p"] + nesting("low", None, 0) + nesting("middle", "low", 256) + nesting("high", "middle", uses) + ["play high p"]


def levels(depth, uses):
    """A play of an action of this depth, of which each level has so many uses of the next."""
    script = ["participant p"] + nesting("a1", None, 0)
    for level in range(2, depth + 1):
        script += nesting(f"a{level}", f"a{level - 1}", uses)
    return script + [f"play a{depth} p"]


def works(plays):
    """So many plays of an action of 256 steps."""
    return ["participant p", "action a", "roles r", "body r"] + ["work 0"] * 256 + ["end"] + ["play a p"] * plays


def played_works(plays):
    """How many entries a play of that has: each place has 5 beside its steps."""
    return plays * (5 + 256)


def exceptions(count):
    """A graph of so many exceptions, `universal` not among them, each of which covers the next."""
    names = [f"e{n}" for n in range(count)]
    return ["graph g"] + [f"exception {name}" for name in names] + [f"cover {a} {b}" for a, b in zip(names, names[1:])] + ["end"]


def without_covers(count):
    """A graph of so many exceptions, `universal` not among them, which covers each of them and is the only one that does."""
    return ["graph g"] + [f"exception e{n}" for n in range(count)] + ["end"]


def limits():
    """Scripts at a limit and past it, with the status and the text of `check`."""
    middle = own_bound(256) + 256 * own_bound(0)
    past_places, deep, nine = places(256), levels(8, 32), levels(9, 1)
    everybody = [f"participant p{n}" for n in range(64)]
    return [
        ("65,536 places", places(255), 0, f"ok participants 1 objects 0 places 65536 bound {own_bound(255) + 255 * middle}\n"),
        ("one use more", past_places, 4, f"refused {len(past_places)} 19 limit\n"),
        ("32 uses at each of eight levels", deep, 4, f"refused {len(deep)} 19 limit\n"),
        ("eight levels", levels(8, 1), 0, f"ok participants 1 objects 0 places 8 bound {own_bound(0) + 7 * own_bound(1)}\n"),
        ("nine levels", nine, 4, f"refused {nine.index('nest n0 a8 r') + 1} 18 too-deep\n"),
        ("64 participants", everybody, 0, "ok participants 64 objects 0 places 0 bound 0\n"),
        ("one participant more", everybody + ["participant q"], 4, "refused 65 19 limit\n"),
        ("a bound of 999,908", works(3731), 0, f"ok participants 1 objects 0 places 3731 bound {3731 * own_bound(256)}\n"),
        ("one play more", works(3732), 4, f"refused {len(works(3732))} 20 journal-bound\n"),
        ("a graph of 64 without covers", without_covers(63), 0, "ok participants 0 objects 0 places 0 bound 0\n"),
        ("a graph of 65 without covers", without_covers(64), 0, "ok participants 0 objects 0 places 0 bound 0\n"),
        ("a graph of 128", exceptions(127), 0, "ok participants 0 objects 0 places 0 bound 0\n"),
        ("one exception more", exceptions(128), 4, "refused 129 19 limit\n"),
    ]


# ---- graphs of many sizes

SIZES = (8, 9, 16, 17, 32, 33, 64, 65, 128)


def duo(size):
    """A graph of so many exceptions, `universal` among them: below `top` a chain, and beside it a pair with a cover of its own. Two
    roles raise the pair."""
    chain = ["top"] + [f"link{n}" for n in range(size - 5)]
    covers = [*zip(chain, chain[1:]), ("top", "both"), ("both", "left"), ("both", "right")]
    graph = [f"exception {name}" for name in chain + ["both", "left", "right"]] + [f"cover {a} {b}" for a, b in covers]
    roles = [line for name in ("left", "right") for line in (f"body {name}", f"raise {name}", f"handler {name} both")]
    return [f"graph g{size}", *graph, "end", f"action a{size}", f"internal g{size}", "roles left right", *roles, "end"]


def graphs_of_many_sizes(program):
    """Whoever resolves a place resolves it to the cover of the pair, and not to `top`."""
    script = ["participant ann", "participant bob"] + [line for size in SIZES for line in duo(size)]
    script += [f"play a{size} ann bob" for size in SIZES]
    for seed in ("1", "2", "3"):
        played = subprocess.run([program, "sim", seed], input=lines(script).encode(), stdout=subprocess.PIPE)
        resolved = [line.split() for line in played.stdout.decode().splitlines() if line.startswith("resolve ")]
        found = [(int(place), exception) for _, place, _, exception in resolved]
        right = played.returncode == 0 and found == [(place, "both") for place in range(len(SIZES))]
        print(f"sim {seed} over graphs of {SIZES}: {'as wanted' if right else f'status {played.returncode}, {found}'}")
        if not right:
            wrong.append("graphs of many sizes")


# ---- the production cell

def cycles_of(cycles):
    """How many of so many cycles are plain, jammed and lost."""
    lost = cycles // 10
    jammed = cycles // 5 - lost
    return cycles - jammed - lost, jammed, lost


def cell_summary(cycles):
    """What `cell` prints. A plain cycle has three commits and one more piece; a jammed one has two, a signal and one more for the
    scrap; a lost one has a commit inside, and is undone."""
    plain, jammed, lost = cycles_of(cycles)
    ends = [f"commit {3 * plain + 2 * jammed + lost}", f"signal {jammed}", f"undone {lost}", "aborted 0", "failed 0"]
    things = ["object table 0", "object arm 0", "object plate 0", f"object out {plain}", f"object scrap {jammed}"]
    return lines([f"cell {cycles}", *ends, *things])


def cell_counts(cycles):
    """What `check` prints of the script that `cell` plays: of its actions load, forge, forge_jam, plain, jammed and lost each has
    the bound that its roles, its longest body and handler, and its objects make."""
    load, forge, forge_jam = 2 * (8 + 1) + 2 + 4, 2 * (8 + 4) + 3 + 4, 2 * (8 + 1 + 2) + 3 + 4
    outer = [3 * (8 + steps) + 5 + 4 for steps in (2, 2 + 1, 1)]
    plain, jammed, lost = cycles_of(cycles)
    bound = plain * (outer[0] + load + forge) + jammed * (outer[1] + load + forge_jam) + lost * (outer[2] + load)
    return f"ok participants 3 objects 5 places {3 * plain + 3 * jammed + 2 * lost} bound {bound}\n"


def cell_script(cycles):
    """That script: what stands before the plays of a shift, and a play for each cycle."""
    with open(os.path.join(CASES, "shift_of_a_cell")) as file:
        front = [line for line in file.read().splitlines() if not line.startswith("play ")]
    for cycle in range(1, cycles + 1):
        front.append(f"play {'lost' if cycle % 10 == 0 else 'jammed' if cycle % 5 == 0 else 'plain'} feeder robot press")
    return lines(front)


# ---- words and short scripts

USAGE = "usage: check | sim SEED | run | audit | cell N | graph K | messages SEED | pool W\n"


def wrong_words():
    """Words that are no command."""
    return [[], ["sim"], ["sim", "01"], ["sim", "-0"], ["sim", "2147483648"], ["sim", "1", "1"], ["check", "1"], ["audit", "1"],
            ["run", "1"], ["messages"], ["messages", "2147483648"], ["cell"], ["cell", "0"], ["cell", "01"], ["cell", "2001"],
            ["cell", "1", "1"], ["--help"]]


def refusals():
    """Short scripts, with the line that tells why each is refused."""
    rivals = ["graph f", "exception z", "end", "graph g", "exception c", "exception d", "exception a", "exception b"]
    rivals += ["cover c a", "cover c b", "cover d a", "cover d b", "end"]
    return [
        (["object x 1000000000001"], "refused 1 2 bad-number\n"),
        (["participant 9a"], "refused 1 3 bad-name\n"),
        (["object x 1", "object x 2"], "refused 2 11 twice\n"),
        (["play w ann"], "refused 1 10 unknown\n"),
        (["participant ann", "action w"], "refused 3 1 bad-line\n"),
        (["participant ann", "action w", "end"], "refused 3 14 role-unfilled\n"),
        (rivals, "refused 13 13 no-least a b\n"),
        (["graph f", "exception a", "end", "graph g", "exception a", "cover a universal", "end"], "refused 7 12 cycle universal\n"),
        (ring_and_rivals(), "refused 14 12 cycle e\n"),
        (["graph g", "exception e", "end", "action a", "internal g", "roles r", "handler r e", "done", "handler r e", "end"], "refused 9 11 twice\n"),
        (["action a", "roles r", "end", "action b", "roles r", "nest n a r r", "end"], "refused 6 14 role-unfilled\n"),
        (["action a", "roles r", "end", "action b", "roles r", "nest n a r", "end"], "refused 7 16 nest-order\n"),
        (["object x 1", "action a", "roles r", "body r", "read x", "use x", "end"], "refused 5 17 object-not-held\n"),
    ]


def ring_and_rivals():
    """A graph of which two exceptions have no least cover, and in which two others stand above one another."""
    covers = [("c", "a"), ("c", "b"), ("d", "a"), ("d", "b"), ("f", "e"), ("e", "f")]
    return ["graph g"] + [f"exception {name}" for name in "cdabef"] + [f"cover {a} {b}" for a, b in covers] + ["end"]


# Texts with a line that can't be read, the number of that line, and what it is refused for.
UNREADABLE = [
    # words that begin no line of their block, and lines with too many or too few words
    (b"action w\nenter a\nend\n", 2, "1 bad-line"),
    (b"action w\nhandler a e\nenter n\n", 3, "1 bad-line"),
    (b"cover a b\n", 1, "1 bad-line"),
    (b"end\n", 1, "1 bad-line"),
    (b"Object x 5\n", 1, "1 bad-line"),
    (b"participant\n", 1, "1 bad-line"),
    (b"participant ann bob\n", 1, "1 bad-line"),
    (b"play w\n", 1, "1 bad-line"),
    (b"action w\nnest n w\n", 2, "1 bad-line"),
    (b"action w\nabort a below 5\n", 2, "1 bad-line"),
    # a word that should be a test, or a name, and is none
    (b"action w\nbody a\ncheck under x 2\n", 3, "1 bad-line"),
    (b"action w\nbody 1\ncheck under x 2\n", 2, "3 bad-name"),
    # bytes that no line may have
    (b"object x 5\nobject y\x7f 5\n", 2, "1 bad-line"),
    (b"participant a\x80\n", 1, "1 bad-line"),
    (b"participant 9a \x00\n", 1, "1 bad-line"),
    # numbers that are none, and numbers out of range
    (b"object x -1000000000001\n", 1, "2 bad-number"),
    (b"object x -0\n", 1, "2 bad-number"),
    (b"object x 05\n", 1, "2 bad-number"),
    (b"object x +5\n", 1, "2 bad-number"),
    (b"object x -\n", 1, "2 bad-number"),
    (b"object x 18446744073709551616\n", 1, "2 bad-number"),
    (b"drill x 0\n", 1, "2 bad-number"),
    (b"drill x 1000001\n", 1, "2 bad-number"),
    (b"action w\nbody a\nwork -1\n", 3, "2 bad-number"),
    (b"action w\nbody a\nwork 1000001\n", 3, "2 bad-number"),
    (b"action w\nabort a below x 9\n", 2, "2 bad-number"),
    # names that are none, and the leftmost of two words that don't fit
    (b"participant _a\n", 1, "3 bad-name"),
    (b"participant a.b\n", 1, "3 bad-name"),
    (b"participant a23456789012345678901234567890123\n", 1, "3 bad-name"),
    (b"object 9 9a\n", 1, "3 bad-name"),
    (b"object x 9a\nobject 9a 5\n", 1, "2 bad-number"),
    # texts that end inside a block
    (b"graph g\n", 2, "1 bad-line"),
    (b"graph g\nexception e\n", 3, "1 bad-line"),
    (b"action w\nroles a\n", 3, "1 bad-line"),
    (b"action w\nroles a\nbody a\n", 4, "1 bad-line"),
    (b"action w\nroles a\nbody a\nend\nplay w ann\naction v", 7, "1 bad-line"),
    # too many bytes in a line, be it a comment or blanks, and in a script
    (b"object x 5\n#" + b"c" * 16_384, 2, "4 too-long"),
    (b"object x 5" + b" " * 16_375, 1, "4 too-long"),
    (b"\n" * 1_048_577, 0, "4 too-long"),
]

# Texts that are read, and how many participants and objects they have.
READABLE = [
    (b"", 0, 0),
    (b"# c\n participant\tann\r\n\nobject x 5", 1, 1),
    (b"#\x00\x80\xff\n \t\r\n\n  # \x7f\nobject x 5\n", 0, 1),
    (b"# " + b"c" * 16_382, 0, 0),
    (b"object x 5" + b" " * 16_374, 0, 1),
    (b"\n" * 1_048_576, 0, 0),
]


# ---- comparing

wrong = []


def compare(name, program, words, status, text, **streams):
    """Runs the program, and compares its status, and its text where one or several that it may be are given."""
    ended = subprocess.run([program, *words], **{"stdout": subprocess.PIPE, **streams})
    texts = [text] if isinstance(text, str) else text
    right = ended.returncode == status and (texts is None or ended.stdout.decode() in texts)
    print(f"{name}: {'as wanted' if right else f'status {ended.returncode}, not {status}, or another text'}")
    if not right:
        wrong.append(name)


def large_inputs(program):
    script, counts, journal = all_kinds()
    compare(f"check of {len(script)} bytes", program, ["check"], 0, counts, input=script.encode())
    compare(f"sim {SEED} of it", program, ["sim", str(SEED)], 0, journal, input=script.encode())
    for name, given, status, text in audits():
        compare(f"audit: {name}", program, ["audit"], status, text, input=given.encode())


def scripts_at_limits(program):
    for name, script, status, text in limits():
        compare(f"check: {name}", program, ["check"], status, text, input=lines(script).encode())


def long_shifts(program):
    """Journals of many plays, made by a seed and then audited. A core that looks back over the journal at each entry comes to no end."""
    for plays in (2000, 3731):
        script, many = works(plays), played_works(plays)
        played = subprocess.run([program, "sim", "1"], input=lines(script).encode(), stdout=subprocess.PIPE)
        entries = played.stdout.count(b"\n") - 1 - plays  # without the line of the journal and those of the outcomes
        right = played.returncode == 0 and entries == many
        print(f"sim of {plays} plays: {f'{many} entries' if right else f'status {played.returncode}, {entries} entries'}")
        if not right:
            wrong.append(f"sim of {plays} plays")
        compare(f"audit of {many} entries", program, ["audit"], 0, f"legal {many}\n", input=lines(script).encode() + played.stdout)


def words_and_refusals(program):
    for words in wrong_words():
        compare(f"words {' '.join(words) or 'none'}", program, words, 2, USAGE, input=b"")
    for script, line in refusals():
        compare(f"check: {line.strip()}", program, ["check"], 4, line, input=lines(script).encode())
        compare(f"audit: {line.strip()}", program, ["audit"], 4, line, input=(lines(script) + "journal\n").encode())
    for text, line, cause in UNREADABLE:
        compare(f"check: {text[:50]}, refused at {line}", program, ["check"], 4, f"refused {line} {cause}\n", input=text)
    for text, participants, objects in READABLE:
        counts = f"ok participants {participants} objects {objects} places 0 bound 0\n"
        compare(f"check: {text[:50]}, read", program, ["check"], 0, counts, input=text)


def cells(program):
    """The production cell. Nothing is read for it, so it matters not what stands on standard input."""
    for cycles in (1, 4, 5, 10, 200, 2000):
        compare(f"cell {cycles}", program, ["cell", str(cycles)], 0, cell_summary(cycles), input=b"")
    compare("cell 10, closed", program, ["cell", "10"], 0, cell_summary(10), preexec_fn=closed_input)
    compare("cell 10, from a folder", program, ["cell", "10"], 0, cell_summary(10), stdin=os.open(CASES, os.O_RDONLY))
    compare("cell 10, status 5", program, ["cell", "10"], 5, None, stdout=open("/dev/full", "wb"))
    compare("check of its script", program, ["check"], 0, cell_counts(2000), input=cell_script(2000).encode())


def pools(program):
    """Plays in threads whose order isn't fixed: what they leave in the objects is, and `audit` accepts their journals. Of the two
    siblings both have raised before anything is resolved, whatever the order, and so each writes what its handler says."""
    with open(os.path.join(CASES, "ordinary_cycle")) as file:
        cycle = file.read()
    with open(os.path.join(WORKED, "two_siblings")) as file:
        siblings = file.read().partition("journal\n")[0]
    things = {"ordinary_cycle": ["object belt 2", "object arm 0", "object plate 0", "object done 1"],
              "two_siblings": ["object x 1", "object y 2"],
              "ten cycles of the cell": cell_summary(10).splitlines()[6:]}
    scripts = (("1", "ordinary_cycle", cycle), ("1", "two_siblings", siblings), ("16", "ten cycles of the cell", cell_script(10)))
    for workers, name, script in scripts:
        for _ in range(5):
            played = subprocess.run([program, "pool", workers], input=script.encode(), stdout=subprocess.PIPE)
            lines_of = played.stdout.decode().splitlines()
            entries = sum(line.split()[0] not in ("journal", "object", "outcome") for line in lines_of)
            left = [line for line in lines_of if line.startswith("object ")]
            right = played.returncode == 0 and left == things[name]
            print(f"pool {workers} on {name}: {'as wanted' if right else f'status {played.returncode}, {left}'}")
            if not right:
                wrong.append(f"pool {workers} on {name}")
            compare(f"audit of pool {workers}", program, ["audit"], 0, f"legal {entries}\n", input=script.encode() + played.stdout)


def watched_run(program):
    """A run with a watch: what is seen before both plays have ended depends on when threads run."""
    def text(name):
        with open(os.path.join(CASES, name)) as file:
            return file.read()

    looks = ["", "seen count 0 0\n", "seen count 1 1\n", "seen count 0 0\nseen count 1 1\n"]
    texts = [text("counted_pieces.stdout") + earlier + "seen count 2 2\n" for earlier in looks]
    for _ in range(20):
        compare("run with a watch", program, ["run"], 0, texts, input=(text("counted_pieces") + "watch count\n").encode())


def little_memory():
    resource.setrlimit(resource.RLIMIT_AS, (16 << 20, 16 << 20))


def closed_input():
    try:
        os.close(0)
    except OSError:
        pass  # it is closed already


def statuses(program):
    """Each status of the program at its exit, but for 6: its device can always be laid out."""
    def case(name):
        return open(os.path.join(CASES, name), "rb")

    long_bound = lines(["participant p", "action a", "roles r", "end"] + ["play a p"] * 60000).encode()
    compare("status 0", program, ["check"], 0, "ok participants 2 objects 1 places 1 bound 23\n", stdin=case("first_cycle"))
    compare("status 1", program, ["sim", "1"], 1, None, stdin=case("stuck_valve"))
    compare("status 2", program, ["check", "1"], 2, None, stdin=case("first_cycle"))
    compare("status 2, words that are no text", program, [b"sim", b"\xff1"], 2, None, stdin=case("first_cycle"))
    compare("status 3, from a folder", program, ["check"], 3, "fault source\n", stdin=os.open(CASES, os.O_RDONLY))
    compare("status 3, closed", program, ["check"], 3, "fault source\n", preexec_fn=closed_input)
    compare("status 4", program, ["check"], 4, None, stdin=case("two_stops"))
    compare("status 5", program, ["sim", "1"], 5, None, stdin=case("first_cycle"), stdout=open("/dev/full", "wb"))
    compare("status 7", program, ["audit"], 7, None, stdin=case("altered_jam"))
    compare("status 8", program, ["sim", "1"], 8, "", input=long_bound, preexec_fn=little_memory)


large_inputs(sys.argv[1])
scripts_at_limits(sys.argv[1])
graphs_of_many_sizes(sys.argv[1])
long_shifts(sys.argv[1])
words_and_refusals(sys.argv[1])
cells(sys.argv[1])
pools(sys.argv[1])
watched_run(sys.argv[1])
statuses(sys.argv[1])
sys.exit(1 if wrong else 0)
