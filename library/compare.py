#!/usr/bin/env python3
"""Tries the library with hosts in C, C++ and Python, where there is a compiler for them.

compare.py CAA ARCHIVE.. [--games 100]    the archives are libcaa.a, or what it is made of

The scan loop in C, under the sanitizers where the compiler has them, and the one in Python play scripts whole and with each N-th put
refused: their journals must be the same bytes, and legal by `caa audit`. In the order of asking of `caa sim`, with its drills, the journal
must be the bytes that it prints. Games of calls in any order and with any numbers must end as their answers say, with a journal in which
nothing is illegal. Each request for memory of an opening is refused in turn, and there may be none behind it. The cell with two presses
is played by the host in C++. The status is 0 where all this holds.
"""
import os
import shutil
import subprocess
import sys
import tempfile

HERE = os.path.dirname(os.path.abspath(__file__))
TOP = os.path.join(HERE, "..")
CASES = os.path.join(TOP, "examples", "cases")
TWO_PRESSES = os.path.join(TOP, "examples", "two_presses", "four_blanks")
SECONDS = 120
SANITIZED = ["-g", "-O1", "-fsanitize=address,undefined", "-fno-sanitize-recover=all"]
SANITIZERS = {"ASAN_OPTIONS": "detect_leaks=1", "UBSAN_OPTIONS": "print_stacktrace=1"}


def run(*words, **how):
    return subprocess.run(words, capture_output=True, timeout=SECONDS, check=False, **how)


def text_of(file):
    with open(file, "rb") as it:
        return it.read()


def compiled(compiler, source, archives, to, *flags):
    """Builds a host. Whether that went well."""
    made = run(*compiler, "-I", HERE, "-Wall", "-Wextra", "-Werror", *flags, os.path.join(HERE, source), *archives, "-o", to)
    if made.returncode:
        print(made.stderr.decode(errors="replace"))
    return made.returncode == 0


class Trial:
    """What is tried, and whether anything was wrong."""

    def __init__(self, archives, caa, room):
        self.archives, self.caa, self.room, self.wrong = archives, caa, room, 0

    def expect(self, what, holds, said=b""):
        if not holds:
            self.wrong += 1
            print(f"{what}: wrong", said.decode(errors="replace")[-2000:])

    def audit(self, script, journal):
        """What `caa audit` says of a journal."""
        return run(self.caa, "audit", input=text_of(script) + journal)

    def is_legal(self, script, journal):
        return self.audit(script, journal).stdout.startswith(b"legal ")

    def is_legal_so_far(self, script, journal):
        """Whether nothing in it is illegal, though somebody may not be over: then the line at fault is the first behind its entries."""
        said = self.audit(script, journal)
        entries = sum(1 for it in journal.splitlines() if not it.startswith((b"object ", b"outcome "))) - 1
        line = text_of(script).count(b"\n") + 1 + entries + 1
        return said.stdout.startswith(b"legal ") or said.stdout.split() == [b"illegal", str(line).encode()]


def scripts():
    """The scripts of the examples that `sim` plays, each with its seed."""
    for name in sorted(os.listdir(CASES)):
        words = os.path.join(CASES, name + ".args")
        if os.path.exists(words) and text_of(os.path.join(CASES, name + ".stdout")).startswith(b"journal\n"):
            said = text_of(words).decode().split()
            if said[0] == "sim":
                yield os.path.join(CASES, name), int(said[1])


def try_scans(trial, scan):
    """The scan loops in C and in Python."""
    both = [[scan], [sys.executable, "-B", os.path.join(HERE, "examples", "scan.py")]]
    for name in ("production_cell", "jam_and_slip"):
        script = os.path.join(CASES, name)
        for refused in ("0", "2", "3", "7", "20"):
            ends = [run(*it, script, refused, env={**os.environ, **SANITIZERS}) for it in both]
            what = f"{name}, each put of {refused} refused"
            for end in ends:
                trial.expect(what, end.returncode == 0, end.stderr)
            trial.expect(f"{what}: C and Python", ends[0].stdout == ends[1].stdout)
            trial.expect(f"{what}: audit", trial.is_legal(script, ends[0].stdout))
            if refused == "0":
                print(f"{name} by scans: {ends[0].stderr.decode().strip()}")
                trial.expect("strokes that overlap", name != "production_cell" or not ends[0].stderr.endswith((b" 0\n", b" 1\n")))


def drills_of(script):
    """Which puts of which objects `caa sim` refuses."""
    words = [it.split() for it in text_of(script).decode().splitlines()]
    return {(it[1], int(it[2])) for it in words if it[:1] == ["drill"]}


def mixed(state):
    return (1103515245 * state + 12345) % 2**31


def played_as_sim(script, seed, caa_module):
    """The journal of a play in the order of `caa sim`: for each entry the state is mixed once, and the first who has an entry makes it,
    going round from the participant of number state / 65536."""
    drills, tried = drills_of(script), {}
    with caa_module.Machine(text_of(script)) as machine:
        people = machine.counts().participants
        state = seed
        while not machine.counts().complete:
            state = mixed(state)
            for other in range(people):
                by = (state // 65536 + other) % people
                step = machine.next(by)
                if step.what == caa_module.Code.WORKS:
                    machine.work_done(by, step.ticket)
                elif step.what == caa_module.Code.PUTS:
                    name = machine.object(step.object).name
                    tried[name] = tried.get(name, 0) + 1
                    machine.answer((name, tried[name]) not in drills)
                elif step.what != caa_module.Code.DID:
                    continue
                break
        return machine.journal().encode()


def try_schedules(trial):
    """Journals in the order of `caa sim`."""
    sys.path.insert(0, HERE)
    import caa as caa_module

    plays = 0
    for script, seed in scripts():
        for one in (seed, 1, 77):
            wanted = run(trial.caa, "sim", str(one), input=text_of(script)).stdout
            trial.expect(f"{os.path.basename(script)} in the order of sim {one}", played_as_sim(script, one, caa_module) == wanted)
            plays += 1
    print(f"the same bytes as sim: {plays} journals")
    script = os.path.join(CASES, "jam_and_slip")
    with caa_module.Machine(text_of(script)) as machine:
        machine.play(lambda object, value, restores: not restores)
        trial.expect("play of caa.py", trial.is_legal(script, machine.journal().encode()))


def try_abuse(trial, abuse, games):
    """Calls at random."""
    ends = {"complete": 0, "begun": 0}
    for seed in range(games):
        script = os.path.join(CASES, ("production_cell", "jam_and_slip", "counted_pieces")[seed % 3])
        end = run(abuse, script, str(seed), env={**os.environ, **SANITIZERS})
        trial.expect(f"game {seed}", end.returncode == 0, end.stderr)
        trial.expect(f"game {seed}: audit", trial.is_legal_so_far(script, end.stdout))
        if end.returncode == 0:
            ends[end.stderr.decode().strip()] += 1
    print(f"games at random: {ends}")


def try_all(trial, games):
    c = [it for it in (shutil.which("cc"),) if it]
    plus = [it for it in (shutil.which("c++"),) if it]
    if not c:
        print("no C compiler: nothing was tried")
        return
    at = lambda name: os.path.join(trial.room, name)
    sanitized = SANITIZED if compiled(c, "examples/scan.c", trial.archives, at("scan"), "-std=c11", *SANITIZED) else []
    if not sanitized:
        print("without sanitizers")
        trial.expect("scan.c", compiled(c, "examples/scan.c", trial.archives, at("scan"), "-std=c11"))
    trial.expect("abuse.c", compiled(c, "tries/abuse.c", trial.archives, at("abuse"), "-std=c11", *sanitized))
    wrap = [f"-Wl,--wrap={it}" for it in ("malloc", "realloc", "calloc")]
    trial.expect("memory.c", compiled(c, "tries/memory.c", trial.archives, at("memory"), "-std=c11", *wrap))
    made = run(*c, "-shared", "-Wl,--whole-archive", *trial.archives, "-Wl,--no-whole-archive", f"-Wl,--version-script={HERE}/caa.map", "-o", at("libcaa.so"))
    trial.expect("libcaa.so", made.returncode == 0, made.stderr)
    os.environ["CAA_LIBRARY"] = at("libcaa.so")
    if trial.wrong:
        return
    try_scans(trial, at("scan"))
    try_schedules(trial)
    try_abuse(trial, at("abuse"), games)
    for name in ("jam_and_slip", "production_cell"):
        end = run(at("memory"), os.path.join(CASES, name))
        trial.expect(f"memory for {name}", end.returncode == 0, end.stdout + end.stderr)
        print(f"{name}: {end.stdout.decode().strip()}")
    if plus:
        trial.expect("two_presses.cpp", compiled(plus, "examples/two_presses.cpp", trial.archives, at("two_presses"), "-std=c++17", *sanitized))
        end = run(at("two_presses"), TWO_PRESSES, env={**os.environ, **SANITIZERS})
        trial.expect("two presses", end.returncode == 0 and trial.is_legal(TWO_PRESSES, end.stdout), end.stderr)
        print(f"two presses in C++: {end.stdout.count(10)} lines")


def main():
    words = sys.argv[1:]
    games = 100
    if "--games" in words:
        at = words.index("--games")
        games, words = int(words[at + 1]), words[:at]
    with tempfile.TemporaryDirectory() as room:
        trial = Trial([os.path.abspath(it) for it in words[1:]], os.path.abspath(words[0]), room)
        try_all(trial, games)
    return 1 if trial.wrong else 0


if __name__ == "__main__":
    sys.exit(main())
