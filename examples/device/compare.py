#!/usr/bin/env python3
"""Tries caa_bridge against the simulated cells of cell.py.

compare.py CAA_BRIDGE CAA [PLAYS]: plays two scripts PLAYS times in turn and PLAYS times in threads (500, if it isn't said). The cell
refuses puts by chance. Each journal must be one that `audit` finds legal, and the values that it tells at its end must be those of the
cell. Then one answer goes wrong, at each line of both scripts, in each of the ways of cell.py, with `sim` and with `run`: the journal
must be the one that the rules give where that put is refused and each after it, nothing may be sent behind it but `stop`, and standard
error must name the line. The program is killed at each line: the file must have just the entries before it. At last the files, the
streams and the device are what they must not be, a play that failed must not be followed by another, and plays that end otherwise than
by commit are told.
"""
import os
import shutil
import subprocess
import sys
import tempfile
import threading

from cell import WRONGS, Cell, WrongCell

HERE = os.path.dirname(os.path.abspath(__file__))
CASES = os.path.join(HERE, "..", "cases")
SCRIPTS = [os.path.join(CASES, name) for name in ("jam_and_slip", "production_cell")]
RELIGHT = os.path.join(HERE, "relight")
SEED = "1"
SECONDS = 60
DRILLS = 900
ATTEMPTS = ("write", "putfault", "restore")


class Play:
    """A call of the program, the cell that answers it, and what became of both."""

    def __init__(self, bridge, words, script, journal, cell, kill_at=None):
        self.journal = journal
        self.sent, self.behind = [], []
        self.seen_at_kill = None
        self.program = subprocess.Popen(
            [bridge, *words, script, journal], stdin=subprocess.PIPE, stdout=subprocess.PIPE, stderr=subprocess.PIPE)
        told = []
        reader = threading.Thread(target=lambda: told.append(self.program.stderr.read().decode()))
        clock = threading.Timer(SECONDS, self.program.kill)
        reader.start()
        clock.start()
        self.serve(cell, kill_at)
        self.status = self.program.wait()
        clock.cancel()
        reader.join()
        self.told = told[0]
        for stream in (self.program.stdin, self.program.stdout, self.program.stderr):
            try:
                stream.close()
            except BrokenPipeError:
                pass

    def serve(self, cell, kill_at):
        """Answers until the program or the cell leaves; what the program sends to a cell that left is read still."""
        last = None if not isinstance(cell, WrongCell) else cell.at + (cell.way in ("doubles", "late"))
        has_left = is_lost = False
        for line in iter(self.program.stdout.readline, b""):
            line = line.decode("ascii")
            number = None if line == "stop\n" else int(line.split()[1])
            (self.behind if is_lost else self.sent).append(line)
            is_lost = is_lost or (last is not None and number == last)
            if number is not None and number == kill_at:
                with open(self.journal, "rb") as text:
                    self.seen_at_kill = text.read()
                self.program.kill()
                return
            if has_left:
                continue
            answer = cell.answer(line)
            answer, has_left = answer if isinstance(cell, WrongCell) else (answer, False)
            try:
                self.program.stdin.write(answer.encode("latin-1"))
                self.program.stdin.flush()
                if has_left:
                    self.program.stdin.close()
            except BrokenPipeError:
                has_left = True


def text_of(path):
    with open(path, "rb") as text:
        return text.read()


def audited(caa, script, journal):
    """What `audit` says of a journal."""
    answer = subprocess.run([caa, "audit"], input=text_of(script) + journal, stdout=subprocess.PIPE, timeout=SECONDS)
    return answer.stdout.decode()


def words_of(journal):
    return [line.split() for line in journal.decode("ascii").splitlines()]


def told_values(lines):
    """The values that a journal tells at its end."""
    return {words[1]: int(words[2]) for words in lines if words[0] == "object"}


def attempts_in(lines):
    """Of each put that the device was asked for, its object and whether it was refused."""
    return [(words[3], words[0] == "putfault" or words[-1] == "failed") for words in lines if words[0] in ATTEMPTS]


def hides_a_refusal(lines):
    """Whether a place with a refused restore ended otherwise than as failed."""
    refused = {words[1] for words in lines if words[0] == "restore" and words[-1] == "failed"}
    failed = {words[1] for words in lines if words[0] == "end" and words[-1] == "failed"}
    return not refused <= failed


def wrong_in(caa, script, play):
    """What is wrong with a play and its journal; nothing where it is None."""
    if play.status not in (0, 1):
        return f"ended with status {play.status}: {play.told}"
    journal = text_of(play.journal)
    verdict = audited(caa, script, journal)
    if not verdict.startswith("legal"):
        return f"audit says {verdict.strip()}"
    return "a place with a refused restore didn't end as failed" if hides_a_refusal(words_of(journal)) else None


def by_chance(bridge, caa, words, script, cell, folder):
    """What is wrong with a play over a cell that refuses by chance."""
    play = Play(bridge, ["--go-on", *words], script, os.path.join(folder, "journal"), cell)
    told = told_values(words_of(text_of(play.journal)))
    values = None if told == cell.values else f"the journal tells {told}, and the cell has {cell.values}"
    return wrong_in(caa, script, play) or values


def refused_from(caa, script, attempts, number):
    """The journal that the rules give by the seed where the put of this number is refused, and each after it, and those before aren't."""
    lines = [line for line in text_of(script).decode().splitlines() if not line.startswith("drill ")]
    objects = [line.split()[1] for line in lines if line.startswith("object ")]
    done = [name for name, _ in attempts[:number - 1]]
    for name in objects:
        lines += [f"drill {name} {nth}" for nth in range(done.count(name) + 1, done.count(name) + 1 + DRILLS // len(objects))]
    answer = subprocess.run([caa, "sim", SEED], input="\n".join(lines).encode() + b"\n", stdout=subprocess.PIPE, timeout=SECONDS)
    return answer.stdout


def names_line(play, number):
    """Whether standard error says that the line of this number wasn't answered."""
    return any(line.split()[1:2] in ([f"{number}"], [f"{number}:"]) and "no right answer" in line for line in play.told.splitlines())


def one_wrong(bridge, caa, words, script, folder, way, number, attempts):
    """What is wrong with a play in which one answer goes wrong."""
    play = Play(bridge, words, script, os.path.join(folder, "journal"), WrongCell(way, number))
    lost = number + 1 if way in ("doubles", "late") else number
    if play.behind not in ([], ["stop\n"]):
        return f"sent {play.behind} behind a lost answer"
    if number == 0 and way != "doubles":
        return None if (play.status, text_of(play.journal)) == (6, b"fault plant\n") and "lay 0: " in play.told else "played, or told nothing"
    wrong = wrong_in(caa, script, play)
    if wrong:
        return wrong
    found = attempts_in(words_of(text_of(play.journal)))
    refused = {lost, number} if way == "late" else {lost}
    if lost <= len(found):
        if not names_line(play, lost):
            return f"standard error doesn't name {lost}: {play.told}"
        if play.behind != ["stop\n"]:
            return f"sent {play.behind} behind a lost answer, and not stop"
    if [nth for nth, (_, is_refused) in enumerate(found, 1) if is_refused != (nth >= lost or nth in refused)]:
        return "another put is refused than the one that wasn't answered and those after it"
    if words[0] == "sim" and way != "late" and text_of(play.journal) != refused_from(caa, script, attempts, lost):
        return "another journal than by the rules"
    return None


def killed(bridge, words, script, folder, number, whole):
    """What is wrong with the file of a play that is killed at this line; `whole` is the journal that it would have had by the seed."""
    play = Play(bridge, words, script, os.path.join(folder, "journal"), Cell(), kill_at=number)
    kept = text_of(play.journal)
    if play.seen_at_kill is None and words[0] == "run":
        return None  # in this order there were fewer puts
    if kept != play.seen_at_kill:
        return "the file isn't what it was at the kill"
    if number and (not kept.endswith(b"\n") or len(attempts_in(words_of(kept))) != number - 1):
        return "the file hasn't just the entries before that put"
    return None if words[0] == "run" or whole.startswith(kept) else "the file is no front of the journal"


def calls(bridge, caa, plays):
    """Each call that is tried: what it is called, and the function that tries it in a folder."""
    for script in SCRIPTS:
        name = os.path.basename(script)
        for seed in range(plays):
            for words in (["sim", str(seed)], ["run"]):
                yield f"{name}, {' '.join(words)}, cell {seed}", lambda folder, w=words, s=seed, it=script: by_chance(
                    bridge, caa, w, it, Cell(s, s % 5 * 10), folder)
        whole = plain_journal(caa, script)
        attempts = attempts_in(words_of(whole))
        for words in (["sim", SEED], ["run"]):
            for number in range(len(attempts) + 1):
                called = f"{name}, {' '.join(words)}"
                for way in WRONGS:
                    yield f"{called}, {way} at {number}", lambda folder, w=words, y=way, n=number, a=attempts, it=script: one_wrong(
                        bridge, caa, w, it, folder, y, n, a)
                yield f"{called}, killed at {number}", lambda folder, w=words, n=number, j=whole, it=script: killed(
                    bridge, w, it, folder, n, j)


def plain_journal(caa, script):
    """The journal by the seed where no put is refused."""
    lines = [line for line in text_of(script).decode().splitlines() if not line.startswith("drill ")]
    return subprocess.run(
        [caa, "sim", SEED], input="\n".join(lines).encode() + b"\n", stdout=subprocess.PIPE, timeout=SECONDS).stdout


def relit(bridge, caa, folder):
    """What is wrong where a play failed, and the undo of the next would light the arc again."""
    journal = os.path.join(folder, "journal")
    cell = Cell(refused=["restore arc 0"])
    play = Play(bridge, ["sim", SEED], RELIGHT, journal, cell)
    if not cell.is_stopped or [line.split()[0] for line in play.sent] != ["lay", "put", "put", "restore", "restore", "stop"]:
        return f"sent {play.sent}"
    told = ("restore 3 (arc 0): the device refused it", "play 1 weld (place 0) ended: failed; nothing more is sent but stop",
            "plays not begun at the machine: 1", "plays: failed 1 not begun 1", "object arc 1")
    if any(line not in play.told for line in told):
        return f"told {play.told}"
    strict = Play(bridge, ["--strict", "sim", SEED], RELIGHT, journal, Cell(refused=["restore arc 0"]))
    if (play.status, strict.status) != (1, 9):
        return f"statuses {play.status} and, with --strict, {strict.status}"
    on = Play(bridge, ["--go-on", "sim", SEED], RELIGHT, journal, Cell(refused=["restore arc 0"]))
    if not any(line.endswith(" arc 1\n") for line in on.sent[4:]) or "stop\n" in on.sent:
        return f"with --go-on it sent {on.sent}"
    return wrong_in(caa, RELIGHT, play)


def told_ends(bridge, folder):
    """What is wrong where no put is refused, and the play of jam_and_slip ends by a signal, or undone."""
    journal = os.path.join(folder, "journal")
    for seed, end, summed in (("1", "signal piece_lost", "signal piece_lost 1"), ("4", "undone", "undone 1")):
        told = f"play 1 form_piece (place 0) ended: {end}\nplays: {summed}\n"
        for words, status in ((["sim", seed], 0), (["--strict", "sim", seed], 7)):
            play = Play(bridge, words, SCRIPTS[0], journal, Cell())
            if (play.status, play.told) != (status, told):
                return f"{words}: status {play.status}, and told {play.told}"
    return None


def ended(bridge, words, folder, **streams):
    """A call with no cell: its status, and what it told."""
    streams = {"stdin": subprocess.DEVNULL, "stdout": subprocess.DEVNULL, **streams}
    done = subprocess.run([bridge, *words], stderr=subprocess.PIPE, cwd=folder, timeout=SECONDS, check=False, **streams)
    return done.returncode, done.stderr.decode()


def wrong_files(bridge, folder):
    """What is wrong where files and streams are what they must not be."""
    shutil.copy(SCRIPTS[0], os.path.join(folder, "script"))
    os.symlink("script", os.path.join(folder, "symbolic"))
    os.link(os.path.join(folder, "script"), os.path.join(folder, "hard"))
    with open(os.path.join(folder, "bad"), "w", encoding="ascii") as bad:
        bad.write("object\n")
    wanted = [(2, ["script", same], same) for same in ("script", "./script", "../" + os.path.basename(folder) + "/script", "symbolic", "hard")]
    wanted += [(3, ["nowhere", "journal"], "nowhere"), (3, [".", "journal"], "."), (4, ["bad", "journal"], "bad")]
    wanted += [(4, ["/dev/zero", "journal"], "/dev/zero"), (5, ["script", "nowhere/journal"], "nowhere/journal")]
    wanted += [(6, ["script", "journal"], "script")]
    for status, words, named in wanted:
        came, told = ended(bridge, ["sim", SEED, *words], folder)
        if came != status or named not in told:
            return f"{words}: status {came}, and told {told}"
    if text_of(os.path.join(folder, "script")) != text_of(SCRIPTS[0]):
        return "a script was overwritten"
    closed = ["sh", "-c", 'exec "$0" sim 1 script journal >&-', bridge]
    done = subprocess.run(closed, stdin=subprocess.DEVNULL, stderr=subprocess.PIPE, cwd=folder, timeout=SECONDS, check=False)
    if done.returncode != 6 or text_of(os.path.join(folder, "journal")) != b"fault plant\n":
        return f"with standard output closed: status {done.returncode}"
    if ended(bridge, ["sim", "x", "script", "journal"], folder)[0] != 2 or ended(bridge, ["--version"], folder)[0] != 0:
        return "words that are no call, or a version"
    return None


def full_disk(bridge, caa, folder):
    """What is wrong where the journal can't be written to its end: the machine isn't left half way."""
    cell = Cell()
    play = Play(bridge, ["sim", SEED], SCRIPTS[0], "/dev/full", cell)
    if [line.split()[0] for line in play.sent] != ["lay", "stop"]:
        return f"a full disk: sent {play.sent}"
    return None if play.status == 5 and "/dev/full" in play.told else f"a full disk: status {play.status}, told {play.told}"


def main():
    bridge, caa = map(os.path.abspath, sys.argv[1:3])
    plays = int(sys.argv[3]) if len(sys.argv) > 3 else 500
    tries = list(calls(bridge, caa, plays))
    tries.append(("relight", lambda folder: relit(bridge, caa, folder)))
    tries.append(("ends", lambda folder: told_ends(bridge, folder)))
    tries.append(("files", lambda folder: wrong_files(bridge, folder)))
    tries.append(("full disk", lambda folder: full_disk(bridge, caa, folder)))
    faults = []
    for name, trial in tries:
        with tempfile.TemporaryDirectory() as folder:
            fault = trial(folder)
        if fault:
            faults.append(f"{name}: {fault}")
    print("\n".join(faults + [f"{len(tries) - len(faults)} plays over a cell as they should be, {len(faults)} not"]))
    return 1 if faults else 0


if __name__ == "__main__":
    sys.exit(main())
