#!/usr/bin/env python3
"""Shows the journals that caa_bridge leaves where it is killed.

broken_off.py CAA_BRIDGE CAA_SHOW: plays two scripts with `sim` and with `run`, and kills the program at each put. The file that is
left must be explained, drawn and told, and the explanation must name the put that was under way, among at most as many as there are
participants.
"""
import os
import re
import subprocess
import sys
import tempfile

from cell import Cell
from compare import SCRIPTS, SECONDS, SEED, Play, text_of


def shown(caa_show, view, script, journal):
    """The status of a view, and what it prints, of a journal behind its script."""
    answer = subprocess.run(
        [caa_show, view], input=text_of(script) + journal, stdout=subprocess.PIPE, stderr=subprocess.PIPE, timeout=SECONDS)
    return answer.returncode, answer.stdout.decode()


def under_way(text):
    """The puts that may have been under way, by an explanation."""
    return re.findall(r"a put of \S+ may have been under way: (\S+) (-?\d+)", text)


def wrong_in(bridge, caa_show, words, script, number, folder):
    """What is wrong with what is shown of a play that is killed at this put; False where there is no such put."""
    play = Play(bridge, words, script, os.path.join(folder, "journal"), Cell(), kill_at=number)
    if play.seen_at_kill is None:
        return False
    journal = text_of(play.journal)
    for view, wanted in (("explain", 7), ("chart", 0), ("story", 0), ("where", 0)):
        status, text = shown(caa_show, view, script, journal)
        if status != wanted:
            return f"{view} ended with status {status}"
        if view == "explain":
            told = under_way(text)
    participants = sum(line.startswith(b"participant ") for line in text_of(script).splitlines())
    _, _, name, value = play.sent[-1].split()
    if (name, value) not in told:
        return f"{name} {value} was under way, and told is {told}"
    return None if len(told) <= participants else f"{len(told)} puts are told"


def main():
    bridge, caa_show = sys.argv[1:]
    played, wrong = 0, 0
    for script in SCRIPTS:
        for words in (["sim", SEED], ["run"]):
            number = 1
            while True:
                with tempfile.TemporaryDirectory() as folder:
                    found = wrong_in(bridge, caa_show, words, script, number, folder)
                if found is False:
                    break
                played += 1
                if found:
                    wrong += 1
                    print(f"{os.path.basename(script)}, {' '.join(words)}, killed at {number}: {found}")
                number += 1
    print(f"{played} journals that broke off are shown as they should be, {wrong} not")
    sys.exit(1 if wrong else 0)


if __name__ == "__main__":
    main()
