#!/usr/bin/env python3
"""How long the calls of a scan loop take, and how much memory a machine has: pace.py ARCHIVE [TIMES]

Over scripts whose journals may have 1,000,000 entries. It wants a C compiler. Nothing is judged: docs/library.md has what was measured.
"""
import os
import subprocess
import sys
import tempfile

HERE = os.path.dirname(os.path.abspath(__file__))
CASES = os.path.join(HERE, "..", "examples", "cases")


def repeated(name, times):
    """An example whose plays are there so many times."""
    with open(os.path.join(CASES, name), encoding="utf-8") as it:
        lines = it.read().splitlines()
    plays = [it for it in lines if it.startswith("play ")]
    return [it for it in lines if not it.startswith(("play ", "drill "))] + plays * times


def wide(times):
    """Plays of 16 roles with 256 steps each, which end by an exception that all handle."""
    all_of = lambda letter: " ".join(f"{letter}{n}" for n in range(16))
    steps = ("put o{} 1", "read o{}", "add o{} 1", "work {}")
    lines = [f"participant p{n}" for n in range(16)] + [f"object o{n} 0" for n in range(16)]
    lines += ["graph faults", "exception slip", "end", "action all", "internal faults", "use " + all_of("o"), "roles " + all_of("r")]
    for n in range(16):
        lines += [f"body r{n}"] + [steps[at % 4].format((n + at) % 16) for at in range(255)]
        lines += ["raise slip" if n == 0 else "read o1", f"handler r{n} slip", f"put o{n} 0"]
    return lines + ["end"] + ["play all " + all_of("p")] * times


def rounds():
    """One work of 1,000,000 rounds."""
    return ["participant a", "object o 0", "action one", "roles r", "body r", "work 1000000", "end", "play one a"]


def main():
    archive, times = os.path.abspath(sys.argv[1]), sys.argv[2] if len(sys.argv) > 2 else "5"
    print(f"{os.path.basename(archive)}: {os.path.getsize(archive)} bytes")
    with tempfile.TemporaryDirectory() as room:
        pace, script = os.path.join(room, "pace"), os.path.join(room, "script")
        source = os.path.join(HERE, "tries", "pace.c")
        subprocess.run(["cc", "-O2", "-Wall", "-Wextra", "-I", HERE, source, archive, "-o", pace], check=True)
        for what, lines in (
            ("jam_and_slip 25,000 times", repeated("jam_and_slip", 25000)),
            ("production_cell 800 times", repeated("production_cell", 800)),
            ("16 roles of 256 steps", wide(230)),
            ("one work of 1,000,000 rounds", rounds()),
        ):
            with open(script, "w", encoding="utf-8") as it:
                it.write("\n".join(lines) + "\n")
            print(f"{what}: ", end="", flush=True)
            subprocess.run([pace, script, times], check=False)
    return 0


if __name__ == "__main__":
    sys.exit(main())
