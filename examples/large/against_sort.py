"""How long `check` takes for an ordinary script of nearly 1,000,000 bytes, and how long `sort` takes for the same bytes.

    python3 examples/large/against_sort.py PROGRAM

Both are called in turn, 21 times each, in the locale C.UTF-8; the least time of each is told, with their ratio, and the same for
half of the script, which tells how the time grows.

Seen last, with all other work stopped: 19 milliseconds for 984,854 bytes, where `sort` took 16, and 10 where it took 8 for half of
them. Figures differ from machine to machine and from day to day.
"""

import os
import subprocess
import sys
import time

CALLS = 21


def graph(number, exceptions):
    """A tree of exceptions, in which each covers two others."""
    names = [f"fault_{number}_{n}" for n in range(1, exceptions)]
    covers = [f"cover {names[(n - 1) // 2]} {names[n]}" for n in range(1, len(names))]
    return [f"graph faults_{number}"] + [f"exception {name}" for name in names] + covers + ["end"]


def action(number, graphs):
    """An action of four roles over a graph, each with a body and two handlers."""
    faults, roles = number % graphs, ["lead", "follow", "watch", "clear"]
    lines = [f"action step_{number}", f"internal faults_{faults}", "use table arm plate", "roles " + " ".join(roles)]
    for role in roles:
        lines += [f"body {role}", "  read table", "  add table 1", "  work 20", "  put arm 3", f"  check above 100 fault_{faults}_1"]
        for handled in ("universal", f"fault_{faults}_1"):
            lines += [f"handler {role} {handled}", "  put plate 0", "  undo"]
    return lines + ["end"]


def ordinary(graphs, actions, plays):
    lines = [f"participant machine_{n}" for n in range(8)] + ["object table 0", "object arm 0", "object plate 0"]
    for number in range(graphs):
        lines += graph(number, 64)
    for number in range(actions):
        lines += ["# one step of the cell, with its recovery"] + action(number, graphs)
    lines += [f"play step_{n % actions} " + " ".join(f"machine_{(n + k) % 8}" for k in range(4)) for n in range(plays)]
    return ("\n".join(lines) + "\n").encode()


def least_times(commands, script):
    """The least time of each command over the script, in milliseconds."""
    least = [float("inf")] * len(commands)
    for _ in range(CALLS):
        for index, command in enumerate(commands):
            began = time.perf_counter()
            subprocess.run(command, input=script, stdout=subprocess.DEVNULL, check=True, env={**os.environ, "LC_ALL": "C.UTF-8"})
            least[index] = min(least[index], 1000 * (time.perf_counter() - began))
    return least


for share in (2, 1):
    script = ordinary(160 // share, 255 // share, 4500 // share)
    check, sort = least_times([[sys.argv[1], "check"], ["sort"]], script)
    print(f"{len(script)} bytes: check {check:.1f} ms, sort {sort:.1f} ms, ratio {check / sort:.2f}")
