#!/usr/bin/env python3
"""The scan loop of scan.c, in Python: scan.py SCRIPT [N] prints the same journal."""
import os
import sys

sys.path.insert(0, os.path.join(os.path.dirname(os.path.abspath(__file__)), ".."))
from caa import Code, Machine, Refused

MOST_SCANS = 1_000_000


class Cell:
    """Registers, of which each N-th put is refused, and strokes, each of a ticket."""

    def __init__(self, machine, refuse_each):
        self.registers = [machine.object(it).first for it in range(machine.counts().objects)]
        self.refuse_each, self.puts_asked, self.strokes = refuse_each, 0, {}

    def put(self, number, value):
        """Brings a register to a value. Whether that was done."""
        self.puts_asked += 1
        if self.refuse_each and self.puts_asked % self.refuse_each == 0:
            return False
        self.registers[number] = value
        return True

    def strike(self, participant, step):
        """Goes on with a stroke for one scan. Whether it has ended."""
        ticket, left = self.strokes.get(participant, (None, 0))
        if ticket != step.ticket:
            left = 4 + min(step.rounds, 8)
        left = max(left - 1, 0)
        self.strokes[participant] = (step.ticket, left)
        return left == 0


def scan(machine, cell, participant):
    """What a participant does in a scan."""
    step = machine.next(participant)
    if step.what == Code.PUTS:
        machine.answer(cell.put(step.object, step.value))
    elif step.what == Code.WORKS:
        if not cell.strike(participant, step) or not machine.work_done(participant, step.ticket):
            return
    cell.strokes.pop(participant, None)


def main():
    with open(sys.argv[1], "rb") as it:
        script = it.read()
    try:
        machine = Machine(script)
    except Refused as it:
        print(f"refused {it}")
        return 4
    with machine:
        cell = Cell(machine, int(sys.argv[2]) if len(sys.argv) > 2 else 0)
        counts = machine.counts()
        for _ in range(MOST_SCANS):
            for participant in range(counts.participants):
                scan(machine, cell, participant)
            if machine.counts().complete:
                break
        print(machine.journal(), end="")
        return 0 if cell.registers == [machine.object(it).now for it in range(counts.objects)] else 9


if __name__ == "__main__":
    sys.exit(main())
