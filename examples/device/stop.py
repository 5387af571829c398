#!/usr/bin/env python3
"""Stands between caa_bridge and a device, watches the clock, and brings a play to an orderly end.

    caa_bridge .. < answers | python3 stop.py --limit 5 DEVICE [WORD ..] > answers

It starts the device and hands each line on. From SIGINT or SIGTERM on it answers each command with `failed` itself, and the device is
sent `stop` and nothing more; so the play ends by its own rules, and its journal is whole. Where an answer doesn't come within the limit
it leaves, since nobody knows what the device did: for caa_bridge the answers have ended. This is no emergency stop, which is a circuit of
its own.
"""
import argparse
import contextlib
import os
import select
import signal
import subprocess
import sys


def line_within(stream, limit):
    """The next line of a device, with no buffer before it; what came of it where the limit is over or the device left."""
    line = b""
    while not line.endswith(b"\n"):
        if not select.select([stream], [], [], limit)[0]:
            break
        byte = os.read(stream.fileno(), 1)
        if not byte:
            break
        line += byte
    return line


class Wrapper:
    """A device, and whether it was told to stop."""

    def __init__(self, words, limit):
        # apart from this program, so that a key that interrupts it doesn't reach the device
        self.device = subprocess.Popen(words, stdin=subprocess.PIPE, stdout=subprocess.PIPE, bufsize=0, start_new_session=True)
        self.limit = limit
        self.asked = None
        self.is_stopped = False
        self.has_left = False

    def on_signal(self, number, _frame):
        """Notes the signal: a command that the device was sent is still awaited."""
        self.asked = signal.Signals(number).name

    def stop(self, why):
        """Tells the device to stop, once."""
        if not self.is_stopped:
            self.is_stopped = True
            print(f"stop.py: {why}; from here on each put is refused", file=sys.stderr, flush=True)
            self.tell(b"stop\n")
            with contextlib.suppress(BrokenPipeError):
                self.device.stdin.close()

    def tell(self, line):
        """Hands a line on; a device that has left hears nothing."""
        try:
            self.device.stdin.write(line)
        except BrokenPipeError:
            if not self.has_left:
                print("stop.py: the device has left", file=sys.stderr, flush=True)
            self.has_left = True

    def answer(self, line):
        """The answer to a line; none where the device didn't give one."""
        if self.asked:
            self.stop(self.asked)
        if line == b"stop\n":
            self.stop("stop was sent")
            return b""
        if self.is_stopped:
            return b"failed " + line.split()[1] + b"\n"
        self.tell(line)
        answer = line_within(self.device.stdout, self.limit)
        return answer if answer.endswith(b"\n") else None


def main():
    parser = argparse.ArgumentParser(description=__doc__.splitlines()[0])
    parser.add_argument("--limit", type=float, default=None, metavar="SECONDS", help="how long each byte of an answer is awaited")
    parser.add_argument("device", nargs=argparse.REMAINDER)
    words = parser.parse_args()
    wrapper = Wrapper(words.device, words.limit)
    for number in (signal.SIGINT, signal.SIGTERM):
        signal.signal(number, wrapper.on_signal)
    for line in iter(sys.stdin.buffer.readline, b""):
        answer = wrapper.answer(line)
        if answer is None:
            wrapper.stop("no answer to " + line.decode().strip())
            return 1
        sys.stdout.buffer.write(answer)
        sys.stdout.buffer.flush()
    return 0


if __name__ == "__main__":
    sys.exit(main())
