"""A device for caa_bridge, in Python and in one file: say how an object is moved, and serve.

    from caa_device import Device, Lost

    class Cell(Device):
        def put(self, name, value):                # True where the machine did that, False where it refused
            self.plc.write(name, value)            # raise Lost where the machine can't be reached any longer
            return self.reads_back(lambda: self.plc.read(name), value, limit=2.0)

        def safe(self):                            # the safe state: on stop, at the end of the commands, or where the machine is lost
            self.plc.write("drives", 0)

    sys.exit(Cell().serve())

The program writes a line for each command, and awaits one answer to each (docs/embedding.md, "A device that speaks lines"). Where the
machine is lost this device gives no answer and leaves, so that the program says once that the link broke, and asks nothing more. It needs
nothing but Python's own library.
"""
import signal
import sys
import time


class Lost(Exception):
    """The machine can't be reached any longer, so nobody knows what it did."""


class Device:
    """What a machine does as it is asked. Override `put` and `safe`; the others where the machine tells them apart."""

    def lay(self, values):
        """Brings all objects to their first values, before the play: a list of names and values, in the order of the script's `object`
        lines. Whether the machine did that."""
        return all(self.put(name, value) for name, value in values)

    def put(self, name, value):
        """Brings an object to a value. Whether the machine did that; raises Lost where it can't be reached."""
        raise NotImplementedError

    def restore(self, name, value):
        """The same, by which an action that is undone brings the object back."""
        return self.put(name, value)

    def safe(self):
        """Takes the machine to its safe state, once: on `stop`, at the end of the commands, at SIGTERM or SIGINT, and where it is lost."""

    def reads_back(self, read, value, limit, each=0.02):
        """Whether `read()` comes to this value within so many seconds. It is asked after each further `each` of them."""
        end = time.monotonic() + limit
        while read() != value:
            if time.monotonic() >= end:
                return False
            time.sleep(each)
        return True

    def _done(self, verb, words):
        values = list(zip(words[::2], map(int, words[1::2])))
        if verb == "lay":
            return self.lay(values)
        (name, value), = values
        return {"put": self.put, "restore": self.restore}[verb](name, value)

    def serve(self, commands=None, answers=None):
        """Answers each command until `stop` or the end of the commands, and gives the exit status: 0, or 1 where the machine was lost."""
        commands, answers = commands or sys.stdin, answers or sys.stdout
        for number in (signal.SIGTERM, signal.SIGINT):
            signal.signal(number, lambda *_: sys.exit(1))
        try:
            for line in iter(commands.readline, ""):
                verb, *words = line.split()
                if verb == "stop":
                    break
                number, *words = words
                answers.write(f"{'well' if self._done(verb, words) else 'failed'} {number}\n")
                answers.flush()
        except Lost as why:
            print(f"the machine is lost: {why}", file=sys.stderr)
            return 1
        except BrokenPipeError:
            print("nobody reads the answers any longer", file=sys.stderr)
            return 1
        finally:
            self._rest()
        return 0

    def _rest(self):
        try:
            self.safe()
        except Lost as why:
            print(f"the safe state couldn't be told to the machine: {why}", file=sys.stderr)
