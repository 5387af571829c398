"""caa from Python: a machine that the host steps, over libcaa.so and ctypes alone.

    from caa import Machine

    with Machine(open("my_script", "rb").read()) as machine:
        machine.play(put=lambda object, value, restores: registers.write(object, value))
        print(machine.journal(), end="")

A machine is used by one thread alone. libcaa.so is looked for where the environment's CAA_LIBRARY says, then where ./install puts it beside
this file, and then where the system keeps its libraries.
"""
import collections
import ctypes
import enum
import os

HERE = os.path.dirname(os.path.abspath(__file__))
MOST_LINE = 128


class Code(enum.IntEnum):
    """What a call answers."""

    CLOSED = 0
    DONE = 1
    REFUSED = 2
    NO_MEMORY = 3
    UNFIT = 4
    DID = 5
    WORKS = 6
    PUTS = 7
    BUSY = 8
    WAITS = 9
    OVER = 10


class Lack(enum.IntEnum):
    """What is lacking in the place where a participant waits."""

    ROLES = 1
    OBJECTS = 2
    HALTS = 3
    VERDICTS = 4
    GIVE_UPS = 5
    OBJECT = 6


class Outcome(enum.IntEnum):
    """How a place ended."""

    LASTS = 0
    COMMIT = 1
    SIGNAL = 2
    UNDONE = 3
    ABORTED = 4
    FAILED = 5


class Refused(Exception):
    """A script that is refused: the line, counted from 1 (0: the script as a whole), and the number and word of the cause."""

    def __init__(self, line, cause):
        super().__init__(f"line {line}: {cause}")
        self.line = line
        self.cause = cause


class Step(ctypes.Structure):
    """What is next for a participant, as caa_step of caa.h."""

    _fields_ = [
        ("what", ctypes.c_uint32), ("place", ctypes.c_uint32), ("object", ctypes.c_uint32), ("rounds", ctypes.c_uint32),
        ("lack", ctypes.c_uint32), ("value", ctypes.c_int64), ("entry", ctypes.c_uint64), ("ticket", ctypes.c_uint64),
        ("restores", ctypes.c_bool),
    ]


class Counts(ctypes.Structure):
    """How large the plan and the journal are, as caa_counts of caa.h."""

    _fields_ = [
        ("participants", ctypes.c_uint32), ("objects", ctypes.c_uint32), ("places", ctypes.c_uint32), ("bound", ctypes.c_uint64),
        ("entries", ctypes.c_uint64), ("complete", ctypes.c_bool),
    ]


Object = collections.namedtuple("Object", "name first now")


class _Handle(ctypes.Structure):
    _fields_ = [("is_open", ctypes.c_bool), ("inside", ctypes.c_void_p)]


def _load():
    for at in (os.environ.get("CAA_LIBRARY"), os.path.join(HERE, "libcaa.so"), os.path.join(HERE, "..", "..", "..", "lib", "libcaa.so")):
        if at and os.path.exists(at):
            return ctypes.CDLL(at)
    return ctypes.CDLL("libcaa.so")


def _declare(library):
    handle, u32, u64, size = ctypes.POINTER(_Handle), ctypes.c_uint32, ctypes.c_uint64, ctypes.c_size_t
    room, u32_at, i64_at, size_at = ctypes.c_char_p, ctypes.POINTER(u32), ctypes.POINTER(ctypes.c_int64), ctypes.POINTER(size)
    for name, result, takes in (
        ("open", u32, (ctypes.c_char_p, size, u32_at, room, size)),
        ("close", None, ()),
        ("next", u32, (u32, ctypes.POINTER(Step))),
        ("answer", u32, (ctypes.c_bool,)),
        ("work_done", u32, (u32, u64)),
        ("sizes", u32, (ctypes.POINTER(Counts),)),
        ("participant", size, (u32, room, size)),
        ("object", size, (u32, i64_at, i64_at, room, size)),
        ("outcome", u32, (u32,)),
        ("line", u32, (u64, room, size, size_at)),
        ("rest", u32, (u64, room, size, size_at)),
    ):
        call = getattr(library, "caa_" + name)
        call.restype = result
        call.argtypes = (handle, *takes)
    return library


class Machine:
    """A machine at the beginning of a script, whose bytes these are. Raises Refused, or MemoryError where no memory was found."""

    _library = None

    def __init__(self, script):
        if Machine._library is None:
            Machine._library = _declare(_load())
        self._handle = _Handle()
        line, cause = ctypes.c_uint32(), ctypes.create_string_buffer(32)
        code = self._call("open", script, len(script), ctypes.byref(line), cause, 31)
        if code == Code.REFUSED:
            raise Refused(line.value, cause.value.decode())
        if code != Code.DONE:
            raise MemoryError

    def _call(self, name, *words):
        return getattr(Machine._library, "caa_" + name)(ctypes.byref(self._handle), *words)

    def close(self):
        """Closes it, and gives its memory back. Later calls of next and counts raise ValueError; others answer as where there is nothing."""
        self._call("close")

    def __enter__(self):
        return self

    def __exit__(self, *error):
        self.close()

    def __del__(self):
        if getattr(self, "_handle", None) is not None:
            self.close()

    @staticmethod
    def _open_still(code):
        if code == Code.CLOSED:
            raise ValueError("the machine is closed")

    def next(self, participant):
        """What is next for a participant: a Step, whose `what` is a Code."""
        step = Step()
        self._open_still(self._call("next", participant, ctypes.byref(step)))
        return step

    def answer(self, done):
        """Says whether the put that was asked for was done. Whether one was asked for."""
        return self._call("answer", bool(done)) == Code.DONE

    def work_done(self, participant, ticket):
        """Says that the work of this ticket is done. Whether the participant was at it, and no put was open."""
        return self._call("work_done", participant, ticket) == Code.DONE

    def counts(self):
        """How large the plan and the journal are."""
        counts = Counts()
        self._open_still(self._call("sizes", ctypes.byref(counts)))
        return counts

    def participant(self, number):
        """The name of a participant, or None."""
        name = ctypes.create_string_buffer(64)
        length = self._call("participant", number, name, len(name))
        return name.raw[:length].decode() if length else None

    def object(self, number):
        """The name of an object, its value before the first entry and that by the journal; or None."""
        first, now, name = ctypes.c_int64(), ctypes.c_int64(), ctypes.create_string_buffer(64)
        length = self._call("object", number, ctypes.byref(first), ctypes.byref(now), name, len(name))
        return Object(name.raw[:length].decode(), first.value, now.value) if length else None

    def outcome(self, place):
        """How a place ended."""
        return Outcome(self._call("outcome", place))

    def _line(self, name, number):
        room, length = ctypes.create_string_buffer(MOST_LINE), ctypes.c_size_t()
        code = self._call(name, number, room, MOST_LINE, ctypes.byref(length))
        if code == Code.NO_MEMORY:
            raise MemoryError
        return room.raw[:length.value].decode() if code == Code.DONE else None

    def line(self, entry):
        """The line of an entry, or None."""
        return self._line("line", entry)

    def rest(self, number):
        """The line of this number among those that stand behind the entries, or None."""
        return self._line("rest", number)

    def journal(self):
        """The text of the journal so far."""
        lines = ["journal\n"]
        for call in (self.line, self.rest):
            number = 0
            while (one := call(number)) is not None:
                lines.append(one)
                number += 1
        return "".join(lines)

    def __iter__(self):
        """Asks all in turn until each is through, and gives each participant with its Step: answer puts, and end works that are done."""
        counts = self.counts()
        while not counts.complete:
            for participant in range(counts.participants):
                yield participant, self.next(participant)
            counts = self.counts()

    def play(self, put, work=lambda participant, step: True):
        """Plays to the end. `put(object, value, restores)` says whether it was done; `work(participant, step)` is asked again until it says
        that the work has ended."""
        for participant, step in self:
            if step.what == Code.PUTS:
                self.answer(put(step.object, step.value, step.restores))
            elif step.what == Code.WORKS and work(participant, step):
                self.work_done(participant, step.ticket)
