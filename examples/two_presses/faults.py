"""What can go wrong in the cell of cell.py, and when.

A fault is written KIND:NAME@NUMBER, as in `jam:press_1@3`:

    once   the drive or magnet refuses its third stroke, and takes all others
    jam    from its third stroke on the drive or magnet can't move; it stays where it is
    stop   the drive stops halfway in its third stroke, and never moves again
    stuck  from the third stroke of the table on, its switch goes on saying where the table stood; from the third time that it is
           asked on, its eye says that no blank is there
    lost   the third blank that comes there is lost: from the table when it moves, from an arm when the robot turns
"""
import random

STOPS, REFUSES = "stops", "refuses"

MOTORS = ("table_height", "table_angle", "robot_turn", "arm_1", "arm_2", "press_1", "press_2")
OTHERS = ("grip_1", "grip_2", "feed_belt", "deposit_belt")
BELTS = ("feed_belt", "deposit_belt")
LOST_BY = {"table": ("table_height", "table_angle"), "arm_1": ("robot_turn",), "arm_2": ("robot_turn",)}

# All that can fail, and how.
KINDS = (
    [f"{kind}:{name}" for name in MOTORS for kind in ("once", "jam", "stop")]
    + [f"{kind}:{name}" for name in OTHERS for kind in ("once", "jam")]
    + [f"stop:{name}" for name in BELTS]
    + ["stuck:table_switch", "stuck:table_eye"]
    + [f"lost:{name}" for name in LOST_BY]
)

# About how many strokes each drive makes for a blank. The table's drives are let fail every other time while they bring a blank up,
# since that is where several faults can meet: in the stroke of this number among those for the blank.
STROKES = {"table_height": 4, "table_angle": 2, "robot_turn": 4, "arm_1": 4, "arm_2": 4, "grip_1": 2, "grip_2": 2}
STROKES |= {"press_1": 1.5, "press_2": 1.5, "table_switch": 6}
WITH_BLANK = {"table_height": 3, "table_angle": 1, "table_switch": 2}


def drawn(kind, chance, blank):
    """A fault of this kind that comes while this blank, counted from 1, is on its way."""
    how, name = kind.split(":")
    strokes = 1 if how == "lost" else STROKES.get(name, 1)
    stroke = chance.randint(1, max(1, int(strokes)))
    if how != "lost" and chance.random() < 0.5:
        stroke = WITH_BLANK.get(name, stroke)
    return f"{kind}@{int((blank - 1) * strokes) + stroke}"


class Faults:
    """The faults of one play: those that are written, and others by chance."""

    def __init__(self, written=(), percent=0, seed=0):
        self.chance, self.percent = random.Random(seed), percent
        self.begin, self.counts, self.dead, self.stuck, self.marked = {}, {}, {}, set(), {}
        for fault in written:
            kind, _, rest = fault.partition(":")
            name, _, number = rest.partition("@")
            self.begin[kind, name] = int(number or 1)

    def counted(self, what):
        self.counts[what] = self.counts.get(what, 0) + 1
        return self.counts[what]

    def comes(self, kind, name, number):
        """Whether a fault that stays has come by this number."""
        return number >= self.begin.get((kind, name), number + 1)

    def of_stroke(self, name, value):
        """What becomes of a stroke; nothing where it is made. Lights don't fail, and a belt is made ready without a stroke."""
        if name in self.dead:
            return self.dead[name]
        if name not in MOTORS + OTHERS or (name in BELTS and value == 0):
            return None
        number = self.counted(name)
        if self.comes("stop", name, number):
            self.dead[name] = REFUSES
            return STOPS
        if self.comes("jam", name, number):
            self.dead[name] = REFUSES
        elif self.begin.get(("once", name)) == number:
            return REFUSES
        return self.dead.get(name) or self.by_chance(name)

    def by_chance(self, name):
        """A fault of a stroke that nobody wrote: mostly one that passes."""
        if self.chance.random() * 100 >= self.percent:
            return None
        kind = self.chance.choices(("once", "jam", "stop"), (8, 1, 1))[0]
        if kind != "once":
            self.dead[name] = REFUSES
        return STOPS if kind == "stop" and name in MOTORS + BELTS else REFUSES

    def is_stuck(self, sensor):
        """Whether a sensor of the table is stuck by now."""
        if sensor == "table_eye" and self.comes("stuck", sensor, self.counted(sensor)):
            self.stuck.add(sensor)
        return sensor in self.stuck or self.chance.random() * 100 < self.percent

    def has_come(self, blank, place):
        """A blank has come to a place, from which it may be lost."""
        if self.begin.get(("lost", place)) == self.counted(f"blank at {place}") or (
            place in LOST_BY and self.chance.random() * 400 < self.percent
        ):
            self.marked[blank.number] = place

    def have_moved(self, name, blanks):
        """A drive has moved: what it carries may be lost, and a switch that follows it may stick."""
        if name in LOST_BY["table"] and self.comes("stuck", "table_switch", self.counted("table")):
            self.stuck.add("table_switch")
        for blank in blanks:
            place = self.marked.get(blank.number)
            if place and blank.place == place and name in LOST_BY[place]:
                blank.place = "lost"
                del self.marked[blank.number]
