"""A production cell with two presses, as bodies that have places, make strokes, and can meet.

A feed belt, a table that rises and turns, a robot with two arms, two presses and a deposit belt. An object of a script that
has a machine's name is that machine's drive, magnet, light or sensor; each other object is a line in the cell's book, which no
machine hears of. Each stroke is watched: the first one that breaks a rule of safety stops the cell.
"""
from faults import STOPS, Faults

# The rules that are watched, by the status with which the cell ends where one is broken.
TURN, PRESS, TABLE, PILE, DROP, CLEAR = range(11, 17)
RULES = {
    TURN: "the robot turns only with both arms in",
    PRESS: "an arm goes only into a press that stands open for it, and no press moves with an arm in it",
    TABLE: "the table stands still while an arm is over it, and no arm goes out into a table on its way",
    PILE: "no blank is laid on a blank",
    DROP: "no blank is dropped outside",
    CLEAR: "the table turns, and stands turned, only where it is clear of the feed belt",
}

# How far a stroke came where the motor stopped on its way.
HALFWAY = 0.4

# The drives and magnets, and where each stands when nothing else is said.
DRIVES = {
    "grip_1": 0,
    "grip_2": 0,
    "arm_1": 0,
    "arm_2": 0,
    "robot_turn": 0,
    "table_angle": 0,
    "table_height": 1,
    "press_1": 1,
    "press_2": 1,
    "feed_belt": 0,
    "deposit_belt": 0,
    "light_in": 0,
    "light_out": 0,
}
SENSORS = ("table_switch_says", "table_eye_says", "arm_1_says", "arm_2_says")

# Heights of the table: at the feed belt, clear of it, and at the arm. A table is turned to the belt (0) or to the robot (1).
AT_BELT, IS_CLEAR, AT_ARM = 0, 1, 2

# What an arm points at when the robot stands at an angle in degrees, and where a press stands open for that arm: in the middle,
# to be loaded by the first arm, or at the bottom, to be emptied by the second. At the top it is closed.
OPEN = {"arm_1": 1, "arm_2": 0}
CLOSED = 2
POINTS = {
    ("arm_1", 0): "table",
    ("arm_1", 60): "press_1",
    ("arm_1", 120): "press_2",
    ("arm_2", -30): "press_1",
    ("arm_2", 30): "press_2",
    ("arm_2", 90): "deposit_belt",
}


class RuleBroken(Exception):
    """A stroke broke a rule of safety."""

    def __init__(self, rule, told):
        super().__init__(f"rule {rule - TURN + 1} is broken ({RULES[rule]}): {told}")
        self.rule = rule


class Blank:
    """A piece of metal on its way through the cell."""

    def __init__(self, number):
        self.number, self.forged, self.place = number, False, "outside"


class Cell:
    """Where everything stands, and what a put does to it."""

    def __init__(self, blanks=4, faults=None):
        self.blanks = [Blank(number) for number in range(1, blanks + 1)]
        self.faults = faults or Faults()
        self.stands = dict(DRIVES)
        self.book, self.halfway = {}, set()
        self.switch_says = None

    def lay(self, values):
        """Brings all to these values, before anything moves. No blank is inside yet."""
        for name, value in values.items():
            if name in DRIVES:
                self.stands[name] = value
            elif name not in SENSORS:
                self.book[name] = value
        self.switch_says = self.table_stands()
        return True

    def put(self, name, value):
        """Brings an object to a value, or doesn't. A sensor is asked by a put of 1, and says yes by taking it."""
        if name in SENSORS:
            return value == 0 or self.sees(name)
        if name not in DRIVES:
            self.book[name] = value
            return True
        if self.stands[name] == value:
            return True
        return self.stroke(name, value)

    def stroke(self, name, value):
        """A drive moves, unless its fault keeps it."""
        at = self.stands[name]
        fault = self.faults.of_stroke(name, value)
        if fault and fault != STOPS:
            return False
        if fault == STOPS:
            self.halfway.add(name)
            value = at + (value - at) * HALFWAY
        getattr(self, name.removesuffix("_1").removesuffix("_2"))(name, at, value)
        self.stands[name] = value
        self.arrived(name, value)
        return fault != STOPS

    def blank_at(self, place):
        return next((it for it in self.blanks if it.place == place), None)

    def lay_blank(self, blank, place, told):
        """Lays a blank down, where none may lie yet."""
        below = self.blank_at(place)
        if below:
            raise RuleBroken(PILE, f"blank {blank.number} is laid on blank {below.number}, {told}")
        blank.place = place
        self.faults.has_come(blank, place)

    # What the strokes of each drive do on their way.

    def light_in(self, _, at, to):
        blank = self.blank_at("outside")
        if to > at and blank:
            self.lay_blank(blank, "feed_belt", "on the feed belt, since the light is green")

    def light_out(self, _, at, to):
        blank = self.blank_at("end_of_deposit")
        if to > at and blank:
            blank.place = "delivered"

    def feed_belt(self, _, at, to):
        blank = self.blank_at("feed_belt")
        if to < 1 or not blank:
            return
        if self.table_stands() != (AT_BELT, 0):
            raise RuleBroken(DROP, f"the feed belt runs, and the table isn't there for blank {blank.number}")
        self.lay_blank(blank, "table", "on the table")

    def deposit_belt(self, _, at, to):
        blank = self.blank_at("deposit_belt")
        if to == 1 and blank:
            self.lay_blank(blank, "end_of_deposit", "at the end of the deposit belt")

    def table_stands(self):
        return self.stands["table_height"], self.stands["table_angle"]

    def table_height(self, _, at, to):
        self.table_moves()
        if min(at, to) < IS_CLEAR and self.stands["table_angle"] != 0:
            raise RuleBroken(CLEAR, "the turned table moves down at the feed belt")

    def table_angle(self, *_):
        self.table_moves()
        if self.stands["table_height"] < IS_CLEAR:
            raise RuleBroken(CLEAR, "the table turns before it is clear of the feed belt")

    def table_moves(self):
        for arm in self.arms_at("table"):
            raise RuleBroken(TABLE, f"the table moves with {arm} over it")

    def press(self, name, _, to):
        for arm in self.arms_at(name):
            raise RuleBroken(PRESS, f"{name} moves with {arm} in it")
        blank = self.blank_at(name)
        if to == CLOSED and blank:
            blank.forged = True

    def robot_turn(self, *_):
        for arm in ("arm_1", "arm_2"):
            if self.stands[arm] > 0:
                raise RuleBroken(TURN, f"the robot turns with {arm} out")

    def arm(self, name, at, to):
        under = self.under(name)
        if to <= at or not under:
            return
        if under == "table" and self.table_stands() != (AT_ARM, 1) and self.stands["table_height"] > IS_CLEAR:
            raise RuleBroken(TABLE, f"{name} goes out into the table, which is on its way")
        if under.startswith("press") and self.stands[under] != OPEN[name]:
            raise RuleBroken(PRESS, f"{name} goes into {under}, which isn't open for it")
        held, there = self.blank_at(name), self.blank_at(under)
        if held and there:
            raise RuleBroken(PILE, f"blank {held.number} is carried onto blank {there.number} by {name}")

    def grip(self, name, at, to):
        arm = name.replace("grip", "arm")
        held, place = self.blank_at(arm), self.within_reach(arm)
        if to == 0 and held and not place:
            raise RuleBroken(DROP, f"{arm} lets blank {held.number} go where nothing is below it")
        if to == 0 and held:
            self.lay_blank(held, place, f"by {arm}")

    def arrived(self, name, value):
        """A magnet that is on takes the blank that its arm has come to, and a blank may be lost on its way."""
        for arm in ("arm_1", "arm_2"):
            blank = self.blank_at(self.within_reach(arm))
            if blank and self.stands[arm.replace("arm", "grip")] == 1 and not self.blank_at(arm):
                blank.place = arm
                self.faults.has_come(blank, arm)
        self.faults.have_moved(name, self.blanks)
        if name.startswith("table") and not self.faults.is_stuck("table_switch"):
            self.switch_says = self.table_stands()

    # Who is where.

    def under(self, arm):
        """What an arm points at."""
        return POINTS.get((arm, self.stands["robot_turn"]))

    def arms_at(self, place):
        """The arms that are out, be it halfway, at a place."""
        return [arm for arm in ("arm_1", "arm_2") if self.stands[arm] > 0 and self.under(arm) == place]

    def within_reach(self, arm):
        """The place at which an arm that is wholly out lays a blank down and takes one up, where it is ready for that."""
        place = self.under(arm) if self.stands[arm] == 1 else None
        if place == "table" and self.table_stands() != (AT_ARM, 1):
            return None
        return place

    def sees(self, sensor):
        """Whether a sensor says yes. The switch of the table is asked whether it says where the table is, the eye whether a blank
        is there, and an arm whether it holds one."""
        if sensor == "table_switch_says":
            return self.switch_says == self.table_stands()
        if sensor == "table_eye_says":
            return not self.faults.is_stuck("table_eye") and self.blank_at("table") is not None
        return self.blank_at(sensor.removesuffix("_says")) is not None

    def told(self):
        """A line for each blank: where it is at the end."""
        for it in self.blanks:
            yield f"blank {it.number}: {it.place}{', forged' if it.forged else ''}"
