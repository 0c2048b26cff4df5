"""The cell that live.py shows: its axes with what is broken of each, its stations and plates, in rounds of a tenth of a second."""
import collections
import threading

from plant import ARMS, AXES, BELTS, FACED, POSES, STATIONS, STEP, say

PLACES = ["feed_in", "feed_end", "table", "arm1", "arm2", "press1", "press2", "dep_in", "dep_end"]
OWN = {"feed": ["feed_in", "feed_end"], "table": ["table"], "robot": ["arm1", "arm2"], "press1": ["press1"], "press2": ["press2"],
       "deposit": ["dep_in", "dep_end"]}
MACHINES = list(AXES)
NAMES = [axis for machine in MACHINES for axis in AXES[machine]]
MACHINE_OF = {axis: machine for machine in MACHINES for axis in AXES[machine]}
HOLDS = {"feed_belt": OWN["feed"], "table_lift": ["table"], "table_turn": ["table"], "robot_turn": OWN["robot"],
         "arm_one": ["arm1"], "arm_two": ["arm2"], "press_one": ["press1"], "press_two": ["press2"], "deposit_belt": OWN["deposit"]}
# A pose's letter in the rows of the program's page. A belt is at rest, a.
LETTERS = {"rest": "a", "to_end": "b", "to_table": "c", "low": "d", "high": "e", "belt": "f", "robot": "g", "table1": "h",
           "p1_load": "i", "p1_unload": "j", "p2_load": "k", "p2_unload": "l", "deposit2": "m", "in": "n", "out": "o",
           "middle": "p", "top": "q", "bottom": "r"}
PRESSES = {"press1": "press_one", "press2": "press_two"}
NEXT = {"middle": "top", "top": "bottom", "bottom": "middle"}
# Each kind of fault of docs/SIMULATOR.md, and what it is called on the page. Those with a count have it from 1 to 1000.
KINDS = {"no_motion": "doesn't move", "keeps_old": "old switch stays on", "both": "all switches on", "slow": "slow",
         "lose_plate": "loses its plate", "silent": "silent", "refuse_command": "refuses commands"}
COUNTED = ("slow", "silent")
# The rules of docs/SAFETY.md that can be seen in the cell, and what is said when one is broken there.
RULES = {"ArmInPress": "{arm} is in {machine}, which isn't where that arm serves it",
         "ArmOverTable": "the table moves while {arm} is over it",
         "ArmOverBelt": "the deposit belt moves while {arm} is over it",
         "TurnWithArmOut": "the robot turns while {arm} is out",
         "TableNotReady": "the feed belt goes to the table, which isn't ready for a plate",
         "PlateOnPlate": "{arm} lets go of its plate over a station that has one",
         "PlateDropped": "{arm} lets go of its plate over no station",
         "FullEnd": "the {machine} belt is sent to its end, which has a plate",
         "PressOrder": "{machine} is sent on in a wrong order, or before it rests",
         "NoSuchPose": "an axis of the {machine} is sent to a pose that it hasn't",
         "LaidOntoFullBelt": "the feed light turns green over a plate on the belt",
         "ForgedTwice": "{machine} forges a forged plate"}


class Fault:
    """What is broken of an axis. One for the next motion is armed until that begins."""

    def __init__(self, kind, count):
        self.kind, self.count, self.age = kind, count, 0
        self.old = []  # what stays shown, of keeps_old


class Axis:
    """An axis stands at a pose, or between two: so many rounds of `total` beyond `start`."""

    def __init__(self, name, seconds):
        self.name = name
        self.rounds = max(2, round(seconds / STEP))
        self.armed = None
        self.put_home()

    def put_home(self):
        self.start = self.end = POSES[self.name][0] if POSES[self.name] else "rest"
        self.gone, self.total = 0, self.rounds
        self.goal = self.fault = None
        self.brought = False

    def pose(self):
        return self.start if self.start == self.end else None

    def share(self):
        return min(1, self.gone / self.total)

    def has(self, kind):
        return self.fault is not None and self.fault.kind == kind

    def set_out(self, pose):
        """Begins a motion, also from between two poses."""
        if not POSES[self.name]:
            if self.goal != pose:
                self.gone, self.brought = 0, False
            self.goal = self.end = pose
            return
        if self.start != self.end and pose == self.start:
            self.start, self.end, self.gone = self.end, self.start, self.total - self.gone
        elif self.start == self.end or pose != self.end:
            self.start, self.end, self.gone = (self.end if self.share() > 0.5 else self.start), pose, 0
        self.total = self.rounds
        self.goal = pose

    def stop(self):
        self.goal = None
        if not POSES[self.name] and self.brought:
            self.end, self.gone, self.brought = "rest", 0, False

    def arrive(self):
        self.start, self.gone = self.end, 0
        self.goal = None
        if self.has("slow"):
            self.fault = None


class World:
    """What is so in the cell. Whoever reads or changes it holds its lock."""

    def __init__(self, planned, seconds):
        self.lock = threading.Condition()
        self.axes = {name: Axis(name, seconds[name]) for name in NAMES}
        self.plates, self.forged = {}, set()
        self.lights = {"feed": "red", "deposit": "red"}
        self.planned = planned
        self.counts = {"laid": 0, "forged": 0, "delivered": 0, "cleared": 0, "taken": 0, "lost": 0}
        self.returning = []                      # plates that someone lays in next, by the desk's word
        self.broken = collections.Counter()      # how often each rule was broken, by name
        self.accidents = []                      # each time with its round, machine, words and the command that did it, if one did
        self.standing = set()
        self.doing = ""                          # the command that is carried out
        self.round = 1

    def breaks(self, rule, machine, arm=""):
        self.broken[rule] += 1
        moves = rule == "ArmInPress" and self.axes[PRESSES[machine]].goal
        words = "{machine} moves while {arm} is in it" if moves else RULES[rule]
        told = words.format(machine=machine.replace("press", "press "), arm=arm.replace("arm", "arm "))
        self.accidents.append({"rule": rule, "round": self.round, "machine": machine, "words": told, "command": self.doing})

    # What one does to it by hand.

    def break_part(self, name, kind, at_once, count):
        axis = self.axes[name]
        fault = Fault(kind, count)
        if not at_once or (kind == "slow" and axis.goal is None):
            axis.armed = fault
            return
        axis.armed, axis.fault = None, fault
        self.begin_fault(axis)
        if kind == "no_motion":
            axis.stop()
        elif kind == "lose_plate":
            self.lose(axis)

    def begin_fault(self, axis):
        fault = axis.fault
        if fault.kind == "keeps_old":
            belt = BELTS.get((axis.name, axis.goal)) if axis.goal else None
            held = [place for place in HOLDS[axis.name] if place in self.plates]
            fault.old = [axis.start] if POSES[axis.name] else [belt[0]] if belt else held
        elif fault.kind == "slow" and axis.goal:
            axis.total += fault.count

    def lose(self, axis):
        for place in HOLDS[axis.name]:
            if self.plates.pop(place, None):
                self.counts["lost"] += 1
        axis.fault = None

    def mend(self, machine):
        for name in AXES[machine]:
            self.axes[name].fault = self.axes[name].armed = None

    def take(self, place):
        if self.plates.pop(place, None):
            self.counts["taken"] += 1
            return True
        return False

    # Commands.

    def command(self, word, first, second):
        """What a command does, and its answer."""
        self.doing = f"{word},{first},{second},"
        if word == "on":
            return self.turn_on(first, second)
        if word == "off" and first in self.axes:
            if not POSES[first]:
                self.axes[first].stop()
        elif word == "all_off" and first in AXES:
            for name in AXES[first]:
                self.axes[name].stop()
            if first in self.lights:
                self.lights[first] = "red"
        elif word in ("magnet_on", "magnet_off") and first in ARMS:
            self.grip(first, word == "magnet_on")
        elif word == "lamp" and first in self.lights:
            if (first, second) == ("feed", "green") and ("feed_in" in self.plates or "feed_end" in self.plates):
                self.breaks("LaidOntoFullBelt", "feed")
            self.lights[first] = second
        elif word == "remove" and first in PLACES:
            self.counts["cleared"] += self.plates.pop(first, None) is not None
        elif word == "home" and first in AXES:
            for name in AXES[first]:
                self.axes[name].armed = None
                self.axes[name].put_home()
        else:
            return "unreadable"
        return "ok"

    def turn_on(self, name, pose):
        if name not in self.axes or (pose not in POSES[name] and (name, pose) not in BELTS):
            if name in self.axes:
                self.breaks("NoSuchPose", MACHINE_OF[name])
            return "unreadable"
        axis = self.axes[name]
        if axis.armed:
            axis.fault, axis.armed = axis.armed, None
            axis.fault.age = 0
            fresh = True
        else:
            fresh = False
        if axis.has("refuse_command"):
            return "failed"
        if name in PRESSES.values() and (axis.goal or (axis.pose() and NEXT[axis.pose()] != pose)):
            self.breaks("PressOrder", MACHINE_OF[name])
        if (name, pose) in BELTS and BELTS[name, pose][1] in self.plates:
            self.breaks("FullEnd" if pose == "to_end" else "TableNotReady", MACHINE_OF[name])
        if not axis.has("no_motion"):
            axis.set_out(pose)
            if fresh:
                self.begin_fault(axis)
        return "ok"

    def grip(self, arm, is_on):
        """The plate before an arm that is out is on the arm, or the one on the arm is laid down there."""
        out = self.axes[ARMS[arm]].pose() == "out"
        here = FACED.get((arm, self.axes["robot_turn"].pose())) if out else None
        if not is_on and arm in self.plates and here is None:
            self.breaks("PlateDropped", "robot", arm)
            self.plates.pop(arm)
            self.counts["lost"] += 1
        elif not is_on and arm in self.plates and here in self.plates:
            self.breaks("PlateOnPlate", "robot", arm)
            self.plates.pop(arm)
            self.counts["lost"] += 1
        source, target = (here, arm) if is_on else (arm, here)
        if target and source in self.plates and target not in self.plates:
            self.plates[target] = self.plates.pop(source)

    # Time.

    def move(self):
        """A round goes by: a tenth of a second of the cell's own time."""
        self.round += 1
        self.doing = ""
        for axis in self.axes.values():
            if axis.fault:
                axis.fault.age += 1
                if axis.has("lose_plate") and axis.fault.age >= 2:
                    self.lose(axis)
            if axis.goal:
                self.advance(axis)
        if self.lights["feed"] == "green" and "feed_in" not in self.plates and "feed_end" not in self.plates:
            self.lay_in()
        if self.lights["deposit"] == "green" and self.plates.pop("dep_end", None):
            self.counts["delivered"] += 1

    def advance(self, axis):
        axis.gone = min(axis.gone + 1, axis.total)
        source, target = BELTS.get((axis.name, axis.goal), (None, None))
        if axis.gone < axis.total:
            return
        if target is None:
            axis.arrive()
            self.forge(axis)
        elif not axis.brought and source in self.plates and target not in self.plates:
            self.plates[target] = self.plates.pop(source)
            axis.brought = True
            if axis.has("slow"):
                axis.fault = None

    def forge(self, axis):
        plate = self.plates.get(HOLDS[axis.name][0])
        if axis.name in PRESSES.values() and axis.pose() == "top" and plate:
            if plate in self.forged:
                self.breaks("ForgedTwice", MACHINE_OF[axis.name])
            self.forged.add(plate)
            self.counts["forged"] += 1

    def lay_in(self):
        if self.returning:
            self.plates["feed_in"] = self.returning.pop(0)
        elif self.counts["laid"] < self.planned:
            self.counts["laid"] += 1
            self.plates["feed_in"] = self.counts["laid"]

    def is_done(self):
        """Whether all plates were laid in, none is in the cell, and nothing moves."""
        is_empty = self.counts["laid"] >= self.planned and not self.returning and not self.plates
        return is_empty and not any(axis.goal for axis in self.axes.values())

    def watch(self):
        """Counts each safety rule that can be seen in the cell, from when it is broken until it is kept again. What is on an arm that
        something runs into is lost."""
        turn, found = self.axes["robot_turn"], set()
        table = [self.axes["table_lift"], self.axes["table_turn"]]
        for arm, name in ARMS.items():
            if self.axes[name].pose() == "in":
                continue
            faced = FACED.get((arm, turn.pose()))
            if turn.goal:
                found.add(("TurnWithArmOut", "robot", arm))
            if faced in PRESSES and self.axes[PRESSES[faced]].pose() != ("middle" if arm == "arm1" else "bottom"):
                found.add(("ArmInPress", faced, arm))
            if faced == "table" and any(axis.goal for axis in table):
                found.add(("ArmOverTable", "table", arm))
            if faced == "dep_in" and self.axes["deposit_belt"].goal:
                found.add(("ArmOverBelt", "deposit", arm))
        for arm in {arm for _, _, arm in found if arm in self.plates}:
            self.plates.pop(arm)
            self.counts["lost"] += 1
        feed = self.axes["feed_belt"]
        if feed.goal == "to_table" and not feed.brought and [axis.pose() for axis in table] != ["low", "belt"]:
            found.add(("TableNotReady", "feed", ""))
        for rule in sorted(found - self.standing):
            self.breaks(*rule)
        self.standing = found

    # What its switches and sensors show.

    def is_carried(self, place):
        """Whether the plate of a station is on its way along a belt, past its beginning."""
        moving = [axis for axis in self.axes.values() if axis.gone >= 2 and not axis.brought]
        return any(BELTS.get((axis.name, axis.end), [None])[0] == place for axis in moving)

    def switches(self, axis):
        shown = {axis.pose()}
        if axis.has("both"):
            shown = set(POSES[axis.name]) if axis.fault.age >= 1 else shown
        elif axis.has("keeps_old"):
            shown.update(axis.fault.old)
        return "+".join(pose for pose in POSES[axis.name] if pose in shown)

    def presence(self, machine):
        seen = {place for place in STATIONS[machine] if place in self.plates and not self.is_carried(place)}
        for axis in (self.axes[name] for name in AXES[machine] if not POSES[name]):
            if axis.has("keeps_old"):
                seen.update(axis.fault.old)
            elif axis.has("both") and axis.fault.age >= 1:
                seen.update(BELTS.get((axis.name, axis.goal), OWN[machine]))
        return "+".join(place for place in STATIONS[machine] if place in seen)

    def is_silent(self, machine):
        silent = [self.axes[name] for name in AXES[machine] if self.axes[name].has("silent")]
        for axis in silent:
            axis.fault.count -= 1
            if axis.fault.count <= 0:
                axis.fault = None
        return bool(silent)

    def show(self):
        for machine, names in AXES.items():
            if self.is_silent(machine):
                say("missing", machine)
                continue
            switches = "/".join(self.switches(self.axes[name]) for name in names if POSES[name])
            say("reading", machine, switches, self.presence(machine))
        say("round", self.round)

    # What the page shows of it, in the order and by the letters of the program's page.

    def row(self):
        axes = [self.axes[name] for name in NAMES]
        return {
            "plates": [self.plates.get(place, 0) for place in PLACES],
            "forged": "".join("1" if self.plates.get(place) in self.forged else "0" for place in PLACES),
            "at": "".join(LETTERS[axis.start] for axis in axes),
            "going": "".join(LETTERS[axis.goal] if axis.goal else "-" for axis in axes),
            "lamps": "".join(self.lights[light][0] for light in ("feed", "deposit")),
            "axes": [[LETTERS[axis.start], LETTERS[axis.end], round(axis.share(), 3), axis.brought] for axis in axes],
        }

    def faults(self):
        told = []
        for axis in self.axes.values():
            for fault, when in ((axis.fault, "now"), (axis.armed, "next")):
                if fault:
                    told.append({"axis": axis.name, "machine": MACHINE_OF[axis.name], "kind": fault.kind, "when": when,
                                 "words": KINDS[fault.kind]})
        return told
