#!/usr/bin/env python3
"""A cell of one's own to begin with, which `cellctl control` controls: what moves, how long that takes, and where the plates are.
It speaks the cell's half of docs/DRIVING.md, on standard input and output. From the repository's top:

    mkfifo lines
    examples/plants/plant.py 6 < lines | ./cellctl control examples/press_fails.toml /dev/null > lines

    plant.py PLATES [--stuck AXIS] [--seconds]

Each round takes a tenth of a second: a real one with --seconds, and else no time at all. With --stuck the first motion of an axis
doesn't begin. To control a model in place of it, send the commands to its motors and take the readings from its switches.
"""
import sys
import time

STEP = 0.1  # seconds a round
POSES = {"table_lift": ["low", "high"], "table_turn": ["belt", "robot"], "arm_one": ["in", "out"], "arm_two": ["in", "out"],
         "robot_turn": ["table1", "p1_load", "p1_unload", "p2_load", "p2_unload", "deposit2"],
         "press_one": ["middle", "top", "bottom"], "press_two": ["middle", "top", "bottom"], "feed_belt": [], "deposit_belt": []}
SECONDS = {"table_lift": 0.8, "table_turn": 0.5, "robot_turn": 0.9, "arm_one": 0.4, "arm_two": 0.4, "press_one": 1.1,
           "press_two": 1.3, "feed_belt": 0.6, "deposit_belt": 0.7}
AXES = {"feed": ["feed_belt"], "table": ["table_lift", "table_turn"], "robot": ["robot_turn", "arm_one", "arm_two"],
        "press1": ["press_one"], "press2": ["press_two"], "deposit": ["deposit_belt"]}
STATIONS = {"feed": ["feed_in", "feed_end", "table"], "table": ["table"], "robot": ["arm1", "arm2"], "press1": ["press1"],
            "press2": ["press2"], "deposit": ["dep_in", "dep_end"]}
BELTS = {("feed_belt", "to_end"): ("feed_in", "feed_end"), ("feed_belt", "to_table"): ("feed_end", "table"),
         ("deposit_belt", "to_end"): ("dep_in", "dep_end")}
FACED = {("arm1", "table1"): "table", ("arm1", "p1_load"): "press1", ("arm1", "p2_load"): "press2", ("arm2", "p1_unload"): "press1",
         ("arm2", "p2_unload"): "press2", ("arm2", "deposit2"): "dep_in"}
ARMS = {"arm1": "arm_one", "arm2": "arm_two"}

plates = {}                                                     # by station: the plate that lies there
at = {axis: poses[0] if poses else None for axis, poses in POSES.items()}  # by axis: its pose, or None on the way
goes = {}                                                       # by axis: where it goes, and in how many seconds it is there
lights = {"feed": "red", "deposit": "red"}
laid = 0


def say(*fields):
    print(",".join([*map(str, fields), "", "", ""][:4]))


def start(axis, pose, stuck):
    if axis not in POSES or (pose not in POSES[axis] and (axis, pose) not in BELTS):
        return "unreadable"
    if axis in stuck:
        stuck.remove(axis)
    else:
        goes[axis] = [pose, SECONDS[axis]]
    return "ok"


def grip(arm, is_on):
    """The plate before an arm that is out is on the arm, or the one on the arm is laid down there."""
    here = FACED.get((arm, at["robot_turn"])) if at[ARMS[arm]] == "out" else None
    source, target = (here, arm) if is_on else (arm, here)
    if target and source in plates and target not in plates:
        plates[target] = plates.pop(source)
    return "ok"


def move():
    """A tenth of a second goes by."""
    global laid
    for axis, motion in list(goes.items()):
        motion[1] -= STEP
        source, target = BELTS.get((axis, motion[0]), (None, None))
        if motion[1] > 0:
            at[axis] = None
        elif target is None:
            at[axis] = motion[0]
            del goes[axis]
        elif target not in plates and source in plates:
            plates[target] = plates.pop(source)
    if lights["feed"] == "green" and laid < planned and "feed_in" not in plates and "feed_end" not in plates:
        laid += 1
        plates["feed_in"] = laid
    if lights["deposit"] == "green":
        plates.pop("dep_end", None)


def is_carried(station):
    """Whether the plate of a station is on its way along a belt, past its beginning."""
    return any(BELTS.get((axis, pose), [None])[0] == station and left <= SECONDS[axis] - 2 * STEP for axis, (pose, left) in goes.items())


def show(number):
    for machine, axes in AXES.items():
        switches = "/".join(at[axis] or "" for axis in axes if POSES[axis])
        seen = [station for station in STATIONS[machine] if station in plates and not is_carried(station)]
        say("reading", machine, switches, "+".join(seen))
    say("round", number)


def obey(word, first, second, stuck):
    """What a command does, and its answer."""
    if word == "on":
        return start(first, second, stuck)
    if word == "off" and first in POSES:
        if not POSES[first]:
            goes.pop(first, None)
    elif word == "all_off" and first in AXES:
        for axis in AXES[first]:
            goes.pop(axis, None)
        if first in lights:
            lights[first] = "red"
    elif word in ("magnet_on", "magnet_off") and first in ARMS:
        return grip(first, word == "magnet_on")
    elif word == "lamp" and first in lights:
        lights[first] = second
    elif word == "remove":
        plates.pop(first, None)
    elif word == "home" and first in AXES:
        for axis in AXES[first]:
            goes.pop(axis, None)
            at[axis] = POSES[axis][0] if POSES[axis] else None
    else:
        return "unreadable"
    return "ok"


def main():
    global planned
    planned = int(sys.argv[1])
    stuck = [axis for word, axis in zip(sys.argv, sys.argv[1:]) if word == "--stuck"]
    say("drive", 1, planned)
    number = 1
    show(number)
    sys.stdout.flush()
    for line in sys.stdin:
        word, first, second, _ = (line.strip() + ",,,").split(",")[:4]
        if word == "quit":
            break
        if word == "done":
            if "--seconds" in sys.argv:
                time.sleep(STEP)
            move()
            number += 1
            show(number)
        elif word == "sync":
            say("synced", first)
            show(number)
        elif word not in ("", "booked", "refused"):
            say(obey(word, first, second, stuck))
        sys.stdout.flush()
    say("end", "quit")


if __name__ == "__main__":
    main()
