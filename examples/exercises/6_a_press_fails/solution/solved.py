#!/usr/bin/env python3
"""A method for two presses, by entries, that goes on forging when a press fails. The feed belt, the table and the deposit belt
have their programs in cell.py."""
import sys
from pathlib import Path

sys.path.insert(0, str(Path(__file__).resolve().parents[2]))  # the folder of cell.py
from cell import book, control, move, plate, present, shown  # noqa: E402

PRESSES = [("press1", "press_one", "p1", "z3"), ("press2", "press_two", "p2", "z4")]
LONGEST = 40    # so many rounds a motion of a press may take

failed = set()  # the presses that are declared failed


class Failure(Exception):
    """A press didn't do what it was sent to do; the argument is the cause to declare."""


def go(machine, axis, pose):
    """Sends a press to a pose, and waits until it is there with the plate that it had."""
    here = shown[axis]
    if (yield from book("started", axis, pose)) == "failed":
        raise Failure("command_fault")
    waited = 0
    while shown[axis] != [pose]:
        if waited == LONGEST:
            raise Failure("no_departure" if shown[axis] == here else "missing_motion")
        waited += 1
        yield None
    if machine in plate and machine not in present:
        raise Failure("plate_lost")


def forge(machine, axis, zone):
    """Forges the plate that is in a press, and leaves it at the bottom."""
    yield from book("claimed", machine, zone)
    yield from go(machine, axis, "top")
    yield from book("forged", machine, plate[machine])
    yield from go(machine, axis, "bottom")
    yield from book("arrived", axis, "bottom")
    yield from book("yielded", machine, zone)


def go_back(machine, axis, zone):
    """Brings an empty press to the middle."""
    yield from book("claimed", machine, zone)
    yield from go(machine, axis, "middle")
    yield from book("arrived", axis, "middle")
    yield from book("yielded", machine, zone)


def work(machine, axis, zone):
    """Forges each plate that is brought to a press."""
    while True:
        while machine not in plate:
            yield None
        yield from forge(machine, axis, zone)
        while machine in plate:
            yield None
        yield from go_back(machine, axis, zone)


def press(machine, axis, zone):
    """Lets a press work until it fails, and then declares it failed."""
    try:
        yield from work(machine, axis, zone)
    except Failure as failure:
        failed.add(machine)
        yield from book("declared", machine, str(failure))


def reach(turn, axis, zone, word, arm, station):
    """Turns the robot and puts an arm out over a station, to grip its plate or to drop the arm's there."""
    yield from move("robot_turn", turn)
    yield from book("claimed", "robot", zone)
    yield from move(axis, "out")
    start, end = (station, arm) if word == "gripped" else (arm, station)
    yield from book(word, arm, plate[start], station)
    plate[end] = plate.pop(start)
    yield from move(axis, "in")
    yield from book("yielded", "robot", zone)


def unload(machine, turn, zone):
    """Brings the plate of a press to the deposit belt."""
    yield from reach(turn + "_unload", "arm_two", zone, "gripped", "arm2", machine)
    while "dep_in" in plate:
        yield None
    yield from reach("deposit2", "arm_two", "z5", "dropped", "arm2", "dep_in")


def load(machine, turn, zone):
    """Brings the plate of the table to a press."""
    yield from reach("table1", "arm_one", "z2", "gripped", "arm1", "table")
    yield from reach(turn + "_load", "arm_one", zone, "dropped", "arm1", machine)


def is_free(machine, axis):
    return machine not in failed and machine not in plate and shown[axis] == ["middle"]


def robot():
    """Unloads each healthy press that has gone to its bottom, and brings each plate to a press that is free."""
    presses = list(PRESSES)
    while True:
        for machine, axis, turn, zone in presses:
            if machine in plate and machine in present and shown[axis] == ["bottom"] and machine not in failed:
                yield from unload(machine, turn, zone)
        free = [one for one in presses if is_free(one[0], one[1])]
        if free and "table" in plate and shown["table_turn"] == ["robot"]:
            machine, axis, turn, zone = free[0]
            yield from load(machine, turn, zone)
            presses.reverse()
        yield None


programs = {machine: press(machine, axis, zone) for machine, axis, turn, zone in PRESSES}
control(robot=robot(), **programs)
