#!/usr/bin/env python3
"""A method for two presses, by entries, that begins at the opening; how to take over where a journal left the cell is to be
added. The feed belt, the table and the deposit belt have their programs in ../cell.py."""
import sys
from pathlib import Path

sys.path.insert(0, str(Path(__file__).resolve().parents[1]))  # the folder of cell.py
from cell import book, control, laid, move, plate, shown  # noqa: E402

PRESSES = [("press1", "press_one", "p1", "z3"), ("press2", "press_two", "p2", "z4")]


def take(word, first, second, third):
    """Is called with each entry of the journal, in order, before the first round. All that the programs have to know of the
    entries is to be kept here."""
    if word == "admitted":
        laid.append(first)
        plate["feed_in"] = first


def press(machine, axis, zone):
    """Waits for a plate in the press, forges it, goes to the bottom, waits until it is taken out, and goes to the middle."""
    while True:
        while machine not in plate:
            yield None
        yield from book("claimed", machine, zone)
        yield from book("started", axis, "top")
        while shown[axis] != ["top"]:
            yield None
        yield from book("forged", machine, plate[machine])
        yield from move(axis, "bottom")
        yield from book("yielded", machine, zone)
        while machine in plate:
            yield None
        yield from book("claimed", machine, zone)
        yield from move(axis, "middle")
        yield from book("yielded", machine, zone)


def reach(turn, axis, zone, word, arm, station):
    """Turns the robot and puts an arm out over a station, to grip its plate or to drop the arm's there."""
    yield from move("robot_turn", turn)
    yield from book("claimed", "robot", zone)
    yield from move(axis, "out")
    start, end = (station, arm) if word == "gripped" else (arm, station)
    yield from book(word, arm, plate[start], station)
    plate[end] = plate.pop(start)
    yield from move(axis, "in")
    yield from book("yielded", "robot", zone)


def unload(machine, turn, zone):
    """Brings the plate of a press to the deposit belt."""
    yield from reach(turn + "_unload", "arm_two", zone, "gripped", "arm2", machine)
    while "dep_in" in plate:
        yield None
    yield from reach("deposit2", "arm_two", "z5", "dropped", "arm2", "dep_in")


def load(machine, turn, zone):
    """Brings the plate of the table to a press."""
    yield from reach("table1", "arm_one", "z2", "gripped", "arm1", "table")
    yield from reach(turn + "_load", "arm_one", zone, "dropped", "arm1", machine)


def robot():
    """Loads the presses in turn, and unloads each that has gone to its bottom."""
    presses = list(PRESSES)
    while True:
        for machine, axis, turn, zone in presses:
            if machine in plate and shown[axis] == ["bottom"]:
                yield from unload(machine, turn, zone)
        machine, axis, turn, zone = presses[0]
        is_free = machine not in plate and shown[axis] == ["middle"]
        if is_free and "table" in plate and shown["table_turn"] == ["robot"]:
            yield from load(machine, turn, zone)
            presses.reverse()
        yield None


programs = {machine: press(machine, axis, zone) for machine, axis, turn, zone in PRESSES}
control(take, robot=robot(), **programs)
