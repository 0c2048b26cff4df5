#!/usr/bin/env python3
"""A method for one press, by entries; the second press is to be added. The feed belt, the table and the deposit belt have their
programs in ../cell.py."""
import sys
from pathlib import Path

sys.path.insert(0, str(Path(__file__).resolve().parents[1]))  # the folder of cell.py
from cell import book, control, move, plate, shown  # noqa: E402


def press():
    """Waits for a plate in press 1, forges it, goes to the bottom, waits until it is taken out, and goes to the middle."""
    while True:
        while "press1" not in plate:
            yield None
        yield from book("claimed", "press1", "z3")
        yield from book("started", "press_one", "top")
        while shown["press_one"] != ["top"]:
            yield None
        yield from book("forged", "press1", plate["press1"])
        yield from move("press_one", "bottom")
        yield from book("yielded", "press1", "z3")
        while "press1" in plate:
            yield None
        yield from book("claimed", "press1", "z3")
        yield from move("press_one", "middle")
        yield from book("yielded", "press1", "z3")


def reach(turn, axis, zone, word, arm, station):
    """Turns the robot and puts an arm out over a station, to grip its plate or to drop the arm's there."""
    yield from move("robot_turn", turn)
    yield from book("claimed", "robot", zone)
    yield from move(axis, "out")
    start, end = (station, arm) if word == "gripped" else (arm, station)
    yield from book(word, arm, plate[start], station)
    plate[end] = plate.pop(start)
    yield from move(axis, "in")
    yield from book("yielded", "robot", zone)


def robot():
    """Brings each plate from the table to press 1, and each forged one from there to the deposit belt."""
    while True:
        if "press1" in plate and shown["press_one"] == ["bottom"]:
            yield from reach("p1_unload", "arm_two", "z3", "gripped", "arm2", "press1")
            while "dep_in" in plate:
                yield None
            yield from reach("deposit2", "arm_two", "z5", "dropped", "arm2", "dep_in")
        elif "press1" not in plate and shown["press_one"] == ["middle"]:
            if "table" in plate and shown["table_turn"] == ["robot"]:
                yield from reach("table1", "arm_one", "z2", "gripped", "arm1", "table")
                yield from reach("p1_load", "arm_one", "z3", "dropped", "arm1", "press1")
        yield None


control(robot=robot(), press1=press())
