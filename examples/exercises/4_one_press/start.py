#!/usr/bin/env python3
"""A method for one press, by entries. The feed belt, the table and the deposit belt have their programs in ../cell.py; those of
the press and the robot are to be written here."""
import sys
from pathlib import Path

sys.path.insert(0, str(Path(__file__).resolve().parents[1]))  # the folder of cell.py
from cell import book, control, move, plate, shown  # noqa: E402


def press():
    """Waits for a plate in press 1, forges it, goes to the bottom, waits until it is taken out, and goes to the middle."""
    while True:
        yield None


def robot():
    """Brings each plate from the table to press 1, and each forged one from there to the deposit belt."""
    while True:
        yield None


control(robot=robot(), press1=press())
