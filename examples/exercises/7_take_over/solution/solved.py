#!/usr/bin/env python3
"""A method for two presses, by entries, that takes over a cell where a journal left it. Each machine ends what it was at. Then the
feed belt, the table and the deposit belt go on by their programs in cell.py, a press by where it is and whether it has a plate,
and the robot by what its arms hold."""
import sys
from pathlib import Path

sys.path.insert(0, str(Path(__file__).resolve().parents[2]))  # the folder of cell.py
import cell  # noqa: E402
from cell import AXES, book, control, laid, plate, present, shown  # noqa: E402

PRESSES = [("press1", "press_one", "p1", "z3"), ("press2", "press_two", "p2", "z4")]
NEXT = {"middle": "top", "top": "bottom", "bottom": "middle"}   # where a press goes

green = set()                                   # the belts whose light is green
going = {}                                      # by axis: where it was sent, until it is booked there
held = {machine: set() for machine in AXES}     # the zones that each machine holds
failed = set()                                  # the machines that are declared failed


def take(word, first, second, third):
    """Keeps what an entry of the journal says."""
    if word == "lamp":
        green.add(first) if second == "green" else green.discard(first)
    elif word == "admitted":
        green.discard("feed")
        laid.append(first)
        plate["feed_in"] = first
    elif word == "delivered":
        green.discard("deposit")
        del plate["dep_end"]
    elif word == "claimed":
        held[first].add(second)
    elif word == "yielded":
        held[first].discard(second)
    elif word == "started":
        going[first] = second
    elif word == "declared":
        failed.add(first)
    else:
        going.pop(AXES[first][0] if word == "forged" else first, None)
        if word in ("conveyed", "gripped", "dropped"):
            start = next(station for station in plate if plate[station] == second)
            plate[first if word == "gripped" else third] = plate.pop(start)


def claim(machine, *zones):
    """Claims the zones that a machine doesn't hold yet."""
    for zone in zones:
        if zone not in held[machine]:
            yield from book("claimed", machine, zone)
            held[machine].add(zone)


def give_up(machine, *zones):
    """Gives up the zones that a machine holds."""
    for zone in zones:
        if zone in held[machine]:
            yield from book("yielded", machine, zone)
            held[machine].discard(zone)


def go(axis, pose):
    """Sends an axis to a pose, unless it is there or on its way, and waits until it is there."""
    if axis not in going and shown[axis] == [pose]:
        return
    if axis not in going:
        yield from book("started", axis, pose)
    while shown[axis] != [pose]:
        yield None
    going.pop(axis, None)
    if pose == "top":
        press = next(machine for machine in AXES if axis in AXES[machine])
        yield from book("forged", press, plate[press])
    else:
        yield from book("arrived", axis, pose)


def end(*axes):
    """Ends the motions of these axes that are under way."""
    for axis in axes:
        if axis in going:
            yield from go(axis, going[axis])


def carry(belt, motion, start, to):
    """Lets a belt bring its plate to a station, if it isn't on its way."""
    if going.pop(belt, None):
        while to not in present or start in present:
            yield None
        yield from book("conveyed", belt, plate[start], to)
        plate[to] = plate.pop(start)
    else:
        yield from cell.carry(belt, motion, start, to)


def feed():
    if "feed" in green:
        yield from cell.admit()
    if "feed_in" in plate:
        yield from carry("feed_belt", "to_end", "feed_in", "feed_end")
    elif "feed_belt" in going:
        yield from carry("feed_belt", "to_table", "feed_end", "table")
    yield from give_up("feed", "z1")
    yield from cell.feed()


def table():
    yield from end("table_lift", "table_turn")
    if held["table"] or ("table" not in plate and shown["table_lift"] != ["low"]):
        yield from claim("table", "z1", "z2")
        if "table" in plate:
            yield from go("table_lift", "high")
            yield from go("table_turn", "robot")
        else:
            yield from go("table_turn", "belt")
            yield from go("table_lift", "low")
        yield from give_up("table", "z2", "z1")
    yield from cell.table()


def deposit():
    if "deposit" in green:
        yield from cell.deliver()
    if "deposit_belt" in going:
        yield from carry("deposit_belt", "to_end", "dep_in", "dep_end")
    yield from give_up("deposit", "z5")
    yield from cell.deposit()


def press(machine, axis, zone):
    """Sends a press on from the middle with a plate, from the top, and from the bottom without one."""
    while True:
        yield from end(axis)
        here = shown[axis][0]
        if here == "top" or (machine in plate) == (here == "middle"):
            yield from claim(machine, zone)
            yield from go(axis, NEXT[here])
        else:
            yield from give_up(machine, zone)
            yield None


def reach(turn, axis, zone, word, arm, station):
    """Turns the robot and puts an arm out over a station, to grip its plate or to drop the arm's there."""
    yield from go("robot_turn", turn)
    yield from claim("robot", zone)
    yield from go(axis, "out")
    start, to = (station, arm) if word == "gripped" else (arm, station)
    yield from book(word, arm, plate[start], station)
    plate[to] = plate.pop(start)
    yield from go(axis, "in")
    yield from give_up("robot", zone)


def robot():
    """Draws the arms in. Then it goes by what they hold, and by what waits at the presses and the table."""
    yield from end(*AXES["robot"])
    yield from go("arm_one", "in")
    yield from go("arm_two", "in")
    yield from give_up("robot", *list(held["robot"]))
    presses = [one for one in PRESSES if one[0] not in failed]
    while True:
        done = [one for one in presses if one[0] in plate and shown[one[1]] == ["bottom"]]
        free = [one for one in presses if one[0] not in plate and shown[one[1]] == ["middle"]]
        if "arm2" in plate:
            if "dep_in" not in plate:
                yield from reach("deposit2", "arm_two", "z5", "dropped", "arm2", "dep_in")
        elif done:
            machine, _, turn, zone = done[0]
            yield from reach(turn + "_unload", "arm_two", zone, "gripped", "arm2", machine)
        elif free and "arm1" in plate:
            machine, _, turn, zone = free[0]
            yield from reach(turn + "_load", "arm_one", zone, "dropped", "arm1", machine)
            presses.reverse()
        elif free and "table" in plate and shown["table_turn"] == ["robot"]:
            yield from reach("table1", "arm_one", "z2", "gripped", "arm1", "table")
        yield None


def unless_failed(machine, program):
    """A machine that is declared failed does nothing. Which one is so is known when the journal's entries were told."""
    if machine not in failed:
        yield from program


programs = {machine: unless_failed(machine, press(machine, axis, zone)) for machine, axis, _, zone in PRESSES}
control(take, feed=feed(), table=table(), robot=robot(), deposit=deposit(), **programs)
