#!/usr/bin/env python3
"""Controls the simulated cell by commands, with no book and no zones: what keeps the machines apart are the conditions
below, written by hand. From the repository's top:

    mkfifo commands
    ./cellctl drive --raw examples/press_fails.toml /dev/null /dev/null < commands | examples/methods/careful.py > commands

Each machine is a generator: it sends commands, and `yield` waits for the next round's readings. What the program says at
the end is copied to standard error.
"""
import sys

AXES = {"feed": ["feed_belt"], "table": ["table_lift", "table_turn"], "robot": ["robot_turn", "arm_one", "arm_two"],
        "press1": ["press_one"], "press2": ["press_two"], "deposit": ["deposit_belt"]}
STATIONS = {"feed": ["feed_in", "feed_end", "table"], "table": ["table"], "robot": ["arm1", "arm2"],
            "press1": ["press1"], "press2": ["press2"], "deposit": ["dep_in", "dep_end"]}

shown = {}      # by axis: the poses that its switches show
plates = set()  # the stations that show a plate
moving = set()  # the axes that were sent somewhere and haven't been seen there
commands = []   # of this round


def send(word, first, second=""):
    commands.append(f"{word},{first},{second},")


def rests(axis, pose):
    return axis not in moving and shown[axis] == [pose]


def arms_are_in():
    return rests("arm_one", "in") and rests("arm_two", "in")


def move(axis, word, is_there, is_still_here):
    """Sends an axis somewhere and waits until it is there. Where five readings show that it hasn't left, it is sent again."""
    moving.add(axis)
    send("on", axis, word)
    stayed = 0
    while not is_there():
        yield
        stayed = stayed + 1 if is_still_here() else 0
        if stayed == 5:
            send("on", axis, word)
            stayed = 0
    send("off", axis)
    moving.discard(axis)


def go(axis, pose):
    here = shown[axis]
    if here != [pose]:
        yield from move(axis, pose, lambda: shown[axis] == [pose], lambda: shown[axis] == here)


def carry(belt, motion, start, end):
    yield from move(belt, motion, lambda: end in plates and start not in plates,
                    lambda: start in plates and end not in plates)


def feed():
    is_green = False
    while True:
        if (not plates & {"feed_in", "feed_end"}) != is_green:
            is_green = not is_green
            send("lamp", "feed", "green" if is_green else "red")
        if "feed_end" in plates and "table" not in plates and rests("table_lift", "low") and rests("table_turn", "belt"):
            yield from carry("feed_belt", "to_table", "feed_end", "table")
        elif "feed_in" in plates and "feed_end" not in plates:
            yield from carry("feed_belt", "to_end", "feed_in", "feed_end")
        yield


def table():
    while True:
        while "table" not in plates or "feed_belt" in moving:
            yield
        yield from go("table_lift", "high")
        yield from go("table_turn", "robot")
        while "table" in plates or not rests("arm_one", "in"):
            yield
        yield from go("table_turn", "belt")
        yield from go("table_lift", "low")


def may_press(station):
    """A press moves only while no arm is out."""
    return arms_are_in()


def press(axis, station):
    while True:
        while station not in plates or not may_press(station):
            yield
        yield from go(axis, "top")
        yield from go(axis, "bottom")
        while station in plates or not may_press(station):
            yield
        yield from go(axis, "middle")


def handle(turn, arm, magnet, station):
    """Turns the robot, puts an arm out, takes a plate or lays it down, and draws the arm in."""
    yield from go("robot_turn", turn)
    yield from go(arm, "out")
    send(magnet, station)
    yield
    yield from go(arm, "in")


def robot():
    presses = [("press1", "press_one", "p1"), ("press2", "press_two", "p2")]
    while True:
        for station, axis, turn in presses:
            if station in plates and rests(axis, "bottom"):
                yield from handle(turn + "_unload", "arm_two", "magnet_on", "arm2")
                while "dep_in" in plates or "deposit_belt" in moving:
                    yield
                yield from handle("deposit2", "arm_two", "magnet_off", "arm2")
        # The first press that is free takes the next plate.
        for station, axis, turn in presses:
            is_ready = "table" in plates and rests("table_lift", "high") and rests("table_turn", "robot")
            if is_ready and station not in plates and rests(axis, "middle"):
                yield from handle("table1", "arm_one", "magnet_on", "arm1")
                yield from handle(turn + "_load", "arm_one", "magnet_off", "arm1")
                break
        yield


def deposit():
    while True:
        if "dep_end" in plates:
            send("lamp", "deposit", "green")
            while "dep_end" in plates:
                yield
            send("lamp", "deposit", "red")
        elif "dep_in" in plates and rests("arm_two", "in"):
            yield from carry("deposit_belt", "to_end", "dep_in", "dep_end")
        yield


def look(machine, switches, presence):
    for axis, part in zip(AXES[machine], switches.split("/")):
        shown[axis] = part.split("+") if part else []
    plates.difference_update(STATIONS[machine])
    plates.update(presence.split("+") if presence else [])


def main():
    machines = [feed(), table(), robot(), press("press_one", "press1"), press("press_two", "press2"), deposit()]
    for line in sys.stdin:
        word, first, second, third = line.rstrip("\n").split(",")
        if word == "reading":
            look(first, second, third)
        elif word == "missing":
            shown.update((axis, []) for axis in AXES[first])
        elif word == "round":
            for machine in machines:
                next(machine)
            print(*commands, "done,,,", sep="\n", flush=True)
            for _ in commands:
                next(sys.stdin)
            commands.clear()
        elif word == "end":
            sys.stderr.write(line + sys.stdin.read())


if __name__ == "__main__":
    main()
