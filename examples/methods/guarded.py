#!/usr/bin/env python3
"""Controls the simulated cell by entries: each machine asks the book for its next entry and waits where it is refused, so
that a mistake becomes a refusal in place of an accident. From the repository's top:

    mkfifo entries
    ./cellctl drive examples/press_fails.toml /dev/null /dev/null < entries | examples/methods/guarded.py > entries

Each machine is a generator: `yield ENTRY` proposes an entry and gives back the answer, `yield None` waits for the next
round's readings. A machine that fails is declared failed, and begins anew when the operator has repaired it. What the
program says at the end is copied to standard error.
"""
import sys

AXES = {"feed": ["feed_belt"], "table": ["table_lift", "table_turn"], "robot": ["robot_turn", "arm_one", "arm_two"],
        "press1": ["press_one"], "press2": ["press_two"], "deposit": ["deposit_belt"]}
STATIONS = {"feed": ["feed_in", "feed_end"], "table": ["table"], "robot": ["arm1", "arm2"],
            "press1": ["press1"], "press2": ["press2"], "deposit": ["dep_in", "dep_end"]}
PATIENCE = 40   # rounds that a motion may take

shown = {}      # by axis: the poses that its switches show
present = set() # the stations that show a plate
plate = {}      # by station: the number of its plate, by the entries that were booked
failed = set()  # the machines that are booked failed
admitted = 0


class Failure(Exception):
    """A motion didn't end as it should; the argument is the cause to declare."""


def book(*fields):
    """Proposes an entry until it is booked."""
    entry = ",".join(fields) + "," * (4 - len(fields))
    answer = None
    while answer != "ok":
        answer = yield entry
        if answer == "failed":
            raise Failure("command_fault")


def wait_until(holds, cause):
    for _ in range(PATIENCE):
        if holds():
            return
        yield None
    raise Failure(cause())


def move(axis, pose):
    here = shown[axis]
    if here == [pose]:
        return
    yield from book("started", axis, pose)
    yield from wait_until(lambda: shown[axis] == [pose],
                          lambda: "no_departure" if shown[axis] == here else "missing_motion")
    yield from book("arrived", axis, pose)


def carry(belt, motion, start, end):
    yield from book("started", belt, motion)
    yield from wait_until(lambda: end in present and start not in present,
                          lambda: "no_departure" if start in present else "plate_lost")
    yield from book("conveyed", belt, plate[start], end)
    plate[end] = plate.pop(start)


def feed():
    global admitted
    while True:
        if "feed_end" in plate:
            if "table" not in plate and shown["table_lift"] == ["low"] and shown["table_turn"] == ["belt"]:
                yield from book("claimed", "feed", "z1")
                yield from carry("feed_belt", "to_table", "feed_end", "table")
                yield from book("yielded", "feed", "z1")
        elif admitted < PLATES:
            yield from book("lamp", "feed", "green")
            while "feed_in" not in present:
                yield None
            admitted += 1
            yield from book("admitted", str(admitted))
            plate["feed_in"] = str(admitted)
            yield from carry("feed_belt", "to_end", "feed_in", "feed_end")
        yield None


def table():
    while True:
        while "table" not in plate:
            yield None
        yield from table_moves(("table_lift", "high"), ("table_turn", "robot"))
        while "table" in plate:
            yield None
        yield from table_moves(("table_turn", "belt"), ("table_lift", "low"))


def table_moves(*motions):
    yield from book("claimed", "table", "z1")
    yield from book("claimed", "table", "z2")
    for axis, pose in motions:
        yield from move(axis, pose)
    yield from book("yielded", "table", "z2")
    yield from book("yielded", "table", "z1")


def press(machine, axis, zone):
    while True:
        while machine not in plate:
            yield None
        yield from book("claimed", machine, zone)
        yield from book("started", axis, "top")
        yield from wait_until(lambda: shown[axis] == ["top"],
                              lambda: "no_departure" if shown[axis] == ["middle"] else "missing_motion")
        yield from book("forged", machine, plate[machine])
        yield from move(axis, "bottom")
        yield from book("yielded", machine, zone)
        while machine in plate:
            yield None
        yield from book("claimed", machine, zone)
        yield from move(axis, "middle")
        yield from book("yielded", machine, zone)


def handle(turn, axis, zone, word, arm, station):
    """Turns the robot and puts an arm out over a station, to grip its plate or to drop the arm's there."""
    yield from move("robot_turn", turn)
    yield from book("claimed", "robot", zone)
    yield from move(axis, "out")
    source, dest = (station, arm) if word == "gripped" else (arm, station)
    yield from book(word, arm, plate[source], station)
    plate[dest] = plate.pop(source)
    yield None
    yield from move(axis, "in")
    yield from book("yielded", "robot", zone)


def robot():
    presses = [("press1", "press_one", "p1", "z3"), ("press2", "press_two", "p2", "z4")]
    while True:
        for machine, axis, turn, zone in presses:
            if machine not in failed and machine in plate and shown[axis] == ["bottom"]:
                yield from handle(turn + "_unload", "arm_two", zone, "gripped", "arm2", machine)
                while "dep_in" in plate:
                    yield None
                yield from handle("deposit2", "arm_two", "z5", "dropped", "arm2", "dep_in")
        for machine, axis, turn, zone in presses:
            is_ready = "table" in plate and shown["table_turn"] == ["robot"]
            if is_ready and machine not in failed and machine not in plate and shown[axis] == ["middle"]:
                yield from handle("table1", "arm_one", "z2", "gripped", "arm1", "table")
                yield from handle(turn + "_load", "arm_one", zone, "dropped", "arm1", machine)
                presses.reverse()  # the other press takes the next plate, if it can
                break
        yield None


def deposit():
    while True:
        if "dep_end" in plate:
            yield from book("lamp", "deposit", "green")
            while "dep_end" in present:
                yield None
            yield from book("delivered", plate["dep_end"])
            del plate["dep_end"]
        elif "dep_in" in plate:
            yield from book("claimed", "deposit", "z5")
            yield from carry("deposit_belt", "to_end", "dep_in", "dep_end")
            yield from book("yielded", "deposit", "z5")
        yield None


PROGRAMS = {"feed": feed, "table": table, "robot": robot, "press1": lambda: press("press1", "press_one", "z3"),
            "press2": lambda: press("press2", "press_two", "z4"), "deposit": deposit}


def step(machine, program, answer):
    """The entry that a machine proposes next."""
    try:
        return program.send(answer)
    except Failure as failure:
        failed.add(machine)
        return f"declared,{machine},{failure},"


def look(machine, switches, presence):
    for axis, part in zip(AXES[machine], switches.split("/")):
        shown[axis] = part.split("+") if part else []
    present.difference_update(STATIONS[machine])
    present.update(presence.split("+") if presence else [])


def main():
    global PLATES
    programs = {machine: program() for machine, program in PROGRAMS.items()}
    answers = dict.fromkeys(programs)
    for line in sys.stdin:
        word, first, second, third = line.rstrip("\n").split(",")
        if word == "drive":
            PLATES = int(second)
        elif word == "reading":
            look(first, second, third)
        elif word == "missing":
            shown.update((axis, []) for axis in AXES[first])
        elif word == "round":
            proposals = {}
            for machine in programs:
                if machine not in failed:
                    proposals[machine] = step(machine, programs[machine], answers[machine])
            entries = [entry for entry in proposals.values() if entry]
            print(*entries, "done,,,", sep="\n", flush=True)
            for machine, entry in proposals.items():
                answers[machine] = next(sys.stdin).split(",")[0] if entry else None
        elif word == "quarantined":
            del plate[second]
        elif word == "repaired":
            failed.discard(first)
            programs[first], answers[first] = PROGRAMS[first](), None
        elif word == "end":
            sys.stderr.write(line + sys.stdin.read())


if __name__ == "__main__":
    main()
