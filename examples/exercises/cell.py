"""What the methods of the exercises stand on: it reads the lines of `cellctl drive`, keeps what they show, and has the programs
of the feed belt, the table and the deposit belt. A method adds programs for the robot and the presses and calls `control`.

A program is a generator. `yield ENTRY` proposes an entry and gives back the answer: "ok" when it was booked, "failed" when it
was booked and its command failed, "refused" when the book doesn't allow it now. `yield None` waits for the next round's
readings. A program that returns has nothing more to do.
"""
import sys

AXES = {"feed": ["feed_belt"], "table": ["table_lift", "table_turn"], "robot": ["robot_turn", "arm_one", "arm_two"],
        "press1": ["press_one"], "press2": ["press_two"], "deposit": ["deposit_belt"]}
STATIONS = {"feed": ["feed_in", "feed_end"], "table": ["table"], "robot": ["arm1", "arm2"],
            "press1": ["press1"], "press2": ["press2"], "deposit": ["dep_in", "dep_end"]}
PATIENCE = 100      # so many rounds in which nothing is booked end the run

shown = {}          # by axis: the poses that its switches show
present = set()     # the stations that show a plate
plate = {}          # by station: the number of its plate, by the entries that were booked
laid = []           # the numbers of the plates that were laid in, by the entries that were booked
wanted = 0          # how many plates are to come


def book(*fields):
    """Proposes an entry until it is booked, and gives back "ok", or "failed" when its command failed."""
    answer = "refused"
    while answer == "refused":
        answer = yield ",".join(fields) + "," * (4 - len(fields))
    return answer


def move(axis, pose):
    """Sends an axis to a pose and waits until it is there, however long that takes."""
    if shown[axis] != [pose]:
        yield from book("started", axis, pose)
        while shown[axis] != [pose]:
            yield None
        yield from book("arrived", axis, pose)


def carry(belt, motion, start, end):
    """Lets a belt bring its plate from one station to another."""
    yield from book("started", belt, motion)
    while end not in present or start in present:
        yield None
    yield from book("conveyed", belt, plate[start], end)
    plate[end] = plate.pop(start)


def admit():
    """Waits for a plate under the green light, and books it in."""
    while "feed_in" not in present:
        yield None
    laid.append(str(len(laid) + 1))
    yield from book("admitted", laid[-1])
    plate["feed_in"] = laid[-1]


def feed():
    while True:
        if "feed_end" in plate:
            if "table" not in plate and shown["table_lift"] == ["low"] and shown["table_turn"] == ["belt"]:
                yield from book("claimed", "feed", "z1")
                yield from carry("feed_belt", "to_table", "feed_end", "table")
                yield from book("yielded", "feed", "z1")
        elif len(laid) < wanted:
            yield from book("lamp", "feed", "green")
            yield from admit()
            yield from carry("feed_belt", "to_end", "feed_in", "feed_end")
        yield None


def table_moves(first, second):
    yield from book("claimed", "table", "z1")
    yield from book("claimed", "table", "z2")
    yield from move(*first)
    yield from move(*second)
    yield from book("yielded", "table", "z2")
    yield from book("yielded", "table", "z1")


def table():
    while True:
        while "table" not in plate:
            yield None
        yield from table_moves(("table_lift", "high"), ("table_turn", "robot"))
        while "table" in plate:
            yield None
        yield from table_moves(("table_turn", "belt"), ("table_lift", "low"))


def deliver():
    """Waits until the plate is taken under the green light, and books it out."""
    while "dep_end" in present:
        yield None
    yield from book("delivered", plate["dep_end"])
    del plate["dep_end"]


def deposit():
    while True:
        if "dep_end" in plate:
            yield from book("lamp", "deposit", "green")
            yield from deliver()
        elif "dep_in" in plate:
            yield from book("claimed", "deposit", "z5")
            yield from carry("deposit_belt", "to_end", "dep_in", "dep_end")
            yield from book("yielded", "deposit", "z5")
        yield None


def look(machine, switches, presence):
    """Keeps what a machine's reading shows."""
    for axis, part in zip(AXES[machine], switches.split("/")):
        shown[axis] = part.split("+") if part else []
    present.difference_update(STATIONS[machine])
    present.update(presence.split("+") if presence else [])


def propose(programs, answers):
    """What each machine that has something to do proposes, by its name."""
    proposals = {}
    for machine in list(programs):
        try:
            proposals[machine] = programs[machine].send(answers.get(machine))
        except StopIteration:
            del programs[machine]
    return {machine: entry for machine, entry in proposals.items() if entry}


def control(take=None, **programs):
    """Controls the cell by the programs of the machines that are named, and by those above. `take` is called with the four fields
    of each entry that the cell tells, as those of the journal from which it goes on. What the cell tells at the end is
    copied to standard error; below it stands what was refused in the last round, if the run isn't finished. What can't be read
    as an entry is told there at once."""
    global wanted
    programs = {"feed": feed(), "table": table(), "deposit": deposit(), **programs}
    programs["deposit"] = programs.pop("deposit")   # it comes last
    entries, told, answers, idle = {}, {}, {}, 0
    for line in sys.stdin:
        word, first, second, third = line.rstrip("\n").split(",")
        if word == "drive":
            wanted = int(second)
        elif word == "reading":
            look(first, second, third)
        elif word == "missing":
            shown.update((axis, []) for axis in AXES[first])
        elif word == "round":
            entries = propose(programs, answers)
            print(*entries.values(), "done,,," if idle < PATIENCE else "quit,,,", sep="\n", flush=True)
            told = {machine: next(sys.stdin).rstrip("\n").split(",") for machine in entries}
            answers = {machine: answer[0] for machine, answer in told.items()}
            idle = 0 if {"ok", "failed"} & set(answers.values()) else idle + 1
            for machine in entries:
                if answers[machine] == "unreadable":
                    sys.stderr.write(f"{machine} proposes {entries[machine]} which is no record of a machine's entry\n")
        elif word == "end":
            sys.stderr.write(line + sys.stdin.read())
            for machine, (answer, name, what, _) in told.items():
                if first != "finished" and answer == "refused":
                    sys.stderr.write(f"{machine} asks for {entries[machine]} and is refused: {name} {what}\n")
        elif take:
            take(word, first, second, third)
