#!/usr/bin/env python3
"""Drives the simulated cell by random lines, and looks at what is told: bench/drive_stress.py [RUNS] [ROUNDS]

Of the RUNS, 1,000 unless said, of ROUNDS rounds each, 500 unless said, a third each goes
  by commands       random commands to the bare machines, and lines that are none
  by entries        random entries, which the book takes or refuses, whatever the cell shows
  by true entries   the same, but an entry that says what has happened comes only where the readings show it, and the feed
                    light is turned green only where they show no plate under it

Each run has to end with `end,turn limit`, `end,full`, `end,finished` or `end,too many lines` and with status 0 or 1; each
journal has to be legal; and by true entries, where nothing untrue was booked, no safety rule may be broken. A run is told to
be untrue by the line `untrue N`: the world contradicted N booked entries. What wasn't booked, as a plate that was laid in and
never admitted, is told by nothing. Build the program first; CELLCTL names another one."""

import collections
import concurrent.futures
import os
import random
import subprocess
import sys
import tempfile

TOP = os.path.dirname(os.path.dirname(os.path.abspath(__file__)))
CELLCTL = os.environ.get("CELLCTL", f"{TOP}/crates/cellctl/out/cellctl")
AXES = {"feed_belt": ["to_end", "to_table"], "table_lift": ["low", "high"], "table_turn": ["belt", "robot"],
        "robot_turn": ["table1", "p1_load", "p2_load", "p1_unload", "p2_unload", "deposit2"], "arm_one": ["in", "out"],
        "arm_two": ["in", "out"], "press_one": ["bottom", "middle", "top"], "press_two": ["bottom", "middle", "top"],
        "deposit_belt": ["to_end"]}
OF_MACHINE = {"feed": ["feed_belt"], "table": ["table_lift", "table_turn"], "robot": ["robot_turn", "arm_one", "arm_two"],
              "press1": ["press_one"], "press2": ["press_two"], "deposit": ["deposit_belt"]}
SENSORS = {"feed": ["feed_in", "feed_end", "table"], "table": ["table"], "robot": ["arm1", "arm2"], "press1": ["press1"],
           "press2": ["press2"], "deposit": ["dep_in", "dep_end"]}
STATIONS = ["feed_in", "feed_end", "table", "arm1", "arm2", "press1", "press2", "dep_in", "dep_end"]
ZONES = ["z1", "z2", "z3", "z4", "z5"]
PLATES = 4
ENDS = {"turn limit", "full", "finished", "too many lines"}


def all_commands():
    """Each command, and some lines that are none."""
    for axis, poses in AXES.items():
        yield from (f"on,{axis},{pose}," for pose in poses)
        yield f"off,{axis},,"
    for arm in ("arm1", "arm2"):
        yield from (f"magnet_on,{arm},,", f"magnet_off,{arm},,")
    for light in ("feed", "deposit"):
        yield from (f"lamp,{light},{colour}," for colour in ("green", "red"))
    yield from (f"all_off,{machine},," for machine in OF_MACHINE)
    yield from ("on,arm_one,nowhere,", "\x80\xff,,,", '"on",arm_one,out,', "on,arm_one", "x" * 5000)


def all_entries():
    """Each entry of a machine that names one of the first plates, and some lines that are none."""
    numbers = range(1, PLATES + 1)
    for machine in OF_MACHINE:
        yield from (f"{word},{machine},{zone}," for word in ("claimed", "yielded") for zone in ZONES)
    for axis, poses in AXES.items():
        yield from (f"started,{axis},{pose}," for pose in poses)
        yield from (f"arrived,{axis},{pose}," for pose in poses)
    for belt, ends in (("feed_belt", ("feed_end", "table")), ("deposit_belt", ("dep_end",))):
        yield from (f"conveyed,{belt},{k},{end}" for k in numbers for end in ends)
    for k in numbers:
        yield from (f"{word},{k},," for word in ("admitted", "delivered", "reinstated"))
        yield from (f"forged,{press},{k}," for press in ("press1", "press2"))
        yield from (f"gripped,{arm},{k},{station}" for arm in ("arm1", "arm2") for station in STATIONS)
        yield from (f"dropped,{arm},{k},{station}" for arm in ("arm1", "arm2") for station in STATIONS)
    for light in ("feed", "deposit"):
        yield from (f"lamp,{light},{colour}," for colour in ("green", "green", "red"))
    yield from ("stop_asked,press1,,", "bogus", "a,b,c,d,e", "\x80\xff,,,")


COMMANDS, ENTRIES = list(all_commands()), list(all_entries())


class Shown:
    """What the cell shows: the poses of each axis, and the stations with a plate."""

    def __init__(self):
        self.poses, self.plates = {}, set()

    def look(self, fields):
        _, machine, switches, presence = fields
        for axis, part in zip(OF_MACHINE[machine], switches.split("/")):
            self.poses[axis] = part.split("+") if part else []
        self.plates.difference_update(SENSORS[machine])
        self.plates.update(presence.split("+") if presence else [])

    def contradicts(self, entry):
        """Whether the readings don't show what an entry says has happened."""
        word, first, second, third = (entry.split(",") + ["", "", ""])[:4]
        if word == "arrived":
            return self.poses.get(first) != [second]
        if word == "conveyed":
            start = {"feed_end": "feed_in", "table": "feed_end", "dep_end": "dep_in"}[third]
            return third not in self.plates or start in self.plates
        if word == "forged":
            return self.poses.get({"press1": "press_one", "press2": "press_two"}[first]) != ["top"]
        if word in ("admitted", "reinstated"):
            return "feed_in" not in self.plates
        if word == "lamp" and (first, second) == ("feed", "green"):
            # It says that the belt is empty. The book believes that as long as nobody books what was laid in.
            return "feed_in" in self.plates
        return word == "delivered" and "dep_end" in self.plates


def lines_of(kind, chance, shown):
    """The lines of a round."""
    if kind == "by commands":
        return [chance.choice(COMMANDS) for _ in range(chance.randrange(8))]
    lines = [chance.choice(ENTRIES) for _ in range(chance.randrange(60))]
    if kind == "by true entries":
        # What was shown before a line of this round has moved something isn't looked at again in the round.
        lines = [line for line in lines if not shown.contradicts(line)]
    return lines


def drive(kind, seed, settings):
    """A run: its status, what is told at its end, and its journal."""
    chance, shown = random.Random(f"{kind} {seed}"), Shown()
    words = ["drive", *(["--raw"] if kind == "by commands" else ["--journal"]), settings, "/dev/null", "/dev/null"]
    with tempfile.TemporaryFile() as errors:
        cell = subprocess.Popen([CELLCTL, *words], stdin=subprocess.PIPE, stdout=subprocess.PIPE, stderr=errors)
        told = []
        for line in cell.stdout:
            fields = line.decode("latin-1").rstrip("\n").split(",")
            if fields[0] == "reading":
                shown.look(fields)
            elif fields[0] == "round":
                lines = [*lines_of(kind, chance, shown), "done,,,", ""]
                cell.stdin.write("\n".join(lines).encode("latin-1"))
                cell.stdin.flush()
            elif fields[0] == "end":
                told = [fields[1], *(it.decode().rstrip("\n") for it in cell.stdout)]
        cell.stdin.close()
        status = cell.wait()
        errors.seek(0)
        return status, told, errors.read()


def count_of(told, word):
    return next((int(line.split()[1]) for line in told if line.startswith(f"{word} ")), 0)


def judge(kind, seed, settings):
    """What is wrong in a run, and whether something was untrue and something broken in it."""
    status, told, journal = drive(kind, seed, settings)
    if status not in (0, 1) or not told or told[0] not in ENDS:
        return f"status {status}, {told[:1]}", None
    untrue, broken = count_of(told, "untrue"), count_of(told, "broken")
    if kind == "by commands":
        return None, (False, broken > 0)
    audit = subprocess.run([CELLCTL, "audit"], input=journal, stdout=subprocess.PIPE, check=False).stdout.decode()
    if audit.splitlines()[0] != f"legal {count_of(told, 'entries')}":
        return f"audit: {audit.splitlines()[0]}", None
    if kind == "by true entries" and broken and not untrue:
        return f"broken {broken}, and nothing untrue", None
    return None, (untrue > 0, broken > 0)


def main():
    runs = int(sys.argv[1]) if len(sys.argv) > 1 else 1000
    rounds = int(sys.argv[2]) if len(sys.argv) > 2 else 500
    kinds = ["by commands", "by entries", "by true entries"]
    wrong, seen = 0, collections.Counter()
    with tempfile.NamedTemporaryFile("w", suffix=".toml") as settings:
        settings.write(f"plates = {PLATES}\nturns = {rounds}\n")
        settings.flush()
        jobs = [(kinds[seed % 3], seed, settings.name) for seed in range(runs)]
        with concurrent.futures.ThreadPoolExecutor(os.cpu_count()) as pool:
            for job, (fault, kept) in zip(jobs, pool.map(lambda job: judge(*job), jobs)):
                if fault:
                    wrong += 1
                    print(f"{job[0]}, seed {job[1]}: {fault}")
                else:
                    seen[job[0], *kept] += 1
    for kind in kinds:
        of = {kept: seen[kind, *kept] for kept in ((False, False), (False, True), (True, False), (True, True))}
        print(f"{kind}: {sum(of.values())} runs, in {of[True, False] + of[True, True]} something was untrue, "
              f"in {of[False, True] + of[True, True]} a rule was broken, in {of[False, True]} with nothing untrue")
    print(f"{runs} runs of {rounds} rounds, {wrong} wrong")
    return 1 if wrong else 0


if __name__ == "__main__":
    sys.exit(main())
