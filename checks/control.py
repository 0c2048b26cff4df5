#!/usr/bin/env python3
"""Tries `cellctl control` over cells at the other end of two pipes, and looks at what came of each run.

    checks/control.py [--long] [--jobs N] [PART..]

The parts, all of them where none is named:
  runs     over `drive --raw`: no fault, a press that fails with an operator and without, a stalled run that waits
  faults   over `drive --raw` with single faults: the end and the totals have to be those of `sweep`, nothing broken
  kills    the controller is killed at random moments and goes on by --resume over the same living cell
  liars    cells that write whatever they like, for 300 rounds
  garbled  the simulated cell behind a bad connection, with an operator's help
  files    journals that are there, can't be written, are of another profile, refused, cut off or grow; closed pipes
  desk     what a cell's desk wants and what was done at the cell
  plants   the plants of examples/plants, the one in C compiled

--long takes every fault, 200 kills, 1,000 liars and 200 bad connections in place of a part of each. CELLCTL names another program than the one that
was built here, and SWEEPER another one that sweeps. Each part says in a line what it tried; the status is 1 where something was otherwise.
"""
import concurrent.futures
import csv
import io
import os
import pathlib
import random
import shutil
import subprocess
import sys
import tempfile
import threading
import time

sys.dont_write_bytecode = True
from parts import run_parts  # noqa: E402

HERE = pathlib.Path(__file__).resolve().parent.parent
CELLCTL = os.environ.get("CELLCTL", str(HERE / "crates/cellctl/out/cellctl"))
SWEEPER = os.environ.get("SWEEPER", CELLCTL)
SETTINGS = HERE / "examples/press_fails.toml"
OPERATOR = HERE / "examples/press_fails.operator"
NONE = pathlib.Path("/dev/null")
LIMIT = 120  # seconds
COUNTED = ["admitted", "forged", "quarantined", "delivered"]

failed = []
looked = 0
work = None


def wanted(what, is_so, told=""):
    """Notes what was looked at, and tells it where it isn't so."""
    global looked
    looked += 1
    if not is_so:
        failed.append(what)
        print(f"  wanted: {what}" + (f"; {told}" if told else ""), flush=True)
    return is_so


def totals_of(text):
    """The first line and the four totals of what is told of a run, of which other lines may stand above."""
    lines = text.splitlines()
    for place in range(1, len(lines) - 3):
        if [line.split(" ")[0] for line in lines[place : place + 4]] == COUNTED:
            return lines[place - 1], [int(line.split(" ")[1]) for line in lines[place : place + 4]]
    return None, []


def told_of(text):
    """What a cell told at its end: its end, and the numbers of the lines below."""
    told = {}
    for line in text.splitlines():
        words = line.split(" ")
        if line.startswith("end,"):
            told["end"] = line.split(",")[1]
        elif "end" in told and len(words) == 2 and words[1].isdigit():
            told[words[0]] = int(words[1])
    return told


class Cell:
    """A process as a cell, whose lines are kept and handed on, and both of whose pipes stay open here, whoever stands at the other
    end. Before each `round` a desk may say more lines."""

    def __init__(self, command, folder, desk=None):
        self.to_read, self.to_write = os.pipe()
        self.back_read, self.back_write = os.pipe()
        self.errors = open(folder / "cell.errors", "wb")
        self.process = subprocess.Popen(command, stdin=self.to_read, stdout=subprocess.PIPE, stderr=self.errors)
        self.lines, self.desk = [], desk
        self.relay = threading.Thread(target=self.hand_on)
        self.relay.start()

    def hand_on(self):
        try:
            for line in self.process.stdout:
                self.lines.append(line)
                if self.desk and line.startswith(b"round,"):
                    os.write(self.back_write, self.desk(len(self.lines)))
                os.write(self.back_write, line)
        except OSError:
            pass

    def control(self, words, errors):
        return subprocess.Popen([CELLCTL, "control", *map(str, words)], stdin=self.back_read, stdout=self.to_write, stderr=errors)

    def has_ended(self):
        """Whether the process ends within a moment."""
        try:
            self.process.wait(0.05)
            return True
        except subprocess.TimeoutExpired:
            return False

    def rest(self):
        """What the cell wrote, once it has ended; and its status."""
        os.close(self.to_write)
        os.close(self.to_read)
        try:
            status = self.process.wait(LIMIT)
        except subprocess.TimeoutExpired:
            self.process.kill()
            status = None
        self.relay.join(LIMIT)
        os.close(self.back_write)
        os.close(self.back_read)
        self.errors.close()
        return b"".join(self.lines).decode(errors="replace"), status


def drive(folder, settings, faults, desk=None):
    return Cell([CELLCTL, "drive", "--raw", "--explain", str(settings), str(faults), "/dev/null"], folder, desk)


def finish(control):
    try:
        return control.wait(LIMIT)
    except subprocess.TimeoutExpired:
        control.kill()
        return None


def whole_run(folder, cell, words):
    """Controls a cell to the end of the run: the status, what was told, and the cell's rest and status."""
    with open(folder / "errors", "wb") as errors:
        status = finish(cell.control(words, errors))
    rest, ended = cell.rest()
    return status, (folder / "errors").read_text(), rest, ended


def audit(path):
    done = subprocess.run([CELLCTL, "audit", str(path)], capture_output=True, text=True, timeout=LIMIT)
    return done.returncode, done.stdout


def room():
    return pathlib.Path(tempfile.mkdtemp(dir=work))


def look_at_run(name, folder, result, status, end, totals, is_kept=True):
    """A run's status, end and totals, that its journal is legal with these totals, and that nothing was broken or lost."""
    got, told, rest, ended = result
    first, counts = totals_of(told)
    wanted(f"{name}: status {status}, {end} {totals}", (got, first, counts) == (status, end, totals), f"{got} {first} {counts}")
    said = told_of(rest)
    wanted(f"{name}: nothing broken in the cell", said.get("broken", 0) == 0 and said.get("collisions", 0) == 0, rest[-600:])
    if is_kept:
        legal, lines = audit(folder / "journal")
        counts = [int(line.split(" ")[1]) for line in lines.splitlines()[1:5]]
        wanted(f"{name}: a legal journal with {totals}", legal == 0 and counts == totals, lines)


def runs():
    faults = work / "faults"
    faults.write_text("press_two,1,no_motion,\n")
    for name, fault, operator, status, end, totals in [
            ("no fault", NONE, NONE, 0, "finished", [6, 6, 0, 6]),
            ("a press that fails, and an operator", faults, OPERATOR, 0, "finished", [6, 5, 1, 5]),
            ("a press that fails", faults, NONE, 1, "stalled", [6, 5, 0, 5])]:
        folder = room()
        cell = drive(folder, SETTINGS, fault)
        result = whole_run(folder, cell, ["--journal", folder / "journal", SETTINGS, operator])
        look_at_run(name, folder, result, status, end, totals)
        wanted(f"{name}: the cell's status", result[3] == status, result[3])
    # A stalled run that waits goes on until the settings' turns are over.
    short = work / "short.toml"
    short.write_text("plates = 6\nturns = 600\n")
    folder = room()
    cell = drive(folder, SETTINGS, faults)
    result = whole_run(folder, cell, ["--wait", short, NONE])
    look_at_run("a stalled run that waits", folder, result, 1, "turn limit", [6, 5, 0, 5], False)
    return "4 runs"


def one_fault(row):
    """A run with one fault, and what `sweep` told of it."""
    folder = room()
    kind, _, argument = row["kind"].partition(":")
    (folder / "faults").write_text(f"{row['axis']},{row['motion']},{kind},{argument}\n")
    cell = drive(folder, SETTINGS, folder / "faults")
    return folder, whole_run(folder, cell, ["--journal", folder / "journal", SETTINGS, NONE])


def faults(is_long, jobs):
    swept = subprocess.run([SWEEPER, "sweep", "--csv", str(SETTINGS), "/dev/null"], capture_output=True, text=True, timeout=LIMIT)
    rows = list(csv.DictReader(io.StringIO(swept.stdout)))
    rows = rows if is_long else rows[::23]
    with concurrent.futures.ThreadPoolExecutor(jobs) as pool:
        for row, (folder, result) in zip(rows, pool.map(one_fault, rows)):
            name = f"{row['axis']},{row['motion']},{row['kind']}"
            totals = [int(row[word]) for word in COUNTED]
            look_at_run(name, folder, result, 0 if row["end"] == "finished" else 1, row["end"], totals)
            shutil.rmtree(folder)
    return f"{len(rows)} faults"


OWN = {"feed": ["feed_in", "feed_end"], "table": ["table"], "robot": ["arm1", "arm2"], "press1": ["press1"], "press2": ["press2"],
       "deposit": ["dep_in", "dep_end"]}


def standing(journal):
    """Which machines are failed in a journal, and at which stations plates are."""
    broken, at = [], {}
    text = journal.read_text()
    for record in text[: text.rfind("\n") + 1].splitlines()[1:]:
        kind, first, second, third = record.split(",")
        if kind in ("admitted", "reinstated"):
            at[first] = "feed_in"
        elif kind in ("conveyed", "dropped"):
            at[second] = third
        elif kind == "gripped":
            at[second] = first
        elif kind in ("delivered", "quarantined"):
            at.pop(first, None)
        elif kind == "declared":
            broken.append(first)
        elif kind == "repaired":
            broken.remove(first)
    return broken, set(at.values())


class Helper:
    """An operator at the cell's desk: every so many lines of the cell he looks which machines are failed in the journal, takes out
    their plates and has them repaired, those first that visit another one."""

    def __init__(self, journal):
        self.journal, self.last, self.helps = journal, 0, 0

    def __call__(self, count):
        if count < self.last + 200 or not self.journal.exists():
            return b""
        self.last = count
        broken, stations = standing(self.journal)
        if not broken:
            return b""
        self.helps += 1
        lines = []
        for machine in ["robot", *(machine for machine in OWN if machine != "robot")]:
            if machine in broken:
                lines += [f"operator,clear,{station},\n" for station in OWN[machine] if station in stations]
                lines.append(f"operator,repair,{machine},\n")
        return "".join(lines).encode()


def legal_so_far(name, folder):
    """Looks whether the whole lines of a journal are legal."""
    if not (folder / "journal").exists():
        return
    text = (folder / "journal").read_bytes()
    (folder / "whole").write_bytes(text[: text.rfind(b"\n") + 1])
    if b"\n" in text:
        status, lines = audit(folder / "whole")
        wanted(f"{name}: a legal journal", status == 0, lines)


def killed_run(seed, took):
    """A run whose controller is killed up to eight times at random moments and goes on, with an operator's help where machines
    fail: how often it was killed and helped, and what was told at last."""
    chance = random.Random(seed)
    folder = room()
    helper = Helper(folder / "journal")
    cell = drive(folder, SETTINGS, NONE, helper)
    killed = 0
    for _ in range(20):
        if killed and cell.has_ended():
            # It was killed behind its last line, so that nothing is told: what its journal has is looked at.
            told = "finished\n" + audit(folder / "journal")[1].split("\n", 1)[1]
            return seed, folder, killed, helper.helps, 0, told, cell.rest()[0]
        resume = ["--resume"] if (folder / "journal").exists() else []
        with open(folder / "errors", "wb") as errors:
            control = cell.control([*resume, "--wait", "--journal", folder / "journal", SETTINGS, NONE], errors)
        try:
            control.wait(chance.uniform(0, took) if killed < 8 else LIMIT)
            break
        except subprocess.TimeoutExpired:
            control.kill()
            control.wait()
            killed += 1
            legal_so_far(f"run {seed}, kill {killed}", folder)
    rest, ended = cell.rest()
    return seed, folder, killed, helper.helps, control.returncode, (folder / "errors").read_text(), rest


def kills(is_long, jobs):
    start = time.time()
    folder = room()
    whole_run(folder, drive(folder, SETTINGS, NONE), [SETTINGS, NONE])
    took = time.time() - start
    count, helped, ends, begun = 0, 0, {}, 0
    while count < (200 if is_long else 20):
        with concurrent.futures.ThreadPoolExecutor(jobs) as pool:
            for seed, folder, killed, helps, status, told, rest in pool.map(lambda one: killed_run(one, took), range(begun, begun + jobs)):
                count += killed
                helped += helps
                name = f"run {seed}, killed {killed} times"
                first, totals = totals_of(told)
                ends[first] = ends.get(first, 0) + 1
                wanted(f"{name}: finished, 6 admitted, each delivered or in quarantine",
                       first == "finished" and totals[0] == 6 and totals[2] + totals[3] == 6, told)
                said = told_of(rest)
                wanted(f"{name}: nothing broken, nothing lost", said.get("broken") == 0 and said.get("lost") == 0,
                       (folder / "cell.errors").read_text() + str(said))
                wanted(f"{name}: the cell has delivered what the journal says", said.get("delivered") == (totals or [0])[-1], said)
                legal, lines = audit(folder / "journal")
                wanted(f"{name}: a legal journal", legal == 0, lines)
                shutil.rmtree(folder)
        begun += jobs
    return f"{count} kills, {helped} times helped, ends {ends}"


WORDS = {"table": ["low", "high", "belt", "robot"], "robot": ["table1", "p1_load", "p1_unload", "p2_load", "deposit2", "in", "out"],
         "press1": ["middle", "top", "bottom"], "press2": ["middle", "top", "bottom"], "feed": [], "deposit": []}
STATIONS = {"feed": ["feed_in", "feed_end", "table"], "table": ["table"], "robot": ["arm1", "arm2"], "press1": ["press1"],
            "press2": ["press2"], "deposit": ["dep_in", "dep_end"]}
AXES = {"feed": 1, "table": 2, "robot": 3, "press1": 1, "press2": 1, "deposit": 1}


def lie(chance, machine):
    """A line about a machine, true or not, or none that can be read."""
    some = chance.random()
    if some < 0.03:
        return bytes(chance.randrange(256) for _ in range(chance.randrange(200))).replace(b"\n", b"")
    if some < 0.06:
        return chance.choice([b"", b"ok,,,", b"round,x,y,z", b"reading,,,", b"a,b,c,d,e", b"synced,7,,", b"end", b"\r", b",,,", b'"a",,,',
                              b"reading," + machine.encode() + b",nowhere,", b"x" * 500, b"operator,stop,nobody,", b"drive,2,,",
                              b"operator,clear,press1,", b"operator,repair,robot,", b"operator,stop,feed,", b"operator,expect,1,",
                              b"stop_asked,table,,", b"repaired,press1,,", b"quarantined,1,table,", b"operator,explode,,"])
    if some < 0.08:
        return f"missing,{machine},,".encode()
    parts = ["+".join(word for word in WORDS[machine] if chance.random() < 0.4) for _ in range(AXES[machine])]
    plates = "+".join(word for word in STATIONS[machine] if chance.random() < 0.5)
    return f"reading,{machine},{'/'.join(parts)},{plates}".encode()


def lying_cell(chance, back, to, rounds):
    """Answers whatever it likes for so many rounds, and then says nothing more."""
    commands = os.fdopen(to, "rb", buffering=0)
    lines = iter(commands.readline, b"")
    with os.fdopen(back, "wb", buffering=0) as out:
        try:
            out.write(b"drive,1,6,\n")
            for number in range(1, rounds + 1):
                shown = b"\n".join(lie(chance, machine) for machine in AXES for _ in range(chance.choice([0, 1, 1, 1, 2])))
                out.write(shown + b"\nround,%d,,\n" % number)
                for line in lines:
                    if line == b"done,,,\n":
                        break
                    if line == b"quit,,,\n":
                        return
                    if not line.startswith((b"booked,", b"refused,")):
                        if chance.random() < 0.02:
                            out.write(lie(chance, "table") + b"\n")
                        out.write(chance.choice([b"ok,,,\n"] * 8 + [b"failed,,,\n", b"unreadable,,,\n"]))
        except BrokenPipeError:
            pass
        finally:
            commands.close()


def lied_run(seed, rounds):
    chance = random.Random(seed)
    folder = room()
    to_read, to_write = os.pipe()
    back_read, back_write = os.pipe()
    with open(folder / "errors", "wb") as errors:
        words = ["--wait", "--journal", folder / "journal", SETTINGS, OPERATOR]
        control = subprocess.Popen([CELLCTL, "control", *map(str, words)], stdin=back_read, stdout=to_write, stderr=errors)
    os.close(back_read)
    os.close(to_write)
    cell = threading.Thread(target=lying_cell, args=(chance, back_write, to_read, rounds))
    cell.start()
    status = finish(control)
    cell.join()
    return seed, folder, status, (folder / "errors").read_text(errors="replace")


def garble(chance, line):
    """A line as a bad connection hands it on: mostly as it is, and else with another byte, twice, or not at all. Those that the
    controller waits for come as they are: without one both would wait for ever."""
    some = chance.random()
    if some > 0.02 or line.startswith((b"round,", b"drive,", b"ok,", b"failed,", b"unreadable,", b"end,", b"synced,")):
        return line
    if some < 0.005:
        return b""
    if some < 0.01:
        return line + line
    place = chance.randrange(len(line) - 1)
    return line[:place] + bytes([chance.randrange(32, 256)]) + line[place + chance.randrange(2) :]


class Garbled(Cell):
    """A cell behind a bad connection."""

    def __init__(self, chance, *words):
        self.chance = chance
        super().__init__(*words)

    def hand_on(self):
        try:
            for line in self.process.stdout:
                self.lines.append(line)
                if self.desk and line.startswith(b"round,"):
                    os.write(self.back_write, self.desk(len(self.lines)))
                os.write(self.back_write, garble(self.chance, line))
        except OSError:
            pass


def garbled_run(seed):
    """A run over a cell behind a bad connection, with an operator's help."""
    folder = room()
    command = [CELLCTL, "drive", "--raw", str(SETTINGS), "/dev/null", "/dev/null"]
    cell = Garbled(random.Random(seed), command, folder, Helper(folder / "journal"))
    status, told, rest, ended = whole_run(folder, cell, ["--wait", "--journal", folder / "journal", SETTINGS, NONE])
    return seed, folder, status, told, rest


def garbled(is_long, jobs):
    """Runs over cells behind a bad connection."""
    ends = {}
    with concurrent.futures.ThreadPoolExecutor(jobs) as pool:
        for seed, folder, status, told, rest in pool.map(garbled_run, range(200 if is_long else 8)):
            first, totals = totals_of(told)
            ends[first] = ends.get(first, 0) + 1
            said = told_of(rest)
            wanted(f"bad connection {seed}: an end is told", status in (0, 1) and len(totals) == 4, f"{status} {told[-300:]}")
            wanted(f"bad connection {seed}: nothing broken", said.get("broken") == 0, said)
            legal, lines = audit(folder / "journal")
            wanted(f"bad connection {seed}: a legal journal", legal == 0, lines)
            shutil.rmtree(folder)
    return f"ends {ends}"


def liars(is_long, jobs):
    ends = {}
    count = 1000 if is_long else 40
    with concurrent.futures.ThreadPoolExecutor(jobs) as pool:
        for seed, folder, status, told in pool.map(lambda seed: lied_run(seed, 300), range(count)):
            first, totals = totals_of(told)
            ends[first] = ends.get(first, 0) + 1
            due = (3,) if first == "write to the cell failed" else (0, 1)
            wanted(f"liar {seed}: an end is told", status in due and len(totals) == 4, f"{status} {told[-300:]}")
            legal, lines = audit(folder / "journal")
            wanted(f"liar {seed}: a legal journal", legal == 0, lines)
            shutil.rmtree(folder)
    return f"{count} liars, ends {ends}"


def scripted(lines, words, folder):
    """Control over a cell that writes these lines and reads nothing: its status, what it wrote and told."""
    done = subprocess.run([CELLCTL, "control", *map(str, words)], input=lines, capture_output=True, timeout=LIMIT, cwd=folder)
    return done.returncode, done.stdout, done.stderr.decode(errors="replace")


STILL = (b"reading,feed,,\nreading,table,low/belt,\nreading,robot,table1/in/in,\nreading,press1,middle,\nreading,press2,middle,\n"
         b"reading,deposit,,\nround,1,,\n")
ALL_OFF = b"".join(b"all_off,%s,,\n" % machine.encode() for machine in AXES)


def files():
    folder = room()
    journal = folder / "journal"
    begun = b"drive,1,6,\n" + STILL

    def look(name, words, lines, status, *told):
        got, out, errors = scripted(lines, words, folder)
        wanted(f"{name}: status {status}, {told}", got == status and all(line in errors for line in told), f"{got} {errors}")
        return out

    out = look("a wrong first line", [SETTINGS, NONE], b"hello\n", 1, "no cell", "line 1 of the cell")
    wanted("a wrong first line: nothing sent but all_off", out == ALL_OFF, out)
    look("another version", [SETTINGS, NONE], b"drive,2,6,\n", 1, "another version")
    look("no lines", [SETTINGS, NONE], b"", 1, "cell gone")
    look("no round", [SETTINGS, NONE], b"drive,1,6,\n" + b"reading,feed,,\n" * 10001, 1, "too many lines")
    look("the cell ends", [SETTINGS, NONE], begun + b"ok,,,\nend,quit,,\n", 1, "cell ended")
    look("other plates", [SETTINGS, NONE], b"drive,1,5,\n" + STILL, 1, "the cell plans 5 plates, and the settings 6")
    look("settings that are refused", [NONE, NONE], begun, 1, "settings Missing plates")
    look("no journal to go on from", ["--resume", SETTINGS, NONE], begun, 2, "--resume goes on from the file of --journal")
    look("no journal for the device", ["--sync", SETTINGS, NONE], begun, 2, "--sync goes with --journal")
    look("a journal that isn't there", ["--resume", "--journal", "missing", SETTINGS, NONE], begun, 3, "cellctl: missing: no such file")

    look("a new journal", ["--journal", journal, SETTINGS, NONE], begun + b"ok,,,\nok,,,\n", 1, "cell gone")
    kept = journal.read_bytes()
    wanted("a new journal: the light's record", kept == b"profile,2,,\nlamp,feed,green,\n", kept)
    look("a journal that is there", ["--journal", journal, SETTINGS, NONE], begun, 2, "is there already")
    wanted("a journal that is there: as it was", journal.read_bytes() == kept)
    look("/dev/full", ["--journal", "/dev/full", SETTINGS, NONE], begun, 2, "is there already")
    look("a folder that isn't there", ["--journal", "no/journal", SETTINGS, NONE], begun, 3, "no/journal: no such file")

    synced = b"garbage\nok,,,\nsynced,1,,\n" + STILL
    out = look("a journal that is gone on from", ["--resume", "--journal", journal, SETTINGS, NONE], synced + b"ok,,,\n", 1, "cell gone")
    wanted("the light's command is sent again", out.startswith(b"\nsync,1,,\nlamp,feed,green,\n"), out)
    journal.write_bytes(kept + b"admitted,1")
    look("a cut journal", ["--resume", "--journal", journal, SETTINGS, NONE], synced, 1, "was cut off: 10 bytes")
    wanted("a cut journal: cut", journal.read_bytes() == kept, journal.read_bytes())
    for start in (b"", b"profile"):
        journal.write_bytes(start)
        look(f"a journal of {start}", ["--resume", "--journal", journal, SETTINGS, NONE], b"synced,0,,\n" + STILL, 1, "cell gone")
        got = journal.read_bytes()
        wanted(f"a journal of {start}: begun anew", got.startswith(b"profile,2,,\n"), got)
    for name, text, told in [("profile 1", b"profile,1,,\n", "profile 1"), ("a refused entry", kept + b"lamp,feed,green,\n", "refused 2 LampAlready"),
                             ("a record that can't be read", kept + b"lamp\n", "unreadable 2"), ("no profile", b"lamp,feed,green,\n", "unreadable 0")]:
        journal.write_bytes(text)
        out = look(name, ["--resume", "--journal", journal, SETTINGS, NONE], synced, 1, told)
        wanted(f"{name}: nothing written", (out, journal.read_bytes()) == (b"", text), out)
    few = folder / "few.toml"
    few.write_text("plates = 6\njournal_limit = 1\n")
    journal.write_bytes(kept + b"lamp,feed,red,\n")
    look("more entries than the settings allow", ["--resume", "--journal", journal, few, NONE], synced, 1, "refused 2 JournalFull")

    # A journal that can't grow: no command goes out.
    journal.unlink()
    limited = f"trap '' XFSZ; ulimit -f 0; exec {CELLCTL} control --journal {journal} {SETTINGS} /dev/null"
    done = subprocess.run(["bash", "-c", limited], input=begun, capture_output=True, timeout=LIMIT)
    wanted("a journal with no room: status 3, nothing sent", (done.returncode, done.stdout) == (3, b""), done)

    # A journal that grows meanwhile.
    journal.write_bytes(kept)
    to_read, to_write = os.pipe()
    control = subprocess.Popen([CELLCTL, "control", "--resume", "--journal", journal, SETTINGS, "/dev/null"], stdin=to_read,
                               stdout=subprocess.PIPE, stderr=subprocess.PIPE)
    control.stdout.readline()
    control.stdout.readline()
    with open(journal, "ab") as other:
        other.write(b"lamp,feed,red,\n")
    plate = STILL.replace(b"feed,,\n", b"feed,,feed_in\n")
    os.write(to_write, b"synced,1,,\n" + plate + b"ok,,,\n" + plate + b"ok,,,\n" * 20)
    os.close(to_write)
    out, errors = control.communicate(timeout=LIMIT)
    wanted("a journal that grows: status 3, told", control.returncode == 3 and b"in use" in errors, f"{control.returncode} {errors}")
    wanted("a journal that grows: as the other wrote it", journal.read_bytes() == kept + b"lamp,feed,red,\n", journal.read_bytes())
    wanted("a journal that grows: no command, and all_off", out.endswith(ALL_OFF + b"quit,,,\n") and b"lamp,feed,red" not in out, out)

    # Pipes that are closed.
    read, write = os.pipe()
    os.close(read)
    done = subprocess.run([CELLCTL, "control", SETTINGS, "/dev/null"], input=begun, stdout=write, stderr=subprocess.PIPE, timeout=LIMIT)
    os.close(write)
    wanted("a closed pipe: status 3", done.returncode == 3 and b"nobody reads it any more" in done.stderr, done)
    return "files and pipes"


def desk():
    folder = room()
    journal = folder / "journal"
    begun = b"drive,1,6,\noperator,stop,press1,\noperator,clear,press1,\noperator,fly,,\n" + STILL + b"unreadable,,,\nok,,,\n"
    got, out, errors = scripted(begun, ["--journal", journal, SETTINGS, NONE], folder)
    due = b"stay,,,\nlamp,feed,green,\nbooked,2,,\nrefused,MachineHealthy,press1,\nrefused,Unreadable,,\ndone,,,\n"
    wanted("the desk's answers", out.startswith(due), out)
    wanted("the desk's stop is kept", journal.read_bytes() == b"profile,2,,\nlamp,feed,green,\nstop_asked,press1,,\n")
    script = folder / "script"
    script.write_text("delivered,9,stop,press2\n")
    got, out, errors = scripted(begun, ["--explain", SETTINGS, script], folder)
    wanted("what the desk wanted does no line of the script", "line 1, record 1 of the operator's script isn't done: it waits for 9" in errors, errors)
    many = b"drive,1,6,\n" + b"operator,expect,1,\n" * 70 + STILL + b"ok,,,\n" * 2
    got, out, errors = scripted(many, [SETTINGS, NONE], folder)
    counts = (out.count(b"refused,WrongPlate,,\n"), out.count(b"refused,TooMany,,\n"))
    wanted("70 wishes in a round: 64 looked at and 6 too many", counts == (64, 6), out)
    did = b"drive,1,6,\nstop_asked,press1,,\nrepaired,robot,,\nquarantined,9,press2,\n" + STILL + b"ok,,,\n" * 3
    journal.unlink()
    got, out, errors = scripted(did, ["--journal", journal, SETTINGS, NONE], folder)
    wanted("what was done at the cell is booked", 
           journal.read_bytes().startswith(b"profile,2,,\nstop_asked,press1,,\nlamp,feed,green,\ndeclared,press1,operator_stop,\n"),
           journal.read_bytes())
    wanted("what isn't allowed is told", "which isn't allowed: MachineHealthy robot" in errors and "MachineHealthy press2" in errors, errors)
    return "what a desk wants and did"


def plants():
    tried = []
    folder = room()
    commands = {"plant.py": [sys.executable, str(HERE / "examples/plants/plant.py")]}
    compiler = shutil.which("cc") or shutil.which("gcc")
    if compiler:
        subprocess.run([compiler, "-O1", "-Wall", "-o", folder / "plant", HERE / "examples/plants/plant.c"], check=True)
        commands["plant.c"] = [str(folder / "plant")]
    else:
        print("  no C compiler here, so plant.c wasn't tried")
    for name, command in commands.items():
        if not pathlib.Path(command[-1]).exists():
            continue
        folder = room()
        result = whole_run(folder, Cell([*command, "6"], folder), ["--journal", folder / "journal", SETTINGS, NONE])
        look_at_run(name, folder, result, 0, "finished", [6, 6, 0, 6])
        tried.append(name)
    return ", ".join(tried)


def main():
    global work
    words = sys.argv[1:]
    is_long = "--long" in words
    jobs = int(words[words.index("--jobs") + 1]) if "--jobs" in words else min(4, os.cpu_count() or 1)
    names = [word for word in words if word.isalpha()]
    parts = {"runs": runs, "faults": lambda: faults(is_long, jobs), "kills": lambda: kills(is_long, jobs),
             "liars": lambda: liars(is_long, jobs), "garbled": lambda: garbled(is_long, jobs), "files": files, "desk": desk, "plants": plants}
    with tempfile.TemporaryDirectory() as folder:
        work = pathlib.Path(folder)
        return run_parts("control", parts, names, failed, lambda: looked)


if __name__ == "__main__":
    sys.exit(main())
