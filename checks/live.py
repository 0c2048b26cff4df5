#!/usr/bin/env python3
"""Touches the cell of examples/live.sh over HTTP, as its page does, and looks at what comes of it.

Usage: checks/live.py [--long] [PART..]

  press    press 2 is broken in its first motion: five of six plates are delivered, one is in press 2, then in quarantine
  kinds    each kind of fault in a motion, with --long of each axis, now and at the next motion: the journal is legal, and no rule
           is broken in the plant
  hands    a plate is taken out, a part is mended, the desk's stop, clear, repair and expect, and its refusals
  readers  two readers of the events, of which one leaves; requests from elsewhere, and ones that can't be read
  resume   the controller is killed and resumed
  method   methods by commands in place of the controller: a careful one, one that breaks a rule, one by entries, and ones that end
  start    a port that is taken, a journal that is there, wrong settings, and the end
  browser  the same by clicks and keys, where node and chromium are there

CELLCTL names another program than the one that was built, or where none was than ./cellctl.
"""
import contextlib
import json
import os
import pathlib
import re
import shutil
import signal
import subprocess
import sys
import tempfile
import threading
import time
import urllib.error
import urllib.request

sys.dont_write_bytecode = True
from parts import run_parts  # noqa: E402

HERE = pathlib.Path(__file__).resolve().parent.parent
BUILT = HERE / "crates/cellctl/out/cellctl"
PROGRAM = os.environ.get("CELLCTL", str(BUILT if BUILT.exists() else HERE / "cellctl"))
KINDS = ["no_motion", "keeps_old", "both", "slow", "lose_plate", "silent", "refuse_command"]
AXES = ["feed_belt", "table_lift", "table_turn", "robot_turn", "arm_one", "arm_two", "press_one", "press_two", "deposit_belt"]
failed = []
looked = 0


def look(what, found, wanted):
    global looked
    looked += 1
    if found != wanted:
        failed.append(what)
        print(f"  {what}: found {found!r}, wanted {wanted!r}", flush=True)


class Cell:
    """A cell that examples/live.sh started."""

    def __init__(self, folder, pace=200, plates=6, port=0, method=""):
        self.journal = pathlib.Path(folder) / "run.journal"
        given = {**os.environ, "PACE": str(pace), "JOURNAL": str(self.journal), "CELLCTL": PROGRAM}
        command = [HERE / "examples/live.sh", *(["--method", method] if method else []), str(port), str(plates)]
        self.process = subprocess.Popen(command, stdout=subprocess.PIPE, stderr=subprocess.STDOUT, encoding="utf-8", env=given)
        self.address = self.process.stdout.readline().split()[-1]
        self.controller = int(re.search(r"process ([0-9]+)", self.process.stdout.readline())[1])

    def ask(self, path="state"):
        with urllib.request.urlopen(self.address + path, timeout=20) as answer:
            return json.load(answer)

    def do(self, **wish):
        """Asks for what a click asks for, and gives the status and the answer."""
        return self.post(json.dumps(wish).encode())

    def post(self, body, path="do", **headers):
        request = urllib.request.Request(self.address + path, body, {"Content-Type": "application/json", **headers})
        try:
            with urllib.request.urlopen(request, timeout=20) as answer:
                return answer.status, json.load(answer)
        except urllib.error.HTTPError as error:
            return error.code, json.load(error)

    def wait(self, what, holds, seconds=300):
        """The first state in which something is so; the last one that was asked if that doesn't come."""
        end = time.monotonic() + seconds
        while True:
            state = self.ask()
            if holds(state):
                return state
            if time.monotonic() > end:
                look(f"{what}, after {seconds} seconds", summary(state), "so")
                return state
            time.sleep(0.02)

    def rest(self):
        """The state once the journal has had no new entry for a while."""
        seen, since = -1, time.monotonic()
        while True:
            state = self.ask()
            if state["controller"] == "ended":
                time.sleep(0.5)  # until the journal's last entries were read
                return self.ask()
            if state["entries"] == seen and time.monotonic() - since > 1:
                return state
            if state["entries"] != seen:
                seen, since = state["entries"], time.monotonic()
            time.sleep(0.05)

    def desk(self, action, argument):
        """Asks something at the desk, and gives the answer and its words."""
        number = len(self.ask()["desk"]) + 1
        look(f"asking for {action} {argument}", self.do(do="operator", action=action, argument=argument)[0], 200)
        state = self.wait(f"an answer to {action} {argument}",
                          lambda told: any(item["id"] == number and item["answer"] for item in told["desk"]))
        if state["desk"][number - 1]["answer"] == "refused":  # until the program has said why
            state = self.wait(f"why {action} {argument} is refused", lambda told: "(" in told["desk"][number - 1]["words"], 10)
        return state["desk"][number - 1]["answer"], state["desk"][number - 1]["words"]

    def kill(self, at_rest):
        """Kills the controller; where asked for, while nothing moves by book and world. A motion that ends unseen is a fault for
        the controller that goes on."""
        while at_rest:
            self.do(do="pause", on=True)
            time.sleep(0.3)
            state = self.ask()
            if state["world"]["going"] == state["book"][3] == "---------":
                break
            self.do(do="pause", on=False)
            time.sleep(0.05)
        os.kill(self.controller, signal.SIGKILL)
        self.do(do="pause", on=False)

    def end(self):
        self.process.send_signal(signal.SIGTERM)
        said, _ = self.process.communicate(timeout=20)
        return self.process.returncode, said


@contextlib.contextmanager
def cell(**words):
    with tempfile.TemporaryDirectory() as folder:
        started = Cell(folder, **words)
        try:
            yield started
        finally:
            if started.process.poll() is None:
                started.end()


def summary(state):
    return {key: state[key] for key in ("round", "controller", "entries", "counts", "broken", "faults")}


def counts(state):
    """Of the book: admitted, forged, quarantined, delivered."""
    return state["book"][10][1:5] if state["book"] else None


def audit(what, started, wanted=None):
    """The journal is legal, and counts so many admitted, forged, quarantined and delivered plates."""
    said = subprocess.run([PROGRAM, "audit", started.journal], capture_output=True, encoding="utf-8").stdout.split()
    look(f"{what}: the audit", said[0], "legal")
    if wanted:
        look(f"{what}: what the audit counts", [int(number) for number in said[3:11:2]], wanted)


def press():
    with cell(pace=1) as started:
        look("a click breaks press 2", started.do(do="break", axis="press_two", kind="no_motion", when="next")[0], 200)
        started.do(do="pace", pace=200)
        done = started.wait("five are delivered", lambda state: state["book"] and state["book"][10][4] == 5)
        state = started.rest()
        look("admitted, forged, quarantined, delivered", counts(state), [6, 5, 0, 5])
        look("in press 2 by book and world", [bool(state["book"][0][6]), bool(state["world"]["plates"][6])], [True, True])
        look("the book has press 2 failed alone", state["book"][5], "000010")
        look("the world forged and delivered", [state["counts"]["forged"], state["counts"]["delivered"]], [5, 5])
        state = started.wait("what differs is told, and the controller runs on",
                             lambda told: told["differs"] and told["controller"] == "running")
        look("what differs", [one[:1] + one[2:] for one in state["differs"]],
             [["axis-7", "stopped on the way to the top", "at rest at the middle"]])
        look("clearing before the desk may", [state["offers"]["clear,press2"], state["offers"]["repair,press2"]],
             ["", "a plate is booked there: clear it first"])
        look("clearing and repairing it", started.do(do="serve", machine="press2")[0], 200)
        state = started.wait("the end", lambda told: told["controller"] == "ended")
        look("the desk", [[item["action"], item["argument"], item["answer"]] for item in state["desk"]],
             [["clear", "press2", "booked"], ["repair", "press2", "booked"]])
        state = started.rest()
        look("all machines are booked healthy", state["book"][5], "000000")
        look("rules broken in the plant", state["broken"], {})
        look("the plate is in quarantine", len(state["quarantine"]), 1)
        state = started.wait("what the controller says", lambda told: any(told["told"]))
        look("what the controller says", state["told"][:1], ["finished"])
        audit("press 2 broken", started, [6, 5, 1, 5])
        return f"forging went on to five of six in {done['round']} rounds, and one is in quarantine"


def kinds(is_long):
    tried = [(kind, AXES[(number * 4 + 1) % 9], "next") for number, kind in enumerate(KINDS)] + [("no_motion", "robot_turn", "now")]
    if is_long:
        tried = [(kind, axis, when) for kind in KINDS for axis in AXES for when in ("now", "next")]
    found = {}
    for kind, axis, when in tried:
        with cell(pace=16) as started:
            started.wait("a plate on the way", lambda state: state["entries"] > 40)
            look(f"breaking {axis}", started.do(do="break", axis=axis, kind=kind, when=when, count=40)[0], 200)
            started.do(do="pace", pace=400)
            state = started.rest()
            what = f"{kind} of {axis}, {when}"
            look(f"{what}: rules broken in the plant", state["broken"], {})
            audit(what, started)
            machines = sum(flag == "1" for flag in state["book"][5])
            look(f"{what}: some machine is booked failed, or all is done", machines > 0 or state["controller"] == "ended", True)
            found[machines] = found.get(machines, 0) + 1
    return f"{len(tried)} faults; failed machines: " + ", ".join(f"{count} of {number}" for number, count in sorted(found.items()))


def hands():
    with cell(pace=1) as started:
        started.wait("a plate that goes up with the table",
                     lambda told: told["world"]["plates"][2] != 0 and told["world"]["going"][1] == "e")
        started.do(do="pause", on=True)
        time.sleep(0.3)
        before = started.ask()["round"]
        time.sleep(0.3)
        look("a pause", started.ask()["round"], before)
        state = started.ask()
        plate = state["world"]["plates"][2]
        look("taking a plate out", started.do(do="take", station="table")[0], 200)
        look("taking it once more", started.do(do="take", station="table"), (400, {"error": "no plate is there"}))
        look("it is gone", [started.ask()["world"]["plates"][2], started.ask()["counts"]["taken"]], [0, 1])
        started.do(do="pace", pace=200)
        started.do(do="pause", on=False)
        state = started.rest()
        look("the table is booked failed", state["book"][5], "010000")
        differs = [one for one in state["differs"] if one[0] == "plate-2"]
        look("the page tells that it isn't where the book has it", [one[2:] for one in differs], [[f"plate {plate}", "no plate"]])
        started.do(do="pace", pace=4)
        look("a repair before the clearing", started.desk("repair", "table")[0], "refused")
        words = started.ask()["desk"][-1]["words"]
        look("its words are the program's", words.split(", since")[0], "refused: a plate is still at the table")
        look("a clear", started.desk("clear", "table")[0], "booked")
        look("a repair", started.desk("repair", "table")[0], "booked")
        started.wait("it is in quarantine", lambda told: str(plate) in told["quarantine"])
        asked = 0
        while asked < 20 and started.desk("expect", str(plate))[0] != "booked":  # it is refused while the feed light is green
            asked += 1
        look("expecting it, at last", asked < 20, True)
        started.do(do="pace", pace=200)
        started.wait("the end", lambda told: told["controller"] == "ended")
        state = started.rest()
        look("all are delivered", counts(state), [6, 6, 1, 6])
        look("none is left in quarantine", state["quarantine"], {})
        look("rules broken in the plant", state["broken"], {})
        audit("a plate that was taken out", started, [6, 6, 1, 6])
        look("the desk of a run that has ended", started.do(do="operator", action="stop", argument="table")[0], 400)
    with cell(pace=4) as started:
        started.do(do="break", axis="press_one", kind="refuse_command", when="next")
        look("a fault is told", [one["kind"] for one in started.ask()["faults"]], ["refuse_command"])
        started.do(do="mend", machine="press1")
        look("it is mended", started.ask()["faults"], [])
        look("a stop", started.desk("stop", "press2")[0], "booked")
        answer, words = started.desk("stop", "press2")
        look("a second stop, in the program's words", [answer, "press 2" in words and "(" in words], ["refused", True])
        started.do(do="pace", pace=200)
        state = started.rest()
        look("press 2 is stopped and the rest goes on", [state["book"][5], counts(state)], ["000010", [6, 6, 0, 6]])
        look("rules broken in the plant", state["broken"], {})
    return "a plate taken out came back, a fault was mended, and the desk said yes and no"


def events(address, enough, told):
    """Reads so many events."""
    with urllib.request.urlopen(address + "events", timeout=20) as answer:
        for line in answer:
            if line.startswith(b"data: "):
                told.append(json.loads(line[6:]))
                if len(told) == enough:
                    return


def readers():
    with cell(pace=2) as started:
        stays, leaves = [], []
        threads = [threading.Thread(target=events, args=(started.address, 40, stays)),
                   threading.Thread(target=events, args=(started.address, 5, leaves))]
        for thread in threads:
            thread.start()
        for thread in threads:
            thread.join(30)
        look("events of the one that leaves and of the one that stays", [len(leaves), len(stays)], [5, 40])
        look("rounds go on in the events", stays[-1]["round"] > stays[0]["round"], True)
        with urllib.request.urlopen(started.address, timeout=20) as answer:
            page = answer.read().decode()
        look("the page has the program's drawing", page.count('<svg id="cell"'), 1)
        look("addresses on the page", re.findall(r"https?://(?!www\.w3\.org/)[^\"\s]*", page), [])
        look("nothing is there", started.post(b"{}", "elsewhere")[0], 400)
        look("an unreadable wish", started.post(b"{")[0], 400)
        look("no wish", started.post(b"[]")[0], 400)
        look("a wish of another page", started.post(b"{}", Origin="http://example.org")[0], 403)
        look("a wish by another name", started.post(b"{}", Host="example.org")[0], 403)
        look("a wish as a form sends it", started.post(b"{}", **{"Content-Type": "text/plain"})[0], 403)
        for wish in ({"do": "break", "axis": "press_two", "kind": "none", "when": "now"}, {"do": "mend", "machine": "wheel"},
                     {"do": "break", "axis": "wheel", "kind": "both", "when": "now"}, {"do": "serve", "machine": "wheel"},
                     {"do": "break", "axis": "press_two", "kind": "slow", "when": "now", "count": 0},
                     {"do": "take", "station": "wheel"}, {"do": "pace", "pace": -1}, {"do": "pace", "pace": "fast"},
                     {"do": "operator", "action": "stop", "argument": "press2,,\noperator,stop,press1"}, {"do": "dance"}, {}):
            look(f"{wish}", started.do(**wish)[0], 400)
        look("all runs on", started.wait("rounds", lambda state: state["round"] > stays[-1]["round"])["controller"], "running")
    return f"{len(stays)} and {len(leaves)} events at once, and wishes from elsewhere were refused"


def resume():
    with cell(pace=20) as started:
        started.wait("some entries", lambda state: state["entries"] > 60)
        started.kill(at_rest=False)
        state = started.wait("the controller is gone", lambda told: told["controller"] == "gone")
        again = subprocess.Popen(["sh", "-c", "exec " + state["resume"]], stderr=subprocess.DEVNULL)
        started.wait("it is back", lambda told: told["controller"] == "running")
        started.do(do="pace", pace=200)
        state = started.rest()
        look("rules broken in the plant, killed at any time", state["broken"], {})
        audit("killed at any time and resumed", started)
        if state["controller"] != "ended":
            look("a machine is booked failed, if it doesn't end", "1" in state["book"][5], True)
        started.end()
        again.wait(20)
    with cell(pace=4) as started:
        started.wait("some entries", lambda state: state["entries"] > 30)
        started.kill(at_rest=True)
        state = started.wait("the controller is gone", lambda told: told["controller"] == "gone")
        look("the command goes on with the journal", f"--journal {started.journal} --resume" in state["resume"], True)
        stood = state["entries"]
        look("an act at the desk meanwhile", started.do(do="operator", action="stop", argument="press2")[0], 200)
        again = subprocess.Popen(["sh", "-c", "exec " + state["resume"]], stderr=subprocess.PIPE, encoding="utf-8")
        state = started.wait("it is back", lambda told: told["controller"] == "running")
        look("it is told that it is back", state["back"], True)
        started.do(do="pace", pace=200)
        state = started.wait("all are delivered", lambda told: counts(told)[3] == 6)
        look("entries follow", state["entries"] > stood, True)
        answer = started.ask()["desk"][-1]
        look("the desk's wish is answered", answer["answer"], "booked")
        state = started.rest()
        look("rules broken in the plant", state["broken"], {})
        audit("killed and resumed", started, [6, 6, 0, 6])
        if state["controller"] != "ended":
            look("the stop is booked", state["book"][5], "000010")
            started.desk("repair", "press2")
            started.wait("the end", lambda told: told["controller"] == "ended")
        look("the resumed controller's status", again.wait(20), 0)
        again.stderr.close()
    return f"killed after {stood} entries, and it went on to {state['entries']}"


def driven(method, plates=6):
    """The last state of a cell under a method, and what it said at its end."""
    with cell(method=method, plates=plates) as started:
        state = started.wait(f"the end of {method}", lambda told: told["controller"] == "ended" and any(told["told"]))
        look(f"{method}: nothing is booked", [state["book"], state["offers"]], [None, {}])
        look(f"{method}: the desk", started.do(do="operator", action="stop", argument="table")[0], 400)
        look(f"{method}: the end", started.end()[0], 0)
        return state


def method():
    methods = HERE / "examples/methods"
    state = driven(f"{methods}/careful.py")
    look("careful.py", [state["why"], state["counts"]["delivered"], state["broken"]], ["finished", 6, {}])
    look("what it was told", state["told"][:2], ["end,finished,,", "admitted 6"])
    state = driven(f"{methods}/hasty.py")
    first = state["accidents"][0]
    look("hasty.py", [state["why"], state["counts"]["delivered"], state["counts"]["lost"], state["broken"]],
         ["finished", 0, 6, {"ArmInPress": 12}])
    look("what it did first", [first["words"], first["command"]], ["press 1 moves while arm 1 is in it", "on,press_one,top,"])
    look("what it was told", state["told"][-5:], ["commands 280", "broken 12", "broken ArmInPress 12", "lost 6", ""])
    state = driven("echo dance; echo on,robot_turn,low; head -n 9 >&2; exit 3")
    look("lines that are no commands", [line[1:] for line in state["lines"]],
         [["unreadable", "dance,,,"], ["unreadable", "on,robot_turn,low,"]])
    look("a pose that isn't there", [state["why"], state["broken"]], ["quit", {"NoSuchPose": 1}])
    look("one that says too much", driven("echo I talk >&2; yes magnet_on,arm1")["why"], "too many lines")
    return "careful.py delivered all, and hasty.py broke ArmInPress 12 times and lost all"


def start():
    with cell() as started, tempfile.TemporaryDirectory() as folder:
        port = started.address.split(":")[2].strip("/")
        given = {**os.environ, "CELLCTL": PROGRAM}
        again = subprocess.run([HERE / "examples/live.sh", port], capture_output=True, encoding="utf-8", env=given)
        look("a second start", [again.returncode, f"port {port} is taken" in again.stderr], [2, True])
        again = subprocess.run([HERE / "examples/live.sh", "0", "none"], capture_output=True, encoding="utf-8", env=given)
        look("plates that are no number", again.returncode, 2)
        again = subprocess.run([HERE / "examples/live.sh", "0"], capture_output=True, encoding="utf-8", env={**given, "TAKE": "x=1"})
        look("a motion of no axis", [again.returncode, "'x' is no axis" in again.stderr], [2, True])
        there = pathlib.Path(folder) / "there"
        there.write_text("profile,2,,\n", encoding="utf-8")
        again = subprocess.run([HERE / "examples/live.sh", "0"], capture_output=True, encoding="utf-8",
                               env={**given, "JOURNAL": str(there)})
        look("a journal that is there", again.returncode, 2)
        rooms = started.ask()["resume"].split("< ")[1].split("/lines")[0]
        started.wait("the end", lambda state: state["controller"] == "ended")
        status, said = started.end()
        look("the end", [status, "The controller has ended, with status 0:" in said, "delivered 6" in said], [0, True, True])
        look("the folder is gone", os.path.exists(rooms), False)
        try:
            started.ask()
            look("the port", "open", "closed")
        except OSError:
            pass
    return "a port that is taken, a journal that is there, wrong settings, and the end"


def browser():
    chromium = os.environ.get("CHROMIUM", "chromium")
    if not shutil.which(chromium) or not shutil.which("node"):
        return "no chromium or no node here, so nothing was clicked"
    with cell(pace=4) as started:
        pictures = os.environ.get("PICTURES", "")
        command = ["node", HERE / "checks/live.mjs", started.address, str(started.controller), pictures]
        look("the page in a browser", subprocess.run(command, timeout=400).returncode, 0)
        audit("by clicks", started)
    return "press 2 was broken by a click"


def main():
    names = [word for word in sys.argv[1:] if not word.startswith("--")]
    parts = {"press": press, "kinds": lambda: kinds("--long" in sys.argv), "hands": hands, "readers": readers, "resume": resume,
             "method": method, "start": start, "browser": browser}
    if set(names) - set(parts):
        sys.exit(__doc__)
    return run_parts("live", parts, names, failed, lambda: looked)


if __name__ == "__main__":
    sys.exit(main())
