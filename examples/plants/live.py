#!/usr/bin/env python3
"""A cell that people may touch, controlled by `cellctl control`: it moves in real time and shows itself on a page at 127.0.0.1,
where one breaks parts by a click, takes plates out and stands at the operator's desk. examples/live.sh starts all that it needs.

It speaks the cell's half of docs/DRIVING.md on standard input and output, as plant.py does. The drawing, its style, the sentences
of entries and refusals and who waits come from the program (`cellctl show --html`, `cellctl explain`). The controller's decisions
are proved; this plant isn't.
"""
import argparse
import collections
import http.server
import json
import os
import pathlib
import subprocess
import sys
import threading
import time

sys.dont_write_bytecode = True
from live_world import COUNTED, KINDS, LETTERS, MACHINE_OF, MACHINES, NAMES, OWN, PLACES, World  # noqa: E402
from plant import AXES, POSES, SECONDS, STEP, say  # noqa: E402

HERE = pathlib.Path(__file__).resolve().parent
PACES = [0.25, 0.5, 1, 2, 4, 8, 16]
BEFORE_PRESSES = ("feed_in", "feed_end", "table", "arm1")
RECORDS = {"stop": "stop_asked,{},,", "repair": "repaired,{},,", "expect": "expected,{},,", "clear": "quarantined,{},{},"}
OTHER_REFUSALS = {"Failed": "the act at the cell didn't succeed", "Unreadable": "the controller can't read that",
                  "TooMany": "too much was asked at once"}
LASTS = 6       # so many rounds, and so many tenths of a second, book and world have to differ before that is shown
LINES = 10000   # so many lines in a round end the run of a method
SILENCE = 1.5   # after so many seconds without a line the controller is taken for gone


class Book:
    """What the journal says, read by the program: `cellctl show --html` gives the state after each new entry, and its sentence."""

    def __init__(self, program, journal):
        self.program, self.journal = program, journal
        self.row, self.entries, self.size, self.reads = None, 0, -1, 0
        self.lines = collections.deque(maxlen=200)   # of each entry: its number, record and sentence
        self.waits = []
        self.quarantine = {}                         # by plate: the station from which it was cleared

    def ask(self, words, text=None):
        """What the program prints; nothing where it isn't ready in half a minute."""
        try:
            return subprocess.run([self.program, *words], input=text, capture_output=True, encoding="utf-8", timeout=30).stdout
        except subprocess.TimeoutExpired:
            return ""

    def page(self, *words):
        """The data of the program's page, and the page."""
        text = self.ask(["show", "--html", *words], "profile,2,,\n")
        if '<script type="application/json" id="journal">' not in text:
            return None, text
        return json.loads(text.split('<script type="application/json" id="journal">')[1].split("</script>")[0]), text

    def length(self):
        try:
            return os.stat(self.journal).st_size
        except OSError:
            return 0

    def is_longer(self):
        return self.length() not in (0, self.size)

    def read_on(self):
        """Reads what the journal has more than before."""
        size = self.length()
        data, _ = self.page("--from", str(self.entries), "--file", str(self.journal))
        if data is None:
            return None
        return size, data

    def take(self, size, data):
        for number, row in enumerate(data["rows"][1:], data["first"] + 1):
            record = row[12].split(",")
            self.lines.append([number, row[12], row[13]])
            if record[0] == "quarantined":
                self.quarantine[int(record[1])] = record[2]
            elif record[0] == "reinstated":
                self.quarantine.pop(int(record[1]), None)
        self.size, self.row, self.reads = size, data["rows"][-1], self.reads + 1
        self.entries = data["first"] + len(data["rows"]) - 1
        waits = [[] for _ in MACHINES]
        for state in data["waits"]:
            waits = [old if new == 0 else new for old, new in zip(waits, state)]
        self.waits = [[machine, cell[0], cell[1].partition(": ")[2]] for machine, cell in enumerate(waits) if cell]

    def refusal(self, record, size):
        """Why the book refuses a record after so many bytes of the journal, in the program's words; blank if it doesn't."""
        text = pathlib.Path(self.journal).read_bytes()[:size].decode() + record + "\n"
        said = self.ask(["explain"], text).strip()
        return said.split(f": {record}: ", 1)[1].partition(": ")[2] if f": {record}: " in said else ""


class Live:
    """The cell, its book and its desk, and what the page is told of them."""

    def __init__(self, options):
        self.world = World(options.plates, options.seconds)
        self.lock = self.world.lock
        self.book = Book(options.program, options.journal)
        self.options = options
        self.pace, self.paused = options.pace, False
        self.desk = []                # what was asked at the desk, and how it was answered
        self.to_send, self.sent = [], []
        self.heard, self.waiting = time.monotonic(), False
        self.begun = self.ended = False
        self.why = ""                 # why the run has ended
        self.back = None              # when a controller that was gone spoke again
        self.since = {}               # by difference: when it was seen first, by round, time and readings of the journal
        self.version = 0
        self.names, page = self.book.page()
        self.page = make_page(self.names, page)

    def change(self):
        """Tells all who read the events that something is otherwise. The lock is held."""
        self.version += 1
        self.lock.notify_all()

    def is_gone(self):
        return self.waiting and not self.ended and time.monotonic() - self.heard > SILENCE

    # The desk.

    def ask_desk(self, action, argument):
        item = {"id": len(self.desk) + 1, "action": action, "argument": argument, "answer": "", "words": "asked"}
        self.desk.append(item)
        self.to_send.append(item)

    def send_desk(self):
        for item in self.to_send[:60]:
            say("operator", item["action"], item["argument"])
        self.sent += self.to_send[:60]
        del self.to_send[:60]

    def hear_desk(self, answer, first, second):
        if not self.sent:
            return
        item = self.sent.pop(0)
        item["answer"] = answer
        if answer == "booked":
            item["words"] = f"booked as entry {first}"
            if item["action"] == "expect":
                self.world.returning.append(int(item["argument"]))
        else:
            item["words"] = OTHER_REFUSALS.get(first, " ".join(["refused:", first, second]).strip())
            if first not in OTHER_REFUSALS:
                item["why"] = self.book.length()  # nothing more is booked before the next round

    def explain_refusals(self):
        """Has the program say why what was asked was refused."""
        with self.lock:
            items = [(item, item.pop("why")) for item in self.desk if "why" in item]
            row = self.book.row
        for item, size in items:
            plate = (row[0][PLACES.index(item["argument"])] or 1) if row and item["argument"] in PLACES else 1
            about = [plate, item["argument"]] if item["action"] == "clear" else [item["argument"]]
            record = RECORDS[item["action"]].format(*about)
            words = self.book.refusal(record, size)
            with self.lock:
                if words:
                    item["words"] = f"refused: {words} ({item['words'].removeprefix('refused: ')})"
                self.change()

    def offers(self):
        """What may be asked at the desk as far as the book tells: by what and about what, blank or why not."""
        told = {}
        row = self.book.row
        if row is None:
            return told
        for number, machine in enumerate(MACHINES):
            failed, asked = row[5][number] == "1", row[6][number] == "1"
            held = [place for place in OWN[machine] if row[0][PLACES.index(place)]]
            told[f"stop,{machine}"] = "it is booked failed" if failed else "a stop is asked already" if asked else ""
            healthy = "" if failed else "it isn't booked failed"
            told[f"repair,{machine}"] = healthy or ("a plate is booked there: clear it first" if held else "")
            for place in OWN[machine]:
                told[f"clear,{place}"] = healthy or ("" if place in held else "no plate is booked there")
        waits = "a plate is expected already" if row[8] else "the feed light is green" if row[7][0] == "g" else ""
        for plate, place in self.book.quarantine.items():
            told[f"expect,{plate}"] = waits if place in BEFORE_PRESSES else "it may be forged in part"
        return dict.fromkeys(told, "the run has ended") if self.ended else told

    def station(self, place):
        return self.names["stations"][PLACES.index(place)]

    # Book and world.

    def differences(self):
        """What book and world say differently: what it is about, what the book says and what is so."""
        row, world, told = self.book.row, self.world.row(), []
        if row is None:
            return told
        for number, place in enumerate(self.names["stations"]):
            booked, there = row[0][number], world["plates"][number]
            if booked != there:
                words = [f"plate {plate}" if plate else "no plate" for plate in (booked, there)]
                told.append([f"plate-{number}", place, *words])
            elif there and row[1][number] != world["forged"][number]:
                words = ["forged" if flags[number] == "1" else "not forged" for flags in (row[1], world["forged"])]
                told.append([f"plate-{number}", f"plate {there} at {place}", *words])
        for number, name in enumerate(NAMES):
            booked, there = self.booked_axis(number), self.real_axis(number)
            if booked != there and not (booked.startswith("stopped") and there.startswith("stopped")):
                told.append([f"axis-{number}", self.names["axes"][number], booked, there])
        for number, light in enumerate(self.names["lights"]):
            if row[7][number] != world["lamps"][number]:
                words = {"r": "red", "g": "green"}
                told.append([f"lamp-{number}", light, words[row[7][number]], words[world["lamps"][number]]])
        return told

    def booked_axis(self, number):
        row = self.book.row
        if row[3][number] == "-":
            return "at rest " + self.pose(row[2][number])
        failed = row[5][MACHINES.index(MACHINE_OF[NAMES[number]])] == "1"
        return ("stopped on the way " if failed else "going ") + self.way(row[3][number])

    def real_axis(self, number):
        axis = self.world.axes[NAMES[number]]
        if axis.goal:
            return "going " + self.way(LETTERS[axis.goal])
        if POSES[axis.name] and axis.pose() is None or axis.gone:
            return "stopped on the way " + self.way(LETTERS[axis.end])
        return "at rest " + self.pose(LETTERS[axis.start])

    def pose(self, letter):
        words = self.names["poses"][ord(letter) - 97]
        return "" if words == "rest" else f"at the {words}" if words in ("middle", "top", "bottom") else words

    def way(self, letter):
        return self.names["ways"][ord(letter) - 97]

    def lasting(self):
        """Those differences that have lasted: readings and messages take their time, so short ones are no fault. Either all of the
        journal was read, or it was read three times since."""
        now, reads = time.monotonic(), self.book.reads
        found = [tuple(one) for one in self.differences()]
        self.since = {one: self.since.get(one, (self.world.round, now, reads)) for one in found}
        is_whole = not self.book.is_longer()
        return [list(one) for one, (began, start, before) in self.since.items()
                if self.world.round - began >= LASTS and now - start >= LASTS / 10 and (is_whole or reads - before >= 3)]

    def snapshot(self):
        book, world = self.book, self.world
        controller = "ended" if self.ended else "gone" if self.is_gone() else "running" if self.begun else "awaited"
        return {
            "version": self.version, "round": world.round, "step": STEP, "pace": self.pace, "paces": PACES, "paused": self.paused,
            "controller": controller, "resume": self.options.resume,
            "back": self.back is not None and time.monotonic() - self.back < 8,
            "planned": world.planned, "world": world.row(), "faults": world.faults(), "counts": world.counts,
            "broken": dict(+world.broken), "book": book.row, "entries": book.entries,
            "lines": list(book.lines)[-40:], "waits": book.waits,
            "quarantine": {str(plate): self.station(place) for plate, place in book.quarantine.items()},
            "differs": self.lasting(), "offers": self.offers(), "told": self.told(), "method": "",
            "accidents": world.accidents if len(world.accidents) <= 4 else world.accidents[:1] + world.accidents[-3:],
            "desk": [{key: item[key] for key in ("id", "action", "argument", "answer", "words")} for item in self.desk[-30:]],
        }

    def told(self):
        """What the controller said at its end."""
        if not self.ended or not self.options.told:
            return []
        try:
            return pathlib.Path(self.options.told).read_text(encoding="utf-8")[:2000].split("\n")
        except OSError:
            return []

    # What a click asks for.

    def do(self, wish):
        """Does what someone asks for, and says why not, if so. The lock is held."""
        what = wish.get("do")
        acts = {"break": self.do_break, "mend": self.do_mend, "take": self.do_take, "operator": self.do_operator,
                "serve": self.do_serve, "pace": self.do_pace, "pause": self.do_pause}
        if what not in acts:
            return "no such thing to do"
        answer = acts[what](wish)
        if not answer:
            self.change()
        return answer

    def do_break(self, wish):
        axis, kind, count = wish.get("axis"), wish.get("kind"), wish.get("count", 10)
        if axis not in self.world.axes or kind not in KINDS or wish.get("when") not in ("now", "next"):
            return "no such axis, kind of fault or time"
        if type(count) is not int or not 1 <= count <= 1000:
            return "the count is a whole number from 1 to 1000"
        self.world.break_part(axis, kind, wish["when"] == "now", count)
        return ""

    def do_mend(self, wish):
        if wish.get("machine") not in AXES:
            return "no such machine"
        self.world.mend(wish["machine"])
        return ""

    def do_take(self, wish):
        return "" if self.world.take(wish.get("station")) else "no plate is there"

    def do_operator(self, wish):
        action, argument = wish.get("action"), str(wish.get("argument"))
        known = {"stop": MACHINES, "repair": MACHINES, "clear": PLACES, "expect": [str(plate) for plate in self.book.quarantine]}
        if argument not in known.get(action, []):
            return "no such action, or about no such thing"
        if self.ended:
            return "the run has ended"
        self.ask_desk(action, argument)
        return ""

    def do_serve(self, wish):
        """Asks at once for all that a failed machine needs: to clear each plate that is booked there, and the repair. A run whose
        last plate is cleared ends in that round."""
        machine, row = wish.get("machine"), self.book.row
        if machine not in AXES or row is None or self.ended:
            return "no such machine, nothing is booked, or the run has ended"
        for place in OWN[machine]:
            if row[0][PLACES.index(place)]:
                self.ask_desk("clear", place)
        self.ask_desk("repair", machine)
        return ""

    def do_pace(self, wish):
        pace = wish.get("pace")
        if type(pace) not in (int, float) or not 0.05 <= pace <= 1000:
            return "the pace is a number from 0.05 to 1000"
        self.pace = pace
        return ""

    def do_pause(self, wish):
        self.paused = bool(wish.get("on"))
        return ""

    # The protocol.

    def let_time_go_by(self, began):
        """Waits for the round's end by the pace that is set, which may change meanwhile."""
        with self.lock:
            while True:
                left = began + STEP / self.pace - time.monotonic()
                if not self.paused and left <= 0:
                    return
                self.lock.wait(None if self.paused else left)

    def next_round(self):
        """The next round, unless the run is over: then why it is."""
        with self.lock:
            self.world.move()
            self.world.watch()
            why = self.ending()
            if not why:
                self.send_desk()
                self.world.show()
                self.change()
        return why

    def ending(self):
        return ""  # the controller ends its runs

    def obey(self, word, first, second):
        with self.lock:
            if word == "sync":
                self.forget_unanswered()
                say("synced", first)
                self.world.show()
            elif word in ("booked", "refused"):
                self.hear_desk(word, first, second)
            elif word:
                say(self.world.command(word, first, second))
                self.world.watch()
        return ""

    def forget_unanswered(self):
        """What the controller that is gone left without an answer, nobody answers any more."""
        for item in self.sent:
            item["words"] = "the controller was gone before it answered: ask again"
        self.sent = []

    def hear(self):
        """Notes that the controller spoke."""
        with self.lock:
            if self.is_gone():
                self.back = time.monotonic()
            self.begun, self.waiting = True, False

    def lines(self):
        """The controller's lines, while it isn't at its end."""
        while True:
            sys.stdout.flush()
            with self.lock:
                self.heard, self.waiting = time.monotonic(), True
            line = sys.stdin.readline()
            self.hear()
            if not line or line.startswith("quit"):
                return
            yield (line.strip() + ",,,").split(",")[:3]

    def speak(self):
        """The cell's half of the protocol, to its end."""
        try:
            say("drive", 1, self.world.planned)
            self.world.show()
            self.why = self.run() or "quit"
            self.say_end(self.why)
            sys.stdout.flush()
        except BrokenPipeError:
            self.why = self.why or "quit"  # what is at the other end is gone
        with self.lock:
            self.ended = True
            self.change()

    def run(self):
        """Obeys until the lines end, or until the run is over: then why it is."""
        began = time.monotonic()
        for word, first, second in self.lines():
            if word == "done":
                self.let_time_go_by(began)
                began = time.monotonic()
                why = self.next_round()
            else:
                why = self.obey(word, first, second)
            if why:
                return why
        return ""

    def say_end(self, why):
        say("end", why)

    def keep_book(self):
        """Reads the journal on whenever it is longer, looks whether the controller is gone, and ends when who started this has."""
        parent = os.getppid()
        gone = ended = False
        while os.getppid() == parent:
            time.sleep(0.05)
            read = self.book.read_on() if self.book.is_longer() else None
            with self.lock:
                self.lasting()
                if read:
                    self.book.take(*read)
                if read or self.is_gone() != gone or (self.ended and ended < 20):
                    gone, ended = self.is_gone(), ended + self.ended
                    self.change()
            self.explain_refusals()
        os._exit(1)


class Driven(Live):
    """The cell under a control method of someone else, which sends bare commands as with `cellctl drive --raw`. Nothing is booked,
    and nobody refuses a command that breaks a rule."""

    def __init__(self, options):
        super().__init__(options)
        self.commands = collections.deque(maxlen=40)  # of each: its number, the answer and the line
        self.count, self.in_round, self.stays = 0, 0, False

    def ending(self):
        self.in_round = 0
        return "finished" if self.world.is_done() and not self.stays else ""

    def obey(self, word, first, second):
        if word in ("", "sync", "booked", "refused"):
            return super().obey(word, first, second)
        with self.lock:
            answer = "ok" if word == "stay" else self.world.command(word, first, second)
            self.stays = self.stays or word == "stay"
            self.world.watch()
            say(answer)
            self.count, self.in_round = self.count + 1, self.in_round + 1
            self.commands.append([self.count, answer, f"{word},{first},{second},"[:80]])
        return "too many lines" if self.in_round >= LINES else ""

    def say_end(self, why):
        """The lines that `cellctl drive` writes at the end, but for those of a book and of times. Then the method sees their end."""
        counts, broken = self.world.counts, self.world.broken
        say("end", why)
        for word, number in (("admitted", counts["laid"]), ("forged", counts["forged"]), ("quarantined", counts["cleared"]),
                             ("delivered", counts["delivered"]), ("rounds", self.world.round), ("commands", self.count),
                             ("broken", sum(broken.values())), *((f"broken {rule}", broken[rule]) for rule in broken),
                             ("lost", counts["lost"])):
            print(word, number)
        sys.stdout.flush()
        os.dup2(os.open(os.devnull, os.O_WRONLY), sys.stdout.fileno())

    def snapshot(self):
        return {**super().snapshot(), "method": self.options.method, "why": self.why, "entries": self.count,
                "lines": list(self.commands)}

    def do_operator(self, _):
        return "there is no desk, since nothing is booked here"

    do_serve = do_operator


def cut(text, begin, end):
    """What stands in the program's page from one text to another one."""
    at = text.find(begin)
    until = text.find(end, at + 1)
    if at < 0 or until < 0:
        sys.exit(f"live: the program's page hasn't {begin!r} and {end!r}")
    return text[at:until]


def make_page(names, page):
    """The page: live.html with the drawing, its style and its functions as the program writes them."""
    own = (HERE / "live.html").read_text(encoding="utf-8")
    parts = {"/*COLOURS*/": cut(page, ":root {", "* { box-sizing"),
             "/*DRAWN*/": cut(page, "/* The drawing. */", "/* The spans. */"),
             "<!--CELL-->": cut(page, '<svg id="cell"', "</svg>") + "</svg>",
             "/*JOURNAL*/null": json.dumps(names),
             "/*FUNCTIONS*/": cut(page, "  const { machines, stations,", "  // The spans: rows of bars"),
             "/*PARTS*/null": json.dumps({"machines": MACHINES, "axes": NAMES, "stations": PLACES, "kinds": KINDS,
                                          "counted": COUNTED, "axesOf": AXES, "own": OWN})}
    for mark, part in parts.items():
        if own.count(mark) != 1:
            sys.exit(f"live: live.html hasn't {mark!r} once")
        own = own.replace(mark, part)
    return own.encode()


class Handler(http.server.BaseHTTPRequestHandler):
    """Serves the page, its events, the state as text, and what a click asks for, to this machine alone."""

    live = None
    protocol_version = "HTTP/1.1"

    def log_message(self, *_):
        pass

    def answer(self, status, kind, body):
        self.send_response(status)
        self.send_header("Content-Type", kind)
        self.send_header("Content-Length", str(len(body)))
        self.send_header("Cache-Control", "no-store")
        self.send_header("X-Content-Type-Options", "nosniff")
        self.end_headers()
        self.wfile.write(body)

    def tell(self, status, data):
        self.answer(status, "application/json", json.dumps(data).encode())

    def is_own(self):
        """Whether the request is of a page of this server: no page from elsewhere may break the cell."""
        hosts = [f"{name}:{self.server.server_port}" for name in ("127.0.0.1", "localhost")]
        origin = self.headers.get("Origin")
        return self.headers.get("Host") in hosts and (origin is None or origin in [f"http://{host}" for host in hosts])

    def do_GET(self):
        if not self.is_own():
            self.tell(403, {"error": "not from here"})
        elif self.path == "/":
            self.answer(200, "text/html; charset=utf-8", self.live.page)
        elif self.path == "/state":
            with self.live.lock:
                data = self.live.snapshot()
            self.tell(200, data)
        elif self.path == "/events":
            self.send_events()
        else:
            self.tell(404, {"error": "nothing is there"})

    def do_POST(self):
        size = self.headers.get("Content-Length", "")
        if not self.is_own() or self.headers.get("Content-Type") != "application/json" or not size.isdigit() or int(size) > 1000:
            self.close_connection = True
            self.tell(403, {"error": "not from here, or not as the page asks"})
            return
        try:
            wish = json.loads(self.rfile.read(int(size)))
        except ValueError:
            wish = None
        if self.path != "/do" or not isinstance(wish, dict):
            self.tell(400, {"error": "unreadable"})
            return
        with self.live.lock:
            error = self.live.do(wish)
        self.tell(400 if error else 200, {"error": error} if error else {"done": True})

    def send_events(self):
        """Sends what is so at most 30 times a second, as often as it changes, and at least every five seconds."""
        self.close_connection = True
        self.send_response(200)
        self.send_header("Content-Type", "text/event-stream")
        self.send_header("Cache-Control", "no-store")
        self.end_headers()
        seen = -1
        try:
            while True:
                with self.live.lock:
                    self.live.lock.wait_for(lambda: self.live.version != seen, 5)
                    data = self.live.snapshot()
                seen = data["version"]
                self.wfile.write(b"data: " + json.dumps(data).encode() + b"\n\n")
                self.wfile.flush()
                time.sleep(1 / 30)
        except OSError:
            pass  # the reader is gone


class Server(http.server.ThreadingHTTPServer):
    daemon_threads = True

    def handle_error(self, request, address):
        pass  # a reader that leaves in the midst of an answer


def read_options():
    parser = argparse.ArgumentParser(description="A cell that people may touch on a page at 127.0.0.1. examples/live.sh starts it.")
    parser.add_argument("plates", type=int, help="how many plates are laid in")
    parser.add_argument("--port", type=int, default=8891, help="the page's port; 0 takes a free one")
    parser.add_argument("--journal", default="", help="the file that `cellctl control --journal` writes")
    parser.add_argument("--method", default="", help="the name of a method by commands that is at the other end, as with `drive --raw`")
    parser.add_argument("--program", default=str(HERE.parent.parent / "cellctl"), help="the program cellctl")
    parser.add_argument("--pace", type=float, default=1, help="how many times as fast as real time")
    parser.add_argument("--take", action="append", default=[], metavar="AXIS=SECONDS", help="how long an axis's motion takes")
    parser.add_argument("--resume", default="", help="the command that goes on with a run whose controller is gone")
    parser.add_argument("--told", default="", help="the file with what the controller says on standard error")
    parser.add_argument("--address", default="", help="the file in which the page's address is written")
    options = parser.parse_args()
    options.seconds = dict(SECONDS)
    for text in options.take:
        axis, _, seconds = text.partition("=")
        if axis not in SECONDS:
            parser.error(f"{axis!r} is no axis: {', '.join(SECONDS)}")
        if not seconds.replace(".", "", 1).isdecimal():
            parser.error(f"{text!r} doesn't end in a number of seconds")
        options.seconds[axis] = float(seconds)
    return options


def main():
    options = read_options()
    try:
        server = Server(("127.0.0.1", options.port), Handler)
    except OSError as error:
        print(f"live: port {options.port} is taken, or can't be used: {error.strerror}", file=sys.stderr)
        sys.exit(2)
    sys.stdin.reconfigure(errors="replace")
    Handler.live = live = (Driven if options.method else Live)(options)
    address = f"http://127.0.0.1:{server.server_port}/"
    if options.address:
        pathlib.Path(options.address).write_text(address + "\n", encoding="utf-8")
    else:
        print(address, file=sys.stderr)
    threading.Thread(target=live.keep_book, daemon=True).start()
    threading.Thread(target=live.speak, daemon=True).start()
    try:
        server.serve_forever()
    except KeyboardInterrupt:
        pass


if __name__ == "__main__":
    main()
