#!/usr/bin/env python3
"""Compares methods of control over the same faults. From the repository's top:

    examples/methods/compare.py [OPTION..] raw:examples/methods/careful.py examples/methods/guarded.py

A METHOD is a program that reads and writes the lines of `cellctl drive`; with `raw:` before it, one by commands. Each runs
six plates without a fault, and then with each fault that `cellctl sweep` goes through: every kind in the first N motions of
every axis, 3 where no number is given. The first column is the project's own method, by the lines of that sweep and, for
what they don't tell, by `cellctl sim --measures`. Nobody repairs anything. The options:

    --motions N     so many motions of each axis
    --only METHOD   this method alone, by its name in the table or by its path; may be given several times
    --csv           CSV in place of the table: a row for each run, the one without a fault first
    --seconds N     a method that owes a line, or its end, for so long is ended, 60 where no number is given; the table
                    counts such runs in a row `silent`, and in CSV that is their end
"""
import argparse
import concurrent.futures
import contextlib
import csv
import os
import re
import signal
import statistics
import subprocess
import sys
import tempfile
import threading
import time

CELLCTL = os.environ.get("CELLCTL", "./cellctl")
COUNTS = ["delivered", "lost", "rounds", "broken", "refused"]
COLUMNS = ["method", "fault", "end", "delivered", "lost", "broken", "rule", "round", "command", "untrue", "rounds"]
SETTINGS = "plates = 6\nturns = 2000\n"
SECONDS = 60        # so long a method may owe a line, or its end
SILENT = "silent"   # the end of a run whose method owed one longer


def words(text):
    """The end of a run and its counts, by the lines that tell them."""
    told = {}
    for line in text.splitlines():
        if line.startswith("end,"):
            told["end"] = line.split(",")[1]
        elif line.startswith("time journal time "):
            told["least time"] = int(line.split()[3])
        elif line.count(" ") == 1 and line.split()[1].isdigit():
            told[line.split()[0]] = int(line.split()[1])
        else:
            told.setdefault("end", line)
    return told


def sweep(motions, texts):
    """What the sweep tells of the project's own method: a row for each fault."""
    told = subprocess.run([CELLCTL, "sweep", "--csv", "--motions", motions, *texts], stdout=subprocess.PIPE, text=True).stdout
    return list(csv.DictReader(told.splitlines()))


def script_of(row):
    """The script with the fault of a row."""
    kind, _, readings = row["kind"].partition(":")
    return f"{row['axis']},{row['motion']},{kind},{readings}\n"


def first_broken(text):
    """The safety rule that was broken first, with its round and command, by the lines of `cellctl drive --explain`."""
    found = re.findall(r"^([A-Z]\w*) in round (\d+): (.*)$", text, re.MULTILINE)
    return dict(zip(["rule", "round", "command"], min(found, key=lambda one: int(one[1])))) if found else {}


class Passage(threading.Thread):
    """Passes on what a method writes to the cell, and keeps when its last line came that isn't blank."""

    def __init__(self, method, cell):
        super().__init__(daemon=True)
        self.method, self.cell, self.last = method, cell, time.monotonic()

    def run(self):
        has_begun = False   # a line that isn't blank
        with contextlib.suppress(BrokenPipeError), self.method, self.cell:
            while data := os.read(self.method.fileno(), 65536):
                lines, feed, begun = data.rpartition(b"\n")
                if feed and (has_begun or lines.strip(b"\r\n")):
                    self.last = time.monotonic()
                has_begun = bool(begun.strip(b"\r")) or (has_begun and not feed)
                while data:
                    data = data[os.write(self.cell.fileno(), data):]


def talk(cell, method, seconds):
    """What a method and the cell say on standard error until both have ended. Where the method owes a line, or its end, for so
    many seconds, both are ended, and `TimeoutError` is raised."""
    def left():
        rest = passage.last + seconds - time.monotonic()
        if rest <= 0:
            raise TimeoutError
        return rest

    def read(pipe):
        said[pipe] = pipe.read().decode(errors="replace")
    said = {pipe: "" for pipe in (method.stderr, cell.stderr)}
    passage = Passage(method.stdout, cell.stdin)
    threads = [passage, *(threading.Thread(target=read, args=[pipe], daemon=True) for pipe in said if pipe)]
    for thread in threads:
        thread.start()
    try:
        for thread in threads:
            while thread.is_alive():
                thread.join(left())
        for process in (method, cell):
            while process.poll() is None:
                with contextlib.suppress(subprocess.TimeoutExpired):
                    process.wait(left())
    except TimeoutError:
        with contextlib.suppress(ProcessLookupError):
            os.killpg(method.pid, signal.SIGKILL)   # with all that it started
        cell.kill()
        for thread in threads:
            thread.join(1)
        raise
    return said.values()


def run(method, texts, seconds=SECONDS, explains=False):
    """Runs a method, or the project's own, and gives what was told of the run; where asked, of others also which rule was
    broken first."""
    if method is None:
        return words(subprocess.run([CELLCTL, "sim", "--measures", *texts], stdout=subprocess.PIPE, text=True).stdout)
    options = ["--raw"] * method.startswith("raw:") + ["--explain"] * explains
    pipe = subprocess.PIPE
    with subprocess.Popen([CELLCTL, "drive", *options, *texts], bufsize=0, stdin=pipe, stdout=pipe,
                          stderr=pipe if explains else None) as cell, \
            subprocess.Popen([method.removeprefix("raw:")], bufsize=0, stdin=cell.stdout, stdout=pipe, stderr=pipe,
                             start_new_session=True) as other:
        cell.stdout.close()
        try:
            told, explained = talk(cell, other, seconds)
        except TimeoutError:
            return {"end": SILENT}
    return words(told) | first_broken(explained)


def mean_of(numbers):
    """The mean of numbers, if there are any."""
    return round(statistics.mean(numbers)) if numbers else "-"


def compare(method, folder, count, asked):
    """The runs of a method without a fault and with each of so many."""
    def one(number):
        told = run(method, (f"{folder}/settings", f"{folder}/{number}", "/dev/null"), asked.seconds, asked.csv)
        if number == 0 and told.get("end") == SILENT:
            print(f"{method} owed a line, or its end, for {asked.seconds:g} s in the run without a fault, and was ended",
                  file=sys.stderr)
        return told
    with concurrent.futures.ThreadPoolExecutor(os.cpu_count()) as pool:
        try:
            return list(pool.map(one, range(count + 1)))
        except KeyboardInterrupt:
            pool.shutdown(cancel_futures=True)
            raise


def silent(results):
    """The row that counts the runs of each method that were ended as silent, if there are any."""
    counts = [sum(one.get("end") == SILENT for one in runs) for runs in results]
    return [[SILENT, *counts]] if any(counts) else []


def table(names, results, count):
    """The rows of the table: a column for each method."""
    rows = [["", *names], ["without a fault"], ["end"] + [runs[0].get("end", "?") for runs in results]]
    rows += [[word] + [runs[0].get(word, 0) for runs in results] for word in COUNTS]
    rows += [["least time"] + [runs[0].get("least time", "-") for runs in results]]
    rows += [[f"with each of {count} single faults"]]
    rows += [["finished"] + [sum(one.get("end") == "finished" for one in runs[1:]) for runs in results]]
    rows += silent([runs[1:] for runs in results])
    for word in COUNTS:
        sums = [[one.get(word, 0) for one in runs[1:]] for runs in results]
        rows += [[word] + [round(statistics.mean(each)) if word == "rounds" else sum(each) for each in sums]]
    return rows + [["least time"] + [mean_of([one["least time"] for one in runs[1:] if "least time" in one]) for runs in results]]


def write_csv(names, scripts, results):
    """A row for each run: of the script without a fault first, and then of each."""
    rows = csv.writer(sys.stdout, lineterminator="\n")
    rows.writerow(COLUMNS)
    for name, runs in zip(names, results):
        for script, one in zip(scripts, runs):
            rows.writerow([name, script.rstrip("\n"), one.get("end", "?"), *(one.get(word, "") for word in COLUMNS[3:])])


def seconds_of(text):
    """A number of seconds above 0."""
    with contextlib.suppress(ValueError):
        if 0 < float(text) <= threading.TIMEOUT_MAX:
            return float(text)
    raise argparse.ArgumentTypeError(f"{text} is no number of seconds above 0")


def add_options(parser):
    """What this program and examples/results.py can be asked both."""
    parser.add_argument("--only", action="append", metavar="METHOD",
                        help="this method alone, by its name in the table or by its path; may be given several times")
    parser.add_argument("--csv", action="store_true",
                        help="CSV in place of tables: a row for each run, the one without a fault first")
    parser.add_argument("--seconds", type=seconds_of, default=SECONDS, metavar="N",
                        help=f"end a method that owes a line, or its end, for so long, and tell it as {SILENT} ({SECONDS})")
    parser.add_argument("methods", nargs="*", metavar="METHOD", help="a program, or raw: and a program by commands")


def chosen(parser, methods, only):
    """Of methods with their names those that are asked for alone, or else all. One that is asked for by its path alone comes
    behind the others."""
    wanted = set()
    for word in only or []:
        found = {one for one in methods if word in one}
        if not found and "/" in word:
            found = {(os.path.basename(word), word)}
        if not found:
            parser.error(f"--only {word}: there are {', '.join(name for name, _ in methods)}, or the path of another")
        wanted |= found
        methods = [*methods, *(found - set(methods))]
    return [one for one in methods if not only or one in wanted]


def main():
    parser = argparse.ArgumentParser(
        description="Compares methods of control over the same faults.",
        epilog="Example: examples/methods/compare.py --motions 1 --csv --only raw:examples/methods/careful.py")
    parser.add_argument("--motions", default="3", metavar="N", help="how many motions of each axis (3)")
    add_options(parser)
    asked = parser.parse_args()
    methods = chosen(parser, [("own", None), *((os.path.basename(method), method) for method in asked.methods)], asked.only)
    with tempfile.TemporaryDirectory() as folder:
        def write(name, text):
            with open(f"{folder}/{name}", "w") as file:
                file.write(text)
        write("settings", SETTINGS)
        swept = sweep(asked.motions, (f"{folder}/settings", "/dev/null"))
        scripts = ["", *map(script_of, swept)]
        for number, script in enumerate(scripts):
            write(number, script)
        results = [compare(method, folder, len(swept), asked) for _, method in methods]
    for (_, method), runs in zip(methods, results):
        if method is None:
            for one, row in zip(runs[1:], swept):
                one.update({"end": row["end"], "delivered": int(row["delivered"]), "least time": int(row["time"])})
    names = [name for name, _ in methods]
    if asked.csv:
        write_csv(names, scripts, results)
        return
    for row in table(names, results, len(swept)):
        print("".join(f"{cell:>14}" if column else f"{cell:<14}" for column, cell in enumerate(row)))


if __name__ == "__main__":
    main()
