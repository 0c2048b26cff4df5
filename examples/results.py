#!/usr/bin/env python3
"""Makes the tables of docs/METHODS.md. From the repository's top:

    examples/results.py [OPTION..] [METHOD..]

runs the methods below, and those that are named, by the same settings: without a fault, and with each kind of fault in each
motion of each axis, alone. A METHOD is named as to examples/methods/compare.py. With `--quick` there are only the rows without
a fault, and seconds in place of minutes. The options `--only METHOD`, `--csv` and `--seconds N` are those of compare.py.
"""
import argparse
import csv
import datetime
import os
import platform
import statistics
import subprocess
import sys
import tempfile
from pathlib import Path

TOP = Path(__file__).resolve().parents[1]
os.environ.setdefault("CELLCTL", str(TOP / "cellctl"))
sys.path.insert(0, str(TOP / "examples" / "methods"))
import compare  # noqa: E402

METHODS = {"own": None,
           "careful.py": f"raw:{TOP}/examples/methods/careful.py",
           "guarded.py": f"{TOP}/examples/methods/guarded.py",
           "exercise 6": f"{TOP}/examples/exercises/6_a_press_fails/solution/solved.py"}
PLATES = 6
SUMS = ["delivered", "lost", "broken", "untrue", "refused"]


def faults(settings):
    """The single faults: each kind in each motion that an axis makes in a run without a fault."""
    told = subprocess.run([compare.CELLCTL, "sweep", "--csv", settings, "/dev/null"], stdout=subprocess.PIPE, text=True).stdout
    return list(csv.DictReader(told.splitlines()))


def results(methods, asked):
    """The scripts of the runs, the faults of all but the first, and the runs of each method."""
    with tempfile.TemporaryDirectory() as folder:
        settings = Path(folder, "settings")
        settings.write_text(compare.SETTINGS)
        rows = [] if asked.quick else faults(str(settings))
        scripts = ["", *map(compare.script_of, rows)]
        for number, script in enumerate(scripts):
            Path(folder, str(number)).write_text(script)
        return scripts, rows, [compare.compare(method, folder, len(rows), asked) for method in methods]


def row(*cells):
    return "|" + "|".join(map(str, cells)) + "|"


def without_faults(each):
    """The rows of the runs without a fault."""
    yield row("end", *(runs[0].get("end") for runs in each))
    for word in ["delivered", "rounds", "broken", "untrue", "refused", "least time"]:
        yield row(word, *(runs[0].get(word, "-") for runs in each))


def with_faults(faulty):
    """The rows of the runs with a fault: ends, sums and means."""
    yield row("finished", *(sum(run.get("end") == "finished" for run in runs) for runs in faulty))
    yield from (row(*cells) for cells in compare.silent(faulty))
    yield row("all plates but one, or all", *(sum(run.get("delivered", 0) >= PLATES - 1 for run in runs) for runs in faulty))
    for word in SUMS:
        yield row(word, *(sum(run.get(word, 0) for run in runs) if any(word in run for run in runs) else "-" for runs in faulty))
    yield row("rounds, mean", *(round(statistics.mean(run.get("rounds", 0) for run in runs)) for runs in faulty))


def by_axis(rows, faulty):
    """For each axis its faults, and how many plates were delivered in the mean."""
    for axis in dict.fromkeys(one["axis"] for one in rows):
        chosen = [number for number, one in enumerate(rows) if one["axis"] == axis]
        means = [statistics.mean(runs[number].get("delivered", 0) for number in chosen) for runs in faulty]
        yield row(f"`{axis}`", len(chosen), *(f"{mean:.1f}" for mean in means))


def processor():
    """What the system calls its processor."""
    lines = Path("/proc/cpuinfo").read_text().splitlines() if Path("/proc/cpuinfo").exists() else []
    return next((line.split(": ")[1] for line in lines if line.startswith("model name")), platform.machine())


def show(title, names, rows):
    print("", row(title, *names), "|---|" + "---:|" * len(names), *rows, sep="\n")


def main():
    parser = argparse.ArgumentParser(description="Makes the tables of docs/METHODS.md.",
                                     epilog="Example: examples/results.py --quick --csv --only careful.py --only guarded.py")
    parser.add_argument("--quick", action="store_true", help="only the rows without a fault")
    compare.add_options(parser)
    asked = parser.parse_args()
    methods = METHODS | {os.path.basename(method): method for method in asked.methods}
    methods = dict(compare.chosen(parser, list(methods.items()), asked.only))
    scripts, rows, each = results(methods.values(), asked)
    if asked.csv:
        compare.write_csv(methods, scripts, each)
        return
    faulty = [runs[1:] for runs in each]
    version = subprocess.run([compare.CELLCTL, "--version"], stdout=subprocess.PIPE, text=True).stdout.strip()
    print(f"Made on {datetime.date.today()} by {version}, on {os.cpu_count()} processors ({processor()}).")
    show("Without a fault", methods, without_faults(each))
    if rows:
        show(f"With each of {len(rows)} single faults", methods, with_faults(faulty))
        show("Delivered, mean", ["faults", *methods], by_axis(rows, faulty))


if __name__ == "__main__":
    main()
