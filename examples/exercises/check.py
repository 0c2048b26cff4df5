#!/usr/bin/env python3
"""Says whether an exercise is solved. From the repository's top:

    examples/exercises/check.py NUMBER [FILE]

FILE is the answer; where none is given it is the file `mine` with the ending of the exercise's starting file, in its folder. The
status is 0 if it is solved, else 1, and a line says what is missing. Exercise 6 has 43 runs, or with `--all` 127, and exercise 7
has 12, or with `--all` 217. A method that owes a line, or its end, for a minute is ended.
"""
import argparse
import concurrent.futures
import contextlib
import difflib
import os
import subprocess
import sys
import tempfile
from pathlib import Path

HERE = Path(__file__).resolve().parent
CELLCTL = os.environ.setdefault("CELLCTL", str(HERE.parents[1] / "cellctl"))
sys.path.insert(0, str(HERE.parent / "methods"))
import compare  # noqa: E402

EDITS = 6       # so many lines of the journal may be written anew
TAKEN_OVER = "press_one,4,no_motion,\n"   # the fault of the run that is taken over
ENDS = ["finished", "turn limit", "full", "quit", "too many lines", "memory"]     # of a run that a method drives


class Missing(Exception):
    """What is missing of a solution."""


def need(holds, what):
    if not holds:
        raise Missing(what)


def told(*words):
    """The lines that the program prints on standard output."""
    return subprocess.run([CELLCTL, *map(str, words)], stdout=subprocess.PIPE, text=True).stdout.splitlines()


def repair(folder, file, asked):
    answer = told("audit", file)
    need(answer[0].startswith("legal"), told("explain", file)[0])
    need({"forged 2", "delivered 2"} <= set(answer), f"two plates have to be forged and delivered, and there are: {', '.join(answer)}")
    changes = difflib.unified_diff(Path(folder, "start.journal").read_text().splitlines(), file.read_text().splitlines(), n=0)
    lines = [line[0] for line in changes if line[:3] not in ("---", "+++", "@@ ")]
    need(max(lines.count("+"), lines.count("-")) <= EDITS, f"more than {EDITS} lines differ from start.journal")


def serve(folder, file, asked):
    files = map(str, [folder / "cell.toml", folder / "given.faults", file])
    run = subprocess.run([CELLCTL, "sim", "--explain", *files], stdout=subprocess.PIPE, stderr=subprocess.PIPE, text=True)
    answer = run.stdout.splitlines()
    need(not answer[0].startswith("operator "), f"the script can't be read: {told('explain', '--operator', file)[0]}")
    need(answer[0] == "finished", f"the run ends with {answer[0]}, and sim --explain says:\n{run.stderr.rstrip()}")
    need("delivered 4" in answer, f"four plates have to be delivered, and there are: {', '.join(answer)}")


def find(folder, file, asked):
    need(sum(not line.isspace() for line in file.read_text().splitlines(True)) == 1, "the script has to have one line")
    given = Path(folder, "given.journal").read_text().splitlines()
    mine = told("sim", "--journal", folder / "cell.toml", file, "/dev/null")
    need(not mine[0].startswith("faults "), f"the script can't be read: {told('explain', '--faults', file)[0]}")
    for number, (wanted, have) in enumerate(zip([*given, "the end"], [*mine, "the end"]), 1):
        need(wanted == have, f'line {number} of given.journal is "{wanted}", and by this script it is "{have}"')


def drive(folder, method, faults="/dev/null"):
    """What the cell tells of a method by the settings of an exercise."""
    return compare.run(str(method), (str(folder / "cell.toml"), str(faults), "/dev/null"))


def need_told(run, when):
    """The method was there when the run ended: it copied what the cell told then. Else there is what it said first."""
    need(run.get("end") != compare.SILENT, f"{when} the method owed a line, or its end, for {compare.SECONDS} seconds")
    said = f'first it said "{run["end"].strip()}", and the commands of TASK.md show the rest' if "end" in run else "it said nothing"
    need(run.get("end") in ENDS, f"{when} the method broke off before the run's end: {said}")


def need_true(run, when):
    """Nothing untrue was booked in a run, and no safety rule was broken."""
    for word in ("untrue", "broken"):
        need(run[word] == 0, f"{when}: {word} {run[word]}, and it has to be 0; drive --explain says where")


def need_finished(run, plates):
    need_told(run, "without a fault")
    need(run["end"] == "finished", f"without a fault the run ends with {run['end']}, and {run['delivered']} plates are delivered")
    need(run["delivered"] == plates, f"{run['delivered']} of {plates} plates are delivered")
    need_true(run, "without a fault")


def one_press(folder, method, asked):
    need_finished(drive(folder, method), 3)


def journal_of(folder, method):
    """The journal of a method's run without a fault."""
    pipes = '"$1" drive --journal "$2" /dev/null /dev/null < "$0/lines" 2> "$0/journal" | "$3" > "$0/lines" 2> /dev/null'
    with tempfile.TemporaryDirectory() as work:
        os.mkfifo(f"{work}/lines")
        words = ["timeout", str(compare.SECONDS), "bash", "-c", pipes, work, CELLCTL, folder / "cell.toml", method]
        subprocess.run(words, stdout=subprocess.DEVNULL)
        return Path(work, "journal").read_text().splitlines()


def two_presses(folder, method, asked):
    need_finished(drive(folder, method), 6)
    forged = [line.split(",")[1] for line in journal_of(folder, method) if line.startswith("forged,")]
    counts = [forged.count(press) for press in ("press1", "press2")]
    need(min(counts) >= 2, f"press 1 forged {counts[0]} plates and press 2 {counts[1]}, and each has to forge two at least")


def need_five(run, when):
    """All plates but one are delivered."""
    need_told(run, when)
    need(run["delivered"] >= 5, f"{when} {run['delivered']} of 6 plates are delivered, and five have to be at least")
    need_true(run, when)


@contextlib.contextmanager
def named(text):
    """The name of a file with this text."""
    with tempfile.NamedTemporaryFile("w") as file:
        file.write(text)
        file.flush()
        yield file.name


def for_each(needed, things):
    """Asks what is needed of each thing, some side by side; the first that is missing is told."""
    with concurrent.futures.ThreadPoolExecutor(os.cpu_count()) as pool:
        runs = [pool.submit(needed, thing) for thing in things]
        try:
            for run in runs:
                run.result()
        finally:
            pool.shutdown(cancel_futures=True)


def a_press_fails(folder, method, asked):
    def needed(script):
        with named(script) as faults:
            need_five(drive(folder, method, faults), f'with the fault "{script.strip()}"')

    need_finished(drive(folder, method), 6)
    swept = compare.sweep("9" if asked.all else "3", (str(folder / "cell.toml"), "/dev/null"))
    for_each(needed, [compare.script_of(row) for row in swept if row["axis"].startswith("press")])


def take_over(folder, method, asked):
    """The method takes over after the given journal, and after others of the run of which that one has the first entries."""
    def needed(count):
        with named("\n".join(lines[:count + 1]) + "\n") as journal:
            run = compare.run(str(method), ("--from", journal, str(folder / "cell.toml"), "/dev/null", "/dev/null"))
        need_five(run, f"after {count} entries")

    with named(TAKEN_OVER) as faults:
        lines = told("sim", "--journal", folder / "cell.toml", faults, "/dev/null")
    given = len(Path(folder, "given.journal").read_text().splitlines()) - 1
    failed = next(count for count, line in enumerate(lines) if line.startswith("declared,"))
    needed(given)
    for_each(needed, range(failed, len(lines), 1 if asked.all else 20))


EXERCISES = [repair, serve, find, one_press, two_presses, a_press_fails, take_over]


def main():
    words = argparse.ArgumentParser(description="Says whether an exercise is solved.")
    words.add_argument("number", type=int, choices=range(1, len(EXERCISES) + 1), help="the exercise's number")
    words.add_argument("file", nargs="?", metavar="FILE", help="the answer; else the file mine in the exercise's folder")
    words.add_argument("--all", action="store_true", help="of exercise 6 every motion of a press, and not the first three; of exercise 7 every entry, and not each twentieth")
    asked = words.parse_args()
    folder = next(HERE.glob(f"{asked.number}_*"))
    start = next(folder.glob("start.*"))
    file = Path(asked.file).resolve() if asked.file else start.with_name("mine" + start.suffix)
    try:
        need(file.is_file(), f"there is no file {os.path.relpath(file)}" + ("" if asked.file else f"; copy {start.name} to it"))
        need(start.suffix != ".py" or os.access(file, os.X_OK), f"{file.name} can't be run: chmod +x makes it a program")
        EXERCISES[asked.number - 1](folder, file, asked)
    except Missing as missing:
        print(f"exercise {asked.number}: not yet: {missing}")
        sys.exit(1)
    print(f"exercise {asked.number}: solved")


if __name__ == "__main__":
    main()
