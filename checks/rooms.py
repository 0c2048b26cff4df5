"""Rooms: folders in which rt works on one crate over libraries that are built already, so that crates are proved side by
side.

rt locks every crate below the one that it works on, so in one tree it proves one crate after another. A room has its own
copy of them: sources, and libraries as hard links where the file system has them. rt makes each library anew in a new
folder and writes none in place, so the tree's own stay as they are.
"""

import contextlib
import fcntl
import os
import shutil
import signal
import subprocess
import threading
import time

TREE = os.path.dirname(os.path.dirname(os.path.realpath(__file__)))
PARTS = ("src", "specs", "proofs")
# No check of a crate of this tree was seen to take more memory.
GREATEST_CHECK = 4_500_000_000


def read_crates(tree=TREE):
    """The crates of crates.txt, each with those of them that it names."""
    named = {}
    with open(f"{tree}/crates.txt", encoding="utf-8") as lines:
        for line in lines:
            name, colon, words = line.partition("#")[0].partition(":")
            if colon:
                named[name.split()[0]] = words.split()
    return {name: [it for it in words if it in named] for name, words in named.items()}


def all_below(crates, name):
    """The crates that one stands on, each after those that it stands on."""
    found = []
    for it in crates[name]:
        found += [below for below in [*all_below(crates, it), it] if below not in found]
    return found


def lines_of(name, tree=TREE):
    """The lines of a crate's sources."""
    count = 0
    for part in PARTS:
        for at, _, files in os.walk(f"{tree}/crates/{name}/{part}"):
            for file in files:
                with open(f"{at}/{file}", "rb") as text:
                    count += text.read().count(b"\n")
    return count


def longest_chains(crates, weight):
    """For each crate the weight of the longest chain of crates that begins with it and goes up."""
    above = {name: [it for it in crates if name in crates[it]] for name in crates}
    found = {}

    def chain(name):
        if name not in found:
            found[name] = weight[name] + max(map(chain, above[name]), default=0)
        return found[name]

    return {name: chain(name) for name in crates}


def lanes():
    """How many checks may run side by side: one a processor, as many as the free memory holds."""
    with open("/proc/meminfo", encoding="utf-8") as lines:
        free = next(1024 * int(it.split()[1]) for it in lines if it.startswith("MemAvailable"))
    return max(1, min(len(os.sched_getaffinity(0)), free // GREATEST_CHECK))


def link(origin, copy):
    """Copies a folder as hard links, or as files where there are none."""
    os.makedirs(os.path.dirname(copy), exist_ok=True)
    if subprocess.run(["cp", "-al", origin, copy], stderr=subprocess.DEVNULL).returncode:
        shutil.rmtree(copy, ignore_errors=True)
        subprocess.run(["cp", "-a", origin, copy], check=True)


def open_room(room, crates, names, tree=TREE):
    """Makes a room for crates, with the libraries below them. What rt kept of the crates themselves stays behind."""
    below = {it for name in names for it in all_below(crates, name)}
    os.makedirs(f"{room}/crates")
    with open(f"{tree}/crates.txt", encoding="utf-8") as lines:
        listed = [line for line in lines if line.partition(":")[0] in {*below, *names}]
    with open(f"{room}/crates.txt", "w", encoding="utf-8") as copy:
        copy.writelines(listed)
    for it in {*below, *names}:
        for part in PARTS:
            if os.path.isdir(f"{tree}/crates/{it}/{part}"):
                shutil.copytree(f"{tree}/crates/{it}/{part}", f"{room}/crates/{it}/{part}")
    for it in below:
        link(f"{tree}/crates/{it}/out/rlib", f"{room}/crates/{it}/out/rlib")


def in_lanes(tasks, count, most=4):
    """Runs tasks side by side, and returns what each gave. A task is a name, the names of those that it waits for, its rank
    and a call that is given how many processors it may use, at most so many; of those that may begin the one with the highest
    rank begins. None begins once one has given None."""
    given, running, turn, left = {}, {}, threading.Condition(), dict(tasks)

    def work(name, call, jobs):
        result = None
        try:
            result = call(jobs)
        finally:
            with turn:
                given[name] = result
                del running[name]
                turn.notify_all()

    with turn:
        try:
            while (left or running) and None not in given.values():
                ready = [it for it in left if all(below in given for below in left[it][0])]
                ready.sort(key=lambda it: -left[it][1])
                for at, name in enumerate(ready):
                    idle = count - sum(running.values())
                    if idle > 0:
                        # What most others wait for gets two processors at least, where there are two.
                        running[name] = min(most, idle, max(1 if at else 2, idle // (len(ready) - at)))
                        threading.Thread(target=work, args=(name, left.pop(name)[2], running[name])).start()
                turn.wait()
        finally:
            while running:
                turn.wait()
    return given


STARTED = set()


def run(words, folder):
    """Runs a command in a folder, and returns its status and what it said. It is ended where this program is."""
    how = {"stdin": subprocess.DEVNULL, "stdout": subprocess.PIPE, "stderr": subprocess.STDOUT, "errors": "replace"}
    with subprocess.Popen(words, cwd=folder, **how) as started:
        STARTED.add(started)
        said = started.communicate()[0]
        STARTED.discard(started)
    return started.returncode, said


@contextlib.contextmanager
def alone(tree=TREE):
    """Waits until no other call of this works in the tree. Where this one is ended, it first ends what it started, so that
    what rt kept gets back to its place."""

    def end(*_):
        for it in (signal.SIGINT, signal.SIGTERM):
            signal.signal(it, signal.SIG_IGN)
        for started in [*STARTED]:
            started.terminate()
        raise KeyboardInterrupt

    for it in (signal.SIGINT, signal.SIGTERM):
        signal.signal(it, end)
    with open(f"{tree}/crates.txt", encoding="utf-8") as held:
        fcntl.flock(held, fcntl.LOCK_EX)
        yield


class Clock:
    """Minutes since it was made."""

    def __init__(self):
        self.start = time.monotonic()

    def __str__(self):
        return f"{(time.monotonic() - self.start) / 60:.1f} min"
