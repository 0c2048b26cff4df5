#!/usr/bin/env python3
"""Times commands of the program beside others, in turn, and prints for each row the least time of nine of both, and how many
times as long the first takes; and what machine this is.

Usage: bench/beside.py [ROW..]     all rows but spin by default; CELLCTL names another program than the one that was built

  audit     audit beside audit_peer.rs, which judges byte by byte in plain Rust (needs rustc), 13,000 plates
  journal   sim --journal beside sim, 10,000 plates
  migrate   migrate beside audit of the same text, 13,000 plates
  run       run, on threads, beside sim, 1,000 plates
  plates    a sweep of 24 plates beside one of 6, and how many runs a second
  threads   a sweep of 6 plates on four threads beside one
  states    explore 4 on one thread and on four, and how many states a second, and how many bytes a state
  page      show --html of 20,000 entries
  spin      SPIN on examples/models/cell.pml beside explore, three plates (needs spin and gcc)"""

import os
import re
import shutil
import subprocess
import sys
import tempfile
import time

HERE = os.path.dirname(os.path.realpath(__file__))
PROGRAM = os.environ.get("CELLCTL", f"{HERE}/../crates/cellctl/out/cellctl")
TURNS = 9


def timed(words, given):
    """The seconds and the greatest memory, in kB, of one run, with a file as standard input."""
    with open(given, "rb") as text, tempfile.NamedTemporaryFile("r") as memory:
        start = time.perf_counter()
        subprocess.run(["/usr/bin/time", "-o", memory.name, "-f", "%M", *words], stdin=text, stdout=subprocess.DEVNULL)
        took = time.perf_counter() - start
        return took, int(memory.read().split()[-1])


def least(rows):
    """The least time and memory of each command, all of them run in turn."""
    best = [(float("inf"), 0)] * len(rows)
    for _ in range(TURNS):
        for at, (words, given) in enumerate(rows):
            best[at] = min(best[at], timed(words, given))
    return best


def tell(name, first, second, more=""):
    print(f"{name}: {first * 1000:.0f} ms beside {second * 1000:.0f} ms: {first / second:.2f} times{more}", flush=True)


class Bench:
    def __init__(self, folder):
        self.folder = folder

    def path(self, name, text):
        with open(f"{self.folder}/{name}", "w", encoding="utf-8") as file:
            file.write(text)
        return f"{self.folder}/{name}"

    def settings(self, plates):
        return self.path(f"{plates}.toml", f"plates = {plates}\njournal_limit = 1000000\nturns = 10000000\n")

    def run_words(self, command, plates, *flags):
        return [PROGRAM, command, *flags, self.settings(plates), "/dev/null", "/dev/null"], "/dev/null"

    def sweep_words(self, plates, *flags):
        settings = self.path(f"{plates}.sweep", f"plates = {plates}\n")
        return [PROGRAM, "sweep", "--csv", *flags, settings, "/dev/null"], "/dev/null"

    def journal(self, plates, profile):
        """A legal journal of so many plates, in the file of that profile."""
        words, _ = self.run_words("sim", plates, "--journal")
        text = subprocess.run(words, stdout=subprocess.PIPE, text=True, check=True).stdout
        return self.path(f"{plates}.{profile}", text.replace("profile,2,,", f"profile,{profile},,", 1))

    def audit(self):
        peer = f"{self.folder}/peer"
        if not shutil.which("rustc") or subprocess.run(["rustc", "--edition", "2021", "-C", "opt-level=3", "-o", peer, f"{HERE}/audit_peer.rs"]).returncode:
            return print("audit: no rustc builds audit_peer.rs")
        journal = self.journal(13000, 1)
        (own, _), (other, _) = least([([PROGRAM, "audit"], journal), ([peer], journal)])
        tell("audit, beside plain Rust", own, other)

    def journal_row(self):
        (told, _), (plain, _) = least([self.run_words("sim", 10000, "--journal"), self.run_words("sim", 10000)])
        tell("sim --journal, beside sim", told, plain)

    def migrate(self):
        journal = self.journal(13000, 1)
        (own, _), (audit, _) = least([([PROGRAM, "migrate"], journal), ([PROGRAM, "audit"], journal)])
        tell("migrate, beside audit", own, audit)

    def run(self):
        (threads, _), (rounds, _) = least([self.run_words("run", 1000), self.run_words("sim", 1000)])
        tell("run, beside sim", threads, rounds)

    def count_runs(self, plates):
        return subprocess.run(self.sweep_words(plates)[0], stdout=subprocess.PIPE, text=True, check=True).stdout.count("\n") - 1

    def plates(self):
        (many, _), (few, _) = least([self.sweep_words(24), self.sweep_words(6)])
        rates = f"; {self.count_runs(24) / many:.0f} and {self.count_runs(6) / few:.0f} runs a second"
        tell("sweep of 24 plates, beside 6", many, few, rates)

    def threads(self):
        (four, _), (one, _) = least([self.sweep_words(6, "--threads", "4"), self.sweep_words(6)])
        tell("sweep of 6 plates on four threads, beside one", four, one)

    def count_states(self, *words):
        said = subprocess.run([PROGRAM, "explore", *words], stdout=subprocess.PIPE, text=True, check=True).stdout
        return int(re.search(r"^states (\d+)$", said, re.MULTILINE)[1])

    def states(self):
        words = ["--limit", "10000000", "4"]
        states = self.count_states(*words)
        rows = least([([PROGRAM, "explore", "--threads", it, *words], "/dev/null") for it in ("1", "4")])
        for threads, (took, memory) in zip((1, 4), rows):
            each = f"{states / took / 1e6:.2f} million a second, {memory * 1024 / states:.0f} bytes a state"
            print(f"explore 4 on {threads}: {states} states in {took:.2f} s, {each}", flush=True)

    def page(self):
        with open(self.journal(300, 2), encoding="utf-8") as text:
            journal = self.path("page", "".join(text.readlines()[:20001]))
        (took, _), = least([([PROGRAM, "show", "--html", "--file", journal], "/dev/null")])
        print(f"show --html of 20,000 entries: {took * 1000:.0f} ms")

    def spin(self):
        if not shutil.which("spin"):
            return print("spin: isn't installed")
        model = f"{HERE}/../examples/models/cell.pml"
        made = ["spin", "-Pcc -E -x c", "-a", "-DPLATES=3", model], ["cc", "-O2", "-w", "-DSAFETY", "-DNOREDUCE", "-DBFS", "-o", "pan", "pan.c"]
        for words in made:
            subprocess.run(words, cwd=self.folder, stdout=subprocess.DEVNULL, check=True)
        searches = [([f"{self.folder}/pan", "-c0"], "/dev/null"), ([PROGRAM, "explore", "3"], "/dev/null")]
        (other, memory), (own, own_memory) = least(searches)
        tell("explore 3, beside SPIN", own, other, f"; {own_memory // 1000} and {memory // 1000} MB")


ROWS = {"audit": "audit", "journal": "journal_row", "migrate": "migrate", "run": "run", "plates": "plates",
    "threads": "threads", "states": "states", "page": "page", "spin": "spin"}


def machine():
    with open("/proc/cpuinfo", encoding="utf-8") as lines:
        name = next((it.partition(":")[2].strip() for it in lines if it.startswith("model name")), "unknown")
    return f"{os.cpu_count()} processors, {name}"


if __name__ == "__main__":
    print(machine())
    with tempfile.TemporaryDirectory() as place:
        for row in sys.argv[1:] or [it for it in ROWS if it != "spin"]:
            getattr(Bench(place), ROWS[row])()
