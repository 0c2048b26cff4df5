#!/usr/bin/env python3
"""Proves the libraries that cellctl stands on, as many side by side as there are processors and memory, and then proves and
builds the program over them. It says how far it is. What is proved already is not proved again. With names of crates it
proves these and those below them.

Usage: checks/prove.py [CRATE..]"""

import os
import shutil
import sys
import tempfile

sys.dont_write_bytecode = True
import rooms


def keep(origin, target):
    """Moves a folder to another place, in place of what is there."""
    if os.path.isdir(origin):
        shutil.rmtree(target, ignore_errors=True)
        os.makedirs(os.path.dirname(target), exist_ok=True)
        shutil.move(origin, target)


def prove(crates, name, jobs, place):
    """Proves a crate in a room, over what rt kept of it, and brings back what was made. Returns whether it was proved, and
    what rt said."""
    room, own = f"{place}/{name}", f"{rooms.TREE}/crates/{name}/out"
    folder = f"{room}/crates/{name}"
    rooms.open_room(room, crates, [name])
    parts = [it for it in ("incremental", "rlib") if os.path.isdir(f"{own}/{it}")]
    for part in parts:
        keep(f"{own}/{part}", f"{folder}/out/{part}")
    is_program = os.path.isfile(f"{folder}/src/main.rt")
    words = ["rt", "run" if is_program else "lib", "--jobs", str(jobs), *(["--", "--help"] if is_program else [])]
    try:
        status, said = rooms.run(words, folder)
    finally:
        for part in ("incremental", "rlib"):
            keep(f"{folder}/out/{part}", f"{own}/{part}")
    if is_program and not status:
        shutil.copy(f"{folder}/out/{name}", f"{own}/{name}.new")
        os.replace(f"{own}/{name}.new", f"{own}/{name}")
    shutil.rmtree(room, ignore_errors=True)
    return not status, said


def prove_all(names):
    """Proves these crates and those below them, and returns whether all were proved."""
    crates = rooms.read_crates()
    wanted = {below for it in names for below in [*rooms.all_below(crates, it), it]}
    needed = {it: below for it, below in crates.items() if it in wanted}
    clock, done = rooms.Clock(), []
    chains = rooms.longest_chains(needed, {it: rooms.lines_of(it) for it in needed})
    print(f"cellctl: {len(needed)} crates are proved, once", flush=True)
    with tempfile.TemporaryDirectory(prefix="rooms-") as place:

        def task(name, jobs):
            is_proved, said = prove(crates, name, jobs, place)
            if not is_proved:
                print(*said.rstrip("\n").split("\n")[-5:], f"cellctl: {name} was not proved", sep="\n", flush=True)
                return None
            done.append(name)
            print(f"cellctl: {len(done)} of {len(needed)} proved, after {clock}: {name}", flush=True)
            return True

        tasks = {it: (below, chains[it], lambda jobs, name=it: task(name, jobs)) for it, below in needed.items()}
        given = rooms.in_lanes(tasks, rooms.lanes())
    return len(given) == len(needed) and all(given.values())


if __name__ == "__main__":
    with rooms.alone():
        sys.exit(0 if prove_all(sys.argv[1:] or ["cellctl"]) else 1)
