"""The parts of a check, one after another, with how many looks each took and how many of them were otherwise."""
import time


def run_parts(check, parts, names, failed, looks):
    """All parts, or those that are named. `failed` has what was otherwise so far, `looks` tells how many looks there were. Answers
    the status."""
    for name, part in parts.items():
        if names and name not in names:
            continue
        begun, before, seen = time.time(), len(failed), looks()
        said = part()
        took = time.time() - begun
        print(f"{check}: {name}: {said}: {looks() - seen} looks, {len(failed) - before} otherwise, {took:.1f} s", flush=True)
    return 1 if failed else 0
