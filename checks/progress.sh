#!/usr/bin/env bash
# Leaves out two rules on which it rests that forging goes on, each in a copy of the sources, in the definition and in the code,
# and has the prover refuse the laws. An edit can't do that, since laws have empty bodies. docs/PROGRESS.md tells of both.
#   router   the router doesn't ask whether a press is healthy
#   zone     an empty press in the middle keeps its zone
# What stands below cell_progress has to prove as before, and cell_progress not. It takes the command `rt` and some ten minutes.
# Usage: checks/progress.sh [router | zone]     without a word both; it says by which lemma each is refused
set -euo pipefail
here=$(cd "$(dirname "$0")/.." && pwd)
work=$(mktemp -d)
trap 'rm -rf "$work"' EXIT

# Replaces a text that stands once in a file of the copy.
leave_out() {
    python3 - "$copy/crates/$1" "$2" "$3" << 'END'
import sys

path, old, new = sys.argv[1:]
with open(path, encoding="utf-8") as file:
    text = file.read()
if text.count(old) != 1:
    sys.exit(f"progress: {path} doesn't have once: {old}")
with open(path, "w", encoding="utf-8") as file:
    file.write(text.replace(old, new))
END
}

router() {
    leave_out cell_machines/specs/Router.antt 'not (c.failed m) && (not (c.occupied s) && (rests_at' 'not (c.occupied s) && ((rests_at'
    leave_out cell_machines/src/router.rt '!cell.is_failed(press)
        && !cell.is_occupied' '!cell.is_occupied'
}

zone() {
    leave_out cell_machines/specs/Presses.antt 'is_done c axis.PressOne station.Press1 || is_waiting c axis.PressOne
    station.Press1' 'is_done c axis.PressOne station.Press1'
    leave_out cell_machines/specs/Presses.antt 'is_done c axis.PressTwo station.Press2 || is_waiting c axis.PressTwo
    station.Press2' 'is_done c axis.PressTwo station.Press2'
    leave_out cell_machines/src/presses.rt 'is_done($cell, $axis, $station) || is_waiting($cell, $axis, $station)' 'is_done($cell, $axis, $station)'
}

# Proves a crate of the copy, and tells what was said if it isn't proved.
prove() {
    (cd "$copy/crates/$1" && rt check --jobs 1) > "$work/said" 2>&1
}

failed=0
for rule in "${@:-router zone}"; do
    for rule in $rule; do
        copy=$work/$rule
        mkdir "$copy"
        tar -C "$here" --exclude=out --exclude=must-fail -cf - HANDLES KIT crates crates.txt | tar -C "$copy" -xf -
        "$rule"
        if ! prove cell_useful; then
            echo "progress: $rule: what stands below doesn't prove:"
            tail -n 20 "$work/said"
            failed=1
        elif prove cell_progress; then
            echo "progress: $rule: left out, and the laws are proved all the same"
            failed=1
        else
            grep ' error: ' "$work/said" > "$work/errors" || true
            refused=$(grep -o 'error: `[a-z_]*`\|(in `[a-z_]*`)' "$work/errors" | sed 's/[^`]*`//; s/`.*//' | sort -u | paste -sd ' ' -)
            if [ -z "$refused" ]; then
                echo "progress: $rule: left out, and the laws aren't proved, but no lemma is named:"
                tail -n 20 "$work/said"
                failed=1
            else
                echo "progress: $rule: refused by $refused"
            fi
        fi
    done
done
exit $failed
