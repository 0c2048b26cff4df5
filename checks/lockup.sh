#!/usr/bin/env bash
# Plants a lock-up and has it found: in a copy of the sources the router doesn't ask whether a press is healthy, and the program
# that is made of the copy explores one plate and a first press that may fail. docs/EXPLORING.md shows what it prints.
# Nothing is proved of the copy; it is compiled anew, which takes the command `rt` and a minute or more each time.
# Usage: checks/lockup.sh [--journal]     prints the counts, or the shortest journal to a stuck state
set -euo pipefail
here=$(cd "$(dirname "$0")/.." && pwd)
copy=$(mktemp -d)
trap 'rm -r "$copy"' EXIT
tar -C "$here" --exclude=out -cf - HANDLES KIT cellctl crates crates.txt | tar -C "$copy" -xf -
router=$copy/crates/cell_machines/src/router.rt
sed -i '/fn is_ready/,/^}/s/!cell\.is_failed(press)/true/' "$router"
if cmp -s "$router" "$here/crates/cell_machines/src/router.rt"; then
    echo "lockup: the rule to be left out doesn't stand there" >&2
    exit 1
fi
status=0
"$copy/cellctl" --unproved explore --fail press1 "$@" 1 || status=$?
if [ "$status" != 1 ]; then
    echo "lockup: status $status, and 1 is due, since the cell can be stuck" >&2
    exit 1
fi
