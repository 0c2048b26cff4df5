#!/bin/bash
# Opens the page of a journal in a headless browser: looks whether what is drawn of many entries is what the page's data say,
# who waits and whether what stands in the way is outlined, whether an arm that is out ends on a plate's place and each
# entry's change is marked; tries slider, keys, buttons, play, spans, clicks, the list of failures, search and Tab; looks for
# controls that move, parts of the drawing that are hard to hit, texts that are cut or lie over others, colours that are too
# alike, what isn't on one screen, and requests to elsewhere; tells how long the page takes, and takes pictures of it. It fails
# where something is otherwise. It needs node, and chromium or what CHROMIUM names.
# Usage: checks/page.sh [PAGE [PICTURES]]     PAGE is a file of `cellctl show --html`, also with `--beside`; without one the page of
# examples/whole.journal is made. PICTURES is the folder for the pictures; without one they are thrown away. ENTRY is the
# entry that they show, by default the middle one.
set -u
here=$(cd "$(dirname "$0")/.." && pwd) || exit 1
work=$(mktemp -d)
trap 'rm -rf "$work"' EXIT
page=${1:-$work/page.html}
pictures=${2:-$work}
if [ $# -eq 0 ]; then
    "${CELLCTL:-$here/cellctl}" show --html < "$here/examples/whole.journal" > "$page" || exit 1
    export WAITS='29: next is "press 1: claims zone z3", but zone z3 is held by the robot'
fi
kind=page
if grep -q "^<iframe title=" "$page"; then kind=beside; fi
node "$here/checks/$kind.mjs" "$page" "$pictures"
