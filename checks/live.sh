#!/bin/sh
# Starts the cell of examples/live.sh on a free port, mostly at a fast pace, and asks of it over HTTP what a click asks for: press 2
# is broken in its first motion, and forging goes on; each kind of fault; the desk; readers of the events that come and leave; a
# controller that is killed and resumed; methods in its place; a port that is taken; requests from elsewhere. Where node is there,
# and chromium or what CHROMIUM names, the same by clicks and keys. It needs python3, and says so where that isn't there.
# Usage: checks/live.sh [--long] [PART..]     PICTURES is a folder for pictures of the page.
# Build the program first: ./cellctl --prove does. CELLCTL names another one.
if ! command -v python3 > /dev/null; then
    echo "live: there is no python3 here, so no cell was touched"
    exit 0
fi
exec python3 "$(dirname "$0")/live.py" "$@"
