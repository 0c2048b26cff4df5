#!/bin/sh
# Controls cells at the other end of two pipes, and looks at what came of each run: the simulated one, with single faults, with a
# controller that is killed and goes on, cells that lie, the plants of examples/plants, files and pipes that fail. Where python3 isn't
# there it says so and does nothing. Usage: checks/control.sh [--long] [--jobs N] [PART..]
# Build the program first: ./cellctl --prove does. CELLCTL names another one.
if ! command -v python3 > /dev/null; then
    echo "control: there is no python3 here, so no cell was controlled"
    exit 0
fi
exec python3 "$(dirname "$0")/control.py" "$@"
