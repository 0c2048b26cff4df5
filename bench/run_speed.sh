#!/bin/bash
# Times runs of the simulated cell with no faults, on threads (run) beside on one thread (sim): of seven runs of each, in
# turn, the least, the median and the most of the time, of the processors' time in all threads (user and system), and of
# the entries a second; and how many times as long the threads take, by the medians.
# Usage: bench/run_speed.sh [PLATES]     1,000 plates by default; CELLCTL names another program
set -eu
here=$(cd "$(dirname "$0")" && pwd)
cellctl=${CELLCTL:-$here/../crates/cellctl/out/cellctl}
plates=${1:-1000}
folder=$(mktemp -d)
trap 'rm -r "$folder"' EXIT
: > "$folder/none"
printf 'plates = %s\njournal_limit = 1000000\nturns = 10000000\n' "$plates" > "$folder/settings"
TIMEFORMAT='%3R %3U %3S'

# Runs the cell by a command.
simulate() {
    "$cellctl" "$@" "$folder/settings" "$folder/none" "$folder/none"
}

# The least, the median and the most of a command's times, in milliseconds: of the time (1), or of the processors' (2).
spread() {
    awk -v column="$2" '{ print (column == 1 ? $1 : $2 + $3) * 1000 }' "$folder/$1" | sort -n |
        awk '{ at[NR] = $1 } END { print at[1], at[int((NR + 1) / 2)], at[NR] }'
}

# Prints what a command took.
report() {
    entries=$(($(simulate "$1" --journal | wc -l) - 1))
    read -r least median most <<< "$(spread "$1" 1)"
    echo "$1: $entries entries; least, median and most of seven runs"
    echo "  time: $least, $median, $most ms"
    echo "  time of the processors: $(spread "$1" 2 | sed 's/ /, /g') ms"
    echo "  entries a second: $((entries * 1000 / most)), $((entries * 1000 / median)), $((entries * 1000 / least))"
}

# How many times as long the threads take.
compare() {
    read -r _ alone _ <<< "$(spread sim "$1")"
    read -r _ threads _ <<< "$(spread run "$1")"
    awk -v what="$2" -v threads="$threads" -v alone="$alone" 'BEGIN { printf "run takes %.1f times %s of sim\n", threads / alone, what }'
}

for command in sim run; do
    simulate "$command" > "$folder/printed" || { echo "$command doesn't finish" >&2; cat "$folder/printed" >&2; exit 1; }
done
for _ in 1 2 3 4 5 6 7; do
    for command in sim run; do
        { time simulate "$command" > /dev/null; } 2>> "$folder/$command"
    done
done
report sim
report run
compare 1 "the time"
compare 2 "the processors' time"
