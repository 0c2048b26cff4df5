#!/bin/sh
# Times a run of the simulated cell with no faults: the least of five runs, the rounds and the entries a second, and the
# memory. The rounds are the least number of turns with which the run finishes, found by halving. Where valgrind is there, it
# also says whose the instructions are.
# Usage: bench/sim.sh [PLATES]     10,000 plates by default
set -eu
here=$(cd "$(dirname "$0")" && pwd)
cellctl=${CELLCTL:-$here/../crates/cellctl/out/cellctl}
plates=${1:-10000}
folder=$(mktemp -d)
trap 'rm -r "$folder"' EXIT
: > "$folder/none"

# Writes settings with so many turns.
settings() {
    printf 'plates = %s\njournal_limit = 1000000\nturns = %s\n' "$plates" "$1" > "$folder/settings"
}

run() {
    "$cellctl" sim "$@" "$folder/settings" "$folder/none" "$folder/none"
}

settings 10000000
run || { echo "the run doesn't finish" >&2; exit 1; }
entries=$(($(run --journal | wc -l) - 1))
best=
for _ in 1 2 3 4 5; do
    start=$(date +%s%N)
    run > /dev/null
    took=$(($(date +%s%N) - start))
    if [ -z "$best" ] || [ "$took" -lt "$best" ]; then best=$took; fi
done
low=0
high=10000000
while [ $((high - low)) -gt 1 ]; do
    turns=$(((low + high) / 2))
    settings "$turns"
    if run > /dev/null; then high=$turns; else low=$turns; fi
done
settings 10000000
echo "$entries entries in $high rounds: $((best / 1000)) microseconds"
echo "$((high * 1000000000 / best)) rounds and $((entries * 1000000000 / best)) entries a second"
if [ -x /usr/bin/time ]; then
    /usr/bin/time -f 'peak memory: %M kB' "$cellctl" sim "$folder/settings" "$folder/none" "$folder/none" > /dev/null
fi
if command -v valgrind > /dev/null && command -v callgrind_annotate > /dev/null; then
    valgrind --tool=callgrind --callgrind-out-file="$folder/counts" "$cellctl" sim "$folder/settings" "$folder/none" "$folder/none" > /dev/null 2>&1
    callgrind_annotate "$folder/counts" | awk -v entries="$entries" '
        /%\)/ { count = $1; gsub(",", "", count); count = int(count / entries) }
        /PROGRAM TOTALS/ { print "instructions an entry: " count; next }
        /%\)/ && count >= 50 { sub(/^.*%\) *[^ :]*:/, ""); sub(/::<.*/, ""); sub(/ \[.*/, ""); print "  " count " in " $0 }'
fi
